/* What replicas and askers share of NATS: connections, subjects and headers. */
#ifndef CONNECT_H
#define CONNECT_H

#include "words.h"
#include <nats/nats.h>

enum { MOST_LOG_NAME_BYTES = 32, MOST_SUBJECT_BYTES = 128, MOST_LOGIN_BYTES = 512 };

#define ID_HEADER "Mmdb-Id"
#define SINCE_HEADER "Mmdb-Since"
#define CONDITION_HEADER "Mmdb-Condition"
#define STATUS_HEADER "Mmdb-Status"
#define SEQUENCE_HEADER "Mmdb-Sequence"
#define REPLICA_HEADER "Mmdb-Replica"
#define AT_LEAST_HEADER "Mmdb-At-Least"
#define LOG_HEADER "Mmdb-Log"
#define CHAIN_HEADER "Mmdb-Chain"
#define CHAIN_SEQUENCE_HEADER "Mmdb-Chain-Sequence"
#define WAIT_HEADER "Mmdb-Wait"
#define COLUMNS_HEADER "Mmdb-Columns"
#define FORMAT_HEADER "Mmdb-Format"
#define CHECKED_HEADER "Mmdb-Checked"

/*
 * How to log in at the servers. A login file has lines "WORD VALUE", of which each may be left out:
 *
 *     user NAME
 *     password WORDS
 *     token WORDS
 *     credentials FILE       a file of a JWT and its seed
 *     nkey PUBLIC-KEY FILE   a public key, and the file of its seed
 *     ca FILE                certificates to trust; with this or "tls", connections are encrypted
 *     certificate FILE
 *     key FILE
 *     host NAME              the name that the certificate of the server must have
 *     tls
 */
struct login {
  char user[MOST_LOGIN_BYTES], password[MOST_LOGIN_BYTES], token[MOST_LOGIN_BYTES], credentials[MOST_LOGIN_BYTES];
  char nkey[MOST_LOGIN_BYTES], seed[MOST_LOGIN_BYTES], ca[MOST_LOGIN_BYTES], certificate[MOST_LOGIN_BYTES], key[MOST_LOGIN_BYTES];
  char host[MOST_LOGIN_BYTES];
  bool is_encrypted;
};

/* Reads a login file. Returns why it cannot, or NULL. Only the user that runs the program may have access to the file. */
const char *read_login(const char *path, struct login *login);

/* Reads the login file that an environment variable names. Without the variable, the login is empty. */
const char *read_login_of(const char *variable, struct login *login);

/* A connection in the making. closure is passed to on_error. */
struct connecting {
  const char *servers, *name, *inbox; /* addresses with commas between them; the name to tell; the prefix of own inboxes, or NULL */
  const struct login *login;
  natsErrHandler on_error; /* or NULL */
  void *closure;
};

/* Connects to one of the servers, or fails after two seconds for each of them. Once made, a connection goes from one server to another. */
natsStatus connect_to(natsConnection **connection, const struct connecting *connecting);

/* Whether a connection has a server now. While it has none, libnats would keep what is published, and send it much later. */
bool is_connected(natsConnection *connection);

/*
 * Subscriptions that ended. libnats 3.4 looks a subscription up for a message, and locks it later without holding it, so it may be freed
 * only after the thread that reads the connection has come to something else.
 */
enum { MOST_ENDED = 32 };

struct ended {
  natsSubscription *at[MOST_ENDED];
  size_t count;
};

/* Ends a subscription of a connection, unless it is NULL, and sets it to NULL. */
void end_subscription(natsConnection *connection, struct ended *ended, natsSubscription **subscription);

/* Destroys a connection, and then the subscriptions of it that ended. */
void destroy_connection(natsConnection *connection, struct ended *ended);

/* Writes NAME.WORD, or NAME.WORD.LAST. */
void write_subject(char subject[MOST_SUBJECT_BYTES], const char *name, const char *word, const char *last);

/* Reads the number in a header: 0 if there is no such header. Returns false if it is no number. */
bool number_in_header(natsMsg *message, const char *header, uint64_t *number);

/* Returns the value of a header, or NULL. */
const char *header_of(natsMsg *message, const char *header);
struct text body_of(natsMsg *message);

/*
 * Returns how many bytes a message that was received takes with its headers. No call of libnats 3.4 does, and one that reads a header first
 * takes all of them apart, which takes longer than all else and many times their bytes.
 */
size_t size_of_message(const natsMsg *message);

/* Returns whether this can be the name of a log or of a replica: 1 to 32 letters, digits, _ and -. */
bool is_plain_name(const char *name);

/*
 * Opens each standard file that this program was started without, so that nothing can be read from it or written to it. Otherwise a
 * connection would get its number, and what is printed would reach the servers.
 */
void open_standard_files(void);

/* Overwrites the password in each address of a list of servers in an argument, after it was copied, so that ps does not show it. */
void hide_passwords(char *servers);

#endif
