#include "connect.h"
#include <errno.h>
#include <fcntl.h>
#include <malloc.h>
#include <stdio.h>
#include <stdlib.h>
#include <string.h>
#include <sys/stat.h>
#include <unistd.h>

/* Milliseconds, except the last. */
enum { CONNECT_WAIT = 2000, RECONNECT_WAIT = 200, PING_EVERY = 2000, WRITE_DEADLINE = 2000, FLUSH_WAIT = 1000, MOST_PINGS_OUT = 2 };

enum { MOST_SERVERS = 16, MOST_SERVERS_BYTES = 1024 };

/* Logins. */

/* Returns why the file cannot hold a login, or NULL. */
static const char *refuse_login_file(FILE *file) {
  struct stat status;
  if (fstat(fileno(file), &status)) return "its mode cannot be read";
  if (!S_ISREG(status.st_mode)) return "it is no file";
  return status.st_mode & (S_IRWXG | S_IRWXO) ? "others than its user have access to it (chmod 600)" : NULL;
}

static bool set_word(char word[MOST_LOGIN_BYTES], const char *value) {
  if (!*value || strlen(value) >= MOST_LOGIN_BYTES) return false;
  memcpy(word, value, strlen(value) + 1);
  return true;
}

static bool set_nkey(struct login *login, char *value) {
  char *space = strchr(value, ' ');
  if (!space) return false;
  *space = 0;
  return set_word(login->nkey, value) && set_word(login->seed, space + 1);
}

static bool read_login_line(struct login *login, char *line) {
  struct {
    const char *word;
    char *value;
  } words[] = {
      {"user", login->user}, {"password", login->password},       {"token", login->token}, {"credentials", login->credentials},
      {"ca", login->ca},     {"certificate", login->certificate}, {"key", login->key},     {"host", login->host},
  };
  line[strcspn(line, "\r\n")] = 0;
  if (!*line || *line == '#') return true;
  if (!strcmp(line, "tls")) return login->is_encrypted = true;
  char *space = strchr(line, ' ');
  if (!space) return false;
  *space = 0;
  if (!strcmp(line, "nkey")) return set_nkey(login, space + 1);
  for (size_t i = 0; i < sizeof words / sizeof *words; i++)
    if (!strcmp(line, words[i].word)) return set_word(words[i].value, space + 1);
  return false;
}

const char *read_login(const char *path, struct login *login) {
  char line[2 * MOST_LOGIN_BYTES];
  *login = (struct login){.is_encrypted = false};
  FILE *file = fopen(path, "re");
  if (!file) return strerror(errno);
  const char *wrong = refuse_login_file(file);
  while (!wrong && fgets(line, sizeof line, file))
    if (!read_login_line(login, line)) wrong = "a line of it is no line of a login";
  if (!wrong && ferror(file)) wrong = "it cannot be read";
  fclose(file);
  explicit_bzero(line, sizeof line);
  if (*login->ca || *login->certificate) login->is_encrypted = true;
  if (!wrong && !*login->certificate != !*login->key) wrong = "a certificate and a key go together";
  return wrong;
}

const char *read_login_of(const char *variable, struct login *login) {
  const char *path = getenv(variable);
  *login = (struct login){.is_encrypted = false};
  return path ? read_login(path, login) : NULL;
}

static natsStatus set_login(natsOptions *options, const struct login *login) {
  natsStatus status = NATS_OK;
  if (*login->user) status = natsOptions_SetUserInfo(options, login->user, login->password);
  if (status == NATS_OK && *login->token) status = natsOptions_SetToken(options, login->token);
  if (status == NATS_OK && *login->credentials) status = natsOptions_SetUserCredentialsFromFiles(options, login->credentials, NULL);
  if (status == NATS_OK && *login->nkey) status = natsOptions_SetNKeyFromSeed(options, login->nkey, login->seed);
  if (status == NATS_OK && login->is_encrypted) status = natsOptions_SetSecure(options, true);
  if (status == NATS_OK && *login->ca) status = natsOptions_LoadCATrustedCertificates(options, login->ca);
  if (status == NATS_OK && *login->certificate) status = natsOptions_LoadCertificatesChain(options, login->certificate, login->key);
  if (status == NATS_OK && *login->host) status = natsOptions_SetExpectedHostname(options, login->host);
  return status;
}

/* Connections. */

/* libnats reports missed heartbeats and the like. The follower finds such things out by itself. */
static void ignore_error(natsConnection *connection, natsSubscription *subscription, natsStatus status, void *closure) {
  (void)connection, (void)subscription, (void)status, (void)closure;
}

static natsStatus set_servers(natsOptions *options, const char *servers) {
  char copy[MOST_SERVERS_BYTES], *rest = NULL;
  const char *each[MOST_SERVERS];
  int count = 0;
  if (strlen(servers) >= sizeof copy) return NATS_INVALID_ARG;
  memcpy(copy, servers, strlen(servers) + 1);
  for (char *server = strtok_r(copy, ",", &rest); server; server = strtok_r(NULL, ",", &rest)) {
    if (count == MOST_SERVERS) return NATS_INVALID_ARG;
    each[count++] = server;
  }
  natsStatus status = natsOptions_SetServers(options, each, count);
  explicit_bzero(copy, sizeof copy);
  return status;
}

static natsStatus set_times(natsOptions *options) {
  natsStatus status = natsOptions_SetTimeout(options, CONNECT_WAIT);
  if (status == NATS_OK) status = natsOptions_SetMaxReconnect(options, -1);
  if (status == NATS_OK) status = natsOptions_SetReconnectWait(options, RECONNECT_WAIT);
  if (status == NATS_OK) status = natsOptions_SetReconnectBufSize(options, 1); /* 0 is 8 MB, which would be sent at any later time */
  if (status == NATS_OK) status = natsOptions_SetPingInterval(options, PING_EVERY);
  if (status == NATS_OK) status = natsOptions_SetMaxPingsOut(options, MOST_PINGS_OUT);
  if (status == NATS_OK) status = natsOptions_SetWriteDeadline(options, WRITE_DEADLINE);
  return status;
}

natsStatus connect_to(natsConnection **connection, const struct connecting *connecting) {
  natsOptions *options = NULL;
  natsStatus status = natsOptions_Create(&options);
  if (status == NATS_OK) status = set_servers(options, connecting->servers);
  if (status == NATS_OK) status = set_login(options, connecting->login);
  if (status == NATS_OK) status = natsOptions_SetName(options, connecting->name);
  if (status == NATS_OK) status = set_times(options);
  if (status == NATS_OK) status = natsOptions_SetSendAsap(options, true);
  if (status == NATS_OK)
    status = natsOptions_SetErrorHandler(options, connecting->on_error ? connecting->on_error : ignore_error, connecting->closure);
  if (status == NATS_OK && connecting->inbox) status = natsOptions_SetCustomInboxPrefix(options, connecting->inbox);
  if (status == NATS_OK) status = natsConnection_Connect(connection, options);
  natsOptions_Destroy(options);
  return status;
}

bool is_connected(natsConnection *connection) { return natsConnection_Status(connection) == NATS_CONN_STATUS_CONNECTED; }

/* Subscriptions that ended. */

static void free_ended(struct ended *ended) {
  while (ended->count) natsSubscription_Destroy(ended->at[--ended->count]);
}

void end_subscription(natsConnection *connection, struct ended *ended, natsSubscription **subscription) {
  if (!*subscription) return;
  natsSubscription_Unsubscribe(*subscription);
  /* The answer of the server to a flush comes after all messages that were looked up before. */
  if (ended->count == MOST_ENDED && natsConnection_FlushTimeout(connection, FLUSH_WAIT) == NATS_OK) free_ended(ended);
  /* Without a server there are no more of them. One that has no place is never freed, rather than too early. */
  if (ended->count < MOST_ENDED) ended->at[ended->count++] = *subscription;
  *subscription = NULL;
}

void destroy_connection(natsConnection *connection, struct ended *ended) {
  natsConnection_Destroy(connection);
  free_ended(ended);
}

/* Subjects and headers. */

void write_subject(char subject[MOST_SUBJECT_BYTES], const char *name, const char *word, const char *last) {
  snprintf(subject, MOST_SUBJECT_BYTES, last ? "%s.%s.%s" : "%s.%s", name, word, last);
}

const char *header_of(natsMsg *message, const char *header) {
  const char *value = NULL;
  return natsMsgHeader_Get(message, header, &value) == NATS_OK ? value : NULL;
}

bool number_in_header(natsMsg *message, const char *header, uint64_t *number) {
  const char *value = header_of(message, header);
  char *rest = NULL;
  *number = 0;
  if (!value) return true;
  if (*value < '0' || *value > '9') return false;
  errno = 0;
  *number = strtoull(value, &rest, 10);
  return !errno && !*rest;
}

struct text body_of(natsMsg *message) {
  return (struct text){(const uint8_t *)natsMsg_GetData(message), (size_t)natsMsg_GetDataLength(message)};
}

/* libnats 3.4 allocates a message that it received as one block. */
size_t size_of_message(const natsMsg *message) { return malloc_usable_size((void *)message); }

bool is_plain_name(const char *name) {
  size_t length = strspn(name, "abcdefghijklmnopqrstuvwxyzABCDEFGHIJKLMNOPQRSTUVWXYZ0123456789_-");
  return length && length <= MOST_LOG_NAME_BYTES && !name[length];
}

void open_standard_files(void) {
  int file;
  do file = open("/dev/null", O_RDONLY);
  while (file >= 0 && file <= STDERR_FILENO);
  if (file >= 0) close(file);
}

void hide_passwords(char *servers) {
  for (char *server = servers; *server; server += strcspn(server, ","), server += *server == ',') {
    char *slashes = strstr(server, "://"), *end = server + strcspn(server, ","), *start = slashes && slashes < end ? slashes + 3 : server;
    size_t length = strcspn(start, ",@");
    if (start[length] == '@') memset(start, 'x', length);
  }
}
