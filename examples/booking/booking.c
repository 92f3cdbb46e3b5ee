/* Books seats for events. The database is part of this program, and a standing query always contains the free seats.

   booking.out contains the output. booking.py and booking.rs do the same in Python and in Rust. */
#include <mmdb.h>
#include <stdarg.h>
#include <stdio.h>
#include <stdlib.h>
#include <string.h>

static const char *const SCHEMA[] = {
  "TABLE event (id INT KEY, title TEXT)",
  "TABLE seat (id INT KEY, event INT REF event CASCADE, place TEXT, taken INT)",
  "TABLE booking (id INT KEY, seat INT REF seat, guest TEXT)",
  "INDEX seat_event ON seat (event) TREE",
  "INDEX booking_guest ON booking (guest) HASH",
  "WATCH free_seats SELECT e.title, s.place, s.id FROM event e, seat s WHERE s.event = e.id AND s.taken = 0",
};

enum { ADD_EVENT, ADD_SEAT, TAKE_SEAT, ADD_BOOKING, SEAT_OF, DELETE_BOOKING, FREE_SEAT, BOOKINGS_OF, DELETE_EVENT, SEATS_OF, STATEMENTS };
static const char *const LINES[STATEMENTS] = {
  [ADD_EVENT] = "INSERT event (?, ?)",
  [ADD_SEAT] = "INSERT seat (?, ?, ?, 0)",
  [TAKE_SEAT] = "UPDATE seat SET taken = 1 WHERE id = ? AND taken = 0",
  [ADD_BOOKING] = "INSERT booking (?, ?, ?)",
  [SEAT_OF] = "SELECT b.seat FROM booking b WHERE b.id = ?",
  [DELETE_BOOKING] = "DELETE booking WHERE id = ?",
  [FREE_SEAT] = "UPDATE seat SET taken = 0 WHERE id = ?",
  [BOOKINGS_OF] = "SELECT b.id FROM seat s, booking b WHERE b.seat = s.id AND s.event = ?",
  [DELETE_EVENT] = "DELETE event WHERE id = ?",
  [SEATS_OF] = "SELECT s.place FROM booking b, seat s WHERE b.guest = ? AND b.seat = s.id",
};

/* The database and its prepared statements. */
typedef struct { mmdb db; size_t statements[STATEMENTS]; } service;

static mmdb_cell number(int64_t number) { return (mmdb_cell){.kind = MMDB_NUMBER, .number = number}; }

/* Ends the program if the status of a call is unexpected. */
static void must(uint8_t status, const char *line) {
  if (status < MMDB_LINE_TOO_LONG) return;
  fprintf(stderr, "%s: error %d\n", line, status);
  exit(1);
}

/* Returns whether a cell can hold a text: whether it has at most MMDB_TEXT_BYTES bytes. */
static bool fits(const char *from) { return strlen(from) <= MMDB_TEXT_BYTES; }

/* Ends the program if the text does not fit. A caller must first check a text from an untrusted source. */
static mmdb_cell text(const char *from) {
  must(fits(from) ? MMDB_DONE : MMDB_TEXT_TOO_LONG, from);
  mmdb_cell value = {.kind = MMDB_STRING, .len = (uint8_t)strlen(from)};
  memcpy(value.text, from, value.len);
  return value;
}

static void execute(service *s, const char *line) { must(mmdb_execute(&s->db, (const uint8_t *)line, strlen(line)), line); }

/* Runs a statement with the values that follow it. */
#define RUN(s, statement, ...) \
  mmdb_run(&(s)->db, (s)->statements[statement], (mmdb_cell[]){__VA_ARGS__}, sizeof((mmdb_cell[]){__VA_ARGS__}) / sizeof(mmdb_cell))
#define MUST_RUN(s, statement, ...) must(RUN(s, statement, __VA_ARGS__), LINES[statement])

/* Two events and their seats. */
static void open_service(service *s) {
  s->db = (mmdb)MMDB_CLOSED;
  must(mmdb_open(&s->db), "open");
  for (size_t i = 0; i < sizeof SCHEMA / sizeof *SCHEMA; i++) execute(s, SCHEMA[i]);
  for (int i = 0; i < STATEMENTS; i++) must(mmdb_prepare(&s->db, (const uint8_t *)LINES[i], strlen(LINES[i]), &s->statements[i]), LINES[i]);
  mmdb_cell events[] = {number(1), text("Hamlet"), number(2), text("Faust")};
  mmdb_cell seats[] = {number(11), number(1), text("A1"), number(12), number(1), text("A2"), number(13), number(1), text("A3"),
                       number(14), number(1), text("A4"), number(21), number(2), text("B1"), number(22), number(2), text("B2")};
  size_t runs;
  must(mmdb_run_many(&s->db, s->statements[ADD_EVENT], events, sizeof events / sizeof *events, 2, &runs), LINES[ADD_EVENT]);
  must(mmdb_run_many(&s->db, s->statements[ADD_SEAT], seats, sizeof seats / sizeof *seats, 3, &runs), LINES[ADD_SEAT]);
}

/* Books a seat inside a transaction. Returns MMDB_DONE, MMDB_NOTHING if the seat is taken, or a refusal. */
static uint8_t book_seat(service *s, int64_t booking, int64_t seat, const char *guest) {
  if (!fits(guest)) return MMDB_TEXT_TOO_LONG;
  MUST_RUN(s, TAKE_SEAT, number(seat));
  if (mmdb_count(&s->db) != 1) return MMDB_NOTHING;
  uint8_t status = RUN(s, ADD_BOOKING, number(booking), number(seat), text(guest));
  return status == MMDB_COUNT ? MMDB_DONE : status;
}

/* Books all these seats under numbers from booking on, or none of them. Returns the outcome in words, valid until the next call. */
static const char *book(service *s, int64_t booking, const int64_t *seats, int count, const char *guest) {
  static char refused[16];
  uint8_t status = MMDB_DONE;
  execute(s, "BEGIN");
  for (int i = 0; i < count && status == MMDB_DONE; i++) status = book_seat(s, booking + i, seats[i], guest);
  execute(s, status == MMDB_DONE ? "COMMIT" : "ROLLBACK");
  snprintf(refused, sizeof refused, "error %d", status);
  return status == MMDB_DONE ? "booked" : status == MMDB_NOTHING ? "taken" : refused;
}

/* Books the free seats among these, and returns their number. Each savepoint is released, since a transaction has at most 64. */
static int book_group(service *s, int64_t booking, const int64_t *seats, int count, const char *guest) {
  int booked = 0;
  execute(s, "BEGIN");
  for (int i = 0; i < count; i++) {
    static const char name[] = "before_seat";
    execute(s, "SAVEPOINT before_seat");
    uint8_t status = book_seat(s, booking + booked, seats[i], guest);
    must(status, LINES[ADD_BOOKING]);
    if (status == MMDB_DONE) booked++;
    else execute(s, "ROLLBACK TO before_seat");
    must(mmdb_release(&s->db, (const uint8_t *)name, sizeof name - 1), "release");
  }
  execute(s, "COMMIT");
  return booked;
}

/* Cancels a booking. Its seat is free again. */
static void cancel(service *s, int64_t booking) {
  mmdb_cell seat;
  execute(s, "BEGIN");
  MUST_RUN(s, SEAT_OF, number(booking));
  if (mmdb_read(&s->db, 0, &seat, 1) == 1) {
    MUST_RUN(s, DELETE_BOOKING, number(booking));
    MUST_RUN(s, FREE_SEAT, seat);
  }
  execute(s, "COMMIT");
}

/* Deletes the bookings of an event, and then the event with its seats. Returns the number of bookings. */
static size_t call_off(service *s, int64_t event) {
  execute(s, "BEGIN");
  MUST_RUN(s, BOOKINGS_OF, number(event));
  size_t count = mmdb_count(&s->db), runs;
  mmdb_cell *bookings = calloc(count + 1, sizeof *bookings);
  must(bookings ? MMDB_DONE : MMDB_MEMORY, "bookings");
  mmdb_read(&s->db, 0, bookings, count);
  must(mmdb_run_many(&s->db, s->statements[DELETE_BOOKING], bookings, count, 1, &runs), LINES[DELETE_BOOKING]);
  free(bookings);
  MUST_RUN(s, DELETE_EVENT, number(event));
  execute(s, "COMMIT");
  return count;
}

/* Prints the seats that a guest has booked. */
static void print_seats_of(service *s, const char *guest) {
  mmdb_cell place;
  printf("%s has", guest);
  MUST_RUN(s, SEATS_OF, text(guest));
  for (size_t i = 0; mmdb_read(&s->db, i, &place, 1) == 1; i++) printf(" %.*s", place.len, (const char *)place.text);
  printf(".\n");
}

/* Prints a step, and the seats that are free after it. */
static void tell(service *s, const char *format, ...) {
  va_list values;
  va_start(values, format);
  vprintf(format, values);
  va_end(values);
  printf("\n  free:");
  execute(s, "SHOW free_seats");
  mmdb_cell row[3], *title = &row[0], *place = &row[1];
  for (size_t i = 0; mmdb_read(&s->db, i, row, 3) == 1; i++)
    printf("%s %.*s %.*s", i ? "," : "", title->len, (const char *)title->text, place->len, (const char *)place->text);
  printf("\n");
}

int main(void) {
  service s;
  open_service(&s);
  tell(&s, "The sale begins.");
  tell(&s, "Ann wants seat 11: %s", book(&s, 1, (int64_t[]){11}, 1, "Ann"));
  tell(&s, "Bob wants seat 11: %s", book(&s, 2, (int64_t[]){11}, 1, "Bob"));
  tell(&s, "Cleo wants what is free of 11, 12 and 13: %d booked", book_group(&s, 2, (int64_t[]){11, 12, 13}, 3, "Cleo"));
  tell(&s, "Dan wants all of 14, 21 and 12: %s", book(&s, 4, (int64_t[]){14, 21, 12}, 3, "Dan"));
  tell(&s, "O'Hara wants seat 21, under a number in use: %s", book(&s, 2, (int64_t[]){21}, 1, "O'Hara"));
  cancel(&s, 1);
  tell(&s, "Ann cancels.");
  tell(&s, "O'Hara wants both 11 and 21: %s", book(&s, 4, (int64_t[]){11, 21}, 2, "O'Hara"));
  print_seats_of(&s, "Cleo");
  print_seats_of(&s, "O'Hara");
  tell(&s, "Hamlet is called off: %zu bookings go", call_off(&s, 1));
  mmdb_close(&s.db);
}
