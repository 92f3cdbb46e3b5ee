#include <mmdb.h>
#include <stdio.h>
#define LINE(text) (const uint8_t *)text, sizeof text - 1

int main(void) {
    mmdb db = MMDB_CLOSED;
    mmdb_cell paper[] = {{.number = 10}, {.kind = MMDB_STRING, .len = 5, .text = "Carey"}}, found[1];
    size_t insert, author, rows;
    if (mmdb_open(&db) != MMDB_DONE) return 1;
    mmdb_execute(&db, LINE("TABLE paper (id INT KEY, author TEXT)"));
    mmdb_prepare(&db, LINE("INSERT paper (?, ?)"), &insert);
    mmdb_prepare(&db, LINE("SELECT p.author FROM paper p WHERE p.id = ?"), &author);
    mmdb_run(&db, insert, paper, 2);
    if (mmdb_query(&db, author, paper, 1, found, 1, &rows) == MMDB_ROWS && rows == 1)
        printf("%.*s\n", found[0].len, (const char *)found[0].text);
    mmdb_close(&db);
}
