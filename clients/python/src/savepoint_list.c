/* Which savepoints are set: the list that the library has. */
#include "client.h"

/* A word of a line. */
typedef struct Word {
    const char *bytes;
    size_t length;
} Word;

/* Returns the next word of a line, which has no bytes at its end, and moves the place past it. */
static Word next_word(const char *line, size_t length, size_t *at) {
    while (*at < length && (unsigned char)line[*at] <= ' ') ++*at;
    size_t start = *at;
    while (*at < length && (unsigned char)line[*at] > ' ') ++*at;
    return (Word){line + start, *at - start};
}

static bool is_word(Word word, const char *other) {
    return word.length == strlen(other) && memcmp(word.bytes, other, word.length) == 0;
}

static void add(SavepointList *list, Word name) {
    if (list->count == MOST_SAVEPOINTS || name.length > MMDB_NAME_BYTES) return;
    SetSavepoint *savepoint = &list->all[list->count++];
    savepoint->number = ++list->newest;
    savepoint->length = name.length;
    memcpy(savepoint->name, name.bytes, name.length);
}

size_t savepoints_count_to(const SavepointList *list, const char *name, size_t length) {
    size_t count = list->count;
    while (count > 0 && (list->all[count - 1].length != length || memcmp(list->all[count - 1].name, name, length) != 0)) count--;
    return count;
}

bool savepoints_have(const SavepointList *list, uint64_t number) {
    for (size_t i = 0; i < list->count; i++) {
        if (list->all[i].number == number) return true;
    }
    return false;
}

void savepoints_follow(SavepointList *list, const char *line, size_t length) {
    size_t at = 0;
    Word word = next_word(line, length, &at), next = next_word(line, length, &at);
    if (is_word(word, "SAVEPOINT")) {
        add(list, next);
    } else if (is_word(word, "ROLLBACK") && is_word(next, "TO")) {
        Word name = next_word(line, length, &at);
        list->count = savepoints_count_to(list, name.bytes, name.length);
    } else if (is_word(word, "BEGIN") || is_word(word, "COMMIT") || is_word(word, "ROLLBACK")) {
        list->count = 0;
    }
}
