/* Static assertions about the header: the layouts of structs and the numbers of names that the library was built for. Compiled as C11 and
   C++11, and never run. */
#include <mmdb.h>

#ifdef __cplusplus
#define ASSERT(holds) static_assert(holds, #holds)
#else
#define ASSERT(holds) _Static_assert(holds, #holds)
#endif

ASSERT(sizeof(size_t) == 8);
ASSERT(sizeof(bool) == 1);

ASSERT(sizeof(mmdb) == 16);
ASSERT(offsetof(mmdb, block) == 0);
ASSERT(offsetof(mmdb, is_open) == 8);

ASSERT(sizeof(mmdb_cell) == 80);
ASSERT(offsetof(mmdb_cell, kind) == 0);
ASSERT(offsetof(mmdb_cell, len) == 1);
ASSERT(offsetof(mmdb_cell, number) == 8);
ASSERT(offsetof(mmdb_cell, text) == 16);
ASSERT(MMDB_TEXT_BYTES == 64);

ASSERT(sizeof(mmdb_column) == 34);
ASSERT(offsetof(mmdb_column, type) == 0);
ASSERT(offsetof(mmdb_column, len) == 1);
ASSERT(offsetof(mmdb_column, name) == 2);
ASSERT(MMDB_NAME_BYTES == 32);

ASSERT(sizeof(mmdb_array) == 48);
ASSERT(offsetof(mmdb_array, numbers) == 0);
ASSERT(offsetof(mmdb_array, number_count) == 8);
ASSERT(offsetof(mmdb_array, offsets) == 16);
ASSERT(offsetof(mmdb_array, offset_count) == 24);
ASSERT(offsetof(mmdb_array, bytes) == 32);
ASSERT(offsetof(mmdb_array, byte_count) == 40);

ASSERT(sizeof(mmdb_dump_place) == 24);
ASSERT(offsetof(mmdb_dump_place, part) == 0);
ASSERT(offsetof(mmdb_dump_place, row) == 8);
ASSERT(offsetof(mmdb_dump_place, version) == 16);
ASSERT(MMDB_DUMP_ROOM == 4097);

ASSERT(MMDB_NUMBER == 0);
ASSERT(MMDB_STRING == 1);

ASSERT(MMDB_NOTHING == 0);
ASSERT(MMDB_DONE == 1);
ASSERT(MMDB_COUNT == 2);
ASSERT(MMDB_ROWS == 3);
ASSERT(MMDB_TEXT == 4);
ASSERT(MMDB_LINE_TOO_LONG == 10);
ASSERT(MMDB_SYNTAX == 11);
ASSERT(MMDB_NUMBER_OUT_OF_RANGE == 12);
ASSERT(MMDB_TEXT_TOO_LONG == 13);
ASSERT(MMDB_NO_SUCH_TABLE == 20);
ASSERT(MMDB_NO_SUCH_COLUMN == 21);
ASSERT(MMDB_NO_SUCH_INDEX == 22);
ASSERT(MMDB_NO_SUCH_STANDING_QUERY == 23);
ASSERT(MMDB_NAME_TAKEN == 24);
ASSERT(MMDB_ALIAS_TAKEN == 25);
ASSERT(MMDB_NO_SUCH_ALIAS == 26);
ASSERT(MMDB_TYPE_MISMATCH == 30);
ASSERT(MMDB_WRONG_NUMBER_OF_VALUES == 31);
ASSERT(MMDB_ARITHMETIC_OUT_OF_RANGE == 32);
ASSERT(MMDB_DUPLICATE_KEY == 40);
ASSERT(MMDB_NO_TARGET_ROW == 41);
ASSERT(MMDB_ROW_IS_REFERENCED == 42);
ASSERT(MMDB_IN_USE == 43);
ASSERT(MMDB_TABLE_FULL == 45);
ASSERT(MMDB_RESULT_TOO_LARGE == 46);
ASSERT(MMDB_STANDING_LIST_TOO_LARGE == 47);
ASSERT(MMDB_TOO_MANY == 48);
ASSERT(MMDB_TRANSACTION_OPEN == 50);
ASSERT(MMDB_NO_TRANSACTION == 51);
ASSERT(MMDB_NOT_IN_TRANSACTION == 52);
ASSERT(MMDB_NO_SUCH_SAVEPOINT == 53);
ASSERT(MMDB_MEMORY == 90);
ASSERT(MMDB_MISUSE == 100);

ASSERT(MMDB_KIND_NOTHING == 0);
ASSERT(MMDB_KIND_TABLE == 10);
ASSERT(MMDB_KIND_DROP_TABLE == 11);
ASSERT(MMDB_KIND_INDEX == 12);
ASSERT(MMDB_KIND_DROP_INDEX == 13);
ASSERT(MMDB_KIND_WATCH == 14);
ASSERT(MMDB_KIND_UNWATCH == 15);
ASSERT(MMDB_KIND_INSERT == 20);
ASSERT(MMDB_KIND_UPDATE == 21);
ASSERT(MMDB_KIND_DELETE == 22);
ASSERT(MMDB_KIND_SCAN == 30);
ASSERT(MMDB_KIND_SCAN_INDEX == 31);
ASSERT(MMDB_KIND_SELECT == 32);
ASSERT(MMDB_KIND_SHOW == 33);
ASSERT(MMDB_KIND_EXPLAIN == 40);
ASSERT(MMDB_KIND_TABLES == 41);
ASSERT(MMDB_KIND_BEGIN == 50);
ASSERT(MMDB_KIND_COMMIT == 51);
ASSERT(MMDB_KIND_ROLLBACK == 52);
ASSERT(MMDB_KIND_SAVEPOINT == 53);
ASSERT(MMDB_KIND_ROLLBACK_TO == 54);
