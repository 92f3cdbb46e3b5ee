/* The workload of the benchmark of databases within one process, the same for each database.

   The table t has rows (k, h, r, v, w): k is the key, h has a HASH index (in SQLite a B-tree), and r a TREE index. The table c has rows (id, p), and p refers
   to t. */
#ifndef WORK_H
#define WORK_H
#include <stdbool.h>
#include <stdint.h>
#include <stdio.h>
#include <stdlib.h>
#include <string.h>
#include <time.h>

enum work { BY_KEY, BY_HASH, RANGE_OF_TEN, BY_FOREIGN_KEY, INSERT, UPDATE, UPDATE_INDEXED, DELETE, CHANGE_AND_LIST, WORKS };

/* The number of parameters of a call of each work. */
static const size_t work_parameters[WORKS] = {1, 1, 2, 1, 4, 2, 2, 1, 2};

/* A permutation of the numbers below `rows`, if `rows` is not a multiple of 7919. */
static int64_t mixed(int64_t i, int64_t rows) { return (i * 7919 + 12345) % rows; }

/* Writes the parameters of call number i to `out`. */
static void parameters(enum work work, int64_t i, int64_t rows, int64_t *out) {
  int64_t k = mixed(i, rows);
  switch (work) {
  case BY_KEY: out[0] = k; break;
  case BY_HASH: out[0] = 3 * k; break;
  case RANGE_OF_TEN: out[0] = k, out[1] = k + 10; break;
  case BY_FOREIGN_KEY: out[0] = k; break;
  case INSERT: out[0] = rows + k, out[1] = 3 * (rows + k), out[2] = rows + k, out[3] = i; break;
  case UPDATE: out[0] = i, out[1] = k; break;
  case UPDATE_INDEXED: out[0] = rows + i, out[1] = k; break;
  case DELETE: out[0] = k; break;
  case CHANGE_AND_LIST: out[0] = i % 2 ? 1 : -1, out[1] = mixed(i / 2, rows); break;
  default: break;
  }
}

static double processor_seconds(void) {
  struct timespec t;
  clock_gettime(CLOCK_PROCESS_CPUTIME_ID, &t);
  return (double)t.tv_sec + 1e-9 * (double)t.tv_nsec;
}
#endif
