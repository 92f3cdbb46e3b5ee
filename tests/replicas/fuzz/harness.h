/* What the harnesses share: checks that end the process, the log of all inputs, and the way of a database through a snapshot. */
#ifndef HARNESS_H
#define HARNESS_H

#include "database.h"
#include "snapshot.h"
#include <stdint.h>
#include <stdio.h>
#include <stdlib.h>
#include <string.h>

/* A check that fails ends the process, so that libFuzzer keeps the input. */
#define MUST(holds) ((holds) ? (void)0 : abort())

#define FUZZ_LOG "fuzz"
#define FUZZ_IDENTITY "0123456789abcdef"

/* Entry point of libFuzzer. */
int LLVMFuzzerTestOneInput(const uint8_t *data, size_t size);

/* Returns a folder of this process, which is made at the first call. */
const char *fuzz_folder(void);

/* Loads the snapshot with a number from the folder. The log has messages up to last. */
enum loaded fuzz_load(struct database *database, uint64_t number, uint64_t last);

/* Writes a snapshot of a database, loads it again, and requires the same sum. */
void fuzz_through_snapshot(struct database *database);

#endif
