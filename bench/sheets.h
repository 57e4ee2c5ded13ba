/*
 * The sheets that the benchmark runs, made once before the clock starts.
 */
#ifndef BENCH_SHEETS_H
#define BENCH_SHEETS_H

#include "model.h"

enum { BENCH_MOST_BYTES = MODEL_HEADER_BYTES + MODEL_WORD_BYTES * MODEL_MOST_WORDS };

/* A sheet as packed bytes. */
struct bench_sheet {
    size_t length;
    uint8_t bytes[BENCH_MOST_BYTES];
};

/* One row of the table. Where `entries` is not 0 it is an interrupted run. */
struct bench_case {
    const char *name;
    const char *what; /* NULL for one operation alone */
    struct bench_sheet main, handler;
    size_t entries;
    uint16_t schedule[MODEL_MOST_ENTRIES];
    uint32_t file[MODEL_MOST_REGISTERS];
    struct model_machine machine;
};

enum { BENCH_CASES = 7, BENCH_OPCODES = MODEL_OPCODES };

/* Makes case number `i`, 0 to BENCH_CASES - 1. */
void bench_make(struct bench_case *c, int i);

/* Makes a case of 1,000 words of one operation, named by its mnemonic. Gives 0
 * and makes nothing where the opcode has no page. */
int bench_make_operation(struct bench_case *c, int opcode);

/* Makes a sheet to list: 4,095 words, the operations in turn, any fields. */
void bench_make_listing(struct bench_case *c);

#endif
