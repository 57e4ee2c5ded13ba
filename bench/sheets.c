/*
 * The sheets that the benchmark runs. See sheets.h.
 */
#include "sheets.h"

#include <stdlib.h>
#include <string.h>

/* ---- Building ----------------------------------------------------------- */

/* A sheet with no words yet; it declares all 64 registers. */
static void open_sheet(struct bench_sheet *sheet)
{
    static const uint8_t header[MODEL_HEADER_BYTES] = {0x10, 0x00, 64 << 1, 0};
    memcpy(sheet->bytes, header, sizeof header);
    sheet->length = sizeof header;
}

static size_t words_in(const struct bench_sheet *sheet)
{
    return (sheet->length - MODEL_HEADER_BYTES) / MODEL_WORD_BYTES;
}

static void put(struct bench_sheet *sheet, struct model_word word)
{
    size_t count = words_in(sheet) + 1;
    if (model_pack(&word, sheet->bytes + sheet->length,
                   sizeof sheet->bytes - sheet->length).reason != MODEL_DONE)
        abort();
    sheet->length += MODEL_WORD_BYTES;
    sheet->bytes[0] = (uint8_t)(0x10 | count >> 8);
    sheet->bytes[1] = (uint8_t)count;
}

enum byte_code { FOUR_BYTES, ONE_BYTE, TWO_BYTES, THREE_BYTES };

/* An operation that writes Y. */
static struct model_word op(enum model_opcode opcode, enum byte_code bytes,
                            int a, int b, int y)
{
    struct model_word word = {
        .opcode = (uint8_t)opcode, .byte_code = (uint8_t)bytes,
        .a = (uint8_t)a, .b = (uint8_t)b, .y = (uint8_t)y, .write = 1};
    return word;
}

/* The same with a position and a width, both from the word. */
static struct model_word field_op(enum model_opcode opcode, int position,
                                  int width, int a, int b, int y)
{
    struct model_word word = op(opcode, FOUR_BYTES, a, b, y);
    word.position = (uint8_t)(position & 63);
    word.width = (uint8_t)(width & 31);
    return word;
}

/* A word without its write, and so with Y 0. */
static struct model_word no_write(struct model_word word)
{
    word.write = word.y = 0;
    return word;
}

/* ---- The generator of the independent program's draw -------------------- */

static uint64_t draw(uint64_t *x)
{
    *x ^= *x << 13;
    *x ^= *x >> 7;
    return *x ^= *x << 17;
}

static int below(uint64_t *x, int limit)
{
    return (int)((draw(x) >> 16) % (uint64_t)limit);
}

static void fill_file(struct bench_case *c, uint64_t seed)
{
    for (int i = 0; i < MODEL_MOST_REGISTERS; i++)
        c->file[i] = (uint32_t)(draw(&seed) >> 16);
}

/* ---- Scoring ------------------------------------------------------------ */

/* Registers of the scoring sheet. The features spoken are in 8 to 15, those of
 * the candidate words in 16 to 23. */
enum {
    R_DIFFERENCE = 1,
    R_HIGH = 2, /* the product, three bytes and three */
    R_LOW = 3,
    R_SUM_HIGH = 4, /* the distance so far, likewise */
    R_SUM_LOW = 5,
    R_BEST = 6, /* high half of the best distance */
    R_LOG = 7,  /* packed scores */
    R_SPOKEN = 8,
    R_CANDIDATE = 16,
    R_LESS = 24, /* is the distance less than the best? */
    R_MASK = 25,
    R_TEMPORARY = 26
};

/* Three-byte multiply as document 01 has it, multiplier in Q: the product of a
 * register with Q, high half to R_HIGH, low half to R_LOW. */
static void put_multiply(struct bench_sheet *sheet, int factor)
{
    put(sheet, op(OP_UMULFIRST, THREE_BYTES, factor, R_HIGH, R_HIGH));
    for (int i = 0; i < 24 / 2 - 1; i++)
        put(sheet, op(OP_UMULSTEP, THREE_BYTES, factor, R_HIGH, R_HIGH));
    put(sheet, op(OP_UMULLAST, THREE_BYTES, factor, R_HIGH, R_HIGH));
    put(sheet, op(OP_PASS_Q, THREE_BYTES, 0, R_LOW, R_LOW));
}

/* The square of one feature's difference, added to the distance. */
static void put_feature(struct bench_sheet *sheet, int feature)
{
    put(sheet, op(OP_SUB, THREE_BYTES, R_SPOKEN + feature,
                  R_CANDIDATE + feature, R_DIFFERENCE));
    put(sheet, no_write(op(OP_LOADQ_A, THREE_BYTES, R_DIFFERENCE, 0, 0)));
    put_multiply(sheet, R_DIFFERENCE);
    put(sheet, op(OP_ADD, THREE_BYTES, R_LOW, R_SUM_LOW, R_SUM_LOW));
    put(sheet, op(OP_ADDC, THREE_BYTES, R_HIGH, R_SUM_HIGH, R_SUM_HIGH));
}

/* Compares on N xor V, keeps the lesser distance, packs a score into the log. */
static void put_choice(struct bench_sheet *sheet, int feature)
{
    put(sheet, no_write(op(OP_SUB, THREE_BYTES, R_SUM_HIGH, R_BEST, 0)));
    put(sheet, field_op(OP_EXTBIT_STAT, 14, 0, 0, 0, R_LESS));
    put(sheet, op(OP_NEG_A, FOUR_BYTES, R_LESS, 0, R_MASK));
    put(sheet, op(OP_XOR, THREE_BYTES, R_SUM_HIGH, R_BEST, R_TEMPORARY));
    put(sheet, op(OP_AND, THREE_BYTES, R_MASK, R_TEMPORARY, R_TEMPORARY));
    put(sheet, op(OP_XOR, THREE_BYTES, R_TEMPORARY, R_BEST, R_BEST));
    put(sheet, field_op(OP_EXTF_A, -16, 8, R_SUM_HIGH, 0, R_TEMPORARY));
    put(sheet, field_op(OP_PASSF_A, feature * 4 % 24, 7, R_TEMPORARY, R_LOG,
                        R_LOG));
    put(sheet, field_op(OP_ORF_A, 31, 1, R_LESS, R_LOG, R_LOG));
}

/* Eight features and four choices. */
static void put_round(struct bench_sheet *sheet)
{
    for (int feature = 0; feature < 8; feature++) {
        put_feature(sheet, feature);
        if (feature % 2 == 1)
            put_choice(sheet, feature);
    }
}

/* Rounds of scoring, 180 words each, cut off at the count asked for. */
static void put_scoring(struct bench_sheet *sheet, size_t words)
{
    static struct bench_sheet round;
    struct model_word word;
    open_sheet(&round);
    put_round(&round);
    for (size_t i = 0; i < words; i++) {
        size_t at = MODEL_WORD_BYTES * (i % words_in(&round));
        model_unpack(round.bytes + MODEL_HEADER_BYTES + at, MODEL_WORD_BYTES,
                     &word);
        put(sheet, word);
    }
}

/* ---- The operations ----------------------------------------------------- */

static int has_page(int opcode)
{
    return model_mnemonics[opcode][0] != '\0';
}

/* A word with any fields, on registers 0 to 31; Y is 0 where it does not
 * write. */
static struct model_word any_word(uint64_t *x, int opcode)
{
    struct model_word word =
        op((enum model_opcode)opcode, (enum byte_code)below(x, 4),
           below(x, 32), below(x, 32), below(x, 32));
    word.position = (uint8_t)below(x, 64);
    word.width = (uint8_t)below(x, 32);
    word.write = below(x, 4) != 0;
    word.macro_select = (uint8_t)below(x, 2);
    word.macro_carry = (uint8_t)below(x, 2);
    word.macro_link = (uint8_t)below(x, 2);
    word.borrow = (uint8_t)below(x, 2);
    return word.write ? word : no_write(word);
}

/* One operation alone, with the same fields whichever it is, so that two
 * operations can be compared. It reads all 64 registers and writes the lower
 * half, so that half of what it reads stays as drawn: left to its own results,
 * many an operation would soon see nothing but zeros. */
static void put_operation(struct bench_sheet *sheet, int opcode, size_t words)
{
    uint64_t x = 124;
    while (words_in(sheet) < words) {
        struct model_word word = any_word(&x, opcode);
        word.a = (uint8_t)below(&x, 64);
        word.b = (uint8_t)below(&x, 64);
        put(sheet, word);
    }
}

/* ---- The other sheets --------------------------------------------------- */

/* ADD alone, over all byte codes. */
static void put_adds(struct bench_sheet *sheet, size_t words)
{
    uint64_t x = 42;
    while (words_in(sheet) < words)
        put(sheet, op(OP_ADD, (enum byte_code)below(&x, 4), below(&x, 32),
                      below(&x, 32), below(&x, 32)));
}

/* All 124 operations, each as often as any other, in an order drawn anew for
 * each round of 124 words. */
static void put_mix(struct bench_sheet *sheet, size_t words)
{
    uint64_t x = 7;
    while (words_in(sheet) < words) {
        int order[BENCH_OPCODES], count = 0;
        for (int opcode = 0; opcode < BENCH_OPCODES; opcode++)
            if (has_page(opcode))
                order[count++] = opcode;
        for (; count > 0; count--) {
            int pick = below(&x, count);
            put(sheet, any_word(&x, order[pick]));
            order[pick] = order[count - 1];
        }
    }
}

/* A handler of the right form: s and q are 62 and 63, its own registers 32 to
 * 61, the body of six words counts and shifts. */
static void put_handler(struct bench_sheet *sheet)
{
    enum { SAVE_S = 62, SAVE_Q = 63, OWN = 32 };
    put(sheet, op(OP_PASS_STAT, FOUR_BYTES, OWN, OWN, SAVE_S));
    put(sheet, op(OP_PASS_Q, FOUR_BYTES, OWN, OWN, SAVE_Q));
    put(sheet, no_write(op(OP_LOADQ_A, FOUR_BYTES, OWN, OWN, 0)));
    put(sheet, no_write(op(OP_LDSTAT_A, FOUR_BYTES, OWN, OWN, 0)));
    put(sheet, op(OP_INCR_A, FOUR_BYTES, OWN + 1, OWN, OWN + 1));
    put(sheet, op(OP_ADD, TWO_BYTES, OWN + 1, OWN + 2, OWN + 2));
    put(sheet, op(OP_XOR, FOUR_BYTES, OWN + 2, OWN + 3, OWN + 3));
    put(sheet, op(OP_UP1_LF_AQ, FOUR_BYTES, OWN + 3, OWN, OWN + 4));
    put(sheet, field_op(OP_PASSF_A, 5, 9, OWN + 4, OWN + 5, OWN + 5));
    put(sheet, op(OP_PASS_Q, FOUR_BYTES, OWN, OWN, OWN + 6));
    put(sheet, no_write(op(OP_LOADQ_A, FOUR_BYTES, SAVE_Q, OWN, 0)));
    put(sheet, no_write(op(OP_LDSTAT_A, FOUR_BYTES, SAVE_S, OWN, 0)));
}

/* A boundary every so many words. */
static void put_schedule(struct bench_case *c, size_t every)
{
    for (size_t at = 0; at <= words_in(&c->main); at += every)
        c->schedule[c->entries++] = (uint16_t)at;
}

/* ---- The table ---------------------------------------------------------- */

struct plan {
    const char *name, *what;
    void (*put)(struct bench_sheet *sheet, size_t words);
    size_t words;
    size_t every; /* words between two runs of the handler; 0: no handler */
};

static const struct plan plans[BENCH_CASES] = {
    {"scoring", "900 words: three-byte multiply, accumulate, compare, pack",
     put_scoring, 900, 0},
    {"adds", "1,000 words: ADD at every byte code", put_adds, 1000, 0},
    {"mix", "992 words: all 124 operations, eight times each", put_mix, 992, 0},
    {"longest", "4,095 words: scoring", put_scoring, MODEL_MOST_WORDS, 0},
    {"six", "6 words: the first of scoring", put_scoring, 6, 0},
    {"interrupts", "900 words: scoring; a handler of 12 every 10 words",
     put_scoring, 900, 10},
    {"storm", "900 words: scoring; the same handler after every word",
     put_scoring, 900, 1}};

/* A case with no words yet. Its registers are drawn by `number`. */
static void open_case(struct bench_case *c, const char *name, int number)
{
    memset(c, 0, sizeof *c);
    c->name = name;
    fill_file(c, 0x9E3779B97F4A7C15u + (uint64_t)number);
    open_sheet(&c->main);
    open_sheet(&c->handler);
}

void bench_make(struct bench_case *c, int i)
{
    const struct plan *plan = &plans[i];
    open_case(c, plan->name, i);
    c->what = plan->what;
    plan->put(&c->main, plan->words);
    if (plan->every != 0) {
        put_handler(&c->handler);
        put_schedule(c, plan->every);
    }
}

int bench_make_operation(struct bench_case *c, int opcode)
{
    if (!has_page(opcode))
        return 0;
    open_case(c, model_mnemonics[opcode], 124);
    put_operation(&c->main, opcode, 1000);
    return 1;
}

void bench_make_listing(struct bench_case *c)
{
    uint64_t x = 2;
    open_case(c, "listing", 0);
    for (int i = 0; words_in(&c->main) < MODEL_MOST_WORDS; i++)
        if (has_page(i % BENCH_OPCODES))
            put(&c->main, any_word(&x, i % BENCH_OPCODES));
}
