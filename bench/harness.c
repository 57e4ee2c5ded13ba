/*
 * Times the engines on the benchmark's sheets: nanoseconds a word, the best of
 * several repeats, and each other engine's ratio to the first. See README.md.
 *
 *   harness [--each [all] | --listing] [REPEATS]     default 25
 *
 * --each times the operations one by one instead, and prints the 20 where the
 * ratio is worst, or all. --listing times the listing of a sheet and its
 * reading.
 */
#define _POSIX_C_SOURCE 199309L
#include "model.h"
#include "sheets.h"

#include <inttypes.h>
#include <stdio.h>
#include <stdlib.h>
#include <string.h>
#include <time.h>

/* ---- Engines ------------------------------------------------------------ */

/* An engine's two functions give the reason, and by `place` the words run.
 * They take and give numbers and pointers alone: see native-shim.c. */
typedef uint32_t run_function(const uint8_t *sheet, size_t length,
                              uint32_t *file, size_t registers, uint32_t *q,
                              uint32_t *status, uint64_t start,
                              uint64_t allowance, uint64_t *place);
typedef uint32_t interrupted_function(
    const uint8_t *main_sheet, size_t main_length, const uint8_t *handler,
    size_t handler_length, const uint16_t *schedule, size_t entries,
    uint32_t *file, size_t registers, uint32_t *q, uint32_t *status,
    uint64_t *place);

/* From a sheet to its listing or back: the reason, and by `bytes` how many
 * bytes were written. */
typedef uint32_t text_function(const uint8_t *from, size_t length, uint8_t *to,
                               size_t room, size_t *bytes);

struct engine {
    const char *name;
    run_function *run;
    interrupted_function *run_interrupted;
    text_function *list, *read;
};

static uint32_t c_run(const uint8_t *sheet, size_t length, uint32_t *file,
                      size_t registers, uint32_t *q, uint32_t *status,
                      uint64_t start, uint64_t allowance, uint64_t *place)
{
    struct model_machine machine = {*q, *status};
    struct model_verdict v =
        model_run(sheet, length, file, registers, &machine, start, allowance);
    *q = machine.q;
    *status = machine.status;
    *place = v.place;
    return v.reason;
}

static uint32_t c_run_interrupted(
    const uint8_t *main_sheet, size_t main_length, const uint8_t *handler,
    size_t handler_length, const uint16_t *schedule, size_t entries,
    uint32_t *file, size_t registers, uint32_t *q, uint32_t *status,
    uint64_t *place)
{
    struct model_machine machine = {*q, *status};
    struct model_verdict v = model_run_interrupted(
        main_sheet, main_length, handler, handler_length, schedule, entries,
        file, registers, &machine);
    *q = machine.q;
    *status = machine.status;
    *place = v.place;
    return v.reason;
}

static uint32_t c_list(const uint8_t *sheet, size_t length, uint8_t *text,
                       size_t room, size_t *bytes)
{
    return model_list(sheet, length, text, room, bytes).reason;
}

static uint32_t c_read(const uint8_t *text, size_t length, uint8_t *sheet,
                       size_t room, size_t *bytes)
{
    return model_read(text, length, sheet, room, bytes).reason;
}

/*
 * The proved library: proved.h has functions like those above over its C
 * interface. run.sh links the archive; or, with BENCH_NATIVE, the same ones and
 * the library as compile.sh compiles them.
 */
#ifdef BENCH_NATIVE
run_function proved_run;
interrupted_function proved_run_interrupted;
text_function proved_list, proved_read;
#else
#define PROVED_LINKAGE static
#include "proved.h"
#endif

/* The first is what the others are measured against. */
static const struct engine engines[] = {
    {"C model", c_run, c_run_interrupted, c_list, c_read},
    {"proved", proved_run, proved_run_interrupted, proved_list, proved_read},
};

enum { ENGINES = sizeof engines / sizeof *engines };

/* ---- Running a case ----------------------------------------------------- */

/* What a case has left behind. */
struct state {
    uint32_t file[MODEL_MOST_REGISTERS];
    uint32_t q, status;
};

static struct state first_state(const struct bench_case *c)
{
    struct state s;
    memcpy(s.file, c->file, sizeof s.file);
    s.q = c->machine.q;
    s.status = c->machine.status;
    return s;
}

static uint64_t run_once(const struct engine *engine,
                         const struct bench_case *c, struct state *s)
{
    uint64_t place;
    uint32_t reason =
        c->entries == 0
            ? engine->run(c->main.bytes, c->main.length, s->file,
                          MODEL_MOST_REGISTERS, &s->q, &s->status, 0,
                          UINT64_MAX, &place)
            : engine->run_interrupted(c->main.bytes, c->main.length,
                                      c->handler.bytes, c->handler.length,
                                      c->schedule, c->entries, s->file,
                                      MODEL_MOST_REGISTERS, &s->q, &s->status,
                                      &place);
    if (reason != MODEL_DONE) {
        fprintf(stderr, "%s refused %s: reason %" PRIu32 "\n", engine->name,
                c->name, reason);
        exit(1);
    }
    return place;
}

/* Processor time of this process in nanoseconds: what else runs on the machine
 * does not count. */
static double now(void)
{
    struct timespec t;
    clock_gettime(CLOCK_PROCESS_CPUTIME_ID, &t);
    return (double)t.tv_sec * 1e9 + (double)t.tv_nsec;
}

/* A repeat runs the sheet as often as makes about this many words: some
 * milliseconds. */
enum { WORDS_A_REPEAT = 200000 };

/* Nanoseconds a word over one repeat; the state goes on from repeat to
 * repeat. */
static double repeat(const struct engine *engine, const struct bench_case *c,
                     struct state *s)
{
    uint64_t words = 0;
    double start = now();
    while (words < WORDS_A_REPEAT)
        words += run_once(engine, c, s);
    return (now() - start) / (double)words;
}

/* The engines take turns, so that a slow moment of the machine meets all. */
static void time_case(const struct bench_case *c, int repeats,
                      double best[ENGINES])
{
    struct state states[ENGINES];
    for (int e = 0; e < ENGINES; e++) {
        states[e] = first_state(c);
        best[e] = repeat(&engines[e], c, &states[e]);
    }
    for (int i = 1; i < repeats; i++)
        for (int e = 0; e < ENGINES; e++) {
            double time = repeat(&engines[e], c, &states[e]);
            if (time < best[e])
                best[e] = time;
        }
    for (int e = 1; e < ENGINES; e++)
        if (memcmp(&states[0], &states[e], sizeof states[0]) != 0) {
            fprintf(stderr, "%s: %s and %s end differently\n", c->name,
                    engines[0].name, engines[e].name);
            exit(1);
        }
}

/* ---- Printing ----------------------------------------------------------- */

static void print_head(const char *unit, const char *rows, int repeats,
                       const char *which)
{
    printf("%s, best of %d%s\n%-11s", unit, repeats, which, rows);
    for (int e = 0; e < ENGINES; e++)
        printf(" %10s", engines[e].name);
    for (int e = 1; e < ENGINES; e++)
        printf(" %10s", "ratio");
    printf("\n");
}

static void print_row(const char *name, const double times[ENGINES],
                      const double ratios[ENGINES], const char *what)
{
    printf("%-11s", name);
    for (int e = 0; e < ENGINES; e++)
        printf(" %10.2f", times[e]);
    for (int e = 1; e < ENGINES; e++)
        printf(" %10.2f", ratios[e]);
    printf("  %s\n", what);
}

static void set_ratios(const double times[ENGINES], double ratios[ENGINES])
{
    for (int e = 0; e < ENGINES; e++)
        ratios[e] = times[e] / times[0];
}

static void print_table(int repeats)
{
    static struct bench_case c;
    print_head("nanoseconds a word", "sheet", repeats, "");
    for (int i = 0; i < BENCH_CASES; i++) {
        double times[ENGINES], ratios[ENGINES];
        bench_make(&c, i);
        time_case(&c, repeats, times);
        set_ratios(times, ratios);
        print_row(c.name, times, ratios, c.what);
    }
}

/* ---- The operations one by one ------------------------------------------ */

struct operation {
    int opcode;
    const char *name;
    double times[ENGINES], ratios[ENGINES];
};

/* Times every operation and gives how many there are. */
static int time_operations(struct operation *all, int repeats)
{
    static struct bench_case c;
    int count = 0;
    for (int opcode = 0; opcode < BENCH_OPCODES; opcode++)
        if (bench_make_operation(&c, opcode)) {
            struct operation *o = &all[count++];
            o->opcode = opcode;
            o->name = c.name;
            time_case(&c, repeats, o->times);
            set_ratios(o->times, o->ratios);
        }
    return count;
}

/* The highest ratio of the last engine first. */
static int worse_first(const void *left, const void *right)
{
    double l = ((const struct operation *)left)->ratios[ENGINES - 1];
    double r = ((const struct operation *)right)->ratios[ENGINES - 1];
    return (l < r) - (l > r);
}

/* Means of the columns. That of the ratios is of the ratios, not the ratio of
 * the two means of times: an operation counts the same whatever it costs. */
static void print_mean(const struct operation *all, int count)
{
    double times[ENGINES] = {0}, ratios[ENGINES] = {0};
    for (int i = 0; i < count; i++)
        for (int e = 0; e < ENGINES; e++) {
            times[e] += all[i].times[e] / count;
            ratios[e] += all[i].ratios[e] / count;
        }
    char what[48];
    snprintf(what, sizeof what, "arithmetic mean of all %d", count);
    print_row("mean", times, ratios, what);
}

/* Prints the `rows` operations with the worst ratio. */
static void print_operations(int repeats, int rows)
{
    static struct operation all[BENCH_OPCODES];
    print_head("nanoseconds a word", "operation", repeats,
               ", the worst ratio first");
    int count = time_operations(all, repeats);
    qsort(all, (size_t)count, sizeof *all, worse_first);
    for (int i = 0; i < count && i < rows; i++) {
        char what[16];
        snprintf(what, sizeof what, "opcode %02X", (unsigned)all[i].opcode);
        print_row(all[i].name, all[i].times, all[i].ratios, what);
    }
    print_mean(all, count);
}

/* ---- Listings ----------------------------------------------------------- */

enum { MOST_TEXT = 425903 };

/* A sheet or its listing. */
struct paper {
    uint8_t bytes[MOST_TEXT];
    size_t length;
};

/* Milliseconds of one call, from a paper to another. */
static double time_text(text_function *function, const struct paper *from,
                        struct paper *to)
{
    double start = now();
    uint32_t reason = function(from->bytes, from->length, to->bytes,
                               sizeof to->bytes, &to->length);
    double time = (now() - start) / 1e6;
    if (reason != MODEL_DONE) {
        fprintf(stderr, "a listing is refused: reason %" PRIu32 "\n", reason);
        exit(1);
    }
    return time;
}

/* Both engines must make the same listing, and the sheet of it again. */
static void expect_same(const struct paper *x, const struct paper *y)
{
    if (x->length == y->length && memcmp(x->bytes, y->bytes, x->length) == 0)
        return;
    fprintf(stderr, "the listings differ, or are not of the sheet\n");
    exit(1);
}

/* The best of several calls, to list and to read; the engines take turns. */
static void time_listing(const struct paper *sheet, int repeats,
                         double list[ENGINES], double read[ENGINES])
{
    static struct paper texts[ENGINES], again;
    for (int i = 0; i < repeats; i++)
        for (int e = 0; e < ENGINES; e++) {
            double time = time_text(engines[e].list, sheet, &texts[e]);
            if (i == 0 || time < list[e])
                list[e] = time;
            time = time_text(engines[e].read, &texts[e], &again);
            if (i == 0 || time < read[e])
                read[e] = time;
            expect_same(&texts[0], &texts[e]);
            expect_same(sheet, &again);
        }
}

static void print_listing(int repeats)
{
    static struct bench_case c;
    static struct paper sheet;
    double list[ENGINES], read[ENGINES], ratios[ENGINES];
    bench_make_listing(&c);
    sheet.length = c.main.length;
    memcpy(sheet.bytes, c.main.bytes, c.main.length);
    time_listing(&sheet, repeats, list, read);
    print_head("milliseconds a call", "listing", repeats, "");
    set_ratios(list, ratios);
    print_row("list", list, ratios, "4,095 words: the 124 operations in turn");
    set_ratios(read, ratios);
    print_row("read", read, ratios, "the listing of that sheet");
}

/* ---- What is asked for -------------------------------------------------- */

enum { WORST = 20 };

struct wish {
    int repeats;
    int rows;    /* operations to print one by one; 0: the table of sheets */
    int listing; /* the listing and its reading instead */
};

/* False where the words of the command make no sense. */
static int read_wish(char **words, struct wish *wish)
{
    *wish = (struct wish){.repeats = 25};
    for (; *words != NULL; words++)
        if (strcmp(*words, "--each") == 0)
            wish->rows = WORST;
        else if (strcmp(*words, "--listing") == 0)
            wish->listing = 1;
        else if (strcmp(*words, "all") == 0 && wish->rows != 0)
            wish->rows = BENCH_OPCODES;
        else if ((wish->repeats = atoi(*words)) < 1)
            return 0;
    return 1;
}

int main(int count, char **words)
{
    struct wish wish;
    if (count < 1 || !read_wish(words + 1, &wish)) {
        fprintf(stderr,
                "usage: harness [--each [all] | --listing] [REPEATS]\n");
        return 2;
    }
    if (wish.listing)
        print_listing(wish.repeats);
    else if (wish.rows == 0)
        print_table(wish.repeats);
    else
        print_operations(wish.repeats, wish.rows);
    return 0;
}
