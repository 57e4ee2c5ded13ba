/*
 * A host for the proved Am29332 in C: lists a sheet and reads the listing back,
 * runs it, word by word, at once, in parts and interrupted, and prints what
 * happened.
 *
 *   host FILE.sheet     the sheet, then its registers, 4 bytes each, high first
 *
 * examples/rust-host prints the same from Rust. examples/build-hosts.sh builds
 * and runs both.
 */
#include "am29332.h"

#include <inttypes.h>
#include <stdbool.h>
#include <stdio.h>
#include <stdlib.h>
#include <string.h>

enum {
    MOST_BYTES = AM29332_SHEET_BYTES(AM29332_MAX_WORDS) +
                 4 * AM29332_MAX_REGISTERS,
    HANDLER_WORDS = 7,
    HANDLER_BYTES = AM29332_SHEET_BYTES(HANDLER_WORDS),
    HANDLER_REGISTERS = 4,
    PANEL_WORDS = 8,
    LISTING_LINES = 8
};

/* A sheet and the registers it starts with. */
struct job {
    uint8_t bytes[MOST_BYTES + 1]; /* room for one too many */
    size_t length; /* of the sheet alone */
    size_t words, registers;
    uint32_t file[AM29332_MAX_REGISTERS];
};

/* ---- Printing ----------------------------------------------------------- */

static void print_outcome(const char *what, am29332_outcome outcome)
{
    printf("%s: %02" PRIu32 " %s, place %" PRIu64 "\n", what, outcome.reason,
           am29332_reason_name(outcome.reason), outcome.place);
}

static void print_machine(am29332_machine machine)
{
    printf("  Q %08" PRIX32 ", status %08" PRIX32 "\n", machine.q,
           machine.status);
}

/* Five lamps, lit or dark: the pins C, Z, N, V and L. */
static void print_lamps(uint32_t pins)
{
    for (uint32_t pin = AM29332_PIN_C; pin != 0; pin /= 2)
        printf(" %c", (pins & pin) != 0 ? '*' : '.');
    putchar('\n');
}

static void print_file(const uint32_t *file, size_t registers)
{
    for (size_t r = 0; r < registers; r++)
        printf("  register %zu: %08" PRIX32 "\n", r, file[r]);
}

/* Stops the program where something is refused that should not be. */
static void expect_done(const char *what, am29332_outcome outcome)
{
    if (outcome.reason == AM29332_REASON_DONE)
        return;
    print_outcome(what, outcome);
    exit(1);
}

/* ---- Sheets ------------------------------------------------------------- */

/* Reads a file of the trace program's form. */
static void read_job(const char *path, struct job *job)
{
    FILE *in = fopen(path, "rb");
    if (in == NULL) {
        perror(path);
        exit(1);
    }
    size_t all = fread(job->bytes, 1, sizeof job->bytes, in);
    fclose(in);
    memset(job->file, 0, sizeof job->file);
    job->length = all;
    /* Where the header or the length is wrong, the check says so. */
    am29332_heading heading = am29332_read_header(job->bytes, all);
    job->words = heading.words;
    job->registers = heading.registers;
    size_t after = AM29332_SHEET_BYTES(job->words);
    if (heading.outcome.reason != AM29332_REASON_DONE ||
        all != after + 4 * job->registers)
        return;
    job->length = after;
    for (size_t r = 0; r < job->registers; r++) {
        const uint8_t *at = job->bytes + after + 4 * r;
        job->file[r] = (uint32_t)at[0] << 24 | (uint32_t)at[1] << 16 |
                       (uint32_t)at[2] << 8 | at[3];
    }
}

static void put_header(uint8_t *sheet, size_t words, size_t registers)
{
    sheet[0] = (uint8_t)(16 + words / 256);
    sheet[1] = (uint8_t)words;
    sheet[2] = (uint8_t)(registers * 2);
    sheet[3] = 0;
}

/*
 * A handler that counts how often it is let in. Its registers are the four from
 * `first` on, which no main sheet of `first` registers names: where it saves
 * status and Q, its count, and a zero to start from. A and B name a register
 * whether a word uses them or not, so where it does not they name the count. Y
 * is 0 where a word does not write, and then names none.
 */
static void make_handler(uint32_t first, uint8_t sheet[HANDLER_BYTES])
{
    const uint32_t s = first, q = first + 1;
    const uint32_t count = first + 2, zero = first + 3;
    const struct {
        uint32_t opcode, a, y, write;
    } words[HANDLER_WORDS] = {
        {AM29332_OP_PASS_STAT, count, s, 1},
        {AM29332_OP_PASS_Q, count, q, 1},
        {AM29332_OP_LOADQ_A, zero, 0, 0},
        {AM29332_OP_LDSTAT_A, zero, 0, 0},
        {AM29332_OP_INCR_A, count, count, 1},
        {AM29332_OP_LOADQ_A, q, 0, 0},
        {AM29332_OP_LDSTAT_A, s, 0, 0},
    };
    put_header(sheet, HANDLER_WORDS, first + HANDLER_REGISTERS);
    for (size_t i = 0; i < HANDLER_WORDS; i++) {
        am29332_word word = {.opcode = words[i].opcode,
                             .a = words[i].a,
                             .b = count,
                             .y = words[i].y,
                             .write = words[i].write};
        uint8_t *at = sheet + AM29332_SHEET_BYTES(i);
        expect_done("packing", am29332_pack(word, at, AM29332_WORD_BYTES));
    }
}

/* ---- Listings ----------------------------------------------------------- */

/* The first lines of a text. */
static void print_lines(const uint8_t *text, size_t length)
{
    int lines = 0;
    for (size_t i = 0; i < length && lines < LISTING_LINES; i++) {
        if (i == 0 || text[i - 1] == '\n')
            printf("  ");
        putchar(text[i]);
        lines += text[i] == '\n';
    }
}

/* The sheet as text, and the text as a sheet again. */
static void list_and_read(const struct job *job)
{
    static uint8_t text[AM29332_LISTING_MOST], sheet[AM29332_SHEET_MOST];
    am29332_wrote listed =
        am29332_list_sheet(job->bytes, job->length, text, sizeof text);
    print_outcome("listing", listed.outcome);
    printf("  %" PRIu64 " bytes\n", listed.bytes);
    print_lines(text, listed.bytes);
    am29332_wrote back =
        am29332_read_listing(text, listed.bytes, sheet, sizeof sheet);
    print_outcome("reading it", back.outcome);
    printf("  %" PRIu64 " bytes, the same as the sheet's: %s\n", back.bytes,
           back.bytes == job->length &&
                   memcmp(sheet, job->bytes, job->length) == 0
               ? "yes"
               : "no");
}

/* A text that an editor wrote, with a line that has no Y. */
static void read_fault(void)
{
    static const char text[] =
        "version=1 registers=4\n"
        "add code=3 position=0 width=0 a=0 b=1 y=2 write\n"
        "sub code=3 position=0 width=0 a=2 b=3 write\n";
    const uint8_t before[AM29332_SHEET_BYTES(2)] = {0};
    uint8_t sheet[sizeof before] = {0};
    am29332_wrote read = am29332_read_listing(
        (const uint8_t *)text, sizeof text - 1, sheet, sizeof sheet);
    print_outcome("reading a text whose line 2 lacks Y", read.outcome);
    printf("  %" PRIu64 " bytes, a byte was changed: %s\n", read.bytes,
           memcmp(sheet, before, sizeof sheet) == 0 ? "no" : "yes");
}

/* ---- Runs --------------------------------------------------------------- */

static bool same(const uint32_t *file, am29332_machine machine,
                 const uint32_t *other_file, am29332_machine other,
                 size_t registers)
{
    return machine.q == other.q && machine.status == other.status &&
           memcmp(file, other_file, registers * sizeof *file) == 0;
}

/* A line of the front panel: what stands on it after a step. */
static void print_panel(am29332_stepped shown)
{
    printf("%08" PRIX32 "  %" PRIX32 "       %08" PRIX32 "  %08" PRIX32 " ",
           shown.y, shown.parity, shown.machine.q, shown.machine.status);
    print_lamps(shown.pins);
}

/* A small front panel: the first words one by one, with what each shows; then
 * what is said and shown at the sheet's end and past it. */
static void step_by_step(const struct job *job)
{
    uint32_t file[AM29332_MAX_REGISTERS];
    am29332_machine machine = am29332_fresh();
    memcpy(file, job->file, sizeof file);
    puts("front panel");
    puts("  word  Y         parity  Q         status    C Z N V L");
    for (uint64_t at = 0; at < PANEL_WORDS && at < job->words; at++) {
        am29332_stepped shown = am29332_step(job->bytes, job->length, file,
                                             job->registers, machine, at);
        expect_done("step", shown.outcome);
        printf("  %4" PRIu64 "  ", at);
        print_panel(shown);
        machine = shown.machine;
    }
    for (uint64_t at = job->words; at <= job->words + 1; at++) {
        am29332_stepped none = am29332_step(job->bytes, job->length, file,
                                            job->registers, machine, at);
        print_outcome(at == job->words ? "step at the end" : "step past it",
                      none.outcome);
        printf("  none  ");
        print_panel(none);
    }
}

/* The sheet to its end, from a fresh machine. */
static am29332_machine run_at_once(const struct job *job, uint32_t *file)
{
    am29332_ran ran = am29332_run(job->bytes, job->length, file, job->registers,
                                  am29332_fresh(), 0, UINT64_MAX);
    print_outcome("run", ran.outcome);
    print_machine(ran.machine);
    print_file(file, job->registers);
    return ran.machine;
}

/* Half of it, and then the rest. */
static am29332_machine run_in_parts(const struct job *job, uint32_t *file)
{
    am29332_ran first = am29332_run(job->bytes, job->length, file,
                                    job->registers, am29332_fresh(), 0,
                                    job->words / 2);
    am29332_ran rest = am29332_run(job->bytes, job->length, file,
                                   job->registers, first.machine,
                                   first.outcome.place, UINT64_MAX);
    print_outcome("first part", first.outcome);
    print_outcome("second part", rest.outcome);
    return rest.machine;
}

/* With the handler let in where the schedule says. */
static am29332_interrupted run_interrupted(const struct job *job,
                                           const uint8_t *handler,
                                           size_t handler_length,
                                           const uint16_t *schedule,
                                           size_t entries,
                                           uint32_t file[AM29332_MAX_REGISTERS])
{
    am29332_interrupted end = am29332_interrupted_run(
        job->bytes, job->length, handler, handler_length, schedule, entries,
        file, AM29332_MAX_REGISTERS, am29332_fresh());
    print_outcome("interrupted run", end.outcome);
    printf("  mark %" PRIu32 "\n", end.mark);
    return end;
}

/* The plain run and the one in parts; the machine and file that they leave. */
static am29332_machine undisturbed(const struct job *job,
                                   uint32_t file[AM29332_MAX_REGISTERS])
{
    uint32_t parts[AM29332_MAX_REGISTERS];
    memcpy(file, job->file, sizeof parts);
    memcpy(parts, job->file, sizeof parts);
    am29332_machine at_once = run_at_once(job, file);
    am29332_machine in_parts = run_in_parts(job, parts);
    printf("  the same as at once: %s\n",
           same(file, at_once, parts, in_parts, job->registers) ? "yes" : "no");
    return at_once;
}

/* The interrupted run, held to the undisturbed one; then a refused one. */
static void disturbed(const struct job *job, am29332_machine alone,
                      const uint32_t *file_alone)
{
    uint8_t handler[HANDLER_BYTES];
    uint16_t schedule[AM29332_MAX_ENTRIES];
    uint32_t file[AM29332_MAX_REGISTERS];
    size_t entries = 0;
    make_handler((uint32_t)job->registers, handler);
    print_outcome("check of the handler",
                  am29332_check_handler(handler, sizeof handler));
    while (entries <= job->words && entries < AM29332_MAX_ENTRIES) {
        schedule[entries] = (uint16_t)entries;
        entries++;
    }
    memcpy(file, job->file, sizeof file);
    am29332_interrupted end = run_interrupted(job, handler, sizeof handler,
                                              schedule, entries, file);
    printf("  the handler counted %" PRIu32 " times\n",
           file[job->registers + 2]);
    printf("  the main sheet noticed nothing: %s\n",
           same(file, end.machine, file_alone, alone, job->registers) ? "yes"
                                                                      : "no");
    schedule[entries - 1] = (uint16_t)(job->words + 1);
    memcpy(file, job->file, sizeof file);
    run_interrupted(job, handler, sizeof handler, schedule, entries, file);
    printf("  a register was changed: %s\n",
           memcmp(file, job->file, sizeof file) == 0 ? "no" : "yes");
}

/* What a single word leaves on Y and on the lamps. */
static void print_answer(am29332_answer answer)
{
    printf("  Y %08" PRIX32 ", parity %" PRIX32 ", C Z N V L", answer.y,
           answer.parity);
    print_lamps(answer.pins);
}

/* A single word: example d of document 01, NOT-A on two bytes. */
static void single_word(void)
{
    am29332_inputs inputs = {
        .opcode = AM29332_OP_NOT_A, .code = 2, .a = 0x12345678};
    am29332_answer answer = am29332_single_word(inputs);
    print_outcome("single word NOT-A, two bytes of 12345678", answer.outcome);
    print_answer(answer);
}

/* One that is refused: the lamps show the status that was handed in. */
static void refused_word(void)
{
    am29332_inputs inputs = {.opcode = 0x1E,
                             .status = AM29332_STATUS_C | AM29332_STATUS_N |
                                       AM29332_STATUS_L};
    am29332_answer answer = am29332_single_word(inputs);
    print_outcome("single word 1E, which has no page", answer.outcome);
    print_answer(answer);
}

/* A register left in Y of a word that does not write, where a reader would take
 * it for a store. */
static void idle_field(void)
{
    am29332_word word = {.opcode = AM29332_OP_SUB, .b = 1, .y = 5};
    uint8_t bytes[AM29332_WORD_BYTES];
    print_outcome("packing SUB without write, Y 5",
                  am29332_pack(word, bytes, sizeof bytes));
}

/* Two numbers compared on one byte, as a branch is picked: SUB, and what its
 * answer says. Bit 13 is right in either mode, since it goes by the word's own
 * borrow switch. */
static void compare(uint32_t borrow)
{
    am29332_inputs inputs = {.opcode = AM29332_OP_SUB,
                             .code = 1,
                             .borrow = borrow,
                             .a = 0x0F,
                             .b = 0xF0};
    am29332_answer answer = am29332_single_word(inputs);
    print_outcome(borrow ? "SUB of 0F and F0, borrow mode"
                         : "SUB of 0F and F0, carry mode",
                  answer.outcome);
    printf("  less or equal: unsigned %s, signed %s\n",
           answer.status & AM29332_STATUS_UNSIGNED_LE ? "yes" : "no",
           answer.status & AM29332_STATUS_SIGNED_LE ? "yes" : "no");
}

/* The library that is linked, which must be one that this header describes. */
static void library(void)
{
    uint32_t version = am29332_library_version();
    printf("library %" PRIu32 ".%" PRIu32 ".%" PRIu32 "\n", version / 65536,
           version / 256 % 256, version % 256);
    if (version == AM29332_LIBRARY_VERSION)
        return;
    puts("the header is another version's");
    exit(1);
}

/* The first word of the sheet, field by field. */
static void first_word(const struct job *job)
{
    am29332_unpacked first = am29332_unpack(
        job->bytes + AM29332_HEADER_BYTES, job->length - AM29332_HEADER_BYTES);
    print_outcome("first word", first.outcome);
    printf("  opcode %02" PRIX32 ", byte code %" PRIu32 ", A %" PRIu32
           ", B %" PRIu32 ", Y %" PRIu32 ", write %" PRIu32 "\n",
           first.word.opcode, first.word.code, first.word.a, first.word.b,
           first.word.y, first.word.write);
}

int main(int count, char **arguments)
{
    static struct job job;
    uint32_t file[AM29332_MAX_REGISTERS];
    if (count != 2) {
        fprintf(stderr, "usage: %s FILE.sheet\n", arguments[0]);
        return 2;
    }
    library();
    single_word();
    refused_word();
    idle_field();
    compare(0);
    compare(1);
    print_outcome("check of no bytes", am29332_check_sheet(NULL, 0));
    read_job(arguments[1], &job);
    am29332_outcome check = am29332_check_sheet(job.bytes, job.length);
    print_outcome("check of the sheet", check);
    if (check.reason != AM29332_REASON_DONE)
        return 1;
    printf("  %zu words, %zu registers\n", job.words, job.registers);
    if (job.words > 0)
        first_word(&job);
    list_and_read(&job);
    read_fault();
    step_by_step(&job);
    am29332_machine machine = undisturbed(&job, file);
    if (job.registers + HANDLER_REGISTERS <= AM29332_MAX_REGISTERS)
        disturbed(&job, machine, file);
    return 0;
}
