/*
 * Holds the C model to the independent program (see test-model.sh).
 *
 *   test-model vectors < LINES      each line's answer is the model's
 *   test-model digest               prints the 128 digest lines
 *   test-model interrupts < LINES   each line's answer is the model's
 *   test-model trace < INPUT        the trace program over the model
 *   test-model traces FILE.in...    each text is FILE.out, and each accepted
 *                                   sheet comes out the same run at once and
 *                                   in parts
 *   test-model words                packing, unpacking, their refusals
 *   test-model forms                every way to break one field of a handler,
 *                                   and what names a register
 *   test-model listings < BUNDLE    prints the answer to each case of a listing
 *
 * The formats and the draw are described in ../oracle/README.md. Exit status 1
 * on a miss.
 */
#include "model.h"

#include <inttypes.h>
#include <stdio.h>
#include <stdlib.h>
#include <string.h>

/* ---- The generator and the draw ----------------------------------------- */

static uint64_t next(uint64_t x)
{
    x ^= x << 13;
    x ^= x >> 7;
    return x ^ x << 17;
}

static uint64_t draw(uint64_t *x) { return *x = next(*x); }

static uint64_t stepped(uint64_t x)
{
    for (int i = 0; i < 16; i++)
        x = next(x);
    return x;
}

enum { SYSTEMATIC = 73728, CASES = 102400 };

/* The digits 0, 1, 4, 5, 8, 9, A, F. */
static uint32_t digit(uint32_t j) { return 0xFA985410u >> 4 * j & 15; }

/* Pattern 0 to 255: near a power of two, turned over from 96 on; from 192 on
 * the same two digits in every byte. */
static uint32_t pattern(uint32_t k)
{
    uint32_t near = (1u << k % 32) + k / 32 % 3 - 1;
    if (k >= 192)
        return digit(k / 8 % 8) * 0x10101010u + digit(k % 8) * 0x01010101u;
    return k >= 96 ? ~near : near;
}

static struct model_inputs systematic(uint8_t opcode, uint32_t i, uint64_t *x)
{
    uint64_t r1 = draw(x), r2 = draw(x);
    uint32_t k = i % 32, link = k / 4 % 2;
    uint32_t status = (uint32_t)r1 & ~(1u << 16 | 1u << 20);
    struct model_inputs in = {
        .opcode = opcode, .byte_code = (uint8_t)(i / 32 % 4),
        .position = (uint8_t)(r2 % 64), .width = (uint8_t)(r2 / 64 % 32),
        .macro_select = (uint8_t)(k / 8 % 2),
        .macro_carry = (uint8_t)(k / 2 % 2), .macro_link = (uint8_t)(1 - link),
        .borrow = (uint8_t)(k / 16),
        .a = pattern(i / 128 % 256), .b = pattern((r2 >> 11) % 256),
        .q = (uint32_t)(r1 >> 32), .status = status | k % 2 << 16 | link << 20};
    return in;
}

static uint32_t pattern_or(uint64_t choice, uint64_t drawn)
{
    return choice % 2 ? pattern((uint32_t)(choice / 2)) : (uint32_t)drawn;
}

/* Puts one input out of range. */
static void spoil(struct model_inputs *in, uint64_t kind, uint64_t s)
{
    uint8_t *switches[4] = {&in->macro_select, &in->macro_carry,
                            &in->macro_link, &in->borrow};
    if (kind == 0)
        in->byte_code = (uint8_t)(in->byte_code + 4 * s);
    else if (kind == 1)
        in->position = (uint8_t)(in->position + 64 * s);
    else if (kind == 2)
        in->width = (uint8_t)(in->width + 32 * s);
    else if (kind < 7)
        *switches[kind - 3] = (uint8_t)(*switches[kind - 3] + 2 * s);
    else {
        in->opcode = (uint8_t)(in->opcode + 128);
        in->byte_code = (uint8_t)(in->byte_code + 4 * (s - 1));
    }
}

static struct model_inputs random_case(uint8_t opcode, uint64_t *x)
{
    uint64_t r1 = draw(x), r2 = draw(x), r3 = draw(x);
    struct model_inputs in = {
        .opcode = opcode, .byte_code = (uint8_t)((r3 >> 11) % 4),
        .position = (uint8_t)(r3 % 64), .width = (uint8_t)((r3 >> 6) % 32),
        .macro_select = (uint8_t)((r3 >> 13) % 2),
        .macro_carry = (uint8_t)((r3 >> 14) % 2),
        .macro_link = (uint8_t)((r3 >> 15) % 2),
        .borrow = (uint8_t)((r3 >> 16) % 2),
        .a = pattern_or((r3 >> 17) % 512, r2 >> 32),
        .b = pattern_or((r3 >> 26) % 512, r2),
        .q = pattern_or((r3 >> 35) % 512, r1 >> 32), .status = (uint32_t)r1};
    if ((r3 >> 44) % 16 == 0)
        spoil(&in, (r3 >> 48) % 8, (r3 >> 51) % 2 + 1);
    return in;
}

static uint64_t fold(uint64_t sum, const uint32_t *values, size_t count)
{
    for (size_t i = 0; i < count; i++)
        sum = next(sum ^ values[i]);
    return sum;
}

/* ---- The cases run on registers ----------------------------------------- */

enum { REGISTERS = 64, SHEET_ROOM = 16 };

/* What a run is called with, the file and the machine apart. */
struct call {
    uint8_t sheet[SHEET_ROOM];
    size_t length, lent;
    uint64_t start, allowance;
};

static void make_unusual(struct call *call, uint64_t kind, uint8_t n)
{
    switch (kind) {
    case 0: call->sheet[2] = (uint8_t)(2 * n); break;
    case 1: call->sheet[9] = (uint8_t)(call->sheet[9] | n % 32); break;
    case 2: call->sheet[0] = n; break;
    case 3: call->sheet[3] = n; break;
    case 4: call->start = n % 4; break;
    case 5: call->allowance = n % 4; break;
    case 6: call->length = n % 16; break;
    default: call->lent = n;
    }
}

/* A word that does not write has Y 0, but for one in sixteen, whose Y is left
 * idle. */
static struct model_word word_of(const struct model_inputs *in, uint64_t how)
{
    uint8_t write = (uint8_t)((how >> 18) % 2);
    int has_y = write == 1 || (how >> 32) % 16 == 0;
    struct model_word word = {
        .opcode = in->opcode, .byte_code = in->byte_code,
        .position = in->position, .width = in->width,
        .a = (uint8_t)(how % 64), .b = (uint8_t)((how >> 6) % 64),
        .y = (uint8_t)(has_y ? (how >> 12) % 64 : 0), .write = write,
        .macro_select = in->macro_select, .macro_carry = in->macro_carry,
        .macro_link = in->macro_link, .borrow = in->borrow};
    return word;
}

/* Puts Y and write into a packed word. Packing would refuse a field left idle. */
static void put_y(uint8_t packed[MODEL_WORD_BYTES], uint8_t y, uint8_t write)
{
    packed[4] = (uint8_t)(y * 4 + write * 2 + packed[4] % 2);
}

/* Runs one more case on the file, and folds what it leaves into the sum. */
static uint64_t run_case(uint64_t sum, const struct model_inputs *in,
                         uint64_t how, uint32_t *file)
{
    struct call call = {{0x10, 0x01, 0x80}, MODEL_HEADER_BYTES + MODEL_WORD_BYTES,
                        REGISTERS, 0, 1};
    struct model_word word = word_of(in, how);
    struct model_machine machine = {in->q, in->status};
    uint8_t *packed = call.sheet + MODEL_HEADER_BYTES;
    uint32_t values[5];
    struct model_verdict ran;
    file[word.a] = in->a;
    file[word.b] = in->b;
    values[0] = model_pack(&word, packed, MODEL_WORD_BYTES).reason;
    *packed = (uint8_t)(word.opcode % 128 * 2 + *packed % 2);
    put_y(packed, word.y, word.write);
    if ((how >> 19) % 16 == 0)
        make_unusual(&call, (how >> 23) % 8, (uint8_t)((how >> 26) % 64));
    ran = model_run(call.sheet, call.length, file, call.lent, &machine,
                    call.start, call.allowance);
    values[1] = ran.reason;
    values[2] = (uint32_t)ran.place;
    values[3] = machine.q;
    values[4] = machine.status;
    return fold(fold(sum, values, 5), file, REGISTERS);
}

/* ---- The digest --------------------------------------------------------- */

static uint64_t single_case(uint64_t sum, const struct model_inputs *in)
{
    struct model_answer out = model_single(in);
    const uint32_t values[7] = {out.reason, out.place,  out.y,   out.parity,
                                out.q,      out.status, out.pins};
    return fold(sum, values, 7);
}

/* The cases as single words, and the same cases run on registers. */
static void print_line(uint8_t opcode)
{
    uint64_t x = stepped(0x9E3779B97F4A7C15u ^ opcode), single = 1, run = 1;
    uint32_t file[REGISTERS] = {0};
    for (uint32_t i = 0; i < CASES; i++) {
        struct model_inputs in = i < SYSTEMATIC ? systematic(opcode, i, &x)
                                                : random_case(opcode, &x);
        single = single_case(single, &in);
        run = run_case(run, &in, draw(&x), file);
    }
    printf("%02X %016" PRIX64 " %016" PRIX64 "\n", opcode, single, run);
}

static int print_digest(void)
{
    for (unsigned opcode = 0; opcode < 128; opcode++)
        print_line((uint8_t)opcode);
    return 0;
}

/* ---- Lines -------------------------------------------------------------- */

/* The longest line is an interrupted run with some 1,026 entries. */
static char line[1 << 16];
static char answer_text[1 << 13];

/* Two hex digits a byte, four an entry, eight a register. */
static uint64_t hex_number(const char *text, size_t digits)
{
    char buffer[17] = {0};
    memcpy(buffer, text, digits);
    return strtoull(buffer, NULL, 16);
}

static int vector_holds(void)
{
    struct model_inputs in;
    struct model_answer out;
    uint64_t v[12];
    const char *at = line;
    for (int i = 0; i < 12; i++) {
        v[i] = hex_number(at, i < 8 ? 2 : 8);
        at += i < 8 ? 3 : 9;
    }
    in = (struct model_inputs){
        (uint8_t)v[0], (uint8_t)v[1], (uint8_t)v[2], (uint8_t)v[3],
        (uint8_t)v[4], (uint8_t)v[5], (uint8_t)v[6], (uint8_t)v[7],
        (uint32_t)v[8], (uint32_t)v[9], (uint32_t)v[10], (uint32_t)v[11]};
    out = model_single(&in);
    snprintf(answer_text, sizeof answer_text,
             "%02" PRIX32 " %02" PRIX32 " %08" PRIX32 " %08" PRIX32
             " %08" PRIX32 " %02" PRIX32 "\n",
             out.reason, out.parity, out.y, out.q, out.status, out.pins);
    return strlen(line) == 96 && strcmp(at, answer_text) == 0;
}

/* A list of hex numbers that ends at a space; `-` is an empty one. Gives how
 * many there are and moves on to the next. */
static size_t hex_list(const char **at, size_t digits, uint64_t *values)
{
    size_t count = 0;
    if (**at == '-')
        ++*at;
    while (**at != ' ' && **at != '\n' && **at != 0) {
        values[count++] = hex_number(*at, digits);
        *at += digits;
    }
    if (**at != 0)
        ++*at;
    return count;
}

enum { MOST_BYTES = 1 << 12 };

struct interrupt_case {
    uint8_t main[MOST_BYTES], handler[MOST_BYTES];
    uint16_t schedule[MOST_BYTES];
    uint32_t file[64];
    size_t main_length, handler_length, entries, registers;
    struct model_machine machine;
};

static const char *read_interrupt_case(struct interrupt_case *c)
{
    static uint64_t values[MOST_BYTES];
    const char *at = line;
    c->main_length = hex_list(&at, 2, values);
    for (size_t i = 0; i < c->main_length; i++)
        c->main[i] = (uint8_t)values[i];
    c->handler_length = hex_list(&at, 2, values);
    for (size_t i = 0; i < c->handler_length; i++)
        c->handler[i] = (uint8_t)values[i];
    c->entries = hex_list(&at, 4, values);
    for (size_t i = 0; i < c->entries; i++)
        c->schedule[i] = (uint16_t)values[i];
    c->registers = hex_list(&at, 8, values);
    for (size_t i = 0; i < c->registers; i++)
        c->file[i] = (uint32_t)values[i];
    hex_list(&at, 8, values);
    c->machine.q = (uint32_t)values[0];
    hex_list(&at, 8, values);
    c->machine.status = (uint32_t)values[0];
    return at;
}

static void print_interrupt_answer(const struct interrupt_case *c,
                                   struct model_verdict v)
{
    char *out = answer_text;
    out += sprintf(out, "%02" PRIX32 " %08" PRIX64 " %02" PRIX32 " ", v.reason,
                   v.place, v.mark);
    if (c->registers == 0)
        *out++ = '-';
    for (size_t i = 0; i < c->registers; i++)
        out += sprintf(out, "%08" PRIX32, c->file[i]);
    sprintf(out, " %08" PRIX32 " %08" PRIX32 "\n", c->machine.q,
            c->machine.status);
}

static int interrupt_holds(void)
{
    static struct interrupt_case c;
    const char *expected = read_interrupt_case(&c);
    struct model_verdict v = model_run_interrupted(
        c.main, c.main_length, c.handler, c.handler_length, c.schedule,
        c.entries, c.file, c.registers, &c.machine);
    print_interrupt_answer(&c, v);
    return strcmp(expected, answer_text) == 0;
}

/* Every line of standard input holds. */
static int all_lines(const char *what, int (*holds)(void))
{
    unsigned long lines = 0, misses = 0;
    while (fgets(line, sizeof line, stdin)) {
        lines++;
        if (!holds()) {
            misses++;
            printf("%s: line %lu\n  expected ..%s  model says %s", what, lines,
                   strlen(line) > 60 ? line + strlen(line) - 60 : line,
                   answer_text);
        }
    }
    printf("%s: %lu lines, %lu misses\n", what, lines, misses);
    return lines == 0 || misses != 0;
}

/* ---- Trace -------------------------------------------------------------- */

/* The largest input is 4 + 6 x 4,095 + 4 x 64 bytes; more is as good as long. */
enum { MOST_INPUT = 24832, MOST_TEXT = 40 * 4096 };

struct trace_input {
    uint8_t bytes[MOST_INPUT];
    size_t length;
    size_t sheet_length; /* where the verdict is done */
    uint32_t file[64];
    size_t registers;
};

/* 3, 4, 5, then 6 on the whole total, then the words. */
static struct model_verdict check_input(struct trace_input *in)
{
    struct model_verdict v = model_check(in->bytes, in->length);
    size_t count, total;
    if (v.reason >= MODEL_SHORT && v.reason <= MODEL_HEADER)
        return v;
    count = (size_t)(in->bytes[0] & 15) << 8 | in->bytes[1];
    in->registers = in->bytes[2] >> 1;
    in->sheet_length = MODEL_HEADER_BYTES + MODEL_WORD_BYTES * count;
    total = in->sheet_length + 4 * in->registers;
    if (in->length != total)
        return (struct model_verdict){.reason = MODEL_LENGTH};
    return model_check(in->bytes, in->sheet_length);
}

static void read_file_registers(struct trace_input *in)
{
    const uint8_t *p = in->bytes + in->sheet_length;
    for (size_t i = 0; i < in->registers; i++, p += 4)
        in->file[i] = (uint32_t)p[0] << 24 | (uint32_t)p[1] << 16 |
                      (uint32_t)p[2] << 8 | (uint32_t)p[3];
}

/* The pins as five binary digits, C first. */
static const char *pin_digits(uint32_t pins)
{
    static char digits[6];
    for (int i = 0; i < 5; i++)
        digits[i] = pins >> (4 - i) & 1 ? '1' : '0';
    return digits;
}

/* The trace program's text. Leaves the file and the machine as they end. */
static struct model_verdict trace(struct trace_input *in,
                                  struct model_machine *machine, char *text)
{
    struct model_verdict v = check_input(in);
    if (v.reason == MODEL_DONE) {
        read_file_registers(in);
        v.place = (in->sheet_length - MODEL_HEADER_BYTES) / MODEL_WORD_BYTES;
        for (uint64_t i = 0; i < v.place; i++) {
            uint32_t y = model_step(in->bytes, i, in->file, machine);
            text += sprintf(text,
                            "%04" PRIX64 " %08" PRIX32 " %08" PRIX32
                            " %08" PRIX32 " %s\n",
                            i, y, machine->q, machine->status,
                            pin_digits(model_pins(machine->status)));
        }
    }
    sprintf(text, "%02" PRIu32 " %04" PRIX64 "\n", v.reason, v.place);
    return v;
}

static size_t read_all(const char *name, void *room, size_t most)
{
    FILE *file = fopen(name, "rb");
    size_t length;
    if (!file) {
        perror(name);
        exit(1);
    }
    length = fread(room, 1, most, file);
    fclose(file);
    return length;
}

/* A status with bit 13 as a run hands it back: (not C) or Z. */
static uint32_t in_carry_mode(uint32_t status)
{
    uint32_t below_or_equal = (~status >> 16 | status >> 19) & 1;
    return (status & ~(1u << 13)) | below_or_equal << 13;
}

/* Run at once, and in parts of random length, ends as the stepped one did, the
 * status in carry mode. */
static int parts_hold(const struct trace_input *ended,
                      struct model_machine stepped_machine, uint64_t count,
                      uint64_t *random)
{
    for (int in_parts = 0; in_parts < 2; in_parts++) {
        struct trace_input in = *ended;
        struct model_machine machine = {0, 0};
        uint64_t start = 0;
        read_file_registers(&in);
        do {
            uint64_t part = in_parts ? draw(random) % 9 : UINT64_MAX;
            uint64_t left = count - start;
            struct model_verdict v =
                model_run(in.bytes, in.sheet_length, in.file, in.registers,
                          &machine, start, part);
            if (v.reason != MODEL_DONE || v.place != (part < left ? part : left))
                return 0;
            start += v.place;
        } while (start < count);
        if (memcmp(in.file, ended->file, sizeof in.file) != 0 ||
            machine.q != stepped_machine.q ||
            machine.status != in_carry_mode(stepped_machine.status))
            return 0;
    }
    return 1;
}

/* A start past the end and a file too small are refused, nothing changed. */
static int refusals_hold(const struct trace_input *ended, uint64_t count)
{
    struct trace_input in = *ended;
    struct model_machine machine = {0x12345678, 0xFFFFFFFF};
    struct model_verdict start =
        model_run(in.bytes, in.sheet_length, in.file, in.registers, &machine,
                  count + 1, 1);
    struct model_verdict file =
        model_run(in.bytes, in.sheet_length, in.file, in.registers - 1,
                  &machine, count + 1, 1);
    return start.reason == MODEL_START && start.place == 0 &&
           file.reason == MODEL_FILE && file.place == 0 &&
           memcmp(in.file, ended->file, sizeof in.file) == 0 &&
           machine.q == 0x12345678 && machine.status == 0xFFFFFFFF;
}

/* FILE.out for FILE.in. */
static const char *text_name(const char *name)
{
    static char out[4096];
    snprintf(out, sizeof out, "%.*sout", (int)strlen(name) - 2, name);
    return out;
}

static int check_traces(char **names, int count)
{
    static struct trace_input in;
    static char text[MOST_TEXT], expected[MOST_TEXT];
    uint64_t random = stepped(3);
    int misses = 0, accepted = 0;
    uint64_t words = 0;
    for (int i = 0; i < count; i++) {
        struct model_machine machine = {0, 0};
        struct model_verdict v;
        const char *name = names[i];
        memset(&in, 0, sizeof in);
        in.length = read_all(name, in.bytes, sizeof in.bytes);
        v = trace(&in, &machine, text);
        expected[read_all(text_name(name), expected, sizeof expected - 1)] = 0;
        if (strcmp(text, expected) != 0) {
            misses++;
            printf("traces: %s differs\n", name);
        }
        if (v.reason != MODEL_DONE)
            continue;
        accepted++;
        words += v.place;
        if (!parts_hold(&in, machine, v.place, &random) ||
            !refusals_hold(&in, v.place)) {
            misses++;
            printf("traces: %s: runs differ\n", name);
        }
    }
    printf("traces: %d inputs, %d accepted with %" PRIu64
           " words, each run at once and in parts; %d misses\n",
           count, accepted, words, misses);
    return count == 0 || misses != 0;
}

static int print_trace(void)
{
    static struct trace_input in;
    static char text[MOST_TEXT];
    struct model_machine machine = {0, 0};
    in.length = fread(in.bytes, 1, sizeof in.bytes, stdin);
    trace(&in, &machine, text);
    fputs(text, stdout);
    return 0;
}

/* ---- Packing and unpacking ---------------------------------------------- */

static unsigned long tried, missed;

static void expect(int holds, const char *what)
{
    tried++;
    if (!holds) {
        missed++;
        printf("miss: %s\n", what);
    }
}

/* Six bytes unpack and pack to themselves, or are refused with the reason that
 * a sheet of this one word is refused with. */
static void try_bytes(const uint8_t *bytes)
{
    static const struct model_word zero;
    struct model_word word;
    uint8_t packed[7] = {0, 0, 0, 0, 0, 0, 0xA5};
    uint8_t sheet[10] = {0x10, 0x01, 0x80, 0x00};
    struct model_verdict v = model_unpack(bytes, 6, &word), whole;
    memcpy(sheet + 4, bytes, 6);
    whole = model_check(sheet, sizeof sheet);
    expect(v.reason == whole.reason && v.place == 0, "sheet of one word");
    if (v.reason != MODEL_DONE) {
        expect(memcmp(&word, &zero, sizeof zero) == 0, "refused word not zero");
        return;
    }
    expect(model_pack(&word, packed, 5).reason == MODEL_ROOM, "room, pack");
    expect(packed[0] == 0, "bytes changed by a refusal");
    expect(model_pack(&word, packed, 7).reason == MODEL_DONE, "pack");
    expect(memcmp(bytes, packed, 6) == 0 && packed[6] == 0xA5, "round trip");
    word.write = 0;
    word.y |= 1;
    expect(model_pack(&word, packed, 0).reason == MODEL_IDLE, "idle");
    word.position |= 64;
    expect(model_pack(&word, packed, 0).reason == MODEL_INPUTS, "inputs");
    word.opcode = 0x4C;
    expect(model_pack(&word, packed, 0).reason == MODEL_OPCODE, "opcode");
}

/* The reason of a sheet of one word on four registers, and of unpacking it:
 * the same but for 9 Register, which unpacking does not give. */
static void expect_reason(const uint8_t bytes[MODEL_WORD_BYTES], uint32_t reason)
{
    uint8_t sheet[10] = {0x10, 0x01, 4 << 1, 0x00};
    struct model_word word;
    memcpy(sheet + 4, bytes, MODEL_WORD_BYTES);
    expect(model_check(sheet, sizeof sheet).reason == reason, "order, sheet");
    expect(model_unpack(bytes, MODEL_WORD_BYTES, &word).reason ==
               (reason == MODEL_REGISTER ? MODEL_DONE : reason),
           "order, unpack");
}

/* A word with every fault that a sheet can have in it, put right one by one:
 * 8 Spare, 17 Idle, 1 Opcode, 9 Register. */
static void try_order(void)
{
    uint8_t bytes[MODEL_WORD_BYTES] = {0x4C << 1, 0, 0, 5, 5 << 2, 1};
    expect_reason(bytes, MODEL_SPARE);
    bytes[5] = 0;
    expect_reason(bytes, MODEL_IDLE);
    put_y(bytes, 5, 1);
    expect_reason(bytes, MODEL_OPCODE);
    bytes[0] = OP_ADD << 1;
    expect_reason(bytes, MODEL_REGISTER);
    put_y(bytes, 0, 0);
    expect_reason(bytes, MODEL_REGISTER);
    bytes[3] = 3;
    expect_reason(bytes, MODEL_DONE);
    for (uint8_t y = 1; y < 64; y++) {
        put_y(bytes, y, 0);
        expect_reason(bytes, MODEL_IDLE);
    }
}

static int try_words(void)
{
    uint64_t x = stepped(4);
    struct model_word word;
    uint8_t bytes[6];
    for (int i = 0; i < 20000; i++) {
        uint64_t bits = draw(&x);
        for (int j = 0; j < 6; j++)
            bytes[j] = (uint8_t)(bits >> (8 * j + 8));
        if (bits % 8 != 0)
            bytes[5] &= 0xE0;
        if (bits / 8 % 8 != 0 && bytes[4] / 2 % 2 == 0)
            put_y(bytes, 0, 0);
        try_bytes(bytes);
    }
    try_order();
    bytes[5] |= 1;
    expect(model_unpack(bytes, 5, &word).reason == MODEL_ROOM, "room, unpack");
    printf("words: %lu checks of packing and unpacking, %lu misses\n", tried,
           missed);
    return missed != 0;
}

/* ---- The handler's form ------------------------------------------------- */

enum { OWN = 4, OTHER = 5, DECLARED = 6, BODY = 4, LAST = 6 };

/* The fields of a word as an array, in the order of struct model_word. */
enum { OPCODE, BYTE_CODE, POSITION, WIDTH, A, B, Y, WRITE, FIELDS = 12 };

_Static_assert(sizeof(struct model_word) == FIELDS, "a byte a field");

typedef uint8_t fields[FIELDS];

static fields good[LAST + 1];

/* A good handler, with its save registers. Where they are register 0, the words
 * that do not write have that number in Y, and do not name it. */
static void make_good(uint8_t s, uint8_t q)
{
    const fields words[LAST + 1] = {
        {OP_PASS_STAT, 0, 1, 2, OWN, OWN, s, 1},
        {OP_PASS_Q, 0, 1, 2, OWN, OWN, q, 1},
        {OP_LOADQ_A, 0, 1, 2, OWN, OWN, 0, 0},
        {OP_LDSTAT_A, 0, 1, 2, OWN, OWN, 0, 0},
        {OP_ADD, 0, 1, 2, OWN, OWN, OWN, 1},
        {OP_LOADQ_A, 0, 1, 2, q, OWN, 0, 0},
        {OP_LDSTAT_A, 0, 1, 2, s, OWN, 0, 0}};
    memcpy(good, words, sizeof good);
}

struct small_sheet {
    uint8_t bytes[MODEL_HEADER_BYTES + MODEL_WORD_BYTES * (LAST + 1)];
    size_t length;
};

/* The sheet of some words, also where they have a field left idle. */
static struct small_sheet sheet_of(fields *words, int count)
{
    struct small_sheet sheet = {{0x10, (uint8_t)count, DECLARED << 1, 0},
                                MODEL_HEADER_BYTES};
    for (int i = 0; i < count; i++) {
        struct model_word word;
        uint8_t *packed = sheet.bytes + sheet.length;
        memcpy(&word, words[i], sizeof word);
        word.y = 0;
        model_pack(&word, packed, MODEL_WORD_BYTES);
        put_y(packed, words[i][Y], words[i][WRITE]);
        sheet.length += MODEL_WORD_BYTES;
    }
    return sheet;
}

static void expect_handler(fields *words, uint32_t reason, uint64_t place,
                           const char *what)
{
    struct small_sheet sheet = sheet_of(words, LAST + 1);
    struct model_verdict v = model_check_handler(sheet.bytes, sheet.length);
    expect(v.reason == reason && v.place == place, what);
}

/* The place where the good handler with this one field changed breaks the form
 * by document 01, or -1: position and width are free, and so is the body but
 * for the save registers. */
static int place_of_change(int word, int at, uint8_t value)
{
    const uint8_t s = good[0][Y], q = good[1][Y];
    if (value == good[word][at] || at == POSITION || at == WIDTH)
        return -1;
    if (at < A || at > Y)
        return word == BODY ? -1 : word;
    if (at == Y && word < 2) { /* s or q is another register now */
        if (value == (word == 0 ? q : s))
            return 1;
        if (value == OWN)
            return 0; /* which word 0 names in A */
        return word == 0 ? LAST : LAST - 1;
    }
    if (value == s || value == q)
        return word;
    return at == A && word > BODY ? word : -1;
}

/* A field left idle is refused before the form is looked at. */
static void try_change(int word, int at, uint8_t value)
{
    static const char what[] = "handler with one field changed";
    int place = place_of_change(word, at, value);
    fields words[LAST + 1];
    memcpy(words, good, sizeof words);
    words[word][at] = value;
    if (words[word][WRITE] == 0 && words[word][Y] != 0)
        expect_handler(words, MODEL_IDLE, (uint64_t)word, what);
    else if (place >= 0)
        expect_handler(words, MODEL_FORM, (uint64_t)place, what);
    else
        expect_handler(words, MODEL_DONE, 0, what);
}

static void try_changes(void)
{
    static const uint8_t opcodes[] = {OP_PASS_STAT, OP_PASS_Q, OP_LOADQ_A,
                                      OP_LOADQ_B, OP_LDSTAT_A, OP_LDSTAT_B,
                                      OP_ADD};
    for (int word = 0; word <= LAST; word++) {
        for (size_t i = 0; i < sizeof opcodes; i++)
            try_change(word, OPCODE, opcodes[i]);
        for (uint8_t value = 0; value < 4; value++)
            try_change(word, BYTE_CODE, value);
        for (uint8_t value = 0; value < 32; value++) {
            try_change(word, POSITION, value);
            try_change(word, WIDTH, value);
        }
        for (int at = A; at <= Y; at++)
            for (uint8_t value = 0; value <= OTHER; value++)
                try_change(word, at, value);
        for (int at = WRITE; at < FIELDS; at++)
            for (uint8_t value = 0; value < 2; value++)
                try_change(word, at, value);
    }
}

/* Words that write in a good handler, without it: words 0 and 1 are at fault,
 * and their Y is s or q all the same; the body may be so. */
static void try_unwritten(void)
{
    make_good(2, 3);
    good[1][Y] = good[1][WRITE] = 0;
    expect_handler(good, MODEL_FORM, 1, "word 1 does not write");
    good[0][B] = 0;
    expect_handler(good, MODEL_FORM, 0, "q is 0 then, which word 0 names");
    make_good(0, 3);
    good[BODY][Y] = good[BODY][WRITE] = 0;
    expect_handler(good, MODEL_DONE, 0, "the body does not write");
}

/* What an interrupted run says to one main word with register 0 in Y and the
 * good handler. A refusal is at that word. */
static uint32_t overlap_with(uint8_t write)
{
    fields words[1] = {{OP_ADD, 0, 0, 0, OTHER, OTHER, 0, write}};
    struct small_sheet main_sheet = sheet_of(words, 1);
    struct small_sheet handler = sheet_of(good, LAST + 1);
    const uint16_t schedule[] = {0, 1};
    uint32_t file[DECLARED] = {0};
    struct model_machine machine = {0, 0};
    struct model_verdict v = model_run_interrupted(
        main_sheet.bytes, main_sheet.length, handler.bytes, handler.length,
        schedule, 2, file, DECLARED, &machine);
    int is_done = v.reason == MODEL_DONE;
    expect(v.place == (is_done ? 1 + 2 * (LAST + 1) : 0), "place of an overlap");
    expect(v.mark == (is_done ? MODEL_NEITHER : MODEL_MAIN), "mark of it");
    return v.reason;
}

/* Y names a register only where a word writes, in the main sheet and in the
 * handler's. */
static void try_overlap(void)
{
    make_good(0, 3);
    expect(overlap_with(0) == MODEL_DONE, "main does not write register 0");
    expect(overlap_with(1) == MODEL_OVERLAP, "main writes register 0");
    make_good(2, 3);
    expect(overlap_with(1) == MODEL_DONE, "the handler does not write it");
}

static int try_forms(void)
{
    static const uint8_t saves[][2] = {{2, 3}, {0, 3}, {3, 0}};
    for (size_t i = 0; i < sizeof saves / sizeof *saves; i++) {
        make_good(saves[i][0], saves[i][1]);
        try_changes();
    }
    try_unwritten();
    try_overlap();
    printf("forms: %lu checks of handlers, %lu misses\n", tried, missed);
    return missed != 0;
}

/* ---- Listings ----------------------------------------------------------- */

enum { BEFORE = 0xA5, PAST = 64, MOST_LISTED = 425903, MOST_PACKED = 24574 };

typedef struct model_verdict listing_function(const uint8_t *from,
                                              size_t length, uint8_t *to,
                                              size_t room, size_t *bytes);

/* FNV-1a. */
static uint32_t hash(const uint8_t *bytes, size_t length)
{
    uint32_t h = 2166136261u;
    for (size_t i = 0; i < length; i++)
        h = (h ^ bytes[i]) * 16777619u;
    return h;
}

/* Room for a case's bytes: of no bytes too, as they are handed on. */
static uint8_t *room_for(size_t bytes)
{
    uint8_t *room = malloc(bytes + 1);
    if (room == NULL)
        exit(1);
    return memset(room, BEFORE, bytes + 1);
}

static size_t read4(FILE *in)
{
    size_t number = 0;
    for (int i = 0; i < 4; i++)
        number = number << 8 | (uint8_t)getc(in);
    return number;
}

/* What is told of an accepted case: whether a sheet's listing gives it back, or
 * the length and hash of the listing of a sheet that was read. */
static void print_back(int kind, const uint8_t *from, size_t length,
                       const uint8_t *out, size_t written)
{
    static uint8_t back[MOST_LISTED];
    size_t bytes;
    if (kind == 's') {
        model_read(out, written, back, MOST_PACKED, &bytes);
        int same = bytes == length && memcmp(back, from, length) == 0;
        printf(same ? " same" : " differs");
    } else {
        model_list(out, written, back, MOST_LISTED, &bytes);
        printf(" %08zX %08" PRIX32, bytes, hash(back, bytes));
    }
}

static void print_case(int kind, const uint8_t *from, size_t length,
                       uint8_t *out, size_t room)
{
    listing_function *function = kind == 's' ? model_list : model_read;
    size_t written;
    struct model_verdict v = function(from, length, out, room, &written);
    size_t looked_at = written + PAST < room ? written + PAST : room;
    printf("%c %02" PRIu32 " %04" PRIX64 " %08zX %08" PRIX32, kind, v.reason,
           v.place % 0x10000, written, hash(out, looked_at));
    if (v.reason == MODEL_DONE)
        print_back(kind, from, length, out, written);
    putchar('\n');
}

static int print_listings(void)
{
    for (int kind; (kind = getchar()) != EOF;) {
        size_t room = read4(stdin), length = read4(stdin);
        uint8_t *from = room_for(length), *out = room_for(room);
        if (fread(from, 1, length, stdin) != length)
            return 1;
        print_case(kind, from, length, out, room);
        free(from);
        free(out);
    }
    return 0;
}

int main(int count, char **words)
{
    const char *mode = count > 1 ? words[1] : "";
    if (strcmp(mode, "vectors") == 0)
        return all_lines("vectors", vector_holds);
    if (strcmp(mode, "digest") == 0)
        return print_digest();
    if (strcmp(mode, "interrupts") == 0)
        return all_lines("interrupts", interrupt_holds);
    if (strcmp(mode, "trace") == 0)
        return print_trace();
    if (strcmp(mode, "traces") == 0)
        return check_traces(words + 2, count - 2);
    if (strcmp(mode, "words") == 0)
        return try_words();
    if (strcmp(mode, "forms") == 0)
        return try_forms();
    if (strcmp(mode, "listings") == 0)
        return print_listings();
    fputs("usage: test-model vectors | digest | interrupts | trace\n"
          "       test-model words | forms | listings | traces FILE.in...\n",
          stderr);
    return 2;
}
