/*
 * The library's interface over the C model of bench/, where the proved library
 * cannot be linked: it is x86-64 code. build-hosts.sh then builds both hosts on
 * this, so that the Rust host's declarations are held to the header and its
 * wrapper runs. What the hosts print must be what they print with the proved
 * library.
 */
#include "am29332.h"

#include "../../bench/model.h"

/* The model's fields have eight bits: any number above stays out of range. */
static uint8_t narrow(uint32_t x)
{
    return x < UINT8_MAX ? (uint8_t)x : UINT8_MAX;
}

static am29332_outcome outcome(struct model_verdict v)
{
    return (am29332_outcome){v.reason, v.place};
}

uint32_t am29332_library_version(void)
{
    return AM29332_LIBRARY_VERSION;
}

am29332_machine am29332_fresh(void)
{
    return (am29332_machine){0, 0};
}

static struct model_answer answer(am29332_inputs x)
{
    struct model_inputs inputs = {
        .opcode = narrow(x.opcode),
        .byte_code = narrow(x.code),
        .position = narrow(x.position),
        .width = narrow(x.width),
        .macro_select = narrow(x.select),
        .macro_carry = narrow(x.carry),
        .macro_link = narrow(x.link),
        .borrow = narrow(x.borrow),
        .a = x.a,
        .b = x.b,
        .q = x.q,
        .status = x.status,
    };
    return model_single(&inputs);
}

am29332_answer am29332_single_word(am29332_inputs x)
{
    struct model_answer a = answer(x);
    return (am29332_answer){{a.reason, a.place}, a.y, a.parity, a.q, a.status,
                            a.pins};
}

am29332_outcome am29332_pack(am29332_word w, uint8_t *bytes, size_t length)
{
    struct model_word word = {
        .opcode = narrow(w.opcode),
        .byte_code = narrow(w.code),
        .position = narrow(w.position),
        .width = narrow(w.width),
        .a = narrow(w.a),
        .b = narrow(w.b),
        .y = narrow(w.y),
        .write = narrow(w.write),
        .macro_select = narrow(w.select),
        .macro_carry = narrow(w.carry),
        .macro_link = narrow(w.link),
        .borrow = narrow(w.borrow),
    };
    return outcome(model_pack(&word, bytes, length));
}

am29332_unpacked am29332_unpack(const uint8_t *bytes, size_t length)
{
    struct model_word w;
    struct model_verdict v = model_unpack(bytes, length, &w);
    return (am29332_unpacked){
        outcome(v),
        {w.opcode, w.byte_code, w.position, w.width, w.a, w.b, w.y, w.write,
         w.macro_select, w.macro_carry, w.macro_link, w.borrow}};
}

am29332_heading am29332_read_header(const uint8_t *sheet, size_t length)
{
    if (length < AM29332_HEADER_BYTES)
        return (am29332_heading){{AM29332_REASON_SHORT, 0}, 0, 0, 0};
    uint32_t header = (uint32_t)sheet[0] << 24 | (uint32_t)sheet[1] << 16 |
                      (uint32_t)sheet[2] << 8 | sheet[3];
    uint32_t registers = header >> 9 & 127;
    if (header >> 28 != 1)
        return (am29332_heading){{AM29332_REASON_VERSION, 0}, 0, 0, 0};
    if (header % 512 != 0 || registers == 0 ||
        registers > AM29332_MAX_REGISTERS)
        return (am29332_heading){{AM29332_REASON_HEADER, 0}, 0, 0, 0};
    return (am29332_heading){{0, 0}, 1, header >> 16 & 4095, registers};
}

am29332_outcome am29332_check_sheet(const uint8_t *sheet, size_t length)
{
    return outcome(model_check(sheet, length));
}

am29332_outcome am29332_check_handler(const uint8_t *sheet, size_t length)
{
    return outcome(model_check_handler(sheet, length));
}

am29332_wrote am29332_list_sheet(const uint8_t *sheet, size_t length,
                                 uint8_t *text, size_t room)
{
    size_t bytes;
    struct model_verdict v = model_list(sheet, length, text, room, &bytes);
    return (am29332_wrote){outcome(v), bytes};
}

am29332_wrote am29332_read_listing(const uint8_t *text, size_t length,
                                   uint8_t *sheet, size_t room)
{
    size_t bytes;
    struct model_verdict v = model_read(text, length, sheet, room, &bytes);
    return (am29332_wrote){outcome(v), bytes};
}

am29332_ran am29332_run(const uint8_t *sheet, size_t length, uint32_t *file,
                        size_t registers, am29332_machine machine,
                        uint64_t start, uint64_t allowance)
{
    struct model_machine m = {machine.q, machine.status};
    struct model_verdict v =
        model_run(sheet, length, file, registers, &m, start, allowance);
    return (am29332_ran){outcome(v), {m.q, m.status}};
}

/* The word's inputs are taken before it runs, and shown only if it ran. */
am29332_stepped am29332_step(const uint8_t *sheet, size_t length,
                             uint32_t *file, size_t registers,
                             am29332_machine machine, uint64_t start)
{
    struct model_answer shown = {0};
    if (start < AM29332_MAX_WORDS && AM29332_SHEET_BYTES(start + 1) <= length) {
        am29332_word w = am29332_unpack(sheet + AM29332_SHEET_BYTES(start),
                                        AM29332_WORD_BYTES).word;
        if (w.a < registers && w.b < registers)
            shown = answer((am29332_inputs){
                w.opcode, w.code, w.position, w.width, w.select, w.carry,
                w.link, w.borrow, file[w.a], file[w.b], machine.q,
                machine.status});
    }
    am29332_ran ran = am29332_run(sheet, length, file, registers, machine,
                                  start, 1);
    if (ran.outcome.reason != AM29332_REASON_DONE || ran.outcome.place == 0)
        shown = (struct model_answer){.pins = model_pins(ran.machine.status)};
    else
        ran.machine.status = shown.status; /* bit 13 by the word's own switch */
    return (am29332_stepped){ran.outcome, shown.y, shown.parity, ran.machine,
                             shown.pins};
}

am29332_interrupted am29332_interrupted_run(
    const uint8_t *main_sheet, size_t main_length,
    const uint8_t *handler_sheet, size_t handler_length,
    const uint16_t *schedule, size_t entries,
    uint32_t *file, size_t registers, am29332_machine machine)
{
    struct model_machine m = {machine.q, machine.status};
    struct model_verdict v = model_run_interrupted(
        main_sheet, main_length, handler_sheet, handler_length, schedule,
        entries, file, registers, &m);
    return (am29332_interrupted){outcome(v), {m.q, m.status}, v.mark};
}
