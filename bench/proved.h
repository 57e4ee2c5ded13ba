/*
 * The proved library as an engine of the harness, over its C interface. Who
 * includes it says by PROVED_LINKAGE how the functions are linked:
 * harness.c takes them in as static ones, native-shim.c gives them out.
 */
#ifndef BENCH_PROVED_H
#define BENCH_PROVED_H

#include "../include/am29332.h"

PROVED_LINKAGE uint32_t proved_run(const uint8_t *sheet, size_t length,
                                   uint32_t *file, size_t registers,
                                   uint32_t *q, uint32_t *status,
                                   uint64_t start, uint64_t allowance,
                                   uint64_t *place)
{
    am29332_machine machine = {*q, *status};
    am29332_ran ran =
        am29332_run(sheet, length, file, registers, machine, start, allowance);
    *q = ran.machine.q;
    *status = ran.machine.status;
    *place = ran.outcome.place;
    return ran.outcome.reason;
}

PROVED_LINKAGE uint32_t proved_run_interrupted(
    const uint8_t *main_sheet, size_t main_length, const uint8_t *handler,
    size_t handler_length, const uint16_t *schedule, size_t entries,
    uint32_t *file, size_t registers, uint32_t *q, uint32_t *status,
    uint64_t *place)
{
    am29332_machine machine = {*q, *status};
    am29332_interrupted served = am29332_interrupted_run(
        main_sheet, main_length, handler, handler_length, schedule, entries,
        file, registers, machine);
    *q = served.machine.q;
    *status = served.machine.status;
    *place = served.outcome.place;
    return served.outcome.reason;
}

PROVED_LINKAGE uint32_t proved_list(const uint8_t *sheet, size_t length,
                                    uint8_t *text, size_t room, size_t *bytes)
{
    am29332_wrote wrote = am29332_list_sheet(sheet, length, text, room);
    *bytes = wrote.bytes;
    return wrote.outcome.reason;
}

PROVED_LINKAGE uint32_t proved_read(const uint8_t *text, size_t length,
                                    uint8_t *sheet, size_t room, size_t *bytes)
{
    am29332_wrote wrote = am29332_read_listing(text, length, sheet, room);
    *bytes = wrote.bytes;
    return wrote.outcome.reason;
}

#endif
