/*
 * The Am29332 by hand: a plain C11 model of the chip, to measure the proved
 * one against.
 *
 * It follows AMD's instruction manual of 1987 ("the manual", names and
 * mnemonics are its own) and the exact rules of document 01: sheets, reasons,
 * the handler's form. It is held to the independent program in ../oracle by
 * test-model.sh.
 *
 * Bit 13 of the status, UNSIGNED LE, goes by a borrow switch (document 02,
 * request 3): by that of the word which reads it, in a single word's answer and
 * after a step too; by 0, carry mode, after a run and an interrupted run.
 *
 * The pins C, Z, N, V and L show those flags of the status after a word (document
 * 02, request 4): five bits, C in bit 4.
 *
 * A word that does not write has Y 0, which names no register (document 02,
 * request 5). What a word names is A and B, used or not, and Y where it writes.
 *
 * Numbers outside their range are refused, not trusted. A refusal runs nothing
 * and changes nothing that was lent. Every function is re-entrant: there is no
 * state but what the caller hands in.
 */
#ifndef BENCH_MODEL_H
#define BENCH_MODEL_H

#include <stddef.h>
#include <stdint.h>

/* Document 01, "Reasons given"; 15 to 17 are document 02's. */
enum model_reason {
    MODEL_DONE = 0,
    MODEL_OPCODE = 1,
    MODEL_INPUTS = 2,
    MODEL_SHORT = 3,
    MODEL_VERSION = 4,
    MODEL_HEADER = 5,
    MODEL_LENGTH = 6,
    MODEL_FILE = 7,
    MODEL_SPARE = 8,
    MODEL_REGISTER = 9,
    MODEL_START = 10,
    MODEL_FORM = 11,
    MODEL_OVERLAP = 12,
    MODEL_SCHEDULE = 13,
    MODEL_ROOM = 14,
    MODEL_TEXT = 15,
    MODEL_COUNT = 16,
    MODEL_IDLE = 17
};

/* Which sheet of an interrupted run a refusal's fault is in. */
enum model_mark { MODEL_NEITHER = 0, MODEL_MAIN = 1, MODEL_HANDLER = 2 };

/* Bytes of a sheet's header and of a word; the most a sheet may declare. */
enum {
    MODEL_HEADER_BYTES = 4,
    MODEL_WORD_BYTES = 6,
    MODEL_MOST_WORDS = 4095,
    MODEL_MOST_REGISTERS = 64,
    MODEL_MOST_ENTRIES = 1024,
    MODEL_OPCODES = 128
};

/* A reason and its place: the words run where it is MODEL_DONE and a sheet
 * ran, otherwise where the fault is. `mark` is 0 but for interrupted runs. */
struct model_verdict {
    uint32_t reason;
    uint32_t mark;
    uint64_t place;
};

/* Q and the status register as whole words; a fresh machine has both at 0. */
struct model_machine {
    uint32_t q;
    uint32_t status;
};

/* The fields of a word, in the order they are packed. */
struct model_word {
    uint8_t opcode;    /* 7 bits */
    uint8_t byte_code; /* 2, I8 I7 */
    uint8_t position;  /* 6 */
    uint8_t width;     /* 5 */
    uint8_t a, b, y;   /* 6 each: registers; y is 0 where write is 0 */
    uint8_t write;     /* 1 each from here */
    uint8_t macro_select;
    uint8_t macro_carry;
    uint8_t macro_link;
    uint8_t borrow;
};

/* What stands at the chip for a single word. */
struct model_inputs {
    uint8_t opcode;
    uint8_t byte_code;
    uint8_t position;
    uint8_t width;
    uint8_t macro_select;
    uint8_t macro_carry;
    uint8_t macro_link;
    uint8_t borrow;
    uint32_t a, b;
    uint32_t q, status;
};

/* A single word's answer. Parity has four bits, the highest byte's in bit 3; the
 * pins have five, C in bit 4, then Z, N, V, L. */
struct model_answer {
    uint32_t reason;
    uint32_t place;
    uint32_t y;
    uint32_t parity;
    uint32_t q;
    uint32_t status;
    uint32_t pins;
};

/* One word. Refused (1, 2): Q and status as handed in and the pins of that
 * status, Y and parity 0. */
struct model_answer model_single(const struct model_inputs *inputs);

/* The pins with this status in the register: after model_step too. */
uint32_t model_pins(uint32_t status);

/* Packs into the first six of `room` bytes. Refuses 1, 2, 17, 14. */
struct model_verdict model_pack(const struct model_word *word,
                                uint8_t *bytes, size_t room);

/* Unpacks the first six of `length` bytes. Refuses 14, 8, 17, 1; all fields are
 * then 0. */
struct model_verdict model_unpack(const uint8_t *bytes, size_t length,
                                  struct model_word *word);

/* Checks a sheet with no file lent and no start: 3 to 6, then its words, in each
 * 8, 17, 1, 9. */
struct model_verdict model_check(const uint8_t *sheet, size_t length);

/* Checks a sheet handed in as a handler: as above, then 11. */
struct model_verdict model_check_handler(const uint8_t *sheet, size_t length);

/* Runs a sheet from word `start`, at most `allowance` words, on a file of
 * `registers` registers. Refuses 3 to 7, its words as model_check does, 10. */
struct model_verdict model_run(const uint8_t *sheet, size_t length,
                               uint32_t *file, size_t registers,
                               struct model_machine *machine,
                               uint64_t start, uint64_t allowance);

/* Runs the main sheet from word 0 to its end, with the handler run whole at
 * each boundary of the schedule. Refuses what model_run does but 10, in the main
 * sheet and then in the handler's; then 11, 12, 13. */
struct model_verdict model_run_interrupted(
    const uint8_t *main_sheet, size_t main_length,
    const uint8_t *handler_sheet, size_t handler_length,
    const uint16_t *schedule, size_t entries,
    uint32_t *file, size_t registers, struct model_machine *machine);

/* Runs word `index` of a sheet that model_check has accepted, on a file of
 * the declared size, and gives its Y: the trace program's step. */
uint32_t model_step(const uint8_t *sheet, uint64_t index, uint32_t *file,
                    struct model_machine *machine);

/* The manual's mnemonics by opcode; empty where it has no page. */
extern const char *const model_mnemonics[MODEL_OPCODES];

/* Lists a sheet: its listing (docs/LISTING.md) at the start of `room` bytes,
 * and in `bytes` how many it has, 0 where it is refused. Refuses as model_check
 * does, then 14. */
struct model_verdict model_list(const uint8_t *sheet, size_t length,
                                uint8_t *text, size_t room, size_t *bytes);

/* Reads a listing: its sheet at the start of `room` bytes, and in `bytes` how
 * many it has, 0 where it is refused. Refuses, with the line as the place, 15,
 * 4, 5, 2, 17, 9; then 16, 14. */
struct model_verdict model_read(const uint8_t *text, size_t length,
                                uint8_t *sheet, size_t room, size_t *bytes);

/* The opcodes, chapter 2. 1E, 1F, 4C and 4D have no page. */
enum model_opcode {
    /* Data movement */
    OP_ZERO_EXTA = 0x00, OP_ZERO_EXTB = 0x01,
    OP_SIGN_EXTA = 0x02, OP_SIGN_EXTB = 0x03,
    OP_PASS_STAT = 0x04, OP_PASS_Q = 0x05,
    OP_LOADQ_A = 0x06, OP_LOADQ_B = 0x07,
    OP_NOT_A = 0x08, OP_NOT_B = 0x09,
    OP_NEG_A = 0x0A, OP_NEG_B = 0x0B,
    OP_PRIOR_A = 0x0C, OP_PRIOR_B = 0x0D,
    OP_MERGEA_B = 0x0E, OP_MERGEB_A = 0x0F,
    OP_DECR_A = 0x10, OP_DECR_B = 0x11,
    OP_INCR_A = 0x12, OP_INCR_B = 0x13,
    OP_DECR2_A = 0x14, OP_DECR2_B = 0x15,
    OP_INCR2_A = 0x16, OP_INCR2_B = 0x17,
    OP_DECR4_A = 0x18, OP_DECR4_B = 0x19,
    OP_INCR4_A = 0x1A, OP_INCR4_B = 0x1B,
    OP_LDSTAT_A = 0x1C, OP_LDSTAT_B = 0x1D,
    /* Single-bit shifts */
    OP_DN1_0F_A = 0x20, OP_DN1_0F_B = 0x21,
    OP_DN1_0F_AQ = 0x22, OP_DN1_0F_BQ = 0x23,
    OP_DN1_1F_A = 0x24, OP_DN1_1F_B = 0x25,
    OP_DN1_1F_AQ = 0x26, OP_DN1_1F_BQ = 0x27,
    OP_DN1_LF_A = 0x28, OP_DN1_LF_B = 0x29,
    OP_DN1_LF_AQ = 0x2A, OP_DN1_LF_BQ = 0x2B,
    OP_DN1_AR_A = 0x2C, OP_DN1_AR_B = 0x2D,
    OP_DN1_AR_AQ = 0x2E, OP_DN1_AR_BQ = 0x2F,
    OP_UP1_0F_A = 0x30, OP_UP1_0F_B = 0x31,
    OP_UP1_0F_AQ = 0x32, OP_UP1_0F_BQ = 0x33,
    OP_UP1_1F_A = 0x34, OP_UP1_1F_B = 0x35,
    OP_UP1_1F_AQ = 0x36, OP_UP1_1F_BQ = 0x37,
    OP_UP1_LF_A = 0x38, OP_UP1_LF_B = 0x39,
    OP_UP1_LF_AQ = 0x3A, OP_UP1_LF_BQ = 0x3B,
    /* Logic and arithmetic */
    OP_ZERO = 0x3C, OP_SIGN = 0x3D,
    OP_OR = 0x3E, OP_XOR = 0x3F, OP_AND = 0x40, OP_XNOR = 0x41,
    OP_ADD = 0x42, OP_ADDC = 0x43,
    OP_SUB = 0x44, OP_SUBC = 0x45, OP_SUBR = 0x46, OP_SUBRC = 0x47,
    OP_SUM_CORR_A = 0x48, OP_SUM_CORR_B = 0x49,
    OP_DIFF_CORR_A = 0x4A, OP_DIFF_CORR_B = 0x4B,
    /* Divide and multiply */
    OP_SDIVFIRST = 0x4E, OP_UDIVFIRST = 0x4F,
    OP_SDIVSTEP = 0x50, OP_SDIVLAST1 = 0x51,
    OP_MPDIVSTEP1 = 0x52, OP_MPSDIVSTEP3 = 0x53,
    OP_UDIVSTEP = 0x54, OP_UDIVLAST = 0x55,
    OP_MPDIVSTEP2 = 0x56, OP_MPUDIVSTP3 = 0x57,
    OP_REMCORR = 0x58, OP_QUOCORR = 0x59, OP_SDIVLAST2 = 0x5A,
    OP_UMULFIRST = 0x5B, OP_UMULSTEP = 0x5C, OP_UMULLAST = 0x5D,
    OP_SMULSTEP = 0x5E, OP_SMULFIRST = 0x5F,
    /* N-bit shifts, single bits, fields, the mask */
    OP_NB_SN_SHA = 0x60, OP_NB_SN_SHB = 0x61,
    OP_NB_0F_SHA = 0x62, OP_NB_0F_SHB = 0x63,
    OP_NBROT_A = 0x64, OP_NBROT_B = 0x65,
    OP_EXTBIT_A = 0x66, OP_EXTBIT_B = 0x67,
    OP_SETBIT_A = 0x68, OP_SETBIT_B = 0x69,
    OP_RSTBIT_A = 0x6A, OP_RSTBIT_B = 0x6B,
    OP_SETBIT_STAT = 0x6C, OP_RSTBIT_STAT = 0x6D,
    OP_NOTF_AL_B = 0x6E, OP_PASSF_AL_B = 0x6F,
    OP_NOTF_A = 0x70, OP_NOTF_AL_A = 0x71,
    OP_PASSF_A = 0x72, OP_PASSF_AL_A = 0x73,
    OP_ORF_A = 0x74, OP_ORF_AL_A = 0x75,
    OP_XORF_A = 0x76, OP_XORF_AL_A = 0x77,
    OP_ANDF_A = 0x78, OP_ANDF_AL_A = 0x79,
    OP_EXTF_A = 0x7A, OP_EXTF_B = 0x7B,
    OP_EXTF_AB = 0x7C, OP_EXTF_BA = 0x7D,
    OP_EXTBIT_STAT = 0x7E, OP_PASS_MASK = 0x7F
};

#endif
