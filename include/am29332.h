/*
 * The Am29332 in software, proved: AMD's 32-bit arithmetic unit of 1987 as
 * functions that a C or C++ program calls.
 *
 * The library is crates/am29332/out/libam29332.a, which `tools/build.sh am29332`
 * writes (x86-64 Linux). Every function in it is proved to do what its comment
 * here says; the definitions behind the words are in crates/am29332/specs and
 * the specs/ below it. Words, sheets and reasons are those of document 01,
 * operations those of AMD's instruction manual.
 *
 * What holds for all functions:
 *
 *   - Numbers may have any value. What cannot be run is refused with a reason.
 *   - A refusal runs nothing and changes nothing that was lent; Q and status
 *     come back bit for bit as they were handed in.
 *   - A pointer is followed by the number of its elements, not of its bytes. It
 *     points to that many, aligned as C aligns them; where the number is 0 it
 *     is not followed and NULL will do. What is lent to be changed overlaps
 *     nothing else that the call is lent. Only this can a caller get wrong.
 *   - There is no state but what is handed in, no memory is allotted, no
 *     function of the C library is called, and every call returns: calls from
 *     several threads do not meet unless they lend the same memory.
 *
 * The status register, as handed in and out:
 *
 *    31      24 23 22 21 20 19 18 17 16  15  14  13  12     8 7          0
 *   +----------+--+--+--+--+--+--+--+--+---+---+---+--------+------------+
 *   |  nibble  | 0| S| M| L| Z| V| N| C|SLE|SLT|ULE| width  |  position  |
 *   |  carries |  |  |  |  |  |  |  |  |   |   |   |        |            |
 *   +----------+--+--+--+--+--+--+--+--+---+---+---+--------+------------+
 *
 *    0 to 7   position; 6 and 7 can be loaded and read and have no use
 *    8 to 12  width; 0 stands for 32
 *   13  UNSIGNED LE  by a borrow switch  ]
 *                      1: C or Z         ]
 *                      0: (not C) or Z   ] worked out from the other bits
 *   14  SIGNED LT    N xor V             ]
 *   15  SIGNED LE    (N xor V) or Z      ]
 *   16  C  carry             20  L  link
 *   17  N  negative          21  M  multiply (and divide) bit
 *   18  V  overflow          22  S  sign flag
 *   19  Z  zero              23     always 0
 *   24 to 31  carries of nibbles 0 to 7
 *
 * Bits 13, 14, 15 and 23 of a status handed in are ignored. Every accepted call
 * hands them back as worked out, even where no word runs.
 *
 * Bit 13 goes by the borrow switch of the word that reads or shows the status:
 * of the word itself in all that it puts on Y, in what am29332_single_word
 * answers and in what am29332_step shows. What am29332_run and
 * am29332_interrupted_run hand back is in carry mode, switch 0, whatever the
 * words were: a run of no word on a fresh machine hands back 00002000.
 *
 * After SUB (A less B) and SUBR (B less A), on one to four bytes, the three bits
 * compare the first operand with the second: 13 is 1 exactly where it is less
 * than or equal to it as an unsigned number, 14 where it is less than it and 15
 * where it is less than or equal to it as a signed one. Bit 13 says so in the
 * mode of the subtraction: as that word shows it, as a later word of the same
 * switch reads it, and as a run hands it back whose last word is a subtraction in
 * carry mode.
 *
 * The pins C, Z, N, V and L, for a front panel, as one number:
 *
 *     4   3   2   1   0
 *   +---+---+---+---+---+
 *   | C | Z | N | V | L |     of the status:  bits 16, 19, 17, 18, 20
 *   +---+---+---+---+---+
 *
 * am29332_single_word and am29332_step answer with them. They are those five
 * bits of the status in the same answer, always: a flag that the word leaves
 * alone shows the register's bit, and where no word ran, or it was refused, they
 * show the status that was handed in. After a run they are those bits of the
 * status that it hands back.
 *
 * Where a caller who has AMD's manual open sees something else than its page
 * (docs/MANUAL.md has each entry in full, and all others):
 *
 *   M1   REMCORR passes B where N and S are 0, so that a division without jumps
 *        ends with the right remainder.
 *   M3   The new quotient bit of UDIVSTEP, UDIVLAST and MPUDIVSTP3 is the
 *        complement of the printed formula, which has lost an overbar.
 *   M13  In MPDIVSTEP2, MPSDIVSTEP3 and MPUDIVSTP3 macro select has the other
 *        sense, as their pages print it: see `select` below.
 *   M15, M17  Nibble carries of additions are decimal ones, and all eight are
 *        those of the whole 32-bit operands at every byte code.
 *   M6, M19  C of the divide steps is the plain carry in both modes; borrow
 *        mode turns the C of INCR over as well as that of subtractions.
 *   M23, M26, M36  DN1-AR and NB-SN fill with the operand's sign, not with N;
 *        in the non-aligned field operations a negative position rotates.
 *   M28, M33, M34  EXTBIT-STAT leaves Z; SIGN looks at the N flag; SETBIT-A and
 *        SETBIT-B always clear Z, RSTBIT-A and RSTBIT-B always set it.
 *   M46  1E, 1F, 4C and 4D have no page and are refused.
 *   N1 to N4  There is no HOLD, no output enable, no register status pin (both of
 *        its positions show the pins above) and no parity of inputs.
 */
#ifndef AM29332_H
#define AM29332_H

#include <stddef.h>
#include <stdint.h>

#ifdef __cplusplus
extern "C" {
#endif

/* ---- Numbers ------------------------------------------------------------ */

/* The version of this header, and of the library that am29332_library_version
 * answers for. Another major number: a caller must be changed. A higher minor
 * one: something was added. */
#define AM29332_LIBRARY_VERSION_MAJOR 4
#define AM29332_LIBRARY_VERSION_MINOR 0
#define AM29332_LIBRARY_VERSION_PATCH 0
#define AM29332_LIBRARY_VERSION                                                \
    (AM29332_LIBRARY_VERSION_MAJOR * UINT32_C(65536) +                         \
     AM29332_LIBRARY_VERSION_MINOR * UINT32_C(256) +                           \
     AM29332_LIBRARY_VERSION_PATCH)

/* What a sheet and a schedule may have at most, and their sizes in bytes. */
#define AM29332_MAX_WORDS 4095
#define AM29332_MAX_REGISTERS 64
#define AM29332_MAX_ENTRIES 1024 /* of a schedule */
#define AM29332_HEADER_BYTES 4
#define AM29332_WORD_BYTES 6
#define AM29332_SHEET_BYTES(words)                                             \
    (AM29332_HEADER_BYTES + AM29332_WORD_BYTES * (size_t)(words))

/* Bytes of buffers that always suffice: for a sheet, and for its listing. */
#define AM29332_SHEET_MOST 24574
#define AM29332_LISTING_MOST 425903

/* Reasons. Each is given exactly when its condition holds and no earlier one
 * in the call's order does. The place that comes with it is in brackets. */
enum am29332_reason {
    AM29332_REASON_DONE = 0,     /* not refused [words run; 0 where none
                                    could] */
    AM29332_REASON_OPCODE = 1,   /* opcode above 127 or with no page [word] */
    AM29332_REASON_INPUTS = 2,   /* single word, packing or a listing: byte code
                                    above 3, position above 63, width above 31,
                                    register above 63, a switch above 1 [0; in a
                                    listing the line] */
    AM29332_REASON_SHORT = 3,    /* sheet under 4 bytes [0] */
    AM29332_REASON_VERSION = 4,  /* version is not 1 [0] */
    AM29332_REASON_HEADER = 5,   /* zero bits set, or register count 0 or above
                                    64 [0] */
    AM29332_REASON_LENGTH = 6,   /* not 4 + 6 x count bytes [0] */
    AM29332_REASON_FILE = 7,     /* fewer registers lent than declared [0] */
    AM29332_REASON_SPARE = 8,    /* a word's zero bits set [word] */
    AM29332_REASON_REGISTER = 9, /* a register not below the declared count
                                    [word; in a listing the line] */
    AM29332_REASON_START = 10,   /* start word above the count [0] */
    AM29332_REASON_FORM = 11,    /* handler breaks the form [first word at
                                    fault, 0 if under six words] */
    AM29332_REASON_OVERLAP = 12, /* a register named by main sheet and handler
                                    [first main word that names one] */
    AM29332_REASON_SCHEDULE = 13, /* above 1,024 entries, one above the main
                                     sheet's count, or falling [first entry at
                                     fault] */
    AM29332_REASON_ROOM = 14,    /* fewer than 6 bytes to pack into or unpack;
                                    a listing, or the sheet of one, longer than
                                    the buffer [0] */
    AM29332_REASON_TEXT = 15,    /* a line outside the listing's form [line] */
    AM29332_REASON_COUNT = 16,   /* a listing of more than 4,095 words [0] */
    AM29332_REASON_IDLE = 17     /* a word with write 0 whose y is not 0 [word;
                                    in a listing the line] */
};

/* A reason's name in documents 01 and 02; "unknown" for a number that has
 * none. */
static inline const char *am29332_reason_name(uint32_t reason)
{
    switch (reason) {
    case AM29332_REASON_DONE: return "done";
    case AM29332_REASON_OPCODE: return "Opcode";
    case AM29332_REASON_INPUTS: return "Inputs";
    case AM29332_REASON_SHORT: return "Short";
    case AM29332_REASON_VERSION: return "Version";
    case AM29332_REASON_HEADER: return "Header";
    case AM29332_REASON_LENGTH: return "Length";
    case AM29332_REASON_FILE: return "File";
    case AM29332_REASON_SPARE: return "Spare";
    case AM29332_REASON_REGISTER: return "Register";
    case AM29332_REASON_START: return "Start";
    case AM29332_REASON_FORM: return "Form";
    case AM29332_REASON_OVERLAP: return "Overlap";
    case AM29332_REASON_SCHEDULE: return "Schedule";
    case AM29332_REASON_ROOM: return "Room";
    case AM29332_REASON_TEXT: return "Text";
    case AM29332_REASON_COUNT: return "Count";
    case AM29332_REASON_IDLE: return "Idle";
    default: return "unknown";
    }
}

/* Which sheet of an interrupted run a refusal's fault is in. */
enum am29332_mark {
    AM29332_IN_NEITHER = 0,
    AM29332_IN_MAIN = 1,
    AM29332_IN_HANDLER = 2
};

/* Opcodes, by the mnemonics of the manual's glossary with _ for -. */
enum am29332_opcode {
    AM29332_OP_ZERO_EXTA = 0x00, AM29332_OP_ZERO_EXTB = 0x01,
    AM29332_OP_SIGN_EXTA = 0x02, AM29332_OP_SIGN_EXTB = 0x03,
    AM29332_OP_PASS_STAT = 0x04, AM29332_OP_PASS_Q = 0x05,
    AM29332_OP_LOADQ_A = 0x06, AM29332_OP_LOADQ_B = 0x07,
    AM29332_OP_NOT_A = 0x08, AM29332_OP_NOT_B = 0x09,
    AM29332_OP_NEG_A = 0x0A, AM29332_OP_NEG_B = 0x0B,
    AM29332_OP_PRIOR_A = 0x0C, AM29332_OP_PRIOR_B = 0x0D,
    AM29332_OP_MERGEA_B = 0x0E, AM29332_OP_MERGEB_A = 0x0F,
    AM29332_OP_DECR_A = 0x10, AM29332_OP_DECR_B = 0x11,
    AM29332_OP_INCR_A = 0x12, AM29332_OP_INCR_B = 0x13,
    AM29332_OP_DECR2_A = 0x14, AM29332_OP_DECR2_B = 0x15,
    AM29332_OP_INCR2_A = 0x16, AM29332_OP_INCR2_B = 0x17,
    AM29332_OP_DECR4_A = 0x18, AM29332_OP_DECR4_B = 0x19,
    AM29332_OP_INCR4_A = 0x1A, AM29332_OP_INCR4_B = 0x1B,
    AM29332_OP_LDSTAT_A = 0x1C, AM29332_OP_LDSTAT_B = 0x1D,
    AM29332_OP_DN1_0F_A = 0x20, AM29332_OP_DN1_0F_B = 0x21,
    AM29332_OP_DN1_0F_AQ = 0x22, AM29332_OP_DN1_0F_BQ = 0x23,
    AM29332_OP_DN1_1F_A = 0x24, AM29332_OP_DN1_1F_B = 0x25,
    AM29332_OP_DN1_1F_AQ = 0x26, AM29332_OP_DN1_1F_BQ = 0x27,
    AM29332_OP_DN1_LF_A = 0x28, AM29332_OP_DN1_LF_B = 0x29,
    AM29332_OP_DN1_LF_AQ = 0x2A, AM29332_OP_DN1_LF_BQ = 0x2B,
    AM29332_OP_DN1_AR_A = 0x2C, AM29332_OP_DN1_AR_B = 0x2D,
    AM29332_OP_DN1_AR_AQ = 0x2E, AM29332_OP_DN1_AR_BQ = 0x2F,
    AM29332_OP_UP1_0F_A = 0x30, AM29332_OP_UP1_0F_B = 0x31,
    AM29332_OP_UP1_0F_AQ = 0x32, AM29332_OP_UP1_0F_BQ = 0x33,
    AM29332_OP_UP1_1F_A = 0x34, AM29332_OP_UP1_1F_B = 0x35,
    AM29332_OP_UP1_1F_AQ = 0x36, AM29332_OP_UP1_1F_BQ = 0x37,
    AM29332_OP_UP1_LF_A = 0x38, AM29332_OP_UP1_LF_B = 0x39,
    AM29332_OP_UP1_LF_AQ = 0x3A, AM29332_OP_UP1_LF_BQ = 0x3B,
    AM29332_OP_ZERO = 0x3C, AM29332_OP_SIGN = 0x3D,
    AM29332_OP_OR = 0x3E, AM29332_OP_XOR = 0x3F,
    AM29332_OP_AND = 0x40, AM29332_OP_XNOR = 0x41,
    AM29332_OP_ADD = 0x42, AM29332_OP_ADDC = 0x43,
    AM29332_OP_SUB = 0x44, AM29332_OP_SUBC = 0x45,
    AM29332_OP_SUBR = 0x46, AM29332_OP_SUBRC = 0x47,
    AM29332_OP_SUM_CORR_A = 0x48, AM29332_OP_SUM_CORR_B = 0x49,
    AM29332_OP_DIFF_CORR_A = 0x4A, AM29332_OP_DIFF_CORR_B = 0x4B,
    AM29332_OP_SDIVFIRST = 0x4E, AM29332_OP_UDIVFIRST = 0x4F,
    AM29332_OP_SDIVSTEP = 0x50, AM29332_OP_SDIVLAST1 = 0x51,
    AM29332_OP_MPDIVSTEP1 = 0x52, AM29332_OP_MPSDIVSTEP3 = 0x53,
    AM29332_OP_UDIVSTEP = 0x54, AM29332_OP_UDIVLAST = 0x55,
    AM29332_OP_MPDIVSTEP2 = 0x56, AM29332_OP_MPUDIVSTP3 = 0x57,
    AM29332_OP_REMCORR = 0x58, AM29332_OP_QUOCORR = 0x59,
    AM29332_OP_SDIVLAST2 = 0x5A, AM29332_OP_UMULFIRST = 0x5B,
    AM29332_OP_UMULSTEP = 0x5C, AM29332_OP_UMULLAST = 0x5D,
    AM29332_OP_SMULSTEP = 0x5E, AM29332_OP_SMULFIRST = 0x5F,
    AM29332_OP_NB_SN_SHA = 0x60, AM29332_OP_NB_SN_SHB = 0x61,
    AM29332_OP_NB_0F_SHA = 0x62, AM29332_OP_NB_0F_SHB = 0x63,
    AM29332_OP_NBROT_A = 0x64, AM29332_OP_NBROT_B = 0x65,
    AM29332_OP_EXTBIT_A = 0x66, AM29332_OP_EXTBIT_B = 0x67,
    AM29332_OP_SETBIT_A = 0x68, AM29332_OP_SETBIT_B = 0x69,
    AM29332_OP_RSTBIT_A = 0x6A, AM29332_OP_RSTBIT_B = 0x6B,
    AM29332_OP_SETBIT_STAT = 0x6C, AM29332_OP_RSTBIT_STAT = 0x6D,
    AM29332_OP_NOTF_AL_B = 0x6E, AM29332_OP_PASSF_AL_B = 0x6F,
    AM29332_OP_NOTF_A = 0x70, AM29332_OP_NOTF_AL_A = 0x71,
    AM29332_OP_PASSF_A = 0x72, AM29332_OP_PASSF_AL_A = 0x73,
    AM29332_OP_ORF_A = 0x74, AM29332_OP_ORF_AL_A = 0x75,
    AM29332_OP_XORF_A = 0x76, AM29332_OP_XORF_AL_A = 0x77,
    AM29332_OP_ANDF_A = 0x78, AM29332_OP_ANDF_AL_A = 0x79,
    AM29332_OP_EXTF_A = 0x7A, AM29332_OP_EXTF_B = 0x7B,
    AM29332_OP_EXTF_AB = 0x7C, AM29332_OP_EXTF_BA = 0x7D,
    AM29332_OP_EXTBIT_STAT = 0x7E, AM29332_OP_PASS_MASK = 0x7F
};

/* Weights of the status bits, and the lowest of those that are numbers. */
#define AM29332_STATUS_POSITION UINT32_C(0x00000001) /* times 0 to 255 */
#define AM29332_STATUS_WIDTH UINT32_C(0x00000100)    /* times 0 to 31 */
#define AM29332_STATUS_UNSIGNED_LE UINT32_C(0x00002000)
#define AM29332_STATUS_SIGNED_LT UINT32_C(0x00004000)
#define AM29332_STATUS_SIGNED_LE UINT32_C(0x00008000)
#define AM29332_STATUS_C UINT32_C(0x00010000)
#define AM29332_STATUS_N UINT32_C(0x00020000)
#define AM29332_STATUS_V UINT32_C(0x00040000)
#define AM29332_STATUS_Z UINT32_C(0x00080000)
#define AM29332_STATUS_L UINT32_C(0x00100000)
#define AM29332_STATUS_M UINT32_C(0x00200000)
#define AM29332_STATUS_S UINT32_C(0x00400000)
#define AM29332_STATUS_NIBBLES UINT32_C(0x01000000) /* times 0 to 255 */

/* Weights of the pins. */
#define AM29332_PIN_C UINT32_C(0x10)
#define AM29332_PIN_Z UINT32_C(0x08)
#define AM29332_PIN_N UINT32_C(0x04)
#define AM29332_PIN_V UINT32_C(0x02)
#define AM29332_PIN_L UINT32_C(0x01)

/* ---- What is handed over ------------------------------------------------ */

/* Q and the status register, as a caller holds them between runs. */
typedef struct am29332_machine {
    uint32_t q;
    uint32_t status;
} am29332_machine;

/* The fields of a sheet's word, in the order in which they are packed. A word
 * names registers a and b, used or not, and register y where write is 1; where
 * it is 0, the 0 in y names none. */
typedef struct am29332_word {
    uint32_t opcode;   /* 0 to 127 */
    uint32_t code;     /* byte code I8 I7: 0 four bytes, 1 one, 2 two, 3 three;
                          in a field operation, where position and width come
                          from */
    uint32_t position; /* 0 to 63 */
    uint32_t width;    /* 0 to 31 */
    uint32_t a;        /* registers, 0 to 63 */
    uint32_t b;
    uint32_t y;        /* 0 where write is 0 */
    uint32_t write;  /* 1: Y is stored in register y */
    uint32_t select; /* macro select. 1: where an operation takes a carry or a
                        link in, it is the macro carry or macro link, not C or
                        L. The other way round in MPDIVSTEP2, MPSDIVSTEP3 and
                        MPUDIVSTP3, where 0 takes the macro inputs (M13);
                        UP1-LF always takes L (M24) */
    uint32_t carry;  /* macro carry */
    uint32_t link;   /* macro link */
    uint32_t borrow; /* 1: C stands for a borrow in subtraction */
} am29332_word;

/* What stands at the chip for a single word: here a and b are values. */
typedef struct am29332_inputs {
    uint32_t opcode;
    uint32_t code;
    uint32_t position;
    uint32_t width;
    uint32_t select;
    uint32_t carry;
    uint32_t link;
    uint32_t borrow;
    uint32_t a;
    uint32_t b;
    uint32_t q;
    uint32_t status;
} am29332_inputs;

/* A reason (enum am29332_reason) and its place. */
typedef struct am29332_outcome {
    uint32_t reason;
    uint64_t place;
} am29332_outcome;

/* What a single word answers. */
typedef struct am29332_answer {
    am29332_outcome outcome;
    uint32_t y;
    uint32_t parity; /* a bit for each byte of Y, the highest byte's in bit 3,
                        each making the ones in byte and bit even */
    uint32_t q;
    uint32_t status;
    uint32_t pins; /* C, Z, N, V and L in bits 4 to 0 */
} am29332_answer;

/* What unpacking answers. */
typedef struct am29332_unpacked {
    am29332_outcome outcome;
    am29332_word word;
} am29332_unpacked;

/* What a header says. */
typedef struct am29332_heading {
    am29332_outcome outcome;
    uint32_t version;
    uint32_t words;
    uint32_t registers;
} am29332_heading;

/* What listing and reading answer: how many bytes they wrote, 0 where they are
 * refused. */
typedef struct am29332_wrote {
    am29332_outcome outcome;
    uint64_t bytes;
} am29332_wrote;

/* What a run answers: the machine is the one to go on from. */
typedef struct am29332_ran {
    am29332_outcome outcome;
    am29332_machine machine;
} am29332_ran;

/* What one word of a sheet answers: Y, parity and pins as in am29332_answer, and
 * the machine to go on from. */
typedef struct am29332_stepped {
    am29332_outcome outcome;
    uint32_t y;
    uint32_t parity;
    am29332_machine machine;
    uint32_t pins;
} am29332_stepped;

/* What an interrupted run answers; mark is of enum am29332_mark. */
typedef struct am29332_interrupted {
    am29332_outcome outcome;
    am29332_machine machine;
    uint32_t mark;
} am29332_interrupted;

/* The sizes and offsets that the library goes by, tried wherever this header is
 * compiled. */
#if defined(__cplusplus) && __cplusplus >= 201103L
#define AM29332_CHECK(condition) static_assert(condition, #condition)
#elif !defined(__cplusplus) && defined(__STDC_VERSION__) &&                    \
    __STDC_VERSION__ >= 201112L
#define AM29332_CHECK(condition) _Static_assert(condition, #condition)
#endif
#ifdef AM29332_CHECK
AM29332_CHECK(sizeof(size_t) == 8);
AM29332_CHECK(sizeof(am29332_machine) == 8);
AM29332_CHECK(sizeof(am29332_word) == 48);
AM29332_CHECK(offsetof(am29332_word, borrow) == 44);
AM29332_CHECK(sizeof(am29332_inputs) == 48);
AM29332_CHECK(offsetof(am29332_inputs, status) == 44);
AM29332_CHECK(sizeof(am29332_outcome) == 16);
AM29332_CHECK(offsetof(am29332_outcome, place) == 8);
AM29332_CHECK(sizeof(am29332_answer) == 40);
AM29332_CHECK(offsetof(am29332_answer, y) == 16);
AM29332_CHECK(offsetof(am29332_answer, pins) == 32);
AM29332_CHECK(sizeof(am29332_unpacked) == 64);
AM29332_CHECK(offsetof(am29332_unpacked, word) == 16);
AM29332_CHECK(sizeof(am29332_heading) == 32);
AM29332_CHECK(offsetof(am29332_heading, version) == 16);
AM29332_CHECK(sizeof(am29332_wrote) == 24);
AM29332_CHECK(offsetof(am29332_wrote, bytes) == 16);
AM29332_CHECK(sizeof(am29332_ran) == 24);
AM29332_CHECK(offsetof(am29332_ran, machine) == 16);
AM29332_CHECK(sizeof(am29332_stepped) == 40);
AM29332_CHECK(offsetof(am29332_stepped, machine) == 24);
AM29332_CHECK(offsetof(am29332_stepped, pins) == 32);
AM29332_CHECK(sizeof(am29332_interrupted) == 32);
AM29332_CHECK(offsetof(am29332_interrupted, mark) == 24);
#undef AM29332_CHECK
#endif

/* ---- Functions ---------------------------------------------------------- */

/*
 * The version of the library that is linked.
 *
 * Promises: major x 65,536 + minor x 256 + patch. A caller that was compiled
 * with this header can hold it to AM29332_LIBRARY_VERSION.
 */
uint32_t am29332_library_version(void);

/*
 * A fresh machine.
 *
 * Promises: Q and the status register are zero. Refuses nothing.
 */
am29332_machine am29332_fresh(void);

/*
 * One word on values, without sheet and registers.
 *
 * Promises: Y, its parity, Q and status are what the opcode's page in the
 * manual's chapter 2 says; bits 13, 14, 15 and 23 of the status as worked out,
 * 13 by the word's own borrow switch. The pins show that status.
 * Refuses, in this order: 1 OPCODE, 2 INPUTS; Y and parity are then 0, Q and
 * status as handed in, and the pins show that status. The place is always 0.
 */
am29332_answer am29332_single_word(am29332_inputs inputs);

/*
 * Packs a word into the first six of `length` bytes.
 *
 * Promises: those six hold the fields, most significant first, and the bytes
 * past the sixth stay.
 * Refuses, in this order: 1 OPCODE, 2 INPUTS, 17 IDLE, 14 ROOM; no byte is
 * changed. The place is always 0.
 */
am29332_outcome am29332_pack(am29332_word word, uint8_t *bytes, size_t length);

/*
 * Unpacks the first six of `length` bytes.
 *
 * Promises: the fields that packing would put there.
 * Refuses, in this order: 14 ROOM, 8 SPARE, 17 IDLE, 1 OPCODE; all fields are
 * then 0. The place is always 0.
 */
am29332_unpacked am29332_unpack(const uint8_t *bytes, size_t length);

/*
 * Reads the header of a sheet from the first four of `length` bytes, for a
 * caller that has to know how much to read and to lend.
 *
 * Promises: the version, which is 1, the word count (the sheet is
 * AM29332_SHEET_BYTES of it long) and the register count. What follows the four
 * bytes is not looked at.
 * Refuses, in this order: 3 SHORT, 4 VERSION, 5 HEADER; the three numbers are
 * then 0. The place is always 0.
 */
am29332_heading am29332_read_header(const uint8_t *sheet, size_t length);

/*
 * Checks a sheet of `length` bytes on its own.
 *
 * Promises: 0 DONE with place 0 exactly when a run from word 0 on a file of the
 * declared number of registers is not refused.
 * Refuses, in this order: 3 SHORT, 4 VERSION, 5 HEADER, 6 LENGTH; then words in
 * order, in each 8 SPARE, 17 IDLE, 1 OPCODE, 9 REGISTER, with the word as the
 * place.
 */
am29332_outcome am29332_check_sheet(const uint8_t *sheet, size_t length);

/*
 * Checks a sheet that is to be a handler, on its own.
 *
 * Promises: 0 DONE with place 0 exactly when the sheet is not refused and has
 * the handler's form. Six words or more, and two different registers s and q:
 *   words 0 and 1         PASS-STAT to s, PASS-Q to q, both with write 1
 *   words 2 and 3         LOADQ-A, LDSTAT-A, both with write 0
 *   any number of words   the body
 *   the last two          LOADQ-A from q, LDSTAT-A from s, both with write 0
 * The six have byte code and switches 0. Except as just listed, no word names s
 * or q (am29332_word says what names a register); either may be register 0.
 * Refuses: as am29332_check_sheet does, then 11 FORM, where s and q are y of
 * words 0 and 1 as they stand, written or not.
 */
am29332_outcome am29332_check_handler(const uint8_t *sheet, size_t length);

/*
 * Lists a sheet of `length` bytes: writes it as text that people read, at the
 * start of a buffer of `room` bytes. docs/LISTING.md says the text's form. Its
 * first line is about the sheet and each line after it about a word, such as
 *
 *   SUB         code=3 position=00 width=00 A=00 B=01 Y=02 write borrow
 *
 * Promises: `bytes` is the listing's length, the first so many of the buffer
 * are the listing, and the bytes past them stay. No 0 is put after it. A sheet
 * has one listing; am29332_read_listing makes the same sheet of it, byte for
 * byte. AM29332_LISTING_MOST bytes always suffice.
 * Refuses, in this order: what am29332_check_sheet refuses, with its places;
 * 14 ROOM, place 0. No byte is changed, and `bytes` is 0.
 */
am29332_wrote am29332_list_sheet(const uint8_t *sheet, size_t length,
                                 uint8_t *text, size_t room);

/*
 * Reads a listing of `length` bytes, or a text that an editor wrote by the
 * rules of docs/LISTING.md: writes the sheet that it stands for at the start of
 * a buffer of `room` bytes.
 *
 * Promises: `bytes` is the sheet's length, AM29332_SHEET_BYTES of the lines
 * after the first; the first so many of the buffer are the sheet, and the bytes
 * past them stay. am29332_check_sheet does not refuse it. AM29332_SHEET_MOST
 * bytes always suffice.
 * Refuses the first fault, going through the lines in order; the place is the
 * line, and the first line is 0. In the first line, in this order: 15 TEXT
 * (also of an empty text), 4 VERSION, 5 HEADER; in each other line 15 TEXT, 2
 * INPUTS, 17 IDLE, 9 REGISTER. Where every line is good: 16 COUNT, 14 ROOM,
 * place 0. No byte is changed, and `bytes` is 0.
 */
am29332_wrote am29332_read_listing(const uint8_t *text, size_t length,
                                   uint8_t *sheet, size_t room);

/*
 * Runs a sheet on a file of `registers` registers, from word `start` on, at
 * most `allowance` words (UINT64_MAX: to the end).
 *
 * Promises: the place is the number of words run, the smaller of the allowance
 * and the words left. The file, Q and status are what those words leave one
 * after another: each reads A and B from the file and stores Y only when write
 * is 1. Bit 13 of the status is in carry mode. Going on from start + place with
 * what a run left is the same as one longer run.
 * Refuses, in this order: 3 SHORT, 4 VERSION, 5 HEADER, 6 LENGTH, 7 FILE; then
 * words in order, in each 8 SPARE, 17 IDLE, 1 OPCODE, 9 REGISTER; then 10
 * START. The whole sheet is checked, also the words that would not run.
 */
am29332_ran am29332_run(const uint8_t *sheet, size_t length,
                        uint32_t *file, size_t registers,
                        am29332_machine machine,
                        uint64_t start, uint64_t allowance);

/*
 * Runs word `start` of a sheet alone and shows what it leaves, for a front
 * panel or a debugger.
 *
 * Promises: the place is 1, or 0 where `start` is the count and no word is
 * left. The file, Q and status are those of am29332_run with an allowance of 1,
 * but that bit 13 of the status is by the word's own borrow switch; Y, parity,
 * status and pins are what am29332_single_word answers on the word's fields and
 * its two registers, whether write is 1 or not. Where no word ran Y and parity
 * are 0, the status is in carry mode, and the pins show it.
 * Refuses: as am29332_run does, and checks the whole sheet at each call; Y and
 * parity are then 0, and the pins show the status handed in.
 */
am29332_stepped am29332_step(const uint8_t *sheet, size_t length,
                             uint32_t *file, size_t registers,
                             am29332_machine machine, uint64_t start);

/*
 * Runs the main sheet from word 0 to its end, and the whole handler at each of
 * the `entries` boundaries of the schedule: an entry b lets it in after b main
 * words and before the next. Equal entries run it again.
 *
 * Promises: the file, Q and status are what main and handler words leave, run
 * singly in that order, bit 13 of the status in carry mode; the place is the
 * number of words run, main and handler words together, and the mark 0. So the
 * registers that the main sheet names, Q and status end as if the handler had
 * never run, and those that the handler names, its two save registers apart, as
 * if it alone had run as often.
 * Refuses, in this order: what am29332_run refuses in the main sheet but 10
 * START (mark 1), the same in the handler's sheet (mark 2), 11 FORM (mark 2),
 * 12 OVERLAP (mark 1), 13 SCHEDULE (mark 0).
 */
am29332_interrupted am29332_interrupted_run(
    const uint8_t *main_sheet, size_t main_length,
    const uint8_t *handler_sheet, size_t handler_length,
    const uint16_t *schedule, size_t entries,
    uint32_t *file, size_t registers, am29332_machine machine);

#ifdef __cplusplus
}
#endif

#endif
