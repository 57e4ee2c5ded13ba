/*
 * The Am29332 by hand. See model.h.
 *
 * How it is made fast:
 * - a word's six bytes are read once, into 64 bits; fields are taken by shift
 *   where they are needed;
 * - "selected" bytes are shifted to the top of 32 bits, so that N is bit 31
 *   and Z is a test for zero at every byte code;
 * - one 64-bit sum gives the result and the carry into every bit, hence C and
 *   V of any width and all eight nibble borrows;
 * - the status register is kept in parts, each in the form that is cheapest to
 *   store; bits 13 to 15 and the packed word are made only when it is read, and
 *   only then is the borrow switch looked at for bit 13;
 * - a sheet is checked once, and then run without further tests.
 */
#include "model.h"

#include <string.h>

#define INLINE static inline __attribute__((always_inline))

/* ---- A word's fields ---------------------------------------------------- */

/* 48 bits, most significant first: opcode 7, byte code 2, position 6, width 5,
 * A 6, B 6, Y 6, write, macro select, macro carry, macro link, borrow, zero 5. */
enum {
    AT_OPCODE = 41,
    AT_I8 = 40,
    AT_I7 = 39,
    AT_POSITION = 33,
    AT_WIDTH = 28,
    AT_A = 22,
    AT_B = 16,
    AT_Y = 10,
    AT_WRITE = 9,
    AT_MACRO_SELECT = 8,
    AT_MACRO_CARRY = 7,
    AT_MACRO_LINK = 6,
    AT_BORROW = 5
};

#define WORD_MASK 0xFFFFFFFFFFFFull
#define SPARE_MASK 0x1Full
#define Y_MASK (63ull << AT_Y)
#define WRITE_MASK (1ull << AT_WRITE)

INLINE uint32_t field(uint64_t word, int at, int bits)
{
    return (uint32_t)(word >> at) & ((1u << bits) - 1);
}

INLINE uint32_t opcode_of(uint64_t word) { return field(word, AT_OPCODE, 7); }
INLINE uint32_t a_of(uint64_t word) { return field(word, AT_A, 6); }
INLINE uint32_t b_of(uint64_t word) { return field(word, AT_B, 6); }
INLINE uint32_t y_of(uint64_t word) { return field(word, AT_Y, 6); }
INLINE uint32_t bit_of(uint64_t word, int at) { return field(word, at, 1); }
INLINE uint32_t borrow_of(uint64_t word) { return bit_of(word, AT_BORROW); }

/* Bits of a word that are set and must be 0: spare ones, and Y's where it does
 * not write. The write bit less 1 is all ones where it is 0; where it is 1, the
 * ones below it, with the spare bits among them and Y's not. */
INLINE uint64_t wrong_bits(uint64_t word)
{
    return word & (SPARE_MASK | Y_MASK) & ((word & WRITE_MASK) - 1);
}

/* How far the selected bytes are from the top: byte code 00, 01, 10, 11 (four
 * bytes, one, two, three) gives 0, 24, 16, 8. */
INLINE uint32_t shift_of(uint64_t word)
{
    return (0u - (uint32_t)(word >> AT_I7)) % 4 * 8;
}

/* Eight bytes, high first, by one load. */
INLINE uint64_t big_endian_64(const uint8_t *bytes)
{
    uint64_t value;
    memcpy(&value, bytes, sizeof value);
#if __BYTE_ORDER__ == __ORDER_LITTLE_ENDIAN__
    value = __builtin_bswap64(value);
#endif
    return value;
}

/* A word of a sheet. At least four bytes of header stand before it, so that
 * eight bytes can be read from two before it on. */
INLINE uint64_t word_at(const uint8_t *bytes)
{
    return big_endian_64(bytes - 2) & WORD_MASK;
}

/* ---- The machine between entry and exit --------------------------------- */

struct machine {
    uint32_t q;
    uint32_t z;          /* Z is 1 where this is 0 */
    uint32_t n;          /* N is bit 31 */
    uint32_t v;          /* V is bit 31 */
    uint32_t c, l, m, s; /* 0 or 1 */
    uint32_t nibbles;    /* nibble carry i is bit 4i; other bits mean nothing */
    uint32_t pw;         /* status bits 12 to 0: width, position */
};

#define NIBBLES 0x11111111u

/* Status (figure 3 and "Functional Description"). */
enum {
    STATUS_Z = 1 << 19,
    STATUS_PW = 0x1FFF,
    STATUS_P = 0xFF
};

/* Bits 0 to 7 moved to bits 0, 4, .. 28, and back to bits 24 to 31. */
INLINE uint32_t spread(uint32_t byte)
{
    byte = (byte | byte << 12) & 0x000F000F;
    byte = (byte | byte << 6) & 0x03030303;
    return (byte | byte << 3) & NIBBLES;
}

INLINE uint32_t gather(uint32_t nibbles)
{
    uint32_t pairs = nibbles & NIBBLES;
    pairs = (pairs | pairs >> 3) & 0x03030303;
    return (pairs * 0x01041040) & 0xFF000000;
}

INLINE uint32_t z_flag(const struct machine *m) { return m->z == 0; }
INLINE uint32_t n_flag(const struct machine *m) { return m->n >> 31; }
INLINE uint32_t v_flag(const struct machine *m) { return m->v >> 31; }

/* Takes the stored bits; 13, 14, 15 and 23 are ignored. */
INLINE void load_status(struct machine *m, uint32_t word)
{
    m->pw = word & STATUS_PW;
    m->c = word >> 16 & 1;
    m->n = word << 14;
    m->v = word << 13;
    m->z = ~word & STATUS_Z;
    m->l = word >> 20 & 1;
    m->m = word >> 21 & 1;
    m->s = word >> 22 & 1;
    m->nibbles = spread(word >> 24);
}

/* What a run hands back is read in carry mode. */
enum { CARRY_MODE = 0 };

/* The whole register, by a borrow switch: 13 is C or Z where it is 1 and (not
 * C) or Z where it is 0, 14 is N xor V, 15 is (N xor V) or Z, 23 is 0. The one
 * place where these are worked out. */
INLINE uint32_t read_status(const struct machine *m, uint32_t borrow)
{
    uint32_t z = z_flag(m), n = n_flag(m), v = v_flag(m), less = n ^ v;
    uint32_t below = m->c ^ borrow ^ 1;
    return m->pw | (below | z) << 13 | less << 14 | (less | z) << 15 |
           m->c << 16 | n << 17 | v << 18 | z << 19 |
           m->l << 20 | m->m << 21 | m->s << 22 | gather(m->nibbles);
}

/* The register as a word reads it, by its own switch. */
INLINE uint32_t status_for(const struct machine *m, uint64_t word)
{
    return read_status(m, borrow_of(word));
}

INLINE struct machine enter(struct model_machine outside)
{
    struct machine m;
    m.q = outside.q;
    load_status(&m, outside.status);
    return m;
}

INLINE struct model_machine leave(const struct machine *m, uint32_t borrow)
{
    struct model_machine outside = {m->q, read_status(m, borrow)};
    return outside;
}

/* ---- Selected bytes ----------------------------------------------------- */

/* The selected bytes of one word, the others of another. */
INLINE uint32_t merge(uint32_t shift, uint32_t selected, uint32_t other)
{
    uint32_t mask = UINT32_MAX >> shift;
    return (selected & mask) | (other & ~mask);
}

/* The highest selected bit, 0 or 1. */
INLINE uint32_t top_bit(uint32_t shift, uint32_t x) { return x << shift >> 31; }

/* An arithmetic shift down (every compiler in use has it so). */
INLINE uint32_t down_signed(uint32_t x, uint32_t by)
{
    return (uint32_t)((int32_t)x >> by);
}

INLINE void set_z(struct machine *m, uint32_t shift, uint32_t y)
{
    m->z = y << shift;
}

/* Z and N of the selected bytes of Y, which is handed back. */
INLINE uint32_t with_zn(struct machine *m, uint32_t shift, uint32_t y)
{
    m->z = m->n = y << shift;
    return y;
}

/* ---- Data movement ------------------------------------------------------ */

/* ZERO-EXTA, ZERO-EXTB */
INLINE uint32_t zero_extend(struct machine *m, uint32_t shift, uint32_t x)
{
    return with_zn(m, shift, merge(shift, x, 0));
}

/* SIGN-EXTA, SIGN-EXTB */
INLINE uint32_t sign_extend(struct machine *m, uint32_t shift, uint32_t x)
{
    return with_zn(m, shift, down_signed(x << shift, shift));
}

/* LOADQ-A, LOADQ-B: Y is the new Q. */
INLINE uint32_t load_q(struct machine *m, uint32_t shift, uint32_t x)
{
    m->q = merge(shift, x, m->q);
    return with_zn(m, shift, m->q);
}

/* NOT-A, NOT-B */
INLINE uint32_t complement(struct machine *m, uint32_t shift, uint32_t x)
{
    return with_zn(m, shift, merge(shift, ~x, x));
}

/* PRIOR-A, PRIOR-B: leading zeros of the selected bytes, to Y and to the
 * position bits; none set gives 0. */
INLINE uint32_t prioritize(struct machine *m, uint32_t shift, uint32_t x)
{
    uint32_t selected = x << shift;
    uint32_t code = selected ? (uint32_t)__builtin_clz(selected) : 0;
    m->z = selected;
    m->pw = (m->pw & ~(uint32_t)STATUS_P) | code;
    return code;
}

/* MERGEA-B, MERGEB-A, and the logic operations: Y's unselected bytes from the
 * other operand. */
INLINE uint32_t merged_zn(struct machine *m, uint32_t shift, uint32_t selected,
                          uint32_t other)
{
    return with_zn(m, shift, merge(shift, selected, other));
}

/* SIGN: the N flag in all selected bits; Z its complement, N kept. */
INLINE uint32_t sign(struct machine *m, uint32_t shift, uint32_t b)
{
    m->z = n_flag(m);
    return merge(shift, 0u - n_flag(m), b);
}

/* LDSTAT-A, LDSTAT-B: Y has the operand's bytes as they are. */
INLINE uint32_t load_selected_status(struct machine *m, uint64_t word,
                                     uint32_t x)
{
    uint32_t y = merge(shift_of(word), x, status_for(m, word));
    load_status(m, y);
    return y;
}

/* ---- Single-bit shifts -------------------------------------------------- */

/* The selected bytes of x down by one with a bit entering on top, the other
 * bytes kept. */
INLINE uint32_t down_one(uint32_t shift, uint32_t x, uint32_t fill)
{
    return merge(shift, (x << shift >> 1 | fill << 31) >> shift, x);
}

/* The same up, the bit entering below. */
INLINE uint32_t up_one(uint32_t shift, uint32_t x, uint32_t fill)
{
    return merge(shift, x << 1 | fill, x);
}

/* DN1-xx-A, DN1-xx-B */
INLINE uint32_t down(struct machine *m, uint32_t shift, uint32_t x,
                     uint32_t fill)
{
    m->l = x & 1;
    return with_zn(m, shift, down_one(shift, x, fill));
}

/* DN1-xx-AQ, DN1-xx-BQ: the bit shifted out enters Q, Q's goes to L. */
INLINE uint32_t down_q(struct machine *m, uint32_t shift, uint32_t x,
                       uint32_t fill)
{
    m->l = m->q & 1;
    m->q = down_one(shift, m->q, x & 1);
    return with_zn(m, shift, down_one(shift, x, fill));
}

/* UP1-xx-A, UP1-xx-B: V where the sign changes. */
INLINE uint32_t up(struct machine *m, uint32_t shift, uint32_t x, uint32_t fill)
{
    uint32_t y = up_one(shift, x, fill);
    m->l = top_bit(shift, x);
    m->v = (x ^ y) << shift;
    return with_zn(m, shift, y);
}

/* UP1-xx-AQ, UP1-xx-BQ: Q's top bit enters, the fill enters Q. */
INLINE uint32_t up_q(struct machine *m, uint32_t shift, uint32_t x,
                     uint32_t fill)
{
    uint32_t from_q = top_bit(shift, m->q);
    m->q = up_one(shift, m->q, fill);
    return up(m, shift, x, from_q);
}

/* DN1-LF: macro select takes the macro link instead of L. UP1-LF has no such
 * note and always takes L. */
INLINE uint32_t link_in(const struct machine *m, uint64_t word)
{
    return bit_of(word, AT_MACRO_SELECT) ? bit_of(word, AT_MACRO_LINK) : m->l;
}

/* ---- Sums --------------------------------------------------------------- */

/* x + y + carry: the result, and in bit i of `carries` the carry into bit i,
 * bit 32 included. */
struct sum {
    uint32_t f;
    uint64_t carries;
};

INLINE struct sum add(uint32_t x, uint32_t y, uint32_t carry)
{
    uint64_t f = (uint64_t)x + y + carry;
    struct sum sum = {(uint32_t)f, f ^ x ^ y};
    return sum;
}

/* x - y is x + not y + 1. */
INLINE struct sum add_or_subtract(uint32_t x, uint32_t y, uint32_t subtract,
                                  uint32_t carry)
{
    return add(x, y ^ (0u - subtract), carry);
}

/* The carry out of the highest selected bit. */
INLINE uint32_t carry_out(uint32_t shift, struct sum sum)
{
    return (uint32_t)(sum.carries << shift >> 32) & 1;
}

/* In bit 31: the carry into the highest selected bit xor the carry out. */
INLINE uint32_t overflow(uint32_t shift, struct sum sum)
{
    return (uint32_t)((sum.carries ^ sum.carries >> 1) << shift);
}

/* Nibble carries of addition, appendix A's two conditions in bit 3 of every
 * nibble at once: digit + digit + binary carry in is over 9; or the digits make
 * 9, there is no binary carry in, and the nibble below has a nibble carry. The
 * first makes a carry, the second passes one on, so one more addition with ones
 * in between runs the chain. It leaves the complement of each nibble carry in
 * the bit above its nibble. */
INLINE uint32_t nibble_carries(struct sum sum)
{
    uint32_t f = sum.f;
    uint32_t middle = f << 1 | f << 2;
    uint32_t out = (uint32_t)(sum.carries >> 1), in = (uint32_t)sum.carries << 3;
    uint32_t over = ((f & middle) | out) & 0x88888888;
    uint32_t nine = f & f << 3 & ~(middle | in);
    return ~(uint32_t)(((0x177777777ull | over | nine) + over) >> 4);
}

/* Nibble borrows of subtraction: the complements of the carries out of each
 * nibble, whatever the borrow switch. */
INLINE uint32_t nibble_borrows(struct sum sum)
{
    return ~(uint32_t)(sum.carries >> 4);
}

/* Y with Z, N, V, and C = carry xor `invert`. */
INLINE uint32_t with_flags(struct machine *m, uint32_t shift, struct sum sum,
                           uint32_t other, uint32_t invert)
{
    m->c = carry_out(shift, sum) ^ invert;
    m->v = overflow(shift, sum);
    return merged_zn(m, shift, sum.f, other);
}

/* ADD, ADDC (`invert` 0), INCR (C = carry xor borrow). */
INLINE uint32_t addition(struct machine *m, uint32_t shift, uint32_t x,
                         uint32_t y, uint32_t carry, uint32_t other,
                         uint32_t invert)
{
    struct sum sum = add(x, y, carry);
    m->nibbles = nibble_carries(sum);
    return with_flags(m, shift, sum, other, invert);
}

/* SUB, SUBC, SUBR, SUBRC, NEG, DECR: x + not y + carry, C = carry xor borrow. */
INLINE uint32_t subtraction(struct machine *m, uint32_t shift, uint32_t x,
                            uint32_t y, uint32_t carry, uint32_t other,
                            uint32_t borrow)
{
    struct sum sum = add(x, ~y, carry);
    m->nibbles = nibble_borrows(sum);
    return with_flags(m, shift, sum, other, borrow);
}

INLINE uint32_t negate(struct machine *m, uint64_t word, uint32_t x)
{
    return subtraction(m, shift_of(word), 0, x, 1, x, borrow_of(word));
}

INLINE uint32_t increment(struct machine *m, uint64_t word, uint32_t x,
                          uint32_t by)
{
    return addition(m, shift_of(word), x, by, 0, x, borrow_of(word));
}

INLINE uint32_t decrement(struct machine *m, uint64_t word, uint32_t x,
                          uint32_t by)
{
    return subtraction(m, shift_of(word), x, by, 1, x, borrow_of(word));
}

/* ADDC, SUBC, SUBRC: macro select takes the macro carry instead of C. */
INLINE uint32_t carry_in(const struct machine *m, uint64_t word)
{
    return bit_of(word, AT_MACRO_SELECT) ? bit_of(word, AT_MACRO_CARRY) : m->c;
}

/* The flags of SUM-CORR and DIFF-CORR: C from the top selected nibble carry, V
 * from the top two; the nibble carries are kept. */
INLINE uint32_t corrected(struct machine *m, uint32_t shift, uint32_t result,
                          uint32_t x, uint32_t invert)
{
    uint32_t nibbles = m->nibbles << shift;
    m->c = (nibbles >> 28 & 1) ^ invert;
    m->v = nibbles << 3 ^ nibbles << 7;
    return merged_zn(m, shift, result, x);
}

INLINE uint32_t correction(const struct machine *m)
{
    return (m->nibbles & NIBBLES) * 6;
}

/* SUM-CORR-A, SUM-CORR-B */
INLINE uint32_t sum_correct(struct machine *m, uint32_t shift, uint32_t x)
{
    return corrected(m, shift, x + correction(m), x, 0);
}

/* DIFF-CORR-A, DIFF-CORR-B: C is the EX-NOR of the borrow and the switch. */
INLINE uint32_t difference_correct(struct machine *m, uint64_t word, uint32_t x)
{
    return corrected(m, shift_of(word), x - correction(m), x,
                     1 ^ borrow_of(word));
}

/* ---- Divide ------------------------------------------------------------- */

/* Q up by one with a quotient bit entering. */
INLINE void quotient(struct machine *m, uint32_t shift, uint32_t bit)
{
    m->q = up_one(shift, m->q, bit);
}

/* F of the divide pages: B + A where M is 0, B - A where it is 1. */
INLINE struct sum partial(const struct machine *m, uint32_t a, uint32_t b)
{
    return add_or_subtract(b, a, m->m, m->m);
}

/* F up by one into Y, B's unselected bytes kept. */
INLINE uint32_t doubled(uint32_t shift, uint32_t f, uint32_t fill, uint32_t b)
{
    return merge(shift, f << 1 | fill, b);
}

/* The quotient bit of signed division: do the signs of A and F agree? */
INLINE uint32_t agree(uint32_t shift, uint32_t a, uint32_t f)
{
    return top_bit(shift, ~(a ^ f));
}

/* The sign of F extended by S (UDIVSTEP, note 1); the quotient bit is its
 * complement. */
INLINE uint32_t extended_sign(const struct machine *m, uint32_t carry)
{
    return m->m ^ m->s ^ carry;
}

INLINE uint32_t sdivfirst(struct machine *m, uint32_t shift, uint32_t a,
                          uint32_t b)
{
    uint32_t y = doubled(shift, b, top_bit(shift, m->q), b);
    m->m = agree(shift, a, b);
    m->l = m->s = top_bit(shift, b);
    quotient(m, shift, m->m);
    return with_zn(m, shift, y);
}

INLINE uint32_t udivfirst(struct machine *m, uint32_t shift, uint32_t b)
{
    uint32_t y = doubled(shift, b, top_bit(shift, m->q), b);
    m->m = 1;
    m->s = 0;
    m->l = top_bit(shift, b);
    quotient(m, shift, 0);
    return with_zn(m, shift, y);
}

INLINE uint32_t sdivstep(struct machine *m, uint32_t shift, uint32_t a,
                         uint32_t b)
{
    struct sum sum = partial(m, a, b);
    uint32_t y = doubled(shift, sum.f, top_bit(shift, m->q), b);
    m->c = carry_out(shift, sum);
    m->l = top_bit(shift, sum.f);
    m->m = agree(shift, a, sum.f);
    quotient(m, shift, m->m);
    return with_zn(m, shift, y);
}

INLINE uint32_t sdivlast1(struct machine *m, uint32_t shift, uint32_t a,
                          uint32_t b)
{
    struct sum sum = partial(m, a, b);
    m->c = carry_out(shift, sum);
    m->m = agree(shift, a, sum.f);
    quotient(m, shift, 1);
    return merged_zn(m, shift, sum.f, b);
}

/* SDIVLAST2: the divisor's sign is Q's xor S; Z alone changes. */
INLINE uint32_t sdivlast2(struct machine *m, uint32_t shift, uint32_t a,
                          uint32_t b)
{
    uint32_t subtract = top_bit(shift, m->q) ^ m->s;
    uint32_t y = merge(shift, subtract ? b - a : b + a, b);
    m->z = m->s ? y << shift : 1;
    return y;
}

/* What UDIVSTEP and MPUDIVSTP3 share: flags, and the new quotient bit in M. */
INLINE void unsigned_step_flags(struct machine *m, uint32_t shift,
                                struct sum sum)
{
    m->c = carry_out(shift, sum);
    m->m = 1 ^ extended_sign(m, m->c);
    m->l = m->s = top_bit(shift, sum.f);
}

/* UDIVSTEP keeps N. */
INLINE uint32_t udivstep(struct machine *m, uint32_t shift, uint32_t a,
                         uint32_t b)
{
    struct sum sum = partial(m, a, b);
    uint32_t y = doubled(shift, sum.f, top_bit(shift, m->q), b);
    unsigned_step_flags(m, shift, sum);
    quotient(m, shift, m->m);
    set_z(m, shift, y);
    return y;
}

/* UDIVLAST: N is the remainder's sign, M its complement. */
INLINE uint32_t udivlast(struct machine *m, uint32_t shift, uint32_t a,
                         uint32_t b)
{
    struct sum sum = partial(m, a, b);
    uint32_t y = merge(shift, sum.f, b);
    uint32_t negative;
    m->c = carry_out(shift, sum);
    negative = extended_sign(m, m->c);
    m->n = negative << 31;
    m->m = 1 ^ negative;
    m->s = 0;
    quotient(m, shift, m->m);
    set_z(m, shift, y);
    return y;
}

/* MPDIVSTEP1: the full word; the byte code picks Q's bytes alone. */
INLINE uint32_t mpdivstep1(struct machine *m, uint32_t shift, uint32_t a,
                           uint32_t b)
{
    struct sum sum = partial(m, a, b);
    uint32_t y = sum.f << 1 | top_bit(shift, m->q);
    quotient(m, shift, 0);
    m->c = carry_out(0, sum);
    m->l = sum.f >> 31;
    m->z = y;
    return y;
}

/* The carry and link of MPDIVSTEP2, MPSDIVSTEP3 and MPUDIVSTP3: by their notes
 * macro select 0 takes the macro inputs, 1 takes C and L. */
struct multi {
    struct sum sum;
    uint32_t link;
};

INLINE struct multi multi_partial(const struct machine *m, uint64_t word,
                                  uint32_t a, uint32_t b)
{
    uint32_t micro = bit_of(word, AT_MACRO_SELECT);
    uint32_t carry = micro ? m->c : bit_of(word, AT_MACRO_CARRY);
    uint32_t link = micro ? m->l : bit_of(word, AT_MACRO_LINK);
    struct multi multi = {add_or_subtract(b, a, m->m, carry), link};
    return multi;
}

/* MPDIVSTEP2: the full word, byte code ignored. */
INLINE uint32_t mpdivstep2(struct machine *m, uint64_t word, uint32_t a,
                           uint32_t b)
{
    struct multi multi = multi_partial(m, word, a, b);
    uint32_t y = multi.sum.f << 1 | multi.link;
    m->c = carry_out(0, multi.sum);
    m->l = multi.sum.f >> 31;
    m->z = y;
    return y;
}

/* MPSDIVSTEP3, MPUDIVSTP3: the quotient bit into Q0, Q not shifted (note 1). */
INLINE uint32_t third_step(struct machine *m, uint32_t shift,
                           struct multi multi, uint32_t b)
{
    uint32_t y = doubled(shift, multi.sum.f, multi.link, b);
    m->q = (m->q & ~1u) | m->m;
    set_z(m, shift, y);
    return y;
}

INLINE uint32_t mpsdivstep3(struct machine *m, uint64_t word, uint32_t a,
                            uint32_t b)
{
    uint32_t shift = shift_of(word);
    struct multi multi = multi_partial(m, word, a, b);
    m->c = carry_out(shift, multi.sum);
    m->l = top_bit(shift, multi.sum.f);
    m->m = agree(shift, a, multi.sum.f);
    return third_step(m, shift, multi, b);
}

INLINE uint32_t mpudivstp3(struct machine *m, uint64_t word, uint32_t a,
                           uint32_t b)
{
    uint32_t shift = shift_of(word);
    struct multi multi = multi_partial(m, word, a, b);
    unsigned_step_flags(m, shift, multi.sum);
    return third_step(m, shift, multi, b);
}

INLINE uint32_t correction_wanted(const struct machine *m)
{
    return z_flag(m) ^ n_flag(m) ^ m->s;
}

/* REMCORR: where N and S are 0 the division is finished. The manual leaves by
 * a jump there; a straight list has to pass B. */
INLINE uint32_t remcorr(struct machine *m, uint32_t shift, uint32_t a,
                        uint32_t b)
{
    struct sum sum;
    if (!(correction_wanted(m) & (n_flag(m) | m->s))) {
        m->c = 0;
        return b;
    }
    sum = partial(m, a, b);
    m->c = carry_out(shift, sum);
    return merge(shift, sum.f, b);
}

/* QUOCORR: B - 1 where M is 0, B + 1 where it is 1. */
INLINE uint32_t quocorr(struct machine *m, uint32_t shift, uint32_t b)
{
    struct sum sum;
    if (!correction_wanted(m)) {
        m->c = m->v = 0;
        return b;
    }
    sum = add_or_subtract(b, 1, 1 ^ m->m, 1 ^ m->m);
    m->c = carry_out(shift, sum);
    m->v = overflow(shift, sum);
    return merge(shift, sum.f, b);
}

/* ---- Multiply (table 12-1, modified Booth) ------------------------------ */

INLINE uint64_t zero_extended(uint32_t shift, uint32_t x)
{
    return x << shift >> shift;
}

INLINE uint64_t sign_extended(uint32_t shift, uint32_t x)
{
    return (uint64_t)(int64_t)(int32_t)down_signed(x << shift, shift);
}

/* F = B + row x A over n + 2 bits, row = Q0 + M - 2 Q1; Y is F down two, Q goes
 * down two with F1 F0 on top, M gets Q1. */
INLINE uint32_t booth(struct machine *m, uint32_t shift, uint64_t partial_sum,
                      uint32_t carried, uint64_t a, uint32_t b)
{
    uint32_t q1 = m->q >> 1 & 1;
    uint64_t row = (uint64_t)(m->q & 1) + carried - 2 * (uint64_t)q1;
    uint64_t f = partial_sum + row * a;
    uint32_t low = (m->q << shift >> 2 | (uint32_t)f << 30) >> shift;
    m->q = merge(shift, low, m->q);
    m->m = q1;
    return merge(shift, (uint32_t)(f >> 2), b);
}

/* UMULFIRST, SMULFIRST: the selected bytes of B and M are taken as 0. */
INLINE uint32_t multiply_first(struct machine *m, uint32_t shift, uint64_t a,
                               uint32_t b)
{
    return booth(m, shift, 0, 0, a, b);
}

/* UMULSTEP, SMULSTEP */
INLINE uint32_t multiply_step(struct machine *m, uint32_t shift, uint64_t a,
                              uint32_t b)
{
    return booth(m, shift, sign_extended(shift, b), m->m, a, b);
}

/* UMULLAST: adds A where M is 1; Z alone changes. */
INLINE uint32_t umullast(struct machine *m, uint32_t shift, uint32_t a,
                         uint32_t b)
{
    uint32_t y = merge(shift, b + (a & (0u - m->m)), b);
    set_z(m, shift, y);
    return y;
}

/* ---- Position and width: N-bit shifts, bits, fields --------------------- */

/* I8 low takes the position from the word, high from status bits 5 to 0. */
INLINE uint32_t position_of(const struct machine *m, uint64_t word)
{
    return bit_of(word, AT_I8) ? m->pw & 63 : field(word, AT_POSITION, 6);
}

/* I7 does the same for the width and status bits 12 to 8. A mask of as many
 * ones, 0 standing for 32. */
INLINE uint32_t ones_of(const struct machine *m, uint64_t word)
{
    uint32_t width = bit_of(word, AT_I7) ? m->pw >> 8 : field(word, AT_WIDTH, 5);
    return UINT32_MAX >> (0u - width) % 32;
}

INLINE uint32_t rotate_up(uint32_t x, uint32_t by)
{
    return x << by | x >> (0u - by) % 32;
}

/* Z of the word or field, N of bit 31. */
INLINE uint32_t with_full_zn(struct machine *m, uint32_t y, uint32_t z)
{
    m->z = z;
    m->n = y;
    return y;
}

/* NB-SN-SHA/B and NB-0F-SHA/B, with the operand extended to 64 bits by its
 * fill: up by p, or up by p + 32 and then down by 32. */
INLINE uint32_t n_bit_shift(struct machine *m, uint64_t word, uint64_t x)
{
    uint32_t position = position_of(m, word);
    uint32_t y = (uint32_t)(x << position % 32 >> (position & 32));
    return with_full_zn(m, y, y);
}

/* NBROT-A, NBROT-B: the low five position bits. */
INLINE uint32_t n_bit_rotate(struct machine *m, uint64_t word, uint32_t x)
{
    uint32_t y = rotate_up(x, position_of(m, word) % 32);
    return with_full_zn(m, y, y);
}

/* EXTBIT-STAT; L alone changes. The sixth position bit inverts. */
INLINE uint32_t extract_bit(struct machine *m, uint64_t word, uint32_t x)
{
    uint32_t position = position_of(m, word);
    m->l = (x >> position % 32 & 1) ^ position >> 5;
    return m->l;
}

/* EXTBIT-A, EXTBIT-B */
INLINE uint32_t extract_bit_z(struct machine *m, uint64_t word, uint32_t x)
{
    m->z = extract_bit(m, word, x);
    return m->z;
}

INLINE uint32_t chosen_bit(const struct machine *m, uint64_t word)
{
    return 1u << position_of(m, word) % 32;
}

/* SETBIT-A, SETBIT-B: Z is reset. */
INLINE uint32_t set_bit(struct machine *m, uint64_t word, uint32_t x)
{
    return with_full_zn(m, x | chosen_bit(m, word), 1);
}

/* RSTBIT-A, RSTBIT-B: Z is always set. */
INLINE uint32_t reset_bit(struct machine *m, uint64_t word, uint32_t x)
{
    return with_full_zn(m, x & ~chosen_bit(m, word), 0);
}

/* SETBIT-STAT, RSTBIT-STAT: Y is the new status, worked out. */
INLINE uint32_t put_status(struct machine *m, uint64_t word, uint32_t status)
{
    load_status(m, status);
    return status_for(m, word);
}

/* An operand and the mask of the field it is used in. */
struct field_operand {
    uint32_t x, mask;
};

/* Aligned (xxx-AL-x): the field starts at the low five position bits. */
INLINE struct field_operand aligned(const struct machine *m, uint64_t word,
                                    uint32_t x)
{
    struct field_operand operand = {
        x, ones_of(m, word) << position_of(m, word) % 32};
    return operand;
}

/* Non-aligned: shifted up to the position, or rotated down with the field at
 * bit 0. In its field an operand shifted up looks as if rotated. */
INLINE struct field_operand moved(const struct machine *m, uint64_t word,
                                  uint32_t x)
{
    uint32_t position = position_of(m, word);
    uint32_t start = position & 32 ? 0 : position;
    struct field_operand operand = {rotate_up(x, position % 32),
                                    ones_of(m, word) << start};
    return operand;
}

/* A result in the field and B elsewhere; Z of the field. */
INLINE uint32_t in_field(struct machine *m, uint32_t result, uint32_t mask,
                         uint32_t b)
{
    return with_full_zn(m, (result & mask) | (b & ~mask), result & mask);
}

/* NOTF-A, NOTF-AL-A, NOTF-AL-B, and so on. */
INLINE uint32_t field_not(struct machine *m, struct field_operand f, uint32_t b)
{
    return in_field(m, ~f.x, f.mask, b);
}

INLINE uint32_t field_pass(struct machine *m, struct field_operand f,
                           uint32_t b)
{
    return in_field(m, f.x, f.mask, b);
}

INLINE uint32_t field_or(struct machine *m, struct field_operand f, uint32_t b)
{
    return in_field(m, f.x | b, f.mask, b);
}

INLINE uint32_t field_xor(struct machine *m, struct field_operand f, uint32_t b)
{
    return in_field(m, f.x ^ b, f.mask, b);
}

INLINE uint32_t field_and(struct machine *m, struct field_operand f, uint32_t b)
{
    return in_field(m, f.x & b, f.mask, b);
}

/* EXTF-A, EXTF-B: the other bits are 0. */
INLINE uint32_t extract(struct machine *m, struct field_operand f)
{
    return in_field(m, f.x, f.mask, 0);
}

/* EXTF-AB, EXTF-BA: 64 bits rotated, the field at bit 0. */
INLINE uint32_t extract_double(struct machine *m, uint64_t word, uint32_t high,
                               uint32_t low)
{
    uint64_t both = (uint64_t)high << 32 | low;
    uint32_t up_by = position_of(m, word);
    uint64_t rotated = both << up_by | both >> (0u - up_by) % 64;
    return in_field(m, (uint32_t)rotated, ones_of(m, word), 0);
}

/* PASS-MASK: the sixth position bit inverts all 32. */
INLINE uint32_t pass_mask(const struct machine *m, uint64_t word)
{
    uint32_t position = position_of(m, word);
    return ones_of(m, word) << position % 32 ^ (0u - (position >> 5));
}

/* ---- One word ----------------------------------------------------------- */

/* Y of a word that has a page; Q and status in the machine. */
INLINE uint32_t execute(struct machine *m, uint64_t word, uint32_t a,
                        uint32_t b)
{
    const uint32_t shift = shift_of(word);
    switch (opcode_of(word)) {
    case OP_ZERO_EXTA: return zero_extend(m, shift, a);
    case OP_ZERO_EXTB: return zero_extend(m, shift, b);
    case OP_SIGN_EXTA: return sign_extend(m, shift, a);
    case OP_SIGN_EXTB: return sign_extend(m, shift, b);
    case OP_PASS_STAT: return merge(shift, status_for(m, word), b);
    case OP_PASS_Q: return merge(shift, m->q, b);
    case OP_LOADQ_A: return load_q(m, shift, a);
    case OP_LOADQ_B: return load_q(m, shift, b);
    case OP_NOT_A: return complement(m, shift, a);
    case OP_NOT_B: return complement(m, shift, b);
    case OP_NEG_A: return negate(m, word, a);
    case OP_NEG_B: return negate(m, word, b);
    case OP_PRIOR_A: return prioritize(m, shift, a);
    case OP_PRIOR_B: return prioritize(m, shift, b);
    case OP_MERGEA_B: return merged_zn(m, shift, a, b);
    case OP_MERGEB_A: return merged_zn(m, shift, b, a);
    case OP_DECR_A: return decrement(m, word, a, 1);
    case OP_DECR_B: return decrement(m, word, b, 1);
    case OP_INCR_A: return increment(m, word, a, 1);
    case OP_INCR_B: return increment(m, word, b, 1);
    case OP_DECR2_A: return decrement(m, word, a, 2);
    case OP_DECR2_B: return decrement(m, word, b, 2);
    case OP_INCR2_A: return increment(m, word, a, 2);
    case OP_INCR2_B: return increment(m, word, b, 2);
    case OP_DECR4_A: return decrement(m, word, a, 4);
    case OP_DECR4_B: return decrement(m, word, b, 4);
    case OP_INCR4_A: return increment(m, word, a, 4);
    case OP_INCR4_B: return increment(m, word, b, 4);
    case OP_LDSTAT_A: return load_selected_status(m, word, a);
    case OP_LDSTAT_B: return load_selected_status(m, word, b);

    case OP_DN1_0F_A: return down(m, shift, a, 0);
    case OP_DN1_0F_B: return down(m, shift, b, 0);
    case OP_DN1_0F_AQ: return down_q(m, shift, a, 0);
    case OP_DN1_0F_BQ: return down_q(m, shift, b, 0);
    case OP_DN1_1F_A: return down(m, shift, a, 1);
    case OP_DN1_1F_B: return down(m, shift, b, 1);
    case OP_DN1_1F_AQ: return down_q(m, shift, a, 1);
    case OP_DN1_1F_BQ: return down_q(m, shift, b, 1);
    case OP_DN1_LF_A: return down(m, shift, a, link_in(m, word));
    case OP_DN1_LF_B: return down(m, shift, b, link_in(m, word));
    case OP_DN1_LF_AQ: return down_q(m, shift, a, link_in(m, word));
    case OP_DN1_LF_BQ: return down_q(m, shift, b, link_in(m, word));
    case OP_DN1_AR_A: return down(m, shift, a, top_bit(shift, a));
    case OP_DN1_AR_B: return down(m, shift, b, top_bit(shift, b));
    case OP_DN1_AR_AQ: return down_q(m, shift, a, top_bit(shift, a));
    case OP_DN1_AR_BQ: return down_q(m, shift, b, top_bit(shift, b));
    case OP_UP1_0F_A: return up(m, shift, a, 0);
    case OP_UP1_0F_B: return up(m, shift, b, 0);
    case OP_UP1_0F_AQ: return up_q(m, shift, a, 0);
    case OP_UP1_0F_BQ: return up_q(m, shift, b, 0);
    case OP_UP1_1F_A: return up(m, shift, a, 1);
    case OP_UP1_1F_B: return up(m, shift, b, 1);
    case OP_UP1_1F_AQ: return up_q(m, shift, a, 1);
    case OP_UP1_1F_BQ: return up_q(m, shift, b, 1);
    case OP_UP1_LF_A: return up(m, shift, a, m->l);
    case OP_UP1_LF_B: return up(m, shift, b, m->l);
    case OP_UP1_LF_AQ: return up_q(m, shift, a, m->l);
    case OP_UP1_LF_BQ: return up_q(m, shift, b, m->l);

    case OP_ZERO: return merged_zn(m, shift, 0, b);
    case OP_SIGN: return sign(m, shift, b);
    case OP_OR: return merged_zn(m, shift, a | b, b);
    case OP_XOR: return merged_zn(m, shift, a ^ b, b);
    case OP_AND: return merged_zn(m, shift, a & b, b);
    case OP_XNOR: return merged_zn(m, shift, ~(a ^ b), b);
    case OP_ADD: return addition(m, shift, a, b, 0, b, 0);
    case OP_ADDC: return addition(m, shift, a, b, carry_in(m, word), b, 0);
    case OP_SUB: return subtraction(m, shift, a, b, 1, b, borrow_of(word));
    case OP_SUBC:
        return subtraction(m, shift, a, b, carry_in(m, word) ^ borrow_of(word),
                           b, borrow_of(word));
    case OP_SUBR: return subtraction(m, shift, b, a, 1, b, borrow_of(word));
    case OP_SUBRC:
        return subtraction(m, shift, b, a, carry_in(m, word) ^ borrow_of(word),
                           b, borrow_of(word));
    case OP_SUM_CORR_A: return sum_correct(m, shift, a);
    case OP_SUM_CORR_B: return sum_correct(m, shift, b);
    case OP_DIFF_CORR_A: return difference_correct(m, word, a);
    case OP_DIFF_CORR_B: return difference_correct(m, word, b);

    case OP_SDIVFIRST: return sdivfirst(m, shift, a, b);
    case OP_UDIVFIRST: return udivfirst(m, shift, b);
    case OP_SDIVSTEP: return sdivstep(m, shift, a, b);
    case OP_SDIVLAST1: return sdivlast1(m, shift, a, b);
    case OP_MPDIVSTEP1: return mpdivstep1(m, shift, a, b);
    case OP_MPSDIVSTEP3: return mpsdivstep3(m, word, a, b);
    case OP_UDIVSTEP: return udivstep(m, shift, a, b);
    case OP_UDIVLAST: return udivlast(m, shift, a, b);
    case OP_MPDIVSTEP2: return mpdivstep2(m, word, a, b);
    case OP_MPUDIVSTP3: return mpudivstp3(m, word, a, b);
    case OP_REMCORR: return remcorr(m, shift, a, b);
    case OP_QUOCORR: return quocorr(m, shift, b);
    case OP_SDIVLAST2: return sdivlast2(m, shift, a, b);

    case OP_UMULFIRST:
        return multiply_first(m, shift, zero_extended(shift, a), b);
    case OP_UMULSTEP:
        return multiply_step(m, shift, zero_extended(shift, a), b);
    case OP_UMULLAST: return umullast(m, shift, a, b);
    case OP_SMULSTEP:
        return multiply_step(m, shift, sign_extended(shift, a), b);
    case OP_SMULFIRST:
        return multiply_first(m, shift, sign_extended(shift, a), b);

    case OP_NB_SN_SHA: return n_bit_shift(m, word, sign_extended(0, a));
    case OP_NB_SN_SHB: return n_bit_shift(m, word, sign_extended(0, b));
    case OP_NB_0F_SHA: return n_bit_shift(m, word, a);
    case OP_NB_0F_SHB: return n_bit_shift(m, word, b);
    case OP_NBROT_A: return n_bit_rotate(m, word, a);
    case OP_NBROT_B: return n_bit_rotate(m, word, b);
    case OP_EXTBIT_A: return extract_bit_z(m, word, a);
    case OP_EXTBIT_B: return extract_bit_z(m, word, b);
    case OP_SETBIT_A: return set_bit(m, word, a);
    case OP_SETBIT_B: return set_bit(m, word, b);
    case OP_RSTBIT_A: return reset_bit(m, word, a);
    case OP_RSTBIT_B: return reset_bit(m, word, b);
    case OP_SETBIT_STAT:
        return put_status(m, word, status_for(m, word) | chosen_bit(m, word));
    case OP_RSTBIT_STAT:
        return put_status(m, word, status_for(m, word) & ~chosen_bit(m, word));
    case OP_NOTF_AL_B: return field_not(m, aligned(m, word, b), b);
    case OP_PASSF_AL_B: return field_pass(m, aligned(m, word, b), b);
    case OP_NOTF_A: return field_not(m, moved(m, word, a), b);
    case OP_NOTF_AL_A: return field_not(m, aligned(m, word, a), b);
    case OP_PASSF_A: return field_pass(m, moved(m, word, a), b);
    case OP_PASSF_AL_A: return field_pass(m, aligned(m, word, a), b);
    case OP_ORF_A: return field_or(m, moved(m, word, a), b);
    case OP_ORF_AL_A: return field_or(m, aligned(m, word, a), b);
    case OP_XORF_A: return field_xor(m, moved(m, word, a), b);
    case OP_XORF_AL_A: return field_xor(m, aligned(m, word, a), b);
    case OP_ANDF_A: return field_and(m, moved(m, word, a), b);
    case OP_ANDF_AL_A: return field_and(m, aligned(m, word, a), b);
    case OP_EXTF_A: return extract(m, moved(m, word, a));
    case OP_EXTF_B: return extract(m, moved(m, word, b));
    case OP_EXTF_AB: return extract_double(m, word, a, b);
    case OP_EXTF_BA: return extract_double(m, word, b, a);
    case OP_EXTBIT_STAT: return extract_bit(m, word, status_for(m, word));
    case OP_PASS_MASK: return pass_mask(m, word);
    default: return 0; /* no page: refused before it comes here */
    }
}

/* Runs words in order. The machine is copied, so that it can live in
 * registers: the file can't be part of it. */
static void run_words(const uint8_t *bytes, uint64_t count, uint32_t *file,
                      struct machine *machine)
{
    struct machine m = *machine;
    const uint8_t *end = bytes + MODEL_WORD_BYTES * count;
    for (; bytes != end; bytes += MODEL_WORD_BYTES) {
        uint64_t word = word_at(bytes);
        uint32_t y = execute(&m, word, file[a_of(word)], file[b_of(word)]);
        if (bit_of(word, AT_WRITE))
            file[y_of(word)] = y;
    }
    *machine = m;
}

uint32_t model_step(const uint8_t *sheet, uint64_t index, uint32_t *file,
                    struct model_machine *machine)
{
    struct machine m = enter(*machine);
    uint64_t word =
        word_at(sheet + MODEL_HEADER_BYTES + MODEL_WORD_BYTES * index);
    uint32_t y = execute(&m, word, file[a_of(word)], file[b_of(word)]);
    if (bit_of(word, AT_WRITE))
        file[y_of(word)] = y;
    *machine = leave(&m, borrow_of(word));
    return y;
}

/* ---- The single word ---------------------------------------------------- */

/* 1E, 1F, 4C and 4D have no page in chapter 2, nor has any above 7F. */
INLINE int has_page(uint32_t opcode)
{
    return opcode < 128 && opcode >> 1 != 0x1E >> 1 && opcode >> 1 != 0x4C >> 1;
}

/* One bit for each byte, highest first, making the count of ones even. */
INLINE uint32_t parity_of(uint32_t y)
{
    y ^= y >> 4;
    y ^= y >> 2;
    y ^= y >> 1;
    y &= 0x01010101;
    return (y | y >> 7 | y >> 14 | y >> 21) & 15;
}

INLINE uint64_t packed(const struct model_word *w)
{
    return (uint64_t)w->opcode << AT_OPCODE | (uint64_t)w->byte_code << AT_I7 |
           (uint64_t)w->position << AT_POSITION |
           (uint64_t)w->width << AT_WIDTH | (uint64_t)w->a << AT_A |
           (uint64_t)w->b << AT_B | (uint64_t)w->y << AT_Y |
           (uint64_t)w->write << AT_WRITE |
           (uint64_t)w->macro_select << AT_MACRO_SELECT |
           (uint64_t)w->macro_carry << AT_MACRO_CARRY |
           (uint64_t)w->macro_link << AT_MACRO_LINK |
           (uint64_t)w->borrow << AT_BORROW;
}

/* 1 Opcode, 2 Inputs. */
static uint32_t reason_of_fields(const struct model_word *w)
{
    if (!has_page(w->opcode))
        return MODEL_OPCODE;
    if (w->byte_code > 3 || w->position > 63 || w->width > 31 ||
        (w->a | w->b | w->y) > 63 ||
        (w->write | w->macro_select | w->macro_carry | w->macro_link |
         w->borrow) > 1)
        return MODEL_INPUTS;
    return MODEL_DONE;
}

uint32_t model_pins(uint32_t status)
{
    return (status >> 12 & 16) | (status >> 16 & 8) | (status >> 15 & 4) |
           (status >> 17 & 2) | (status >> 20 & 1);
}

struct model_answer model_single(const struct model_inputs *in)
{
    const struct model_word fields = {
        .opcode = in->opcode, .byte_code = in->byte_code,
        .position = in->position, .width = in->width,
        .macro_select = in->macro_select, .macro_carry = in->macro_carry,
        .macro_link = in->macro_link, .borrow = in->borrow};
    struct model_machine machine = {in->q, in->status};
    struct model_answer answer = {.reason = reason_of_fields(&fields),
                                  .q = in->q, .status = in->status};
    if (answer.reason == MODEL_DONE) {
        struct machine m = enter(machine);
        answer.y = execute(&m, packed(&fields), in->a, in->b);
        answer.parity = parity_of(answer.y);
        machine = leave(&m, in->borrow);
        answer.q = machine.q;
        answer.status = machine.status;
    }
    answer.pins = model_pins(answer.status);
    return answer;
}

/* ---- Packing and checking ----------------------------------------------- */

static struct model_verdict verdict(uint32_t reason, uint64_t place)
{
    struct model_verdict v = {.reason = reason, .place = place};
    return v;
}

struct model_verdict model_pack(const struct model_word *word, uint8_t *bytes,
                                size_t room)
{
    uint32_t reason = reason_of_fields(word);
    uint64_t bits = packed(word);
    if (reason != MODEL_DONE)
        return verdict(reason, 0);
    if (wrong_bits(bits))
        return verdict(MODEL_IDLE, 0);
    if (room < MODEL_WORD_BYTES)
        return verdict(MODEL_ROOM, 0);
    for (int i = 0; i < MODEL_WORD_BYTES; i++)
        bytes[i] = (uint8_t)(bits >> (40 - 8 * i));
    return verdict(MODEL_DONE, 0);
}

struct model_verdict model_unpack(const uint8_t *bytes, size_t length,
                                  struct model_word *word)
{
    uint64_t bits = 0;
    memset(word, 0, sizeof *word);
    if (length < MODEL_WORD_BYTES)
        return verdict(MODEL_ROOM, 0);
    for (int i = 0; i < MODEL_WORD_BYTES; i++)
        bits = bits << 8 | bytes[i];
    if (bits & SPARE_MASK)
        return verdict(MODEL_SPARE, 0);
    if (wrong_bits(bits))
        return verdict(MODEL_IDLE, 0);
    if (!has_page(opcode_of(bits)))
        return verdict(MODEL_OPCODE, 0);
    word->opcode = (uint8_t)opcode_of(bits);
    word->byte_code = (uint8_t)field(bits, AT_I7, 2);
    word->position = (uint8_t)field(bits, AT_POSITION, 6);
    word->width = (uint8_t)field(bits, AT_WIDTH, 5);
    word->a = (uint8_t)a_of(bits);
    word->b = (uint8_t)b_of(bits);
    word->y = (uint8_t)y_of(bits);
    word->write = (uint8_t)bit_of(bits, AT_WRITE);
    word->macro_select = (uint8_t)bit_of(bits, AT_MACRO_SELECT);
    word->macro_carry = (uint8_t)bit_of(bits, AT_MACRO_CARRY);
    word->macro_link = (uint8_t)bit_of(bits, AT_MACRO_LINK);
    word->borrow = (uint8_t)borrow_of(bits);
    return verdict(MODEL_DONE, 0);
}

/* A sheet whose header has been read. */
struct sheet {
    const uint8_t *words;
    uint64_t count;
    uint32_t registers;
};

INLINE uint64_t nth_word(const struct sheet *sheet, uint64_t i)
{
    return word_at(sheet->words + MODEL_WORD_BYTES * i);
}

/* 3 Short, 4 Version, 5 Header, 6 Length. */
static uint32_t read_header(const uint8_t *bytes, size_t length,
                            struct sheet *sheet)
{
    uint32_t header;
    if (length < MODEL_HEADER_BYTES)
        return MODEL_SHORT;
    header = (uint32_t)bytes[0] << 24 | (uint32_t)bytes[1] << 16 |
             (uint32_t)bytes[2] << 8 | (uint32_t)bytes[3];
    if (header >> 28 != 1)
        return MODEL_VERSION;
    sheet->words = bytes + MODEL_HEADER_BYTES;
    sheet->count = header >> 16 & 0xFFF;
    sheet->registers = header >> 9 & 0x7F;
    if ((header & 0x1FF) != 0 || sheet->registers == 0 ||
        sheet->registers > MODEL_MOST_REGISTERS)
        return MODEL_HEADER;
    if (length != MODEL_HEADER_BYTES + MODEL_WORD_BYTES * sheet->count)
        return MODEL_LENGTH;
    return MODEL_DONE;
}

/* 8 Spare, 17 Idle, 1 Opcode, 9 Register, known to be one of them. */
static uint32_t reason_of_word(uint64_t word)
{
    if (word & SPARE_MASK)
        return MODEL_SPARE;
    if (wrong_bits(word))
        return MODEL_IDLE;
    return has_page(opcode_of(word)) ? MODEL_REGISTER : MODEL_OPCODE;
}

static struct model_verdict check_words(const struct sheet *sheet)
{
    const uint32_t registers = sheet->registers;
    for (uint64_t i = 0; i < sheet->count; i++) {
        uint64_t word = nth_word(sheet, i);
        if (wrong_bits(word) != 0 || !has_page(opcode_of(word)) ||
            a_of(word) >= registers || b_of(word) >= registers ||
            y_of(word) >= registers)
            return verdict(reason_of_word(word), i);
    }
    return verdict(MODEL_DONE, 0);
}

/* 3 to 7, then the words. A call that lends no file says MODEL_MOST_REGISTERS. */
static struct model_verdict check_sheet(const uint8_t *bytes, size_t length,
                                        size_t lent, struct sheet *sheet)
{
    uint32_t reason = read_header(bytes, length, sheet);
    if (reason != MODEL_DONE)
        return verdict(reason, 0);
    if (lent < sheet->registers)
        return verdict(MODEL_FILE, 0);
    return check_words(sheet);
}

struct model_verdict model_check(const uint8_t *bytes, size_t length)
{
    struct sheet sheet;
    return check_sheet(bytes, length, MODEL_MOST_REGISTERS, &sheet);
}

struct model_verdict model_run(const uint8_t *bytes, size_t length,
                               uint32_t *file, size_t registers,
                               struct model_machine *machine, uint64_t start,
                               uint64_t allowance)
{
    struct sheet sheet;
    struct machine m;
    uint64_t count;
    struct model_verdict v = check_sheet(bytes, length, registers, &sheet);
    if (v.reason != MODEL_DONE)
        return v;
    if (start > sheet.count)
        return verdict(MODEL_START, 0);
    count = sheet.count - start;
    if (count > allowance)
        count = allowance;
    m = enter(*machine);
    run_words(sheet.words + MODEL_WORD_BYTES * start, count, file, &m);
    *machine = leave(&m, CARRY_MODE);
    return verdict(MODEL_DONE, count);
}

/* ---- The handler's form ------------------------------------------------- */

/* A fixed word: opcode and write bit given, byte code 00, all four switches 0;
 * position, width and registers free. */
#define FIXED_MASK                                                             \
    ((127ull << AT_OPCODE) | (3ull << AT_I7) | WRITE_MASK |                    \
     (1ull << AT_MACRO_SELECT) | (1ull << AT_MACRO_CARRY) |                    \
     (1ull << AT_MACRO_LINK) | (1ull << AT_BORROW))

static int is_fixed(uint64_t word, uint32_t opcode, uint32_t write)
{
    uint64_t wanted = (uint64_t)opcode << AT_OPCODE | (uint64_t)write << AT_WRITE;
    return (word & FIXED_MASK) == wanted;
}

static uint64_t named(uint32_t reg) { return 1ull << reg; }

/* The set of registers that a word names: A and B, used or not, and Y where it
 * writes. */
static uint64_t all_named(uint64_t word)
{
    return named(a_of(word)) | named(b_of(word)) |
           (uint64_t)bit_of(word, AT_WRITE) << y_of(word);
}

/* Does word i of a handler keep to the form, with s and q its save registers?
 * Of the last two words, which do not write, Y names none. */
static int keeps_form(uint64_t word, uint64_t i, uint64_t count, uint32_t s,
                      uint32_t q)
{
    const uint64_t saves = named(s) | named(q);
    const uint64_t b = named(b_of(word)), ab = named(a_of(word)) | b;
    if (i == 0)
        return is_fixed(word, OP_PASS_STAT, 1) && !(ab & saves);
    if (i == 1)
        return is_fixed(word, OP_PASS_Q, 1) && !(ab & saves) && s != q;
    if (i + 2 == count)
        return is_fixed(word, OP_LOADQ_A, 0) && a_of(word) == q && !(b & saves);
    if (i + 1 == count)
        return is_fixed(word, OP_LDSTAT_A, 0) && a_of(word) == s && !(b & saves);
    if (i == 2 && !is_fixed(word, OP_LOADQ_A, 0))
        return 0;
    if (i == 3 && !is_fixed(word, OP_LDSTAT_A, 0))
        return 0;
    return !(all_named(word) & saves);
}

/* 11 Form: the first word that breaks any clause. s and q are the Y fields of
 * words 0 and 1 as they stand, written or not. */
static struct model_verdict check_form(const struct sheet *handler)
{
    uint32_t s, q;
    if (handler->count < 6)
        return verdict(MODEL_FORM, 0);
    s = y_of(nth_word(handler, 0));
    q = y_of(nth_word(handler, 1));
    for (uint64_t i = 0; i < handler->count; i++)
        if (!keeps_form(nth_word(handler, i), i, handler->count, s, q))
            return verdict(MODEL_FORM, i);
    return verdict(MODEL_DONE, 0);
}

static struct model_verdict check_handler(const uint8_t *bytes, size_t length,
                                          size_t lent, struct sheet *handler)
{
    struct model_verdict v = check_sheet(bytes, length, lent, handler);
    return v.reason == MODEL_DONE ? check_form(handler) : v;
}

struct model_verdict model_check_handler(const uint8_t *bytes, size_t length)
{
    struct sheet handler;
    return check_handler(bytes, length, MODEL_MOST_REGISTERS, &handler);
}

/* ---- The interrupted run ------------------------------------------------ */

/* 12 Overlap: the first main word naming a register of the handler's. */
static struct model_verdict check_overlap(const struct sheet *main_sheet,
                                          const struct sheet *handler)
{
    uint64_t taken = 0;
    for (uint64_t i = 0; i < handler->count; i++)
        taken |= all_named(nth_word(handler, i));
    for (uint64_t i = 0; i < main_sheet->count; i++)
        if (all_named(nth_word(main_sheet, i)) & taken)
            return verdict(MODEL_OVERLAP, i);
    return verdict(MODEL_DONE, 0);
}

/* 13 Schedule: the first entry too many, out of range or falling. */
static struct model_verdict check_schedule(const uint16_t *schedule,
                                           size_t entries, uint64_t count)
{
    uint16_t last = 0;
    for (size_t i = 0; i < entries; i++) {
        if (i == MODEL_MOST_ENTRIES || schedule[i] > count ||
            schedule[i] < last)
            return verdict(MODEL_SCHEDULE, i);
        last = schedule[i];
    }
    return verdict(MODEL_DONE, 0);
}

static struct model_verdict marked(struct model_verdict v, uint32_t mark)
{
    v.mark = v.reason == MODEL_DONE ? MODEL_NEITHER : mark;
    return v;
}

/* Main sheet, handler sheet, 11, 12, 13. */
static struct model_verdict check_all(
    const uint8_t *main_bytes, size_t main_length, struct sheet *main_sheet,
    const uint8_t *handler_bytes, size_t handler_length, struct sheet *handler,
    const uint16_t *schedule, size_t entries, size_t lent)
{
    struct model_verdict v =
        marked(check_sheet(main_bytes, main_length, lent, main_sheet),
               MODEL_MAIN);
    if (v.reason == MODEL_DONE)
        v = marked(check_handler(handler_bytes, handler_length, lent, handler),
                   MODEL_HANDLER);
    if (v.reason == MODEL_DONE)
        v = marked(check_overlap(main_sheet, handler), MODEL_MAIN);
    if (v.reason == MODEL_DONE)
        v = check_schedule(schedule, entries, main_sheet->count);
    return v;
}

struct model_verdict model_run_interrupted(
    const uint8_t *main_bytes, size_t main_length,
    const uint8_t *handler_bytes, size_t handler_length,
    const uint16_t *schedule, size_t entries,
    uint32_t *file, size_t registers, struct model_machine *machine)
{
    struct sheet main_sheet, handler;
    struct machine m;
    uint64_t done = 0;
    struct model_verdict v =
        check_all(main_bytes, main_length, &main_sheet, handler_bytes,
                  handler_length, &handler, schedule, entries, registers);
    if (v.reason != MODEL_DONE)
        return v;
    m = enter(*machine);
    for (size_t i = 0; i < entries; i++) {
        run_words(main_sheet.words + MODEL_WORD_BYTES * done,
                  schedule[i] - done, file, &m);
        run_words(handler.words, handler.count, file, &m);
        done = schedule[i];
    }
    run_words(main_sheet.words + MODEL_WORD_BYTES * done,
              main_sheet.count - done, file, &m);
    *machine = leave(&m, CARRY_MODE);
    return verdict(MODEL_DONE, main_sheet.count + entries * handler.count);
}
