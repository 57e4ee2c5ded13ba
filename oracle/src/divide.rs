//! Divide steps (table 11-1): non-restoring, one bit a word.

use crate::bits::{add, all_zero, not, up_one, Bits, ZEROS};
use crate::cycle::{Cycle, Outcome};
use crate::faults::Fault;

/// The value F of the divide pages.
struct Partial {
    bits: Bits,
    /// Carry into and out of the top bit.
    carry_in_top: bool,
    carry: bool,
    /// The extra adder bit above F (UDIVSTEP note 1): "the inputs to that
    /// extra ALU bit are 0 (divisor sign), S (dividend sign), the carryout,
    /// and the M flag which controls addition/subtraction".
    extension: bool,
}

/// B and A added (M = 0) or subtracted (M = 1) over `n` bits, B extended by
/// S. `carry` is the multiprecision carry in; without it a subtraction has 1.
fn partial(cycle: &Cycle, n: usize, carry: Option<bool>) -> Partial {
    let subtract = cycle.status.m;
    let carry_in = carry.unwrap_or(subtract);
    let mut b = [false; 33];
    let mut a = [false; 33];
    for i in 0..n {
        b[i] = cycle.b[i];
        a[i] = cycle.a[i] ^ subtract;
    }
    b[n] = cycle.status.s;
    a[n] = subtract;
    let chain = add(&b[..n + 1], &a[..n + 1], carry_in);
    let mut bits = ZEROS;
    bits[..n].copy_from_slice(&chain.bits[..n]);
    Partial {
        bits,
        carry_in_top: chain.carry[n - 1],
        carry: chain.carry[n],
        extension: chain.bits[n],
    }
}

/// Q moved up by one with the bit given entering.
fn shift_q(cycle: &Cycle, fill: bool) -> Bits {
    cycle.merge_q(&up_one(&cycle.q, cycle.selected(), fill))
}

/// UDIVSTEP: "the new quotient bit is the complement of the sign of the
/// (extended) result before the upshift". UDIVLAST and MPUDIVSTP3 lost the
/// same overbar.
fn unsigned_quotient_bit(cycle: &Cycle, f: &Partial) -> bool {
    if cycle.has(Fault::QuotientBitAsPrinted) {
        return f.extension;
    }
    !f.extension
}

/// SDIVFIRST: S and L get the bit shifted out of B; M and Q0 its agreement
/// with the sign of A.
pub fn signed_first(cycle: &Cycle) -> Outcome {
    let out_of_b = cycle.sign(&cycle.b);
    let mut agree = cycle.sign(&cycle.a) == out_of_b;
    if cycle.has(Fault::SignedFirstBitInverted) {
        agree = !agree;
    }
    let y = up_one(&cycle.b, cycle.selected(), cycle.sign(&cycle.q));
    let mut out = cycle.pass_zn(cycle.merge_b(&y));
    out.q = shift_q(cycle, agree);
    out.status.m = agree;
    out.status.l = out_of_b;
    out.status.s = out_of_b;
    if cycle.has(Fault::DividendSignFromDivisor) {
        out.status.s = cycle.sign(&cycle.a);
    }
    out
}

/// UDIVFIRST: M always set, S always reset, zero into Q.
pub fn unsigned_first(cycle: &Cycle) -> Outcome {
    let y = up_one(&cycle.b, cycle.selected(), cycle.sign(&cycle.q));
    let mut out = cycle.pass_zn(cycle.merge_b(&y));
    out.q = shift_q(cycle, false);
    out.status.m = true;
    out.status.s = false;
    out.status.l = cycle.sign(&cycle.b);
    out
}

/// SDIVSTEP: Z and N of Y, after the upshift.
pub fn signed_step(cycle: &Cycle) -> Outcome {
    let n = cycle.selected();
    let f = partial(cycle, n, None);
    let out_of_f = f.bits[n - 1];
    let agree = cycle.sign(&cycle.a) == out_of_f;
    let y = up_one(&f.bits, n, cycle.sign(&cycle.q));
    let mut out = cycle.pass_zn(cycle.merge_b(&y));
    out.q = shift_q(cycle, agree);
    out.status.c = f.carry;
    out.status.l = out_of_f;
    out.status.m = agree;
    out
}

/// SDIVLAST1: F itself on Y, a 1 into Q.
pub fn signed_last_1(cycle: &Cycle) -> Outcome {
    let n = cycle.selected();
    let f = partial(cycle, n, None);
    let mut out = cycle.pass_zn(cycle.merge_b(&f.bits));
    out.q = shift_q(cycle, true);
    out.status.c = f.carry;
    out.status.m = cycle.sign(&cycle.a) == f.bits[n - 1];
    out
}

/// SDIVLAST2: the divisor's sign is the sign of Q xor S; A subtracted where it
/// is 1, added where 0. Z alone changes: S and a zero result.
pub fn signed_last_2(cycle: &Cycle) -> Outcome {
    let mut divisor_sign = cycle.sign(&cycle.q) ^ cycle.status.s;
    if cycle.has(Fault::DivisorSignFromQAlone) {
        divisor_sign = cycle.sign(&cycle.q);
    }
    let sum = if divisor_sign {
        add(&cycle.b, &not(&cycle.a), true)
    } else {
        add(&cycle.b, &cycle.a, false)
    };
    let mut out = cycle.pass(cycle.merge_b(&sum.word()));
    out.status.z = cycle.status.s && cycle.zero(&out.y);
    out
}

/// UDIVSTEP: the bit shifted out of F is its top selected bit, and S with B
/// then hold the doubled partial remainder. N stays.
pub fn unsigned_step(cycle: &Cycle) -> Outcome {
    let n = cycle.selected();
    let f = partial(cycle, n, None);
    let quotient_bit = unsigned_quotient_bit(cycle, &f);
    let y = up_one(&f.bits, n, cycle.sign(&cycle.q));
    let mut out = cycle.pass(cycle.merge_b(&y));
    out.q = shift_q(cycle, quotient_bit);
    unsigned_flags(cycle, &f, &mut out, n);
    out.status.m = quotient_bit;
    out
}

/// Z of Y, C, L and S of UDIVSTEP and MPUDIVSTP3.
fn unsigned_flags(cycle: &Cycle, f: &Partial, out: &mut Outcome, n: usize) {
    out.status.z = cycle.zero(&out.y);
    out.status.c = f.carry;
    out.status.l = f.bits[n - 1];
    out.status.s = f.bits[n - 1];
    if cycle.has(Fault::SignExtensionKept) {
        out.status.s = f.extension;
    }
}

/// UDIVLAST: N is the sign of the extended result and M its complement
/// (REMCORR note 1: "N holds the partial remainder sign").
pub fn unsigned_last(cycle: &Cycle) -> Outcome {
    let f = partial(cycle, cycle.selected(), None);
    let quotient_bit = unsigned_quotient_bit(cycle, &f);
    let mut out = cycle.pass(cycle.merge_b(&f.bits));
    out.q = shift_q(cycle, quotient_bit);
    out.status.z = cycle.zero(&out.y);
    out.status.n = f.extension;
    if cycle.has(Fault::UdivlastNComplemented) {
        out.status.n = !f.extension;
    }
    out.status.c = f.carry;
    out.status.m = quotient_bit;
    out.status.s = false;
    out
}

/// MPDIVSTEP1: the full word; the byte code picks only Q's bytes and its sign.
pub fn multi_step_1(cycle: &Cycle) -> Outcome {
    let f = partial(cycle, 32, None);
    let y = up_one(&f.bits, 32, cycle.sign(&cycle.q));
    let mut out = cycle.pass(y);
    if cycle.has(Fault::MultiStep1ByByteCode) {
        out.y = cycle.merge_b(&y);
    }
    out.q = shift_q(cycle, false);
    out.status.z = all_zero(&out.y);
    out.status.c = f.carry;
    out.status.l = f.bits[31];
    out
}

/// MPDIVSTEP2: the full word with carry and link; Q not used.
pub fn multi_step_2(cycle: &Cycle) -> Outcome {
    let (carry, link) = multi_inputs(cycle);
    let f = partial(cycle, 32, Some(carry));
    let mut out = cycle.pass(up_one(&f.bits, 32, link));
    out.status.z = all_zero(&out.y);
    out.status.c = f.carry;
    out.status.l = f.bits[31];
    out
}

/// MPSDIVSTEP3: the selected bytes with carry and link; the quotient bit goes
/// into Q0 without a shift of Q (note 1) and into M.
pub fn multi_signed_step_3(cycle: &Cycle) -> Outcome {
    let n = cycle.selected();
    let (carry, link) = multi_inputs(cycle);
    let f = partial(cycle, n, Some(carry));
    let agree = cycle.sign(&cycle.a) == f.bits[n - 1];
    let mut out = cycle.pass(cycle.merge_b(&up_one(&f.bits, n, link)));
    out.q[0] = agree;
    out.status.z = cycle.zero(&out.y);
    out.status.c = f.carry;
    out.status.l = f.bits[n - 1];
    out.status.m = agree;
    out
}

/// MPUDIVSTP3: as MPSDIVSTEP3 on the operands extended by 0 and S.
pub fn multi_unsigned_step_3(cycle: &Cycle) -> Outcome {
    let n = cycle.selected();
    let (carry, link) = multi_inputs(cycle);
    let f = partial(cycle, n, Some(carry));
    let quotient_bit = unsigned_quotient_bit(cycle, &f);
    let mut out = cycle.pass(cycle.merge_b(&up_one(&f.bits, n, link)));
    out.q[0] = quotient_bit;
    unsigned_flags(cycle, &f, &mut out, n);
    out.status.m = quotient_bit;
    out
}

/// The notes of MPDIVSTEP2, MPSDIVSTEP3 and MPUDIVSTP3 have the macro select
/// the other way round from ADDC: 0 takes the macro inputs, 1 takes C and L.
fn multi_inputs(cycle: &Cycle) -> (bool, bool) {
    let take_macro = !cycle.macro_select ^ cycle.has(Fault::MultiSelectAsInAddc);
    if take_macro {
        (cycle.macro_carry, cycle.macro_link)
    } else {
        (cycle.status.c, cycle.status.l)
    }
}

/// REMCORR: by the page where Z xor N xor S is 1, except Z = 1, N = 0, S = 0.
/// That is UDIVLAST's zero remainder, which the manual leaves by a jump ("if N
/// was 0 ... the algorithm terminates") and a straight list has to pass.
pub fn remainder_correct(cycle: &Cycle) -> Outcome {
    let (n, s) = (cycle.status.n, cycle.status.s);
    let finished = !n && !s && !cycle.has(Fault::RemcorrAsPrinted);
    let mut out = cycle.pass(cycle.b);
    out.status.c = false;
    if correction_wanted(cycle) && !finished {
        let f = correct(cycle, &cycle.a, cycle.status.m);
        out.y = cycle.merge_b(&f.bits);
        out.status.c = f.carry;
    }
    out
}

/// QUOCORR: B - 1 (M = 0) or B + 1 (M = 1) where Z xor N xor S is 1.
pub fn quotient_correct(cycle: &Cycle) -> Outcome {
    let mut out = cycle.pass(cycle.b);
    out.status.c = false;
    out.status.v = false;
    if correction_wanted(cycle) && !cycle.has(Fault::QuotientNotCorrected) {
        let mut one = ZEROS;
        one[0] = true;
        let f = correct(cycle, &one, !cycle.status.m);
        out.y = cycle.merge_b(&f.bits);
        out.status.c = f.carry;
        out.status.v = f.carry ^ f.carry_in_top;
    }
    out
}

fn correction_wanted(cycle: &Cycle) -> bool {
    cycle.status.z ^ cycle.status.n ^ cycle.status.s
}

/// B plus or minus a word, over the selected bytes.
fn correct(cycle: &Cycle, x: &Bits, subtract: bool) -> Partial {
    let n = cycle.selected();
    let addend = if subtract { not(x) } else { *x };
    let chain = add(&cycle.b[..n], &addend[..n], subtract);
    Partial {
        bits: chain.word(),
        carry_in_top: chain.carry[n - 1],
        carry: chain.carry[n],
        extension: false,
    }
}
