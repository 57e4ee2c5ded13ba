//! Addition, subtraction, negation, increments and decrements (tables 10-1
//! and 10-2), with the nibble carries and borrows of appendix A.

use crate::bits::{add, from_number, not, to_number, Bits, Sum, ZEROS};
use crate::cycle::{Cycle, Outcome, Port};
use crate::faults::Fault;

/// ADD: "carry is generated regardless of the state of borrow-mode" (note 1).
pub fn sum(cycle: &Cycle) -> Outcome {
    plain_sum(cycle, false)
}

/// ADDC: the carry taken in is never inverted.
pub fn sum_with_carry(cycle: &Cycle) -> Outcome {
    plain_sum(cycle, carry_taken_in(cycle))
}

fn plain_sum(cycle: &Cycle, carry_in: bool) -> Outcome {
    let chain = add(&cycle.a, &cycle.b, carry_in);
    let mut out = flags(cycle, cycle.merge_b(&chain.word()), &chain);
    out.status.nibble = nibble_carries(cycle, &cycle.a, &cycle.b, &chain);
    if cycle.has(Fault::AddTakesBorrow) {
        out.status.c ^= cycle.borrow;
    }
    out
}

/// SUB is A less B, SUBR is B less A: the other operand complemented, with a
/// carry of 1 into the adder.
pub fn difference(cycle: &Cycle, from: Port) -> Outcome {
    two_operand_difference(cycle, from, true)
}

/// SUBC, SUBRC: "whatever the choice of carry-in ... it is inverted before
/// being input to the adder if BORROW-MODE is HIGH" (note 3).
pub fn difference_with_carry(cycle: &Cycle, from: Port) -> Outcome {
    let mut carry_in = carry_taken_in(cycle) ^ cycle.borrow;
    if cycle.has(Fault::BorrowNotOnCarryIn) {
        carry_in = carry_taken_in(cycle);
    }
    two_operand_difference(cycle, from, carry_in)
}

fn two_operand_difference(cycle: &Cycle, from: Port, carry_in: bool) -> Outcome {
    let (x, y) = match from {
        Port::A => (&cycle.a, &cycle.b),
        Port::B => (&cycle.b, &cycle.a),
    };
    let chain = add(x, &not(y), carry_in);
    subtraction(cycle, cycle.merge_b(&chain.word()), &chain)
}

/// NEG-A, NEG-B: zero less the operand.
pub fn negate(cycle: &Cycle, port: Port) -> Outcome {
    let x = cycle.port(port);
    let chain = add(&ZEROS, &not(&x), true);
    subtraction(cycle, cycle.merge(&chain.word(), &x), &chain)
}

/// DECR, DECR2, DECR4.
pub fn decrement(cycle: &Cycle, port: Port, by: u32) -> Outcome {
    let x = cycle.port(port);
    let chain = add(&x, &not(&from_number(by)), true);
    subtraction(cycle, cycle.merge(&chain.word(), &x), &chain)
}

/// INCR, INCR2, INCR4: the page has C as "EX-OR of carryout and BORROW-MODE",
/// though these are additions; it outranks appendix A.
pub fn increment(cycle: &Cycle, port: Port, by: u32) -> Outcome {
    let x = cycle.port(port);
    let step = from_number(by);
    let chain = add(&x, &step, false);
    let mut out = flags(cycle, cycle.merge(&chain.word(), &x), &chain);
    out.status.nibble = nibble_carries(cycle, &x, &step, &chain);
    if !cycle.has(Fault::IncrIgnoresBorrow) {
        borrow_on_carry(cycle, &mut out);
    }
    out
}

/// Flags of every subtraction, nibble borrows included.
fn subtraction(cycle: &Cycle, y: Bits, chain: &Sum) -> Outcome {
    let mut out = flags(cycle, y, chain);
    borrow_on_carry(cycle, &mut out);
    out.status.nibble = nibble_borrows(cycle, chain);
    out
}

/// C "EX-OR of carryout and BORROW-MODE".
fn borrow_on_carry(cycle: &Cycle, out: &mut Outcome) {
    if !cycle.has(Fault::BorrowNotOnCarryOut) {
        out.status.c ^= cycle.borrow;
    }
}

/// ADDC note 2: "a HIGH on the MACRO input selects the MACRO-CARRY input
/// instead of the C flag".
fn carry_taken_in(cycle: &Cycle) -> bool {
    if cycle.has(Fault::CarryInLost) {
        return false;
    }
    let take_macro = cycle.macro_select ^ cycle.has(Fault::MacroSelectSwapped);
    if take_macro {
        cycle.macro_carry
    } else {
        cycle.status.c
    }
}

/// Z and N of the selected bytes, C out of the top selected bit, V the carry
/// into that bit xor the carry out of it.
fn flags(cycle: &Cycle, y: Bits, chain: &Sum) -> Outcome {
    let mut out = cycle.pass_zn(y);
    let n = cycle.selected();
    if cycle.has(Fault::SumZeroMissesBit20) {
        let mut seen = y;
        seen[20] = false;
        out.status.z = cycle.zero(&seen);
    }
    out.status.c = chain.carry[n];
    out.status.v = overflow(cycle, chain, n);
    out
}

fn overflow(cycle: &Cycle, chain: &Sum, n: usize) -> bool {
    if cycle.has(Fault::OverflowAt32Bits) {
        return chain.carry[31] ^ chain.carry[32];
    }
    chain.carry[n - 1] ^ chain.carry[n]
}

/// One nibble of a word.
fn nibble(word: &Bits, i: usize) -> u32 {
    to_number(&word[4 * i..4 * i + 4])
}

/// Appendix A, "How the BCD Nibble-Carries are Formed During Addition". The
/// two conditions, digit by digit, over all eight nibbles "as if the ALU was
/// in 32-bit mode". The carry in acts as a binary carry from below.
fn nibble_carries(cycle: &Cycle, x: &Bits, y: &Bits, chain: &Sum) -> [bool; 8] {
    let mut carries = [false; 8];
    for i in 0..8 {
        let binary_carry = chain.carry[4 * i];
        let digits = nibble(x, i) + nibble(y, i);
        let right = i > 0 && carries[i - 1];
        let first = digits + u32::from(binary_carry) > 9;
        let second = digits == 9 && right && !binary_carry;
        carries[i] = first || second;
    }
    if cycle.has(Fault::NibbleCarriesBinary) {
        for (i, carry) in carries.iter_mut().enumerate() {
            *carry = chain.carry[4 * i + 4];
        }
    }
    only_selected_if_planted(cycle, carries)
}

/// Appendix A: "storing the complement of the inter-nibble carry"; "the ALU
/// always stores nibble-borrows ... regardless of the state of the borrow
/// control pin". Those of unselected bytes are called undefined there; the
/// same rule over the whole operands gives the one value promised.
fn nibble_borrows(cycle: &Cycle, chain: &Sum) -> [bool; 8] {
    let turned = cycle.has(Fault::NibbleBorrowsTurned) && cycle.borrow;
    let mut borrows = [false; 8];
    for (i, borrow) in borrows.iter_mut().enumerate() {
        *borrow = !chain.carry[4 * i + 4] ^ turned;
    }
    only_selected_if_planted(cycle, borrows)
}

fn only_selected_if_planted(cycle: &Cycle, mut nibbles: [bool; 8]) -> [bool; 8] {
    if cycle.has(Fault::NibblesOfSelectedOnly) {
        for nibble in nibbles.iter_mut().skip(cycle.selected() / 4) {
            *nibble = false;
        }
    }
    nibbles
}
