//! Multiply steps (table 12-1): modified Booth, two bits a word, with the
//! adder extended by two bits at the byte boundary.

use crate::bits::{add, Bits, Wide, ZEROS};
use crate::cycle::{Cycle, Outcome};
use crate::faults::Fault;

/// How A is extended: UMUL by zeros, SMUL by its sign.
#[derive(Clone, Copy, PartialEq)]
pub enum Kind {
    Unsigned,
    Signed,
}

/// How many times A a Booth row adds.
#[derive(Clone, Copy)]
enum Row {
    Nothing,
    Plus,
    PlusTwice,
    Minus,
    MinusTwice,
}

/// UMULFIRST, SMULFIRST: "selected bytes of B are internally zeroed". The
/// table is the step's with M = 0, but B read as zero. (SMULFIRST's second
/// line for 01 is a misprint for 11.)
pub fn first(cycle: &Cycle, kind: Kind) -> Outcome {
    let row = match (cycle.q[1], cycle.q[0]) {
        (false, false) => Row::Nothing,
        (false, true) => Row::Plus,
        (true, false) => Row::MinusTwice,
        (true, true) => Row::Minus,
    };
    booth(cycle, kind, &ZEROS, row)
}

/// UMULSTEP, SMULSTEP.
pub fn step(cycle: &Cycle, kind: Kind) -> Outcome {
    let row = match (cycle.q[1], cycle.q[0], cycle.status.m) {
        (false, false, false) | (true, true, true) => Row::Nothing,
        (false, false, true) | (false, true, false) => Row::Plus,
        (true, false, true) | (true, true, false) => Row::Minus,
        (false, true, true) if cycle.has(Fault::BoothRowsSwapped) => Row::MinusTwice,
        (true, false, false) if cycle.has(Fault::BoothRowsSwapped) => Row::PlusTwice,
        (false, true, true) => Row::PlusTwice,
        (true, false, false) => Row::MinusTwice,
    };
    booth(cycle, kind, &cycle.b, row)
}

/// F* = B* and the row; Y is F* down two, Q goes down two with F1 F0 on top,
/// M gets Q1.
fn booth(cycle: &Cycle, kind: Kind, partial: &Bits, row: Row) -> Outcome {
    let n = cycle.selected();
    let b_fill = partial[n - 1] && !cycle.has(Fault::PartialZeroExtended);
    let signed = kind == Kind::Signed && !cycle.has(Fault::SignedZeroExtended);
    let b = extend(partial, n, b_fill);
    let a = extend(&cycle.a, n, signed && cycle.a[n - 1]);
    let f = add_row(&b, &a, n, row);
    let mut y = ZEROS;
    y[..n].copy_from_slice(&f[2..n + 2]);
    let mut q = ZEROS;
    q[..n - 2].copy_from_slice(&cycle.q[2..n]);
    q[n - 2] = f[0];
    q[n - 1] = f[1];
    let mut out = cycle.pass(cycle.merge_b(&y));
    out.q = cycle.merge_q(&q);
    if !cycle.has(Fault::MultiplyMNotStored) {
        out.status.m = cycle.q[1];
    }
    out
}

/// The low n bits of a word with two fill bits above them.
fn extend(x: &Bits, n: usize, fill: bool) -> Wide {
    let mut wide = [false; 34];
    wide[..n].copy_from_slice(&x[..n]);
    wide[n] = fill;
    wide[n + 1] = fill;
    wide
}

/// B* plus or minus A* or 2A*, over n + 2 bits.
fn add_row(b: &Wide, a: &Wide, n: usize, row: Row) -> Wide {
    let (addend, minus) = match row {
        Row::Nothing => ([false; 34], false),
        Row::Plus => (*a, false),
        Row::PlusTwice => (doubled(a), false),
        Row::Minus => (*a, true),
        Row::MinusTwice => (doubled(a), true),
    };
    let mut addend = addend;
    for bit in addend.iter_mut() {
        *bit ^= minus;
    }
    add(&b[..n + 2], &addend[..n + 2], minus).bits
}

fn doubled(x: &Wide) -> Wide {
    let mut result = [false; 34];
    result[1..].copy_from_slice(&x[..33]);
    result
}

/// UMULLAST: adds A where M is 1; Z of the selected bytes and nothing else.
pub fn last(cycle: &Cycle) -> Outcome {
    let addend = if cycle.status.m { cycle.a } else { ZEROS };
    let sum = add(&cycle.b, &addend, false).word();
    let mut out = cycle.pass(cycle.merge_b(&sum));
    out.status.z = cycle.zero(&out.y);
    out
}
