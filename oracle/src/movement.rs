//! Data movement (tables 6-1 to 6-3).

use crate::bits::{all_zero, Bits, ZEROS};
use crate::cycle::{Cycle, Outcome, Port};
use crate::faults::Fault;
use crate::status::Status;

/// ZERO-EXTA, ZERO-EXTB: "the unselected most significant bytes contain zeroes".
pub fn zero_extend(cycle: &Cycle, port: Port) -> Outcome {
    let y = cycle.merge(&cycle.port(port), &ZEROS);
    cycle.pass_zn(y)
}

/// SIGN-EXTA, SIGN-EXTB: Z is of the whole Y bus and N is Y31 on these pages,
/// which sign extension makes the same as those of the selected bytes.
pub fn sign_extend(cycle: &Cycle, port: Port) -> Outcome {
    let x = cycle.port(port);
    let y = cycle.merge(&x, &[cycle.sign(&x); 32]);
    let mut out = cycle.pass(y);
    out.status.z = all_zero(&y);
    out.status.n = y[31];
    out
}

/// PASS-STAT: unselected bytes from B, nothing changed.
pub fn pass_stat(cycle: &Cycle) -> Outcome {
    let status = cycle.read(&cycle.status, Fault::PassStatInCarryMode);
    cycle.pass(cycle.merge_b(&status))
}

/// PASS-Q: unselected bytes from B, nothing changed.
pub fn pass_q(cycle: &Cycle) -> Outcome {
    cycle.pass(cycle.merge_b(&cycle.q))
}

/// LOADQ-A, LOADQ-B: "unselected high bytes of the Y bus contain
/// corresponding bytes of Q".
pub fn load_q(cycle: &Cycle, port: Port) -> Outcome {
    let x = cycle.port(port);
    let mut out = cycle.pass_zn(cycle.merge(&x, &cycle.q));
    out.q = cycle.merge_q(&x);
    out
}

/// MERGEA-B passes bytes of A over B; MERGEB-A bytes of B over A.
pub fn merge(cycle: &Cycle, port: Port) -> Outcome {
    match port {
        Port::A => cycle.pass_zn(cycle.merge_b(&cycle.a)),
        Port::B => cycle.pass_zn(cycle.merge(&cycle.b, &cycle.a)),
    }
}

/// LDSTAT-A, LDSTAT-B: the operand's selected bytes go to Y as they are and
/// into the register, where bits 13, 14, 15 and 23 cannot be written (note 1).
pub fn load_status(cycle: &Cycle, port: Port) -> Outcome {
    let old = cycle.read(&cycle.status, Fault::LdstatRestInCarryMode);
    let y = cycle.merge(&cycle.port(port), &old);
    let mut out = cycle.pass(y);
    out.status = Status::load(&y);
    if cycle.has(Fault::LdstatTakesBit13) && cycle.selected() > 13 {
        out.status.c = c_by_bit_13(cycle, &y);
    }
    if cycle.has(Fault::LdstatYMasked) {
        out.y = without_read_only(&y);
    }
    out
}

/// The C with which bit 13 would read as loaded, Z apart (a planted fault's C).
fn c_by_bit_13(cycle: &Cycle, loaded: &Bits) -> bool {
    loaded[13] == cycle.borrow
}

/// The word with the four read-only bits cleared (a planted fault's Y).
fn without_read_only(word: &Bits) -> Bits {
    let mut word = *word;
    for i in [13, 14, 15, 23] {
        word[i] = false;
    }
    word
}
