//! Single-bit shifts, alone and over Q (tables 8-1 and 8-2).

use crate::bits::{down_one, up_one};
use crate::cycle::{Cycle, Outcome, Port};
use crate::faults::Fault;

/// What is shifted in.
#[derive(Clone, Copy)]
pub enum Fill {
    Zero,
    One,
    Link,
    /// The sign bit of the operand at the byte width (DN1-AR only).
    Sign,
}

/// DN1-xx-A, DN1-xx-B: L gets the operand's bit 0.
pub fn down(cycle: &Cycle, port: Port, fill: Fill) -> Outcome {
    let x = cycle.port(port);
    let y = down_one(&x, cycle.selected(), down_fill(cycle, port, fill));
    let mut out = cycle.pass_zn(y);
    out.status.l = x[0];
    out
}

/// DN1-xx-AQ, DN1-xx-BQ: the operand's bit 0 enters the top of Q, and L gets
/// "the least significant bit of Q".
pub fn down_q(cycle: &Cycle, port: Port, fill: Fill) -> Outcome {
    let x = cycle.port(port);
    let mut out = down(cycle, port, fill);
    out.q = cycle.merge_q(&down_one(&cycle.q, cycle.selected(), x[0]));
    out.status.l = cycle.q[0];
    if cycle.has(Fault::LinkFromOperandNotQ) {
        out.status.l = x[0];
    }
    out
}

/// DN1-AR takes the operand's own sign bit ("choice of signbit as fill bit
/// results in an arithmetic downshift"), not the N flag of tables 8-1 and 8-2.
fn down_fill(cycle: &Cycle, port: Port, fill: Fill) -> bool {
    match fill {
        Fill::Zero => false,
        Fill::One => true,
        Fill::Link => down_link(cycle),
        Fill::Sign if cycle.has(Fault::ArithmeticFillFromN) => cycle.status.n,
        Fill::Sign => cycle.sign(&cycle.port(port)),
    }
}

/// DN1-LF note 1: "a HIGH on the MACRO/MICRO selects the MACRO-LINK input".
fn down_link(cycle: &Cycle) -> bool {
    if cycle.macro_select && !cycle.has(Fault::MacroLinkIgnored) {
        cycle.macro_link
    } else {
        cycle.status.l
    }
}

/// UP1-xx-A, UP1-xx-B.
pub fn up(cycle: &Cycle, port: Port, fill: Fill) -> Outcome {
    up_with(cycle, port, up_fill(cycle, fill))
}

/// UP1-xx-AQ, UP1-xx-BQ: the sign bit of Q enters the operand, the fill enters Q.
pub fn up_q(cycle: &Cycle, port: Port, fill: Fill) -> Outcome {
    let mut out = up_with(cycle, port, cycle.sign(&cycle.q));
    out.q = cycle.merge_q(&up_one(&cycle.q, cycle.selected(), up_fill(cycle, fill)));
    out
}

/// L gets the operand's sign; V is that sign xor the sign of Y.
fn up_with(cycle: &Cycle, port: Port, fill: bool) -> Outcome {
    let x = cycle.port(port);
    let mut out = cycle.pass_zn(up_one(&x, cycle.selected(), fill));
    out.status.v = cycle.sign(&x) ^ cycle.sign(&out.y);
    out.status.l = cycle.sign(&x);
    if cycle.has(Fault::UpLinkFromBit31) {
        out.status.l = x[31];
    }
    out
}

/// The UP1-LF pages have no macro note: the fill is always the L flag.
fn up_fill(cycle: &Cycle, fill: Fill) -> bool {
    match fill {
        Fill::One => true,
        Fill::Link if cycle.has(Fault::UpTakesMacroLink) => down_link(cycle),
        Fill::Link => cycle.status.l,
        Fill::Zero | Fill::Sign => false,
    }
}
