//! The decimal corrections (SUM-CORR, DIFF-CORR; appendix A).

use crate::bits::{add, not, Bits, ZEROS};
use crate::cycle::{Cycle, Outcome, Port};
use crate::faults::Fault;

/// SUM-CORR-A, SUM-CORR-B: C is the top selected nibble carry in both modes.
pub fn sum_correct(cycle: &Cycle, port: Port) -> Outcome {
    let x = cycle.port(port);
    let sum = add(&x, &correction(cycle), false).word();
    let mut out = corrected(cycle, cycle.merge(&sum, &x));
    out.status.c = top_nibble(cycle);
    if cycle.has(Fault::SumCorrClearsNibbles) {
        out.status.nibble = [false; 8];
    }
    out
}

/// DIFF-CORR-A, DIFF-CORR-B: C is the "EX-NOR of most significant NIBBLE
/// BORROW and BORROW-MODE".
pub fn difference_correct(cycle: &Cycle, port: Port) -> Outcome {
    let x = cycle.port(port);
    let difference = add(&x, &not(&correction(cycle)), true).word();
    let mut out = corrected(cycle, cycle.merge(&difference, &x));
    out.status.c = !(top_nibble(cycle) ^ cycle.borrow);
    if cycle.has(Fault::DiffCorrCarryNotComplemented) {
        out.status.c = !out.status.c;
    }
    out
}

/// The correction word: a 6 (0110) in each nibble whose carry is set.
fn correction(cycle: &Cycle) -> Bits {
    let mut word = ZEROS;
    for (i, &set) in cycle.status.nibble.iter().enumerate() {
        word[4 * i + 1] = set;
        word[4 * i + 2] = set;
    }
    word
}

/// Z and N of the result; V is the xor of the two highest selected nibble
/// carries; the nibble carries themselves stay.
fn corrected(cycle: &Cycle, y: Bits) -> Outcome {
    let mut out = cycle.pass_zn(y);
    let top = cycle.selected() / 4 - 1;
    out.status.v = cycle.status.nibble[top] ^ cycle.status.nibble[top - 1];
    out
}

fn top_nibble(cycle: &Cycle) -> bool {
    cycle.status.nibble[cycle.selected() / 4 - 1]
}
