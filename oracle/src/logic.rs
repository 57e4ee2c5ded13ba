//! Logical operations (table 7) and prioritize (table 9).

use crate::bits::{all_zero, not, ZEROS};
use crate::cycle::{Cycle, Outcome, Port};
use crate::faults::Fault;

/// NOT-A, NOT-B: unselected bytes from the operand.
pub fn complement(cycle: &Cycle, port: Port) -> Outcome {
    let x = cycle.port(port);
    cycle.pass_zn(cycle.merge(&not(&x), &x))
}

/// ZERO: "Z always set. N always reset."
pub fn zero(cycle: &Cycle) -> Outcome {
    let mut out = cycle.pass(cycle.merge_b(&ZEROS));
    out.status.z = true;
    out.status.n = false;
    out
}

/// SIGN: "the state of N is checked in the status register"; Z is its
/// complement and N stays.
pub fn sign(cycle: &Cycle) -> Outcome {
    let mut n = cycle.status.n;
    if cycle.has(Fault::SignLooksAtB) {
        n = cycle.sign(&cycle.b);
    }
    let mut out = cycle.pass(cycle.merge_b(&[n; 32]));
    out.status.z = !n;
    out
}

/// OR, XOR, AND, XNOR, one bit at a time by the rule handed in.
pub fn two_operand(cycle: &Cycle, rule: fn(bool, bool) -> bool) -> Outcome {
    let mut result = ZEROS;
    for (i, bit) in result.iter_mut().enumerate() {
        *bit = rule(cycle.a[i], cycle.b[i]);
    }
    cycle.pass_zn(cycle.merge_b(&result))
}

/// PRIOR-A, PRIOR-B: walks down from the top selected bit to the first one.
/// The code also replaces status 7..0, whose high three bits become 0; N stays.
pub fn prioritize(cycle: &Cycle, port: Port) -> Outcome {
    let x = cycle.port(port);
    let n = cycle.selected();
    let mut code = 0;
    if !all_zero(&x[..n]) {
        while !x[n - 1 - code] {
            code += 1;
        }
    }
    if cycle.has(Fault::PriorCountsFrom31) && !all_zero(&x[..n]) {
        code += 32 - n;
    }
    let mut out = cycle.pass(ZEROS);
    for i in 0..5 {
        out.y[i] = (code >> i) & 1 == 1;
    }
    store_priority(cycle, &mut out);
    out.status.z = all_zero(&x[..n]);
    out
}

fn store_priority(cycle: &Cycle, out: &mut Outcome) {
    if cycle.has(Fault::PriorKeepsHighPosition) {
        out.status.position[..5].copy_from_slice(&out.y[..5]);
        return;
    }
    out.status.position.copy_from_slice(&out.y[..8]);
}
