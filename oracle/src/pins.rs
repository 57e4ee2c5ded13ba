//! The output pins C, Z, N, V and L after a word (document 02, request 4), by the
//! manual's Output Select: "for instructions that do not affect a particular flag
//! ... that output will reflect the state of its corresponding bit in the status
//! register".
//!
//! They are not read off the status that is answered. A pin whose flag the page
//! names shows what the word made of it; every other one shows the register as the
//! word found it.

use crate::bits::{all_zero, from_number};
use crate::cycle::{Cycle, Outcome};
use crate::faults::{Fault, Faults};
use crate::status::Status;

/// The pins in their order; the first is bit 4 of the number.
type Pins = [bool; 5];
const C: usize = 0;
const Z: usize = 1;
const N: usize = 2;
const V: usize = 3;
const L: usize = 4;

/// The flags of a register.
fn flags(status: &Status) -> Pins {
    [status.c, status.z, status.n, status.v, status.l]
}

/// The flags that a page's lines under "Status Generated" name, those with a pin.
/// On three pages the lines are not the whole of it: SETBIT-STAT and RSTBIT-STAT
/// name none and put the one that is addressed; EXTBIT-STAT names Z too, and has
/// "no side-effects on any bits of the status register other than L".
fn made(opcode: u8) -> &'static [usize] {
    match opcode {
        // PASS-STAT, PASS-Q; the multiply steps; PASS-MASK
        0x04 | 0x05 | 0x5B | 0x5C | 0x5E | 0x5F | 0x7F => &[],
        // PRIOR, SIGN, SDIVLAST2, UMULLAST
        0x0C | 0x0D | 0x3D | 0x5A | 0x5D => &[Z],
        // NEG, DECR, INCR; ADD to SUBRC and the corrections
        0x0A | 0x0B | 0x10..=0x1B | 0x42..=0x4B => &[C, Z, N, V],
        // LDSTAT, SETBIT-STAT, RSTBIT-STAT
        0x1C | 0x1D | 0x6C | 0x6D => &[C, Z, N, V, L],
        // DN1, SDIVFIRST, UDIVFIRST
        0x20..=0x2F | 0x4E | 0x4F => &[Z, N, L],
        // UP1
        0x30..=0x3B => &[Z, N, V, L],
        // SDIVSTEP
        0x50 => &[C, Z, N, L],
        // SDIVLAST1, UDIVLAST
        0x51 | 0x55 => &[C, Z, N],
        // UDIVSTEP and the multiprecision steps
        0x52..=0x54 | 0x56 | 0x57 => &[C, Z, L],
        // REMCORR
        0x58 => &[C],
        // QUOCORR
        0x59 => &[C, V],
        // EXTBIT-A, EXTBIT-B
        0x66 | 0x67 => &[Z, L],
        // EXTBIT-STAT
        0x7E => &[L],
        _ => &[Z, N],
    }
}

/// The pins after a word that ran.
pub fn after(opcode: u8, cycle: &Cycle, out: &Outcome) -> u8 {
    let mut pins = flags(&cycle.status);
    if cycle.has(Fault::PinLeftAloneZero) {
        pins = [false; 5];
    }
    let left = flags(&out.status);
    for &flag in made(opcode) {
        pins[flag] = left[flag];
    }
    plant(opcode, cycle, out, &mut pins);
    number(&pins, cycle.faults)
}

/// The pins of a status as it stands: what a refused word shows.
pub fn standing(status: u32, faults: &Faults) -> u8 {
    number(&flags(&Status::load(&from_number(status))), faults)
}

/// The faults of single pins.
fn plant(opcode: u8, cycle: &Cycle, out: &Outcome, pins: &mut Pins) {
    if cycle.has(Fault::PinCTurnedByBorrow) {
        pins[C] ^= cycle.borrow;
    }
    if made(opcode).contains(&Z) && cycle.has(Fault::PinZOfTheWholeY) {
        pins[Z] = all_zero(&out.y);
    }
    let kept = cycle.has(Fault::PinsOfTheWordBefore);
    match opcode {
        _ if kept => *pins = flags(&cycle.status),
        0x1C if cycle.has(Fault::LdstatPinsWhole) => *pins = flags(&Status::load(&cycle.a)),
        0x1D if cycle.has(Fault::LdstatPinsWhole) => *pins = flags(&Status::load(&cycle.b)),
        0x6C | 0x6D if cycle.has(Fault::PutStatPinsKept) => *pins = flags(&cycle.status),
        0x7E if cycle.has(Fault::ExtbitStatPinZ) => pins[Z] = !out.y[0],
        _ => {}
    }
}

/// The five as one number.
fn number(pins: &Pins, faults: &Faults) -> u8 {
    let mut number = 0;
    for (i, flag) in order(faults).into_iter().enumerate() {
        if pins[flag] {
            number |= 0x10 >> i;
        }
    }
    match faults.has(Fault::PinLLeftOut) {
        true => number & 0x1E,
        false => number,
    }
}

/// The order, or another one that a fault puts for it.
fn order(faults: &Faults) -> [usize; 5] {
    if faults.has(Fault::PinsZAndNExchanged) {
        return [C, N, Z, V, L];
    }
    if faults.has(Fault::PinsCAndLExchanged) {
        return [L, Z, N, V, C];
    }
    if faults.has(Fault::PinsReversed) {
        return [L, V, N, Z, C];
    }
    if faults.has(Fault::PinsAsStatusBits) {
        return [L, Z, V, N, C];
    }
    if faults.has(Fault::PinsAsPagesPrint) {
        return [Z, N, C, V, L];
    }
    [C, Z, N, V, L]
}
