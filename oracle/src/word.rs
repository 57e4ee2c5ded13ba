//! The single word: inputs, refusals, answer.

use crate::bits::{from_number, to_number, Bits};
use crate::cycle::Cycle;
use crate::faults::{Fault, Faults};
use crate::pages::{has_page, perform};
use crate::pins;
use crate::status::{Mode, Status};

/// The numbers of document 01's table of reasons, and those that document 02
/// adds: its second request 15 and 16, its fifth 17.
pub mod reason {
    pub const DONE: u8 = 0;
    pub const OPCODE: u8 = 1;
    pub const INPUTS: u8 = 2;
    pub const SHORT: u8 = 3;
    pub const VERSION: u8 = 4;
    pub const HEADER: u8 = 5;
    pub const LENGTH: u8 = 6;
    pub const FILE: u8 = 7;
    pub const SPARE: u8 = 8;
    pub const REGISTER: u8 = 9;
    pub const START: u8 = 10;
    pub const FORM: u8 = 11;
    pub const OVERLAP: u8 = 12;
    pub const SCHEDULE: u8 = 13;
    pub const ROOM: u8 = 14;
    pub const TEXT: u8 = 15;
    pub const COUNT: u8 = 16;
    pub const IDLE: u8 = 17;
}

/// What goes into a single word.
#[derive(Clone, Copy, Default)]
pub struct Inputs {
    pub opcode: u8,
    pub byte_code: u8,
    pub position: u8,
    pub width: u8,
    pub macro_select: u8,
    pub macro_carry: u8,
    pub macro_link: u8,
    pub borrow: u8,
    pub a: u32,
    pub b: u32,
    pub q: u32,
    pub status: u32,
}

/// What a single word gives. Its place is always 0.
#[derive(Clone, Copy, PartialEq, Debug)]
pub struct Answer {
    pub reason: u8,
    pub place: u32,
    pub y: u32,
    pub parity: u8,
    pub q: u32,
    pub status: u32,
    /// Five bits: C in bit 4, then Z, N, V, L.
    pub pins: u8,
}

/// Runs one word, or refuses it: first 1 Opcode, then 2 Inputs.
pub fn single(inputs: &Inputs, faults: &Faults) -> Answer {
    match refusal(inputs, faults) {
        reason::DONE => accepted(inputs, faults),
        reason => refused(inputs, reason, faults),
    }
}

fn refusal(inputs: &Inputs, faults: &Faults) -> u8 {
    let opcode = !has_page(inputs.opcode);
    let range = out_of_range(inputs);
    if faults.has(Fault::RefusalsSwapped) && range {
        return reason::INPUTS;
    }
    if opcode {
        reason::OPCODE
    } else if range {
        reason::INPUTS
    } else {
        reason::DONE
    }
}

/// The ranges hold even for inputs that the operation does not look at.
pub fn out_of_range(inputs: &Inputs) -> bool {
    inputs.byte_code > 3
        || inputs.position > 63
        || inputs.width > 31
        || inputs.macro_select > 1
        || inputs.macro_carry > 1
        || inputs.macro_link > 1
        || inputs.borrow > 1
}

/// A refusal repeats Q and status bit for bit, with Y and parity 0; the pins show
/// that status.
fn refused(inputs: &Inputs, reason: u8, faults: &Faults) -> Answer {
    let mut status = inputs.status;
    if faults.has(Fault::RefusalWorksOutStatus) {
        status = worked_out(status, Mode::of(inputs.borrow == 1), faults);
    }
    Answer {
        reason,
        place: 0,
        y: 0,
        parity: 0,
        q: inputs.q,
        status,
        pins: refused_pins(inputs, faults),
    }
}

fn refused_pins(inputs: &Inputs, faults: &Faults) -> u8 {
    if faults.has(Fault::RefusedPinsZero) {
        return 0;
    }
    if faults.has(Fault::RefusedPinsOfTheWord) && has_page(inputs.opcode) {
        let cycle = cycle_of(inputs, faults);
        let out = perform(inputs.opcode, &cycle);
        return pins::after(inputs.opcode, &cycle, &out);
    }
    pins::standing(inputs.status, faults)
}

/// The answer's status is read as the word itself reads it.
fn accepted(inputs: &Inputs, faults: &Faults) -> Answer {
    let cycle = cycle_of(inputs, faults);
    let out = perform(inputs.opcode, &cycle);
    let status = cycle.read(&out.status, Fault::AnswerInCarryMode);
    Answer {
        reason: reason::DONE,
        place: 0,
        y: to_number(&out.y),
        parity: parity(&out.y, faults),
        q: to_number(&out.q),
        status: to_number(&status),
        pins: pins::after(inputs.opcode, &cycle, &out),
    }
}

fn cycle_of<'f>(inputs: &Inputs, faults: &'f Faults) -> Cycle<'f> {
    Cycle {
        a: from_number(inputs.a),
        b: from_number(inputs.b),
        q: from_number(inputs.q),
        status: Status::load(&from_number(inputs.status)),
        i8: inputs.byte_code & 2 != 0,
        i7: inputs.byte_code & 1 != 0,
        position_pins: low_bits(inputs.position),
        width_pins: low_bits(inputs.width),
        macro_select: inputs.macro_select == 1,
        macro_carry: inputs.macro_carry == 1,
        macro_link: inputs.macro_link == 1,
        borrow: inputs.borrow == 1,
        faults,
    }
}

fn low_bits<const N: usize>(value: u8) -> [bool; N] {
    let mut bits = [false; N];
    for (i, bit) in bits.iter_mut().enumerate() {
        *bit = (value >> i) & 1 == 1;
    }
    bits
}

/// One bit for each byte, the highest byte's in bit 3, "EVEN parity".
fn parity(y: &Bits, faults: &Faults) -> u8 {
    let mut parity = 0;
    for byte in 0..4 {
        let odd = y[8 * byte..8 * byte + 8]
            .iter()
            .fold(false, |p, &bit| p ^ bit);
        if odd ^ faults.has(Fault::ParityOdd) {
            parity |= 1 << byte;
        }
    }
    parity
}

/// A status number with bits 13, 14, 15 and 23 worked out.
pub fn worked_out(status: u32, mode: Mode, faults: &Faults) -> u32 {
    to_number(&Status::load(&from_number(status)).read(mode, faults))
}
