//! N-bit shifts and rotates (table 13), single bits (tables 14-1 and 14-2),
//! field logic and extraction (table 15) and the mask (table 16).

use crate::bits::{all_zero, Bits, ZEROS};
use crate::cycle::{Cycle, Outcome, Port};
use crate::faults::Fault;
use crate::status::Status;

/// The position this word uses: I8 low takes the pins, high takes status bits
/// 5 to 0 as they were before the word.
fn position(cycle: &Cycle) -> [bool; 6] {
    let mut position = cycle.position_pins;
    if cycle.i8 && !cycle.has(Fault::StatusPositionIgnored) {
        position.copy_from_slice(&cycle.status.position[..6]);
    }
    position
}

/// The width this word uses: I7 likewise, from status bits 12 to 8. Width 0
/// stands for 32 (table 2).
fn width(cycle: &Cycle) -> usize {
    let bits = if cycle.i7 {
        cycle.status.width
    } else {
        cycle.width_pins
    };
    let mut width = 0;
    for (i, &bit) in bits.iter().enumerate() {
        width += usize::from(bit) << i;
    }
    if width == 0 && !cycle.has(Fault::WidthZeroIsZero) {
        width = if cycle.has(Fault::WidthZeroIs31) { 31 } else { 32 };
    }
    width
}

/// The low five position bits as 0 to 31.
fn low_five(position: &[bool; 6]) -> usize {
    let mut value = 0;
    for (i, &bit) in position[..5].iter().enumerate() {
        value += usize::from(bit) << i;
    }
    value
}

/// A signed displacement, -32 to 31 (table 1).
enum Move {
    Up(usize),
    Down(usize),
}

fn displacement(position: &[bool; 6]) -> Move {
    if position[5] {
        Move::Down(32 - low_five(position))
    } else {
        Move::Up(low_five(position))
    }
}

/// Bit i of a word moved up by `by`, zero fill.
fn bit_from_below(x: &Bits, i: usize, by: usize) -> bool {
    i >= by && x[i - by]
}

/// Z of the whole word and N of bit 31.
fn full_word(cycle: &Cycle, y: Bits) -> Outcome {
    let mut out = cycle.pass(y);
    out.status.z = all_zero(&y);
    out.status.n = y[31];
    out
}

/// NB-SN-SHA/B fill a downshift with bit 31, NB-0F-SHA/B with zero; an upshift
/// is filled with zero by both pages.
pub fn n_bit_shift(cycle: &Cycle, port: Port, sign_fill: bool) -> Outcome {
    let x = cycle.port(port);
    let fill = sign_fill && x[31];
    let mut y = ZEROS;
    match displacement(&position(cycle)) {
        Move::Up(by) => {
            for (i, bit) in y.iter_mut().enumerate() {
                *bit = bit_from_below(&x, i, by);
            }
        }
        Move::Down(by) => {
            let by = planted_down(cycle, by);
            for (i, bit) in y.iter_mut().enumerate() {
                *bit = if i + by < 32 { x[i + by] } else { fill };
            }
        }
    }
    full_word(cycle, y)
}

fn planted_down(cycle: &Cycle, by: usize) -> usize {
    if cycle.has(Fault::ShiftBy32AsNone) {
        by % 32
    } else {
        by
    }
}

/// NBROT-A, NBROT-B: "ignores the sign bit of the position input and treats
/// the least significant 5 bits as a positive magnitude for a circular upshift".
pub fn rotate(cycle: &Cycle, port: Port) -> Outcome {
    let x = cycle.port(port);
    let by = low_five(&position(cycle));
    let mut y = ZEROS;
    for i in 0..32 {
        y[(i + by) % 32] = x[i];
    }
    full_word(cycle, y)
}

/// EXTBIT-A, EXTBIT-B: "the sign bit of position, if true, inverts".
pub fn extract_bit(cycle: &Cycle, port: Port) -> Outcome {
    let mut out = extracted_bit(cycle, &cycle.port(port));
    out.status.z = !out.y[0];
    out
}

/// EXTBIT-STAT: "no side-effects on any bits of the status register other
/// than L"; the page's line on Z gives way to that.
pub fn extract_status_bit(cycle: &Cycle) -> Outcome {
    let status = cycle.read(&cycle.status, Fault::ExtbitStatInCarryMode);
    let mut out = extracted_bit(cycle, &status);
    if cycle.has(Fault::ExtbitStatTouchesZ) {
        out.status.z = !out.y[0];
    }
    out
}

fn extracted_bit(cycle: &Cycle, x: &Bits) -> Outcome {
    let position = position(cycle);
    let invert = position[5] && !cycle.has(Fault::ExtbitNotInverted);
    let mut out = cycle.pass(ZEROS);
    out.y[0] = x[low_five(&position)] ^ invert;
    out.status.l = out.y[0];
    out
}

/// SETBIT-A/B: "the Z flag is reset". RSTBIT-A/B: "Z always set".
pub fn put_bit(cycle: &Cycle, port: Port, value: bool) -> Outcome {
    let mut y = cycle.port(port);
    y[low_five(&position(cycle))] = value;
    let mut out = full_word(cycle, y);
    if !cycle.has(Fault::BitPutsHonestZ) {
        out.status.z = !value;
    }
    out
}

/// SETBIT-STAT, RSTBIT-STAT: bits 13, 14, 15 and 23 are read-only; "the new
/// value of the status register also appears on the Y bus".
pub fn put_status_bit(cycle: &Cycle, value: bool) -> Outcome {
    let read = |status: &Status| cycle.read(status, Fault::PutStatInCarryMode);
    let mut word = read(&cycle.status);
    word[low_five(&position(cycle))] = value;
    let status = Status::load(&word);
    let mut out = cycle.pass(read(&status));
    out.status = status;
    out
}

/// A field: where it starts and how wide it is. Bits above 31 are dropped.
struct Field {
    start: usize,
    width: usize,
}

impl Field {
    fn holds(&self, i: usize) -> bool {
        self.start <= i && i < self.start + self.width
    }

    fn is_zero(&self, word: &Bits) -> bool {
        (0..32).all(|i| !(self.holds(i) && word[i]))
    }
}

/// The field of an aligned operation: "the MSB of the position inputs is
/// ignored" (ANDF-AL-A note 4).
fn aligned_field(cycle: &Cycle) -> Field {
    let position = position(cycle);
    let mut start = low_five(&position);
    if position[5] && cycle.has(Fault::AlignedHeedsSixthBit) {
        start = 0;
    }
    Field {
        start,
        width: width(cycle),
    }
}

/// A non-aligned operand, moved, and its field. Up: shifted, the field starts
/// at the position. Down: "A is rotated rather than shifted" (ANDF-A note 3),
/// the field starts at bit 0.
fn moved(cycle: &Cycle, x: &Bits) -> (Bits, Field) {
    let width = width(cycle);
    let mut word = ZEROS;
    let start = match displacement(&position(cycle)) {
        Move::Up(by) => {
            for (i, bit) in word.iter_mut().enumerate() {
                *bit = bit_from_below(x, i, by);
            }
            by
        }
        Move::Down(by) => {
            let lose = cycle.has(Fault::RotateIsShift);
            for (i, bit) in word.iter_mut().enumerate() {
                *bit = x[(i + by) % 32] && !(lose && i + by >= 32);
            }
            0
        }
    };
    (word, Field { start, width })
}

/// Y by the rule inside the field and B outside it; Z of the field, N of
/// bit 31.
fn field_result(cycle: &Cycle, x: &Bits, field: &Field, rule: fn(bool, bool) -> bool) -> Outcome {
    let mut y = cycle.b;
    for i in 0..32 {
        if field.holds(i) {
            y[i] = rule(x[i], cycle.b[i]);
        }
    }
    field_flags(cycle, y, field)
}

fn field_flags(cycle: &Cycle, y: Bits, field: &Field) -> Outcome {
    let mut out = full_word(cycle, y);
    if !cycle.has(Fault::FieldZeroOf32Bits) {
        out.status.z = field.is_zero(&y);
    }
    out
}

/// NOTF-AL-A, PASSF-AL-A, ORF-AL-A, XORF-AL-A, ANDF-AL-A, and on B itself
/// NOTF-AL-B and PASSF-AL-B.
pub fn aligned(cycle: &Cycle, port: Port, rule: fn(bool, bool) -> bool) -> Outcome {
    field_result(cycle, &cycle.port(port), &aligned_field(cycle), rule)
}

/// NOTF-A, PASSF-A, ORF-A, XORF-A, ANDF-A.
pub fn unaligned(cycle: &Cycle, rule: fn(bool, bool) -> bool) -> Outcome {
    let (x, field) = moved(cycle, &cycle.a);
    field_result(cycle, &x, &field, rule)
}

/// EXTF-A, EXTF-B: "the remaining bits of Y contain zeros".
pub fn extract(cycle: &Cycle, port: Port) -> Outcome {
    let (x, field) = moved(cycle, &cycle.port(port));
    let mut y = ZEROS;
    for i in 0..32 {
        y[i] = field.holds(i) && x[i];
    }
    field_flags(cycle, y, &field)
}

/// EXTF-AB, EXTF-BA: the 64 bits rotated up or down, then the low bits of the
/// result, "LSB aligned", whatever the sign of the position.
pub fn extract_double(cycle: &Cycle, high: Port) -> Outcome {
    let (high, low) = match high {
        Port::A => (&cycle.a, &cycle.b),
        Port::B => (&cycle.b, &cycle.a),
    };
    let mut both = [false; 64];
    both[..32].copy_from_slice(low);
    both[32..].copy_from_slice(high);
    let up = match displacement(&position(cycle)) {
        Move::Up(by) => by,
        Move::Down(by) => 64 - by,
    };
    let width = width(cycle);
    let mut y = ZEROS;
    for i in 0..width {
        y[i] = both[(i + 64 - up) % 64];
    }
    full_word(cycle, y)
}

/// PASS-MASK: ones in the field, all 32 bits inverted by the sixth position
/// bit; "there are no side-effects on the status register".
pub fn pass_mask(cycle: &Cycle) -> Outcome {
    let position = position(cycle);
    let field = Field {
        start: low_five(&position),
        width: width(cycle),
    };
    let invert = position[5] && !cycle.has(Fault::PassMaskNotInverted);
    let mut y = ZEROS;
    for (i, bit) in y.iter_mut().enumerate() {
        *bit = field.holds(i) ^ invert;
    }
    cycle.pass(y)
}
