//! The draw: the cases of the single word that the digest and the vectors use,
//! each with how it is run on registers.
//!
//! It is meant to be written again elsewhere, so here it is in full. All
//! numbers are 64-bit and unsigned, shifts drop bits, / and % are whole.
//!
//! Generator. `next(x)`: x ^= x << 13; x ^= x >> 7; x ^= x << 17.
//! An opcode's line starts with x = 9E3779B97F4A7C15 (hex) xor the opcode
//! number, stepped 16 times. "A draw" steps x once and is the new x.
//!
//! Patterns. `pattern(k)` for k = 0 to 255, below: powers of two, their
//! neighbours and the complements of all these, then decimal digits.
//!
//! Cases. There are 102,400 for each opcode number 0 to 127: case i is
//! systematic for i = 0 to 73,727 and random for i = 73,728 to 102,399.
//!
//! Systematic case i, two draws r1, r2 in this order:
//! - k = i % 32; byte code = i / 32 % 4; A = pattern(i / 128 % 256).
//! - macro carry = k / 2 % 2; macro link = 1 - L, where L = k / 4 % 2;
//!   macro select = k / 8 % 2; borrow = k / 16.
//! - Q = r1 >> 32. Status = r1 % 2^32 with bit 16 (C) replaced by k % 2 and
//!   bit 20 (L) by L.
//! - position = r2 % 64; width = r2 / 64 % 32; B = pattern((r2 >> 11) % 256).
//!
//! Random case, three draws r1, r2, r3 in this order:
//! - Q = r1 >> 32, status = r1 % 2^32, A = r2 >> 32, B = r2 % 2^32.
//! - From r3, by bits from the low end: position 6, width 5, byte code 2,
//!   macro select 1, macro carry 1, macro link 1, borrow 1 (17 bits); then for
//!   A, for B and for Q, 9 bits each: if the first (lowest) of them is 1, the
//!   operand is pattern(the other eight) instead (44 bits so far); then
//!   refusal 4, kind 3, step 1 (52 bits).
//! - If refusal is 0 the case is spoilt, with s = step + 1: kind 0 adds 4 * s
//!   to the byte code, 1 adds 64 * s to the position, 2 adds 32 * s to the
//!   width, 3, 4, 5, 6 add 2 * s to macro select, macro carry, macro link,
//!   borrow; 7 adds 128 to the opcode, and 4 to the byte code too if s is 2.
//!
//! How. One more draw ends every case: how it is run on registers
//! (`on_registers.rs`).

use crate::word::Inputs;

/// How many patterns there are.
pub const PATTERNS: u32 = 256;

/// Pattern 0 to 255. Below 192: k % 32 is the bit of a power of two; k / 32 % 3
/// less one is added to it; from 96 on the bits are turned over. From 192 on
/// every byte has the same two digits.
pub fn pattern(k: u32) -> u32 {
    if k >= 192 {
        return digit(k / 8 % 8) * 0x1010_1010 + digit(k % 8) * 0x0101_0101;
    }
    let near = (1u32 << (k % 32)).wrapping_add(k / 32 % 3).wrapping_sub(1);
    if k >= 96 {
        !near
    } else {
        near
    }
}

/// The digits 0, 1, 4, 5, 8, 9, A, F, about which decimal carries turn.
fn digit(j: u32) -> u32 {
    (0xFA98_5410 >> (4 * j)) % 16
}

/// How many cases of an opcode are systematic, and how many there are.
pub const SYSTEMATIC: u32 = 73_728;
pub const CASES: u32 = 102_400;

/// One step of the generator.
pub fn next(x: u64) -> u64 {
    let x = x ^ (x << 13);
    let x = x ^ (x >> 7);
    x ^ (x << 17)
}

/// A case of the single word, and the draw that says how it is run.
pub struct Case {
    pub inputs: Inputs,
    pub how: u64,
}

/// The cases of one opcode number, in order.
#[derive(Clone)]
pub struct Draw {
    opcode: u8,
    x: u64,
    index: u32,
}

impl Draw {
    pub fn new(opcode: u8) -> Draw {
        let mut x = 0x9E37_79B9_7F4A_7C15 ^ u64::from(opcode);
        for _ in 0..16 {
            x = next(x);
        }
        Draw {
            opcode,
            x,
            index: 0,
        }
    }

    fn draw(&mut self) -> u64 {
        self.x = next(self.x);
        self.x
    }

    fn systematic(&mut self, i: u32) -> Inputs {
        let (r1, r2) = (self.draw(), self.draw());
        let k = i % 32;
        let link = k / 4 % 2;
        Inputs {
            opcode: self.opcode,
            byte_code: (i / 32 % 4) as u8,
            position: (r2 % 64) as u8,
            width: (r2 / 64 % 32) as u8,
            macro_select: (k / 8 % 2) as u8,
            macro_carry: (k / 2 % 2) as u8,
            macro_link: (1 - link) as u8,
            borrow: (k / 16) as u8,
            a: pattern(i / 128 % 256),
            b: pattern((r2 >> 11) as u32 % 256),
            q: (r1 >> 32) as u32,
            status: with_carry_and_link(r1 as u32, k % 2, link),
        }
    }

    fn random(&mut self) -> Inputs {
        let (r1, r2, r3) = (self.draw(), self.draw(), self.draw());
        let mut inputs = Inputs {
            opcode: self.opcode,
            position: (r3 % 64) as u8,
            width: ((r3 >> 6) % 32) as u8,
            byte_code: ((r3 >> 11) % 4) as u8,
            macro_select: ((r3 >> 13) % 2) as u8,
            macro_carry: ((r3 >> 14) % 2) as u8,
            macro_link: ((r3 >> 15) % 2) as u8,
            borrow: ((r3 >> 16) % 2) as u8,
            a: pattern_or((r3 >> 17) % 512, (r2 >> 32) as u32),
            b: pattern_or((r3 >> 26) % 512, r2 as u32),
            q: pattern_or((r3 >> 35) % 512, (r1 >> 32) as u32),
            status: r1 as u32,
        };
        if (r3 >> 44) % 16 == 0 {
            spoil(&mut inputs, (r3 >> 48) % 8, ((r3 >> 51) % 2) as u8 + 1);
        }
        inputs
    }
}

impl Iterator for Draw {
    type Item = Case;

    fn next(&mut self) -> Option<Case> {
        let i = self.index;
        self.index += 1;
        if i >= CASES {
            return None;
        }
        let inputs = if i < SYSTEMATIC {
            self.systematic(i)
        } else {
            self.random()
        };
        let how = self.draw();
        Some(Case { inputs, how })
    }
}

fn with_carry_and_link(status: u32, carry: u32, link: u32) -> u32 {
    status & !(1 << 16) & !(1 << 20) | carry << 16 | link << 20
}

/// A pattern where the lowest of the nine choice bits is set.
fn pattern_or(choice: u64, drawn: u32) -> u32 {
    if choice % 2 == 1 {
        pattern((choice / 2) as u32)
    } else {
        drawn
    }
}

/// Puts one input out of range.
fn spoil(inputs: &mut Inputs, kind: u64, s: u8) {
    match kind {
        0 => inputs.byte_code += 4 * s,
        1 => inputs.position += 64 * s,
        2 => inputs.width += 32 * s,
        3 => inputs.macro_select += 2 * s,
        4 => inputs.macro_carry += 2 * s,
        5 => inputs.macro_link += 2 * s,
        6 => inputs.borrow += 2 * s,
        _ => {
            inputs.opcode += 128;
            inputs.byte_code += 4 * (s - 1);
        }
    }
}
