//! A chip on the bench: single words by mnemonic, Q and status kept between.

use crate::faults::Faults;
use crate::pages::number_of;
use crate::word::{single, Inputs};

/// Q, status, pins and the inputs that stay the same from word to word.
#[derive(Clone, Copy, Default)]
pub struct Bench {
    pub q: u32,
    pub status: u32,
    /// After the last word.
    pub pins: u8,
    pub byte_code: u8,
    pub position: u8,
    pub width: u8,
    pub macro_select: u8,
    pub macro_carry: u8,
    pub borrow: u8,
}

/// Byte code and number of bytes, as document 01 has them.
pub const WIDTHS: [(u8, u32); 4] = [(1, 1), (2, 2), (3, 3), (0, 4)];

impl Bench {
    /// A fresh chip with a byte code.
    pub fn new(byte_code: u8) -> Bench {
        Bench {
            byte_code,
            ..Bench::default()
        }
    }

    /// A fresh chip for field words from the pins.
    pub fn field(position: u8, width: u8) -> Bench {
        Bench {
            position,
            width,
            ..Bench::default()
        }
    }

    /// Runs a word that must be accepted and gives its Y.
    pub fn word(&mut self, mnemonic: &str, a: u32, b: u32) -> u32 {
        self.number(number_of(mnemonic), a, b)
    }

    /// The same by opcode number.
    pub fn number(&mut self, opcode: u8, a: u32, b: u32) -> u32 {
        let inputs = Inputs {
            opcode,
            byte_code: self.byte_code,
            position: self.position,
            width: self.width,
            macro_select: self.macro_select,
            macro_carry: self.macro_carry,
            macro_link: 0,
            borrow: self.borrow,
            a,
            b,
            q: self.q,
            status: self.status,
        };
        let answer = single(&inputs, &Faults::none());
        assert_eq!(answer.reason, 0);
        self.q = answer.q;
        self.status = answer.status;
        self.pins = answer.pins;
        answer.y
    }

    fn flag(&self, bit: u32) -> bool {
        (self.status >> bit) & 1 == 1
    }

    pub fn c(&self) -> bool {
        self.flag(16)
    }

    pub fn n(&self) -> bool {
        self.flag(17)
    }

    pub fn v(&self) -> bool {
        self.flag(18)
    }

    pub fn z(&self) -> bool {
        self.flag(19)
    }

    pub fn l(&self) -> bool {
        self.flag(20)
    }

    pub fn s(&self) -> bool {
        self.flag(22)
    }

    /// Nibble carries, number 0 in bit 0.
    pub fn nibbles(&self) -> u32 {
        self.status >> 24
    }
}

/// The low `bytes` bytes of a value.
pub fn low(value: u32, bytes: u32) -> u32 {
    if bytes == 4 {
        value
    } else {
        value & ((1 << (8 * bytes)) - 1)
    }
}
