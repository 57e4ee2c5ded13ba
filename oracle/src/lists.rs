//! The signed multiply and divide as sheets (document 02, request 1): the lists
//! of tables 11-1, 11-2 and 12-1, and the words that stand in for table 11-2's
//! jump (docs/MANUAL.md, M48).

use crate::pages::number_of;
use crate::sheet::{build, Word};

/// The registers of the lists: divisor or multiplicand; remainder or high half;
/// quotient; one that holds 0; dividend.
pub const DIVISOR: u8 = 0;
pub const REMAINDER: u8 = 1;
pub const QUOTIENT: u8 = 2;
pub const ZERO: u8 = 3;
pub const DIVIDEND: u8 = 4;
/// How many registers the sheets declare.
pub const REGISTERS: usize = 5;

/// Where SDIVFIRST stands in the divide list: a dividend of double length,
/// its high half in REMAINDER and its low half in Q, starts there.
pub const SDIVFIRST_AT: usize = 2;

/// Words in the making, all with one byte code.
struct List {
    byte_code: u8,
    words: Vec<Word>,
}

impl List {
    fn new(byte_code: u8) -> List {
        List {
            byte_code,
            words: Vec::new(),
        }
    }

    /// A word that writes Y back to B.
    fn back(&mut self, mnemonic: &str, a: u8, b: u8) {
        self.words.push(Word {
            opcode: number_of(mnemonic),
            byte_code: self.byte_code,
            a,
            b,
            y: b,
            write: 1,
            ..Word::default()
        });
    }

    /// A word that writes nothing.
    fn only(&mut self, mnemonic: &str, a: u8, b: u8) {
        self.words.push(Word {
            opcode: number_of(mnemonic),
            byte_code: self.byte_code,
            a,
            b,
            ..Word::default()
        });
    }

    /// A word on a bit of the status, which writes nothing.
    fn status(&mut self, mnemonic: &str, position: u8) {
        self.words.push(Word {
            opcode: number_of(mnemonic),
            position,
            ..Word::default()
        });
    }

    fn sheet(&self) -> Vec<u8> {
        build(&self.words, REGISTERS)
    }
}

/// How many bits a byte code selects (table 3).
pub fn bits_of(byte_code: u8) -> u32 {
    match byte_code {
        0 => 32,
        bytes => 8 * u32::from(bytes),
    }
}

/// "Iterate step (#bits/2 - 1 steps)"; the multiplier is in Q.
pub fn signed_multiply(byte_code: u8) -> Vec<u8> {
    let mut list = List::new(byte_code);
    list.back("SMULFIRST", DIVISOR, REMAINDER);
    for _ in 1..bits_of(byte_code) / 2 {
        list.back("SMULSTEP", DIVISOR, REMAINDER);
    }
    list.sheet()
}

/// Table 11-2 down to its jump.
fn to_the_jump(byte_code: u8) -> List {
    let mut list = List::new(byte_code);
    list.only("LOADQ-A", DIVIDEND, 0);
    list.back("SIGN", 0, REMAINDER);
    list.back("SDIVFIRST", DIVISOR, REMAINDER);
    for _ in 1..bits_of(byte_code) {
        list.back("SDIVSTEP", DIVISOR, REMAINDER);
    }
    list.back("SDIVLAST1", DIVISOR, REMAINDER);
    list
}

/// Its corrections, after the jump and SDIVLAST2.
fn corrected(mut list: List) -> Vec<u8> {
    list.back("PASS-Q", 0, QUOTIENT);
    list.back("QUOCORR", 0, QUOTIENT);
    list.back("REMCORR", DIVISOR, REMAINDER);
    list.sheet()
}

/// The divide list. The words from SDIVLAST2 with 0 for a divisor to DN1-LF-B
/// leave N 1 where the remainder is negative, or zero under a negative dividend.
pub fn signed_divide(byte_code: u8) -> Vec<u8> {
    let mut list = to_the_jump(byte_code);
    list.only("SDIVLAST2", ZERO, REMAINDER);
    list.status("RSTBIT-STAT", 18);
    list.status("EXTBIT-STAT", 15);
    list.only("DN1-LF-B", 0, REMAINDER);
    list.only("SDIVLAST2", DIVISOR, REMAINDER);
    corrected(list)
}

/// Table 11-2's own words one after another, without its jump.
pub fn without_the_jump(byte_code: u8) -> Vec<u8> {
    let mut list = to_the_jump(byte_code);
    list.only("SDIVLAST2", DIVISOR, REMAINDER);
    corrected(list)
}

/// The same without SDIVLAST2.
pub fn without_last_2(byte_code: u8) -> Vec<u8> {
    corrected(to_the_jump(byte_code))
}

/// The low `bits` bits of a value as a signed number.
pub fn signed(value: u32, bits: u32) -> i64 {
    let value = i64::from(value) % (1 << bits);
    match value >> (bits - 1) {
        0 => value,
        _ => value - (1 << bits),
    }
}

/// A value with its low `bits` bits replaced by those of a signed number.
pub fn with_low(value: u32, bits: u32, low: i64) -> u32 {
    let above = u64::from(value) >> bits << bits;
    (above | low.rem_euclid(1 << bits) as u64) as u32
}
