//! Data words as rows of single bits, and the one adder the whole model uses.
//!
//! Bit 0 is the least significant. Nothing here adds machine integers: a sum
//! is a chain of full adders that records the carry into and out of each bit.

/// A 32-bit data word, bit 0 first.
pub type Bits = [bool; 32];

/// Room for the widest sum of the chip: 32 bits and the two extra bits of the
/// multiply steps (UMULFIRST: "internally extended by two bits").
pub type Wide = [bool; 34];

pub const ZEROS: Bits = [false; 32];

/// The bits of a number.
pub fn from_number(value: u32) -> Bits {
    let mut bits = ZEROS;
    for (i, bit) in bits.iter_mut().enumerate() {
        *bit = (value >> i) & 1 == 1;
    }
    bits
}

/// The number that a row of at most 32 bits stands for.
pub fn to_number(bits: &[bool]) -> u32 {
    let mut value = 0;
    for (i, &bit) in bits.iter().enumerate() {
        if bit {
            value |= 1 << i;
        }
    }
    value
}

/// Every bit inverted.
pub fn not(x: &Bits) -> Bits {
    let mut result = *x;
    for bit in result.iter_mut() {
        *bit = !*bit;
    }
    result
}

/// Bits below `count` from `low`, the others from `high`.
pub fn splice(low: &Bits, high: &Bits, count: usize) -> Bits {
    let mut result = *high;
    result[..count].copy_from_slice(&low[..count]);
    result
}

/// True where every bit of the row is 0.
pub fn all_zero(row: &[bool]) -> bool {
    row.iter().fold(true, |zero, &bit| zero & !bit)
}

/// What a chain of full adders gives.
pub struct Sum {
    pub bits: Wide,
    /// `carry[i]` goes into bit i and `carry[i + 1]` comes out of it.
    pub carry: [bool; 35],
}

impl Sum {
    /// The low 32 bits of the sum.
    pub fn word(&self) -> Bits {
        let mut word = ZEROS;
        word.copy_from_slice(&self.bits[..32]);
        word
    }
}

/// The full-adder chain over two rows of equal length, at most 34 bits.
pub fn add(x: &[bool], y: &[bool], carry_in: bool) -> Sum {
    let mut bits = [false; 34];
    let mut carry = [false; 35];
    carry[0] = carry_in;
    for i in 0..x.len() {
        let (a, b, c) = (x[i], y[i], carry[i]);
        bits[i] = a ^ b ^ c;
        carry[i + 1] = (a & b) | (a & c) | (b & c);
    }
    Sum { bits, carry }
}

/// The low `count` bits moved up by one place with `fill` in bit 0; the bits
/// from `count` on are kept.
pub fn up_one(x: &Bits, count: usize, fill: bool) -> Bits {
    let mut result = *x;
    result[1..count].copy_from_slice(&x[..count - 1]);
    result[0] = fill;
    result
}

/// The low `count` bits moved down by one place with `fill` in the top one;
/// the bits from `count` on are kept.
pub fn down_one(x: &Bits, count: usize, fill: bool) -> Bits {
    let mut result = *x;
    result[..count - 1].copy_from_slice(&x[1..count]);
    result[count - 1] = fill;
    result
}
