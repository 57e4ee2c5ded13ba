//! Multiplication and division, by document 01's lists and the manual's.

use super::bench::{low, Bench, WIDTHS};
use super::Group;
use crate::cases::Random;
use crate::lists::signed;
use crate::pages::number_of;

/// How many random cases each wider width gets.
const WIDER: usize = 20_000;

fn bytes_of(byte_code: u8) -> u32 {
    if byte_code == 0 {
        4
    } else {
        u32::from(byte_code)
    }
}

/// Document 01's multiply list: high half, low half.
pub fn multiply(byte_code: u8, a: u32, multiplier: u32) -> (u32, u32) {
    let n = 8 * bytes_of(byte_code);
    let mut chip = Bench::new(byte_code);
    chip.q = multiplier;
    let mut b = chip.word("UMULFIRST", a, 0);
    let step = number_of("UMULSTEP");
    for _ in 1..n / 2 {
        b = chip.number(step, a, b);
    }
    (chip.word("UMULLAST", a, b), chip.q)
}

/// Document 01's divide list: quotient, remainder.
pub fn divide(byte_code: u8, dividend: u32, divisor: u32) -> (u32, u32) {
    let n = 8 * bytes_of(byte_code);
    let mut chip = Bench::new(byte_code);
    chip.q = dividend;
    let mut b = chip.word("UDIVFIRST", divisor, 0);
    let step = number_of("UDIVSTEP");
    for _ in 1..n {
        b = chip.number(step, divisor, b);
    }
    b = chip.word("UDIVLAST", divisor, b);
    (chip.q, chip.word("REMCORR", divisor, b))
}

fn check_multiply(group: &mut Group, byte_code: u8, a: u32, m: u32) {
    let n = 8 * bytes_of(byte_code);
    let (high, low_half) = multiply(byte_code, a, m);
    let product = u64::from(high) << n | u64::from(low_half);
    let want = u64::from(a) * u64::from(m);
    group.check(product == want, || format!("{a:X} * {m:X} = {product:X}"));
}

fn check_divide(group: &mut Group, byte_code: u8, dividend: u32, divisor: u32) {
    let got = divide(byte_code, dividend, divisor);
    let want = (dividend / divisor, dividend % divisor);
    group.check(got == want, || {
        format!("{dividend:X} / {divisor:X} = {got:X?}")
    });
}

pub fn multiply_all_bytes(group: &mut Group) {
    for a in 0..256 {
        for m in 0..256 {
            check_multiply(group, 1, a, m);
        }
    }
}

pub fn divide_all_bytes(group: &mut Group) {
    for dividend in 0..256 {
        for divisor in 1..256 {
            check_divide(group, 1, dividend, divisor);
        }
    }
}

pub fn multiply_wider(group: &mut Group) {
    let mut random = Random::new(10);
    for (byte_code, bytes) in &WIDTHS[1..] {
        for _ in 0..WIDER {
            let (a, m) = (random.word32(), random.word32());
            check_multiply(group, *byte_code, low(a, *bytes), low(m, *bytes));
        }
    }
}

pub fn divide_wider(group: &mut Group) {
    let mut random = Random::new(11);
    for (byte_code, bytes) in &WIDTHS[1..] {
        for _ in 0..WIDER {
            let dividend = low(random.word32(), *bytes);
            let divisor = low(random.word32() >> random.below(32), *bytes).max(1);
            check_divide(group, *byte_code, dividend, divisor);
        }
    }
}

/// Operand pairs: all of one byte, random ones of the other widths.
fn pairs(seed: u64) -> Vec<(u8, u32, u32, u32)> {
    let mut random = Random::new(seed);
    let mut pairs = Vec::new();
    for x in 0..=0xFFFFu32 {
        pairs.push((1, 1, x >> 8, x & 0xFF));
    }
    for (byte_code, bytes) in &WIDTHS[1..] {
        for _ in 0..WIDER / 4 {
            let x = low(random.word32(), *bytes);
            let y = low(random.word32() >> random.below(32), *bytes);
            pairs.push((*byte_code, *bytes, x, y));
        }
    }
    pairs
}

/// Table 11-2's microprogram with its jump on Z: quotient and remainder.
fn table_11_2(byte_code: u8, bytes: u32, dividend: u32, divisor: u32) -> (u32, u32) {
    let step = number_of("SDIVSTEP");
    let mut chip = Bench::new(byte_code);
    chip.word("LOADQ-A", dividend, 0);
    let mut b = low(chip.word("SIGN", 0, 0), bytes);
    b = chip.word("SDIVFIRST", divisor, b);
    for _ in 1..8 * bytes {
        b = chip.number(step, divisor, b);
    }
    b = chip.word("SDIVLAST1", divisor, b);
    if chip.z() {
        return (chip.q, b);
    }
    chip.word("SDIVLAST2", divisor, b);
    let quotient = chip.word("PASS-Q", 0, 0);
    let quotient = chip.word("QUOCORR", 0, quotient);
    (quotient, chip.word("REMCORR", divisor, b))
}

pub fn signed_divide(group: &mut Group) {
    for (byte_code, bytes, dividend, divisor) in pairs(13) {
        let (x, y) = (signed(dividend, 8 * bytes), signed(divisor, 8 * bytes));
        let overflows = y == -1 && dividend == 1 << (8 * bytes - 1);
        if y == 0 || overflows {
            continue;
        }
        let (q, r) = table_11_2(byte_code, bytes, dividend, divisor);
        let got = (signed(q, 8 * bytes), signed(r, 8 * bytes));
        group.check(got == (x / y, x % y), || format!("{x} / {y} = {got:?}"));
    }
}

/// A long division by UDIVFIRST, MPDIVSTEP1, MPDIVSTEP2 and MPUDIVSTP3.
struct Long {
    chip: Bench,
    /// Divisor and partial remainder, low word first; the last is `bytes` wide.
    divisor: Vec<u32>,
    remainder: Vec<u32>,
    byte_code: u8,
}

impl Long {
    /// One round of the inner loop; `q_code` is the byte code of the dividend
    /// word now in Q. The quotient bit is left in Q0.
    fn round(&mut self, q_code: u8) {
        let last = self.divisor.len() - 1;
        for i in 0..=last {
            let (mnemonic, code) = match i {
                0 => ("MPDIVSTEP1", q_code),
                _ if i == last => ("MPUDIVSTP3", self.byte_code),
                _ => ("MPDIVSTEP2", 0),
            };
            self.chip.byte_code = code;
            let (a, b) = (self.divisor[i], self.remainder[i]);
            self.remainder[i] = self.chip.word(mnemonic, a, b);
        }
    }
}

/// Words of a long number, low first.
fn words(value: u128, count: usize) -> Vec<u32> {
    (0..count).map(|i| (value >> (32 * i)) as u32).collect()
}

fn number(words: &[u32]) -> u128 {
    words
        .iter()
        .rev()
        .fold(0, |value, &w| value << 32 | u128::from(w))
}

/// Divides T-bit numbers, T = 32 * middle + 8 * bytes; the dividend passes
/// through Q word by word, highest first. The last step, which does not shift,
/// is done here.
fn long_divide(
    byte_code: u8,
    count: usize,
    total: u32,
    dividend: u128,
    divisor: u128,
) -> (u128, u128) {
    let mut long = Long {
        chip: Bench::new(byte_code),
        divisor: words(divisor, count),
        remainder: vec![0; count],
        byte_code,
    };
    long.chip.macro_select = 1;
    let parts = words(dividend, count);
    let mut quotient = 0;
    for i in (0..count).rev() {
        let first = i + 1 == count;
        let (code, bits) = if first {
            (byte_code, total % 32)
        } else {
            (0, 32)
        };
        let bits = if bits == 0 { 32 } else { bits };
        long.chip.q = parts[i];
        let rounds = if first {
            long.chip.byte_code = code;
            long.remainder[0] = long.chip.word("UDIVFIRST", 0, 0);
            bits - 1
        } else {
            bits
        };
        for _ in 0..rounds {
            long.round(code);
            quotient = quotient << 1 | u128::from(long.chip.q & 1);
        }
    }
    finish(&long, total, divisor, quotient)
}

/// The step without a shift and the correction of the remainder.
fn finish(long: &Long, total: u32, divisor: u128, quotient: u128) -> (u128, u128) {
    let modulus = 1u128 << (total + 1);
    let partial = number(&long.remainder) + (u128::from(long.chip.s()) << total);
    let subtract = (long.chip.status >> 21) & 1 == 1;
    let f = (partial + if subtract { modulus - divisor } else { divisor }) % modulus;
    let negative = f >> total == 1;
    let remainder = if negative { (f + divisor) % modulus } else { f };
    (quotient << 1 | u128::from(!negative), remainder)
}

pub fn multiprecision_divide(group: &mut Group) {
    let mut random = Random::new(14);
    for (byte_code, bytes) in WIDTHS {
        for count in 2..4 {
            let total = 32 * (count as u32 - 1) + 8 * bytes;
            for _ in 0..300 {
                let dividend = number(&[random.word32(), random.word32(), random.word32()]);
                let divisor = number(&[random.word32(), random.word32(), random.word32()]);
                let dividend = dividend % (1 << total);
                let divisor = ((divisor % (1 << total)) >> random.below(total as usize)).max(1);
                let got = long_divide(byte_code, count, total, dividend, divisor);
                let want = (dividend / divisor, dividend % divisor);
                group.check(got == want, || {
                    format!("{dividend:X} / {divisor:X} = {got:X?}")
                });
            }
        }
    }
}
