//! Decimal arithmetic: a binary word, then the correction of its Y.

use super::bench::{low, Bench, WIDTHS};
use super::Group;
use crate::cases::Random;

/// A number as packed decimal digits.
fn digits(value: u64) -> u32 {
    (0..8).fold(0, |word, i| {
        let digit = value / 10u64.pow(i) % 10;
        word | (digit as u32) << (4 * i)
    })
}

/// One case: which carry goes in by which way.
#[derive(Clone, Copy)]
struct Case {
    byte_code: u8,
    bytes: u32,
    borrow: u8,
    carry: u8,
    by_macro: bool,
}

impl Case {
    fn modulus(&self) -> u64 {
        10u64.pow(2 * self.bytes)
    }

    /// A chip with the carry in the flag or on the macro input, the other way
    /// holding its complement.
    fn chip(&self) -> Bench {
        let flag = if self.by_macro {
            1 - self.carry
        } else {
            self.carry
        };
        Bench {
            byte_code: self.byte_code,
            borrow: self.borrow,
            macro_select: u8::from(self.by_macro),
            macro_carry: if self.by_macro {
                self.carry
            } else {
                1 - self.carry
            },
            status: u32::from(flag) << 16 | 0xFF00_0000,
            ..Bench::default()
        }
    }
}

/// Runs the word and its correction; the selected result and C.
fn corrected(case: Case, words: (&str, &str), a: u32, b: u32) -> (u32, bool) {
    let mut chip = case.chip();
    let y = chip.word(words.0, a, b);
    let result = chip.word(words.1, y, y);
    (low(result, case.bytes), chip.c())
}

/// ADD and ADDC: the decimal sum, and C the decimal carry in both modes.
fn check_sums(group: &mut Group, case: Case, x: u64, y: u64) {
    let (a, b) = (digits(x), digits(y));
    for (mnemonic, carry) in [("ADD", 0), ("ADDC", u64::from(case.carry))] {
        let sum = x + y + carry;
        let want = (digits(sum % case.modulus()), sum >= case.modulus());
        for correction in ["SUM-CORR-A", "SUM-CORR-B"] {
            let got = corrected(case, (mnemonic, correction), a, b);
            group.check(got == want, || format!("{mnemonic} {x} {y}: {got:X?}"));
        }
    }
}

/// The four subtractions. In carry mode a carry of 0 takes one more away and
/// C is 1 where nothing was borrowed; in borrow mode both are turned round.
fn check_differences(group: &mut Group, case: Case, x: u64, y: u64) {
    let (a, b) = (digits(x), digits(y));
    let taken = u64::from(case.carry == case.borrow);
    let words = [
        ("SUB", x, y, 0),
        ("SUBC", x, y, taken),
        ("SUBR", y, x, 0),
        ("SUBRC", y, x, taken),
    ];
    for (mnemonic, from, less, taken) in words {
        let borrowed = from < less + taken;
        let result = (from + case.modulus() - less - taken) % case.modulus();
        let want = (digits(result), borrowed == (case.borrow == 1));
        for correction in ["DIFF-CORR-A", "DIFF-CORR-B"] {
            let got = corrected(case, (mnemonic, correction), a, b);
            group.check(got == want, || format!("{mnemonic} {x} {y}: {got:X?}"));
        }
    }
}

/// Every borrow mode, carry in, and way for the carry.
fn modes(byte_code: u8, bytes: u32) -> Vec<Case> {
    (0..8)
        .map(|k| Case {
            byte_code,
            bytes,
            borrow: k & 1,
            carry: k >> 1 & 1,
            by_macro: k >> 2 == 1,
        })
        .collect()
}

pub fn all_bytes(group: &mut Group) {
    for case in modes(1, 1) {
        for x in 0..100 {
            for y in 0..100 {
                check_sums(group, case, x, y);
                check_differences(group, case, x, y);
            }
        }
    }
    signed_bytes(group);
}

/// Appendix A, "Status During BCD Operations": with a sign digit of 0 or 9, V
/// tells that the sum or difference left -10 to 9, and N is its sign if not.
fn signed_bytes(group: &mut Group) {
    let complement = |x: i64| digits((x + 100) as u64 % 100);
    for x in -10..10 {
        for y in -10..10 {
            for (mnemonic, correction, exact) in
                [("ADD", "SUM-CORR-A", x + y), ("SUB", "DIFF-CORR-A", x - y)]
            {
                let mut chip = Bench::new(1);
                let result = chip.word(mnemonic, complement(x), complement(y));
                chip.word(correction, result, 0);
                let inside = (-10..10).contains(&exact);
                group.same("V", chip.v(), !inside);
                group.check(!inside || chip.n() == (exact < 0), || format!("N {x} {y}"));
                group.same("Z", chip.z(), exact == 0);
            }
        }
    }
}

pub fn wider(group: &mut Group) {
    let mut random = Random::new(20);
    for (byte_code, bytes) in &WIDTHS[1..] {
        for case in modes(*byte_code, *bytes) {
            for _ in 0..1_000 {
                let x = random.number() % case.modulus();
                let y = random.number() % case.modulus();
                check_sums(group, case, x, y);
                check_differences(group, case, x, y);
            }
        }
    }
}

/// INCR, DECR by 1, 2, 4, and NEG, on A and on B.
pub fn counting(group: &mut Group) {
    let mut random = Random::new(21);
    for (byte_code, bytes) in WIDTHS {
        for case in modes(byte_code, bytes) {
            for i in 0..200 {
                let x = if i < 100 { i } else { random.number() };
                check_counting(group, case, x % case.modulus());
            }
        }
    }
}

fn check_counting(group: &mut Group, case: Case, x: u64) {
    let m = case.modulus();
    let operand = digits(x);
    for (name, by) in [("INCR", 1), ("INCR2", 2), ("INCR4", 4)] {
        let want = (digits((x + by) % m), x + by >= m);
        check_ports(group, case, (name, "SUM-CORR"), operand, want);
    }
    let turned = case.borrow == 1;
    for (name, by) in [("DECR", 1), ("DECR2", 2), ("DECR4", 4)] {
        let want = (digits((x + m - by) % m), (x < by) == turned);
        check_ports(group, case, (name, "DIFF-CORR"), operand, want);
    }
    let want = (digits((m - x) % m), (x > 0) == turned);
    check_ports(group, case, ("NEG", "DIFF-CORR"), operand, want);
}

fn check_ports(group: &mut Group, case: Case, names: (&str, &str), x: u32, want: (u32, bool)) {
    for port in ["A", "B"] {
        let words = (format!("{}-{port}", names.0), format!("{}-{port}", names.1));
        let got = corrected(case, (&words.0, &words.1), x, x);
        group.check(got == want, || format!("{} {x:X}: {got:X?}", words.0));
    }
}

/// Appendix A's multiprecision lists on four words of eight digits.
pub fn long(group: &mut Group) {
    let mut random = Random::new(22);
    for _ in 0..2_000 {
        let limbs = |r: &mut Random| (0..4).map(|_| r.number() % 100_000_000).collect();
        let (x, y): (Vec<u64>, Vec<u64>) = (limbs(&mut random), limbs(&mut random));
        let number = |l: &[u64]| {
            l.iter()
                .rev()
                .fold(0, |v, &d| v * 100_000_000 + u128::from(d))
        };
        let modulus = 10u128.pow(32);
        let sum = (number(&x) + number(&y)) % modulus;
        check_long(group, ("ADD", "ADDC", "SUM-CORR-A"), 0, &x, &y, sum);
        let difference = (number(&x) + modulus - number(&y)) % modulus;
        for borrow in 0..2 {
            check_long(
                group,
                ("SUB", "SUBC", "DIFF-CORR-A"),
                borrow,
                &x,
                &y,
                difference,
            );
        }
    }
}

fn check_long(
    group: &mut Group,
    names: (&str, &str, &str),
    borrow: u8,
    x: &[u64],
    y: &[u64],
    want: u128,
) {
    let mut chip = Bench::new(0);
    chip.borrow = borrow;
    for i in 0..4 {
        let name = if i == 0 { names.0 } else { names.1 };
        let temp = chip.word(name, digits(x[i]), digits(y[i]));
        let got = chip.word(names.2, temp, 0);
        let limb = want / 10u128.pow(8 * i as u32) % 100_000_000;
        group.same(name, got, digits(limb as u64));
    }
}
