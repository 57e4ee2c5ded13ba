//! The signed multiply and divide as sheets run on drawn registers, Q and
//! status, held to plain arithmetic: results in their places, all else kept.

use super::bench::WIDTHS;
use super::Group;
use crate::cases::{random_file, Random};
use crate::faults::{Fault, Faults};
use crate::lists::*;
use crate::run::{run_with, Machine};

/// How many drawn cases each width gets, and each wider one.
const DRAWN: usize = 10_000;

/// One width: its lists, and what is drawn for its runs.
struct Width {
    bits: u32,
    multiply: Vec<u8>,
    divide: Vec<u8>,
    random: Random,
    faults: Faults,
}

impl Width {
    fn new(byte_code: u8, seed: u64) -> Width {
        Width {
            faults: Faults::none(),
            bits: bits_of(byte_code),
            multiply: signed_multiply(byte_code),
            divide: signed_divide(byte_code),
            random: Random::new(seed),
        }
    }

    /// A signed number: any of this width, or one with fewer bits.
    fn number(&mut self) -> i64 {
        let by = self.random.below(2) * self.random.below(self.bits as usize);
        signed(self.random.word32(), self.bits) >> by
    }

    fn divisor(&mut self) -> i64 {
        match self.number() {
            0 => 1,
            divisor => divisor,
        }
    }

    /// The value with a number in its selected bytes.
    fn put(&self, value: &mut u32, number: i64) {
        *value = with_low(*value, self.bits, number);
    }

    fn drawn(&mut self) -> (Vec<u32>, Machine) {
        let file = random_file(&mut self.random, REGISTERS + 1);
        let q = self.random.word32();
        let status = self.random.word32();
        (file, Machine { q, status })
    }

    fn run(&self, sheet: &[u8], file: &mut [u32], machine: Machine, start: usize) -> Machine {
        let ran = run_with(sheet, file, machine, start, usize::MAX, &self.faults);
        assert_eq!(ran.verdict.reason, 0);
        ran.machine
    }

    /// Are the product in REMAINDER and Q, and all else as it was?
    fn multiplied(&mut self, x: i64, y: i64) -> bool {
        let (mut file, mut machine) = self.drawn();
        self.put(&mut file[usize::from(DIVISOR)], y);
        self.put(&mut machine.q, x);
        let (mut want, mut q) = (file.clone(), machine.q);
        self.put(&mut want[usize::from(REMAINDER)], (x * y) >> self.bits);
        self.put(&mut q, x * y);
        let ran = self.run(&self.multiply, &mut file, machine, 0);
        ran.q == q && file == want
    }

    fn check_multiply(&mut self, group: &mut Group, x: i64, y: i64) {
        let good = self.multiplied(x, y);
        group.check(good, || format!("{x} * {y} on {} bits", self.bits));
    }

    /// Runs the divide list; with a dividend of double length from SDIVFIRST
    /// on. Gives the registers before and after.
    fn divide(&mut self, dividend: i64, divisor: i64, double: bool) -> (Vec<u32>, Vec<u32>) {
        let (mut file, mut machine) = self.drawn();
        self.put(&mut file[usize::from(DIVISOR)], divisor);
        self.put(&mut file[usize::from(ZERO)], 0);
        self.put(&mut file[usize::from(DIVIDEND)], dividend);
        let mut start = 0;
        if double {
            start = SDIVFIRST_AT;
            self.put(&mut file[usize::from(REMAINDER)], dividend >> self.bits);
            self.put(&mut machine.q, dividend);
        }
        let before = file.clone();
        self.run(&self.divide, &mut file, machine, start);
        (before, file)
    }

    /// Are quotient and remainder in their places, and all else as it was?
    fn divided(&mut self, dividend: i64, divisor: i64, double: bool) -> bool {
        let (mut want, file) = self.divide(dividend, divisor, double);
        self.put(&mut want[usize::from(REMAINDER)], dividend % divisor);
        self.put(&mut want[usize::from(QUOTIENT)], dividend / divisor);
        file == want
    }

    fn check_divide(&mut self, group: &mut Group, dividend: i64, divisor: i64, double: bool) {
        let good = self.divided(dividend, divisor, double);
        group.check(good, || {
            format!("{dividend} / {divisor} on {} bits", self.bits)
        });
    }

    /// A quotient that does not fit.
    fn overflows(&self, dividend: i64, divisor: i64) -> bool {
        divisor == -1 && dividend == -1 << (self.bits - 1)
    }
}

/// All pairs of one-byte numbers.
fn bytes() -> impl Iterator<Item = (i64, i64)> {
    (-128..128).flat_map(|x| (-128..128).map(move |y| (x, y)))
}

pub fn multiply_all_bytes(group: &mut Group) {
    let mut width = Width::new(1, 40);
    for (x, y) in bytes() {
        width.check_multiply(group, x, y);
    }
}

pub fn multiply_wider(group: &mut Group) {
    for (byte_code, _) in &WIDTHS[1..] {
        let mut width = Width::new(*byte_code, 41);
        for _ in 0..DRAWN {
            let (x, y) = (width.number(), width.number());
            width.check_multiply(group, x, y);
        }
    }
}

pub fn divide_all_bytes(group: &mut Group) {
    let mut width = Width::new(1, 42);
    for (x, y) in bytes() {
        if y != 0 && !width.overflows(x, y) {
            width.check_divide(group, x, y, false);
        }
    }
}

pub fn divide_wider(group: &mut Group) {
    for (byte_code, _) in &WIDTHS[1..] {
        let mut width = Width::new(*byte_code, 43);
        for i in 0..DRAWN {
            let divisor = width.divisor();
            let mut dividend = width.number();
            if i % 4 == 0 {
                dividend -= dividend % divisor;
            }
            if !width.overflows(dividend, divisor) {
                width.check_divide(group, dividend, divisor, false);
            }
        }
    }
}

/// Dividends of double length, made of a quotient that fits, a divisor and a
/// remainder; one in four is divided exactly.
pub fn divide_double(group: &mut Group) {
    for (byte_code, _) in WIDTHS {
        let mut width = Width::new(byte_code, 44);
        for i in 0..DRAWN {
            let (quotient, divisor) = (width.number(), width.divisor());
            let size = width.random.below(divisor.unsigned_abs() as usize) as i64;
            let remainder = if i % 4 == 0 { 0 } else { size };
            let product = quotient * divisor;
            let negative = product < 0 || product == 0 && width.random.bit() == 1;
            let dividend = product + if negative { -remainder } else { remainder };
            width.check_divide(group, dividend, divisor, true);
        }
    }
}

/// What docs/MANUAL.md tells and nobody promises: divisor 0 leaves the dividend
/// for a remainder, and -1 for a quotient, or 1 where the dividend is negative;
/// the most negative number over -1 leaves itself, remainder 0.
pub fn divide_told(group: &mut Group) {
    for (byte_code, _) in WIDTHS {
        let mut width = Width::new(byte_code, 45);
        let most = -1 << (width.bits - 1);
        for i in 0..DRAWN {
            let (dividend, divisor) = match i % 2 {
                0 => (width.number(), 0),
                _ => (most, -1),
            };
            let (quotient, remainder) = match (divisor, dividend < 0) {
                (0, true) => (1, dividend),
                (0, false) => (-1, dividend),
                _ => (most, 0),
            };
            let (mut want, file) = width.divide(dividend, divisor, false);
            width.put(&mut want[usize::from(REMAINDER)], remainder);
            width.put(&mut want[usize::from(QUOTIENT)], quotient);
            group.check(file == want, || {
                format!("{dividend} / {divisor} on {} bits: {file:X?}", width.bits)
            });
        }
    }
}

/// Does some one-byte division come out wrong?
fn misses_a_pair(width: &mut Width) -> bool {
    bytes().any(|(x, y)| y != 0 && !width.overflows(x, y) && !width.divided(x, y, false))
}

/// Faults in the signed words: each makes some one-byte pair come out wrong.
/// The divide list is right whichever way REMCORR and EXTBIT-STAT are read.
pub fn faults_show(group: &mut Group) {
    use Fault::*;
    let mut width = Width::new(1, 46);
    for fault in [BoothRowsSwapped, MultiplyMNotStored, SignedZeroExtended] {
        width.faults = Faults::plant(fault);
        let missed = bytes().any(|(x, y)| !width.multiplied(x, y));
        group.check(missed, || format!("{fault:?} does not show"));
    }
    for (fault, shows) in [
        (SignedFirstBitInverted, true),
        (DividendSignFromDivisor, true),
        (QuotientNotCorrected, true),
        (DivisorSignFromQAlone, true),
        (RemcorrAsPrinted, false),
        (ExtbitStatTouchesZ, false),
    ] {
        width.faults = Faults::plant(fault);
        group.same(
            &format!("{fault:?} shows"),
            misses_a_pair(&mut width),
            shows,
        );
    }
}
