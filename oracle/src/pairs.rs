//! The text of `crates/pairs`: the signed lists on all pairs of one-byte
//! numbers and on dividends of two bytes, beside plain arithmetic. README.md has
//! the registers and the sum.

use crate::draw::next;
use crate::faults::Faults;
use crate::lists::*;
use crate::run::{settled, step, Machine};
use crate::sheet::{check, word_at, Word};
use crate::status::Mode;
use std::fmt::Write;

const BITS: u32 = 8;
const STATUSES: [u32; 2] = [0, 0xFFFF_FFFF];
/// So many pairs are run by one thread at a time.
const BLOCK: u32 = 1 << 15;

/// Which arithmetic a list is held to.
#[derive(Clone, Copy, PartialEq)]
enum Kind {
    Multiply,
    Divide,
    /// The dividend has two bytes, in register 1 and Q.
    DivideLong,
}

/// A list on trial: its name in the text and its words.
struct Trial {
    name: &'static str,
    kind: Kind,
    words: Vec<Word>,
}

/// Multiplier and multiplicand, or dividend and divisor, and the status before.
#[derive(Clone, Copy)]
struct Case {
    kind: Kind,
    x: i64,
    y: i64,
    status: u32,
}

struct Left {
    machine: Machine,
    file: [u32; 6],
}

/// How many came out as arithmetic says, how many did not, how many of these
/// have a dividend below 0, remainder 0 and an odd quotient, and the sum.
#[derive(Default)]
struct Tally {
    right: u32,
    wrong: u32,
    odd: u32,
    sum: u64,
}

impl Tally {
    fn count(&mut self, case: &Case, left: &Left) {
        let machine = left.machine;
        for value in left.file.into_iter().chain([machine.q, machine.status]) {
            self.sum = next(self.sum ^ u64::from(value));
        }
        let right = case.right(left);
        self.right += u32::from(right);
        self.wrong += u32::from(!right);
        self.odd += u32::from(!right && case.exact_and_odd());
    }
}

impl Case {
    /// The pair of a number: the second operand is its low byte.
    fn new(kind: Kind, pair: u32, status: u32) -> Case {
        let bits = if kind == Kind::DivideLong { 16 } else { BITS };
        Case {
            kind,
            x: signed(pair >> BITS, bits),
            y: signed(pair, BITS),
            status,
        }
    }

    fn file(&self) -> [u32; 6] {
        let first = match self.kind {
            Kind::DivideLong => self.x >> BITS,
            _ => 0x81,
        };
        [
            with_low(0x8A91_B3C5, BITS, self.y),
            with_low(0x5E6F_7081, BITS, first),
            0x9BAD_C0DE,
            0xF0E1_D200,
            with_low(0x7F3B_2A19, BITS, self.x),
            0xC35A_3CA5,
        ]
    }

    fn machine(&self) -> Machine {
        let low = match self.kind {
            Kind::Divide => !self.x,
            _ => self.x,
        };
        Machine {
            q: with_low(0xA7B6_C5D4, BITS, low),
            status: self.status,
        }
    }

    /// Of a division, where the quotient fits one byte.
    fn promised(&self) -> bool {
        let fits = |quotient: i64| (-128..128).contains(&quotient);
        self.kind == Kind::Multiply || self.y != 0 && fits(self.x / self.y)
    }

    fn exact_and_odd(&self) -> bool {
        self.kind != Kind::Multiply
            && self.x < 0
            && self.x % self.y == 0
            && self.x / self.y % 2 != 0
    }

    /// Product, or quotient and remainder, in their places; all else kept.
    fn right(&self, left: &Left) -> bool {
        let (x, y) = (self.x, self.y);
        let mut file = self.file();
        let mut q = left.machine.q;
        if self.kind == Kind::Multiply {
            file[1] = with_low(file[1], BITS, (x * y) >> BITS);
            q = with_low(self.machine().q, BITS, x * y);
        } else {
            file[1] = with_low(file[1], BITS, x % y);
            file[2] = with_low(file[2], BITS, x / y);
        }
        left.file == file && left.machine.q == q
    }
}

impl Trial {
    /// A sheet that is checked once for all its runs.
    fn new(name: &'static str, kind: Kind, sheet: &[u8]) -> Trial {
        let header = check(sheet, Some(6), Some(0)).expect("a good sheet");
        let words = (0..header.count).map(|i| word_at(sheet, i)).collect();
        Trial { name, kind, words }
    }

    fn run(&self, case: Case) -> Left {
        let faults = Faults::none();
        let mut file = case.file();
        let mut machine = case.machine();
        let first = match self.kind {
            Kind::DivideLong => SDIVFIRST_AT,
            _ => 0,
        };
        for word in &self.words[first..] {
            step(word, &mut file, &mut machine, &faults);
        }
        machine = settled(machine, Mode::Carry, &faults);
        Left { machine, file }
    }

    /// What a block of pairs leaves, those of which something is promised.
    fn block(&self, first: u32, status: u32) -> Vec<(Case, Left)> {
        (first..first + BLOCK)
            .map(|pair| Case::new(self.kind, pair, status))
            .filter(Case::promised)
            .map(|case| (case, self.run(case)))
            .collect()
    }

    /// All pairs, in order; two blocks at a time are run, a thread each.
    fn tally(&self, status: u32) -> Tally {
        let mut tally = Tally {
            sum: 1,
            ..Tally::default()
        };
        let pairs = match self.kind {
            Kind::DivideLong => 1 << 24,
            _ => 1 << 16,
        };
        for first in (0..pairs).step_by(2 * BLOCK as usize) {
            let (one, two) = std::thread::scope(|scope| {
                let two = scope.spawn(|| self.block(first + BLOCK, status));
                (self.block(first, status), two.join().expect("a block"))
            });
            for (case, left) in one.iter().chain(&two) {
                tally.count(case, left);
            }
        }
        tally
    }

    fn line(&self, status: u32) -> String {
        let tally = self.tally(status);
        let mut text = format!(
            "{}, status {status:08X}: {} pairs as arithmetic says, {} not",
            self.name, tally.right, tally.wrong
        );
        if tally.odd != 0 {
            let odd = tally.odd;
            write!(
                text,
                ", of them {odd} with dividend below 0, remainder 0, odd quotient"
            )
            .expect("text");
        }
        writeln!(text, "; sum {:016X}", tally.sum).expect("text");
        text
    }

    fn lines(&self) -> String {
        STATUSES.map(|status| self.line(status)).concat()
    }

    /// Divisor 0, and 80 over FF.
    fn not_promised(&self, status: u32) -> String {
        let run = |pair: u32| self.run(Case::new(self.kind, pair, status));
        let lefts: Vec<Left> = (0..256).map(|x| run(x << BITS)).collect();
        let dividends = (0..)
            .zip(&lefts)
            .filter(|(x, left)| left.file[1] & 0xFF == *x)
            .count();
        let quotients = |k: u32| lefts.iter().filter(|l| l.file[2] & 0xFF == k).count();
        let most = run(0x80FF);
        format!(
            "{}, status {status:08X}: divisor 00 leaves {dividends} of 256 dividends in R, \
             K FF {} times, K 01 {} times; 80 over FF leaves K {:02X}, R {:02X}\n",
            self.name,
            quotients(0xFF),
            quotients(1),
            most.file[2] & 0xFF,
            most.file[1] & 0xFF
        )
    }
}

/// The four sheets that the program reads.
fn sheets() -> [Vec<u8>; 4] {
    [
        signed_multiply(1),
        signed_divide(1),
        without_the_jump(1),
        without_last_2(1),
    ]
}

/// What the program prints.
pub fn pairs_text() -> String {
    let [multiply, divide, table, shorter] = sheets();
    let multiply = Trial::new("multiply", Kind::Multiply, &multiply);
    let long = Trial::new("divide, dividend of two bytes", Kind::DivideLong, &divide);
    let divide = Trial::new("divide", Kind::Divide, &divide);
    let table = Trial::new("table 11-2 without its jump", Kind::Divide, &table);
    let shorter = Trial::new("and without SDIVLAST2", Kind::Divide, &shorter);
    let told = STATUSES.map(|status| divide.not_promised(status)).concat();
    [
        multiply.lines(),
        divide.lines(),
        long.line(STATUSES[1]),
        told,
        table.lines(),
        shorter.lines(),
    ]
    .concat()
}

/// What it reads.
pub fn pairs_sheets() -> Vec<u8> {
    sheets().concat()
}
