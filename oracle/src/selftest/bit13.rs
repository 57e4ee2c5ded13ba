//! Bit 13, UNSIGNED LE (document 02, request 3): a word reads it by its own
//! borrow switch, runs hand it back in carry mode, and nobody takes it in.

use super::bench::{Bench, WIDTHS};
use super::pins::pins_of;
use super::Group;
use crate::cases::*;
use crate::faults::Faults;
use crate::interrupt::run_interrupted;
use crate::interrupt_cases::*;
use crate::lists::{bits_of, signed, with_low};
use crate::pages::number_of;
use crate::run::{run, step, Machine};
use crate::sheet::{build, header, refuse, word_at, Word};
use crate::trace::trace;
use crate::word::{single, Inputs};

const ALL: usize = usize::MAX;
const BIT_13: u32 = 1 << 13;
/// The borrow switch: carry mode, borrow mode.
const SWITCHES: [u8; 2] = [0, 1];

fn bit(word: u32, at: u32) -> bool {
    (word >> at) & 1 == 1
}

/// Is bit 13 of a status what C, Z and this switch make it?
fn in_mode(status: u32, borrow: u8) -> bool {
    let below = bit(status, 16) == (borrow == 1);
    bit(status, 13) == (below || bit(status, 19))
}

/// A word that shows bit 13 in bit `at` of its Y, and leaves C and Z.
#[derive(Clone, Copy)]
struct Reader {
    opcode: u8,
    byte_code: u8,
    position: u8,
    at: u32,
}

/// PASS-STAT wherever the second byte is selected, LDSTAT where it is not, and
/// the bit operations on bit 13, of which two cannot change it.
fn readers() -> Vec<Reader> {
    let reader = |(mnemonic, byte_code, position, at): (&str, u8, u8, u32)| Reader {
        opcode: number_of(mnemonic),
        byte_code,
        position,
        at,
    };
    let readers = [
        ("PASS-STAT", 0, 0, 13),
        ("PASS-STAT", 2, 0, 13),
        ("PASS-STAT", 3, 0, 13),
        ("EXTBIT-STAT", 0, 13, 0),
        ("SETBIT-STAT", 0, 13, 13),
        ("RSTBIT-STAT", 0, 13, 13),
        ("LDSTAT-A", 1, 0, 13),
        ("LDSTAT-B", 1, 0, 13),
    ];
    readers.map(reader).to_vec()
}

impl Reader {
    /// Bit 13 as the word shows it with a switch: on Y, and alike in the status
    /// of its answer. EXTBIT-STAT's Y is that bit alone, and so is L.
    fn shows(&self, mut chip: Bench, borrow: u8, operand: u32) -> Option<bool> {
        chip.byte_code = self.byte_code;
        chip.position = self.position;
        chip.borrow = borrow;
        let y = chip.number(self.opcode, operand, operand);
        let shown = bit(y, self.at);
        let mut alike = bit(chip.status, 13) == shown;
        if self.at == 0 {
            alike &= y == u32::from(shown) && chip.l() == shown;
        }
        alike.then_some(shown)
    }
}

/// C and Z with bit 13 in carry mode and in borrow mode: "when the BORROW-MODE
/// input is high, the condition is C + Z; otherwise it is not C + Z"
/// (EXTBIT-STAT note 2).
const TABLE: [(u32, u32, bool, bool); 4] = [
    (0, 0, true, false),
    (0, 1, true, true),
    (1, 0, false, true),
    (1, 1, true, true),
];

/// The table by every word that reads the status, on drawn other bits.
pub fn table(group: &mut Group) {
    let mut random = Random::new(50);
    for (c, z, carry, borrow) in TABLE {
        for _ in 0..200 {
            let status = random.number() as u32 & !(1 << 16 | 1 << 19) | c << 16 | z << 19;
            let chip = Bench {
                status,
                ..Bench::default()
            };
            for (switch, want) in SWITCHES.into_iter().zip([carry, borrow]) {
                for reader in readers() {
                    let shown = reader.shows(chip, switch, random.word32());
                    let what = format!("{:02X} on {status:08X}", reader.opcode);
                    group.same(&what, shown, Some(want));
                }
            }
        }
    }
}

/// Comparisons at one width: SUB and SUBR, in either mode, on a drawn status,
/// each read by every reader with either switch.
struct Comparison {
    byte_code: u8,
    readers: Vec<Reader>,
    random: Random,
}

impl Comparison {
    fn new(byte_code: u8, seed: u64) -> Comparison {
        Comparison {
            byte_code,
            readers: readers(),
            random: Random::new(seed),
        }
    }

    fn check(&mut self, group: &mut Group, first: u32, second: u32) {
        for borrow in SWITCHES {
            self.check_word(group, "SUB", (first, second), borrow);
            self.check_word(group, "SUBR", (first, second), borrow);
        }
    }

    /// The first operand is A of SUB and B of SUBR. Bits 13 to 15 of the answer
    /// are unsigned less or equal, signed less, signed less or equal.
    fn check_word(
        &mut self,
        group: &mut Group,
        mnemonic: &str,
        (first, second): (u32, u32),
        borrow: u8,
    ) {
        let mut chip = Bench::new(self.byte_code);
        chip.borrow = borrow;
        chip.status = self.random.number() as u32;
        match mnemonic {
            "SUB" => chip.word(mnemonic, first, second),
            _ => chip.word(mnemonic, second, first),
        };
        let bits = bits_of(self.byte_code);
        let unsigned = |value: u32| u64::from(value) % (1 << bits);
        let (x, y) = (unsigned(first), unsigned(second));
        let (less, equal) = (signed(first, bits) < signed(second, bits), x == y);
        let got = [13, 14, 15].map(|at| bit(chip.status, at));
        let what = format!("{mnemonic} {x:X}, {y:X} on {bits} bits, borrow {borrow}");
        group.same(&what, got, [x <= y, less, less || equal]);
        self.check_readers(group, &what, chip, (x <= y, x >= y));
    }

    /// The next word shows 'less or equal' with the switch of the subtraction;
    /// with the other one C has the other sense, and it shows 'greater or equal'.
    fn check_readers(&mut self, group: &mut Group, what: &str, chip: Bench, want: (bool, bool)) {
        for reader in &self.readers {
            let operand = self.random.word32();
            let same = reader.shows(chip, chip.borrow, operand);
            let other = reader.shows(chip, 1 - chip.borrow, operand);
            let good = (same, other) == (Some(want.0), Some(want.1));
            group.check(good, || {
                format!("{what}, read by {:02X}: {same:?}, {other:?}", reader.opcode)
            });
        }
    }

    /// A word with these selected bytes, the others drawn.
    fn drawn(&mut self, selected: u32) -> u32 {
        let drawn = self.random.number() as u32;
        with_low(drawn, bits_of(self.byte_code), i64::from(selected))
    }
}

pub fn all_bytes(group: &mut Group) {
    let mut comparison = Comparison::new(1, 51);
    for pair in 0..1 << 16 {
        let first = comparison.drawn(pair >> 8);
        let second = comparison.drawn(pair & 0xFF);
        comparison.check(group, first, second);
    }
}

/// Pairs of boundary values, drawn pairs, and every fourth time neighbours.
pub fn wider(group: &mut Group) {
    for (byte_code, _) in &WIDTHS[1..] {
        let mut comparison = Comparison::new(*byte_code, 52);
        let top = 1 << (bits_of(*byte_code) - 1);
        let most = top | (top - 1);
        let values = [0, 1, 2, top - 1, top, top + 1, most - 1, most];
        for (x, y) in values.into_iter().flat_map(|x| values.map(|y| (x, y))) {
            let (first, second) = (comparison.drawn(x), comparison.drawn(y));
            comparison.check(group, first, second);
        }
        for i in 0..5_000 {
            let first = comparison.random.word32();
            let mut second = comparison.random.word32();
            if i % 4 == 0 {
                let near = first.wrapping_add(second % 3).wrapping_sub(1);
                second = comparison.drawn(near);
            }
            comparison.check(group, first, second);
        }
    }
}

/// Document 01's example h in either mode; fresh machines; a trace; refusals.
pub fn by_hand(group: &mut Group) {
    for borrow in SWITCHES {
        let mut chip = Bench::new(0);
        chip.borrow = borrow;
        chip.word("LDSTAT-A", 0xFFFF_FFFF, 0);
        group.same("h", chip.word("PASS-STAT", 0, 0), 0xFF7F_BFFF);
    }
    fresh(group);
    trace_by_hand(group);
    refusals(group);
}

/// A fresh machine's status is 0; a run of no words hands back 00002000.
fn fresh(group: &mut Group) {
    let machine = Machine::default();
    group.same("fresh", machine.status, 0);
    let mut random = Random::new(53);
    let InterruptCase { main, handler, .. } = random_interrupt(&mut random);
    let (count, none) = (header(&main).map_or(0, |h| h.count), build(&[], 8));
    let mut file = vec![0; 16];
    for (sheet, start, allowance) in [(&none, 0, ALL), (&main, 0, 0), (&main, count, 1)] {
        let ran = run(sheet, &mut file, machine, start, allowance);
        group.same("no words", (ran.verdict, ran.machine.q), (refuse(0, 0), 0));
        group.same("no words", ran.machine.status, BIT_13);
    }
    let ran = run_interrupted(&none, &handler, &[], &mut file, machine);
    group.same("interrupted, no words", ran.verdict, refuse(0, 0));
    group.same("interrupted, no words", ran.machine.status, BIT_13);
}

/// A word and its line: mnemonic; byte code, position, A, B, borrow; Y, status.
type Line = (&'static str, [u8; 5], u32, u32);

/// Registers 0 and 1 hold 5 and 3.
const LINES: [Line; 13] = [
    ("SUB", [0, 0, 0, 1, 0], 0x0000_0002, 0x0001_0000),
    ("PASS-STAT", [0, 0, 0, 0, 1], 0x0001_2000, 0x0001_2000),
    ("PASS-STAT", [0, 0, 0, 0, 0], 0x0001_0000, 0x0001_0000),
    ("SUB", [0, 0, 1, 0, 1], 0xFFFF_FFFE, 0xFF03_E000),
    ("EXTBIT-STAT", [0, 13, 0, 0, 1], 0x0000_0001, 0xFF13_E000),
    ("EXTBIT-STAT", [0, 45, 0, 0, 1], 0x0000_0000, 0xFF03_E000),
    ("EXTBIT-STAT", [0, 13, 0, 0, 0], 0x0000_0000, 0xFF03_C000),
    ("SUBR", [0, 0, 0, 1, 0], 0xFFFF_FFFE, 0xFF02_E000),
    ("SETBIT-STAT", [0, 13, 0, 0, 1], 0xFF02_C000, 0xFF02_C000),
    ("RSTBIT-STAT", [0, 13, 0, 0, 0], 0xFF02_E000, 0xFF02_E000),
    ("LDSTAT-A", [1, 0, 0, 0, 1], 0xFF02_C005, 0xFF02_C005),
    ("LDSTAT-B", [1, 0, 0, 1, 0], 0xFF02_E003, 0xFF02_E003),
    ("SUB", [0, 0, 0, 0, 1], 0x0000_0000, 0x0008_A003),
];

fn trace_by_hand(group: &mut Group) {
    let mut words = Vec::new();
    let mut want = String::new();
    for (i, (mnemonic, [byte_code, position, a, b, borrow], y, status)) in (0..).zip(LINES) {
        words.push(Word {
            opcode: number_of(mnemonic),
            byte_code,
            position,
            a,
            b,
            borrow,
            ..Word::default()
        });
        let pins = pins_of(status);
        want += &format!("{i:04X} {y:08X} 00000000 {status:08X} {pins:05b}\n");
    }
    let mut input = build(&words, 2);
    input.extend([0, 0, 0, 5, 0, 0, 0, 3]);
    group.same("trace", trace(&input), want + "00 000D\n");
}

/// A refusal repeats the status bit for bit, whatever the switch.
fn refusals(group: &mut Group) {
    let mut random = Random::new(54);
    let InterruptCase { main, handler, .. } = random_interrupt(&mut random);
    let mut file = vec![0; 16];
    for status in [0, BIT_13, 0x0001_2000, 0x0001_0000, 0x0080_E000, u32::MAX] {
        let machine = Machine { q: 0, status };
        for borrow in SWITCHES {
            let inputs = Inputs {
                byte_code: 4,
                borrow,
                status,
                ..Inputs::default()
            };
            let answer = single(&inputs, &Faults::none());
            group.same("word refused", (answer.reason, answer.status), (2, status));
        }
        let ran = run(&main, &mut file, machine, 4096, 0);
        group.same("run refused", ran.verdict, refuse(10, 0));
        group.same("run refused", ran.machine, machine);
        let ran = run_interrupted(&main, &handler, &[4096], &mut file, machine);
        group.same("interrupted run refused", ran.verdict, refuse(13, 0));
        group.same("interrupted run refused", ran.machine, machine);
    }
}

/// A sheet on ten registers, with what it is run on.
struct Sheet {
    words: Vec<Word>,
    bytes: Vec<u8>,
    file: Vec<u32>,
    machine: Machine,
}

fn random_sheet(random: &mut Random) -> Sheet {
    let registers = Registers {
        first: 0,
        count: 10,
    };
    let count = random.below(20);
    let words = random_words(random, count, registers);
    Sheet {
        bytes: build(&words, 10),
        words,
        file: random_file(random, 10),
        machine: Machine {
            q: random.word32(),
            status: random.word32(),
        },
    }
}

/// Drawn sheets at every allowance. The words one by one leave bit 13 by their
/// own switches; the run hands it back in carry mode and the rest as they leave
/// it; and the words left over end it as at once.
pub fn runs(group: &mut Group) {
    let mut random = Random::new(55);
    let mut told = 0;
    for _ in 0..500 {
        let sheet = random_sheet(&mut random);
        let mut once = sheet.file.clone();
        let whole = run(&sheet.bytes, &mut once, sheet.machine, 0, ALL).machine;
        let (mut stepped, mut left) = (sheet.file.clone(), sheet.machine);
        for allowance in 0..=sheet.words.len() {
            let mut file = sheet.file.clone();
            let part = run(&sheet.bytes, &mut file, sheet.machine, 0, allowance).machine;
            let status = part.status;
            group.check(in_mode(status, 0), || format!("{status:08X} of a run"));
            if allowance > 0 {
                let word = &sheet.words[allowance - 1];
                step(word, &mut stepped, &mut left, &Faults::none());
                let (last, borrow) = (left.status, word.borrow);
                group.check(in_mode(last, borrow), || format!("{last:08X} of a word"));
                group.same("all other bits", status | BIT_13, last | BIT_13);
                told += u64::from(status != last);
            }
            group.same("file", &file, &stepped);
            let rest = run(&sheet.bytes, &mut file, part, allowance, ALL).machine;
            group.same("in two parts", (rest, file), (whole, once.clone()));
        }
    }
    group.check(told > 500, || format!("{told} runs told by bit 13"));
}

/// Drawn interrupted runs, many of which end in a word of borrow 1; and the
/// same without a word.
pub fn interrupted(group: &mut Group) {
    let mut random = Random::new(56);
    for _ in 0..2_000 {
        let mut case = random_interrupt(&mut random);
        for _ in 0..2 {
            let (ran, _) = case.run(&Faults::none());
            let status = ran.machine.status;
            group.check(in_mode(status, 0), || format!("{status:08X}"));
            case.main = build(&[], 8);
            case.schedule.clear();
        }
    }
}

/// Every line of drawn traces goes by its own word's switch.
pub fn traces(group: &mut Group) {
    let mut random = Random::new(57);
    for _ in 0..500 {
        let input = random_trace_input(&mut random);
        let text = trace(&input);
        let lines: Vec<&str> = text.lines().collect();
        for (i, line) in lines[..lines.len() - 1].iter().enumerate() {
            let status = line.split(' ').nth(3).unwrap_or("");
            let status = u32::from_str_radix(status, 16).unwrap_or(0);
            let borrow = word_at(&input, i).borrow;
            let good = in_mode(status, borrow);
            group.check(good, || format!("{line} with borrow {borrow}"));
        }
    }
}

/// Bit 13 of a status that is handed in or loaded changes nothing.
pub fn loaded(group: &mut Group) {
    let mut random = Random::new(58);
    for _ in 0..20_000 {
        single_words(group, &mut random);
        load_status(group, &mut random);
        save_and_restore(group, &mut random);
    }
    for _ in 0..1_000 {
        whole_runs(group, &mut random);
    }
}

fn single_words(group: &mut Group, random: &mut Random) {
    let registers = Registers { first: 0, count: 1 };
    let word = random_word(random, registers);
    let file = random_file(random, 1);
    let ends = [0, BIT_13].map(|bit_13| {
        let mut machine = Machine {
            q: file[0].rotate_left(9),
            status: file[0] & !BIT_13 | bit_13,
        };
        step(&word, &mut file.clone(), &mut machine, &Faults::none())
    });
    group.same("single word", ends[0], ends[1]);
}

/// LDSTAT shows the operand's bit 13 on Y where it is selected, and leaves the
/// same status whatever it is.
fn load_status(group: &mut Group, random: &mut Random) {
    let (status, operand) = (random.word32(), random.word32());
    let (byte_code, borrow) = (random.below(4) as u8, random.bit());
    let ends = [operand, operand ^ BIT_13].map(|operand| {
        let mut chip = Bench::new(byte_code);
        (chip.borrow, chip.status) = (borrow, status);
        let mnemonic = ["LDSTAT-A", "LDSTAT-B"][random.below(2)];
        (chip.word(mnemonic, operand, operand), chip.status)
    });
    let selected = if byte_code == 1 { 0 } else { BIT_13 };
    group.same("LDSTAT, Y", ends[0].0 ^ ends[1].0, selected);
    group.same("LDSTAT, status", ends[0].1, ends[1].1);
}

/// Saved with one switch and restored with another: the status is as before.
fn save_and_restore(group: &mut Group, random: &mut Random) {
    let before = Bench {
        status: random.word32(),
        ..Bench::default()
    };
    let read = |mut chip: Bench, borrow| {
        chip.borrow = borrow;
        chip.word("PASS-STAT", 0, 0)
    };
    for save in SWITCHES {
        for restore in SWITCHES {
            let mut chip = Bench::new(0);
            chip.borrow = restore;
            chip.word("LDSTAT-A", read(before, save), 0);
            group.same("restored", chip.status, read(before, restore));
        }
    }
}

/// Runs and interrupted runs from statuses that differ in bit 13 alone.
fn whole_runs(group: &mut Group, random: &mut Random) {
    let sheet = random_sheet(random);
    let mut case = random_interrupt(random);
    let mut ends = Vec::new();
    for bit_13 in [0, BIT_13] {
        let mut machine = sheet.machine;
        machine.status = machine.status & !BIT_13 | bit_13;
        let mut file = sheet.file.clone();
        let ran = run(&sheet.bytes, &mut file, machine, 0, ALL);
        case.machine = machine;
        ends.push((ran, file, case.run(&Faults::none())));
    }
    group.same("run and interrupted run", &ends[0], &ends[1]);
}
