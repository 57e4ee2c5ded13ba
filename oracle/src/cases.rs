//! Random sheets, handlers, schedules and damage, for the self-test and for
//! the data other programs are compared with.

use crate::draw::{next, pattern, PATTERNS};
use crate::faults::{try_each, Faults, IN_TRACES};
use crate::pages::{has_page, number_of};
use crate::sheet::{build, Word, HEADER, WORD};
use crate::trace::{trace, trace_with};
use std::{fs, io, ops::Range, path::Path};

/// The generator of the draw, from a seed of its own.
pub struct Random(u64);

impl Random {
    pub fn new(seed: u64) -> Random {
        let mut x = 0xD1B5_4A32_D192_ED03 ^ seed;
        for _ in 0..16 {
            x = next(x);
        }
        Random(x)
    }

    pub fn number(&mut self) -> u64 {
        self.0 = next(self.0);
        self.0 >> 16
    }

    pub fn below(&mut self, limit: usize) -> usize {
        (self.number() % limit as u64) as usize
    }

    /// A data word: a boundary pattern one time in three.
    pub fn word32(&mut self) -> u32 {
        match self.below(3) {
            0 => pattern(self.below(PATTERNS as usize) as u32),
            _ => self.number() as u32,
        }
    }

    pub fn bit(&mut self) -> u8 {
        self.below(2) as u8
    }
}

/// Registers `first` to `first + count - 1`.
#[derive(Clone, Copy)]
pub struct Registers {
    pub first: usize,
    pub count: usize,
}

impl Registers {
    pub fn pick(&self, random: &mut Random) -> u8 {
        (self.first + random.below(self.count)) as u8
    }

    /// Their numbers.
    pub fn range(&self) -> Range<usize> {
        self.first..self.first + self.count
    }
}

/// A word of any opcode with a page, naming only these registers; one in four
/// does not write.
pub fn random_word(random: &mut Random, registers: Registers) -> Word {
    let mut opcode = random.below(128) as u8;
    while !has_page(opcode) {
        opcode = random.below(128) as u8;
    }
    let word = Word {
        opcode,
        byte_code: random.below(4) as u8,
        position: random.below(64) as u8,
        width: random.below(32) as u8,
        a: registers.pick(random),
        b: registers.pick(random),
        y: registers.pick(random),
        write: u8::from(random.below(4) != 0),
        macro_select: random.bit(),
        macro_carry: random.bit(),
        macro_link: random.bit(),
        borrow: random.bit(),
    };
    word.without_idle()
}

pub fn random_words(random: &mut Random, count: usize, registers: Registers) -> Vec<Word> {
    (0..count).map(|_| random_word(random, registers)).collect()
}

pub fn random_file(random: &mut Random, count: usize) -> Vec<u32> {
    (0..count).map(|_| random.word32()).collect()
}

/// A handler of the right form with a random body.
pub fn random_handler(random: &mut Random, s: u8, q: u8, body: usize, own: Registers) -> Vec<Word> {
    let mut fixed = |mnemonic: &str| Word {
        opcode: number_of(mnemonic),
        position: random.below(64) as u8,
        width: random.below(32) as u8,
        a: own.pick(random),
        b: own.pick(random),
        ..Word::default()
    };
    let save_status = Word {
        y: s,
        write: 1,
        ..fixed("PASS-STAT")
    };
    let save_q = Word {
        y: q,
        write: 1,
        ..fixed("PASS-Q")
    };
    let own_q = fixed("LOADQ-A");
    let own_status = fixed("LDSTAT-A");
    let put_q = Word {
        a: q,
        ..fixed("LOADQ-A")
    };
    let put_status = Word {
        a: s,
        ..fixed("LDSTAT-A")
    };
    let mut words = vec![save_status, save_q, own_q, own_status];
    words.extend(random_words(random, body, own));
    words.extend([put_q, put_status]);
    words
}

/// A rising schedule with boundaries from 0 to `count`.
pub fn random_schedule(random: &mut Random, entries: usize, count: usize) -> Vec<u16> {
    let mut schedule: Vec<u16> = (0..entries)
        .map(|_| random.below(count + 1) as u16)
        .collect();
    schedule.sort_unstable();
    schedule
}

/// Damages a sheet or trace input in one of ten ways.
pub fn damage(random: &mut Random, bytes: &mut Vec<u8>) {
    let words = (bytes.len().saturating_sub(HEADER) / WORD).max(1);
    let at = HEADER + WORD * random.below(words);
    match random.below(10) {
        0 => bytes.truncate(random.below(bytes.len() + 1)),
        1 => bytes.truncate(random.below(6)),
        2 => bytes.extend((0..1 + random.below(9)).map(|i| i as u8)),
        3 => flip(bytes, random.below(4)),
        4 => flip(bytes, 16 + random.below(16)),
        5 => flip(bytes, 4 + random.below(12)),
        6 => flip(bytes, 8 * at + 43 + random.below(5)),
        7 => put_opcode(bytes, at, [0x1E, 0x1F, 0x4C, 0x4D][random.below(4)]),
        8 => leave_idle(bytes, at, 1 + random.below(63) as u8),
        _ => fill_register(bytes, 8 * at + 20 + 6 * random.below(3)),
    }
}

pub fn flip(bytes: &mut [u8], at: usize) {
    if let Some(byte) = bytes.get_mut(at / 8) {
        *byte ^= 0x80 >> (at % 8);
    }
}

/// Makes a six-bit register field 63.
fn fill_register(bytes: &mut [u8], at: usize) {
    for i in at..at + 6 {
        if let Some(byte) = bytes.get_mut(i / 8) {
            *byte |= 0x80 >> (i % 8);
        }
    }
}

fn put_opcode(bytes: &mut [u8], at: usize, opcode: u8) {
    if let Some(byte) = bytes.get_mut(at) {
        *byte = opcode << 1 | (*byte & 1);
    }
}

/// Leaves a word idle: write is cleared, and where the Y field is 0 this number
/// is put into it.
fn leave_idle(bytes: &mut [u8], at: usize, y: u8) {
    if let Some(byte) = bytes.get_mut(at + 4) {
        let left = if *byte < 4 { y } else { *byte / 4 };
        *byte = left * 4 + *byte % 2;
    }
}

/// The longest trace input: 4,095 words on 64 registers.
pub fn longest_input() -> Vec<u8> {
    let mut random = Random::new(3);
    let all = Registers {
        first: 0,
        count: 64,
    };
    let mut input = build(&random_words(&mut random, 4095, all), 64);
    for value in random_file(&mut random, 64) {
        input.extend_from_slice(&value.to_be_bytes());
    }
    input
}

/// The faults of the trace's text, over the lines of the longest one.
pub fn try_trace_faults() -> bool {
    let input = longest_input();
    let lines = |faults: &Faults| -> Vec<String> {
        let text = trace_with(&input, faults);
        text.lines().map(String::from).collect()
    };
    let name = |i: usize| format!("word {i:04X}");
    try_each(IN_TRACES, "lines of the longest trace", lines, name)
}

/// A trace input: a random sheet and its registers.
pub fn random_trace_input(random: &mut Random) -> Vec<u8> {
    let count = 1 + random.below(64);
    let words = random.below(40);
    let registers = Registers { first: 0, count };
    let mut input = build(&random_words(random, words, registers), count);
    for value in random_file(random, count) {
        input.extend(value.to_be_bytes());
    }
    input
}

/// Writes COUNT trace inputs as NNNN.in with the text for each as NNNN.out;
/// every other one is damaged.
pub fn write_trace_inputs(folder: &Path, count: usize) -> io::Result<()> {
    fs::create_dir_all(folder)?;
    let mut random = Random::new(1);
    for i in 0..count {
        let mut input = random_trace_input(&mut random);
        if i % 2 == 1 {
            damage(&mut random, &mut input);
        }
        fs::write(folder.join(format!("{i:04}.in")), &input)?;
        fs::write(folder.join(format!("{i:04}.out")), trace(&input))?;
    }
    Ok(())
}
