//! Drawn interrupted runs: who has which registers, what is spoilt in them, the
//! gate's few, and the line that answers each.

use crate::cases::*;
use crate::faults::{try_each, Faults, IN_INTERRUPTS};
use crate::interrupt::{run_interrupted_with, Interrupted, MOST_ENTRIES};
use crate::run::Machine;
use crate::sheet::{build, pack, word_at, Verdict, Word, DONE, HEADER, WORD};
use crate::word::reason;
use std::collections::BTreeMap;
use std::fmt::Write;

/// Who has which registers.
#[derive(Clone, Copy)]
pub struct Layout {
    pub main: Registers,
    pub own: Registers,
    pub s: u8,
    pub q: u8,
}

const fn registers(first: usize, count: usize) -> Registers {
    Registers { first, count }
}

const fn layout(main: Registers, own: Registers, s: u8, q: u8) -> Layout {
    Layout { main, own, s, q }
}

/// The layouts of drawn interrupt cases, on 16 registers. Register 0, which is
/// in the Y field of every word that does not write, is main's, the handler's
/// own, s, q, and nobody's.
pub const LAYOUTS: [Layout; 5] = [
    layout(registers(0, 8), registers(8, 6), 14, 15),
    layout(registers(8, 8), registers(0, 6), 6, 7),
    layout(registers(8, 8), registers(2, 6), 0, 1),
    layout(registers(8, 8), registers(2, 6), 1, 0),
    layout(registers(9, 7), registers(1, 6), 7, 8),
];

impl Layout {
    /// How many registers the handler declares.
    fn handler_count(&self) -> usize {
        let saved = usize::from(self.s.max(self.q)) + 1;
        saved.max(self.own.range().end)
    }
}

/// Everything that goes into an interrupted run, and the number of its layout.
pub struct InterruptCase {
    pub layout: usize,
    pub main: Vec<u8>,
    pub handler: Vec<u8>,
    pub schedule: Vec<u16>,
    pub file: Vec<u32>,
    pub machine: Machine,
}

/// An interrupt case with nothing wrong in it.
pub fn random_interrupt(random: &mut Random) -> InterruptCase {
    let layout = random.below(LAYOUTS.len());
    interrupt_in(random, layout)
}

/// The same in a layout.
pub fn interrupt_in(random: &mut Random, layout: usize) -> InterruptCase {
    let Layout { main, own, s, q } = LAYOUTS[layout];
    let count = random.below(20);
    let body = random.below(8);
    let entries = random.below(6);
    let main_words = random_words(random, count, main);
    let handler = random_handler(random, s, q, body, own);
    InterruptCase {
        layout,
        main: build(&main_words, main.range().end),
        handler: build(&handler, LAYOUTS[layout].handler_count()),
        schedule: random_schedule(random, entries, count),
        file: random_file(random, 16),
        machine: Machine {
            q: random.word32(),
            status: random.word32(),
        },
    }
}

/// Spoils one part of an interrupt case.
fn spoil(random: &mut Random, case: &mut InterruptCase) {
    match random.below(10) {
        0 => damage(random, &mut case.main),
        1 => damage(random, &mut case.handler),
        2 => flip(&mut case.handler, 8 * HEADER + random.below(8 * WORD * 6)),
        3 => case.file.truncate(random.below(16)),
        4 => case.schedule.push(random.below(24) as u16),
        5 => case.main = overlapping_main(random),
        6 => case.main = main_without_write(random, LAYOUTS[case.layout]),
        7 => save_without_write(random, &mut case.handler),
        8 => name_save_register(random, case),
        _ => case.schedule = vec![0; long_schedule(random)],
    }
}

/// A main sheet that may name the handler's registers.
fn overlapping_main(random: &mut Random) -> Vec<u8> {
    build(&random_words(random, 5, registers(0, 16)), 16)
}

/// A main sheet that writes nothing, so that its Y fields share register 0 with
/// nobody. One time in two its last word has a register of the handler's in A.
fn main_without_write(random: &mut Random, layout: Layout) -> Vec<u8> {
    let mut words = random_words(random, 5, layout.main);
    for word in &mut words {
        (word.y, word.write) = (0, 0);
    }
    if random.bit() == 1 {
        words[4].a = layout.own.pick(random);
    }
    build(&words, 16)
}

/// Word 0 or word 1 of the handler does not write, so that s or q is register 0.
/// One time in two word 0 names that register: if it is q, word 0 is at fault,
/// not word 1.
fn save_without_write(random: &mut Random, handler: &mut [u8]) {
    change(handler, random.below(2), |word| {
        (word.y, word.write) = (0, 0);
    });
    if random.bit() == 1 {
        change(handler, 0, |word| word.b = 0);
    }
}

/// One of the handler's words has a save register in A, as only the last two
/// may.
fn name_save_register(random: &mut Random, case: &mut InterruptCase) {
    let Layout { s, q, .. } = LAYOUTS[case.layout];
    let count = (case.handler.len() - HEADER) / WORD;
    let saved = [s, q][random.below(2)];
    change(&mut case.handler, random.below(count), |word| {
        word.a = saved;
    });
}

/// Changes a word of a good sheet into another that packs.
fn change(sheet: &mut [u8], i: usize, how: impl Fn(&mut Word)) {
    let mut word = word_at(sheet, i);
    how(&mut word);
    let packed = pack(&word, &mut sheet[HEADER + WORD * i..]);
    assert_eq!(packed, DONE);
}

/// About the longest length allowed, one time in eight; none otherwise.
fn long_schedule(random: &mut Random) -> usize {
    match random.below(8) {
        0 => 1023 + random.below(4),
        _ => 0,
    }
}

/// COUNT interrupt cases; every other one is spoilt.
pub fn interrupt_cases(count: usize) -> impl Iterator<Item = InterruptCase> {
    let mut random = Random::new(2);
    (0..count).map(move |i| {
        let mut case = random_interrupt(&mut random);
        if i % 2 == 1 {
            spoil(&mut random, &mut case);
        }
        case
    })
}

/// COUNT interrupt cases with their answers, a line each.
pub fn interrupt_text(count: usize) -> String {
    let line = |case| interrupt_line(&case, &Faults::none());
    interrupt_cases(count).map(line).collect()
}

/// The gate's interrupt cases, the first of 20,000: four of each kind, and of
/// those with about the most entries two.
fn gate_interrupts() -> Vec<InterruptCase> {
    let mut taken = BTreeMap::new();
    let few = |case: &InterruptCase| {
        let kind = case.kind();
        let most = if kind.long { 2 } else { 4 };
        let count = taken.entry(kind).or_insert(0);
        *count += 1;
        *count <= most
    };
    interrupt_cases(20_000).filter(few).collect()
}

/// What the gate's choice goes by.
#[derive(PartialEq, Eq, PartialOrd, Ord)]
struct Kind {
    /// About the most entries.
    long: bool,
    reason: u8,
    mark: u8,
    /// Where a word ran, the layout.
    layout: Option<usize>,
    /// Of Form where word 1 does not write, the word at fault.
    no_q: Option<usize>,
    /// Of Overlap, does the word at fault not write?
    no_write: bool,
}

/// Their lines.
pub fn gate_interrupt_text() -> String {
    let line = |case: &InterruptCase| interrupt_line(case, &Faults::none());
    gate_interrupts().iter().map(line).collect()
}

/// The faults of the interrupted run, over the gate's cases.
pub fn try_faults() -> bool {
    let cases = gate_interrupts();
    let lines = |faults: &Faults| -> Vec<String> {
        let line = |case: &InterruptCase| interrupt_line(case, faults);
        cases.iter().map(line).collect()
    };
    let name = |i: usize| format!("line {}", i + 1);
    try_each(IN_INTERRUPTS, "interrupted runs", lines, name)
}

impl InterruptCase {
    /// What the run gives, and the file afterwards.
    pub fn run(&self, faults: &Faults) -> (Interrupted, Vec<u32>) {
        let mut file = self.file.clone();
        let ran = run_interrupted_with(
            &self.main,
            &self.handler,
            &self.schedule,
            &mut file,
            self.machine,
            faults,
        );
        (ran, file)
    }

    fn kind(&self) -> Kind {
        let (Interrupted { verdict, mark, .. }, _) = self.run(&Faults::none());
        let Verdict { reason, place } = verdict;
        let long = self.schedule.len() + 1 >= MOST_ENTRIES;
        let ran = reason == reason::DONE && place != 0 && !long;
        let no_q = reason == reason::FORM && word_at(&self.handler, 1).write == 0;
        Kind {
            long,
            reason,
            mark,
            layout: ran.then_some(self.layout),
            no_q: no_q.then_some(place),
            no_write: reason == reason::OVERLAP && word_at(&self.main, place).write == 0,
        }
    }
}

fn interrupt_line(case: &InterruptCase, faults: &Faults) -> String {
    let (ran, file) = case.run(faults);
    let mut line = String::new();
    let parts = [
        hex(&case.main, 2),
        hex(&case.handler, 2),
        hex(&case.schedule, 4),
        hex(&case.file, 8),
    ];
    let before = case.machine;
    let after = ran.machine;
    write!(
        line,
        "{} {:08X} {:08X} ",
        parts.join(" "),
        before.q,
        before.status
    )
    .expect("text");
    let verdict = ran.verdict;
    write!(
        line,
        "{:02X} {:08X} {:02X} ",
        verdict.reason, verdict.place, ran.mark
    )
    .expect("text");
    writeln!(
        line,
        "{} {:08X} {:08X}",
        hex(&file, 8),
        after.q,
        after.status
    )
    .expect("text");
    line
}

/// Values in hex without spaces, or a single - for none.
fn hex<T: std::fmt::UpperHex>(values: &[T], digits: usize) -> String {
    if values.is_empty() {
        return "-".to_string();
    }
    values
        .iter()
        .map(|value| format!("{value:0digits$X}"))
        .collect()
}
