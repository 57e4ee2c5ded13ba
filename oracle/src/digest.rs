//! The digest lines, the vectors, and the trial of the planted faults.

use crate::draw::{next, Draw, CASES, SYSTEMATIC};
use crate::faults::{Fault, Faults, IN_WORDS};
use crate::on_registers::Board;
use crate::pages::MNEMONICS;
use crate::word::{out_of_range, single, Answer, Inputs};
use std::fmt::Write;

/// Systematic cases taken into the vectors, at even distances.
const FROM_SYSTEMATIC: u32 = 24;
/// Every so many random cases, one is taken into the vectors.
const RANDOM_STRIDE: u32 = 1_792;
/// Spoilt random cases taken into the vectors, the first that come.
const SPOILT: u32 = 8;

/// Folds one answer into the sum.
fn fold(sum: u64, answer: &Answer) -> u64 {
    let values = [
        u32::from(answer.reason),
        answer.place,
        answer.y,
        u32::from(answer.parity),
        answer.q,
        answer.status,
        u32::from(answer.pins),
    ];
    values
        .iter()
        .fold(sum, |sum, &value| next(sum ^ u64::from(value)))
}

/// The two sums of an opcode number's line: of the cases as single words, and
/// of the same cases run on registers.
#[derive(Clone, Copy, PartialEq)]
struct Sums {
    single: u64,
    run: u64,
}

/// So many cases are a block: CASES is a multiple.
const BLOCK: u32 = 1_024;
const BLOCKS: u32 = CASES / BLOCK;

/// The line of an opcode number in the making.
#[derive(Clone)]
struct Line {
    draw: Draw,
    single: u64,
    board: Board,
}

impl Line {
    fn new(opcode: u8) -> Line {
        Line {
            draw: Draw::new(opcode),
            single: 1,
            board: Board::new(),
        }
    }

    /// The sums as they stand after one more block of cases.
    fn block(&mut self, faults: &Faults) -> Sums {
        for case in self.draw.by_ref().take(BLOCK as usize) {
            self.single = fold(self.single, &single(&case.inputs, faults));
            self.board.run(&case, faults);
        }
        Sums {
            single: self.single,
            run: self.board.sum,
        }
    }
}

/// Work for each opcode number 0 to 127, shared between two threads.
fn for_each_opcode<T: Send>(work: impl Fn(u8) -> T + Sync) -> Vec<T> {
    let half = |odd: u8| -> Vec<T> { (0..64).map(|i| work(2 * i + odd)).collect() };
    let (even, odd) = std::thread::scope(|scope| {
        let odd = scope.spawn(|| half(1));
        (half(0), odd.join().expect("the odd opcodes"))
    });
    even.into_iter()
        .zip(odd)
        .flat_map(|(e, o)| [e, o])
        .collect()
}

/// The digest text: `OO DDDDDDDDDDDDDDDD RRRRRRRRRRRRRRRR`, a line for each
/// number 0 to 127.
pub fn digest_text() -> String {
    let sums = for_each_opcode(|opcode| {
        let mut line = Line::new(opcode);
        (0..BLOCKS).map(|_| line.block(&Faults::none())).last()
    });
    let mut text = String::new();
    for (opcode, sums) in sums.into_iter().enumerate() {
        let Sums { single, run } = sums.expect("the last block");
        writeln!(text, "{opcode:02X} {single:016X} {run:016X}").expect("text");
    }
    text
}

/// The vectors: 48 lines for each opcode number, in the order of the draw.
pub fn vectors_text() -> String {
    for_each_opcode(vectors_of).concat()
}

fn vectors_of(opcode: u8) -> String {
    let mut text = String::new();
    let mut spoilt = 0;
    for (i, case) in (0..).zip(Draw::new(opcode)) {
        let inputs = case.inputs;
        let mut wanted = is_spread(opcode, i);
        if !wanted && is_spoilt(&inputs) {
            spoilt += 1;
            wanted = spoilt <= SPOILT;
        }
        if wanted {
            text.push_str(&vector_line(&inputs, &single(&inputs, &Faults::none())));
        }
    }
    text
}

/// The draw's deliberate refusals. (A number without a page is refused in
/// every case, which says nothing about the case.)
fn is_spoilt(inputs: &Inputs) -> bool {
    inputs.opcode > 127 || out_of_range(inputs)
}

/// The cases taken for their place in the draw. In the systematic part the
/// stride 933 = 7 * 128 + 32 + 5 moves A, the byte code and the switches on at
/// once, and 37 = 32 + 5 starts each opcode elsewhere.
fn is_spread(opcode: u8, i: u32) -> bool {
    if i >= SYSTEMATIC {
        return (i - SYSTEMATIC).is_multiple_of(RANDOM_STRIDE);
    }
    let block = SYSTEMATIC / FROM_SYSTEMATIC;
    let j = i / block;
    i % block == (j * 933 + u32::from(opcode) * 37) % block
}

/// One line of the vectors, 95 characters and a newline.
fn vector_line(inputs: &Inputs, answer: &Answer) -> String {
    let small = [
        inputs.opcode,
        inputs.byte_code,
        inputs.position,
        inputs.width,
        inputs.macro_select,
        inputs.macro_carry,
        inputs.macro_link,
        inputs.borrow,
    ];
    let mut line = String::new();
    for value in small {
        write!(line, "{value:02X} ").expect("text");
    }
    for value in [inputs.a, inputs.b, inputs.q, inputs.status] {
        write!(line, "{value:08X} ").expect("text");
    }
    write!(line, "{:02X} {:02X} ", answer.reason, answer.parity).expect("text");
    writeln!(
        line,
        "{:08X} {:08X} {:08X} {:02X}",
        answer.y, answer.q, answer.status, answer.pins
    )
    .expect("text");
    line
}

/// A block of a line without faults: the line before it, the sums after it, and
/// which faults were asked about in it.
struct Right {
    before: Line,
    after: Sums,
    asked: Vec<bool>,
}

impl Right {
    fn of_opcode(opcode: u8) -> Vec<Right> {
        let mut line = Line::new(opcode);
        let mut block = || {
            let faults = Faults::none();
            Right {
                before: line.clone(),
                after: line.block(&faults),
                asked: IN_WORDS.iter().map(|&(f, _)| faults.was_asked(f)).collect(),
            }
        };
        (0..BLOCKS).map(|_| block()).collect()
    }
}

/// The first sums of a line that a fault changes. Up to the first block in which
/// the model asked about it the line is the same with it. A sum that differs once
/// comes out the same again only by chance, so the rest of the line is not made.
fn first_change(line: &[Right], i: usize, fault: Fault) -> Option<(Sums, Sums)> {
    let from = line.iter().position(|block| block.asked[i])?;
    let planted = Faults::plant(fault);
    let mut made = line[from].before.clone();
    line[from..]
        .iter()
        .map(|right| (right.after, made.block(&planted)))
        .find(|(right, wrong)| right != wrong)
}

/// Plants each fault in turn and prints the opcode numbers whose digest lines
/// change. True where every fault is noticed.
pub fn try_faults() -> bool {
    let right = for_each_opcode(Right::of_opcode);
    let mut unnoticed = 0;
    for (i, &(fault, what)) in IN_WORDS.iter().enumerate() {
        let changed = changed_lines(fault, &right, i);
        unnoticed += usize::from(changed.is_empty());
        report(what, &changed);
    }
    println!(
        "{} faults planted over {} cases an opcode, {} not noticed",
        IN_WORDS.len(),
        CASES,
        unnoticed
    );
    unnoticed == 0
}

/// A line that a fault changes: does the sum of single words change with it?
struct Changed {
    opcode: u8,
    single: bool,
}

/// The lines that differ.
fn changed_lines(fault: Fault, right: &[Vec<Right>], i: usize) -> Vec<Changed> {
    let changed = for_each_opcode(|opcode| {
        let (right, wrong) = first_change(&right[usize::from(opcode)], i, fault)?;
        let single = right.single != wrong.single;
        Some(Changed { opcode, single })
    });
    changed.into_iter().flatten().collect()
}

fn report(what: &str, changed: &[Changed]) {
    let first = changed
        .first()
        .map_or("none", |line| MNEMONICS[usize::from(line.opcode)]);
    let first = if first.is_empty() { "no page" } else { first };
    let alone = match changed.iter().any(|line| line.single) {
        true => "",
        false => " of the run alone",
    };
    let numbers: Vec<String> = changed
        .iter()
        .map(|line| format!("{:02X}", line.opcode))
        .collect();
    println!(
        "{what}: {} digest lines{alone} (first: {first}): {}",
        changed.len(),
        numbers.join(" ")
    );
}
