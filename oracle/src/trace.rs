//! The trace program's text.

use crate::faults::{Fault, Faults};
use crate::run::{settled, step, Machine};
use crate::sheet::{check_words, header, refuse, word_at, Header, Verdict, HEADER, WORD};
use crate::status::Mode;
use crate::word::reason;
use std::fmt::Write;

/// The text for an input: a sheet and then its declared registers, 4 bytes
/// each, high first. A fresh machine runs it from word 0 to the end.
pub fn trace(input: &[u8]) -> String {
    trace_with(input, &Faults::none())
}

/// The same with a fault that may be planted.
pub fn trace_with(input: &[u8], faults: &Faults) -> String {
    let mut text = String::new();
    let verdict = match check_input(input) {
        Ok(header) => run_and_print(input, header, &mut text, faults),
        Err(verdict) => verdict,
    };
    writeln!(text, "{:02} {:04X}", verdict.reason, verdict.place).expect("text");
    text
}

/// 3 Short, 4 Version, 5 Header, 6 Length on the whole total, then the words.
fn check_input(input: &[u8]) -> Result<Header, Verdict> {
    let header = header(input)?;
    if input.len() != HEADER + WORD * header.count + 4 * header.registers {
        return Err(refuse(reason::LENGTH, 0));
    }
    check_words(input, header, &Faults::none())?;
    Ok(header)
}

/// Each line has the status as its own word reads it, and the pins as digits, C
/// first.
fn run_and_print(input: &[u8], header: Header, text: &mut String, faults: &Faults) -> Verdict {
    let mut file = registers(&input[HEADER + WORD * header.count..]);
    let mut machine = Machine::default();
    let mut before = 0;
    for i in 0..header.count {
        let answer = step(&word_at(input, i), &mut file, &mut machine, faults);
        let y = answer.y;
        let Machine { q, status } = match faults.has(Fault::TraceInCarryMode) {
            true => settled(machine, Mode::Carry, faults),
            false => machine,
        };
        let digits = digits(answer.pins, before, faults);
        writeln!(text, "{i:04X} {y:08X} {q:08X} {status:08X} {digits}").expect("text");
        before = answer.pins;
    }
    refuse(reason::DONE, header.count)
}

/// The pins of a line; a fault may take those of the line before.
fn digits(pins: u8, before: u8, faults: &Faults) -> String {
    let pins = match faults.has(Fault::TracePinsOfTheWordBefore) {
        true => before,
        false => pins,
    };
    if faults.has(Fault::TracePinsUnpadded) {
        return format!("{pins:b}");
    }
    let digits = format!("{pins:05b}");
    match faults.has(Fault::TracePinsReversed) {
        true => digits.chars().rev().collect(),
        false => digits,
    }
}

fn registers(bytes: &[u8]) -> Vec<u32> {
    let value = |b: &[u8]| u32::from_be_bytes([b[0], b[1], b[2], b[3]]);
    bytes.chunks_exact(4).map(value).collect()
}
