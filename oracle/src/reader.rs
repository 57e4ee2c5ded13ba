//! The reader: from a listing, or a text that an editor wrote by its rules, to
//! the sheet (docs/LISTING.md, after document 02, request 2).
//!
//! A part is a run of characters that are not blanks. So two parts have a blank
//! between them, and a part has none inside.

use crate::faults::{Fault, Faults};
use crate::listing::hand_out;
use crate::pages::MNEMONICS;
use crate::sheet::{build, refuse, Verdict, Word, HEADER, WORD};
use crate::word::reason;

/// A buffer of so many bytes holds every sheet.
pub const SHEET_ROOM: usize = 24_574;

/// The most word lines: a header has twelve bits for their number.
pub const MOST_WORDS: usize = 4_095;

/// The numbers of a word line in their order: the name before each, and the
/// largest that its field holds.
const NUMBERS: [(&str, usize); 6] = [
    ("code=", 3),
    ("position=", 63),
    ("width=", 31),
    ("A=", 63),
    ("B=", 63),
    ("Y=", 63),
];

/// The switches in their order.
pub const SWITCHES: [&str; 5] = [
    "write",
    "macro-select",
    "macro-carry",
    "macro-link",
    "borrow",
];

/// Reads a text into a lent buffer and tells how many bytes the sheet has. The
/// lines in order, each with 15 Text and then its own reasons, place the line;
/// then 16 Count, then 14 Room.
pub fn read(text: &[u8], out: &mut [u8], faults: &Faults) -> Result<usize, Verdict> {
    let lines = lines_of(text, faults);
    let from = usize::from(faults.has(Fault::LinesFromOne));
    let Some((first, word_lines)) = lines.split_first() else {
        return Err(refuse(reason::TEXT, from));
    };
    if faults.has(Fault::CountBeforeLines) {
        check_count(word_lines.len(), out.len(), faults)?;
    }
    let registers = first_line(first, faults).map_err(|reason| refuse(reason, from))?;
    let mut words = Vec::new();
    for (number, line) in (from + 1..).zip(word_lines) {
        let word = word_line(line, registers, faults);
        words.push(word.map_err(|reason| refuse(reason, number))?);
    }
    check_count(words.len(), out.len(), faults)?;
    hand_out(&build(&words, registers), out, faults)
}

/// What stands before each line feed, and what is left after the last one if
/// that is not empty.
fn lines_of<'a>(text: &'a [u8], faults: &Faults) -> Vec<&'a [u8]> {
    let mut lines: Vec<&[u8]> = text.split(|&c| c == b'\n').collect();
    match lines.last_mut() {
        Some([]) => {
            lines.pop();
        }
        Some(last) if faults.has(Fault::LastLineFeedWanted) => *last = b"",
        _ => {}
    }
    if faults.has(Fault::EmptyLineSkipped) {
        lines.retain(|line| !parts_of(line, faults).is_empty());
    }
    lines
}

/// 16 Count.
fn check_count(count: usize, room: usize, faults: &Faults) -> Result<(), Verdict> {
    if faults.has(Fault::RoomBeforeCount) && HEADER + WORD * count > room {
        return Err(refuse(reason::ROOM, 0));
    }
    if count > MOST_WORDS - usize::from(faults.has(Fault::CountFrom4095)) {
        return Err(refuse(reason::COUNT, 0));
    }
    Ok(())
}

/// The register count that the first line declares: 15 Text, 4 Version, 5
/// Header.
fn first_line(line: &[u8], faults: &Faults) -> Result<usize, u8> {
    let parts = parts_of(line, faults);
    if faults.has(Fault::VersionBeforeText) && !parts.is_empty() {
        check_version(number_after("version=", parts[0], faults)?)?;
    }
    let [version, registers] = parts[..] else {
        return Err(reason::TEXT);
    };
    let version = number_after("version=", version, faults)?;
    let registers = number_after("registers=", registers, faults)?;
    check_version(version)?;
    let most = 64 - usize::from(faults.has(Fault::RegistersTo63));
    if registers == 0 || registers > most {
        return Err(reason::HEADER);
    }
    Ok(registers)
}

fn check_version(version: usize) -> Result<(), u8> {
    match version {
        1 => Ok(()),
        _ => Err(reason::VERSION),
    }
}

/// The word that a line says: 15 Text, 2 Inputs, 17 Idle, 9 Register.
fn word_line(line: &[u8], registers: usize, faults: &Faults) -> Result<Word, u8> {
    let parts = parts_of(line, faults);
    if parts.len() <= NUMBERS.len() {
        return Err(reason::TEXT);
    }
    let opcode = opcode_of(parts[0], faults)?;
    let numbers = numbers_of(&parts[1..=NUMBERS.len()], faults)?;
    let on = switches_of(&parts[NUMBERS.len() + 1..], faults)?;
    check_numbers(&numbers, registers, on[0], faults)?;
    let [byte_code, position, width, a, b, y] = numbers.map(|number| number as u8);
    let [write, macro_select, macro_carry, macro_link, borrow] = on;
    let mut word = Word {
        opcode,
        byte_code,
        position,
        width,
        a,
        b,
        y,
        write,
        macro_select,
        macro_carry,
        macro_link,
        borrow,
    };
    if faults.has(Fault::IdleLineTaken) {
        word = word.without_idle();
    }
    Ok(word)
}

/// The parts of a line, with spaces, tabs and carriage returns about them.
fn parts_of<'a>(line: &'a [u8], faults: &Faults) -> Vec<&'a [u8]> {
    let is_blank = |c: &u8| match c {
        b' ' | b'\t' => true,
        b'\r' => !faults.has(Fault::ReturnNoBlank),
        0x0B | 0x0C => faults.has(Fault::EverySpaceBlank),
        _ => false,
    };
    let parts = line.split(is_blank);
    parts.filter(|part| !part.is_empty()).collect()
}

/// Are these the same characters but for the case of letters?
fn alike(part: &[u8], name: &str, faults: &Faults) -> bool {
    let name = name.as_bytes();
    if faults.has(Fault::CapitalsWanted) {
        return part == name;
    }
    if faults.has(Fault::CaseByBitFive) {
        let folded = |bytes: &[u8]| bytes.iter().map(|c| c | 0x20).collect::<Vec<u8>>();
        return folded(part) == folded(name);
    }
    part.eq_ignore_ascii_case(name)
}

/// The opcode number of a part that is a mnemonic. No part is empty, so none is
/// taken for a number without a page.
fn opcode_of(part: &[u8], faults: &Faults) -> Result<u8, u8> {
    let is_part = |name: &&str| match faults.has(Fault::MnemonicBegun) {
        true => name.len() >= part.len() && alike(part, &name[..part.len()], faults),
        false => alike(part, name, faults),
    };
    let found = MNEMONICS.iter().position(is_part);
    found.map(|number| number as u8).ok_or(reason::TEXT)
}

fn numbers_of(parts: &[&[u8]], faults: &Faults) -> Result<[usize; 6], u8> {
    let mut numbers = [0; 6];
    for (i, (name, most)) in NUMBERS.into_iter().enumerate() {
        numbers[i] = number_after(name, parts[i], faults)?;
        if faults.has(Fault::InputsBeforeText) && numbers[i] > most {
            return Err(reason::INPUTS);
        }
    }
    Ok(numbers)
}

/// The number of one or two digits in a part that begins with this name.
fn number_after(name: &str, part: &[u8], faults: &Faults) -> Result<usize, u8> {
    let (begins, digits) = part.split_at(part.len().min(name.len()));
    let fewest = 1 + usize::from(faults.has(Fault::TwoDigitsWanted));
    let most = 2 + usize::from(faults.has(Fault::ThreeDigitsTaken));
    let long_enough = (fewest..=most).contains(&digits.len());
    if !alike(begins, name, faults) || !long_enough || !digits.iter().all(u8::is_ascii_digit) {
        return Err(reason::TEXT);
    }
    let value = |number: usize, digit: &u8| 10 * number + usize::from(digit - b'0');
    Ok(digits.iter().fold(0, value))
}

/// Which switches are on: each is named at most once, in their order.
fn switches_of(parts: &[&[u8]], faults: &Faults) -> Result<[u8; 5], u8> {
    let mut on = [0; 5];
    let mut from = 0;
    for part in parts {
        let found = (from..5).find(|&i| alike(part, SWITCHES[i], faults));
        if found.is_none() && faults.has(Fault::PartsAfterSwitches) {
            break;
        }
        let i = found.ok_or(reason::TEXT)?;
        on[i] = 1;
        from = match faults.has(Fault::SwitchesInAnyOrder) {
            true => 0,
            false => i + 1,
        };
    }
    Ok(on)
}

/// 2 Inputs, then 17 Idle, then 9 Register on all three fields.
fn check_numbers(
    numbers: &[usize; 6],
    registers: usize,
    write: u8,
    faults: &Faults,
) -> Result<(), u8> {
    let too_large = |(&number, (_, most)): (&usize, (&str, usize))| number > most;
    let inputs = numbers.iter().zip(NUMBERS).any(too_large);
    let idle = write == 0 && numbers[5] != 0 && !faults.has(Fault::IdleLineTaken);
    let outside = numbers[3..].iter().any(|&register| register >= registers);
    if faults.has(Fault::RegisterBeforeInputs) && outside {
        return Err(reason::REGISTER);
    }
    if faults.has(Fault::IdleBeforeInputs) && idle {
        return Err(reason::IDLE);
    }
    match () {
        _ if inputs => Err(reason::INPUTS),
        _ if outside && faults.has(Fault::RegisterBeforeIdle) => Err(reason::REGISTER),
        _ if idle => Err(reason::IDLE),
        _ if outside => Err(reason::REGISTER),
        _ => Ok(()),
    }
}
