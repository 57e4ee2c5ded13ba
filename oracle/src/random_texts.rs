//! Drawn sheets to list and drawn texts to read, good and damaged.

use crate::bundle::{Case, Kind};
use crate::cases::{damage, random_words, Random, Registers};
use crate::faults::Faults;
use crate::listing::LISTING_ROOM;
use crate::pages::MNEMONICS;
use crate::reader::{SHEET_ROOM, SWITCHES};
use crate::sheet::build;

/// The most word lines of a drawn text, and words of a drawn sheet.
const MOST_LINES: usize = 12;

/// One in this many numbers is drawn without heed to its range.
const WILD: usize = 128;

/// One in this many lines without write has a Y drawn as if it were written.
const IDLE: usize = 64;

/// COUNT cases: of three, one is a sheet and two are texts.
pub fn random_cases(count: usize) -> Vec<Case> {
    let mut random = Random::new(4);
    (0..count).map(|i| random_case(&mut random, i)).collect()
}

fn random_case(random: &mut Random, i: usize) -> Case {
    let (kind, bytes) = match i % 3 {
        0 => (Kind::Sheet, random_sheet(random)),
        _ => (Kind::Text, random_text(random)),
    };
    let room = LISTING_ROOM;
    let mut case = Case { kind, room, bytes };
    case.room = random_room(random, &case);
    case
}

/// Mostly enough for any drawn case; one time in eight just enough, and one in
/// eight a byte less.
fn random_room(random: &mut Random, case: &Case) -> usize {
    let needed = case.result(&Faults::none()).1.unwrap_or(0);
    match random.below(64) {
        0 => LISTING_ROOM,
        1 => SHEET_ROOM,
        2 => random.below(needed + 1),
        3..=10 => needed,
        11..=18 => needed.saturating_sub(1),
        _ => 2_048,
    }
}

/// A sheet; of three one is damaged, as sheets are, or in any one byte.
pub fn random_sheet(random: &mut Random) -> Vec<u8> {
    let mut sheet = good_sheet(random);
    match random.below(6) {
        0 => damage(random, &mut sheet),
        1 => {
            let at = random.below(sheet.len());
            sheet[at] = random.number() as u8;
        }
        _ => {}
    }
    sheet
}

pub fn good_sheet(random: &mut Random) -> Vec<u8> {
    let count = 1 + random.below(64);
    let words = random.below(MOST_LINES + 1);
    let registers = Registers { first: 0, count };
    build(&random_words(random, words, registers), count)
}

/// A text; of four three are damaged once.
pub fn random_text(random: &mut Random) -> Vec<u8> {
    let mut text = grown_text(random);
    if random.below(4) != 0 {
        match random.below(4) {
            0 => damage_pieces(random, &mut text, b'\n'),
            1 => damage_pieces(random, &mut text, b' '),
            _ => damage_byte(random, &mut text),
        }
    }
    text
}

/// How a drawn text is written: what no reader heeds.
struct Manner {
    letters: usize,
    blanks: usize,
    digits: usize,
    line_end: &'static str,
}

/// A text of the listing's parts, whose numbers may be out of their ranges.
pub fn grown_text(random: &mut Random) -> Vec<u8> {
    let manner = Manner {
        letters: random.below(4),
        blanks: random.below(3),
        digits: random.below(3),
        line_end: ["\n", "\n", "\n", "\r\n"][random.below(4)],
    };
    let registers = match random.below(32) {
        0 => random.below(100),
        _ => 1 + random.below(64),
    };
    let mut parts = first_parts(random, &manner, registers);
    let mut text = String::new();
    for _ in 0..=random.below(MOST_LINES + 1) {
        add_line(random, &manner, &parts, &mut text);
        parts = word_parts(random, &manner, registers);
    }
    if random.below(4) == 0 {
        text.pop();
    }
    text.into_bytes()
}

fn first_parts(random: &mut Random, manner: &Manner, registers: usize) -> Vec<String> {
    let version = match random.below(64) {
        0 => random.below(100),
        _ => 1,
    };
    vec![
        format!("version={}", number(random, manner, version)),
        format!("registers={}", number(random, manner, registers)),
    ]
}

fn word_parts(random: &mut Random, manner: &Manner, registers: usize) -> Vec<String> {
    let mut parts = vec![mnemonic(random).to_string()];
    let on = SWITCHES.map(|_| random.bit() == 1);
    let below = registers.clamp(1, 64);
    let y_below = match on[0] || random.below(IDLE) == 0 {
        true => below,
        false => 1,
    };
    for (name, count) in [
        ("code", 4),
        ("position", 64),
        ("width", 32),
        ("A", below),
        ("B", below),
        ("Y", y_below),
    ] {
        let value = match random.below(WILD) {
            0 => random.below(100),
            _ => random.below(count),
        };
        parts.push(format!("{name}={}", number(random, manner, value)));
    }
    for (name, on) in SWITCHES.into_iter().zip(on) {
        if on {
            parts.push(name.to_string());
        }
    }
    parts
}

fn mnemonic(random: &mut Random) -> &'static str {
    loop {
        match MNEMONICS[random.below(128)] {
            "" => {}
            name => return name,
        }
    }
}

/// A number of one or two digits: as few as can be, two, or either.
fn number(random: &mut Random, manner: &Manner, value: usize) -> String {
    let two = manner.digits == 1 || manner.digits == 2 && random.bit() == 1;
    if two {
        format!("{value:02}")
    } else {
        format!("{value}")
    }
}

fn add_line(random: &mut Random, manner: &Manner, parts: &[String], text: &mut String) {
    if manner.blanks == 2 {
        text.push_str(&some_blanks(random, 0));
    }
    for (i, part) in parts.iter().enumerate() {
        if i > 0 {
            text.push_str(&between(random, manner));
        }
        text.push_str(&in_letters(random, manner, part));
    }
    if manner.blanks == 2 {
        text.push_str(&some_blanks(random, 0));
    }
    text.push_str(manner.line_end);
}

/// Blanks between parts: one, now and then some, or some.
fn between(random: &mut Random, manner: &Manner) -> String {
    match manner.blanks {
        0 => " ".to_string(),
        1 if random.below(4) != 0 => " ".to_string(),
        _ => some_blanks(random, 1),
    }
}

/// At least so many spaces, tabs and carriage returns, and up to three more.
fn some_blanks(random: &mut Random, least: usize) -> String {
    let mut blank = |_| [' ', ' ', '\t', '\r'][random.below(4)];
    let blanks: String = (0..least + 3).map(&mut blank).collect();
    let length = least + random.below(4);
    blanks[..length].to_string()
}

/// As in a listing, in small letters, in capitals, or each letter either way.
fn in_letters(random: &mut Random, manner: &Manner, part: &str) -> String {
    let mut either = |c: char| match random.bit() {
        0 => c.to_ascii_lowercase(),
        _ => c.to_ascii_uppercase(),
    };
    match manner.letters {
        0 => part.to_string(),
        1 => part.to_ascii_lowercase(),
        2 => part.to_ascii_uppercase(),
        _ => part.chars().map(&mut either).collect(),
    }
}

/// One byte changed, inserted, removed or doubled.
fn damage_byte(random: &mut Random, text: &mut Vec<u8>) {
    let at = random.below(text.len());
    let byte = random_byte(random);
    match random.below(4) {
        0 => text[at] = byte,
        1 => text.insert(at, byte),
        2 => text.insert(at, text[at]),
        _ => {
            text.remove(at);
        }
    }
}

/// A byte that a text may have, or, one time in four, any byte.
fn random_byte(random: &mut Random) -> u8 {
    const LIKELY: &[u8] = b" \t\r\n==--01234567899ABYabyQqWwRr;#\x0B\x0C\x00";
    match random.below(4) {
        0 => random.number() as u8,
        _ => LIKELY[random.below(LIKELY.len())],
    }
}

/// Of the pieces that end in this byte, which are lines or parts, one removed,
/// doubled, exchanged with the next one or with any, or an empty one put in.
fn damage_pieces(random: &mut Random, text: &mut Vec<u8>, end: u8) {
    let pieces = text.split_inclusive(|&c| c == end);
    let mut pieces: Vec<Vec<u8>> = pieces.map(<[u8]>::to_vec).collect();
    let count = pieces.len();
    let (at, other) = (random.below(count), random.below(count));
    match random.below(5) {
        0 => {
            pieces.remove(at);
        }
        1 => pieces.insert(at, pieces[at].clone()),
        2 => pieces.swap(at, other),
        3 => pieces.swap(at, (at + 1) % count),
        _ => pieces.insert(at, vec![end]),
    }
    *text = pieces.concat();
}
