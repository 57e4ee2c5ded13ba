//! The gate's cases of listings: sheets to list here, texts to read in
//! `text_cases.rs`. A case that is written down has its reason and place from
//! docs/LISTING.md; the self-test holds the lister and the reader to them.

use crate::bundle::{Case, Kind};
use crate::faults::Faults;
use crate::listing::{list, LISTING_ROOM};
use crate::pages::{has_page, number_of};
use crate::reader::{MOST_WORDS, SHEET_ROOM};
use crate::sheet::{build, refuse, Verdict, Word, DONE, HEADER, WORD};
use crate::text_cases;

/// A case with what it shows, and its reason and place.
pub struct Known {
    pub what: String,
    pub case: Case,
    pub want: Verdict,
}

fn sheet(what: &str, bytes: Vec<u8>, room: usize, want: Verdict) -> Known {
    let kind = Kind::Sheet;
    Known {
        what: what.to_string(),
        case: Case { kind, room, bytes },
        want,
    }
}

/// The gate's cases: the sheets of the examples, which are trace inputs, the
/// listings of the first two, and those that are written down.
pub fn gate_cases(examples: &[Vec<u8>]) -> Vec<Case> {
    let listed = |input: &Vec<u8>| Case {
        kind: Kind::Sheet,
        room: LISTING_ROOM,
        bytes: sheet_part(input).to_vec(),
    };
    let read = |input: &Vec<u8>| Case {
        kind: Kind::Text,
        room: SHEET_ROOM,
        bytes: listing(sheet_part(input)),
    };
    let mut cases: Vec<Case> = examples.iter().map(listed).collect();
    cases.extend(examples.iter().take(2).map(read));
    cases.extend(known().into_iter().map(|known| known.case));
    cases
}

/// A trace input without its registers.
fn sheet_part(input: &[u8]) -> &[u8] {
    let count = usize::from(input[0] % 16) * 256 + usize::from(input[1]);
    &input[..HEADER + WORD * count]
}

/// The listing of a good sheet.
pub fn listing(sheet: &[u8]) -> Vec<u8> {
    let mut text = vec![0; LISTING_ROOM];
    let length = list(sheet, &mut text, &Faults::none()).expect("a good sheet");
    text.truncate(length);
    text
}

/// The cases that are written down.
pub fn known() -> Vec<Known> {
    let mut cases = good_sheets();
    cases.extend(refused_headers());
    cases.extend(refused_words());
    cases.extend(sheet_rooms());
    cases.extend(text_cases::known());
    cases
}

/// A word with every field at work, Y's too where it does not write; the low
/// five bits of i are its switches.
fn varied(opcode: u8, i: usize) -> Word {
    let switch = |bit: usize| (i >> bit) as u8 % 2;
    Word {
        opcode,
        byte_code: (i % 4) as u8,
        position: (i * 5 % 64) as u8,
        width: (i * 3 % 32) as u8,
        a: (i * 7 % 64) as u8,
        b: (i * 11 % 64) as u8,
        y: (i * 13 % 64) as u8,
        write: switch(0),
        macro_select: switch(1),
        macro_carry: switch(2),
        macro_link: switch(3),
        borrow: switch(4),
    }
}

/// Every mnemonic once, with the switches going through all that they can be.
fn every_mnemonic() -> Vec<u8> {
    let opcodes = (0..128).filter(|&opcode| has_page(opcode));
    let word = |(opcode, i)| varied(opcode, i).without_idle();
    build(&opcodes.zip(0..).map(word).collect::<Vec<Word>>(), 64)
}

/// 4,095 words with every switch on.
pub fn longest_lines() -> Vec<u8> {
    let opcodes: Vec<u8> = (0..128).filter(|&opcode| has_page(opcode)).collect();
    let word = |i: usize| Word {
        position: (i % 64) as u8,
        width: (i / 64 % 32) as u8,
        write: 1,
        macro_select: 1,
        macro_carry: 1,
        macro_link: 1,
        borrow: 1,
        ..varied(opcodes[i % opcodes.len()], i)
    };
    build(&(0..MOST_WORDS).map(word).collect::<Vec<Word>>(), 64)
}

fn good_sheets() -> Vec<Known> {
    vec![
        sheet("every mnemonic", every_mnemonic(), LISTING_ROOM, DONE),
        sheet("longest lines", longest_lines(), LISTING_ROOM, DONE),
        sheet("no word, 1 register", build(&[], 1), LISTING_ROOM, DONE),
        sheet("no word, 64 registers", build(&[], 64), LISTING_ROOM, DONE),
    ]
}

/// Three words on eight registers: SUB with write, ADD with macro-select and
/// borrow, OR with nothing on.
fn small_sheet() -> Vec<u8> {
    let word = |mnemonic: &str, i| {
        let word = Word {
            a: 1,
            b: 2,
            y: 3,
            ..varied(number_of(mnemonic), i)
        };
        word.without_idle()
    };
    build(&[word("SUB", 1), word("ADD", 18), word("OR", 0)], 8)
}

/// The small sheet with something changed.
fn changed(what: &str, reason: u8, place: usize, change: impl Fn(&mut Vec<u8>)) -> Known {
    let mut bytes = small_sheet();
    change(&mut bytes);
    sheet(what, bytes, LISTING_ROOM, refuse(reason, place))
}

/// 3 Short, 4 Version, 5 Header, 6 Length, and their order.
fn refused_headers() -> Vec<Known> {
    vec![
        changed("no byte", 3, 0, |s| s.clear()),
        changed("three bytes", 3, 0, |s| s.truncate(3)),
        changed("version 0", 4, 0, |s| s[0] = 0),
        changed("version 2, no register", 4, 0, |s| {
            (s[0], s[2]) = (0x20, 0);
        }),
        changed("no register", 5, 0, |s| s[2] = 0),
        changed("65 registers", 5, 0, |s| s[2] = 2 * 65),
        changed("the header's last bit", 5, 0, |s| s[3] = 1),
        changed("the header's first zero bit, cut", 5, 0, |s| {
            s[2] += 1;
            s.pop();
        }),
        changed("a byte less", 6, 0, |s| s.truncate(21)),
        changed("a byte more, a spare bit", 6, 0, |s| {
            s[9] = 1;
            s.push(0);
        }),
        changed("a word less", 6, 0, |s| s.truncate(16)),
    ]
}

/// In each word 8 Spare, 17 Idle, 1 Opcode, 9 Register, and the words in order.
/// Word i has its six bytes from byte 4 + 6 * i on, Y and write in the fifth.
fn refused_words() -> Vec<Known> {
    let mut cases = idle_words();
    cases.extend([
        changed("a spare bit, first word", 8, 0, |s| s[9] = 16),
        changed("spare bits first", 8, 1, |s| {
            (s[10], s[14], s[15]) = (0x4C << 1, 0xFC, 0x1F);
        }),
        changed("a spare bit, last word", 8, 2, |s| s[21] = 1),
        changed("no page, 1E", 1, 0, |s| s[4] = 0x1E << 1),
        changed("no page, 1F", 1, 1, |s| s[10] = 0x1F << 1),
        changed("no page, 4C", 1, 2, |s| s[16] = 0x4C << 1),
        changed("no page before register", 1, 1, |s| {
            (s[10], s[14]) = (0x4D << 1, 0xFE);
        }),
        changed("register A", 9, 0, |s| s[6] += 8),
        changed("register B", 9, 1, |s| s[13] += 32),
        changed("register Y, which is written", 9, 2, |s| s[20] = 8 << 2 | 2),
        changed("the first word of two", 9, 1, |s| {
            (s[14], s[21]) = (0xFE, 1);
        }),
    ]);
    cases
}

/// 17 Idle: after Spare, before Opcode and Register.
fn idle_words() -> Vec<Known> {
    vec![
        changed("left idle, first word", 17, 0, |s| s[8] = 3 << 2),
        changed("left idle, middle word", 17, 1, |s| s[14] = 1 << 2 | 1),
        changed("left idle, last word", 17, 2, |s| s[20] = 7 << 2),
        changed("idle before no page", 17, 0, |s| {
            (s[4], s[8]) = (0x1E << 1, 3 << 2);
        }),
        changed("idle before register A", 17, 1, |s| {
            (s[12], s[14]) = (s[12] + 8, 1 << 2);
        }),
        changed("a register Y that is not there, idle", 17, 2, |s| {
            s[20] = 8 << 2;
        }),
        changed("idle before no page and register", 17, 1, |s| {
            (s[10], s[14]) = (0x4D << 1, 0xFC);
        }),
        changed("spare before idle", 8, 2, |s| {
            (s[20], s[21]) = (7 << 2, 1);
        }),
        changed("idle, then a spare bit", 17, 1, |s| {
            (s[14], s[21]) = (1 << 2, 1);
        }),
    ]
}

/// 14 Room after the sheet's own. The small sheet's listing has 23 bytes for
/// its first line, 55 for each word, and 6 and 20 for the switches.
fn sheet_rooms() -> Vec<Known> {
    let small = |fifth: u8| {
        let mut bytes = small_sheet();
        bytes[20] = fifth;
        bytes
    };
    vec![
        sheet("exactly enough", small_sheet(), 214, DONE),
        sheet("one byte too small", small_sheet(), 213, refuse(14, 0)),
        sheet("no room", small_sheet(), 0, refuse(14, 0)),
        sheet("room for no word", build(&[], 7), 23, DONE),
        sheet("a byte short for no word", build(&[], 7), 22, refuse(14, 0)),
        sheet("register before room", small(8 << 2 | 2), 0, refuse(9, 2)),
        sheet("idle before room", small(8 << 2), 213, refuse(17, 2)),
        sheet("short before room", vec![], 0, refuse(3, 0)),
    ]
}
