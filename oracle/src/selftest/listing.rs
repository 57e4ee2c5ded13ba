//! The listing: texts by hand, every mnemonic, number and byte, and there and
//! back on drawn sheets and texts.

use super::Group;
use crate::bundle::{bundle_of, cases_of, hash, Case, Kind, BEFORE};
use crate::cases::Random;
use crate::faults::Faults;
use crate::listing::{list, LISTING_ROOM};
use crate::listing_cases::{known, listing, longest_lines};
use crate::pages::MNEMONICS;
use crate::random_texts::{good_sheet, grown_text, random_cases, random_text};
use crate::reader::{read, MOST_WORDS, SHEET_ROOM};
use crate::sheet::{check, refuse, Verdict, DONE, HEADER, WORD};
use crate::text_cases::{same_texts, BARE, PLAIN};
use std::collections::BTreeSet;

/// The sheet of a text, in a buffer that holds any.
fn read_all(text: &[u8]) -> Result<Vec<u8>, Verdict> {
    let mut sheet = vec![0; SHEET_ROOM];
    let length = read(text, &mut sheet, &Faults::none())?;
    sheet.truncate(length);
    Ok(sheet)
}

fn verdict_of(text: &[u8]) -> Verdict {
    read_all(text).err().unwrap_or(DONE)
}

/// Document 01's trace example.
const AND_SHEET: [u8; 10] = [
    0x10, 0x01, 0x08, 0x00, //
    0x80, 0x80, 0x00, 0x42, 0x0E, 0x00,
];
const AND_TEXT: &str = "\
version=1 registers=04
AND         code=1 position=00 width=00 A=01 B=02 Y=03 write
";

/// The example of docs/LISTING.md, packed by hand.
const PAGE_SHEET: [u8; 34] = [
    0x10, 0x05, 0x0A, 0x00, //
    0x0C, 0x80, 0x01, 0x00, 0x00, 0x00, //
    0x7A, 0x80, 0x00, 0x01, 0x06, 0x00, //
    0x9C, 0x80, 0x00, 0x01, 0x06, 0x00, //
    0xDA, 0x24, 0x00, 0x00, 0x00, 0x00, //
    0x89, 0x80, 0x00, 0x01, 0x0A, 0x20,
];
const PAGE_TEXT: &str = "\
version=1 registers=05
LOADQ-A     code=1 position=00 width=00 A=04 B=00 Y=00
SIGN        code=1 position=00 width=00 A=00 B=01 Y=01 write
SDIVFIRST   code=1 position=00 width=00 A=00 B=01 Y=01 write
RSTBIT-STAT code=0 position=18 width=00 A=00 B=00 Y=00
SUB         code=3 position=00 width=00 A=00 B=01 Y=02 write borrow
";

/// PLAIN, packed by hand.
const PLAIN_SHEET: [u8; 22] = [
    0x10, 0x03, 0x28, 0x00, //
    0x8A, 0x84, 0x31, 0x05, 0x1B, 0x00, //
    0x54, 0x7F, 0xF4, 0xC0, 0x2A, 0x00, //
    0x7D, 0x94, 0x00, 0x13, 0x00, 0xE0,
];

/// Sheets and their texts by hand; what an editor may write instead; sizes.
pub fn by_hand(group: &mut Group) {
    let pairs: [(&str, &[u8], &str); 3] = [
        ("document 01", &AND_SHEET, AND_TEXT),
        ("docs/LISTING.md", &PAGE_SHEET, PAGE_TEXT),
        ("a listing", &PLAIN_SHEET, PLAIN),
    ];
    for (what, sheet, text) in pairs {
        group.same(what, listing(sheet), text.as_bytes().to_vec());
        group.same(what, read_all(text.as_bytes()), Ok(sheet.to_vec()));
    }
    for (what, text) in same_texts() {
        group.same(what, read_all(text.as_bytes()), Ok(PLAIN_SHEET.to_vec()));
    }
    group.same("room for sheets", HEADER + WORD * MOST_WORDS, SHEET_ROOM);
    let longest = listing(&longest_lines()).len();
    group.same("room for listings", longest, LISTING_ROOM);
}

/// The cases that are written down: reason and place, and what is left of the
/// lent buffer. The hash and the form of a bundle.
pub fn gate(group: &mut Group) {
    let cases: Vec<Case> = known().into_iter().map(|known| known.case).collect();
    group.check(cases_of(&bundle_of(&cases)) == Some(cases), || {
        "a bundle taken apart".to_string()
    });
    for known in known() {
        let (out, result) = known.case.result(&Faults::none());
        let got = result.err().unwrap_or(DONE);
        group.same(&known.what, got, known.want);
        let rest = &out[result.unwrap_or(0)..];
        let kept = rest.iter().all(|&byte| byte == BEFORE);
        group.check(kept, || format!("{}: the buffer's rest", known.what));
    }
    for (text, want) in [
        ("", 0x811C_9DC5),
        ("a", 0xE40C_292C),
        ("foobar", 0xBF9C_F968),
    ] {
        group.same("FNV-1a", hash(text.as_bytes()), want);
    }
    let empty = Case {
        kind: Kind::Text,
        room: 0,
        bytes: vec![],
    };
    let answer = empty.answer(&Faults::none());
    group.same(
        "an answer",
        answer,
        "t 15 0000 00000000 811C9DC5\n".to_string(),
    );
}

/// A text of one word line on 20 registers, which does not write, with part i of
/// it replaced.
fn with_part(i: usize, part: &[u8]) -> Vec<u8> {
    let mut text = b"version=1 registers=20\n".to_vec();
    for (j, needed) in BARE.iter().enumerate() {
        text.extend(if i == j { part } else { needed.as_bytes() });
        text.push(b' ');
    }
    text
}

/// Every mnemonic, cut, with one character more, less or another: taken where
/// it is the manual's, and then with its number.
pub fn mnemonics(group: &mut Group) {
    let letters: Vec<u8> = (b'A'..=b'Z').chain(b'0'..=b'9').chain([b'-']).collect();
    let mut names = BTreeSet::new();
    for name in MNEMONICS.map(str::as_bytes) {
        for at in 0..name.len() {
            let (left, right) = (&name[..at], &name[at + 1..]);
            names.extend([left.to_vec(), [left, right].concat()]);
            for &letter in &letters {
                names.insert([left, &[letter], right].concat());
                names.insert([name, &[letter]].concat());
            }
        }
    }
    names.remove(&vec![]);
    for name in names {
        let want = MNEMONICS.iter().position(|m| m.as_bytes() == name);
        let got = read_all(&with_part(0, &name.to_ascii_lowercase()));
        let got = got.map(|sheet| usize::from(sheet[HEADER] >> 1));
        let what = String::from_utf8_lossy(&name);
        group.same(&what, got, want.ok_or(refuse(15, 1)));
    }
}

/// Where a number stands: its part of the line, its name, the largest that the
/// field holds, whether it is a register's, and what follows it.
const PLACES: [(usize, &str, usize, bool, &str); 7] = [
    (1, "code", 3, false, ""),
    (2, "position", 63, false, ""),
    (3, "width", 31, false, ""),
    (4, "A", 63, true, ""),
    (5, "B", 63, true, ""),
    (6, "Y", 63, true, ""),
    (6, "Y", 63, true, " write"),
];

/// Every number of up to three digits, with and without leading zeros, in
/// every place; Y without write and with it.
pub fn numbers(group: &mut Group) {
    for value in 0..1000 {
        for digits in 1..4 {
            let number = format!("{value:0digits$}");
            for (i, name, most, register, after) in PLACES {
                let reason = match () {
                    _ if number.len() > 2 => 15,
                    _ if value > most => 2,
                    _ if i == 6 && after.is_empty() && value != 0 => 17,
                    _ if register && value >= 20 => 9,
                    _ => 0,
                };
                let part = format!("{name}={number}{after}");
                let got = verdict_of(&with_part(i, part.as_bytes()));
                let want = refuse(reason, usize::from(reason != 0));
                group.same(&part, got, want);
            }
            check_first_line(group, value, &number);
        }
    }
}

fn check_first_line(group: &mut Group, value: usize, number: &str) {
    let reason = |wrong: bool, reason: u8| match () {
        _ if number.len() > 2 => refuse(15, 0),
        _ if wrong => refuse(reason, 0),
        _ => DONE,
    };
    let version = format!("version={number} registers=5");
    let got = verdict_of(version.as_bytes());
    group.same(&version, got, reason(value != 1, 4));
    let registers = format!("version=1 registers={number}");
    let got = verdict_of(registers.as_bytes());
    group.same(&registers, got, reason(value == 0 || value > 64, 5));
}

/// What a text says, without what no reader heeds: blanks, case, zeros before
/// a number, the last line feed.
fn said(text: &[u8]) -> Vec<Vec<String>> {
    let text = String::from_utf8_lossy(text).to_ascii_uppercase();
    let part = |part: &str| match part.split_once('=') {
        Some((name, digits)) if digits.len() == 1 => format!("{name}=0{digits}"),
        _ => part.to_string(),
    };
    let parts = |line: &str| -> Vec<String> {
        let parts = line.split([' ', '\t', '\r']);
        parts.filter(|part| !part.is_empty()).map(part).collect()
    };
    let lines = text.split_terminator('\n');
    lines.map(parts).collect()
}

/// A text that is read says what the listing of its sheet says; that is read
/// as the same sheet. Of a refused one the lines before the fault are good, and
/// those after it do not count.
fn check_text(group: &mut Group, text: &[u8]) {
    let what = || text.escape_ascii().to_string();
    match read_all(text) {
        Ok(sheet) => {
            group.check(check(&sheet, None, None).is_ok(), what);
            let again = listing(&sheet);
            group.check(said(&again) == said(text), what);
            group.check(read_all(&again) == Ok(sheet), what);
        }
        Err(verdict) => {
            let lines: Vec<&[u8]> = text.split_inclusive(|&c| c == b'\n').collect();
            let before = &lines[..verdict.place];
            group.check(
                before.is_empty() || read_all(&before.concat()).is_ok(),
                what,
            );
            let upto = &lines[..lines.len().min(verdict.place + 1)];
            group.same("cut after the line", verdict_of(&upto.concat()), verdict);
        }
    }
}

/// Every byte put for, before and after every byte of a text.
pub fn bytes(group: &mut Group) {
    let text = AND_TEXT.as_bytes();
    for at in 0..text.len() {
        let (left, right) = (&text[..at], &text[at + 1..]);
        for byte in 0..=255 {
            check_text(group, &[left, &[byte], right].concat());
            check_text(group, &[left, &[byte], &text[at..]].concat());
        }
        check_text(group, &[left, right].concat());
    }
}

/// Drawn sheets: the listing has the size that it should, is read as the same
/// sheet, and fits a buffer of its size and none that is smaller.
pub fn sheets_and_back(group: &mut Group) {
    let mut random = Random::new(50);
    for _ in 0..20_000 {
        let sheet = good_sheet(&mut random);
        let text = listing(&sheet);
        let count = (sheet.len() - HEADER) / WORD;
        let lines = text.iter().filter(|&&c| c == b'\n').count();
        group.same("lines", lines, count + 1);
        let size = 23 + 55 * count..=23 + 104 * count;
        group.check(text.is_ascii() && size.contains(&text.len()), || {
            format!("{} bytes for {count} words", text.len())
        });
        let mut out = vec![0; text.len()];
        let fits = list(&sheet, &mut out, &Faults::none());
        group.same(
            "a buffer of its size",
            (fits, &out),
            (Ok(text.len()), &text),
        );
        let short = list(&sheet, &mut out[1..], &Faults::none());
        group.same("a byte less", short, Err(refuse(14, 0)));
        group.same("read again", read_all(&text), Ok(sheet));
    }
}

/// Drawn texts, as they grew and damaged; as it grew none is outside the
/// listing.
pub fn texts_and_back(group: &mut Group) {
    let mut random = Random::new(51);
    for _ in 0..20_000 {
        let grown = grown_text(&mut random);
        let inside = verdict_of(&grown).reason != 15;
        group.check(inside, || grown.escape_ascii().to_string());
        check_text(group, &grown);
        check_text(group, &random_text(&mut random));
    }
}

/// Drawn cases end for every reason that listing and reading have, but for 16
/// Count.
pub fn reasons(group: &mut Group) {
    let mut ends = [BTreeSet::new(), BTreeSet::new()];
    for case in random_cases(20_000) {
        let verdict = case.result(&Faults::none()).1.err().unwrap_or(DONE);
        ends[usize::from(case.kind == Kind::Text)].insert(verdict.reason);
    }
    let listed = BTreeSet::from([0, 1, 3, 4, 5, 6, 8, 9, 14, 17]);
    let read = BTreeSet::from([0, 2, 4, 5, 9, 14, 15, 17]);
    group.same("listing, reading", ends, [listed, read]);
}
