//! The gate's texts to read, with their reasons and lines by docs/LISTING.md.

use crate::bundle::{Case, Kind};
use crate::listing_cases::Known;
use crate::pages::MNEMONICS;
use crate::reader::{MOST_WORDS, SHEET_ROOM};
use crate::sheet::{refuse, Verdict, DONE};

fn text(what: &str, bytes: Vec<u8>, room: usize, want: Verdict) -> Known {
    let kind = Kind::Text;
    Known {
        what: what.to_string(),
        case: Case { kind, room, bytes },
        want,
    }
}

pub fn known() -> Vec<Known> {
    let mut cases = good_texts();
    cases.extend(first_lines());
    cases.extend(whole_texts());
    cases.extend(two_lines());
    cases.extend(spoilt_parts());
    cases.extend(other_parts());
    cases.extend(other_lines());
    cases.extend(text_rooms());
    cases.extend(long_texts());
    cases
}

/// A listing.
pub const PLAIN: &str = "\
version=1 registers=20
SUBC        code=1 position=02 width=03 A=04 B=05 Y=06 write macro-select
DN1-LF-AQ   code=0 position=63 width=31 A=19 B=00 Y=10 write
OR          code=3 position=10 width=00 A=00 B=19 Y=00 macro-carry macro-link borrow
";

/// The same with one digit where one will do, and without its last line feed.
const SHORTEST: &str = "\
version=1 registers=20
SUBC code=1 position=2 width=3 A=4 B=5 Y=6 write macro-select
DN1-LF-AQ code=0 position=63 width=31 A=19 B=0 Y=10 write
OR code=3 position=10 width=0 A=0 B=19 Y=0 macro-carry macro-link borrow";

/// Texts that say what PLAIN says.
pub fn same_texts() -> Vec<(&'static str, String)> {
    let lines = |before: &str, after: &str| -> String {
        let line = |line| format!("{before}{line}{after}");
        PLAIN.lines().map(line).collect()
    };
    let two_digits = PLAIN.replace("version=", "version=0");
    vec![
        ("a listing", PLAIN.to_string()),
        ("one digit, no last line feed", SHORTEST.to_string()),
        ("two digits", two_digits.replace("code=", "code=0")),
        ("small letters", PLAIN.to_lowercase()),
        ("capitals", PLAIN.to_uppercase()),
        ("tabs", PLAIN.replace(' ', "\t")),
        ("carriage returns", PLAIN.replace(' ', "\r")),
        ("many blanks", PLAIN.replace(' ', " \t \r ")),
        ("blanks about lines", lines("\t  ", " \t\n")),
        ("other line ends", lines("", "\r\n")),
        (
            "other line ends, cut",
            lines("", "\r\n").trim_end_matches('\n').to_string(),
        ),
        ("blanks after the last part", SHORTEST.to_string() + " \t"),
    ]
}

fn good_texts() -> Vec<Known> {
    let same = same_texts().into_iter();
    let mut cases: Vec<Known> = same
        .map(|(what, t)| text(what, t.into_bytes(), SHEET_ROOM, DONE))
        .collect();
    let all = every_small_mnemonic().into_bytes();
    cases.push(text("mnemonics in small letters", all, SHEET_ROOM, DONE));
    cases
}

/// A short word line that is good on any number of registers.
const SHORT: &str = "or code=0 position=0 width=0 a=0 b=0 y=0\n";

/// A word line for each mnemonic, in the order of their numbers.
fn every_small_mnemonic() -> String {
    let mut text = "version=1 registers=1\n".to_string();
    for mnemonic in MNEMONICS.iter().filter(|name| !name.is_empty()) {
        text += &SHORT.replacen("or", &mnemonic.to_lowercase(), 1);
    }
    text
}

/// First lines with their reasons; a good word line follows.
const FIRST_LINES: &[(u8, &[u8])] = &[
    (0, b"version=1 registers=01"),
    (0, b"version=1 registers=64"),
    (0, b"\tVERSION=01\rRegisters=1 \r"),
    (4, b"version=0 registers=20"),
    (4, b"version=2 registers=20"),
    (4, b"version=10 registers=20"),
    (4, b"version=99 registers=20"),
    (4, b"version=2 registers=0"),
    (4, b"version=2 registers=65"),
    (5, b"version=1 registers=0"),
    (5, b"version=1 registers=00"),
    (5, b"version=1 registers=65"),
    (5, b"version=1 registers=99"),
    (15, b""),
    (15, b" \t\r"),
    (15, b"version=1"),
    (15, b"registers=20"),
    (15, b"registers=20 version=1"),
    (15, b"version=2"),
    (15, b"version=1 registers="),
    (15, b"version= registers=20"),
    (15, b"version=2 registers=100"),
    (15, b"version=001 registers=20"),
    (15, b"version=1 registers=020"),
    (15, b"version=1 registers=20 20"),
    (15, b"version=2 registers=20 write"),
    (15, b"version=1registers=20"),
    (15, b"version=1,registers=20"),
    (15, b"version =1 registers=20"),
    (15, b"version= 1 registers=20"),
    (15, b"version 1 registers 20"),
    (15, b"version=1 register=20"),
    (15, b"versions=1 registers=20"),
    (15, b"ersion=1 registers=20"),
    (15, b"version=1 registers=2O"),
    (15, b"version=1 registers=-1"),
    (15, b"version=1 registers=4294967297"),
    (15, b"\xEF\xBB\xBFversion=1 registers=20"),
    (15, b"version\x1D1 registers=20"),
    (15, b"version=1\x00registers=20"),
    (15, b"version=1\x0Bregisters=20"),
    (15, b"version=1 registers=20\x00"),
    (15, b"OR code=0 position=00 width=00 A=00 B=00 Y=00"),
];

fn first_lines() -> Vec<Known> {
    let case = |&(reason, line): &(u8, &[u8])| {
        let what = format!("first line '{}'", line.escape_ascii());
        let bytes = [line, b"\n", SHORT.as_bytes()].concat();
        text(&what, bytes, SHEET_ROOM, refuse(reason, 0))
    };
    FIRST_LINES.iter().map(case).collect()
}

/// Whole texts with reason and line: no line, no word, no last line feed, and
/// what stands after it.
const WHOLE_TEXTS: &[(u8, usize, &[u8])] = &[
    (15, 0, b""),
    (15, 0, b"\n"),
    (15, 0, b"\n\n"),
    (15, 0, b" "),
    (15, 0, b"\r\n"),
    (15, 0, b"\x00"),
    (15, 0, b"\nversion=1 registers=9\n"),
    (0, 0, b"version=1 registers=9\n"),
    (0, 0, b"version=1 registers=9"),
    (4, 0, b"version=3 registers=9"),
    (5, 0, b"version=1 registers=70"),
    (15, 0, b"version=1 registers=9 9"),
    (15, 1, b"version=1 registers=9\n\n"),
    (15, 1, b"version=1 registers=9\n "),
    (15, 1, b"version=1 registers=9\n\r"),
    (15, 1, b"version=1 registers=9\n\r\n"),
    (15, 1, b"version=1 registers=9\n\x00"),
    (15, 1, b"version=1 registers=9\n\x1A"),
    (15, 1, b"version=1 registers=9\nor"),
    (15, 1, b"version=1 registers=9\nversion=1 registers=9\n"),
    (
        15,
        1,
        b"version=1 registers=9\n\nor code=0 position=0 width=0 a=0 b=0 y=0\n",
    ),
    (
        15,
        2,
        b"version=1 registers=9\nor code=0 position=0 width=0 a=0 b=0 y=0\n\n",
    ),
    (
        15,
        2,
        b"version=1 registers=9\nor code=0 position=0 width=0 a=0 b=0 y=0\n\n\n",
    ),
    (
        15,
        1,
        b"version=1 registers=9\nor code=0 position=0 width=0 a=0 b=0\ny=0\n",
    ),
    (
        2,
        1,
        b"version=1 registers=9\nor code=4 position=0 width=0 a=0 b=0 y=0",
    ),
    (
        17,
        1,
        b"version=1 registers=9\nor code=0 position=0 width=0 a=0 b=0 y=9",
    ),
    (
        9,
        1,
        b"version=1 registers=9\nor code=0 position=0 width=0 a=0 b=0 y=9 write",
    ),
];

fn whole_texts() -> Vec<Known> {
    let case = |&(reason, line, bytes): &(u8, usize, &[u8])| {
        let what = format!("text '{}'", bytes.escape_ascii());
        text(&what, bytes.to_vec(), SHEET_ROOM, refuse(reason, line))
    };
    WHOLE_TEXTS.iter().map(case).collect()
}

/// First lines at fault, and word lines at fault on 20 registers.
const FIRST_AT_FAULT: [(u8, &str); 3] = [
    (15, "version=1"),
    (4, "version=2 registers=20"),
    (5, "version=1 registers=0"),
];
const WORD_AT_FAULT: [(u8, &str); 4] = [
    (15, "or"),
    (2, "or code=4 position=0 width=0 a=0 b=0 y=0"),
    (17, "or code=0 position=0 width=0 a=0 b=0 y=1"),
    (9, "or code=0 position=0 width=0 a=20 b=0 y=0"),
];

/// Two lines at fault: the first is told, whatever the second is.
fn two_lines() -> Vec<Known> {
    let mut cases = Vec::new();
    for (_, second) in WORD_AT_FAULT {
        for (reason, first) in FIRST_AT_FAULT {
            let bytes = format!("{first}\n{second}\n").into_bytes();
            let what = format!("'{first}', then '{second}'");
            cases.push(text(&what, bytes, SHEET_ROOM, refuse(reason, 0)));
        }
        for (reason, first) in WORD_AT_FAULT {
            let bytes = format!("version=1 registers=20\n{first}\n{second}\n").into_bytes();
            let what = format!("'{first}', then '{second}'");
            cases.push(text(&what, bytes, SHEET_ROOM, refuse(reason, 1)));
        }
    }
    cases
}

/// A text of three word lines on 20 registers, of which line `at` is this one.
fn with_line(line: &[u8], at: usize, reason: u8) -> Known {
    let mut bytes = b"version=1 registers=20\n".to_vec();
    for i in 1..=3 {
        match i == at {
            true => bytes.extend([line, b"\n"].concat()),
            false => bytes.extend(SHORT.as_bytes()),
        }
    }
    let what = format!("line {at} '{}'", line.escape_ascii());
    let place = if reason == 0 { 0 } else { at };
    text(&what, bytes, SHEET_ROOM, refuse(reason, place))
}

/// A line with all its parts.
const PARTS: [&str; 12] = [
    "SUBC",
    "code=1",
    "position=02",
    "width=03",
    "A=04",
    "B=05",
    "Y=06",
    "write",
    "macro-select",
    "macro-carry",
    "macro-link",
    "borrow",
];

/// How many of them are never left out.
const NEEDED: usize = 7;

/// A line with no switch on.
pub const BARE: [&str; NEEDED] = [
    "SUBC",
    "code=1",
    "position=02",
    "width=03",
    "A=04",
    "B=05",
    "Y=00",
];

/// Every line that is outside the listing by one part of a good one. Each is
/// put in the first, the middle or the last place, in turn.
fn spoilt_parts() -> Vec<Known> {
    let mut lines = Vec::new();
    for i in 0..PARTS.len() {
        lines.extend(spoilt(i));
    }
    let lines = lines.into_iter().enumerate();
    lines
        .map(|(i, line)| with_line(line.as_bytes(), 1 + i % 3, 15))
        .collect()
}

/// The lines with part i misspelt, missing, twice, exchanged with the next one
/// or run into it; a number without digits, with three, or off its name.
fn spoilt(i: usize) -> Vec<String> {
    let instead = |new: &str| {
        let mut parts = PARTS;
        parts[i] = new;
        parts.join(" ")
    };
    let part = PARTS[i];
    let mut lines = vec![
        instead(&format!("x{part}")),
        instead(&format!("{part}x")),
        instead(&part[1..]),
        instead(&format!("{part} {part}")),
    ];
    if i < NEEDED {
        let left = [&PARTS[..i], &PARTS[i + 1..]].concat();
        lines.push(left.join(" "));
    }
    if let Some(next) = PARTS.get(i + 1) {
        let mut parts = PARTS;
        parts.swap(i, i + 1);
        lines.push(parts.join(" "));
        let line = PARTS.join(" ");
        lines.push(line.replace(&format!("{part} {next}"), &format!("{part}{next}")));
    }
    if let Some((name, digits)) = part.split_once('=') {
        lines.push(instead(&format!("{name}=")));
        lines.push(instead(&format!("{name}={:0>3}", digits)));
        lines.push(instead(&format!("{name} ={digits}")));
        lines.push(instead(&format!("{name}= {digits}")));
    }
    lines
}

/// A part put for part i of a line with no switch on, or after them, with the
/// line's reason. There are 20 registers. These too go through the three places
/// in turn.
const OTHER_PARTS: &[(u8, usize, &[u8])] = &[
    // Mnemonics, and what is none.
    (0, 0, b"zero"),
    (0, 0, b"zEro-eXta"),
    (0, 0, b"SUBRC"),
    (0, 0, b"mpudivstp3"),
    (15, 0, b"NOP"),
    (15, 0, b"S"),
    (15, 0, b"SU"),
    (15, 0, b"LOADQ"),
    (15, 0, b"ZERO-EXT"),
    (15, 0, b"ZERO-EXTC"),
    (15, 0, b"ZERO_EXTA"),
    (15, 0, b"ZERO EXTA"),
    (15, 0, b"RSTBIT-STATX"),
    (15, 0, b"MPUDIVSTEP3"),
    (15, 0, b"DN1-OF-A"),
    (15, 0, b"DN\x11-0F-A"),
    (15, 0, b"\xC1DD"),
    (15, 0, b"AD\x04"),
    (15, 0, b"ADD\x00"),
    (15, 0, b"\x00"),
    (15, 0, b"-"),
    (15, 0, b"68"),
    (15, 0, b"S\xC3\x9CB"),
    (
        15,
        0,
        b"SUBSUBSUBSUBSUBSUBSUBSUBSUBSUBSUBSUBSUBSUBSUBSUBSUBSUBSUBSUBSUBSUB",
    ),
    // Numbers in their range, to its ends.
    (0, 1, b"code=3"),
    (0, 1, b"Code=00"),
    (0, 2, b"position=63"),
    (0, 3, b"width=31"),
    (0, 4, b"a=19"),
    (0, 5, b"b=19"),
    (0, 6, b"y=19 write"),
    // Names.
    (15, 1, b"cod=1"),
    (15, 1, b"code:1"),
    (15, 1, b"code1"),
    (15, 1, b"code"),
    (15, 1, b"code==1"),
    (15, 1, b"code\x1D1"),
    (15, 1, b"cod\xE9=1"),
    (15, 1, b"1"),
    (15, 1, b"=1"),
    (15, 2, b"pos=02"),
    (15, 2, b"position-02"),
    (15, 3, b"with=03"),
    (15, 4, b"C=04"),
    (15, 4, b"!=04"),
    (15, 5, b"A=05"),
    (15, 5, b"\"=05"),
    (15, 6, b"Z=06"),
    (15, 6, b"9=06"),
    // Digits.
    (15, 1, b"code=+1"),
    (15, 1, b"code=-1"),
    (15, 1, b"code=0x1"),
    (15, 1, b"code=a"),
    (15, 1, b"code=\x11"),
    (15, 1, b"code=:"),
    (15, 1, b"code=/"),
    (15, 2, b"position=0A"),
    (15, 2, b"position=A0"),
    (15, 2, b"position=1."),
    (15, 2, b"position=1\x00"),
    (15, 2, b"position=\xD9\xA1"),
    (15, 2, b"position=064"),
    (15, 2, b"position=256"),
    (15, 2, b"position=65536"),
    (15, 2, b"position=4294967297"),
    (15, 2, b"position=18446744073709551617"),
    (15, 3, b"width=0 0"),
    (
        15,
        4,
        b"A=00000000000000000000000000000000000000000000000000000000000000004",
    ),
    // Switches.
    (0, 7, b"write"),
    (0, 7, b"Macro-Select BORROW"),
    (0, 7, b"macro-carry"),
    (0, 7, b"macro-link"),
    (0, 7, b"borrow"),
    (15, 7, b"borrow write"),
    (15, 7, b"macro-link macro-carry"),
    (15, 7, b"write borrow write"),
    (15, 7, b"macro"),
    (15, 7, b"macro-"),
    (15, 7, b"macro-select-carry"),
    (15, 7, b"macro_select"),
    (15, 7, b"macro select"),
    (15, 7, b"write=1"),
    (15, 7, b"write,borrow"),
    (15, 7, b"w"),
    (15, 7, b"no-borrow"),
    (15, 7, b"writ\xC5"),
    // What else may stand at the end.
    (0, 7, b"\r"),
    (0, 7, b" \t\r \t"),
    (15, 7, b"; a note"),
    (15, 7, b"# a note"),
    (15, 7, b"-- a note"),
    (15, 7, b"0"),
    (15, 7, b"A=04"),
    (15, 7, b"\x00"),
    (15, 7, b"\x0B"),
    (15, 7, b"\x0C"),
    (15, 7, b"\x1A"),
    (15, 7, b"\x7F"),
    (15, 7, b"\x85"),
    (15, 7, b"\xC2\xA0"),
    (15, 7, b"\xFF"),
    // Numbers that their fields cannot hold.
    (2, 1, b"code=4"),
    (2, 1, b"code=99"),
    (2, 2, b"position=64"),
    (2, 2, b"position=99"),
    (2, 3, b"width=32"),
    (2, 3, b"width=99"),
    (2, 4, b"A=64"),
    (2, 4, b"A=99"),
    (2, 5, b"B=64"),
    (2, 5, b"B=99"),
    (2, 6, b"Y=64"),
    (2, 6, b"Y=99"),
    (2, 6, b"Y=64 write"),
    (2, 6, b"Y=99 write borrow"),
    // Y is 0 where write is off, and any register where it is on.
    (0, 6, b"Y=0"),
    (0, 6, b"y=00 macro-select macro-carry macro-link borrow"),
    (0, 6, b"Y=0 write"),
    (0, 6, b"Y=01 WRITE borrow"),
    (17, 6, b"Y=1"),
    (17, 6, b"Y=01"),
    (17, 6, b"Y=06"),
    (17, 6, b"y=10"),
    (17, 6, b"Y=19 borrow"),
    (17, 6, b"Y=19 macro-select macro-carry macro-link borrow"),
    // Registers that are not below the count; but one that is left idle.
    (9, 4, b"A=20"),
    (9, 4, b"A=63"),
    (9, 5, b"B=20"),
    (9, 5, b"B=63"),
    (9, 6, b"Y=20 write"),
    (9, 6, b"Y=63 write"),
    (9, 6, b"Y=20 write macro-carry"),
    (17, 6, b"Y=20"),
    (17, 6, b"Y=63"),
    (17, 6, b"Y=20 macro-carry"),
];

fn other_parts() -> Vec<Known> {
    let line = |at: usize, part: &[u8]| {
        let mut parts = BARE.map(str::as_bytes).to_vec();
        parts.splice(at..NEEDED.min(at + 1), [part]);
        parts.join(&b' ')
    };
    let parts = OTHER_PARTS.iter().enumerate();
    parts
        .map(|(i, &(reason, at, part))| with_line(&line(at, part), 1 + i % 3, reason))
        .collect()
}

/// Lines that are empty, and lines with more than one fault: 15 Text, then 2
/// Inputs, then 17 Idle, then 9 Register. Each is put in all three places.
const OTHER_LINES: &[(u8, &[u8])] = &[
    (15, b""),
    (15, b" "),
    (15, b"\r"),
    (15, b"\x00"),
    (15, b"version=1 registers=20"),
    (15, b"SUBC"),
    (15, b"code=1 position=02 width=03 A=04 B=05 Y=06 SUBC"),
    (15, b"SUBC write code=1 position=02 width=03 A=04 B=05 Y=06"),
    (15, b"NOP code=4 position=02 width=03 A=20 B=05 Y=06"),
    (15, b"SUBC code=4 position=02 width=03 A=04 B=05"),
    (15, b"SUBC code=4 position=02 width=03 A=04 B=05 Y=006"),
    (15, b"SUBC code=4 position=02 width=03 A=04 B=05 Y=06 x"),
    (
        15,
        b"SUBC code=4 position=64 width=32 A=64 B=64 Y=64 borrow write",
    ),
    (15, b"SUBC code=1 position=02 width=03 A=20 B=05 Y=06 x"),
    (15, b"SUBC code=1 position=02 width=03 A=20 B=64 Y=100"),
    (2, b"SUBC code=4 position=02 width=03 A=20 B=05 Y=06"),
    (2, b"SUBC code=1 position=02 width=32 A=20 B=20 Y=20 write"),
    (2, b"SUBC code=1 position=02 width=03 A=20 B=05 Y=64"),
    (2, b"SUBC code=1 position=02 width=03 A=64 B=20 Y=06"),
    (2, b"SUBC code=4 position=02 width=03 A=04 B=05 Y=06"),
    (17, b"SUBC code=1 position=02 width=03 A=20 B=05 Y=06"),
    (
        17,
        b"SUBC code=1 position=02 width=03 A=20 B=63 Y=20 borrow",
    ),
    (9, b"SUBC code=1 position=02 width=03 A=20 B=05 Y=00 borrow"),
    (
        9,
        b"SUBC code=1 position=02 width=03 A=20 B=63 Y=20 write borrow",
    ),
];

fn other_lines() -> Vec<Known> {
    let places = |&(reason, line): &(u8, &'static [u8])| {
        (1..=3).map(move |place| with_line(line, place, reason))
    };
    OTHER_LINES.iter().flat_map(places).collect()
}

/// 14 Room after the lines' reasons: PLAIN's sheet has 22 bytes.
fn text_rooms() -> Vec<Known> {
    let plain = || PLAIN.as_bytes().to_vec();
    let first = || b"version=1 registers=20".to_vec();
    let bad = PLAIN.replace("Y=10", "Y=20").into_bytes();
    let idle = PLAIN.replace("Y=00", "Y=01").into_bytes();
    let worse = PLAIN.replace("OR ", "ROR").into_bytes();
    vec![
        text("exactly enough", plain(), 22, DONE),
        text("one byte too small", plain(), 21, refuse(14, 0)),
        text("no room", plain(), 0, refuse(14, 0)),
        text("room for no word", first(), 4, DONE),
        text("a byte short for no word", first(), 3, refuse(14, 0)),
        text("register before room", bad, 0, refuse(9, 2)),
        text("idle before room", idle, 21, refuse(17, 3)),
        text("text before room", worse, 21, refuse(15, 3)),
        text("empty before room", vec![], 0, refuse(15, 0)),
    ]
}

/// 4,095 word lines; one more, which is told before the room and after every
/// line.
fn long_texts() -> Vec<Known> {
    let short = |count: usize| format!("version=1 registers=1\n{}", SHORT.repeat(count));
    let most = short(MOST_WORDS);
    let bad = most.clone() + "or\n";
    let more = short(MOST_WORDS + 1);
    vec![
        text("4,095 word lines", most.into_bytes(), SHEET_ROOM, DONE),
        text("4,096 word lines", more.into_bytes(), 0, refuse(16, 0)),
        text(
            "the 4,096th bad",
            bad.into_bytes(),
            SHEET_ROOM,
            refuse(15, 4096),
        ),
    ]
}
