//! Cases of the lister and the reader, many in one file, and the line that
//! answers each; the trial of the planted faults.

use crate::faults::{try_each, Faults, IN_LISTINGS};
use crate::listing::{list, LISTING_ROOM};
use crate::listing_cases::{known, Known};
use crate::reader::{read, SHEET_ROOM};
use crate::sheet::{Verdict, DONE};

/// What a case asks for.
#[derive(Clone, Copy, PartialEq, Debug)]
pub enum Kind {
    /// A sheet to list.
    Sheet,
    /// A text to read.
    Text,
}

/// A case: what goes in, and how many bytes are lent for what comes out.
#[derive(Clone, PartialEq, Debug)]
pub struct Case {
    pub kind: Kind,
    pub room: usize,
    pub bytes: Vec<u8>,
}

/// What the bytes of a lent buffer are beforehand.
pub const BEFORE: u8 = 0xA5;
/// So many bytes past the last one written go into the answer's hash.
const PAST: usize = 64;

impl Case {
    fn letter(&self) -> char {
        match self.kind {
            Kind::Sheet => 's',
            Kind::Text => 't',
        }
    }

    /// The buffer afterwards, and the bytes written or the refusal.
    pub fn result(&self, faults: &Faults) -> (Vec<u8>, Result<usize, Verdict>) {
        let mut out = vec![BEFORE; self.room];
        let result = match self.kind {
            Kind::Sheet => list(&self.bytes, &mut out, faults),
            Kind::Text => read(&self.bytes, &mut out, faults),
        };
        (out, result)
    }

    /// The line that answers the case.
    pub fn answer(&self, faults: &Faults) -> String {
        let (out, result) = self.result(faults);
        let verdict = result.err().unwrap_or(DONE);
        let written = result.unwrap_or(0);
        let looked_at = &out[..out.len().min(written + PAST)];
        let mut line = format!("{} {:02} ", self.letter(), verdict.reason);
        line += &format!("{:04X} {written:08X} ", verdict.place % 0x10000);
        line += &format!("{:08X}", hash(looked_at));
        if result.is_ok() {
            line += &match self.kind {
                Kind::Sheet => self.and_back(&out[..written], faults),
                Kind::Text => listing_of(&out[..written], faults),
            };
        }
        line + "\n"
    }

    /// Whether the listing, read, gives the sheet back.
    fn and_back(&self, text: &[u8], faults: &Faults) -> String {
        let mut sheet = vec![BEFORE; SHEET_ROOM];
        let back = match read(text, &mut sheet, faults) {
            Ok(length) => sheet[..length] == self.bytes,
            Err(_) => false,
        };
        let word = if back { " same" } else { " differs" };
        word.to_string()
    }
}

/// Length and hash of the listing of a sheet that was read.
fn listing_of(sheet: &[u8], faults: &Faults) -> String {
    let mut text = vec![BEFORE; LISTING_ROOM];
    let length = list(sheet, &mut text, faults).unwrap_or(0);
    format!(" {length:08X} {:08X}", hash(&text[..length]))
}

/// FNV-1a, 32 bits.
pub fn hash(bytes: &[u8]) -> u32 {
    let next = |h: u32, &byte: &u8| (h ^ u32::from(byte)).wrapping_mul(16_777_619);
    bytes.iter().fold(2_166_136_261, next)
}

/// The cases as one file: of each its letter, room and length in four bytes
/// each, high first, and its bytes.
pub fn bundle_of(cases: &[Case]) -> Vec<u8> {
    let mut bundle = Vec::new();
    for case in cases {
        bundle.push(case.letter() as u8);
        for number in [case.room, case.bytes.len()] {
            bundle.extend((number as u32).to_be_bytes());
        }
        bundle.extend(&case.bytes);
    }
    bundle
}

/// The cases of a file; none where it is not such a file.
pub fn cases_of(mut bundle: &[u8]) -> Option<Vec<Case>> {
    let mut cases = Vec::new();
    while let [letter, rest @ ..] = bundle {
        let kind = match letter {
            b's' => Kind::Sheet,
            b't' => Kind::Text,
            _ => return None,
        };
        let (room, rest) = rest.split_first_chunk()?;
        let (length, rest) = rest.split_first_chunk()?;
        let (bytes, rest) = rest.split_at_checked(u32::from_be_bytes(*length) as usize)?;
        cases.push(Case {
            kind,
            room: u32::from_be_bytes(*room) as usize,
            bytes: bytes.to_vec(),
        });
        bundle = rest;
    }
    Some(cases)
}

/// The answers, a line each.
pub fn answers(cases: &[Case]) -> String {
    let answer = |case: &Case| case.answer(&Faults::none());
    cases.iter().map(answer).collect()
}

/// The faults of the listing, over those cases of the gate that stand in this
/// program.
pub fn try_faults() -> bool {
    let cases = known();
    let answers = |faults: &Faults| -> Vec<String> {
        let answer = |known: &Known| known.case.answer(faults);
        cases.iter().map(answer).collect()
    };
    let name = |i: usize| cases[i].what.clone();
    try_each(IN_LISTINGS, "cases of listings", answers, name)
}
