//! Words and sheets as packed bits, most significant first: packing,
//! unpacking and checking (document 01, "Sheets and words"). A word that does
//! not write has its Y field 0 (document 02, request 5).

use crate::faults::{Fault, Faults};
use crate::pages::has_page;
use crate::word::reason;

/// A reason and its place.
#[derive(Clone, Copy, PartialEq, Debug)]
pub struct Verdict {
    pub reason: u8,
    pub place: usize,
}

pub const DONE: Verdict = Verdict {
    reason: reason::DONE,
    place: 0,
};

/// A refusal at a place.
pub fn refuse(reason: u8, place: usize) -> Verdict {
    Verdict { reason, place }
}

/// The fields of a word, in the order they are packed.
#[derive(Clone, Copy, Default, PartialEq, Debug)]
pub struct Word {
    pub opcode: u8,
    pub byte_code: u8,
    pub position: u8,
    pub width: u8,
    pub a: u8,
    pub b: u8,
    pub y: u8,
    pub write: u8,
    pub macro_select: u8,
    pub macro_carry: u8,
    pub macro_link: u8,
    pub borrow: u8,
}

/// How many bits each field has, in the same order; five zero bits follow.
const FIELD_BITS: [usize; 12] = [7, 2, 6, 5, 6, 6, 6, 1, 1, 1, 1, 1];

/// Bytes of a sheet's header and of a word.
pub const HEADER: usize = 4;
pub const WORD: usize = 6;

impl Word {
    fn fields(&self) -> [u8; 12] {
        [
            self.opcode,
            self.byte_code,
            self.position,
            self.width,
            self.a,
            self.b,
            self.y,
            self.write,
            self.macro_select,
            self.macro_carry,
            self.macro_link,
            self.borrow,
        ]
    }

    fn from_fields(f: [u8; 12]) -> Word {
        Word {
            opcode: f[0],
            byte_code: f[1],
            position: f[2],
            width: f[3],
            a: f[4],
            b: f[5],
            y: f[6],
            write: f[7],
            macro_select: f[8],
            macro_carry: f[9],
            macro_link: f[10],
            borrow: f[11],
        }
    }

    /// The three register fields as they stand, all of which 9 Register looks at.
    pub fn registers(&self) -> [u8; 3] {
        [self.a, self.b, self.y]
    }

    /// The registers that the word names in the form and for 12 Overlap: A and B,
    /// used or not, and then Y where the word writes.
    pub fn named(&self) -> Vec<u8> {
        match self.write {
            1 => vec![self.a, self.b, self.y],
            _ => vec![self.a, self.b],
        }
    }

    /// Is the Y field left idle: not 0, and the word does not write?
    pub fn is_idle(&self) -> bool {
        self.write == 0 && self.y != 0
    }

    /// The word with its Y field 0 where it does not write.
    pub fn without_idle(self) -> Word {
        match self.write {
            0 => Word { y: 0, ..self },
            _ => self,
        }
    }
}

/// Bit `at` of a row of bytes, most significant first.
fn bit(bytes: &[u8], at: usize) -> bool {
    (bytes[at / 8] >> (7 - at % 8)) & 1 == 1
}

/// The number in `count` bits from bit `at` on.
fn number(bytes: &[u8], at: usize, count: usize) -> usize {
    (at..at + count).fold(0, |value, i| value * 2 + usize::from(bit(bytes, i)))
}

/// Puts a number into `count` bits from bit `at` on.
fn put(bytes: &mut [u8], at: usize, count: usize, value: usize) {
    for i in 0..count {
        let mask = 1 << (7 - (at + i) % 8);
        let set = (value >> (count - 1 - i)) & 1 == 1;
        let byte = &mut bytes[(at + i) / 8];
        *byte = if set { *byte | mask } else { *byte & !mask };
    }
}

/// Packs a word: 1 Opcode, 2 Inputs, 17 Idle, 14 Room; bytes past the sixth
/// stay, and a refusal changes none.
pub fn pack(word: &Word, out: &mut [u8]) -> Verdict {
    pack_with(word, out, &Faults::none())
}

/// The same with a fault that may be planted.
pub fn pack_with(word: &Word, out: &mut [u8], faults: &Faults) -> Verdict {
    let idle = word.is_idle() && !faults.has(Fault::IdleWordPacked);
    if idle && faults.has(Fault::PackedIdleBeforeOpcode) {
        return refuse(reason::IDLE, 0);
    }
    if !has_page(word.opcode) {
        return refuse(reason::OPCODE, 0);
    }
    if idle && faults.has(Fault::PackedIdleBeforeInputs) {
        return refuse(reason::IDLE, 0);
    }
    let too_large = |(&value, &bits): (&u8, &usize)| usize::from(value) >> bits != 0;
    if word.fields().iter().zip(&FIELD_BITS).any(too_large) {
        return refuse(reason::INPUTS, 0);
    }
    if idle {
        return refuse(reason::IDLE, 0);
    }
    if out.len() < WORD {
        return refuse(reason::ROOM, 0);
    }
    put_fields(word, &mut out[..WORD]);
    DONE
}

fn put_fields(word: &Word, out: &mut [u8]) {
    let mut at = 0;
    for (value, bits) in word.fields().into_iter().zip(FIELD_BITS) {
        put(out, at, bits, usize::from(value));
        at += bits;
    }
    put(out, at, 5, 0);
}

/// Unpacks the first six bytes: 14 Room, 8 Spare, 17 Idle, 1 Opcode; a refusal
/// gives all fields 0.
pub fn unpack(bytes: &[u8]) -> (Verdict, Word) {
    unpack_with(bytes, &Faults::none())
}

/// The same with a fault that may be planted.
fn unpack_with(bytes: &[u8], faults: &Faults) -> (Verdict, Word) {
    if bytes.len() < WORD {
        return (refuse(reason::ROOM, 0), Word::default());
    }
    let word = fields_of(bytes);
    match word_reason(&word, number(bytes, 43, 5) != 0, faults) {
        reason::DONE => (DONE, word),
        reason => (refuse(reason, 0), Word::default()),
    }
}

/// 8 Spare, 17 Idle, 1 Opcode.
fn word_reason(word: &Word, spare: bool, faults: &Faults) -> u8 {
    let no_page = !has_page(word.opcode);
    let idle = word.is_idle() && !faults.has(Fault::IdleWordTaken);
    if spare && !(idle && faults.has(Fault::IdleBeforeSpare)) {
        reason::SPARE
    } else if idle && !(no_page && faults.has(Fault::IdleAfterOpcode)) {
        reason::IDLE
    } else if no_page {
        reason::OPCODE
    } else {
        reason::DONE
    }
}

fn fields_of(bytes: &[u8]) -> Word {
    let mut fields = [0; 12];
    let mut at = 0;
    for (field, bits) in fields.iter_mut().zip(FIELD_BITS) {
        *field = number(bytes, at, bits) as u8;
        at += bits;
    }
    Word::from_fields(fields)
}

/// The header's numbers.
#[derive(Clone, Copy)]
pub struct Header {
    pub count: usize,
    pub registers: usize,
}

/// Reads a header: 3 Short, 4 Version, 5 Header.
pub fn header(sheet: &[u8]) -> Result<Header, Verdict> {
    if sheet.len() < HEADER {
        return Err(refuse(reason::SHORT, 0));
    }
    if number(sheet, 0, 4) != 1 {
        return Err(refuse(reason::VERSION, 0));
    }
    let header = Header {
        count: number(sheet, 4, 12),
        registers: number(sheet, 16, 7),
    };
    if number(sheet, 23, 9) != 0 || header.registers == 0 || header.registers > 64 {
        return Err(refuse(reason::HEADER, 0));
    }
    Ok(header)
}

/// The word numbered `i` of a sheet that is long enough.
pub fn word_at(sheet: &[u8], i: usize) -> Word {
    fields_of(&sheet[HEADER + WORD * i..])
}

/// Checks the words in order, in each 8 Spare, 17 Idle, 1 Opcode, 9 Register.
pub fn check_words(sheet: &[u8], header: Header, faults: &Faults) -> Result<(), Verdict> {
    for i in 0..header.count {
        let bytes = &sheet[HEADER + WORD * i..];
        let (verdict, word) = unpack_with(bytes, faults);
        if verdict != DONE {
            return Err(refuse(verdict.reason, i));
        }
        let outside = |&r: &u8| usize::from(r) >= header.registers;
        if word.registers().iter().any(outside) {
            return Err(refuse(reason::REGISTER, i));
        }
    }
    Ok(())
}

/// Checks a sheet: 3 to 7, its words, then 10. No file lent skips 7, no start
/// word skips 10.
pub fn check(sheet: &[u8], lent: Option<usize>, start: Option<usize>) -> Result<Header, Verdict> {
    check_with(sheet, lent, start, &Faults::none())
}

/// The same with a fault that may be planted.
pub fn check_with(
    sheet: &[u8],
    lent: Option<usize>,
    start: Option<usize>,
    faults: &Faults,
) -> Result<Header, Verdict> {
    let header = header(sheet)?;
    if sheet.len() != HEADER + WORD * header.count {
        return Err(refuse(reason::LENGTH, 0));
    }
    if lent.is_some_and(|lent| lent < header.registers) {
        return Err(refuse(reason::FILE, 0));
    }
    check_words(sheet, header, faults)?;
    let most = header
        .count
        .saturating_sub(usize::from(faults.has(Fault::StartAtEndRefused)));
    if start.is_some_and(|start| start > most) {
        return Err(refuse(reason::START, 0));
    }
    Ok(header)
}

/// Builds a sheet from words that pack.
pub fn build(words: &[Word], registers: usize) -> Vec<u8> {
    let mut sheet = vec![0; HEADER + WORD * words.len()];
    put(&mut sheet, 0, 4, 1);
    put(&mut sheet, 4, 12, words.len());
    put(&mut sheet, 16, 7, registers);
    for (i, word) in words.iter().enumerate() {
        let at = HEADER + WORD * i;
        assert_eq!(pack(word, &mut sheet[at..at + WORD]), DONE);
    }
    sheet
}
