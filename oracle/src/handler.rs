//! The handler's form (document 01, "The handler's form"; document 02, request
//! 5, for the Y field of a word that does not write).

use crate::faults::{Fault, Faults};
use crate::pages::number_of;
use crate::sheet::{check, refuse, word_at, Header, Verdict, Word};
use crate::word::reason;

/// Checks a sheet handed in as a handler: its own reasons, then 11 Form.
pub fn check_handler(sheet: &[u8], lent: Option<usize>) -> Result<Header, Verdict> {
    let header = check(sheet, lent, None)?;
    check_form(sheet, header, &Faults::none())?;
    Ok(header)
}

/// 11 Form, at the first word that breaks any clause.
pub fn check_form(sheet: &[u8], header: Header, faults: &Faults) -> Result<(), Verdict> {
    let count = header.count;
    if count < 6 {
        return Err(refuse(reason::FORM, 0));
    }
    let save = Save::of(&word_at(sheet, 0), &word_at(sheet, 1), faults);
    for i in 0..count {
        let word = word_at(sheet, i);
        let named = match faults.has(Fault::IdleYNamesInForm) {
            true => word.registers().to_vec(),
            false => word.named(),
        };
        if !save.allows(&word, &named, i, count) {
            return Err(refuse(reason::FORM, i));
        }
    }
    Ok(())
}

/// The save registers: the Y fields of words 0 and 1 as they stand, even where
/// those words are at fault. Where word 1 does not write, q is register 0.
struct Save {
    s: u8,
    q: u8,
}

impl Save {
    fn of(first: &Word, second: &Word, faults: &Faults) -> Save {
        let s = first.y;
        let no_q = second.write == 0 && faults.has(Fault::QWhereWordOneWrites);
        let q = if no_q { s } else { second.y };
        Save { s, q }
    }

    /// The registers that the word names are handed in, A and B first.
    fn allows(&self, word: &Word, named: &[u8], i: usize, count: usize) -> bool {
        match i {
            0 => is_fixed(word, "PASS-STAT", 1) && self.free(&named[..2]),
            1 => is_fixed(word, "PASS-Q", 1) && self.free(&named[..2]) && self.s != self.q,
            2 => is_fixed(word, "LOADQ-A", 0) && self.free(named),
            3 => is_fixed(word, "LDSTAT-A", 0) && self.free(named),
            _ if i + 2 == count => self.restores(word, named, "LOADQ-A", self.q),
            _ if i + 1 == count => self.restores(word, named, "LDSTAT-A", self.s),
            _ => self.free(named),
        }
    }

    /// Last but one and last: A is the save register, and no other is named.
    fn restores(&self, word: &Word, named: &[u8], mnemonic: &str, from: u8) -> bool {
        is_fixed(word, mnemonic, 0) && word.a == from && self.free(&named[1..])
    }

    /// None of these registers is s or q.
    fn free(&self, named: &[u8]) -> bool {
        named.iter().all(|&r| r != self.s && r != self.q)
    }
}

/// One of the six fixed words: its opcode, byte code 00, its write bit, all
/// switches 0. Position and width are free.
fn is_fixed(word: &Word, mnemonic: &str, write: u8) -> bool {
    word.opcode == number_of(mnemonic)
        && word.byte_code == 0
        && word.write == write
        && word.macro_select == 0
        && word.macro_carry == 0
        && word.macro_link == 0
        && word.borrow == 0
}
