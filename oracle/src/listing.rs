//! The lister: from a sheet to the one text that says it (docs/LISTING.md,
//! after document 02, request 2).

use crate::faults::{Fault, Faults};
use crate::pages::MNEMONICS;
use crate::sheet::{check, header, refuse, word_at, Header, Verdict, Word};
use crate::word::reason;
use std::fmt::Write;

/// A buffer of so many bytes holds every listing.
pub const LISTING_ROOM: usize = 425_903;

/// Lists a sheet into a lent buffer and tells how many bytes that took. The
/// sheet's own reasons, then 14 Room.
pub fn list(sheet: &[u8], out: &mut [u8], faults: &Faults) -> Result<usize, Verdict> {
    let header = checked(sheet, faults)?;
    let mut text = format!("version=1 registers={:02}\n", header.registers);
    for i in 0..header.count {
        add_line(&mut text, &word_at(sheet, i), faults);
    }
    hand_out(text.as_bytes(), out, faults)
}

fn checked(sheet: &[u8], faults: &Faults) -> Result<Header, Verdict> {
    let unchecked = |reason: u8| match reason {
        reason::REGISTER => faults.has(Fault::RegisterListedUnchecked),
        reason::IDLE => faults.has(Fault::IdleWordListed),
        _ => false,
    };
    match check(sheet, None, None) {
        Err(verdict) if unchecked(verdict.reason) => header(sheet),
        result => result,
    }
}

/// A word's line: the mnemonic in twelve columns, six numbers, and the
/// switches that are on.
fn add_line(text: &mut String, word: &Word, faults: &Faults) {
    let mnemonic = MNEMONICS[usize::from(word.opcode)];
    let columns = 12 - usize::from(faults.has(Fault::ElevenColumns));
    write!(text, "{mnemonic:columns$}").expect("text");
    let Word {
        byte_code,
        position,
        mut width,
        mut a,
        mut b,
        y,
        ..
    } = *word;
    if faults.has(Fault::WidthZeroListedAs32) && width == 0 {
        width = 32;
    }
    if faults.has(Fault::AAndBListedExchanged) {
        (a, b) = (b, a);
    }
    write!(text, "code={byte_code} position={position:02} ").expect("text");
    write!(text, "width={width:02} A={a:02} B={b:02} Y={y:02}").expect("text");
    text.push_str(&switches_on(word, faults));
    text.push('\n');
}

fn switches_on(word: &Word, faults: &Faults) -> String {
    let mut names = String::new();
    let mut add = |on: bool, name: &str| names.push_str(if on { name } else { "" });
    add(word.write == 1, " write");
    add(word.macro_select == 1, " macro-select");
    add(word.macro_carry == 1, " macro-carry");
    let link = word.macro_link == 1 && !faults.has(Fault::MacroLinkNotListed);
    add(link, " macro-link");
    add(word.borrow == 1, " borrow");
    names
}

/// Puts what was made into a lent buffer and tells how many bytes it has. 14
/// Room where it does not fit. Bytes past it stay, and a refusal changes none.
pub fn hand_out(made: &[u8], out: &mut [u8], faults: &Faults) -> Result<usize, Verdict> {
    let room = out.len() - usize::from(faults.has(Fault::RoomOneMore) && !out.is_empty());
    if made.len() > room {
        if faults.has(Fault::RefusedRoomWritten) {
            out.copy_from_slice(&made[..out.len()]);
        }
        return Err(refuse(reason::ROOM, 0));
    }
    out[..made.len()].copy_from_slice(made);
    if faults.has(Fault::RestCleared) {
        out[made.len()..].fill(0);
    }
    Ok(made.len())
}
