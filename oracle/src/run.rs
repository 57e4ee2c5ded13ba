//! Running a sheet on a lent file of registers.

use crate::faults::{Fault, Faults};
use crate::sheet::{check_with, word_at, Verdict, Word};
use crate::status::Mode;
use crate::word::{reason, single, worked_out, Answer, Inputs};

/// Q and the status register; a fresh machine has both at zero.
#[derive(Clone, Copy, Default, PartialEq, Debug)]
pub struct Machine {
    pub q: u32,
    pub status: u32,
}

/// What a run gives: reason and place (words run, where done), and the machine.
#[derive(Clone, Copy, PartialEq, Debug)]
pub struct Ran {
    pub verdict: Verdict,
    pub machine: Machine,
}

/// Runs one word: reads A and B from the file, stores Y where write is 1. The
/// status is left as the word reads it, by its own borrow switch.
pub fn step(word: &Word, file: &mut [u32], machine: &mut Machine, faults: &Faults) -> Answer {
    let register = |field: u8| match faults.has(Fault::RegisterOfFiveBits) {
        true => usize::from(field % 32),
        false => usize::from(field),
    };
    let answer = single(
        &Inputs {
            opcode: word.opcode,
            byte_code: word.byte_code,
            position: word.position,
            width: word.width,
            macro_select: word.macro_select,
            macro_carry: word.macro_carry,
            macro_link: word.macro_link,
            borrow: word.borrow,
            a: file[register(word.a)],
            b: file[register(word.b)],
            q: machine.q,
            status: machine.status,
        },
        faults,
    );
    if word.write == 1 || faults.has(Fault::WriteIgnored) {
        let to_b = faults.has(Fault::StoredToB);
        file[register(if to_b { word.b } else { word.y })] = answer.y;
    }
    machine.q = answer.q;
    machine.status = answer.status;
    answer
}

/// Runs a sheet from a start word with an allowance. A refusal runs nothing
/// and leaves the file and the machine as they were.
pub fn run(
    sheet: &[u8],
    file: &mut [u32],
    machine: Machine,
    start: usize,
    allowance: usize,
) -> Ran {
    run_with(sheet, file, machine, start, allowance, &Faults::none())
}

/// The same with a fault that may be planted.
pub fn run_with(
    sheet: &[u8],
    file: &mut [u32],
    mut machine: Machine,
    start: usize,
    allowance: usize,
    faults: &Faults,
) -> Ran {
    let header = match check_with(sheet, Some(file.len()), Some(start), faults) {
        Ok(header) => header,
        Err(verdict) => return refused(verdict, machine, faults),
    };
    let mut words = allowance.min(header.count - start);
    if faults.has(Fault::AllowanceIgnored) {
        words = header.count - start;
    }
    for i in start..start + words {
        step(&word_at(sheet, i), file, &mut machine, faults);
    }
    let verdict = Verdict {
        reason: reason::DONE,
        place: words,
    };
    let machine = handed_back(machine, words, faults);
    Ran { verdict, machine }
}

fn refused(verdict: Verdict, machine: Machine, faults: &Faults) -> Ran {
    let machine = match faults.has(Fault::RefusedRunWorksOutStatus) {
        true => settled(machine, Mode::Carry, faults),
        false => machine,
    };
    Ran { verdict, machine }
}

/// An accepted run hands the status back in carry mode, whatever the switch of
/// its last word, and even where no word runs.
fn handed_back(machine: Machine, words: usize, faults: &Faults) -> Machine {
    let as_left = match words {
        0 => faults.has(Fault::RunOfNoneKeepsStatus),
        _ => faults.has(Fault::RunByLastWord),
    };
    if as_left {
        return machine;
    }
    let borrow = words == 0 && faults.has(Fault::RunOfNoneInBorrowMode);
    settled(machine, Mode::of(borrow), faults)
}

/// The machine with bits 13, 14, 15 and 23 of its status worked out.
pub fn settled(machine: Machine, mode: Mode, faults: &Faults) -> Machine {
    Machine {
        q: machine.q,
        status: worked_out(machine.status, mode, faults),
    }
}
