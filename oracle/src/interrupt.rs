//! The interrupted run: a main sheet, one handler, a schedule of boundaries.

use crate::faults::{Fault, Faults};
use crate::handler::check_form;
use crate::run::{settled, step, Machine};
use crate::sheet::{check, refuse, word_at, Header, Verdict, Word};
use crate::status::Mode;
use crate::word::reason;

/// The most entries a schedule may have.
pub const MOST_ENTRIES: usize = 1024;

/// Which sheet a refusal's fault is in.
pub const NEITHER: u8 = 0;
pub const MAIN: u8 = 1;
pub const HANDLER: u8 = 2;

/// What an interrupted run gives.
#[derive(Clone, Copy, PartialEq, Debug)]
pub struct Interrupted {
    pub verdict: Verdict,
    pub mark: u8,
    pub machine: Machine,
}

/// Runs the main sheet from word 0 to its end with the handler let in.
pub fn run_interrupted(
    main: &[u8],
    handler: &[u8],
    schedule: &[u16],
    file: &mut [u32],
    machine: Machine,
) -> Interrupted {
    let faults = Faults::none();
    run_interrupted_with(main, handler, schedule, file, machine, &faults)
}

/// The same with a fault that may be planted.
pub fn run_interrupted_with(
    main: &[u8],
    handler: &[u8],
    schedule: &[u16],
    file: &mut [u32],
    mut machine: Machine,
    faults: &Faults,
) -> Interrupted {
    let checked = check_all(main, handler, schedule, file.len(), faults);
    let (main_header, handler_header) = match checked {
        Ok(headers) => headers,
        Err((verdict, mark)) => return refused(verdict, mark, machine, faults),
    };
    let order = order(schedule, main_header.count, handler_header.count);
    for &(from_handler, i) in &order {
        let sheet = if from_handler { handler } else { main };
        step(&word_at(sheet, i), file, &mut machine, faults);
    }
    Interrupted {
        verdict: refuse(reason::DONE, order.len()),
        mark: NEITHER,
        machine: handed_back(machine, order.len(), faults),
    }
}

fn refused(verdict: Verdict, mark: u8, machine: Machine, faults: &Faults) -> Interrupted {
    let machine = match faults.has(Fault::RefusedInterruptedWorksOutStatus) {
        true => settled(machine, Mode::Carry, faults),
        false => machine,
    };
    Interrupted {
        verdict,
        mark,
        machine,
    }
}

/// In carry mode, as a run hands it back.
fn handed_back(machine: Machine, words: usize, faults: &Faults) -> Machine {
    if words != 0 && faults.has(Fault::InterruptedByLastWord) {
        return machine;
    }
    let borrow = words == 0 && faults.has(Fault::InterruptedOfNoneInBorrowMode);
    settled(machine, Mode::of(borrow), faults)
}

/// Every word in the order it runs: is it the handler's, and its number. An
/// entry b runs the whole handler after b main words.
fn order(schedule: &[u16], main_count: usize, handler_count: usize) -> Vec<(bool, usize)> {
    let mut order = Vec::new();
    for boundary in 0..=main_count {
        for _ in schedule.iter().filter(|&&b| usize::from(b) == boundary) {
            order.extend((0..handler_count).map(|i| (true, i)));
        }
        if boundary < main_count {
            order.push((false, boundary));
        }
    }
    order
}

/// Main sheet, handler sheet, 11 Form, 12 Overlap, 13 Schedule.
fn check_all(
    main: &[u8],
    handler: &[u8],
    schedule: &[u16],
    lent: usize,
    faults: &Faults,
) -> Result<(Header, Header), (Verdict, u8)> {
    let main_header = check(main, Some(lent), None).map_err(|v| (v, MAIN))?;
    let handler_header = check(handler, Some(lent), None).map_err(|v| (v, HANDLER))?;
    check_form(handler, handler_header, faults).map_err(|v| (v, HANDLER))?;
    check_overlap(main, main_header, handler, handler_header, faults).map_err(|v| (v, MAIN))?;
    check_schedule(schedule, main_header.count).map_err(|v| (v, NEITHER))?;
    Ok((main_header, handler_header))
}

/// 12 Overlap, at the first main word naming a register the handler names.
fn check_overlap(
    main: &[u8],
    main_header: Header,
    handler: &[u8],
    handler_header: Header,
    faults: &Faults,
) -> Result<(), Verdict> {
    let mut taken = [false; 64];
    for i in 0..handler_header.count {
        for register in named(&word_at(handler, i), Fault::IdleYOfHandlerNames, faults) {
            taken[usize::from(register)] = true;
        }
    }
    for i in 0..main_header.count {
        let named = named(&word_at(main, i), Fault::IdleYOfMainNames, faults);
        if named.iter().any(|&r| taken[usize::from(r)]) {
            return Err(refuse(reason::OVERLAP, i));
        }
    }
    Ok(())
}

/// The registers that a word names; with this fault the Y field whatever write
/// says.
fn named(word: &Word, with_y: Fault, faults: &Faults) -> Vec<u8> {
    if faults.has(with_y) {
        return word.registers().to_vec();
    }
    if word.write == 0 && faults.has(Fault::WordWithoutWriteNamesNone) {
        return vec![];
    }
    word.named()
}

/// 13 Schedule, at the first entry too many, out of range or falling.
fn check_schedule(schedule: &[u16], main_count: usize) -> Result<(), Verdict> {
    let mut last = 0;
    for (i, &entry) in schedule.iter().enumerate() {
        if i == MOST_ENTRIES || usize::from(entry) > main_count || entry < last {
            return Err(refuse(reason::SCHEDULE, i));
        }
        last = entry;
    }
    Ok(())
}
