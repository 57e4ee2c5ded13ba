//! A host for the proved Am29332 in Rust: lists a sheet and reads the listing back, runs it, word
//! by word, at once, in parts and interrupted, and prints what happened, as examples/c-host does.
//!
//!     rust-host FILE.sheet     the sheet, then its registers, 4 bytes each, high first
mod am29332;

use am29332::{
    check_handler, check_sheet, interrupted_run, library_version, list_sheet, read_header,
    read_listing, run, step, Inputs, Machine, Refusal, Shown, Word, LISTING_MOST, SHEET_MOST,
};
use std::process::exit;

const HEADER_BYTES: usize = 4;
const WORD_BYTES: usize = 6;
const MOST_REGISTERS: usize = 64;
const MOST_ENTRIES: usize = 1024;
const HANDLER_REGISTERS: usize = 4;
const PANEL_WORDS: usize = 8;
const LISTING_LINES: usize = 8;

// Opcodes of the handler's words, and of the subtraction.
const PASS_STAT: u32 = 0x04;
const PASS_Q: u32 = 0x05;
const LOADQ_A: u32 = 0x06;
const INCR_A: u32 = 0x12;
const LDSTAT_A: u32 = 0x1C;
const SUB: u32 = 0x44;

type File = [u32; MOST_REGISTERS];

/// A sheet and the registers it starts with.
struct Job {
    sheet: Vec<u8>,
    words: usize,
    registers: usize,
    file: File,
}

// ---- printing

fn print_outcome(what: &str, outcome: Result<u64, Refusal>) {
    match outcome {
        Ok(place) => println!("{what}: 00 done, place {place}"),
        Err(r) => println!(
            "{what}: {:02} {:?}, place {}",
            r.reason.number(),
            r.reason,
            r.place
        ),
    }
}

/// An outcome without words run: its place is 0.
fn print_check(what: &str, outcome: Result<(), Refusal>) {
    print_outcome(what, outcome.map(|()| 0));
}

/// Five lamps, lit or dark: the pins C, Z, N, V and L.
fn lamps(pins: u32) -> String {
    let lamp = |bit: u32| if pins >> bit & 1 == 1 { " *" } else { " ." };
    (0..5).rev().map(lamp).collect()
}

fn yes(answer: bool) -> &'static str {
    if answer {
        "yes"
    } else {
        "no"
    }
}

// ---- sheets

/// A file of the trace program's form. What is wrong with it, the check says.
fn read_job(bytes: Vec<u8>) -> Job {
    let mut job = Job {
        sheet: bytes,
        words: 0,
        registers: 0,
        file: [0; MOST_REGISTERS],
    };
    let Ok(heading) = read_header(&job.sheet) else {
        return job;
    };
    job.words = heading.words as usize;
    job.registers = heading.registers as usize;
    let after = HEADER_BYTES + WORD_BYTES * job.words;
    if job.sheet.len() != after + 4 * job.registers {
        return job;
    }
    for (register, bytes) in job.file.iter_mut().zip(job.sheet[after..].chunks_exact(4)) {
        *register = u32::from_be_bytes(bytes.try_into().expect("four bytes"));
    }
    job.sheet.truncate(after);
    job
}

/// A handler that counts how often it is let in. Its registers are the four from `first` on, which
/// no main sheet of `first` registers names: where it saves status and Q, its count, and a zero to
/// start from. A and B name a register whether a word uses them or not, so where it does not they
/// name the count. Y is 0 where a word does not write, and then names none.
fn make_handler(first: u32) -> Result<Vec<u8>, Refusal> {
    let (s, q, count, zero) = (first, first + 1, first + 2, first + 3);
    let words = [
        (PASS_STAT, count, s, 1),
        (PASS_Q, count, q, 1),
        (LOADQ_A, zero, 0, 0),
        (LDSTAT_A, zero, 0, 0),
        (INCR_A, count, count, 1),
        (LOADQ_A, q, 0, 0),
        (LDSTAT_A, s, 0, 0),
    ];
    let registers = first as usize + HANDLER_REGISTERS;
    let header = 1 << 28 | (words.len() as u32) << 16 | (registers as u32) << 9;
    let mut sheet = header.to_be_bytes().to_vec();
    for (opcode, a, y, write) in words {
        let word = Word {
            opcode,
            a,
            b: count,
            y,
            write,
            ..Word::default()
        };
        let mut bytes = [0; WORD_BYTES];
        word.pack(&mut bytes)?;
        sheet.extend(bytes);
    }
    Ok(sheet)
}

// ---- listings

/// The sheet as text, and the text as a sheet again.
fn list_and_read(job: &Job) {
    let mut text = vec![0; LISTING_MOST];
    let listed = list_sheet(&job.sheet, &mut text);
    print_check("listing", listed.map(|_| ()));
    text.truncate(listed.unwrap_or(0));
    println!("  {} bytes", text.len());
    let lines = String::from_utf8_lossy(&text);
    for line in lines.lines().take(LISTING_LINES) {
        println!("  {line}");
    }
    let mut sheet = vec![0; SHEET_MOST];
    let back = read_listing(&text, &mut sheet);
    print_check("reading it", back.map(|_| ()));
    sheet.truncate(back.unwrap_or(0));
    println!(
        "  {} bytes, the same as the sheet's: {}",
        sheet.len(),
        yes(sheet == job.sheet)
    );
}

/// A text that an editor wrote, with a line that has no Y.
fn read_fault() {
    let text = b"version=1 registers=4\n\
        add code=3 position=0 width=0 a=0 b=1 y=2 write\n\
        sub code=3 position=0 width=0 a=2 b=3 write\n";
    let mut sheet = [0; HEADER_BYTES + 2 * WORD_BYTES];
    let read = read_listing(text, &mut sheet);
    print_check("reading a text whose line 2 lacks Y", read.map(|_| ()));
    println!(
        "  {} bytes, a byte was changed: {}",
        read.unwrap_or(0),
        yes(sheet.iter().any(|&byte| byte != 0))
    );
}

// ---- runs

/// A line of the front panel: what stands on it after a step, or where none ran.
fn print_panel(word: &str, shown: Option<Shown>, machine: Machine) {
    let shown = shown.unwrap_or(Shown {
        y: 0,
        parity: 0,
        pins: machine.pins(),
    });
    println!(
        "  {word:>4}  {:08X}  {:X}       {:08X}  {:08X} {}",
        shown.y,
        shown.parity,
        machine.q,
        machine.status,
        lamps(shown.pins)
    );
}

/// A small front panel: the first words one by one, with what each shows; then what is said and
/// shown at the sheet's end and past it.
fn step_by_step(job: &Job) -> Result<(), Refusal> {
    let mut file = job.file;
    let file = &mut file[..job.registers];
    let mut machine = Machine::fresh();
    println!("front panel");
    println!("  word  Y         parity  Q         status    C Z N V L");
    for at in 0..job.words.min(PANEL_WORDS) {
        let shown = step(&job.sheet, file, &mut machine, at as u64)?;
        print_panel(&at.to_string(), shown, machine);
    }
    for (what, at) in [
        ("step at the end", job.words),
        ("step past it", job.words + 1),
    ] {
        let shown = step(&job.sheet, file, &mut machine, at as u64);
        print_outcome(what, shown.map(|shown| u64::from(shown.is_some())));
        print_panel("none", shown.unwrap_or(None), machine);
    }
    Ok(())
}

/// The sheet to its end, from a fresh machine.
fn run_at_once(job: &Job, file: &mut [u32]) -> Machine {
    let mut machine = Machine::fresh();
    let outcome = run(&job.sheet, file, &mut machine, 0, u64::MAX);
    print_outcome("run", outcome);
    println!("  Q {:08X}, status {:08X}", machine.q, machine.status);
    for (index, register) in file.iter().enumerate() {
        println!("  register {index}: {register:08X}");
    }
    machine
}

/// Half of it, and then the rest.
fn run_in_parts(job: &Job, file: &mut [u32]) -> Machine {
    let mut machine = Machine::fresh();
    let first = run(&job.sheet, file, &mut machine, 0, job.words as u64 / 2);
    let rest = run(&job.sheet, file, &mut machine, first.unwrap_or(0), u64::MAX);
    print_outcome("first part", first);
    print_outcome("second part", rest);
    machine
}

/// With the handler let in where the schedule says.
fn run_interrupted(job: &Job, handler: &[u8], schedule: &[u16], file: &mut File) -> Machine {
    let mut machine = Machine::fresh();
    let outcome = interrupted_run(&job.sheet, handler, schedule, file, &mut machine);
    print_outcome("interrupted run", outcome);
    println!(
        "  mark {}",
        outcome.map_or_else(|refusal| refusal.mark.number(), |_| 0)
    );
    machine
}

/// The plain run and the one in parts; the machine and file that they leave.
fn undisturbed(job: &Job) -> (Machine, File) {
    let (mut file, mut parts) = (job.file, job.file);
    let at_once = run_at_once(job, &mut file[..job.registers]);
    let in_parts = run_in_parts(job, &mut parts[..job.registers]);
    println!(
        "  the same as at once: {}",
        yes(at_once == in_parts && file == parts)
    );
    (at_once, file)
}

/// The interrupted run, held to the undisturbed one; then one that is refused.
fn disturbed(job: &Job, alone: Machine, file_alone: &File) -> Result<(), Refusal> {
    let handler = make_handler(job.registers as u32)?;
    print_check("check of the handler", check_handler(&handler));
    let mut schedule: Vec<u16> = (0..=job.words as u16).take(MOST_ENTRIES).collect();
    let mut file = job.file;
    let machine = run_interrupted(job, &handler, &schedule, &mut file);
    let mains = ..job.registers;
    println!("  the handler counted {} times", file[job.registers + 2]);
    println!(
        "  the main sheet noticed nothing: {}",
        yes(machine == alone && file[mains] == file_alone[mains])
    );
    *schedule.last_mut().expect("before the first word") = job.words as u16 + 1;
    let mut file = job.file;
    run_interrupted(job, &handler, &schedule, &mut file);
    println!("  a register was changed: {}", yes(file != job.file));
    Ok(())
}

/// The library that is linked, which must be one that the wrapper was written for.
fn library() {
    let (major, minor, patch) = library_version();
    println!("library {major}.{minor}.{patch}");
    if (major, minor, patch) != am29332::VERSION {
        println!("the wrapper is another version's");
        exit(1);
    }
}

/// What a single word leaves on Y and on the lamps.
fn print_answer(y: u32, parity: u32, pins: u32) {
    println!("  Y {y:08X}, parity {parity:X}, C Z N V L{}", lamps(pins));
}

/// A single word: example d of document 01, NOT-A on two bytes.
fn single_word() {
    let inputs = Inputs {
        opcode: 0x08,
        code: 2,
        a: 0x12345678,
        ..Inputs::default()
    };
    let answer = inputs.perform();
    print_check(
        "single word NOT-A, two bytes of 12345678",
        answer.map(|_| ()),
    );
    if let Ok(a) = answer {
        print_answer(a.y, a.parity, a.pins);
    }
}

/// One that is refused: the lamps show the status that was handed in.
fn refused_word() {
    let machine = Machine {
        q: 0,
        status: 1 << 16 | 1 << 17 | 1 << 20,
    };
    let inputs = Inputs {
        opcode: 0x1E,
        status: machine.status,
        ..Inputs::default()
    };
    print_check(
        "single word 1E, which has no page",
        inputs.perform().map(|_| ()),
    );
    print_answer(0, 0, machine.pins());
}

/// A register left in Y of a word that does not write, where a reader would take it for a store.
fn idle_field() {
    let word = Word {
        opcode: SUB,
        b: 1,
        y: 5,
        ..Word::default()
    };
    let packed = word.pack(&mut [0; WORD_BYTES]);
    print_check("packing SUB without write, Y 5", packed);
}

/// Two numbers compared on one byte, as a branch is picked: SUB, and what its answer says. Bit 13 is right in
/// either mode, since it goes by the word's own borrow switch.
fn compare(borrow: u32) {
    let inputs = Inputs {
        opcode: SUB,
        code: 1,
        borrow,
        a: 0x0F,
        b: 0xF0,
        ..Inputs::default()
    };
    let answer = inputs.perform();
    let mode = if borrow == 1 { "borrow" } else { "carry" };
    print_check(
        &format!("SUB of 0F and F0, {mode} mode"),
        answer.map(|_| ()),
    );
    if let Ok(a) = answer {
        let status = a.machine.status;
        println!(
            "  less or equal: unsigned {}, signed {}",
            yes(status >> 13 & 1 == 1),
            yes(status >> 15 & 1 == 1)
        );
    }
}

/// The first word of the sheet, field by field.
fn first_word(job: &Job) {
    let word = Word::unpack(&job.sheet[HEADER_BYTES..]);
    print_check("first word", word.map(|_| ()));
    if let Ok(w) = word {
        println!(
            "  opcode {:02X}, byte code {}, A {}, B {}, Y {}, write {}",
            w.opcode, w.code, w.a, w.b, w.y, w.write
        );
    }
}

fn main() {
    let arguments: Vec<String> = std::env::args().collect();
    let [_, path] = &arguments[..] else {
        eprintln!("usage: rust-host FILE.sheet");
        exit(2);
    };
    library();
    single_word();
    refused_word();
    idle_field();
    compare(0);
    compare(1);
    print_check("check of no bytes", check_sheet(&[]));
    let bytes = std::fs::read(path).unwrap_or_else(|error| {
        eprintln!("{path}: {error}");
        exit(1);
    });
    let job = read_job(bytes);
    let check = check_sheet(&job.sheet);
    print_check("check of the sheet", check);
    if check.is_err() {
        exit(1);
    }
    println!("  {} words, {} registers", job.words, job.registers);
    if job.words > 0 {
        first_word(&job);
    }
    list_and_read(&job);
    read_fault();
    if let Err(refusal) = step_by_step(&job) {
        print_outcome("step", Err(refusal));
        exit(1);
    }
    let (machine, file) = undisturbed(&job);
    if job.registers + HANDLER_REGISTERS <= MOST_REGISTERS {
        if let Err(refusal) = disturbed(&job, machine, &file) {
            print_outcome("packing", Err(refusal));
            exit(1);
        }
    }
}
