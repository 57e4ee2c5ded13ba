//! Reference program for the Am29332, bit by bit. See README.md.

mod arithmetic;
mod bits;
mod bundle;
mod cases;
mod cycle;
mod decimal;
mod digest;
mod divide;
mod draw;
mod faults;
mod field;
mod handler;
mod interrupt;
mod interrupt_cases;
mod listing;
mod listing_cases;
mod lists;
mod logic;
mod movement;
mod multiply;
mod on_registers;
mod pages;
mod pairs;
mod pins;
mod random_texts;
mod reader;
mod run;
mod selftest;
mod sheet;
mod shift;
mod status;
mod text_cases;
mod trace;
mod word;

use faults::Faults;
use std::io::{self, Read, Write};
use std::path::Path;
use std::process::ExitCode;

const USAGE: &str = "usage: oracle selftest | digest | vectors | faults | trace
       oracle trace-inputs DIR COUNT | longest
       oracle interrupts COUNT | interrupt-cases
       oracle pairs | pairs-sheets
       oracle list | assemble | listing-cases [FILE...] | listing-answers
       oracle random-texts COUNT | case NUMBER";

fn main() -> ExitCode {
    let arguments: Vec<String> = std::env::args().skip(1).collect();
    let arguments: Vec<&str> = arguments.iter().map(String::as_str).collect();
    let done = match arguments[..] {
        ["selftest"] => Ok(selftest::run()),
        ["digest"] => print(&digest::digest_text()),
        ["vectors"] => print(&digest::vectors_text()),
        ["faults"] => Ok(try_faults()),
        ["trace"] => trace_input(),
        ["trace-inputs", folder, count] => write_inputs(folder, count),
        ["longest"] => write(&cases::longest_input()),
        ["interrupts", count] => print(&interrupt_cases::interrupt_text(number(count))),
        ["interrupt-cases"] => print(&interrupt_cases::gate_interrupt_text()),
        ["pairs"] => print(&pairs::pairs_text()),
        ["pairs-sheets"] => write(&pairs::pairs_sheets()),
        ["list"] => list(),
        ["assemble"] => assemble(),
        ["listing-cases", ref examples @ ..] => listing_cases(examples),
        ["listing-answers"] => listing_answers(),
        ["random-texts", count] => random_texts(number(count)),
        ["case", which] => one_case(number(which)),
        _ => {
            eprintln!("{USAGE}");
            Ok(false)
        }
    };
    match done {
        Ok(true) => ExitCode::SUCCESS,
        Ok(false) => ExitCode::FAILURE,
        Err(error) => {
            eprintln!("oracle: {error}");
            ExitCode::FAILURE
        }
    }
}

fn print(text: &str) -> io::Result<bool> {
    write(text.as_bytes())
}

fn write(bytes: &[u8]) -> io::Result<bool> {
    io::stdout().write_all(bytes)?;
    Ok(true)
}

/// Everything on standard input.
fn input() -> io::Result<Vec<u8>> {
    let mut input = Vec::new();
    io::stdin().read_to_end(&mut input)?;
    Ok(input)
}

fn try_faults() -> bool {
    let in_words = digest::try_faults();
    let in_traces = cases::try_trace_faults();
    let in_interrupts = interrupt_cases::try_faults();
    let in_listings = bundle::try_faults();
    in_words && in_traces && in_interrupts && in_listings
}

fn trace_input() -> io::Result<bool> {
    print(&trace::trace(&input()?))
}

/// The text of a sheet; of a refused one reason and place.
fn list() -> io::Result<bool> {
    let mut text = vec![0; listing::LISTING_ROOM];
    match listing::list(&input()?, &mut text, &Faults::none()) {
        Ok(length) => write(&text[..length]),
        Err(verdict) => {
            println!("{:02} {:04X}", verdict.reason, verdict.place);
            Ok(false)
        }
    }
}

/// The sheet of a text; of a refused one reason and line, on standard error.
fn assemble() -> io::Result<bool> {
    let mut sheet = vec![0; reader::SHEET_ROOM];
    match reader::read(&input()?, &mut sheet, &Faults::none()) {
        Ok(length) => write(&sheet[..length]),
        Err(verdict) => {
            eprintln!("{:02} {:04X}", verdict.reason, verdict.place);
            Ok(false)
        }
    }
}

fn listing_cases(examples: &[&str]) -> io::Result<bool> {
    let examples: io::Result<Vec<Vec<u8>>> = examples.iter().map(std::fs::read).collect();
    write(&bundle::bundle_of(&listing_cases::gate_cases(&examples?)))
}

/// The cases of the bundle on standard input.
fn input_cases() -> io::Result<Vec<bundle::Case>> {
    let cases = bundle::cases_of(&input()?);
    cases.ok_or_else(|| io::Error::other("the input is no bundle of cases"))
}

fn listing_answers() -> io::Result<bool> {
    print(&bundle::answers(&input_cases()?))
}

fn random_texts(count: usize) -> io::Result<bool> {
    write(&bundle::bundle_of(&random_texts::random_cases(count)))
}

/// One case of a bundle, counted from 1, as a bundle of its own.
fn one_case(which: usize) -> io::Result<bool> {
    let cases = input_cases()?;
    let case = which.checked_sub(1).and_then(|i| cases.get(i));
    case.map_or(Ok(false), |case| {
        write(&bundle::bundle_of(std::slice::from_ref(case)))
    })
}

fn write_inputs(folder: &str, count: &str) -> io::Result<bool> {
    cases::write_trace_inputs(Path::new(folder), number(count))?;
    Ok(true)
}

/// A count, or 0 where it is none.
fn number(count: &str) -> usize {
    count.parse().unwrap_or(0)
}
