//! The pages of chapter 2: which opcode number has which, and what it does.

use crate::cycle::{Cycle, Outcome, Port};
use crate::multiply::Kind;
use crate::shift::Fill;
use crate::{arithmetic, decimal, divide, field, logic, movement, multiply, shift};

/// The manual's mnemonics by opcode number (Instruction Set Glossary); empty
/// where chapter 2 has no page.
#[rustfmt::skip]
pub const MNEMONICS: [&str; 128] = [
    "ZERO-EXTA", "ZERO-EXTB", "SIGN-EXTA", "SIGN-EXTB",
    "PASS-STAT", "PASS-Q", "LOADQ-A", "LOADQ-B",
    "NOT-A", "NOT-B", "NEG-A", "NEG-B",
    "PRIOR-A", "PRIOR-B", "MERGEA-B", "MERGEB-A",
    "DECR-A", "DECR-B", "INCR-A", "INCR-B",
    "DECR2-A", "DECR2-B", "INCR2-A", "INCR2-B",
    "DECR4-A", "DECR4-B", "INCR4-A", "INCR4-B",
    "LDSTAT-A", "LDSTAT-B", "", "",
    "DN1-0F-A", "DN1-0F-B", "DN1-0F-AQ", "DN1-0F-BQ",
    "DN1-1F-A", "DN1-1F-B", "DN1-1F-AQ", "DN1-1F-BQ",
    "DN1-LF-A", "DN1-LF-B", "DN1-LF-AQ", "DN1-LF-BQ",
    "DN1-AR-A", "DN1-AR-B", "DN1-AR-AQ", "DN1-AR-BQ",
    "UP1-0F-A", "UP1-0F-B", "UP1-0F-AQ", "UP1-0F-BQ",
    "UP1-1F-A", "UP1-1F-B", "UP1-1F-AQ", "UP1-1F-BQ",
    "UP1-LF-A", "UP1-LF-B", "UP1-LF-AQ", "UP1-LF-BQ",
    "ZERO", "SIGN", "OR", "XOR",
    "AND", "XNOR", "ADD", "ADDC",
    "SUB", "SUBC", "SUBR", "SUBRC",
    "SUM-CORR-A", "SUM-CORR-B", "DIFF-CORR-A", "DIFF-CORR-B",
    "", "", "SDIVFIRST", "UDIVFIRST",
    "SDIVSTEP", "SDIVLAST1", "MPDIVSTEP1", "MPSDIVSTEP3",
    "UDIVSTEP", "UDIVLAST", "MPDIVSTEP2", "MPUDIVSTP3",
    "REMCORR", "QUOCORR", "SDIVLAST2", "UMULFIRST",
    "UMULSTEP", "UMULLAST", "SMULSTEP", "SMULFIRST",
    "NB-SN-SHA", "NB-SN-SHB", "NB-0F-SHA", "NB-0F-SHB",
    "NBROT-A", "NBROT-B", "EXTBIT-A", "EXTBIT-B",
    "SETBIT-A", "SETBIT-B", "RSTBIT-A", "RSTBIT-B",
    "SETBIT-STAT", "RSTBIT-STAT", "NOTF-AL-B", "PASSF-AL-B",
    "NOTF-A", "NOTF-AL-A", "PASSF-A", "PASSF-AL-A",
    "ORF-A", "ORF-AL-A", "XORF-A", "XORF-AL-A",
    "ANDF-A", "ANDF-AL-A", "EXTF-A", "EXTF-B",
    "EXTF-AB", "EXTF-BA", "EXTBIT-STAT", "PASS-MASK",
];

/// True where the number is at most 127 and chapter 2 has its page.
pub fn has_page(opcode: u8) -> bool {
    opcode < 128 && !MNEMONICS[usize::from(opcode)].is_empty()
}

/// The opcode number of a mnemonic.
pub fn number_of(mnemonic: &str) -> u8 {
    let found = MNEMONICS.iter().position(|&name| name == mnemonic);
    found.expect("a mnemonic of the manual") as u8
}

/// Numbers with pages come in pairs for most families: even for A, odd for B.
fn port(opcode: u8) -> Port {
    if opcode & 1 == 0 {
        Port::A
    } else {
        Port::B
    }
}

/// Carries out the page of an opcode number that has one.
pub fn perform(opcode: u8, cycle: &Cycle) -> Outcome {
    match opcode {
        0x00..=0x0F | 0x1C..=0x1D => move_or_invert(opcode, cycle),
        0x10..=0x1B => count(opcode, cycle),
        0x20..=0x2F => shift_down(opcode, cycle),
        0x30..=0x3B => shift_up(opcode, cycle),
        0x3C..=0x41 => logical(opcode, cycle),
        0x42..=0x4B => add_or_correct(opcode, cycle),
        0x4E..=0x5A => division(opcode, cycle),
        0x5B..=0x5F => multiplication(opcode, cycle),
        0x60..=0x6D => bits_and_shifts(opcode, cycle),
        _ => fields(opcode, cycle),
    }
}

fn move_or_invert(opcode: u8, cycle: &Cycle) -> Outcome {
    let port = port(opcode);
    match opcode {
        0x00 | 0x01 => movement::zero_extend(cycle, port),
        0x02 | 0x03 => movement::sign_extend(cycle, port),
        0x04 => movement::pass_stat(cycle),
        0x05 => movement::pass_q(cycle),
        0x06 | 0x07 => movement::load_q(cycle, port),
        0x08 | 0x09 => logic::complement(cycle, port),
        0x0A | 0x0B => arithmetic::negate(cycle, port),
        0x0C | 0x0D => logic::prioritize(cycle, port),
        0x0E | 0x0F => movement::merge(cycle, port),
        _ => movement::load_status(cycle, port),
    }
}

fn count(opcode: u8, cycle: &Cycle) -> Outcome {
    let port = port(opcode);
    match opcode {
        0x10 | 0x11 => arithmetic::decrement(cycle, port, 1),
        0x12 | 0x13 => arithmetic::increment(cycle, port, 1),
        0x14 | 0x15 => arithmetic::decrement(cycle, port, 2),
        0x16 | 0x17 => arithmetic::increment(cycle, port, 2),
        0x18 | 0x19 => arithmetic::decrement(cycle, port, 4),
        _ => arithmetic::increment(cycle, port, 4),
    }
}

fn shift_down(opcode: u8, cycle: &Cycle) -> Outcome {
    let fill = match opcode & 0x0C {
        0x00 => Fill::Zero,
        0x04 => Fill::One,
        0x08 => Fill::Link,
        _ => Fill::Sign,
    };
    match opcode & 2 {
        0 => shift::down(cycle, port(opcode), fill),
        _ => shift::down_q(cycle, port(opcode), fill),
    }
}

fn shift_up(opcode: u8, cycle: &Cycle) -> Outcome {
    let fill = match opcode & 0x0C {
        0x00 => Fill::Zero,
        0x04 => Fill::One,
        _ => Fill::Link,
    };
    match opcode & 2 {
        0 => shift::up(cycle, port(opcode), fill),
        _ => shift::up_q(cycle, port(opcode), fill),
    }
}

fn logical(opcode: u8, cycle: &Cycle) -> Outcome {
    match opcode {
        0x3C => logic::zero(cycle),
        0x3D => logic::sign(cycle),
        0x3E => logic::two_operand(cycle, |a, b| a | b),
        0x3F => logic::two_operand(cycle, |a, b| a ^ b),
        0x40 => logic::two_operand(cycle, |a, b| a & b),
        _ => logic::two_operand(cycle, |a, b| a == b),
    }
}

fn add_or_correct(opcode: u8, cycle: &Cycle) -> Outcome {
    match opcode {
        0x42 => arithmetic::sum(cycle),
        0x43 => arithmetic::sum_with_carry(cycle),
        0x44 => arithmetic::difference(cycle, Port::A),
        0x45 => arithmetic::difference_with_carry(cycle, Port::A),
        0x46 => arithmetic::difference(cycle, Port::B),
        0x47 => arithmetic::difference_with_carry(cycle, Port::B),
        0x48 | 0x49 => decimal::sum_correct(cycle, port(opcode)),
        _ => decimal::difference_correct(cycle, port(opcode)),
    }
}

fn division(opcode: u8, cycle: &Cycle) -> Outcome {
    match opcode {
        0x4E => divide::signed_first(cycle),
        0x4F => divide::unsigned_first(cycle),
        0x50 => divide::signed_step(cycle),
        0x51 => divide::signed_last_1(cycle),
        0x52 => divide::multi_step_1(cycle),
        0x53 => divide::multi_signed_step_3(cycle),
        0x54 => divide::unsigned_step(cycle),
        0x55 => divide::unsigned_last(cycle),
        0x56 => divide::multi_step_2(cycle),
        0x57 => divide::multi_unsigned_step_3(cycle),
        0x58 => divide::remainder_correct(cycle),
        0x59 => divide::quotient_correct(cycle),
        _ => divide::signed_last_2(cycle),
    }
}

fn multiplication(opcode: u8, cycle: &Cycle) -> Outcome {
    match opcode {
        0x5B => multiply::first(cycle, Kind::Unsigned),
        0x5C => multiply::step(cycle, Kind::Unsigned),
        0x5D => multiply::last(cycle),
        0x5E => multiply::step(cycle, Kind::Signed),
        _ => multiply::first(cycle, Kind::Signed),
    }
}

fn bits_and_shifts(opcode: u8, cycle: &Cycle) -> Outcome {
    let port = port(opcode);
    match opcode {
        0x60 | 0x61 => field::n_bit_shift(cycle, port, true),
        0x62 | 0x63 => field::n_bit_shift(cycle, port, false),
        0x64 | 0x65 => field::rotate(cycle, port),
        0x66 | 0x67 => field::extract_bit(cycle, port),
        0x68 | 0x69 => field::put_bit(cycle, port, true),
        0x6A | 0x6B => field::put_bit(cycle, port, false),
        0x6C => field::put_status_bit(cycle, true),
        _ => field::put_status_bit(cycle, false),
    }
}

fn fields(opcode: u8, cycle: &Cycle) -> Outcome {
    match opcode {
        0x6E => field::aligned(cycle, Port::B, |x, _| !x),
        0x6F => field::aligned(cycle, Port::B, |x, _| x),
        0x70 => field::unaligned(cycle, |x, _| !x),
        0x71 => field::aligned(cycle, Port::A, |x, _| !x),
        0x72 => field::unaligned(cycle, |x, _| x),
        0x73 => field::aligned(cycle, Port::A, |x, _| x),
        0x74 => field::unaligned(cycle, |x, b| x | b),
        0x75 => field::aligned(cycle, Port::A, |x, b| x | b),
        0x76 => field::unaligned(cycle, |x, b| x ^ b),
        0x77 => field::aligned(cycle, Port::A, |x, b| x ^ b),
        0x78 => field::unaligned(cycle, |x, b| x & b),
        0x79 => field::aligned(cycle, Port::A, |x, b| x & b),
        0x7A => field::extract(cycle, Port::A),
        0x7B => field::extract(cycle, Port::B),
        0x7C => field::extract_double(cycle, Port::A),
        0x7D => field::extract_double(cycle, Port::B),
        0x7E => field::extract_status_bit(cycle),
        _ => field::pass_mask(cycle),
    }
}
