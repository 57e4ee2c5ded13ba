//! The pins C, Z, N, V and L (document 02, request 4): five bits of a single
//! word's answer, C in bit 4, and five digits at the end of a trace's line.

use super::bench::Bench;
use super::Group;
use crate::cases::*;
use crate::draw::Draw;
use crate::faults::{Fault, Faults};
use crate::interrupt_cases::random_interrupt;
use crate::on_registers::Board;
use crate::pages::{has_page, number_of, MNEMONICS};
use crate::run::{run_with, Machine};
use crate::sheet::{build, Word};
use crate::trace::trace;
use crate::word::{reason, single, Answer, Inputs};
use std::collections::BTreeSet;

/// The status bits of the pins, in their order.
const BITS: [u32; 5] = [16, 19, 17, 18, 20];
const FLAGS: u32 = 0x001F_0000;

/// The pins of a status word, read off bit by bit.
pub fn pins_of(status: u32) -> u8 {
    BITS.iter()
        .fold(0, |pins, at| pins * 2 + ((status >> at) & 1) as u8)
}

/// A status word with these pins and the other bits of another one.
fn with_pins(status: u32, pins: u8) -> u32 {
    let set = |(i, at): (usize, &u32)| u32::from(pins >> (4 - i) & 1) << at;
    BITS.iter()
        .enumerate()
        .map(set)
        .fold(status & !FLAGS, |word, flag| word | flag)
}

fn answer(inputs: &Inputs) -> Answer {
    single(inputs, &Faults::none())
}

/// Each pin alone: the word that makes its flag, byte code and borrow, A and B; on
/// a status of 0.
const ALONE: [(&str, [u8; 2], u32, u32, u8); 5] = [
    ("ADD", [1, 0], 0xFF, 0x02, 0b10000),
    ("AND", [1, 0], 0x55, 0xAA, 0b01000),
    ("OR", [1, 0], 0x80, 0x01, 0b00100),
    ("SUB", [1, 1], 0x80, 0x01, 0b00010),
    ("DN1-0F-A", [1, 0], 0x03, 0x00, 0b00001),
];

/// A status bit and the pin that shows it.
const ONE: [(u8, u8); 5] = [
    (16, 0b10000),
    (19, 0b01000),
    (17, 0b00100),
    (18, 0b00010),
    (20, 0b00001),
];

pub fn by_hand(group: &mut Group) {
    for (mnemonic, [byte_code, borrow], a, b, pins) in ALONE {
        let mut chip = Bench::new(byte_code);
        chip.borrow = borrow;
        chip.word(mnemonic, a, b);
        group.same(mnemonic, chip.pins, pins);
    }
    for (bit, pins) in ONE {
        let mut chip = Bench::new(0);
        chip.word("LDSTAT-A", 1 << bit, 0);
        group.same("LDSTAT-A", chip.pins, pins);
        chip.word("PASS-STAT", 0, 0);
        group.same("PASS-STAT", chip.pins, pins);
        let mut chip = Bench::field(bit, 0);
        chip.word("SETBIT-STAT", 0, 0);
        group.same("SETBIT-STAT", chip.pins, pins);
        chip.status = u32::MAX;
        chip.word("RSTBIT-STAT", 0, 0);
        group.same("RSTBIT-STAT", chip.pins, 0b11111 - pins);
        let refused = Inputs {
            byte_code: 4,
            status: 1 << bit,
            ..Inputs::default()
        };
        group.same("refused", answer(&refused).pins, pins);
    }
}

/// Document 01's examples where they tell of flags; the machine is fresh, so that
/// every pin they say nothing of and the word leaves alone is 0.
pub fn examples(group: &mut Group) {
    let mut mask = Bench::field(0x1E, 4);
    mask.word("PASS-MASK", 0, 0);
    group.same("a", mask.pins, 0b00000);
    let mut chip = Bench::new(2);
    chip.word("NOT-A", 0x1234_5678, 0);
    group.same("d", chip.pins, 0b00100);
    for mnemonic in ["PRIOR-A", "PRIOR-B"] {
        for (operand, pins) in [(0x0000_8000, 0b00000), (0x0001_0000, 0b01000)] {
            let mut chip = Bench::new(2);
            chip.word(mnemonic, operand, operand);
            group.same("e", chip.pins, pins);
        }
    }
    for (position, pins) in [(0x02, 0b00100), (0x3E, 0b00100)] {
        let mut chip = Bench::field(position, 0);
        chip.word("NOTF-A", 0x1234_5678, 0x9ABC_DEF0);
        group.same("f", chip.pins, pins);
    }
    let mut chip = Bench::new(0);
    chip.word("LDSTAT-A", 0xFFFF_FFFF, 0);
    group.same("h", chip.pins, 0b11111);
    chip.word("PASS-STAT", 0, 0);
    group.same("h", chip.pins, 0b11111);
    decimal(group, "l", (0x55, 0x55), [0b00110, 0b10000]);
    decimal(group, "m", (0x95, 0x05), [0b00100, 0b11000]);
}

/// The pins after a decimal sum's two words, one byte.
fn decimal(group: &mut Group, letter: &str, (a, b): (u32, u32), pins: [u8; 2]) {
    let mut chip = Bench::new(1);
    let sum = chip.word("ADD", a, b);
    group.same(letter, chip.pins, pins[0]);
    chip.word("SUM-CORR-A", sum, 0);
    group.same(letter, chip.pins, pins[1]);
}

/// For every opcode number, cases of the draw, and drawn ones with each of the 32
/// states of the flags: the pins are bits 16, 19, 17, 18 and 20 of the status
/// answered; of a refused word of the status handed in.
pub fn every_opcode(group: &mut Group) {
    let mut random = Random::new(65);
    let mut ends = BTreeSet::new();
    for opcode in 0..128 {
        // Every 17th, so that the switches go through all their states.
        for case in Draw::new(opcode).step_by(17) {
            ends.insert(check_answer(group, &case.inputs));
        }
        for pins in (0..32).cycle().take(8 * 32) {
            let mut inputs = drawn_inputs(&mut random, opcode);
            inputs.status = with_pins(inputs.status, pins);
            ends.insert(check_answer(group, &inputs));
        }
    }
    let all = [reason::DONE, reason::OPCODE, reason::INPUTS];
    group.same("reasons", ends, BTreeSet::from(all));
}

fn check_answer(group: &mut Group, inputs: &Inputs) -> u8 {
    let answer = answer(inputs);
    let want = match answer.reason {
        reason::DONE => answer.status,
        _ => inputs.status,
    };
    let good = answer.pins == pins_of(want);
    group.check(good, || {
        format!(
            "{:02X} on {:08X}: {answer:X?}",
            inputs.opcode, inputs.status
        )
    });
    answer.reason
}

/// The flags that a page names, by its mnemonic: the pins that its word can make
/// another than the register's bit.
fn named(mnemonic: &str) -> &'static str {
    let begins = |parts: &[&str]| parts.iter().any(|part| mnemonic.starts_with(part));
    match mnemonic {
        "PASS-STAT" | "PASS-Q" | "PASS-MASK" => "",
        "UMULFIRST" | "UMULSTEP" | "SMULFIRST" | "SMULSTEP" => "",
        "SIGN" | "SDIVLAST2" | "UMULLAST" => "Z",
        "SDIVFIRST" | "UDIVFIRST" => "ZNL",
        "SDIVSTEP" => "CZNL",
        "SDIVLAST1" | "UDIVLAST" => "CZN",
        "UDIVSTEP" => "CZL",
        "REMCORR" => "C",
        "QUOCORR" => "CV",
        "EXTBIT-A" | "EXTBIT-B" => "ZL",
        "EXTBIT-STAT" => "L",
        "SETBIT-STAT" | "RSTBIT-STAT" => "CZNVL",
        _ if begins(&["LDSTAT"]) => "CZNVL",
        _ if begins(&["PRIOR"]) => "Z",
        _ if begins(&["ADD", "SUB", "NEG", "INCR", "DECR"]) => "CZNV",
        _ if begins(&["SUM-CORR", "DIFF-CORR"]) => "CZNV",
        _ if begins(&["DN1"]) => "ZNL",
        _ if begins(&["UP1"]) => "ZNVL",
        _ if begins(&["MPDIVSTEP", "MPSDIVSTEP", "MPUDIVSTP"]) => "CZL",
        _ => "ZN",
    }
}

/// Over the draw: the pins that differ from the register's bit at least once are
/// those of the page's flags, and no others ever do.
pub fn by_the_pages(group: &mut Group) {
    for opcode in (0..128).filter(|&opcode| has_page(opcode)) {
        let mut changed = 0;
        for case in Draw::new(opcode).step_by(17) {
            let answer = answer(&case.inputs);
            if answer.reason == reason::DONE {
                changed |= answer.pins ^ pins_of(case.inputs.status);
            }
        }
        let mnemonic = MNEMONICS[usize::from(opcode)];
        let flags = "CZNVL".chars().enumerate();
        let changed: String = flags
            .filter(|(i, _)| changed >> (4 - i) & 1 == 1)
            .map(|(_, flag)| flag)
            .collect();
        group.same(mnemonic, changed, named(mnemonic).to_string());
    }
}

/// Words that leave a flag alone by their pages, for each flag in the pins' order.
const LEAVE: [&str; 5] = [
    "AND ZERO NOT-A LOADQ-A PRIOR-A DN1-0F-A UP1-LF-BQ SDIVFIRST UMULSTEP UMULLAST NB-SN-SHA \
     EXTF-AB PASS-Q",
    "PASS-STAT PASS-Q UMULFIRST SMULSTEP REMCORR QUOCORR PASS-MASK EXTBIT-STAT",
    "PRIOR-B SIGN UDIVSTEP MPDIVSTEP1 MPSDIVSTEP3 SDIVLAST2 UMULLAST EXTBIT-A PASS-MASK",
    "AND ZERO SIGN-EXTB LOADQ-B DN1-AR-A SDIVSTEP UDIVLAST REMCORR SETBIT-A NOTF-A",
    "ADD SUBC NEG-B INCR-A SUM-CORR-A DIFF-CORR-B ZERO SDIVLAST1 UDIVLAST NBROT-B RSTBIT-B \
     ORF-A",
];

/// Each shows the register's bit, 0 or 1, whatever else goes in. So do LDSTAT of
/// one or two bytes, and SETBIT-STAT and RSTBIT-STAT of another bit.
pub fn left_alone(group: &mut Group) {
    let mut random = Random::new(60);
    for (flag, mnemonics) in LEAVE.into_iter().enumerate() {
        for mnemonic in mnemonics.split(' ') {
            for i in 0..400 {
                let mut inputs = drawn_inputs(&mut random, number_of(mnemonic));
                let bit = i % 2;
                inputs.status = inputs.status & !(1 << BITS[flag]) | bit << BITS[flag];
                let shown = answer(&inputs).pins >> (4 - flag) & 1;
                group.same(mnemonic, u32::from(shown), bit);
            }
        }
    }
    for _ in 0..2_000 {
        let mut inputs = drawn_inputs(&mut random, number_of("LDSTAT-A"));
        let want = match inputs.byte_code {
            0 | 3 => inputs.a,
            _ => inputs.status,
        };
        group.same("LDSTAT-A", answer(&inputs).pins, pins_of(want));
        inputs.opcode = number_of(["SETBIT-STAT", "RSTBIT-STAT"][random.below(2)]);
        inputs.byte_code = 0;
        inputs.position = [0, 7, 12, 13, 14, 15, 21, 22, 23, 24, 31][random.below(11)];
        let want = pins_of(inputs.status);
        group.same("another bit", answer(&inputs).pins, want);
    }
}

/// A word's inputs, in range.
fn drawn_inputs(random: &mut Random, opcode: u8) -> Inputs {
    Inputs {
        opcode,
        byte_code: random.below(4) as u8,
        position: random.below(64) as u8,
        width: random.below(32) as u8,
        macro_select: random.bit(),
        macro_carry: random.bit(),
        macro_link: random.bit(),
        borrow: random.bit(),
        a: random.word32(),
        b: random.word32(),
        q: random.word32(),
        status: random.number() as u32,
    }
}

/// EXTBIT-STAT on every bit, as it is and inverted: its Z pin is the register's,
/// and its L pin the bit on Y; EXTBIT-A's Z pin says that the bit is 0.
pub fn extracted(group: &mut Group) {
    let mut random = Random::new(61);
    for position in 0..64 {
        for pins in 0..32 {
            let mut inputs = drawn_inputs(&mut random, number_of("EXTBIT-STAT"));
            inputs.byte_code = 0;
            inputs.position = position;
            inputs.status = with_pins(inputs.status, pins);
            let extracted = answer(&inputs);
            let want = pins & 0b11110 | extracted.y as u8;
            group.same("EXTBIT-STAT", extracted.pins, want);
            inputs.opcode = number_of("EXTBIT-A");
            let extracted = answer(&inputs);
            let y = extracted.y as u8;
            let want = pins & 0b10110 | (1 - y) << 3 | y;
            group.same("EXTBIT-A", extracted.pins, want);
        }
    }
}

/// A refused word shows the status handed in, for each of the 32 states of the
/// flags and every way to be refused.
pub fn refused(group: &mut Group) {
    let mut random = Random::new(62);
    let register = Registers { first: 0, count: 1 };
    for pins in 0..32 {
        for opcode in [0x1E, 0x1F, 0x4C, 0x4D, 0x80, 0xC2, 0xFF] {
            let inputs = drawn_inputs(&mut random, opcode);
            check_refused(group, inputs, pins, reason::OPCODE);
        }
        for way in 0..7 {
            let opcode = random_word(&mut random, register).opcode;
            let mut inputs = drawn_inputs(&mut random, opcode);
            match way {
                0 => inputs.byte_code += 4,
                1 => inputs.position += 64,
                2 => inputs.width += 32,
                3 => inputs.macro_select += 2,
                4 => inputs.macro_carry += 2,
                5 => inputs.macro_link += 2,
                _ => inputs.borrow += 2,
            }
            check_refused(group, inputs, pins, reason::INPUTS);
        }
    }
}

fn check_refused(group: &mut Group, mut inputs: Inputs, pins: u8, reason: u8) {
    inputs.status = with_pins(inputs.status, pins);
    let want = Answer {
        reason,
        place: 0,
        y: 0,
        parity: 0,
        q: inputs.q,
        status: inputs.status,
        pins,
    };
    group.same("refused", answer(&inputs), want);
}

/// A word of a trace and its line: mnemonic, position, A; Y, status, pins. The
/// registers hold each flag alone, then all five.
type Line = (&'static str, u8, u8, u32, u32, &'static str);

const REGISTERS: [u32; 6] = [
    0x0001_0000,
    0x0008_0000,
    0x0002_0000,
    0x0004_0000,
    0x0010_0000,
    0x001F_0000,
];

/// Bit 23 is 0 and its page's list would set the Z pin; bit 17 is 1 and the list
/// would clear it.
const LINES: [Line; 9] = [
    ("LDSTAT-A", 0, 0, 0x0001_0000, 0x0001_0000, "10000"),
    ("LDSTAT-A", 0, 1, 0x0008_0000, 0x0008_A000, "01000"),
    ("LDSTAT-A", 0, 2, 0x0002_0000, 0x0002_E000, "00100"),
    ("EXTBIT-STAT", 23, 0, 0x0000_0000, 0x0002_E000, "00100"),
    ("LDSTAT-A", 0, 3, 0x0004_0000, 0x0004_E000, "00010"),
    ("LDSTAT-A", 0, 4, 0x0010_0000, 0x0010_2000, "00001"),
    ("LDSTAT-A", 0, 5, 0x001F_0000, 0x001F_A000, "11111"),
    ("EXTBIT-STAT", 17, 0, 0x0000_0001, 0x001F_A000, "11111"),
    ("AND", 0, 0, 0x0001_0000, 0x0015_C000, "10011"),
];

fn trace_by_hand(group: &mut Group) {
    let mut words = Vec::new();
    let mut want = String::new();
    for (i, (mnemonic, position, a, y, status, pins)) in (0..).zip(LINES) {
        words.push(Word {
            opcode: number_of(mnemonic),
            position,
            a,
            ..Word::default()
        });
        want += &format!("{i:04X} {y:08X} 00000000 {status:08X} {pins}\n");
    }
    let mut input = build(&words, REGISTERS.len());
    input.extend(REGISTERS.iter().flat_map(|value| value.to_be_bytes()));
    group.same("trace", trace(&input), want + "00 0009\n");
}

/// Every line ends in the pins of the status that it prints, and has 37
/// characters; the last line has none.
pub fn traces(group: &mut Group) {
    trace_by_hand(group);
    let mut random = Random::new(63);
    let mut inputs = vec![longest_input()];
    inputs.extend((0..500).map(|_| random_trace_input(&mut random)));
    let mut seen = BTreeSet::new();
    for input in inputs {
        let text = trace(&input);
        let lines: Vec<&str> = text.lines().collect();
        let (last, lines) = lines.split_last().expect("a last line");
        group.same("last line", last.len(), 7);
        for line in lines {
            let parts: Vec<&str> = line.split(' ').collect();
            let status = u32::from_str_radix(parts[3], 16).unwrap_or(0);
            let pins = format!("{:05b}", pins_of(status));
            let good = line.len() == 37 && parts.len() == 5 && parts[4] == pins;
            group.check(good, || line.to_string());
            seen.insert(pins);
        }
    }
    group.same("states of the pins", seen.len(), 32);
}

/// The faults of the pins.
const FAULTS: [Fault; 15] = [
    Fault::RefusedPinsZero,
    Fault::RefusedPinsOfTheWord,
    Fault::PinsZAndNExchanged,
    Fault::PinsCAndLExchanged,
    Fault::PinsReversed,
    Fault::PinsAsStatusBits,
    Fault::PinsAsPagesPrint,
    Fault::PinLLeftOut,
    Fault::PinsOfTheWordBefore,
    Fault::PinLeftAloneZero,
    Fault::ExtbitStatPinZ,
    Fault::PutStatPinsKept,
    Fault::LdstatPinsWhole,
    Fault::PinZOfTheWholeY,
    Fault::PinCTurnedByBorrow,
];

/// Runs and interrupted runs have no pins: whatever is wrong with those, they end
/// as they do, on drawn sheets and schedules and on the draw's registers.
pub fn not_in_runs(group: &mut Group) {
    let ends = |faults: &Faults| {
        let mut random = Random::new(64);
        let mut ends = Vec::new();
        for _ in 0..200 {
            let case = random_interrupt(&mut random);
            let mut file = case.file.clone();
            let allowance = random.below(24);
            let ran = run_with(&case.main, &mut file, case.machine, 0, allowance, faults);
            ends.push((ran, file, case.run(faults)));
        }
        ends
    };
    let sums = |faults: &Faults| {
        let sum = |opcode| {
            let mut board = Board::new();
            for case in Draw::new(opcode).take(256) {
                board.run(&case, faults);
            }
            board.sum
        };
        (0..128).map(sum).collect::<Vec<u64>>()
    };
    let right = (ends(&Faults::none()), sums(&Faults::none()));
    for fault in FAULTS {
        let planted = Faults::plant(fault);
        let same = right == (ends(&planted), sums(&planted));
        group.check(same, || format!("{fault:?} changes a run"));
    }
    group.same("a machine", std::mem::size_of::<Machine>(), 8);
}
