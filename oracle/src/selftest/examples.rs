//! Document 01's lettered examples and its trace example.

use super::bench::Bench;
use super::{sequences, Group};
use crate::trace::trace;

pub fn lettered(group: &mut Group) {
    masks(group);
    bytes(group);
    fields(group);
    status(group);
    arithmetic(group);
}

fn masks(group: &mut Group) {
    group.same(
        "a",
        Bench::field(0x1E, 4).word("PASS-MASK", 0, 0),
        0xC000_0000,
    );
    group.same(
        "b",
        Bench::field(0x3E, 4).word("PASS-MASK", 0, 0),
        0x3FFF_FFFF,
    );
    group.same("c", Bench::field(4, 0).word("PASS-MASK", 0, 0), 0xFFFF_FFF0);
}

fn bytes(group: &mut Group) {
    let mut chip = Bench::new(2);
    group.same("d", chip.word("NOT-A", 0x1234_5678, 0), 0x1234_A987);
    group.same("d flags", (chip.n(), chip.z()), (true, false));
    for mnemonic in ["PRIOR-A", "PRIOR-B"] {
        for (operand, z) in [(0x0000_8000, false), (0x0001_0000, true)] {
            let mut chip = Bench::new(2);
            group.same("e", chip.word(mnemonic, operand, operand), 0);
            group.same("e stored", (chip.status & 0xFF, chip.z()), (0, z));
        }
    }
}

fn fields(group: &mut Group) {
    let (a, b) = (0x1234_5678, 0x9ABC_DEF0);
    group.same("f", Bench::field(0x02, 0).word("NOTF-A", a, b), 0xB72E_A61C);
    group.same("f", Bench::field(0x3E, 0).word("NOTF-A", a, b), 0xFB72_EA61);
    let y = Bench::field(0x3C, 8).word("PASSF-A", a, 0xFFFF_FF00);
    group.same("g", y, 0xFFFF_FF67);
}

fn status(group: &mut Group) {
    let mut chip = Bench::new(0);
    chip.word("LDSTAT-A", 0xFFFF_FFFF, 0);
    group.same("h", chip.word("PASS-STAT", 0, 0), 0xFF7F_BFFF);
}

fn arithmetic(group: &mut Group) {
    group.same("i", sequences::multiply(1, 0xFF, 0xFF), (0xFE, 0x01));
    let all = 0xFFFF_FFFF;
    group.same("j", sequences::multiply(0, all, all), (0xFFFF_FFFE, 1));
    group.same("k", sequences::divide(1, 0xFF, 0x10), (0x0F, 0x0F));
    let mut chip = Bench::new(1);
    group.same("l", chip.word("ADD", 0x55, 0x55), 0xAA);
    group.same("l", chip.word("SUM-CORR-A", 0xAA, 0), 0x10);
    group.same("l C", chip.c(), true);
    let mut chip = Bench::new(1);
    group.same("m", chip.word("ADD", 0x95, 0x05), 0x9A);
    group.same("m", chip.word("SUM-CORR-A", 0x9A, 0), 0x00);
    group.same("m C Z", (chip.c(), chip.z()), (true, true));
}

/// 10010800 808000420E00 00000000 000000F3 1234563C 00000000.
const TRACE_INPUT: [u8; 26] = [
    0x10, 0x01, 0x08, 0x00, 0x80, 0x80, 0x00, 0x42, 0x0E, 0x00, //
    0x00, 0x00, 0x00, 0x00, 0x00, 0x00, 0x00, 0xF3, //
    0x12, 0x34, 0x56, 0x3C, 0x00, 0x00, 0x00, 0x00,
];

/// The status and the pins are document 02's, by its third and fourth requests.
pub fn trace_example(group: &mut Group) {
    let want = "0000 12345630 00000000 00002000 00000\n00 0001\n";
    group.same("trace", trace(&TRACE_INPUT), want.to_string());
}
