//! The manual's own examples: field pages, tables of chapter 1, appendices.

use super::bench::{Bench, WIDTHS};
use super::Group;

/// An example of a field page: mnemonic, position, width, A, B, Y.
type FieldExample = (&'static str, u8, u8, u32, u32, u32);

/// ANDF-A prints its first example again as its second; Y of that one, and of
/// NOTF-A's second, which the scan lost, are by the page's rule. EXTF-B and
/// XORF-A have only their second example in the scan, ORF-A none.
const FIELD_EXAMPLES: [FieldExample; 9] = [
    ("ANDF-A", 0x03, 0, 0x7215_180F, 0x8FCE_1372, 0x8088_0072),
    ("ANDF-A", 0x3C, 0, 0x7215_180F, 0x8FCE_1372, 0x8700_1100),
    ("EXTF-A", 0x03, 0, 0x7215_1805, 0x8FCE_1372, 0x90A8_C028),
    ("EXTF-A", 0x3C, 0, 0x7172_3FED, 0x82CE_1509, 0xD717_23FE),
    ("EXTF-B", 0x3C, 0, 0x82CE_1509, 0x7172_3FED, 0xD717_23FE),
    ("NOTF-A", 0x3E, 0, 0x1234_5678, 0x9ABC_DEF0, !0x048D_159E),
    ("PASSF-A", 0x03, 0, 0x7215_1805, 0x8FCE_1372, 0x90A8_C02A),
    ("PASSF-A", 0x3C, 0, 0x7172_3FED, 0x82CE_1509, 0xD717_23FE),
    ("XORF-A", 0x3C, 0, 0x7172_3FED, 0x82CE_1509, 0x55D9_36F7),
];

pub fn field_pages(group: &mut Group) {
    for (mnemonic, position, width, a, b, y) in FIELD_EXAMPLES {
        let mut chip = Bench::field(position, width);
        group.same(mnemonic, chip.word(mnemonic, a, b), y);
        group.same(mnemonic, (chip.n(), chip.z()), (y >> 31 == 1, false));
    }
}

pub fn tables_and_notes(group: &mut Group) {
    table_4(group);
    table_15_and_16(group);
    shifts_and_rotates(group);
    bits(group);
    conversions(group);
    upshift_recovery(group);
}

/// Table 4: the encoder's output for every highest bit at every width, and
/// the example of table 9 (three bytes, bit 21 highest: 2).
fn table_4(group: &mut Group) {
    for (byte_code, bytes) in WIDTHS {
        let n = 8 * bytes;
        for bit in 0..n {
            let mut chip = Bench::new(byte_code);
            let operand = ((1u64 << (bit + 1)) - 1) as u32;
            group.same("table 4", chip.word("PRIOR-A", operand, 0), n - 1 - bit);
            group.same("table 4 stored", chip.status & 0xFF, n - 1 - bit);
        }
        let mut chip = Bench::new(byte_code);
        group.same("table 4, none", chip.word("PRIOR-B", 0, 0), 0);
        group.same("table 4, none, Z", chip.z(), true);
    }
    group.same("table 9", Bench::new(3).word("PRIOR-A", 0x0020_0000, 0), 2);
}

/// Table 15's examples have STATUS (7:0) = -7 and STATUS (12:8) = 3. The scan
/// lost one 0 of the first example's B.
fn table_15_and_16(group: &mut Group) {
    let mut chip = Bench::field(20, 11);
    chip.status = 0x0000_03F9;
    let b = 0b1000_0000_0000_0000_0101_0111_0011_0100;
    group.same("table 15, 1", chip.word("PASSF-AL-B", 0, b), b);
    group.same("table 15, 1, Z", chip.z(), true);
    let mut chip = Bench::new(3);
    chip.status = 0x0000_03F9;
    let a = 0b0110_1110_0010_0100_0010_1110_0110_1011;
    let b = 0b0001_1100_0010_1000_1100_1010_0100_1001;
    let field = ((a >> 7) ^ b) & 7;
    group.same("table 15, 2", chip.word("XORF-A", a, b), b & !7 | field);
    let mask = Bench::field(10, 8).word("PASS-MASK", 0, 0);
    group.same("table 16", mask, 0x0003_FC00);
}

/// Table 13 and the pages of the shifts and rotates.
fn shifts_and_rotates(group: &mut Group) {
    let up = Bench::field(4, 0).word("NB-0F-SHA", 0x1234_5678, 0);
    group.same("table 13, up 4", up, 0x2345_6780);
    let down = Bench::field(64 - 17, 0).word("NB-0F-SHB", 0, 0x8765_4321);
    group.same("table 13, down 17", down, 0x8765_4321 >> 17);
    for (operand, sign) in [(0x8000_0001, 0xFFFF_FFFF), (0x7FFF_FFFF, 0)] {
        let minus_32 = Bench::field(32, 0);
        group.same(
            "NB-SN-SHA by -32",
            minus_32.clone().word("NB-SN-SHA", operand, 0),
            sign,
        );
        group.same(
            "NB-0F-SHA by -32",
            minus_32.clone().word("NB-0F-SHA", operand, 0),
            0,
        );
        let none = Bench::field(0, 0).word("NB-SN-SHB", 0, operand);
        group.same("by 0", none, operand);
        let one = Bench::field(1, 0).word("NBROT-A", operand, 0);
        group.same("NBROT-A by 1", one, operand.rotate_left(1));
    }
}

/// Table 14's RSTBIT-B,,3 and EXTBIT-STAT's note 3, the Boolean constants.
/// (Table 14's EXTBIT-STAT,,-4 gives way to the page, which reads bit 28.)
fn bits(group: &mut Group) {
    let y = Bench::field(3, 0).word("RSTBIT-B", 0, 0xFFFF_FFFF);
    group.same("table 14", y, 0xFFFF_FFF7);
    for (position, constant) in [(23, 0), (32 + 23, 1)] {
        let mut chip = Bench::field(position, 0);
        chip.status = 0xFFFF_FFFF;
        group.same(
            "EXTBIT-STAT note 3",
            chip.word("EXTBIT-STAT", 0, 0),
            constant,
        );
        group.same("EXTBIT-STAT L", chip.l(), constant == 1);
    }
    let mut chip = Bench::field(32 + 28, 0);
    chip.status = 1 << 28;
    group.same("EXTBIT-STAT,,-4", chip.word("EXTBIT-STAT", 0, 0), 0);
}

/// SIGN-EXTA's note 1: a signed byte to a double word; ZERO-EXTA's likewise.
fn conversions(group: &mut Group) {
    for (byte, low, high) in [(0x80, 0xFFFF_FF80, 0xFFFF_FFFF), (0x7F, 0x7F, 0)] {
        let mut chip = Bench::new(1);
        group.same("SIGN-EXTA", chip.word("SIGN-EXTA", byte, 0), low);
        chip.byte_code = 0;
        group.same("SIGN", chip.word("SIGN", 0, 0), high);
        chip.byte_code = 1;
        group.same("ZERO-EXTA", chip.word("ZERO-EXTA", byte, 0), byte);
        chip.byte_code = 0;
        group.same("ZERO", chip.word("ZERO", 0, 0x1234_5678), 0);
    }
}

/// UP1's note 1: EXTBIT-STAT (14) and DN1-LF-A recover the original value.
fn upshift_recovery(group: &mut Group) {
    for (byte_code, bytes) in WIDTHS {
        let top = 1 << (8 * bytes - 1);
        for operand in [0, 1, top, top >> 1, top | top >> 1, top - 1] {
            let mut chip = Bench::new(byte_code);
            let up = chip.word("UP1-0F-A", operand, 0);
            chip.byte_code = 0;
            chip.position = 14;
            chip.word("EXTBIT-STAT", 0, 0);
            chip.byte_code = byte_code;
            group.same("UP1 note 1", chip.word("DN1-LF-A", up, 0), operand);
        }
    }
}

/// Appendix A's additions: instruction, two operands, sum, nibble carries,
/// corrected result. Example 5 is printed 45 + 45 and means 45 + 55.
const ADDITIONS: [(&str, u32, u32, u32, u32, u32); 10] = [
    ("ADD", 0x44, 0x44, 0x0088, 0b0000, 0x0088),
    ("ADD", 0x45, 0x45, 0x008A, 0b0001, 0x0090),
    ("ADD", 0x48, 0x48, 0x0090, 0b0001, 0x0096),
    ("ADD", 0x48, 0x58, 0x00A0, 0b0011, 0x0106),
    ("ADD", 0x45, 0x55, 0x009A, 0b0011, 0x0100),
    ("ADD", 0x428, 0x568, 0x0990, 0b0001, 0x0996),
    ("ADD", 0x428, 0x578, 0x09A0, 0b0111, 0x1006),
    ("ADDC", 0x35, 0x64, 0x009A, 0b0011, 0x0100),
    ("ADDC", 0x37, 0x68, 0x00A0, 0b0011, 0x0106),
    ("ADDC", 0x37, 0x58, 0x0090, 0b0001, 0x0096),
];

/// Examples 11 to 13, one byte: A - B, difference, nibble borrows, corrected.
const SUBTRACTIONS: [(u32, u32, u32, u32, u32); 3] = [
    (0x05, 0x03, 0x02, 0b00, 0x02),
    (0x05, 0x05, 0x00, 0b00, 0x00),
    (0x03, 0x05, 0xFE, 0b11, 0x98),
];

pub fn appendix_a(group: &mut Group) {
    for (mnemonic, a, b, sum, carries, corrected) in ADDITIONS {
        let mut chip = Bench::new(2);
        chip.status = 1 << 16;
        group.same("addition", chip.word(mnemonic, a, b), sum);
        group.same("nibble carries", chip.nibbles() & 0xF, carries);
        group.same("corrected", chip.word("SUM-CORR-A", sum, 0), corrected);
    }
    for (a, b, difference, borrows, corrected) in SUBTRACTIONS {
        let mut chip = Bench::new(1);
        group.same("subtraction", chip.word("SUB", a, b), difference);
        group.same("nibble borrows", chip.nibbles() & 3, borrows);
        group.same(
            "corrected",
            chip.word("DIFF-CORR-B", 0, difference),
            corrected,
        );
    }
}

/// Byte code, a number's size, its ten's complement as appendix A prints it.
const TEN_COMPLEMENTS: [(u8, u32, u32); 17] = [
    (2, 0x0952, 0x9048),
    (2, 0x5000, 0x5000),
    (2, 0x4999, 0x5001),
    (2, 0x4998, 0x5002),
    (2, 0x2000, 0x8000),
    (2, 0x1000, 0x9000),
    (2, 0x0999, 0x9001),
    (2, 0x0500, 0x9500),
    (2, 0x0002, 0x9998),
    (2, 0x0001, 0x9999),
    (1, 0x10, 0x90),
    (1, 0x09, 0x91),
    (1, 0x01, 0x99),
    (3, 0x00_5000, 0x99_5000),
    (3, 0x09_9999, 0x90_0001),
    (0, 0x0040_0000, 0x9960_0000),
    (0, 0x0000_0300, 0x9999_9700),
];

/// Negative numbers formed by NEG and DIFF-CORR.
pub fn ten_complements(group: &mut Group) {
    for (byte_code, size, complement) in TEN_COMPLEMENTS {
        let mut chip = Bench::new(byte_code);
        let y = chip.word("NEG-A", size, 0);
        group.same("NEG-A", chip.word("DIFF-CORR-A", y, 0), complement);
        let y = chip.word("NEG-B", 0, complement);
        group.same("NEG-B", chip.word("DIFF-CORR-B", 0, y), size);
    }
}

/// Appendix B's multiplication, 65 times 48, and division, 75 by 02: every Y
/// as printed, Q at the end and UDIVLAST's N flag.
pub fn appendix_b(group: &mut Group) {
    let mut chip = Bench::new(1);
    chip.word("LOADQ-A", 0x65, 0);
    let steps = ["UMULFIRST", "UMULSTEP", "UMULSTEP", "UMULSTEP", "UMULLAST"];
    let mut b = 0;
    for (mnemonic, y) in steps.into_iter().zip([0x12, 0x16, 0xE1, 0x1C, 0x1C]) {
        b = chip.word(mnemonic, 0x48, b);
        group.same(mnemonic, b, y);
    }
    group.same("low product byte", chip.word("PASS-Q", 0, 0), 0x68);
    division_example(group);
}

fn division_example(group: &mut Group) {
    let mut chip = Bench::new(1);
    chip.word("LOADQ-A", 0x75, 0);
    let mut b = chip.word("UDIVFIRST", 0x02, 0);
    group.same("UDIVFIRST", b, 0x00);
    for y in [0xFD, 0xFF, 0x03, 0x02, 0x01, 0xFE, 0x01] {
        b = chip.word("UDIVSTEP", 0x02, b);
        group.same("UDIVSTEP", b, y);
    }
    b = chip.word("UDIVLAST", 0x02, b);
    group.same("UDIVLAST", (b, chip.n()), (0xFF, true));
    group.same("REMCORR", chip.word("REMCORR", 0x02, b), 0x01);
    group.same("quotient", chip.word("PASS-Q", 0, 0), 0x3A);
}
