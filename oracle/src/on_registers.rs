//! The cases of the draw once more, each as a sheet of one word that is packed,
//! checked and run on registers: the digest's second sum.
//!
//! A file of 64 registers, all 0 as an opcode's line starts, is kept from case
//! to case. From the case's last draw r: a = r % 64, b = (r >> 6) % 64,
//! write = (r >> 18) % 2; y = (r >> 12) % 64 if write is 1 or (r >> 32) % 16 is
//! 0, else y = 0.
//!
//! - A is put into register a, then B into register b.
//! - The sheet is 10 01 80 00 (hex; one word, 64 registers) and six zero bytes,
//!   into which the word is packed; a word that is refused leaves them. Then the
//!   opcode number % 128 is put into the word's first seven bits, and y and write
//!   into theirs: byte 8 becomes y * 4 + write * 2 + its own lowest bit. Neither
//!   changes anything in a word that was packed: a number without a page, and a
//!   field left idle, get into a sheet so.
//! - It is run with the case's Q and status from word 0 with an allowance of 1,
//!   all registers lent.
//! - If (r >> 19) % 16 is 0 something is unusual, by kind = (r >> 23) % 8 with
//!   n = (r >> 26) % 64. Kind 0: the sheet's byte 2 is 2 * n (n registers
//!   declared). 1: the low five bits of byte 9 (the word's zero bits) are n % 32.
//!   2: byte 0 (version) is n. 3: byte 3 (the header's zero bits) is n. 4: the
//!   start is n % 4. 5: the allowance is n % 4. 6: the sheet is n % 16 bytes
//!   long, cut or filled up with zeros. 7: n registers are lent.
//!
//! The sum starts at 1; after each case, for the reason of packing, the run's
//! reason, place, Q and status, and the registers 0 to 63, in this order:
//! sum = next(sum xor answer).

use crate::draw::{next, Case};
use crate::faults::Faults;
use crate::run::{run_with, Machine, Ran};
use crate::sheet::{pack_with, Word, HEADER, WORD};
use crate::word::Inputs;

/// The registers of an opcode's line, and the sum so far.
#[derive(Clone)]
pub struct Board {
    file: [u32; 64],
    pub sum: u64,
}

impl Board {
    pub fn new() -> Board {
        Board {
            file: [0; 64],
            sum: 1,
        }
    }

    /// Runs one more case, folds what it leaves into the sum, and says how it
    /// ended.
    pub fn run(&mut self, case: &Case, faults: &Faults) -> Ran {
        let word = word_of(&case.inputs, case.how);
        self.file[usize::from(word.a)] = case.inputs.a;
        self.file[usize::from(word.b)] = case.inputs.b;
        let mut call = Call::new();
        let packed = pack_with(&word, &mut call.sheet[HEADER..HEADER + WORD], faults);
        call.put_unchecked(&word);
        if (case.how >> 19).is_multiple_of(16) {
            call.make_unusual((case.how >> 23) % 8, ((case.how >> 26) % 64) as u8);
        }
        let machine = Machine {
            q: case.inputs.q,
            status: case.inputs.status,
        };
        let ran = call.run(&mut self.file, machine, faults);
        self.fold(packed.reason, ran);
        ran
    }

    fn fold(&mut self, packed: u8, ran: Ran) {
        let answers = [
            u32::from(packed),
            u32::from(ran.verdict.reason),
            ran.verdict.place as u32,
            ran.machine.q,
            ran.machine.status,
        ];
        self.sum = answers
            .iter()
            .chain(&self.file)
            .fold(self.sum, |sum, &value| next(sum ^ u64::from(value)));
    }
}

/// The word of a case, with its registers. Of the words that do not write, one in
/// sixteen keeps its Y field.
fn word_of(inputs: &Inputs, how: u64) -> Word {
    let write = ((how >> 18) % 2) as u8;
    let y = match write == 1 || (how >> 32).is_multiple_of(16) {
        true => ((how >> 12) % 64) as u8,
        false => 0,
    };
    Word {
        opcode: inputs.opcode,
        byte_code: inputs.byte_code,
        position: inputs.position,
        width: inputs.width,
        a: (how % 64) as u8,
        b: ((how >> 6) % 64) as u8,
        y,
        write,
        macro_select: inputs.macro_select,
        macro_carry: inputs.macro_carry,
        macro_link: inputs.macro_link,
        borrow: inputs.borrow,
    }
}

/// What a run is called with, the file and the machine apart.
struct Call {
    sheet: [u8; 16],
    length: usize,
    lent: usize,
    start: usize,
    allowance: usize,
}

impl Call {
    fn new() -> Call {
        let mut sheet = [0; 16];
        sheet[..3].copy_from_slice(&[0x10, 0x01, 0x80]);
        Call {
            sheet,
            length: HEADER + WORD,
            lent: 64,
            start: 0,
            allowance: 1,
        }
    }

    /// Puts the opcode number, Y and write into the sheet, whether the word was
    /// packed or not.
    fn put_unchecked(&mut self, word: &Word) {
        let (first, fifth) = (HEADER, HEADER + 4);
        self.sheet[first] = word.opcode % 128 * 2 + self.sheet[first] % 2;
        self.sheet[fifth] = word.y * 4 + word.write * 2 + self.sheet[fifth] % 2;
    }

    fn make_unusual(&mut self, kind: u64, n: u8) {
        match kind {
            0 => self.sheet[2] = 2 * n,
            1 => self.sheet[9] = self.sheet[9] / 32 * 32 + n % 32,
            2 => self.sheet[0] = n,
            3 => self.sheet[3] = n,
            4 => self.start = usize::from(n % 4),
            5 => self.allowance = usize::from(n % 4),
            6 => self.length = usize::from(n % 16),
            _ => self.lent = usize::from(n),
        }
    }

    fn run(&self, file: &mut [u32; 64], machine: Machine, faults: &Faults) -> Ran {
        run_with(
            &self.sheet[..self.length],
            &mut file[..self.lent],
            machine,
            self.start,
            self.allowance,
            faults,
        )
    }
}
