//! The status register (Functional Description, figure 3).

use crate::bits::{Bits, ZEROS};
use crate::faults::{Fault, Faults};

/// In which sense bit 13, UNSIGNED LE, is read.
#[derive(Clone, Copy)]
pub enum Mode {
    /// C set by a subtraction says that nothing was borrowed.
    Carry,
    /// C set by a subtraction says that something was.
    Borrow,
}

impl Mode {
    /// The mode that a word's borrow switch asks for.
    pub fn of(borrow: bool) -> Mode {
        match borrow {
            true => Mode::Borrow,
            false => Mode::Carry,
        }
    }

    /// The mode, or another one that a fault puts for it.
    fn planted(self, faults: &Faults) -> Mode {
        match self {
            Mode::Carry if faults.has(Fault::Bit13AlwaysCOrZ) => Mode::Borrow,
            Mode::Carry if faults.has(Fault::Bit13ModesExchanged) => Mode::Borrow,
            Mode::Borrow if faults.has(Fault::Bit13ModesExchanged) => Mode::Carry,
            mode => mode,
        }
    }
}

/// The stored bits. Bits 13, 14, 15 and 23 are not stored: they are worked
/// out each time the register is read.
#[derive(Clone, Copy)]
pub struct Status {
    /// Bits 0 to 7; 6 and 7 can be loaded and read but have no use.
    pub position: [bool; 8],
    /// Bits 8 to 12.
    pub width: [bool; 5],
    pub c: bool,
    pub n: bool,
    pub v: bool,
    pub z: bool,
    pub l: bool,
    pub m: bool,
    pub s: bool,
    /// Bits 24 to 31, nibble carries or borrows 0 to 7.
    pub nibble: [bool; 8],
    /// What stood in bits 13, 14, 15 and 23 when the register was loaded.
    /// The chip keeps no such thing; only planted faults look here.
    residue: [bool; 4],
}

impl Status {
    /// Takes the stored bits from a full word; bits 13, 14, 15, 23 are ignored.
    pub fn load(word: &Bits) -> Status {
        let mut position = [false; 8];
        let mut width = [false; 5];
        let mut nibble = [false; 8];
        position.copy_from_slice(&word[0..8]);
        width.copy_from_slice(&word[8..13]);
        nibble.copy_from_slice(&word[24..32]);
        Status {
            position,
            width,
            c: word[16],
            n: word[17],
            v: word[18],
            z: word[19],
            l: word[20],
            m: word[21],
            s: word[22],
            nibble,
            residue: [word[13], word[14], word[15], word[23]],
        }
    }

    /// The whole register as it is read: 13 is C or Z in borrow mode and (not
    /// C) or Z in carry mode (EXTBIT-STAT note 2; document 02, request 3), 14 is
    /// N xor V, 15 is (N xor V) or Z, 23 is always 0. The one place where these
    /// are made.
    pub fn read(&self, mode: Mode, faults: &Faults) -> Bits {
        let mut word = self.stored();
        let below = match mode.planted(faults) {
            Mode::Borrow => self.c,
            Mode::Carry => !self.c,
        };
        let less = self.n ^ self.v;
        word[13] = below | self.z;
        word[14] = less;
        word[15] = less | self.z;
        if faults.has(Fault::Bits13To15Kept) {
            word[13..16].copy_from_slice(&self.residue[0..3]);
        }
        if faults.has(Fault::Bit23Kept) {
            word[23] = self.residue[3];
        }
        word
    }

    fn stored(&self) -> Bits {
        let mut word = ZEROS;
        word[0..8].copy_from_slice(&self.position);
        word[8..13].copy_from_slice(&self.width);
        word[16] = self.c;
        word[17] = self.n;
        word[18] = self.v;
        word[19] = self.z;
        word[20] = self.l;
        word[21] = self.m;
        word[22] = self.s;
        word[24..32].copy_from_slice(&self.nibble);
        word
    }
}
