//! What one word sees (`Cycle`) and what it leaves (`Outcome`).

use crate::bits::{all_zero, splice, Bits};
use crate::faults::{Fault, Faults};
use crate::status::{Mode, Status};

/// The two data inputs of the chip, where an operation can use either.
#[derive(Clone, Copy)]
pub enum Port {
    A,
    B,
}

/// Everything that goes into one word.
pub struct Cycle<'f> {
    pub a: Bits,
    pub b: Bits,
    pub q: Bits,
    pub status: Status,
    /// Byte code bits I8 and I7.
    pub i8: bool,
    pub i7: bool,
    pub position_pins: [bool; 6],
    pub width_pins: [bool; 5],
    pub macro_select: bool,
    pub macro_carry: bool,
    pub macro_link: bool,
    pub borrow: bool,
    pub faults: &'f Faults,
}

/// What one word leaves.
pub struct Outcome {
    pub y: Bits,
    pub q: Bits,
    pub status: Status,
}

impl Cycle<'_> {
    pub fn has(&self, fault: Fault) -> bool {
        self.faults.has(fault)
    }

    /// The operand on a port.
    pub fn port(&self, port: Port) -> Bits {
        match port {
            Port::A => self.a,
            Port::B => self.b,
        }
    }

    /// The status register as this word reads it: by its own borrow switch,
    /// or with a fault of the place that asks in carry mode always.
    pub fn read(&self, status: &Status, carry_always: Fault) -> Bits {
        let borrow = self.borrow && !self.has(carry_always);
        status.read(Mode::of(borrow), self.faults)
    }

    /// How many low bits the byte code selects (table 3).
    pub fn selected(&self) -> usize {
        if self.has(Fault::ByteCodeIgnored) {
            return 32;
        }
        match (self.i8, self.i7) {
            (false, false) => 32,
            (false, true) => 8,
            (true, false) => 16,
            (true, true) => 24,
        }
    }

    /// The top selected bit of a word, its sign at the byte width.
    pub fn sign(&self, word: &Bits) -> bool {
        word[self.selected() - 1]
    }

    /// True where the selected bytes are all zero.
    pub fn zero(&self, word: &Bits) -> bool {
        if self.has(Fault::ZeroOf32Bits) {
            return all_zero(word);
        }
        all_zero(&word[..self.selected()])
    }

    /// Selected bytes from the result, unselected ones from `rest`.
    pub fn merge(&self, result: &Bits, rest: &Bits) -> Bits {
        splice(result, rest, self.selected())
    }

    /// The same, for the operations whose page passes bytes of B.
    pub fn merge_b(&self, result: &Bits) -> Bits {
        if self.has(Fault::UnselectedFromA) {
            return self.merge(result, &self.a);
        }
        self.merge(result, &self.b)
    }

    /// New Q: selected bytes replaced, "unselected high bytes of Q are
    /// unaffected" (LOADQ-A, the shifts over Q, the multiply and divide steps).
    pub fn merge_q(&self, result: &Bits) -> Bits {
        if self.has(Fault::UnselectedQCleared) {
            return self.merge(result, &crate::bits::ZEROS);
        }
        self.merge(result, &self.q)
    }

    /// Y as given, Q and status as they were.
    pub fn pass(&self, y: Bits) -> Outcome {
        Outcome {
            y,
            q: self.q,
            status: self.status,
        }
    }

    /// Y as given with Z and N of its selected bytes; the rest kept.
    pub fn pass_zn(&self, y: Bits) -> Outcome {
        let mut out = self.pass(y);
        out.status.z = self.zero(&y);
        out.status.n = self.sign(&y);
        out
    }
}
