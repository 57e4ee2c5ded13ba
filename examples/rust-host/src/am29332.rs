//! A safe wrapper over the proved Am29332 (include/am29332.h says what each function promises and
//! refuses).
//!
//! The library is safe with any numbers. What a C caller could get wrong, pointers, lengths and
//! areas that overlap, Rust's slices rule out: each `unsafe` below only takes a slice apart. A
//! refusal becomes an `Err`, and then nothing that was lent has changed.

/// The library's own functions.
mod library {
    use super::{Inputs, Machine, Word};

    #[repr(C)]
    #[derive(Clone, Copy)]
    pub struct Outcome {
        pub reason: u32,
        pub place: u64,
    }

    #[repr(C)]
    pub struct Answer {
        pub outcome: Outcome,
        pub y: u32,
        pub parity: u32,
        pub q: u32,
        pub status: u32,
        pub pins: u32,
    }

    #[repr(C)]
    pub struct Unpacked {
        pub outcome: Outcome,
        pub word: Word,
    }

    #[repr(C)]
    pub struct Heading {
        pub outcome: Outcome,
        pub version: u32,
        pub words: u32,
        pub registers: u32,
    }

    #[repr(C)]
    pub struct Wrote {
        pub outcome: Outcome,
        pub bytes: u64,
    }

    #[repr(C)]
    pub struct Stepped {
        pub outcome: Outcome,
        pub y: u32,
        pub parity: u32,
        pub machine: Machine,
        pub pins: u32,
    }

    #[repr(C)]
    pub struct Ran {
        pub outcome: Outcome,
        pub machine: Machine,
    }

    #[repr(C)]
    pub struct Interrupted {
        pub outcome: Outcome,
        pub machine: Machine,
        pub mark: u32,
    }

    extern "C" {
        pub fn am29332_library_version() -> u32;
        pub fn am29332_fresh() -> Machine;
        pub fn am29332_single_word(inputs: Inputs) -> Answer;
        pub fn am29332_pack(word: Word, bytes: *mut u8, length: usize) -> Outcome;
        pub fn am29332_unpack(bytes: *const u8, length: usize) -> Unpacked;
        pub fn am29332_read_header(sheet: *const u8, length: usize) -> Heading;
        pub fn am29332_check_sheet(sheet: *const u8, length: usize) -> Outcome;
        pub fn am29332_check_handler(sheet: *const u8, length: usize) -> Outcome;
        pub fn am29332_list_sheet(
            sheet: *const u8,
            length: usize,
            text: *mut u8,
            room: usize,
        ) -> Wrote;
        pub fn am29332_read_listing(
            text: *const u8,
            length: usize,
            sheet: *mut u8,
            room: usize,
        ) -> Wrote;
        pub fn am29332_run(
            sheet: *const u8,
            length: usize,
            file: *mut u32,
            registers: usize,
            machine: Machine,
            start: u64,
            allowance: u64,
        ) -> Ran;
        pub fn am29332_step(
            sheet: *const u8,
            length: usize,
            file: *mut u32,
            registers: usize,
            machine: Machine,
            start: u64,
        ) -> Stepped;
        pub fn am29332_interrupted_run(
            main: *const u8,
            main_length: usize,
            handler: *const u8,
            handler_length: usize,
            schedule: *const u16,
            entries: usize,
            file: *mut u32,
            registers: usize,
            machine: Machine,
        ) -> Interrupted;
    }
}

/// The version of the header that this wrapper was written for: major, minor, patch.
pub const VERSION: (u32, u32, u32) = (4, 0, 0);

/// Bytes of buffers that always suffice: for a sheet, and for its listing.
pub const SHEET_MOST: usize = 24_574;
pub const LISTING_MOST: usize = 425_903;

/// The version of the library that is linked.
pub fn library_version() -> (u32, u32, u32) {
    // SAFETY: nothing is handed in.
    let version = unsafe { library::am29332_library_version() };
    (version >> 16, version >> 8 & 255, version & 255)
}

/// Q and the status register, as a caller holds them between runs.
#[repr(C)]
#[derive(Clone, Copy, Debug, PartialEq, Eq)]
pub struct Machine {
    pub q: u32,
    pub status: u32,
}

/// The fields of a sheet's word, in the order in which they are packed. A word names registers `a`
/// and `b`, used or not, and register `y` where `write` is 1; where it is 0, `y` has to be 0.
#[repr(C)]
#[derive(Clone, Copy, Debug, Default, PartialEq, Eq)]
pub struct Word {
    pub opcode: u32,
    pub code: u32,
    pub position: u32,
    pub width: u32,
    pub a: u32,
    pub b: u32,
    pub y: u32,
    pub write: u32,
    pub select: u32,
    pub carry: u32,
    pub link: u32,
    pub borrow: u32,
}

/// What stands at the chip for a single word: here a and b are values.
#[repr(C)]
#[derive(Clone, Copy, Debug, Default, PartialEq, Eq)]
pub struct Inputs {
    pub opcode: u32,
    pub code: u32,
    pub position: u32,
    pub width: u32,
    pub select: u32,
    pub carry: u32,
    pub link: u32,
    pub borrow: u32,
    pub a: u32,
    pub b: u32,
    pub q: u32,
    pub status: u32,
}

/// What a single word gives. The parity has a bit for each byte of Y, the highest byte's in bit 3;
/// the pins C, Z, N, V and L are bits 4 to 0.
#[derive(Clone, Copy, Debug, PartialEq, Eq)]
pub struct Answer {
    pub y: u32,
    pub parity: u32,
    pub machine: Machine,
    pub pins: u32,
}

/// What the header of a sheet says.
#[derive(Clone, Copy, Debug, PartialEq, Eq)]
pub struct Heading {
    pub version: u32,
    pub words: u32,
    pub registers: u32,
}

/// What one word of a sheet shows, with parity and pins as in `Answer`.
#[derive(Clone, Copy, Debug, PartialEq, Eq)]
pub struct Shown {
    pub y: u32,
    pub parity: u32,
    pub pins: u32,
}

/// Why a call is refused. `Unknown` keeps the number of a reason that this wrapper does not know,
/// from a later library.
#[derive(Clone, Copy, Debug, PartialEq, Eq)]
pub enum Reason {
    Opcode,
    Inputs,
    Short,
    Version,
    Header,
    Length,
    File,
    Spare,
    Register,
    Start,
    Form,
    Overlap,
    Schedule,
    Room,
    Text,
    Count,
    Idle,
    Unknown(u32),
}

/// Which sheet of an interrupted run the fault is in, by the library's number.
#[derive(Clone, Copy, Debug, PartialEq, Eq)]
pub enum Mark {
    Neither,
    Main,
    Handler,
    Unknown(u32),
}

/// A refusal: the reason, its place, and the sheet it lies in.
#[derive(Clone, Copy, Debug, PartialEq, Eq)]
pub struct Refusal {
    pub reason: Reason,
    pub place: u64,
    pub mark: Mark,
}

/// In the order of the numbers that documents 01 and 02 give them, from 1 on.
const REASONS: [Reason; 17] = [
    Reason::Opcode,
    Reason::Inputs,
    Reason::Short,
    Reason::Version,
    Reason::Header,
    Reason::Length,
    Reason::File,
    Reason::Spare,
    Reason::Register,
    Reason::Start,
    Reason::Form,
    Reason::Overlap,
    Reason::Schedule,
    Reason::Room,
    Reason::Text,
    Reason::Count,
    Reason::Idle,
];

/// In the order of their numbers, from 0 on.
const MARKS: [Mark; 3] = [Mark::Neither, Mark::Main, Mark::Handler];

impl Reason {
    fn of(number: u32) -> Reason {
        let known = REASONS.get((number as usize).wrapping_sub(1));
        known.copied().unwrap_or(Reason::Unknown(number))
    }

    /// The number that documents 01 and 02 give it.
    pub fn number(self) -> u32 {
        let known = REASONS.iter().position(|&reason| reason == self);
        match (self, known) {
            (Reason::Unknown(number), _) => number,
            (_, place) => place.map_or(0, |place| place as u32 + 1),
        }
    }
}

impl Mark {
    fn of(number: u32) -> Mark {
        let known = MARKS.get(number as usize);
        known.copied().unwrap_or(Mark::Unknown(number))
    }

    /// The library's number.
    pub fn number(self) -> u32 {
        match self {
            Mark::Neither => 0,
            Mark::Main => 1,
            Mark::Handler => 2,
            Mark::Unknown(number) => number,
        }
    }
}

/// The place of an outcome that is not a refusal.
fn done(outcome: library::Outcome, mark: u32) -> Result<u64, Refusal> {
    if outcome.reason == 0 {
        return Ok(outcome.place);
    }
    Err(Refusal {
        reason: Reason::of(outcome.reason),
        place: outcome.place,
        mark: Mark::of(mark),
    })
}

impl Machine {
    /// Q and the status register at zero.
    pub fn fresh() -> Machine {
        // SAFETY: nothing is handed in.
        unsafe { library::am29332_fresh() }
    }

    /// The pins that show this status: what is seen after a run, and where no word ran or it was
    /// refused. The pins of an answer are always these of its machine.
    pub fn pins(self) -> u32 {
        let bit = |place: u32| self.status >> place & 1;
        bit(16) << 4 | bit(19) << 3 | bit(17) << 2 | bit(18) << 1 | bit(20)
    }
}

impl Inputs {
    /// One word on values. Refuses Opcode, Inputs.
    pub fn perform(self) -> Result<Answer, Refusal> {
        // SAFETY: numbers only, and any are taken.
        let answer = unsafe { library::am29332_single_word(self) };
        done(answer.outcome, 0)?;
        let machine = Machine {
            q: answer.q,
            status: answer.status,
        };
        Ok(Answer {
            y: answer.y,
            parity: answer.parity,
            machine,
            pins: answer.pins,
        })
    }
}

impl Word {
    /// Packs into the first six bytes; the others stay. Refuses Opcode, Inputs, Idle, Room.
    pub fn pack(self, bytes: &mut [u8]) -> Result<(), Refusal> {
        // SAFETY: a slice's own pointer and length, lent to be changed.
        let outcome = unsafe { library::am29332_pack(self, bytes.as_mut_ptr(), bytes.len()) };
        done(outcome, 0).map(|_| ())
    }

    /// Unpacks the first six bytes. Refuses Room, Spare, Idle, Opcode.
    pub fn unpack(bytes: &[u8]) -> Result<Word, Refusal> {
        // SAFETY: a slice's own pointer and length.
        let unpacked = unsafe { library::am29332_unpack(bytes.as_ptr(), bytes.len()) };
        done(unpacked.outcome, 0).map(|_| unpacked.word)
    }
}

/// The header of a sheet, from its first four bytes: what follows is not looked at. Refuses Short,
/// Version, Header.
pub fn read_header(sheet: &[u8]) -> Result<Heading, Refusal> {
    // SAFETY: a slice's own pointer and length.
    let heading = unsafe { library::am29332_read_header(sheet.as_ptr(), sheet.len()) };
    done(heading.outcome, 0).map(|_| Heading {
        version: heading.version,
        words: heading.words,
        registers: heading.registers,
    })
}

/// Whether a sheet can run on as many registers as it declares. Refuses Short to Length, then
/// Spare, Idle, Opcode, Register.
pub fn check_sheet(sheet: &[u8]) -> Result<(), Refusal> {
    // SAFETY: a slice's own pointer and length.
    let outcome = unsafe { library::am29332_check_sheet(sheet.as_ptr(), sheet.len()) };
    done(outcome, 0).map(|_| ())
}

/// Whether a sheet can be a handler. Refuses as `check_sheet` does, then Form.
pub fn check_handler(sheet: &[u8]) -> Result<(), Refusal> {
    // SAFETY: a slice's own pointer and length.
    let outcome = unsafe { library::am29332_check_handler(sheet.as_ptr(), sheet.len()) };
    done(outcome, 0).map(|_| ())
}

/// A sheet as text that people read (docs/LISTING.md), at the start of `text`; how many bytes it
/// has. Refuses as `check_sheet` does, then Room.
pub fn list_sheet(sheet: &[u8], text: &mut [u8]) -> Result<usize, Refusal> {
    // SAFETY: slices' own pointers and lengths, of which `text` alone is lent to be changed, and
    // overlaps no other.
    let wrote = unsafe {
        library::am29332_list_sheet(sheet.as_ptr(), sheet.len(), text.as_mut_ptr(), text.len())
    };
    done(wrote.outcome, 0).map(|_| wrote.bytes as usize)
}

/// The sheet that a text stands for, at the start of `sheet`; how many bytes it has. Refuses line by
/// line: Text, Version, Header of the first; Text, Inputs, Idle, Register of the others. Then Count,
/// Room.
pub fn read_listing(text: &[u8], sheet: &mut [u8]) -> Result<usize, Refusal> {
    // SAFETY: slices' own pointers and lengths, of which `sheet` alone is lent to be changed, and
    // overlaps no other.
    let wrote = unsafe {
        library::am29332_read_listing(text.as_ptr(), text.len(), sheet.as_mut_ptr(), sheet.len())
    };
    done(wrote.outcome, 0).map(|_| wrote.bytes as usize)
}

/// Runs a sheet from word `start`, at most `allowance` words, and gives the words run. Refuses as
/// `check_sheet` does, with File after Length and Start at the end.
pub fn run(
    sheet: &[u8],
    file: &mut [u32],
    machine: &mut Machine,
    start: u64,
    allowance: u64,
) -> Result<u64, Refusal> {
    // SAFETY: slices' own pointers and lengths, of which `file` alone is lent to be changed, and
    // overlaps no other.
    let ran = unsafe {
        library::am29332_run(
            sheet.as_ptr(),
            sheet.len(),
            file.as_mut_ptr(),
            file.len(),
            *machine,
            start,
            allowance,
        )
    };
    *machine = ran.machine;
    done(ran.outcome, 0)
}

/// Runs word `start` of a sheet alone and gives what it shows, or `None` at the sheet's end. Refuses
/// as `run` does.
pub fn step(
    sheet: &[u8],
    file: &mut [u32],
    machine: &mut Machine,
    start: u64,
) -> Result<Option<Shown>, Refusal> {
    // SAFETY: slices' own pointers and lengths, of which `file` alone is lent to be changed, and
    // overlaps no other.
    let stepped = unsafe {
        library::am29332_step(
            sheet.as_ptr(),
            sheet.len(),
            file.as_mut_ptr(),
            file.len(),
            *machine,
            start,
        )
    };
    *machine = stepped.machine;
    let shown = Shown {
        y: stepped.y,
        parity: stepped.parity,
        pins: stepped.pins,
    };
    done(stepped.outcome, 0).map(|words| (words > 0).then_some(shown))
}

/// Runs the main sheet to its end with the handler let in at each boundary of the schedule, and
/// gives the words run, main and handler together. Refuses what `run` does but Start, in the main
/// sheet and then in the handler's; then Form, Overlap, Schedule.
pub fn interrupted_run(
    main: &[u8],
    handler: &[u8],
    schedule: &[u16],
    file: &mut [u32],
    machine: &mut Machine,
) -> Result<u64, Refusal> {
    // SAFETY: slices' own pointers and lengths, of which `file` alone is lent to be changed, and
    // overlaps no other.
    let end = unsafe {
        library::am29332_interrupted_run(
            main.as_ptr(),
            main.len(),
            handler.as_ptr(),
            handler.len(),
            schedule.as_ptr(),
            schedule.len(),
            file.as_mut_ptr(),
            file.len(),
            *machine,
        )
    };
    *machine = end.machine;
    done(end.outcome, end.mark)
}
