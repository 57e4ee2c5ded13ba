//! Known faults that can be planted in the model, to show that the gate's data
//! notice them: digests, the longest trace, interrupted runs and cases of
//! listings. The model asks `has` at the place concerned.

use std::cell::Cell;

/// Makes the list of faults, and the tables of what each one is, in the order
/// they are tried.
macro_rules! faults {
    ($($(#[$about:meta])* $table:ident { $($name:ident: $what:literal,)* })*) => {
        /// One known fault.
        #[derive(Clone, Copy, PartialEq, Debug)]
        pub enum Fault {
            $($($name,)*)*
        }

        $(
            $(#[$about])*
            pub const $table: &[(Fault, &str)] = &[$((Fault::$name, $what),)*];
        )*
    };
}

faults! {
/// Faults of single words and runs, which the digests notice.
IN_WORDS {
    CarryInLost: "the carry taken in by ADDC, SUBC, SUBRC is lost",
    OverflowAt32Bits: "V taken at bit 31 whatever the byte code",
    ZeroOf32Bits: "Z of all 32 bits whatever the byte code",
    SumZeroMissesBit20: "sums and differences: bit 20 left out of Z",
    ByteCodeIgnored: "byte code ignored, always four bytes",
    UnselectedFromA: "unselected bytes of two-operand words from A",
    UnselectedQCleared: "unselected bytes of Q not kept",
    ArithmeticFillFromN: "DN1-AR filled from the N flag",
    MacroLinkIgnored: "DN1-LF never takes the macro link",
    UpTakesMacroLink: "UP1-LF takes the macro link",
    LinkFromOperandNotQ: "DN1 over Q: L from the operand's bit 0",
    UpLinkFromBit31: "UP1: L from bit 31 whatever the byte code",
    NibbleCarriesBinary: "nibble carries taken from the binary sum",
    NibblesOfSelectedOnly: "nibble bits of unselected bytes cleared",
    NibbleBorrowsTurned: "nibble borrows inverted in borrow mode",
    BorrowNotOnCarryOut: "borrow not applied to C",
    BorrowNotOnCarryIn: "SUBC, SUBRC: borrow not applied to the carry in",
    AddTakesBorrow: "ADD, ADDC: borrow applied to C",
    IncrIgnoresBorrow: "INCR: C in carry sense in borrow mode",
    MacroSelectSwapped: "ADDC, SUBC, SUBRC: macro select swapped",
    SumCorrClearsNibbles: "SUM-CORR clears the nibble carries",
    DiffCorrCarryNotComplemented: "DIFF-CORR: C not complemented",
    QuotientBitAsPrinted: "unsigned quotient bit as printed",
    UdivlastNComplemented: "UDIVLAST: N is the quotient bit",
    SignExtensionKept: "UDIVSTEP: S from the extension bit, not from F",
    RemcorrAsPrinted: "REMCORR's condition as printed",
    SignedFirstBitInverted: "SDIVFIRST: the quotient bit inverted",
    DividendSignFromDivisor: "SDIVFIRST: S from the divisor's sign",
    QuotientNotCorrected: "QUOCORR passes B",
    DivisorSignFromQAlone: "SDIVLAST2: divisor sign from Q alone",
    MultiStep1ByByteCode: "MPDIVSTEP1: Y cut to the byte code",
    MultiSelectAsInAddc: "MPDIVSTEP2, STEP3: macro select as in ADDC",
    BoothRowsSwapped: "multiply step rows 011 and 100 swapped",
    MultiplyMNotStored: "multiply steps: M not stored",
    PartialZeroExtended: "multiply steps: B extended by zeros",
    SignedZeroExtended: "SMUL: A extended by zeros",
    RotateIsShift: "negative non-aligned position shifts",
    ShiftBy32AsNone: "N-bit downshift by 32 as none",
    AlignedHeedsSixthBit: "aligned field heeds the sixth position bit",
    StatusPositionIgnored: "I8 ignored: position always from the pins",
    WidthZeroIsZero: "width 0 as 0 bits",
    WidthZeroIs31: "width 0 as 31 bits: a mask one bit short",
    FieldZeroOf32Bits: "field operations: Z of all 32 bits",
    PassMaskNotInverted: "PASS-MASK never inverted",
    ExtbitNotInverted: "EXTBIT never inverts",
    ExtbitStatTouchesZ: "EXTBIT-STAT changes Z",
    BitPutsHonestZ: "SETBIT, RSTBIT: Z of the result",
    PriorCountsFrom31: "PRIOR counts from bit 31 whatever the width",
    PriorKeepsHighPosition: "PRIOR keeps status 7 to 5",
    SignLooksAtB: "SIGN looks at B",
    LdstatYMasked: "LDSTAT: Y without bits 13, 14, 15, 23",
    LdstatRestInCarryMode: "LDSTAT: the unselected bytes of Y in carry mode whatever borrow says",
    LdstatTakesBit13: "LDSTAT: bit 13 loaded, into C",
    PassStatInCarryMode: "PASS-STAT in carry mode whatever borrow says",
    ExtbitStatInCarryMode: "EXTBIT-STAT in carry mode whatever borrow says",
    PutStatInCarryMode: "SETBIT-STAT, RSTBIT-STAT: Y in carry mode whatever borrow says",
    Bit13AlwaysCOrZ: "bit 13 is C or Z whatever borrow says",
    Bit13ModesExchanged: "bit 13: carry mode and borrow mode exchanged",
    Bits13To15Kept: "bits 13 to 15 kept, not worked out",
    Bit23Kept: "bit 23 kept",
    ParityOdd: "odd parity",
    RefusalsSwapped: "Inputs refused before Opcode",
    RefusalWorksOutStatus: "a refusal works out the status bits",
    RefusedPinsZero: "a refused word's pins 0",
    RefusedPinsOfTheWord: "a refused word's pins as if it had run",
    AnswerInCarryMode: "a single word's answer in carry mode whatever borrow says",
    PinsZAndNExchanged: "pins: Z and N exchanged",
    PinsCAndLExchanged: "pins: C and L exchanged",
    PinsReversed: "pins in the order L V N Z C",
    PinsAsStatusBits: "pins in the order of status bits 20 to 16",
    PinsAsPagesPrint: "pins in the pages' order Z N C V L",
    PinLLeftOut: "pins without L",
    PinsOfTheWordBefore: "pins of the status handed in",
    PinLeftAloneZero: "pins: a flag that the word leaves alone as 0",
    ExtbitStatPinZ: "EXTBIT-STAT: the Z pin by the page's list",
    PutStatPinsKept: "SETBIT-STAT, RSTBIT-STAT: no pin changes",
    LdstatPinsWhole: "LDSTAT: the operand's flags on the pins whatever the byte code",
    PinZOfTheWholeY: "pins: Z of the whole Y whatever the page says",
    PinCTurnedByBorrow: "pins: C turned over in borrow mode",
    WriteIgnored: "a run stores Y whatever write says",
    StoredToB: "a run stores Y in B's register",
    RegisterOfFiveBits: "a run takes five bits of a register field",
    IdleWordPacked: "packing takes a word left idle",
    PackedIdleBeforeOpcode: "packing: Idle before Opcode",
    PackedIdleBeforeInputs: "packing: Idle before Inputs",
    IdleWordTaken: "a sheet's word left idle taken",
    IdleAfterOpcode: "a sheet's word: Idle after Opcode",
    IdleBeforeSpare: "a sheet's word: Idle before Spare",
    StartAtEndRefused: "a start at the sheet's end refused",
    AllowanceIgnored: "the allowance of a run ignored",
    RunOfNoneKeepsStatus: "a run of no words keeps bits 13 to 15 and 23",
    RunOfNoneInBorrowMode: "a run of no words hands back borrow mode",
    RunByLastWord: "a run hands back the mode of its last word",
    RefusedRunWorksOutStatus: "a refused run works out the status bits",
}

/// Faults of the trace program's text, which the longest trace notices.
IN_TRACES {
    TraceInCarryMode: "a trace's line in carry mode whatever borrow says",
    TracePinsOfTheWordBefore: "a trace's line with the pins of the line before",
    TracePinsReversed: "a trace's pins in the order L V N Z C",
    TracePinsUnpadded: "a trace's pins without leading zeros",
}

/// Faults of the interrupted run, which the gate's interrupted runs notice.
IN_INTERRUPTS {
    InterruptedOfNoneInBorrowMode: "an interrupted run of no words hands back borrow mode",
    InterruptedByLastWord: "an interrupted run hands back the mode of its last word",
    RefusedInterruptedWorksOutStatus: "a refused interrupted run works out the status bits",
    IdleYOfMainNames: "Overlap: a main word's Y names register 0 where it is not written",
    IdleYOfHandlerNames: "Overlap: a handler's Y names register 0 where it is not written",
    WordWithoutWriteNamesNone: "Overlap: a word that does not write names no register",
    IdleYNamesInForm: "Form: a Y names register 0 where it is not written",
    QWhereWordOneWrites: "Form: q taken only where word 1 writes",
}

/// Faults of the lister and the reader, which the cases of listings notice.
IN_LISTINGS {
    MacroLinkNotListed: "macro-link left out of the line",
    AAndBListedExchanged: "A and B exchanged in the line",
    ElevenColumns: "a mnemonic in eleven columns",
    WidthZeroListedAs32: "width 0 listed as 32",
    RegisterListedUnchecked: "a sheet listed without the check of its registers",
    IdleWordListed: "a sheet listed with a word left idle",
    LinesFromOne: "the first line counted as 1",
    EmptyLineSkipped: "an empty line skipped",
    LastLineFeedWanted: "a last line without its line feed refused",
    CapitalsWanted: "small letters refused",
    CaseByBitFive: "characters compared but for bit 5, letters or not",
    ReturnNoBlank: "a carriage return is no blank",
    EverySpaceBlank: "form feeds and vertical tabs are blanks",
    MnemonicBegun: "the beginning of a mnemonic read as the mnemonic",
    TwoDigitsWanted: "a number of one digit refused",
    ThreeDigitsTaken: "a number of three digits taken",
    SwitchesInAnyOrder: "switches taken in any order, and twice",
    PartsAfterSwitches: "what follows the switches not looked at",
    VersionBeforeText: "first line: Version before Text",
    InputsBeforeText: "a word line: Inputs before Text",
    RegisterBeforeInputs: "a word line: Register before Inputs",
    IdleLineTaken: "a word line left idle taken, with Y 0",
    IdleBeforeInputs: "a word line: Idle before Inputs",
    RegisterBeforeIdle: "a word line: Register before Idle",
    RegistersTo63: "64 registers refused",
    CountBeforeLines: "Count before the lines' reasons",
    CountFrom4095: "4,095 word lines refused",
    RoomBeforeCount: "Room before Count",
    RoomOneMore: "Room where the output fits to the byte",
    RefusedRoomWritten: "Room: what fits is written",
    RestCleared: "the buffer cleared past what is written",
}
}

/// How many faults there are.
const COUNT: usize = IN_WORDS.len() + IN_TRACES.len() + IN_INTERRUPTS.len() + IN_LISTINGS.len();

/// At most one planted fault, and a record of which faults were asked about, with
/// a place for each.
pub struct Faults {
    planted: Option<Fault>,
    asked: [Cell<bool>; COUNT],
}

impl Faults {
    /// The model as it should be.
    pub fn none() -> Faults {
        Faults {
            planted: None,
            asked: [const { Cell::new(false) }; COUNT],
        }
    }

    /// The model with one fault.
    pub fn plant(fault: Fault) -> Faults {
        Faults {
            planted: Some(fault),
            ..Faults::none()
        }
    }

    /// Is this fault planted? The question is noted.
    pub fn has(&self, fault: Fault) -> bool {
        self.asked[fault as usize].set(true);
        self.planted == Some(fault)
    }

    /// Was this fault asked about since the record was made? Without a single
    /// question the model cannot have answered otherwise than it should.
    pub fn was_asked(&self, fault: Fault) -> bool {
        self.asked[fault as usize].get()
    }
}

/// Plants each fault of a table in turn and tells how many answers of the
/// witness change, and the name of the first. True where every fault is noticed.
pub fn try_each(
    table: &[(Fault, &str)],
    witness: &str,
    answers: impl Fn(&Faults) -> Vec<String>,
    name: impl Fn(usize) -> String,
) -> bool {
    let right = answers(&Faults::none());
    let mut unnoticed = 0;
    for &(fault, what) in table {
        let wrong = answers(&Faults::plant(fault));
        let changed = |&i: &usize| wrong.get(i) != Some(&right[i]);
        let changed: Vec<usize> = (0..right.len()).filter(changed).collect();
        unnoticed += usize::from(changed.is_empty());
        let first = changed.first().map_or("none".to_string(), |&i| name(i));
        println!("{what}: {} {witness} (first: {first})", changed.len());
    }
    let (planted, asked) = (table.len(), right.len());
    println!("{planted} faults planted over {asked} {witness}, {unnoticed} not noticed");
    unnoticed == 0
}
