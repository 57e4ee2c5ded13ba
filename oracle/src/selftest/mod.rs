//! The program's own tests. Each group counts its checks; a miss is printed
//! and makes the whole fail.

mod bench;
mod bit13;
mod decimal;
mod draws;
mod examples;
mod forms;
mod listing;
mod manual;
mod pins;
mod runs;
mod sequences;
mod sheets;
mod signed;

/// Counts the checks of one group.
pub struct Group {
    name: &'static str,
    checks: u64,
    misses: u64,
}

impl Group {
    /// Notes one check; the detail is only made for a miss.
    pub fn check(&mut self, good: bool, detail: impl FnOnce() -> String) {
        self.checks += 1;
        if !good {
            self.misses += 1;
            if self.misses <= 10 {
                println!("MISS {}: {}", self.name, detail());
            }
        }
    }

    /// Notes that two values agree.
    pub fn same<T: PartialEq + std::fmt::Debug>(&mut self, what: &str, got: T, want: T) {
        let good = got == want;
        self.check(good, || format!("{what}: got {got:X?}, want {want:X?}"));
    }
}

type Test = (&'static str, fn(&mut Group));

/// Every group, in order.
const GROUPS: [Test; 60] = [
    ("document 01, examples a to m", examples::lettered),
    ("document 01, the trace example", examples::trace_example),
    ("manual, field pages", manual::field_pages),
    ("manual, tables and notes", manual::tables_and_notes),
    ("manual, appendix A examples", manual::appendix_a),
    ("manual, appendix A numbers", manual::ten_complements),
    ("manual, appendix B examples", manual::appendix_b),
    (
        "unsigned multiply, all one-byte pairs",
        sequences::multiply_all_bytes,
    ),
    ("unsigned multiply, random wider", sequences::multiply_wider),
    (
        "unsigned divide, all one-byte pairs",
        sequences::divide_all_bytes,
    ),
    ("unsigned divide, random wider", sequences::divide_wider),
    (
        "signed multiply, all one-byte pairs",
        signed::multiply_all_bytes,
    ),
    ("signed multiply, random wider", signed::multiply_wider),
    (
        "signed divide, all one-byte pairs",
        signed::divide_all_bytes,
    ),
    ("signed divide, random wider", signed::divide_wider),
    (
        "signed divide, random dividends of double length",
        signed::divide_double,
    ),
    (
        "signed divide, what is told and not promised",
        signed::divide_told,
    ),
    ("planted faults in the signed lists", signed::faults_show),
    (
        "signed divide by the manual, with its jump",
        sequences::signed_divide,
    ),
    (
        "multiprecision divide by the pages",
        sequences::multiprecision_divide,
    ),
    ("decimal, all one-byte pairs", decimal::all_bytes),
    ("decimal, random wider", decimal::wider),
    ("decimal, counting and negation", decimal::counting),
    ("decimal, several words long", decimal::long),
    ("packing and unpacking", sheets::round_trips),
    ("refusals of sheets and traces", sheets::refusals),
    ("the handler's form, every clause", forms::clauses),
    ("the handler's form, save registers", forms::saves),
    ("registers that main and handler share", forms::overlaps),
    ("refusals of schedules", forms::schedules),
    ("a run in parts equals a run at once", runs::in_parts),
    ("interrupts leave main undisturbed", runs::interrupts),
    (
        "interrupted runs end in every way",
        runs::interrupted_reasons,
    ),
    ("bit 13 by hand", bit13::by_hand),
    ("bit 13 by C, Z and the switch", bit13::table),
    (
        "comparisons by SUB and SUBR, all one-byte pairs",
        bit13::all_bytes,
    ),
    ("comparisons by SUB and SUBR, random wider", bit13::wider),
    ("bit 13 after runs, at every allowance", bit13::runs),
    ("bit 13 after interrupted runs", bit13::interrupted),
    ("bit 13 in the lines of traces", bit13::traces),
    ("bit 13 taken in changes nothing", bit13::loaded),
    ("pins by hand, each alone", pins::by_hand),
    ("pins of document 01's examples", pins::examples),
    ("pins of every opcode number", pins::every_opcode),
    ("pins that a page's word changes", pins::by_the_pages),
    ("pins of flags left alone", pins::left_alone),
    ("pins of an extracted status bit", pins::extracted),
    ("pins of refused words", pins::refused),
    ("pins in the lines of traces", pins::traces),
    ("pins are not in runs", pins::not_in_runs),
    ("the draw's boundary patterns", draws::patterns),
    ("the draw's runs end in every way", draws::reasons),
    ("listings by hand", listing::by_hand),
    ("listings, the gate's cases by hand", listing::gate),
    (
        "listings, every mnemonic and its neighbours",
        listing::mnemonics,
    ),
    ("listings, every number", listing::numbers),
    ("listings, every byte in a text", listing::bytes),
    (
        "listing, then reading, drawn sheets",
        listing::sheets_and_back,
    ),
    (
        "reading, then listing, drawn texts",
        listing::texts_and_back,
    ),
    ("drawn listings end in every way", listing::reasons),
];

/// Runs every group; true where nothing missed.
pub fn run() -> bool {
    let mut checks = 0;
    let mut misses = 0;
    for (name, test) in GROUPS {
        let mut group = Group {
            name,
            checks: 0,
            misses: 0,
        };
        test(&mut group);
        println!("{name}: {} checks, {} missed", group.checks, group.misses);
        checks += group.checks;
        misses += group.misses;
    }
    println!("{checks} checks, {misses} missed");
    misses == 0
}
