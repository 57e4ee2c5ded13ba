//! What the draw has to reach: its boundary patterns, and every reason of a run.

use super::Group;
use crate::draw::{pattern, Draw, PATTERNS};
use crate::faults::Faults;
use crate::on_registers::Board;
use crate::pages::number_of;
use crate::word::reason;
use std::collections::BTreeSet;

/// Each power of two, its neighbours and their complements are patterns, and
/// so are the digits that decimal carries turn about.
pub fn patterns(group: &mut Group) {
    let drawn: BTreeSet<u32> = (0..PATTERNS).map(pattern).collect();
    for bit in 0..32 {
        let power = 1u32 << bit;
        for value in [power - 1, power, power.wrapping_add(1)] {
            group.check(drawn.contains(&value), || format!("{value:08X}"));
            group.check(drawn.contains(&!value), || format!("{:08X}", !value));
        }
    }
    for value in [0x4545_4545, 0x5454_5454, 0x9999_9999, 0x9A9A_9A9A] {
        group.check(drawn.contains(&value), || format!("{value:08X}"));
    }
}

/// The runs of a line are refused for every reason that a run has, and are
/// done with a word and without; where the number has no page none is done.
pub fn reasons(group: &mut Group) {
    let refused = |last: u8| (reason::SHORT..=last).map(|reason| (reason, 0));
    let mut with_page: BTreeSet<(u8, usize)> = refused(reason::START).collect();
    with_page.extend([(reason::DONE, 0), (reason::DONE, 1), (reason::IDLE, 0)]);
    let mut without: BTreeSet<(u8, usize)> = refused(reason::SPARE).collect();
    without.extend([(reason::OPCODE, 0), (reason::IDLE, 0)]);
    group.same("ADD", ends(number_of("ADD")), with_page);
    group.same("number 1E", ends(0x1E), without);
}

/// Reason and place of every run of an opcode number's line.
fn ends(opcode: u8) -> BTreeSet<(u8, usize)> {
    let mut board = Board::new();
    let mut end = |case| {
        let verdict = board.run(&case, &Faults::none()).verdict;
        (verdict.reason, verdict.place)
    };
    Draw::new(opcode).map(&mut end).collect()
}
