//! The handler's form, and what main and handler may not share: 11 Form, 12
//! Overlap and 13 Schedule, each at its place and in its order. A word that does
//! not write names no register by its Y field.

use super::sheets::verdict;
use super::Group;
use crate::cases::{random_handler, random_words, Random, Registers};
use crate::handler::check_handler;
use crate::interrupt::{run_interrupted, HANDLER, MAIN, NEITHER};
use crate::interrupt_cases::{Layout, LAYOUTS};
use crate::pages::number_of;
use crate::run::Machine;
use crate::sheet::{build, refuse, Verdict, Word, DONE};

fn checked(words: &[Word]) -> Verdict {
    verdict(check_handler(&build(words, 16), None))
}

/// Every clause of every fixed word, and the body, in every layout of the
/// registers: s, q or one of the handler's own is register 0 in turn.
pub fn clauses(group: &mut Group) {
    let bodies = |layout| (0..4).map(move |body| (layout, body));
    for (layout, body) in LAYOUTS.iter().flat_map(bodies) {
        let Layout { own, s, q, .. } = *layout;
        let good = random_handler(&mut Random::new(42), s, q, body, own);
        group.same("good handler", checked(&good), DONE);
        group.same("five words", checked(&good[..5]), refuse(11, 0));
        for at in 0..good.len() {
            for (word, breaks) in variants(layout, &good, at) {
                let mut words = good.clone();
                words[at] = word;
                let want = if breaks { refuse(11, at) } else { DONE };
                group.same("form", checked(&words), want);
            }
        }
    }
}

/// Changed copies of a handler's word, each with whether it breaks the form.
fn variants(layout: &Layout, handler: &[Word], at: usize) -> Vec<(Word, bool)> {
    let w = handler[at];
    let fixed = at < 4 || at + 2 >= handler.len();
    let other = |change: fn(&mut Word)| {
        let mut word = w;
        change(&mut word);
        word
    };
    let mut list = vec![
        (other(|w| w.opcode = number_of("XOR")), fixed),
        (other(|w| w.byte_code ^= 3), fixed),
        (other(|w| w.macro_select ^= 1), fixed),
        (other(|w| w.macro_carry ^= 1), fixed),
        (other(|w| w.macro_link ^= 1), fixed),
        (other(|w| w.borrow ^= 1), fixed),
        (other(|w| (w.position, w.width) = (21, 9)), false),
    ];
    list.extend(named_variants(layout, handler, at));
    if at >= 2 {
        list.extend(written_variants(layout, w, fixed));
    }
    list
}

/// With a register put for A or B.
fn named_variants(layout: &Layout, handler: &[Word], at: usize) -> Vec<(Word, bool)> {
    let Layout { own, s, q, .. } = *layout;
    let w = handler[at];
    let restores_q = at + 2 == handler.len();
    let restores_s = at + 1 == handler.len();
    let mine = own.first as u8;
    vec![
        (Word { a: s, ..w }, !restores_s),
        (Word { a: q, ..w }, !restores_q),
        (Word { a: mine, ..w }, restores_q || restores_s),
        (Word { b: s, ..w }, true),
        (Word { b: q, ..w }, true),
        (Word { b: mine, ..w }, false),
    ]
}

/// From word 2 on, without write and with it: only a body's word may write, and
/// neither to s nor to q; a Y field that is not written is 0, even where that is
/// the number of s or q.
fn written_variants(layout: &Layout, word: Word, fixed: bool) -> Vec<(Word, bool)> {
    let Layout { own, s, q, .. } = *layout;
    let with = |y: u8, write: u8| Word { y, write, ..word };
    vec![
        (with(0, 0), false),
        (with(own.first as u8, 1), fixed),
        (with(s, 1), true),
        (with(q, 1), true),
    ]
}

/// A handler of seven words with s 14 and q 15; besides these it names register
/// 9 alone.
fn plain() -> Vec<Word> {
    let nine = Registers { first: 9, count: 1 };
    random_handler(&mut Random::new(43), 14, 15, 1, nine)
}

fn do_not_write(words: &mut [Word]) {
    for word in words {
        (word.y, word.write) = (0, 0);
    }
}

fn save_status_in(words: &mut [Word], register: u8) {
    (words[0].y, words[6].a) = (register, register);
}

fn save_q_in(words: &mut [Word], register: u8) {
    (words[1].y, words[5].a) = (register, register);
}

/// What is changed in a handler, and the first word at fault.
type Change = (&'static str, fn(&mut [Word]), Option<usize>);

/// s and q are the Y fields of words 0 and 1 as they stand; that they are equal
/// is a fault of word 1. So another Y in word 0 moves the fault to the words that
/// then break the form; and where word 1 does not write, q is register 0, which
/// word 0 may not name.
const SAVES: &[Change] = &[
    ("nothing", |_| {}, None),
    ("s equal to q", |w| w[1].y = 14, Some(1)),
    ("word 0 naming q", |w| w[0].a = 15, Some(0)),
    ("another s", |w| w[0].y = 10, Some(6)),
    ("another s, named", |w| (w[0].y, w[3].b) = (10, 10), Some(3)),
    ("another q", |w| w[1].y = 10, Some(5)),
    ("word 0 not writing", |w| do_not_write(&mut w[..1]), Some(0)),
    ("both not writing", |w| do_not_write(&mut w[..2]), Some(0)),
    (
        "word 1 not writing",
        |w| do_not_write(&mut w[1..2]),
        Some(1),
    ),
    (
        "and word 0 naming 0 in A",
        |w| {
            do_not_write(&mut w[1..2]);
            w[0].a = 0;
        },
        Some(0),
    ),
    (
        "and word 0 naming 0 in B",
        |w| {
            do_not_write(&mut w[1..2]);
            w[0].b = 0;
        },
        Some(0),
    ),
    (
        "and word 2 naming 0",
        |w| {
            do_not_write(&mut w[1..2]);
            w[2].a = 0;
        },
        Some(1),
    ),
    (
        "s is 0, word 1 not writing",
        |w| {
            save_status_in(w, 0);
            do_not_write(&mut w[1..2]);
        },
        Some(1),
    ),
    (
        "s and q are 0",
        |w| {
            save_status_in(w, 0);
            save_q_in(w, 0);
        },
        Some(1),
    ),
];

/// The same where s or q is register 0.
const SAVED_IN_0: &[Change] = &[
    ("nothing", |_| {}, None),
    ("a body not writing", |w| do_not_write(&mut w[4..5]), None),
    (
        "a body writing 0",
        |w| (w[4].y, w[4].write) = (0, 1),
        Some(4),
    ),
    ("word 0 naming 0 in A", |w| w[0].a = 0, Some(0)),
    ("word 0 naming 0 in B", |w| w[0].b = 0, Some(0)),
    ("word 1 naming 0", |w| w[1].a = 0, Some(1)),
    ("word 2 naming 0", |w| w[2].b = 0, Some(2)),
    ("word 3 naming 0", |w| w[3].a = 0, Some(3)),
    ("a body naming 0 in A", |w| w[4].a = 0, Some(4)),
    ("a body naming 0 in B", |w| w[4].b = 0, Some(4)),
    ("the last but one naming 0", |w| w[5].b = 0, Some(5)),
    ("the last one naming 0", |w| w[6].b = 0, Some(6)),
];

pub fn saves(group: &mut Group) {
    let want = |place: Option<usize>| place.map_or(DONE, |at| refuse(11, at));
    for &(what, change, place) in SAVES {
        let mut words = plain();
        change(&mut words);
        group.same(what, checked(&words), want(place));
    }
    for save_in in [save_status_in, save_q_in] {
        for &(what, change, place) in SAVED_IN_0 {
            let mut words = plain();
            save_in(&mut words, 0);
            change(&mut words);
            group.same(what, checked(&words), want(place));
        }
    }
    let mut sheet = build(&plain()[1..], 16);
    sheet[4 + 6 * 3 + 4] = 9 << 2;
    let idle = verdict(check_handler(&sheet, None));
    group.same("left idle, before form", idle, refuse(17, 3));
}

fn interrupted(main: &[Word], handler: &[Word], schedule: &[u16], lent: usize) -> (Verdict, u8) {
    let mut file = vec![7; lent];
    let machine = Machine {
        q: 1,
        status: 0xFFFF_FFFF,
    };
    let (main, handler) = (build(main, 8), build(handler, 16));
    let ran = run_interrupted(&main, &handler, schedule, &mut file, machine);
    let kept = ran.machine == machine && file == vec![7; lent];
    assert!(
        ran.verdict.reason == 0 || kept,
        "a refusal changed something"
    );
    (ran.verdict, ran.mark)
}

/// Five main words that name register 1 alone, and do not write.
fn plain_main() -> Vec<Word> {
    let one = Registers { first: 1, count: 1 };
    let mut words = random_words(&mut Random::new(44), 5, one);
    do_not_write(&mut words);
    words
}

/// Ways to name a register in the fourth main word, and in a handler, which may
/// save in it.
const MAIN_NAMES: [fn(&mut [Word], u8); 4] = [
    |w, r| w[3].a = r,
    |w, r| w[3].b = r,
    |w, r| (w[3].y, w[3].write) = (r, 1),
    |w, r| (w[3].a, w[3].write) = (r, 1),
];
const HANDLER_NAMES: [fn(&mut [Word], u8); 7] = [
    |w, r| w[0].a = r,
    |w, r| w[2].b = r,
    |w, r| w[4].a = r,
    |w, r| (w[4].y, w[4].write) = (r, 1),
    |w, r| w[6].b = r,
    save_status_in,
    save_q_in,
];

/// 12 Overlap, at the main word that names a register which the handler names.
/// Both have words that do not write, so that 0 is in a field of each; that alone
/// names no register.
pub fn overlaps(group: &mut Group) {
    let done = (refuse(0, 5), NEITHER);
    let main = plain_main();
    group.same("none", interrupted(&main, &plain(), &[], 16), done);
    for register in [0, 7] {
        for main_names in MAIN_NAMES {
            let mut sharing = main.clone();
            main_names(&mut sharing, register);
            let alone = interrupted(&sharing, &plain(), &[], 16);
            group.same("main alone", alone, done);
            for handler_names in HANDLER_NAMES {
                let mut handler = plain();
                handler_names(&mut handler, register);
                let alone = interrupted(&main, &handler, &[], 16);
                group.same("the handler alone", alone, done);
                let both = interrupted(&sharing, &handler, &[9, 0], 16);
                group.same("both", both, (refuse(12, 3), MAIN));
                handler[5].write = 1;
                let broken = interrupted(&sharing, &handler, &[9], 16);
                group.same("form first", broken, (refuse(11, 5), HANDLER));
            }
        }
    }
}

/// 13 Schedule after 12 Overlap, and 7 File of either sheet before both.
pub fn schedules(group: &mut Group) {
    let (main, good) = (plain_main(), plain());
    let bad = |at| (refuse(13, at), NEITHER);
    let out_of_range = interrupted(&main, &good, &[5, 6], 16);
    group.same("out of range", out_of_range, bad(1));
    group.same("falling", interrupted(&main, &good, &[1, 1, 0], 16), bad(2));
    let too_long = interrupted(&main, &good, &[2; 1025], 16);
    group.same("too long", too_long, bad(1024));
    let mut long = vec![2; 1030];
    long[1023] = 1;
    let falling = interrupted(&main, &good, &long, 16);
    group.same("falling first", falling, bad(1023));
    let longest = interrupted(&main, &good, &[5; 1024], 16);
    group.same("longest", longest, (refuse(0, 5 + 7 * 1024), NEITHER));
    let main_file = interrupted(&main, &good, &[], 7);
    group.same("main file", main_file, (refuse(7, 0), MAIN));
    let handler_file = interrupted(&main, &good, &[], 15);
    group.same("handler file", handler_file, (refuse(7, 0), HANDLER));
}
