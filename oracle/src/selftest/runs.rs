//! Runs: in parts and at once, interrupted and undisturbed.

use super::Group;
use crate::cases::*;
use crate::faults::Faults;
use crate::interrupt::{HANDLER, MAIN, NEITHER};
use crate::interrupt_cases::*;
use crate::run::{run, Machine};
use crate::sheet::{build, header, refuse, word_at, Word};
use std::collections::BTreeSet;

const ALL: usize = usize::MAX;

/// Three parts with allowances of their own against one run to the end.
pub fn in_parts(group: &mut Group) {
    let mut random = Random::new(30);
    for _ in 0..2_000 {
        let count = random.below(30);
        let registers = Registers {
            first: 0,
            count: 10,
        };
        let sheet = build(&random_words(&mut random, count, registers), 10);
        let file = random_file(&mut random, 12);
        let machine = Machine {
            q: random.word32(),
            status: random.word32(),
        };
        let (mut once, mut parts) = (file.clone(), file.clone());
        let whole = run(&sheet, &mut once, machine, 0, ALL);
        let mut at = 0;
        let mut now = machine;
        for allowance in [random.below(12), random.below(12), ALL] {
            let want = allowance.min(count - at);
            let ran = run(&sheet, &mut parts, now, at, allowance);
            group.same("words run", ran.verdict, refuse(0, want));
            at += want;
            now = ran.machine;
        }
        group.same("words run at once", whole.verdict, refuse(0, count));
        group.same("machine", now, whole.machine);
        group.same("file", parts, once);
    }
}

/// In every layout main's registers, Q and status end as undisturbed; the
/// handler's own registers end as if it ran alone as often; s and q hold what
/// main had; and a register that neither names is as it was. Where register 0 is
/// somebody's, most cases have a word of the other sheet that does not write.
pub fn interrupts(group: &mut Group) {
    let mut random = Random::new(31);
    for layout in 0..LAYOUTS.len() {
        let mut met = 0;
        for _ in 0..1_000 {
            let case = interrupt_in(&mut random, layout);
            check_interrupt(group, &case);
            met += u32::from(idle_field_meets(&case));
        }
        let nobodys = layout + 1 == LAYOUTS.len();
        let good = if nobodys { met == 0 } else { met > 500 };
        group.check(good, || format!("layout {layout}: {met} cases"));
    }
}

fn words_of(sheet: &[u8]) -> Vec<Word> {
    let count = header(sheet).map_or(0, |h| h.count);
    (0..count).map(|i| word_at(sheet, i)).collect()
}

/// A and B name a register, used or not, and Y where it is written.
fn names(word: &Word, register: usize) -> bool {
    let is = |field: u8| usize::from(field) == register;
    is(word.a) || is(word.b) || word.write == 1 && is(word.y)
}

/// Does one sheet name register 0, and has the other a word that does not write?
fn idle_field_meets(case: &InterruptCase) -> bool {
    let (main, handler) = (words_of(&case.main), words_of(&case.handler));
    let names_0 = |words: &[Word]| words.iter().any(|word| names(word, 0));
    let idle = |words: &[Word]| words.iter().any(|word| word.write == 0);
    names_0(&main) && idle(&handler) || names_0(&handler) && idle(&main)
}

fn check_interrupt(group: &mut Group, case: &InterruptCase) {
    let (got, disturbed) = case.run(&Faults::none());
    let Layout { main, own, .. } = LAYOUTS[case.layout];
    let (main, own) = (main.range(), own.range());
    let mut alone = case.file.clone();
    let undisturbed = run(&case.main, &mut alone, case.machine, 0, ALL);
    group.same("machine", got.machine, undisturbed.machine);
    group.same("main registers", &disturbed[main.clone()], &alone[main]);
    let mut as_often = case.file.clone();
    let mut machine = Machine::default();
    for _ in &case.schedule {
        machine = run(&case.handler, &mut as_often, machine, 0, ALL).machine;
    }
    group.same("handler registers", &disturbed[own.clone()], &as_often[own]);
    let (main, handler) = (words_of(&case.main), words_of(&case.handler));
    let total = main.len() + case.schedule.len() * handler.len();
    group.same(
        "words run",
        (got.verdict, got.mark),
        (refuse(0, total), NEITHER),
    );
    check_saved(group, case, &disturbed);
    let words = [main, handler].concat();
    for (register, &before) in case.file.iter().enumerate() {
        if !words.iter().any(|word| names(word, register)) {
            group.same("a register of neither", disturbed[register], before);
        }
    }
}

/// What s and q hold at the end, by the last boundary of the schedule: the
/// handler's first word has borrow 0, so s has the status as a run hands it back.
fn check_saved(group: &mut Group, case: &InterruptCase, file: &[u32]) {
    let Layout { s, q, .. } = LAYOUTS[case.layout];
    let (s, q) = (usize::from(s), usize::from(q));
    let mut want = (case.file[s], case.file[q]);
    if let Some(&boundary) = case.schedule.last() {
        let mut alone = case.file.clone();
        let at = run(
            &case.main,
            &mut alone,
            case.machine,
            0,
            usize::from(boundary),
        );
        want = (at.machine.status, at.machine.q);
    }
    group.same("s and q", (file[s], file[q]), want);
}

/// Drawn interrupted runs end with every reason and mark that they can have.
pub fn interrupted_reasons(group: &mut Group) {
    let mut ends = BTreeSet::new();
    for case in interrupt_cases(20_000) {
        let (ran, _) = case.run(&Faults::none());
        ends.insert((ran.verdict.reason, ran.mark));
    }
    let of_sheets = [1, 3, 4, 5, 6, 7, 8, 9, 17].into_iter();
    let mut want: BTreeSet<(u8, u8)> = of_sheets
        .flat_map(|reason| [(reason, MAIN), (reason, HANDLER)])
        .collect();
    want.extend([(0, NEITHER), (11, HANDLER), (12, MAIN), (13, NEITHER)]);
    group.same("reasons and marks", ends, want);
}
