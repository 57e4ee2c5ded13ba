//! Packing and checking: every refusal of words, sheets and traces, each at its
//! place and in its order.

use super::Group;
use crate::cases::{random_word, random_words, Random, Registers};
use crate::run::{run, Machine};
use crate::sheet::{build, check, pack, refuse, unpack, Verdict, Word, DONE};
use crate::trace::trace;

const ALL_64: Registers = Registers {
    first: 0,
    count: 64,
};

pub fn round_trips(group: &mut Group) {
    let mut random = Random::new(40);
    for i in 0..20_000 {
        let word = random_word(&mut random, ALL_64);
        let mut bytes = [0xA5; 8];
        group.same("pack", pack(&word, &mut bytes), DONE);
        group.same(
            "bytes past the sixth",
            bytes[6..8].to_vec(),
            vec![0xA5, 0xA5],
        );
        group.same("unpack", unpack(&bytes), (DONE, word));
        let mut raw = [0; 6];
        raw.iter_mut()
            .for_each(|byte| *byte = random.number() as u8);
        if i % 2 == 0 {
            raw[5] &= 0xE0;
        }
        unpack_and_pack(group, &raw);
    }
    refused_packing(group);
    refused_unpacking(group);
}

/// Six bytes that unpack pack to themselves.
fn unpack_and_pack(group: &mut Group, raw: &[u8; 6]) {
    let (verdict, word) = unpack(raw);
    let no_page = [0x1E, 0x1F, 0x4C, 0x4D].contains(&(raw[0] >> 1));
    let (y, write) = (raw[4] >> 2, raw[4] >> 1 & 1);
    let reason = match () {
        _ if raw[5] & 0x1F != 0 => 8,
        _ if write == 0 && y != 0 => 17,
        _ if no_page => 1,
        _ => 0,
    };
    group.same("unpack reason", verdict, refuse(reason, 0));
    if reason == 0 {
        let mut again = [0; 6];
        group.same("pack again", pack(&word, &mut again), DONE);
        group.same("same bytes", &again, raw);
    } else {
        group.same("all fields 0", word, Word::default());
    }
}

/// Each field with the least number that it cannot hold.
const TOO_LARGE: [fn(&mut Word); 11] = [
    |word| word.byte_code = 4,
    |word| word.position = 64,
    |word| word.width = 32,
    |word| word.a = 64,
    |word| word.b = 64,
    |word| word.y = 64,
    |word| word.write = 2,
    |word| word.macro_select = 2,
    |word| word.macro_carry = 2,
    |word| word.macro_link = 2,
    |word| word.borrow = 2,
];

/// 1 Opcode, 2 Inputs, 17 Idle, 14 Room: each with what comes after it.
fn refused_packing(group: &mut Group) {
    for (y, write) in [(0, 0), (1, 0), (63, 0), (0, 1), (1, 1), (63, 1)] {
        let word = Word {
            y,
            write,
            ..Word::default()
        };
        for room in [0, 5, 6, 8] {
            let reason = match () {
                _ if write == 0 && y != 0 => 17,
                _ if room < 6 => 14,
                _ => 0,
            };
            check_packing(group, word, room, reason);
            for change in TOO_LARGE {
                let mut word = word;
                change(&mut word);
                check_packing(group, word, room, 2);
            }
        }
    }
}

/// Is a word packed, or refused for this reason with every byte kept? With a
/// number that has no page it is refused for that.
fn check_packing(group: &mut Group, word: Word, room: usize, reason: u8) {
    let mut check = |word: Word, reason: u8| {
        let mut bytes = vec![0x5A; room];
        group.same("packing", pack(&word, &mut bytes), refuse(reason, 0));
        let kept = bytes == vec![0x5A; room];
        group.same("bytes kept", kept, reason != 0);
    };
    check(word, reason);
    for opcode in [0x1E, 0x1F, 0x4C, 0x4D, 128, 255] {
        check(Word { opcode, ..word }, 1);
    }
}

/// 14 Room, 8 Spare, 17 Idle, 1 Opcode: every combination.
fn refused_unpacking(group: &mut Group) {
    let none = Word::default();
    for length in 0..6 {
        let bytes = &[0x3C, 0, 0, 0, 4, 1][..length];
        group.same("short", unpack(bytes), (refuse(14, 0), none));
    }
    for spoilt in 1..8 {
        let mut bytes = [0; 6];
        let reason = spoil_word(&mut bytes, 2 * spoilt);
        group.same("spoilt", unpack(&bytes), (refuse(reason, 0), none));
    }
}

/// Spoils a word of a sheet on eight registers by the bits of a number, for 9
/// Register, 1 Opcode, 17 Idle and 8 Spare, and says which of these is told.
fn spoil_word(word: &mut [u8], bits: u8) -> u8 {
    let mut told = 0;
    if bits & 1 != 0 {
        word[3] |= 0x3C;
        told = 9;
    }
    if bits & 2 != 0 {
        word[0] = 0x4C << 1;
        told = 1;
    }
    if bits & 4 != 0 {
        word[4] = 5 << 2;
        told = 17;
    }
    if bits & 8 != 0 {
        word[5] |= 0x10;
        told = 8;
    }
    told
}

pub fn refusals(group: &mut Group) {
    headers(group);
    words(group);
    file_and_start(group);
    traces(group);
}

pub fn verdict<T>(result: Result<T, Verdict>) -> Verdict {
    result.err().unwrap_or(DONE)
}

fn sample(count: usize) -> Vec<u8> {
    let registers = Registers { first: 0, count: 8 };
    build(&random_words(&mut Random::new(41), count, registers), 8)
}

/// 3 Short, 4 Version, 5 Header, 6 Length.
fn headers(group: &mut Group) {
    for length in 0..4 {
        let got = verdict(check(&sample(2)[..length], None, None));
        group.same("short", got, refuse(3, 0));
    }
    for version in 0..16 {
        let mut sheet = sample(2);
        sheet[0] = version << 4;
        sheet[3] = u8::from(version != 1);
        let reason = if version == 1 { 0 } else { 4 };
        group.same(
            "version",
            verdict(check(&sheet, None, None)),
            refuse(reason, 0),
        );
    }
    for low_half in 0..=0xFFFFu16 {
        let mut sheet = sample(0);
        sheet[2..4].copy_from_slice(&low_half.to_be_bytes());
        let good = low_half % 512 == 0 && (1..=64).contains(&(low_half / 512));
        let want = refuse(if good { 0 } else { 5 }, 0);
        group.same("header", verdict(check(&sheet, None, None)), want);
    }
    let mut long = sample(3);
    long.push(0);
    group.same("long", verdict(check(&long, None, None)), refuse(6, 0));
    let cut = &sample(3)[..21];
    group.same("cut", verdict(check(cut, Some(0), Some(9))), refuse(6, 0));
}

/// In each word 8 Spare, 17 Idle, 1 Opcode, 9 Register, in every combination;
/// and the words in order. A good sheet goes on to 10 Start.
fn words(group: &mut Group) {
    for at in 0..4 {
        for spoilt in 0..16 {
            let mut sheet = sample(4);
            let want = match spoil_word(&mut sheet[4 + 6 * at..], spoilt) {
                0 => refuse(10, 0),
                reason => refuse(reason, at),
            };
            let got = verdict(check(&sheet, Some(8), Some(5)));
            group.same("a word spoilt", got, want);
        }
    }
    for first in 1..16 {
        for second in 1..16 {
            let mut sheet = sample(4);
            let reason = spoil_word(&mut sheet[4 + 6..], first);
            spoil_word(&mut sheet[4 + 12..], second);
            let got = verdict(check(&sheet, None, None));
            group.same("two words spoilt", got, refuse(reason, 1));
        }
    }
    for y in 0..64 {
        let mut sheet = sample(4);
        sheet[4 + 12 + 4] = y << 2;
        let want = if y == 0 { DONE } else { refuse(17, 2) };
        group.same("not written", verdict(check(&sheet, None, None)), want);
        sheet[4 + 12 + 4] = y << 2 | 2;
        let want = if y < 8 { DONE } else { refuse(9, 2) };
        group.same("written", verdict(check(&sheet, None, None)), want);
    }
}

/// 7 File before the words, 10 Start after them; a refused run changes nothing.
fn file_and_start(group: &mut Group) {
    let sheet = sample(4);
    group.same(
        "file",
        verdict(check(&sheet, Some(7), Some(5))),
        refuse(7, 0),
    );
    group.same(
        "start",
        verdict(check(&sheet, Some(8), Some(5))),
        refuse(10, 0),
    );
    group.same(
        "start at the end",
        verdict(check(&sheet, Some(8), Some(4))),
        DONE,
    );
    group.same(
        "no file, no start",
        verdict(check(&sheet, None, None)),
        DONE,
    );
    let machine = Machine {
        q: 0x1234_5678,
        status: 0xFFFF_FFFF,
    };
    let mut file = vec![0x55; 8];
    let refused = run(&sheet, &mut file, machine, 5, 9);
    group.same("run refused", refused.verdict, refuse(10, 0));
    group.same("machine kept", refused.machine, machine);
    let none = run(&sheet, &mut file, machine, 0, 0);
    group.same("no word run", none.verdict, DONE);
    group.same("status worked out", none.machine.status, 0xFF7F_BFFF);
    group.same("file kept", file, vec![0x55; 8]);
}

/// The trace's last line after each refusal.
fn traces(group: &mut Group) {
    let mut input = sample(2);
    input.extend([0; 32]);
    let last = |input: &[u8]| trace(input).lines().last().unwrap_or("").to_string();
    group.same("done", last(&input), "00 0002".to_string());
    group.same("empty", trace(&[]), "03 0000\n".to_string());
    let spoilt = |change: &dyn Fn(&mut Vec<u8>)| {
        let mut input = input.clone();
        change(&mut input);
        trace(&input)
    };
    group.same("version", spoilt(&|i| i[0] = 0x20), "04 0000\n".to_string());
    group.same("header", spoilt(&|i| i[3] = 1), "05 0000\n".to_string());
    group.same("long", spoilt(&|i| i.push(0)), "06 0000\n".to_string());
    group.same("cut", spoilt(&|i| i.truncate(20)), "06 0000\n".to_string());
    group.same("spare", spoilt(&|i| i[9] |= 1), "08 0000\n".to_string());
    group.same("idle", spoilt(&|i| i[14] = 0xFC), "17 0001\n".to_string());
    group.same("opcode", spoilt(&|i| i[10] = 0x3D), "01 0001\n".to_string());
    group.same(
        "register",
        spoilt(&|i| i[13] |= 0x3C),
        "09 0001\n".to_string(),
    );
}
