//! Scripts that nobody would write, by the million: short, since each good head costs a new state.

use super::build::{Builder, Case, binary};
use super::long::{self, Mood};
use super::random::Random;
use crate::operations::CODES;
use crate::script::{MAGIC, VERSION};

/// The kinds of scripts, in the order of their numbers.
pub const KINDS: [&str; 8] = [
    "random bytes",
    "random bytes behind a head",
    "codes with random arguments",
    "bits flipped",
    "bytes inserted or removed",
    "cut short",
    "lengths and counts made huge",
    "empty or whole",
];
/// No script and no output is longer.
pub const LONGEST: usize = 1 << 17;
/// No argument of a code is longer, but for tables of more than one entry.
const ARGUMENTS: u64 = 300;

/// The script of this number, and its kind.
pub fn case(seed: u64, number: u64) -> (Case, usize) {
    let mut random = Random::new(Random::new(!seed).next() ^ number);
    // Without a good head nothing is carried out, and a script costs next to nothing.
    let kind = if random.one_in(3) {
        0
    } else {
        random.below(KINDS.len() as u64) as usize
    };
    let mut script = match kind {
        0 => random_bytes(&mut random),
        1 => behind_head(&mut random),
        2 => codes(&mut random),
        7 if random.one_in(2) => Vec::new(),
        _ => written(&mut random),
    };
    match kind {
        3 => flip(&mut random, &mut script),
        4 => insert_or_remove(&mut random, &mut script),
        5 => script.truncate(random.below(script.len() as u64) as usize),
        6 => make_huge(&mut random, &mut script),
        _ => {}
    }
    let output = output(&mut random);
    (Case { script, output }, kind)
}

/// Every short length, and now and then enough for a table or a dump.
fn output(random: &mut Random) -> usize {
    let end = random.pick(&[10, 64, 64, 512, 512, 8_192, 16_384, 16_384]);
    let end = if random.one_in(32) {
        LONGEST as u64
    } else {
        end
    };
    random.below(end + 1) as usize
}

fn random_bytes(random: &mut Random) -> Vec<u8> {
    let length = random.pick(&[1, 5, 17, 18, 19, 64, 300]);
    let length = random.below(length + 1);
    (0..length).map(|_| random.next() as u8).collect()
}

fn head(random: &mut Random) -> Vec<u8> {
    let store = random.below(24) as usize;
    let drive = random.below(2) as u8;
    let handle = random.next();
    let builder = Builder::with_handle(drive, handle, &binary(store));
    builder.end().script
}

/// Also behind heads of which the last bytes are random.
fn behind_head(random: &mut Random) -> Vec<u8> {
    let mut script = if random.one_in(2) {
        [&MAGIC[..], &[VERSION]].concat()
    } else {
        head(random)
    };
    script.extend(random_bytes(random));
    script
}

/// Known codes, each with about as many bytes as it reads; most presence bytes are valid.
fn codes(random: &mut Random) -> Vec<u8> {
    let mut script = head(random);
    for _ in 0..=random.below(3) {
        let (code, _) = random.pick(&CODES);
        script.push(code);
        let length = random.pick(&[0, 1, 4, 8, 9, 12, 16, 20, 48, 204, 212, 294, ARGUMENTS]);
        let often_small = random.one_in(2);
        script.extend((0..length).map(|_| match random.next() as u8 {
            byte if often_small => byte % 2,
            byte => byte,
        }));
    }
    script
}

/// A script of the generator, with few operations, and mostly without the dump at its end.
fn written(random: &mut Random) -> Vec<u8> {
    let length = random.below(6) as usize;
    let mood = random.pick(&[Mood::Flowing, Mood::Flowing, Mood::Flowing, Mood::Even]);
    let mut script = long::case(random, mood, length, 0).script;
    if !random.one_in(8) {
        script.pop();
    }
    script
}

fn flip(random: &mut Random, script: &mut [u8]) {
    for _ in 0..=random.below(4) {
        let at = random.below(script.len() as u64) as usize;
        script[at] ^= 1 << random.below(8);
    }
}

fn insert_or_remove(random: &mut Random, script: &mut Vec<u8>) {
    for _ in 0..=random.below(3) {
        let at = random.below(script.len() as u64) as usize;
        if random.one_in(2) {
            script.insert(at, random.next() as u8);
        } else {
            script.remove(at);
        }
    }
}

/// Overwrites four or eight bytes, seldom in the head.
fn make_huge(random: &mut Random, script: &mut [u8]) {
    let huge = random.pick(&[
        u64::MAX,
        u64::MAX - 1,
        1 << 63,
        (1 << 63) - 1,
        1 << 62,
        0xFFFF_FFFF,
        0x8000_0000,
        257,
    ]);
    let length = random.pick(&[4, 8]);
    let from = if random.one_in(8) {
        0
    } else {
        script.len().saturating_sub(250)
    };
    let at = from + random.below((script.len() - length - from) as u64 + 1) as usize;
    script[at..at + length].copy_from_slice(&huge.to_le_bytes()[..length]);
}
