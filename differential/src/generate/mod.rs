//! Scripts by the thousand, from a seed.

#[cfg(feature = "port")]
pub mod attacks;
pub mod build;
mod damaged;
mod edges;
mod exhaustive;
mod full;
mod headroom;
mod limits;
mod long;
pub mod random;
#[cfg(feature = "port")]
pub mod rounds;
pub mod twice;
mod wide;

use build::{Case, OUTPUT};
use long::Mood;
use random::Random;
use twice::Pair;

/// Enough for the answers of a long script.
const LONG_OUTPUT: usize = 1 << 21;

/// How much of each class a run wants.
pub struct Amounts {
    pub exhaustive_length: usize,
    pub few_length: usize,
    pub long_scripts: usize,
    pub long_length: usize,
    pub long_output: usize,
    pub damaged_scripts: usize,
    pub damaged_step: usize,
    /// Scripts that are written once with a reconnect and once with two.
    pub pairs: usize,
    pub headroom_scripts: usize,
    /// What is too large to be recorded.
    pub large: bool,
}

impl Amounts {
    /// About a million calls.
    pub const MILLION: Self = Self {
        exhaustive_length: 3,
        few_length: 5,
        long_scripts: 1_500,
        long_length: 450,
        long_output: LONG_OUTPUT,
        damaged_scripts: 4_000,
        damaged_step: 1,
        pairs: 50,
        headroom_scripts: 2_000,
        large: true,
    };

    /// More of everything.
    pub const LONGER: Self = Self {
        exhaustive_length: 4,
        few_length: 6,
        long_scripts: 6_000,
        damaged_scripts: 20_000,
        pairs: 200,
        headroom_scripts: 20_000,
        ..Self::MILLION
    };

    /// What is recorded in the repository: small stores, short scripts.
    pub const SAMPLE: Self = Self {
        exhaustive_length: 2,
        few_length: 0,
        long_scripts: 84,
        long_length: 18,
        long_output: OUTPUT,
        damaged_scripts: 300,
        damaged_step: 7,
        pairs: 0,
        headroom_scripts: 60,
        large: false,
    };
}

/// A class of scripts: its name, what it covers, and its scripts.
pub struct Class {
    pub name: &'static str,
    pub covers: &'static str,
    pub cases: fn(&Amounts, u64, &mut dyn FnMut(Case)),
}

pub const CLASSES: [Class; 8] = [
    Class {
        name: "exhaustive",
        covers: exhaustive::COVERS,
        cases: |amounts, _, each| {
            exhaustive::cases(amounts.exhaustive_length, amounts.few_length, each);
        },
    },
    Class {
        name: "long",
        covers: long::COVERS,
        cases: long_cases,
    },
    Class {
        name: "limits",
        covers: limits::COVERS,
        cases: |_, _, each| limits::cases(each),
    },
    Class {
        name: "edges",
        covers: edges::COVERS,
        cases: |_, _, each| edges::cases(each),
    },
    Class {
        name: "full",
        covers: full::COVERS,
        cases: |amounts, _, each| {
            full::cases(each);
            if amounts.large {
                full::large_cases(each);
            }
        },
    },
    Class {
        name: "damaged",
        covers: damaged::COVERS,
        cases: |amounts, seed, each| {
            damaged::fixed_cases(amounts.damaged_step, each);
            damaged_cases(amounts, seed, each);
        },
    },
    Class {
        name: "twice",
        covers: twice::COVERS,
        cases: |amounts, seed, each| {
            twice_pairs(amounts, seed, &mut |pair| {
                each(pair.once.case);
                each(pair.twice.case);
            });
        },
    },
    // The last, so that what was recorded of the others before it stays where it is.
    Class {
        name: "headroom",
        covers: headroom::COVERS,
        cases: |amounts, seed, each| {
            headroom::cases(each);
            if amounts.large {
                headroom::large_cases(each);
            }
            headroom_cases(amounts, seed, each);
        },
    },
];

fn long_cases(amounts: &Amounts, seed: u64, each: &mut dyn FnMut(Case)) {
    let mut random = Random::new(seed);
    for number in 0..amounts.long_scripts {
        let (mood, times) = match number % 12 {
            0 => (Mood::Hoarding, 4),
            1..5 => (Mood::Crowded, 1),
            _ => (Mood::Even, 1),
        };
        let length = times * amounts.long_length;
        each(long::case(&mut random, mood, length, amounts.long_output));
    }
}

/// The scripts of the class `twice`, as pairs.
pub fn twice_pairs(amounts: &Amounts, seed: u64, each: &mut dyn FnMut(Pair)) {
    if amounts.large {
        twice::pairs(each);
    }
    let seed = seed.rotate_left(16);
    several(amounts.pairs, seed, each, twice::random_pair);
}

fn headroom_cases(amounts: &Amounts, seed: u64, each: &mut dyn FnMut(Case)) {
    let seed = seed.rotate_left(48);
    several(amounts.headroom_scripts, seed, each, headroom::random_case);
}

fn damaged_cases(amounts: &Amounts, seed: u64, each: &mut dyn FnMut(Case)) {
    several(amounts.damaged_scripts, !seed, each, |random| {
        let length = 1 + random.below(8) as usize;
        damaged::random_case(random, length)
    });
}

/// So many, one after the other from one seed.
fn several<T>(count: usize, seed: u64, each: &mut dyn FnMut(T), make: impl Fn(&mut Random) -> T) {
    let mut random = Random::new(seed);
    for _ in 0..count {
        each(make(&mut random));
    }
}
