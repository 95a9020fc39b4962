//! The scripts of a run of any length: those that need no chance, then rounds of random ones.

use super::build::Case;
use super::long::{self, Mood};
use super::random::Random;
use super::twice::Pair;
use super::{Amounts, damaged_cases, headroom_cases, long_cases, twice_pairs};

/// The scripts that need no chance.
pub const FIXED: Amounts = Amounts {
    long_scripts: 0,
    damaged_scripts: 0,
    pairs: 0,
    headroom_scripts: 0,
    ..Amounts::MILLION
};

/// The random scripts of one round, beside the flowing and the wide ones.
const ROUND: Amounts = Amounts {
    long_scripts: 12,
    damaged_scripts: 24,
    pairs: 2,
    headroom_scripts: 24,
    large: false,
    ..Amounts::MILLION
};

/// The flowing scripts of one round, and the wide ones.
const FLOWING: usize = 108;
const WIDE: usize = 24;

/// The calls that a round makes at least: one of the twelve long scripts is four times as long as
/// the others, and the wide ones come on top.
pub const CALLS: u64 = ((ROUND.long_scripts + 3 + FLOWING) * ROUND.long_length) as u64;

/// The seed of one round; each round of a seed has its own.
fn seed_of(seed: u64, round: u64) -> u64 {
    Random::new(Random::new(seed).next() ^ round).next()
}

/// The pairs of one round.
pub fn pairs(seed: u64, round: u64, each: &mut dyn FnMut(Pair)) {
    twice_pairs(&ROUND, seed_of(seed, round), each);
}

/// The other random scripts of one round.
pub fn cases(seed: u64, round: u64, each: &mut dyn FnMut(Case)) {
    let seed = seed_of(seed, round);
    long_cases(&ROUND, seed, each);
    damaged_cases(&ROUND, seed, each);
    headroom_cases(&ROUND, seed, each);
    let mut random = Random::new(seed.rotate_left(32));
    for number in 0..FLOWING + WIDE {
        let mood = if number < FLOWING {
            Mood::Flowing
        } else {
            Mood::Wide
        };
        let (length, output) = (ROUND.long_length, ROUND.long_output);
        each(long::case(&mut random, mood, length, output));
    }
}
