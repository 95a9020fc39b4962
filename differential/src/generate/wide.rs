//! What the wide ones of the long random scripts choose from: sizes, tables, clocks and delays up to
//! what a script can bear.

use super::random::Random;
use crate::operations::Part;

/// The store has so many bytes behind its letters.
pub const BINARY: usize = 5_900;
pub const PAYLOADS: [u64; 9] = [0, 1, 5, 130, 1_024, 4_096, 4_097, 5_120, 6_000];
pub const BUFFERS: [u64; 9] = [0, 8, 130, 1_024, 4_096, 6_000, 6_000, 16_384, 131_072];
pub const TABLES: [u64; 9] = [0, 1, 2, 3, 5, 17, 60, 255, 257];
pub const CHUNKS: [u32; 8] = [0, 5, 130, 1_024, 3_073, 4_096, 4_096, u32::MAX];
/// A large table is seldom refused if one entry in so many is malformed.
pub const WRONG_CHUNKS: u64 = 256;
/// Message limits and batch sizes.
pub const SIZES: [u64; 12] = [
    0, 5, 6, 20, 130, 4_095, 4_096, 4_097, 5_119, 6_000, 16_777_216, 16_777_217,
];
/// Mostly the one that the Rust judges.
pub const HEADROOMS: [u64; 12] = [
    0, 1, 5, 25, 1_023, 1_024, 1_024, 1_024, 1_024, 1_025, 65_536, 65_537,
];
/// A clock goes on from here for up to a script's length, and a sum with a delay stays below 2^63.
pub const CLOCKS: [u64; 5] = [0, 1_000, 1 << 32, 1 << 61, (1 << 62) - 100_000];
pub const DELAYS: [u64; 6] = [0, 1, 59, 1 << 31, 1 << 61, (1 << 62) - 1];

/// Bytes that need not be text, from anywhere in the store, and seldom one too many.
pub fn part(random: &mut Random) -> Part {
    let over = u64::from(random.one_in(32));
    let length = random.pick(&[0, 1, 30, 300, 1_024 + over]);
    let start = random.below(BINARY as u64 - length);
    Part { start, length }
}

/// Characters of two and three bytes.
pub fn name(random: &mut Random) -> Vec<u8> {
    "\u{e9}\u{20ac}"
        .repeat(random.below(14) as usize)
        .into_bytes()
}
