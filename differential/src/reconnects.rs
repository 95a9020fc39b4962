//! Document 02, K14: what follows two reconnects in a row is what follows one, byte for byte.

use std::fmt;

use crate::answers::ENDING;
use crate::generate::twice::{Pair, Side};
use crate::run::keep;

/// Where a script is kept in which the second reconnect changes something.
const CHANGED: &str = concat!(env!("CARGO_MANIFEST_DIR"), "/target/twice.script");

/// Carries out a script with an output of this length, and gives the answers.
pub type Carry<'a> = &'a mut dyn FnMut(&[u8], usize) -> Vec<u8>;

/// The answer of a replay that is carried out, of one of too many frames, and of a take when no
/// frame waits.
const REPLAYED: [u8; 2] = [0x0B, 0];
const TOO_MANY: [u8; 2] = [0x0B, 4];
const NO_FRAME: [u8; 2] = [0x04, 10];
/// How the answer of a snapshot begins that drops nothing.
const NONE_DROPPED: [u8; 6] = [0x09, 0, 0, 0, 0, 0];

/// How often two reconnects were compared with one, and how often not, since the replay of the
/// first was refused.
#[derive(Default)]
pub struct Reconnects {
    compared: u64,
    refused: u64,
}

impl Reconnects {
    /// What differs between the two sides of a pair, if anything does.
    pub fn difference(&mut self, pair: &Pair, carry: Carry<'_>) -> Option<String> {
        let found = self.found(pair, carry)?;
        Some(format!(
            "{found}; {}",
            keep(CHANGED, &pair.twice.case.script)
        ))
    }

    fn found(&mut self, pair: &Pair, carry: Carry<'_>) -> Option<&'static str> {
        let (once, until_once) = answers(&pair.once, carry);
        if until_once.ends_with(&TOO_MANY) {
            self.refused += 1;
            return None;
        }
        if !until_once.ends_with(&REPLAYED) {
            return Some("the first replay is refused, and not by 4");
        }
        self.compared += 1;
        let (twice, until_twice) = answers(&pair.twice, carry);
        let (Some(second), Some(behind_one), Some(behind_two)) = (
            until_twice.strip_prefix(&until_once[..]),
            once.strip_prefix(&until_once[..]),
            twice.strip_prefix(&until_twice[..]),
        ) else {
            return Some("a call before the second reconnect answers something else");
        };
        if !second.starts_with(&NONE_DROPPED) {
            Some("the second snapshot drops an entry")
        } else if !second.ends_with(&REPLAYED) {
            Some("the second replay is refused")
        } else if behind_one != behind_two {
            Some("what follows two reconnects is not what follows one")
        } else if !behind_one.ends_with(&NO_FRAME) {
            Some("frames still wait at the end")
        } else {
            None
        }
    }

    #[cfg(feature = "port")]
    pub fn add(&mut self, other: &Self) {
        self.compared += other.compared;
        self.refused += other.refused;
    }

    /// What a run must have met and has not.
    pub fn missing(&self) -> Option<String> {
        let missing = match (self.compared, self.refused) {
            (0, _) => "two reconnects were never compared with one",
            (_, 0) => "no first replay was refused",
            _ => return None,
        };
        Some(missing.to_owned())
    }
}

/// All answers, and those up to the last reconnect, without the endings.
fn answers(side: &Side, carry: Carry<'_>) -> (Vec<u8>, Vec<u8>) {
    let script = &side.case.script;
    let mut of = |end| {
        let mut answers = carry(&script[..end], side.case.output);
        answers.truncate(answers.len().saturating_sub(ENDING as usize));
        answers
    };
    (of(script.len()), of(side.follows))
}

impl fmt::Display for Reconnects {
    fn fmt(&self, f: &mut fmt::Formatter<'_>) -> fmt::Result {
        let Self { compared, refused } = self;
        write!(
            f,
            "reconnects: {compared} times two compared with one, {refused} times the first replay refused by 4"
        )
    }
}
