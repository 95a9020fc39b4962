//! A host beside the Rust: both carry out a script, and the bytes of their answers are compared.

use crate::answers::{ENDING, ends_not_comparable};
use crate::drive::Drive;
use crate::generate::build::Case;
use crate::oracle::Checks;
use crate::run::{Observer, UNTOUCHED, first_touched, run_or_keep};

/// Carries out a script, writes the answers to the output and says how many bytes they have.
pub type Host = fn(&[u8], &mut [u8]) -> usize;

const WHOLE_EVERY: u64 = 64;
/// So many bytes behind the answers are looked at after every script.
const NEAR: usize = 4_096;

/// Compares scripts one by one, with outputs that are lent again and again.
pub struct Beside {
    pub host: Host,
    pub drive: Drive,
    pub observer: Observer,
    /// One script in so many is carried out with the whole of the oracle's checks, and with a look
    /// at all of the host's output.
    whole_every: u64,
    rust: Vec<u8>,
    /// Holds `UNTOUCHED` everywhere between two scripts.
    output: Vec<u8>,
}

impl Beside {
    pub fn new(host: Host, drive: Drive) -> Self {
        Self {
            host,
            drive,
            observer: Observer::default(),
            whole_every: WHOLE_EVERY,
            rust: Vec::new(),
            output: Vec::new(),
        }
    }

    /// With the whole of the checks at every script.
    pub fn thorough(host: Host, drive: Drive) -> Self {
        Self {
            whole_every: 1,
            ..Self::new(host, drive)
        }
    }

    /// What differs, if anything does. The script is driven as is compared here.
    pub fn difference(&mut self, case: &mut Case) -> Option<String> {
        self.drive.set(&mut case.script);
        let whole = self
            .observer
            .counts
            .scripts
            .is_multiple_of(self.whole_every);
        self.observer.checks = if whole { Checks::Whole } else { Checks::Light };
        if self.output.len() < case.output {
            self.rust.resize(case.output, UNTOUCHED);
            self.output.resize(case.output, UNTOUCHED);
        }
        let rust = &mut self.rust[..case.output];
        let output = &mut self.output[..case.output];
        let rust_length = run_or_keep(&case.script, rust, &mut self.observer);
        let length = (self.host)(&case.script, output);
        let Some((answers, behind)) = output.split_at_mut_checked(length) else {
            self.output.fill(UNTOUCHED);
            return Some(format!("{length} bytes answered of {}", case.output));
        };
        let near = if whole {
            behind.len()
        } else {
            NEAR.min(behind.len())
        };
        let difference = match first_touched(&behind[..near]) {
            Some(place) => Some(format!("byte {} was written", length + place)),
            None => first_difference(&rust[..rust_length], answers),
        };
        match difference {
            None => answers.fill(UNTOUCHED),
            Some(_) => self.output.fill(UNTOUCHED),
        }
        difference
    }
}

/// Where two runs of answers differ. The Rust alone may end by "not comparable": up to that record
/// they are compared.
fn first_difference(rust: &[u8], host: &[u8]) -> Option<String> {
    let (rust, host) = if ends_not_comparable(rust) {
        let compared = rust.len() - ENDING as usize;
        (&rust[..compared], host.get(..compared).unwrap_or(host))
    } else {
        (rust, host)
    };
    (rust != host).then(|| format!("the answers differ from byte {} on", same(rust, host)))
}

/// How many bytes are the same, from the front on.
pub fn same(rust: &[u8], host: &[u8]) -> usize {
    let pairs = rust.iter().zip(host);
    pairs.take_while(|(rust, host)| rust == host).count()
}
