//! The recorded sample: scripts with the answers of the Rust, in the form of docs/SCRIPT.md.

use crate::answers::ends_not_comparable;
use crate::counts::Counts;
use crate::generate::{Amounts, CLASSES};
use crate::run::{Observer, answers_of};
use crate::script::Reader;

const MAGIC: [u8; 4] = *b"PSQR";
const VERSION: u8 = 1;
/// No script and no output of the sample is longer.
const LONGEST: usize = 131_072;
/// The seed of the recorded sample.
const SEED: u64 = 3;

/// One script of the sample.
pub struct Record {
    pub script: Vec<u8>,
    pub output: usize,
    pub answers: Vec<u8>,
}

/// Makes the sample anew.
pub fn make() -> (Vec<Record>, Counts) {
    let mut counts = Counts::default();
    let mut records = Vec::new();
    for class in CLASSES {
        (class.cases)(&Amounts::SAMPLE, SEED, &mut |case| {
            let mut observer = Observer::default();
            let answers = answers_of(&case.script, case.output, &mut observer);
            assert!(case.script.len() <= LONGEST && case.output <= LONGEST);
            if !ends_not_comparable(&answers) {
                counts.add(&observer.counts);
                records.push(Record {
                    script: case.script,
                    output: case.output,
                    answers,
                });
            }
        });
    }
    (records, counts)
}

pub fn encode(records: &[Record]) -> Vec<u8> {
    let mut bytes = Vec::new();
    let length = |bytes: &mut Vec<u8>, length: usize| {
        bytes.extend_from_slice(&(length as u32).to_le_bytes());
    };
    bytes.extend_from_slice(&MAGIC);
    bytes.push(VERSION);
    length(&mut bytes, records.len());
    for record in records {
        length(&mut bytes, record.output);
        length(&mut bytes, record.script.len());
        bytes.extend_from_slice(&record.script);
        length(&mut bytes, record.answers.len());
        bytes.extend_from_slice(&record.answers);
    }
    bytes
}

/// Reads a sample; `None` if it is not in the form of docs/SCRIPT.md.
pub fn decode(bytes: &[u8]) -> Option<Vec<Record>> {
    let mut reader = Reader::at(bytes, 0);
    if reader.array()? != MAGIC || reader.u8()? != VERSION {
        return None;
    }
    let count = reader.u32()?;
    let mut records = Vec::new();
    for _ in 0..count {
        records.push(Record {
            output: reader.u32()? as usize,
            script: reader.counted()?.to_vec(),
            answers: reader.counted()?.to_vec(),
        });
    }
    reader.is_at_end().then_some(records)
}
