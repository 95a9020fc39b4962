//! The executed cases of document 01 and the example of docs/SCRIPT.md, on the Rust; and the reader
//! against the writer of scripts.

use crate::answers::{Answer, Dump, ENDING};
use crate::beside::{Beside, Host};
use crate::drive::Drive;
use crate::generate::build::{
    Builder, LONG, flush, message, plain_send, receipt, send, send_at, take, text, time_out,
};
use crate::generate::twice;
use crate::guard::{Edge, Guarded};
use crate::operations::{Operation, ReceiptId};
use crate::oracle::{Checks, Oracle};
use crate::reconnects::Reconnects;
use crate::run::{Observer, Producer as _, answers_of};
use crate::script::{read_head, read_operation};
use crate::shrink::{describe, smallest};
use crate::writer::Script;

fn producer(store: &[u8], settings: &[Operation]) -> Oracle {
    let mut oracle = Oracle::new(7, store, Checks::Whole);
    for setting in settings {
        assert!(matches!(does(&mut oracle, setting), Answer::Done));
    }
    oracle
}

fn does(oracle: &mut Oracle, operation: &Operation) -> Answer {
    oracle.execute(operation).expect("comparable")
}

fn dump(oracle: &mut Oracle) -> Dump {
    match does(oracle, &Operation::Dump) {
        Answer::Dump(dump) => *dump,
        other => panic!("{other:?}"),
    }
}

/// Lengths of the waiting frames' payloads.
fn lengths(oracle: &mut Oracle) -> Vec<usize> {
    let mut lengths = Vec::new();
    while let Answer::Frame(frame) = does(oracle, &take(LONG)) {
        lengths.push(frame.payload.len());
    }
    lengths
}

fn chunking(limit: u64) -> [Operation; 2] {
    [
        Operation::SetChunkingEnabled(true),
        Operation::SetMaxMessageSize(limit),
    ]
}

#[test]
fn t1_deadline() {
    let mut oracle = producer(b"x", &[Operation::SetSendTimeout(Some(10))]);
    does(&mut oracle, &send_at(message(1), 5));
    let deadline = does(&mut oracle, &Operation::NextSendDeadline);
    assert!(matches!(deadline, Answer::Deadline(Some(15))));
    assert!(matches!(does(&mut oracle, &time_out(14)), Answer::Entries(due) if due.is_empty()));
    assert!(matches!(does(&mut oracle, &time_out(15)), Answer::Entries(due) if due.len() == 1));
}

#[test]
fn i1_i2_message_ids() {
    let id = ReceiptId {
        ledger: 7,
        entry: 9,
        partition: None,
        batch_index: None,
        batch_size: None,
    };
    for (id, wanted) in [(Some(id), (7, 9, -1, -1, -1)), (None, (0, 0, -1, -1, 0))] {
        let mut oracle = producer(b"x", &[]);
        does(&mut oracle, &send(message(1)));
        let receipt = Operation::ApplyReceipt {
            producer_id: 0,
            sequence_id: 0,
            id,
        };
        let Answer::Receipt(id, _) = does(&mut oracle, &receipt) else {
            panic!("no receipt");
        };
        let (ledger, entry, partition) = (id.ledger_id, id.entry_id, id.partition);
        let found = (ledger, entry, partition, id.batch_index, id.batch_size);
        assert_eq!(found, wanted);
    }
}

#[test]
fn s1_s2_s3_initial_ids() {
    for (next, number) in [(1, 0), (1 << 63, i64::MIN), (u64::MAX, -2)] {
        let mut oracle = producer(b"", &[Operation::SetInitialSequenceId(next)]);
        let dump = dump(&mut oracle);
        assert_eq!((dump.pushed, dump.published), (number, number));
    }
}

#[test]
fn b1_b2_b3_batches() {
    let batching = Operation::SetBatchingEnabled(true);
    let mut oracle = producer(b"quote", std::slice::from_ref(&batching));
    does(&mut oracle, &send(message(5)));
    does(&mut oracle, &flush());
    let Answer::Frame(frame) = does(&mut oracle, &take(11)) else {
        panic!("no frame");
    };
    assert_eq!(frame.payload, &b"\0\0\0\x02\x18\x05quote"[..]);
    assert_eq!(frame.metadata.uncompressed_size, Some(5));

    let wrapped = [batching.clone(), Operation::SetInitialSequenceId(u64::MAX)];
    let mut oracle = producer(b"quote", &wrapped);
    does(&mut oracle, &send(message(5)));
    does(&mut oracle, &send(message(5)));
    does(&mut oracle, &flush());
    let Answer::Frame(frame) = does(&mut oracle, &take(LONG)) else {
        panic!("no frame");
    };
    assert_eq!(frame.metadata.sequence_id, u64::MAX);
    assert_eq!(frame.metadata.highest_sequence_id, None);

    let mut oracle = producer(b"", &[batching, Operation::SetMaxBatchSizeBytes(0)]);
    assert!(matches!(
        does(&mut oracle, &send(message(0))),
        Answer::Batched
    ));
    assert_eq!(dump(&mut oracle).waiting, 1);
}

#[test]
fn c1_c2_c3_chunks() {
    let cases: [(u64, u64, &[usize]); 3] = [
        (4_096, 4_097, &[4_096, 1]),
        (4_097, 4_098, &[3_073, 1_025]),
        (0, 3, &[0]),
    ];
    for (limit, length, wanted) in cases {
        let mut oracle = producer(&text(length as usize), &chunking(limit));
        does(&mut oracle, &send(message(length)));
        assert_eq!(lengths(&mut oracle), wanted);
    }
}

/// Document 02, K6: chunks on both sides of four times the headroom, and the frames that 4 counts.
#[test]
fn k6_headrooms() {
    let cases: [(u64, u64, u64, &[usize]); 6] = [
        (0, 5, 6, &[5, 1]),
        (1, 4, 6, &[4, 2]),
        (1, 5, 6, &[4, 2]),
        (1_024, 4_097, 4_098, &[3_073, 1_025]),
        (1_025, 4_100, 4_101, &[4_100, 1]),
        (1_025, 4_101, 4_102, &[3_076, 1_026]),
    ];
    for (headroom, limit, length, wanted) in cases {
        let mut oracle = producer(&text(length as usize), &chunking(limit));
        does(&mut oracle, &Operation::SetMetadataReservation(headroom));
        does(&mut oracle, &send(message(length)));
        assert_eq!(lengths(&mut oracle), wanted);
    }
    let longest = vec![0; 16_777_216];
    for (headroom, chunks) in [(65_536, 86), (1_024, 65)] {
        let mut oracle = producer(&longest, &chunking(262_145));
        does(&mut oracle, &Operation::SetMetadataReservation(headroom));
        let answer = does(&mut oracle, &send(message(16_777_216)));
        assert!(matches!(answer, Answer::Emit(count) | Answer::Cut(count) if count == chunks));
    }
}

#[test]
fn c4_a_thousand_chunks() {
    let mut oracle = producer(&text(5_121), &chunking(5));
    assert!(matches!(
        does(&mut oracle, &send(message(5_121))),
        Answer::Refused(4)
    ));
    assert!(matches!(
        does(&mut oracle, &plain_send(message(5_120))),
        Answer::Emit(1_024)
    ));
    assert!(matches!(
        does(&mut oracle, &send(message(1))),
        Answer::Refused(4)
    ));
    assert_eq!(lengths(&mut oracle), [5; 1_024]);
    assert!(matches!(
        does(&mut oracle, &receipt(0)),
        Answer::Receipt(..)
    ));
}

/// Every operation that a class writes is read back as it was written.
#[test]
fn reads_what_was_written() {
    use crate::generate::{Amounts, CLASSES};
    for class in CLASSES.iter().filter(|class| class.name != "damaged") {
        (class.cases)(&Amounts::SAMPLE, 5, &mut |case| {
            let head = read_head(&case.script).expect("a head");
            let mut again = Script::new(case.script[5], head.handle, head.store);
            let mut at = head.end;
            while at < case.script.len() {
                let (operation, next) = read_operation(&case.script, at).expect("an operation");
                again.push(&operation);
                at = next;
            }
            assert!(again.bytes == case.script);
        });
    }
}

/// Bytes as docs/SCRIPT.md writes them: two digits each, `00 × n` for n of them, then words.
fn bytes_of(lines: &str) -> Vec<u8> {
    let mut bytes = Vec::new();
    for line in lines.lines() {
        let mut words = line.split_whitespace().peekable();
        while let Some(word) = words.next().filter(|word| word.len() == 2) {
            let Ok(byte) = u8::from_str_radix(word, 16) else {
                break;
            };
            let count = words.next_if_eq(&"×").and_then(|_| words.next());
            let count = count.map_or(1, |count| count.parse().expect("a count"));
            bytes.extend(std::iter::repeat_n(byte, count));
        }
    }
    bytes
}

#[test]
fn example_of_the_page() {
    let page = include_str!("../../docs/SCRIPT.md");
    let (_, example) = page.split_once("## An example").expect("an example");
    let mut blocks = example
        .split("\n\n")
        .filter(|block| block.starts_with("    "));
    let script = bytes_of(blocks.next().expect("a script"));
    let answers = bytes_of(blocks.next().expect("answers"));
    assert_eq!((script.len(), answers.len()), (265, 126));
    let found = answers_of(&script, 1 << 14, &mut Observer::default());
    assert_eq!(found, answers);
}

/// A host that answers as the Rust does, but for `stats` after a name was set.
fn forgetful_host(script: &[u8], output: &mut [u8]) -> usize {
    let answers = answers_of(script, output.len(), &mut Observer::default());
    output[..answers.len()].copy_from_slice(&answers);
    let operations = operations_of(script);
    let named = |operation: &Operation| matches!(operation, Operation::SetName(_));
    let asked = operations.last() == Some(&Operation::Stats);
    if asked && operations.iter().any(named) {
        output[answers.len() - 10] ^= 1;
    }
    answers.len()
}

fn operations_of(script: &[u8]) -> Vec<Operation> {
    let mut operations = Vec::new();
    let mut at = read_head(script).map_or(script.len(), |head| head.end);
    while let Some((operation, next)) = read_operation(script, at) {
        operations.push(operation);
        at = next;
    }
    operations
}

#[test]
fn a_difference_is_found_and_made_small() {
    let mut builder = Builder::new(&text(20));
    builder.send(message(9)).take().op(receipt(0));
    let mut beside = Beside::new(forgetful_host, Drive::InPlace);
    assert_eq!(beside.difference(&mut builder.end()), None);
    builder
        .op(Operation::SetName(b"name".to_vec()))
        .batching(3, 10)
        .send(message(5))
        .op(flush())
        .dump()
        .op(Operation::Stats);
    let mut case = builder.end();
    assert!(beside.difference(&mut case).is_some());
    let small = smallest(&case, forgetful_host, Drive::InPlace).expect("a difference");
    let wanted = [Operation::SetName(vec![0; 4]), Operation::Stats];
    assert_eq!(operations_of(&small.script), wanted);
    assert!(describe(&case, forgetful_host, Drive::InPlace).contains("Stats"));
}

#[test]
fn a_second_reconnect_changes_nothing_and_one_that_does_is_found() {
    let mut pairs = Vec::new();
    twice::pairs(&mut |pair| pairs.push(pair));
    let mut rust = |script: &[u8], output| answers_of(script, output, &mut Observer::default());
    let mut reconnects = Reconnects::default();
    for pair in &pairs {
        assert_eq!(reconnects.difference(pair, &mut rust), None);
    }
    assert_eq!(reconnects.missing(), None);
    // The last byte before the answer that no frame waits.
    let pair = &pairs[0];
    let mut host = |script: &[u8], output| {
        let mut answers = rust(script, output);
        if script == pair.twice.case.script {
            let end = answers.len() - ENDING as usize;
            answers[end - 3] ^= 1;
        }
        answers
    };
    let found = reconnects.difference(pair, &mut host);
    assert!(found.is_some_and(|text| text.starts_with("what follows")));
}

/// What the system says of the page at this address.
fn access(address: usize) -> String {
    let maps = std::fs::read_to_string("/proc/self/maps").expect("a list of mappings");
    let hex = |text| usize::from_str_radix(text, 16).expect("an address");
    let line = maps.lines().find(|line| {
        let range = line
            .split(' ')
            .next()
            .and_then(|range| range.split_once('-'));
        range.is_some_and(|(from, to)| (hex(from)..hex(to)).contains(&address))
    });
    line.and_then(|line| line.split(' ').nth(1))
        .unwrap_or("not mapped")
        .to_owned()
}

#[test]
fn what_lies_around_guarded_memory_is_forbidden() {
    let mut guarded = Guarded::new(5_000).expect("memory");
    let first = guarded.slice(Edge::First, 7).as_ptr().addr();
    assert_eq!([access(first - 1), access(first)], ["---p", "rw-p"]);
    let last = guarded.slice(Edge::Last, 7).as_ptr_range().end.addr();
    assert_eq!([access(last - 1), access(last)], ["rw-p", "---p"]);
}

#[test]
fn a_byte_behind_the_answers_is_found() {
    let host: Host = |script, output| {
        let answers = answers_of(script, output.len(), &mut Observer::default());
        output[..answers.len()].copy_from_slice(&answers);
        output[answers.len() + 1] = 0;
        answers.len()
    };
    let mut case = Builder::new(&text(2)).send(message(1)).end();
    let found = Beside::new(host, Drive::ByValue).difference(&mut case);
    assert!(found.is_some_and(|text| text.ends_with("was written")));
}
