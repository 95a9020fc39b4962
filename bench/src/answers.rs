//! Reading answers, so that no refusal is ever timed: every status, and the payloads taken.

use crate::operations::Operation;
use crate::script::Reader;

/// Status 0.
pub const DONE: u8 = 0;
/// Status 9, of a take with a short buffer.
pub const TOO_SHORT: u8 = 9;
/// The ending record of a script that was carried out whole.
const END: u8 = 0xFF;

/// The most bytes that the answers of these operations and an ending record can have.
pub fn room(operations: &[Operation]) -> usize {
    operations.iter().map(room_of).sum::<usize>() + 9
}

/// docs/SCRIPT.md, "The answers".
fn room_of(operation: &Operation) -> usize {
    match operation {
        Operation::NextOutboundFrame { buffer, .. } => 3_383 + *buffer as usize,
        Operation::SnapshotPendingSends { .. } => 10 + 293 * 256,
        _ => 323,
    }
}

/// The payloads that the script's takes wrote, one behind the other. Every take has to be answered
/// by `takes`, every other operation by status 0, and the script has to be at its end.
pub fn payloads(operations: &[Operation], answers: &[u8], takes: u8) -> Vec<u8> {
    read(operations, answers, takes).expect("the answers are whole")
}

fn read(operations: &[Operation], answers: &[u8], takes: u8) -> Option<Vec<u8>> {
    let mut payloads = Vec::new();
    let mut reader = Reader::at(answers, 0);
    for operation in operations {
        let code = reader.u8()?;
        assert_eq!(code, operation.code(), "the code of an answer");
        let take = matches!(operation, Operation::NextOutboundFrame { .. });
        let status = reader.u8()?;
        let wanted = if take { takes } else { DONE };
        assert_eq!(status, wanted, "the status of {operation:?}");
        if status == DONE {
            values(operation, &mut reader, &mut payloads)?;
        }
    }
    assert_eq!(reader.u8()?, END, "the ending record");
    reader.array::<8>()?;
    assert!(reader.is_at_end(), "bytes behind the ending record");
    Some(payloads)
}

fn values(operation: &Operation, reader: &mut Reader, payloads: &mut Vec<u8>) -> Option<()> {
    match operation {
        // `Batched`, or `Emit` and its count.
        Operation::QueueSend(_) => maybe::<8>(reader)?,
        Operation::NextOutboundFrame { .. } => {
            let length = u64::from_le_bytes(reader.array()?);
            for _ in 0..length {
                payloads.push(reader.u8()?);
            }
            command(reader)?;
            metadata(reader)?;
        }
        Operation::ApplyReceipt { .. } => {
            reader.array::<28>()?;
            entry(reader)?;
        }
        Operation::SnapshotPendingSends { .. } => {
            let entries = reader.u32()? + reader.u32()?;
            for _ in 0..entries {
                entry(reader)?;
            }
        }
        _ => {}
    }
    Some(())
}

/// An optional value of so many bytes.
fn maybe<const N: usize>(reader: &mut Reader) -> Option<()> {
    if reader.u8()? == 1 {
        reader.array::<N>()?;
    }
    Some(())
}

fn maybe_counted(reader: &mut Reader) -> Option<()> {
    if reader.u8()? == 1 {
        reader.counted()?;
    }
    Some(())
}

fn command(reader: &mut Reader) -> Option<()> {
    reader.array::<16>()?;
    maybe::<4>(reader)?;
    maybe::<8>(reader)?;
    maybe::<8>(reader)?;
    maybe::<8>(reader)?;
    maybe::<1>(reader)?;
    assert_eq!(reader.u8()?, 0, "no workload has a source message id");
    Some(())
}

fn metadata(reader: &mut Reader) -> Option<()> {
    reader.counted()?;
    reader.array::<16>()?;
    maybe_counted(reader)?;
    maybe::<4>(reader)?;
    maybe::<4>(reader)?;
    maybe::<4>(reader)?;
    maybe::<8>(reader)?;
    maybe_counted(reader)?;
    maybe_counted(reader)?;
    maybe::<8>(reader)?;
    maybe::<8>(reader)?;
    maybe::<8>(reader)?;
    maybe::<8>(reader)?;
    maybe::<1>(reader)?;
    maybe_counted(reader)?;
    maybe::<4>(reader)?;
    maybe::<4>(reader)?;
    maybe::<4>(reader)?;
    maybe::<1>(reader)
}

fn entry(reader: &mut Reader) -> Option<()> {
    reader.array::<28>()?;
    let kind = reader.u8()?;
    if kind == 2 {
        reader.array::<8>()?;
    }
    if kind != 0 {
        message(reader)?;
        reader.array::<8>()?;
        reader.counted()?;
        reader.array::<16>()?;
    }
    Some(())
}

fn message(reader: &mut Reader) -> Option<()> {
    reader.array::<16>()?;
    maybe::<16>(reader)?;
    maybe::<16>(reader)?;
    maybe::<16>(reader)?;
    reader.array::<16>()?;
    maybe::<8>(reader)?;
    maybe::<1>(reader)?;
    maybe::<1>(reader)?;
    maybe::<8>(reader)?;
    maybe::<4>(reader)?;
    reader.array::<8>()?;
    maybe::<16>(reader)?;
    maybe::<28>(reader)
}
