//! Refused memory: what is read and written is as ever, or NoMemory where a growth was refused. tests/refusals refuses each growth in turn.
use crate::settings::{Refusing, ends};
use ods_records::RecordKind::Variable;
use ods_records::{RecordFault, Records, TextFault, records_to_text, text_to_records};
use std::alloc::{AllocError, Global};
use std::test::Fail;

/// A text of 40 lines, and the bytes that it is written as.
fn pair(alloc: Global) -> Result<(Vec<u8>, Vec<u8>), AllocError> {
    let mut text = Vec::new(alloc);
    let mut bytes = Vec::new(alloc);
    for number in 0..40 {
        text.extend_from_slice(&[b'0' + number, b'x', b'y', b'\n'])?;
        bytes.extend_from_slice(&[3, 0, b'0' + number, b'x', b'y', 0])?;
    }
    Ok((text, bytes))
}

#[test]
fn refused_memory_of_records_written(rt: HostRuntime) -> Result<(), Fail> {
    let mut refusing = Refusing::of(&rt);
    let (text, bytes) = pair(rt.alloc())?;
    let records: Result<Records, TextFault> = match text_to_records(rt.alloc(), &text) {
        Err(TextFault::NoMemory) => {
            refusing.meets(&rt);
            text_to_records(rt.alloc(), &text)
        }
        found => found,
    };
    let records = records.ok().ok_or("the text is written")?;
    assert!(rt; records.bytes.as_slice() == bytes.as_slice() && records.longest == 3);
    ends(&rt, rt.alloc());
    Ok(())
}

#[test]
fn refused_memory_of_records_read(rt: HostRuntime) -> Result<(), Fail> {
    let mut refusing = Refusing::of(&rt);
    let (text, mut bytes) = pair(rt.alloc())?;
    let read = match records_to_text(rt.alloc(), Variable, &bytes) {
        Err(RecordFault::NoMemory) => {
            refusing.meets(&rt);
            records_to_text(rt.alloc(), Variable, &bytes)
        }
        found => found,
    };
    let read = read.ok().ok_or("the records are read")?;
    assert!(rt; read.as_slice() == text.as_slice());
    // A fault of the first record wants no memory.
    bytes[1] = 0x80;
    let found = records_to_text(rt.alloc(), Variable, &bytes);
    assert!(rt; found.err() == Some(RecordFault::TooLong(0)));
    ends(&rt, rt.alloc());
    Ok(())
}
