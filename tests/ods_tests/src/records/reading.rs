//! Files of records by hand, and each fault of one with its place.
use ods_records::RecordFault::{CutLength, NoNumber, PastEnd, TooLong};
use ods_records::RecordKind::{Sequenced, Variable};
use ods_records::{RecordFault, RecordKind, records_to_text};
use std::test::Fail;

/// Whether these bytes are read as this text.
pub fn reads(rt: HostRuntime, kind: RecordKind, bytes: &[u8], text: &[u8]) -> bool {
    match records_to_text(rt.alloc(), kind, bytes) {
        Ok(read) => read.as_slice() == text,
        Err(_) => false,
    }
}

/// Whether these bytes are refused so.
fn faults(rt: HostRuntime, kind: RecordKind, bytes: &[u8], fault: RecordFault) -> bool {
    match records_to_text(rt.alloc(), kind, bytes) {
        Ok(_) => false,
        Err(found) => found == fault,
    }
}

#[test]
fn records_are_read(rt: HostRuntime) {
    assert!(rt; reads(rt, Variable, &[], b""));
    assert!(rt; reads(rt, Variable, &[2, 0, 0x48, 0x69, 1, 0, 0x61, 0], b"Hi\na\n"));
    let sequenced = [5, 0, 1, 0, 0x48, 0x69, 0x21, 0, 2, 0, 2, 0];
    assert!(rt; reads(rt, Sequenced(2), &sequenced, b"Hi!\n\n"));
    // The number is two bytes of text to one who reads it as variable records.
    assert!(rt; reads(rt, Variable, &sequenced, b"\x01\0Hi!\n\x02\0\n"));
}

/// An LF and a CR in a record stay, and so does the first byte that FORTRAN puts there.
#[test]
fn bytes_of_a_record_stay(rt: HostRuntime) {
    let bytes = [6, 0, 0x31, 0x61, 0x0a, 0x62, 0x0d, 0x0a];
    assert!(rt; reads(rt, Variable, &bytes, b"1a\nb\r\n\n"));
}

/// An odd record at the end of the file may lack the byte behind it, and one before it may not. What the byte is does not matter.
#[test]
fn last_record_may_lack_its_pad(rt: HostRuntime) {
    assert!(rt; reads(rt, Variable, &[1, 0, 0x61], b"a\n"));
    assert!(rt; reads(rt, Variable, &[1, 0, 0x61, 0xee], b"a\n"));
    assert!(rt; reads(rt, Variable, &[1, 0, 0x61, 0xee, 1, 0, 0x62], b"a\nb\n"));
    assert!(rt; reads(rt, Sequenced(2), &[3, 0, 9, 9, 0x61], b"a\n"));
    // The 1 is the pad, and a 0 is left where a length begins.
    assert!(rt; faults(rt, Variable, &[1, 0, 0x61, 1, 0], CutLength(4)));
}

/// A rest of a block that is not used ends with its block or with the file, whatever stands in it.
#[test]
fn rest_of_a_block_is_not_used(rt: HostRuntime) {
    let mut bytes = [0x55; 518];
    bytes[..6].copy_from_slice(&[2, 0, 0x48, 0x69, 255, 255]);
    bytes[512..].copy_from_slice(&[3, 0, 0x61, 0x62, 0x63, 0]);
    for kind in [Variable, Sequenced(2)] {
        assert!(rt; reads(rt, kind, &[255, 255], b""));
        assert!(rt; reads(rt, kind, &[255, 255, 0x55], b""));
    }
    assert!(rt; reads(rt, Variable, &bytes, b"Hi\nabc\n"));
    assert!(rt; reads(rt, Sequenced(2), &bytes, b"\nc\n"));
    assert!(rt; reads(rt, Variable, &bytes[..517], b"Hi\nabc\n"));
    for end in [6, 7, 300, 511, 512] {
        assert!(rt; reads(rt, Variable, &bytes[..end], b"Hi\n"));
    }
    assert!(rt; faults(rt, Variable, &bytes[..513], CutLength(512)));
    for end in [514, 515, 516] {
        assert!(rt; faults(rt, Variable, &bytes[..end], PastEnd(512)));
    }
}

/// The last word of a block may say it, and whole blocks may be unused.
#[test]
fn rest_of_two_bytes_and_of_whole_blocks(rt: HostRuntime) {
    let mut bytes = [0x41; 1_540];
    bytes[..2].copy_from_slice(&[252, 1]);
    bytes[510..514].copy_from_slice(&[255, 255, 255, 255]);
    bytes[1_024..1_026].copy_from_slice(&[255, 255]);
    bytes[1_536..].copy_from_slice(&[2, 0, 0x62, 0x62]);
    let mut text = [0x41; 512];
    text[508..].copy_from_slice(b"\nbb\n");
    assert!(rt; reads(rt, Variable, &bytes, &text));
}

#[test]
fn each_fault_has_its_place(rt: HostRuntime) {
    for kind in [Variable, Sequenced(2)] {
        assert!(rt; faults(rt, kind, &[7], CutLength(0)));
        assert!(rt; faults(rt, kind, &[255], CutLength(0)));
        assert!(rt; faults(rt, kind, &[2, 0, 1, 2, 0], CutLength(4)));
        assert!(rt; faults(rt, kind, &[2, 0, 1, 2, 0, 0x80], TooLong(4)));
        assert!(rt; faults(rt, kind, &[2, 0, 1, 2, 254, 255], TooLong(4)));
        assert!(rt; faults(rt, kind, &[2, 0, 1, 2, 255, 0x7f, 0], PastEnd(4)));
        assert!(rt; faults(rt, kind, &[2, 0, 1, 2, 3, 0, 1, 2], PastEnd(4)));
    }
    assert!(rt; faults(rt, Variable, &[0, 0, 1, 0], PastEnd(2)));
    // A length of 0 or 1 has no number, whether its bytes are there or not.
    assert!(rt; faults(rt, Sequenced(2), &[1, 0, 0x61, 0], NoNumber(0)));
    assert!(rt; faults(rt, Sequenced(2), &[2, 0, 1, 0, 0, 0], NoNumber(4)));
    assert!(rt; faults(rt, Sequenced(2), &[2, 0, 1, 0, 1, 0], NoNumber(4)));
    // The first one is named.
    assert!(rt; faults(rt, Variable, &[0, 0x80, 9], TooLong(0)));
}

#[test]
fn faults_have_words(rt: HostRuntime) -> Result<(), Fail> {
    for (fault, words) in [
        (
            CutLength(512),
            "the length at byte 512 is cut by the end of the file",
        ),
        (
            PastEnd(4),
            "the record at byte 4 goes past the end of the file",
        ),
        (TooLong(0), "the record at byte 0 has more than 32767 bytes"),
        (NoNumber(6), "the record at byte 6 has no number"),
        (RecordFault::NoMemory, "NoMemory"),
    ] {
        assert!(rt; format!(in rt.alloc(); "{fault}")?.as_str() == words);
    }
    Ok(())
}
