//! Attributes by hand: F.RTYP and F.RATT in bytes 0 and 1, F.RSIZ in word 2, F.HIBK at 4 and F.EFBK at 8 (two words each, the high one
//! first), F.FFBY in word 12.
use ods_records::RecordKind::{Sequenced, Variable};
use ods_records::{binary_attributes, end_of_file, kind_of, text_attributes};

#[test]
fn attributes_are_made(rt: HostRuntime) {
    let bytes = text_attributes(300, 1_000);
    assert!(rt; bytes[..14] == [2, 2, 44, 1, 0, 0, 2, 0, 0, 0, 2, 0, 232, 1]);
    assert!(rt; bytes[14..] == [0; 18]);
    assert!(rt; end_of_file(&bytes) == 1_000);
    let bytes = text_attributes(32_767, 511);
    assert!(rt; bytes[..14] == [2, 2, 255, 0x7f, 0, 0, 1, 0, 0, 0, 1, 0, 255, 1]);
    // Whole blocks end at byte 0 of the next one; a file of no bytes at byte 0 of block 1.
    let bytes = text_attributes(0, 0);
    assert!(rt; bytes[..14] == [2, 2, 0, 0, 0, 0, 0, 0, 0, 0, 1, 0, 0, 0]);
    let bytes = binary_attributes(1_024);
    assert!(rt; bytes[..14] == [1, 0, 0, 2, 0, 0, 2, 0, 0, 0, 3, 0, 0, 0]);
    let bytes = binary_attributes(512 * 65_536);
    assert!(rt; bytes[..14] == [1, 0, 0, 2, 1, 0, 0, 0, 1, 0, 1, 0, 0, 0]);
    assert!(rt; bytes[14..] == [0; 18]);
    // The longest file that there can be.
    let bytes = binary_attributes(536_870_911);
    assert!(rt; bytes[..14] == [1, 0, 0, 2, 16, 0, 0, 0, 16, 0, 0, 0, 255, 1]);
    assert!(rt; end_of_file(&bytes) == 536_870_911);
}

/// The end of file is read off whatever attributes say, none of them refused.
#[test]
fn end_of_file_of_any_attributes(rt: HostRuntime) {
    assert!(rt; end_of_file(&[0; 32]) == 0);
    let mut bytes = [0; 32];
    bytes[12] = 7;
    assert!(rt; end_of_file(&bytes) == 0);
    bytes[10] = 1;
    assert!(rt; end_of_file(&bytes) == 7);
    bytes[13] = 2;
    assert!(rt; end_of_file(&bytes) == 519);
    bytes[8] = 1;
    assert!(rt; end_of_file(&bytes) == 512 * 65_536 + 519);
    assert!(rt; end_of_file(&[255; 32]) == 4_294_967_294 * 512 + 65_535);
}

/// F.RTYP, the low four bits: 2 and 3 are records with a length, all others are none. Byte 15 says how many bytes the header of 3 has.
#[test]
fn kinds_are_read(rt: HostRuntime) {
    let mut bytes = [0xff; 32];
    for rtyp in 0..=255 {
        bytes[0] = rtyp;
        let wanted = match rtyp % 16 {
            2 => Some(Variable),
            3 => Some(Sequenced(255)),
            _ => None,
        };
        assert!(rt; kind_of(&bytes) == wanted);
    }
    assert!(rt; kind_of(&text_attributes(0, 0)) == Some(Variable));
    assert!(rt; kind_of(&binary_attributes(0)).is_none());
    bytes[0] = 3;
    bytes[15] = 0;
    assert!(rt; kind_of(&bytes) == Some(Sequenced(2)));
}
