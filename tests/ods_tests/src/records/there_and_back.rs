//! Texts that are written and read again.
use super::reading::reads;
use super::writing::letters;
use crate::dice::Dice;
use ods_records::RecordKind::Variable;
use ods_records::{end_of_file, is_plain_text, kind_of, text_attributes, text_to_records};
use std::test::Fail;

#[test]
fn a_megabyte_there_and_back(rt: HostRuntime) -> Result<(), Fail> {
    let text = letters(rt, 16_384, 63)?;
    assert!(rt; text.len() == 1_048_576 && is_plain_text(&text));
    let records = text_to_records(rt.alloc(), &text)
        .ok()
        .ok_or("the text is written")?;
    assert!(rt; records.longest == 63 && records.bytes.len() == 16_384 * 66);
    assert!(rt; reads(rt, Variable, &records.bytes, &text));
    Ok(())
}

/// A thousand short texts over few bytes: a plain one comes back, and no other does. The file is as long as its attributes say.
#[test]
fn plain_texts_come_back_and_no_others(rt: HostRuntime) -> Result<(), Fail> {
    let mut dice = Dice::from(31);
    let mut plain: u32 = 0;
    for _ in 0..1_000 {
        let mut text = Vec::new(rt.alloc());
        for _ in 0..dice.roll(12) {
            text.push(b"ab\r\n\n\0"[dice.roll(6) as usize])?;
        }
        let records = text_to_records(rt.alloc(), &text)
            .ok()
            .ok_or("the text is written")?;
        assert!(rt; reads(rt, Variable, &records.bytes, &text) == is_plain_text(&text));
        let attributes = text_attributes(records.longest, records.bytes.len() as u64);
        assert!(rt; kind_of(&attributes) == Some(Variable));
        assert!(rt; end_of_file(&attributes) == records.bytes.len() as u64);
        plain += is_plain_text(&text) as u32;
    }
    assert!(rt; 200 < plain && plain < 800, "{plain} texts are plain");
    Ok(())
}
