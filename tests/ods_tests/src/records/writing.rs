//! Texts as variable records, byte by byte, and lines that are too long.
use ods_records::{TextFault, text_to_records};
use std::test::Fail;

/// Whether a text is written as these bytes, with this longest record.
fn writes(rt: HostRuntime, text: &[u8], bytes: &[u8], longest: u16) -> bool {
    match text_to_records(rt.alloc(), text) {
        Ok(records) => records.bytes.as_slice() == bytes && records.longest == longest,
        Err(_) => false,
    }
}

#[test]
fn texts_are_written(rt: HostRuntime) {
    assert!(rt; writes(rt, b"", b"", 0));
    assert!(rt; writes(rt, b"\n", &[0, 0], 0));
    assert!(rt; writes(rt, b"Hi\n", &[2, 0, 0x48, 0x69], 2));
    assert!(rt; writes(rt, b"a\n", &[1, 0, 0x61, 0], 1));
    assert!(rt;
        writes(
            rt,
            b"abc\n\nb\n",
            &[3, 0, 0x61, 0x62, 0x63, 0, 0, 0, 1, 0, 0x62, 0],
            3
        )
    );
}

/// A CR goes only directly before an LF, one of them, and what stands behind the last LF is a line.
#[test]
fn lines_of_other_systems_are_written(rt: HostRuntime) {
    assert!(rt;
        writes(
            rt,
            b"a\r\n\nbc",
            &[1, 0, 0x61, 0, 0, 0, 2, 0, 0x62, 0x63],
            2
        )
    );
    assert!(rt; writes(rt, b"\r\r\n\r", &[1, 0, 0x0d, 0, 1, 0, 0x0d, 0], 1));
    assert!(rt; writes(rt, b"\r\n", &[0, 0], 0));
    assert!(rt; writes(rt, b"a\rb\n", &[3, 0, 0x61, 0x0d, 0x62, 0], 3));
}

/// Lines of letters, each of this length, with LF behind each.
pub fn letters(rt: HostRuntime, lines: u32, length: u32) -> Result<Vec<u8>, Fail> {
    let mut text = Vec::new(rt.alloc());
    for _ in 0..lines {
        for _ in 0..length {
            text.push(b'a')?;
        }
        text.push(b'\n')?;
    }
    Ok(text)
}

/// The length of a line, 255 and 256 for its two bytes.
#[test]
fn length_has_two_bytes(rt: HostRuntime) -> Result<(), Fail> {
    for (length, low, high, whole) in [(255, 255, 0, 258), (256, 0, 1, 258), (513, 1, 2, 516)] {
        let text = letters(rt, 1, length)?;
        let records = text_to_records(rt.alloc(), &text)
            .ok()
            .ok_or("the line is written")?;
        assert!(rt; records.bytes.as_slice().starts_with(&[low, high, b'a']));
        assert!(rt; records.bytes.len() == whole && records.longest as u32 == length);
    }
    Ok(())
}

/// A line of 32,767 bytes is written, a CR behind it too, and the first that has one more is named.
#[test]
fn long_lines(rt: HostRuntime) -> Result<(), Fail> {
    let mut text = letters(rt, 2, 32_767)?;
    let records = text_to_records(rt.alloc(), &text)
        .ok()
        .ok_or("the lines are written")?;
    assert!(rt; records.longest == 32_767);
    assert!(rt; records.bytes.as_slice().starts_with(&[255, 0x7f, b'a']));
    assert!(rt; records.bytes.len() == 2 * 32_770);
    text.extend_from_slice(&letters(rt, 2, 32_768)?)?;
    let found = text_to_records(rt.alloc(), &text);
    assert!(rt; matches!(found, Err(TextFault::LineTooLong(3))));
    let mut text = letters(rt, 1, 32_767)?;
    let _ = text.pop();
    text.extend_from_slice(b"\r\n")?;
    assert!(rt; text_to_records(rt.alloc(), &text).is_ok());
    let _ = text.pop();
    let found = text_to_records(rt.alloc(), &text);
    assert!(rt; matches!(found, Err(TextFault::LineTooLong(1))));
    let fault = TextFault::LineTooLong(3);
    assert!(rt; format!(in rt.alloc(); "{fault}")?.as_str() == "line 3 has more than 32767 bytes");
    Ok(())
}
