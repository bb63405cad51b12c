//! Which bytes are a text, and which texts come back as they were.
use super::writing::letters;
use ods_records::{is_plain_text, is_text};
use std::test::Fail;

#[test]
fn texts_are_known(rt: HostRuntime) {
    assert!(rt; is_text(b""));
    assert!(rt; is_text(b"Hi\r\n\x07\x08\x09\x0b\x0c\x1b~ "));
    for byte in [0, 6, 14, 26, 28, 31, 127, 128, 160, 255] {
        assert!(rt; !is_text(&[b'H', byte, b'i']));
    }
}

#[test]
fn plain_texts_are_known(rt: HostRuntime) {
    for text in [
        &b""[..],
        b"\n",
        b"\n\n",
        b"Hi\n",
        b"a\rb\n",
        b"\n\r\x01\n",
        b"\0\n",
    ] {
        assert!(rt; is_plain_text(text));
    }
    for text in [
        &b"a"[..],
        b"\r",
        b"\r\n",
        b"Hi\nthere",
        b"a\r\nb\n",
        b"a\n\r",
        b"a\nb\r\n",
    ] {
        assert!(rt; !is_plain_text(text));
    }
}

#[test]
fn plain_texts_have_no_long_line(rt: HostRuntime) -> Result<(), Fail> {
    assert!(rt; is_plain_text(&letters(rt, 3, 32_767)?));
    assert!(rt; !is_plain_text(&letters(rt, 1, 32_768)?));
    let mut text = letters(rt, 3, 32_767)?;
    text.extend_from_slice(&letters(rt, 1, 32_768)?)?;
    assert!(rt; !is_plain_text(&text));
    Ok(())
}
