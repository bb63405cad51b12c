//! Records of one size as lines, also of blocks that no record crosses, and streams as texts.
use ods_records::{fixed_to_text, stream_to_text};
use std::test::Fail;

#[test]
fn records_of_one_size_are_lines(rt: HostRuntime) -> Result<(), Fail> {
    let lines = fixed_to_text(rt.alloc(), 3, false, b"onetwosix")?;
    assert!(rt; lines.as_slice() == b"one\ntwo\nsix\n".as_slice());
    // A last short one is a line too.
    let lines = fixed_to_text(rt.alloc(), 4, false, b"cards1")?;
    assert!(rt; lines.as_slice() == b"card\ns1\n".as_slice());
    let none = fixed_to_text(rt.alloc(), 80, true, b"")?;
    assert!(rt; none.is_empty());
    Ok(())
}

/// Five records of 100 bytes stand in a block of 512, and the sixth in the next one; without FD.BLK it crosses.
#[test]
fn records_cross_no_block(rt: HostRuntime) -> Result<(), Fail> {
    let mut bytes = [b'#'; 612];
    for (k, piece) in bytes[..500].chunks_mut(100).enumerate() {
        piece.fill(b'a' + k as u8);
    }
    bytes[512..].fill(b'f');
    let lines = fixed_to_text(rt.alloc(), 100, true, &bytes)?;
    assert!(rt; lines.len() == 606);
    assert!(rt;
        lines[400] == b'd' && lines[404] == b'e' && lines[505] == b'f' && lines[604] == b'f'
    );
    let crossed = fixed_to_text(rt.alloc(), 100, false, &bytes)?;
    assert!(rt; crossed.len() == 619 && crossed[505] == b'#' && crossed[517] == b'f');
    Ok(())
}

#[test]
fn stream_loses_cr_before_lf(rt: HostRuntime) -> Result<(), Fail> {
    let text = stream_to_text(rt.alloc(), b"one\r\ntwo\r\r\nx\ry\n\r")?;
    assert!(rt; text.as_slice() == b"one\ntwo\r\nx\ry\n\r".as_slice());
    Ok(())
}
