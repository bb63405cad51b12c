//! Members that are written, by their bytes and read again.
use super::blocks::{archive, block, finds, has_path};
use ods_archive::{END, Kind, Member, filling, head_of, next_member, push_record, value_of};
use std::test::Fail;

/// A header by hand, with the sum that another program told.
#[test]
fn header_is_written(rt: HostRuntime) -> Result<(), Fail> {
    let member = Member {
        path: b"d/a.txt",
        is_directory: false,
        size: 6,
        mtime: 1_000_000_000,
        pax: b"",
    };
    let head = head_of(rt.alloc(), &member)?;
    let wanted = block(&[
        (0, b"d/a.txt"),
        (100, b"0000644"),
        (108, b"0000000"),
        (116, b"0000000"),
        (124, b"00000000006"),
        (136, b"07346545000"),
        (148, b"007207\0 0ustar"),
        (257, b"ustar"),
        (263, b"00"),
    ]);
    assert!(rt; head.len() == 512);
    assert!(rt; head[..156] == wanted[..156]);
    assert!(rt; head[156] == b'0');
    assert!(rt; head[257..] == wanted[257..]);
    let directory = Member {
        path: b"d",
        is_directory: true,
        size: 0,
        mtime: 1_000_000_000,
        pax: b"",
    };
    let head = head_of(rt.alloc(), &directory)?;
    assert!(rt; &head[148..157] == b"006153\0 5".as_slice());
    let Ok(Some(found)) = next_member(&head, 0) else {
        unreachable!()
    };
    assert!(rt; matches!(found.kind, Kind::Directory));
    Ok(())
}

/// Paths of each length about the edge, and records of each length about the edges of their digits.
#[test]
fn members_come_back(rt: HostRuntime) -> Result<(), Fail> {
    let letters = [b'p'; 300];
    for size in [1, 98, 99, 100, 101, 102, 255, 300] {
        let member = Member {
            path: &letters[..size],
            is_directory: false,
            size: 5,
            mtime: 7,
            pax: b"",
        };
        let mut bytes = head_of(rt.alloc(), &member)?;
        let filled = if size <= 100 { 512 } else { 1_536 };
        assert!(rt; bytes.len() == filled);
        bytes.extend_from_slice(b"bytes")?;
        bytes.resize(filled + 5 + filling(5), 0)?;
        let next = bytes.len();
        bytes.resize(next + END, 0)?;
        assert!(rt; finds(rt, &bytes, 0, (&letters[..size], 7, b"bytes", next)));
        assert!(rt; matches!(next_member(&bytes, next), Ok(None)));
    }
    for size in 0..300 {
        let mut text = Vec::new(rt.alloc());
        push_record(&mut text, b"RSX.owner", b"[1,2]")?;
        push_record(&mut text, b"k", &letters[..size])?;
        push_record(&mut text, b"RSX.protection", b"000377")?;
        let Ok(Some(value)) = value_of(&text, b"k") else {
            unreachable!()
        };
        assert!(rt; value == &letters[..size]);
        assert!(rt; matches!(value_of(&text, b"RSX.owner"), Ok(Some(b"[1,2]"))));
        assert!(rt; matches!(value_of(&text, b"RSX.protection"), Ok(Some(b"000377"))));
    }
    Ok(())
}

/// A path with a NUL stands in a record, and the member's own records before it.
#[test]
fn odd_path_comes_back(rt: HostRuntime) -> Result<(), Fail> {
    let mut text = Vec::new(rt.alloc());
    push_record(&mut text, b"RSX.owner", b"[1,2]")?;
    let member = Member {
        path: b"a\0b",
        is_directory: false,
        size: 0,
        mtime: 7,
        pax: &text,
    };
    let bytes = head_of(rt.alloc(), &member)?;
    assert!(rt; bytes.len() == 1_536);
    let Ok(Some(found)) = next_member(&bytes, 0) else {
        unreachable!()
    };
    assert!(rt; has_path(rt, &found, b"a\0b"));
    assert!(rt; matches!(value_of(found.pax, b"RSX.owner"), Ok(Some(b"[1,2]"))));
    let none = archive(rt, &[])?;
    assert!(rt; matches!(next_member(&none, 0), Ok(None)));
    Ok(())
}
