//! Each fault of an archive, with the byte at which it is.
use super::blocks::{archive, block, finds};
use ods_archive::ArchiveFault::{
    Base256, CutBlock, NoMagic, NoMember, NoNumber, NoOctal, NoRecord, PastEnd, WrongSum,
};
use ods_archive::{ArchiveFault, Kind, next_member, value_of};
use std::test::Fail;

/// Whether the archive is refused so at its front.
fn faults(bytes: &[u8], fault: ArchiveFault) -> bool {
    match next_member(bytes, 0) {
        Ok(_) => false,
        Err(found) => found == fault,
    }
}

/// The header of a file of six bytes with other bytes at a place, and their sum.
fn changed(at: usize, text: &[u8]) -> [u8; 512] {
    changed_twice((at, text), (0, b"d"))
}

/// The same with other bytes at two places.
fn changed_twice((at, text): (usize, &[u8]), (second, other): (usize, &[u8])) -> [u8; 512] {
    let mut header = block(&[
        (0, b"d/a.txt"),
        (100, b"0000644"),
        (124, b"00000000006"),
        (136, b"07346545000"),
        (148, b"        "),
        (156, b"0"),
        (257, b"ustar"),
        (263, b"00"),
    ]);
    header[at..at + text.len()].copy_from_slice(text);
    header[second..second + other.len()].copy_from_slice(other);
    let mut sum: u32 = 0;
    for byte in &header {
        sum += u32::from(*byte);
    }
    for i in 0..6 {
        header[148 + i] = b'0' + (sum >> (15 - 3 * i) & 7) as u8;
    }
    header[154] = 0;
    header
}

#[test]
fn headers_are_refused(rt: HostRuntime) -> Result<(), Fail> {
    let good = changed(0, b"d");
    assert!(rt; faults(&good[..511], CutBlock(0)));
    assert!(rt; faults(&good[..1], CutBlock(0)));
    assert!(rt; faults(&changed(257, b"USTAR"), NoMagic(257)));
    assert!(rt; faults(&changed(257, b"ustarx"), NoMagic(257)));
    let mut other = good;
    other[0] = b'e';
    assert!(rt; faults(&other, WrongSum(148)));
    other = good;
    other[148] = b'9';
    assert!(rt; faults(&other, WrongSum(148)));
    assert!(rt; faults(&changed(124, b"00000000009"), NoOctal(124)));
    assert!(rt; faults(&changed(136, b"0 0"), NoOctal(136)));
    assert!(rt; faults(&changed(136, b"-1"), NoOctal(136)));
    assert!(rt;
        faults(
            &changed(124, b"\xff\xff\xff\xff\xff\xff\xff\xff\xff\xff\xff\x06"),
            Base256(124)
        )
    );
    assert!(rt; faults(&changed(124, b"\x81\0\0\0\0\0\0\0\0\0\0\x06"), Base256(124)));
    assert!(rt;
        faults(
            &changed(124, b"\x80\0\0\0\x80\0\0\0\0\0\0\x06"),
            Base256(124)
        )
    );
    assert!(rt; faults(&changed(124, b"\x80\0\0\0\x7f\0\0\0\0\0\0\x06"), PastEnd(0)));
    assert!(rt; faults(&good, PastEnd(0)));
    assert!(rt; faults(&changed(124, b"777777777777"), PastEnd(0)));
    Ok(())
}

/// A size and a time in base 256; a time before 1970 is none.
#[test]
fn numbers_in_base_256_are_read(rt: HostRuntime) -> Result<(), Fail> {
    let hello = block(&[(0, b"hello\n")]);
    let all = archive(rt, &[changed(124, b"\x80\0\0\0\0\0\0\0\0\0\0\x06"), hello])?;
    assert!(rt; finds(rt, &all, 0, (b"d/a.txt", 1_000_000_000, b"hello\n", 1_024)));
    let all = archive(
        rt,
        &[changed(136, b"\x80\0\0\0\0\0\0\x02\0\0\x01\0"), hello],
    )?;
    assert!(rt; finds(rt, &all, 0, (b"d/a.txt", 8_589_934_848, b"hello\n", 1_024)));
    let all = archive(
        rt,
        &[
            changed(136, b"\xff\xff\xff\xff\xff\xff\xff\xff\xed\x31\x08\x80"),
            hello,
        ],
    )?;
    assert!(rt; has_no_time(&all));
    Ok(())
}

/// A header before POSIX has no magic; its file with a slash at the end is a directory.
#[test]
fn headers_before_posix_are_read(rt: HostRuntime) -> Result<(), Fail> {
    let hello = block(&[(0, b"hello\n")]);
    let old = changed_twice((156, b"\0"), (257, b"\0\0\0\0\0\0\0\0"));
    let all = archive(rt, &[old, hello])?;
    assert!(rt; finds(rt, &all, 0, (b"d/a.txt", 1_000_000_000, b"hello\n", 1_024)));
    assert!(rt; is_directory(&all) == Some(false));
    let folder = changed_twice((7, b"/"), (257, b"\0\0\0\0\0\0\0\0"));
    assert!(rt; is_directory(&folder) == Some(true));
    assert!(rt; is_directory(&changed_twice((7, b"/"), (124, b"00000000000"))) == Some(false));
    Ok(())
}

/// Whether the first member is a directory.
fn is_directory(archive: &[u8]) -> Option<bool> {
    match next_member(archive, 0) {
        Ok(Some(found)) => Some(matches!(found.kind, Kind::Directory)),
        _ => None,
    }
}

/// Whether the first member has no time.
fn has_no_time(archive: &[u8]) -> bool {
    matches!(next_member(archive, 0), Ok(Some(found)) if found.mtime.is_none())
}

/// Spaces before the digits, and a space or a NUL behind them; all twelve may be digits, and blanks alone are 0.
#[test]
fn blanks_stand_round_digits(rt: HostRuntime) -> Result<(), Fail> {
    for size in [
        b"          6 ",
        b"00000000006 ",
        b"000000000006",
        b"   6 \0      ",
    ] {
        let all = archive(rt, &[changed(124, size), block(&[(0, b"hello\n")])])?;
        assert!(rt; finds(rt, &all, 0, (b"d/a.txt", 1_000_000_000, b"hello\n", 1_024)));
        // The zeros behind the last bytes may be wanting.
        assert!(rt;
            finds(
                rt,
                &all[..518],
                0,
                (b"d/a.txt", 1_000_000_000, b"hello\n", 518)
            )
        );
    }
    let all = changed(136, b"            ");
    assert!(rt; faults(&all, PastEnd(0)));
    assert!(rt;
        finds(
            rt,
            &changed(124, b"            "),
            0,
            (b"d/a.txt", 1_000_000_000, b"", 512)
        )
    );
    Ok(())
}

/// What the text of an extended header says of the member behind it.
#[test]
fn extended_headers_are_refused(rt: HostRuntime) -> Result<(), Fail> {
    let front = changed(156, b"x");
    let file = changed(0, b"d");
    assert!(rt; faults(&front, PastEnd(0)));
    let all = archive(rt, &[front, block(&[(0, b"6 a=b\n")])])?;
    assert!(rt; faults(&all, CutBlock(1_024)));
    let all = archive(rt, &[front, block(&[(0, b"6 a=b\n")]), block(&[])])?;
    assert!(rt; faults(&all, WrongSum(1_172)));
    let all = archive(rt, &[front, block(&[(0, b"6 a=b\n")]), changed(156, b"g")])?;
    assert!(rt; faults(&all, NoMember(1_024)));
    for kind in [b"x", b"L", b"K"] {
        let all = archive(rt, &[front, block(&[(0, b"6 a=b\n")]), changed(156, kind)])?;
        assert!(rt; faults(&all, PastEnd(1_024)));
    }
    for text in [b"7 a=b\n", b"5 a=b\n", b"6 a-b\n", b"06a=b\n", b"6 a=bc"] {
        let all = archive(rt, &[front, block(&[(0, text)]), file, block(&[])])?;
        assert!(rt; faults(&all, NoRecord(512)));
    }
    Ok(())
}

/// Numbers that records say stand before those of the header.
#[test]
fn records_say_numbers(rt: HostRuntime) -> Result<(), Fail> {
    let text = b"9 size=2\n13 mtime=7.9\n";
    let front = changed_twice((124, b"00000000026"), (156, b"x"));
    let all = archive(
        rt,
        &[
            front,
            block(&[(0, text)]),
            changed(0, b"d"),
            block(&[(0, b"hello\n")]),
        ],
    )?;
    assert!(rt; finds(rt, &all, 0, (b"d/a.txt", 7, b"he", 2_048)));
    for (text, fault) in [
        (b"9 size=x\n13 mtime=7.9\n", NoNumber(1_024)),
        (b"9 size=2\n13 mtime=x.9\n", NoNumber(1_024)),
        (b"9 size=2\n13 mtime=7.9 ", NoRecord(521)),
    ] {
        let all = archive(
            rt,
            &[front, block(&[(0, text)]), changed(0, b"d"), block(&[])],
        )?;
        assert!(rt; faults(&all, fault));
    }
    let early = b"9 size=2\n13 mtime=-.9\n";
    let all = archive(
        rt,
        &[
            front,
            block(&[(0, early)]),
            changed(0, b"d"),
            block(&[(0, b"hello\n")]),
        ],
    )?;
    assert!(rt; has_no_time(&all));
    let text = b"12 size=9999\n9 mtim=7\n";
    let all = archive(
        rt,
        &[front, block(&[(0, text)]), changed(0, b"d"), block(&[])],
    )?;
    assert!(rt; faults(&all, NoRecord(512)));
    Ok(())
}

/// The last record of a keyword counts, and no other keyword is taken for it.
#[test]
fn last_value_counts(rt: HostRuntime) -> Result<(), Fail> {
    let text = b"6 a=b\n7 ab=c\n6 a=d\n6 b=a\n";
    assert!(rt; matches!(value_of(text, b"a"), Ok(Some(b"d"))));
    assert!(rt; matches!(value_of(text, b"ab"), Ok(Some(b"c"))));
    assert!(rt; matches!(value_of(text, b"c"), Ok(None)));
    assert!(rt; matches!(value_of(b"", b"a"), Ok(None)));
    assert!(rt; matches!(value_of(b"8 a=\n=\n\n6 a=\n", b"a"), Err(8)));
    assert!(rt; matches!(value_of(b"8 a=\n=\n\n", b"a"), Ok(Some(b"\n=\n"))));
    assert!(rt; matches!(value_of(b"6 a=b\n18446744073709551616 a=b\n", b"a"), Err(6)));
    Ok(())
}
