//! What GNU tar 1.34 wrote, block by block, in each of its formats.
use super::blocks::{archive, block, finds, has_path};
use ods_archive::{ArchiveFault, Kind, next_member, value_of};
use std::test::Fail;

/// 120 bytes.
const LONG: &[u8; 120] = &[b'z'; 120];

/// `tar --format=ustar`: a file, an empty one, and one whose path is cut at a slash.
#[test]
fn ustar_is_read(rt: HostRuntime) -> Result<(), Fail> {
    let (deep, name) = ([b'x'; 60], [b'y'; 70]);
    let all = archive(
        rt,
        &[
            block(&[
                (0, b"d/a.txt"),
                (100, b"0000644"),
                (108, b"0000000"),
                (116, b"0000000"),
                (124, b"00000000006"),
                (136, b"07346545000"),
                (148, b"010447"),
                (155, b" 0"),
                (257, b"ustar"),
                (263, b"00"),
                (329, b"0000000"),
                (337, b"0000000"),
            ]),
            block(&[(0, b"hello\n")]),
            block(&[
                (0, b"d/empty"),
                (100, b"0000644"),
                (108, b"0000000"),
                (116, b"0000000"),
                (124, b"00000000000"),
                (136, b"07346545000"),
                (148, b"010541"),
                (155, b" 0"),
                (257, b"ustar"),
                (263, b"00"),
                (329, b"0000000"),
                (337, b"0000000"),
            ]),
            block(&[
                (0, &name),
                (100, b"0000644"),
                (108, b"0000000"),
                (116, b"0000000"),
                (124, b"00000000001"),
                (136, b"11145401322"),
                (148, b"046137"),
                (155, b" 0"),
                (257, b"ustar"),
                (263, b"00"),
                (329, b"0000000"),
                (337, b"0000000"),
                (345, b"d/"),
                (347, &deep),
            ]),
            block(&[(0, b"L")]),
            block(&[]),
            block(&[]),
        ],
    )?;
    assert!(rt; finds(rt, &all, 0, (b"d/a.txt", 1_000_000_000, b"hello\n", 1_024)));
    assert!(rt; finds(rt, &all, 1_024, (b"d/empty", 1_000_000_000, b"", 1_536)));
    let mut path = Vec::from_slice(rt.alloc(), b"d/")?;
    path.extend_from_slice(&deep)?;
    path.push(b'/')?;
    path.extend_from_slice(&name)?;
    assert!(rt; finds(rt, &all, 1_536, (&path, 1_234_567_890, b"L", 2_560)));
    // A block of zeros ends it, and so does the end of its bytes.
    assert!(rt; matches!(next_member(&all, 2_560), Ok(None)));
    assert!(rt; matches!(next_member(&all, 3_584), Ok(None)));
    assert!(rt; matches!(next_member(&all[..1_024], 1_024), Ok(None)));
    Ok(())
}

/// `tar --format=pax`: a path of 122 bytes, and a time with half a second.
#[test]
fn pax_is_read(rt: HostRuntime) -> Result<(), Fail> {
    let mut path = Vec::from_slice(rt.alloc(), b"d/")?;
    path.extend_from_slice(LONG)?;
    let all = archive(
        rt,
        &[
            block(&[
                (0, b"PaxHeaders/"),
                (11, &LONG[..89]),
                (100, b"0000644"),
                (108, b"0000000"),
                (116, b"0000000"),
                (124, b"00000000232"),
                (136, b"10216432707"),
                (148, b"035313"),
                (155, b" x"),
                (257, b"ustar"),
                (263, b"00"),
            ]),
            block(&[
                (0, b"132 path=d/"),
                (11, LONG),
                (131, b"\n22 mtime=1111111111.5\n"),
            ]),
            block(&[
                (0, b"d/"),
                (2, &LONG[..98]),
                (100, b"0000644"),
                (108, b"0000000"),
                (116, b"0000000"),
                (124, b"00000000002"),
                (136, b"10216432707"),
                (148, b"036747"),
                (155, b" 0"),
                (257, b"ustar"),
                (263, b"00"),
                (329, b"0000000"),
                (337, b"0000000"),
            ]),
            block(&[(0, b"PP")]),
            block(&[]),
            block(&[]),
        ],
    )?;
    assert!(rt; finds(rt, &all, 0, (&path, 1_111_111_111, b"PP", 2_048)));
    let Ok(Some(found)) = next_member(&all, 0) else {
        unreachable!()
    };
    assert!(rt; matches!(found.kind, Kind::File));
    assert!(rt; matches!(value_of(found.pax, b"mtime"), Ok(Some(b"1111111111.5"))));
    assert!(rt; matches!(value_of(found.pax, b"RSX.owner"), Ok(None)));
    assert!(rt; has_path(rt, &found, &path));
    Ok(())
}

/// `tar --format=gnu`: the old magic, and a long name before its member.
#[test]
fn old_gnu_is_read(rt: HostRuntime) -> Result<(), Fail> {
    let all = archive(
        rt,
        &[
            block(&[
                (0, b"d/a.txt"),
                (100, b"0000644"),
                (108, b"0000000"),
                (116, b"0000000"),
                (124, b"00000000006"),
                (136, b"07346545000"),
                (148, b"007147"),
                (155, b" 0"),
                (257, b"ustar  "),
            ]),
            block(&[(0, b"hello\n")]),
            block(&[
                (0, b"././@LongLink"),
                (100, b"0000644"),
                (108, b"0000000"),
                (116, b"0000000"),
                (124, b"00000000173"),
                (136, b"00000000000"),
                (148, b"007774"),
                (155, b" L"),
                (257, b"ustar  "),
            ]),
            block(&[(0, b"d/"), (2, LONG)]),
            block(&[
                (0, b"d/a.txt"),
                (100, b"0000644"),
                (108, b"0000000"),
                (116, b"0000000"),
                (124, b"00000000006"),
                (136, b"07346545000"),
                (148, b"007147"),
                (155, b" 0"),
                (257, b"ustar  "),
            ]),
            block(&[(0, b"hello\n")]),
        ],
    )?;
    assert!(rt; finds(rt, &all, 0, (b"d/a.txt", 1_000_000_000, b"hello\n", 1_024)));
    let mut path = Vec::new(rt.alloc());
    path.extend_from_slice(b"d/")?;
    path.extend_from_slice(LONG)?;
    assert!(rt;
        finds(
            rt,
            &all,
            1_024,
            (path.as_slice(), 1_000_000_000, b"hello\n", 3_072)
        )
    );
    // Without its member it is none.
    assert!(rt;
        matches!(
            next_member(&all[..2_048], 1_024),
            Err(ArchiveFault::CutBlock(2_048))
        )
    );
    Ok(())
}
