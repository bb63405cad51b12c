//! Members of one path, by the bytes at which they begin.
use super::blocks::{archive, block};
use ods_archive::ArchiveFault::WrongSum;
use ods_archive::{Member, Twin, TwinFault, first_twin, head_of};
use std::alloc::AllocError;
use std::test::Fail;

/// An archive of files of no bytes with these paths, so that each has 512 bytes.
fn files(rt: HostRuntime, paths: &[&[u8]]) -> Result<Vec<u8>, AllocError> {
    let mut bytes = Vec::new(rt.alloc());
    for path in paths {
        let member = Member {
            path: *path,
            is_directory: false,
            size: 0,
            mtime: 7,
            pax: b"",
        };
        let head = head_of(rt.alloc(), &member)?;
        bytes.extend_from_slice(&head)?;
    }
    Ok(bytes)
}

/// Whether the first twins of these files are so.
fn twins_are(
    rt: HostRuntime,
    paths: &[&[u8]],
    twins: Option<(usize, usize)>,
) -> Result<bool, Fail> {
    let bytes = files(rt, paths)?;
    Ok(match first_twin(rt.alloc(), &bytes) {
        Ok(found) => found == twins.map(|(first, second)| Twin { first, second }),
        Err(_) => false,
    })
}

#[test]
fn paths_are_told_apart(rt: HostRuntime) -> Result<(), Fail> {
    assert!(rt; twins_are(rt, &[], None)?);
    assert!(rt; twins_are(rt, &[b"a"], None)?);
    assert!(rt;
        twins_are(
            rt,
            &[b"a", b"b", b"a/b", b"b/a", b"ab", b"A", b"...", b".a"],
            None
        )?
    );
    assert!(rt; twins_are(rt, &[b"a", b"b", b"c", b"b", b"a"], Some((512, 1_536)))?);
    assert!(rt; twins_are(rt, &[b"a", b"b", b"a", b"b", b"a"], Some((0, 1_024)))?);
    for other in [
        b"d/a".as_slice(),
        b"./d/a",
        b"d//a",
        b"d/./a",
        b"d/a/",
        b"/d/a",
        b"d/a/.",
    ] {
        assert!(rt; twins_are(rt, &[b"x", b"d/a", other], Some((512, 1_024)))?);
    }
    Ok(())
}

/// Headers of all members, and unknown types, name nothing; a long name is that of the member behind it; what stands behind the first twins is not looked at.
#[test]
fn other_types_have_no_twins(rt: HostRuntime) -> Result<(), Fail> {
    let long = block(&[
        (0, b"././@LongLink"),
        (100, b"0000644"),
        (108, b"0000000"),
        (116, b"0000000"),
        (124, b"00000000173"),
        (136, b"00000000000"),
        (148, b"007774"),
        (155, b" L"),
        (257, b"ustar  "),
    ]);
    let name = block(&[(0, &[b'z'; 123])]);
    let odd = block(&[(0, b"odd")]);
    let file = files(rt, &[b"a", b"b"])?;
    let mut all = archive(rt, &[long, name])?;
    all.extend_from_slice(&file[..512])?;
    all.extend_from_slice(&file[512..1_024])?;
    assert!(rt; first_twin(rt.alloc(), &all) == Ok(None));
    let mut both = archive(rt, &[long, name])?;
    both.extend_from_slice(&file[..512])?;
    both.extend_from_slice(&all)?;
    assert!(rt;
        first_twin(rt.alloc(), &both)
            == Ok(Some(Twin {
                first: 0,
                second: 1_536
            }))
    );
    let all = archive(rt, &[long, name, odd])?;
    assert!(rt; first_twin(rt.alloc(), &all) == Err(TwinFault::Archive(WrongSum(1_172))));
    let mut bytes = files(rt, &[b"a", b"a"])?;
    bytes.extend_from_slice(&odd)?;
    assert!(rt;
        first_twin(rt.alloc(), &bytes)
            == Ok(Some(Twin {
                first: 0,
                second: 512
            }))
    );
    Ok(())
}
