//! What a mount does not refuse, as lines of text: a sample has none of it, and one volume that is sound has something of each kind.
use crate::persons::a_txt;
use crate::volumes::{FileHeader, Variant, added, directory_attributes, run, sample_of};
use ods_check::{check_all, count_findings, findings};
use ods_space::Disk;
use std::alloc::Global;
use std::process::Abort;
use std::test::Fail;

/// Fails where the volume is not sound, or these are not the lines of what is found on it, in this order.
fn finds(
    rt: &impl Abort,
    alloc: Global,
    volume: &Variant<'_>,
    wanted: &[&str],
) -> Result<(), Fail> {
    let image = volume.image(alloc)?;
    let checked = check_all(alloc, &image)?;
    let faults = checked.faults.kept_lines();
    assert!(rt; faults.is_empty(), "{faults:?}");
    let Some(layout) = &checked.layout else {
        return Err("it has no layout".into());
    };
    let disk = Disk {
        image: &image,
        layout,
    };
    // A list that may keep three keeps the first three, and counts the others.
    for most in [100, 3] {
        let found = findings(alloc, &disk, most, true)?;
        let kept = found.kept_lines();
        assert!(rt; kept.len() == wanted.len().min(most as usize), "{kept:?}");
        assert!(rt; found.more() == (wanted.len() - kept.len()) as u64);
        for i in 0..kept.len() {
            let text = format!(in alloc; "{}", kept[i])?;
            assert!(rt; text.as_str() == wanted[i], "{text}");
        }
    }
    assert!(rt; count_findings(alloc, &disk, true)? == wanted.len() as u64);
    Ok(())
}

#[test]
fn samples_have_none(rt: HostRuntime) -> Result<(), Fail> {
    for blocks in [40, 512, 4_200] {
        finds(&rt, rt.alloc(), &sample_of(blocks), &[])?;
    }
    Ok(())
}

#[test]
fn each_kind_is_found(rt: HostRuntime) -> Result<(), Fail> {
    let file = FileHeader {
        attributes: directory_attributes(1, 3, 0),
        user_char: 0o100,
        ..added(6, a_txt())
    };
    let volume = Variant {
        headers: &[
            (8, file.mapping(&[run(22, 1)])),
            (10, added(8, a_txt()).second().mapping(&[])),
        ],
        index_bits: &[(9, true), (10, true)],
        storage_bits: &[(30, false), (32, false), (33, false)],
        // A word of header 10, and the sequence number in the first entry of the master directory.
        bytes: &[(12, 0, 1), (21, 2, 9)],
        ..sample_of(40)
    };
    let wanted = [
        "file number 9 is marked as used and has no header: file number",
        "file number 10 is marked as used and has no header: checksum",
        "header 8,1 is an extension header that no file reaches",
        "block 30 is marked as used and no file holds it",
        "blocks 32 to 33 are marked as used and no file holds them",
        "directory 4 has INDEXF.SYS;1, which names 1,9, and that is no file",
        "file 6,1 is named by no directory",
        "file 6,1 ends past its blocks",
        "file 6,1 is locked",
        "the master directory does not name file 1 as INDEXF.SYS",
    ];
    finds(&rt, rt.alloc(), &volume, &wanted)
}
