//! The lines of directories as people are shown them, and the walk over the directories below one.
use super::changes::mounted;
use crate::persons::master;
use crate::volumes::{
    FileHeader, Variant, added, directory_attributes, reserved, run, sample_of, set_in_use,
};
use ods_base::{Image, Listed, Name, print_name};
use ods_mount::Mounted;
use ods_walk::{Walk, enter_all, listing, walk_from};
use std::alloc::Global;
use std::test::Fail;

/// The type DIR.
const DIR: u16 = 6_778;

/// The line has this text.
fn is_line(entry: &Listed, wanted: &str) -> bool {
    print_name(&entry.name, entry.version).as_str() == wanted
}

/// The walk's lines: in which directory each stands, by its place, and its text.
fn is_walk(walk: &Walk, wanted: &[(usize, &str)]) -> bool {
    walk.lines().len() == wanted.len()
        && walk.lines().iter().zip(wanted).all(|(line, wanted)| {
            line.directory == wanted.0 && is_line(&line.entry, wanted.1)
        })
}

/// The walk over a mounted volume from this directory on.
fn walk_of(alloc: Global, volume: &Mounted, start: u16) -> Result<Walk, Fail> {
    let disk = volume.disk();
    Ok(walk_from(alloc, &disk, start)?)
}

/// The sample has the master directory alone, which names itself: it is listed, and not entered again. Digits come before letters.
#[test]
fn the_master_directory(rt: HostRuntime) -> Result<(), Fail> {
    let alloc = rt.alloc();
    let volume = mounted(alloc, sample_of(40).image(alloc)?)?;
    let walk = walk_of(alloc, &volume, 4)?;
    let wanted: &[(usize, &str)] = &[
        (0, "000000.DIR;1"),
        (0, "BADBLK.SYS;1"),
        (0, "BITMAP.SYS;1"),
        (0, "CORIMG.SYS;1"),
        (0, "INDEXF.SYS;1"),
    ];
    assert!(rt; is_walk(&walk, wanted));
    assert!(rt; walk.directory(1).is_none() && walk.path(alloc, 0)?.is_empty());
    Ok(())
}

/// An entry: the number and the sequence number of its file, the first word of its name, its type and its version.
fn entry(number: u8, sequence: u8, name: u16, kind: u16, version: u8) -> [u8; 16] {
    let [low, high] = name.to_le_bytes();
    let [kind_low, kind_high] = kind.to_le_bytes();
    [
        number, 0, sequence, 0, 0, 0, low, high, 0, 0, 0, 0, kind_low, kind_high, version, 0,
    ]
}

/// A name of three characters or fewer, with a type.
fn name_of(word: u16, kind: u16) -> Name {
    Name::new([word, 0, 0], kind)
}

/// The words A, B, C and AB.
const A: u16 = 1_600;

const B: u16 = 3_200;

const C: u16 = 4_800;

const AB: u16 = 1_680;

/// Puts bytes at a place of a block.
fn put(image: &mut Image, lbn: u32, at: usize, bytes: &[u8]) {
    let mut block = *image.block(lbn);
    block.set_bytes(at, bytes);
    image.set_block(lbn, block);
}

/// The sample of 40 blocks with these entries behind the five of the master directory, and directories 6 and 7 with these entries, in
/// LBNs 30 and 31.
fn with_directories(
    alloc: Global,
    top: &[[u8; 16]],
    six: &[[u8; 16]],
    seven: &[[u8; 16]],
) -> Result<Image, Fail> {
    let master_header = FileHeader {
        attributes: directory_attributes(1, 1, 80 + 16 * top.len() as u8),
        ..reserved(4, master())
    };
    let first = FileHeader {
        attributes: directory_attributes(1, 1, 16 * six.len() as u8),
        ..added(6, name_of(A, DIR))
    };
    let second = FileHeader {
        attributes: directory_attributes(1, 1, 16 * seven.len() as u8),
        ..added(7, name_of(B, DIR))
    };
    let mut image = Variant {
        headers: &[
            (6, master_header.mapping(&[run(21, 1)])),
            (8, first.mapping(&[run(30, 1)])),
            (9, second.mapping(&[run(31, 1)])),
        ],
        ..sample_of(40)
    }
    .image(alloc)?;
    put(&mut image, 21, 80, top.as_flattened());
    put(&mut image, 30, 0, six.as_flattened());
    put(&mut image, 31, 0, seven.as_flattened());
    Ok(image)
}

/// A.DIR, file 6, names itself, and file 3 as B.;2 and as B.;3: it is entered once, its lines come behind its own, and of one name the
/// highest version comes first.
#[test]
fn a_directory_that_names_itself(rt: HostRuntime) -> Result<(), Fail> {
    let alloc = rt.alloc();
    let itself = entry(6, 1, A, DIR, 1);
    let image = with_directories(
        alloc,
        &[itself],
        &[entry(3, 3, B, 0, 2), itself, entry(3, 3, B, 0, 3)],
        &[],
    )?;
    let volume = mounted(alloc, image)?;
    let walk = walk_of(alloc, &volume, 4)?;
    let wanted: &[(usize, &str)] = &[
        (0, "000000.DIR;1"),
        (0, "A.DIR;1"),
        (1, "A.DIR;1"),
        (1, "B.;3"),
        (1, "B.;2"),
        (0, "BADBLK.SYS;1"),
        (0, "BITMAP.SYS;1"),
        (0, "CORIMG.SYS;1"),
        (0, "INDEXF.SYS;1"),
    ];
    assert!(rt; is_walk(&walk, wanted));
    assert!(rt; walk.path(alloc, 1)?.as_slice() == [name_of(A, DIR)].as_slice());
    assert!(rt; walk.directory(2).is_none());
    Ok(())
}

/// A.DIR and B.DIR name each other, and the master directory as C.DIR: from the master the first one is entered, and by it the second;
/// from the second the first is entered, and neither the second again nor the master.
#[test]
fn two_directories_that_name_each_other(rt: HostRuntime) -> Result<(), Fail> {
    let alloc = rt.alloc();
    let (six, seven) = (entry(6, 1, A, DIR, 1), entry(7, 1, B, DIR, 1));
    let image = with_directories(
        alloc,
        &[seven, six],
        &[seven],
        &[six, entry(4, 4, C, DIR, 1)],
    )?;
    let volume = mounted(alloc, image)?;
    let walk = walk_of(alloc, &volume, 4)?;
    let wanted: &[(usize, &str)] = &[
        (0, "000000.DIR;1"),
        (0, "A.DIR;1"),
        (1, "B.DIR;1"),
        (2, "A.DIR;1"),
        (2, "C.DIR;1"),
        (0, "B.DIR;1"),
        (0, "BADBLK.SYS;1"),
        (0, "BITMAP.SYS;1"),
        (0, "CORIMG.SYS;1"),
        (0, "INDEXF.SYS;1"),
    ];
    assert!(rt; is_walk(&walk, wanted));
    let way = [name_of(A, DIR), name_of(B, DIR)];
    assert!(rt; walk.path(alloc, 2)?.as_slice() == way.as_slice());
    assert!(rt; walk.directory(2).map(|entered| entered.number) == Some(7));
    let below = walk_of(alloc, &volume, 7)?;
    let wanted: &[(usize, &str)] = &[(0, "A.DIR;1"), (1, "B.DIR;1"), (0, "C.DIR;1")];
    assert!(rt; is_walk(&below, wanted));
    assert!(rt; below.path(alloc, 1)?.as_slice() == [name_of(A, DIR)].as_slice());
    assert!(rt; below.directory(0).map(|entered| entered.number) == Some(7));
    Ok(())
}

/// The directories that were entered, by their numbers, in that order.
fn are_entered(walk: &Walk, wanted: &[u16]) -> bool {
    walk.directory_count() == wanted.len()
        && wanted.iter().enumerate().all(|(place, number)| {
            walk.directory(place).map(|entered| entered.number) == Some(*number)
        })
}

/// A.DIR names B.DIR, and the master directory both: each is entered once, B.DIR from the master directory, which is nearer. No line is kept.
#[test]
fn nearer_directories_are_entered_first(rt: HostRuntime) -> Result<(), Fail> {
    let alloc = rt.alloc();
    let (six, seven) = (entry(6, 1, A, DIR, 1), entry(7, 1, B, DIR, 1));
    let below = [six, entry(4, 4, C, DIR, 1)];
    let volume = mounted(
        alloc,
        with_directories(alloc, &[seven, six], &[seven], &below)?,
    )?;
    let all = enter_all(alloc, &volume.disk())?;
    assert!(rt; are_entered(&all, &[4, 6, 7]) && all.lines().is_empty());
    assert!(rt; all.path(alloc, 2)?.as_slice() == [name_of(B, DIR)].as_slice());
    let volume = mounted(alloc, with_directories(alloc, &[seven], &[], &below)?)?;
    let all = enter_all(alloc, &volume.disk())?;
    assert!(rt; are_entered(&all, &[4, 7, 6]));
    let way = [name_of(B, DIR), name_of(A, DIR)];
    assert!(rt; all.path(alloc, 2)?.as_slice() == way.as_slice());
    Ok(())
}

/// A directory that is named twice, as A.DIR;1 and A.DIR;2, is entered at the line that comes first.
#[test]
fn a_directory_named_twice(rt: HostRuntime) -> Result<(), Fail> {
    let alloc = rt.alloc();
    let top = [entry(6, 1, A, DIR, 1), entry(6, 1, A, DIR, 2)];
    let image = with_directories(alloc, &top, &[entry(3, 3, C, 0, 1)], &[])?;
    let volume = mounted(alloc, image)?;
    let walk = walk_of(alloc, &volume, 4)?;
    let wanted: &[(usize, &str)] = &[
        (0, "000000.DIR;1"),
        (0, "A.DIR;2"),
        (1, "C.;1"),
        (0, "A.DIR;1"),
        (0, "BADBLK.SYS;1"),
        (0, "BITMAP.SYS;1"),
        (0, "CORIMG.SYS;1"),
        (0, "INDEXF.SYS;1"),
    ];
    assert!(rt; is_walk(&walk, wanted));
    Ok(())
}

/// Entries of type DIR whose file is no directory, or gone, or another by its sequence number, and a directory under another type: each is
/// a line, and none is entered.
#[test]
fn what_is_not_entered(rt: HostRuntime) -> Result<(), Fail> {
    let alloc = rt.alloc();
    let below = [
        entry(3, 3, A, DIR, 1),
        entry(9, 1, B, DIR, 1),
        entry(7, 2, C, DIR, 1),
        entry(7, 1, AB, 0, 1),
    ];
    let mut image = with_directories(alloc, &[], &below, &[entry(3, 3, A, 0, 1)])?;
    set_in_use(&mut image, 9, false)?;
    let volume = mounted(alloc, image)?;
    let walk = walk_of(alloc, &volume, 6)?;
    let wanted: &[(usize, &str)] = &[(0, "A.DIR;1"), (0, "AB.;1"), (0, "B.DIR;1"), (0, "C.DIR;1")];
    assert!(rt; is_walk(&walk, wanted));
    assert!(rt; walk.directory(1).is_none());
    Ok(())
}

/// Name and type are compared each by itself: A.B, A.DAT and AB.A stand in this order, and of A.B version 2 before version 1.
#[test]
fn an_ordinary_directory(rt: HostRuntime) -> Result<(), Fail> {
    let alloc = rt.alloc();
    let below = [
        entry(3, 3, AB, A, 1),
        entry(3, 3, A, 6_460, 1),
        entry(3, 3, A, B, 1),
        entry(3, 3, A, B, 2),
    ];
    let volume = mounted(alloc, with_directories(alloc, &[], &below, &[])?)?;
    let disk = volume.disk();
    let lines = listing(alloc, &disk, 6)?;
    let wanted = ["A.B;2", "A.B;1", "A.DAT;1", "AB.A;1"];
    assert!(rt; lines.len() == 4);
    assert!(rt;
        lines
            .iter()
            .zip(wanted)
            .all(|(line, wanted)| is_line(line, wanted))
    );
    Ok(())
}
