//! Each fault of files and directories on a volume that has no other, by the mount and by the program's check.
use super::check_runs::replies;
use super::mounts::mounts;
use crate::persons::{a_txt, b_txt};
use crate::volumes::{FileHeader, Variant, added, bytes_at, run, sample_of};
use MountFault::{
    BadChain, BadDirectory, BadIndex, BadMaster, BadStorageMap, DoublyUsed, DuplicateName,
    MarkedFree, OutsideVolume, UnsupportedMap,
};
use ods_mount::MountFault;
use std::alloc::Global;
use std::process::Abort;
use std::sync::Wait;
use std::test::Fail;
use std::thread::Threads;

/// Fails where the mount does not answer this fault, or the program not this line.
fn refused<R: Threads + Wait + Sync + Abort>(
    rt: &R,
    alloc: Global,
    volume: &Variant<'_>,
    wanted: MountFault,
    reply: &str,
) -> Result<(), Fail> {
    mounts(rt, alloc, volume.image(alloc)?, Err(wanted));
    replies(rt, alloc, &volume.image_bytes(alloc)?, false, reply)
}

/// The first header of A.TXT, file 6.
fn a_header() -> FileHeader {
    added(6, a_txt())
}

/// The first header of B.TXT, file 7.
fn b_header() -> FileHeader {
    added(7, b_txt())
}

/// A header 8 of A.TXT, the second of its chain.
fn second_header() -> FileHeader {
    added(8, a_txt()).second()
}

#[test]
fn reserved_files_are_wanted(rt: HostRuntime) -> Result<(), Fail> {
    for (number, wanted, reply) in [
        (4, BadMaster, "NO 52 BadMaster\n"),
        (2, BadStorageMap, "NO 51 BadStorageMap\n"),
        (1, BadIndex, "NO 50 BadIndex\n"),
    ] {
        let volume = Variant {
            index_bits: &[(number, false)],
            ..sample_of(40)
        };
        refused(&rt, rt.alloc(), &volume, wanted, reply)?;
    }
    Ok(())
}

#[test]
fn blocks_are_held_twice(rt: HostRuntime) -> Result<(), Fail> {
    let at_22 = [run(22, 1)];
    let b = b_header().mapping(&at_22);
    let wanted = DoublyUsed(6, 7, 22);
    let reply = "NO 53 DoublyUsed 6 7 22\n";
    let volume = Variant {
        headers: &[(8, a_header().mapping(&at_22)), (9, b)],
        ..sample_of(40)
    };
    refused(&rt, rt.alloc(), &volume, wanted, reply)?;
    // One of them by its second header.
    let volume = Variant {
        headers: &[
            (8, a_header().before(8).mapping(&[])),
            (9, b),
            (10, second_header().mapping(&at_22)),
        ],
        ..sample_of(40)
    };
    refused(&rt, rt.alloc(), &volume, wanted, reply)
}

/// A file of one block that is marked free, or lies past the end, or is mapped by a pointer of another format. LBN 22 is free or not.
#[test]
fn pointers_are_bad(rt: HostRuntime) -> Result<(), Fail> {
    let other_format = FileHeader {
        count_size: 2,
        ..a_header()
    };
    for (header, lbn, is_free, wanted, reply) in [
        (
            a_header(),
            22,
            true,
            MarkedFree(6, 22),
            "NO 54 MarkedFree 6 22\n",
        ),
        (
            a_header(),
            40,
            true,
            OutsideVolume(6, 40),
            "NO 21 OutsideVolume 6 40\n",
        ),
        (
            other_format,
            22,
            false,
            UnsupportedMap(6),
            "NO 14 UnsupportedMap 6\n",
        ),
    ] {
        let volume = Variant {
            headers: &[(8, header.mapping(&[run(lbn, 1)]))],
            storage_bits: &[(22, is_free)],
            ..sample_of(40)
        };
        refused(&rt, rt.alloc(), &volume, wanted, reply)?;
    }
    Ok(())
}

#[test]
fn chains_that_do_not_end_well(rt: HostRuntime) -> Result<(), Fail> {
    let itself = added(7, a_txt()).second().before(7);
    let volume = Variant {
        headers: &[
            (8, a_header().before(7).mapping(&[run(22, 1)])),
            (9, itself.mapping(&[])),
        ],
        ..sample_of(40)
    };
    refused(&rt, rt.alloc(), &volume, BadChain(6), "NO 20 BadChain 6\n")?;
    // Two files with one header.
    let volume = Variant {
        headers: &[
            (8, a_header().before(8).mapping(&[])),
            (9, b_header().before(8).mapping(&[])),
            (10, second_header().mapping(&[])),
        ],
        ..sample_of(40)
    };
    refused(&rt, rt.alloc(), &volume, BadChain(7), "NO 20 BadChain 7\n")
}

#[test]
fn directories_that_are_bad(rt: HostRuntime) -> Result<(), Fail> {
    // The first entry without a version.
    let volume = Variant {
        bytes: &[(21, 14, 0), (21, 15, 0)],
        ..sample_of(40)
    };
    let reply = "NO 55 BadDirectory 4\n";
    refused(&rt, rt.alloc(), &volume, BadDirectory(4), reply)?;
    // The second entry with the name of the first.
    let name = b"\x74\x3a\x06\x23\x00\x00\xbb\x7a\x01\x00";
    let volume = Variant {
        bytes: &bytes_at(21, 22, name),
        ..sample_of(40)
    };
    let reply = "NO 56 DuplicateName 4\n";
    refused(&rt, rt.alloc(), &volume, DuplicateName(4), reply)
}
