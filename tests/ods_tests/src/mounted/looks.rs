//! Looks at the sample volume of 40 blocks, and at one with a contiguous file on it.
use super::changes::mounted;
use crate::contiguous::{WORLD, WORLD_DENIED, contiguous_file};
use crate::persons::{
    FIRST, MASTER, PROTECTION, bitmap, index_stat, old_block, reserved_id, reserved_lines,
};
use crate::volumes::sample_of;
use ods_base::{FileId, Pick, Uic};
use ods_look::{list, look, stat};
use ods_mount::Mounted;
use ods_request::{Answer, Kind, Listing, Query, Refusal};
use std::alloc::Global;
use std::process::Abort;
use std::test::Fail;

/// The sample volume, mounted.
fn sample_mounted(alloc: Global) -> Result<Mounted, Fail> {
    mounted(alloc, sample_of(40).image(alloc)?)
}

/// The volume with the contiguous file of this protection, mounted.
fn contiguous_mounted(alloc: Global, protection: u16) -> Result<Mounted, Fail> {
    mounted(alloc, contiguous_file(alloc, protection)?)
}

/// The answer of a query on a mounted volume.
fn ask(mounted: &Mounted, who: Uic, query: Query) -> Result<Answer, Refusal> {
    let disk = mounted.disk();
    look(&disk, who, query)
}

/// The answer of a Read by somebody of the world.
fn read_of(mounted: &Mounted, file: FileId, vbn: u32) -> Result<Answer, Refusal> {
    ask(mounted, WORLD, Query::Read { file, vbn })
}

#[test]
fn reads(rt: HostRuntime) -> Result<(), Fail> {
    let sample = sample_mounted(rt.alloc())?;
    let unknown = FileId {
        number: 4,
        sequence: 5,
    };
    for (file, refusal) in [
        (reserved_id(1), Refusal::Reserved),
        (MASTER, Refusal::IsDirectory),
        (reserved_id(3), Refusal::NoSuchBlock),
        (unknown, Refusal::NoSuchFile),
    ] {
        assert!(rt; read_of(&sample, file, 1) == Err(refusal), "{file:?}");
    }
    Ok(())
}

#[test]
fn names(rt: HostRuntime) -> Result<(), Fail> {
    let sample = sample_mounted(rt.alloc())?;
    let name = bitmap();
    let found = Answer::Found(reserved_id(2), 1);
    for (dir, pick, wanted) in [
        (MASTER, Pick::Highest, Ok(found)),
        (MASTER, Pick::Exact(2), Err(Refusal::NoSuchName)),
        (reserved_id(3), Pick::Highest, Err(Refusal::NotADirectory)),
        (reserved_id(1), Pick::Highest, Err(Refusal::NotADirectory)),
    ] {
        let query = Query::LookUp { dir, name, pick };
        assert!(rt; ask(&sample, WORLD, query) == wanted, "{query:?}");
    }
    Ok(())
}

/// What a List by somebody of the world is answered.
fn lines_of(alloc: Global, volume: &Mounted, dir: FileId) -> Result<Listing, Refusal> {
    let disk = volume.disk();
    list(alloc, &disk, WORLD, dir)
}

#[test]
fn lists(rt: HostRuntime) -> Result<(), Fail> {
    let sample = sample_mounted(rt.alloc())?;
    let wanted = Ok(reserved_lines(rt.alloc())?);
    assert!(rt; lines_of(rt.alloc(), &sample, MASTER) == wanted);
    let plain = lines_of(rt.alloc(), &sample, reserved_id(3));
    assert!(rt; plain == Err(Refusal::NotADirectory));
    Ok(())
}

/// A file has this kind.
fn has_kind(rt: &impl Abort, volume: &Mounted, file: FileId, kind: Kind) -> Result<(), Fail> {
    let disk = volume.disk();
    let shown = stat(&disk, file)?;
    assert!(rt; shown.kind == kind, "{file:?} is {shown:?}");
    Ok(())
}

/// A plain file of so many blocks, with attributes of zeros.
fn plain(blocks: u32) -> Kind {
    Kind::Plain {
        blocks,
        attributes: [0; 32],
    }
}

/// The protection of the contiguous file is shown, and all of INDEXF.SYS.
fn is_private(rt: &impl Abort, volume: &Mounted) -> Result<(), Fail> {
    let disk = volume.disk();
    let shown = stat(&disk, FIRST)?;
    assert!(rt; shown.protection == WORLD_DENIED);
    let index = stat(&disk, reserved_id(1))?;
    assert!(rt; index == index_stat());
    Ok(())
}

#[test]
fn stats(rt: HostRuntime) -> Result<(), Fail> {
    let private = contiguous_mounted(rt.alloc(), WORLD_DENIED)?;
    is_private(&rt, &private)?;
    has_kind(&rt, &private, reserved_id(3), plain(0))?;
    has_kind(&rt, &private, MASTER, Kind::Directory { names: 5 })?;
    has_kind(&rt, &private, FIRST, plain(1))
}

#[test]
fn rights_to_read(rt: HostRuntime) -> Result<(), Fail> {
    let shared = contiguous_mounted(rt.alloc(), PROTECTION)?;
    let old = Answer::Bytes(old_block());
    assert!(rt; read_of(&shared, FIRST, 1) == Ok(old));
    let private = contiguous_mounted(rt.alloc(), WORLD_DENIED)?;
    assert!(rt; read_of(&private, FIRST, 1) == Err(Refusal::Denied));
    Ok(())
}
