//! Sound volumes, with what is free on them by the mount and by the program's check, and volumes whose home block or index file lies
//! otherwise.
use super::check_runs::replies;
use crate::persons::{badblk, c_dat, indexf};
use crate::volumes::{FileHeader, Variant, added, reserved, run, sample_of};
use MountFault::{BadChain, BadIndex, NoHome};
use ods_alloc::{free_count, number_count};
use ods_base::{Block, Image};
use ods_header::Run;
use ods_mount::{MountFault, Mounted, mount};
use std::alloc::Global;
use std::process::Abort;
use std::sync::Wait;
use std::test::Fail;
use std::thread::Threads;

/// The blocks and the numbers that are free.
pub fn free(mounted: &Mounted) -> (u32, u32) {
    let disk = mounted.disk();
    (free_count(&disk), number_count(&disk))
}

/// The blocks and the numbers that are free, where the image is sound.
fn counts(alloc: Global, image: Image) -> Result<(u32, u32), MountFault> {
    match mount(alloc, image) {
        Ok(mounted) => Ok(free(&mounted)),
        Err((_, fault)) => Err(fault),
    }
}

/// The mount of this image ends so.
pub fn mounts(
    rt: &impl Abort,
    alloc: Global,
    image: Image,
    wanted: Result<(u32, u32), MountFault>,
) {
    let found = counts(alloc, image);
    assert!(rt; found == wanted, "{found:?}");
}

/// Fails where the mount does not find so many blocks and numbers free, or the program does not print it.
fn sound<R: Threads + Wait + Sync + Abort>(
    rt: &R,
    alloc: Global,
    volume: &Variant<'_>,
    free: (u32, u32),
    reply: &str,
) -> Result<(), Fail> {
    mounts(rt, alloc, volume.image(alloc)?, Ok(free));
    replies(rt, alloc, &volume.image_bytes(alloc)?, true, reply)
}

#[test]
fn whole_samples(rt: HostRuntime) -> Result<(), Fail> {
    for (blocks, free, reply) in [
        (40, 18, "free 18\nnumbers 11\n"),
        (512, 490, "free 490\nnumbers 11\n"),
        (4_200, 4_073 + 104, "free 4177\nnumbers 11\n"),
    ] {
        sound(&rt, rt.alloc(), &sample_of(blocks), (free, 11), reply)?;
    }
    Ok(())
}

#[test]
fn one_number_in_use(rt: HostRuntime) -> Result<(), Fail> {
    let bit = Variant {
        index_bits: &[(6, true)],
        ..sample_of(40)
    };
    sound(&rt, rt.alloc(), &bit, (18, 10), "free 18\nnumbers 10\n")?;
    let contiguous = FileHeader {
        user_char: 0o200,
        ..added(6, c_dat())
    };
    let file = Variant {
        headers: &[(8, contiguous.mapping(&[run(22, 1)]))],
        ..sample_of(40)
    };
    sound(&rt, rt.alloc(), &file, (17, 10), "free 17\nnumbers 10\n")
}

/// The volume of 512 blocks with its home block at LBN 256, these runs of INDEXF.SYS, this header 3, and LBN 1 free or not.
fn with_late_home(
    alloc: Global,
    index: &[Run],
    third: Block,
    is_1_free: bool,
) -> Result<Image, Fail> {
    Variant {
        home: 256,
        headers: &[(3, added(1, indexf()).mapping(index)), (5, third)],
        storage_bits: &[(1, is_1_free)],
        ..sample_of(512)
    }
    .image(alloc)
}

#[test]
fn late_home(rt: HostRuntime) -> Result<(), Fail> {
    let holds_1 = reserved(3, badblk()).mapping(&[run(1, 1)]);
    let holds_none = reserved(3, badblk()).mapping(&[]);
    let good = [run(0, 1), run(256, 1), run(2, 17)];
    let swapped = [run(0, 1), run(300, 1), run(2, 17), run(256, 1)];
    // The home block is mapped as VBN 2.
    let image = with_late_home(rt.alloc(), &good, holds_1, false)?;
    mounts(&rt, rt.alloc(), image, Ok((489, 11)));
    // LBN 1 is free.
    let image = with_late_home(rt.alloc(), &good, holds_none, true)?;
    mounts(&rt, rt.alloc(), image, Err(BadIndex));
    // The home block is mapped past the headers.
    let image = with_late_home(rt.alloc(), &swapped, holds_1, false)?;
    mounts(&rt, rt.alloc(), image, Err(BadIndex));
    Ok(())
}

/// The volume of 40 blocks with room for 20 files, and headers 1 and 17 of INDEXF.SYS with these runs. LBN 22 and 23 are held.
fn with_longer_index(alloc: Global, first: &[Run], second: &[Run]) -> Result<Image, Fail> {
    let one = added(1, indexf()).before(17);
    let other = added(17, indexf()).second();
    Variant {
        most_files: 20,
        headers: &[(3, one.mapping(first)), (22, other.mapping(second))],
        storage_bits: &[(22, false), (23, false)],
        ..sample_of(40)
    }
    .image(alloc)
}

#[test]
fn longer_index(rt: HostRuntime) -> Result<(), Fail> {
    let image = with_longer_index(rt.alloc(), &[run(0, 19), run(22, 1)], &[run(23, 1)])?;
    mounts(&rt, rt.alloc(), image, Ok((16, 12)));
    // A header that only its own pointer places.
    let image = with_longer_index(rt.alloc(), &[run(0, 19)], &[run(22, 1)])?;
    mounts(&rt, rt.alloc(), image, Err(BadChain(1)));
    Ok(())
}

#[test]
fn no_home(rt: HostRuntime) -> Result<(), Fail> {
    mounts(
        &rt,
        rt.alloc(),
        Image::from_bytes(rt.alloc(), &[])?,
        Err(NoHome),
    );
    for (at, byte) in [(58, 0x14), (510, 0x91)] {
        let spoiled = Variant {
            bytes: &[(1, at, byte)],
            ..sample_of(40)
        };
        mounts(&rt, rt.alloc(), spoiled.image(rt.alloc())?, Err(NoHome));
    }
    Ok(())
}
