//! Chains that grow and that are given back in a draft, with ample memory and with each growth of it refused in turn (tests/refusals): no
//! request calls `extend_chain` and `give_back` themselves.
use crate::persons::a_txt;
use crate::settings::{Refusing, ends};
use crate::volumes::{Variant, added, run, sample_of};
use ods_alloc::{extend_chain, free_count, give_back, number_count};
use ods_base::Image;
use ods_header::{Run, read_header};
use ods_mount::{MountFault, Mounted, mount};
use ods_space::{Disk, Draft};
use std::alloc::Global;
use std::process::Abort;
use std::test::Fail;

/// The sample of 512 blocks with file 6,1, which has these headers: the first at LBN 8.
fn with_chain(alloc: Global, first: &[Run], second: Option<&[Run]>) -> Result<Mounted, Fail> {
    let header = added(6, a_txt());
    let image = match second {
        None => Variant {
            headers: &[(8, header.mapping(first))],
            ..sample_of(512)
        }
        .image(alloc)?,
        Some(second) => Variant {
            headers: &[
                (8, header.before(7).mapping(first)),
                (9, added(7, a_txt()).second().mapping(second)),
            ],
            ..sample_of(512)
        }
        .image(alloc)?,
    };
    sound(alloc, image)
}

/// The image, which is sound.
fn sound(alloc: Global, image: Image) -> Result<Mounted, Fail> {
    match mount(alloc, image) {
        Ok(mounted) => Ok(mounted),
        Err((_, MountFault::NoMemory)) => Err("memory for a mount".into()),
        Err(_) => Err("it is not sound".into()),
    }
}

/// The image as a draft leaves it.
fn drafted(image: &Image, draft: &Draft) -> Result<Image, Fail> {
    let mut new = image.copy()?;
    draft.apply(&mut new);
    Ok(new)
}

/// So many blocks and numbers are free on the disk.
fn has_free(rt: &impl Abort, disk: &Disk<'_>, blocks: u32, numbers: u32) {
    assert!(rt; free_count(disk) == blocks, "{blocks} blocks");
    assert!(rt; number_count(disk) == numbers, "{numbers} numbers");
}

/// A header of the image, in this block, maps these runs.
fn maps(rt: &impl Abort, image: &Image, number: u16, runs: &[Run]) {
    match read_header(image.block(number as u32 + 2), number) {
        Ok(header) => assert!(rt; header.runs().as_slice() == runs, "header {number}"),
        Err(_) => assert!(rt; false, "header {number} is none"),
    }
}

/// Appends the blocks from LBN 22 on to file 6, once more where memory was refused.
fn extends(
    rt: &impl Abort,
    alloc: Global,
    it: &Mounted,
    blocks: u32,
    numbers: &[u16],
    refusing: &mut Refusing,
) -> Result<Image, Fail> {
    let mut lbns = Vec::new(alloc);
    let held = if numbers.is_empty() { 22 } else { 226 };
    for k in 0..blocks {
        lbns.push(held + k)?;
    }
    let disk = it.disk();
    let mut draft = Draft::new(alloc);
    let done = extend_chain(alloc, &disk, 6, lbns.as_slice(), numbers, &mut draft);
    if done.is_err() {
        refusing.meets(rt);
        assert!(rt;
            drafted(disk.image, &draft)? == *disk.image,
            "the draft changed"
        );
        let again = extend_chain(alloc, &disk, 6, lbns.as_slice(), numbers, &mut draft);
        assert!(rt; again.is_ok(), "refused twice");
    }
    drafted(disk.image, &draft)
}

/// A file without a block gets 300 blocks: a pointer counts 256 at most.
#[test]
fn refused_memory_where_a_chain_grows(rt: HostRuntime) -> Result<(), Fail> {
    let mut refusing = Refusing::of(&rt);
    let it = with_chain(rt.alloc(), &[], None)?;
    let image = extends(&rt, rt.alloc(), &it, 300, &[], &mut refusing)?;
    maps(&rt, &image, 6, &[run(22, 256), run(278, 44)]);
    let disk = Disk {
        image: &image,
        layout: it.layout(),
    };
    has_free(&rt, &disk, 190, 10);
    sound(rt.alloc(), image)?;
    ends(&rt, rt.alloc());
    Ok(())
}

/// 102 blocks, each other one from LBN 22 on, with a pointer each.
fn apart() -> [Run; 102] {
    let mut runs = [run(0, 0); 102];
    for k in 0..102 {
        runs[k] = run(22 + 2 * k as u32, 1);
    }
    runs
}

/// A file whose first header is full gets an extension header with the number 7.
#[test]
fn refused_memory_where_a_chain_gets_a_header(rt: HostRuntime) -> Result<(), Fail> {
    let mut refusing = Refusing::of(&rt);
    let it = with_chain(rt.alloc(), &apart(), None)?;
    let image = extends(&rt, rt.alloc(), &it, 2, &[7], &mut refusing)?;
    maps(&rt, &image, 6, &apart());
    maps(&rt, &image, 7, &[run(226, 2)]);
    let disk = Disk {
        image: &image,
        layout: it.layout(),
    };
    has_free(&rt, &disk, 386, 9);
    sound(rt.alloc(), image)?;
    ends(&rt, rt.alloc());
    Ok(())
}

/// The blocks and both headers of a file are given back.
#[test]
fn refused_memory_where_a_chain_is_given_back(rt: HostRuntime) -> Result<(), Fail> {
    let mut refusing = Refusing::of(&rt);
    let it = with_chain(rt.alloc(), &apart(), Some(&[run(226, 1)]))?;
    let mut lbns = Vec::new(rt.alloc());
    for k in 0..103 {
        lbns.push(22 + 2 * k)?;
    }
    let disk = it.disk();
    has_free(&rt, &disk, 387, 9);
    let mut draft = Draft::new(rt.alloc());
    let done = give_back(&disk, lbns.as_slice(), &[6, 7], &mut draft);
    if done.is_err() {
        refusing.meets(&rt);
        assert!(rt;
            drafted(disk.image, &draft)? == *disk.image,
            "the draft changed"
        );
        let again = give_back(&disk, lbns.as_slice(), &[6, 7], &mut draft);
        assert!(rt; again.is_ok(), "refused twice");
    }
    let image = drafted(disk.image, &draft)?;
    let disk = Disk {
        image: &image,
        layout: disk.layout,
    };
    has_free(&rt, &disk, 490, 11);
    for number in [6, 7] {
        let block = image.block(number as u32 + 2);
        assert!(rt;
            read_header(block, number).is_err(),
            "header {number} is there"
        );
    }
    sound(rt.alloc(), image)?;
    ends(&rt, rt.alloc());
    Ok(())
}
