//! The plain reader: where the entries of a directory end.
use crate::persons::{MASTER, NONE, USER, master, reserved_lines};
use crate::reader::plain_catalogue;
use crate::volumes::{FileHeader, Variant, directory_attributes, reserved, run, sample_of};
use ods_base::Image;
use ods_look::list;
use ods_mount::mount;
use ods_request::{Answer, Listing, Request};
use std::alloc::Global;
use std::process::Abort;
use std::test::Fail;

/// The sample volume whose master directory ends at this byte (F.FFBY) of this block (F.EFBK).
fn ending_at(alloc: Global, block: u8, byte: u8) -> Result<Image, Fail> {
    let header = FileHeader {
        attributes: directory_attributes(1, block, byte),
        ..reserved(4, master())
    };
    Variant {
        headers: &[(6, header.mapping(&[run(21, 1)]))],
        ..sample_of(40)
    }
    .image(alloc)
}

/// The plain program, over what the reader sees, lists these lines.
fn plain_lists(rt: &impl Abort, alloc: Global, image: &Image, wanted: Listing) -> Result<(), Fail> {
    let mut plain = plain_catalogue(alloc, image)?;
    let answer = plain.step(USER, &Request::List { dir: MASTER }, NONE);
    assert!(rt; answer == Ok(Answer::Names(wanted)), "by the reader");
    Ok(())
}

/// A sound image lists these lines.
fn image_lists(rt: &impl Abort, alloc: Global, image: Image, wanted: &Listing) -> Result<(), Fail> {
    let mounted = mount(alloc, image).ok().ok_or("not sound")?;
    let disk = mounted.disk();
    let lines = list(alloc, &disk, USER, MASTER)?;
    assert!(rt; lines == *wanted, "by the image");
    Ok(())
}

/// The directory that ends in this block has these lines.
fn both_list(rt: &impl Abort, alloc: Global, block: u8, wanted: Listing) -> Result<(), Fail> {
    image_lists(rt, alloc, ending_at(alloc, block, 80)?, &wanted)?;
    plain_lists(rt, alloc, &ending_at(alloc, block, 80)?, wanted)
}

/// Where F.EFBK is 0 the directory has no entry, whatever F.FFBY is.
#[test]
fn block_0_ends_at_once(rt: HostRuntime) -> Result<(), Fail> {
    let alloc = rt.alloc();
    both_list(&rt, alloc, 1, reserved_lines(alloc)?)?;
    both_list(&rt, alloc, 0, Listing::new(Vec::new(alloc)))
}
