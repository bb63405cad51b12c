//! Requests with ample memory are served, at sizes that take more of it than the samples do.
use super::rows::{bytes, read, set_user, shown, stat, write_a};
use super::trial::{Trial, has_entries, played_on, plays, start};
use crate::contiguous::{contiguous_file, contiguous_stat};
use crate::persons::{FIRST, PROTECTION, a_txt, letter_a, old_block};
use crate::volumes::{block_of, in_two_headers, run};
use ods_base::{Block, Image};
use ods_request::Answer;
use std::alloc::Global;
use std::process::Abort;
use std::test::Fail;

/// The volume of 40 blocks with A.TXT, whose second header maps its blocks 3 and 4: LBN 30 and 31.
fn two_headers(alloc: Global) -> Result<Image, Fail> {
    in_two_headers(alloc, a_txt(), &[run(22, 2)], &[run(30, 2)])
}

/// The volume is as that volume was, but for the letter A in LBN 31.
fn only_31_is_written(rt: &impl Abort, alloc: Global, now: &Image) -> Result<(), Fail> {
    let before = two_headers(alloc)?;
    assert!(rt; now.len() == 40);
    for lbn in 0..40 {
        let mut wanted = *block_of(&before, lbn)?;
        if lbn == 31 {
            wanted = letter_a();
        }
        is_block(rt, block_of(now, lbn)?, &wanted, lbn);
    }
    Ok(())
}

/// The block at this LBN is the wanted one.
fn is_block(rt: &impl Abort, found: &Block, wanted: &Block, lbn: u32) {
    assert!(rt; *found == *wanted, "block {lbn}");
}

/// Block 4 of A.TXT is written.
#[test]
fn block_of_a_second_header_is_written(rt: HostRuntime) -> Result<(), Fail> {
    let rows = [
        (read(FIRST, 4), bytes(old_block())),
        (write_a(FIRST, 4), Ok(Answer::Done)),
        (read(FIRST, 4), bytes(letter_a())),
    ];
    let it = played_on(&rt, rt.alloc(), two_headers(rt.alloc())?, &rows)?;
    only_31_is_written(&rt, rt.alloc(), it.volume.image())
}

/// SetUser of C.DAT with 32 bytes, each one more than the byte before, and Stat.
fn set_and_show(rt: &impl Abort, alloc: Global, it: &mut Trial, first: u8) -> Result<(), Fail> {
    let attributes = attributes_from(first);
    let rows = [
        (set_user(FIRST, attributes), Ok(Answer::Done)),
        (stat(FIRST), shown(contiguous_stat(attributes))),
    ];
    plays(rt, alloc, it, &rows)?;
    // The last byte of the attributes in the header of C.DAT.
    let header = block_of(it.volume.image(), 8)?;
    assert!(rt; header.byte(45) == first.wrapping_add(31));
    Ok(())
}

/// 32 bytes, each one more than the byte before.
fn attributes_from(first: u8) -> [u8; 32] {
    let mut attributes = [0; 32];
    for i in 0..32 {
        attributes[i] = first.wrapping_add(i as u8);
    }
    attributes
}

/// All bytes, 32 at a time.
fn set_all(rt: &impl Abort, alloc: Global, it: &mut Trial) -> Result<(), Fail> {
    for first in [0, 32, 64, 96, 128, 160, 192, 224] {
        set_and_show(rt, alloc, it, first)?;
    }
    Ok(())
}

#[test]
fn any_attributes_are_set(rt: HostRuntime) -> Result<(), Fail> {
    let image = contiguous_file(rt.alloc(), PROTECTION)?;
    set_all(&rt, rt.alloc(), &mut start(&rt, rt.alloc(), image, 16)?)
}

/// A block is read, and that is noted.
fn reads_one(rt: &impl Abort, alloc: Global, it: &mut Trial) -> Result<(), Fail> {
    plays(rt, alloc, it, &[(read(FIRST, 1), bytes(old_block()))])?;
    has_entries(rt, it, 1);
    Ok(())
}

#[test]
fn longest_list_is_made(rt: HostRuntime) -> Result<(), Fail> {
    let image = contiguous_file(rt.alloc(), PROTECTION)?;
    reads_one(&rt, rt.alloc(), &mut start(&rt, rt.alloc(), image, 65_536)?)
}
