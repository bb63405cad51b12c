//! Drafts of changes.
use crate::settings::{Refusing, ends};
use crate::volumes::{run, sample_of};
use ods_base::{Block, Image};
use ods_space::Draft;
use std::alloc::AllocError;
use std::process::Abort;
use std::test::Fail;

/// A block with this first byte, and zeros.
fn first_byte(byte: u8) -> Block {
    let mut block = Block::zeros();
    block.set_bytes(0, &[byte]);
    block
}

/// Puts changes into a draft, the newer of which count.
fn fill(draft: &mut Draft) -> Result<(), AllocError> {
    for (lbn, byte) in [(30, 1), (30, 2), (31, 3), (40, 4)] {
        draft.set(lbn, first_byte(byte))?;
    }
    draft.zero(run(31, 2))?;
    draft.zero(run(39, 9))
}

/// The blocks have these first bytes, in the image and through the draft.
fn has_changes(rt: &impl Abort, image: &Image, draft: &Draft) {
    for (lbn, first) in [(29, 0x5a), (30, 2), (31, 0), (32, 0), (33, 0x5a), (39, 0)] {
        assert!(rt; lbn < image.len());
        assert!(rt;
            draft.block(image, lbn).byte(0) == first,
            "through the draft, {lbn}"
        );
        assert!(rt; image.block(lbn).byte(0) == first, "block {lbn}");
    }
}

#[test]
fn newest_change_counts(rt: HostRuntime) -> Result<(), Fail> {
    let mut image = sample_of(40).image(rt.alloc())?;
    let mut draft = Draft::new(rt.alloc());
    fill(&mut draft)?;
    draft.copy()?.apply(&mut image);
    assert!(rt; image.len() == 40);
    has_changes(&rt, &image, &draft);
    Ok(())
}

/// What a draft makes of the image.
fn drafted(image: &Image, draft: &Draft) -> Result<Image, Fail> {
    let mut new = image.copy()?;
    draft.apply(&mut new);
    Ok(new)
}

/// Puts a change of this block into the draft, in one of four ways.
fn change(draft: &mut Draft, image: &Image, lbn: u32) -> Result<(), AllocError> {
    match lbn % 4 {
        0 => draft.set(lbn, first_byte(1)),
        1 => draft.zero(run(lbn, 1)),
        2 => draft.renew(lbn, first_byte(2)),
        _ => draft.put_bit(image, lbn, 0, true),
    }
}

#[test]
fn refused_memory_leaves_a_draft_as_it_was(rt: HostRuntime) -> Result<(), Fail> {
    let mut refusing = Refusing::of(&rt);
    let image = sample_of(40).image(rt.alloc())?;
    let mut draft = Draft::new(rt.alloc());
    for lbn in 22..40 {
        let before = drafted(&image, &draft)?;
        if change(&mut draft, &image, lbn).is_err() {
            refusing.meets(&rt);
            assert!(rt; drafted(&image, &draft)? == before, "block {lbn}");
            assert!(rt; change(&mut draft, &image, lbn).is_ok(), "refused twice");
        }
    }
    for lbn in 22..40 {
        let wanted = [1, 0, 2, 0x5b][lbn as usize % 4];
        assert!(rt; draft.block(&image, lbn).byte(0) == wanted, "block {lbn}");
    }
    ends(&rt, rt.alloc());
    Ok(())
}
