//! Where the home block is found.
use crate::volumes::{block_of, sample_of};
use ods_base::{Block, Image, sum};
use ods_header::{HomeFault, find_home};
use std::alloc::Global;
use std::test::Fail;

/// The home block of the sample volume.
fn sample_home(alloc: Global) -> Result<Block, Fail> {
    let image = sample_of(40).image(alloc)?;
    Ok(*block_of(&image, 1)?)
}

/// An image of these bytes.
fn image_of(alloc: Global, bytes: &[u8]) -> Result<Image, Fail> {
    Ok(Image::from_bytes(alloc, bytes)?)
}

#[test]
fn home_is_found(rt: HostRuntime) -> Result<(), Fail> {
    let home = sample_home(rt.alloc())?;
    assert!(rt; sum(&home, 29) == 57621 && sum(&home, 255) == 11408);
    let mut bytes = [0; 1024];
    bytes[512..].copy_from_slice(home.bytes());
    let image = image_of(rt.alloc(), &bytes)?;
    let (lbn, found) = find_home(&image)?;
    assert!(rt; lbn == 1 && found.index_bitmap_lbn == 2 && found.max_files == 16);
    Ok(())
}

/// An image of one block has no home block.
#[test]
fn one_block_has_no_home(rt: HostRuntime) -> Result<(), Fail> {
    let bare = image_of(rt.alloc(), &[0; 512])?;
    assert!(rt; matches!(&find_home(&bare), Err(HomeFault::NoHome)));
    Ok(())
}

/// Where the home block of a volume of these bytes is.
fn place_of_home(alloc: Global, bytes: &[u8]) -> Result<Option<u32>, Fail> {
    Ok(
        find_home(&image_of(alloc, bytes)?)
            .ok()
            .map(|place| place.0),
    )
}

/// A home block counts only at LBN 1, 256, 512 and so on, and the least of them is the volume's.
#[test]
fn home_may_stand_later(rt: HostRuntime) -> Result<(), Fail> {
    let home = sample_home(rt.alloc())?;
    let mut bytes = vec![in rt.alloc(); 0u8; 600 * 512]?;
    for (lbn, found) in [
        (255u16, None),
        (512, Some(512)),
        (256, Some(256)),
        (1, Some(1)),
    ] {
        for (byte, here) in bytes.iter_mut().skip(512 * lbn as usize).zip(home.bytes()) {
            *byte = *here;
        }
        assert!(rt; place_of_home(rt.alloc(), &bytes)? == found, "at {lbn}");
    }
    Ok(())
}
