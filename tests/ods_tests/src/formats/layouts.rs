//! Where the structures of a volume lie.
ghost use Rattle.std.specs.Prelude.{IfOk};
ghost use Rattle.ods_space.specs.Files.{IsLayoutOf};

use crate::persons::a_txt;
use crate::volumes::{Variant, added, run, sample_of};
use ods_base::Image;
use ods_header::find_home;
use ods_space::{Layout, last_number};
use std::alloc::Global;
use std::process::Abort;
use std::test::Fail;

/// The layout of an image.
pub fn layout_of(alloc: Global, image: &Image) -> Result<Layout, Fail>
    ensures { IfOk result (λ layout. IsLayoutOf image.now layout) }
{
    let (_, home) = find_home(image)?;
    match Layout::read(alloc, image, home) {
        Ok(layout) => Ok(layout),
        Err(fault) => Err(fault.into()),
    }
}

/// The volume of 512 blocks with a file in pieces: header 6 has 102 pointers of one block each, every second one from LBN 22 on;
/// header 8 has one more.
pub fn scattered(alloc: Global) -> Result<Image, Fail> {
    let mut runs = [run(22, 1); 102];
    for k in 0..102 {
        runs[k].lbn = 22 + 2 * k as u32;
    }
    let first = added(6, a_txt()).before(8);
    let second = added(8, a_txt()).second();
    Variant {
        headers: &[
            (8, first.mapping(&runs)),
            (10, second.mapping(&[run(226, 1)])),
        ],
        ..sample_of(512)
    }
    .image(alloc)
}

/// The layout of the sample of forty blocks.
fn is_small(rt: &impl Abort, layout: &Layout) {
    assert!(rt; layout.index().len() == 19);
    assert!(rt; layout.bitmap() == [19, 20].as_slice());
    for (number, place) in [(0, None), (1, Some(3)), (16, Some(18)), (17, None)] {
        assert!(rt; layout.place(number) == place, "header {number}");
    }
}

#[test]
fn small_volume(rt: HostRuntime) -> Result<(), Fail> {
    let image = sample_of(40).image(rt.alloc())?;
    let layout = layout_of(rt.alloc(), &image)?;
    is_small(&rt, &layout);
    is_small(&rt, &layout.copy()?);
    Ok(())
}

/// With H.FMAX 18 the sample has headers for 16 numbers, so INDEXF.SYS may get two blocks more.
#[test]
fn layout_grows_up_to_its_most(rt: HostRuntime) -> Result<(), Fail> {
    let image = Variant {
        most_files: 18,
        ..sample_of(40)
    }
    .image(rt.alloc())?;
    let mut layout = layout_of(rt.alloc(), &image)?;
    layout.grow(&[22]);
    layout.grow(&[]);
    layout.grow(&[24, 25]);
    assert!(rt; layout.index().len() == 21);
    assert!(rt; layout.bitmap() == [19, 20].as_slice());
    for (number, place) in [(16, Some(18)), (17, Some(22)), (18, Some(24)), (19, None)] {
        assert!(rt; layout.place(number) == place, "header {number}");
    }
    assert!(rt; last_number(&layout) == 18);
    Ok(())
}

#[test]
fn layout_that_is_full_stays(rt: HostRuntime) -> Result<(), Fail> {
    let image = sample_of(40).image(rt.alloc())?;
    let mut layout = layout_of(rt.alloc(), &image)?;
    layout.grow(&[22]);
    is_small(&rt, &layout);
    Ok(())
}
