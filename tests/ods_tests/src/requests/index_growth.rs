//! INDEXF.SYS grows inside a request that needs more numbers than are free. What can be said as data is in tests/rows/f11.
use super::growing::header_of;
use super::rows::{create, dat, delete, id, made};
use super::trial::{Trial, ask_quickly, has_totals, plays, start};
use crate::persons::USER;
use crate::volumes::{Variant, block_of, run, sample_of};
use ods_base::Block;
use ods_filing::Filing;
use ods_header::read_header;
use ods_init::{Label, NewVolume, default_files, init};
use ods_mount::{Mounted, mount};
use ods_request::{Answer, Refusal, Stamp};
use ods_volume::Sound;
use std::alloc::Global;
use std::process::Abort;
use std::test::Fail;

/// A volume of 40 blocks with H.FMAX 20, on which files 6 to 16 were made.
fn without_a_free_number(rt: &impl Abort, alloc: Global) -> Result<Trial, Fail> {
    let image = Variant {
        most_files: 20,
        ..sample_of(40)
    }
    .image(alloc)?;
    let mut it = start(rt, alloc, image, 100)?;
    for number in 6..17 {
        let request = create(rt, dat(b'B'), 0);
        ask_quickly(rt, &mut it, USER, &request, &made(number, 1))?;
    }
    Ok(it)
}

/// The image mounts again, with this layout.
fn mounts_again(rt: &impl Abort, alloc: Global, it: &Trial) -> Result<(), Fail> {
    let Ok(again) = mount(alloc, it.volume.image().copy()?) else {
        return Err("a sound image".into());
    };
    assert!(rt; again.layout().index() == it.volume.layout().index());
    Ok(())
}

/// Header 1 maps LBN 0 to 18 and then this block, where header 17 stands.
fn has_block_22(rt: &impl Abort, it: &Trial) -> Result<(), Fail> {
    let image = it.volume.image();
    let index = header_of(image, 1)?;
    assert!(rt; index.runs().as_slice() == [run(0, 19), run(22, 1)].as_slice());
    let Ok(header) = read_header(block_of(image, 22)?, 17) else {
        return Err("no header".into());
    };
    assert!(rt; header.file == id(17, 1));
    assert!(rt; it.volume.layout().place(17) == Some(22));
    Ok(())
}

#[test]
fn a_file_gets_a_number_behind_the_last(rt: HostRuntime) -> Result<(), Fail> {
    let mut it = without_a_free_number(&rt, rt.alloc())?;
    let request = create(&rt, dat(b'B'), 0);
    ask_quickly(&rt, &mut it, USER, &request, &made(17, 1))?;
    has_totals(&rt, &it, (12, 17, 0));
    has_block_22(&rt, &it)?;
    mounts_again(&rt, rt.alloc(), &it)
}

#[test]
fn index_grows_up_to_the_greatest_number(rt: HostRuntime) -> Result<(), Fail> {
    let mut it = without_a_free_number(&rt, rt.alloc())?;
    let request = create(&rt, dat(b'B'), 1);
    for number in 17..21 {
        ask_quickly(&rt, &mut it, USER, &request, &made(number, 1))?;
    }
    ask_quickly(&rt, &mut it, USER, &request, &Err(Refusal::HeadersFull))?;
    has_totals(&rt, &it, (15, 10, 0));
    mounts_again(&rt, rt.alloc(), &it)
}

#[test]
fn number_behind_the_last_comes_back(rt: HostRuntime) -> Result<(), Fail> {
    let mut it = without_a_free_number(&rt, rt.alloc())?;
    let request = create(&rt, dat(b'B'), 2);
    ask_quickly(&rt, &mut it, USER, &request, &made(17, 1))?;
    has_totals(&rt, &it, (12, 15, 0));
    ask_quickly(&rt, &mut it, USER, &delete(id(17, 1)), &Ok(Answer::Done))?;
    has_totals(&rt, &it, (13, 17, 1));
    ask_quickly(&rt, &mut it, USER, &request, &made(17, 2))?;
    has_totals(&rt, &it, (14, 15, 0));
    assert!(rt; block_of(it.volume.image(), 23)? == &Block::zeros());
    mounts_again(&rt, rt.alloc(), &it)
}

#[test]
fn index_grows_until_no_block_is_free(rt: HostRuntime) -> Result<(), Fail> {
    let c_dat = |blocks| create(&rt, dat(b'C'), blocks);
    let d_dat = create(&rt, dat(b'D'), 0);
    let rows = [
        (create(&rt, dat(b'B'), 0), made(17, 1)),
        (c_dat(18), Err(Refusal::VolumeFull)),
        (c_dat(17), Err(Refusal::HeadersFull)),
        (c_dat(16), made(18, 1)),
        (d_dat, Err(Refusal::HeadersFull)),
        (delete(id(6, 1)), Ok(Answer::Done)),
        (d_dat, made(6, 2)),
    ];
    let mut it = without_a_free_number(&rt, rt.alloc())?;
    plays(&rt, rt.alloc(), &mut it, &rows)?;
    has_totals(&rt, &it, (15, 0, 0));
    let index = header_of(it.volume.image(), 1)?;
    assert!(rt; index.runs().as_slice() == [run(0, 19), run(22, 1), run(39, 1)].as_slice());
    assert!(rt; it.volume.layout().place(18) == Some(39));
    mounts_again(&rt, rt.alloc(), &it)
}

#[test]
fn headers_come_for_files_to_come(rt: HostRuntime) -> Result<(), Fail> {
    let alloc = rt.alloc();
    let image = Variant {
        most_files: 20,
        ..sample_of(40)
    }
    .image(alloc)?;
    let Ok(mounted) = mount(alloc, image) else {
        return Err("a sound image".into());
    };
    let Ok(mut volume) = Sound::new(alloc, mounted) else {
        return Err("memory".into());
    };
    let past = volume.grow_index(5).err();
    assert!(rt; past == Some(Refusal::HeadersFull));
    assert!(rt; volume.free_count() == 18 && volume.number_count() == 11);
    assert!(rt; volume.grow_index(4).is_ok());
    assert!(rt; volume.free_count() == 14 && volume.number_count() == 15);
    let index = header_of(volume.disk().image, 1)?;
    assert!(rt; index.runs().as_slice() == [run(0, 19), run(22, 4)].as_slice());
    assert!(rt; volume.disk().layout.place(20) == Some(25));
    let full = volume.grow_index(1).err();
    assert!(rt; full == Some(Refusal::HeadersFull));
    let Ok(again) = mount(alloc, volume.disk().image.copy()?) else {
        return Err("a sound image".into());
    };
    assert!(rt; again.layout().index() == volume.disk().layout.index());
    Ok(())
}

/// A new volume of 40,000 blocks, with headers ready for 2,500 files.
fn new_volume(alloc: Global) -> Result<Mounted, Fail> {
    let volume = NewVolume {
        blocks: 40_000,
        files: default_files(40_000),
        label: Label::parse("rsx").ok_or("label")?,
        owner: USER,
        stamp: Stamp::parse(b"01JAN90120000").ok_or("stamp")?,
    };
    let Ok(mounted) = mount(alloc, init(alloc, &volume)?) else {
        return Err("a sound image".into());
    };
    Ok(mounted)
}

/// So many empty files are made. They are entered nowhere.
fn make_files(rt: &impl Abort, filing: &mut Filing, count: u32) -> Result<(), Fail> {
    let request = create(rt, dat(b'B'), 0);
    for _ in 0..count {
        filing.request(&request)?;
    }
    Ok(())
}

#[test]
fn ten_thousand_files_go_into_a_new_volume(rt: HostRuntime) -> Result<(), Fail> {
    let alloc = rt.alloc();
    let mut filing = Filing::new(alloc, new_volume(alloc)?, USER)?;
    // INDEXF.SYS has 2,517 blocks; the storage control block, the bitmap and the master directory follow.
    assert!(rt; filing.free_count() == 40_000 - 2_517 - 12);
    filing.make_ready(2_500)?;
    assert!(rt; filing.free_count() == 37_471);
    filing.make_ready(10_000)?;
    assert!(rt; filing.free_count() == 37_471 - 7_500);
    // 10 pointers to its first blocks, and 30 to those that came. The index bitmap has 10 blocks.
    let Ok(index) = read_header(block_of(filing.disk().image, 12)?, 1) else {
        return Err("no header".into());
    };
    assert!(rt; index.runs().as_slice().len() == 10 + 30);
    make_files(&rt, &mut filing, 10_000)?;
    assert!(rt; filing.free_count() == 37_471 - 7_500);
    let Ok(again) = mount(alloc, filing.disk().image.copy()?) else {
        return Err("a sound image".into());
    };
    assert!(rt; again.layout().index() == filing.disk().layout.index());
    Ok(())
}

#[test]
fn one_by_one_each_growth_takes_a_pointer(rt: HostRuntime) -> Result<(), Fail> {
    let alloc = rt.alloc();
    let mut filing = Filing::new(alloc, new_volume(alloc)?, USER)?;
    // 10 of 102 pointers are there.
    make_files(&rt, &mut filing, 2_500 + 92)?;
    let full = filing.request(&create(&rt, dat(b'B'), 0)).err();
    assert!(rt; full == Some(Refusal::HeadersFull));
    let late = filing.make_ready(1).err();
    assert!(rt; late == Some(Refusal::HeadersFull));
    Ok(())
}
