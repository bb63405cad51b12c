//! All faults of an image at once: a sound one has none, and one with several has each.
use crate::persons::{a_txt, b_txt, badblk, indexf};
use crate::volumes::{FileHeader, Variant, added, reserved, run, sample_of};
use FaultLine::{Index, Plain, Shared};
use IndexFault::{FreePlace, HeldPlace, Misplaced, OtherHome, TooShort};
use MountFault::{
    BadChain, BadDirectory, BadIndex, BadMaster, BadStorageMap, DoublyUsed, MarkedFree, NoHome,
    OutsideVolume, UnsupportedMap,
};
use ods_base::Block;
use ods_check::{FaultLine, IndexFault, check_all, check_first};
use ods_header::Run;
use ods_mount::MountFault;
use std::alloc::Global;
use std::process::Abort;
use std::test::Fail;

/// Fails where these are not the faults of the volume, in this order, or this is not what a mount answers, or it has a layout and is to
/// have none.
fn tells(
    rt: &impl Abort,
    alloc: Global,
    volume: &Variant<'_>,
    has_layout: bool,
    answer: Option<MountFault>,
    wanted: &[FaultLine],
) -> Result<(), Fail> {
    let image = volume.image(alloc)?;
    let first = check_first(alloc, &image)?;
    assert!(rt; first.answer == answer && first.layout.is_some() == has_layout);
    let checked = check_all(alloc, &image)?;
    assert!(rt; checked.layout.is_some() == has_layout);
    assert!(rt; checked.answer == answer, "{:?}", checked.answer);
    let faults = checked.faults.kept_lines();
    assert!(rt; faults.len() == wanted.len(), "{faults:?}");
    assert!(rt; checked.faults.more() == 0 && checked.sharing.more() == 0);
    for i in 0..wanted.len() {
        let fault = faults[i];
        assert!(rt; fault == wanted[i], "{fault:?}");
    }
    Ok(())
}

#[test]
fn sound_images_have_none(rt: HostRuntime) -> Result<(), Fail> {
    for blocks in [40, 512, 4_200] {
        tells(&rt, rt.alloc(), &sample_of(blocks), true, None, &[])?;
    }
    Ok(())
}

#[test]
fn each_fault_is_told(rt: HostRuntime) -> Result<(), Fail> {
    let other_format = FileHeader {
        count_size: 2,
        ..added(6, a_txt())
    };
    let headers = [
        (8, other_format.mapping(&[run(22, 1)])),
        (9, added(7, b_txt()).mapping(&[run(23, 1)])),
    ];
    let volume = Variant {
        headers: &headers,
        index_bits: &[(4, false)],
        ..sample_of(40)
    };
    let both = [Plain(BadMaster), Plain(UnsupportedMap(6))];
    tells(&rt, rt.alloc(), &volume, true, Some(BadMaster), &both)?;
    let volume = Variant {
        headers: &headers[1..],
        storage_bits: &[(23, true)],
        ..sample_of(40)
    };
    let free = MarkedFree(7, 23);
    tells(&rt, rt.alloc(), &volume, true, Some(free), &[Plain(free)])
}

#[test]
fn each_file_is_told(rt: HostRuntime) -> Result<(), Fail> {
    let volume = Variant {
        headers: &[
            (8, added(6, a_txt()).mapping(&[run(22, 3)])),
            (9, added(7, b_txt()).mapping(&[run(39, 2)])),
            (11, added(9, b_txt()).before(10).mapping(&[])),
        ],
        storage_bits: &[(22, true), (24, true)],
        // The first entry of the master directory has no version.
        bytes: &[(21, 14, 0), (21, 15, 0)],
        ..sample_of(40)
    };
    let wanted = [
        Plain(BadDirectory(4)),
        Plain(MarkedFree(6, 22)),
        Plain(MarkedFree(6, 24)),
        Plain(OutsideVolume(7, 40)),
        Plain(BadChain(9)),
    ];
    let answer = Some(BadDirectory(4));
    tells(&rt, rt.alloc(), &volume, true, answer, &wanted)
}

#[test]
fn each_pair_of_files_is_told_once(rt: HostRuntime) -> Result<(), Fail> {
    let c_header = added(8, a_txt()).mapping(&[run(22, 1), run(25, 1)]);
    let volume = Variant {
        headers: &[
            (8, added(6, a_txt()).mapping(&[run(22, 3)])),
            (9, added(7, b_txt()).mapping(&[run(23, 3)])),
            (10, c_header),
        ],
        ..sample_of(40)
    };
    let wanted = [
        Shared(6, 7, 23, 2),
        Shared(6, 8, 22, 1),
        Shared(7, 8, 25, 1),
    ];
    let answer = Some(DoublyUsed(6, 7, 23));
    tells(&rt, rt.alloc(), &volume, true, answer, &wanted)
}

#[test]
fn what_a_mount_answers_need_not_come_first(rt: HostRuntime) -> Result<(), Fail> {
    let volume = Variant {
        headers: &[
            (8, added(6, a_txt()).mapping(&[run(22, 2)])),
            (9, added(7, b_txt()).mapping(&[run(22, 2)])),
            (10, added(8, b_txt()).mapping(&[run(30, 1)])),
        ],
        storage_bits: &[(30, true)],
        ..sample_of(40)
    };
    let wanted = [Plain(MarkedFree(8, 30)), Shared(6, 7, 22, 2)];
    let answer = Some(DoublyUsed(6, 7, 22));
    tells(&rt, rt.alloc(), &volume, true, answer, &wanted)
}

#[test]
fn a_file_that_holds_blocks_twice_is_told(rt: HostRuntime) -> Result<(), Fail> {
    // LBN 24, 22, 23, 22, 24 and 24 again: two blocks, the first of which in the file is LBN 24.
    let runs = [run(24, 1), run(22, 2), run(22, 1), run(24, 1), run(24, 1)];
    let volume = Variant {
        headers: &[
            (8, added(6, a_txt()).mapping(&runs)),
            (9, added(7, b_txt()).mapping(&[run(22, 1), run(30, 1)])),
        ],
        ..sample_of(40)
    };
    let wanted = [Shared(6, 6, 24, 2), Shared(6, 7, 22, 1)];
    let answer = Some(DoublyUsed(6, 6, 22));
    tells(&rt, rt.alloc(), &volume, true, answer, &wanted)
}

#[test]
fn a_free_block_that_a_file_names_twice_is_told_once(rt: HostRuntime) -> Result<(), Fail> {
    let volume = Variant {
        headers: &[(
            8,
            added(6, a_txt()).mapping(&[run(22, 1), run(22, 1), run(23, 1), run(22, 1)]),
        )],
        storage_bits: &[(22, true), (23, true)],
        ..sample_of(40)
    };
    let wanted = [
        Plain(MarkedFree(6, 22)),
        Plain(MarkedFree(6, 23)),
        Shared(6, 6, 22, 1),
    ];
    let answer = Some(MarkedFree(6, 22));
    tells(&rt, rt.alloc(), &volume, true, answer, &wanted)
}

#[test]
fn each_file_with_a_header_of_another_is_told(rt: HostRuntime) -> Result<(), Fail> {
    let volume = Variant {
        headers: &[
            (8, added(6, a_txt()).before(8).mapping(&[])),
            // Its chain names a block that the image lacks.
            (9, added(7, b_txt()).before(8).mapping(&[run(39, 2)])),
            (10, added(8, a_txt()).second().mapping(&[])),
            (11, added(9, a_txt()).before(10).mapping(&[])),
            (12, added(10, a_txt()).second().mapping(&[])),
        ],
        ..sample_of(40)
    };
    let wanted = [
        Plain(BadChain(6)),
        Plain(BadChain(7)),
        Plain(OutsideVolume(7, 40)),
    ];
    let answer = Some(OutsideVolume(7, 40));
    tells(&rt, rt.alloc(), &volume, true, answer, &wanted)
}

/// Fails where the index of the volume of 40 blocks is not bad for these reasons, with these runs of INDEXF.SYS.
fn tells_index(
    rt: &impl Abort,
    alloc: Global,
    runs: &[Run],
    wanted: &[FaultLine],
) -> Result<(), Fail> {
    let volume = Variant {
        headers: &[(3, added(1, indexf()).mapping(runs))],
        ..sample_of(40)
    };
    tells(rt, alloc, &volume, true, Some(BadIndex), wanted)
}

#[test]
fn each_reason_for_a_bad_index_is_told(rt: HostRuntime) -> Result<(), Fail> {
    // VBN 3 is the index bitmap, LBN 2, and VBN 4 to 19 are headers 1 to 16.
    let short = [Index(TooShort), Index(Misplaced(19))];
    tells_index(&rt, rt.alloc(), &[run(0, 18)], &short)?;
    let other = [run(0, 4), run(22, 1), run(5, 14)];
    tells_index(&rt, rt.alloc(), &other, &[Index(Misplaced(5))])?;
    let none = [run(0, 1), run(22, 1), run(2, 17), run(1, 1)];
    tells_index(&rt, rt.alloc(), &none, &[Index(OtherHome(1))])
}

/// Fails where these are not the faults of the volume of 512 blocks with its home block at LBN 256, these headers 3 and 6, and LBN 1
/// free or not.
fn tells_late_home(
    rt: &impl Abort,
    alloc: Global,
    third: Block,
    sixth: Block,
    is_1_free: bool,
    wanted: &[FaultLine],
) -> Result<(), Fail> {
    let index = added(1, indexf()).mapping(&[run(0, 1), run(256, 1), run(2, 17)]);
    let volume = Variant {
        home: 256,
        headers: &[(3, index), (5, third), (8, sixth)],
        storage_bits: &[(1, is_1_free)],
        ..sample_of(512)
    };
    let answer = if wanted.is_empty() {
        None
    } else {
        Some(BadIndex)
    };
    tells(rt, alloc, &volume, true, answer, wanted)
}

#[test]
fn each_lower_place_of_a_home_block_is_told(rt: HostRuntime) -> Result<(), Fail> {
    let holds_1 = [run(1, 1)];
    let third = reserved(3, badblk());
    let sixth = added(6, a_txt());
    // No request changes file 3.
    let (no_third, no_sixth) = (third.mapping(&[]), sixth.mapping(&[]));
    let (in_third, in_sixth) = (third.mapping(&holds_1), sixth.mapping(&holds_1));
    tells_late_home(&rt, rt.alloc(), in_third, no_sixth, false, &[])?;
    let free = [Index(FreePlace(1))];
    tells_late_home(&rt, rt.alloc(), no_third, no_sixth, true, &free)?;
    let held = [Index(HeldPlace(1, 6))];
    tells_late_home(&rt, rt.alloc(), no_third, in_sixth, false, &held)?;
    let twice_in_sixth = sixth.mapping(&[run(1, 1), run(1, 1)]);
    let twice = [Index(HeldPlace(1, 6)), Shared(6, 6, 1, 1)];
    tells_late_home(&rt, rt.alloc(), no_third, twice_in_sixth, false, &twice)
}

#[test]
fn no_layout_is_one_fault(rt: HostRuntime) -> Result<(), Fail> {
    let volume = Variant {
        index_bits: &[(2, false)],
        ..sample_of(40)
    };
    let storage = Some(BadStorageMap);
    tells(
        &rt,
        rt.alloc(),
        &volume,
        false,
        storage,
        &[Plain(BadStorageMap)],
    )?;
    let volume = Variant {
        bytes: &[(1, 0, 0), (1, 1, 0)],
        ..sample_of(40)
    };
    tells(
        &rt,
        rt.alloc(),
        &volume,
        false,
        Some(NoHome),
        &[Plain(NoHome)],
    )
}
