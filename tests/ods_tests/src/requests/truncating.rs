//! Published sequences of Truncate, and cuts that trip. What can be said as data is in tests/rows/f11.
use super::cut_image::cut_image;
use super::growing::{are_extended, header_of, two_in_turn};
use super::rows::{
    Row, a_txt, big_dat, bytes, create, dat, delete, extend, id, made, read, set_user, shown, stat,
    sub_dir, truncate, write_a,
};
use super::trial::{
    Trial, ask, ask_quickly, ends_with, has_counts, has_totals, on_sample, played, played_on,
    plays, same_catalogue, start,
};
use crate::contiguous::{WORLD, WORLD_DENIED, contiguous_file, contiguous_stat};
use crate::persons::{
    FIRST, MASTER, PROTECTION, SECOND, STRANGER, USER, c_dat, other_attributes, reserved_id,
};
use crate::same::same_image;
use crate::volumes::{Variant, added, block_of, in_two_headers, run, sample_of, set_sum};
use Refusal::{BadCount, Denied, IsDirectory, NoSuchBlock, NoSuchFile, Reserved};
use ods_base::{Block, FileId};
use ods_header::Run;
use ods_request::{Answer, Kind, Refusal, Request, Stat};
use std::alloc::Global;
use std::process::Abort;
use std::test::Fail;

/// A Truncate that is accepted.
fn cut(file: FileId, blocks: u32) -> Row {
    (truncate(file, blocks), Ok(Answer::Truncated(blocks)))
}

/// Header `number` has these pointers, and names this next header.
fn has_runs(
    rt: &impl Abort,
    it: &Trial,
    number: u16,
    runs: &[Run],
    next: FileId,
) -> Result<(), Fail> {
    let header = header_of(it.volume.image(), number)?;
    assert!(rt; header.runs().as_slice() == runs, "header {number}");
    assert!(rt; header.next == next, "header {number}");
    Ok(())
}

/// A.TXT of three blocks is cut to two, and grows by a block.
fn cut_and_grown(rt: &impl Abort, alloc: Global) -> Result<Trial, Fail> {
    let rows = [
        (create(rt, a_txt(), 3), made(6, 1)),
        (write_a(FIRST, 3), Ok(Answer::Done)),
        cut(FIRST, 2),
        (read(FIRST, 3), Err(NoSuchBlock)),
        (truncate(FIRST, 3), Err(BadCount)),
        (extend(FIRST, 1), Ok(Answer::Extended(3))),
        (read(FIRST, 3), bytes(Block::zeros())),
    ];
    played(rt, alloc, 40, &rows)
}

#[test]
fn file_is_cut_and_grows_again(rt: HostRuntime) -> Result<(), Fail> {
    let mut it = cut_and_grown(&rt, rt.alloc())?;
    has_totals(&rt, &it, (5, 15, 10));
    has_runs(&rt, &it, 6, &[run(22, 2), run(24, 1)], id(0, 0))?;
    let rows = [cut(FIRST, 0), (truncate(MASTER, 0), Err(Reserved))];
    plays(&rt, rt.alloc(), &mut it, &rows)?;
    has_totals(&rt, &it, (6, 18, 10));
    has_runs(&rt, &it, 6, &[], id(0, 0))
}

/// A file of 103 blocks in two headers is cut to 102, and its second header is the next file's.
#[test]
fn extension_header_is_given_back(rt: HostRuntime) -> Result<(), Fail> {
    let mut it = two_in_turn(&rt, rt.alloc())?;
    are_extended(&rt, rt.alloc(), &mut it)?;
    let rows = [
        cut(FIRST, 102),
        (read(FIRST, 103), Err(NoSuchBlock)),
        (create(&rt, dat(b'R'), 0), made(8, 2)),
    ];
    plays(&rt, rt.alloc(), &mut it, &rows)?;
    has_totals(&rt, &it, (212, 285, 7));
    let header = header_of(it.volume.image(), 6)?;
    assert!(rt; header.next == id(0, 0) && header.runs().len() == 102);
    let other = header_of(it.volume.image(), 7)?;
    assert!(rt; other.next == id(9, 1));
    Ok(())
}

/// What is refused changes nothing: each fault with those behind it in the order.
#[test]
fn cuts_are_refused_in_order(rt: HostRuntime) -> Result<(), Fail> {
    let rows = [
        (create(&rt, a_txt(), 3), made(6, 1)),
        (create(&rt, sub_dir(), 1), made(7, 1)),
        (truncate(FIRST, 4), Err(BadCount)),
        (truncate(FIRST, u32::MAX), Err(BadCount)),
        (truncate(SECOND, 9), Err(IsDirectory)),
        (truncate(MASTER, 9), Err(Reserved)),
        (truncate(reserved_id(3), 9), Err(Reserved)),
        (truncate(reserved_id(1), 0), Err(Reserved)),
        (truncate(id(6, 2), 9), Err(NoSuchFile)),
    ];
    let mut it = played(&rt, rt.alloc(), 40, &rows)?;
    let stranger = [
        (truncate(FIRST, 4), Err(BadCount)),
        (truncate(FIRST, 3), Err(Denied)),
        (truncate(SECOND, 0), Err(IsDirectory)),
    ];
    for (request, wanted) in &stranger {
        ask(&rt, rt.alloc(), &mut it, STRANGER, request, wanted)?;
    }
    has_totals(&rt, &it, (2, 14, 9));
    has_runs(&rt, &it, 6, &[run(22, 3)], id(0, 0))
}

#[test]
fn who_may_not_extend_may_not_cut(rt: HostRuntime) -> Result<(), Fail> {
    let image = contiguous_file(rt.alloc(), WORLD_DENIED)?;
    let mut it = start(&rt, rt.alloc(), image, 4)?;
    let request = truncate(FIRST, 1);
    ask(&rt, rt.alloc(), &mut it, WORLD, &request, &Err(Denied))?;
    plays(&rt, rt.alloc(), &mut it, &[cut(FIRST, 1), cut(FIRST, 0)])
}

/// What is shown of C.DAT when it has no block: it is contiguous as before.
fn empty_stat() -> Stat {
    let mut stat = contiguous_stat([0; 32]);
    stat.kind = Kind::Plain {
        blocks: 0,
        attributes: [0; 32],
    };
    stat
}

#[test]
fn contiguous_file_stays_so(rt: HostRuntime) -> Result<(), Fail> {
    let rows = [
        (stat(FIRST), shown(contiguous_stat([0; 32]))),
        cut(FIRST, 1),
        (stat(FIRST), shown(contiguous_stat([0; 32]))),
        cut(FIRST, 0),
        (stat(FIRST), shown(empty_stat())),
        (read(FIRST, 1), Err(NoSuchBlock)),
        (set_user(FIRST, other_attributes()), Ok(Answer::Done)),
    ];
    let image = contiguous_file(rt.alloc(), PROTECTION)?;
    has_totals(&rt, &played_on(&rt, rt.alloc(), image, &rows)?, (6, 18, 10));
    Ok(())
}

/// The first header has no pointer: the second one is cut, and then given back.
#[test]
fn primary_header_has_no_pointer(rt: HostRuntime) -> Result<(), Fail> {
    let image = in_two_headers(rt.alloc(), c_dat(), &[], &[run(22, 2)])?;
    let mut it = start(&rt, rt.alloc(), image, 9)?;
    plays(&rt, rt.alloc(), &mut it, &[cut(FIRST, 1)])?;
    has_runs(&rt, &it, 6, &[], id(7, 1))?;
    has_runs(&rt, &it, 7, &[run(22, 1)], id(0, 0))?;
    has_totals(&rt, &it, (1, 17, 9));
    plays(&rt, rt.alloc(), &mut it, &[cut(FIRST, 0)])?;
    has_runs(&rt, &it, 6, &[], id(0, 0))?;
    has_totals(&rt, &it, (2, 18, 10));
    Ok(())
}

/// A cut to the present count gives back headers behind the last block.
#[test]
fn empty_headers_go(rt: HostRuntime) -> Result<(), Fail> {
    let image = in_two_headers(rt.alloc(), c_dat(), &[run(22, 1)], &[])?;
    let it = played_on(&rt, rt.alloc(), image, &[cut(FIRST, 1)])?;
    has_runs(&rt, &it, 6, &[run(22, 1)], id(0, 0))?;
    has_totals(&rt, &it, (1, 17, 10));
    Ok(())
}

/// Cuts of a file of two pointers, round the edges of both: the image is the one that the plain program makes, so nothing else in it changed.
fn cuts_down(rt: &impl Abort, alloc: Global, it: &mut Trial) -> Result<(), Fail> {
    for left in [300, 299, 258, 257, 256, 255, 254, 2, 1, 0] {
        let wanted = cut_image(it.volume.image(), 6, left)?;
        let (request, answer) = cut(FIRST, left);
        ask_quickly(rt, it, USER, &request, &answer)?;
        assert!(rt; same_image(it.volume.image(), &wanted), "cut to {left}");
        assert!(rt; it.volume.free_count() == 490 - left, "cut to {left}");
    }
    same_catalogue(rt, alloc, it)
}

#[test]
fn edges_of_two_pointers(rt: HostRuntime) -> Result<(), Fail> {
    let rows = [(create(&rt, big_dat(), 300), made(6, 1))];
    let mut it = played(&rt, rt.alloc(), 512, &rows)?;
    cuts_down(&rt, rt.alloc(), &mut it)
}

/// The blocks of a file over the edge of the storage bitmap's blocks are counted by both.
#[test]
fn both_bitmap_blocks_get_blocks_back(rt: HostRuntime) -> Result<(), Fail> {
    let mut it = on_sample(&rt, rt.alloc(), 4_200)?;
    let made_all = [(create(&rt, dat(b'A'), 4_177), made(6, 1))];
    plays(&rt, rt.alloc(), &mut it, &made_all)?;
    has_counts(&rt, &it, &[0, 0]);
    plays(&rt, rt.alloc(), &mut it, &[cut(FIRST, 4_083)])?;
    has_counts(&rt, &it, &[0, 94]);
    plays(&rt, rt.alloc(), &mut it, &[cut(FIRST, 4_000)])?;
    has_counts(&rt, &it, &[73, 104]);
    let rows = [cut(FIRST, 0), (delete(FIRST), Ok(Answer::Done))];
    plays(&rt, rt.alloc(), &mut it, &rows)?;
    has_counts(&rt, &it, &[4_073, 104]);
    Ok(())
}

/// What stands in a header where no field of it does, and in a header before the one that is cut, stays.
#[test]
fn other_bytes_stay(rt: HostRuntime) -> Result<(), Fail> {
    let first = added(6, c_dat()).before(7).mapping(&[run(22, 2)]);
    let mut second = added(7, c_dat())
        .second()
        .mapping(&[run(24, 3), run(28, 2)]);
    second.set_bytes(93, &[9, 0, 0, 7, 0]);
    second.set_bytes(300, b"left");
    set_sum(&mut second, 255);
    let image = Variant {
        headers: &[(8, first), (9, second)],
        ..sample_of(40)
    }
    .image(rt.alloc())?;
    let it = played_on(&rt, rt.alloc(), image, &[cut(FIRST, 4)])?;
    assert!(rt; *block_of(it.volume.image(), 8)? == first);
    let mut wanted = second;
    wanted.set_bytes(93, &[9, 0, 0, 0, 0]);
    wanted.set_bytes(100, &[2]);
    wanted.set_bytes(103, &[1]);
    set_sum(&mut wanted, 255);
    assert!(rt; *block_of(it.volume.image(), 9)? == wanted);
    Ok(())
}

/// A Truncate takes no block, and is no query.
#[test]
fn a_cut_is_no_query(rt: HostRuntime) -> Result<(), Fail> {
    let request: Request = truncate(FIRST, 0);
    assert!(rt; request.as_query().is_none());
    ends_with(
        &rt,
        rt.alloc(),
        40,
        &[(request, Err(NoSuchFile))],
        (0, 18, 11),
    )
}
