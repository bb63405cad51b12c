//! Published sequences of Create, Extend and Delete.
use super::rows::{
    a_txt, big_dat, bytes, create, dat, delete, extend, id, made, made_stat, plain, read, set_user,
    shown, stat, write_a,
};
use super::trial::{
    Trial, ask, ask_quickly, ends_with, has_totals, on_sample, played, played_on, plays,
    same_catalogue, start,
};
use crate::contiguous::{contiguous_file, contiguous_stat};
use crate::persons::{FIRST, MASTER, PROTECTION, SECOND, USER, letter_a, other_attributes};
use crate::volumes::{Variant, block_of, bytes_at, run, sample_of};
use Refusal::{BadCount, HeadersFull, NoSuchBlock, NoSuchFile, Reserved, VolumeFull};
use ods_base::{Block, Image};
use ods_header::{Header, Run, read_header};
use ods_request::{Answer, Kind, Refusal, Stat};
use ods_space::locate;
use std::alloc::Global;
use std::process::Abort;
use std::test::Fail;

/// The fields of a header of an image whose headers 1 to 16 follow LBN 2.
pub fn header_of(image: &Image, number: u16) -> Result<Header, Fail> {
    let block = block_of(image, number as u32 + 2)?;
    match read_header(block, number) {
        Ok(header) => Ok(header),
        Err(_) => Err("no header".into()),
    }
}

#[test]
fn file_is_made_over_old_bytes(rt: HostRuntime) -> Result<(), Fail> {
    let rows = [
        (create(&rt, a_txt(), 3), made(6, 1)),
        (read(FIRST, 3), bytes(Block::zeros())),
        (read(FIRST, 0), Err(NoSuchBlock)),
        (read(FIRST, 4), Err(NoSuchBlock)),
        (stat(FIRST), shown(made_stat(FIRST, &a_txt(), plain(3)))),
    ];
    ends_with(&rt, rt.alloc(), 40, &rows, (3, 15, 10))
}

#[test]
fn number_comes_back_with_the_next_sequence(rt: HostRuntime) -> Result<(), Fail> {
    let rows = [
        (create(&rt, a_txt(), 1), made(6, 1)),
        (write_a(FIRST, 1), Ok(Answer::Done)),
        (read(FIRST, 1), bytes(letter_a())),
        (delete(FIRST), Ok(Answer::Done)),
        (create(&rt, a_txt(), 1), made(6, 2)),
        (read(FIRST, 1), Err(NoSuchFile)),
        (read(id(6, 2), 1), bytes(Block::zeros())),
    ];
    ends_with(&rt, rt.alloc(), 40, &rows, (6, 17, 10))
}

#[test]
fn volume_is_full(rt: HostRuntime) -> Result<(), Fail> {
    let rows = [
        (create(&rt, dat(b'B'), 18), made(6, 1)),
        (extend(FIRST, 1), Err(VolumeFull)),
        (read(FIRST, 18), bytes(Block::zeros())),
        (extend(FIRST, 0), Err(BadCount)),
        (extend(FIRST, 65_536), Err(BadCount)),
    ];
    ends_with(&rt, rt.alloc(), 40, &rows, (2, 0, 10))
}

/// Files take all numbers.
fn takes_numbers(rt: &impl Abort, alloc: Global, it: &mut Trial) -> Result<(), Fail> {
    for number in 6..17 {
        let request = create(rt, dat(b'B'), 0);
        ask(rt, alloc, it, USER, &request, &made(number, 1))?;
    }
    plays(
        rt,
        alloc,
        it,
        &[(create(rt, dat(b'B'), 0), Err(HeadersFull))],
    )?;
    has_totals(rt, it, (11, 18, 0));
    Ok(())
}

#[test]
fn index_is_full(rt: HostRuntime) -> Result<(), Fail> {
    let mut it = on_sample(&rt, rt.alloc(), 40)?;
    takes_numbers(&rt, rt.alloc(), &mut it)
}

/// FIRST and SECOND are extended in turn by a block, to so many.
fn grow_in_turn(rt: &impl Abort, it: &mut Trial, blocks: u32) -> Result<(), Fail> {
    let grown = Ok(Answer::Extended(blocks));
    ask_quickly(rt, it, USER, &extend(FIRST, 1), &grown)?;
    ask_quickly(rt, it, USER, &extend(SECOND, 1), &grown)
}

/// P.DAT and Q.DAT get 103 runs each, which are extended in turn.
fn scatter(rt: &impl Abort, alloc: Global, it: &mut Trial) -> Result<(), Fail> {
    for blocks in 1..104 {
        grow_in_turn(rt, it, blocks)?;
    }
    same_catalogue(rt, alloc, it)
}

/// The volume of 512 blocks with two files of 103 runs each, which were extended in turn.
pub fn two_in_turn(rt: &impl Abort, alloc: Global) -> Result<Trial, Fail> {
    let rows = [
        (create(rt, dat(b'P'), 0), made(6, 1)),
        (create(rt, dat(b'Q'), 0), made(7, 1)),
    ];
    let mut it = played(rt, alloc, 512, &rows)?;
    scatter(rt, alloc, &mut it)?;
    Ok(it)
}

/// One block for each run: the first, and each other one from there.
fn every_other(rt: &impl Abort, runs: &[Run], first: u32) {
    for (k, run) in runs.iter().enumerate() {
        let wanted = Run {
            lbn: first.wrapping_add((2 * (k % 1_000)) as u32),
            count: 1,
        };
        assert!(rt; *run == wanted, "run {k}");
    }
}

/// The first header leads to extension header `number`, and maps 102 blocks, the last of which is two before this one.
fn leads_on(rt: &impl Abort, first: &Header, number: u16, lbn: u32) {
    assert!(rt; first.next == id(number, 1));
    assert!(rt; first.runs().len() == 102);
    every_other(rt, first.runs().as_slice(), lbn.wrapping_sub(204));
}

/// The extension header has segment 1, no next one, and one block.
fn is_last(rt: &impl Abort, second: &Header, lbn: u32) {
    assert!(rt; second.segment == 1 && second.next == id(0, 0));
    assert!(rt; second.runs().len() == 1);
    every_other(rt, second.runs().as_slice(), lbn);
}

/// The extension header has the form of new headers, and has from the first what all headers of a file share.
fn has_its_form(rt: &impl Abort, first: &Header, second: &Header) {
    assert!(rt; second.ident_offset == 23 && second.map_offset == 46 && second.most_words == 204);
    assert!(rt; second.user_char == 0 && second.system_char == 0);
    assert!(rt; second.owner == first.owner && second.protection == first.protection);
    assert!(rt; second.ident == first.ident && second.attributes == [0; 32]);
}

/// The extension header `number` of this file: segment 1, with one block.
fn is_extension(
    rt: &impl Abort,
    image: &Image,
    number: u16,
    file: u16,
    lbn: u32,
) -> Result<(), Fail> {
    let first = header_of(image, file)?;
    let second = header_of(image, number)?;
    leads_on(rt, &first, number, lbn);
    is_last(rt, &second, lbn);
    has_its_form(rt, &first, &second);
    Ok(())
}

/// Both files have their last block, and an extension header.
pub fn are_extended(rt: &impl Abort, alloc: Global, it: &mut Trial) -> Result<(), Fail> {
    let rows = [
        (read(FIRST, 103), bytes(Block::zeros())),
        (read(SECOND, 103), bytes(Block::zeros())),
    ];
    plays(rt, alloc, it, &rows)?;
    has_totals(rt, it, (210, 284, 7));
    is_extension(rt, it.volume.image(), 8, 6, 226)?;
    is_extension(rt, it.volume.image(), 9, 7, 227)
}

#[test]
fn extension_headers_are_made(rt: HostRuntime) -> Result<(), Fail> {
    are_extended(&rt, rt.alloc(), &mut two_in_turn(&rt, rt.alloc())?)
}

/// Both files are deleted, and their four headers are given again.
fn gives_back(rt: &impl Abort, alloc: Global, it: &mut Trial) -> Result<(), Fail> {
    let deleted = [
        (delete(FIRST), Ok(Answer::Done)),
        (delete(SECOND), Ok(Answer::Done)),
    ];
    plays(rt, alloc, it, &deleted)?;
    has_totals(rt, it, (210, 490, 11));
    for number in 6..9 {
        let request = create(rt, dat(b'R'), 0);
        ask(rt, alloc, it, USER, &request, &made(number, 2))?;
    }
    has_totals(rt, it, (213, 490, 8));
    Ok(())
}

#[test]
fn extension_headers_are_given_back(rt: HostRuntime) -> Result<(), Fail> {
    gives_back(&rt, rt.alloc(), &mut two_in_turn(&rt, rt.alloc())?)
}

/// FIRST gets a block more, so that it has so many, and it is written; so is the block of SECOND.
fn append_block(rt: &impl Abort, it: &mut Trial, blocks: u32) -> Result<(), Fail> {
    let grown = Ok(Answer::Extended(blocks));
    ask_quickly(rt, it, USER, &extend(FIRST, 1), &grown)?;
    ask_quickly(rt, it, USER, &write_a(FIRST, blocks), &Ok(Answer::Done))?;
    ask_quickly(rt, it, USER, &write_a(SECOND, 1), &Ok(Answer::Done))
}

/// P.DAT has 104 blocks in two headers, and both files have what was written.
fn is_appended(rt: &impl Abort, alloc: Global, it: &mut Trial) -> Result<(), Fail> {
    same_catalogue(rt, alloc, it)?;
    has_totals(rt, it, (314, 385, 8));
    let rows = [
        (read(FIRST, 1), bytes(letter_a())),
        (read(FIRST, 104), bytes(letter_a())),
        (read(SECOND, 1), bytes(letter_a())),
    ];
    plays(rt, alloc, it, &rows)?;
    let first = header_of(it.volume.image(), 6)?;
    assert!(rt; first.next == id(8, 1) && first.runs().len() == 102);
    let second = header_of(it.volume.image(), 8)?;
    assert!(rt; second.next == id(0, 0) && second.runs().len() == 2);
    Ok(())
}

/// A file grows by a block at a time, and is written between: no Write moves where its chain ends.
#[test]
fn blocks_are_appended_and_written(rt: HostRuntime) -> Result<(), Fail> {
    let rows = [
        (create(&rt, dat(b'P'), 0), made(6, 1)),
        (create(&rt, dat(b'Q'), 1), made(7, 1)),
    ];
    let mut it = played(&rt, rt.alloc(), 512, &rows)?;
    for blocks in 1..105 {
        append_block(&rt, &mut it, blocks)?;
    }
    is_appended(&rt, rt.alloc(), &mut it)
}

/// What is shown of C.DAT when it has two blocks: it is contiguous no more.
fn grown_stat(attributes: [u8; 32]) -> Stat {
    let mut stat = contiguous_stat(attributes);
    stat.user_char = 0;
    stat.kind = Kind::Plain {
        blocks: 2,
        attributes,
    };
    stat
}

/// C.DAT is extended, and its attributes are set.
#[test]
fn contiguous_file_is_extended(rt: HostRuntime) -> Result<(), Fail> {
    let other = other_attributes();
    let rows = [
        (stat(FIRST), shown(contiguous_stat([0; 32]))),
        (extend(FIRST, 1), Ok(Answer::Extended(2))),
        (set_user(FIRST, other), Ok(Answer::Done)),
        (stat(FIRST), shown(grown_stat(other))),
    ];
    let image = contiguous_file(rt.alloc(), PROTECTION)?;
    has_totals(&rt, &played_on(&rt, rt.alloc(), image, &rows)?, (4, 16, 10));
    Ok(())
}

/// The runs of BIG.DAT of 300 blocks, and where its second one begins.
fn has_two_runs(rt: &impl Abort, it: &Trial) -> Result<(), Fail> {
    let header = header_of(it.volume.image(), 6)?;
    let wanted = [run(22, 256), run(278, 44)];
    assert!(rt; header.runs().as_slice() == wanted.as_slice());
    let disk = it.volume.disk();
    assert!(rt; locate(&disk, 6, 257) == Some(278));
    has_totals(rt, it, (1, 190, 10));
    Ok(())
}

#[test]
fn long_file_is_two_runs(rt: HostRuntime) -> Result<(), Fail> {
    let rows = [(create(&rt, big_dat(), 300), made(6, 1))];
    has_two_runs(&rt, &played(&rt, rt.alloc(), 512, &rows)?)
}

/// The sample volume of 40 blocks whose header 6 has this sequence word.
fn worn(alloc: Global, low: u8, high: u8) -> Result<Image, Fail> {
    Variant {
        bytes: &bytes_at(8, 4, &[low, high]),
        ..sample_of(40)
    }
    .image(alloc)
}

/// Number 6 is not free, and a new file gets number 7.
fn passes_over(rt: &impl Abort, alloc: Global, it: &mut Trial) -> Result<(), Fail> {
    has_totals(rt, it, (0, 18, 10));
    plays(rt, alloc, it, &[(create(rt, a_txt(), 0), made(7, 1))])
}

#[test]
fn last_sequence_is_passed_over(rt: HostRuntime) -> Result<(), Fail> {
    let image = worn(rt.alloc(), 0xff, 0xff)?;
    passes_over(&rt, rt.alloc(), &mut start(&rt, rt.alloc(), image, 4)?)
}

/// Number 6 is given with the last sequence number, and then never again.
#[test]
fn last_sequence_is_given_once(rt: HostRuntime) -> Result<(), Fail> {
    let rows = [
        (create(&rt, a_txt(), 0), made(6, 65_535)),
        (delete(id(6, 65_535)), Ok(Answer::Done)),
        (create(&rt, a_txt(), 0), made(7, 1)),
    ];
    let it = played_on(&rt, rt.alloc(), worn(rt.alloc(), 0xfe, 0xff)?, &rows)?;
    has_totals(&rt, &it, (3, 18, 9));
    Ok(())
}

/// What is refused changes nothing.
#[test]
fn reserved_files_stay(rt: HostRuntime) -> Result<(), Fail> {
    let rows = [
        (delete(MASTER), Err(Reserved)),
        (extend(MASTER, 1), Err(Reserved)),
        (create(&rt, a_txt(), 65_536), Err(BadCount)),
    ];
    ends_with(&rt, rt.alloc(), 40, &rows, (0, 18, 11))
}
