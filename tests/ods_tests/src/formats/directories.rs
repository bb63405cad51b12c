//! Directories: worked entries and places, the sample's master directory, and a large one.
ghost use Rattle.std.specs.Prelude.{◌^◌, ◌*◌, ◌<◌};

use super::kept::{BITMAP_ENTRY, INDEXF_ENTRY, Kept, demand, put, zeroed};
use crate::persons::{FIRST, a_txt, reserved_id, reserved_lines, reserved_names};
use crate::volumes::{block_of, sample_of};
use ods_base::{Coded, Listed, Name, Pick};
use ods_directory::{
    DirFault, Slot, Verdict, check, enter, entries, look_up, mark_of, name_count, remove, slot_for,
    with_mark,
};
use std::alloc::Global;
use std::process::Abort;
use std::test::Fail;

/// A slot of a directory.
fn slot(at: u64, mark: u64, grows: bool) -> Slot {
    Slot { at, mark, grows }
}

/// So many blocks, with so many entries from the first one on.
fn used(rt: &impl Abort, alloc: Global, blocks: usize, entries: u8) -> Result<Kept, Fail>
    requires { blocks < 2 ^ 32 }
{
    let mut kept = zeroed(alloc, blocks)?;
    for k in 0..entries {
        let mut bytes = INDEXF_ENTRY;
        bytes[14] = k.wrapping_add(1);
        put(rt, &mut kept, 16 * u64::from(k), &bytes);
    }
    Ok(kept)
}

/// A.TXT is entered in this slot of a directory with so many names.
fn enters_at(
    rt: &impl Abort,
    alloc: Global,
    kept: &Kept,
    mark: u64,
    place: Slot,
) -> Result<(), Fail> {
    let wanted = [6, 0, 1, 0, 0, 0, 0x40, 6, 0, 0, 0, 0, 0xd4, 0x80, 1, 0];
    demand(rt, alloc, kept, mark)?;
    assert!(rt; slot_for(kept, mark) == place, "mark {mark}");
    let entered = enter(kept, mark, &a_txt(), None, FIRST);
    assert!(rt; entered == Ok((1, place, wanted)), "mark {mark}");
    Ok(())
}

/// So many names stand before the mark.
fn has_names(
    rt: &impl Abort,
    alloc: Global,
    kept: &Kept,
    mark: u64,
    names: u64,
) -> Result<(), Fail> {
    demand(rt, alloc, kept, mark)?;
    assert!(rt; name_count(kept, mark) == names, "mark {mark}");
    Ok(())
}

#[test]
fn places(rt: HostRuntime) -> Result<(), Fail> {
    // (blocks, entries that are used, mark, the slot)
    for (blocks, entries, mark, place) in [
        (0, 0, 0, slot(0, 16, true)),
        (1, 1, 20, slot(16, 32, false)),
        (1, 32, 512, slot(512, 528, true)),
        (1, 0, 0, slot(0, 16, false)),
        (2, 32, 528, slot(512, 528, false)),
    ] {
        let kept = used(&rt, rt.alloc(), blocks, entries)?;
        has_names(&rt, rt.alloc(), &kept, mark, u64::from(entries))?;
        enters_at(&rt, rt.alloc(), &kept, mark, place)?;
    }
    Ok(())
}

/// The mark of a directory of so many blocks is put into its attributes, at F.HIBK, F.EFBK and F.FFBY, and read again.
fn has_mark(rt: &impl Abort, mark: u64, blocks: u32, fields: [u8; 10])
    requires { mark < 512 * 4294967295 }
{
    let mut wanted = [7; 32];
    wanted[4..14].copy_from_slice(&fields);
    assert!(rt; with_mark([7; 32], mark, blocks) == wanted, "mark {mark}");
    assert!(rt; mark_of(&wanted, blocks) == mark, "mark {mark}");
}

#[test]
fn marks(rt: HostRuntime) {
    has_mark(&rt, 528, 2, [0, 0, 2, 0, 0, 0, 2, 0, 16, 0]);
    has_mark(&rt, 512, 1, [0, 0, 1, 0, 0, 0, 2, 0, 0, 0]);
    has_mark(&rt, 0, 3, [0, 0, 3, 0, 0, 0, 1, 0, 0, 0]);
    has_mark(
        &rt,
        512 * 65536 + 300,
        65537,
        [1, 0, 1, 0, 1, 0, 1, 0, 44, 1],
    );
}

/// Where F.EFBK is 0 the mark is 0, and no mark is past the mapped blocks.
#[test]
fn marks_that_are_read(rt: HostRuntime) {
    for (block, low, high, mark) in [(0, 0, 0, 0), (1, 80, 0, 80), (1, 0, 4, 512)] {
        let mut attributes = [0; 32];
        attributes[10] = block;
        attributes[12] = low;
        attributes[13] = high;
        assert!(rt; mark_of(&attributes, 1) == mark, "mark {mark}");
    }
}

/// The sample volume's master directory.
fn sample_master(alloc: Global) -> Result<Kept, Fail> {
    let image = sample_of(40).image(alloc)?;
    let blocks = vec![in alloc; *block_of(&image, 21)?; 1]?;
    Ok(Kept { blocks })
}

/// The line of one of its names.
fn reserved_line(name: Name, number: u16) -> Listed {
    Listed {
        name,
        version: 1,
        file: reserved_id(number),
    }
}

/// A name is found by each pick that has version 1.
fn finds(rt: &impl Abort, alloc: Global, kept: &Kept, line: &Listed) -> Result<(), Fail> {
    demand(rt, alloc, kept, 80)?;
    for pick in [Pick::Exact(1), Pick::Highest, Pick::Lowest] {
        let found = look_up(kept, 80, &line.name, pick);
        assert!(rt; found == Ok((line.file, 1)), "{line:?}");
    }
    let found = look_up(kept, 80, &line.name, Pick::Exact(2));
    assert!(rt; found == Err(DirFault::NoSuchName), "{line:?}");
    Ok(())
}

/// It is removed at the entry that its number says.
fn removes(rt: &impl Abort, alloc: Global, kept: &Kept, line: &Listed) -> Result<(), Fail> {
    demand(rt, alloc, kept, 80)?;
    let place = 16 * u64::from(line.file.number).saturating_sub(1);
    let removed = remove(kept, 80, &line.name, Pick::Highest);
    assert!(rt; removed == Ok((line.file, 1, place)), "{line:?}");
    Ok(())
}

/// The names of the directory, in their order.
fn lists(rt: &impl Abort, alloc: Global, kept: &Kept) -> Result<(), Fail> {
    demand(rt, alloc, kept, 80)?;
    let all = entries(alloc, kept, 80)?;
    assert!(rt; all.as_slice() == reserved_lines(alloc)?.names());
    Ok(())
}

#[test]
fn sample_directory(rt: HostRuntime) -> Result<(), Fail> {
    let kept = sample_master(rt.alloc())?;
    for (name, number) in reserved_names() {
        finds(&rt, rt.alloc(), &kept, &reserved_line(name, number))?;
        removes(&rt, rt.alloc(), &kept, &reserved_line(name, number))?;
    }
    has_names(&rt, rt.alloc(), &kept, 80, 5)?;
    lists(&rt, rt.alloc(), &kept)
}

/// Up to a mark the blocks are this.
fn is_judged(
    rt: &impl Abort,
    alloc: Global,
    kept: &Kept,
    mark: u64,
    wanted: Verdict,
) -> Result<(), Fail> {
    let verdict = check(alloc, kept, mark)?;
    assert!(rt; verdict == wanted, "{verdict:?} up to {mark}");
    Ok(())
}

/// The sample's directory with another byte in its second entry is this; it is good when that entry is empty, and up to a mark past
/// its blocks.
fn is_judged_with(
    rt: &impl Abort,
    alloc: Global,
    byte: usize,
    value: u8,
    wanted: Verdict,
) -> Result<(), Fail>
    requires { byte < 16 }
{
    let mut bytes = BITMAP_ENTRY;
    bytes[byte] = value;
    let mut kept = sample_master(alloc)?;
    put(rt, &mut kept, 16, &bytes);
    is_judged(rt, alloc, &kept, 80, wanted)?;
    bytes[0] = 0;
    put(rt, &mut kept, 16, &bytes);
    is_judged(rt, alloc, &kept, 80, Verdict::Good)?;
    is_judged(rt, alloc, &kept, u64::MAX, Verdict::Good)
}

#[test]
fn verdicts(rt: HostRuntime) -> Result<(), Fail> {
    // (byte of the second entry, its value, the verdict up to mark 80)
    for (byte, value, verdict) in [
        (4, 1, Verdict::BadEntry),
        (7, 0xfa, Verdict::BadEntry),
        (9, 0xfa, Verdict::BadEntry),
        (11, 0xfa, Verdict::BadEntry),
        (13, 0xfa, Verdict::BadEntry),
        (14, 0, Verdict::BadEntry),
        (15, 0x80, Verdict::BadEntry),
        (15, 0x7f, Verdict::Good),
    ] {
        is_judged_with(&rt, rt.alloc(), byte, value, verdict)?;
    }
    assert!(rt; Verdict::BadEntry.code() == 33 && Verdict::BadEntry.name() == "BadEntry");
    Ok(())
}

/// A part of an entry before the mark is none.
#[test]
fn entries_that_are_cut(rt: HostRuntime) -> Result<(), Fail> {
    let mut kept = sample_master(rt.alloc())?;
    let mut twin = INDEXF_ENTRY;
    twin[0] = 9;
    put(&rt, &mut kept, 80, &twin);
    is_judged(&rt, rt.alloc(), &kept, 95, Verdict::Good)?;
    is_judged(&rt, rt.alloc(), &kept, 96, Verdict::Twice)
}

/// The entry of file `number` with the first name word `word` and version 1.
fn entry_of(number: u16, word: u16) -> [u8; 16] {
    let [n0, n1] = number.to_le_bytes();
    let [w0, w1] = word.to_le_bytes();
    [n0, n1, 1, 0, 0, 0, w0, w1, 0, 0, 0, 0, 0xd4, 0x80, 1, 0]
}

/// The mark behind 60,000 entries.
const LARGE: u64 = 960_000;

/// Blocks with 60,000 entries.
fn large_directory(rt: &impl Abort, alloc: Global) -> Result<Kept, Fail> {
    let mut kept = zeroed(alloc, 1875)?;
    for k in 0..60_000u32 {
        let word = (k * 7919 % 60_000) as u16;
        put(rt, &mut kept, 16 * u64::from(k), &entry_of(word + 1, word));
    }
    Ok(kept)
}

/// The names come in their order, each with its file.
fn has_all_names(rt: &impl Abort, lines: &[Listed]) {
    assert!(rt; lines.len() == 60_000);
    for (k, line) in lines.iter().enumerate() {
        assert!(rt; usize::from(line.name.words()[0]) == k, "line {k}");
        assert!(rt; usize::from(line.file.number) == k + 1, "line {k}");
    }
}

/// The large directory has its names.
fn is_large(rt: &impl Abort, alloc: Global, kept: &Kept) -> Result<(), Fail> {
    demand(rt, alloc, kept, LARGE)?;
    assert!(rt; name_count(kept, LARGE) == 60_000);
    has_all_names(rt, entries(alloc, kept, LARGE)?.as_slice());
    Ok(())
}

#[test]
fn large(rt: HostRuntime) -> Result<(), Fail> {
    let kept = large_directory(&rt, rt.alloc())?;
    is_large(&rt, rt.alloc(), &kept)
}

#[test]
fn large_with_a_name_twice(rt: HostRuntime) -> Result<(), Fail> {
    let mut kept = large_directory(&rt, rt.alloc())?;
    put(&rt, &mut kept, 16 * 59_999, &entry_of(1, 0));
    is_judged(&rt, rt.alloc(), &kept, LARGE, Verdict::Twice)
}
