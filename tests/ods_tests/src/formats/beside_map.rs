//! Many random changes of a directory, beside a `BTreeMap`.
ghost use Rattle.std.specs.Prelude.{◌≢◌, ◌*◌, ◌<◌, ◌≤◌, vec_len};
ghost use Rattle.std.specs.Option.{ForSome};
ghost use Rattle.ods_directory.specs.Names.{IsDirectory};

use super::kept::{Kept, demand, put, zeroed};
use crate::dice::Dice;
use crate::persons::TXT;
use ods_base::{Block, FileId, Listed, Name, Pick};
use ods_directory::{DirFault, Slot, enter, entries, look_up, name_count, remove, slot_for};
use std::alloc::Global;
use std::collections::BTreeMap;
use std::process::Abort;
use std::test::Fail;

/// Versions and files by the first word of a name, as a map of std has them.
type Model = BTreeMap<(u16, u16), FileId>;

fn name_for(word: u16) -> Name
    requires { word < 64000 }
{
    Name::new([word, 0, 0], TXT)
}

/// The version of a name that the map has for a pick.
fn picked(model: &Model, word: u16, pick: Pick) -> Option<u16> {
    let mut versions = model.keys().filter(|key| key.0 == word).map(|key| key.1);
    match pick {
        Pick::Exact(exact) => versions.find(|version| *version == exact),
        Pick::Highest => versions.last(),
        Pick::Lowest => versions.next(),
    }
}

/// What the map answers to an Enter: the version that is entered.
fn version_for(model: &Model, word: u16, version: Option<u16>) -> Result<u16, DirFault> {
    match version {
        Some(exact) => match model.get(&(word, exact)) {
            Some(_) => Err(DirFault::NameTaken),
            None => Ok(exact),
        },
        None => match picked(model, word, Pick::Highest) {
            Some(32767) => Err(DirFault::VersionsFull),
            Some(highest) => Ok(highest.saturating_add(1)),
            None => Ok(1),
        },
    }
}

/// Puts an entry into its slot, for which the directory takes a block where it has none.
fn put_entry(rt: &impl Abort, kept: &mut Kept, slot: Slot, bytes: &[u8; 16]) -> Result<(), Fail> {
    if slot.grows {
        assert!(rt; kept.blocks.len() < 1000);
        kept.blocks.push(Block::zeros())?;
    }
    put(rt, kept, slot.at, bytes);
    Ok(())
}

/// Enters a name on both sides, and answers where the directory ends then.
fn enter_both(
    rt: &impl Abort,
    kept: &mut Kept,
    mark: u64,
    model: &mut Model,
    word: u16,
    version: Option<u16>,
    file: FileId,
) -> Result<u64, Fail>
    requires word { word < 64000 }
    requires directory { IsDirectory kept.old.blocks.items mark }
    requires mark { mark ≤ 512 * vec_len kept.old.blocks }
    requires version { ForSome version (λ v. (1 ≤ v) × (v ≤ 32767)) }
    requires file { file.number ≢ 0 }
{
    let wanted = version_for(model, word, version);
    let place = slot_for(kept, mark);
    match enter(kept, mark, &name_for(word), version, file) {
        Err(fault) => {
            assert!(rt; wanted == Err(fault), "{fault:?}");
            Ok(mark)
        }
        Ok(entered) => {
            assert!(rt; wanted == Ok(entered.0) && entered.1 == place);
            put_entry(rt, kept, place, &entered.2)?;
            model.insert((word, entered.0), file)?;
            Ok(place.mark)
        }
    }
}

/// Looks a name up on both sides, and removes it where asked.
fn find_both(
    rt: &impl Abort,
    kept: &mut Kept,
    mark: u64,
    model: &mut Model,
    word: u16,
    pick: Pick,
    removes: bool,
) -> Result<(), Fail>
    requires word { word < 64000 }
    requires directory { IsDirectory kept.old.blocks.items mark }
    requires mark { mark ≤ 512 * vec_len kept.old.blocks }
{
    let name = name_for(word);
    let found = look_up(kept, mark, &name, pick);
    let Some(version) = picked(model, word, pick) else {
        let removed = remove(kept, mark, &name, pick);
        assert!(rt; found == Err(DirFault::NoSuchName) && removed == Err(DirFault::NoSuchName));
        return Ok(());
    };
    let file = model
        .get(&(word, version))
        .copied()
        .expect(rt, "it is there");
    assert!(rt; found == Ok((file, version)));
    if removes {
        let (gone, which, at) = remove(kept, mark, &name, pick).expect(rt, "it is there");
        assert!(rt; gone == file && which == version);
        put(rt, kept, at, &[0; 16]);
        model.remove(&(word, version));
    }
    Ok(())
}

/// Compares all names.
fn compare(
    rt: &impl Abort,
    alloc: Global,
    kept: &Kept,
    mark: u64,
    model: &Model,
) -> Result<(), Fail>
    requires directory { IsDirectory kept.now.blocks.items mark }
    requires mark { mark ≤ 512 * vec_len kept.now.blocks }
{
    assert!(rt; name_count(kept, mark) == model.len() as u64);
    same_lines(rt, entries(alloc, kept, mark)?.as_slice(), model);
    Ok(())
}

/// The lines are those of the map.
fn same_lines(rt: &impl Abort, lines: &[Listed], model: &Model) {
    assert!(rt; lines.len() == model.len());
    for (line, (key, file)) in lines.iter().zip(model.iter()) {
        let found = (line.name.words()[0], line.version);
        assert!(rt; found == *key && line.file == *file, "{line:?}");
    }
}

/// A version.
fn some_version(dice: &mut Dice) -> u16
    ensures { (1 ≤ result) × (result ≤ 32767) }
{
    match dice.roll(40) {
        0 => 32767,
        other => other as u16,
    }
}

/// A pick.
fn some_pick(dice: &mut Dice, version: u16) -> Pick {
    match dice.roll(3) {
        0 => Pick::Exact(version),
        1 => Pick::Highest,
        _ => Pick::Lowest,
    }
}

/// A file.
fn some_file(dice: &mut Dice) -> FileId
    ensures { result.number ≢ 0 }
{
    FileId {
        number: 1 + dice.roll(60_000) as u16,
        sequence: dice.roll(60_000) as u16,
    }
}

/// Makes a random change, or looks, on both sides, and answers where the directory ends then.
fn change(
    rt: &impl Abort,
    alloc: Global,
    kept: &mut Kept,
    mark: u64,
    model: &mut Model,
    dice: &mut Dice,
) -> Result<u64, Fail> {
    demand(rt, alloc, kept, mark)?;
    let word = dice.roll(12) as u16 * 1600;
    let version = some_version(dice);
    let pick = some_pick(dice, version);
    match dice.roll(8) {
        0 => compare(rt, alloc, kept, mark, model)?,
        1 => find_both(rt, kept, mark, model, word, pick, false)?,
        2 | 3 | 4 => find_both(rt, kept, mark, model, word, pick, true)?,
        5 | 6 => return enter_both(rt, kept, mark, model, word, Some(version), some_file(dice)),
        _ => return enter_both(rt, kept, mark, model, word, None, some_file(dice)),
    }
    Ok(mark)
}

#[test]
fn beside_a_map(rt: HostRuntime) -> Result<(), Fail> {
    let mut dice = Dice::from(2026);
    let mut kept = zeroed(rt.alloc(), 0)?;
    let mut model = BTreeMap::new(rt.alloc());
    let mut mark = 0;
    for _ in 0..1200 {
        mark = change(&rt, rt.alloc(), &mut kept, mark, &mut model, &mut dice)?;
    }
    assert!(rt; model.len() > 30, "the directory grew");
    Ok(())
}
