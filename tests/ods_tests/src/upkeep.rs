//! What put, cp, mv, rm, mkdir, rmdir and truncate do on a sample volume: what is shown of it then, that it is sound, and each refusal.
mod copies;
mod directories;
mod ends;
mod long_records;
mod moves;
mod purges;
mod puts;
mod removals;

use crate::persons::USER;
use ods_base::{Image, Uic};
use ods_cli::sample;
use ods_filing::Filing;
use ods_mount::{Mounted, check_image, mount};
use ods_request::Stamp;
use ods_shell::mounted::{find_path, open_contents};
use ods_shell::{Alone, Found, Unsaid, Wanted};
use ods_upkeep::{Failure, HostFile, Placing, PutForm, Putting, Removal, Why};
use std::alloc::Global;
use std::process::Abort;
use std::test::Fail;

/// Who asks, and when.
#[derive(Clone, Copy)]
struct Asker {
    user: Uic,
    stamp: Stamp,
}

/// This user.
fn asked_by(user: Uic) -> Result<Asker, Fail> {
    let stamp = Stamp::parse(b"01JAN80103000").ok_or("a stamp")?;
    Ok(Asker { user, stamp })
}

/// As the owner of the sample's files.
fn asked() -> Result<Asker, Fail> {
    asked_by(USER)
}

/// The sample volume of so many blocks.
fn volume_of(alloc: Global, blocks: u32) -> Result<Mounted, Fail> {
    let bytes = sample(alloc, blocks)?;
    let image = Image::from_bytes(alloc, &bytes).ok().ok_or("an image")?;
    mount(alloc, image).ok().ok_or("sound").map_err(Fail::from)
}

/// The volume, where the command was done, and its image is sound.
fn done(alloc: Global, outcome: Result<Mounted, Failure>) -> Result<Mounted, Fail> {
    let volume = match outcome {
        Ok(volume) => volume,
        Err(_) => return Err(Fail::from("refused")),
    };
    check_image(alloc, volume.image()).ok().ok_or("unsound")?;
    Ok(volume)
}

/// Whether the command was refused so, for this path.
fn is_refused<T: Drop>(outcome: Result<T, Failure>, path: &str, why: Why) -> bool {
    match outcome {
        Ok(_) => false,
        Err(failure) => failure.path.as_str() == path && failure.why == why,
    }
}

/// Puts one file, and remarks nothing.
fn put(
    alloc: Global,
    volume: Mounted,
    to: &str,
    name: &str,
    bytes: &[u8],
) -> Result<Mounted, Fail> {
    done(
        alloc,
        try_put(
            alloc,
            volume,
            Some(to),
            name,
            bytes,
            PutForm::ByContents,
            None,
            false,
        ),
    )
}

/// Puts one file.
fn try_put(
    alloc: Global,
    volume: Mounted,
    to: Option<&str>,
    name: &str,
    bytes: &[u8],
    form: PutForm,
    like: Option<&str>,
    replace: bool,
) -> Result<Mounted, Failure> {
    let asked = match asked() {
        Ok(asked) => asked,
        Err(_) => unreachable!(),
    };
    let mut filing = filing_for(alloc, volume, asked.user);
    let mut putting = Putting::begin(
        alloc,
        filing.mounted(),
        asked.stamp,
        to,
        false,
        form,
        like,
        None,
        replace,
        None,
    )?;
    putting.put(alloc, &mut filing, &HostFile { name, bytes })?;
    Ok(filing.into_mounted())
}

/// The volume, for requests of this user.
fn filing_for(alloc: Global, volume: Mounted, user: Uic) -> Filing {
    match Filing::new(alloc, volume, user) {
        Ok(filing) => filing,
        Err(_) => unreachable!(),
    }
}

/// What `cp` makes of the volume.
fn copy_files(
    alloc: Global,
    volume: Mounted,
    asked: &Asker,
    paths: &[&str],
    to: &str,
) -> Result<Mounted, Failure> {
    let mut filing = filing_for(alloc, volume, asked.user);
    ods_upkeep::copy_files(
        alloc,
        &mut filing,
        asked.stamp,
        Placing::Anywhere,
        paths,
        to,
    )?;
    Ok(filing.into_mounted())
}

/// What `mv` makes of the volume.
fn move_names(
    alloc: Global,
    volume: Mounted,
    asked: &Asker,
    paths: &[&str],
    to: &str,
) -> Result<Mounted, Failure> {
    let mut filing = filing_for(alloc, volume, asked.user);
    ods_upkeep::move_names(alloc, &mut filing, paths, to)?;
    Ok(filing.into_mounted())
}

/// What `rm` makes of the volume.
fn remove_files(
    alloc: Global,
    volume: Mounted,
    asked: &Asker,
    paths: &[&str],
    removal: Removal,
) -> Result<Mounted, Failure> {
    let mut filing = filing_for(alloc, volume, asked.user);
    ods_upkeep::remove_files(alloc, &mut filing, paths, removal)?;
    Ok(filing.into_mounted())
}

/// What `purge` makes of the volume.
fn purge_files(
    alloc: Global,
    volume: Mounted,
    asked: &Asker,
    paths: &[&str],
    keep: u32,
) -> Result<Mounted, Failure> {
    let mut filing = filing_for(alloc, volume, asked.user);
    ods_upkeep::purge_files(alloc, &mut filing, paths, keep)?;
    Ok(filing.into_mounted())
}

/// What `mkdir` makes of the volume.
fn make_directories(
    alloc: Global,
    volume: Mounted,
    asked: &Asker,
    paths: &[&str],
    names: u32,
    owner: Option<Uic>,
) -> Result<Mounted, Failure> {
    let mut filing = filing_for(alloc, volume, asked.user);
    ods_upkeep::make_directories(alloc, &mut filing, asked.stamp, paths, names, owner)?;
    Ok(filing.into_mounted())
}

/// What `rmdir` makes of the volume.
fn remove_directories(
    alloc: Global,
    volume: Mounted,
    asked: &Asker,
    paths: &[&str],
) -> Result<Mounted, Failure> {
    let mut filing = filing_for(alloc, volume, asked.user);
    ods_upkeep::remove_directories(alloc, &mut filing, paths)?;
    Ok(filing.into_mounted())
}

/// What `truncate` makes of the volume.
fn truncate_file(
    alloc: Global,
    volume: Mounted,
    asked: &Asker,
    path: &str,
    bytes: u64,
) -> Result<Mounted, Failure> {
    let mut filing = filing_for(alloc, volume, asked.user);
    ods_upkeep::truncate_file(alloc, &mut filing, path, bytes)?;
    Ok(filing.into_mounted())
}

/// The paths that a path finds, with a space behind each; nothing where it finds none.
fn paths(alloc: Global, volume: &Mounted, path: &str) -> Result<String, Fail> {
    let mut text = String::new(alloc);
    if let Ok((found, _)) = find_path(
        alloc,
        volume,
        path,
        Unsaid::highest(Alone::Themselves),
        &[],
    ) {
        for one in &found {
            text.push_str(one.path.as_str())?;
            text.push(' ')?;
        }
    }
    Ok(text)
}

/// The one file of a path.
fn the(alloc: Global, volume: &Mounted, path: &str) -> Result<Found, Fail> {
    let (mut found, _) = find_path(alloc, volume, path, Unsaid::highest(Alone::Themselves), &[])
        .ok()
        .ok_or("nothing there")?;
    found.pop().ok_or("none").map_err(Fail::from)
}

/// The bytes that are got out of a file.
fn bytes_of(alloc: Global, volume: &Mounted, path: &str, wanted: Wanted) -> Result<Vec<u8>, Fail> {
    let found = the(alloc, volume, path)?;
    let facts = found.facts.ok_or("no file")?;
    let got = open_contents(alloc, volume, facts.file.number, wanted)
        .ok()
        .ok_or("contents")?;
    let mut bytes = Vec::new(alloc);
    got.contents.write_to(&mut bytes).ok().ok_or("written")?;
    Ok(bytes)
}

/// Whether these bytes are got out of a file.
fn has(alloc: Global, volume: &Mounted, path: &str, bytes: &[u8]) -> Result<bool, Fail> {
    let got = bytes_of(alloc, volume, path, Wanted::ByKind)?;
    Ok(got.as_slice() == bytes)
}
