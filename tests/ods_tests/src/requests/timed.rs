//! Loads of one kind of request, which `bench/measure requests` times: TRIALS says how many times 60 requests are made.
use super::random::times;
use super::rows::{
    create, dat, delete, enter, extend, id, letter, look, read, remove, sub_dir, write_a,
};
use super::trial::can_be_asked;
use crate::persons::{FIRST, TXT, USER, letter_a};
use crate::volumes::sample_of;
use ods_base::{FileId, Name, Pick};
use ods_mount::mount;
use ods_request::{Answer, Request};
use ods_volume::Volume;
use std::alloc::Global;
use std::process::Abort;
use std::rt::Env;
use std::test::Fail;

/// A volume of so many blocks with room for the longest list.
pub fn volume_of(alloc: Global, blocks: u32) -> Result<Volume, Fail> {
    let Ok(mounted) = mount(alloc, sample_of(blocks).image(alloc)?) else {
        return Err("a sound image, and memory".into());
    };
    let Ok(volume) = Volume::new(alloc, mounted, 65_536) else {
        return Err("memory for a volume".into());
    };
    Ok(volume)
}

/// Makes a request that is accepted.
pub fn accept(rt: &impl Abort, volume: &mut Volume, request: Request) -> Answer {
    assert!(rt; can_be_asked(&request));
    match volume.request(1, 1, USER, request) {
        Ok(answer) => answer,
        Err(refusal) => panic!(rt; "{request:?} was refused: {refusal:?}"),
    }
}

/// The file that a Create makes.
fn make(rt: &impl Abort, volume: &mut Volume, name: Name, blocks: u32) -> Result<FileId, Fail> {
    match accept(rt, volume, create(rt, name, blocks)) {
        Answer::Created(file) => Ok(file),
        _ => Err("no file".into()),
    }
}

/// Makes and deletes a file again and again.
fn make_and_delete(rt: &(impl Abort + Env), volume: &mut Volume) -> Result<(), Fail> {
    for _k in 0..30u32.saturating_mul(times(rt)) {
        let file = make(rt, volume, dat(b'X'), 1)?;
        accept(rt, volume, delete(file));
    }
    assert!(rt; volume.free_count() == 490);
    Ok(())
}

#[test]
fn creates_and_deletes(rt: HostRuntime) -> Result<(), Fail> {
    make_and_delete(&rt, &mut volume_of(rt.alloc(), 512)?)
}

/// Makes a file, extends it block by block, and deletes it.
fn extend_one(rt: &impl Abort, volume: &mut Volume) -> Result<(), Fail> {
    let file = make(rt, volume, dat(b'X'), 0)?;
    for _block in 0..58u32 {
        accept(rt, volume, extend(file, 1));
    }
    accept(rt, volume, delete(file));
    Ok(())
}

/// Extends a file block by block again and again.
fn extend_often(rt: &(impl Abort + Env), volume: &mut Volume) -> Result<(), Fail> {
    for _k in 0..times(rt) {
        extend_one(rt, volume)?;
    }
    assert!(rt; volume.number_count() == 11);
    Ok(())
}

#[test]
fn extends(rt: HostRuntime) -> Result<(), Fail> {
    extend_often(&rt, &mut volume_of(rt.alloc(), 4_200)?)
}

/// Writes blocks of a file, and reads each.
fn read_and_write(rt: &(impl Abort + Env), volume: &mut Volume) -> Result<(), Fail> {
    let file = make(rt, volume, dat(b'X'), 1_000)?;
    for k in 0..30u32.saturating_mul(times(rt)) {
        let vbn = 1 + k % 1_000;
        accept(rt, volume, write_a(file, vbn));
        let answer = accept(rt, volume, read(file, vbn));
        assert!(rt; answer == Answer::Bytes(letter_a()));
    }
    Ok(())
}

#[test]
fn reads_and_writes(rt: HostRuntime) -> Result<(), Fail> {
    read_and_write(&rt, &mut volume_of(rt.alloc(), 4_200)?)
}

/// A directory with so many versions of A.TXT: 32 of them in a block.
pub fn long_directory(rt: &impl Abort, volume: &mut Volume, names: u16) -> Result<FileId, Fail> {
    let dir = make(rt, volume, sub_dir(), 0)?;
    for version in 1..names.saturating_add(1) {
        let request = enter(dir, letter(1, TXT), Some(version), FIRST);
        accept(rt, volume, request);
    }
    Ok(dir)
}

/// Enters, looks up and removes a name behind all others.
fn name_often(rt: &(impl Abort + Env), volume: &mut Volume) -> Result<(), Fail> {
    let times = times(rt);
    let names = if times == 1 { 100 } else { 2_000 };
    let dir = long_directory(rt, volume, names)?;
    assert!(rt; dir == id(6, 1));
    for _k in 0..20u32.saturating_mul(times) {
        let name = letter(2, TXT);
        accept(rt, volume, enter(dir, name, None, dir));
        accept(rt, volume, look(dir, name, Pick::Highest));
        accept(rt, volume, remove(dir, name, Pick::Highest));
    }
    Ok(())
}

#[test]
fn names_of_a_long_directory(rt: HostRuntime) -> Result<(), Fail> {
    name_often(&rt, &mut volume_of(rt.alloc(), 4_200)?)
}
