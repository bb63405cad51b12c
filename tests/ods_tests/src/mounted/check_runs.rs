//! Runs of no script, over whole images: bytes that are none, and devices that fail.
use super::broken::Broken;
use crate::volumes::{Variant, sample_of};
use ods_cli::{Options, ServeFault, serve};
use ods_request::Stamp;
use ods_share::Gate;
use std::alloc::Global;
use std::io::{Read, Write};
use std::process::Abort;
use std::sync::Wait;
use std::test::Fail;
use std::thread::Threads;

/// Keeps nobody, since no script has a session.
#[derive(Drop)]
pub struct NoGate;

impl Gate for NoGate {
    fn before(&self, _session: u16, _nth: u32) {}

    fn held(&self, _session: u16, _nth: u32) {}

    fn after(&self, _session: u16, _nth: u32) {}
}

/// How a run of no script ends: how many requests were accepted, or why there is no report.
fn run_of_none<I: Read, W: Write, R: Threads + Wait + Sync>(
    rt: &R,
    alloc: Global,
    image: &mut I,
    replies: &mut W,
) -> Result<Result<u32, ServeFault>, Fail> {
    let stamp = Stamp::parse(b"01JAN90120000").ok_or("a stamp")?;
    let mut out: Option<Vec<u8>> = None;
    let options = Options { limit: 1, stamp };
    match serve(rt, alloc, image, &[], replies, &mut out, options, &NoGate) {
        Ok(report) => Ok(Ok(report.entries)),
        Err(fault) => Ok(Err(fault)),
    }
}

/// What is printed about an image, and whether it is sound. The line about the list, in which nothing is, is left out.
pub fn checked<R: Threads + Wait + Sync>(
    rt: &R,
    alloc: Global,
    bytes: &[u8],
) -> Result<(bool, String), Fail> {
    let mut reader = bytes;
    let mut replies = Vec::new(alloc);
    let sound = run_of_none(rt, alloc, &mut reader, &mut replies)? == Ok(0);
    let text = if sound {
        replies
            .as_slice()
            .strip_prefix(b"list 0\n")
            .ok_or("a list")?
    } else {
        replies.as_slice()
    };
    Ok((sound, String::from_utf8_lossy(alloc, text)?))
}

/// This is printed about an image, which is found to be sound or not.
pub fn replies<R: Threads + Wait + Sync + Abort>(
    rt: &R,
    alloc: Global,
    bytes: &[u8],
    is_sound: bool,
    wanted: &str,
) -> Result<(), Fail> {
    let (sound, text) = checked(rt, alloc, bytes)?;
    assert!(rt; sound == is_sound && text.as_str() == wanted, "{text}");
    Ok(())
}

#[test]
fn bytes_that_are_no_image(rt: HostRuntime) -> Result<(), Fail> {
    let bytes = sample_of(40).image_bytes(rt.alloc())?;
    for (length, reply) in [(0, "NO 15 NoHome\n"), (511, "NO 1 NotWholeBlocks\n")] {
        let part = bytes.as_slice().get(..length).ok_or("short")?;
        replies(&rt, rt.alloc(), part, false, reply)?;
    }
    Ok(())
}

#[test]
fn images_without_a_home(rt: HostRuntime) -> Result<(), Fail> {
    for (at, byte) in [(58, 0x16), (510, 0x91)] {
        let spoiled = Variant {
            bytes: &[(1, at, byte)],
            ..sample_of(40)
        };
        let bytes = spoiled.image_bytes(rt.alloc())?;
        replies(&rt, rt.alloc(), &bytes, false, "NO 15 NoHome\n")?;
    }
    Ok(())
}

#[test]
fn reader_may_fail(rt: HostRuntime) -> Result<(), Fail> {
    let mut replies = Vec::new(rt.alloc());
    let ended = run_of_none(&rt, rt.alloc(), &mut Broken, &mut replies)?;
    assert!(rt; ended == Err(ServeFault::Read));
    assert!(rt; replies.is_empty());
    Ok(())
}

#[test]
fn writer_may_fail(rt: HostRuntime) -> Result<(), Fail> {
    let bytes = sample_of(40).image_bytes(rt.alloc())?;
    let ended = run_of_none(&rt, rt.alloc(), &mut bytes.as_slice(), &mut Broken)?;
    assert!(rt; ended == Err(ServeFault::Write));
    // A writer with room for 9 bytes takes the first 9.
    let mut room = [0u8; 9];
    let mut writer = room.as_mut_slice();
    let ended = run_of_none(&rt, rt.alloc(), &mut bytes.as_slice(), &mut writer)?;
    assert!(rt; ended == Err(ServeFault::Write));
    assert!(rt; room == *b"list 0\nfr");
    Ok(())
}
