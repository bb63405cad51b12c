//! The replies about single headers.
ghost use Rattle.std.specs.Prelude.{◌≤◌};

use super::broken::Broken;
use ods_cli::{ServeFault, header_run, sample};
use std::alloc::Global;
use std::process::Abort;
use std::test::Fail;

/// Fails where what is replied about this header of the image is another line, or is not said to be found or refused.
fn replied(rt: &impl Abort, alloc: Global, image: &[u8], number: u16, found: bool, reply: &str)
    requires some { 1 ≤ number }
    requires most { number ≤ 16 }
{
    let mut reader = image;
    let mut out = Vec::new(alloc);
    let answer = header_run(alloc, &mut reader, number, &mut out);
    assert!(rt;
        answer == Ok(found) && out.as_slice() == reply.as_bytes(),
        "{reply}"
    );
}

#[test]
fn headers_are_replied(rt: HostRuntime) -> Result<(), Fail> {
    let bytes = sample(rt.alloc(), 40)?;
    for (number, found, reply) in [
        (
            1,
            true,
            "HEADER 1,1 INDEXF.SYS;1 [1,1] 160000 000,000 segment 0 next 0,0 runs 0+19\n",
        ),
        (
            2,
            true,
            "HEADER 2,2 BITMAP.SYS;1 [1,1] 160000 000,000 segment 0 next 0,0 runs 19+2\n",
        ),
        (
            3,
            true,
            "HEADER 3,3 BADBLK.SYS;1 [1,1] 160000 000,000 segment 0 next 0,0 runs\n",
        ),
        (
            4,
            true,
            "HEADER 4,4 000000.DIR;1 [1,1] 160000 000,000 segment 0 next 0,0 runs 21+1\n",
        ),
        (6, false, "NO 11 WrongNumber\n"),
        (16, false, "NO 11 WrongNumber\n"),
    ] {
        replied(&rt, rt.alloc(), bytes.as_slice(), number, found, reply);
    }
    Ok(())
}

/// Too few bytes for a header.
#[test]
fn parts_are_replied(rt: HostRuntime) -> Result<(), Fail> {
    let bytes = sample(rt.alloc(), 40)?;
    for (length, reply) in [
        (0, "NO 15 NoHome\n"),
        (511, "NO 1 NotWholeBlocks\n"),
        (1024, "NO 11 WrongNumber\n"),
    ] {
        let part = bytes.as_slice().get(..length).ok_or("short")?;
        replied(&rt, rt.alloc(), part, 4, false, reply);
    }
    Ok(())
}

/// The bytes of the sample with another byte at a place.
fn spoiled(rt: &impl Abort, alloc: Global, at: usize, byte: u8) -> Result<Vec<u8>, Fail> {
    let mut bytes = sample(alloc, 40)?;
    assert!(rt; at < bytes.len());
    bytes[at] = byte;
    Ok(bytes)
}

#[test]
fn spoiled_bytes_are_replied(rt: HostRuntime) -> Result<(), Fail> {
    for (at, byte, reply) in [
        (512 + 58, 0, "NO 15 NoHome\n"),
        (512 * 6 + 12, 1, "NO 10 BadSum\n"),
    ] {
        let bytes = spoiled(&rt, rt.alloc(), at, byte)?;
        replied(&rt, rt.alloc(), bytes.as_slice(), 4, false, reply);
    }
    Ok(())
}

#[test]
fn reader_may_fail(rt: HostRuntime) {
    let mut out = Vec::new(rt.alloc());
    let ended = header_run(rt.alloc(), &mut Broken, 4, &mut out);
    assert!(rt; ended == Err(ServeFault::Read));
    assert!(rt; out.is_empty());
}

#[test]
fn writer_may_fail(rt: HostRuntime) -> Result<(), Fail> {
    let bytes = sample(rt.alloc(), 40)?;
    let ended = header_run(rt.alloc(), &mut bytes.as_slice(), 4, &mut Broken);
    assert!(rt; ended == Err(ServeFault::Write));
    // A writer without room takes 0 bytes.
    let mut none: [u8; 0] = [];
    let mut room = none.as_mut_slice();
    let ended = header_run(rt.alloc(), &mut bytes.as_slice(), 4, &mut room);
    assert!(rt; ended == Err(ServeFault::Write));
    Ok(())
}
