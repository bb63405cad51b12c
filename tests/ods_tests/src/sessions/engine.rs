//! The engine: a script is served on the sample volume, and what goes out.
use super::runs::{Open, stamp};
use crate::volumes::sample_of;
use ods_cli::{Options, ServeFault, read_script, serve};
use std::alloc::Global;
use std::io::{Read, Write};
use std::sync::Wait;
use std::test::Fail;
use std::thread::Threads;

/// How a run ends that serves this script on what the reader gives: how many requests were accepted, or why there is no report.
fn run_script<I: Read, W: Write, R: Threads + Wait + Sync>(
    rt: &R,
    alloc: Global,
    image: &mut I,
    text: &[u8],
    replies: &mut W,
    out: &mut Option<Vec<u8>>,
) -> Result<Result<u32, ServeFault>, Fail> {
    let mut reader = text;
    let Ok(script) = read_script(alloc, &mut reader) else {
        return Err("a script".into());
    };
    let options = Options {
        limit: 5,
        stamp: stamp()?,
    };
    let scripts = [script];
    match serve(
        rt,
        alloc,
        image,
        scripts.as_slice(),
        replies,
        out,
        options,
        &Open,
    ) {
        Ok(report) => Ok(Ok(report.entries)),
        Err(fault) => Ok(Err(fault)),
    }
}

/// One script, and what is printed of it: each printed form once.
const SCRIPT: &[u8] = b"STAT 1,1
STAT 4,4

LIST 4,4
READ $ 1
LOOK 4,4 INDEXF.SYS
READ 3,3 1
READ $ 1
REMOVE 4,4 CORIMG.SYS;-1
VIEW STAT 1,1
STAT 4,4 
USER [20,10]
LIST 3,3
STAT 9,1
STAT 5,5";

const PRINTED: &str = "session 1
OK 1,1 INDEXF.SYS;1 [1,1] 160000 000,000 SYSTEM
OK 4,4 000000.DIR;1 [1,1] 160000 000,000 DIRECTORY 5
OK 5
BADBLK.SYS;1 3,3
BITMAP.SYS;1 2,2
CORIMG.SYS;1 5,5
INDEXF.SYS;1 1,1
000000.DIR;1 4,4
BAD 5
OK 1,1 INDEXF.SYS;1
NO 46 NoSuchBlock
NO 41 Reserved
OK 5,5 CORIMG.SYS;1
OK 1,1 INDEXF.SYS;1 [1,1] 160000 000,000 SYSTEM
BAD 11
OK
NO 48 ListFull
NO 48 ListFull
NO 48 ListFull
list 5
free 18
numbers 11
";

#[test]
fn a_script_is_served(rt: HostRuntime) -> Result<(), Fail> {
    let alloc = rt.alloc();
    let image = sample_of(40).image_bytes(alloc)?;
    let mut replies = Vec::new(alloc);
    let mut out = Some(Vec::new(alloc));
    let ended = run_script(
        &rt,
        alloc,
        &mut image.as_slice(),
        SCRIPT,
        &mut replies,
        &mut out,
    )?;
    let printed = String::from_utf8_lossy(alloc, &replies)?;
    assert!(rt; printed.as_str() == PRINTED, "{printed}");
    assert_eq!(rt; ended, Ok(5));
    // The entry of CORIMG.SYS is gone from the master directory, and no other byte changed.
    let Some(written) = out else {
        return Err("an image".into());
    };
    assert_eq!(rt; written.len(), image.len());
    for (at, (now, was)) in written.iter().zip(image.iter()).enumerate() {
        let wanted = if 21 * 512 + 64 <= at && at < 21 * 512 + 80 {
            0
        } else {
            *was
        };
        assert!(rt; *now == wanted, "byte {at}");
    }
    Ok(())
}

#[test]
fn a_refused_image_is_not_served(rt: HostRuntime) -> Result<(), Fail> {
    let alloc = rt.alloc();
    let image = sample_of(40).image_bytes(alloc)?;
    let part = image.as_slice().get(..511).ok_or("short")?;
    let mut replies = Vec::new(alloc);
    let mut out = Some(Vec::new(alloc));
    let ended = run_script(&rt, alloc, &mut &part[..], SCRIPT, &mut replies, &mut out)?;
    assert_eq!(rt; ended, Err(ServeFault::Refused(1)));
    assert_eq!(rt; replies.as_slice(), b"NO 1 NotWholeBlocks\n".as_slice());
    assert!(rt; matches!(&out, Some(written) if written.is_empty()));
    Ok(())
}

#[test]
fn devices_may_fail(rt: HostRuntime) -> Result<(), Fail> {
    let alloc = rt.alloc();
    let image = sample_of(40).image_bytes(alloc)?;
    let mut out = Some(Vec::new(alloc));
    // A writer with room for 9 bytes takes the first 9, and no image is written.
    let mut room = [0u8; 9];
    let ended = run_script(
        &rt,
        alloc,
        &mut image.as_slice(),
        SCRIPT,
        &mut room.as_mut_slice(),
        &mut out,
    )?;
    assert_eq!(rt; ended, Err(ServeFault::Write));
    assert!(rt; room == *b"session 1");
    assert!(rt; matches!(&out, Some(written) if written.is_empty()));
    Ok(())
}
