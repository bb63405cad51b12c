//! The replies about the sample volume cut short at each block, and with the sum of some headers broken.
ghost use Rattle.std.specs.Prelude.{◌<◌, ◌≤◌};

use super::check_runs::{checked, replies};
use crate::volumes::sample_of;
use ods_cli::sample;
use std::alloc::Global;
use std::process::Abort;
use std::sync::Wait;
use std::test::Fail;
use std::thread::Threads;

/// The replies that are right for the sample cut to so few blocks that a file maps one that is missing: how they may begin, one behind another.
fn cut_replies(blocks: usize) -> &'static str {
    match blocks {
        0 | 1 => "NO 15 NoHome\n",
        2 | 3 => "NO 50 BadIndex\n|NO 51 BadStorageMap\n|NO 52 BadMaster\n",
        4 => "NO 21 OutsideVolume 1 |NO 51 BadStorageMap\n|NO 52 BadMaster\n",
        5 | 6 => "NO 21 OutsideVolume 1 |NO 21 OutsideVolume 2 |NO 52 BadMaster\n",
        7..=18 => { "NO 21 OutsideVolume 1 |NO 21 OutsideVolume 2 |NO 21 OutsideVolume 4 " }
        19 | 20 => "NO 21 OutsideVolume 2 |NO 21 OutsideVolume 4 ",
        _ => "NO 21 OutsideVolume 4 21\n",
    }
}

/// The reply about the sample cut to so few blocks is one of those that are right.
fn is_cut<R: Abort + Threads + Wait + Sync>(
    rt: &R,
    alloc: Global,
    part: &[u8],
    blocks: usize,
) -> Result<(), Fail> {
    let (sound, text) = checked(rt, alloc, part)?;
    let is_right = cut_replies(blocks)
        .split('|')
        .any(|start| text.as_str().starts_with(start));
    assert!(rt; !sound && is_right, "{blocks} blocks: {text}");
    Ok(())
}

/// The sample cut to so many blocks is sound, and has what is free of them.
fn is_sound<R: Abort + Threads + Wait + Sync>(
    rt: &R,
    alloc: Global,
    part: &[u8],
    blocks: usize,
) -> Result<(), Fail>
    requires { 22 ≤ blocks }
{
    let free = blocks - 22;
    let reply = format!(in alloc; "free {free}\nnumbers 11\n")?;
    replies(rt, alloc, part, true, reply.as_str())
}

#[test]
fn cut_samples(rt: HostRuntime) -> Result<(), Fail> {
    let bytes = sample(rt.alloc(), 40)?;
    for blocks in 0..40 {
        let part = bytes.as_slice().get(..512 * blocks).ok_or("short")?;
        if blocks < 22 {
            is_cut(&rt, rt.alloc(), part, blocks)?;
        } else {
            is_sound(&rt, rt.alloc(), part, blocks)?;
        }
    }
    Ok(())
}

/// The reply about an image is one of these, one behind another.
fn is_replied<R: Abort + Threads + Wait + Sync>(
    rt: &R,
    alloc: Global,
    bytes: &[u8],
    replies: &str,
) -> Result<(), Fail> {
    let (_sound, text) = checked(rt, alloc, bytes)?;
    let is_right = replies.split('|').any(|reply| text.as_str() == reply);
    assert!(rt; is_right, "{text}");
    Ok(())
}

/// The sample with the last byte of a block changed, which in a header is of its sum.
fn with_another_end(rt: &impl Abort, alloc: Global, lbn: usize) -> Result<Vec<u8>, Fail>
    requires { lbn < 40 }
{
    let mut bytes = sample(alloc, 40)?;
    let at = 512 * lbn + 511;
    assert!(rt; at < bytes.len());
    bytes[at] ^= 1;
    Ok(bytes)
}

#[test]
fn changed_bytes_are_replied(rt: HostRuntime) -> Result<(), Fail> {
    for (lbn, replies) in [
        (1, "NO 15 NoHome\n"),
        (
            3,
            "NO 50 BadIndex\n|NO 51 BadStorageMap\n|NO 52 BadMaster\n",
        ),
        (4, "NO 51 BadStorageMap\n"),
        (5, "free 18\nnumbers 11\n"),
        (6, "NO 52 BadMaster\n"),
        (7, "free 18\nnumbers 11\n"),
    ] {
        let bytes = with_another_end(&rt, rt.alloc(), lbn)?;
        is_replied(&rt, rt.alloc(), &bytes, replies)?;
    }
    Ok(())
}
