//! Loads of views, which `bench/measure views` times: viewers look at a volume while one more thread writes, and one viewer beside looks with no
//! viewer. TRIALS says how many times 100 looks each makes, and VIEWERS how many viewers there are. What was timed is printed where TRIALS is set.
ghost use Rattle.std.specs.Prelude.{◌≡◌, ◌≤◌};

use super::requests::{block_viewed, block_written};
use super::runs::two_file_volume;
use crate::persons::USER;
use crate::settings::number_of;
use ods_request::Answer;
use ods_share::{Desk, Naming, Viewer};
use ods_volume::{Volume, look};
use std::alloc::{AllocError, Global};
use std::marker::Brand;
use std::rt::Env;
use std::sync::Wait;
use std::sync::atomic::{AtomicBool, Ordering};
use std::test::Fail;
use std::thread;
use std::thread::Threads;
use std::time::{Clock, Duration, Instant};

/// How often each looks for one of TRIALS.
const LOOKS: u32 = 100;

/// How many microseconds the writer rests after each request: its list has room for 65,536.
const REST: u64 = 20;

/// How many of so many looks at the volume in hand show a block.
fn looks(volume: &Volume, count: u32) -> u32 {
    let disk = volume.disk();
    let mut shown = 0u32;
    for _k in 0..count {
        if let Ok(Answer::Bytes(_)) = look(&disk, USER, block_viewed()) {
            shown = shown.wrapping_add(1);
        }
    }
    shown
}

/// How many of so many views show a block.
fn views<J: Naming>(viewer: Viewer<J>, count: u32) -> u32 {
    let mut viewer = viewer;
    let mut shown = 0u32;
    for _k in 0..count {
        if let Ok(Answer::Bytes(_)) = viewer.ask(USER, block_viewed()) {
            shown = shown.wrapping_add(1);
        }
    }
    shown
}

/// Writes until the viewers are done.
fn writes<J: Naming, R: Clock + Wait>(rt: &R, desk: &mut Desk<J>, done: &AtomicBool) {
    for _ in rt.forever() {
        if done.load(Ordering::SeqCst) {
            break;
        }
        let _ = desk.submit(rt, 1, 1, USER, block_written(1));
        thread::sleep(rt, Duration::from_micros(REST));
    }
}

/// How many views were answered, how long it took, and how many requests were made beside them.
#[derive(Drop)]
struct Timed {
    shown: u32,
    spent: Duration,
    written: usize,
}

/// Lets so many viewers look, each so often, while one more thread writes.
fn beside_a_writer<J: Naming + Send + Sync, R: Clock + Threads + Wait + Sync>(
    rt: &R,
    alloc: Global,
    volume: Volume,
    viewers: usize,
    count: u32,
) -> Result<Timed, Fail>
    requires low { 1 ≤ viewers }
    requires high { viewers ≤ 8 }
    requires mounted { volume.mounted ≡ J.mounted }
    requires opening { volume.entries ≡ J.opening }
    requires limit { volume.limit ≡ J.limit }
{
    let begun = Instant::now(rt)?;
    let Ok((mut desk, viewers)) = Desk::<J>::new(rt, alloc, volume, viewers) else {
        return Err("memory for a desk".into());
    };
    let done = AtomicBool::new(false);
    let ((shown, spent), _) = thread::join(
        rt,
        || {
            let shown: Result<Vec<u32>, AllocError> = thread::map_vec(
                rt,
                viewers,
                &|viewer| views(viewer, count),
            );
            let spent = begun.elapsed(rt);
            done.store(true, Ordering::SeqCst);
            (shown, spent)
        },
        || writes(rt, &mut desk, &done),
    );
    let volume = desk.close(rt);
    let mut all = 0u32;
    for one in shown? {
        all = all.wrapping_add(one);
    }
    Ok(Timed {
        shown: all,
        spent: spent?,
        written: volume.entries().len(),
    })
}

/// How many looks each makes, and whether what is timed is printed.
fn load(rt: &impl Env) -> (u32, bool) {
    match number_of(rt, "TRIALS") {
        Some(trials) => (LOOKS.saturating_mul(trials), true),
        None => (LOOKS, false),
    }
}

#[test]
fn views_beside_a_writer(rt: HostRuntime) -> Result<(), Fail> {
    let alloc = rt.alloc();
    let (count, is_timed) = load(&rt);
    let viewers = number_of(&rt, "VIEWERS").unwrap_or(2).clamp(1, 8);
    let volume = two_file_volume(&rt, alloc, 65_536)?;
    let timed = beside_a_writer::<Brand, _>(&rt, alloc, volume, viewers as usize, count)?;
    assert!(rt; timed.shown == viewers.saturating_mul(count));
    if is_timed {
        let Timed {
            shown,
            spent,
            written,
        } = timed;
        let spent = spent.as_micros();
        println!(rt; "{shown} views, {spent} microseconds, {written} writes")?;
    }
    Ok(())
}

/// How many of so many views show a block where nobody else is at the desk.
fn alone<J: Naming, R: Wait>(rt: &R, alloc: Global, volume: Volume, count: u32) -> Result<u32, Fail>
    requires mounted { volume.mounted ≡ J.mounted }
    requires opening { volume.entries ≡ J.opening }
    requires limit { volume.limit ≡ J.limit }
{
    let Ok((desk, mut viewers)) = Desk::<J>::new(rt, alloc, volume, 1) else {
        return Err("memory for a desk".into());
    };
    let shown = match viewers.pop() {
        Some(viewer) => views(viewer, count),
        None => 0,
    };
    desk.close(rt);
    Ok(shown)
}

#[test]
fn a_view_beside_a_look(rt: HostRuntime) -> Result<(), Fail> {
    let alloc = rt.alloc();
    let (count, is_timed) = load(&rt);
    let volume = two_file_volume(&rt, alloc, 1)?;
    let begun = Instant::now(&rt)?;
    assert!(rt; looks(&volume, count) == count);
    let looked = begun.elapsed(&rt)?.as_micros();
    let begun = Instant::now(&rt)?;
    assert!(rt; alone::<Brand, _>(&rt, alloc, volume, count)? == count);
    let viewed = begun.elapsed(&rt)?.as_micros();
    if is_timed {
        println!(rt; "{count} looks, {looked} microseconds; {count} views, {viewed} microseconds")?;
    }
    Ok(())
}
