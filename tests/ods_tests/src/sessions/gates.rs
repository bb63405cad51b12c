//! Gates: sessions run side by side, and where a gate is called.
ghost use Rattle.std.specs.Prelude.{IfOk};
ghost use Rattle.ods_share.specs.Scripts.{CanBeRun};

use super::runs::{run_on, two_file_volume, two_scripts};
use super::scripts::{add, both, read, script, stat_last};
use crate::persons::{FIRST, MASTER, STRANGER, corimg};
use ods_base::Pick;
use ods_share::{Action, Gate, Id, Look, Script};
use std::alloc::Global;
use std::process::Abort;
use std::sync::Wait;
use std::sync::atomic::{AtomicBool, AtomicU64, Ordering};
use std::test::Fail;
use std::thread::Threads;

/// Keeps the first command of one session until the first of another is answered, and gives up at last.
#[derive(Drop)]
struct Keep {
    kept: u16,
    awaited: u16,
    answered: AtomicBool,
    gave_up: AtomicBool,
}

impl Gate for Keep {
    fn before(&self, session: u16, nth: u32) {
        if session == self.kept && nth == 1 {
            for _ in 0..50_000_000u32 {
                if self.answered.load(Ordering::SeqCst) {
                    return;
                }
            }
            self.gave_up.store(true, Ordering::SeqCst);
        }
    }

    fn held(&self, _session: u16, _nth: u32) {}

    fn after(&self, session: u16, nth: u32) {
        if session == self.awaited && nth == 1 {
            self.answered.store(true, Ordering::SeqCst);
        }
    }
}

/// Counts its calls: the hexadecimal digit at place n is for those round command n.
#[derive(Drop)]
struct Count {
    before: AtomicU64,
    held: AtomicU64,
    after: AtomicU64,
}

/// One at the place of this command.
fn digit(nth: u32) -> u64 {
    16u64.wrapping_pow(nth)
}

impl Gate for Count {
    fn before(&self, _session: u16, nth: u32) {
        self.before.fetch_add(digit(nth), Ordering::SeqCst);
    }

    fn held(&self, _session: u16, nth: u32) {
        self.held.fetch_add(digit(nth), Ordering::SeqCst);
    }

    fn after(&self, _session: u16, nth: u32) {
        self.after.fetch_add(digit(nth), Ordering::SeqCst);
    }
}

/// Where one session's first command is kept until the other's is answered, the list begins with the other's entry.
fn goes_first<R: Abort + Threads + Wait + Sync>(
    rt: &R,
    alloc: Global,
    kept: u16,
    awaited: u16,
) -> Result<(), Fail> {
    let gate = Keep {
        kept,
        awaited,
        answered: AtomicBool::new(false),
        gave_up: AtomicBool::new(false),
    };
    let scripts = two_scripts(alloc)?;
    let volume = two_file_volume(rt, alloc, 4_096)?;
    let ran = run_on(rt, alloc, volume, &scripts, &gate)?;
    let gave_up = gate.gave_up.load(Ordering::SeqCst);
    assert!(rt; !gave_up, "session {kept} was kept too long");
    let entries = ran.volume.entries();
    assert!(rt; !entries.is_empty() && entries.session(0) == awaited);
    Ok(())
}

#[test]
fn first_session_is_kept_for_the_second(rt: HostRuntime) -> Result<(), Fail> {
    goes_first(&rt, rt.alloc(), 1, 2)
}

#[test]
fn second_session_is_kept_for_the_first(rt: HostRuntime) -> Result<(), Fail> {
    goes_first(&rt, rt.alloc(), 2, 1)
}

/// Commands 1 to 5: a line that is none, a user, `$` before it stands for a file, a request that is accepted, and one that is refused.
fn five_commands(alloc: Global) -> Result<Script, Fail>
    ensures { IfOk result (λ s. CanBeRun s.commands.items) }
{
    let mut script = script(alloc);
    add(&mut script, Action::Bad)?;
    add(&mut script, Action::User(STRANGER))?;
    add(&mut script, stat_last())?;
    add(&mut script, read(FIRST, 1))?;
    add(&mut script, read(FIRST, 2))?;
    Ok(script)
}

/// Commands 6 to 10: each kind of view, one of them twice, where it is refused, and a request behind them.
fn four_views(script: &mut Script) -> Result<(), Fail>
    requires { CanBeRun script.old.commands.items }
    ensures { CanBeRun script.new.commands.items }
{
    let (dir, name, pick) = (Id::Given(MASTER), corimg(), Pick::Highest);
    let file = Id::Given(FIRST);
    add(script, Action::View(Look::LookUp { dir, name, pick }))?;
    add(script, Action::View(Look::Read { file, vbn: 1 }))?;
    add(script, Action::View(Look::Read { file, vbn: 2 }))?;
    add(script, Action::View(Look::Stat { file }))?;
    add(script, stat_last())
}

/// Runs this script alone: the gate is called so often before and after each command, and so often under the lock.
fn is_counted<R: Abort + Threads + Wait + Sync>(
    rt: &R,
    alloc: Global,
    script: Script,
    around: u64,
    held: u64,
) -> Result<(), Fail>
    requires { CanBeRun script.commands.items }
{
    let gate = Count {
        before: AtomicU64::new(0),
        held: AtomicU64::new(0),
        after: AtomicU64::new(0),
    };
    let volume = two_file_volume(rt, alloc, 4_096)?;
    run_on(rt, alloc, volume, &[script], &gate)?;
    assert!(rt; gate.before.load(Ordering::SeqCst) == around);
    assert!(rt; gate.held.load(Ordering::SeqCst) == held);
    assert!(rt; gate.after.load(Ordering::SeqCst) == around);
    Ok(())
}

#[test]
fn gate_is_called_round_each_command(rt: HostRuntime) -> Result<(), Fail> {
    let script = five_commands(rt.alloc())?;
    is_counted(&rt, rt.alloc(), script, 0x11_1110, 0x11_0000)
}

#[test]
fn view_is_never_held(rt: HostRuntime) -> Result<(), Fail> {
    let mut script = five_commands(rt.alloc())?;
    four_views(&mut script)?;
    is_counted(&rt, rt.alloc(), script, 0x111_1111_1110, 0x100_0011_0000)
}

/// Notes where a session is: 0 outside, 1 before a request, 2 under the lock. Each call of the gate has to find its session where it should
/// be, and none two sessions under the lock; the first that is there stays for a while, and the other comes to the lock only then.
#[derive(Drop)]
struct Order {
    first: AtomicU64,
    second: AtomicU64,
    under_lock: AtomicU64,
    was_held: AtomicBool,
    is_wrong: AtomicBool,
}

impl Order {
    /// The session goes from one of its places to another.
    fn go(&self, session: u16, from: u64, to: u64) {
        let place = if session == 1 {
            &self.first
        } else {
            &self.second
        };
        if place.swap(to, Ordering::SeqCst) != from {
            self.is_wrong.store(true, Ordering::SeqCst);
        }
    }
}

impl Gate for Order {
    fn before(&self, session: u16, _nth: u32) {
        self.go(session, 0, 1);
        if session == 2 {
            for _ in 0..50_000_000u32 {
                if self.was_held.load(Ordering::SeqCst) {
                    return;
                }
            }
            self.is_wrong.store(true, Ordering::SeqCst);
        }
    }

    fn held(&self, session: u16, _nth: u32) {
        self.go(session, 1, 2);
        self.under_lock.fetch_add(1, Ordering::SeqCst);
        self.was_held.store(true, Ordering::SeqCst);
        for _ in 0..1_000_000u32 {
            if self.under_lock.load(Ordering::SeqCst) != 1 {
                self.is_wrong.store(true, Ordering::SeqCst);
            }
        }
        self.under_lock.fetch_sub(1, Ordering::SeqCst);
    }

    fn after(&self, session: u16, _nth: u32) {
        self.go(session, 2, 0);
    }
}

/// A script of two requests.
fn two_reads(alloc: Global) -> Result<Script, Fail>
    ensures { IfOk result (λ s. CanBeRun s.commands.items) }
{
    let mut script = script(alloc);
    add(&mut script, read(FIRST, 1))?;
    add(&mut script, read(FIRST, 1))?;
    Ok(script)
}

#[test]
fn gate_is_called_in_order_and_under_the_lock(rt: HostRuntime) -> Result<(), Fail> {
    let alloc = rt.alloc();
    let gate = Order {
        first: AtomicU64::new(0),
        second: AtomicU64::new(0),
        under_lock: AtomicU64::new(0),
        was_held: AtomicBool::new(false),
        is_wrong: AtomicBool::new(false),
    };
    let scripts = both(alloc, two_reads(alloc)?, two_reads(alloc)?)?;
    let volume = two_file_volume(&rt, alloc, 4_096)?;
    let ran = run_on(&rt, alloc, volume, &scripts, &gate)?;
    assert!(rt; !gate.is_wrong.load(Ordering::SeqCst));
    assert!(rt; ran.volume.entries().len() == 4);
    Ok(())
}
