//! The block of a WRITE stands once: its script, the volume's list and the call of its session share it.
ghost use Rattle.ods_share.specs.Scripts.{CanBeObeyed};

use super::runs::{Open, Ran, run_on, stamp, two_file_volume};
use super::scripts::{add, alone, script};
use crate::persons::{FIRST, USER, letter_a};
use ods_base::Block;
use ods_cli::Printed;
use ods_request::{CompactRequest, RequestForm};
use ods_script::parse_script;
use ods_share::{Action, Ask, Id, Script, run_keeping};
use std::alloc::Global;
use std::process::Abort;
use std::sync::Arc;
use std::test::Fail;

/// A Write of this very block to the first block of the first file.
fn write_of(block: Arc<Block, Global>) -> Action
    ensures { CanBeObeyed result }
{
    let file = Id::Given(FIRST);
    Action::Submit(Ask::Write {
        file,
        vbn: 1,
        block,
    })
}

/// How many share the block of a script's first command, which is a Write.
fn owners(script: &Script) -> usize {
    match script.commands.first() {
        Some(command) => match &command.action {
            Action::Submit(Ask::Write { block, .. }) => Arc::strong_count(block),
            _ => 0,
        },
        None => 0,
    }
}

/// The script, the list and the call have the block that the test has.
#[test]
fn script_list_and_call_share_a_block(rt: HostRuntime) -> Result<(), Fail> {
    let alloc = rt.alloc();
    let block = Arc::new(alloc, letter_a())?;
    let mut one = script(alloc);
    add(&mut one, write_of(Arc::try_clone(&block)?))?;
    let scripts = alone(alloc, one)?;
    let volume = two_file_volume(&rt, alloc, 4_096)?;
    let Ran { volume, outcomes } = run_on(&rt, alloc, volume, &scripts, &Open)?;
    assert_eq!(rt; volume.entries().len(), 1);
    assert_eq!(rt; Arc::strong_count(&block), 4);
    drop(outcomes);
    assert_eq!(rt; Arc::strong_count(&block), 3);
    drop(volume);
    assert_eq!(rt; Arc::strong_count(&block), 2);
    Ok(())
}

/// So it is with a script that was read, whose session prints its replies.
#[test]
fn block_that_was_read_stands_once(rt: HostRuntime) -> Result<(), Fail> {
    let alloc = rt.alloc();
    let scripts = alone(alloc, parse_script(alloc, b"WRITE 6,1 1 48690d0a\n")?)?;
    assert_eq!(rt; owners(&scripts[0]), 1);
    let volume = two_file_volume(&rt, alloc, 4_096)?;
    let Ok((volume, ended)) = run_keeping::<Printed, _, _>(
        &rt,
        alloc,
        volume,
        &scripts,
        stamp()?,
        &Open,
    ) else {
        return Err("threads, and memory".into());
    };
    assert_eq!(rt; volume.entries().len(), 1);
    assert_eq!(rt; owners(&scripts[0]), 3);
    drop(ended);
    assert_eq!(rt; owners(&scripts[0]), 2);
    Ok(())
}

/// The list of a volume shares the block of a request that is prepared, and of none that is refused.
#[test]
fn list_shares_the_block_of_a_request(rt: HostRuntime) -> Result<(), Fail> {
    let alloc = rt.alloc();
    let block = Arc::new(alloc, letter_a())?;
    let request = CompactRequest::new(RequestForm::Write {
        file: FIRST,
        vbn: 1,
        block: Arc::try_clone(&block)?,
    });
    let mut volume = two_file_volume(&rt, alloc, 1)?;
    let prepared = volume.prepare_shared(1, 1, USER, &request)?;
    assert_eq!(rt; Arc::strong_count(&block), 3);
    volume.apply(prepared);
    assert_eq!(rt; Arc::strong_count(&block), 3);
    assert!(rt; volume.prepare_shared(1, 2, USER, &request).is_err());
    assert_eq!(rt; Arc::strong_count(&block), 3);
    Ok(())
}
