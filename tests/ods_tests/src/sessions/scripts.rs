//! Scripts for tests, put together command by command.
ghost use Rattle.std.specs.Prelude.{◌≤◌, All, IfOk, MatchOption};
ghost use Rattle.ods_share.specs.Scripts.{CanBeObeyed, CanBeRun};
ghost use Rattle.ods_state.specs.Outcome.{IsVersionNumber};

use crate::persons::MASTER;
use ods_base::{Block, FileId, Name, Pick};
use ods_share::{Action, Ask, Command, Id, Script};
use std::alloc::{AllocError, Global};
use std::sync::Arc;
use std::test::Fail;

/// A script with no command.
pub fn script(alloc: Global) -> Script
    ensures { CanBeRun result.commands.items }
{
    Script {
        commands: Vec::new(alloc),
    }
}

/// Puts a command behind the others. Its number is its place, from 1.
pub fn add(script: &mut Script, action: Action) -> Result<(), Fail>
    requires can { CanBeObeyed action }
    requires runs { CanBeRun script.old.commands.items }
    ensures { CanBeRun script.new.commands.items }
{
    let before = u32::try_from(script.commands.len()).unwrap_or(0);
    let nth = before.wrapping_add(1);
    script.commands.push(Command { nth, action })?;
    Ok(())
}

/// Puts a script behind the others.
pub fn add_script(scripts: &mut Vec<Script>, script: Script) -> Result<(), Fail>
    requires can { CanBeRun script.commands.items }
    requires runs { All (λ s. CanBeRun s.commands.items) scripts.old.items }
    ensures { All (λ s. CanBeRun s.commands.items) scripts.new.items }
{
    scripts.push(script)?;
    Ok(())
}

/// One script alone.
pub fn alone(alloc: Global, script: Script) -> Result<Vec<Script>, Fail>
    requires { CanBeRun script.commands.items }
    ensures { IfOk result (λ v. All (λ s. CanBeRun s.commands.items) v.items) }
{
    let mut scripts = Vec::new(alloc);
    add_script(&mut scripts, script)?;
    Ok(scripts)
}

/// Two scripts, in this order.
pub fn both(alloc: Global, first: Script, second: Script) -> Result<Vec<Script>, Fail>
    requires first { CanBeRun first.commands.items }
    requires second { CanBeRun second.commands.items }
    ensures { IfOk result (λ v. All (λ s. CanBeRun s.commands.items) v.items) }
{
    let mut scripts = alone(alloc, first)?;
    add_script(&mut scripts, second)?;
    Ok(scripts)
}

pub fn read(file: FileId, vbn: u32) -> Action
    ensures { CanBeObeyed result }
{
    let file = Id::Given(file);
    Action::Submit(Ask::Read { file, vbn })
}

pub fn write(alloc: Global, file: FileId, vbn: u32, block: Block) -> Result<Action, AllocError>
    ensures { IfOk result CanBeObeyed }
{
    let file = Id::Given(file);
    let block = Arc::new(alloc, block)?;
    Ok(Action::Submit(Ask::Write { file, vbn, block }))
}

pub fn set_user(file: FileId, attributes: [u8; 32]) -> Action
    ensures { CanBeObeyed result }
{
    let file = Id::Given(file);
    Action::Submit(Ask::SetUser { file, attributes })
}

/// A Remove of the highest version of a name.
pub fn remove(dir: FileId, name: Name) -> Action
    ensures { CanBeObeyed result }
{
    let (dir, pick) = (Id::Given(dir), Pick::Highest);
    Action::Submit(Ask::Remove { dir, name, pick })
}

/// A LookUp of the highest version of a name.
pub fn look_up(dir: FileId, name: Name) -> Action
    ensures { CanBeObeyed result }
{
    let (dir, pick) = (Id::Given(dir), Pick::Highest);
    Action::Submit(Ask::LookUp { dir, name, pick })
}

pub fn list(dir: FileId) -> Action
    ensures { CanBeObeyed result }
{
    let dir = Id::Given(dir);
    Action::Submit(Ask::List { dir })
}

pub fn stat(file: FileId) -> Action
    ensures { CanBeObeyed result }
{
    let file = Id::Given(file);
    Action::Submit(Ask::Stat { file })
}

/// A Stat of the file that `$` stands for.
pub fn stat_last() -> Action
    ensures { CanBeObeyed result }
{
    Action::Submit(Ask::Stat { file: Id::Last })
}

/// A Read of a block of the file that `$` stands for.
pub fn read_last(vbn: u32) -> Action
    ensures { CanBeObeyed result }
{
    let file = Id::Last;
    Action::Submit(Ask::Read { file, vbn })
}

pub fn create(name: Name, version: u16, blocks: u32) -> Action
    requires { (1 ≤ version) × (version ≤ 32767) }
    ensures { CanBeObeyed result }
{
    Action::Submit(Ask::Create {
        name,
        version,
        blocks,
    })
}

pub fn extend(file: Id, blocks: u32) -> Action
    ensures { CanBeObeyed result }
{
    Action::Submit(Ask::Extend { file, blocks })
}

pub fn truncate(file: Id, blocks: u32) -> Action
    ensures { CanBeObeyed result }
{
    Action::Submit(Ask::Truncate { file, blocks })
}

pub fn delete(file: Id) -> Action
    ensures { CanBeObeyed result }
{
    Action::Submit(Ask::Delete { file })
}

/// An Enter of a name in the master directory.
pub fn enter(name: Name, version: Option<u16>, file: Id) -> Action
    requires { MatchOption version (Unit {0}) IsVersionNumber }
    ensures { CanBeObeyed result }
{
    Action::Submit(Ask::Enter {
        dir: Id::Given(MASTER),
        name,
        version,
        file,
    })
}

/// A Write of a block of the file that `$` stands for.
pub fn write_last(alloc: Global, vbn: u32, block: Block) -> Result<Action, AllocError>
    ensures { IfOk result CanBeObeyed }
{
    let file = Id::Last;
    let block = Arc::new(alloc, block)?;
    Ok(Action::Submit(Ask::Write { file, vbn, block }))
}
