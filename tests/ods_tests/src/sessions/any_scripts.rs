//! Commands of any kind by dice, and eight scripts of them.
ghost use Rattle.std.specs.Prelude.{All, IfOk};
ghost use Rattle.ods_share.specs.Scripts.{CanBeObeyed, CanBeRun};

use super::scripts::{
    add, add_script, create, delete, enter, extend, list, look_up, read, read_last, remove, script,
    set_user, stat, stat_last, truncate, write, write_last,
};
use crate::dice::Dice;
use crate::persons::{
    COLLEAGUE, FIRST, MASTER, NONE, OWNER, SECOND, STRANGER, SYSTEM, USER, a_txt, b_txt, bitmap,
    c_dat, corimg, indexf, master, reserved_id,
};
use ods_base::{Block, FileId, Name, Pick};
use ods_share::{Action, Id, Look, Script};
use std::alloc::Global;
use std::test::Fail;

/// What a run is made of: how many commands each script has, whether half of them are views, and whether the volume has so few
/// numbers that INDEXF.SYS grows.
#[derive(Clone, Copy)]
pub struct Mix {
    pub commands: u32,
    pub has_views: bool,
    pub grows: bool,
}

/// A file that is there at first, or one that a session may make, or none.
fn any_file(dice: &mut Dice) -> FileId {
    match dice.roll(9) {
        0 | 1 => FIRST,
        2 | 3 => SECOND,
        4 => MASTER,
        5 => reserved_id(3),
        6 => NONE,
        _ => FileId {
            number: 6 + dice.roll(11) as u16,
            sequence: 1 + dice.roll(3) as u16,
        },
    }
}

/// A file, or `$`: mostly what the session made, found or removed last.
fn any_id(dice: &mut Dice) -> Id {
    match dice.roll(3) {
        0 => Id::Given(any_file(dice)),
        _ => Id::Last,
    }
}

fn any_name(dice: &mut Dice) -> Name {
    match dice.roll(7) {
        0 => bitmap(),
        1 => corimg(),
        2 => indexf(),
        3 => master(),
        4 => a_txt(),
        5 => b_txt(),
        _ => c_dat(),
    }
}

fn any_user(dice: &mut Dice) -> Action
    ensures { CanBeObeyed result }
{
    Action::User(match dice.roll(8) {
        0 => OWNER,
        1 => COLLEAGUE,
        2 => STRANGER,
        3 => SYSTEM,
        _ => USER,
    })
}

fn any_block(dice: &mut Dice) -> Block {
    Block::new([dice.roll(256) as u8; 512])
}

/// One to three blocks.
fn few(dice: &mut Dice) -> u32 {
    1 + dice.roll(3) as u32
}

/// A request that makes, lengthens, cuts or deletes a file, or gives it a name in the master directory.
fn any_growth(dice: &mut Dice) -> Action
    ensures { CanBeObeyed result }
{
    match dice.roll(11) {
        0 | 1 => create(any_name(dice), 1, few(dice)),
        2 | 3 => extend(any_id(dice), few(dice)),
        4 | 5 | 6 | 7 => delete(any_id(dice)),
        8 | 9 => truncate(any_id(dice), dice.roll(3) as u32),
        _ => enter(any_name(dice), None, any_id(dice)),
    }
}

/// A command of any kind, but for views.
fn any_action(alloc: Global, dice: &mut Dice) -> Result<Action, Fail>
    ensures { IfOk result CanBeObeyed }
{
    Ok(match dice.roll(28) {
        0 | 1 => any_user(dice),
        2 | 3 => write(alloc, any_file(dice), 1, any_block(dice))?,
        4 | 5 => write_last(alloc, few(dice), any_block(dice))?,
        6 | 7 => read(any_file(dice), 1),
        8 | 9 => set_user(any_file(dice), [dice.roll(256) as u8; 32]),
        10 | 11 => look_up(MASTER, any_name(dice)),
        12 | 13 => list(any_file(dice)),
        14 | 15 => stat(any_file(dice)),
        16 => stat_last(),
        17 => read_last(few(dice)),
        18 => Action::Bad,
        19 => remove(MASTER, any_name(dice)),
        _ => any_growth(dice),
    })
}

/// A view of any kind.
fn any_view(dice: &mut Dice) -> Action
    ensures { CanBeObeyed result }
{
    let file = any_id(dice);
    Action::View(match dice.roll(4) {
        0 => Look::LookUp {
            dir: Id::Given(MASTER),
            name: any_name(dice),
            pick: Pick::Highest,
        },
        1 => Look::Stat { file },
        _ => Look::Read {
            file,
            vbn: few(dice),
        },
    })
}

fn any_command(alloc: Global, dice: &mut Dice, has_views: bool) -> Result<Action, Fail>
    ensures { IfOk result CanBeObeyed }
{
    if has_views && dice.roll(2) == 0 {
        Ok(any_view(dice))
    } else {
        any_action(alloc, dice)
    }
}

fn any_script(alloc: Global, dice: &mut Dice, mix: Mix) -> Result<Script, Fail>
    ensures { IfOk result (λ s. CanBeRun s.commands.items) }
{
    let mut script = script(alloc);
    for _k in 0..mix.commands {
        add(&mut script, any_command(alloc, dice, mix.has_views)?)?;
    }
    Ok(script)
}

/// The eight scripts of a seed.
pub fn eight_scripts(alloc: Global, seed: u64, mix: Mix) -> Result<Vec<Script>, Fail>
    ensures { IfOk result (λ v. All (λ s. CanBeRun s.commands.items) v.items) }
{
    let mut dice = Dice::from(seed);
    let mut scripts = Vec::new(alloc);
    for _k in 0..8u32 {
        add_script(&mut scripts, any_script(alloc, &mut dice, mix)?)?;
    }
    Ok(scripts)
}
