//! The requests and answers that published rows are written with.
ghost use Rattle.std.specs.Prelude.{◌<◌};

use crate::persons::{DAT, DIR, MASTER, PROTECTION, TXT, USER, bitmap, letter_a};
use ods_base::{Block, FileId, Name, Pick};
use ods_request::{Answer, Kind, Refusal, Request, Stamp, Stat};
use std::process::Abort;

/// The stamp of the rows.
pub const STAMP: [u8; 13] = *b"01JAN80000000";

/// What a request is answered, as `Volume::request` gives it.
pub type Reply = Result<Answer, Refusal>;

/// A row: a request, and what it is answered.
pub type Row = (Request, Reply);

/// A file ID.
pub fn id(number: u16, sequence: u16) -> FileId {
    FileId { number, sequence }
}

/// The stamp of the rows, as a value.
pub fn stamp(rt: &impl Abort) -> Stamp {
    Stamp::parse(&STAMP).expect(rt, "a stamp")
}

/// A name of one letter, A for 1, and of this type.
pub fn letter(code: u16, ext: u16) -> Name
    requires { ext < 64000 }
{
    Name::new([code % 27 * 1_600, 0, 0], ext)
}

/// P.DAT, Q.DAT, R.DAT, B.DAT and X.DAT.
pub fn dat(letter_of: u8) -> Name {
    letter((letter_of.wrapping_sub(64)) as u16, DAT)
}

/// SUB.DIR
pub fn sub_dir() -> Name {
    Name::new([19 * 1_600 + 21 * 40 + 2, 0, 0], DIR)
}

/// BIG.DAT
pub fn big_dat() -> Name {
    Name::new([2 * 1_600 + 9 * 40 + 7, 0, 0], DAT)
}

/// A Create of version 1.
pub fn create(rt: &impl Abort, name: Name, blocks: u32) -> Request {
    Request::Create {
        name,
        version: 1,
        blocks,
        stamp: stamp(rt),
    }
}

/// An Extend.
pub fn extend(file: FileId, blocks: u32) -> Request {
    Request::Extend { file, blocks }
}

/// A Truncate.
pub fn truncate(file: FileId, blocks: u32) -> Request {
    Request::Truncate { file, blocks }
}

/// A Delete.
pub fn delete(file: FileId) -> Request {
    Request::Delete { file }
}

/// A Stat.
pub fn stat(file: FileId) -> Request {
    Request::Stat { file }
}

/// A List.
pub fn list(dir: FileId) -> Request {
    Request::List { dir }
}

/// A SetUser.
pub fn set_user(file: FileId, attributes: [u8; 32]) -> Request {
    Request::SetUser { file, attributes }
}

/// An Enter of a file under a version, or under the next one.
pub fn enter(dir: FileId, name: Name, version: Option<u16>, file: FileId) -> Request {
    Request::Enter {
        dir,
        name,
        version,
        file,
    }
}

/// A LookUp.
pub fn look(dir: FileId, name: Name, pick: Pick) -> Request {
    Request::LookUp { dir, name, pick }
}

/// A Remove.
pub fn remove(dir: FileId, name: Name, pick: Pick) -> Request {
    Request::Remove { dir, name, pick }
}

/// A LookUp of BITMAP.SYS in the master directory.
pub fn look_for_bitmap() -> Request {
    look(MASTER, bitmap(), Pick::Highest)
}

/// A Read.
pub fn read(file: FileId, vbn: u32) -> Request {
    Request::Read { file, vbn }
}

/// A Write.
pub fn write(file: FileId, vbn: u32, block: Block) -> Request {
    Request::Write { file, vbn, block }
}

/// A Write of the letter A.
pub fn write_a(file: FileId, vbn: u32) -> Request {
    write(file, vbn, letter_a())
}

/// The answer to a Create.
pub fn made(number: u16, sequence: u16) -> Reply {
    Ok(Answer::Created(id(number, sequence)))
}

/// The answer to a Read.
pub fn bytes(block: Block) -> Reply {
    Ok(Answer::Bytes(block))
}

/// The answer to a Stat.
pub fn shown(stat: Stat) -> Reply {
    Ok(Answer::Info(stat))
}

/// The ident area of a file that is made: its name, version 1, revision 1, the stamp twice, and 8 zeros.
pub fn made_ident(name: &Name) -> [u8; 46] {
    let named = crate::persons::ident(name);
    let mut ident = [0; 46];
    for i in 0..12 {
        ident[i] = named[i];
    }
    ident[10] = 1;
    for i in 0..13 {
        ident[12 + i] = STAMP[i];
        ident[25 + i] = STAMP[i];
    }
    ident
}

/// What is shown of a file that USER made.
pub fn made_stat(file: FileId, name: &Name, kind: Kind) -> Stat {
    Stat {
        file,
        ident: made_ident(name),
        owner: USER,
        protection: PROTECTION,
        user_char: 0,
        system_char: 0,
        kind,
    }
}

/// A plain file of so many blocks, with attributes of zeros.
pub fn plain(blocks: u32) -> Kind {
    Kind::Plain {
        blocks,
        attributes: [0; 32],
    }
}

/// A.TXT
pub fn a_txt() -> Name {
    letter(1, TXT)
}
