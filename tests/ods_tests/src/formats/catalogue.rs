//! Sequences of requests on the plain program, from the catalogue of the sample volume of forty blocks on: each answer is compared
//! as a value.
use crate::persons::{
    COLLEAGUE, DAT, DIR, FIRST, MASTER, NONE, OWNER, PROTECTION, SECOND, STRANGER, SYSTEM, USER,
    a_txt, c_dat, ident, index_stat, letter_a, other_attributes, reserved_id, reserved_lines,
    reserved_names, stat_of,
};
use ods_base::{Block, FileId, Name, Pick, Uic};
use ods_plain::{Body, Catalogue, File, Names, StepError};
use ods_request::{Answer, Kind, Refusal, Request, Stamp};
use std::alloc::Global;
use std::process::Abort;
use std::test::Fail;

/// The names of the sample's master directory.
fn sample_names(rt: &impl Abort, alloc: Global) -> Result<Names, Fail> {
    let mut names = Names::new(alloc);
    for (name, number) in reserved_names() {
        assert!(rt; names.get(&name, 1).is_none());
        names.insert(name, 1, reserved_id(number))?;
    }
    Ok(names)
}

/// The body of a file of the sample.
fn sample_body(rt: &impl Abort, alloc: Global, number: u16) -> Result<Body, Fail> {
    Ok(match number {
        1 | 2 => Body::System,
        4 => Body::Directory(sample_names(rt, alloc)?),
        _ => Body::Plain {
            attributes: [0; 32],
            blocks: Vec::new(alloc),
        },
    })
}

/// Adds a file of USER.
fn add(
    rt: &impl Abort,
    catalogue: &mut Catalogue,
    id: FileId,
    name: &Name,
    user_char: u8,
    body: Body,
) -> Result<(), Fail> {
    let file = File {
        owner: USER,
        protection: PROTECTION,
        user_char,
        system_char: 0,
        ident: ident(name),
        body,
    };
    assert!(rt; catalogue.file(id).is_none() && file.may_have(id));
    catalogue.add(id, file)?;
    Ok(())
}

/// The catalogue of the sample.
fn sample_catalogue(rt: &impl Abort, alloc: Global) -> Result<Catalogue, Fail> {
    let mut catalogue = Catalogue::new(alloc, PROTECTION);
    for (name, number) in reserved_names() {
        let body = sample_body(rt, alloc, number)?;
        add(rt, &mut catalogue, reserved_id(number), &name, 0, body)?;
    }
    Ok(catalogue)
}

/// The ID that the next file gets: the lowest free number, with the first sequence number that it never had.
fn next_id(catalogue: &Catalogue) -> FileId {
    for number in 6..17 {
        for sequence in 1..4 {
            let id = FileId { number, sequence };
            if catalogue.is_new(id) {
                return id;
            }
        }
    }
    NONE
}

/// A Create of version 1.
fn create(rt: &impl Abort, name: Name, blocks: u32) -> Request {
    Request::Create {
        name,
        version: 1,
        blocks,
        stamp: Stamp::parse(b"01JAN80000000").expect(rt, "a stamp"),
    }
}

/// A Read of block 1.
fn read(file: FileId) -> Request {
    Request::Read { file, vbn: 1 }
}

/// A Delete.
fn delete(file: FileId) -> Request {
    Request::Delete { file }
}

/// An Enter of the first file in the master directory, as A.TXT.
fn enter(version: Option<u16>) -> Request {
    Request::Enter {
        dir: MASTER,
        name: a_txt(),
        version,
        file: FIRST,
    }
}

/// Makes the requests in order, each by its user, and compares each answer.
fn play(
    rt: &impl Abort,
    catalogue: &mut Catalogue,
    steps: &[(Uic, &Request, Result<Answer, StepError>)],
) {
    for (who, request, wanted) in steps {
        let id = next_id(catalogue);
        let answer = catalogue.step(*who, request, id);
        assert!(rt; answer == *wanted, "{request:?} was answered {answer:?}");
    }
}

/// The catalogue that requests make of the sample's, each answered as it is said.
fn play_sample(
    rt: &impl Abort,
    alloc: Global,
    steps: &[(Uic, &Request, Result<Answer, StepError>)],
) -> Result<Catalogue, Fail> {
    let mut catalogue = sample_catalogue(rt, alloc)?;
    play(rt, &mut catalogue, steps);
    Ok(catalogue)
}

fn refused(refusal: Refusal) -> Result<Answer, StepError> {
    Err(StepError::Refused(refusal))
}

#[test]
fn versions_count_up(rt: HostRuntime) -> Result<(), Fail> {
    let create = create(&rt, a_txt(), 0);
    let enter = enter(None);
    let look = |pick| Request::LookUp {
        dir: MASTER,
        name: a_txt(),
        pick,
    };
    play_sample(
        &rt,
        rt.alloc(),
        &[
            (USER, &create, Ok(Answer::Created(FIRST))),
            (USER, &enter, Ok(Answer::Entered(1))),
            (USER, &enter, Ok(Answer::Entered(2))),
            (USER, &enter, Ok(Answer::Entered(3))),
            (USER, &look(Pick::Highest), Ok(Answer::Found(FIRST, 3))),
            (USER, &look(Pick::Lowest), Ok(Answer::Found(FIRST, 1))),
            (USER, &look(Pick::Exact(4)), refused(Refusal::NoSuchName)),
        ],
    )?;
    Ok(())
}

#[test]
fn versions_end(rt: HostRuntime) -> Result<(), Fail> {
    let create = create(&rt, a_txt(), 0);
    play_sample(
        &rt,
        rt.alloc(),
        &[
            (USER, &create, Ok(Answer::Created(FIRST))),
            (USER, &enter(Some(32_767)), Ok(Answer::Entered(32_767))),
            (USER, &enter(None), refused(Refusal::VersionsFull)),
            (USER, &enter(Some(32_767)), refused(Refusal::NameTaken)),
        ],
    )?;
    Ok(())
}

#[test]
fn a_directory_goes_when_it_is_empty(rt: HostRuntime) -> Result<(), Fail> {
    let sub_dir = Name::new([31_242, 0, 0], DIR);
    let x_dat = Name::new([38_400, 0, 0], DAT);
    let enter = Request::Enter {
        dir: FIRST,
        name: x_dat,
        version: None,
        file: SECOND,
    };
    let remove = Request::Remove {
        dir: FIRST,
        name: x_dat,
        pick: Pick::Highest,
    };
    play_sample(
        &rt,
        rt.alloc(),
        &[
            (USER, &create(&rt, sub_dir, 0), Ok(Answer::Created(FIRST))),
            (USER, &create(&rt, x_dat, 0), Ok(Answer::Created(SECOND))),
            (USER, &enter, Ok(Answer::Entered(1))),
            (USER, &delete(FIRST), refused(Refusal::NotEmpty)),
            (USER, &remove, Ok(Answer::Removed(SECOND, 1))),
            (USER, &delete(FIRST), Ok(Answer::Done)),
            (USER, &read(FIRST), refused(Refusal::NoSuchFile)),
        ],
    )?;
    Ok(())
}

#[test]
fn rights_are_asked_of_each_user(rt: HostRuntime) -> Result<(), Fail> {
    let create = create(&rt, a_txt(), 1);
    let enter = enter(None);
    let write = Request::Write {
        file: FIRST,
        vbn: 1,
        block: letter_a(),
    };
    play_sample(
        &rt,
        rt.alloc(),
        &[
            (OWNER, &create, Ok(Answer::Created(FIRST))),
            (OWNER, &enter, refused(Refusal::Denied)),
            (STRANGER, &read(FIRST), Ok(Answer::Bytes(Block::zeros()))),
            (STRANGER, &write, refused(Refusal::Denied)),
            (COLLEAGUE, &write, Ok(Answer::Done)),
            (COLLEAGUE, &read(FIRST), Ok(Answer::Bytes(letter_a()))),
            (SYSTEM, &delete(FIRST), Ok(Answer::Done)),
        ],
    )?;
    Ok(())
}

#[test]
fn refusals_come_in_order(rt: HostRuntime) -> Result<(), Fail> {
    let write = Request::Write {
        file: MASTER,
        vbn: 1,
        block: Block::zeros(),
    };
    let look = Request::LookUp {
        dir: reserved_id(3),
        name: a_txt(),
        pick: Pick::Highest,
    };
    let create = create(&rt, a_txt(), 65_536);
    let unknown = FileId {
        number: 4,
        sequence: 5,
    };
    play_sample(
        &rt,
        rt.alloc(),
        &[
            (USER, &read(reserved_id(1)), refused(Refusal::Reserved)),
            (USER, &write, refused(Refusal::Reserved)),
            (USER, &delete(MASTER), refused(Refusal::Reserved)),
            (USER, &read(MASTER), refused(Refusal::IsDirectory)),
            (USER, &look, refused(Refusal::NotADirectory)),
            (USER, &read(reserved_id(3)), refused(Refusal::NoSuchBlock)),
            (USER, &read(unknown), refused(Refusal::NoSuchFile)),
            (USER, &create, refused(Refusal::BadCount)),
        ],
    )?;
    Ok(())
}

#[test]
fn lists_and_shows(rt: HostRuntime) -> Result<(), Fail> {
    let lines = reserved_lines(rt.alloc())?;
    play_sample(
        &rt,
        rt.alloc(),
        &[
            (
                USER,
                &Request::Stat {
                    file: reserved_id(1),
                },
                Ok(Answer::Info(index_stat())),
            ),
            (
                USER,
                &Request::List { dir: MASTER },
                Ok(Answer::Names(lines)),
            ),
        ],
    )?;
    Ok(())
}

/// Adds C.DAT, a contiguous file of one block.
fn add_contiguous(rt: &impl Abort, alloc: Global, catalogue: &mut Catalogue) -> Result<(), Fail> {
    let mut blocks = Vec::new(alloc);
    blocks.push(Block::zeros())?;
    let body = Body::Plain {
        attributes: [0; 32],
        blocks,
    };
    add(rt, catalogue, FIRST, &c_dat(), 0o200, body)
}

/// What is shown of it.
fn contiguous_shown(user_char: u8, blocks: u32, attributes: [u8; 32]) -> Result<Answer, StepError> {
    let kind = Kind::Plain { blocks, attributes };
    Ok(Answer::Info(stat_of(FIRST, &c_dat(), user_char, kind)))
}

/// It is extended, and its attributes are set: it is contiguous no more.
fn grows(rt: &impl Abort, catalogue: &mut Catalogue) {
    let other = other_attributes();
    let stat = Request::Stat { file: FIRST };
    let extend = Request::Extend {
        file: FIRST,
        blocks: 1,
    };
    let set_user = Request::SetUser {
        file: FIRST,
        attributes: other,
    };
    play(
        rt,
        catalogue,
        &[
            (USER, &stat, contiguous_shown(0o200, 1, [0; 32])),
            (USER, &extend, Ok(Answer::Extended(2))),
            (USER, &set_user, Ok(Answer::Done)),
            (USER, &stat, contiguous_shown(0, 2, other)),
        ],
    );
}

#[test]
fn a_contiguous_file_grows(rt: HostRuntime) -> Result<(), Fail> {
    let mut catalogue = sample_catalogue(&rt, rt.alloc())?;
    add_contiguous(&rt, rt.alloc(), &mut catalogue)?;
    grows(&rt, &mut catalogue);
    Ok(())
}

#[test]
fn an_id_of_the_past_is_not_given_again(rt: HostRuntime) -> Result<(), Fail> {
    let create = create(&rt, a_txt(), 0);
    let mut catalogue = play_sample(
        &rt,
        rt.alloc(),
        &[
            (USER, &create, Ok(Answer::Created(FIRST))),
            (USER, &delete(FIRST), Ok(Answer::Done)),
        ],
    )?;
    let again = catalogue.step(USER, &create, FIRST);
    assert!(rt; again == Err(StepError::NotNew));
    Ok(())
}
