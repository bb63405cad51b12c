//! What requests are made of: refusals, rights, stamps and listings.
use crate::persons::{FIRST, a_txt};
use ods_base::{Coded, Listed, Uic};
use ods_request::{Answer, Listing, Refusal, Right, Stamp, permits};
use std::test::Fail;

#[test]
fn numbers_and_names(rt: HostRuntime) {
    let rows = [
        (Refusal::VolumeFull, 22, "VolumeFull"),
        (Refusal::NoSuchName, 30, "NoSuchName"),
        (Refusal::NoSuchFile, 40, "NoSuchFile"),
        (Refusal::NotEmpty, 47, "NotEmpty"),
        (Refusal::NoMemory, 49, "NoMemory"),
    ];
    for (refusal, code, name) in rows {
        assert!(rt; refusal.code() == code);
        assert!(rt; refusal.name() == name, "{refusal}");
    }
}

fn user(group: u8, member: u8) -> Uic {
    Uic { group, member }
}

#[test]
fn any_class_may_grant(rt: HostRuntime) {
    let owner = user(0o20, 0o10);
    let rows = [
        (user(0o1, 0o1), 0o177760, Right::Read, true),
        (user(0o10, 0o1), 0o177760, Right::Read, true),
        (user(0o11, 0o1), 0o177760, Right::Read, false),
        (user(0o20, 0o10), 0o177417, Right::Read, true),
        (user(0o20, 0o11), 0o170377, Right::Read, true),
        (user(0o21, 0o1), 0o007777, Right::Read, true),
        (user(0o20, 0o10), 0o007777, Right::Read, true),
        (user(0o1, 0o1), 0o177777, Right::Read, false),
        (user(0o21, 0o1), 0o167777, Right::Read, true),
        (user(0o21, 0o1), 0o167777, Right::Write, false),
    ];
    for (who, protection, right, wanted) in rows {
        let granted = permits(&who, &owner, protection, right);
        assert!(rt; granted == wanted, "{who:?} {protection:o} {right:?}");
    }
}

#[test]
fn thirteen_characters(rt: HostRuntime) {
    let good = Stamp::parse(b"01JAN80000000");
    assert!(rt; good.is_some_and(|stamp| stamp.text() == b"01JAN80000000"));
    let bad: [&[u8]; 6] = [
        b"01JAN8000000",
        b"01JAN800000000",
        b"01jan80000000",
        b"01J1N80000000",
        b"0AJAN80000000",
        b"01JAN8000000 ",
    ];
    for text in bad {
        assert!(rt; Stamp::parse(text).is_none(), "{text:?}");
    }
}

#[test]
fn listings_hold_their_lines(rt: HostRuntime) -> Result<(), Fail> {
    let line = Listed {
        name: a_txt(),
        version: 1,
        file: FIRST,
    };
    let mut lines = Vec::new(rt.alloc());
    lines.push(line)?;
    let listing = Listing::new(lines);
    assert!(rt; listing.names() == [line].as_slice());
    let empty = Listing::new(Vec::new(rt.alloc()));
    let answer = Answer::Names(listing);
    assert!(rt; Answer::Names(empty) != answer);
    assert!(rt; answer.copy()? == answer);
    let names = Listing::new([line].to_vec(rt.alloc())?).into_names();
    assert!(rt; names.as_slice() == [line].as_slice());
    Ok(())
}
