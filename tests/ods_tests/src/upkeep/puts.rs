//! `put`: targets, versions, forms, `--form`, `--like`, `--replace` and `--owner`.
use super::{
    asked, bytes_of, done, filing_for, has, is_refused, paths, put, the, try_put, volume_of,
};
use crate::volumes::{Variant, sample_of};
use ods_base::Uic;
use ods_mount::mount;
use ods_records::RecordFault;
use ods_request::Refusal;
use ods_shell::{PathFault, Wanted, space_of};
use ods_upkeep::{HostFile, PutFault, PutForm, Putting, Why};
use std::process::Abort;
use std::test::Fail;

#[test]
fn text_is_put_as_records(rt: HostRuntime) -> Result<(), Fail> {
    let alloc = rt.alloc();
    let volume = put(
        alloc,
        volume_of(alloc, 40)?,
        "[0,0]",
        "notes.txt",
        b"AB\nC\n",
    )?;
    assert!(rt; paths(alloc, &volume, "NOTES.*;*")?.as_str() == "[0,0]NOTES.TXT;1 ");
    assert!(rt; has(alloc, &volume, "NOTES.TXT", b"AB\nC\n")?);
    let raw = bytes_of(alloc, &volume, "NOTES.TXT", Wanted::Binary)?;
    assert!(rt; raw.as_slice() == b"\x02\0AB\x01\0C\0".as_slice());
    let facts = the(alloc, &volume, "NOTES.TXT")?.facts.ok_or("a file")?;
    assert!(rt; facts.attributes[..14] == [2, 2, 2, 0, 0, 0, 1, 0, 0, 0, 1, 0, 8, 0]);
    assert!(rt; facts.blocks == 1 && facts.ident[8] == 1);
    Ok(())
}

#[test]
fn other_bytes_are_put_as_they_are(rt: HostRuntime) -> Result<(), Fail> {
    let alloc = rt.alloc();
    let volume = put(alloc, volume_of(alloc, 40)?, "A.DAT", "x", &[7; 600])?;
    let facts = the(alloc, &volume, "A.DAT")?.facts.ok_or("a file")?;
    assert!(rt; facts.attributes[..14] == [1, 0, 0, 2, 0, 0, 2, 0, 0, 0, 2, 0, 88, 0]);
    assert!(rt; facts.blocks == 2 && facts.bytes == 600);
    assert!(rt; has(alloc, &volume, "A.DAT", &[7; 600])?);
    Ok(())
}

#[test]
fn a_name_gets_its_next_version(rt: HostRuntime) -> Result<(), Fail> {
    let alloc = rt.alloc();
    let volume = put(alloc, volume_of(alloc, 40)?, "A.TXT;7", "x", b"1\n")?;
    let volume = put(alloc, volume, "A.TXT", "x", b"2\n")?;
    assert!(rt; paths(alloc, &volume, "A.TXT;*")?.as_str() == "[0,0]A.TXT;8 [0,0]A.TXT;7 ");
    let facts = the(alloc, &volume, "A.TXT")?.facts.ok_or("a file")?;
    assert!(rt; facts.ident[8] == 8);
    let taken = try_put(
        alloc,
        volume,
        Some("A.TXT;7"),
        "x",
        b"",
        PutForm::Binary,
        None,
        false,
    );
    assert!(rt; is_refused(taken, "x", Why::Request(Refusal::NameTaken)));
    Ok(())
}

#[test]
fn several_files_go_into_a_directory(rt: HostRuntime) -> Result<(), Fail> {
    let alloc = rt.alloc();
    let asked = asked()?;
    let mut filing = filing_for(alloc, volume_of(alloc, 40)?, asked.user);
    let begun = Putting::begin(
        alloc,
        filing.mounted(),
        asked.stamp,
        None,
        true,
        PutForm::ByContents,
        None,
        None,
        false,
        None,
    );
    let mut putting = begun.ok().ok_or("begun")?;
    let a = HostFile {
        name: "a.txt",
        bytes: b"1\n",
    };
    let remark = putting.put(alloc, &mut filing, &a).ok().ok_or("a")?;
    assert!(rt; remark.is_none());
    let b = HostFile {
        name: "b",
        bytes: b"2",
    };
    let remark = putting.put(alloc, &mut filing, &b).ok().ok_or("b")?;
    let said = "stored as bytes, because the last line has no LF; -t stores lines as records";
    let remark = remark.ok_or("a remark")?;
    assert!(rt; remark.as_str() == said);
    let volume = done(alloc, Ok(filing.into_mounted()))?;
    assert!(rt; paths(alloc, &volume, "?.*")?.as_str() == "[0,0]A.TXT;1 [0,0]B.;1 ");
    let several = Putting::begin(
        alloc,
        &volume,
        asked.stamp,
        Some("C.TXT"),
        true,
        PutForm::Text,
        None,
        None,
        false,
        None,
    );
    assert!(rt; is_refused(several, "C.TXT", Why::Several));
    Ok(())
}

#[test]
fn headers_come_before_several_files(rt: HostRuntime) -> Result<(), Fail> {
    let alloc = rt.alloc();
    let asked = asked()?;
    let image = Variant {
        most_files: 20,
        ..sample_of(40)
    }
    .image(alloc)?;
    let volume = mount(alloc, image).ok().ok_or("a sound image")?;
    let mut filing = filing_for(alloc, volume, asked.user);
    let begun = Putting::begin(
        alloc,
        filing.mounted(),
        asked.stamp,
        None,
        true,
        PutForm::ByContents,
        None,
        None,
        false,
        None,
    );
    let mut putting = begun.ok().ok_or("begun")?;
    let before = space_of(filing.mounted());
    assert!(rt; before.free == 18 && before.ready == 11);
    // Five more than are ready are past H.FMAX, and nothing changes.
    putting.make_ready(&mut filing, 16);
    assert!(rt; space_of(filing.mounted()) == before);
    putting.make_ready(&mut filing, 15);
    let after = space_of(filing.mounted());
    assert!(rt; after.free == 14 && after.ready == 15 && after.numbers == before.numbers);
    let host = HostFile {
        name: "a.txt",
        bytes: b"1\n",
    };
    putting.put(alloc, &mut filing, &host).ok().ok_or("put")?;
    let volume = done(alloc, Ok(filing.into_mounted()))?;
    assert!(rt; has(alloc, &volume, "A.TXT", b"1\n")?);
    Ok(())
}

#[test]
fn a_last_line_is_remarked(rt: HostRuntime) -> Result<(), Fail> {
    let alloc = rt.alloc();
    let asked = asked()?;
    let mut filing = filing_for(alloc, volume_of(alloc, 40)?, asked.user);
    let begun = Putting::begin(
        alloc,
        filing.mounted(),
        asked.stamp,
        None,
        false,
        PutForm::Text,
        None,
        None,
        false,
        None,
    );
    let mut putting = begun.ok().ok_or("begun")?;
    let host = HostFile {
        name: "a.txt",
        bytes: b"1\r\n2",
    };
    let remark = putting.put(alloc, &mut filing, &host).ok().ok_or("put")?;
    assert!(rt; remark.is_some());
    let volume = done(alloc, Ok(filing.into_mounted()))?;
    assert!(rt; has(alloc, &volume, "A.TXT", b"1\n2\n")?);
    Ok(())
}

#[test]
fn a_file_is_made_like_another(rt: HostRuntime) -> Result<(), Fail> {
    let alloc = rt.alloc();
    let volume = put(alloc, volume_of(alloc, 40)?, "A.TXT", "x", b"longer\n")?;
    let like = try_put(
        alloc,
        volume,
        Some("B.TXT"),
        "x",
        b"1\n",
        PutForm::ByContents,
        Some("A.TXT"),
        false,
    );
    let volume = done(alloc, like)?;
    let facts = the(alloc, &volume, "B.TXT")?.facts.ok_or("a file")?;
    assert!(rt; facts.attributes[..14] == [2, 2, 6, 0, 0, 0, 1, 0, 0, 0, 1, 0, 4, 0]);
    let none = try_put(
        alloc,
        volume,
        Some("B.TXT"),
        "x",
        b"",
        PutForm::Text,
        Some("C.TXT"),
        false,
    );
    assert!(rt; is_refused(none, "C.TXT", Why::Path(PathFault::Nothing)));
    Ok(())
}

#[test]
fn bytes_are_put_like_those_of_another(rt: HostRuntime) -> Result<(), Fail> {
    let alloc = rt.alloc();
    let volume = put(alloc, volume_of(alloc, 40)?, "A.TXT", "x", b"longer\n")?;
    let like = try_put(
        alloc,
        volume,
        Some("B.TXT"),
        "x",
        b"\x01\0C\0",
        PutForm::Binary,
        Some("A.TXT"),
        false,
    );
    let volume = done(alloc, like)?;
    let facts = the(alloc, &volume, "B.TXT")?.facts.ok_or("a file")?;
    assert!(rt; facts.attributes[..14] == [2, 2, 6, 0, 0, 0, 1, 0, 0, 0, 1, 0, 4, 0]);
    assert!(rt; has(alloc, &volume, "B.TXT", b"C\n")?);
    let long = try_put(
        alloc,
        volume,
        Some("C.TXT"),
        "x",
        b"\x07\0longest\0",
        PutForm::Binary,
        Some("A.TXT"),
        false,
    );
    assert!(rt; is_refused(long, "x", Why::Put(PutFault::LongRecord(7, 6))));
    Ok(())
}

#[test]
fn bytes_are_put_in_a_form(rt: HostRuntime) -> Result<(), Fail> {
    let alloc = rt.alloc();
    let made = try_put(
        alloc,
        volume_of(alloc, 40)?,
        Some("A.OBJ"),
        "x",
        b"\x02\0AB\x01\0C",
        PutForm::Said([2, 0, 128, 0]),
        None,
        false,
    );
    let volume = done(alloc, made)?;
    let facts = the(alloc, &volume, "A.OBJ")?.facts.ok_or("a file")?;
    assert!(rt; facts.attributes[..14] == [2, 0, 128, 0, 0, 0, 1, 0, 0, 0, 1, 0, 7, 0]);
    let cut = try_put(
        alloc,
        volume,
        Some("B.OBJ"),
        "x",
        b"\x02\0AB\x05\0C",
        PutForm::Said([2, 0, 128, 0]),
        None,
        false,
    );
    let fault = PutFault::NoRecords(RecordFault::PastEnd(4));
    assert!(rt; is_refused(cut, "x", Why::Put(fault)));
    Ok(())
}

#[test]
fn a_file_is_made_for_its_owner(rt: HostRuntime) -> Result<(), Fail> {
    let alloc = rt.alloc();
    let owner = Uic {
        group: 7,
        member: 8,
    };
    let asked = asked()?;
    let mut filing = filing_for(alloc, volume_of(alloc, 40)?, asked.user);
    let begun = Putting::begin(
        alloc,
        filing.mounted(),
        asked.stamp,
        Some("A.TXT"),
        false,
        PutForm::ByContents,
        None,
        None,
        false,
        Some(owner),
    );
    let mut putting = begun.ok().ok_or("begun")?;
    let host = HostFile {
        name: "x",
        bytes: b"1\n",
    };
    putting.put(alloc, &mut filing, &host).ok().ok_or("put")?;
    let volume = done(alloc, Ok(filing.into_mounted()))?;
    let facts = the(alloc, &volume, "A.TXT")?.facts.ok_or("a file")?;
    assert!(rt; facts.owner == owner);
    assert!(rt; has(alloc, &volume, "A.TXT", b"1\n")?);
    Ok(())
}

#[test]
fn a_file_is_replaced(rt: HostRuntime) -> Result<(), Fail> {
    let alloc = rt.alloc();
    let volume = put(alloc, volume_of(alloc, 40)?, "A.TXT;3", "x", b"old\n")?;
    let free = the(alloc, &volume, "A.TXT")?.facts.ok_or("a file")?.file;
    let other = try_put(
        alloc,
        volume,
        Some("A.TXT"),
        "x",
        b"new\n",
        PutForm::ByContents,
        None,
        true,
    );
    let volume = done(alloc, other)?;
    assert!(rt; paths(alloc, &volume, "A.TXT;*")?.as_str() == "[0,0]A.TXT;3 ");
    assert!(rt; has(alloc, &volume, "A.TXT", b"new\n")?);
    let file = the(alloc, &volume, "A.TXT")?.facts.ok_or("a file")?.file;
    assert!(rt; file.number == free.number && file.sequence == free.sequence + 1);
    Ok(())
}

#[test]
fn what_is_no_name_is_not_put(rt: HostRuntime) -> Result<(), Fail> {
    let alloc = rt.alloc();
    for name in ["-", "a.b.c", "longername1", "a.long", "a;1"] {
        let volume = volume_of(alloc, 40)?;
        let put = try_put(alloc, volume, None, name, b"", PutForm::Text, None, false);
        assert!(rt; is_refused(put, name, Why::BadName), "{name}");
    }
    let untyped = try_put(
        alloc,
        volume_of(alloc, 40)?,
        None,
        "a_b",
        b"",
        PutForm::Text,
        None,
        false,
    );
    assert!(rt; is_refused(untyped, "a_b", Why::Put(PutFault::Untyped('_'))));
    let directory = try_put(
        alloc,
        volume_of(alloc, 40)?,
        None,
        "a.dir",
        b"",
        PutForm::Text,
        None,
        false,
    );
    assert!(rt; is_refused(directory, "a.dir", Why::DirectoryType));
    let full = try_put(
        alloc,
        volume_of(alloc, 40)?,
        None,
        "a",
        &[0; 9_217],
        PutForm::Binary,
        None,
        false,
    );
    assert!(rt; is_refused(full, "a", Why::Request(Refusal::VolumeFull)));
    Ok(())
}
