//! Files that are put into the sample volume with their bytes, seen by what the changed volume answers; and requests without a limit.
use super::changes::mounted;
use crate::persons::{FIRST, USER, a_txt, reserved_id};
use crate::same::same_block;
use crate::volumes::sample_of;
use ods_base::Block;
use ods_filing::{Filing, NewFile, put_contiguous, put_file};
use ods_header::{pointer_at, pointer_count};
use ods_look::{read, stat};
use ods_mount::check_image;
use ods_records::binary_attributes;
use ods_request::{Kind, Refusal, Request, Stamp};
use ods_space::primary_header;
use std::alloc::Global;
use std::test::Fail;

/// 1,000 bytes that tell their place, and none of which is 0.
fn some_bytes() -> [u8; 1000] {
    let mut bytes = [0; 1000];
    for k in 0..1000 {
        bytes[k] = (k % 251) as u8 + 1;
    }
    bytes
}

/// Requests of the user on the sample volume of 40 blocks.
fn filing(alloc: Global) -> Result<Filing, Fail> {
    let before = mounted(alloc, sample_of(40).image(alloc)?)?;
    Ok(Filing::new(alloc, before, USER)?)
}

/// A file of these bytes.
fn file_of(bytes: &[u8]) -> Result<NewFile<'_>, Fail> {
    Ok(NewFile {
        name: a_txt(),
        version: 1,
        stamp: Stamp::parse(b"01JAN80120000").ok_or("a stamp")?,
        attributes: binary_attributes(bytes.len().min(100_000) as u64),
        bytes,
    })
}

#[test]
fn bytes_stand_in_blocks_with_zeros_behind(rt: HostRuntime) -> Result<(), Fail> {
    let bytes = some_bytes();
    let file = file_of(&bytes)?;
    let mut filing = filing(rt.alloc())?;
    assert!(rt; put_file(&mut filing, &file)? == FIRST);
    let after = filing.into_mounted();
    let disk = after.disk();
    let shown = stat(&disk, FIRST)?;
    let kind = Kind::Plain {
        blocks: 2,
        attributes: file.attributes,
    };
    assert!(rt; shown.kind == kind && shown.owner == USER);
    let mut first = Block::zeros();
    first.set_bytes(0, &bytes[..512]);
    let mut second = Block::zeros();
    second.set_bytes(0, &bytes[512..]);
    assert!(rt; same_block(&read(&disk, USER, FIRST, 1)?, &first));
    assert!(rt; same_block(&read(&disk, USER, FIRST, 2)?, &second));
    assert!(rt; check_image(rt.alloc(), disk.image).is_ok());
    Ok(())
}

#[test]
fn no_bytes_take_no_block(rt: HostRuntime) -> Result<(), Fail> {
    let mut filing = filing(rt.alloc())?;
    assert!(rt; put_file(&mut filing, &file_of(&[])?)? == FIRST);
    let after = filing.into_mounted();
    let disk = after.disk();
    assert!(rt; read(&disk, USER, FIRST, 1) == Err(Refusal::NoSuchBlock));
    Ok(())
}

#[test]
fn file_in_one_piece_passes_a_hole_over(rt: HostRuntime) -> Result<(), Fail> {
    let mut filing = filing(rt.alloc())?;
    let hole = put_file(&mut filing, &file_of(&[1])?)?;
    assert!(rt; put_file(&mut filing, &file_of(&[2])?).is_ok());
    let gone = Request::Delete { file: hole };
    assert!(rt; filing.request(&gone).is_ok());
    let bytes = some_bytes();
    let id = put_contiguous(rt.alloc(), &mut filing, &file_of(&bytes)?)?;
    let after = filing.into_mounted();
    let disk = after.disk();
    // UC.CON is 200 octal, and one pointer maps both blocks.
    assert!(rt; stat(&disk, id)?.user_char == 128);
    let header = primary_header(&disk, id.number).ok_or("a header")?;
    assert!(rt; pointer_count(header) == 1 && pointer_at(header, 0).count == 2);
    let mut first = Block::zeros();
    first.set_bytes(0, &bytes[..512]);
    assert!(rt; same_block(&read(&disk, USER, id, 1)?, &first));
    assert!(rt; check_image(rt.alloc(), disk.image).is_ok());
    Ok(())
}

#[test]
fn what_has_no_room_is_refused(rt: HostRuntime) -> Result<(), Fail> {
    // 18 blocks are free.
    let bytes = [1; 512 * 18 + 1];
    let put = put_file(&mut filing(rt.alloc())?, &file_of(&bytes)?);
    assert!(rt; put == Err(Refusal::VolumeFull));
    Ok(())
}

#[test]
fn no_refused_request_is_one_too_many(rt: HostRuntime) -> Result<(), Fail> {
    let mut filing = filing(rt.alloc())?;
    for _ in 0..65_537 {
        let answer = filing.request(&Request::Stat { file: FIRST });
        assert!(rt; answer == Err(Refusal::NoSuchFile));
    }
    assert!(rt; put_file(&mut filing, &file_of(&some_bytes())?)? == FIRST);
    Ok(())
}

#[test]
fn no_accepted_request_is_one_too_many(rt: HostRuntime) -> Result<(), Fail> {
    let mut filing = filing(rt.alloc())?;
    for _ in 0..65_537 {
        let answer = filing.request(&Request::Stat {
            file: reserved_id(1),
        });
        assert!(rt; answer.is_ok());
    }
    assert!(rt; put_file(&mut filing, &file_of(&some_bytes())?)? == FIRST);
    Ok(())
}
