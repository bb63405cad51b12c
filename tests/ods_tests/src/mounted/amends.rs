//! Other owners, protections and labels: which bytes of which block differ, read byte by byte, and what is refused.
use super::changes::mounted;
use crate::contiguous::contiguous_file;
use crate::persons::{
    COLLEAGUE, DIR, FIRST, MASTER, NONE, OWNER, PROTECTION, STRANGER, SYSTEM, USER, a_txt, badblk,
    indexf, reserved_id,
};
use crate::same::same_image;
use crate::settings::{Refusing, ends};
use crate::volumes::{
    FileHeader, Variant, added, directory_attributes, in_two_headers, reserved, run, sample_of,
};
use ods_amend::{set_label, set_owner, set_protection};
use ods_base::{FileId, Image, Name, Uic, sum, word};
use ods_filing::Filing;
use ods_init::Label;
use ods_mount::Mounted;
use ods_request::Refusal;
use ods_volume::Sound;
use std::alloc::Global;
use std::process::Abort;
use std::test::Fail;

/// The header of the file that most of these tests change.
const HEADER: u32 = 8;

/// A directory that is added, file 6.
fn with_directory(alloc: Global) -> Result<Image, Fail> {
    let header = FileHeader {
        attributes: directory_attributes(1, 1, 0),
        ..added(6, Name::new([1_600, 0, 0], DIR))
    };
    Variant {
        headers: &[(HEADER, header.mapping(&[run(22, 1)]))],
        ..sample_of(40)
    }
    .image(alloc)
}

/// Fails where the images differ elsewhere than in these bytes of this block, or the block has another sum than its words.
fn differs_at(
    rt: &impl Abort,
    before: &Image,
    after: &Image,
    lbn: u32,
    places: &[usize],
) -> Result<(), Fail> {
    assert!(rt; before.len() == after.len());
    for at in 0..before.len() {
        for i in 0..512usize {
            let same = before.block(at).byte(i) == after.block(at).byte(i);
            let free = at == lbn && places.contains(&i);
            assert!(rt; same || free, "block {at}, byte {i}");
        }
    }
    let block = after.block(lbn);
    assert!(rt; word(block, 255) == sum(block, 255), "sum");
    Ok(())
}

/// What is asked of a file.
#[derive(Clone, Copy)]
enum Asked {
    Protection(u16),
    Owner(Uic),
}

fn ask(
    it: &mut Mounted,
    alloc: Global,
    who: Uic,
    file: FileId,
    asked: Asked,
) -> Result<(), Refusal> {
    match asked {
        Asked::Protection(word) => set_protection(it, alloc, who, file, word),
        Asked::Owner(owner) => set_owner(it, alloc, who, file, owner),
    }
}

/// Fails where the change is refused, or where other bytes of the volume differ than those of the field and the sum.
fn changes(
    rt: &impl Abort,
    alloc: Global,
    image: Image,
    who: Uic,
    asked: Asked,
) -> Result<(), Fail> {
    let before = image.copy()?;
    let mut it = mounted(alloc, image)?;
    ask(&mut it, alloc, who, FIRST, asked)?;
    let (after, _) = it.into_parts();
    let block = after.block(HEADER);
    let places = match asked {
        Asked::Protection(wanted) => {
            assert!(rt; word(block, 5) == wanted);
            [10, 11, 510, 511]
        }
        Asked::Owner(owner) => {
            assert!(rt; block.byte(8) == owner.member && block.byte(9) == owner.group);
            [8, 9, 510, 511]
        }
    };
    differs_at(rt, &before, &after, HEADER, &places)?;
    // The changed volume is mounted too.
    mounted(alloc, after)?;
    Ok(())
}

/// The volume where a user of no system group owns file 6.
fn owned(alloc: Global) -> Result<Image, Fail> {
    let mut it = mounted(alloc, contiguous_file(alloc, PROTECTION)?)?;
    set_owner(&mut it, alloc, USER, FIRST, OWNER)?;
    let (image, _) = it.into_parts();
    Ok(image)
}

/// A volume without a list has the blocks that a mounted one has behind the same changes.
#[test]
fn sound_volume_changes_as_a_mounted_one(rt: HostRuntime) -> Result<(), Fail> {
    let alloc = rt.alloc();
    let label = Label::parse("NEW.LABEL").ok_or("label")?;
    let mut it = mounted(alloc, contiguous_file(alloc, PROTECTION)?)?;
    set_owner(&mut it, alloc, SYSTEM, FIRST, OWNER)?;
    set_protection(&mut it, alloc, SYSTEM, FIRST, 0o123456)?;
    set_label(&mut it, alloc, &label)?;
    let Ok(mut sound) = Sound::new(alloc, mounted(alloc, contiguous_file(alloc, PROTECTION)?)?)
    else {
        return Err("sound".into());
    };
    sound.set_owner(SYSTEM, FIRST, OWNER)?;
    sound.set_protection(SYSTEM, FIRST, 0o123456)?;
    sound.set_label(&label)?;
    assert!(&rt; same_image(sound.mounted().image(), it.image()), "sound");
    let volume = mounted(alloc, contiguous_file(alloc, PROTECTION)?)?;
    let mut filing = Filing::new(alloc, volume, SYSTEM)?;
    filing.set_access(FIRST, Some(OWNER), Some(0o123456))?;
    filing.set_label(&label)?;
    assert!(&rt; same_image(filing.mounted().image(), it.image()), "filing");
    Ok(())
}

#[test]
fn one_field_and_the_sum_differ(rt: HostRuntime) -> Result<(), Fail> {
    let alloc = rt.alloc();
    for asked in [
        Asked::Protection(0),
        Asked::Protection(0o177777),
        Asked::Protection(0o123456),
        Asked::Owner(STRANGER),
        Asked::Owner(Uic {
            group: 255,
            member: 254,
        }),
    ] {
        changes(&rt, alloc, contiguous_file(alloc, PROTECTION)?, USER, asked)?;
        changes(&rt, alloc, contiguous_file(alloc, 0o177777)?, SYSTEM, asked)?;
        changes(&rt, alloc, with_directory(alloc)?, USER, asked)?;
        // Of a file of two headers the first one changes alone.
        let long = in_two_headers(alloc, a_txt(), &[run(22, 2)], &[run(24, 1)])?;
        changes(&rt, alloc, long, USER, asked)?;
        changes(&rt, alloc, owned(alloc)?, OWNER, asked)?;
    }
    Ok(())
}

#[test]
fn refused_changes_nothing(rt: HostRuntime) -> Result<(), Fail> {
    let alloc = rt.alloc();
    let stale = FileId {
        number: 6,
        sequence: 2,
    };
    for asked in [Asked::Protection(0), Asked::Owner(STRANGER)] {
        for (who, file, wanted) in [
            (USER, NONE, Refusal::NoSuchFile),
            (STRANGER, stale, Refusal::NoSuchFile),
            (USER, reserved_id(1), Refusal::Reserved),
            (STRANGER, MASTER, Refusal::Reserved),
            (USER, reserved_id(5), Refusal::Reserved),
            (STRANGER, FIRST, Refusal::Denied),
            (COLLEAGUE, FIRST, Refusal::Denied),
        ] {
            let image = owned(alloc)?;
            let before = image.copy()?;
            let mut it = mounted(alloc, image)?;
            let Err(refusal) = ask(&mut it, alloc, who, file, asked) else {
                return Err("not refused")?;
            };
            assert!(&rt; refusal == wanted, "{refusal:?}");
            assert!(&rt; same_image(it.image(), &before), "changed");
        }
    }
    Ok(())
}

/// A label of each length, with its 12 bytes padded with zero bytes and with spaces.
const LABELS: [(&str, &[u8; 12], &[u8; 12]); 4] = [
    ("A", b"A\0\0\0\0\0\0\0\0\0\0\0", b"A           "),
    ("rsx.11", b"RSX.11\0\0\0\0\0\0", b"RSX.11      "),
    ("ABCDEFGHIJKL", b"ABCDEFGHIJKL", b"ABCDEFGHIJKL"),
    ("0.9", b"0.9\0\0\0\0\0\0\0\0\0", b"0.9         "),
];

/// The sample volume of 512 blocks whose home block stands at LBN 256: LBN 1 is BADBLK.SYS's, so no request writes it.
fn late_home(alloc: Global) -> Result<Image, Fail> {
    let index = added(1, indexf()).mapping(&[run(0, 1), run(256, 1), run(2, 17)]);
    let third = reserved(3, badblk()).mapping(&[run(1, 1)]);
    Variant {
        home: 256,
        headers: &[(3, index), (5, third)],
        storage_bits: &[(1, false)],
        ..sample_of(512)
    }
    .image(alloc)
}

/// The bytes of a home block that a label may change: H.VNAM, its copy, and both sums.
fn label_places(alloc: Global) -> Result<Vec<usize>, Fail> {
    let mut places = vec![in alloc; 58, 59, 510, 511]?;
    for i in 0..12usize {
        places.push(14 + i)?;
        places.push(472 + i)?;
    }
    Ok(places)
}

/// Fails where a volume with its home block at this LBN does not get each of the labels, or differs elsewhere then.
fn takes_labels(rt: &impl Abort, alloc: Global, image: Image, lbn: u32) -> Result<(), Fail> {
    let places = label_places(alloc)?;
    let mut it = mounted(alloc, image)?;
    for (text, name, copy) in LABELS {
        let before = it.image().copy()?;
        set_label(&mut it, alloc, &Label::parse(text).ok_or("label")?)?;
        let home = it.image().block(lbn);
        assert!(rt; home.bytes()[14..26] == name[..] && home.bytes()[472..484] == copy[..]);
        assert!(rt; word(home, 29) == sum(home, 29), "first sum");
        differs_at(rt, &before, it.image(), lbn, places.as_slice())?;
    }
    let (after, _) = it.into_parts();
    mounted(alloc, after)?;
    Ok(())
}

#[test]
fn labels(rt: HostRuntime) -> Result<(), Fail> {
    let alloc = rt.alloc();
    takes_labels(&rt, alloc, sample_of(40).image(alloc)?, 1)?;
    takes_labels(&rt, alloc, contiguous_file(alloc, PROTECTION)?, 1)?;
    takes_labels(&rt, alloc, late_home(alloc)?, 256)
}

/// Fails where memory that is refused changes the volume, or is refused twice.
#[test]
fn refused_memory_amends(rt: HostRuntime) -> Result<(), Fail> {
    let alloc = rt.alloc();
    let mut refusing = Refusing::of(&rt);
    let mut it = mounted(alloc, contiguous_file(alloc, PROTECTION)?)?;
    let before = it.image().copy()?;
    let label = Label::parse("RSX").ok_or("label")?;
    if set_label(&mut it, alloc, &label).is_err() {
        refusing.meets(&rt);
        assert!(rt; same_image(it.image(), &before), "changed");
        set_label(&mut it, alloc, &label)?;
    }
    let before = it.image().copy()?;
    if let Err(refusal) = set_protection(&mut it, alloc, USER, FIRST, 0) {
        assert!(rt; refusal == Refusal::NoMemory);
        refusing.meets(&rt);
        assert!(rt; same_image(it.image(), &before), "changed");
        set_protection(&mut it, alloc, USER, FIRST, 0)?;
    }
    ends(&rt, alloc);
    Ok(())
}
