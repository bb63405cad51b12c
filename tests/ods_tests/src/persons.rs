//! The users, files and names that tests ask about, and what is shown of them: those of the sample volumes, and of the files that
//! tests add to them.
use ods_base::{Block, FileId, Listed, Name, Uic};
use ods_request::{Kind, Listing, Stat};
use std::alloc::{AllocError, Global};

/// The protection of the samples' files, and of new files: the world may only read.
pub const PROTECTION: u16 = 0o160000;

/// A user of the system's group, who owns the samples' files.
pub const USER: Uic = Uic {
    group: 1,
    member: 1,
};

/// Another user of the system's group.
pub const SYSTEM: Uic = Uic {
    group: 1,
    member: 2,
};

/// A user of no system group.
pub const OWNER: Uic = Uic {
    group: 0o20,
    member: 1,
};

/// Another user of that group.
pub const COLLEAGUE: Uic = Uic {
    group: 0o20,
    member: 2,
};

/// A user of another group.
pub const STRANGER: Uic = Uic {
    group: 0o21,
    member: 1,
};

/// The master directory.
pub const MASTER: FileId = FileId {
    number: 4,
    sequence: 4,
};

/// The first file that is added to a sample, or made on it.
pub const FIRST: FileId = FileId {
    number: 6,
    sequence: 1,
};

/// The second one.
pub const SECOND: FileId = FileId {
    number: 7,
    sequence: 1,
};

/// No file's ID.
pub const NONE: FileId = FileId {
    number: 0,
    sequence: 0,
};

/// The type word of `SYS`.
pub const SYS: u16 = 31_419;

/// The type word of `DIR`.
pub const DIR: u16 = 6_778;

/// The type word of `TXT`.
pub const TXT: u16 = 32_980;

/// The type word of `DAT`.
pub const DAT: u16 = 6_460;

/// INDEXF.SYS, file 1.
pub fn indexf() -> Name {
    Name::new([14_964, 8_966, 0], SYS)
}

/// BITMAP.SYS, file 2.
pub fn bitmap() -> Name {
    Name::new([3_580, 20_856, 0], SYS)
}

/// BADBLK.SYS, file 3.
pub fn badblk() -> Name {
    Name::new([3_244, 3_691, 0], SYS)
}

/// 000000.DIR, file 4: the master directory.
pub fn master() -> Name {
    Name::new([49_230, 49_230, 0], DIR)
}

/// CORIMG.SYS, file 5.
pub fn corimg() -> Name {
    Name::new([5_418, 14_927, 0], SYS)
}

/// A.TXT
pub fn a_txt() -> Name {
    Name::new([1_600, 0, 0], TXT)
}

/// B.TXT
pub fn b_txt() -> Name {
    Name::new([3_200, 0, 0], TXT)
}

/// C.DAT
pub fn c_dat() -> Name {
    Name::new([4_800, 0, 0], DAT)
}

/// The ID of one of the files 1 to 5.
pub fn reserved_id(number: u16) -> FileId {
    FileId {
        number,
        sequence: number,
    }
}

/// The names of the samples' master directory with the numbers of their files, in the order of the names.
pub fn reserved_names() -> [(Name, u16); 5] {
    [
        (badblk(), 3),
        (bitmap(), 2),
        (corimg(), 5),
        (indexf(), 1),
        (master(), 4),
    ]
}

/// What is listed of the samples' master directory.
pub fn reserved_lines(alloc: Global) -> Result<Listing, AllocError> {
    let mut lines = Vec::new(alloc);
    for (name, number) in reserved_names() {
        lines.push(Listed {
            name,
            version: 1,
            file: reserved_id(number),
        })?;
    }
    Ok(Listing::new(lines))
}

/// An ident area with this name and version 1, and zeros behind it.
pub fn ident(name: &Name) -> [u8; 46] {
    let [first, second, third] = name.words();
    let mut ident = [0; 46];
    ident[..2].copy_from_slice(&first.to_le_bytes());
    ident[2..4].copy_from_slice(&second.to_le_bytes());
    ident[4..6].copy_from_slice(&third.to_le_bytes());
    ident[6..8].copy_from_slice(&name.ext().to_le_bytes());
    ident[8] = 1;
    ident
}

/// What is shown of a file with this name that USER owns.
pub fn stat_of(file: FileId, name: &Name, user_char: u8, kind: Kind) -> Stat {
    Stat {
        file,
        ident: ident(name),
        owner: USER,
        protection: PROTECTION,
        user_char,
        system_char: 0,
        kind,
    }
}

/// What is shown of INDEXF.SYS.
pub fn index_stat() -> Stat {
    stat_of(reserved_id(1), &indexf(), 0, Kind::System)
}

/// Attributes with F.RTYP 2, and zeros.
pub fn other_attributes() -> [u8; 32] {
    let mut attributes = [0; 32];
    attributes[0] = 2;
    attributes
}

/// A block of the letter A and zeros.
pub fn letter_a() -> Block {
    let mut block = Block::zeros();
    block.set_bytes(0, b"A");
    block
}

/// A free block of a sample: every byte is 5a.
pub fn old_block() -> Block {
    Block::new([0x5a; 512])
}
