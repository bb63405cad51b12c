//! The sample volume with one contiguous file on it, and who may do what with that file.
use crate::persons::{FIRST, c_dat, stat_of};
use crate::volumes::{FileHeader, Variant, added, run, sample_of};
use ods_base::{Image, Uic};
use ods_request::{Kind, Stat};
use std::alloc::Global;
use std::test::Fail;

/// A protection by which the world may do nothing.
pub const WORLD_DENIED: u16 = 0o170000;

/// A user with no right but the world's.
pub const WORLD: Uic = Uic {
    group: 128,
    member: 1,
};

/// The sample volume of 40 blocks with C.DAT, file 6,1 with this protection: one block, LBN 22.
pub fn contiguous_file(alloc: Global, protection: u16) -> Result<Image, Fail> {
    let header = FileHeader {
        protection,
        user_char: 0o200,
        ..added(6, c_dat())
    };
    Variant {
        headers: &[(8, header.mapping(&[run(22, 1)]))],
        ..sample_of(40)
    }
    .image(alloc)
}

/// What is shown of it where the world may read it.
pub fn contiguous_stat(attributes: [u8; 32]) -> Stat {
    let kind = Kind::Plain {
        blocks: 1,
        attributes,
    };
    stat_of(FIRST, &c_dat(), 0o200, kind)
}
