//! Directories in memory, for the tests of directories.
ghost use Rattle.std.specs.Prelude.{◌*◌, ◌^◌, ◌<◌, ◌≤◌, OnOk, vec_len};
ghost use Rattle.ods_directory.specs.Names.{IsDirectory};

use ods_base::Block;
use ods_directory::{DirBlocks, Tags, Verdict, check};
use std::alloc::{AllocError, Global};
use std::process::Abort;

/// Blocks in memory.
#[derive(Drop)]
pub struct Kept {
    pub blocks: Vec<Block>,
    ghost few: { vec_len blocks < 2 ^ 32 },
}

impl DirBlocks for Kept {
    ghost use Rattle.std.specs.Prelude.{◌≡◌, drop};

    ghost blocks = { λ k. k.blocks.items };

    /// The number of the next block.
    type Cursor = u32;

    ghost leads = { λ k i rest. rest ≡ drop i k.blocks.items };

    fn count(&self) -> u32 {
        self.blocks.len() as u32
    }

    fn block(&self, i: u32) -> &Block {
        let block = &self.blocks[i as usize];
        let _ = block.bytes();
        block
    }

    fn tags(&self) -> Option<&[Tags]> {
        None
    }

    fn cursor(&self) -> u32 {
        0
    }

    fn next(&self, cursor: &mut u32) -> &Block {
        let i = *cursor;
        *cursor += 1;
        &self.blocks[i as usize]
    }
}

/// The entries of INDEXF.SYS and BITMAP.SYS in the master directory of the samples.
pub const INDEXF_ENTRY: [u8; 16] = [
    1, 0, 1, 0, 0, 0, 0x74, 0x3a, 0x06, 0x23, 0, 0, 0xbb, 0x7a, 1, 0,
];

pub const BITMAP_ENTRY: [u8; 16] = [
    2, 0, 2, 0, 0, 0, 0xfc, 0x0d, 0x78, 0x51, 0, 0, 0xbb, 0x7a, 1, 0,
];

/// `count` blocks of zeros.
pub fn zeroed(alloc: Global, count: usize) -> Result<Kept, AllocError>
    requires { count < 2 ^ 32 }
{
    let blocks = vec![in alloc; Block::zeros(); count]?;
    Ok(Kept { blocks })
}

/// Puts the bytes of an entry at a place.
pub fn put(rt: &impl Abort, kept: &mut Kept, at: u64, bytes: &[u8; 16]) {
    let i = (at / 512) as usize;
    let from = (at % 512) as usize;
    assert!(rt; i < kept.blocks.len());
    assert!(rt; from <= 496);
    let mut block = kept.blocks[i];
    block.set_bytes(from, bytes);
    kept.blocks[i] = block;
}

/// Fails where the blocks are no directory up to this mark.
pub fn demand(rt: &impl Abort, alloc: Global, kept: &Kept, mark: u64) -> Result<(), AllocError>
    ensures directory { OnOk result (IsDirectory kept.now.blocks.items mark) }
    ensures mark { OnOk result (mark ≤ 512 * vec_len kept.now.blocks) }
{
    assert!(rt; mark <= 512 * u64::from(kept.count()));
    match check(alloc, kept, mark)? {
        Verdict::Good => Ok(()),
        Verdict::BadEntry => panic!(rt; "a bad entry"),
        Verdict::Twice => panic!(rt; "two of one name"),
    }
}
