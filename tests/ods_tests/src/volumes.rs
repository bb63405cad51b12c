//! The volumes that tests are made on: a sample volume, and in what a variant differs from it. `ods_cli::sample` makes the samples of
//! 40 and 512 blocks; what is put on them is put by its place, so a test names it as a description of the volume does.
ghost use Rattle.std.specs.Prelude.{◌<◌};

use crate::persons::{PROTECTION, USER, bitmap, ident, reserved_id};
use arrayvec::ArrayVec;
use ods_base::{Block, FileId, Image, Name, set_word, sum, word};
use ods_cli::sample;
use ods_header::{Header, Run, read_header, write_header};
use std::alloc::Global;
use std::test::Fail;

/// A volume for a test. What it has of its own is put on the sample in this order: the home block, the headers, the bits of both
/// bitmaps, single bytes.
#[derive(Clone, Copy)]
pub struct Variant<'a> {
    /// 40, 512 or 4,200.
    pub blocks: u32,
    /// H.FMAX.
    pub most_files: u16,
    /// Where the home block stands; where it is not LBN 1, LBN 1 is zeros.
    pub home: u32,
    /// Headers that are added, or stand in place of the sample's, each with its LBN. Its index bit is set, and the storage bits of the
    /// blocks that it maps are cleared.
    pub headers: &'a [(u32, Block)],
    /// Index bits that are not as the headers have them: a number, and whether it is in use.
    pub index_bits: &'a [(u16, bool)],
    /// Storage bits that are not as the headers have them: an LBN, and whether it is free.
    pub storage_bits: &'a [(u32, bool)],
    /// Bytes that are put in last, with no sum made anew: an LBN, a place in the block, and the byte there.
    pub bytes: &'a [(u32, usize, u8)],
}

/// The sample volume of 40, 512 or 4,200 blocks.
pub fn sample_of<'a>(blocks: u32) -> Variant<'a> {
    Variant {
        blocks,
        most_files: 16,
        home: 1,
        headers: &[],
        index_bits: &[],
        storage_bits: &[],
        bytes: &[],
    }
}

/// What the headers that tests add differ in: the rest is as in the samples' own.
#[derive(Clone, Copy)]
pub struct FileHeader {
    pub file: FileId,
    pub name: Name,
    pub protection: u16,
    pub user_char: u8,
    pub attributes: [u8; 32],
    /// M.ESQN: 0 in the first header of a chain.
    pub segment: u8,
    /// The number of the next header, whose sequence number is 1; 0 for none.
    pub next: u16,
    /// M.CTSZ, 1 in pointers of format 1.
    pub count_size: u8,
}

/// What a retrieval pointer maps: the first block, and how many.
pub fn run(lbn: u32, count: u16) -> Run {
    Run { lbn, count }
}

/// The first header of a file with sequence number 1.
pub fn added(number: u16, name: Name) -> FileHeader {
    FileHeader {
        file: FileId {
            number,
            sequence: 1,
        },
        name,
        protection: PROTECTION,
        user_char: 0,
        attributes: [0; 32],
        segment: 0,
        next: 0,
        count_size: 1,
    }
}

/// The first header of one of the files 1 to 5.
pub fn reserved(number: u16, name: Name) -> FileHeader {
    FileHeader {
        file: reserved_id(number),
        ..added(number, name)
    }
}

/// The attributes of a directory of so many blocks, which ends at this byte (F.FFBY) of this block (F.EFBK): records of 16 bytes,
/// none of which crosses into the next block.
pub fn directory_attributes(blocks: u8, block: u8, byte: u8) -> [u8; 32] {
    let mut attributes = [0; 32];
    attributes[0] = 1;
    attributes[2] = 16;
    attributes[6] = blocks;
    attributes[10] = block;
    attributes[12] = byte;
    attributes
}

/// The sample volume of 40 blocks with a file of two headers, files 6,1 and 7,1, which map these runs.
pub fn in_two_headers(
    alloc: Global,
    name: Name,
    first: &[Run],
    second: &[Run],
) -> Result<Image, Fail> {
    Variant {
        headers: &[
            (8, added(6, name).before(7).mapping(first)),
            (9, added(7, name).second().mapping(second)),
        ],
        ..sample_of(40)
    }
    .image(alloc)
}

impl FileHeader {
    /// The same header, with this next one in its chain; 0 for none.
    pub fn before(self, next: u16) -> FileHeader {
        FileHeader { next, ..self }
    }

    /// The same header as the second one of its chain.
    pub fn second(self) -> FileHeader {
        FileHeader { segment: 1, ..self }
    }

    /// The block of the header with these retrieval pointers, and its sum.
    pub fn mapping(&self, runs: &[Run]) -> Block {
        let mut pointers = ArrayVec::new();
        for run in runs {
            let _ = pointers.try_push(*run);
        }
        let mut block = write_header(&Header {
            file: self.file,
            owner: USER,
            protection: self.protection,
            user_char: self.user_char,
            system_char: 0,
            attributes: self.attributes,
            ident: ident(&self.name),
            segment: self.segment,
            next: FileId {
                number: self.next,
                sequence: self.next.min(1),
            },
            next_volume: 0,
            ident_offset: 23,
            map_offset: 46,
            most_words: 204,
            pointers,
        });
        block.set_bytes(98, &[self.count_size]);
        set_sum(&mut block, 255);
        block
    }
}

impl Variant<'_> {
    /// The volume.
    pub fn image(&self, alloc: Global) -> Result<Image, Fail> {
        let mut image = whole_sample(alloc, self.blocks)?;
        self.put_home(&mut image)?;
        for (lbn, header) in self.headers {
            put_header(&mut image, *lbn, header)?;
        }
        self.put_bits(&mut image)?;
        for (lbn, at, byte) in self.bytes {
            put_bytes(&mut image, *lbn, *at, &[*byte])?;
        }
        Ok(image)
    }

    /// The bytes of the volume.
    pub fn image_bytes(&self, alloc: Global) -> Result<Vec<u8>, Fail> {
        let image = self.image(alloc)?;
        let mut bytes = Vec::with_capacity(alloc, 512 * image.len() as usize)?;
        image.write_to(&mut bytes)?;
        Ok(bytes)
    }

    /// Makes the home block and puts it where it stands.
    fn put_home(&self, image: &mut Image) -> Result<(), Fail> {
        let mut home = *block_of(image, 1)?;
        set_word(&mut home, 3, self.most_files);
        set_sum(&mut home, 29);
        set_sum(&mut home, 255);
        put_bytes(image, 1, 0, Block::zeros().bytes())?;
        put_bytes(image, self.home, 0, home.bytes())
    }

    /// Puts the bits that are not as the headers have them.
    fn put_bits(&self, image: &mut Image) -> Result<(), Fail> {
        for (number, is_used) in self.index_bits {
            set_in_use(image, *number, *is_used)?;
        }
        for (lbn, is_free) in self.storage_bits {
            set_free(image, *lbn, *is_free)?;
        }
        Ok(())
    }
}

/// The block at this LBN.
pub fn block_of(image: &Image, lbn: u32) -> Result<&Block, Fail> {
    if lbn < image.len() {
        Ok(image.block(lbn))
    } else {
        Err("no such block".into())
    }
}

/// The sample volume of 40, 512 or 4,200 blocks.
fn whole_sample(alloc: Global, blocks: u32) -> Result<Image, Fail> {
    match blocks {
        40 => Ok(Image::from_bytes(alloc, &sample(alloc, 40)?)?),
        512 => Ok(Image::from_bytes(alloc, &sample(alloc, 512)?)?),
        4_200 => large_sample(alloc),
        _ => Err("no sample has so many blocks".into()),
    }
}

/// The sample volume of 4,200 blocks: the storage bitmap has a second block, LBN 22, whose bits past the last block are set.
fn large_sample(alloc: Global) -> Result<Image, Fail> {
    let mut bytes = sample(alloc, 512)?;
    bytes.resize(512 * 4_200, 0x5a)?;
    let mut image = Image::from_bytes(alloc, &bytes)?;
    put_bytes(&mut image, 20, 3, &[0xff; 509])?;
    put_bytes(&mut image, 22, 0, &[0xff; 512])?;
    let second = reserved(2, bitmap()).mapping(&[run(19, 2), run(22, 1)]);
    put_header(&mut image, 4, &second)?;
    Ok(image)
}

/// Puts a header at an LBN, with its bits.
fn put_header(image: &mut Image, lbn: u32, header: &Block) -> Result<(), Fail> {
    let number = word(header, 1);
    put_bytes(image, lbn, 0, header.bytes())?;
    set_in_use(image, number, true)?;
    if let Ok(fields) = read_header(header, number) {
        for run in fields.runs().as_slice() {
            hold(image, run)?;
        }
    }
    Ok(())
}

/// Puts bytes at a place of a block.
fn put_bytes(image: &mut Image, lbn: u32, at: usize, bytes: &[u8]) -> Result<(), Fail> {
    if image.len() <= lbn || 512 < at || 512 - at < bytes.len() {
        return Err("no such place".into());
    }
    let mut block = *image.block(lbn);
    block.set_bytes(at, bytes);
    image.set_block(lbn, block);
    Ok(())
}

/// Sets a bit of a bitmap block.
pub fn set_bit(image: &mut Image, lbn: u32, bit: u32, value: bool) -> Result<(), Fail> {
    let at = bit as usize / 8;
    if image.len() <= lbn || 512 <= at {
        return Err("no such bit".into());
    }
    let mask = 1u8 << (bit % 8);
    let old = image.block(lbn).byte(at);
    put_bytes(
        image,
        lbn,
        at,
        &[if value { old | mask } else { old & !mask }],
    )
}

/// Sets the index bit of a number, in LBN 2.
pub fn set_in_use(image: &mut Image, number: u16, is_used: bool) -> Result<(), Fail> {
    set_bit(image, 2, (number as u32).saturating_sub(1), is_used)
}

/// Sets the storage bit of a block, in LBN 20.
fn set_free(image: &mut Image, lbn: u32, is_free: bool) -> Result<(), Fail> {
    set_bit(image, 20, lbn, is_free)
}

/// Clears the storage bits of the blocks of a run.
fn hold(image: &mut Image, run: &Run) -> Result<(), Fail> {
    for k in 0..run.count {
        set_free(image, run.lbn.saturating_add(k as u32), false)?;
    }
    Ok(())
}

/// These bytes from a place of a block on, as a variant has them.
pub fn bytes_at<const N: usize>(lbn: u32, at: usize, bytes: &[u8; N]) -> [(u32, usize, u8); N] {
    let mut places = [(lbn, at, 0); N];
    for i in 0..N {
        places[i] = (lbn, at.saturating_add(i), bytes[i]);
    }
    places
}

/// Makes the sum of the first words of a block, and puts it behind them.
pub fn set_sum(block: &mut Block, words: usize)
    requires { words < 256 }
{
    let total = sum(block, words);
    set_word(block, words, total);
}
