//! A plain and slow reader of small volumes: the catalogue that the blocks show, byte by byte, with no call of the layers that serve
//! requests. It is right for sound volumes whose index bitmap is LBN 2 alone, as in the samples, and whose INDEXF.SYS has at most 64 blocks.
use ods_base::{Block, FileId, FixedImage, Image, ImageError, Name, Uic};
use ods_plain::{Body, Catalogue, File, Names};
use std::alloc::{AllocError, Global};

/// The type DIR.
const DIRECTORY: u16 = 6778;

/// A byte of a block, 0 where there is none.
pub fn byte(image: &Image, lbn: u32, at: usize) -> u8 {
    if lbn < image.len() && at < 512 {
        image.block(lbn).byte(at)
    } else {
        0
    }
}

/// The word at this byte.
pub fn word(image: &Image, lbn: u32, at: usize) -> u16 {
    u16::from_le_bytes([byte(image, lbn, at), byte(image, lbn, at.wrapping_add(1))])
}

/// These bytes of a block.
fn bytes<const N: usize>(image: &Image, lbn: u32, from: usize) -> [u8; N] {
    let mut found = [0; N];
    for i in 0..N {
        found[i] = byte(image, lbn, from.wrapping_add(i));
    }
    found
}

/// The LBNs of the blocks of INDEXF.SYS, in their order, by the pointers of its headers; how many they are. A header behind the first is
/// one of the blocks that the headers before it name.
fn index_places(image: &Image) -> ([u32; 64], usize) {
    let mut places = [u32::MAX; 64];
    let mut count = 0;
    let mut header = 3;
    for _header in 0..16 {
        let map = 2 * byte(image, header, 1) as usize;
        for k in 0..byte(image, header, map.wrapping_add(8)) as usize / 2 {
            let at = map.wrapping_add(10).wrapping_add(4usize.wrapping_mul(k));
            let high = byte(image, header, at) as u32;
            let low = word(image, header, at.wrapping_add(2)) as u32;
            for i in 0..byte(image, header, at.wrapping_add(1)) as u32 + 1 {
                if count < 64 {
                    places[count] = (65_536 * high + low).wrapping_add(i);
                    count += 1;
                }
            }
        }
        let next = word(image, header, map.wrapping_add(2)) as usize;
        if next == 0 || 62 <= next {
            return (places, count);
        }
        header = places[next + 2];
    }
    (places, count)
}

/// The greatest number for which INDEXF.SYS has a block: 16 where it has no more than the samples.
pub fn plain_last(image: &Image) -> u16 {
    let (_, count) = index_places(image);
    (count.saturating_sub(3) as u16)
        .min(word(image, 1, 6))
        .max(16)
}

/// Where the header with this number stands: the first 16 behind the index bitmap, the others where INDEXF.SYS has its blocks.
pub fn header_place(image: &Image, number: u16) -> u32 {
    if number <= 16 {
        return number as u32 + 2;
    }
    let (places, _) = index_places(image);
    match places.get(number as usize + 2) {
        Some(lbn) => *lbn,
        None => u32::MAX,
    }
}

/// How far INDEXF.SYS can grow: how many numbers above the last are in no use, how many blocks the greatest of all would need, and how
/// many pointers its last header has room for.
pub fn plain_growth(image: &Image) -> (u32, u32, u32) {
    let last = plain_last(image);
    let most = word(image, 1, 6);
    let mut open = 0u32;
    for number in last..most {
        if !is_marked(image, number.wrapping_add(1)) {
            open = open.wrapping_add(1);
        }
    }
    let mut header = 3;
    for _header in 0..16 {
        let map = 2 * byte(image, header, 1) as usize;
        let next = word(image, header, map.wrapping_add(2));
        if next != 0 {
            header = header_place(image, next);
        }
    }
    let map = 2 * byte(image, header, 1) as usize;
    let used = byte(image, header, map.wrapping_add(8)) as u32;
    let room = (byte(image, header, map.wrapping_add(9)) as u32).saturating_sub(used) / 2;
    (open, most.saturating_sub(last) as u32, room)
}

/// Whether the index bitmap says that a number is in use.
pub fn is_marked(image: &Image, number: u16) -> bool {
    let bit = (number as usize).saturating_sub(1);
    byte(image, 2, bit / 8) >> (bit % 8) & 1 == 1
}

/// Adds the blocks of a run.
fn push_run(
    image: &Image,
    lbn: u32,
    count: u32,
    blocks: &mut Vec<Block>,
) -> Result<(), AllocError> {
    for i in 0..count {
        let at = lbn.wrapping_add(i);
        if at < image.len() {
            blocks.push(*image.block(at))?;
        }
    }
    Ok(())
}

/// Adds the blocks that the header at this LBN names.
fn push_header(image: &Image, header: u32, blocks: &mut Vec<Block>) -> Result<(), AllocError> {
    let map = 2 * byte(image, header, 1) as usize;
    let pointers = byte(image, header, map.wrapping_add(8)) as usize / 2;
    for k in 0..pointers {
        let at = map.wrapping_add(10).wrapping_add(4usize.wrapping_mul(k));
        let high = byte(image, header, at) as u32;
        let count = byte(image, header, at.wrapping_add(1)) as u32;
        let low = word(image, header, at.wrapping_add(2)) as u32;
        push_run(image, 65_536 * high + low, count + 1, blocks)?;
    }
    Ok(())
}

/// The blocks of the file with this first header.
fn blocks_of(alloc: Global, image: &Image, number: u16) -> Result<Vec<Block>, AllocError> {
    let mut blocks = Vec::new(alloc);
    let mut next = number;
    for _header in 0..16 {
        if next != 0 {
            let lbn = header_place(image, next);
            push_header(image, lbn, &mut blocks)?;
            let map = 2 * byte(image, lbn, 1) as usize;
            next = word(image, lbn, map.wrapping_add(2));
        }
    }
    Ok(blocks)
}

/// Adds the name at entry `k` of a directory. An empty entry adds none, nor does one that is no name or is there twice.
fn push_name(blocks: &[Block], k: usize, names: &mut Names) -> Result<(), AllocError> {
    let Some(block) = blocks.get(k / 32) else {
        return Ok(());
    };
    let mut words = [0u16; 8];
    for i in 0..8 {
        let at = 16 * (k % 32) + 2 * i;
        words[i] = u16::from_le_bytes([block.byte(at), block.byte(at + 1)]);
    }
    let [
        number,
        sequence,
        _volume,
        first,
        second,
        third,
        ext,
        version,
    ] = words;
    if number == 0 || 64_000 <= first || 64_000 <= second || 64_000 <= third || 64_000 <= ext {
        return Ok(());
    }
    let name = Name::new([first, second, third], ext);
    if names.get(&name, version).is_some() {
        return Ok(());
    }
    names.insert(name, version, FileId { number, sequence })
}

/// The names of the directory with this header and these blocks. They end at byte F.FFBY of block F.EFBK, and before the first one
/// where F.EFBK is 0.
fn names_of(
    alloc: Global,
    image: &Image,
    header: u32,
    blocks: &[Block],
) -> Result<Names, AllocError> {
    let mut names = Names::new(alloc);
    let end = 65_536 * word(image, header, 22) as usize + word(image, header, 24) as usize;
    let mark = match end {
        0 => 0,
        _ => 512usize
            .wrapping_mul(end - 1)
            .wrapping_add(word(image, header, 26) as usize),
    };
    for k in 0..mark / 16 {
        push_name(blocks, k, &mut names)?;
    }
    Ok(names)
}

/// The body of the file with this number.
fn body_of(alloc: Global, image: &Image, number: u16) -> Result<Body, AllocError> {
    let header = header_place(image, number);
    let ident = 2 * byte(image, header, 0) as usize;
    if number <= 2 {
        return Ok(Body::System);
    }
    let blocks = blocks_of(alloc, image, number)?;
    if number == 4 || (5 < number && word(image, header, ident.wrapping_add(6)) == DIRECTORY) {
        return Ok(Body::Directory(names_of(alloc, image, header, &blocks)?));
    }
    Ok(Body::Plain {
        attributes: bytes(image, header, 14),
        blocks,
    })
}

/// Whether the number is a file's: its index bit is set, and its header is a first one of this number.
fn is_file(image: &Image, number: u16) -> bool {
    let header = header_place(image, number);
    let map = 2 * byte(image, header, 1) as usize;
    number != 0
        && is_marked(image, number)
        && word(image, header, 2) == number
        && byte(image, header, map) == 0
}

/// The file with this number.
fn file_of(alloc: Global, image: &Image, number: u16) -> Result<File, AllocError> {
    let header = header_place(image, number);
    Ok(File {
        owner: Uic {
            group: byte(image, header, 9),
            member: byte(image, header, 8),
        },
        protection: word(image, header, 10),
        user_char: byte(image, header, 12),
        system_char: byte(image, header, 13),
        ident: bytes(image, header, 2 * byte(image, header, 0) as usize),
        body: body_of(alloc, image, number)?,
    })
}

/// The image that a fixed one is, in memory of its own.
pub fn image_of(alloc: Global, fixed: &FixedImage) -> Result<Image, ImageError> {
    let mut bytes = Vec::new(alloc);
    for lbn in 0..fixed.len() {
        bytes.extend_from_slice(fixed.block(lbn).bytes())?;
    }
    Image::from_bytes(alloc, &bytes)
}

/// The catalogue of a sound small volume. The protection of new files is that of LBN 1, the home block.
pub fn plain_catalogue(alloc: Global, image: &Image) -> Result<Catalogue, AllocError> {
    let mut catalogue = Catalogue::new(alloc, word(image, 1, 36));
    for number in 1..plain_last(image).wrapping_add(1) {
        if is_file(image, number) {
            let file = file_of(alloc, image, number)?;
            let id = plain_id(image, number);
            if catalogue.file(id).is_none() && file.may_have(id) {
                catalogue.add(id, file)?;
            }
        }
    }
    Ok(catalogue)
}

/// How many bits of a bitmap block are set, of as many as there are blocks left in the image.
fn plain_count(block: &Block, left: u32) -> u32 {
    let mut count = 0u32;
    for bit in 0..4096u32 {
        if bit < left {
            count = count.wrapping_add((block.byte(bit as usize / 8) >> (bit % 8) & 1) as u32);
        }
    }
    count
}

/// How many blocks are free by each block of BITMAP.SYS behind the first, bit by bit; bits past the end of the image do not count.
pub fn plain_counts(alloc: Global, image: &Image) -> Result<Vec<u32>, AllocError> {
    let bitmap = blocks_of(alloc, image, 2)?;
    let mut counts = Vec::new(alloc);
    let mut left = image.len();
    for k in 1..bitmap.len() {
        counts.push(plain_count(&bitmap[k], left))?;
        left = left.saturating_sub(4096);
    }
    Ok(counts)
}

/// How many blocks are free.
pub fn plain_free_blocks(alloc: Global, image: &Image) -> Result<u32, AllocError> {
    let mut free = 0u32;
    for count in &plain_counts(alloc, image)? {
        free = free.wrapping_add(*count);
    }
    Ok(free)
}

/// How many numbers are free: from 6 to the last, their index bit clear, and the sequence word of their header below 65,535.
pub fn plain_free_numbers(image: &Image) -> u32 {
    let mut free = 0u32;
    for number in 6..plain_last(image).wrapping_add(1) {
        if !is_marked(image, number) && word(image, header_place(image, number), 4) < 65_535 {
            free = free.wrapping_add(1);
        }
    }
    free
}

/// The ID that the header of this number has.
pub fn plain_id(image: &Image, number: u16) -> FileId {
    FileId {
        number,
        sequence: word(image, header_place(image, number), 4),
    }
}
