//! What a Truncate has to make of a small volume, byte by byte: a plain and slow program that goes along the headers of the file, with no call
//! of the layers that serve requests. It is right where the reader is, on the samples and on what tests make of them.
use crate::reader::{byte, header_place, word};
use crate::volumes::{set_bit, set_in_use, set_sum};
use ods_base::{Block, Image, set_word};
use std::test::Fail;

/// The image of a volume on which a file, which has at least so many blocks, was cut to them.
pub fn cut_image(image: &Image, number: u16, count: u32) -> Result<Image, Fail> {
    let mut cut = image.copy()?;
    let mut left = count;
    let mut is_cut = false;
    let mut next = number;
    for _header in 0..256 {
        if next == 0 {
            return Ok(cut);
        }
        let lbn = header_place(image, next);
        if is_cut {
            delete(&mut cut, image, next, lbn)?;
        } else if left <= mapped(image, lbn) {
            cut_header(&mut cut, image, lbn, left)?;
            is_cut = true;
        } else {
            left -= mapped(image, lbn);
        }
        next = word(image, lbn, map_of(image, lbn) + 2);
    }
    Ok(cut)
}

/// Where the map area of a header begins.
fn map_of(image: &Image, lbn: u32) -> usize {
    2 * byte(image, lbn, 1) as usize
}

/// The first block and the count of a header's pointer.
fn pointer(image: &Image, lbn: u32, k: usize) -> (u32, u32) {
    let at = map_of(image, lbn) + 10 + 4 * k;
    let high = byte(image, lbn, at) as u32;
    let low = word(image, lbn, at + 2) as u32;
    (65_536 * high + low, byte(image, lbn, at + 1) as u32 + 1)
}

/// How many pointers a header has.
fn pointers(image: &Image, lbn: u32) -> usize {
    byte(image, lbn, map_of(image, lbn) + 8) as usize / 2
}

/// How many blocks a header maps.
fn mapped(image: &Image, lbn: u32) -> u32 {
    let mut blocks = 0;
    for k in 0..pointers(image, lbn) {
        blocks += pointer(image, lbn, k).1;
    }
    blocks
}

/// Says of the blocks of a pointer behind the first ones that they are free: LBN 20 has the bits of the first 4,096 blocks, LBN 22 the next.
fn free_behind(cut: &mut Image, run: (u32, u32), kept: u32) -> Result<(), Fail> {
    for i in kept..run.1 {
        let lbn = run.0 + i;
        set_bit(cut, 20 + 2 * (lbn / 4_096), lbn % 4_096, true)?;
    }
    Ok(())
}

/// Puts a header with its sum.
fn put(cut: &mut Image, lbn: u32, mut header: Block) {
    set_sum(&mut header, 255);
    cut.set_block(lbn, header);
}

/// Gives back a header behind the cut, and its blocks.
fn delete(cut: &mut Image, image: &Image, number: u16, lbn: u32) -> Result<(), Fail> {
    for k in 0..pointers(image, lbn) {
        free_behind(cut, pointer(image, lbn, k), 0)?;
    }
    set_in_use(cut, number, false)?;
    let mut header = *image.block(lbn);
    set_word(&mut header, 1, 0);
    put(cut, lbn, header);
    Ok(())
}

/// Cuts the header that has the last block that is kept.
fn cut_header(cut: &mut Image, image: &Image, lbn: u32, count: u32) -> Result<(), Fail> {
    let map = map_of(image, lbn);
    let mut header = *image.block(lbn);
    let mut left = count;
    let mut used = 0u8;
    for k in 0..pointers(image, lbn) {
        let run = pointer(image, lbn, k);
        let kept = left.min(run.1);
        if 0 < kept {
            used += 2;
            header.set_bytes(map + 11 + 4 * k, &[(kept - 1) as u8]);
        }
        free_behind(cut, run, kept)?;
        left -= kept;
    }
    header.set_bytes(map + 2, &[0, 0, 0, 0]);
    header.set_bytes(map + 8, &[used]);
    put(cut, lbn, header);
    Ok(())
}
