//! Whether blocks and images are the same, byte by byte in one loop. Their own `==` makes several calls for each byte, which in a program
//! with checks was most of what random requests took.
use ods_base::{Block, Image};

/// Whether two blocks have the same bytes.
pub fn same_block(one: &Block, other: &Block) -> bool {
    let (one, other) = (one.bytes(), other.bytes());
    for i in 0..512usize {
        if one[i] != other[i] {
            return false;
        }
    }
    true
}

/// Whether two lists have the same blocks.
pub fn same_blocks(one: &[Block], other: &[Block]) -> bool {
    if one.len() != other.len() {
        return false;
    }
    for i in 0..one.len() {
        if !same_block(&one[i], &other[i]) {
            return false;
        }
    }
    true
}

/// Whether two images have the same blocks.
pub fn same_image(one: &Image, other: &Image) -> bool {
    if one.len() != other.len() {
        return false;
    }
    for lbn in 0..one.len() {
        if !same_block(one.block(lbn), other.block(lbn)) {
            return false;
        }
    }
    true
}
