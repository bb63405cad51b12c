//! The measure for `f11`: reads an image into blocks in memory, and sums the words of each block, as a header's sum is
//! taken. It checks nothing.

use std::fs::File;
use std::io::Read;
use std::process::ExitCode;

/// Words of a block, of two bytes each.
fn sum(block: &[u8; 512]) -> u16 {
    block
        .chunks_exact(2)
        .fold(0, |total: u16, word| total.wrapping_add(u16::from_le_bytes([word[0], word[1]])))
}

/// The whole blocks of the file.
fn read_blocks(path: &str) -> std::io::Result<Vec<[u8; 512]>> {
    let mut file = File::open(path)?;
    let count = file.metadata()?.len() / 512;
    let mut blocks = vec![[0; 512]; count as usize];
    file.read_exact(blocks.as_flattened_mut())?;
    Ok(blocks)
}

fn main() -> ExitCode {
    let Some(path) = std::env::args().nth(1) else {
        eprintln!("usage: plain_reader IMAGE");
        return ExitCode::from(2);
    };
    match read_blocks(&path) {
        Ok(blocks) => {
            let mixed = blocks.iter().fold(0, |mixed, block| mixed ^ sum(block));
            println!("blocks {} sums {mixed}", blocks.len());
            ExitCode::SUCCESS
        }
        Err(fault) => {
            eprintln!("plain_reader: {fault}");
            ExitCode::from(3)
        }
    }
}
