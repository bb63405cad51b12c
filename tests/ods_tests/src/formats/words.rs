//! Words and sums of blocks.
use ods_base::{Block, set_word, sum, word};

/// The sums of the sample volume's home block, and a word's order of bytes.
#[test]
fn words_and_sums_are_little_endian(rt: HostRuntime) {
    let mut block = Block::zeros();
    for (k, value) in [(0, 1), (2, 2), (3, 16), (4, 1), (6, 257), (18, 57_344)] {
        set_word(&mut block, k, value);
    }
    assert!(rt; sum(&block, 29) == 57_621);
    set_word(&mut block, 29, 57_621);
    assert!(rt; block.byte(58) == 0x15);
    assert!(rt; block.byte(59) == 0xe1);
    assert!(rt; word(&block, 29) == 57_621);
    block.set_bytes(496, b"DECFILE11A  ");
    assert!(rt; sum(&block, 255) == 11_408);
}
