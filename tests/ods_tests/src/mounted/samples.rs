//! The sample volumes of 40 and 512 blocks byte for byte, and the sums of the first.
use ods_base::{Image, sum};
use ods_cli::sample;
use std::alloc::Global;
use std::process::Abort;
use std::test::Fail;

/// The sample's bytes that are not zero, but for the free blocks: an LBN, a byte place and the bytes there.
const SAMPLE: [(u32, usize, &[u8]); 38] = [
    // The home block: H.IBSZ, H.IBLB, H.FMAX, H.SBCL, H.VLEV, H.DFPR, H.CHK1, H.INDF, H.CHK2.
    (
        1,
        0,
        b"\x01\x00\x00\x00\x02\x00\x10\x00\x01\x00\x00\x00\x01\x01",
    ),
    (1, 36, b"\x00\xe0"),
    (1, 58, b"\x15\xe1"),
    (1, 496, b"\x44\x45\x43\x46\x49\x4c\x45\x31\x31\x41\x20\x20"),
    (1, 510, b"\x90\x2c"),
    // The index bitmap.
    (2, 0, b"\x1f"),
    // INDEXF.SYS: the header area, the ident, the map area with its pointer, the sum.
    (3, 0, b"\x17\x2e\x01\x00\x01\x00\x01\x01\x01\x01\x00\xe0"),
    (3, 46, b"\x74\x3a\x06\x23\x00\x00\xbb\x7a\x01\x00"),
    (3, 98, b"\x01\x03\x02\xcc\x00\x12\x00\x00"),
    (3, 510, b"\x54\xc9"),
    // BITMAP.SYS.
    (4, 0, b"\x17\x2e\x02\x00\x02\x00\x01\x01\x01\x01\x00\xe0"),
    (4, 46, b"\xfc\x0d\x78\x51\x00\x00\xbb\x7a\x01\x00"),
    (4, 98, b"\x01\x03\x02\xcc\x00\x01\x13\x00"),
    (4, 510, b"\x63\xba"),
    // BADBLK.SYS, without a pointer.
    (5, 0, b"\x17\x2e\x03\x00\x03\x00\x01\x01\x01\x01\x00\xe0"),
    (5, 46, b"\xac\x0c\x6b\x0e\x00\x00\xbb\x7a\x01\x00"),
    (5, 98, b"\x01\x03\x00\xcc"),
    (5, 510, b"\xf3\x74"),
    // 000000.DIR, with the attributes of a directory of one block and five names.
    (6, 0, b"\x17\x2e\x04\x00\x04\x00\x01\x01\x01\x01\x00\xe0"),
    (6, 14, b"\x01\x00\x10\x00"),
    (6, 20, b"\x01\x00"),
    (6, 24, b"\x01\x00"),
    (6, 26, b"\x50\x00"),
    (6, 46, b"\x4e\xc0\x4e\xc0\x00\x00\x7a\x1a\x01\x00"),
    (6, 98, b"\x01\x03\x02\xcc\x00\x00\x15\x00"),
    (6, 510, b"\xb3\x7a"),
    // CORIMG.SYS, without a pointer.
    (7, 0, b"\x17\x2e\x05\x00\x05\x00\x01\x01\x01\x01\x00\xe0"),
    (7, 46, b"\x2a\x15\x4f\x3a\x00\x00\xbb\x7a\x01\x00"),
    (7, 98, b"\x01\x03\x00\xcc"),
    (7, 510, b"\x59\xa9"),
    // The storage bitmap.
    (20, 2, b"\xc0\xff\xff"),
    // The master directory.
    (
        21,
        0,
        b"\x01\x00\x01\x00\x00\x00\x74\x3a\x06\x23\x00\x00\xbb\x7a\x01\x00",
    ),
    (
        21,
        16,
        b"\x02\x00\x02\x00\x00\x00\xfc\x0d\x78\x51\x00\x00\xbb\x7a\x01\x00",
    ),
    (
        21,
        32,
        b"\x03\x00\x03\x00\x00\x00\xac\x0c\x6b\x0e\x00\x00\xbb\x7a\x01\x00",
    ),
    (
        21,
        48,
        b"\x04\x00\x04\x00\x00\x00\x4e\xc0\x4e\xc0\x00\x00\x7a\x1a\x01\x00",
    ),
    (
        21,
        64,
        b"\x05\x00\x05\x00\x00\x00\x2a\x15\x4f\x3a\x00\x00\xbb\x7a\x01\x00",
    ),
    (22, 0, b"\x5a"),
    (39, 511, b"\x5a"),
];

/// Puts bytes at a place of a block.
fn put(rt: &impl Abort, image: &mut [u8], lbn: u32, at: usize, bytes: &[u8]) {
    let place = (512 * lbn as usize).wrapping_add(at);
    assert!(rt; place <= image.len() && bytes.len() <= image.len() - place);
    image[place..place + bytes.len()].copy_from_slice(bytes);
}

/// The bytes of the sample of so many blocks. Where it has 512, the storage bits up to LBN 511 are set.
fn published(rt: &impl Abort, alloc: Global, blocks: usize) -> Result<Vec<u8>, Fail> {
    let mut wanted = vec![in alloc; 0u8; 512 * 22]?;
    wanted.resize(512 * blocks.min(512), 0x5a)?;
    for (lbn, at, bytes) in &SAMPLE {
        put(rt, wanted.as_mut_slice(), *lbn, *at, bytes);
    }
    if blocks == 512 {
        put(rt, wanted.as_mut_slice(), 20, 5, &[0xff; 59]);
    }
    Ok(wanted)
}

/// Both have the same bytes.
fn same_bytes(rt: &impl Abort, found: &[u8], wanted: &[u8]) {
    assert!(rt; found.len() == wanted.len());
    for (at, (one, other)) in found.iter().zip(wanted.iter()).enumerate() {
        assert!(rt; one == other, "byte {at}");
    }
}

#[test]
fn samples_have_their_bytes(rt: HostRuntime) -> Result<(), Fail> {
    for blocks in [40, 512] {
        let wanted = published(&rt, rt.alloc(), blocks as usize)?;
        same_bytes(
            &rt,
            sample(rt.alloc(), blocks)?.as_slice(),
            wanted.as_slice(),
        );
    }
    Ok(())
}

/// The home block and the headers have these sums.
fn has_sums(rt: &impl Abort, image: &Image) {
    assert!(rt; image.len() == 40);
    for (lbn, words, total) in [
        (1, 29, 57_621),
        (1, 255, 11_408),
        (3, 255, 51_540),
        (4, 255, 47_715),
        (5, 255, 29_939),
        (6, 255, 31_411),
        (7, 255, 43_353),
    ] {
        assert!(rt; sum(image.block(lbn), words) == total, "at {lbn}");
    }
}

#[test]
fn sample_has_its_sums(rt: HostRuntime) -> Result<(), Fail> {
    let bytes = sample(rt.alloc(), 40)?;
    has_sums(&rt, &Image::from_bytes(rt.alloc(), &bytes)?);
    Ok(())
}
