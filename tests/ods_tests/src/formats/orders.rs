//! Floppies in physical order, by tables made by hand. On a track every second sector comes next, then those between. Each track begins 6
//! sectors further than the one before, or 2 on an RX50. Tracks count from 0 and sectors from 1, as a drive counts them.
use crate::settings::{Refusing, ends};
use ods_base::{Block, Image};
use ods_order::{
    Order, OrderFault, empty_container, read_volume, write_contained_volume, write_volume,
};
use std::alloc::{AllocError, Global};
use std::process::Abort;
use std::test::Fail;

/// Some tracks of an RX01 or RX02, and their sectors in the order of the volume, in two rounds of the track. The volume begins on track 1.
const FLOPPY_TRACKS: [(usize, [u8; 13], [u8; 13]); 6] = [
    (
        1,
        [1, 3, 5, 7, 9, 11, 13, 15, 17, 19, 21, 23, 25],
        [2, 4, 6, 8, 10, 12, 14, 16, 18, 20, 22, 24, 26],
    ),
    (
        2,
        [7, 9, 11, 13, 15, 17, 19, 21, 23, 25, 1, 3, 5],
        [8, 10, 12, 14, 16, 18, 20, 22, 24, 26, 2, 4, 6],
    ),
    (
        3,
        [13, 15, 17, 19, 21, 23, 25, 1, 3, 5, 7, 9, 11],
        [14, 16, 18, 20, 22, 24, 26, 2, 4, 6, 8, 10, 12],
    ),
    (
        6,
        [5, 7, 9, 11, 13, 15, 17, 19, 21, 23, 25, 1, 3],
        [6, 8, 10, 12, 14, 16, 18, 20, 22, 24, 26, 2, 4],
    ),
    (
        14,
        [1, 3, 5, 7, 9, 11, 13, 15, 17, 19, 21, 23, 25],
        [2, 4, 6, 8, 10, 12, 14, 16, 18, 20, 22, 24, 26],
    ),
    (
        76,
        [9, 11, 13, 15, 17, 19, 21, 23, 25, 1, 3, 5, 7],
        [10, 12, 14, 16, 18, 20, 22, 24, 26, 2, 4, 6, 8],
    ),
];

/// The same of an RX50, whose volume begins on track 1 and ends on track 0.
const RX50_TRACKS: [(usize, [u8; 5], [u8; 5]); 5] = [
    (1, [1, 3, 5, 7, 9], [2, 4, 6, 8, 10]),
    (2, [3, 5, 7, 9, 1], [4, 6, 8, 10, 2]),
    (6, [1, 3, 5, 7, 9], [2, 4, 6, 8, 10]),
    (79, [7, 9, 1, 3, 5], [8, 10, 2, 4, 6]),
    (0, [9, 1, 3, 5, 7], [10, 2, 4, 6, 8]),
];

/// A container each of whose sectors begins with its track and its number.
fn marked(alloc: Global, tracks: u8, sectors: u8, size: usize) -> Result<Vec<u8>, AllocError> {
    let mut bytes = Vec::new(alloc);
    for track in 0..tracks {
        for sector in 1..=sectors {
            let mut sector_bytes = [0x5a; 512];
            sector_bytes[0] = track;
            sector_bytes[1] = sector;
            bytes.extend_from_slice(&sector_bytes[..size.min(512)])?;
        }
    }
    Ok(bytes)
}

/// The volume has these sectors, from this one on.
fn has_sectors(
    rt: &impl Abort,
    image: &Image,
    first: usize,
    size: usize,
    track: usize,
    sectors: &[u8],
) {
    for (s, sector) in sectors.iter().enumerate() {
        let at = (first + s) * size;
        assert!(rt; at / 512 < image.len() as usize);
        assert!(rt; at % 512 + 1 < 512);
        let block = image.block((at / 512) as u32);
        let found = (block.byte(at % 512), block.byte(at % 512 + 1));
        assert!(rt;
            found == (track as u8, *sector),
            "sector {s} of track {track}"
        );
    }
}

#[test]
fn floppies_are_read_in_the_order_of_the_volume(rt: HostRuntime) -> Result<(), Fail> {
    for (order, size, blocks) in [(Order::Rx01, 128, 494), (Order::Rx02, 256, 988)] {
        let container = marked(rt.alloc(), 77, 26, size)?;
        let image = read_volume(rt.alloc(), order, &container)?;
        assert!(rt; image.len() == blocks && order.block_count() == blocks);
        for (track, one, other) in FLOPPY_TRACKS.iter() {
            let first = (*track - 1) * 26;
            has_sectors(&rt, &image, first, size, *track, one);
            has_sectors(&rt, &image, first + 13, size, *track, other);
        }
    }
    Ok(())
}

#[test]
fn an_rx50_is_read_in_the_order_of_the_volume(rt: HostRuntime) -> Result<(), Fail> {
    let container = marked(rt.alloc(), 80, 10, 512)?;
    let image = read_volume(rt.alloc(), Order::Rx50, &container)?;
    assert!(rt; image.len() == 800 && Order::Rx50.block_count() == 800);
    for (track, one, other) in RX50_TRACKS.iter() {
        let first = if *track == 0 { 790 } else { (*track - 1) * 10 };
        has_sectors(&rt, &image, first, 512, *track, one);
        has_sectors(&rt, &image, first + 5, 512, *track, other);
    }
    Ok(())
}

/// Block 1 changes, and only its sectors on track 1 do.
#[test]
fn volumes_are_written_back_to_their_places(rt: HostRuntime) -> Result<(), Fail> {
    let four: &[usize] = &[9, 11, 13, 15];
    let two: &[usize] = &[5, 7];
    let one: &[usize] = &[3];
    for (order, tracks, sectors, size, changed) in [
        (Order::Rx01, 77, 26, 128, four),
        (Order::Rx02, 77, 26, 256, two),
        (Order::Rx50, 80, 10, 512, one),
    ] {
        let old = marked(rt.alloc(), tracks, sectors, size)?;
        let mut container = marked(rt.alloc(), tracks, sectors, size)?;
        let mut image = read_volume(rt.alloc(), order, &container)?;
        write_volume(order, &mut container, &image);
        assert!(rt; container == old, "the same volume");
        image.set_block(1, Block::new([0xee; 512]));
        write_volume(order, &mut container, &image);
        for i in 0..old.len() {
            let track = i / (size * sectors as usize);
            let sector = i / size % sectors as usize + 1;
            let is_changed = track == 1 && changed.contains(&sector);
            let wanted = if is_changed { 0xee } else { old[i] };
            assert!(rt; container[i] == wanted, "byte {i}");
        }
        assert!(rt; read_volume(rt.alloc(), order, &container)? == image);
    }
    Ok(())
}

/// An image of so many blocks, each of a byte of its own.
fn numbered(alloc: Global, count: u32) -> Result<Image, Fail> {
    let mut bytes = Vec::new(alloc);
    for lbn in 0..count {
        bytes.extend_from_slice(&[(lbn % 251) as u8; 512])?;
    }
    Ok(Image::from_bytes(alloc, &bytes)?)
}

#[test]
fn a_new_volume_goes_into_an_empty_container(rt: HostRuntime) -> Result<(), Fail> {
    for (order, track, size) in [
        (Order::Rx01, 3_328, 256_256),
        (Order::Rx02, 6_656, 512_512),
        (Order::Rx50, 0, 409_600),
    ] {
        let image = numbered(rt.alloc(), order.block_count())?;
        let mut container = empty_container(rt.alloc(), order)?;
        assert!(rt; container.len() == size && order.container_size() == size);
        write_volume(order, &mut container, &image);
        assert!(rt;
            container[..track].iter().all(|byte| *byte == 0),
            "the first track"
        );
        assert!(rt; read_volume(rt.alloc(), order, &container)? == image);
    }
    Ok(())
}

/// A volume that ends before the sectors do: what stands behind it is in the last ones.
#[test]
fn bytes_behind_a_volume_are_written_too(rt: HostRuntime) -> Result<(), Fail> {
    for order in [Order::Rx01, Order::Rx02, Order::Rx50] {
        let whole = numbered(rt.alloc(), order.block_count())?;
        let mut wanted = empty_container(rt.alloc(), order)?;
        write_volume(order, &mut wanted, &whole);
        for (count, behind) in [(0, order.block_count()), (order.block_count() - 3, 3)] {
            let image = numbered(rt.alloc(), count)?;
            let mut rest = Vec::new(rt.alloc());
            for lbn in count..count + behind {
                rest.extend_from_slice(whole.block(lbn).bytes())?;
            }
            let mut container = empty_container(rt.alloc(), order)?;
            write_contained_volume(order, &mut container, &image, &rest);
            assert!(rt; container == wanted, "{count} blocks");
        }
    }
    Ok(())
}

#[test]
fn other_sizes_are_refused(rt: HostRuntime) -> Result<(), Fail> {
    let container = empty_container(rt.alloc(), Order::Rx50)?;
    for order in [Order::Rx01, Order::Rx02] {
        let fault = read_volume(rt.alloc(), order, &container).err();
        assert!(rt; fault == Some(OrderFault::OtherSize));
    }
    let fault = read_volume(rt.alloc(), Order::Rx50, &container[1..]).err();
    assert!(rt; fault == Some(OrderFault::OtherSize));
    // Blocks of an RX01 one behind another, and none.
    assert!(rt; Order::of_size(494 * 512).is_none() && Order::of_size(0).is_none());
    Ok(())
}

#[test]
fn orders_are_found_by_size_and_by_name(rt: HostRuntime) {
    for (order, name, size) in [
        (Order::Rx01, "rx01", 256_256),
        (Order::Rx02, "rx02", 512_512),
        (Order::Rx50, "rx50", 409_600),
    ] {
        assert!(rt; order.name() == name);
        assert!(rt; Order::of_name(name) == Some(order));
        assert!(rt; Order::of_size(size) == Some(order));
    }
    for name in ["plain", "RX01", "rx0", "rx011", ""] {
        assert!(rt; Order::of_name(name).is_none(), "{name}");
    }
}

#[test]
fn refused_memory_where_a_floppy_is_read(rt: HostRuntime) -> Result<(), Fail> {
    let mut refusing = Refusing::of(&rt);
    let container = match empty_container(rt.alloc(), Order::Rx01) {
        Ok(container) => container,
        Err(_) => {
            refusing.meets(&rt);
            empty_container(rt.alloc(), Order::Rx01)?
        }
    };
    let image = match read_volume(rt.alloc(), Order::Rx01, &container) {
        Ok(image) => image,
        Err(fault) => {
            refusing.meets(&rt);
            assert!(rt; fault == OrderFault::NoMemory);
            read_volume(rt.alloc(), Order::Rx01, &container)?
        }
    };
    assert!(rt; image.len() == 494);
    ends(&rt, rt.alloc());
    Ok(())
}
