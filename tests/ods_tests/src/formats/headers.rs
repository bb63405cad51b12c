//! File headers, read and written.
use crate::persons::a_txt;
use crate::volumes::{added, block_of, run, sample_of, set_sum};
use arrayvec::ArrayVec;
use ods_base::{Block, set_word, sum};
use ods_header::{
    Header, HeaderFault, Run, find_home, header_line, print_ident, read_header, write_header,
};
use std::alloc::Global;
use std::test::Fail;

/// This header of the sample volume, 1 to 5.
fn sample_header(alloc: Global, number: u16) -> Result<Block, Fail> {
    let image = sample_of(40).image(alloc)?;
    Ok(*block_of(&image, number as u32 + 2)?)
}

/// The fields of a header of the sample.
fn sample_fields(alloc: Global, number: u16) -> Result<Header, Fail> {
    let block = sample_header(alloc, number)?;
    Ok(read_header(&block, number).ok().ok_or("refused")?)
}

#[test]
fn header_1_is_read(rt: HostRuntime) -> Result<(), Fail> {
    assert!(rt; sum(&sample_header(rt.alloc(), 1)?, 255) == 51540);
    let header = sample_fields(rt.alloc(), 1)?;
    assert!(rt; header.file.sequence == 1 && header.protection == 57344);
    assert!(rt; header.runs().as_slice() == [run(0, 19)].as_slice());
    Ok(())
}

/// Why this block is no header of this number.
fn fault_of(block: &Block, number: u16) -> Option<HeaderFault> {
    read_header(block, number).err()
}

#[test]
fn faults_come_in_order(rt: HostRuntime) -> Result<(), Fail> {
    let mut block = sample_header(rt.alloc(), 4)?;
    assert!(rt; sum(&block, 255) == 31411);
    assert!(rt; fault_of(&block, 3) == Some(HeaderFault::WrongNumber));
    assert!(rt; fault_of(&Block::zeros(), 6) == Some(HeaderFault::WrongNumber));
    set_word(&mut block, 3, 258);
    assert!(rt; fault_of(&block, 4) == Some(HeaderFault::BadSum));
    set_sum(&mut block, 255);
    assert!(rt; fault_of(&block, 4) == Some(HeaderFault::BadLevel));
    Ok(())
}

/// A header with 102 pointers, each of the greatest count.
fn full_header(alloc: Global) -> Result<Block, Fail> {
    let plain = sample_fields(alloc, 1)?;
    let mut pointers = ArrayVec::new();
    for lbn in 70_000..70_102 {
        let _ = pointers.try_push(Run { lbn, count: 256 });
    }
    Ok(write_header(&Header { pointers, ..plain }))
}

/// It is written and read back.
#[test]
fn full_header_is_read_back(rt: HostRuntime) -> Result<(), Fail> {
    let block = full_header(rt.alloc())?;
    assert!(rt; block.byte(102) == 1 && block.byte(103) == 255);
    let again = read_header(&block, 1).ok().ok_or("refused")?;
    assert!(rt; again.runs().len() == 102);
    let last = again.runs().as_slice().last().copied();
    assert!(rt; last == Some(run(70_101, 256)));
    assert!(rt; print_ident(&again.ident).as_str() == "INDEXF.SYS;1");
    Ok(())
}

/// Pointers whose texts are as long as they can be: the last is to the highest LBN, with the greatest count.
fn long_runs() -> [Run; 102] {
    let mut runs = [run(7, 1); 102];
    for k in 0..34 {
        runs[3 * k + 1] = run(65_536, 99);
        runs[3 * k + 2] = run(16_777_215, 256);
    }
    runs
}

/// The line of header 6 with them.
fn long_line(alloc: Global) -> Result<String, Fail> {
    let mut text = String::from_str(
        alloc,
        "HEADER 6,1 A.TXT;1 [1,1] 160000 000,000 segment 0 next 0,0 runs",
    )?;
    for _k in 0..34 {
        text.push_str(" 7+1 65536+99 16777215+256")?;
    }
    Ok(text)
}

/// Header 6 with 102 pointers is the longest line.
#[test]
fn longest_line_is_made(rt: HostRuntime) -> Result<(), Fail> {
    let mut image = sample_of(40).image(rt.alloc())?;
    assert!(rt; image.len() == 40);
    image.set_block(8, added(6, a_txt()).mapping(&long_runs()));
    let (_, home) = find_home(&image)?;
    let line = header_line(rt.alloc(), &image, &home, 6)?;
    assert!(rt; line.as_str() == long_line(rt.alloc())?.as_str(), "{line}");
    Ok(())
}
