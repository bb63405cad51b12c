//! Lists that are settled, and lists that are not.
use super::runs::{
    Open, Ran, calls_of, run_on, settles, two_file_volume, two_files, two_ran, two_scripts,
};
use crate::persons::{FIRST, USER};
use crate::reader::image_of;
use ods_base::{Coded, Image};
use ods_request::Request;
use ods_share::{Call, RunFault, SettleFault, settle};
use ods_volume::Volume;
use std::alloc::Global;
use std::process::Abort;
use std::test::Fail;

/// The list is not settled with these calls and this image.
fn is_unmatched(
    rt: &impl Abort,
    alloc: Global,
    image: &Image,
    volume: &Volume,
    calls: &[Vec<Call>],
) {
    match settle(alloc, image, volume, calls) {
        Err(fault) => assert!(rt; fault == SettleFault::Unmatched),
        Ok(_) => assert!(rt; false, "it is settled"),
    }
}

#[test]
fn third_empty_list_is_settled(rt: HostRuntime) -> Result<(), Fail> {
    let alloc = rt.alloc();
    let Ran { volume, outcomes } = two_ran(&rt, alloc)?;
    let mut calls = calls_of(alloc, outcomes)?;
    calls.push(Vec::new(alloc))?;
    settles(&rt, alloc, &volume, calls.as_slice(), &[3, 2, 0])
}

#[test]
fn swapped_lists_are_unmatched(rt: HostRuntime) -> Result<(), Fail> {
    let alloc = rt.alloc();
    let Ran { volume, outcomes } = two_ran(&rt, alloc)?;
    let mut calls = calls_of(alloc, outcomes)?;
    assert_eq!(rt; calls.as_slice().len(), 2);
    calls.as_mut_slice().swap(0, 1);
    let mounted = image_of(alloc, volume.mounted())?;
    is_unmatched(&rt, alloc, &mounted, &volume, calls.as_slice());
    Ok(())
}

#[test]
fn list_without_its_last_call_is_unmatched(rt: HostRuntime) -> Result<(), Fail> {
    let alloc = rt.alloc();
    let Ran { volume, outcomes } = two_ran(&rt, alloc)?;
    lacks_calls(&rt, alloc, &volume, calls_of(alloc, outcomes)?)
}

/// The list is not settled without the last list of calls, nor without the last call of that.
fn lacks_calls(
    rt: &impl Abort,
    alloc: Global,
    volume: &Volume,
    calls: Vec<Vec<Call>>,
) -> Result<(), Fail> {
    let mounted = image_of(alloc, volume.mounted())?;
    let mut calls = calls;
    let Some(mut second) = calls.pop() else {
        return Err("two lists".into());
    };
    is_unmatched(rt, alloc, &mounted, volume, calls.as_slice());
    assert!(rt; second.pop().is_some());
    calls.push(second)?;
    is_unmatched(rt, alloc, &mounted, volume, calls.as_slice());
    Ok(())
}

/// The image of the tests with another byte in its last block.
fn other_image(rt: &impl Abort, alloc: Global) -> Result<Image, Fail> {
    let mut image = two_files(alloc)?;
    assert_eq!(rt; image.len(), 40);
    let mut block = *image.block(39);
    block.set_bytes(7, &[0]);
    image.set_block(39, block);
    Ok(image)
}

#[test]
fn other_image_is_unmatched(rt: HostRuntime) -> Result<(), Fail> {
    let alloc = rt.alloc();
    let Ran { volume, outcomes } = two_ran(&rt, alloc)?;
    let calls = calls_of(alloc, outcomes)?;
    let other = other_image(&rt, alloc)?;
    is_unmatched(&rt, alloc, &other, &volume, calls.as_slice());
    assert!(rt; settle(alloc, &two_files(alloc)?, &volume, calls.as_slice()).is_ok());
    Ok(())
}

#[test]
fn request_that_no_script_has_is_found(rt: HostRuntime) -> Result<(), Fail> {
    let alloc = rt.alloc();
    let mut volume = two_file_volume(&rt, alloc, 4_096)?;
    let extra = Request::Stat { file: FIRST };
    assert!(rt; volume.request(1, 1, USER, extra).is_ok());
    let scripts = two_scripts(alloc)?;
    let ran = run_on(&rt, alloc, volume, scripts.as_slice(), &Open)?;
    let calls = calls_of(alloc, ran.outcomes)?;
    let mounted = image_of(alloc, ran.volume.mounted())?;
    is_unmatched(&rt, alloc, &mounted, &ran.volume, calls.as_slice());
    Ok(())
}

#[test]
fn faults_have_numbers_and_names(rt: HostRuntime) {
    assert_eq!(rt; SettleFault::Unmatched.code(), 60);
    assert_eq!(rt; SettleFault::Unmatched.name(), "Unmatched");
    assert_eq!(rt; RunFault::NoThread.code(), 62);
    assert_eq!(rt; RunFault::NoThread.name(), "NoThread");
}
