//! The crate that tests/kit tries a kit on: a function for each kind of clause that an edit names, and one for each way in which the prover says that
//! it is open. It is no crate of the repository, so its sources end in .rs and .proof, as those of tests do.
#![tactic(auto)]

ghost use Rattle.std.specs.Prelude.{◌≡◌, ◌+◌, ◌<◌, ◌≤◌};
ghost use Rattle.probe.specs.Twice.{twice};

mod small;

pub use small::{Numbered, Small};
use std::alloc::{AllocError, Global};
use std::test::Fail;

/// One more than the number.
pub fn next(number: u8) -> u8
    requires small { number < 200 }
    ensures { result ≡ number + 1 }
{
    number + 1
}

/// The number, and 7.
pub fn pair(number: u8) -> (u8, u8)
    ensures first { result.0 ≡ number }
    ensures second { result.1 ≡ 7 }
{
    (number, 7)
}

/// The number, which is small.
pub fn same(number: u8) -> u8
    requires { number < 200 }
    ensures { result ≡ number }
{
    number
}

/// The number where it is small, and else 0.
pub fn asks(number: u8) -> u8
    ensures { result ≤ 250 }
{
    if number < 200 { same(number) } else { 0 }
}

/// The sum of small numbers, and else 0.
pub fn sum(one: u8, other: u8) -> u8 {
    if one < 100 && other < 100 {
        one + other
    } else {
        0
    }
}

/// Counts up to the number.
pub fn counted(most: u8) -> u8
    ensures { result ≡ most }
{
    let mut count = 0;
    while count < most {
        count += 1;
    }
    count
}

/// Counts down to 0.
pub fn ended(most: u8) -> u8 {
    let mut left = most;
    while left > 0 {
        left -= 1;
    }
    left
}

/// The number twice.
pub fn doubled(number: u8) -> u16
    ensures { result ≡ twice number }
{
    number as u16 + number as u16
}

/// The number, in a body that an edit writes otherwise and of the same meaning.
pub fn unchanged(number: u8) -> u8
    ensures { result ≡ number }
{
    let found = number;
    found
}

/// Half of the number, in a body that an edit has overflow, which breaks no clause.
pub fn halved(number: u8) -> u8
    ensures { result ≤ 255 }
{
    let half = number / 2;
    half
}

/// The number, in a body without an edit.
pub fn unsaid(number: u8) -> u8
    ensures { result ≤ 255 }
{
    number
}

/// The numbers below this one.
pub fn filled(alloc: Global, count: u8) -> Result<Vec<u8>, AllocError> {
    let mut list = Vec::new(alloc);
    for number in 0..count {
        list.push(number)?;
    }
    Ok(list)
}

#[test]
fn grows(rt: HostRuntime) -> Result<(), Fail> {
    let list = filled(rt.alloc(), 9)?;
    assert!(rt; list.len() == 9);
    Ok(())
}

#[test]
fn fails(rt: HostRuntime) {
    assert!(rt; next(1) == 3);
}
