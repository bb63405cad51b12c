//! What scripts tell a test by variables of the environment. Nothing here takes memory, so that it may be asked while memory is refused.
use std::alloc::{AllocError, Global};
use std::process::Abort;
use std::rt::Env;
use std::str;

/// The number that this variable has; none where it has none.
pub fn number_of(rt: &impl Env, name: &str) -> Option<u32> {
    let mut text = [0; 16];
    let Ok(length) = rt.var(name, &mut text) else {
        return None;
    };
    match text.get(..length) {
        Some(bytes) => match str::from_utf8(bytes) {
            Ok(number) => number.parse::<u32>().ok(),
            Err(_) => None,
        },
        None => None,
    }
}

/// One growth of memory that may be refused in this run, as tests/refusals says by REFUSE.
#[derive(Drop)]
pub struct Refusing {
    left: bool,
}

impl Refusing {
    /// What the run says of it.
    pub fn of(rt: &impl Env) -> Refusing {
        Refusing {
            left: number_of(rt, "REFUSE").is_some(),
        }
    }

    /// A call answered that memory is wanting: a run refuses one growth, and none by itself.
    pub fn meets(&mut self, rt: &impl Abort) {
        assert!(rt; self.left, "no growth was refused");
        self.left = false;
    }
}

/// The last growth of a test: where it is the refused one, each of the test was in a run before.
pub fn ends(rt: &impl Abort, alloc: Global) {
    let last: Result<Vec<u8>, AllocError> = Vec::with_capacity(alloc, 1);
    assert!(rt; last.is_ok(), "each growth was refused");
}
