//! Requests and a query that tests make with a desk in hand, on the sample volume of 40 blocks.
ghost use Rattle.ods_state.specs.Outcome.{CanBeAsked};

use crate::persons::{FIRST, a_txt, letter_a};
use ods_request::{Query, Request, Stamp};

/// A Create of a file of one block, which is the first.
pub fn file_made(stamp: Stamp) -> Request
    ensures { CanBeAsked result }
{
    Request::Create {
        name: a_txt(),
        version: 1,
        blocks: 1,
        stamp,
    }
}

/// A Write of a block of the first file.
pub fn block_written(vbn: u32) -> Request
    ensures { CanBeAsked result }
{
    Request::Write {
        file: FIRST,
        vbn,
        block: letter_a(),
    }
}

/// A Read of the first block of the first file.
pub fn block_read() -> Request
    ensures { CanBeAsked result }
{
    Request::Read {
        file: FIRST,
        vbn: 1,
    }
}

/// The same as a query.
pub fn block_viewed() -> Query {
    Query::Read {
        file: FIRST,
        vbn: 1,
    }
}
