//! Blocks of 512 bytes, given by what stands in them.
use ods_archive::{Found, next_member, path_of};
use std::alloc::AllocError;

/// A block with these texts at these places, and zeros.
pub fn block(texts: &[(usize, &[u8])]) -> [u8; 512] {
    let mut block = [0; 512];
    for (at, text) in texts {
        block[*at..*at + text.len()].copy_from_slice(text);
    }
    block
}

/// An archive of these blocks.
pub fn archive(rt: HostRuntime, blocks: &[[u8; 512]]) -> Result<Vec<u8>, AllocError> {
    let mut bytes = Vec::new(rt.alloc());
    for block in blocks {
        bytes.extend_from_slice(block)?;
    }
    Ok(bytes)
}

/// Whether a file of this path, this time and these bytes is found at a place, with the next place behind it.
pub fn finds(
    rt: HostRuntime,
    archive: &[u8],
    at: usize,
    (path, mtime, bytes, next): (&[u8], u64, &[u8], usize),
) -> bool {
    let Ok(Some(found)) = next_member(archive, at) else {
        return false;
    };
    has_path(rt, &found, path)
        && found.mtime == Some(mtime)
        && found.bytes == bytes
        && found.next == next
}

/// Whether the member has this path.
pub fn has_path(rt: HostRuntime, found: &Found<'_>, path: &[u8]) -> bool {
    match path_of(rt.alloc(), found) {
        Ok(its) => its.as_slice() == path,
        Err(_) => false,
    }
}
