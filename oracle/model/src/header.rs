//! 01, The header block.

use crate::check::{START, fnv};
use crate::text::is_text;

/// Bytes of a block.
pub const LEN: usize = 512;
/// Where the path starts.
pub const FIXED: usize = 32;
/// The longest path.
pub const MAX_PATH: usize = 480;
const MAGIC: u32 = 0x4F47_4552;

/// What a block says.
#[derive(Clone, Debug, PartialEq, Eq)]
pub struct Header {
    /// Bit 0 of the flags.
    pub in_use: bool,
    /// The path's bytes, at most 480.
    pub path: Vec<u8>,
    /// The file's length.
    pub length: u64,
    /// The generation.
    pub generation: u64,
}

/// The block of a header whose path is text of at most 480 bytes.
pub fn encode(header: &Header) -> [u8; LEN] {
    let mut block = [0; LEN];
    block[0..4].copy_from_slice(&MAGIC.to_le_bytes());
    block[4] = u8::from(header.in_use);
    block[8..12].copy_from_slice(&(header.path.len() as u32).to_le_bytes());
    block[12..20].copy_from_slice(&header.length.to_le_bytes());
    block[20..28].copy_from_slice(&header.generation.to_le_bytes());
    let check = fnv(fnv(START, &block[..28]), &header.path);
    block[28..32].copy_from_slice(&check.to_le_bytes());
    block[FIXED..FIXED + header.path.len()].copy_from_slice(&header.path);
    block
}

/// The header that the bytes read hold, or `None` for absent.
pub fn decode(read: &[u8]) -> Option<Header> {
    let block: &[u8; LEN] = read.first_chunk()?;
    let number = |at: usize, width: usize| -> u64 {
        let field = &block[at..at + width];
        field
            .iter()
            .rev()
            .fold(0, |n, byte| n * 256 + u64::from(*byte))
    };
    if number(0, 4) != u64::from(MAGIC) || number(8, 4) > MAX_PATH as u64 {
        return None;
    }
    let path = &block[FIXED..FIXED + number(8, 4) as usize];
    let check = fnv(fnv(START, &block[..28]), path);
    if number(28, 4) != u64::from(check) || !is_text(path) {
        return None;
    }
    Some(Header {
        in_use: block[4] % 2 == 1,
        path: path.to_vec(),
        length: number(12, 8),
        generation: number(20, 8),
    })
}
