//! 01, Check: 32-bit FNV-1a.

/// What the check starts from.
pub const START: u32 = 2_166_136_261;
const PRIME: u32 = 16_777_619;

/// The check continued from `start` over `bytes`.
pub fn fnv(start: u32, bytes: &[u8]) -> u32 {
    bytes.iter().fold(start, |sum, byte| {
        (sum ^ u32::from(*byte)).wrapping_mul(PRIME)
    })
}
