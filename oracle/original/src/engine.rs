//! Stand-in for regolith's `engine`, of which only the check is used.

pub(crate) mod checksum {
    //! 01, Check: 32-bit FNV-1a in place of the original's XXH3.

    /// The check of a slot header: over its first 28 bytes, and then the path.
    pub(crate) fn opfs_slot_header(fixed: &[u8], path: &[u8]) -> u32 {
        let mut sum: u32 = 0x811c_9dc5;
        for byte in fixed.iter().chain(path) {
            sum ^= u32::from(*byte);
            sum = sum.wrapping_mul(0x0100_0193);
        }
        sum
    }
}
