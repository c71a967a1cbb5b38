
// Appended by the oracle, to call private functions.

/// `encode_header`.
pub(super) fn encoded(header: &SlotHeader) -> Vec<u8> {
    encode_header(header)
}

/// `decode_header`.
pub(super) fn decoded(block: &[u8]) -> Option<SlotHeader> {
    decode_header(block)
}
