//! 01, Text: UTF-8 by the grammar of RFC 3629, section 4.

/// Whether the bytes are UTF-8.
pub fn is_text(bytes: &[u8]) -> bool {
    let mut rest = bytes;
    while !rest.is_empty() {
        match first_character(rest) {
            Some(length) => rest = &rest[length..],
            None => return false,
        }
    }
    true
}

/// How many bytes the first character takes, if it is one of the grammar's.
fn first_character(bytes: &[u8]) -> Option<usize> {
    let tail = |at: usize| matches!(bytes.get(at), Some(0x80..=0xBF));
    let second = |low: u8, high: u8| bytes.get(1).is_some_and(|b| (low..=high).contains(b));
    let (length, whole) = match bytes[0] {
        0x00..=0x7F => (1, true),
        0xC2..=0xDF => (2, tail(1)),
        0xE0 => (3, second(0xA0, 0xBF) && tail(2)),
        0xE1..=0xEC | 0xEE..=0xEF => (3, tail(1) && tail(2)),
        0xED => (3, second(0x80, 0x9F) && tail(2)),
        0xF0 => (4, second(0x90, 0xBF) && tail(2) && tail(3)),
        0xF1..=0xF3 => (4, tail(1) && tail(2) && tail(3)),
        0xF4 => (4, second(0x80, 0x8F) && tail(2) && tail(3)),
        _ => (1, false),
    };
    whole.then_some(length)
}
