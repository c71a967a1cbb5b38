//! A call as a request of the program `serve`, and its answer: the bytes of docs/EXPORTS.md, without their lengths before them.

use std::fmt;

use super::{Answer, Call, hex};

/// What the program fills a lent buffer with before the call.
pub const FILL: u8 = 0xAA;

/// The longest buffer that it lends to a call.
pub const MOST_ROOM: usize = (1 << 20) - 64;

impl Call<'_> {
    /// The length of the buffer that it is lent; 0 for a call that is lent none.
    pub fn room(&self) -> usize {
        match *self {
            Call::Check { .. } | Call::Text { .. } | Call::Same { .. } => 0,
            Call::Encode { room, .. }
            | Call::Decode { room, .. }
            | Call::Normal { room, .. }
            | Call::Parent { room, .. }
            | Call::Script { room, .. } => room,
        }
    }

    /// Its name, its number among the requests, and the bytes of the number that it answers.
    fn facts(&self) -> (&'static str, u8, usize) {
        match self {
            Call::Check { .. } => ("slot_check", 1, 4),
            Call::Encode { .. } => ("header_encode", 2, 1),
            Call::Decode { .. } => ("header_decode", 3, 1),
            Call::Text { .. } => ("text_is", 4, 1),
            Call::Same { .. } => ("path_same", 5, 1),
            Call::Normal { .. } => ("path_normal", 6, 8),
            Call::Parent { .. } => ("path_parent", 7, 8),
            Call::Script { .. } => ("pool_script", 8, 8),
        }
    }
}

impl fmt::Display for Call<'_> {
    fn fmt(&self, f: &mut fmt::Formatter<'_>) -> fmt::Result {
        let (name, ..) = self.facts();
        match *self {
            Call::Check { start, bytes } => write!(f, "{name} from {start:08x} of {}", hex(bytes)),
            Call::Encode {
                in_use,
                len,
                generation,
                path,
                room,
            } => write!(
                f,
                "{name}({in_use}, {len}, {generation}, {}) into {room} bytes",
                hex(path)
            ),
            Call::Text { bytes } => write!(f, "{name} of {}", hex(bytes)),
            Call::Same { a, b } => write!(f, "{name} of {} and {}", hex(a), hex(b)),
            Call::Decode { block: bytes, room }
            | Call::Normal { path: bytes, room }
            | Call::Parent { path: bytes, room }
            | Call::Script {
                script: bytes,
                room,
            } => write!(f, "{name} of {} into {room} bytes", hex(bytes)),
        }
    }
}

/// The call as a request.
pub fn written(call: &Call) -> Vec<u8> {
    let (_, number, _) = call.facts();
    let mut out = vec![number];
    let room = (call.room() as u32).to_le_bytes();
    match *call {
        Call::Check { start, bytes } => {
            out.extend(start.to_le_bytes());
            out.extend(bytes);
        }
        Call::Encode {
            in_use,
            len,
            generation,
            path,
            ..
        } => {
            out.push(in_use);
            out.extend(len.to_le_bytes());
            out.extend(generation.to_le_bytes());
            out.extend(room);
            out.extend(path);
        }
        Call::Text { bytes } => out.extend(bytes),
        Call::Same { a, b } => {
            out.extend((a.len() as u32).to_le_bytes());
            out.extend(a);
            out.extend(b);
        }
        Call::Decode { block: bytes, .. }
        | Call::Normal { path: bytes, .. }
        | Call::Parent { path: bytes, .. }
        | Call::Script { script: bytes, .. } => {
            out.extend(room);
            out.extend(bytes);
        }
    }
    out
}

/// The call that a request says.
pub fn read(request: &[u8]) -> Option<Call<'_>> {
    let (number, body) = request.split_first()?;
    let lent = |body: &'_ [u8]| -> Option<usize> {
        Some(u32::from_le_bytes(*body.first_chunk()?) as usize)
    };
    Some(match number {
        1 => Call::Check {
            start: u32::from_le_bytes(*body.first_chunk()?),
            bytes: &body[4..],
        },
        2 => {
            let (in_use, rest) = body.split_first()?;
            let (len, rest) = rest.split_first_chunk()?;
            let (generation, rest) = rest.split_first_chunk()?;
            Call::Encode {
                in_use: *in_use,
                len: u64::from_le_bytes(*len),
                generation: u64::from_le_bytes(*generation),
                room: lent(rest)?,
                path: &rest[4..],
            }
        }
        4 => Call::Text { bytes: body },
        5 => {
            let length = lent(body)?;
            let (a, b) = body[4..].split_at_checked(length)?;
            Call::Same { a, b }
        }
        3 | 6 | 7 | 8 => {
            let (room, bytes) = (lent(body)?, &body[4..]);
            match number {
                3 => Call::Decode { block: bytes, room },
                6 => Call::Normal { path: bytes, room },
                7 => Call::Parent { path: bytes, room },
                _ => Call::Script {
                    script: bytes,
                    room,
                },
            }
        }
        _ => return None,
    })
}

/// The answer that these bytes are, if they are one of the call.
pub fn answer(call: &Call, bytes: &[u8]) -> Option<Answer> {
    let (_, _, width) = call.facts();
    let (low, out) = bytes.split_at_checked(width)?;
    if out.len() != call.room() {
        return None;
    }
    let mut number = [0; 8];
    number[..width].copy_from_slice(low);
    Some(Answer {
        number: u64::from_le_bytes(number),
        out: out.to_vec(),
    })
}
