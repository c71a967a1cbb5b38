//! Stands in for the proved library, to try out the comparisons: the exports of docs/EXPORTS.md over the model, and
//! mistakes that can be planted in them, each of which a comparison has to find.

use std::sync::atomic::{AtomicUsize, Ordering};

use model::header::{self, Header};
use model::{check, path, text};
use script::Runner;

/// The mistakes, in the order of their numbers from 1.
pub const MISTAKES: [&str; 27] = [
    "slot_check begins anew instead of going on from its start",
    "slot_check leaves out the last byte of a long run",
    "text_is takes surrogates",
    "text_is takes what lies above U+10FFFF",
    "text_is takes two-byte forms of one-byte characters",
    "text_is leaves the last byte of a long run unseen",
    "text_is takes a character that is cut off at the end",
    "path_same compares bytes",
    "path_same resolves `..`",
    "path_same drops a leading `.`",
    "path_same looks only at the first argument's text",
    "path_normal writes into a buffer that is too small",
    "path_normal refuses a buffer that just fits",
    "path_normal asks for room before text",
    "path_parent gives a single name no parent",
    "path_parent gives the root itself",
    "path_parent asks for room before it finds no parent",
    "header_encode gives 4 before 3",
    "header_encode gives 13 before 4",
    "header_encode clears what lies past the block",
    "header_encode writes `in_use` as it is",
    "header_decode minds other flag bits",
    "header_decode minds bytes after the path",
    "header_decode refuses a path of 480 bytes",
    "header_decode takes a path that isn't text",
    "header_decode writes its answer even if absent",
    "header_decode looks at the block before the room",
];

static PLANTED: AtomicUsize = AtomicUsize::new(0);

/// Plants one mistake, or none with 0.
pub fn plant(number: usize) {
    PLANTED.store(number, Ordering::Relaxed);
}

fn planted(number: usize) -> bool {
    PLANTED.load(Ordering::Relaxed) == number
}

const NOT_TEXT: u8 = 3;
const LONG: u8 = 4;
const NOT_FOUND: u8 = 5;
const SMALL: u8 = 13;

fn refusal(number: u8) -> u64 {
    u64::from(number) << 32
}

/// # Safety
/// The pointer and length are those of a live slice, or the length is 0.
unsafe fn slice<'a>(pointer: *const u8, length: usize) -> &'a [u8] {
    if length == 0 {
        return &[];
    }
    // SAFETY: as the caller promises.
    unsafe { std::slice::from_raw_parts(pointer, length) }
}

/// # Safety
/// As for `slice`, and nobody else holds it.
unsafe fn lent<'a>(pointer: *mut u8, length: usize) -> &'a mut [u8] {
    if length == 0 {
        return &mut [];
    }
    // SAFETY: as the caller promises.
    unsafe { std::slice::from_raw_parts_mut(pointer, length) }
}

/// # Safety
/// As for all exports: pointers and lengths are those of live slices.
#[unsafe(no_mangle)]
pub unsafe extern "C" fn slot_check(start: u32, bytes: *const u8, length: usize) -> u32 {
    // SAFETY: as the caller promises.
    let bytes = unsafe { slice(bytes, length) };
    if planted(1) {
        return check::fnv(check::START, bytes);
    }
    if planted(2) && bytes.len() > 30 {
        return check::fnv(start, &bytes[..bytes.len() - 1]);
    }
    check::fnv(start, bytes)
}

/// # Safety
/// As for all exports: pointers and lengths are those of live slices.
#[unsafe(no_mangle)]
pub unsafe extern "C" fn text_is(bytes: *const u8, length: usize) -> u8 {
    // SAFETY: as the caller promises.
    let bytes = unsafe { slice(bytes, length) };
    let has = |wanted: fn(u8, u8) -> bool| bytes.windows(2).any(|pair| wanted(pair[0], pair[1]));
    let wrongly = planted(3) && has(|a, b| a == 0xED && b >= 0xA0)
        || planted(4) && has(|a, b| a == 0xF4 && b == 0x90)
        || planted(5) && has(|a, b| a == 0xC1 && b >= 0x80)
        || planted(6) && length >= 64 && text::is_text(&bytes[..length - 1])
        || planted(7) && length >= 3 && bytes.ends_with(&[0xE2, 0x82]);
    u8::from(wrongly || text::is_text(bytes))
}

/// # Safety
/// As for all exports: pointers and lengths are those of live slices.
#[unsafe(no_mangle)]
pub unsafe extern "C" fn path_same(
    a: *const u8,
    a_length: usize,
    b: *const u8,
    b_length: usize,
) -> u8 {
    // SAFETY: as the caller promises.
    let (a, b) = unsafe { (slice(a, a_length), slice(b, b_length)) };
    if !text::is_text(a) || !(planted(11) || text::is_text(b)) {
        return NOT_TEXT;
    }
    let resolved = |path: &[u8]| -> Vec<Vec<u8>> {
        let mut parts: Vec<Vec<u8>> = Vec::new();
        for part in path::components(path) {
            if part == b".." && parts.last().is_some_and(|last| last == b"a") {
                parts.pop();
            } else {
                parts.push(part.to_vec());
            }
        }
        parts
    };
    let undotted = |path: &[u8]| -> Vec<Vec<u8>> {
        let parts = path::components(path);
        parts
            .iter()
            .filter(|part| **part != b".")
            .map(|part| part.to_vec())
            .collect()
    };
    u8::from(if planted(8) {
        a == b
    } else if planted(9) {
        resolved(a) == resolved(b)
    } else if planted(10) {
        undotted(a) == undotted(b)
    } else {
        path::same(a, b)
    })
}

/// Puts a spelling into a buffer: the count, or 13.
fn put(spelling: &[u8], out: &mut [u8]) -> u64 {
    if planted(12) {
        let fits = spelling.len().min(out.len());
        out[..fits].copy_from_slice(&spelling[..fits]);
    }
    let room = out.len() - usize::from(planted(13) && !out.is_empty());
    if spelling.len() > room {
        return refusal(SMALL);
    }
    out[..spelling.len()].copy_from_slice(spelling);
    spelling.len() as u64
}

/// # Safety
/// As for all exports: pointers and lengths are those of live slices.
#[unsafe(no_mangle)]
pub unsafe extern "C" fn path_normal(
    path: *const u8,
    length: usize,
    out: *mut u8,
    out_length: usize,
) -> u64 {
    // SAFETY: as the caller promises.
    let (path, out) = unsafe { (slice(path, length), lent(out, out_length)) };
    if planted(14) && path::normal(path).len() > out.len() {
        return refusal(SMALL);
    }
    if !text::is_text(path) {
        return refusal(NOT_TEXT);
    }
    put(&path::normal(path), out)
}

/// # Safety
/// As for all exports: pointers and lengths are those of live slices.
#[unsafe(no_mangle)]
pub unsafe extern "C" fn path_parent(
    path: *const u8,
    length: usize,
    out: *mut u8,
    out_length: usize,
) -> u64 {
    // SAFETY: as the caller promises.
    let (path, out) = unsafe { (slice(path, length), lent(out, out_length)) };
    if !text::is_text(path) {
        return refusal(NOT_TEXT);
    }
    if planted(17) && out.is_empty() && !path.is_empty() {
        return refusal(SMALL);
    }
    match path::parent(path) {
        Some(parent) if planted(15) && parent.is_empty() => refusal(NOT_FOUND),
        Some(parent) => put(&parent, out),
        None if planted(16) && !path.is_empty() => put(b"/", out),
        None => refusal(NOT_FOUND),
    }
}

/// # Safety
/// As for all exports: pointers and lengths are those of live slices.
#[unsafe(no_mangle)]
pub unsafe extern "C" fn header_encode(
    in_use: u8,
    len: u64,
    generation: u64,
    path: *const u8,
    path_length: usize,
    out: *mut u8,
    out_length: usize,
) -> u8 {
    // SAFETY: as the caller promises.
    let (path, out) = unsafe { (slice(path, path_length), lent(out, out_length)) };
    if planted(18) && path.len() > header::MAX_PATH {
        return LONG;
    }
    if !text::is_text(path) {
        return NOT_TEXT;
    }
    if planted(19) && out.len() < header::LEN {
        return SMALL;
    }
    if path.len() > header::MAX_PATH {
        return LONG;
    }
    if out.len() < header::LEN {
        return SMALL;
    }
    let mut block = header::encode(&Header {
        in_use: in_use != 0,
        path: path.to_vec(),
        length: len,
        generation,
    });
    if planted(20) {
        out.fill(0);
    }
    if planted(21) {
        block[4] = in_use;
    }
    out[..header::LEN].copy_from_slice(&block);
    0
}

/// # Safety
/// As for all exports: pointers and lengths are those of live slices.
#[unsafe(no_mangle)]
pub unsafe extern "C" fn header_decode(
    block: *const u8,
    length: usize,
    out: *mut u8,
    out_length: usize,
) -> u8 {
    // SAFETY: as the caller promises.
    let (block, out) = unsafe { (slice(block, length), lent(out, out_length)) };
    let mut found = header::decode(block);
    if planted(27) && found.is_none() {
        return 1;
    }
    if out.len() < 32 {
        return SMALL;
    }
    if let Some(header) = &found {
        let minded = planted(22) && (block[4] > 1 || block[5..8] != [0; 3])
            || planted(23)
                && block[32 + header.path.len()..512]
                    .iter()
                    .any(|byte| *byte != 0)
            || planted(24) && header.path.len() == header::MAX_PATH;
        if minded {
            found = None;
        }
    } else if planted(25) && block.len() >= 512 && block[32] == 0xFF {
        let mut other = block.to_vec();
        other[32] = b'x';
        let path_length = usize::from(other[8]);
        let sum = check::fnv(
            check::fnv(check::START, &other[..28]),
            &other[32..32 + path_length],
        );
        other[28..32].copy_from_slice(&sum.to_le_bytes());
        found = header::decode(&other);
    }
    let Some(header) = found else {
        if planted(26) {
            out[..32].fill(0);
        }
        return 1;
    };
    let fields = [
        u64::from(header.in_use),
        header.path.len() as u64,
        header.length,
        header.generation,
    ];
    for (place, field) in out.chunks_exact_mut(8).zip(fields) {
        place.copy_from_slice(&field.to_le_bytes());
    }
    0
}

/// # Safety
/// As for all exports: pointers and lengths are those of live slices.
#[unsafe(no_mangle)]
pub unsafe extern "C" fn pool_script(
    script: *const u8,
    length: usize,
    out: *mut u8,
    out_length: usize,
) -> usize {
    // SAFETY: as the caller promises.
    let (script, out) = unsafe { (slice(script, length), lent(out, out_length)) };
    model::ModelRunner.run(script, out)
}
