//! The library's exports (docs/EXPORTS.md), linked from the repository's `target/staticlib/libharness.a` if it is there
//! when this crate is built, and fits the processor. A `&[u8]` passes as a pointer and a length.

use super::{Answer, Call};

// The stand-in defines the exports when the comparison itself is tried out.
#[cfg(feature = "selfcheck")]
use library_standin as _;

/// Whether the library is linked.
pub const PRESENT: bool = cfg!(library);

/// Whether the library says alone if a record is a pool.
pub const RECORDS: bool = cfg!(records);

#[cfg(library)]
unsafe extern "C" {
    fn slot_check(start: u32, bytes: *const u8, length: usize) -> u32;
    fn header_encode(
        in_use: u8,
        len: u64,
        generation: u64,
        path: *const u8,
        path_length: usize,
        out: *mut u8,
        out_length: usize,
    ) -> u8;
    fn header_decode(block: *const u8, length: usize, out: *mut u8, out_length: usize) -> u8;
    fn text_is(bytes: *const u8, length: usize) -> u8;
    fn path_same(a: *const u8, a_length: usize, b: *const u8, b_length: usize) -> u8;
    fn path_normal(path: *const u8, length: usize, out: *mut u8, out_length: usize) -> u64;
    fn path_parent(path: *const u8, length: usize, out: *mut u8, out_length: usize) -> u64;
    fn pool_script(script: *const u8, length: usize, out: *mut u8, out_length: usize) -> usize;
}

#[cfg(records)]
unsafe extern "C" {
    fn record_check(
        nums: *const u64,
        nums_length: usize,
        names: *const u8,
        names_length: usize,
        dirs: *const u8,
        dirs_length: usize,
        rows: usize,
        dir_rows: usize,
        held: usize,
        dirs_held: usize,
        counter: u64,
    ) -> u8;
    fn record_lookups(
        nums: *const u64,
        nums_length: usize,
        names: *const u8,
        names_length: usize,
        dirs: *const u8,
        dirs_length: usize,
        rows: usize,
        dir_rows: usize,
        held: usize,
        dirs_held: usize,
        counter: u64,
        path: *const u8,
        path_length: usize,
        times: u64,
    ) -> u64;
}

// SAFETY, for all calls below: the pointers and lengths are those of live slices, `out` is lent to the call alone, and the
// signatures are those that the library exports.

/// Makes the call on a lent buffer; gives its number.
#[cfg(library)]
pub fn call(call: &Call, out: &mut [u8]) -> u64 {
    let (lent, room) = (out.as_mut_ptr(), out.len());
    match *call {
        Call::Check { start, bytes } => {
            u64::from(unsafe { slot_check(start, bytes.as_ptr(), bytes.len()) })
        }
        Call::Encode {
            in_use,
            len,
            generation,
            path,
            ..
        } => {
            let (path, length) = (path.as_ptr(), path.len());
            u64::from(unsafe { header_encode(in_use, len, generation, path, length, lent, room) })
        }
        Call::Decode { block, .. } => {
            u64::from(unsafe { header_decode(block.as_ptr(), block.len(), lent, room) })
        }
        Call::Text { bytes } => u64::from(unsafe { text_is(bytes.as_ptr(), bytes.len()) }),
        Call::Same { a, b } => {
            u64::from(unsafe { path_same(a.as_ptr(), a.len(), b.as_ptr(), b.len()) })
        }
        Call::Normal { path, .. } => unsafe { path_normal(path.as_ptr(), path.len(), lent, room) },
        Call::Parent { path, .. } => unsafe { path_parent(path.as_ptr(), path.len(), lent, room) },
        Call::Script { script, .. } => unsafe {
            pool_script(script.as_ptr(), script.len(), lent, room) as u64
        },
    }
}

/// The same face where there is no library: `PRESENT` is false, so that this is not reached.
#[cfg(not(library))]
pub fn call(_call: &Call, _out: &mut [u8]) -> u64 {
    unreachable!("no library was linked")
}

/// The answer, with a lent buffer that holds `fill` before the call.
pub fn answer(asked: &Call, fill: u8) -> Answer {
    let mut out = vec![fill; asked.room()];
    let number = call(asked, &mut out);
    Answer { number, out }
}

/// A record with an empty queue over lent rows. The counts: slot rows, directory rows, slots held, directories held.
#[cfg_attr(not(records), allow(dead_code))]
pub struct Record<'a> {
    pub nums: &'a [u64],
    pub names: &'a [u8],
    pub dirs: &'a [u8],
    pub counts: [usize; 4],
    pub counter: u64,
}

// The record's arguments of an export, and what more it takes.
#[cfg(records)]
macro_rules! over_record {
    ($export:ident, $record:expr $(, $more:expr)*) => {{
        let [rows, dir_rows, held, dirs_held] = $record.counts;
        unsafe {
            $export(
                $record.nums.as_ptr(),
                $record.nums.len(),
                $record.names.as_ptr(),
                $record.names.len(),
                $record.dirs.as_ptr(),
                $record.dirs.len(),
                rows,
                dir_rows,
                held,
                dirs_held,
                $record.counter
                $(, $more)*
            )
        }
    }};
}

/// Whether it is a pool.
#[cfg(records)]
pub fn record(record: &Record) -> bool {
    over_record!(record_check, record) == 1
}

/// The same face where the library does not say it: `RECORDS` is false, so that this is not reached.
#[cfg(not(records))]
pub fn record(_record: &Record) -> bool {
    unreachable!("no record_check was linked")
}

/// The test of such a record, and if it is a pool so many searches of a path: how many found it.
#[cfg(records)]
pub fn lookups(record: &Record, path: &[u8], times: u64) -> u64 {
    over_record!(record_lookups, record, path.as_ptr(), path.len(), times)
}

#[cfg(not(records))]
pub fn lookups(_record: &Record, _path: &[u8], _times: u64) -> u64 {
    unreachable!("no record_lookups was linked")
}
