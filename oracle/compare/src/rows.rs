//! Slot rows and directory rows as they are lent to the library, for timing what every public call begins with, the
//! test of the record, and the search of a path.

use std::path::Path;
use std::time::Instant;

use crate::library::linked as library;

/// Bytes of a slot row's path and of a directory row.
const NAME: usize = 480;
const DIR: usize = 482;

/// Whether the library exports the test and the search.
pub const PRESENT: bool = library::RECORDS;

/// Rows full of files, and directory rows with how many of them are held.
pub struct Rows {
    nums: Vec<u64>,
    names: Vec<u8>,
    dirs: Vec<u8>,
    held: usize,
    dirs_held: usize,
}

impl Rows {
    /// Rows for these files and directories, with room for `dir_rows` directories.
    pub fn new<P: AsRef<[u8]>>(files: &[P], dirs: &[P], dir_rows: usize) -> Rows {
        let mut rows = Rows {
            nums: vec![0; files.len() * 4],
            names: vec![0; files.len() * NAME],
            dirs: vec![0; dir_rows * DIR],
            held: files.len(),
            dirs_held: dirs.len(),
        };
        for (i, file) in files.iter().map(AsRef::as_ref).enumerate() {
            let numbers = [1, file.len() as u64, 0, i as u64 + 1];
            rows.nums[i * 4..i * 4 + 4].copy_from_slice(&numbers);
            rows.names[i * NAME..i * NAME + file.len()].copy_from_slice(file);
        }
        for (j, dir) in dirs.iter().map(AsRef::as_ref).enumerate() {
            let row = &mut rows.dirs[j * DIR..(j + 1) * DIR];
            row[..2].copy_from_slice(&(dir.len() as u16).to_le_bytes());
            row[2..2 + dir.len()].copy_from_slice(dir);
        }
        rows
    }

    fn file(&self, i: usize) -> &[u8] {
        &self.names[i * NAME..i * NAME + self.nums[i * 4 + 1] as usize]
    }

    fn dir(&self, j: usize) -> &[u8] {
        let row = &self.dirs[j * DIR..(j + 1) * DIR];
        &row[2..2 + usize::from(u16::from_le_bytes([row[0], row[1]]))]
    }

    fn record(&self) -> library::Record<'_> {
        library::Record {
            nums: &self.nums,
            names: &self.names,
            dirs: &self.dirs,
            counts: [self.held, self.dirs.len() / DIR, self.held, self.dirs_held],
            counter: self.held as u64 + 1,
        }
    }

    /// The proved test.
    pub fn library(&self) -> bool {
        library::record(&self.record())
    }

    /// The proved test once, then so many searches of a path: how many found it.
    pub fn search(&self, path: &[u8], times: u64) -> u64 {
        library::lookups(&self.record(), path, times)
    }

    /// One plain pass over everything that is lent: the greatest byte and the greatest number.
    pub fn pass(&self) -> u64 {
        let top = |bytes: &[u8]| bytes.iter().copied().max().unwrap_or(0);
        let numbers = self.nums.iter().copied().max().unwrap_or(0);
        numbers.max(top(&self.names).max(top(&self.dirs)).into())
    }

    /// The same test as the proved one, without filters: every pair of paths, every directory for every parent.
    pub fn all_pairs(&self) -> bool {
        let path = |bytes| Path::new(std::str::from_utf8(bytes).unwrap_or(""));
        let zero = |bytes: &[u8]| bytes.iter().all(|byte| *byte == 0);
        let files = (0..self.held).all(|i| {
            let text = self.file(i);
            std::str::from_utf8(text).is_ok()
                && zero(&self.names[i * NAME + text.len()..(i + 1) * NAME])
                && (0..i).all(|j| path(self.file(j)) != path(text))
        });
        let dirs = (0..self.dirs_held).all(|i| {
            let text = self.dir(i);
            let parent = path(text).parent().unwrap_or(Path::new(""));
            zero(&self.dirs[i * DIR + 2 + text.len()..(i + 1) * DIR])
                && (0..i).all(|j| path(self.dir(j)) != path(text))
                && (parent == Path::new("")
                    || (0..self.dirs_held).any(|j| path(self.dir(j)) == parent))
        });
        files && dirs && zero(&self.dirs[self.dirs_held * DIR..])
    }
}

/// The median time of one call, in microseconds, over `turns` batches.
pub fn median(turns: usize, mut call: impl FnMut()) -> f64 {
    const BATCH: u32 = 20;
    let mut times: Vec<f64> = (0..turns.max(1))
        .map(|_| {
            let began = Instant::now();
            (0..BATCH).for_each(|_| call());
            began.elapsed().as_secs_f64() * 1e6 / f64::from(BATCH)
        })
        .collect();
    times.sort_by(f64::total_cmp);
    times[times.len() / 2]
}
