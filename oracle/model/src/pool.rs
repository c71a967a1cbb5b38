//! 01, The calls. Each refuses in 01's order and gives 01's number.

use crate::device::Device;
use crate::header::{self, Header, MAX_PATH};
use crate::path;
use crate::text::is_text;

/// 01's numbers, but for the device's 10 and 11.
pub const NO_POOL: u8 = 1;
pub const SHAPE: u8 = 2;
pub const NOT_TEXT: u8 = 3;
pub const LONG: u8 = 4;
pub const NOT_FOUND: u8 = 5;
pub const STALE: u8 = 6;
pub const FULL: u8 = 7;
pub const MANY_DIRS: u8 = 8;
pub const COUNTER: u8 = 9;
pub const MANY_SLOTS: u8 = 12;
pub const SMALL: u8 = 13;

/// The counter goes up to this.
const LAST: u64 = 1 << 63;
const MOST_SLOT_ROWS: usize = 64;
const MOST_DIR_ROWS: usize = 256;

/// A slot's row. An unbound slot is clean and has length 0.
#[derive(Clone, Debug, Default)]
pub struct Row {
    /// The path as given, if the slot is bound.
    pub path: Option<Vec<u8>>,
    /// Whether its header on the device is older than the row.
    pub dirty: bool,
    /// The file's length.
    pub length: u64,
    /// The generation.
    pub generation: u64,
}

/// The record and the rows.
#[derive(Clone, Debug)]
pub struct Pool {
    /// Slot rows lent at mount.
    slot_rows: usize,
    /// Directory rows lent at mount.
    dir_rows: usize,
    /// The rows of the slots held.
    pub rows: Vec<Row>,
    /// The free queue from its front.
    pub queue: Vec<usize>,
    /// Directories in normal spelling, in the order in which they came.
    pub dirs: Vec<Vec<u8>>,
    /// The next generation.
    pub counter: u64,
}

/// What a survey of headers comes to, before anything is changed.
struct Survey {
    /// The new slots' rows.
    rows: Vec<Row>,
    /// Slots that lose their path, in the order found.
    losers: Vec<usize>,
    /// New slots that claim nothing.
    free: Vec<usize>,
    /// Directories that are not held yet.
    dirs: Vec<Vec<u8>>,
    /// The counter afterwards; it may pass the last one.
    counter: u128,
}

fn text(paths: &[&[u8]]) -> Result<(), u8> {
    if paths.iter().all(|path| is_text(path)) {
        Ok(())
    } else {
        Err(NOT_TEXT)
    }
}

impl Pool {
    /// A pool of no slots over these rows, after mount's test of shape.
    fn empty(device: &Device, slot_rows: usize, dir_rows: usize) -> Result<Pool, u8> {
        if !device.is_shaped() || slot_rows > MOST_SLOT_ROWS || dir_rows > MOST_DIR_ROWS {
            return Err(SHAPE);
        }
        Ok(Pool {
            slot_rows,
            dir_rows,
            rows: Vec::new(),
            queue: Vec::new(),
            dirs: Vec::new(),
            counter: 1,
        })
    }

    /// Mounts the first `count` slots: adopting them into the empty pool.
    pub fn mount(
        device: &mut Device,
        slot_rows: usize,
        dir_rows: usize,
        count: usize,
    ) -> Result<Pool, u8> {
        let mut pool = Pool::empty(device, slot_rows, dir_rows)?;
        pool.adopt(device, count)?;
        Ok(pool)
    }

    /// Adopts the next `count` slots.
    pub fn adopt(&mut self, device: &mut Device, count: usize) -> Result<(), u8> {
        let first = self.rows.len();
        if first + count > self.slot_rows || first + count > device.lengths.len() {
            return Err(MANY_SLOTS);
        }
        let mut headers = Vec::new();
        for slot in first..first + count {
            headers.push(header::decode(&device.read_header(slot)?));
        }
        let survey = self.survey(&headers);
        if self.dirs.len() + survey.dirs.len() > self.dir_rows {
            return Err(MANY_DIRS);
        }
        if survey.counter + survey.losers.len() as u128 > u128::from(LAST) {
            return Err(COUNTER);
        }
        self.rows.extend(survey.rows);
        self.dirs.extend(survey.dirs);
        self.queue.extend(survey.free);
        self.counter = survey.counter as u64;
        for slot in survey.losers {
            // 01: a failed release is passed over.
            let _ = self.release(device, slot);
        }
        Ok(())
    }

    /// Who holds what among the rows and these new headers. A loser's row is still bound in it: its release
    /// comes at the end.
    fn survey(&self, headers: &[Option<Header>]) -> Survey {
        let first = self.rows.len();
        let mut found = Survey {
            rows: Vec::new(),
            losers: Vec::new(),
            free: Vec::new(),
            dirs: Vec::new(),
            counter: u128::from(self.counter),
        };
        for (slot, header) in (first..).zip(headers) {
            let Some(header) = header else {
                found.rows.push(Row::default());
                found.free.push(slot);
                continue;
            };
            found.counter = found.counter.max(u128::from(header.generation) + 1);
            if !header.in_use || header.path.is_empty() {
                found.rows.push(Row::default());
                found.free.push(slot);
                continue;
            }
            let rows: Vec<&Row> = self.rows.iter().chain(&found.rows).collect();
            let holder = (0..rows.len()).find(|other| {
                let claims = rows[*other].path.as_ref();
                claims.is_some_and(|path| path::same(path, &header.path))
                    && !found.losers.contains(other)
            });
            match holder {
                Some(holder) if rows[holder].generation >= header.generation => {
                    found.losers.push(slot);
                }
                Some(holder) => found.losers.push(holder),
                None => (),
            }
            for dir in path::ancestors(&header.path) {
                if !self.dirs.contains(&dir) && !found.dirs.contains(&dir) {
                    found.dirs.push(dir);
                }
            }
            found.rows.push(Row {
                path: Some(header.path.clone()),
                dirty: false,
                length: header.length,
                generation: header.generation,
            });
        }
        found
    }

    /// Unbinds a slot under a new generation and frees it. It stops at the first failure; the slot is then
    /// neither bound nor free.
    fn release(&mut self, device: &mut Device, slot: usize) -> Result<(), u8> {
        let generation = self.spend();
        self.rows[slot] = Row {
            generation,
            ..Row::default()
        };
        self.put_header(device, slot)?;
        device.truncate(slot, 0)?;
        self.queue.push(slot);
        Ok(())
    }

    /// Writes the header that a row says, and flushes it.
    fn put_header(&self, device: &mut Device, slot: usize) -> Result<(), u8> {
        let row = &self.rows[slot];
        let block = header::encode(&Header {
            in_use: row.path.is_some(),
            path: row.path.clone().unwrap_or_default(),
            length: row.length,
            generation: row.generation,
        });
        device.put_header(slot, &block)
    }

    /// The next generation, spent.
    fn spend(&mut self) -> u64 {
        self.counter += 1;
        self.counter - 1
    }

    /// 9 if that many generations are more than are left.
    fn needs(&self, generations: u64) -> Result<(), u8> {
        if self.counter + generations > LAST {
            return Err(COUNTER);
        }
        Ok(())
    }

    /// The slot that is bound to an equal path.
    fn find(&self, path: &[u8]) -> Option<usize> {
        self.rows.iter().position(|row| {
            let bound = row.path.as_ref();
            bound.is_some_and(|held| path::same(held, path))
        })
    }

    fn is_dir(&self, path: &[u8]) -> bool {
        self.dirs.contains(&path::normal(path))
    }

    /// Those of the directories that are not held; 8 if they don't fit.
    fn missing(&self, wanted: Vec<Vec<u8>>) -> Result<Vec<Vec<u8>>, u8> {
        let mut missing = Vec::new();
        for dir in wanted {
            if !self.dirs.contains(&dir) && !missing.contains(&dir) {
                missing.push(dir);
            }
        }
        if self.dirs.len() + missing.len() > self.dir_rows {
            return Err(MANY_DIRS);
        }
        Ok(missing)
    }

    /// The row behind a handle; 6 if it is stale or out of range.
    fn live(&self, slot: u32, generation: u64) -> Result<usize, u8> {
        let row = self.rows.get(slot as usize).ok_or(STALE)?;
        if row.path.is_none() || row.generation != generation {
            return Err(STALE);
        }
        Ok(slot as usize)
    }

    /// Opens for reading: slot and generation.
    pub fn open_read(&self, path: &[u8]) -> Result<(usize, u64), u8> {
        text(&[path])?;
        let slot = self.find(path).ok_or(NOT_FOUND)?;
        Ok((slot, self.rows[slot].generation))
    }

    /// Opens for writing: slot, generation and length.
    pub fn open_write(
        &mut self,
        device: &mut Device,
        path: &[u8],
        keep: bool,
    ) -> Result<(usize, u64, u64), u8> {
        text(&[path])?;
        if path.len() > MAX_PATH {
            return Err(LONG);
        }
        if let Some(slot) = self.find(path) {
            if !keep {
                device.truncate(slot, 0)?;
                self.rows[slot].length = 0;
                self.rows[slot].dirty = true;
            }
            return Ok((slot, self.rows[slot].generation, self.rows[slot].length));
        }
        if self.queue.is_empty() {
            return Err(FULL);
        }
        let dirs = self.missing(path::ancestors(path))?;
        self.needs(1)?;
        let slot = self.queue.remove(0);
        let generation = self.spend();
        if let Err(number) = device.truncate(slot, 0) {
            self.queue.push(slot);
            return Err(number);
        }
        self.rows[slot] = Row {
            path: Some(path.to_vec()),
            dirty: true,
            length: 0,
            generation,
        };
        self.dirs.extend(dirs);
        Ok((slot, generation, 0))
    }

    /// Reads into a buffer: the count.
    pub fn read(
        &self,
        device: &mut Device,
        (slot, generation): (u32, u64),
        at: u64,
        buffer: &mut [u8],
    ) -> Result<usize, u8> {
        let slot = self.live(slot, generation)?;
        let length = self.rows[slot].length;
        if at >= length {
            return Ok(0);
        }
        let wanted = (buffer.len() as u64).min(length - at) as usize;
        device.read(slot, at, &mut buffer[..wanted])
    }

    /// Writes bytes; the length is then at least their end.
    pub fn write(
        &mut self,
        device: &mut Device,
        (slot, generation): (u32, u64),
        at: u64,
        bytes: &[u8],
    ) -> Result<(), u8> {
        let slot = self.live(slot, generation)?;
        device.write(slot, at, bytes)?;
        let row = &mut self.rows[slot];
        row.length = row.length.max(at + bytes.len() as u64);
        row.dirty = true;
        Ok(())
    }

    /// Sets the length.
    pub fn set_len(
        &mut self,
        device: &mut Device,
        (slot, generation): (u32, u64),
        length: u64,
    ) -> Result<(), u8> {
        let slot = self.live(slot, generation)?;
        device.truncate(slot, length)?;
        self.rows[slot].length = length;
        self.rows[slot].dirty = true;
        Ok(())
    }

    /// The length.
    pub fn file_len(&self, (slot, generation): (u32, u64)) -> Result<u64, u8> {
        Ok(self.rows[self.live(slot, generation)?].length)
    }

    /// Writes and flushes a dirty header, else only flushes.
    pub fn sync(&mut self, device: &mut Device, (slot, generation): (u32, u64)) -> Result<(), u8> {
        let slot = self.live(slot, generation)?;
        if !self.rows[slot].dirty {
            return device.flush();
        }
        self.put_header(device, slot)?;
        self.rows[slot].dirty = false;
        Ok(())
    }

    /// The dirty files whose parent equals the path, lowest slot first.
    pub fn dirty_under(&self, path: &[u8]) -> Vec<usize> {
        let wanted = path::normal(path);
        (0..self.rows.len())
            .filter(|slot| {
                let row = &self.rows[*slot];
                let parent = row.path.as_ref().and_then(|held| path::parent(held));
                row.dirty && parent.is_some_and(|parent| parent == wanted)
            })
            .collect()
    }

    /// Syncs the dirty files of a directory, stopping at a failure.
    pub fn sync_dir(&mut self, device: &mut Device, path: &[u8]) -> Result<(), u8> {
        text(&[path])?;
        for slot in self.dirty_under(path) {
            self.put_header(device, slot)?;
            self.rows[slot].dirty = false;
        }
        Ok(())
    }

    /// Renames, then releases whatever held `to`.
    pub fn rename(&mut self, device: &mut Device, from: &[u8], to: &[u8]) -> Result<(), u8> {
        text(&[from, to])?;
        if to.len() > MAX_PATH {
            return Err(LONG);
        }
        let slot = self.find(from).ok_or(NOT_FOUND);
        if path::same(from, to) {
            return slot.map(|_| ());
        }
        let slot = slot?;
        let replaced = self.find(to);
        let dirs = self.missing(path::ancestors(to))?;
        self.needs(if replaced.is_some() { 2 } else { 1 })?;
        let generation = self.spend();
        let before = self.rows[slot].clone();
        self.rows[slot] = Row {
            path: Some(to.to_vec()),
            dirty: false,
            length: before.length,
            generation,
        };
        if let Err(number) = self.put_header(device, slot) {
            self.rows[slot] = Row {
                dirty: true,
                ..before
            };
            return Err(number);
        }
        if let Some(replaced) = replaced {
            self.release(device, replaced)?;
        }
        self.dirs.extend(dirs);
        Ok(())
    }

    /// Removes a file; it is unbound even if its release fails.
    pub fn remove(&mut self, device: &mut Device, path: &[u8]) -> Result<(), u8> {
        text(&[path])?;
        let slot = self.find(path).ok_or(NOT_FOUND)?;
        self.needs(1)?;
        self.release(device, slot)
    }

    /// Holds a directory and its ancestors.
    pub fn create_dir_all(&mut self, path: &[u8]) -> Result<(), u8> {
        text(&[path])?;
        let normal = path::normal(path);
        if normal.len() > MAX_PATH {
            return Err(LONG);
        }
        let mut wanted = vec![normal];
        wanted.extend(path::ancestors(path));
        let dirs = self.missing(wanted)?;
        self.dirs.extend(dirs);
        Ok(())
    }

    /// Lists a directory into a buffer: the bytes written.
    pub fn read_dir(&self, path: &[u8], buffer: &mut [u8]) -> Result<usize, u8> {
        text(&[path])?;
        if !self.is_dir(path) {
            return Err(NOT_FOUND);
        }
        let wanted = path::normal(path);
        let files = self.rows.iter().filter_map(|row| row.path.clone());
        let mut listing = Vec::new();
        for (kind, names) in [(0, files.collect()), (1, self.dirs.clone())] {
            let mut names: Vec<Vec<u8>> = names;
            names.retain(|name| path::parent(name).is_some_and(|parent| parent == wanted));
            names.sort_by_key(|name| path::normal(name));
            for name in names {
                listing.push(kind);
                listing.extend((name.len() as u16).to_le_bytes());
                listing.extend(name);
            }
        }
        if listing.len() > buffer.len() {
            return Err(SMALL);
        }
        buffer[..listing.len()].copy_from_slice(&listing);
        Ok(listing.len())
    }

    /// Whether a file or a directory is there.
    pub fn exists(&self, path: &[u8]) -> Result<bool, u8> {
        text(&[path])?;
        Ok(self.find(path).is_some() || self.is_dir(path))
    }

    /// Length and whether it is a directory; a file comes before a directory of the same path.
    pub fn metadata(&self, path: &[u8]) -> Result<(u64, bool), u8> {
        text(&[path])?;
        if let Some(slot) = self.find(path) {
            return Ok((self.rows[slot].length, false));
        }
        if self.is_dir(path) {
            return Ok((0, true));
        }
        Err(NOT_FOUND)
    }
}
