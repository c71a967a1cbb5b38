//! Drives the original by operations of a script and reads its tables.
//!
//! The original has no refusals 1, 2, 3, 8, 9, 12 and 13, and no 4 for directories and headers. Whether one of them
//! applies is told from outside: the operation is then not handed to the original, and only what 01 leaves behind is done.

use std::collections::BTreeSet;
use std::ffi::OsStr;
use std::future::Future;
use std::io;
use std::ops::Range;
use std::os::unix::ffi::OsStrExt;
use std::path::{Path, PathBuf};
use std::pin::pin;
use std::task::{Context, Poll, Waker};

use script::{Answer, Op, PoolTables, Row, Setup, Tables};
use wasm_bindgen::JsValue;

use super::pool::SahPool;
use super::sah::{self, MountId, Slot, SlotHeader};
use crate::Decoded;
use crate::device::{Device, Shared};

/// The original over a memory device.
pub struct Original {
    device: Shared,
    directory: JsValue,
    pool: Option<SahPool>,
    /// All slots of the device, registered for the slot calls when the first of them comes.
    slots: Option<MountId>,
}

impl Drop for Original {
    fn drop(&mut self) {
        if let Some(slots) = self.slots {
            sah::release_mount(slots);
        }
    }
}

/// A path of the host's type with exactly these bytes.
fn host_path(bytes: &[u8]) -> &Path {
    Path::new(OsStr::from_bytes(bytes))
}

fn path_bytes(path: &Path) -> Vec<u8> {
    path.as_os_str().as_bytes().to_vec()
}

/// Components joined with one `/`, none after the root: as collecting them into a path does.
fn normal_bytes(path: &Path) -> Vec<u8> {
    path_bytes(&path.components().collect::<PathBuf>())
}

/// Runs a future that never waits: every call of the memory device is done at once.
fn ready<T>(future: impl Future<Output = T>) -> T {
    match pin!(future).poll(&mut Context::from_waker(Waker::noop())) {
        Poll::Ready(value) => value,
        Poll::Pending => unreachable!("the memory device never waits"),
    }
}

/// 01's number of an error. Messages are the only thing that tells some of them apart.
fn number(error: &io::Error) -> u8 {
    let message = error.to_string();
    let begins = |start: &str| message.starts_with(start);
    match error.kind() {
        io::ErrorKind::InvalidInput => 4,
        io::ErrorKind::NotFound if begins("no such file or directory") => 5,
        io::ErrorKind::NotFound if begins("the file behind this handle") => 6,
        io::ErrorKind::Other if begins("OPFS handle pool is full") => 7,
        io::ErrorKind::Other if begins("OPFS write was short") => 11,
        io::ErrorKind::Other if begins("OPFS header write was short") => 11,
        io::ErrorKind::Other if begins("OPFS ") && message.contains(" failed: ") => 10,
        kind => unreachable!("the original gave {kind:?}: {message}"),
    }
}

/// The same for a call of a slot, which can find that the slot is not there.
fn slot_number(error: &io::Error) -> u8 {
    let absent = error.to_string().starts_with("OPFS slot is not open");
    match error.kind() {
        io::ErrorKind::NotFound if absent => 6,
        _ => number(error),
    }
}

impl Original {
    /// The device that the setup says, with no pool mounted.
    pub fn start(setup: &Setup) -> Option<Original> {
        let device = Device::start(setup);
        Some(Original {
            directory: super::js::directory(&device),
            device,
            pool: None,
            slots: None,
        })
    }

    /// Does the operation. `outside` is 01's number where 01 refuses and the original has no such refusal.
    pub fn step(&mut self, op: &Op, outside: Option<u8>) -> Answer {
        let answer = match outside {
            Some(number) => {
                self.leave_behind(op, number);
                Err(number)
            }
            None => self.call(op),
        };
        answer.unwrap_or_else(|number| Answer::refused(op, number))
    }

    /// What a refusal that the original does not have leaves behind: after 8 or 9, mount and adopt have read the
    /// headers; a refused mount leaves no pool.
    fn leave_behind(&mut self, op: &Op, number: u8) {
        let first = self.pool.as_ref().map_or(0, SahPool::slot_count);
        if let Op::Mount(_) = op {
            self.pool = None;
        }
        if matches!(number, 8 | 9) {
            let slots = match op {
                Op::Mount(count) => 0..usize::from(*count),
                Op::Adopt(count) => first..first + usize::from(*count),
                _ => return,
            };
            // 10 comes before 8 and 9, so that no read fails here.
            let _ = self.open_slots(slots);
        }
    }

    fn open_slots(
        &self,
        slots: Range<usize>,
    ) -> Result<(Vec<JsValue>, Vec<Option<SlotHeader>>), u8> {
        let opened = ready(sah::open_slots(&self.directory, slots)).map_err(|_| 10)?;
        Ok(opened.into_iter().unzip())
    }

    /// As `OpfsEnv::mount` does it.
    fn mount(&mut self, count: u8) -> Result<Answer, u8> {
        self.pool = None;
        let (handles, headers) = self.open_slots(0..usize::from(count))?;
        let mount = sah::register_mount(self.directory.clone(), handles);
        self.pool = Some(SahPool::new(mount, headers));
        Ok(Answer::done())
    }

    /// The registered slots of the whole device. Opening them is no device call.
    fn slots(&mut self) -> MountId {
        let count = self.device.borrow().slot_count();
        *self.slots.get_or_insert_with(|| {
            let open = |slot: usize| {
                let name = format!("slot-{slot}");
                let file = super::js::file_handle(&self.directory, &name, false);
                ready(file).expect("the device has it")
            };
            sah::register_mount(self.directory.clone(), (0..count).map(open).collect())
        })
    }

    /// The calls of a slot, which look at no pool.
    fn slot_call(&mut self, op: &Op) -> Result<Answer, u8> {
        let slots = self.slots();
        let done = |()| Answer::done();
        let answer = match op {
            Op::ReadSlot(slot, at, length) => {
                let mut buffer = script::lent(*length);
                sah::read_slot(slots, *slot as usize, *at, &mut buffer)
                    .map(|count| Answer::filled(count, &buffer))
            }
            Op::WriteSlot(slot, at, bytes) => {
                sah::write_slot(slots, *slot as usize, *at, bytes).map(done)
            }
            Op::SyncSlot(slot, header) => {
                // The original's row of a free slot has no path.
                let bound = header.in_use != 0;
                let state = Slot {
                    path: bound.then(|| host_path(&header.path).to_path_buf()),
                    len: header.length,
                    generation: header.generation,
                    header_dirty: true,
                };
                sah::sync_slot(slots, *slot as usize, &state).map(done)
            }
            Op::FlushSlot(slot) => sah::flush_slot(slots, *slot as usize).map(done),
            Op::TruncateSlot(slot, length) => {
                sah::truncate_slot(slots, *slot as usize, *length).map(done)
            }
            _ => unreachable!("no call of a slot"),
        };
        answer.map_err(|error| slot_number(&error))
    }

    fn call(&mut self, op: &Op) -> Result<Answer, u8> {
        if let Op::Mount(count) = op {
            return self.mount(*count);
        }
        if op.is_slot_call() {
            return self.slot_call(op);
        }
        let pool = self.pool.as_ref().ok_or(1)?;
        let say = |error: io::Error| number(&error);
        let done = |()| Answer::done();
        match op {
            Op::Mount(_)
            | Op::ReadSlot(..)
            | Op::WriteSlot(..)
            | Op::SyncSlot(..)
            | Op::FlushSlot(_)
            | Op::TruncateSlot(..) => unreachable!("taken above"),
            Op::Adopt(count) => {
                // As `OpfsEnv::grow_pool` does it.
                let first = pool.slot_count();
                let (handles, headers) = self.open_slots(first..first + usize::from(*count))?;
                sah::extend_mount(pool.mount_id(), handles).map_err(say)?;
                pool.adopt_slots(headers);
                Ok(Answer::done())
            }
            Op::OpenWrite(keep, path) => pool
                .open_write(host_path(path), *keep != 0)
                .map(|(slot, generation, length)| {
                    Answer::opened(slot as u32, generation, Some(length))
                })
                .map_err(say),
            Op::OpenRead(path) => pool
                .open_read(host_path(path))
                .map(|(slot, generation)| Answer::opened(slot as u32, generation, None))
                .map_err(say),
            Op::Read(handle, at, length) => {
                let mut buffer = script::lent(*length);
                pool.read_at(handle.slot as usize, handle.generation, *at, &mut buffer)
                    .map(|count| Answer::filled(count, &buffer))
                    .map_err(say)
            }
            Op::Write(handle, at, bytes) => pool
                .write_at(handle.slot as usize, handle.generation, *at, bytes)
                .map(done)
                .map_err(say),
            Op::SetLen(handle, length) => pool
                .set_len(handle.slot as usize, handle.generation, *length)
                .map(done)
                .map_err(say),
            Op::FileLen(handle) => pool
                .file_len(handle.slot as usize, handle.generation)
                .map(|length| Answer::results(length.to_le_bytes().to_vec()))
                .map_err(say),
            Op::Sync(handle) => pool
                .sync(handle.slot as usize, handle.generation)
                .map(done)
                .map_err(say),
            Op::SyncDir(path) => pool.sync_dir(host_path(path)).map(done).map_err(say),
            Op::Rename(from, to) => pool
                .rename(host_path(from), host_path(to))
                .map(done)
                .map_err(say),
            Op::Remove(path) => pool.remove_file(host_path(path)).map(done).map_err(say),
            Op::CreateDirAll(path) => pool.create_dir_all(host_path(path)).map(done).map_err(say),
            Op::ReadDir(length, path) => {
                let listing = listing(pool, host_path(path)).map_err(say)?;
                let mut buffer = script::lent(*length);
                let room = buffer.get_mut(..listing.len()).ok_or(13)?;
                room.copy_from_slice(&listing);
                Ok(Answer::filled(listing.len(), &buffer))
            }
            Op::Exists(path) => {
                let there = pool.exists(host_path(path));
                Ok(Answer::results(vec![u8::from(there)]))
            }
            Op::Metadata(path) => {
                let (length, is_dir) = pool.metadata(host_path(path)).map_err(say)?;
                let mut results = length.to_le_bytes().to_vec();
                results.push(u8::from(is_dir));
                Ok(Answer::results(results))
            }
        }
    }

    /// The tables as they stand. The dirty mark of an unbound slot is left out, as 01 says.
    pub fn tables(&self) -> Tables {
        let device = self.device.borrow();
        Tables {
            pool: self.pool.as_ref().map(pool_tables),
            place: device.place(),
            lengths: device.lengths(),
            device: device.bytes(),
        }
    }

    /// The dirty marks as they are, those of unbound slots too.
    pub fn dirty_marks(&self) -> Vec<bool> {
        let pool = self.pool.as_ref();
        pool.map_or(Vec::new(), |pool| {
            pool.seen_slots().iter().map(|slot| slot.dirty).collect()
        })
    }

    /// The original's listing as it gives it: whether each is a directory, and its spelling.
    pub fn listed(&self, dir: &[u8]) -> Option<Vec<(bool, Vec<u8>)>> {
        let entries = self.pool.as_ref()?.read_dir(host_path(dir)).ok()?;
        let seen = entries.map(|entry| entry.map(|entry| (entry.is_dir, path_bytes(&entry.path))));
        seen.collect::<io::Result<_>>().ok()
    }

    /// What the original's own maps and marks contradict each other in, if anything: the tables are read from the
    /// slots, so the map of paths and the free marks are held against them here.
    pub fn broken(&self) -> Option<String> {
        let pool = self.pool.as_ref()?;
        let slots = pool.seen_slots();
        let queue = pool.seen_queue();
        for (index, slot) in slots.iter().enumerate() {
            if slot.free != queue.contains(&index) {
                return Some(format!("slot {index}: free mark and free list differ"));
            }
        }
        if queue.iter().collect::<BTreeSet<_>>().len() != queue.len()
            || pool.free_slots() != queue.len()
        {
            return Some(format!("free list {queue:?}, count {}", pool.free_slots()));
        }
        let paths = pool.seen_paths();
        for (path, index) in &paths {
            if slots[*index].path.as_ref() != Some(path) {
                return Some(format!(
                    "{path:?} leads to slot {index}, which is not bound to it"
                ));
            }
        }
        let bound = slots.iter().filter(|slot| slot.path.is_some()).count();
        (bound != paths.len()).then(|| format!("{bound} slots bound, {} paths", paths.len()))
    }
}

/// The original's listing in 01's form: files first, each by the normal spelling's bytes; a file is printed as its
/// slot has it, a directory in normal spelling.
fn listing(pool: &SahPool, dir: &Path) -> io::Result<Vec<u8>> {
    let slots = pool.seen_slots();
    let mut entries = Vec::new();
    for entry in pool.read_dir(dir)? {
        let entry = entry?;
        let normal = normal_bytes(&entry.path);
        let spelling = if entry.is_dir {
            normal.clone()
        } else {
            let (slot, _) = pool.open_read(&entry.path)?;
            path_bytes(slots[slot].path.as_deref().unwrap_or(Path::new("")))
        };
        entries.push((entry.is_dir, normal, spelling));
    }
    entries.sort();
    let mut bytes = Vec::new();
    for (is_dir, _, spelling) in entries {
        bytes.push(u8::from(is_dir));
        bytes.extend((spelling.len() as u16).to_le_bytes());
        bytes.extend(spelling);
    }
    Ok(bytes)
}

fn pool_tables(pool: &SahPool) -> PoolTables {
    let rows = pool.seen_slots().into_iter().map(|slot| Row {
        dirty: slot.dirty && slot.path.is_some(),
        path: slot.path.as_deref().map(path_bytes),
        free: slot.free,
        generation: slot.generation,
        length: slot.len,
    });
    let mut dirs: Vec<Vec<u8>> = pool
        .seen_dirs()
        .iter()
        .map(|dir| normal_bytes(dir))
        .collect();
    dirs.sort();
    PoolTables {
        counter: pool.seen_counter(),
        rows: rows.collect(),
        queue: pool.seen_queue().iter().map(|slot| *slot as u8).collect(),
        dirs,
    }
}

/// The original's `encode_header`. A path of more than 480 bytes makes it panic.
pub fn encode_header(header: &Decoded) -> Option<Vec<u8>> {
    Some(sah::encoded(&SlotHeader {
        in_use: header.in_use,
        path: header.path.clone(),
        len: header.len,
        generation: header.generation,
    }))
}

/// The original's `decode_header`; the outer `None` is only for a build without the original.
pub fn decode_header(block: &[u8]) -> Option<Option<Decoded>> {
    Some(sah::decoded(block).map(|header| Decoded {
        in_use: header.in_use,
        path: header.path,
        len: header.len,
        generation: header.generation,
    }))
}
