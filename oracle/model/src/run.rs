//! The model as a machine for scripts.

use script::{Answer, Handle, Machine, Op, PoolTables, Runner, Script, Setup, Tables};

use crate::device::Device;
use crate::header::Header;
use crate::pool::{NO_POOL, Pool};
use crate::slots;

/// The device, and the pool if the record is one.
pub struct Model {
    device: Device,
    slot_rows: usize,
    dir_rows: usize,
    pool: Option<Pool>,
}

impl Model {
    /// The device that the setup says, with no pool mounted.
    pub fn start(setup: &Setup) -> Model {
        Model {
            device: Device {
                bytes: setup.device(),
                size: setup.slot_size as usize,
                lengths: setup
                    .lengths
                    .iter()
                    .map(|length| u64::from(*length))
                    .collect(),
                plan: setup.plan.clone(),
                place: 0,
            },
            slot_rows: usize::from(setup.slot_rows),
            dir_rows: usize::from(setup.dir_rows),
            pool: None,
        }
    }

    /// How many dirty files lie directly under a path: where there are several, the order in which a
    /// failing sync_dir takes them shows.
    pub fn dirty_under(&self, path: &[u8]) -> usize {
        self.pool
            .as_ref()
            .map_or(0, |pool| pool.dirty_under(path).len())
    }

    fn mount(&mut self, count: u8) -> Result<Answer, u8> {
        // The record and the rows are zero unless the mount is done.
        self.pool = None;
        let count = usize::from(count);
        let pool = Pool::mount(&mut self.device, self.slot_rows, self.dir_rows, count)?;
        self.pool = Some(pool);
        Ok(Answer::done())
    }

    /// The calls of a slot, which look at no pool.
    fn slot_call(&mut self, op: &Op) -> Result<Answer, u8> {
        let device = &mut self.device;
        let done = |()| Answer::done();
        match op {
            Op::ReadSlot(slot, at, length) => {
                let mut buffer = script::lent(*length);
                slots::read_slot(device, *slot, *at, &mut buffer)
                    .map(|count| Answer::filled(count, &buffer))
            }
            Op::WriteSlot(slot, at, bytes) => {
                slots::write_slot(device, *slot, *at, bytes).map(done)
            }
            Op::SyncSlot(slot, header) => {
                let header = Header {
                    in_use: header.in_use != 0,
                    path: header.path.clone(),
                    length: header.length,
                    generation: header.generation,
                };
                slots::sync_slot(device, *slot, &header).map(done)
            }
            Op::FlushSlot(slot) => slots::flush_slot(device, *slot).map(done),
            Op::TruncateSlot(slot, length) => {
                slots::truncate_slot(device, *slot, *length).map(done)
            }
            _ => unreachable!("no call of a slot"),
        }
    }

    fn call(&mut self, op: &Op) -> Result<Answer, u8> {
        if let Op::Mount(count) = op {
            return self.mount(*count);
        }
        if op.is_slot_call() {
            return self.slot_call(op);
        }
        let pool = self.pool.as_mut().ok_or(NO_POOL)?;
        let device = &mut self.device;
        let both = |handle: &Handle| (handle.slot, handle.generation);
        let done = |()| Answer::done();
        match op {
            Op::Mount(_)
            | Op::ReadSlot(..)
            | Op::WriteSlot(..)
            | Op::SyncSlot(..)
            | Op::FlushSlot(_)
            | Op::TruncateSlot(..) => unreachable!("taken above"),
            Op::Adopt(count) => pool.adopt(device, usize::from(*count)).map(done),
            Op::OpenWrite(keep, path) => {
                pool.open_write(device, path, *keep != 0)
                    .map(|(slot, generation, length)| {
                        Answer::opened(slot as u32, generation, Some(length))
                    })
            }
            Op::OpenRead(path) => pool
                .open_read(path)
                .map(|(slot, generation)| Answer::opened(slot as u32, generation, None)),
            Op::Read(handle, at, length) => {
                let mut buffer = script::lent(*length);
                pool.read(device, both(handle), *at, &mut buffer)
                    .map(|count| Answer::filled(count, &buffer))
            }
            Op::Write(handle, at, bytes) => pool.write(device, both(handle), *at, bytes).map(done),
            Op::SetLen(handle, length) => pool.set_len(device, both(handle), *length).map(done),
            Op::FileLen(handle) => pool
                .file_len(both(handle))
                .map(|length| Answer::results(length.to_le_bytes().to_vec())),
            Op::Sync(handle) => pool.sync(device, both(handle)).map(done),
            Op::SyncDir(path) => pool.sync_dir(device, path).map(done),
            Op::Rename(from, to) => pool.rename(device, from, to).map(done),
            Op::Remove(path) => pool.remove(device, path).map(done),
            Op::CreateDirAll(path) => pool.create_dir_all(path).map(done),
            Op::ReadDir(length, path) => {
                let mut buffer = script::lent(*length);
                pool.read_dir(path, &mut buffer)
                    .map(|count| Answer::filled(count, &buffer))
            }
            Op::Exists(path) => pool
                .exists(path)
                .map(|there| Answer::results(vec![u8::from(there)])),
            Op::Metadata(path) => pool.metadata(path).map(|(length, is_dir)| {
                let mut results = length.to_le_bytes().to_vec();
                results.push(u8::from(is_dir));
                Answer::results(results)
            }),
        }
    }
}

impl Machine for Model {
    fn step(&mut self, op: &Op) -> Answer {
        self.call(op)
            .unwrap_or_else(|number| Answer::refused(op, number))
    }

    fn tables(&self) -> Tables {
        Tables {
            pool: self.pool.as_ref().map(pool_tables),
            place: self.device.place as u32,
            lengths: self
                .device
                .lengths
                .iter()
                .map(|length| *length as u32)
                .collect(),
            device: self.device.bytes.clone(),
        }
    }
}

fn pool_tables(pool: &Pool) -> PoolTables {
    let rows = pool.rows.iter().enumerate().map(|(slot, row)| script::Row {
        path: row.path.clone(),
        free: pool.queue.contains(&slot),
        dirty: row.dirty,
        generation: row.generation,
        length: row.length,
    });
    let mut dirs = pool.dirs.clone();
    dirs.sort();
    PoolTables {
        counter: pool.counter,
        rows: rows.collect(),
        queue: pool.queue.iter().map(|slot| *slot as u8).collect(),
        dirs,
    }
}

/// The model's output on a script; empty if the setup isn't whole.
pub fn output(bytes: &[u8]) -> Vec<u8> {
    let Some(found) = Script::parse(bytes) else {
        return Vec::new();
    };
    script::output(&mut Model::start(&found.setup), &found.ops)
}

/// The model as a runner of whole scripts.
pub struct ModelRunner;

impl Runner for ModelRunner {
    fn name(&self) -> &'static str {
        "model"
    }

    fn run(&mut self, bytes: &[u8], out: &mut [u8]) -> usize {
        script::deliver(&output(bytes), out)
    }
}
