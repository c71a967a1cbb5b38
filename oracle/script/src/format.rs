//! The bytes of a script. All numbers are unsigned and little-endian; a run is a u16 length and that many bytes.

/// The edition of the format: a script's first byte.
pub const EDITION: u8 = 1;
/// The script's own limits, beyond which it isn't run at all.
const MOST_SLOTS: u8 = 64;
const MOST_DEVICE_BYTES: u64 = 65_536;
const MOST_SLOT_ROWS: u8 = 66;
const MOST_DIR_ROWS: u16 = 258;

/// The device and the rows that a script starts with.
#[derive(Clone, Debug, PartialEq, Eq)]
pub struct Setup {
    /// Slot rows lent to every call.
    pub slot_rows: u8,
    /// Directory rows lent to every call.
    pub dir_rows: u16,
    /// Bytes of a slot.
    pub slot_size: u32,
    /// The fault plan, one byte a device call.
    pub plan: Vec<u8>,
    /// Physical lengths, one a slot of the device.
    pub lengths: Vec<u32>,
    /// What the device holds where it isn't zero: a place in the whole device, and bytes.
    pub patches: Vec<(u32, Vec<u8>)>,
}

impl Setup {
    /// The whole device as the patches make it, later ones over earlier ones.
    pub fn device(&self) -> Vec<u8> {
        let mut bytes = vec![0; self.lengths.len() * self.slot_size as usize];
        for (place, patch) in &self.patches {
            let place = *place as usize;
            bytes[place..place + patch.len()].copy_from_slice(patch);
        }
        bytes
    }

    /// Whether the script may be run: its own limits, and every patch inside of the device.
    pub fn is_whole(&self) -> bool {
        let total = self.lengths.len() as u64 * u64::from(self.slot_size);
        self.lengths.len() <= usize::from(MOST_SLOTS)
            && total <= MOST_DEVICE_BYTES
            && self.slot_rows <= MOST_SLOT_ROWS
            && self.dir_rows <= MOST_DIR_ROWS
            && self
                .patches
                .iter()
                .all(|(place, patch)| u64::from(*place) + patch.len() as u64 <= total)
    }
}

/// A slot and the generation that it must still have.
#[derive(Clone, Copy, Debug, PartialEq, Eq)]
pub struct Handle {
    /// The slot's number.
    pub slot: u32,
    /// Its generation.
    pub generation: u64,
}

/// One call of the pool, or of a slot of its device.
#[derive(Clone, Debug, PartialEq, Eq)]
pub enum Op {
    /// Mounts that many slots.
    Mount(u8),
    /// Adopts that many more.
    Adopt(u8),
    /// Opens for writing; `keep` 0 truncates.
    OpenWrite(u8, Vec<u8>),
    /// Opens for reading.
    OpenRead(Vec<u8>),
    /// Reads at a place into a buffer of that length.
    Read(Handle, u64, u16),
    /// Writes bytes at a place.
    Write(Handle, u64, Vec<u8>),
    /// Sets the length.
    SetLen(Handle, u64),
    /// Asks the length.
    FileLen(Handle),
    /// Syncs one file.
    Sync(Handle),
    /// Syncs the dirty files of a directory.
    SyncDir(Vec<u8>),
    /// Renames from, to.
    Rename(Vec<u8>, Vec<u8>),
    /// Removes a file.
    Remove(Vec<u8>),
    /// Creates a directory and its ancestors.
    CreateDirAll(Vec<u8>),
    /// Lists a directory into a buffer of that length.
    ReadDir(u16, Vec<u8>),
    /// Asks whether a file or directory is there.
    Exists(Vec<u8>),
    /// Asks for a length and whether it is a directory.
    Metadata(Vec<u8>),
    /// Reads a slot's file bytes at a place into a buffer of that length.
    ReadSlot(u32, u64, u16),
    /// Writes a slot's file bytes at a place.
    WriteSlot(u32, u64, Vec<u8>),
    /// Writes a slot's header and flushes it.
    SyncSlot(u32, SlotHeader),
    /// Flushes a slot.
    FlushSlot(u32),
    /// Cuts a slot's file to a length, or adds zeros up to it.
    TruncateSlot(u32, u64),
}

/// What a header is to say.
#[derive(Clone, Debug, PartialEq, Eq)]
pub struct SlotHeader {
    /// 0 is free, anything else in use.
    pub in_use: u8,
    /// The file's length.
    pub length: u64,
    /// The generation.
    pub generation: u64,
    /// The path.
    pub path: Vec<u8>,
}

impl Op {
    /// The operation's code in a script.
    pub fn code(&self) -> u8 {
        match self {
            Op::Mount(_) => 1,
            Op::Adopt(_) => 2,
            Op::OpenWrite(..) => 3,
            Op::OpenRead(_) => 4,
            Op::Read(..) => 5,
            Op::Write(..) => 6,
            Op::SetLen(..) => 7,
            Op::FileLen(_) => 8,
            Op::Sync(_) => 9,
            Op::SyncDir(_) => 10,
            Op::Rename(..) => 11,
            Op::Remove(_) => 12,
            Op::CreateDirAll(_) => 13,
            Op::ReadDir(..) => 14,
            Op::Exists(_) => 15,
            Op::Metadata(_) => 16,
            Op::ReadSlot(..) => 22,
            Op::WriteSlot(..) => 23,
            Op::SyncSlot(..) => 24,
            Op::FlushSlot(_) => 25,
            Op::TruncateSlot(..) => 26,
        }
    }

    /// Whether it is a call of a slot, which looks at no pool.
    pub fn is_slot_call(&self) -> bool {
        (22..=26).contains(&self.code())
    }

    /// The paths among its arguments.
    pub fn paths(&self) -> Vec<&[u8]> {
        match self {
            Op::OpenWrite(_, path)
            | Op::OpenRead(path)
            | Op::SyncDir(path)
            | Op::Remove(path)
            | Op::CreateDirAll(path)
            | Op::ReadDir(_, path)
            | Op::Exists(path)
            | Op::Metadata(path) => vec![path],
            Op::SyncSlot(_, header) => vec![&header.path],
            Op::Rename(from, to) => vec![from, to],
            _ => Vec::new(),
        }
    }

    fn write(&self, out: &mut Vec<u8>) {
        out.push(self.code());
        match self {
            Op::Mount(slots) | Op::Adopt(slots) => out.push(*slots),
            Op::OpenWrite(keep, path) => {
                out.push(*keep);
                write_run(out, path);
            }
            Op::Read(handle, at, length) => {
                write_handle(out, *handle);
                out.extend(at.to_le_bytes());
                out.extend(length.to_le_bytes());
            }
            Op::Write(handle, at, bytes) => {
                write_handle(out, *handle);
                out.extend(at.to_le_bytes());
                write_run(out, bytes);
            }
            Op::SetLen(handle, length) => {
                write_handle(out, *handle);
                out.extend(length.to_le_bytes());
            }
            Op::FileLen(handle) | Op::Sync(handle) => write_handle(out, *handle),
            Op::ReadDir(length, path) => {
                out.extend(length.to_le_bytes());
                write_run(out, path);
            }
            Op::Rename(from, to) => {
                write_run(out, from);
                write_run(out, to);
            }
            Op::OpenRead(path)
            | Op::SyncDir(path)
            | Op::Remove(path)
            | Op::CreateDirAll(path)
            | Op::Exists(path)
            | Op::Metadata(path) => write_run(out, path),
            Op::ReadSlot(slot, at, length) => {
                out.extend(slot.to_le_bytes());
                out.extend(at.to_le_bytes());
                out.extend(length.to_le_bytes());
            }
            Op::WriteSlot(slot, at, bytes) => {
                out.extend(slot.to_le_bytes());
                out.extend(at.to_le_bytes());
                write_run(out, bytes);
            }
            Op::SyncSlot(slot, header) => {
                out.extend(slot.to_le_bytes());
                out.push(header.in_use);
                out.extend(header.length.to_le_bytes());
                out.extend(header.generation.to_le_bytes());
                write_run(out, &header.path);
            }
            Op::FlushSlot(slot) => out.extend(slot.to_le_bytes()),
            Op::TruncateSlot(slot, length) => {
                out.extend(slot.to_le_bytes());
                out.extend(length.to_le_bytes());
            }
        }
    }
}

/// A setup and the operations after it.
#[derive(Clone, Debug, PartialEq, Eq)]
pub struct Script {
    /// What there is at the start.
    pub setup: Setup,
    /// What is done, in order.
    pub ops: Vec<Op>,
}

impl Script {
    /// The script that the bytes say, or `None` if the setup isn't whole. It ends before the first
    /// operation that is cut off or has no code.
    pub fn parse(bytes: &[u8]) -> Option<Script> {
        let mut from = Bytes(bytes);
        let setup = read_setup(&mut from)?;
        let mut ops = Vec::new();
        while let Some(op) = read_op(&mut from) {
            ops.push(op);
        }
        setup.is_whole().then_some(Script { setup, ops })
    }

    /// The script's bytes. Lists and runs must be short enough for their counts.
    pub fn bytes(&self) -> Vec<u8> {
        let setup = &self.setup;
        let mut out = vec![EDITION, setup.lengths.len() as u8, setup.slot_rows];
        out.extend(setup.dir_rows.to_le_bytes());
        out.extend(setup.slot_size.to_le_bytes());
        write_run(&mut out, &setup.plan);
        for length in &setup.lengths {
            out.extend(length.to_le_bytes());
        }
        out.extend((setup.patches.len() as u16).to_le_bytes());
        for (place, patch) in &setup.patches {
            out.extend(place.to_le_bytes());
            write_run(&mut out, patch);
        }
        for op in &self.ops {
            op.write(&mut out);
        }
        out
    }
}

/// Writes a u16 length and the bytes.
pub(crate) fn write_run(out: &mut Vec<u8>, bytes: &[u8]) {
    let length = u16::try_from(bytes.len()).expect("a run has at most 65,535 bytes");
    out.extend(length.to_le_bytes());
    out.extend(bytes);
}

fn write_handle(out: &mut Vec<u8>, handle: Handle) {
    out.extend(handle.slot.to_le_bytes());
    out.extend(handle.generation.to_le_bytes());
}

/// What is still to be read of a script. Each reader gives `None` if too little is left.
struct Bytes<'a>(&'a [u8]);

impl<'a> Bytes<'a> {
    fn take(&mut self, count: usize) -> Option<&'a [u8]> {
        let (taken, rest) = self.0.split_at_checked(count)?;
        self.0 = rest;
        Some(taken)
    }

    fn u8(&mut self) -> Option<u8> {
        Some(self.take(1)?[0])
    }

    fn u16(&mut self) -> Option<u16> {
        Some(u16::from_le_bytes(self.take(2)?.try_into().ok()?))
    }

    fn u32(&mut self) -> Option<u32> {
        Some(u32::from_le_bytes(self.take(4)?.try_into().ok()?))
    }

    fn u64(&mut self) -> Option<u64> {
        Some(u64::from_le_bytes(self.take(8)?.try_into().ok()?))
    }

    fn run(&mut self) -> Option<Vec<u8>> {
        let length = self.u16()?;
        Some(self.take(usize::from(length))?.to_vec())
    }

    fn handle(&mut self) -> Option<Handle> {
        Some(Handle {
            slot: self.u32()?,
            generation: self.u64()?,
        })
    }

    fn slot_header(&mut self) -> Option<SlotHeader> {
        Some(SlotHeader {
            in_use: self.u8()?,
            length: self.u64()?,
            generation: self.u64()?,
            path: self.run()?,
        })
    }
}

fn read_setup(from: &mut Bytes) -> Option<Setup> {
    if from.u8()? != EDITION {
        return None;
    }
    let slots = from.u8()?;
    let slot_rows = from.u8()?;
    let dir_rows = from.u16()?;
    let slot_size = from.u32()?;
    let plan = from.run()?;
    let lengths = (0..slots).map(|_| from.u32()).collect::<Option<Vec<_>>>()?;
    let count = from.u16()?;
    let patches = (0..count)
        .map(|_| Some((from.u32()?, from.run()?)))
        .collect::<Option<Vec<_>>>()?;
    Some(Setup {
        slot_rows,
        dir_rows,
        slot_size,
        plan,
        lengths,
        patches,
    })
}

fn read_op(from: &mut Bytes) -> Option<Op> {
    Some(match from.u8()? {
        1 => Op::Mount(from.u8()?),
        2 => Op::Adopt(from.u8()?),
        3 => Op::OpenWrite(from.u8()?, from.run()?),
        4 => Op::OpenRead(from.run()?),
        5 => Op::Read(from.handle()?, from.u64()?, from.u16()?),
        6 => Op::Write(from.handle()?, from.u64()?, from.run()?),
        7 => Op::SetLen(from.handle()?, from.u64()?),
        8 => Op::FileLen(from.handle()?),
        9 => Op::Sync(from.handle()?),
        10 => Op::SyncDir(from.run()?),
        11 => Op::Rename(from.run()?, from.run()?),
        12 => Op::Remove(from.run()?),
        13 => Op::CreateDirAll(from.run()?),
        14 => Op::ReadDir(from.u16()?, from.run()?),
        15 => Op::Exists(from.run()?),
        16 => Op::Metadata(from.run()?),
        22 => Op::ReadSlot(from.u32()?, from.u64()?, from.u16()?),
        23 => Op::WriteSlot(from.u32()?, from.u64()?, from.run()?),
        24 => Op::SyncSlot(from.u32()?, from.slot_header()?),
        25 => Op::FlushSlot(from.u32()?),
        26 => Op::TruncateSlot(from.u32()?, from.u64()?),
        _ => return None,
    })
}
