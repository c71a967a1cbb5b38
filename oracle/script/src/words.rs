//! A script in words, for people who read a difference.

use std::fmt;

use crate::format::{Handle, Op, Script, SlotHeader};

fn path(bytes: &[u8]) -> String {
    if bytes.len() > 40 {
        let head = bytes[..12].escape_ascii();
        let tail = bytes[bytes.len() - 8..].escape_ascii();
        return format!("`{head}..{tail}` ({} bytes)", bytes.len());
    }
    format!("`{}`", bytes.escape_ascii())
}

impl fmt::Display for Handle {
    fn fmt(&self, f: &mut fmt::Formatter<'_>) -> fmt::Result {
        write!(f, "({}, {})", self.slot, self.generation)
    }
}

impl fmt::Display for Op {
    fn fmt(&self, f: &mut fmt::Formatter<'_>) -> fmt::Result {
        match self {
            Op::Mount(slots) => write!(f, "mount {slots}"),
            Op::Adopt(slots) => write!(f, "adopt {slots}"),
            Op::OpenWrite(0, p) => write!(f, "open_write {} truncating", path(p)),
            Op::OpenWrite(_, p) => write!(f, "open_write {} keeping", path(p)),
            Op::OpenRead(p) => write!(f, "open_read {}", path(p)),
            Op::Read(handle, at, length) => write!(f, "read {handle} at {at}, {length} bytes"),
            Op::Write(handle, at, bytes) => {
                write!(f, "write {handle} at {at}, {} bytes", bytes.len())
            }
            Op::SetLen(handle, length) => write!(f, "set_len {handle} to {length}"),
            Op::FileLen(handle) => write!(f, "file_len {handle}"),
            Op::Sync(handle) => write!(f, "sync {handle}"),
            Op::SyncDir(p) => write!(f, "sync_dir {}", path(p)),
            Op::Rename(from, to) => write!(f, "rename {} {}", path(from), path(to)),
            Op::Remove(p) => write!(f, "remove {}", path(p)),
            Op::CreateDirAll(p) => write!(f, "create_dir_all {}", path(p)),
            Op::ReadDir(length, p) => write!(f, "read_dir {} into {length} bytes", path(p)),
            Op::Exists(p) => write!(f, "exists {}", path(p)),
            Op::Metadata(p) => write!(f, "metadata {}", path(p)),
            Op::ReadSlot(slot, at, length) => {
                write!(f, "read_slot {slot} at {at}, {length} bytes")
            }
            Op::WriteSlot(slot, at, bytes) => {
                write!(f, "write_slot {slot} at {at}, {} bytes", bytes.len())
            }
            Op::SyncSlot(slot, header) => {
                let state = if header.in_use == 0 { "free" } else { "in use" };
                let SlotHeader {
                    length,
                    generation,
                    path: p,
                    ..
                } = header;
                write!(
                    f,
                    "sync_slot {slot} {state}, length {length}, generation {generation}, {}",
                    path(p)
                )
            }
            Op::FlushSlot(slot) => write!(f, "flush_slot {slot}"),
            Op::TruncateSlot(slot, length) => write!(f, "truncate_slot {slot} to {length}"),
        }
    }
}

impl fmt::Display for Script {
    fn fmt(&self, f: &mut fmt::Formatter<'_>) -> fmt::Result {
        let setup = &self.setup;
        writeln!(
            f,
            "{} slots of {} bytes, {} slot rows, {} directory rows, plan {:?}, physical lengths {:?}",
            setup.lengths.len(),
            setup.slot_size,
            setup.slot_rows,
            setup.dir_rows,
            setup.plan,
            setup.lengths
        )?;
        for (place, patch) in &setup.patches {
            let head = &patch[..patch.len().min(40)];
            writeln!(
                f,
                "  device {place}: {} bytes, {}",
                patch.len(),
                head.escape_ascii()
            )?;
        }
        for op in &self.ops {
            writeln!(f, "  {op}")?;
        }
        Ok(())
    }
}
