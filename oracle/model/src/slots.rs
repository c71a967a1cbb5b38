//! The slot calls: 01, "Calls on a handle or a slot number: 6, device". They need no pool and look at none, so that 2 is
//! the device's shape alone, and a slot is one that the device has.

use crate::device::Device;
use crate::header::{self, Header, MAX_PATH};
use crate::pool::{LONG, NOT_TEXT, SHAPE, STALE};
use crate::text::is_text;

fn shaped(device: &Device) -> Result<(), u8> {
    if device.is_shaped() {
        Ok(())
    } else {
        Err(SHAPE)
    }
}

fn within(device: &Device, slot: u32) -> Result<usize, u8> {
    let slot = slot as usize;
    if slot < device.lengths.len() {
        Ok(slot)
    } else {
        Err(STALE)
    }
}

/// Reads file bytes into a buffer: the count.
pub fn read_slot(device: &mut Device, slot: u32, at: u64, buffer: &mut [u8]) -> Result<usize, u8> {
    shaped(device)?;
    let slot = within(device, slot)?;
    device.read(slot, at, buffer)
}

/// Writes file bytes.
pub fn write_slot(device: &mut Device, slot: u32, at: u64, bytes: &[u8]) -> Result<(), u8> {
    shaped(device)?;
    let slot = within(device, slot)?;
    device.write(slot, at, bytes)
}

/// Writes a header and flushes it. A write that is cut short is not flushed.
pub fn sync_slot(device: &mut Device, slot: u32, header: &Header) -> Result<(), u8> {
    shaped(device)?;
    if !is_text(&header.path) {
        return Err(NOT_TEXT);
    }
    if header.path.len() > MAX_PATH {
        return Err(LONG);
    }
    let slot = within(device, slot)?;
    device.put_header(slot, &header::encode(header))
}

/// Flushes.
pub fn flush_slot(device: &mut Device, slot: u32) -> Result<(), u8> {
    shaped(device)?;
    within(device, slot)?;
    device.flush()
}

/// Cuts a slot's file to a length, or adds zeros up to it.
pub fn truncate_slot(device: &mut Device, slot: u32, length: u64) -> Result<(), u8> {
    shaped(device)?;
    let slot = within(device, slot)?;
    device.truncate(slot, length)
}
