//! 01, The device: slots of equal size in one run of bytes, physical lengths, and a plan of faults.

use crate::header::LEN;

/// A device call failed.
pub const FAILED: u8 = 10;
/// A write stored too little.
pub const SHORT: u8 = 11;

/// Where a file offset lies in its slot; wide enough that no sum passes it.
fn place_of(at: u64) -> u128 {
    LEN as u128 + u128::from(at)
}

/// The device with the plan's place.
#[derive(Clone, Debug)]
pub struct Device {
    /// All slots, one after the other.
    pub bytes: Vec<u8>,
    /// Bytes of a slot.
    pub size: usize,
    /// How much of each slot there is.
    pub lengths: Vec<u64>,
    /// One byte a device call.
    pub plan: Vec<u8>,
    /// The plan's place.
    pub place: usize,
}

impl Device {
    /// Whether it keeps the first sentence of 01's section.
    pub fn is_shaped(&self) -> bool {
        (512..=1_048_576).contains(&self.size)
            && self.size.is_multiple_of(512)
            && self.bytes.len() == self.size * self.lengths.len()
            && self
                .lengths
                .iter()
                .all(|length| *length <= self.size as u64)
    }

    /// The plan's byte for this call, 0 past its end. Moves the place on.
    fn fault(&mut self) -> u8 {
        let byte = self.plan.get(self.place).copied();
        if byte.is_some() {
            self.place += 1;
        }
        byte.unwrap_or(0)
    }

    fn read_from(&mut self, slot: usize, start: u128, buffer: &mut [u8]) -> Result<usize, u8> {
        let fault = self.fault();
        if fault == 1 {
            return Err(FAILED);
        }
        let below = u128::from(self.lengths[slot]).saturating_sub(start);
        let mut given = (buffer.len() as u128).min(below) as usize;
        if fault == 2 {
            given /= 2;
        }
        if given > 0 {
            let from = slot * self.size + start as usize;
            buffer[..given].copy_from_slice(&self.bytes[from..from + given]);
        }
        Ok(given)
    }

    fn write_from(&mut self, slot: usize, start: u128, bytes: &[u8]) -> Result<(), u8> {
        let fault = self.fault();
        if fault == 1 || start > self.size as u128 {
            return Err(FAILED);
        }
        let start = start as usize;
        let mut stored = bytes.len().min(self.size - start);
        if fault == 2 {
            stored /= 2;
        }
        self.zero_to(slot, start);
        let to = slot * self.size + start;
        self.bytes[to..to + stored].copy_from_slice(&bytes[..stored]);
        self.lengths[slot] = self.lengths[slot].max((start + stored) as u64);
        if stored < bytes.len() {
            return Err(SHORT);
        }
        Ok(())
    }

    /// Zeroes the slot from its physical length to `end`, if there is anything between.
    fn zero_to(&mut self, slot: usize, end: usize) {
        let length = self.lengths[slot] as usize;
        if length < end {
            let base = slot * self.size;
            self.bytes[base + length..base + end].fill(0);
        }
    }

    /// Reads a slot's header: the bytes that were read.
    pub fn read_header(&mut self, slot: usize) -> Result<Vec<u8>, u8> {
        let mut block = [0; LEN];
        let given = self.read_from(slot, 0, &mut block)?;
        Ok(block[..given].to_vec())
    }

    /// Writes a slot's header and flushes it.
    pub fn put_header(&mut self, slot: usize, block: &[u8; LEN]) -> Result<(), u8> {
        self.write_from(slot, 0, block)?;
        self.flush()
    }

    /// Reads file bytes; gives the count.
    pub fn read(&mut self, slot: usize, at: u64, buffer: &mut [u8]) -> Result<usize, u8> {
        self.read_from(slot, place_of(at), buffer)
    }

    /// Writes file bytes.
    pub fn write(&mut self, slot: usize, at: u64, bytes: &[u8]) -> Result<(), u8> {
        self.write_from(slot, place_of(at), bytes)
    }

    /// Flushes. Which slot makes no difference.
    pub fn flush(&mut self) -> Result<(), u8> {
        match self.fault() {
            1 | 2 => Err(FAILED),
            _ => Ok(()),
        }
    }

    /// Cuts a slot's file to a length, or adds zeros up to it. What is cut off stays in the bytes.
    pub fn truncate(&mut self, slot: usize, length: u64) -> Result<(), u8> {
        let end = place_of(length);
        let fault = self.fault();
        if matches!(fault, 1 | 2) || end > self.size as u128 {
            return Err(FAILED);
        }
        self.zero_to(slot, end as usize);
        self.lengths[slot] = end as u64;
        Ok(())
    }
}
