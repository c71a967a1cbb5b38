//! The memory device that stands in for the browser's files: 01, The device.

use std::cell::RefCell;
use std::rc::Rc;

use script::Setup;

/// The plan's word for one call.
enum Order {
    Work,
    Fail,
    Half,
}

/// All slots, their physical lengths, and the plan with its place.
pub(crate) struct Device {
    slots: Vec<Vec<u8>>,
    size: u64,
    lengths: Vec<u64>,
    plan: Vec<u8>,
    place: usize,
}

/// The device as the handles share it.
pub(crate) type Shared = Rc<RefCell<Device>>;

/// One open slot.
pub(crate) struct SlotHandle {
    pub(crate) device: Shared,
    pub(crate) slot: usize,
}

impl Device {
    pub(crate) fn start(setup: &Setup) -> Shared {
        let bytes = setup.device();
        let size = setup.slot_size as usize;
        let slots =
            (0..setup.lengths.len()).map(|slot| bytes[slot * size..(slot + 1) * size].to_vec());
        Rc::new(RefCell::new(Device {
            slots: slots.collect(),
            size: size as u64,
            lengths: setup
                .lengths
                .iter()
                .map(|length| u64::from(*length))
                .collect(),
            plan: setup.plan.clone(),
            place: 0,
        }))
    }

    pub(crate) fn slot_count(&self) -> usize {
        self.slots.len()
    }

    pub(crate) fn bytes(&self) -> Vec<u8> {
        self.slots.concat()
    }

    pub(crate) fn lengths(&self) -> Vec<u32> {
        self.lengths.iter().map(|length| *length as u32).collect()
    }

    pub(crate) fn place(&self) -> u32 {
        self.place as u32
    }

    fn order(&mut self) -> Order {
        if self.place >= self.plan.len() {
            return Order::Work;
        }
        self.place += 1;
        match self.plan[self.place - 1] {
            1 => Order::Fail,
            2 => Order::Half,
            _ => Order::Work,
        }
    }

    /// Reads what lies below the physical length from `at` on; `None` if the call fails.
    pub(crate) fn read(&mut self, slot: usize, at: u64, buf: &mut [u8]) -> Option<usize> {
        let order = self.order();
        if matches!(order, Order::Fail) {
            return None;
        }
        let there = &self.slots[slot][..self.lengths[slot] as usize];
        let from = usize::try_from(at).map_or(there.len(), |at| at.min(there.len()));
        let mut source = &there[from..];
        source = &source[..source.len().min(buf.len())];
        if matches!(order, Order::Half) {
            source = &source[..source.len() / 2];
        }
        buf[..source.len()].copy_from_slice(source);
        Some(source.len())
    }

    /// Writes what fits from `at` on and says how much; `None` if the call fails.
    pub(crate) fn write(&mut self, slot: usize, at: u64, buf: &[u8]) -> Option<usize> {
        let order = self.order();
        if matches!(order, Order::Fail) || at > self.size {
            return None;
        }
        let fits = (self.size - at).min(buf.len() as u64);
        let stored = match order {
            Order::Half => fits / 2,
            _ => fits,
        };
        self.grow(slot, at);
        let (from, to) = (at as usize, (at + stored) as usize);
        self.slots[slot][from..to].copy_from_slice(&buf[..stored as usize]);
        self.lengths[slot] = self.lengths[slot].max(at + stored);
        Some(stored as usize)
    }

    /// `None` if the call fails.
    pub(crate) fn flush(&mut self) -> Option<()> {
        match self.order() {
            Order::Work => Some(()),
            _ => None,
        }
    }

    /// Cuts the slot to `length`, or adds zeros; `None` if the call fails.
    pub(crate) fn truncate(&mut self, slot: usize, length: u64) -> Option<()> {
        if !matches!(self.order(), Order::Work) || length > self.size {
            return None;
        }
        self.grow(slot, length);
        self.lengths[slot] = length;
        Some(())
    }

    /// Zeros from the physical length up to `end`, which then is the length if it was below.
    fn grow(&mut self, slot: usize, end: u64) {
        let length = self.lengths[slot];
        if length < end {
            self.slots[slot][length as usize..end as usize].fill(0);
            self.lengths[slot] = end;
        }
    }
}
