//! In place of the original's js.rs: the calls that sah.rs makes of the browser, answered by the memory device.
//!
//! A read or a write is one call of the device whatever its length: the original's chunks of 8 MB are not
//! played. Opening and closing are no device calls.

use std::rc::Rc;

use wasm_bindgen::JsValue;

use crate::device::{Shared, SlotHandle};

fn failed() -> JsValue {
    JsValue::from_str("the plan says so, or the place lies beyond the slot")
}

fn slot_handle(value: &JsValue) -> Result<&SlotHandle, JsValue> {
    value
        .thing::<SlotHandle>()
        .ok_or_else(|| JsValue::from_str("not a slot"))
}

/// The directory whose files are the device's slots.
pub(super) fn directory(device: &Shared) -> JsValue {
    JsValue::Thing(Rc::new(device.clone()))
}

/// A walk over files; slots are there from the start, so nothing is to be found by one.
pub(super) struct FileWalk;

impl FileWalk {
    pub(super) fn new(_dir: &JsValue) -> Result<Self, JsValue> {
        Ok(Self)
    }

    pub(super) async fn next_file(&mut self) -> Result<Option<(String, JsValue)>, JsValue> {
        Ok(None)
    }
}

/// The file of a slot, whose number is the name's end.
pub(super) async fn file_handle(
    dir: &JsValue,
    name: &str,
    _create: bool,
) -> Result<JsValue, JsValue> {
    let device = dir
        .thing::<Shared>()
        .ok_or_else(|| JsValue::from_str("not a directory"))?;
    let digits = name.rsplit('-').next().unwrap_or_default();
    let slot: usize = digits
        .parse()
        .map_err(|_| JsValue::from_str("not the name of a slot"))?;
    if slot >= device.borrow().slot_count() {
        return Err(JsValue::from_str("the device has no such slot"));
    }
    Ok(JsValue::Thing(Rc::new(SlotHandle {
        device: device.clone(),
        slot,
    })))
}

pub(super) async fn sync_access_handle(file: &JsValue) -> Result<JsValue, JsValue> {
    Ok(file.clone())
}

pub(super) fn read_at(handle: &JsValue, at: u64, buf: &mut [u8]) -> Result<usize, JsValue> {
    let handle = slot_handle(handle)?;
    let mut device = handle.device.borrow_mut();
    device.read(handle.slot, at, buf).ok_or_else(failed)
}

pub(super) fn write_at(handle: &JsValue, at: u64, buf: &[u8]) -> Result<usize, JsValue> {
    let handle = slot_handle(handle)?;
    let mut device = handle.device.borrow_mut();
    device.write(handle.slot, at, buf).ok_or_else(failed)
}

pub(super) fn flush(handle: &JsValue) -> Result<(), JsValue> {
    let mut device = slot_handle(handle)?.device.borrow_mut();
    device.flush().ok_or_else(failed)
}

pub(super) fn truncate(handle: &JsValue, len: u64) -> Result<(), JsValue> {
    let handle = slot_handle(handle)?;
    let mut device = handle.device.borrow_mut();
    device.truncate(handle.slot, len).ok_or_else(failed)
}

pub(super) fn close(handle: &JsValue) -> Result<(), JsValue> {
    slot_handle(handle).map(|_| ())
}
