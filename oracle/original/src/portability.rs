//! What regolith's `portability` gives on a host with atomics.

pub(crate) use std::sync::atomic::{AtomicBool, AtomicU64, AtomicUsize, Ordering};
