//! Stand-in for `kovan`: a cell whose whole value is replaced at once. The oracle has one thread, so a
//! plain cell gives what the lock-free one gives.

use std::cell::RefCell;
use std::sync::Arc;

/// A value that is loaded and stored as a whole.
pub struct Atom<T>(RefCell<Arc<T>>);

impl<T> Atom<T> {
    /// A cell that holds `value`.
    pub fn new(value: T) -> Self {
        Self(RefCell::new(Arc::new(value)))
    }

    /// The value as it is now; a later store does not change it.
    pub fn load(&self) -> Arc<T> {
        self.0.borrow().clone()
    }

    /// Replaces the value.
    pub fn store(&self, value: T) {
        *self.0.borrow_mut() = Arc::new(value);
    }
}
