//! Stand-in for `kovan_queue`: first in, first out.

pub mod seg_queue {
    //! The queue that the free list is kept in.

    use std::cell::RefCell;
    use std::collections::VecDeque;

    /// A queue whose calls all take `&self`.
    pub struct SegQueue<T>(RefCell<VecDeque<T>>);

    impl<T> SegQueue<T> {
        /// An empty queue.
        #[expect(clippy::new_without_default, reason = "as the original names it")]
        pub fn new() -> Self {
            Self(RefCell::new(VecDeque::new()))
        }

        /// Joins the end.
        pub fn push(&self, value: T) {
            self.0.borrow_mut().push_back(value);
        }

        /// Leaves from the front.
        pub fn pop(&self) -> Option<T> {
            self.0.borrow_mut().pop_front()
        }

        /// Everything that waits, front first. Not a call of kovan's: the oracle reads its tables by it.
        pub fn waiting(&self) -> Vec<T>
        where
            T: Clone,
        {
            self.0.borrow().iter().cloned().collect()
        }
    }
}
