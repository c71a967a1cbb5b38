
// Appended by the oracle, to read private fields.

/// A slot as the pool holds it.
pub(super) struct SeenSlot {
    pub(super) path: Option<PathBuf>,
    pub(super) generation: u64,
    pub(super) len: u64,
    pub(super) dirty: bool,
    pub(super) free: bool,
}

impl SahPool {
    /// Every slot, by index.
    pub(super) fn seen_slots(&self) -> Vec<SeenSlot> {
        let slots = self.slots.load();
        let seen = slots.iter().map(|slot| {
            let (state, _) = slot.snapshot();
            SeenSlot {
                path: state.path,
                generation: state.generation,
                len: state.len,
                dirty: state.header_dirty,
                free: slot.free.load(Ordering::Acquire),
            }
        });
        seen.collect()
    }

    /// The free list, front first.
    pub(super) fn seen_queue(&self) -> Vec<usize> {
        self.free.waiting()
    }

    /// The directories.
    pub(super) fn seen_dirs(&self) -> Vec<PathBuf> {
        self.dirs.keys().collect()
    }

    /// The map from paths to slots.
    pub(super) fn seen_paths(&self) -> Vec<(PathBuf, usize)> {
        self.by_path.iter().collect()
    }

    /// The next generation.
    pub(super) fn seen_counter(&self) -> u64 {
        self.next_generation.load(Ordering::Acquire)
    }
}
