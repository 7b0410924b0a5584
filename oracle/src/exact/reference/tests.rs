// The Rust declares this submodule, and a submodule sees its parent's private fields: here are the
// accessors with which the driver makes up states and reads tables back.
use alloc::vec::Vec;

use super::{ScalarElastic, ScalarFunnel};

impl<O> ScalarElastic<O> {
    pub(crate) fn slots(&self) -> &[Option<u64>] {
        &self.slots
    }

    pub(crate) fn level_lengths(&self) -> &[usize] {
        &self.levels
    }

    pub(crate) fn count(&self) -> usize {
        self.len
    }

    pub(crate) fn occupy(&mut self, slot: usize, identity: u64) {
        self.slots[slot] = Some(identity);
    }

    /// Sets the count and the level counts, whatever the slots hold.
    pub(crate) fn set_counts(&mut self, count: usize, levels: Vec<usize>) {
        self.len = count;
        self.occupancy = levels;
    }
}

impl<O> ScalarFunnel<O> {
    pub(crate) fn slots(&self) -> &[Option<u64>] {
        &self.slots
    }

    pub(crate) fn occupy(&mut self, slot: usize, identity: u64) {
        self.slots[slot] = Some(identity);
    }

    /// Sets the count, whatever the slots hold.
    pub(crate) fn set_count(&mut self, count: usize) {
        self.len = count;
    }

    /// Where the primary and the fallback part start.
    pub(crate) fn special_offsets(&self) -> (usize, usize) {
        (self.primary_offset, self.fallback_offset)
    }
}
