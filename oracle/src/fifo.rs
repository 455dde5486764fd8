//! A queue of at most eight entries, first in first out.

/// The most entries that wait at once.
pub const CAPACITY: usize = 8;

/// Up to eight entries in the order of their coming, kept in a ring.
#[derive(Clone, Debug, Default, PartialEq, Eq)]
pub struct Fifo<T> {
    entries: [T; CAPACITY],
    head: usize,
    count: usize,
}

impl<T: Copy> Fifo<T> {
    /// Counts the waiting entries.
    pub fn len(&self) -> usize {
        self.count
    }

    /// Says whether nothing waits.
    pub fn is_empty(&self) -> bool {
        self.count == 0
    }

    /// Says whether there is no more room.
    pub fn is_full(&self) -> bool {
        self.count == CAPACITY
    }

    /// Gives the oldest entry, left in place.
    pub fn first(&self) -> Option<T> {
        (self.count > 0).then(|| self.entries[self.head])
    }

    /// Gives the waiting entries, the oldest first.
    pub fn iter(&self) -> impl Iterator<Item = T> + '_ {
        (0..self.count).map(|at| self.entries[(self.head + at) % CAPACITY])
    }

    /// Adds an entry at the end; the caller has asked for room.
    pub fn push(&mut self, entry: T) {
        assert!(!self.is_full());
        self.entries[(self.head + self.count) % CAPACITY] = entry;
        self.count += 1;
    }

    /// Removes the oldest entry.
    pub fn pop(&mut self) -> Option<T> {
        let entry = self.first()?;
        self.head = (self.head + 1) % CAPACITY;
        self.count -= 1;
        Some(entry)
    }
}
