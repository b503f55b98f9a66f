//! A node: a state in memory, and the journal that it follows from.

use super::bytes::Format;
use super::journal::{Full, Journal};

/// How large a node may grow.
#[derive(Clone, Copy)]
pub struct Limits {
    pub frames: usize,
    pub records: u64,
}

/// What the records of a node make of it.
pub trait State {
    type Record: Format;

    /// The state of no records, with the same limits.
    fn fresh(&self) -> Self;

    /// Takes a record in that was stored.
    fn absorb(&mut self, record: Self::Record);
}

pub struct Node<S> {
    state: S,
    journal: Journal,
}

impl<S: State> Node<S> {
    pub fn new(state: S, limits: Limits) -> Node<S> {
        Node { state, journal: Journal::new(limits.records) }
    }

    pub fn state(&self) -> &S {
        &self.state
    }

    /// Stores a record. It is on the disk before the state has it.
    pub fn store(&mut self, record: S::Record) -> Result<(), Full> {
        self.journal.append(&record)?;
        self.state.absorb(record);
        Ok(())
    }

    /// How many records there are.
    pub fn count(&self) -> u64 {
        self.journal.count()
    }

    /// The node is lost, and opened again from its disk.
    pub fn crash(&mut self) {
        self.journal.crash();
        self.state = self.state.fresh();
        while let Some(record) = self.journal.next() {
            self.state.absorb(record);
        }
    }
}
