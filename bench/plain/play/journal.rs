//! A journal on a disk in memory: bodies that a crash at any moment keeps or loses whole.

use super::bytes::{Format, Reader};
use std::ops::Range;

const MARK: &[u8; 8] = b"PVJOURN1";
const CLOSED: u8 = 0;
const OPEN: u8 = 1;
/// A gate, and the length of a body.
const HEAD: usize = 3;

/// What was written, and what a crash would leave of it.
#[derive(Default)]
struct Disk {
    written: Vec<u8>,
    synced: Vec<u8>,
    unsynced: Vec<Range<usize>>,
}

/// Bodies one after another. Each has a gate before it, which is opened once the body is synced.
pub struct Journal {
    disk: Disk,
    /// Where the closed gate after the last body is.
    gate: usize,
    count: u64,
    limit: u64,
    block: Vec<u8>,
}

/// There are as many bodies as the limit.
pub struct Full {
    pub count: u64,
}

impl Disk {
    fn write(&mut self, at: usize, bytes: &[u8]) {
        let range = at..at + bytes.len();
        if range.end <= self.written.len() {
            self.written[range.clone()].copy_from_slice(bytes);
        } else {
            self.written.truncate(at);
            self.written.extend_from_slice(bytes);
        }
        self.unsynced.push(range);
    }

    fn sync(&mut self) {
        let end = self.synced.len();
        for Range { start, end } in self.unsynced.drain(..).map(|range| range.start.min(end)..range.end.min(end)) {
            self.synced[start..end].copy_from_slice(&self.written[start..end]);
        }
        self.synced.extend_from_slice(&self.written[end..]);
    }

    /// The disk is what a crash leaves.
    fn crash(&mut self) {
        self.written.clone_from(&self.synced);
        self.unsynced.clear();
    }
}

impl Journal {
    /// A journal without bodies, on a disk of its own.
    pub fn new(limit: u64) -> Journal {
        let mut disk = Disk::default();
        disk.sync();
        disk.write(0, &[MARK.as_slice(), &[CLOSED]].concat());
        disk.sync();
        Journal { disk, gate: MARK.len(), count: 0, limit, block: Vec::new() }
    }

    pub fn count(&self) -> u64 {
        self.count
    }

    /// Appends the spelling of a value. After it a crash keeps the body.
    pub fn append(&mut self, value: &impl Format) -> Result<(), Full> {
        if self.count == self.limit {
            return Err(Full { count: self.count });
        }
        self.spell(value);
        self.disk.write(self.gate + 1, &self.block);
        self.disk.sync();
        self.disk.write(self.gate, &[OPEN]);
        self.disk.sync();
        self.gate += self.block.len();
        self.count += 1;
        Ok(())
    }

    /// Makes the block what comes after the gate of a body: its length, the body, and a closed gate.
    fn spell(&mut self, value: &impl Format) {
        self.block.clear();
        self.block.extend_from_slice(&[0, 0]);
        value.put(&mut self.block);
        let size = (self.block.len() - 2) as u16;
        self.block[..2].copy_from_slice(&size.to_be_bytes());
        self.block.push(CLOSED);
    }

    /// Loses what a crash loses, and goes back to the first body.
    pub fn crash(&mut self) {
        self.disk.crash();
        (self.gate, self.count) = (MARK.len(), 0);
    }

    /// Reads the next body after a crash. `None` after the last.
    pub fn next<T: Format>(&mut self) -> Option<T> {
        let mut from = Reader::new(&self.disk.written[self.gate..]);
        if u8::read(&mut from)? != OPEN {
            return None;
        }
        let size = u16::read(&mut from)?.into();
        let value = T::of_bytes(from.run(size)?)?;
        self.gate += HEAD + size;
        self.count += 1;
        Some(value)
    }
}
