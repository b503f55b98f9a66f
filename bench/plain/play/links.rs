//! Packets in bytes, and the links that they go on.

use super::account::read_centre;
use super::bytes::{Format, Reader, put};
use super::item::Item;
use super::record::Down;
use std::ops::Range;

const PACKETS: usize = 20_000;

/// From the Update Centre to a centre, or the other way.
#[derive(Clone, Copy, PartialEq, Eq)]
pub enum Way {
    Down,
    Up,
}

/// What a packet brings.
pub enum Load {
    Record(Down),
    Item(Item),
    /// The other end has all records below the packet's number.
    RecordsHeard,
    /// The other end has all items below the packet's number.
    ItemsHeard,
}

/// What a receiver did with a record or an item.
#[derive(Clone, Copy)]
pub enum Arrival {
    Taken,
    /// It had it.
    Old,
    /// It lacks one before it.
    Early,
}

pub struct Packet {
    pub centre: u8,
    pub number: u64,
    pub load: Load,
}

/// The sending end of a way: which number goes next.
#[derive(Default)]
struct End {
    heard: u64,
    next: u64,
}

/// Where the packets of a way are, and its sending end.
#[derive(Default)]
struct Direction {
    packets: Vec<Range<usize>>,
    end: End,
}

#[derive(Default)]
struct Link {
    down: Direction,
    up: Direction,
}

/// The links of all centres, with all packets that were made, one after another.
pub struct Links {
    bytes: Vec<u8>,
    made: usize,
    links: Vec<Link>,
}

impl Way {
    pub fn back(self) -> Way {
        match self {
            Way::Down => Way::Up,
            Way::Up => Way::Down,
        }
    }
}

impl End {
    /// The numbers go in turn, and then again from the first that was not heard of.
    fn next(&self, count: u64) -> Option<u64> {
        let is_due = self.heard <= self.next && self.next < count;
        let number = if is_due { self.next } else { self.heard };
        (self.heard < count).then_some(number)
    }

    fn hear(&mut self, number: u64, count: u64) {
        if self.heard < number && number <= count {
            self.heard = number;
        }
    }
}

impl Link {
    fn direction(&self, way: Way) -> &Direction {
        match way {
            Way::Down => &self.down,
            Way::Up => &self.up,
        }
    }

    fn direction_mut(&mut self, way: Way) -> &mut Direction {
        match way {
            Way::Down => &mut self.down,
            Way::Up => &mut self.up,
        }
    }
}

impl Links {
    pub fn new(centres: usize) -> Links {
        Links { bytes: Vec::new(), made: 0, links: (0..centres).map(|_| Link::default()).collect() }
    }

    pub fn is_full(&self) -> bool {
        self.made == PACKETS
    }

    /// The number that goes next, of this many in all.
    pub fn next(&self, way: Way, centre: usize, count: u64) -> Option<u64> {
        self.links[centre].direction(way).end.next(count)
    }

    /// Sends a packet under the number that is next, and returns its index.
    pub fn send(&mut self, way: Way, packet: &Packet) -> usize {
        self.links[usize::from(packet.centre)].direction_mut(way).end.next = packet.number + 1;
        self.make(way, packet)
    }

    /// Makes a packet, and returns its index.
    pub fn make(&mut self, way: Way, packet: &Packet) -> usize {
        let start = self.bytes.len();
        packet.put(&mut self.bytes);
        self.made += 1;
        let packets = &mut self.links[usize::from(packet.centre)].direction_mut(way).packets;
        packets.push(start..self.bytes.len());
        packets.len() - 1
    }

    /// The packet of an index, as its bytes say.
    pub fn packet(&self, way: Way, centre: usize, index: u64) -> Option<Packet> {
        let index = usize::try_from(index).ok()?;
        let range = self.links[centre].direction(way).packets.get(index)?;
        Packet::of_bytes(&self.bytes[range.clone()])
    }

    /// The sending end of a way hears of all below a number, of this many.
    pub fn hear(&mut self, way: Way, centre: usize, number: u64, count: u64) {
        self.links[centre].direction_mut(way).end.hear(number, count);
    }

    /// The sending end of a way is new.
    pub fn renew(&mut self, way: Way, centre: usize) {
        self.links[centre].direction_mut(way).end = End::default();
    }
}

impl Load {
    fn kind(&self) -> u8 {
        match self {
            Load::Record(_) => 1,
            Load::Item(_) => 2,
            Load::RecordsHeard => 3,
            Load::ItemsHeard => 4,
        }
    }
}

impl Format for Packet {
    fn put(&self, out: &mut Vec<u8>) {
        put!(out, self.load.kind(), self.centre, self.number);
        match &self.load {
            Load::Record(down) => down.put(out),
            Load::Item(item) => item.put(out),
            Load::RecordsHeard | Load::ItemsHeard => {}
        }
    }

    fn read(from: &mut Reader) -> Option<Packet> {
        let kind = u8::read(from)?;
        let centre = read_centre(from)?;
        let number = u64::read(from)?;
        let load = match kind {
            1 => Load::Record(Down::read(from)?),
            2 => Load::Item(Item::read(from)?),
            3 => Load::RecordsHeard,
            4 => Load::ItemsHeard,
            _ => return None,
        };
        Some(Packet { centre, number, load })
    }
}
