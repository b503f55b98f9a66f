//! A centre with its callers: the node, and the seats at its ports.

use super::cells::first_byte;
use super::centre::CentreState;
use super::journal::Full;
use super::links::Arrival;
use super::names::Moment;
use super::node::{Limits, Node};
use super::record::{CentreRecord, Down};
use super::screen::Screen;
use super::seat::{Seat, Step, Why};
use std::cmp::Ordering;

pub const PORTS: usize = 16;

pub struct Centre {
    node: Node<CentreState>,
    ports: [Option<Seat>; PORTS],
}

/// A screen that is shown, and why the call ended with it, if it did.
pub struct Turn {
    pub screen: Screen,
    pub ended: Option<Why>,
}

/// What comes of a line of a caller.
pub enum Called {
    Shown(Turn),
    /// The screens that the keys showed.
    Turns(Vec<Turn>),
    Quiet,
    Owes,
    Owing,
    Stored,
    /// The centre has this many records, and turns the caller away.
    Full(u64, Turn),
    Nothing,
    Busy,
    Hung,
    NoCall,
}

impl Turn {
    fn going_on(screen: Screen) -> Turn {
        Turn { screen, ended: None }
    }
}

impl Centre {
    pub fn new(number: usize, limits: Limits) -> Centre {
        Centre { node: Node::new(CentreState::new(number as u8, limits), limits), ports: Default::default() }
    }

    pub fn state(&self) -> &CentreState {
        self.node.state()
    }

    /// How many records it has.
    pub fn count(&self) -> u64 {
        self.node.count()
    }

    /// Applies what came down under a number, if it is the next and has room.
    pub fn apply(&mut self, number: u64, down: Down) -> Result<Arrival, Full> {
        match number.cmp(&self.state().applied()) {
            Ordering::Less => Ok(Arrival::Old),
            Ordering::Equal if self.state().fits(&down) => {
                self.node.store(CentreRecord::Applied(number, down))?;
                Ok(Arrival::Taken)
            }
            Ordering::Equal | Ordering::Greater => Ok(Arrival::Early),
        }
    }

    pub fn dial(&mut self, port: usize) -> Called {
        if self.ports[port].is_some() {
            return Called::Busy;
        }
        let (seat, screen) = Seat::dial();
        self.ports[port] = Some(seat);
        Called::Shown(Turn::going_on(screen))
    }

    pub fn hang(&mut self, port: usize) -> Called {
        self.ports[port].take().map_or(Called::NoCall, |_| Called::Hung)
    }

    pub fn press(&mut self, port: usize, key: u8, moment: Moment) -> Called {
        let Some(seat) = &mut self.ports[port] else {
            return Called::NoCall;
        };
        if seat.is_waiting() {
            return Called::Owing;
        }
        match seat.key(key, self.node.state(), moment) {
            Step::Quiet => Called::Quiet,
            Step::Owe => Called::Owes,
            Step::Show(screen) => Called::Shown(Turn::going_on(screen)),
            Step::Ended(why, screen) => {
                self.ports[port] = None;
                Called::Shown(Turn { screen, ended: Some(why) })
            }
        }
    }

    /// Stores what a call owes.
    pub fn store(&mut self, port: usize) -> Called {
        let Some(seat) = &mut self.ports[port] else {
            return Called::NoCall;
        };
        let Some(wish) = seat.wish() else {
            return Called::Nothing;
        };
        let serial = self.node.state().log_ons();
        let record = wish.record(self.node.state());
        match record.map_or(Ok(()), |record| self.node.store(record)) {
            Ok(()) => {
                seat.stored(serial);
                Called::Stored
            }
            Err(Full { count }) => {
                self.ports[port] = None;
                Called::Full(count, Turn { screen: Seat::turned_away(), ended: Some(Why::Full) })
            }
        }
    }

    /// Shows what was stored for a call.
    pub fn show(&mut self, port: usize) -> Called {
        let Some(seat) = &mut self.ports[port] else {
            return Called::NoCall;
        };
        seat.show_stored().map_or(Called::Nothing, |screen| Called::Shown(Turn::going_on(screen)))
    }

    /// Takes the keys of a notation, up to the end of the call. What one owes is stored and shown before the next.
    pub fn keys(&mut self, port: usize, text: &[u8], moment: Moment) -> Called {
        match &self.ports[port] {
            None => return Called::NoCall,
            Some(seat) if seat.is_waiting() => return Called::Owing,
            Some(_) => {}
        }
        let (mut turns, mut rest) = (Vec::new(), text);
        while let Some((key, later)) = first_byte(rest).filter(|_| self.ports[port].is_some()) {
            turns.extend(self.key(port, key, moment));
            rest = later;
        }
        if turns.is_empty() { Called::Quiet } else { Called::Turns(turns) }
    }

    /// Takes a key, and what it owes. Returns what is shown.
    fn key(&mut self, port: usize, key: u8, moment: Moment) -> Option<Turn> {
        let mut called = self.press(port, key, moment);
        if let Called::Owes = called {
            called = match self.store(port) {
                Called::Stored => self.show(port),
                called => called,
            };
        }
        match called {
            Called::Shown(turn) | Called::Full(_, turn) => Some(turn),
            _ => None,
        }
    }

    /// The centre is lost, and opened again from its disk. Its calls are over.
    pub fn crash(&mut self) {
        self.node.crash();
        self.ports = Default::default();
    }
}
