//! The Update Centre, the retrieval centres and the links between them.

use super::calls::{Called, Centre, Turn};
use super::cells::Row;
use super::editor::{EditorReply, EditorSeat, LineStep};
use super::frame::Frame;
use super::item::{Charge, Item};
use super::journal::Full;
use super::links::{Arrival, Links, Load, Packet, Way};
use super::names::{AccountNo, Moment, Name};
use super::node::{Limits, Node};
use super::record::{Edit, Record, Taken, Wish};
use super::refusal::Refusal;
use super::screen::Screen;
use super::update::{Judgement, Update};
use std::cmp::Ordering;
use std::rc::Rc;

pub const EDITORS: usize = 4;

/// A caller's port at a centre.
#[derive(Clone, Copy)]
pub struct Port {
    pub centre: usize,
    pub port: usize,
}

#[derive(Clone, Copy)]
pub enum NodeName {
    Update,
    Centre(usize),
}

/// What a line of a script lets happen.
pub enum Event<'a> {
    Seed(Name, Row),
    Edit(usize, &'a [u8]),
    Dial(Port),
    Press(Port, u8),
    Store(Port),
    Show(Port),
    Keys(Port, &'a [u8]),
    Hang(Port),
    Send(Way, usize),
    Arrive(Way, usize, u64),
    Carry(usize),
    Crash(NodeName),
    Clock(Moment),
    View(usize, Name),
    At(usize),
    List,
    Bill(AccountNo),
    Lines(usize),
}

/// What comes of an event.
pub enum Outcome {
    Reply(EditorReply),
    Called(Called),
    /// A packet was made, with the record or item of a number.
    Sent {
        way: Way,
        index: usize,
        number: u64,
    },
    Idle,
    PacketsFull,
    NoPacket,
    Arrived {
        arrival: Arrival,
        number: u64,
        ack: Option<usize>,
    },
    Heard(u64),
    /// The receiver has this many records, and no room.
    Full(u64),
    Carried {
        records: u64,
        items: u64,
    },
    Crashed(u64),
    Clock(Moment),
    NotHeld,
    Applied(u64),
    Records(u64),
    /// Charge lines, each with its centre.
    Charges(Vec<(u8, Charge)>),
}

pub struct Network {
    update: Node<Update>,
    editors: [EditorSeat; EDITORS],
    centres: Vec<Centre>,
    links: Links,
    moment: Moment,
}

impl Network {
    pub fn new(centres: usize, limits: Limits) -> Network {
        Network {
            update: Node::new(Update::new(limits), limits),
            editors: Default::default(),
            centres: (0..centres).map(|number| Centre::new(number, limits)).collect(),
            links: Links::new(centres),
            moment: Moment::FIRST,
        }
    }

    pub fn step(&mut self, event: Event) -> Outcome {
        match event {
            Event::Seed(name, row) => self.seed(name, row),
            Event::Edit(port, line) => self.edit(port, line),
            Event::Dial(at) => Outcome::Called(self.centres[at.centre].dial(at.port)),
            Event::Press(at, key) => Outcome::Called(self.centres[at.centre].press(at.port, key, self.moment)),
            Event::Store(at) => Outcome::Called(self.centres[at.centre].store(at.port)),
            Event::Show(at) => Outcome::Called(self.centres[at.centre].show(at.port)),
            Event::Keys(at, keys) => Outcome::Called(self.centres[at.centre].keys(at.port, keys, self.moment)),
            Event::Hang(at) => Outcome::Called(self.centres[at.centre].hang(at.port)),
            Event::Send(way, centre) => self.send(way, centre),
            Event::Arrive(way, centre, index) => self.arrive(way, centre, index),
            Event::Carry(centre) => self.carry(centre),
            Event::Crash(node) => self.crash(node),
            Event::Clock(moment) => {
                self.moment = moment;
                Outcome::Clock(moment)
            }
            Event::View(centre, name) => self.view(centre, name),
            Event::At(centre) => Outcome::Applied(self.centres[centre].state().applied()),
            Event::List => Outcome::Records(self.update.count()),
            Event::Bill(account) => Outcome::Charges(self.update.state().charges(account)),
            Event::Lines(centre) => Outcome::Charges(self.lines(centre)),
        }
    }

    /// The operator stores a frame that is blank but for row 2.
    fn seed(&mut self, name: Name, row: Row) -> Outcome {
        let number = self.update.state().next_number(AccountNo::OPERATOR) as u32;
        let wish = Wish::Put(name, Rc::new(Frame::of_row(row)));
        self.ask(Edit { editor: AccountNo::OPERATOR, number, wish })
    }

    fn ask(&mut self, edit: Edit) -> Outcome {
        Outcome::Reply(self.store(edit).map_or_else(EditorReply::Refused, EditorReply::Number))
    }

    /// Stores an edit, unless it is refused. Returns its place.
    fn store(&mut self, edit: Edit) -> Result<u64, Refusal> {
        match self.update.state().judge(&edit)? {
            Judgement::Again(place) => Ok(place),
            Judgement::New(place) => {
                self.update.store(Record::Edit(edit)).map_err(|full| Refusal::Full(full.count))?;
                Ok(place)
            }
        }
    }

    fn edit(&mut self, port: usize, line: &[u8]) -> Outcome {
        match self.editors[port].line(line, self.update.state().base()) {
            LineStep::Say(reply) => Outcome::Reply(reply),
            LineStep::Ask(edit) => self.ask(edit),
            LineStep::Search(editor, from) => Outcome::Reply(match self.update.state().response(editor, from) {
                Some((place, reply)) => EditorReply::Response(place, reply.clone()),
                None => EditorReply::NoResponse,
            }),
            LineStep::Close => {
                self.editors[port] = EditorSeat::default();
                Outcome::Reply(EditorReply::Bye)
            }
        }
    }

    /// How many there are to go a way.
    fn count(&self, way: Way, centre: usize) -> u64 {
        match way {
            Way::Down => self.update.count(),
            Way::Up => self.centres[centre].state().items().len() as u64,
        }
    }

    fn next(&self, way: Way, centre: usize) -> Option<u64> {
        self.links.next(way, centre, self.count(way, centre))
    }

    /// What goes a way under a number.
    fn load(&self, way: Way, centre: usize, number: u64) -> Option<Load> {
        match way {
            Way::Down => Some(Load::Record(self.update.state().record(number)?.down())),
            Way::Up => Some(Load::Item(self.centres[centre].state().items().get(number as usize)?.clone())),
        }
    }

    fn send(&mut self, way: Way, centre: usize) -> Outcome {
        if self.links.is_full() {
            return Outcome::PacketsFull;
        }
        let next = self.next(way, centre).and_then(|number| Some((number, self.load(way, centre, number)?)));
        let Some((number, load)) = next else {
            return Outcome::Idle;
        };
        let index = self.links.send(way, &Packet { centre: centre as u8, number, load });
        Outcome::Sent { way, index, number }
    }

    fn arrive(&mut self, way: Way, centre: usize, index: u64) -> Outcome {
        let Some(Packet { number, load, .. }) = self.links.packet(way, centre, index) else {
            return Outcome::NoPacket;
        };
        match load {
            Load::Record(down) => {
                let arrival = self.centres[centre].apply(number, down);
                self.answer(Way::Down, centre, number, arrival)
            }
            Load::Item(item) => {
                let arrival = self.take_up(centre, number, item);
                self.answer(Way::Up, centre, number, arrival)
            }
            Load::RecordsHeard => self.hear(Way::Down, centre, number),
            Load::ItemsHeard => self.hear(Way::Up, centre, number),
        }
    }

    /// Takes an item of a centre up, if it is the next.
    fn take_up(&mut self, centre: usize, place: u64, item: Item) -> Result<Arrival, Full> {
        match place.cmp(&self.update.state().taken(centre)) {
            Ordering::Less => Ok(Arrival::Old),
            Ordering::Greater => Ok(Arrival::Early),
            Ordering::Equal => {
                self.update.store(Record::Taken(Taken { centre: centre as u8, place, item }))?;
                Ok(Arrival::Taken)
            }
        }
    }

    /// Acknowledges what arrived, unless the receiver is full.
    fn answer(&mut self, way: Way, centre: usize, number: u64, arrival: Result<Arrival, Full>) -> Outcome {
        match arrival {
            Ok(arrival) => Outcome::Arrived { arrival, number, ack: self.acknowledge(way, centre) },
            Err(Full { count }) => Outcome::Full(count),
        }
    }

    /// Says how many the receiver of a way has. Returns the index of the packet, if one can be made.
    fn acknowledge(&mut self, way: Way, centre: usize) -> Option<usize> {
        if self.links.is_full() {
            return None;
        }
        let (number, load) = match way {
            Way::Down => (self.centres[centre].state().applied(), Load::RecordsHeard),
            Way::Up => (self.update.state().taken(centre), Load::ItemsHeard),
        };
        Some(self.links.make(way.back(), &Packet { centre: centre as u8, number, load }))
    }

    fn hear(&mut self, way: Way, centre: usize, number: u64) -> Outcome {
        self.links.hear(way, centre, number, self.count(way, centre));
        Outcome::Heard(number)
    }

    /// Brings all that the centre and the Update Centre lack, one way as long as there is something, then the other.
    fn carry(&mut self, centre: usize) -> Outcome {
        let (mut way, mut records, mut items) = (Way::Down, 0, 0);
        while let Some(next) = [way, way.back()].into_iter().find(|way| self.next(*way, centre).is_some()) {
            way = next;
            match (self.round(way, centre), way) {
                (Ok(Arrival::Taken), Way::Down) => records += 1,
                (Ok(Arrival::Taken), Way::Up) => items += 1,
                (Ok(Arrival::Old | Arrival::Early), _) => {}
                (Err(outcome), _) => return outcome,
            }
        }
        Outcome::Carried { records, items }
    }

    /// The next packet is sent and arrives, and so does its acknowledgement. The error is why it cannot.
    fn round(&mut self, way: Way, centre: usize) -> Result<Arrival, Outcome> {
        let index = match self.send(way, centre) {
            Outcome::Sent { index, .. } => index,
            outcome => return Err(outcome),
        };
        let (arrival, ack) = match self.arrive(way, centre, index as u64) {
            Outcome::Arrived { arrival, ack, .. } => (arrival, ack),
            outcome => return Err(outcome),
        };
        if let Some(ack) = ack {
            self.arrive(way.back(), centre, ack as u64);
        }
        Ok(arrival)
    }

    /// A node is lost, and opened again from its disk. Packets stay.
    fn crash(&mut self, node: NodeName) -> Outcome {
        match node {
            NodeName::Update => {
                self.update.crash();
                self.editors = Default::default();
                (0..self.centres.len()).for_each(|centre| self.links.renew(Way::Down, centre));
                Outcome::Crashed(self.update.count())
            }
            NodeName::Centre(centre) => {
                self.centres[centre].crash();
                self.links.renew(Way::Up, centre);
                Outcome::Crashed(self.centres[centre].count())
            }
        }
    }

    fn view(&self, centre: usize, name: Name) -> Outcome {
        match self.centres[centre].state().base().frame(name) {
            Some(frame) => {
                let screen = Screen::Frame(name, Rc::clone(frame));
                Outcome::Called(Called::Shown(Turn { screen, ended: None }))
            }
            None => Outcome::NotHeld,
        }
    }

    /// The charge lines that a centre has stored.
    fn lines(&self, centre: usize) -> Vec<(u8, Charge)> {
        let items = self.centres[centre].state().items().iter();
        let charges = items.filter_map(|item| match item {
            Item::Charge(charge) => Some((centre as u8, *charge)),
            _ => None,
        });
        charges.collect()
    }
}
