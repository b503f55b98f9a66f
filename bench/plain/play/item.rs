//! What a centre sends up for a caller: charge lines, filled forms and letters.

use super::bytes::{Format, Reader, put};
use super::cells::{COLUMNS, Row, SPACE};
use super::names::{AccountNo, Moment, Name};
use std::rc::Rc;

const FIELDS: usize = 8;
const LAST_PRICE: u16 = 99;
pub const LETTER_ROWS: usize = 6;

/// A priced frame that a caller asked for.
#[derive(Clone, Copy)]
pub struct Charge {
    /// The call, by its number at its centre.
    pub serial: u64,
    /// The line's number in the call.
    pub number: u32,
    pub account: AccountNo,
    pub name: Name,
    pub price: u16,
    pub moment: Moment,
}

/// What was keyed into a field: at most forty characters that some field takes.
#[derive(Clone)]
pub struct Filled(String);

/// A form that a caller filled in.
#[derive(Clone)]
pub struct Reply {
    pub account: AccountNo,
    pub name: Name,
    pub moment: Moment,
    pub fields: Vec<Filled>,
}

/// A letter from one account to another.
pub struct Mail {
    pub sender: AccountNo,
    pub to: AccountNo,
    pub moment: Moment,
    pub text: [Row; LETTER_ROWS],
}

#[derive(Clone)]
pub enum Item {
    Charge(Charge),
    Reply(Reply),
    Mail(Rc<Mail>),
}

impl Filled {
    pub fn new() -> Filled {
        Filled(String::new())
    }

    pub fn takes(byte: u8) -> bool {
        matches!(byte, b' '..=b'~') && !matches!(byte, b'*' | b'#' | b'_' | b'|' | b'\\')
    }

    pub fn push(&mut self, byte: u8) {
        self.0.push(byte.into());
    }

    pub fn text(&self) -> &str {
        &self.0
    }

    /// What was keyed as a row of a letter.
    fn row(&self) -> Row {
        let mut row = [SPACE; COLUMNS];
        row[..self.0.len()].copy_from_slice(self.0.as_bytes());
        row
    }
}

impl Mail {
    /// The letter that these fields are: the account that gets it, and then rows of text.
    pub fn of_fields(sender: AccountNo, moment: Moment, fields: &[Filled]) -> Option<Mail> {
        let (to, rows) = fields.split_first()?;
        let to = AccountNo::of_text(to.0.as_bytes())?;
        let mut text = [[SPACE; COLUMNS]; LETTER_ROWS];
        for (row, filled) in text.iter_mut().zip(rows) {
            *row = filled.row();
        }
        Some(Mail { sender, to, moment, text })
    }
}

impl Format for Charge {
    fn put(&self, out: &mut Vec<u8>) {
        put!(out, self.serial, self.number, self.account, self.name, self.price, self.moment);
    }

    fn read(from: &mut Reader) -> Option<Charge> {
        Some(Charge {
            serial: u64::read(from)?,
            number: u32::read(from)?,
            account: AccountNo::read(from)?,
            name: Name::read(from)?,
            price: u16::read(from).filter(|price| *price <= LAST_PRICE)?,
            moment: Moment::read(from)?,
        })
    }
}

impl Format for Filled {
    fn put(&self, out: &mut Vec<u8>) {
        (self.0.len() as u8).put(out);
        out.extend_from_slice(self.0.as_bytes());
    }

    fn read(from: &mut Reader) -> Option<Filled> {
        let length = usize::from(u8::read(from)?);
        let text = from.run(length).filter(|text| length <= COLUMNS && text.iter().all(|byte| Filled::takes(*byte)))?;
        Some(Filled(String::from_utf8(text.to_vec()).ok()?))
    }
}

impl Format for Reply {
    fn put(&self, out: &mut Vec<u8>) {
        put!(out, self.account, self.name, self.moment, self.fields);
    }

    fn read(from: &mut Reader) -> Option<Reply> {
        Some(Reply {
            account: AccountNo::read(from)?,
            name: Name::read(from)?,
            moment: Moment::read(from)?,
            fields: Vec::read(from).filter(|fields| (1..=FIELDS).contains(&fields.len()))?,
        })
    }
}

impl Format for Mail {
    fn put(&self, out: &mut Vec<u8>) {
        put!(out, self.sender, self.to, self.moment);
        out.extend_from_slice(self.text.as_flattened());
    }

    fn read(from: &mut Reader) -> Option<Mail> {
        Some(Mail {
            sender: AccountNo::read(from)?,
            to: AccountNo::read(from)?,
            moment: Moment::read(from)?,
            text: read_text(from)?,
        })
    }
}

impl Format for Item {
    fn put(&self, out: &mut Vec<u8>) {
        match self {
            Item::Charge(charge) => put!(out, 1u8, charge),
            Item::Reply(reply) => put!(out, 2u8, reply),
            Item::Mail(mail) => put!(out, 3u8, mail),
        }
    }

    fn read(from: &mut Reader) -> Option<Item> {
        match u8::read(from)? {
            1 => Charge::read(from).map(Item::Charge),
            2 => Reply::read(from).map(Item::Reply),
            3 => Some(Item::Mail(Rc::new(Mail::read(from)?))),
            _ => None,
        }
    }
}

fn read_text(from: &mut Reader) -> Option<[Row; LETTER_ROWS]> {
    let cells = from.array::<{ LETTER_ROWS * COLUMNS }>()?;
    let (rows, _) = cells.as_chunks();
    rows.try_into().ok().filter(|_| cells.iter().all(|cell| matches!(cell, b' '..=b'~')))
}
