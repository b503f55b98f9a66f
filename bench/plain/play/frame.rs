//! Frames: what is shown on one screen, and what it leads to.

use super::bytes::{Format, Reader, put};
use super::cells::{COLUMNS, Row, SPACE};
use super::names::Page;

pub const TITLE: usize = 24;
const ROWS: usize = 22;
/// The screen's number of the first row of a body.
const FIRST_ROW: u8 = 2;
const FIELDS: usize = 8;
const LAST_PRICE: u16 = 99;
const VERSION: u8 = 1;
const NO_ROUTE: u32 = u32::MAX;
const ACCOUNT_DIGITS: u8 = 10;

/// What a frame is for.
#[derive(Clone, Copy, PartialEq, Eq)]
pub enum Kind {
    Information,
    Response,
    Mail,
}

/// What a field takes.
#[derive(Clone, Copy, PartialEq, Eq)]
pub enum FieldKind {
    Digits,
    Words,
}

/// Cells of one row that a caller fills in.
#[derive(Clone, Copy)]
pub struct Field {
    pub row: u8,
    pub column: u8,
    pub length: u8,
    pub kind: FieldKind,
}

#[derive(Clone)]
pub struct Frame {
    pub title: [u8; TITLE],
    pub body: [Row; ROWS],
    pub kind: Kind,
    pub routes: [Option<Page>; 10],
    /// In pence. A valid frame costs at most 99.
    pub price: u16,
    /// The closed group that may see it, or 0 if all may.
    pub group: u16,
    pub fields: Vec<Field>,
}

/// Why a frame is not valid.
#[derive(Clone, Copy)]
pub enum FrameError {
    Cell = 1,
    Price,
    FieldRange,
    FieldsMeet,
    Shape,
}

impl Field {
    fn end(&self) -> usize {
        usize::from(self.column) + usize::from(self.length)
    }

    fn lies_in_body(&self) -> bool {
        row_index(self.row).is_some() && (1..=COLUMNS).contains(&usize::from(self.length)) && self.end() <= COLUMNS
    }

    fn meets(&self, other: &Field) -> bool {
        self.row == other.row && usize::from(self.column.max(other.column)) < self.end().min(other.end())
    }

    fn takes_account(&self) -> bool {
        self.kind == FieldKind::Digits && self.length == ACCOUNT_DIGITS
    }
}

impl Frame {
    pub fn blank() -> Frame {
        Frame {
            title: [SPACE; TITLE],
            body: [[SPACE; COLUMNS]; ROWS],
            kind: Kind::Information,
            routes: [None; 10],
            price: 0,
            group: 0,
            fields: Vec::new(),
        }
    }

    /// A frame that is blank but for row 2.
    pub fn of_row(row: Row) -> Frame {
        let mut frame = Frame::blank();
        frame.body[0] = row;
        frame
    }

    /// Adds a field after the others, of which there are at most eight.
    pub fn add_field(&mut self, field: Field) -> Result<(), FrameError> {
        if self.fields.len() == FIELDS {
            return Err(FrameError::Shape);
        }
        self.fields.push(field);
        Ok(())
    }

    /// Whether the frame is valid, or the first error.
    pub fn check(&self) -> Result<(), FrameError> {
        if !self.title.is_ascii() || !self.body.as_flattened().is_ascii() {
            return Err(FrameError::Cell);
        }
        if self.price > LAST_PRICE {
            return Err(FrameError::Price);
        }
        if !self.fields.iter().all(Field::lies_in_body) {
            return Err(FrameError::FieldRange);
        }
        let mut pairs = self.fields.iter().enumerate();
        if pairs.any(|(at, field)| self.fields[at + 1..].iter().any(|other| field.meets(other))) {
            return Err(FrameError::FieldsMeet);
        }
        self.has_shape().then_some(()).ok_or(FrameError::Shape)
    }

    /// Whether the fields are those of the frame's kind.
    fn has_shape(&self) -> bool {
        match (self.kind, self.fields.as_slice()) {
            (Kind::Information, fields) => fields.is_empty(),
            (Kind::Response, fields) => !fields.is_empty(),
            (Kind::Mail, []) => false,
            (Kind::Mail, [account, texts @ ..]) => {
                let are_texts = texts.iter().all(|text| text.kind == FieldKind::Words);
                account.takes_account() && (1..=6).contains(&texts.len()) && are_texts
            }
        }
    }
}

/// The index in a body of the row that has this number on the screen.
pub fn row_index(row: u8) -> Option<usize> {
    row.checked_sub(FIRST_ROW).map(usize::from).filter(|index| *index < ROWS)
}

impl Format for Field {
    fn put(&self, out: &mut Vec<u8>) {
        put!(out, self.row, self.column, self.length, self.kind as u8);
    }

    fn read(from: &mut Reader) -> Option<Field> {
        let [row, column, length, kind] = Format::read(from)?;
        let kind = match kind {
            0 => FieldKind::Digits,
            1 => FieldKind::Words,
            _ => return None,
        };
        Some(Field { row, column, length, kind })
    }
}

impl Format for Kind {
    fn put(&self, out: &mut Vec<u8>) {
        (*self as u8).put(out);
    }

    fn read(from: &mut Reader) -> Option<Kind> {
        match u8::read(from)? {
            0 => Some(Kind::Information),
            1 => Some(Kind::Response),
            2 => Some(Kind::Mail),
            _ => None,
        }
    }
}

impl Format for Frame {
    fn put(&self, out: &mut Vec<u8>) {
        put!(out, VERSION, self.title);
        out.extend_from_slice(self.body.as_flattened());
        self.kind.put(out);
        self.routes.iter().for_each(|route| route.map_or(NO_ROUTE, Page::number).put(out));
        put!(out, self.price as u8, self.group, self.fields);
    }

    fn read(from: &mut Reader) -> Option<Frame> {
        u8::read(from).filter(|version| *version == VERSION)?;
        let frame = Frame {
            title: Format::read(from)?,
            body: read_body(from)?,
            kind: Kind::read(from)?,
            routes: read_routes(from)?,
            price: u8::read(from)?.into(),
            group: u16::read(from)?,
            fields: Vec::read(from).filter(|fields| fields.len() <= FIELDS)?,
        };
        frame.check().is_ok().then_some(frame)
    }
}

fn read_body(from: &mut Reader) -> Option<[Row; ROWS]> {
    let (rows, _) = from.array::<{ ROWS * COLUMNS }>()?.as_chunks();
    rows.try_into().ok()
}

fn read_routes(from: &mut Reader) -> Option<[Option<Page>; 10]> {
    let mut routes = [None; 10];
    for route in &mut routes {
        *route = match u32::read(from)? {
            NO_ROUTE => None,
            page => Some(Page::new(page)?),
        };
    }
    Some(routes)
}
