//! What a caller is sent, and the bytes that make his terminal show it.

use super::cells::{COLUMNS, Row, SPACE, without_end};
use super::centre::Letter;
use super::frame::{Frame, TITLE};
use super::item::LETTER_ROWS;
use super::names::Name;
use std::io::Write;
use std::rc::Rc;

const UP: u8 = 0x0b;
const CLEAR: u8 = 0x0c;
const ESCAPE: u8 = 0x1b;
const HOME: u8 = 0x1e;
const ROW_END: &[u8] = b"\r\n";
/// The rows above the last one.
const ROWS: usize = 23;
const NAME_COLUMN: usize = 25;
const PRICE_COLUMN: usize = 36;

/// What the last row says.
#[derive(Clone, Copy)]
pub enum Message {
    KeyAccount,
    KeyPassword,
    NotKnown,
    CallRefused,
    Welcome,
    PageNotAvailable,
    NoSuchRoute,
    NoPreviousFrame,
    KeysNotUnderstood,
    Blank,
    CallEnded,
    PleaseTryLater,
    KeyToSend,
    MessageStored,
    MessageNotSent,
    NoMessages,
    MessageRemoved,
    KeyToDelete,
}

pub enum Screen {
    Frame(Name, Rc<Frame>),
    Letter(Letter),
    /// A message on a blank screen.
    Alone(Message),
    /// A message in the last row. The others stay as they are.
    Last(Message),
}

impl Message {
    fn words(self) -> &'static str {
        match self {
            Message::KeyAccount => "KEY YOUR ACCOUNT NUMBER",
            Message::KeyPassword => "KEY YOUR PASSWORD",
            Message::NotKnown => "NOT KNOWN. KEY YOUR ACCOUNT NUMBER",
            Message::CallRefused => "CALL REFUSED",
            Message::Welcome => "WELCOME",
            Message::PageNotAvailable => "PAGE NOT AVAILABLE",
            Message::NoSuchRoute => "NO SUCH ROUTE",
            Message::NoPreviousFrame => "NO PREVIOUS FRAME",
            Message::KeysNotUnderstood => "KEYS NOT UNDERSTOOD",
            Message::Blank => "",
            Message::CallEnded => "CALL ENDED",
            Message::PleaseTryLater => "PLEASE TRY LATER",
            Message::KeyToSend => "KEY 1 TO SEND, 2 NOT TO SEND",
            Message::MessageStored => "MESSAGE STORED",
            Message::MessageNotSent => "MESSAGE NOT SENT",
            Message::NoMessages => "NO MESSAGES WAITING",
            Message::MessageRemoved => "MESSAGE REMOVED",
            Message::KeyToDelete => "KEY 1 TO DELETE",
        }
    }
}

impl Screen {
    /// Appends the bytes that show it.
    pub fn paint(&self, out: &mut Vec<u8>) {
        match self {
            Screen::Frame(name, frame) => paint_frame(frame, *name, out),
            Screen::Letter(letter) => paint_letter(letter, out),
            Screen::Alone(message) => {
                out.push(CLEAR);
                end_rows(ROWS, out);
                out.extend_from_slice(message.words().as_bytes());
            }
            Screen::Last(message) => {
                out.extend_from_slice(&[HOME, UP]);
                out.extend_from_slice(&row_of(message.words()));
            }
        }
    }
}

fn paint_frame(frame: &Frame, name: Name, out: &mut Vec<u8>) {
    out.push(CLEAR);
    paint_row(&heading(frame, name), out);
    frame.body.iter().for_each(|row| paint_row(row, out));
}

fn paint_letter(letter: &Letter, out: &mut Vec<u8>) {
    out.push(CLEAR);
    let mut heading = row_of("MAIL");
    put(&mut heading[NAME_COLUMN..], format_args!("{}", letter.mail.sender));
    paint_row(&heading, out);
    end_rows(1, out);
    letter.mail.text.iter().for_each(|row| paint_row(row, out));
    end_rows(ROWS - 2 - LETTER_ROWS, out);
    out.extend_from_slice(Message::KeyToDelete.words().as_bytes());
}

/// The first row of a frame: its title, its name, and its price at the right.
fn heading(frame: &Frame, name: Name) -> Row {
    let mut row = [SPACE; COLUMNS];
    row[..TITLE].copy_from_slice(&frame.title);
    put(&mut row[NAME_COLUMN..], format_args!("{name}"));
    if frame.price > 0 {
        put(&mut row[PRICE_COLUMN..], format_args!("{:>3}p", frame.price));
    }
    row
}

/// Writes words at the left, which fit.
fn put(mut cells: &mut [u8], words: std::fmt::Arguments) {
    cells.write_fmt(words).expect("the words fit their row");
}

fn row_of(words: &str) -> Row {
    let mut row = [SPACE; COLUMNS];
    row[..words.len()].copy_from_slice(words.as_bytes());
    row
}

/// Appends the bytes that show a row above the last one.
fn paint_row(row: &Row, out: &mut Vec<u8>) {
    let cells = without_end(row);
    if cells.iter().all(|cell| *cell >= SPACE) {
        out.extend_from_slice(cells);
    } else {
        cells.iter().for_each(|cell| paint_cell(*cell, out));
    }
    if cells.len() < COLUMNS {
        out.extend_from_slice(ROW_END);
    }
}

/// Appends the bytes that show this many blank rows.
fn end_rows(count: usize, out: &mut Vec<u8>) {
    (0..count).for_each(|_| out.extend_from_slice(ROW_END));
}

fn paint_cell(cell: u8, out: &mut Vec<u8>) {
    if cell < SPACE {
        out.extend_from_slice(&[ESCAPE, cell + 64]);
    } else {
        out.push(cell);
    }
}
