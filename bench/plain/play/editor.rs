//! An editor's seat: his lines, the frame that he makes, and the replies.

use super::account::{Account, CENTRES, Groups, Password};
use super::base::Base;
use super::cells::{Row, cells_of};
use super::frame::{Field, FieldKind, Frame, Kind, TITLE, row_index};
use super::item::Reply;
use super::names::{AccountNo, Name, Page};
use super::record::{Edit, Wish};
use super::refusal::Refusal;
use super::words::{Words, number};
use std::fmt;
use std::rc::Rc;

const LONGEST_LINE: usize = 512;

/// What a line of an editor says.
enum Line {
    LogOn(AccountNo, Password),
    New(Name),
    Open(Name),
    Change(Change),
    Store(u32),
    Ask(u32, Wish),
    Last,
    Responses(u64),
    Quit,
}

/// A change of the frame that he makes.
enum Change {
    Title([u8; TITLE]),
    Row(usize, Row),
    Kind(Kind),
    Route(usize, Option<Page>),
    Price(u16),
    Group(u16),
    Field(Field),
    NoFields,
}

/// What is done with a line.
pub enum LineStep {
    Say(EditorReply),
    Ask(Edit),
    /// A search for forms that were filled in for this editor, from a place on.
    Search(AccountNo, u64),
    Close,
}

pub enum EditorReply {
    Done,
    Number(u64),
    Refused(Refusal),
    Response(u64, Reply),
    NoResponse,
    Bye,
}

/// Nobody or an account is logged on, and makes a frame or none.
#[derive(Default)]
pub struct EditorSeat {
    account: Option<AccountNo>,
    working: Option<(Name, Frame)>,
}

impl EditorSeat {
    /// Takes a line, with what the Update Centre has.
    pub fn line(&mut self, text: &[u8], base: &Base) -> LineStep {
        let step = match Line::of_text(text) {
            Some(line) => self.take(line, base),
            None => Err(Refusal::BadLine),
        };
        step.unwrap_or_else(|refusal| LineStep::Say(EditorReply::Refused(refusal)))
    }

    fn take(&mut self, line: Line, base: &Base) -> Result<LineStep, Refusal> {
        match line {
            Line::LogOn(account, password) => self.log_on(account, password, base),
            Line::Quit => Ok(LineStep::Close),
            line => self.take_of(self.account.ok_or(Refusal::LogOnFirst)?, line, base),
        }
    }

    /// Takes a line of the editor who is logged on.
    fn take_of(&mut self, editor: AccountNo, line: Line, base: &Base) -> Result<LineStep, Refusal> {
        match line {
            Line::New(name) => self.working = Some((name, Frame::blank())),
            Line::Open(name) => self.working = Some((name, open(editor, name, base)?)),
            Line::Change(change) => {
                let (_, frame) = self.working.as_mut().ok_or(Refusal::NothingOpen)?;
                change.make(frame)?;
            }
            Line::Store(number) => {
                let (name, frame) = self.working.as_ref().ok_or(Refusal::NothingOpen)?;
                let wish = Wish::Put(*name, Rc::new(frame.clone()));
                return Ok(LineStep::Ask(Edit { editor, number, wish }));
            }
            Line::Ask(number, wish) => return Ok(LineStep::Ask(Edit { editor, number, wish })),
            Line::Last => {
                let last = base.last(editor).map_or(0, |(number, _)| number);
                return Ok(LineStep::Say(EditorReply::Number(last.into())));
            }
            Line::Responses(from) => return Ok(LineStep::Search(editor, from)),
            Line::LogOn(..) | Line::Quit => {}
        }
        Ok(LineStep::Say(EditorReply::Done))
    }

    fn log_on(&mut self, account: AccountNo, password: Password, base: &Base) -> Result<LineStep, Refusal> {
        let known = base.account(account).filter(|account| account.has_password(password));
        self.account = Some(known.ok_or(Refusal::NotKnown)?.number);
        self.working = None;
        Ok(LineStep::Say(EditorReply::Done))
    }
}

/// The stored frame of a name, if its page is the editor's.
fn open(editor: AccountNo, name: Name, base: &Base) -> Result<Frame, Refusal> {
    if base.owner(name.page) != editor {
        return Err(Refusal::NotOwner);
    }
    base.frame(name).map(|frame| Frame::clone(frame)).ok_or(Refusal::NoFrame)
}

impl Change {
    fn make(self, frame: &mut Frame) -> Result<(), Refusal> {
        match self {
            Change::Title(cells) => frame.title = cells,
            Change::Row(index, cells) => frame.body[index] = cells,
            Change::Kind(kind) => frame.kind = kind,
            Change::Route(digit, page) => frame.routes[digit] = page,
            Change::Price(price) => frame.price = price,
            Change::Group(group) => frame.group = group,
            Change::Field(field) => frame.add_field(field).map_err(Refusal::BadFrame)?,
            Change::NoFields => frame.fields.clear(),
        }
        Ok(())
    }

    /// The change that a word and the words after it ask for.
    fn of_words(word: &[u8], words: &mut Words) -> Option<Change> {
        Some(match word {
            b"TITLE" => Change::Title(cells_of(words.tail().unwrap_or(b""))?),
            b"ROW" => Change::Row(row_index(words.number()?)?, cells_of(words.tail().unwrap_or(b""))?),
            b"KIND" => Change::Kind(words.read(kind_of)?),
            b"ROUTE" => Change::Route(words.below(10)?, words.read_or_dash(Page::of_text)?),
            b"PRICE" => Change::Price(words.number()?),
            b"GROUP" => Change::Group(words.number()?),
            b"FIELD" => match words.tail()? {
                b"-" => Change::NoFields,
                field => Change::Field(Words::all(field, field_of)?),
            },
            _ => return None,
        })
    }
}

impl Line {
    fn of_text(text: &[u8]) -> Option<Line> {
        let is_too_long = text.len() > LONGEST_LINE;
        Words::all(text, Line::of_words).filter(|_| !is_too_long)
    }

    fn of_words(words: &mut Words) -> Option<Line> {
        Some(match words.word()? {
            b"LOGON" => Line::LogOn(words.read(AccountNo::of_text)?, words.read(Password::of_text)?),
            b"NEW" => Line::New(words.read(Name::of_text)?),
            b"OPEN" => Line::Open(words.read(Name::of_text)?),
            b"STORE" => Line::Store(words.number()?),
            b"DROP" => Line::Ask(words.number()?, Wish::Drop(words.read(Name::of_text)?)),
            b"LEASE" => {
                let number = words.number()?;
                Line::Ask(number, Wish::Lease(words.read(Page::of_text)?, words.read(AccountNo::of_text)?))
            }
            b"ACCOUNT" => Line::Ask(words.number()?, Wish::Account(account_of(words)?)),
            b"LAST" => Line::Last,
            b"RESPONSES" => Line::Responses(words.number()?),
            b"QUIT" => Line::Quit,
            word => Line::Change(Change::of_words(word, words)?),
        })
    }
}

fn account_of(words: &mut Words) -> Option<Account> {
    let number = words.read(AccountNo::of_text)?;
    let password = words.read(Password::of_text)?;
    let home = words.below(CENTRES)? as u8;
    let groups = words.read_or_dash(groups_of)?.unwrap_or(Groups::none());
    Some(Account::new(number, password, home, groups))
}

fn groups_of(text: &[u8]) -> Option<Groups> {
    Groups::of_list(text.split(|byte| *byte == b',').map(number).collect::<Option<_>>()?)
}

fn kind_of(text: &[u8]) -> Option<Kind> {
    match text {
        b"I" => Some(Kind::Information),
        b"R" => Some(Kind::Response),
        b"M" => Some(Kind::Mail),
        _ => None,
    }
}

fn field_of(words: &mut Words) -> Option<Field> {
    let (row, column, length) = (words.number()?, words.number()?, words.number()?);
    Some(Field { row, column, length, kind: words.read(field_kind_of)? })
}

fn field_kind_of(text: &[u8]) -> Option<FieldKind> {
    match text {
        b"D" => Some(FieldKind::Digits),
        b"T" => Some(FieldKind::Words),
        _ => None,
    }
}

impl fmt::Display for EditorReply {
    fn fmt(&self, f: &mut fmt::Formatter) -> fmt::Result {
        match self {
            EditorReply::Done => write!(f, "OK"),
            EditorReply::Number(number) => write!(f, "OK {number}"),
            EditorReply::Refused(refusal) => write!(f, "NO {refusal}"),
            EditorReply::Response(place, reply) => {
                let fields: Vec<&str> = reply.fields.iter().map(|field| field.text()).collect();
                write!(f, "OK {place} {} {} {}", reply.name, reply.account, fields.join("|"))
            }
            EditorReply::NoResponse => write!(f, "OK -"),
            EditorReply::Bye => write!(f, "BYE"),
        }
    }
}
