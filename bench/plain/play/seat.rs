//! A caller's seat: the keys that he sends, and the screens that he is sent.

use super::account::Password;
use super::centre::CentreState;
use super::frame::{Field, FieldKind, Frame, Kind};
use super::item::{Charge, Filled, Item, Mail, Reply};
use super::keys::{Command, Keys};
use super::names::{AccountNo, Moment, Name, Page};
use super::record::CentreRecord;
use super::screen::{Message, Screen};
use std::mem;
use std::rc::Rc;

const BYTES: u32 = 1_000_000;
const ENTRIES: u16 = 4096;
const TRIES: u8 = 3;
/// How many frames a caller can go back.
const EARLIER: usize = 3;

/// What a seat asks its centre to store.
pub enum Wish {
    LogOn(AccountNo),
    /// A charge, and the frame that is shown once it is stored.
    Charge(Charge, Rc<Frame>),
    Post(Item),
    Remove(AccountNo, u64),
}

/// Why a call ended.
#[derive(Clone, Copy)]
pub enum Why {
    Finished,
    Refused,
    Spent,
    Full,
}

/// What is done for a caller.
pub enum Step {
    Quiet,
    Show(Screen),
    /// What the seat wishes is to be stored first.
    Owe,
    Ended(Why, Screen),
}

enum Phase {
    Listening,
    Owing(Wish),
    /// What was owed is stored, and is to be shown. A call that logs on has this serial.
    Stored(Wish, u64),
}

/// What a caller is asked for, and what he keyed of it so far.
enum Reading {
    /// Ten digits.
    Account(String),
    Password(Vec<u8>),
    Command(Keys),
    Field(FieldReader),
    /// Whether what he filled in is sent.
    Question,
    /// Whether the letter of this number is deleted.
    Letter(u64),
}

struct FieldReader {
    field: Field,
    /// It is an account's, and takes no `#` before its last cell is filled.
    is_whole: bool,
    keyed: Filled,
}

/// What a caller has keyed, once it is whole.
enum Entry {
    Account(AccountNo),
    Password(Password),
    Command(Command),
    Field(Filled),
    Send,
    Keep,
    Delete(u64),
}

/// The frame that a caller is shown, as it was fetched.
#[derive(Clone)]
struct Present {
    name: Name,
    frame: Rc<Frame>,
}

pub struct Seat {
    phase: Phase,
    reading: Reading,
    failed: u8,
    account: Option<AccountNo>,
    serial: Option<u64>,
    /// How many charge lines the call has.
    lines: u32,
    present: Option<Present>,
    filled: Vec<Filled>,
    earlier: Vec<Name>,
    bytes: u32,
    entries: u16,
}

impl Wish {
    /// What is stored for it. A letter that does not wait needs no record to be removed.
    pub fn record(&self, centre: &CentreState) -> Option<CentreRecord> {
        match self {
            Wish::LogOn(account) => Some(CentreRecord::LogOn(*account)),
            Wish::Charge(charge, _) => Some(CentreRecord::Kept(Item::Charge(*charge))),
            Wish::Post(item) => Some(CentreRecord::Kept(item.clone())),
            Wish::Remove(account, number) => {
                centre.waits(*account, *number).then_some(CentreRecord::Removed(*account, *number))
            }
        }
    }
}

impl Reading {
    fn account() -> Reading {
        Reading::Account(String::new())
    }

    fn command() -> Reading {
        Reading::Command(Keys::None)
    }

    /// Whether a byte leaves what is asked for, and begins a command.
    fn is_left_by(&self, byte: u8) -> bool {
        match self {
            Reading::Account(_) | Reading::Password(_) | Reading::Command(_) => false,
            Reading::Field(_) | Reading::Question => byte == b'*',
            Reading::Letter(_) => byte != b'1',
        }
    }

    /// Takes a byte, and returns the entry that it makes, if it makes one.
    fn take(&mut self, byte: u8) -> Option<Entry> {
        match (self, byte) {
            (Reading::Account(digits), b'0'..=b'9') => {
                digits.push(byte.into());
                AccountNo::of_text(digits.as_bytes()).map(Entry::Account)
            }
            (Reading::Password(keyed), byte) if Password::takes(byte) => {
                keyed.push(byte);
                Password::of_text(keyed).map(Entry::Password)
            }
            (Reading::Command(keys), byte) => keys.take(byte).map(Entry::Command),
            (Reading::Field(field), byte) => field.take(byte).map(Entry::Field),
            (Reading::Question, b'1') => Some(Entry::Send),
            (Reading::Question, b'2') => Some(Entry::Keep),
            (Reading::Letter(number), b'1') => Some(Entry::Delete(*number)),
            _ => None,
        }
    }
}

impl FieldReader {
    fn take(&mut self, byte: u8) -> Option<Filled> {
        let has_room = self.keyed.text().len() < usize::from(self.field.length);
        let fits = match self.field.kind {
            FieldKind::Digits => byte.is_ascii_digit(),
            FieldKind::Words => Filled::takes(byte),
        };
        match byte {
            b'#' | b'_' if self.is_whole && has_room => None,
            b'#' | b'_' => Some(mem::replace(&mut self.keyed, Filled::new())),
            _ => {
                if fits && has_room {
                    self.keyed.push(byte);
                }
                None
            }
        }
    }
}

impl Present {
    /// The reader of a field, if the frame has as many.
    fn field(&self, index: usize) -> Option<Reading> {
        let field = *self.frame.fields.get(index)?;
        let is_whole = self.frame.kind == Kind::Mail && index == 0;
        Some(Reading::Field(FieldReader { field, is_whole, keyed: Filled::new() }))
    }

    fn route(&self, digit: u8) -> Option<Page> {
        self.frame.routes[usize::from(digit)]
    }
}

impl Seat {
    /// A call that begins, and its first screen.
    pub fn dial() -> (Seat, Screen) {
        let seat = Seat {
            phase: Phase::Listening,
            reading: Reading::account(),
            failed: 0,
            account: None,
            serial: None,
            lines: 0,
            present: None,
            filled: Vec::new(),
            earlier: Vec::new(),
            bytes: 0,
            entries: 0,
        };
        (seat, Screen::Alone(Message::KeyAccount))
    }

    /// Whether something is to be stored, or was stored and is to be shown.
    pub fn is_waiting(&self) -> bool {
        !matches!(self.phase, Phase::Listening)
    }

    /// What is to be stored.
    pub fn wish(&self) -> Option<&Wish> {
        match &self.phase {
            Phase::Owing(wish) => Some(wish),
            _ => None,
        }
    }

    /// Notes that what is owed was stored. A call that logs on has this serial.
    pub fn stored(&mut self, serial: u64) {
        self.phase = match mem::replace(&mut self.phase, Phase::Listening) {
            Phase::Owing(wish) => Phase::Stored(wish, serial),
            phase => phase,
        };
    }

    /// Shows what was stored, if something was.
    pub fn show_stored(&mut self) -> Option<Screen> {
        match mem::replace(&mut self.phase, Phase::Listening) {
            Phase::Stored(wish, serial) => Some(self.go_on(wish, serial)),
            phase => {
                self.phase = phase;
                None
            }
        }
    }

    /// The screen with which a full centre turns the caller away.
    pub fn turned_away() -> Screen {
        Screen::Last(Message::PleaseTryLater)
    }

    /// Takes a byte, with what the centre has at this moment.
    pub fn key(&mut self, byte: u8, centre: &CentreState, moment: Moment) -> Step {
        if self.bytes == BYTES || self.entries == ENTRIES {
            return Step::Ended(Why::Spent, Screen::Last(Message::CallEnded));
        }
        self.bytes += 1;
        if self.reading.is_left_by(byte) {
            self.browse();
        }
        match self.reading.take(byte) {
            Some(entry) => {
                self.entries += 1;
                self.enter(entry, centre, moment)
            }
            None => Step::Quiet,
        }
    }

    fn go_on(&mut self, wish: Wish, serial: u64) -> Screen {
        match wish {
            Wish::LogOn(_) => {
                self.serial = Some(serial);
                self.reading = Reading::command();
                Screen::Alone(Message::Welcome)
            }
            Wish::Charge(charge, frame) => {
                self.lines += 1;
                self.show(Present { name: charge.name, frame })
            }
            Wish::Post(_) => self.browse_with(Message::MessageStored),
            Wish::Remove(..) => self.browse_with(Message::MessageRemoved),
        }
    }

    fn enter(&mut self, entry: Entry, centre: &CentreState, moment: Moment) -> Step {
        match entry {
            Entry::Account(account) => {
                self.account = Some(account);
                self.reading = Reading::Password(Vec::new());
                say(Message::KeyPassword)
            }
            Entry::Password(password) => self.log_on(password, centre),
            Entry::Command(command) => self.obey(command, centre, moment),
            Entry::Field(filled) => self.fill(filled),
            Entry::Send => match self.item(moment) {
                Some(item) => self.owe(Wish::Post(item)),
                None => Step::Show(self.browse_with(Message::MessageNotSent)),
            },
            Entry::Keep => Step::Show(self.browse_with(Message::MessageNotSent)),
            Entry::Delete(number) => match self.account {
                Some(account) => self.owe(Wish::Remove(account, number)),
                None => Step::Show(self.browse_with(Message::NoMessages)),
            },
        }
    }

    fn log_on(&mut self, password: Password, centre: &CentreState) -> Step {
        let account = self.account.and_then(|number| centre.account(number));
        if let Some(account) = account.filter(|account| account.has_password(password)) {
            return self.owe(Wish::LogOn(account.number));
        }
        self.failed += 1;
        if self.failed == TRIES {
            return Step::Ended(Why::Refused, Screen::Last(Message::CallRefused));
        }
        self.account = None;
        self.reading = Reading::account();
        say(Message::NotKnown)
    }

    fn owe(&mut self, wish: Wish) -> Step {
        self.phase = Phase::Owing(wish);
        Step::Owe
    }

    /// Asks for a command, and forgets what was filled in.
    fn browse(&mut self) {
        self.reading = Reading::command();
        self.filled.clear();
    }

    fn browse_with(&mut self, message: Message) -> Screen {
        self.browse();
        Screen::Last(message)
    }

    fn obey(&mut self, command: Command, centre: &CentreState, moment: Moment) -> Step {
        match command {
            Command::Route(digit) => match self.present.as_ref().and_then(|present| present.route(digit)) {
                Some(page) => self.go(Name::first_of(page), centre, moment),
                None => say(Message::NoSuchRoute),
            },
            Command::Next => match self.next_name() {
                Some(name) => self.go(name, centre, moment),
                None => say(Message::PageNotAvailable),
            },
            Command::Go(page) => self.go(Name::first_of(page), centre, moment),
            Command::Back => match self.earlier.pop() {
                Some(name) => self.fetch(name, centre, moment),
                None => say(Message::NoPreviousFrame),
            },
            Command::Repeat => Step::Show(match self.present.clone() {
                Some(present) => self.show(present),
                None => Screen::Alone(Message::Welcome),
            }),
            Command::Fresh => match &self.present {
                Some(present) => self.fetch(present.name, centre, moment),
                None => Step::Show(Screen::Alone(Message::Welcome)),
            },
            Command::Mail => self.letter(centre),
            Command::End => Step::Ended(Why::Finished, Screen::Last(Message::CallEnded)),
            Command::Cancel => say(Message::Blank),
            Command::Slip => say(Message::KeysNotUnderstood),
        }
    }

    /// The name of the page's next frame, or that of the main index.
    fn next_name(&self) -> Option<Name> {
        match &self.present {
            Some(present) => present.name.next(),
            None => Some(Name::first_of(Page::MAIN_INDEX)),
        }
    }

    fn open_frame(&self, name: Name, centre: &CentreState) -> Option<Present> {
        let frame = centre.open_frame(self.account?, name)?;
        Some(Present { name, frame: Rc::clone(frame) })
    }

    /// Shows a frame from which the caller can go back to the present one.
    fn go(&mut self, name: Name, centre: &CentreState, moment: Moment) -> Step {
        let Some(found) = self.open_frame(name, centre) else {
            return say(Message::PageNotAvailable);
        };
        if let Some(present) = &self.present {
            if self.earlier.len() == EARLIER {
                self.earlier.remove(0);
            }
            self.earlier.push(present.name);
        }
        self.found(found, moment)
    }

    fn fetch(&mut self, name: Name, centre: &CentreState, moment: Moment) -> Step {
        match self.open_frame(name, centre) {
            Some(found) => self.found(found, moment),
            None => say(Message::PageNotAvailable),
        }
    }

    /// Shows a frame, if it is free. A priced one is charged first.
    fn found(&mut self, found: Present, moment: Moment) -> Step {
        let Present { name, frame } = found;
        let price = frame.price;
        if price == 0 {
            return Step::Show(self.show(Present { name, frame }));
        }
        let (Some(serial), Some(account)) = (self.serial, self.account) else {
            return say(Message::PageNotAvailable);
        };
        let charge = Charge { serial, number: self.lines, account, name, price, moment };
        self.owe(Wish::Charge(charge, frame))
    }

    /// Makes a frame the present one. Its first field, if it has one, is to be filled in.
    fn show(&mut self, present: Present) -> Screen {
        self.browse();
        if let Some(reading) = present.field(0) {
            self.reading = reading;
        }
        let screen = Screen::Frame(present.name, Rc::clone(&present.frame));
        self.present = Some(present);
        screen
    }

    fn letter(&mut self, centre: &CentreState) -> Step {
        match self.account.and_then(|account| centre.letter(account)) {
            Some(letter) => {
                self.reading = Reading::Letter(letter.number);
                Step::Show(Screen::Letter(letter.clone()))
            }
            None => say(Message::NoMessages),
        }
    }

    /// Keeps what was keyed into a field. After the last one the caller is asked whether to send.
    fn fill(&mut self, filled: Filled) -> Step {
        self.filled.push(filled);
        match self.present.as_ref().and_then(|present| present.field(self.filled.len())) {
            Some(reading) => {
                self.reading = reading;
                Step::Quiet
            }
            None => {
                self.reading = Reading::Question;
                say(Message::KeyToSend)
            }
        }
    }

    /// What was filled in, as it is sent.
    fn item(&mut self, moment: Moment) -> Option<Item> {
        let account = self.account?;
        let Present { name, frame } = self.present.as_ref()?;
        match frame.kind {
            Kind::Information => None,
            Kind::Response => {
                let fields = mem::take(&mut self.filled);
                Some(Item::Reply(Reply { account, name: *name, moment, fields }))
            }
            Kind::Mail => Some(Item::Mail(Rc::new(Mail::of_fields(account, moment, &self.filled)?))),
        }
    }
}

fn say(message: Message) -> Step {
    Step::Show(Screen::Last(message))
}
