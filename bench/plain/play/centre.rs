//! A retrieval centre: what it knows of the edit list, and what it stores for callers.

use super::account::Account;
use super::base::Base;
use super::frame::Frame;
use super::item::{Item, Mail};
use super::names::{AccountNo, Name};
use super::node::{Limits, State};
use super::record::{CentreRecord, Down, Record, Taken};
use std::collections::{HashMap, VecDeque};
use std::rc::Rc;

/// How many letters wait for an account at most.
const WAITING: usize = 20;

/// A letter that waits. Its number is the place of its record.
#[derive(Clone)]
pub struct Letter {
    pub number: u64,
    pub mail: Rc<Mail>,
}

pub struct CentreState {
    number: u8,
    base: Base,
    applied: u64,
    items: Vec<Item>,
    log_ons: u64,
    boxes: HashMap<AccountNo, VecDeque<Letter>>,
}

impl CentreState {
    pub fn new(number: u8, limits: Limits) -> CentreState {
        CentreState {
            number,
            base: Base::new(limits),
            applied: 0,
            items: Vec::new(),
            log_ons: 0,
            boxes: HashMap::new(),
        }
    }

    pub fn base(&self) -> &Base {
        &self.base
    }

    /// How many records of the edit list were applied.
    pub fn applied(&self) -> u64 {
        self.applied
    }

    pub fn items(&self) -> &[Item] {
        &self.items
    }

    /// How many callers have logged on: the serial of the next call.
    pub fn log_ons(&self) -> u64 {
        self.log_ons
    }

    /// Whether there is room for what came down.
    pub fn fits(&self, down: &Down) -> bool {
        match down {
            Down::Whole(record) => self.base.has_room(record),
            Down::Blank => true,
        }
    }

    /// An account whose home is this centre.
    pub fn account(&self, number: AccountNo) -> Option<&Account> {
        self.base.account(number).filter(|account| account.home == self.number)
    }

    /// A frame that is open to a caller of this account.
    pub fn open_frame(&self, caller: AccountNo, name: Name) -> Option<&Rc<Frame>> {
        let account = self.account(caller)?;
        self.base.frame(name).filter(|frame| frame.group == 0 || account.groups.has(frame.group))
    }

    /// The letter that has waited longest for a caller of this account.
    pub fn letter(&self, caller: AccountNo) -> Option<&Letter> {
        let account = self.account(caller)?;
        self.boxes.get(&account.number)?.front()
    }

    /// Whether the letter of a number waits for an account.
    pub fn waits(&self, account: AccountNo, number: u64) -> bool {
        self.boxes.get(&account).is_some_and(|letters| letters.iter().any(|letter| letter.number == number))
    }

    fn apply(&mut self, down: Down) {
        match down {
            Down::Whole(Record::Edit(edit)) => self.base.absorb(&edit, self.applied),
            Down::Whole(Record::Taken(Taken { item: Item::Mail(mail), .. })) => self.deliver(mail),
            _ => {}
        }
        self.applied += 1;
    }

    /// Puts a letter into its box, if this is the home of its account and fewer than twenty wait.
    fn deliver(&mut self, mail: Rc<Mail>) {
        if self.account(mail.to).is_none() {
            return;
        }
        let letters = self.boxes.entry(mail.to).or_default();
        if letters.len() < WAITING {
            letters.push_back(Letter { number: self.applied, mail });
        }
    }
}

impl State for CentreState {
    type Record = CentreRecord;

    fn fresh(&self) -> CentreState {
        CentreState::new(self.number, self.base.limits())
    }

    fn absorb(&mut self, record: CentreRecord) {
        match record {
            CentreRecord::Applied(_, down) => self.apply(down),
            CentreRecord::LogOn(_) => self.log_ons += 1,
            CentreRecord::Kept(item) => self.items.push(item),
            CentreRecord::Removed(account, number) => {
                if let Some(letters) = self.boxes.get_mut(&account) {
                    letters.retain(|letter| letter.number != number);
                }
            }
        }
    }
}
