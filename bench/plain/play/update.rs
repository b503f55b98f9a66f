//! The Update Centre: what it knows, and how it judges edits.

use super::account::CENTRES;
use super::base::{ACCOUNTS, Base, LEASES};
use super::item::{Charge, Item, Reply};
use super::names::{AccountNo, Name};
use super::node::{Limits, State};
use super::record::{Edit, Record, Taken, Wish};
use super::refusal::Refusal;
use std::collections::HashMap;

pub struct Update {
    base: Base,
    records: Vec<Record>,
    /// How many items of each centre were taken up.
    taken: [u64; CENTRES],
    /// The places of each account's charge lines.
    charges: HashMap<AccountNo, Vec<usize>>,
}

/// What is done with an edit that is not refused.
pub enum Judgement {
    /// It is to be stored at this place.
    New(u64),
    /// It is the editor's last edit again, which has this place.
    Again(u64),
}

impl Update {
    pub fn new(limits: Limits) -> Update {
        Update { base: Base::new(limits), records: Vec::new(), taken: [0; CENTRES], charges: HashMap::new() }
    }

    pub fn base(&self) -> &Base {
        &self.base
    }

    pub fn record(&self, place: u64) -> Option<&Record> {
        self.records.get(place as usize)
    }

    /// How many items of a centre were taken up.
    pub fn taken(&self, centre: usize) -> u64 {
        self.taken[centre]
    }

    pub fn next_number(&self, editor: AccountNo) -> u64 {
        self.base.last(editor).map_or(1, |(number, _)| u64::from(number) + 1)
    }

    /// The charge lines of an account, each with its centre.
    pub fn charges(&self, account: AccountNo) -> Vec<(u8, Charge)> {
        let places = self.charges.get(&account).map_or(&[][..], Vec::as_slice);
        places.iter().filter_map(|place| charge_in(&self.records[*place])).collect()
    }

    /// The first form at this place or later that was filled in for a page of this editor, with its place.
    pub fn response(&self, editor: AccountNo, from: u64) -> Option<(u64, &Reply)> {
        let places = self.records.iter().enumerate().skip(from.try_into().ok()?);
        let mut replies = places.filter_map(|(place, record)| Some((place as u64, reply_in(record)?)));
        replies.find(|(_, reply)| self.base.owner(reply.name.page) == editor)
    }

    /// Judges an edit. An editor's last number is the same edit again, whatever he asks for.
    pub fn judge(&self, edit: &Edit) -> Result<Judgement, Refusal> {
        check(self.base.account(edit.editor).is_some(), Refusal::LogOnFirst)?;
        if let Some((number, place)) = self.base.last(edit.editor)
            && number == edit.number
        {
            return Ok(Judgement::Again(place));
        }
        self.check_wish(edit)?;
        Ok(Judgement::New(self.records.len() as u64))
    }

    fn check_wish(&self, edit: &Edit) -> Result<(), Refusal> {
        match &edit.wish {
            Wish::Put(name, frame) => {
                self.check_owner(edit.editor, *name)?;
                self.check_number(edit)?;
                let limit = self.base.limits().frames;
                check(self.base.frame_fits(*name), Refusal::FramesFull(limit))?;
                frame.check().map_err(Refusal::BadFrame)
            }
            Wish::Drop(name) => {
                self.check_owner(edit.editor, *name)?;
                self.check_number(edit)?;
                check(self.base.frame(*name).is_some(), Refusal::NoFrame)
            }
            Wish::Account(account) => {
                self.check_number(edit)?;
                check(self.base.account_fits(account.number), Refusal::AccountsFull(ACCOUNTS))?;
                check_operator(edit)
            }
            Wish::Lease(root, account) => {
                self.check_number(edit)?;
                check_operator(edit)?;
                check(self.base.lease_fits(*root), Refusal::LeasesFull(LEASES))?;
                check(self.base.account(*account).is_some(), Refusal::NoAccount)
            }
        }
    }

    fn check_owner(&self, editor: AccountNo, name: Name) -> Result<(), Refusal> {
        check(self.base.owner(name.page) == editor, Refusal::NotOwner)
    }

    fn check_number(&self, edit: &Edit) -> Result<(), Refusal> {
        let wanted = self.next_number(edit.editor);
        check(u64::from(edit.number) == wanted, Refusal::NumberWanted(wanted))
    }
}

impl State for Update {
    type Record = Record;

    fn fresh(&self) -> Update {
        Update::new(self.base.limits())
    }

    fn absorb(&mut self, record: Record) {
        let place = self.records.len();
        match &record {
            Record::Edit(edit) => self.base.absorb(edit, place as u64),
            Record::Taken(taken) => self.taken[usize::from(taken.centre)] += 1,
        }
        if let Some((_, charge)) = charge_in(&record) {
            self.charges.entry(charge.account).or_default().push(place);
        }
        self.records.push(record);
    }
}

fn check(is_so: bool, refusal: Refusal) -> Result<(), Refusal> {
    if is_so { Ok(()) } else { Err(refusal) }
}

fn check_operator(edit: &Edit) -> Result<(), Refusal> {
    check(edit.editor == AccountNo::OPERATOR, Refusal::OperatorOnly)
}

fn charge_in(record: &Record) -> Option<(u8, Charge)> {
    match record {
        Record::Taken(Taken { centre, item: Item::Charge(charge), .. }) => Some((*centre, *charge)),
        _ => None,
    }
}

fn reply_in(record: &Record) -> Option<&Reply> {
    match record {
        Record::Taken(Taken { item: Item::Reply(reply), .. }) => Some(reply),
        _ => None,
    }
}
