//! Records: what the Update Centre stores, what goes down of it, and what a centre stores.

use super::account::{Account, read_centre};
use super::bytes::{Format, Reader, put};
use super::frame::Frame;
use super::item::Item;
use super::names::{AccountNo, Name, Page};
use std::rc::Rc;

/// What an editor asks for.
#[derive(Clone)]
pub enum Wish {
    Put(Name, Rc<Frame>),
    Drop(Name),
    Account(Account),
    Lease(Page, AccountNo),
}

/// An editor's wish, under his own number of it.
#[derive(Clone)]
pub struct Edit {
    pub editor: AccountNo,
    pub number: u32,
    pub wish: Wish,
}

/// An item that was taken up from a centre, and how many of that centre were before.
#[derive(Clone)]
pub struct Taken {
    pub centre: u8,
    pub place: u64,
    pub item: Item,
}

/// What the Update Centre stores.
#[derive(Clone)]
pub enum Record {
    Edit(Edit),
    Taken(Taken),
}

/// What a centre gets of a record.
#[derive(Clone)]
pub enum Down {
    Whole(Record),
    Blank,
}

/// What a centre stores.
pub enum CentreRecord {
    /// A record of the edit list came down, with its place there.
    Applied(u64, Down),
    LogOn(AccountNo),
    Kept(Item),
    /// The letter of a number was taken out of an account's box.
    Removed(AccountNo, u64),
}

impl Record {
    /// What goes down of it: nothing of charges and forms, and else all.
    pub fn down(&self) -> Down {
        match self {
            Record::Taken(Taken { item: Item::Charge(_) | Item::Reply(_), .. }) => Down::Blank,
            _ => Down::Whole(self.clone()),
        }
    }

    fn read_after(tag: u8, from: &mut Reader) -> Option<Record> {
        match tag {
            1..=4 => Edit::read_after(tag, from).map(Record::Edit),
            5 => Taken::read(from).map(Record::Taken),
            _ => None,
        }
    }
}

impl Edit {
    fn tag(&self) -> u8 {
        match self.wish {
            Wish::Put(..) => 1,
            Wish::Drop(_) => 2,
            Wish::Account(_) => 3,
            Wish::Lease(..) => 4,
        }
    }

    fn put(&self, out: &mut Vec<u8>) {
        put!(out, self.tag(), self.editor, self.number);
        match &self.wish {
            Wish::Put(name, frame) => put!(out, name, frame),
            Wish::Drop(name) => name.put(out),
            Wish::Account(account) => account.put(out),
            Wish::Lease(root, account) => put!(out, root, account),
        }
    }

    fn read_after(tag: u8, from: &mut Reader) -> Option<Edit> {
        let editor = AccountNo::read(from)?;
        let number = u32::read(from)?;
        let wish = match tag {
            1 => Wish::Put(Name::read(from)?, Rc::new(Frame::read(from)?)),
            2 => Wish::Drop(Name::read(from)?),
            3 => Wish::Account(Account::read(from)?),
            _ => Wish::Lease(Page::read(from)?, AccountNo::read(from)?),
        };
        Some(Edit { editor, number, wish })
    }
}

impl Format for Taken {
    fn put(&self, out: &mut Vec<u8>) {
        put!(out, self.centre, self.place, self.item);
    }

    fn read(from: &mut Reader) -> Option<Taken> {
        Some(Taken { centre: read_centre(from)?, place: u64::read(from)?, item: Item::read(from)? })
    }
}

impl Format for Record {
    fn put(&self, out: &mut Vec<u8>) {
        match self {
            Record::Edit(edit) => edit.put(out),
            Record::Taken(taken) => put!(out, 5u8, taken),
        }
    }

    fn read(from: &mut Reader) -> Option<Record> {
        let tag = u8::read(from)?;
        Record::read_after(tag, from)
    }
}

impl Format for Down {
    fn put(&self, out: &mut Vec<u8>) {
        match self {
            Down::Whole(record) => record.put(out),
            Down::Blank => 6u8.put(out),
        }
    }

    fn read(from: &mut Reader) -> Option<Down> {
        match u8::read(from)? {
            6 => Some(Down::Blank),
            tag => Record::read_after(tag, from).map(Down::Whole),
        }
    }
}

impl Format for CentreRecord {
    fn put(&self, out: &mut Vec<u8>) {
        match self {
            CentreRecord::Applied(place, down) => put!(out, 1u8, place, down),
            CentreRecord::LogOn(account) => put!(out, 2u8, account),
            CentreRecord::Kept(item) => put!(out, 3u8, item),
            CentreRecord::Removed(account, letter) => put!(out, 4u8, account, letter),
        }
    }

    fn read(from: &mut Reader) -> Option<CentreRecord> {
        match u8::read(from)? {
            1 => Some(CentreRecord::Applied(u64::read(from)?, Down::read(from)?)),
            2 => AccountNo::read(from).map(CentreRecord::LogOn),
            3 => Item::read(from).map(CentreRecord::Kept),
            4 => Some(CentreRecord::Removed(AccountNo::read(from)?, u64::read(from)?)),
            _ => None,
        }
    }
}
