//! What a list of records means: frames, accounts, leases and editors' numbers.

use super::account::Account;
use super::frame::Frame;
use super::names::{AccountNo, Name, Page};
use super::node::Limits;
use super::record::{Edit, Record, Wish};
use std::collections::HashMap;
use std::rc::Rc;

pub const ACCOUNTS: usize = 1000;
pub const LEASES: usize = 1000;

pub struct Base {
    limits: Limits,
    frames: HashMap<Name, Rc<Frame>>,
    accounts: HashMap<AccountNo, Account>,
    leases: HashMap<Page, AccountNo>,
    /// Each editor's last number, and the place of that edit.
    last: HashMap<AccountNo, (u32, u64)>,
}

impl Base {
    pub fn new(limits: Limits) -> Base {
        Base {
            limits,
            frames: HashMap::new(),
            accounts: HashMap::from([(AccountNo::OPERATOR, Account::operator())]),
            leases: HashMap::new(),
            last: HashMap::new(),
        }
    }

    pub fn limits(&self) -> Limits {
        self.limits
    }

    pub fn frame(&self, name: Name) -> Option<&Rc<Frame>> {
        self.frames.get(&name)
    }

    pub fn account(&self, number: AccountNo) -> Option<&Account> {
        self.accounts.get(&number)
    }

    /// Whose a page is: that of the longest leased root of it, or else the operator's.
    pub fn owner(&self, page: Page) -> AccountNo {
        if self.leases.is_empty() {
            return AccountNo::OPERATOR;
        }
        page.roots().find_map(|root| self.leases.get(&root)).copied().unwrap_or(AccountNo::OPERATOR)
    }

    /// An editor's last number, and the place of that edit.
    pub fn last(&self, editor: AccountNo) -> Option<(u32, u64)> {
        self.last.get(&editor).copied()
    }

    pub fn frame_fits(&self, name: Name) -> bool {
        self.frames.len() < self.limits.frames || self.frames.contains_key(&name)
    }

    pub fn account_fits(&self, number: AccountNo) -> bool {
        self.accounts.len() < ACCOUNTS || self.accounts.contains_key(&number)
    }

    pub fn lease_fits(&self, root: Page) -> bool {
        self.leases.len() < LEASES || self.leases.contains_key(&root)
    }

    /// Whether there is room for a record, and its editor is an account.
    pub fn has_room(&self, record: &Record) -> bool {
        let Record::Edit(edit) = record else {
            return true;
        };
        let fits = match &edit.wish {
            Wish::Put(name, _) => self.frame_fits(*name),
            Wish::Drop(_) => true,
            Wish::Account(account) => self.account_fits(account.number),
            Wish::Lease(root, _) => self.lease_fits(*root),
        };
        fits && self.accounts.contains_key(&edit.editor)
    }

    /// Takes in an edit, which has this place.
    pub fn absorb(&mut self, edit: &Edit, place: u64) {
        self.last.insert(edit.editor, (edit.number, place));
        match &edit.wish {
            Wish::Put(name, frame) => {
                self.frames.insert(*name, Rc::clone(frame));
            }
            Wish::Drop(name) => {
                self.frames.remove(name);
            }
            Wish::Account(account) => {
                self.accounts.insert(account.number, account.clone());
            }
            Wish::Lease(root, account) => {
                self.leases.insert(*root, *account);
            }
        }
    }
}
