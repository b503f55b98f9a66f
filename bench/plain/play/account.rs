//! Accounts and their passwords.

use super::bytes::{Format, Reader, put};
use super::names::AccountNo;
use super::sha256::{Digest, sha256};

/// How many retrieval centres there can be.
pub const CENTRES: usize = 4;
const GROUPS: usize = 32;

/// A password, as typed or keyed.
#[derive(Clone, Copy)]
pub struct Password([u8; 4]);

/// The closed groups of an account: at most 32 numbers from 1 on, rising.
#[derive(Clone)]
pub struct Groups(Vec<u16>);

#[derive(Clone)]
pub struct Account {
    pub number: AccountNo,
    digest: Digest,
    pub home: u8,
    pub groups: Groups,
}

impl Password {
    pub fn of_text(text: &[u8]) -> Option<Password> {
        let password = Password(text.try_into().ok()?);
        text.iter().all(|byte| Password::takes(*byte)).then_some(password)
    }

    pub fn takes(byte: u8) -> bool {
        matches!(byte, b'!'..=b'~') && !matches!(byte, b'*' | b'#' | b'_')
    }

    /// What is kept of a password of this account.
    fn digest(self, number: AccountNo) -> Digest {
        let mut text = number.to_string().into_bytes();
        text.extend_from_slice(&self.0);
        sha256(&text)
    }
}

impl Groups {
    pub fn none() -> Groups {
        Groups(Vec::new())
    }

    /// The groups of a list in any order.
    pub fn of_list(mut list: Vec<u16>) -> Option<Groups> {
        list.sort_unstable();
        Groups::rising(list)
    }

    fn rising(list: Vec<u16>) -> Option<Groups> {
        let is_rising = list.first() != Some(&0) && list.windows(2).all(|pair| pair[0] < pair[1]);
        (is_rising && list.len() <= GROUPS).then_some(Groups(list))
    }

    pub fn has(&self, group: u16) -> bool {
        self.0.contains(&group)
    }
}

impl Account {
    pub fn new(number: AccountNo, password: Password, home: u8, groups: Groups) -> Account {
        Account { number, digest: password.digest(number), home, groups }
    }

    /// The operator, who is there from the first.
    pub fn operator() -> Account {
        Account::new(AccountNo::OPERATOR, Password(*b"0000"), 0, Groups::none())
    }

    pub fn has_password(&self, password: Password) -> bool {
        password.digest(self.number) == self.digest
    }
}

impl Format for Account {
    fn put(&self, out: &mut Vec<u8>) {
        put!(out, self.number, self.digest, self.home, self.groups.0);
    }

    fn read(from: &mut Reader) -> Option<Account> {
        Some(Account {
            number: AccountNo::read(from)?,
            digest: Digest::read(from)?,
            home: read_centre(from)?,
            groups: Groups::rising(Vec::read(from)?)?,
        })
    }
}

/// Reads the number of a centre.
pub fn read_centre(from: &mut Reader) -> Option<u8> {
    u8::read(from).filter(|centre| usize::from(*centre) < CENTRES)
}
