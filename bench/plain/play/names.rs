//! The numbers of pages, accounts and moments, and the names of frames.

use super::bytes::{Format, Reader, put};
use super::words::number;
use std::fmt;

const LAST_PAGE: u32 = 999_999_999;
const LAST_ACCOUNT: u64 = 9_999_999_999;
/// The end of the year 2099.
const LAST_MOMENT: u32 = 4_102_444_799;

/// The number of a page, of one to nine digits.
#[derive(Clone, Copy, PartialEq, Eq, Hash)]
pub struct Page(u32);

/// The number of an account, which is written in ten digits.
#[derive(Clone, Copy, PartialEq, Eq, Hash)]
pub struct AccountNo(u64);

/// A moment in seconds since 1970.
#[derive(Clone, Copy)]
pub struct Moment(u32);

/// The name of a frame: its page, and a letter `a` to `z`.
#[derive(Clone, Copy, PartialEq, Eq, Hash)]
pub struct Name {
    pub page: Page,
    letter: u8,
}

/// A number that is at most the last of its kind.
macro_rules! bounded {
    ($($name:ident($number:ty) to $last:ident;)*) => {
        $(impl $name {
            pub fn new(number: $number) -> Option<$name> {
                (number <= $last).then_some($name(number))
            }
        }

        impl Format for $name {
            fn put(&self, out: &mut Vec<u8>) {
                self.0.put(out);
            }

            fn read(from: &mut Reader) -> Option<$name> {
                $name::new(Format::read(from)?)
            }
        })*
    };
}

bounded! {
    Page(u32) to LAST_PAGE;
    AccountNo(u64) to LAST_ACCOUNT;
    Moment(u32) to LAST_MOMENT;
}

impl Page {
    pub const MAIN_INDEX: Page = Page(0);

    pub fn of_text(text: &[u8]) -> Option<Page> {
        Page::new(number(text)?)
    }

    pub fn number(self) -> u32 {
        self.0
    }

    /// The page with one digit more.
    pub fn with_digit(self, digit: u8) -> Option<Page> {
        Page::new(self.0.checked_mul(10)? + u32::from(digit))
    }

    /// This page, then the page without its last digit, and so on.
    pub fn roots(self) -> impl Iterator<Item = Page> {
        std::iter::successors(Some(self), |page| (page.0 >= 10).then_some(Page(page.0 / 10)))
    }
}

impl AccountNo {
    pub const OPERATOR: AccountNo = AccountNo(0);

    pub fn of_text(text: &[u8]) -> Option<AccountNo> {
        let is_whole = text.len() == 10 && text.iter().all(u8::is_ascii_digit);
        is_whole.then(|| AccountNo(text.iter().fold(0, |sum, digit| sum * 10 + u64::from(digit - b'0'))))
    }
}

impl Moment {
    pub const FIRST: Moment = Moment(0);
}

impl Name {
    pub fn of_text(text: &[u8]) -> Option<Name> {
        let (&letter, digits) = text.split_last()?;
        Name::new(Page::of_text(digits)?, letter)
    }

    fn new(page: Page, letter: u8) -> Option<Name> {
        letter.is_ascii_lowercase().then_some(Name { page, letter })
    }

    pub fn first_of(page: Page) -> Name {
        Name { page, letter: b'a' }
    }

    /// The next frame of the page.
    pub fn next(self) -> Option<Name> {
        Name::new(self.page, self.letter + 1)
    }
}

impl Format for Name {
    fn put(&self, out: &mut Vec<u8>) {
        put!(out, self.page, self.letter);
    }

    fn read(from: &mut Reader) -> Option<Name> {
        Name::new(Page::read(from)?, u8::read(from)?)
    }
}

impl fmt::Display for AccountNo {
    fn fmt(&self, f: &mut fmt::Formatter) -> fmt::Result {
        write!(f, "{:010}", self.0)
    }
}

impl fmt::Display for Moment {
    fn fmt(&self, f: &mut fmt::Formatter) -> fmt::Result {
        self.0.fmt(f)
    }
}

impl fmt::Display for Name {
    fn fmt(&self, f: &mut fmt::Formatter) -> fmt::Result {
        write!(f, "{}{}", self.page.0, char::from(self.letter))
    }
}
