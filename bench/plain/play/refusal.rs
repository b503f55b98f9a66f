//! Why an editor's line is refused.

use super::frame::FrameError;
use std::fmt;

#[derive(Clone, Copy)]
pub enum Refusal {
    LogOnFirst,
    NotOwner,
    /// The editor's next edit has this number.
    NumberWanted(u64),
    NoFrame,
    FramesFull(usize),
    AccountsFull(usize),
    BadFrame(FrameError),
    OperatorOnly,
    LeasesFull(usize),
    NoAccount,
    BadLine,
    NothingOpen,
    NotKnown,
    /// The edit list has this many records.
    Full(u64),
}

impl fmt::Display for Refusal {
    fn fmt(&self, f: &mut fmt::Formatter) -> fmt::Result {
        match self {
            Refusal::LogOnFirst => write!(f, "1 LOG ON FIRST"),
            Refusal::NotOwner => write!(f, "2 NOT OWNER"),
            Refusal::NumberWanted(number) => write!(f, "3 NUMBER {number} WANTED"),
            Refusal::NoFrame => write!(f, "4 NO FRAME"),
            Refusal::FramesFull(count) => write!(f, "5 FRAMES FULL {count}"),
            Refusal::AccountsFull(count) => write!(f, "6 ACCOUNTS FULL {count}"),
            Refusal::BadFrame(error) => write!(f, "7 BAD FRAME {}", *error as u8),
            Refusal::OperatorOnly => write!(f, "8 OPERATOR ONLY"),
            Refusal::LeasesFull(count) => write!(f, "9 LEASES FULL {count}"),
            Refusal::NoAccount => write!(f, "10 NO ACCOUNT"),
            Refusal::BadLine => write!(f, "11 BAD LINE"),
            Refusal::NothingOpen => write!(f, "12 NOTHING OPEN"),
            Refusal::NotKnown => write!(f, "13 NOT KNOWN"),
            Refusal::Full(count) => write!(f, "14 FULL {count}"),
        }
    }
}
