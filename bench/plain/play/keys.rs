//! A caller's keys, read into commands.

use super::names::Page;

/// What keys ask for.
pub enum Command {
    Route(u8),
    Next,
    Go(Page),
    Back,
    /// The frame again, as it was fetched.
    Repeat,
    /// The frame as it is now.
    Fresh,
    Mail,
    End,
    Cancel,
    /// Keys that are no command.
    Slip,
}

/// The keys since the last command.
#[derive(Clone, Copy)]
pub enum Keys {
    None,
    Star,
    /// `*` and a number.
    Number(Page),
    /// `*`, a number and `*`.
    Starred,
}

impl Keys {
    /// Takes a byte. Returns the command that it ends, and then no key is kept.
    pub fn take(&mut self, byte: u8) -> Option<Command> {
        let step = match byte {
            b'0'..=b'9' => self.digit(byte - b'0'),
            b'*' => self.star(),
            b'#' | b'_' => Err(self.hash()),
            _ => return None,
        };
        let (keys, command) = match step {
            Ok(keys) => (keys, None),
            Err(command) => (Keys::None, Some(command)),
        };
        *self = keys;
        command
    }

    /// A digit: the keys that are then kept, or the command.
    fn digit(self, digit: u8) -> Result<Keys, Command> {
        match self {
            Keys::None => Err(Command::Route(digit)),
            Keys::Star => Page::MAIN_INDEX.with_digit(digit).map(Keys::Number).ok_or(Command::Slip),
            Keys::Number(Page::MAIN_INDEX) => Err(match digit {
                0 => Command::Repeat,
                9 => Command::Fresh,
                _ => Command::Slip,
            }),
            Keys::Number(page) => page.with_digit(digit).map(Keys::Number).ok_or(Command::Slip),
            Keys::Starred => Err(Command::Slip),
        }
    }

    fn star(self) -> Result<Keys, Command> {
        match self {
            Keys::None => Ok(Keys::Star),
            Keys::Number(_) => Ok(Keys::Starred),
            Keys::Star | Keys::Starred => Err(Command::Cancel),
        }
    }

    fn hash(self) -> Command {
        match self {
            Keys::None => Command::Next,
            Keys::Star => Command::Back,
            Keys::Number(page) => match page.number() {
                90 => Command::End,
                930 => Command::Mail,
                _ => Command::Go(page),
            },
            Keys::Starred => Command::Slip,
        }
    }
}
