//! The words of a line, which are separated by exactly one space.

/// What is left of a line; `None` once its last word was taken.
pub struct Words<'a> {
    rest: Option<&'a [u8]>,
}

impl<'a> Words<'a> {
    /// What the words of a line are, if all of them are read.
    pub fn all<T>(line: &'a [u8], read: impl FnOnce(&mut Self) -> Option<T>) -> Option<T> {
        let mut words = Words { rest: Some(line) };
        let value = read(&mut words)?;
        words.rest.is_none().then_some(value)
    }

    /// The next word.
    pub fn word(&mut self) -> Option<&'a [u8]> {
        let rest = self.rest?;
        let Some(space) = rest.iter().position(|byte| *byte == b' ') else {
            return self.tail();
        };
        self.rest = Some(&rest[space + 1..]);
        Some(&rest[..space])
    }

    /// All that follows the space.
    pub fn tail(&mut self) -> Option<&'a [u8]> {
        self.rest.take()
    }

    /// What the next word is.
    pub fn read<T>(&mut self, of_text: impl FnOnce(&[u8]) -> Option<T>) -> Option<T> {
        of_text(self.word()?)
    }

    /// What the next word is, or `None` for a dash.
    pub fn read_or_dash<T>(&mut self, of_text: impl FnOnce(&[u8]) -> Option<T>) -> Option<Option<T>> {
        match self.word()? {
            b"-" => Some(None),
            word => of_text(word).map(Some),
        }
    }

    /// The next word, a number in this type's range.
    pub fn number<N: TryFrom<u64>>(&mut self) -> Option<N> {
        self.read(number)
    }

    /// The next word, a number below this one.
    pub fn below(&mut self, end: usize) -> Option<usize> {
        self.number().filter(|number| *number < end)
    }
}

/// The number that a text writes in decimal, without leading zeros.
pub fn number<N: TryFrom<u64>>(text: &[u8]) -> Option<N> {
    let has_zero = text.len() > 1 && text[0] == b'0';
    if has_zero || !text.iter().all(u8::is_ascii_digit) {
        return None;
    }
    let number: u64 = std::str::from_utf8(text).ok()?.parse().ok()?;
    N::try_from(number).ok()
}
