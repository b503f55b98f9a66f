//! Values as bytes. Numbers are big-endian.

/// Bytes that are read from the left. Each call returns `None` if there are too few.
pub struct Reader<'a> {
    rest: &'a [u8],
}

impl<'a> Reader<'a> {
    pub fn new(bytes: &'a [u8]) -> Self {
        Reader { rest: bytes }
    }

    pub fn array<const N: usize>(&mut self) -> Option<&'a [u8; N]> {
        let (array, rest) = self.rest.split_first_chunk()?;
        self.rest = rest;
        Some(array)
    }

    pub fn run(&mut self, count: usize) -> Option<&'a [u8]> {
        let (run, rest) = self.rest.split_at_checked(count)?;
        self.rest = rest;
        Some(run)
    }
}

/// A value that has one spelling in bytes.
pub trait Format: Sized {
    /// Appends the spelling.
    fn put(&self, out: &mut Vec<u8>);

    /// Reads a spelling. `None` if the bytes begin with none.
    fn read(from: &mut Reader) -> Option<Self>;

    /// The value that all of the bytes spell.
    fn of_bytes(bytes: &[u8]) -> Option<Self> {
        let mut from = Reader::new(bytes);
        let value = Self::read(&mut from)?;
        from.rest.is_empty().then_some(value)
    }
}

/// Appends the spellings of these, one after another.
macro_rules! put {
    ($out:expr, $($part:expr),+) => {{
        $($part.put($out);)+
    }};
}

pub(super) use put;

macro_rules! format_of_numbers {
    ($($number:ty)*) => {
        $(impl Format for $number {
            fn put(&self, out: &mut Vec<u8>) {
                out.extend_from_slice(&self.to_be_bytes());
            }

            fn read(from: &mut Reader) -> Option<Self> {
                Some(Self::from_be_bytes(*from.array()?))
            }
        })*
    };
}

format_of_numbers!(u8 u16 u32 u64);

impl<const N: usize> Format for [u8; N] {
    fn put(&self, out: &mut Vec<u8>) {
        out.extend_from_slice(self);
    }

    fn read(from: &mut Reader) -> Option<Self> {
        from.array().copied()
    }
}

/// A short list is its length in a byte, and then its values.
impl<T: Format> Format for Vec<T> {
    fn put(&self, out: &mut Vec<u8>) {
        (self.len() as u8).put(out);
        self.iter().for_each(|value| value.put(out));
    }

    fn read(from: &mut Reader) -> Option<Self> {
        let count = u8::read(from)?;
        (0..count).map(|_| T::read(from)).collect()
    }
}
