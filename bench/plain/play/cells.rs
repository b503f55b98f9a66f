//! Rows of cells, and their notation.

pub const COLUMNS: usize = 40;
pub const SPACE: u8 = b' ';
const LAST_CELL: u8 = 127;
const BLANK: Row = [SPACE; COLUMNS];

/// The cells of a row of the screen, each of 0 to 127. The first 32 are display attributes.
pub type Row = [u8; COLUMNS];

/// The cells that a text is the notation of, filled up with spaces. `None` if it is none of at most `N` cells.
pub fn cells_of<const N: usize>(text: &[u8]) -> Option<[u8; N]> {
    let (mut cells, mut count, mut rest) = ([SPACE; N], 0, text);
    while !rest.is_empty() {
        let (cell, later) = first_byte(rest)?;
        *cells.get_mut(count)? = Some(cell).filter(|cell| *cell <= LAST_CELL)?;
        (count, rest) = (count + 1, later);
    }
    Some(cells)
}

/// The byte that a notation begins with, and the rest of the text.
pub fn first_byte(text: &[u8]) -> Option<(u8, &[u8])> {
    match text {
        [b'\\', high, low, rest @ ..] => Some((16 * digit(*high)? + digit(*low)?, rest)),
        [byte, rest @ ..] if is_plain(*byte) => Some((*byte, rest)),
        _ => None,
    }
}

/// Appends the notation of bytes: what can be printed as it is, and any other byte as its number.
pub fn push_notation(bytes: &[u8], out: &mut Vec<u8>) {
    let mut rest = bytes;
    while let Some(at) = rest.iter().position(|byte| !is_plain(*byte)) {
        out.extend_from_slice(&rest[..at]);
        out.extend_from_slice(&escape(rest[at]));
        rest = &rest[at + 1..];
    }
    out.extend_from_slice(rest);
}

/// A row without the spaces at its end.
pub fn without_end(row: &Row) -> &[u8] {
    if *row == BLANK {
        return &[];
    }
    let count = row.iter().rposition(|cell| *cell != SPACE).map_or(0, |last| last + 1);
    &row[..count]
}

fn is_plain(byte: u8) -> bool {
    matches!(byte, b' '..=b'~') && byte != b'\\'
}

/// The number of a hexadecimal digit.
fn digit(byte: u8) -> Option<u8> {
    char::from(byte).to_digit(16).map(|digit| digit as u8)
}

fn escape(byte: u8) -> [u8; 3] {
    const DIGITS: &[u8; 16] = b"0123456789abcdef";
    [b'\\', DIGITS[usize::from(byte >> 4)], DIGITS[usize::from(byte & 15)]]
}
