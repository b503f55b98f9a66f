//! The lines of a script, and a play of them.

use super::answer::push_answer;
use super::calls::PORTS;
use super::cells::{cells_of, first_byte};
use super::links::Way;
use super::names::{AccountNo, Moment, Name};
use super::network::{EDITORS, Event, Network, NodeName, Port};
use super::node::Limits;
use super::words::{Words, number};
use std::io::{self, Write};

const FRAMES: usize = 2_000;
const RECORDS: u64 = 10_000;
const MOST_FRAMES: usize = 20_000;
const MOST_RECORDS: u64 = 50_000;
/// How many bytes of answers are written at once.
const PIECE: usize = 1 << 15;

/// Why a play did not go to its end.
pub enum Stop {
    /// The line of this number is none that this program knows.
    BadLine(usize),
    Write(io::Error),
}

impl From<io::Error> for Stop {
    fn from(error: io::Error) -> Stop {
        Stop::Write(error)
    }
}

/// Plays a script on a new network, and writes the transcript.
pub fn play(centres: usize, script: &[u8], out: &mut impl Write) -> Result<(), Stop> {
    let mut network = Network::new(centres, Limits { frames: FRAMES, records: RECORDS });
    let (mut text, mut painted) = (Vec::with_capacity(2 * PIECE), Vec::new());
    let lines = script.strip_suffix(b"\n").unwrap_or(script).split(|byte| *byte == b'\n');
    for (index, line) in lines.enumerate() {
        if let Some(limits) = limits_of(line).filter(|_| index == 0) {
            network = Network::new(centres, limits);
            writeln!(text, "limits {} {}", limits.frames, limits.records)?;
        } else if !line.is_empty() && !line.starts_with(b";") {
            let Some(event) = Words::all(line, |words| event_of(words, centres)) else {
                out.write_all(&text)?;
                return Err(Stop::BadLine(index + 1));
            };
            push_answer(&network.step(event), &mut painted, &mut text)?;
        }
        if text.len() >= PIECE {
            out.write_all(&text)?;
            text.clear();
        }
    }
    out.write_all(&text)?;
    Ok(())
}

fn limits_of(line: &[u8]) -> Option<Limits> {
    Words::all(line.strip_prefix(b"limits ")?, |words| {
        let frames = words.number().filter(|frames| (1..=MOST_FRAMES).contains(frames))?;
        let records = words.number().filter(|records| (1..=MOST_RECORDS).contains(records))?;
        Some(Limits { frames, records })
    })
}

/// What the words of a line let happen in a play of this many centres.
fn event_of<'a>(words: &mut Words<'a>, centres: usize) -> Option<Event<'a>> {
    let centre = |words: &mut Words| words.below(centres);
    Some(match words.word()? {
        b"seed" => Event::Seed(words.read(Name::of_text)?, cells_of(words.tail()?)?),
        b"edit" => Event::Edit(words.below(EDITORS)?, words.tail()?),
        b"send" => Event::Send(Way::Down, centre(words)?),
        b"post" => Event::Send(Way::Up, centre(words)?),
        b"deliver" => Event::Arrive(Way::Down, centre(words)?, words.number()?),
        b"back" => Event::Arrive(Way::Up, centre(words)?, words.number()?),
        b"carry" => Event::Carry(centre(words)?),
        b"crash" => Event::Crash(words.read(|node| node_of(node, centres))?),
        b"clock" => Event::Clock(Moment::new(words.number()?)?),
        b"view" => Event::View(centre(words)?, words.read(Name::of_text)?),
        b"at" => Event::At(centre(words)?),
        b"list" => Event::List,
        b"bill" => Event::Bill(words.read(AccountNo::of_text)?),
        b"lines" => Event::Lines(centre(words)?),
        word => call_of(word, words, centres)?,
    })
}

/// What a caller's line lets happen.
fn call_of<'a>(word: &[u8], words: &mut Words<'a>, centres: usize) -> Option<Event<'a>> {
    let at = Port { centre: words.below(centres)?, port: words.below(PORTS)? };
    Some(match word {
        b"dial" => Event::Dial(at),
        b"press" => match first_byte(words.tail()?)? {
            (key, []) => Event::Press(at, key),
            _ => return None,
        },
        b"keys" => Event::Keys(at, words.tail().filter(|keys| are_keys(keys))?),
        b"store" => Event::Store(at),
        b"show" => Event::Show(at),
        b"hang" => Event::Hang(at),
        _ => return None,
    })
}

fn node_of(text: &[u8], centres: usize) -> Option<NodeName> {
    match text {
        b"u" => Some(NodeName::Update),
        centre => number(centre).filter(|centre| *centre < centres).map(NodeName::Centre),
    }
}

/// Whether a text is the notation of at least one byte.
fn are_keys(text: &[u8]) -> bool {
    let mut rest = text;
    while let Some((_, later)) = first_byte(rest) {
        rest = later;
    }
    rest.is_empty() && !text.is_empty()
}
