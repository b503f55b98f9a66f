//! What `prestel play N` does with a script, as a plain program does it: to be measured beside the proved program, once
//! the transcripts were compared.
//!
//! It does the same work. The Update Centre judges each edit. A record is encoded and stored in a journal: the body is
//! written and synced, then its gate. A disk is in memory, and is there twice: as written and as synced. Packets are
//! bytes, which the receiver decodes and checks. Editors and callers have seats. A charge is stored before its frame is
//! shown, screens are painted as bytes, and a node that crashes is opened again from its disk.
//!
//! It has no `cut`, and so its disks keep no images of the calls before. It has no `gen` and no `evening`. A centre keeps
//! what the records that it applied mean, and no list of them; a frame in memory is shared and not copied. Memory grows
//! as it is needed, and is not reserved at the start. If there is no more, the program is ended.
//!
//! ```text
//! rustc --edition 2024 -O -o play bench/plain/play.rs
//! ./play N < SCRIPT
//! ```

mod play {
    mod account;
    mod answer;
    mod base;
    mod bytes;
    mod calls;
    mod cells;
    mod centre;
    mod editor;
    mod frame;
    mod item;
    mod journal;
    mod keys;
    mod links;
    mod names;
    mod network;
    mod node;
    mod record;
    mod refusal;
    mod screen;
    pub mod script;
    mod seat;
    mod sha256;
    mod update;
    mod words;
}

use play::script::{Stop, play};
use std::io::{Read, stdin, stdout};
use std::process::ExitCode;

const LONGEST: usize = 1 << 20;

fn main() -> ExitCode {
    let Some(centres @ 1..=4) = std::env::args().nth(1).and_then(|count| count.parse().ok()) else {
        return end(2, "usage: play N < SCRIPT");
    };
    let mut script = Vec::new();
    match stdin().lock().take(LONGEST as u64 + 1).read_to_end(&mut script) {
        Ok(size) if size <= LONGEST => {}
        Ok(_) => return end(7, "the script is too long"),
        Err(error) => return end(4, &error.to_string()),
    }
    match play(centres, &script, &mut stdout().lock()) {
        Ok(()) => ExitCode::SUCCESS,
        Err(Stop::BadLine(number)) => end(3, &format!("line {number}: not a valid command")),
        Err(Stop::Write(error)) => end(5, &error.to_string()),
    }
}

/// Says why the program ends, and ends it with a status.
fn end(status: u8, words: &str) -> ExitCode {
    eprintln!("play: {words}");
    ExitCode::from(status)
}
