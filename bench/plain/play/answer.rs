//! The answers of a transcript.

use super::calls::{Called, Turn};
use super::cells::push_notation;
use super::item::Charge;
use super::links::{Arrival, Way};
use super::network::Outcome;
use super::seat::Why;
use std::io::{Result, Write};

/// Appends the line or lines of an outcome. A screen is painted first, into a buffer.
pub fn push_answer(outcome: &Outcome, painted: &mut Vec<u8>, out: &mut Vec<u8>) -> Result<()> {
    match outcome {
        Outcome::Reply(reply) => writeln!(out, "{reply}"),
        Outcome::Called(called) => push_called(called, painted, out),
        Outcome::Sent { way: Way::Down, index, number } => writeln!(out, "sent {index} record {number}"),
        Outcome::Sent { way: Way::Up, index, number } => writeln!(out, "sent {index} item {number}"),
        Outcome::Idle => writeln!(out, "idle"),
        Outcome::PacketsFull => writeln!(out, "packets full"),
        Outcome::NoPacket => writeln!(out, "no packet"),
        Outcome::Arrived { arrival, number, ack } => push_arrival(*arrival, *number, *ack, out),
        Outcome::Heard(number) => writeln!(out, "heard {number}"),
        Outcome::Full(count) => writeln!(out, "full {count}"),
        Outcome::Carried { records, items } => writeln!(out, "carried {records} {items}"),
        Outcome::Crashed(count) => writeln!(out, "crashed {count}"),
        Outcome::Clock(moment) => writeln!(out, "clock {moment}"),
        Outcome::NotHeld => writeln!(out, "-"),
        Outcome::Applied(count) => writeln!(out, "applied {count}"),
        Outcome::Records(count) => writeln!(out, "records {count}"),
        Outcome::Charges(charges) => push_charges(charges, out),
    }
}

fn push_called(called: &Called, painted: &mut Vec<u8>, out: &mut Vec<u8>) -> Result<()> {
    match called {
        Called::Shown(turn) => push_turn(turn, painted, out),
        Called::Turns(turns) => turns.iter().try_for_each(|turn| push_turn(turn, painted, out)),
        Called::Full(count, turn) => {
            writeln!(out, "full {count}")?;
            push_turn(turn, painted, out)
        }
        Called::Quiet => writeln!(out, "quiet"),
        Called::Owes => writeln!(out, "owes"),
        Called::Owing => writeln!(out, "owing"),
        Called::Stored => writeln!(out, "stored"),
        Called::Nothing => writeln!(out, "nothing"),
        Called::Busy => writeln!(out, "busy"),
        Called::Hung => writeln!(out, "hung"),
        Called::NoCall => writeln!(out, "no call"),
    }
}

fn push_turn(turn: &Turn, painted: &mut Vec<u8>, out: &mut Vec<u8>) -> Result<()> {
    painted.clear();
    turn.screen.paint(painted);
    out.extend_from_slice(b"screen ");
    push_notation(painted, out);
    out.push(b'\n');
    match turn.ended {
        None => Ok(()),
        Some(Why::Finished) => writeln!(out, "ended finished"),
        Some(Why::Refused) => writeln!(out, "ended refused"),
        Some(Why::Spent) => writeln!(out, "ended spent"),
        Some(Why::Full) => writeln!(out, "ended full"),
    }
}

fn push_arrival(arrival: Arrival, number: u64, ack: Option<usize>, out: &mut Vec<u8>) -> Result<()> {
    let word = match arrival {
        Arrival::Taken => "taken",
        Arrival::Old => "old",
        Arrival::Early => "early",
    };
    match ack {
        Some(ack) => writeln!(out, "{word} {number} ack {ack}"),
        None => writeln!(out, "{word} {number} ack -"),
    }
}

fn push_charges(charges: &[(u8, Charge)], out: &mut Vec<u8>) -> Result<()> {
    for (centre, charge) in charges {
        let Charge { serial, number, name, price, moment, .. } = charge;
        writeln!(out, "line {centre} {serial} {number} {name} {price} {moment}")?;
    }
    let sum: u64 = charges.iter().map(|(_, charge)| u64::from(charge.price)).sum();
    writeln!(out, "sum {sum}")
}
