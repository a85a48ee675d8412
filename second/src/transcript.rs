//! The bench program: reads a description followed by events, and prints a
//! line for each event.

use crate::bench::{Bench, Counters, Event, Report};
use crate::description::{read, record_at};
use crate::refusal::Refusal;
use std::fmt::Write;

/// How an input ended.
pub enum Ending {
    /// The description was refused.
    Refused(Refusal),
    /// All events were read.
    Done(Box<Bench>, Counters),
    /// A bad event record ended the run.
    Stopped(Box<Bench>, Counters),
}

/// An event and what the bench answered.
pub struct Moment<'a> {
    pub number: u64,
    pub event: Event,
    pub answer: Result<Report, Refusal>,
    pub bench: &'a Bench,
}

/// Runs a whole input and shows each event.
pub fn play(input: &[u8], show: &mut dyn FnMut(&Moment)) -> Ending {
    let fresh = read(input).and_then(|(network, end)| Ok((Bench::fresh(&network)?, end)));
    let (mut bench, mut at) = match fresh {
        Ok(fresh) => fresh,
        Err(refusal) => return Ending::Refused(refusal),
    };
    let mut counters = Counters::default();
    let mut number = 0;
    while at < input.len() {
        let Some((event, next)) = event_at(input, at) else {
            return Ending::Stopped(bench, counters);
        };
        number += 1;
        let answer = bench.event(&mut counters, event);
        show(&Moment { number, event, answer, bench: &bench });
        at = next;
    }
    Ending::Done(bench, counters)
}

/// The event record at a place before the input's end, and where the next one
/// starts. Nothing for a bad record (20); kinds 1 to 3 are unknown here.
pub fn event_at(input: &[u8], at: usize) -> Option<(Event, usize)> {
    let record = record_at(input, at).ok()?;
    let body = record.body?;
    let event = match (record.kind, record.length) {
        (4, 8) => Event::Host { host: body[0], destination: body[1..7].try_into().ok()? },
        (5, 3) => Event::Take { place: u16::from_be_bytes([body[0], body[1]]) },
        (6, 3) => Event::Link { link: body[0], state: body[1] },
        _ => return None,
    };
    Some((event, record.next))
}

impl Event {
    pub fn letter(self) -> char {
        match self {
            Event::Host { .. } => 'I',
            Event::Take { .. } => 'T',
            Event::Link { .. } => 'K',
        }
    }

    /// The record that `event_at` reads.
    pub fn record(self) -> Vec<u8> {
        match self {
            Event::Host { host, destination } => [&[0, 8, 4, host], &destination[..]].concat(),
            Event::Take { place } => [[0, 3, 5].as_slice(), &place.to_be_bytes()].concat(),
            Event::Link { link, state } => vec![0, 3, 6, link, state],
        }
    }
}

/// Number, letter, refusal or 0, verdict, hosts that received, copies in
/// flight.
pub fn line(moment: &Moment) -> String {
    let letter = moment.event.letter();
    let (refusal, verdict, hosts) = match &moment.answer {
        Ok(report) => (0, report.letter(), report.hosts),
        Err(refusal) => (refusal.0, 'R', 0),
    };
    let in_flight = moment.bench.copy_count;
    format!("{} {letter} {refusal} {verdict} {hosts:08x} {in_flight}\n", moment.number)
}

/// What the bench program prints for an input.
pub fn print(input: &[u8]) -> String {
    let mut out = String::new();
    let ending = play(input, &mut |moment| out.push_str(&line(moment)));
    match ending {
        Ending::Refused(refusal) => {
            let _ = writeln!(out, "refused {}", refusal.0);
        }
        Ending::Stopped(..) => out.push_str("stop 20\n"),
        Ending::Done(..) => {}
    }
    out
}
