//! An event in words: what was asked, what the head did by the proved program's report,
//! who received, and what is in flight.

use crate::answer::{Report, Stepped};
use crate::refusal;
use crate::stand::{Event, Lined, Stand};

/// What happened at an event. The report is missing where the bench refused it.
pub struct Happened<'a> {
    pub event: Lined<Event>,
    pub report: Option<&'a Report>,
    pub refusal: u8,
    pub in_flight: usize,
}

pub fn sentence(stand: &Stand, happened: &Happened) -> String {
    let asked = asked(stand, happened);
    let Some(report) = happened.report else {
        let (number, words) = (happened.refusal, refusal::words(happened.refusal));
        return format!("{asked}: refused {number}, {words} (line {})", happened.event.line);
    };
    let mut parts = Vec::new();
    parts.extend(report.stepped.map(|stepped| step(stand, report, &stepped)));
    parts.extend(received(stand, report.received));
    parts.extend(some(report.cut, "lost on the cable"));
    parts.extend(some(report.lost, "lost for want of room"));
    if report.overwrote {
        parts.push("a filter record is overwritten".to_string());
    }
    parts.push(format!("{} in flight", copies(happened.in_flight)));
    format!("{asked}: {}", parts.join("; "))
}

fn asked(stand: &Stand, happened: &Happened) -> String {
    match (happened.event.what, happened.report.and_then(|report| report.stepped)) {
        (Event::Send { gauge, to }, _) => {
            format!("gauge {} sends to {}", stand.gauge_name(gauge), stand.address_name(to))
        }
        (Event::Take { place }, Some(stepped)) => {
            let Stepped { head, port, source, destination } = stepped;
            let (from, to) = (stand.address_name(source), stand.address_name(destination));
            let head = stand.head_name(head);
            format!("copy {place} ({from} to {to}) is taken at {head} port {port}")
        }
        (Event::Take { place }, None) => format!("copy {place} is taken"),
        (Event::Set { cable, state }, _) => {
            let cable = stand.cable_name(cable);
            match state {
                0 => format!("cable {cable} is pulled"),
                1 => format!("cable {cable} is plugged"),
                _ => format!("cable {cable} is set to {state}"),
            }
        }
    }
}

/// What the head did, by the verdict's rule (document 01, "One step").
fn step(stand: &Stand, report: &Report, stepped: &Stepped) -> String {
    let head = stand.head_name(stepped.head);
    let to = stand.address_name(stepped.destination);
    let lacks = match stepped.destination.is_group() {
        true => format!("keeps no record of {to}"),
        false => format!("has no way to {to}"),
    };
    let ports = ports(report.mask);
    match report.verdict {
        'X' => format!("head {head} drops it, too many hops"),
        'D' => format!("head {head} drops it, a duplicate"),
        'F' => format!("head {head} floods on {ports}"),
        'N' => format!("head {head} {lacks} and floods on {ports}"),
        'B' => format!("head {head} {lacks}, floods and sends back, on {ports}"),
        'G' => format!("head {head} {lacks} and drops it"),
        'H' => format!("head {head} sends it back on {ports}"),
        'E' => format!("head {head} drops it and forgets {to}"),
        'U' => format!("head {head} sends it on {ports}"),
        verdict => format!("head {head} gives verdict {verdict} on {ports}"),
    }
}

fn ports(mask: u16) -> String {
    let ports = bits(u32::from(mask)).map(|port| port.to_string()).collect::<Vec<_>>();
    match ports.len() {
        0 => "no port".to_string(),
        1 => format!("port {}", ports[0]),
        _ => format!("ports {}", ports.join(", ")),
    }
}

fn received(stand: &Stand, mask: u32) -> Option<String> {
    let names = bits(mask).map(|gauge| stand.gauge_name(gauge)).collect::<Vec<_>>();
    match names.len() {
        0 => None,
        1 => Some(format!("{} receives it", names[0])),
        _ => Some(format!("{} receive it", names.join(", "))),
    }
}

fn bits(mask: u32) -> impl Iterator<Item = usize> {
    (0..32).filter(move |bit| mask >> bit & 1 == 1)
}

fn some(number: usize, what: &str) -> Option<String> {
    (number > 0).then(|| format!("{} {what}", copies(number)))
}

/// "no copies", "one copy", "two copies"; larger numbers in digits.
pub fn copies(number: usize) -> String {
    const SMALL: [&str; 13] = [
        "no", "one", "two", "three", "four", "five", "six", "seven", "eight", "nine", "ten",
        "eleven", "twelve",
    ];
    let noun = if number == 1 { "copy" } else { "copies" };
    match SMALL.get(number) {
        Some(word) => format!("{word} {noun}"),
        None => format!("{number} {noun}"),
    }
}

/// The counters of document 01 by their names.
pub fn counters(values: &[u64]) -> String {
    const NAMES: [&str; 7] =
        ["placed", "taken", "cut", "lost", "delivered", "overwritten", "accepted"];
    let named: Vec<String> =
        NAMES.iter().zip(values).map(|(name, value)| format!("{name} {value}")).collect();
    format!("counters: {}", named.join(", "))
}
