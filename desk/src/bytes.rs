//! The bench's input: a version byte, then records, length first (document 01,
//! "Network description" and "The bench"), written and read.

use crate::stand::{Address, Cable, End, Event, Gauge, Head, Stand};

const VERSION: u8 = 1;
const HEAD: u8 = 1;
const GAUGE: u8 = 2;
const CABLE: u8 = 3;
const SEND: u8 = 4;
const TAKE: u8 = 5;
const SET: u8 = 6;

/// What one input holds, description and events together.
pub const MOST: usize = 60_000;

/// Bytes of the length in front of each record.
const LENGTH: usize = 2;

fn put(bytes: &mut Vec<u8>, kind: u8, fields: &[&[u8]]) {
    let length: usize = 1 + fields.iter().map(|field| field.len()).sum::<usize>();
    bytes.extend((length as u16).to_be_bytes());
    bytes.push(kind);
    for field in fields {
        bytes.extend(*field);
    }
}

/// Only a stand of more than 256 heads, gauges or cables has larger numbers, and the
/// reader refuses that before it comes to them.
fn byte(number: usize) -> u8 {
    u8::try_from(number).unwrap_or(u8::MAX)
}

fn end(end: End) -> [u8; 2] {
    [byte(end.head), end.port]
}

/// A description, and where in it each record ends.
pub struct Description {
    pub bytes: Vec<u8>,
    pub ends: Vec<usize>,
}

impl Description {
    fn put(&mut self, kind: u8, fields: &[&[u8]]) {
        put(&mut self.bytes, kind, fields);
        self.ends.push(self.bytes.len());
    }
}

pub fn description(stand: &Stand) -> Description {
    let mut description = Description { bytes: vec![VERSION], ends: Vec::new() };
    for Head { ports, hops, salt, .. } in &stand.heads {
        description.put(HEAD, &[&[*ports, *hops], &salt.to_be_bytes()]);
    }
    for Gauge { at, address, .. } in &stand.gauges {
        description.put(GAUGE, &[&end(*at), &address.0]);
    }
    for Cable { ends: [first, second], .. } in &stand.cables {
        description.put(CABLE, &[&end(*first), &end(*second)]);
    }
    description
}

pub fn put_event(bytes: &mut Vec<u8>, event: Event) {
    match event {
        Event::Send { gauge, to } => put(bytes, SEND, &[&[byte(gauge)], &to.0]),
        Event::Take { place } => put(bytes, TAKE, &[&place.to_be_bytes()]),
        Event::Set { cable, state } => put(bytes, SET, &[&[byte(cable), state]]),
    }
}

/// How many bytes the event is in an input.
pub fn size(event: Event) -> usize {
    let mut bytes = Vec::new();
    put_event(&mut bytes, event);
    bytes.len()
}

/// What the records of an input say, without names or lines.
#[derive(Default, PartialEq, Debug)]
pub struct Records {
    pub heads: Vec<(u8, u8, u32)>,
    pub gauges: Vec<(End, Address)>,
    pub cables: Vec<[End; 2]>,
    pub events: Vec<Event>,
}

/// Takes an input apart; None where its form isn't an input's. Whether the bench
/// accepts it is asked of the proved program.
pub fn records(input: &[u8]) -> Option<Records> {
    let mut records = Records::default();
    let mut rest = input.strip_prefix(&[VERSION])?;
    while !rest.is_empty() {
        let (length, behind) = rest.split_first_chunk::<LENGTH>()?;
        let length = usize::from(u16::from_be_bytes(*length));
        if length > behind.len() {
            return None;
        }
        let (record, behind) = behind.split_at(length);
        records.add(record)?;
        rest = behind;
    }
    Some(records)
}

impl Records {
    fn add(&mut self, record: &[u8]) -> Option<()> {
        match *record {
            [HEAD, ports, hops, a, b, c, d] => {
                self.heads.push((ports, hops, u32::from_be_bytes([a, b, c, d])));
            }
            [GAUGE, head, port, a, b, c, d, e, f] => {
                self.gauges.push((at(head, port), Address([a, b, c, d, e, f])));
            }
            [CABLE, a, b, c, d] => self.cables.push([at(a, b), at(c, d)]),
            [SEND, gauge, a, b, c, d, e, f] => {
                let (gauge, to) = (usize::from(gauge), Address([a, b, c, d, e, f]));
                self.events.push(Event::Send { gauge, to });
            }
            [TAKE, high, low] => {
                self.events.push(Event::Take { place: u16::from_be_bytes([high, low]) });
            }
            [SET, cable, state] => {
                self.events.push(Event::Set { cable: usize::from(cable), state });
            }
            _ => return None,
        }
        Some(())
    }
}

fn at(head: u8, port: u8) -> End {
    End { head: usize::from(head), port }
}
