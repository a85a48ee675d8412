//! A stand as the desk holds it: heads, gauges and cables in the bench's order
//! and numbering, then orders; each with the line of the file that it came from.

use std::fmt;

/// Six bytes, written 02:00:00:00:00:01.
#[derive(Clone, Copy, PartialEq, Eq, Debug)]
pub struct Address(pub [u8; 6]);

impl Address {
    pub const EVERYONE: Address = Address([0xff; 6]);

    /// An address of many, which no head records: the first byte is odd.
    pub fn is_group(self) -> bool {
        self.0[0] & 1 == 1
    }
}

impl fmt::Display for Address {
    fn fmt(&self, f: &mut fmt::Formatter<'_>) -> fmt::Result {
        let [a, b, c, d, e, g] = self.0;
        write!(f, "{a:02x}:{b:02x}:{c:02x}:{d:02x}:{e:02x}:{g:02x}")
    }
}

/// A port of a head, by the head's number.
#[derive(Clone, Copy, PartialEq, Eq, PartialOrd, Ord, Debug)]
pub struct End {
    pub head: usize,
    pub port: u8,
}

#[derive(Clone, PartialEq, Eq, Debug)]
pub struct Head {
    pub name: String,
    pub ports: u8,
    /// 0 is the default, and stays 0.
    pub hops: u8,
    pub salt: u32,
    pub line: usize,
}

#[derive(Clone, PartialEq, Eq, Debug)]
pub struct Gauge {
    pub name: String,
    pub at: End,
    pub address: Address,
    pub line: usize,
}

#[derive(Clone, PartialEq, Eq, Debug)]
pub struct Cable {
    pub name: String,
    pub ends: [End; 2],
    pub line: usize,
}

/// One event of the bench. Numbers may name what isn't there: the bench refuses it.
#[derive(Clone, Copy, PartialEq, Eq, Debug)]
pub enum Event {
    Send { gauge: usize, to: Address },
    Take { place: u16 },
    Set { cable: usize, state: u8 },
}

/// Copies taken until none is in flight: how many, the proved program tells.
#[derive(Clone, Copy, PartialEq, Eq, Debug)]
pub enum Until {
    FirstCome,
    Shuffled { seed: u64 },
}

/// What a line of the file asks for: one event, or takes until nothing is in flight.
#[derive(Clone, Copy, PartialEq, Eq, Debug)]
pub enum Order {
    Once(Event),
    Takes(Until),
}

/// Something and the line of the file that it came from, counted from 1.
#[derive(Clone, Copy, PartialEq, Eq, Debug)]
pub struct Lined<T> {
    pub line: usize,
    pub what: T,
}

#[derive(Clone, PartialEq, Eq, Debug, Default)]
pub struct Stand {
    pub heads: Vec<Head>,
    pub gauges: Vec<Gauge>,
    pub cables: Vec<Cable>,
    pub orders: Vec<Lined<Order>>,
}

impl Stand {
    /// The lines that the description's records came from, in the records' order.
    pub fn record_lines(&self) -> Vec<usize> {
        let heads = self.heads.iter().map(|head| head.line);
        let gauges = self.gauges.iter().map(|gauge| gauge.line);
        heads.chain(gauges).chain(self.cables.iter().map(|cable| cable.line)).collect()
    }

    pub fn head_name(&self, number: usize) -> String {
        self.heads.get(number).map_or(format!("number {number}"), |head| head.name.clone())
    }

    pub fn gauge_name(&self, number: usize) -> String {
        self.gauges.get(number).map_or(format!("number {number}"), |gauge| gauge.name.clone())
    }

    pub fn cable_name(&self, number: usize) -> String {
        self.cables.get(number).map_or(format!("number {number}"), |cable| cable.name.clone())
    }

    /// A gauge's name, "everyone", or the address itself.
    pub fn address_name(&self, address: Address) -> String {
        match self.gauges.iter().find(|gauge| gauge.address == address) {
            Some(gauge) => gauge.name.clone(),
            None if address == Address::EVERYONE => "everyone".to_string(),
            None => address.to_string(),
        }
    }
}
