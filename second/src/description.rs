//! The network description: a version byte, then records with their length
//! first. The reader and the writer hold each record against the same rules.

use crate::frame::{address_bytes, address_from, is_group, ADDRESSES};
use crate::refusal::{self, Refusal};

pub const INPUT_MAX: usize = 60_000;
pub const VERSION: u8 = 1;
pub const SWITCHES_MAX: usize = 16;
pub const HOSTS_MAX: usize = 32;
pub const LINKS_MAX: usize = 64;
pub const PORTS_MAX: u8 = 8;
pub const HOPS_MAX: u8 = 62;

pub const SWITCH: u8 = 1;
pub const HOST: u8 = 2;
pub const LINK: u8 = 3;
/// Kinds of the events that may follow a description.
pub const EVENT_KINDS: std::ops::RangeInclusive<u8> = 4..=6;

#[derive(Clone, Copy, PartialEq, Eq, Debug, Default)]
pub struct SwitchRecord {
    pub ports: u8,
    /// 0 stands for the default and is kept as 0.
    pub hops: u8,
    pub salt: u32,
}

/// A port of a switch. Compared switch first.
#[derive(Clone, Copy, PartialEq, Eq, PartialOrd, Ord, Debug, Default)]
pub struct End {
    pub switch: u8,
    pub port: u8,
}

#[derive(Clone, Copy, PartialEq, Eq, Debug, Default)]
pub struct HostRecord {
    pub end: End,
    pub address: u64,
}

#[derive(Clone, Copy, PartialEq, Eq, Debug, Default)]
pub struct LinkRecord {
    pub ends: [End; 2],
}

/// Arrays with counts. What lies behind a count is not part of the network.
#[derive(Clone, PartialEq, Eq, Debug)]
pub struct Network {
    pub switch_count: u8,
    pub host_count: u8,
    pub link_count: u8,
    pub switches: [SwitchRecord; SWITCHES_MAX],
    pub hosts: [HostRecord; HOSTS_MAX],
    pub links: [LinkRecord; LINKS_MAX],
}

impl Network {
    pub fn empty() -> Network {
        Network {
            switch_count: 0,
            host_count: 0,
            link_count: 0,
            switches: [SwitchRecord::default(); SWITCHES_MAX],
            hosts: [HostRecord::default(); HOSTS_MAX],
            links: [LinkRecord::default(); LINKS_MAX],
        }
    }

    // A count may be beyond its array, so these stop at the array's end.
    pub fn switches(&self) -> &[SwitchRecord] {
        &self.switches[..SWITCHES_MAX.min(self.switch_count.into())]
    }

    pub fn hosts(&self) -> &[HostRecord] {
        &self.hosts[..HOSTS_MAX.min(self.host_count.into())]
    }

    pub fn links(&self) -> &[LinkRecord] {
        &self.links[..LINKS_MAX.min(self.link_count.into())]
    }

    fn has_port(&self, end: End) -> bool {
        let switch = self.switches().get(usize::from(end.switch));
        switch.is_some_and(|switch| end.port < switch.ports)
    }

    fn is_taken(&self, end: End) -> bool {
        self.hosts().iter().any(|host| host.end == end)
            || self.links().iter().any(|link| link.ends.contains(&end))
    }

    // Each of the three below checks one record against those before it, in
    // the order 25, 26, 22, 23, 24, and appends it.

    fn admit_switch(&mut self, record: SwitchRecord) -> Result<(), Refusal> {
        let count = usize::from(self.switch_count);
        if count == SWITCHES_MAX {
            return Err(refusal::TOO_MANY);
        }
        if self.host_count > 0 || self.link_count > 0 {
            return Err(refusal::ORDER);
        }
        if !(1..=PORTS_MAX).contains(&record.ports) || record.hops > HOPS_MAX {
            return Err(refusal::RANGE);
        }
        self.switches[count] = record;
        self.switch_count += 1;
        Ok(())
    }

    fn admit_host(&mut self, record: HostRecord) -> Result<(), Refusal> {
        let count = usize::from(self.host_count);
        if count == HOSTS_MAX {
            return Err(refusal::TOO_MANY);
        }
        let ascends = self.hosts().last().is_none_or(|last| last.end < record.end);
        if self.link_count > 0 || !ascends {
            return Err(refusal::ORDER);
        }
        if !self.has_port(record.end) || record.address >= ADDRESSES {
            return Err(refusal::RANGE);
        }
        // No 23 here: hosts ascend strictly and stand before all links.
        let twice = self.hosts().iter().any(|host| host.address == record.address);
        if record.address == 0 || is_group(record.address) || twice {
            return Err(refusal::ADDRESS);
        }
        self.hosts[count] = record;
        self.host_count += 1;
        Ok(())
    }

    fn admit_link(&mut self, record: LinkRecord) -> Result<(), Refusal> {
        let count = usize::from(self.link_count);
        if count == LINKS_MAX {
            return Err(refusal::TOO_MANY);
        }
        let [first, second] = record.ends;
        let ascends = self.links().last().is_none_or(|last| last.ends[0] < first);
        if first >= second || !ascends {
            return Err(refusal::ORDER);
        }
        if !self.has_port(first) || !self.has_port(second) {
            return Err(refusal::RANGE);
        }
        if self.is_taken(first) || self.is_taken(second) {
            return Err(refusal::PORT_TAKEN);
        }
        self.links[count] = record;
        self.link_count += 1;
        Ok(())
    }

    /// The records of this network's description, checked as the reader does.
    /// A count beyond its array is refused at the first record too many, so
    /// what is handed in for a record behind the array doesn't matter.
    pub fn check(&self) -> Result<(), Refusal> {
        let mut seen = Network::empty();
        for i in 0..usize::from(self.switch_count) {
            seen.admit_switch(self.switches.get(i).copied().unwrap_or_default())?;
        }
        for i in 0..usize::from(self.host_count) {
            seen.admit_host(self.hosts.get(i).copied().unwrap_or_default())?;
        }
        for i in 0..usize::from(self.link_count) {
            seen.admit_link(self.links.get(i).copied().unwrap_or_default())?;
        }
        Ok(())
    }
}

/// A record's frame: its length and kind. The body may be cut short.
pub struct Record<'a> {
    pub length: usize,
    pub kind: u8,
    /// What follows the kind byte, if all of it is there.
    pub body: Option<&'a [u8]>,
    /// Where the next record starts, if all of this one is there.
    pub next: usize,
}

impl Record<'_> {
    /// The record has this length, and all of it is there.
    pub fn is_whole(&self, length: usize) -> bool {
        self.length == length && self.body.is_some()
    }
}

/// The record at a place before the input's end. A record is seen once its
/// two length bytes and its kind byte are there; length 0 has no kind byte.
pub fn record_at(input: &[u8], at: usize) -> Result<Record<'_>, Refusal> {
    let rest = &input[at..];
    if rest.len() < 3 {
        return Err(refusal::RECORD);
    }
    let length = usize::from(u16::from_be_bytes([rest[0], rest[1]]));
    if length == 0 {
        return Err(refusal::RECORD);
    }
    Ok(Record { length, kind: rest[2], body: rest.get(3..2 + length), next: at + 2 + length })
}

/// Reads a description. Gives the network and where the description ended.
pub fn read(input: &[u8]) -> Result<(Network, usize), Refusal> {
    if input.len() > INPUT_MAX {
        return Err(refusal::TOO_MANY);
    }
    if input.first() != Some(&VERSION) {
        return Err(refusal::VERSION);
    }
    let mut network = Network::empty();
    let mut at = 1;
    while at < input.len() {
        let record = record_at(input, at)?;
        match record.kind {
            SWITCH if record.is_whole(7) => {
                let body = record.body.unwrap_or_default();
                network.admit_switch(SwitchRecord {
                    ports: body[0],
                    hops: body[1],
                    salt: u32::from_be_bytes([body[2], body[3], body[4], body[5]]),
                })?;
            }
            HOST if record.is_whole(9) => {
                let body = record.body.unwrap_or_default();
                network.admit_host(HostRecord {
                    end: End { switch: body[0], port: body[1] },
                    address: address_from(&body[2..]),
                })?;
            }
            LINK if record.is_whole(5) => {
                let body = record.body.unwrap_or_default();
                let first = End { switch: body[0], port: body[1] };
                let second = End { switch: body[2], port: body[3] };
                network.admit_link(LinkRecord { ends: [first, second] })?;
            }
            kind if EVENT_KINDS.contains(&kind) => return Ok((network, at)),
            _ => return Err(refusal::RECORD),
        }
        at = record.next;
    }
    Ok((network, input.len()))
}

/// Writes a description at the output's start. Gives its length.
pub fn write(network: &Network, out: &mut [u8]) -> Result<usize, Refusal> {
    network.check()?;
    let mut bytes = vec![VERSION];
    for switch in network.switches() {
        bytes.extend([0, 7, SWITCH, switch.ports, switch.hops]);
        bytes.extend(switch.salt.to_be_bytes());
    }
    for host in network.hosts() {
        bytes.extend([0, 9, HOST, host.end.switch, host.end.port]);
        bytes.extend(address_bytes(host.address));
    }
    for link in network.links() {
        let [first, second] = link.ends;
        bytes.extend([0, 5, LINK, first.switch, first.port, second.switch, second.port]);
    }
    if out.len() < bytes.len() {
        return Err(refusal::DESCRIPTION_OUTPUT_SHORT);
    }
    out[..bytes.len()].copy_from_slice(&bytes);
    Ok(bytes.len())
}
