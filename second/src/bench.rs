//! The network bench: switches, links and the copies in flight between them.

use crate::description::{End, Network, LINKS_MAX, SWITCHES_MAX};
use crate::filter::CELL;
use crate::frame::{address_from, is_source, Header, ADDRESSES, HOP_COUNT_MAX, NONCES};
use crate::refusal::{self, Refusal};
use crate::step::{rules, Outcome, Switch};
use crate::table::Table;

pub const COPIES_MAX: usize = 512;
pub const FILTER_CELLS: usize = 64;
pub const FILTER_BYTES: usize = FILTER_CELLS * CELL;
pub const DEFAULT_HOPS: u8 = 16;
pub const EVENTS_MAX: u64 = 1_000_000;
/// No counter but placed is above this many times accepted.
pub const PORTS_PER_EVENT: u128 = 8;

/// A switch of the bench, with its filter.
#[derive(Clone, PartialEq, Eq, Debug)]
pub struct Seat {
    pub switch: Switch,
    pub filter: [u8; FILTER_BYTES],
}

/// A copy in flight on a link, on its way to one of the link's two ends.
#[derive(Clone, Copy, PartialEq, Eq, Debug, Default)]
pub struct CopyInFlight {
    pub link: u8,
    pub end: u8,
    pub source: u64,
    pub destination: u64,
    pub header: Header,
}

/// Arrays with counts. What lies behind a count is not part of the bench.
#[derive(Clone, PartialEq, Eq, Debug)]
pub struct Bench {
    pub network: Network,
    pub up: [bool; LINKS_MAX],
    pub seats: [Seat; SWITCHES_MAX],
    pub copies: [CopyInFlight; COPIES_MAX],
    pub copy_count: u16,
}

#[derive(Clone, Copy, PartialEq, Eq, Debug, Default)]
pub struct Counters {
    pub placed: u64,
    pub taken: u64,
    pub cut: u64,
    pub lost: u64,
    pub delivered: u64,
    pub overwritten: u64,
    pub accepted: u64,
}

#[derive(Clone, Copy, PartialEq, Eq, Debug)]
pub enum Event {
    /// Kind 4: a host presents a frame.
    Host { host: u8, destination: [u8; 6] },
    /// Kind 5: a copy is taken.
    Take { place: u16 },
    /// Kind 6: a link is set down (0) or up (1).
    Link { link: u8, state: u8 },
}

/// The step that an event made.
#[derive(Clone, Copy, PartialEq, Eq, Debug)]
pub struct Stepped {
    pub switch: u8,
    pub arrival: u8,
    pub source: u64,
    pub destination: u64,
    pub outcome: Outcome,
}

/// What an accepted event answers.
#[derive(Clone, Copy, PartialEq, Eq, Debug, Default)]
pub struct Report {
    /// Nothing for a link event.
    pub stepped: Option<Stepped>,
    pub placed: u64,
    pub lost: u64,
    pub cut: u64,
    /// Hosts that received, host 0 lowest.
    pub hosts: u32,
}

impl Report {
    pub fn letter(&self) -> char {
        self.stepped.map_or('K', |stepped| stepped.outcome.verdict.letter())
    }

    pub fn overwrote(&self) -> bool {
        self.stepped.is_some_and(|stepped| stepped.outcome.overwrote)
    }
}

impl Seat {
    fn empty() -> Seat {
        let table = Table::empty();
        let switch =
            Switch { ports: 0, live: 0, hosts: 0, limit: 0, salt: 0, next_nonce: 0, table };
        Seat { switch, filter: [0; FILTER_BYTES] }
    }
}

impl Counters {
    /// The sums are of unbounded numbers, hence wider than the counters.
    fn is_in_shape(&self, in_flight: u16) -> bool {
        let wide = u128::from;
        let most = PORTS_PER_EVENT * wide(self.accepted);
        wide(self.placed) == wide(self.taken) + wide(self.cut) + wide(in_flight.into())
            && [self.taken, self.cut, self.lost, self.delivered, self.overwritten]
                .iter()
                .all(|&counter| wide(counter) <= most)
    }

    fn count(&mut self, event: Event, report: &Report) {
        self.placed += report.placed;
        self.taken += u64::from(matches!(event, Event::Take { .. }));
        self.cut += report.cut;
        self.lost += report.lost;
        self.delivered += u64::from(report.hosts.count_ones());
        self.overwritten += u64::from(report.overwrote());
        self.accepted += 1;
    }
}

impl Bench {
    /// A bench without a network, as a start for filling in.
    pub fn empty() -> Box<Bench> {
        Box::new(Bench {
            network: Network::empty(),
            up: [false; LINKS_MAX],
            seats: std::array::from_fn(|_| Seat::empty()),
            copies: [CopyInFlight::default(); COPIES_MAX],
            copy_count: 0,
        })
    }

    /// A fresh bench: everything empty, all links up.
    pub fn fresh(network: &Network) -> Result<Box<Bench>, Refusal> {
        network.check()?;
        let mut bench = Bench::empty();
        bench.network = network.clone();
        for up in &mut bench.up[..network.links().len()] {
            *up = true;
        }
        for number in 0..network.switches().len() {
            bench.seats[number].switch = bench.follows(number);
        }
        Ok(bench)
    }

    /// A switch as it follows from description and link states, with nonce 0
    /// and an empty table.
    pub fn follows(&self, number: usize) -> Switch {
        let record = self.network.switches[number];
        let here = |end: End| if usize::from(end.switch) == number { 1 << end.port } else { 0 };
        let mut hosts = 0;
        for host in self.network.hosts() {
            hosts |= here(host.end);
        }
        let mut live = hosts;
        for (link, up) in self.network.links().iter().zip(self.up) {
            if up {
                live |= here(link.ends[0]) | here(link.ends[1]);
            }
        }
        Switch {
            ports: record.ports,
            live,
            hosts,
            limit: if record.hops == 0 { DEFAULT_HOPS } else { record.hops },
            salt: record.salt,
            next_nonce: 0,
            table: Table::empty(),
        }
    }

    pub fn copies(&self) -> &[CopyInFlight] {
        &self.copies[..COPIES_MAX.min(self.copy_count.into())]
    }

    /// Where a copy that is on a link will arrive.
    pub fn arrival(&self, copy: &CopyInFlight) -> End {
        self.network.links[usize::from(copy.link)].ends[usize::from(copy.end)]
    }

    /// Out of shape (28) is a bench for which this is false.
    fn is_in_shape(&self) -> bool {
        self.network.check().is_ok()
            && (0..self.network.switches().len()).all(|number| self.is_seat_in_shape(number))
            && usize::from(self.copy_count) <= COPIES_MAX
            && self.copies().iter().all(|copy| self.is_copy_in_shape(copy))
    }

    fn is_seat_in_shape(&self, number: usize) -> bool {
        let Seat { switch, filter } = &self.seats[number];
        let due = self.follows(number);
        switch.ports == due.ports
            && switch.limit == due.limit
            && switch.salt == due.salt
            && switch.live == due.live
            && switch.hosts == due.hosts
            && switch.is_well_formed(filter)
    }

    fn is_copy_in_shape(&self, copy: &CopyInFlight) -> bool {
        let link = usize::from(copy.link);
        link < self.network.links().len()
            && self.up[link]
            && copy.end <= 1
            && is_source(copy.source)
            && copy.destination != 0
            && copy.destination < ADDRESSES
            && (1..=HOP_COUNT_MAX).contains(&copy.header.hc)
            && copy.header.nonce < NONCES
    }

    /// One event. A refused one leaves bench and counters as they are.
    pub fn event(&mut self, counters: &mut Counters, event: Event) -> Result<Report, Refusal> {
        if counters.accepted >= EVENTS_MAX {
            return Err(refusal::EVENTS_USED_UP);
        }
        if !self.is_in_shape() || !counters.is_in_shape(self.copy_count) {
            return Err(refusal::OUT_OF_SHAPE);
        }
        self.event_in_shape(counters, event)
    }

    /// The same without 34 and 28, for a bench and counters that fewer events
    /// than are allowed have led to from a fresh one: these are in shape.
    pub fn event_in_shape(
        &mut self,
        counters: &mut Counters,
        event: Event,
    ) -> Result<Report, Refusal> {
        let report = match event {
            Event::Host { host, destination } => self.host(host, address_from(&destination))?,
            Event::Take { place } => self.take(place)?,
            Event::Link { link, state } => self.link(link, state)?,
        };
        counters.count(event, &report);
        Ok(report)
    }

    /// Kind 4: the host presents a frame and its switch steps at once.
    fn host(&mut self, host: u8, destination: u64) -> Result<Report, Refusal> {
        let Some(&record) = self.network.hosts().get(usize::from(host)) else {
            return Err(refusal::NO_SUCH_HOST);
        };
        if destination == 0 {
            return Err(refusal::DESTINATION_ZERO);
        }
        Ok(self.step(record.end, record.address, destination, None))
    }

    /// Kind 5: the copy is taken out before its switch steps, so that the
    /// step's first copy may use its room.
    fn take(&mut self, place: u16) -> Result<Report, Refusal> {
        if place >= self.copy_count {
            return Err(refusal::NO_SUCH_COPY);
        }
        let (place, count) = (usize::from(place), usize::from(self.copy_count));
        let copy = self.copies[place];
        self.copies.copy_within(place + 1..count, place);
        self.copies[count - 1] = CopyInFlight::default();
        self.copy_count -= 1;
        Ok(self.step(self.arrival(&copy), copy.source, copy.destination, Some(copy.header)))
    }

    /// Kind 6: a link set down loses the copies on it.
    fn link(&mut self, link: u8, state: u8) -> Result<Report, Refusal> {
        let number = usize::from(link);
        if number >= self.network.links().len() || state > 1 {
            return Err(refusal::LINK_OR_STATE);
        }
        let mut report = Report::default();
        let up = state == 1;
        if self.up[number] == up {
            return Ok(report);
        }
        self.up[number] = up;
        for end in self.network.links[number].ends {
            let live = &mut self.seats[usize::from(end.switch)].switch.live;
            *live ^= 1 << end.port;
        }
        if !up {
            report.cut = self.lose_copies_on(link);
        }
        Ok(report)
    }

    fn lose_copies_on(&mut self, link: u8) -> u64 {
        let count = usize::from(self.copy_count);
        let mut kept = 0;
        for place in 0..count {
            if self.copies[place].link != link {
                self.copies[kept] = self.copies[place];
                kept += 1;
            }
        }
        self.copies[kept..count].fill(CopyInFlight::default());
        self.copy_count = kept as u16;
        (count - kept) as u64
    }

    /// A step of the switch at this end, and what its ports send.
    fn step(
        &mut self,
        at: End,
        source: u64,
        destination: u64,
        received: Option<Header>,
    ) -> Report {
        let Seat { switch, filter } = &mut self.seats[usize::from(at.switch)];
        let outcome = rules(switch, filter, at.port, source, destination, received);
        let stepped =
            Stepped { switch: at.switch, arrival: at.port, source, destination, outcome };
        let mut report = Report { stepped: Some(stepped), ..Report::default() };
        // Ascending port order: lower ports get the room.
        for port in 0..16 {
            if outcome.mask & 1 << port != 0 {
                self.send(End { switch: at.switch, port }, &stepped, &mut report);
            }
        }
        report
    }

    /// A host port delivers, a link takes a copy while there is room.
    fn send(&mut self, from: End, stepped: &Stepped, report: &mut Report) {
        if let Some(host) = self.network.hosts().iter().position(|host| host.end == from) {
            report.hosts |= 1 << host;
            return;
        }
        let count = usize::from(self.copy_count);
        if count == COPIES_MAX {
            report.lost += 1;
            return;
        }
        for (number, link) in self.network.links().iter().enumerate() {
            for (end, near) in [(0, link.ends[1]), (1, link.ends[0])] {
                if near == from {
                    self.copies[count] = CopyInFlight {
                        link: number as u8,
                        end,
                        source: stepped.source,
                        destination: stepped.destination,
                        header: stepped.outcome.header,
                    };
                }
            }
        }
        self.copy_count += 1;
        report.placed += 1;
    }
}
