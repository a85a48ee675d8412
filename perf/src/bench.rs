//! The bench: heads, links, copies in flight, events and counters.
use crate::stand::{Plug, Plugs, Port, Stand, LINKS, SWITCHES};
use crate::switch::{address_in, is_source, Arrival, Header, Report, Setup, Switch, NONCES};

pub const COPIES: usize = 512;
const CELLS: usize = 640;
const MOST_EVENTS: u64 = 1_000_000;

#[derive(Clone, Copy)]
pub struct Seat {
    pub switch: Switch,
    pub cells: [u8; CELLS],
}

#[derive(Clone, Copy, Default)]
pub struct Copy {
    pub link: u8,
    /// Whether the link's second end receives it.
    pub second: bool,
    pub source: u64,
    pub destination: u64,
    pub header: Header,
}

#[derive(Clone, Copy)]
pub struct Bench {
    pub stand: Stand,
    pub plugs: Plugs,
    pub up: [bool; LINKS],
    pub seats: [Seat; SWITCHES],
    pub copies: [Copy; COPIES],
    pub flying: usize,
}

#[derive(Clone, Copy)]
pub enum Event {
    Present { host: u8, to: u64 },
    Take { place: u16 },
    Link { link: u8, state: u8 },
}

pub struct Done {
    pub report: Report,
    pub received: u32,
    pub placed: u8,
    pub lost: u8,
}

pub enum Answer {
    Refused(u8),
    Stepped(Done),
    Linked(u16),
}

#[derive(Clone, Copy, Default)]
pub struct Counters {
    pub placed: u64,
    pub taken: u64,
    pub cut: u64,
    pub lost: u64,
    pub delivered: u64,
    pub overwritten: u64,
    pub accepted: u64,
}

impl Event {
    /// The event whose record starts at a place, and the record's size; none for a bad record.
    #[inline]
    pub fn read(input: &[u8], at: usize) -> Option<(Event, usize)> {
        let rest = &input[at..];
        if rest.len() < 3 || rest[0] != 0 {
            return None;
        }
        match (rest[1], rest[2]) {
            (8, 4) if rest.len() >= 10 => {
                Some((Event::Present { host: rest[3], to: address_in(&rest[4..]) }, 10))
            }
            (3, 5) if rest.len() >= 5 => {
                Some((Event::Take { place: u16::from_be_bytes([rest[3], rest[4]]) }, 5))
            }
            (3, 6) if rest.len() >= 5 => {
                Some((Event::Link { link: rest[3], state: rest[4] }, 5))
            }
            _ => None,
        }
    }
}

impl Counters {
    fn fit(&self, flying: usize) -> bool {
        let bound = 8 * self.accepted;
        self.placed == self.taken + self.cut + flying as u64
            && self.taken <= bound
            && self.cut <= bound
            && self.lost <= bound
            && self.delivered <= bound
            && self.overwritten <= bound
    }

    fn add(&mut self, event: &Event, answer: &Answer) {
        match answer {
            Answer::Refused(_) => return,
            Answer::Stepped(d) => {
                self.placed += d.placed as u64;
                self.taken += matches!(event, Event::Take { .. }) as u64;
                self.lost += d.lost as u64;
                self.delivered += d.received.count_ones() as u64;
                self.overwritten += d.report.overwrote as u64;
            }
            Answer::Linked(cut) => self.cut += *cut as u64,
        }
        self.accepted += 1;
    }
}

impl Bench {
    pub fn fresh(stand: Stand) -> Self {
        let plugs = stand.plugs();
        let up = [true; LINKS];
        let none = Seat { switch: Switch::fresh(Setup::default()), cells: [0; CELLS] };
        let mut seats = [none; SWITCHES];
        for (i, seat) in seats.iter_mut().enumerate().take(stand.nswitches) {
            seat.switch.setup = stand.setup(&plugs, &up, i);
        }
        Bench { stand, plugs, up, seats, copies: [Copy::default(); COPIES], flying: 0 }
    }

    fn copy_fits(&self, c: &Copy) -> bool {
        (c.link as usize) < self.stand.nlinks
            && self.up[c.link as usize]
            && is_source(c.source)
            && c.destination != 0
            && c.destination < 1 << 48
            && (1..=63).contains(&c.header.hc)
            && c.header.nonce < NONCES
    }

    /// The bench's part of refusal 28. The plugs are the bench's own, made from its stand.
    pub fn is_in_shape(&self) -> bool {
        !self.stand.is_broken()
            && self.seats[..self.stand.nswitches].iter().enumerate().all(|(i, seat)| {
                seat.switch.setup == self.stand.setup(&self.plugs, &self.up, i)
                    && !seat.switch.is_broken(&seat.cells)
            })
            && self.flying <= COPIES
            && self.copies[..self.flying].iter().all(|c| self.copy_fits(c))
    }

    /// Refusals 30 to 33, or 0.
    fn refusal(&self, event: &Event) -> u8 {
        match *event {
            Event::Present { host, .. } if host as usize >= self.stand.nhosts => 30,
            Event::Present { to: 0, .. } => 31,
            Event::Take { place } if place as usize >= self.flying => 32,
            Event::Link { link, state } if link as usize >= self.stand.nlinks || state > 1 => {
                33
            }
            _ => 0,
        }
    }

    /// A head steps, and what it sends goes out in ascending order of ports.
    fn step(&mut self, switch: u8, a: &Arrival) -> Answer {
        let seat = &mut self.seats[switch as usize];
        let report = seat.switch.rules(&mut seat.cells, a);
        seat.switch.advance(a.port);
        let mut done = Done { report, received: 0, placed: 0, lost: 0 };
        let mut left = report.mask;
        while left != 0 {
            let port = left.trailing_zeros();
            left &= left - 1;
            match self.plugs[switch as usize][port as usize] {
                Plug::Open => {}
                Plug::Host(i) => done.received |= 1 << i,
                Plug::Link(link, second) if self.flying < COPIES => {
                    self.copies[self.flying] = Copy {
                        link,
                        second: !second,
                        source: a.source,
                        destination: a.destination,
                        header: report.header,
                    };
                    self.flying += 1;
                    done.placed += 1;
                }
                Plug::Link(..) => done.lost += 1,
            }
        }
        Answer::Stepped(done)
    }

    fn set_link(&mut self, link: u8, state: bool) -> Answer {
        self.up[link as usize] = state;
        let ends = self.stand.links[link as usize];
        for (switch, port) in [ends.first, ends.second] {
            let live = &mut self.seats[switch as usize].switch.setup.live;
            *live = *live & !(1 << port) | (state as u16) << port;
        }
        if state {
            return Answer::Linked(0);
        }
        let mut kept = 0;
        for i in 0..self.flying {
            if self.copies[i].link != link {
                self.copies[kept] = self.copies[i];
                kept += 1;
            }
        }
        let cut = self.flying - kept;
        self.flying = kept;
        Answer::Linked(cut as u16)
    }

    fn port_to(&self, c: &Copy) -> Port {
        let link = &self.stand.links[c.link as usize];
        if c.second {
            link.second
        } else {
            link.first
        }
    }

    /// An event on a bench that is in shape.
    pub fn happen(&mut self, event: &Event) -> Answer {
        let refusal = self.refusal(event);
        if refusal != 0 {
            return Answer::Refused(refusal);
        }
        match *event {
            Event::Present { host, to } => {
                let h = self.stand.hosts[host as usize];
                let (switch, port) = h.port;
                let a = self.seats[switch as usize].switch.from_host(port, h.address, to);
                self.step(switch, &a)
            }
            Event::Take { place } => {
                let c = self.copies[place as usize];
                self.copies.copy_within(place as usize + 1..self.flying, place as usize);
                self.flying -= 1;
                let (switch, port) = self.port_to(&c);
                let header = Header { hc: c.header.hc + 1, ..c.header };
                let a = Arrival { port, source: c.source, destination: c.destination, header };
                self.step(switch, &a)
            }
            Event::Link { link, state } => self.set_link(link, state == 1),
        }
    }

    /// The public event: 34, then 28, then its own causes.
    #[inline(never)]
    pub fn event(&mut self, event: &Event, counters: &mut Counters) -> Answer {
        if counters.accepted >= MOST_EVENTS {
            return Answer::Refused(34);
        }
        if !self.is_in_shape() || !counters.fit(self.flying) {
            return Answer::Refused(28);
        }
        let answer = self.happen(event);
        counters.add(event, &answer);
        answer
    }
}
