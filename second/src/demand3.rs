//! Demand 3, the fitter's first plug-in, as a judge of runs. A watch is set at
//! the start, sees A's frame as its first event and then every other event; at
//! each moment it knows which premises have been broken so far and which claim
//! fails, if any.
//!
//! A run whose premises are all kept and in which a claim fails would be a
//! counterexample to demand 3.

use crate::bench::{Bench, CopyInFlight, Event, Report};
use crate::description::{End, HostRecord, HOSTS_MAX, LINKS_MAX, SWITCHES_MAX};
use crate::filter::{self, Triple, CELL};
use crate::frame::{address_bytes, address_from};
use crate::refusal::Refusal;

/// What demand 3 takes for granted.
#[derive(Clone, Copy, PartialEq, Eq, Debug)]
pub enum Premise {
    /// At the start no table entry names A.
    TableUnnamed,
    /// At the start no filter record names A.
    FilterUnnamed,
    /// At the start no copy in flight names A as source.
    NoCopyFromA,
    /// At the start no copy in flight names A as destination.
    NoCopyToA,
    /// The frame goes to an address other than A's own.
    NotToItself,
    /// A sends nothing more.
    SilentAfter,
    /// Others never send to A.
    NobodySendsToA,
    NoCablePulled,
    NoCablePlugged,
    /// No copy of the frame is lost for want of room.
    NothingLost,
    /// No filter record of it is overwritten before its last copy was taken.
    NothingOverwritten,
    /// Every hop limit is at least the number of switches.
    EnoughHops,
}

/// What demand 3 says.
#[derive(Clone, Copy, PartialEq, Eq, Debug)]
pub enum Claim {
    /// Each port sends the frame at most once.
    SentOnce,
    /// Recorded ports for A visit no switch twice and end at A.
    LeadsHome,
    /// After its last copy: all joined switches have a record for A.
    AllRecord,
    /// After its last copy: all other joined hosts have received one copy.
    OneCopyEach,
}

#[derive(Clone)]
pub struct Watch {
    a: HostRecord,
    host: u8,
    /// With A's address it tells the frame from any other.
    nonce: u32,
    begun: bool,
    up: [bool; LINKS_MAX],
    /// Ports that have sent the frame, for each switch.
    sent: [u16; SWITCHES_MAX],
    sent_twice: bool,
    /// How many copies each host has received.
    received: [u32; HOSTS_MAX],
    /// Whether a copy was in flight before the next event.
    flying: bool,
    /// Filters that have held its triple, with L clear and set.
    recorded: [[bool; 2]; SWITCHES_MAX],
    broken: Vec<Premise>,
}

impl Watch {
    /// Before A sends. Tests what is premised of the start.
    pub fn start(bench: &Bench, host: u8) -> Watch {
        let a = bench.network.hosts[usize::from(host)];
        let mut watch = Watch {
            a,
            host,
            nonce: bench.seats[usize::from(a.end.switch)].switch.next_nonce,
            begun: false,
            up: bench.up,
            sent: [0; SWITCHES_MAX],
            sent_twice: false,
            received: [0; HOSTS_MAX],
            flying: false,
            recorded: [[false; 2]; SWITCHES_MAX],
            broken: Vec::new(),
        };
        for (premise, named) in named(bench, a.address) {
            watch.note(premise, named);
        }
        let switches = bench.network.switch_count;
        let seats = &bench.seats[..usize::from(switches)];
        watch.note(Premise::EnoughHops, seats.iter().any(|seat| seat.switch.limit < switches));
        watch
    }

    /// Premises that have been broken so far.
    pub fn broken(&self) -> &[Premise] {
        &self.broken
    }

    /// No copy of the frame is in flight.
    pub fn is_over(&self, bench: &Bench) -> bool {
        self.begun && !bench.copies().iter().any(|copy| self.is_of_it(copy))
    }

    pub fn is_of_it(&self, copy: &CopyInFlight) -> bool {
        copy.source == self.a.address && copy.header.nonce == self.nonce
    }

    /// The next event and what the bench answered; the first is A's frame.
    pub fn see(&mut self, bench: &Bench, event: Event, answer: &Result<Report, Refusal>) {
        if let Ok(report) = answer {
            self.see_sender(event);
            self.see_cables(bench);
            self.see_step(report);
        }
        self.see_filters(bench);
        self.flying = !self.is_over(bench);
    }

    fn note(&mut self, premise: Premise, is_broken: bool) {
        if is_broken && !self.broken.contains(&premise) {
            self.broken.push(premise);
        }
    }

    fn see_sender(&mut self, event: Event) {
        let Event::Host { host, destination } = event else { return };
        let to_a = address_from(&destination) == self.a.address;
        if host != self.host {
            self.note(Premise::NobodySendsToA, to_a);
        } else if self.begun {
            self.note(Premise::SilentAfter, true);
        } else {
            self.begun = true;
            self.note(Premise::NotToItself, to_a);
        }
    }

    fn see_cables(&mut self, bench: &Bench) {
        for (now, before) in bench.up.iter().zip(self.up) {
            self.note(Premise::NoCablePulled, before && !now);
            self.note(Premise::NoCablePlugged, !before && *now);
        }
    }

    /// A step that sends the frame, or one of something else.
    fn see_step(&mut self, report: &Report) {
        let Some(stepped) = report.stepped else { return };
        let outcome = stepped.outcome;
        if stepped.source != self.a.address
            || outcome.is_drop()
            || outcome.header.nonce != self.nonce
        {
            return;
        }
        self.note(Premise::NothingLost, report.lost > 0);
        let sent = &mut self.sent[usize::from(stepped.switch)];
        self.sent_twice |= *sent & outcome.mask != 0;
        *sent |= outcome.mask;
        for (host, times) in self.received.iter_mut().enumerate() {
            *times += report.hosts >> host & 1;
        }
    }

    fn see_filters(&mut self, bench: &Bench) {
        for number in 0..usize::from(bench.network.switch_count) {
            let seat = &bench.seats[number];
            for l in [false, true] {
                let triple = Triple { source: self.a.address, nonce: self.nonce, l };
                let holds = filter::is_duplicate(&seat.filter, seat.switch.salt, triple);
                let held = &mut self.recorded[number][usize::from(l)];
                let gone = *held && !holds;
                *held |= holds;
                self.note(Premise::NothingOverwritten, gone && self.flying);
            }
        }
    }

    /// The first claim that fails at this moment.
    pub fn fails(&self, bench: &Bench) -> Option<Claim> {
        if self.sent_twice {
            return Some(Claim::SentOnce);
        }
        let records = Records::of(bench, self.a.address);
        let switches = 0..bench.network.switch_count;
        let strays = |switch: u8| {
            records.port(switch).is_some() && records.hops_home(bench, self.a, switch).is_none()
        };
        if switches.clone().any(strays) {
            return Some(Claim::LeadsHome);
        }
        if !self.is_over(bench) {
            return None;
        }
        let joined = distances(bench, self.a.end.switch);
        let is_joined = |switch: u8| joined[usize::from(switch)].is_some();
        if switches.clone().any(|switch| is_joined(switch) && records.port(switch).is_none()) {
            return Some(Claim::AllRecord);
        }
        let others = bench.network.hosts().iter().zip(self.received);
        let wrong = |(host, times): (&HostRecord, u32)| {
            host.address != self.a.address && is_joined(host.end.switch) && times != 1
        };
        others.into_iter().any(wrong).then_some(Claim::OneCopyEach)
    }

    /// All that the watch knows of the run so far, in one start's runs.
    pub fn key(&self) -> Vec<u8> {
        let mut key = vec![self.sent_twice.into(), self.flying.into()];
        key.extend(self.sent.iter().flat_map(|ports| ports.to_be_bytes()));
        key.extend(self.received.iter().map(|times| *times as u8));
        key.extend(self.recorded.iter().flatten().map(|held| u8::from(*held)));
        key.extend(self.broken.iter().map(|premise| *premise as u8));
        key
    }

    /// Whether the recorded ports of some switch make a detour. Nobody claims
    /// that they don't.
    pub fn has_detour(&self, bench: &Bench) -> bool {
        let records = Records::of(bench, self.a.address);
        let distances = distances(bench, self.a.end.switch);
        (0..bench.network.switch_count).any(|switch| {
            let hops = records.hops_home(bench, self.a, switch);
            hops.is_some() && hops != distances[usize::from(switch)]
        })
    }
}

/// Whether something names A at the start, for each way to name it.
fn named(bench: &Bench, a: u64) -> [(Premise, bool); 4] {
    let seats = &bench.seats[..usize::from(bench.network.switch_count)];
    let in_table = seats.iter().any(|seat| seat.switch.table.lookup(a).is_some());
    let cell_names = |cell: &[u8]| cell[..6] == address_bytes(a);
    let in_filter = seats.iter().any(|seat| seat.filter.chunks(CELL).any(cell_names));
    let copies = bench.copies();
    [
        (Premise::TableUnnamed, in_table),
        (Premise::FilterUnnamed, in_filter),
        (Premise::NoCopyFromA, copies.iter().any(|copy| copy.source == a)),
        (Premise::NoCopyToA, copies.iter().any(|copy| copy.destination == a)),
    ]
}

/// Premises of the start that this bench breaks for A.
pub fn names(bench: &Bench, a: u64) -> Vec<Premise> {
    named(bench, a)
        .into_iter()
        .filter(|(_, named)| *named)
        .map(|(premise, _)| premise)
        .collect()
}

/// The recorded ports for one address, by switch.
struct Records([Option<u8>; SWITCHES_MAX]);

impl Records {
    fn of(bench: &Bench, a: u64) -> Records {
        let mut ports = [None; SWITCHES_MAX];
        for (port, seat) in
            ports.iter_mut().zip(&bench.seats).take(bench.network.switches().len())
        {
            *port = seat.switch.table.lookup(a).map(|entry| entry.port);
        }
        Records(ports)
    }

    fn port(&self, switch: u8) -> Option<u8> {
        self.0[usize::from(switch)]
    }

    /// Along the recorded ports over live cables to A: how many cables. Nothing
    /// if they lead elsewhere or visit a switch twice.
    fn hops_home(&self, bench: &Bench, a: HostRecord, start: u8) -> Option<usize> {
        let mut at = start;
        for hops in 0..bench.network.switches().len() {
            let from = End { switch: at, port: self.port(at)? };
            if from == a.end {
                return Some(hops);
            }
            at = across(bench, from)?.switch;
        }
        None
    }
}

/// The other end of the live cable on a port.
fn across(bench: &Bench, from: End) -> Option<End> {
    let live = bench.network.links().iter().zip(bench.up).filter(|(_, up)| *up);
    live.map(|(link, _)| link.ends).find_map(|[first, second]| {
        (first == from).then_some(second).or((second == from).then_some(first))
    })
}

/// How many live cables each switch is away from one, if it is joined to it.
pub fn distances(bench: &Bench, from: u8) -> [Option<usize>; SWITCHES_MAX] {
    let mut away = [None; SWITCHES_MAX];
    away[usize::from(from)] = Some(0);
    // A walk that visits no switch twice has fewer cables than switches.
    for hops in 1..bench.network.switches().len() {
        for (link, up) in bench.network.links().iter().zip(bench.up) {
            let [first, second] = link.ends.map(|end| usize::from(end.switch));
            for (near, far) in [(first, second), (second, first)] {
                if up && away[near] == Some(hops - 1) && away[far].is_none() {
                    away[far] = Some(hops);
                }
            }
        }
    }
    away
}
