//! The head's switch and one step of it.

use crate::filter::{self, Triple};
use crate::frame::{self, Header, EXTRA, HOST_LENGTHS, NONCES, TAGGED_LENGTHS};
use crate::refusal::{self, Refusal};
use crate::table::{Table, HOPS};

pub const PORTS_MAX: u8 = 16;

#[derive(Clone, PartialEq, Eq, Debug)]
pub struct Switch {
    pub ports: u8,
    pub live: u16,
    pub hosts: u16,
    pub limit: u8,
    pub salt: u32,
    pub next_nonce: u32,
    pub table: Table,
}

#[derive(Clone, Copy, PartialEq, Eq, Debug)]
pub enum Verdict {
    /// Too many hops.
    X,
    /// Duplicate.
    D,
    /// Given up: not learnable any more and nowhere to go.
    G,
    /// Erased: a second hairpin turn.
    E,
    /// Flooded on.
    F,
    /// New flood at the first hop.
    N,
    /// New flood further on, back out of the arrival port too.
    B,
    /// Hairpin turn.
    H,
    /// Sent on the entry's port.
    U,
}

impl Verdict {
    pub fn letter(self) -> char {
        match self {
            Verdict::X => 'X',
            Verdict::D => 'D',
            Verdict::G => 'G',
            Verdict::E => 'E',
            Verdict::F => 'F',
            Verdict::N => 'N',
            Verdict::B => 'B',
            Verdict::H => 'H',
            Verdict::U => 'U',
        }
    }
}

/// What a step answers when it doesn't refuse. After a drop, mask and header
/// are 0.
#[derive(Clone, Copy, PartialEq, Eq, Debug)]
pub struct Outcome {
    pub verdict: Verdict,
    pub mask: u16,
    pub header: Header,
    /// A new address was not learned, for want of a slot.
    pub table_full: bool,
    /// A cell lost a different triple.
    pub overwrote: bool,
}

impl Outcome {
    pub fn is_drop(&self) -> bool {
        matches!(self.verdict, Verdict::X | Verdict::D | Verdict::G | Verdict::E)
    }
}

fn bit(port: u8) -> u16 {
    1 << port
}

impl Switch {
    /// Refusal 1 names a switch for which this is false.
    pub fn is_well_formed(&self, filter: &[u8]) -> bool {
        (1..=PORTS_MAX).contains(&self.ports)
            && u32::from(self.live | self.hosts) < 1 << self.ports
            && HOPS.contains(&self.limit)
            && self.next_nonce < NONCES
            && self.table.is_well_formed(self.ports)
            && filter::is_well_formed(filter)
    }

    fn is_live(&self, port: u8) -> bool {
        self.live & bit(port) != 0
    }

    fn is_host_port(&self, port: u8) -> bool {
        self.hosts & bit(port) != 0
    }
}

/// One step. The output receives the tagged frame after a sending verdict.
pub fn step(
    switch: &mut Switch,
    filter: &mut [u8],
    arrival: u8,
    frame: &[u8],
    out: &mut [u8],
) -> Result<Outcome, Refusal> {
    check(switch, filter, arrival, frame, out.len())?;
    let from_host = switch.is_host_port(arrival);
    let received = if from_host { None } else { Some(frame::header(frame)) };
    let (source, destination) = (frame::source(frame), frame::destination(frame));
    let outcome = rules(switch, filter, arrival, source, destination, received);
    if !outcome.is_drop() {
        if from_host {
            frame::put_tagged(frame, outcome.header, out);
        } else {
            frame::put_retagged(frame, outcome.header, out);
        }
    }
    Ok(outcome)
}

/// Refusals 1 to 9, in that order.
fn check(
    switch: &Switch,
    filter: &[u8],
    arrival: u8,
    frame: &[u8],
    room: usize,
) -> Result<(), Refusal> {
    if !switch.is_well_formed(filter) {
        return Err(refusal::BROKEN_SWITCH);
    }
    if arrival >= switch.ports {
        return Err(refusal::NO_SUCH_PORT);
    }
    if !switch.is_live(arrival) {
        return Err(refusal::PORT_DOWN);
    }
    check_frame(switch.is_host_port(arrival), frame, room)
}

/// Refusals 4 to 9. The port's role, not the frame, decides what is asked.
fn check_frame(from_host: bool, frame: &[u8], room: usize) -> Result<(), Refusal> {
    let lengths = if from_host { HOST_LENGTHS } else { TAGGED_LENGTHS };
    if !lengths.contains(&frame.len()) {
        return Err(refusal::LENGTH);
    }
    if !frame::is_source(frame::source(frame)) {
        return Err(refusal::SOURCE);
    }
    let tagged_already =
        if from_host { frame::has_tag_type(frame) } else { frame::is_tagged_twice(frame) };
    if tagged_already {
        return Err(refusal::TAGGED_ALREADY);
    }
    if !from_host && !frame::has_tag_type(frame) {
        return Err(refusal::NOT_TAGGED);
    }
    if !from_host && frame::header(frame).hc == 0 {
        return Err(refusal::HOP_COUNT_ZERO);
    }
    let tagged_length = if from_host { frame.len() + EXTRA } else { frame.len() };
    if room < tagged_length {
        return Err(refusal::OUTPUT_SHORT);
    }
    Ok(())
}

/// The rules of "One step", for a switch that stands and a frame that passed.
/// A frame from a host port has no header yet.
pub fn rules(
    switch: &mut Switch,
    filter: &mut [u8],
    arrival: u8,
    source: u64,
    destination: u64,
    received: Option<Header>,
) -> Outcome {
    // Rule 1.
    let header = header(switch, source, received);
    let mut step = Step {
        switch,
        filter,
        arrival,
        source,
        destination,
        header,
        table_full: false,
        overwrote: false,
    };
    // Rule 2, before the filter: a copy too old would mark the frame as seen.
    if step.header.hc > step.switch.limit {
        return step.too_many_hops();
    }
    // Rule 3: with F clear, nothing is asked and nothing recorded.
    let duplicate = step.header.f && step.ask_then_record();
    // Rules 4 to 6.
    step.learn(duplicate);
    // Rule 7: duplicate.
    if duplicate {
        return step.dropped(Verdict::D);
    }
    // Rule 8: flooded frames keep flooding.
    if step.header.f {
        return step.sent(Verdict::F, step.flood());
    }
    // Rules 9 to 11.
    step.follow_entry()
}

/// Rule 1: the header. A host's frame gets one, any other is a hop further.
fn header(switch: &mut Switch, source: u64, received: Option<Header>) -> Header {
    match received {
        None => {
            let nonce = switch.next_nonce;
            switch.next_nonce = (nonce + 1) % NONCES;
            let f = switch.table.lookup(source).is_none();
            Header { l: true, f, hc: 1, nonce }
        }
        Some(header) => Header { hc: header.hc + 1, ..header },
    }
}

/// A step on its way through the rules: what they read, and what they change.
struct Step<'a> {
    switch: &'a mut Switch,
    filter: &'a mut [u8],
    arrival: u8,
    source: u64,
    destination: u64,
    header: Header,
    table_full: bool,
    overwrote: bool,
}

impl Step<'_> {
    /// Rule 2: too many hops. A flooded frame followed no entries; any other
    /// did, and they led it astray.
    fn too_many_hops(&mut self) -> Outcome {
        if !self.header.f {
            self.switch.table.erase(self.destination);
        }
        self.dropped(Verdict::X)
    }

    /// Rule 3: in this order, or every frame would be a duplicate of itself.
    fn ask_then_record(&mut self) -> bool {
        let duplicate = filter::is_duplicate(self.filter, self.switch.salt, self.triple());
        self.record();
        duplicate
    }

    /// Rules 4 to 6, in one function because 5 and 6 share the reading of 4.
    fn learn(&mut self, duplicate: bool) {
        let Header { l, hc, .. } = self.header;

        // Rule 4: before rule 5, which erases this entry if the source sends
        // to itself.
        let entry = self.switch.table.lookup(self.source);

        // Rule 5: a frame of our own host has come back from a failure.
        if !duplicate && !l && entry.is_some_and(|entry| entry.hops == 1) {
            self.switch.table.erase(self.destination);
        }

        // Rule 6: learn.
        let better = entry.is_none_or(|entry| hc < entry.hops);
        if better || l && !duplicate {
            self.table_full = self.switch.table.learn(self.source, self.arrival, hc);
        }
    }

    /// Rules 9 to 11: a frame that isn't flooded goes where the destination's
    /// entry says.
    fn follow_entry(&mut self) -> Outcome {
        let entry = self.switch.table.lookup(self.destination);
        let Some(target) = entry.filter(|entry| self.switch.is_live(entry.port)) else {
            return self.nowhere_to_go();
        };
        if target.port == self.arrival {
            return self.hairpin_turn();
        }
        // Rule 11: the common case.
        self.sent(Verdict::U, bit(target.port))
    }

    /// Rule 9: nowhere to go. A new flood is recorded here, or a copy of it
    /// that comes back would be taken for a frame not seen yet.
    fn nowhere_to_go(&mut self) -> Outcome {
        if !self.header.l {
            return self.dropped(Verdict::G);
        }
        self.header.f = true;
        if self.header.hc == 1 {
            self.record();
            return self.sent(Verdict::N, self.flood());
        }
        // L is part of the triple, so it is cleared before the record.
        self.header.l = false;
        self.record();
        self.sent(Verdict::B, self.flood() | bit(self.arrival))
    }

    /// Rule 10: hairpin turn. L is cleared by the first, so that a second one
    /// is known.
    fn hairpin_turn(&mut self) -> Outcome {
        if self.header.l {
            self.header.l = false;
            return self.sent(Verdict::H, bit(self.arrival));
        }
        self.switch.table.erase(self.destination);
        self.dropped(Verdict::E)
    }

    /// All live ports but the arrival port.
    fn flood(&self) -> u16 {
        self.switch.live & !bit(self.arrival)
    }

    fn triple(&self) -> Triple {
        Triple { source: self.source, nonce: self.header.nonce, l: self.header.l }
    }

    /// A step records at most once: rule 3 with F set, rule 9 with F clear.
    fn record(&mut self) {
        let triple = self.triple();
        self.overwrote = filter::record(self.filter, self.switch.salt, triple);
    }

    fn sent(&self, verdict: Verdict, mask: u16) -> Outcome {
        let Step { header, table_full, overwrote, .. } = *self;
        Outcome { verdict, mask, header, table_full, overwrote }
    }

    fn dropped(&self, verdict: Verdict) -> Outcome {
        let Step { table_full, overwrote, .. } = *self;
        Outcome { verdict, mask: 0, header: Header::default(), table_full, overwrote }
    }
}
