//! Test vectors: one call a line, one answer of some lines. FORMAT.md has the
//! exact form; what stands here follows it part by part.

use crate::bench::{Bench, CopyInFlight, Counters, Event, Report};
use crate::description::{self, End, HostRecord, LinkRecord, Network, SwitchRecord};
use crate::filter::CELL;
use crate::frame::{self, Header};
use crate::refusal::Refusal;
use crate::step::{self, Switch};
use crate::table::{Slot, Table};
use crate::transcript::{self, Ending};
use std::fmt::Write;
use std::str::Split;

/// Answers one line, without its newline. The answer ends with `end`.
pub fn answer(line: &str) -> String {
    let mut out = Out(String::new());
    let mut tokens = Tokens(line.split(' '));
    let read = match tokens.next() {
        Some("step") => step(&mut tokens, &mut out),
        Some("tag") => tag(&mut tokens, &mut out),
        Some("strip") => strip(&mut tokens, &mut out),
        Some("read") => read(&mut tokens, &mut out),
        Some("write") => write(&mut tokens, &mut out),
        Some("fresh") => fresh(&mut tokens, &mut out),
        Some("event") => event(&mut tokens, &mut out),
        Some("run") => run(&mut tokens, &mut out),
        _ => None,
    };
    if read.is_none() || tokens.next().is_some() {
        out = Out("unreadable\n".to_string());
    }
    out.0.push_str("end\n");
    out.0
}

/// The byte that an output buffer holds at a place before the call.
pub fn pattern(fill: u8, place: usize) -> u8 {
    fill.wrapping_add(place as u8)
}

fn patterned(length: usize, fill: u8) -> Vec<u8> {
    (0..length).map(|place| pattern(fill, place)).collect()
}

// The calls. Each answers nothing if the line can't be read.

fn step(tokens: &mut Tokens, out: &mut Out) -> Option<()> {
    let mut switch = tokens.switch()?;
    let mut filter = tokens.buffer()?;
    let arrival = tokens.small()?;
    let frame = tokens.bytes()?;
    let (length, fill) = tokens.output()?;
    let mut output = patterned(length, fill);
    match step::step(&mut switch, &mut filter, arrival, &frame, &mut output) {
        Ok(outcome) => {
            let letter = outcome.verdict.letter();
            let (mask, header) = (outcome.mask, Shown(outcome.header));
            let (full, overwrote) = (outcome.table_full as u8, outcome.overwrote as u8);
            out.line(format_args!("step {letter} {mask:04x} {header} {full} {overwrote}"));
        }
        Err(refusal) => out.refused(refusal),
    }
    out.switch(&switch);
    out.filter(&filter);
    out.output(&output, fill);
    Some(())
}

fn tag(tokens: &mut Tokens, out: &mut Out) -> Option<()> {
    let frame = tokens.bytes()?;
    let header = tokens.header()?;
    let (length, fill) = tokens.output()?;
    let mut output = patterned(length, fill);
    match frame::tag(&frame, header, &mut output) {
        Ok(length) => out.line(format_args!("tagged {length}")),
        Err(refusal) => out.refused(refusal),
    }
    out.output(&output, fill);
    Some(())
}

fn strip(tokens: &mut Tokens, out: &mut Out) -> Option<()> {
    let frame = tokens.bytes()?;
    let (length, fill) = tokens.output()?;
    let mut output = patterned(length, fill);
    match frame::strip(&frame, &mut output) {
        Ok((length, header)) => out.line(format_args!("stripped {length} {}", Shown(header))),
        Err(refusal) => out.refused(refusal),
    }
    out.output(&output, fill);
    Some(())
}

fn read(tokens: &mut Tokens, out: &mut Out) -> Option<()> {
    let input = tokens.input()?;
    match description::read(&input) {
        Ok((network, end)) => {
            out.line(format_args!("read {end}"));
            out.network(&network);
        }
        Err(refusal) => out.refused(refusal),
    }
    Some(())
}

fn write(tokens: &mut Tokens, out: &mut Out) -> Option<()> {
    let network = tokens.network()?;
    let (length, fill) = tokens.output()?;
    let mut output = patterned(length, fill);
    match description::write(&network, &mut output) {
        Ok(length) => out.line(format_args!("written {length}")),
        Err(refusal) => out.refused(refusal),
    }
    out.output(&output, fill);
    Some(())
}

fn fresh(tokens: &mut Tokens, out: &mut Out) -> Option<()> {
    let network = tokens.network()?;
    match Bench::fresh(&network) {
        Ok(bench) => {
            out.line(format_args!("fresh"));
            out.bench(&bench);
        }
        Err(refusal) => out.refused(refusal),
    }
    Some(())
}

fn event(tokens: &mut Tokens, out: &mut Out) -> Option<()> {
    let mut bench = tokens.bench()?;
    let mut counters = tokens.counters()?;
    let event = tokens.event()?;
    let before = (bench.clone(), counters);
    match bench.event(&mut counters, event) {
        Ok(report) => {
            out.report(&report);
            out.bench(&bench);
            out.counters(&counters);
        }
        Err(refusal) => {
            out.refused(refusal);
            let same = before == (bench, counters);
            out.line(format_args!("{}", if same { "same" } else { "changed" }));
        }
    }
    Some(())
}

fn run(tokens: &mut Tokens, out: &mut Out) -> Option<()> {
    let input = tokens.input()?;
    let ending = transcript::play(&input, &mut |moment| {
        out.0.push_str(&transcript::line(moment));
        if let Ok(report) = &moment.answer {
            out.report(report);
        }
    });
    match ending {
        Ending::Refused(refusal) => out.refused(refusal),
        Ending::Stopped(bench, counters) => {
            out.line(format_args!("stop 20"));
            out.bench(&bench);
            out.counters(&counters);
        }
        Ending::Done(bench, counters) => {
            out.bench(&bench);
            out.counters(&counters);
        }
    }
    Some(())
}

/// The tokens of a line.
struct Tokens<'a>(Split<'a, char>);

impl<'a> Tokens<'a> {
    fn next(&mut self) -> Option<&'a str> {
        self.0.next()
    }

    /// A number: 1 to 16 hex digits.
    fn number(&mut self) -> Option<u64> {
        u64::from_str_radix(self.next()?, 16).ok()
    }

    fn small(&mut self) -> Option<u8> {
        self.number()?.try_into().ok()
    }

    fn mask(&mut self) -> Option<u16> {
        self.number()?.try_into().ok()
    }

    fn word(&mut self) -> Option<u32> {
        self.number()?.try_into().ok()
    }

    fn size(&mut self) -> Option<usize> {
        self.number()?.try_into().ok()
    }

    fn flag(&mut self) -> Option<bool> {
        match self.number()? {
            0 => Some(false),
            1 => Some(true),
            _ => None,
        }
    }

    /// Bytes: two hex digits each, or `-` for none.
    fn bytes(&mut self) -> Option<Vec<u8>> {
        let token = self.next()?.as_bytes();
        if token == b"-" {
            return Some(Vec::new());
        }
        if token.is_empty() || token.len() % 2 != 0 {
            return None;
        }
        let digit = |byte: u8| char::from(byte).to_digit(16);
        token.chunks(2).map(|two| Some((digit(two[0])? << 4 | digit(two[1])?) as u8)).collect()
    }

    /// BYTES ZEROS
    fn input(&mut self) -> Option<Vec<u8>> {
        let mut bytes = self.bytes()?;
        let zeros = self.size()?;
        bytes.resize(bytes.len() + zeros, 0);
        Some(bytes)
    }

    /// LENGTH FILL
    fn output(&mut self) -> Option<(usize, u8)> {
        Some((self.size()?, self.small()?))
    }

    /// L F HC NONCE
    fn header(&mut self) -> Option<Header> {
        Some(Header {
            l: self.flag()?,
            f: self.flag()?,
            hc: self.small()?,
            nonce: self.word()?,
        })
    }

    /// SWITCH PORT
    fn end(&mut self) -> Option<End> {
        Some(End { switch: self.small()?, port: self.small()? })
    }

    /// PORTS LIVE HOSTS LIMIT SALT NONCE COUNT (SLOT ADDRESS PORT HOPS)*
    fn switch(&mut self) -> Option<Switch> {
        let mut switch = Switch {
            ports: self.small()?,
            live: self.mask()?,
            hosts: self.mask()?,
            limit: self.small()?,
            salt: self.word()?,
            next_nonce: self.word()?,
            table: Table::empty(),
        };
        for _ in 0..self.size()? {
            let place = self.size()?;
            let slot =
                Slot { address: self.number()?, port: self.small()?, hops: self.small()? };
            *switch.table.slots.get_mut(place)? = slot;
        }
        Some(switch)
    }

    /// LENGTH COUNT (OFFSET BYTES)*
    fn buffer(&mut self) -> Option<Vec<u8>> {
        let mut buffer = vec![0; self.size()?];
        for _ in 0..self.size()? {
            let offset = self.size()?;
            let bytes = self.bytes()?;
            buffer.get_mut(offset..offset + bytes.len())?.copy_from_slice(&bytes);
        }
        Some(buffer)
    }

    /// SWITCHES HOSTS LINKS, then the array places that are not all zeros.
    fn network(&mut self) -> Option<Network> {
        let mut network = Network::empty();
        network.switch_count = self.small()?;
        network.host_count = self.small()?;
        network.link_count = self.small()?;
        for _ in 0..self.size()? {
            let place = self.size()?;
            let (ports, hops, salt) = (self.small()?, self.small()?, self.word()?);
            *network.switches.get_mut(place)? = SwitchRecord { ports, hops, salt };
        }
        for _ in 0..self.size()? {
            let place = self.size()?;
            let (end, address) = (self.end()?, self.number()?);
            *network.hosts.get_mut(place)? = HostRecord { end, address };
        }
        for _ in 0..self.size()? {
            let place = self.size()?;
            let ends = [self.end()?, self.end()?];
            *network.links.get_mut(place)? = LinkRecord { ends };
        }
        Some(network)
    }

    /// FORM NETWORK STATES COUNT (SEAT ...)* COPIES COUNT (COPY ...)*
    fn bench(&mut self) -> Option<Box<Bench>> {
        let by_port = match self.next()? {
            "l" => false,
            "p" => true,
            _ => return None,
        };
        let mut bench = Bench::empty();
        bench.network = self.network()?;
        let states = self.number()?;
        for (link, up) in bench.up.iter_mut().enumerate() {
            *up = states >> link & 1 == 1;
        }
        for _ in 0..self.size()? {
            let seat = bench.seats.get_mut(self.size()?)?;
            seat.switch = self.switch()?;
            seat.filter = self.buffer()?.try_into().ok()?;
        }
        bench.copy_count = self.mask()?;
        for _ in 0..self.size()? {
            let place = self.size()?;
            let (link, end) = if by_port {
                leading_to(&bench.network, self.end()?)
            } else {
                (self.small()?, self.flag()? as u8)
            };
            let (source, destination) = (self.number()?, self.number()?);
            let header = self.header()?;
            let copy = CopyInFlight { link, end, source, destination, header };
            *bench.copies.get_mut(place)? = copy;
        }
        Some(bench)
    }

    fn counters(&mut self) -> Option<Counters> {
        Some(Counters {
            placed: self.number()?,
            taken: self.number()?,
            cut: self.number()?,
            lost: self.number()?,
            delivered: self.number()?,
            overwritten: self.number()?,
            accepted: self.number()?,
        })
    }

    fn event(&mut self) -> Option<Event> {
        match self.number()? {
            4 => {
                let host = self.small()?;
                let destination = self.bytes()?.try_into().ok()?;
                Some(Event::Host { host, destination })
            }
            5 => Some(Event::Take { place: self.mask()? }),
            6 => Some(Event::Link { link: self.small()?, state: self.small()? }),
            _ => None,
        }
    }
}

/// The link with this end, or a link that can't be where there is none.
fn leading_to(network: &Network, at: End) -> (u8, u8) {
    for (number, link) in network.links().iter().enumerate() {
        for end in [0, 1] {
            if link.ends[end] == at {
                return (number as u8, end as u8);
            }
        }
    }
    (u8::MAX, 0)
}

/// L F HC NONCE, as answers show a header.
struct Shown(Header);

impl std::fmt::Display for Shown {
    fn fmt(&self, f: &mut std::fmt::Formatter) -> std::fmt::Result {
        let Shown(header) = self;
        write!(f, "{} {} {} {}", header.l as u8, header.f as u8, header.hc, header.nonce)
    }
}

/// The lines of an answer.
struct Out(String);

impl Out {
    fn line(&mut self, line: std::fmt::Arguments) {
        let _ = writeln!(self.0, "{line}");
    }

    fn refused(&mut self, refusal: Refusal) {
        self.line(format_args!("refused {}", refusal.0));
    }

    fn switch(&mut self, switch: &Switch) {
        let Switch { ports, live, hosts, limit, salt, next_nonce, table } = switch;
        self.line(format_args!(
            "head {ports} {live:04x} {hosts:04x} {limit} {salt:08x} {next_nonce}"
        ));
        for (place, slot) in table.slots.iter().enumerate() {
            if *slot != Slot::EMPTY {
                let Slot { address, port, hops } = slot;
                self.line(format_args!("slot {place} {address:016x} {port} {hops}"));
            }
        }
    }

    fn filter(&mut self, filter: &[u8]) {
        self.line(format_args!("filter {}", filter.len()));
        self.differing("cell", filter, |_| 0);
    }

    fn output(&mut self, output: &[u8], fill: u8) {
        self.line(format_args!("out {}", output.len()));
        self.differing("piece", output, |place| pattern(fill, place));
    }

    /// Pieces of ten bytes (the last may be shorter) that are not as expected.
    fn differing(&mut self, word: &str, buffer: &[u8], expected: impl Fn(usize) -> u8) {
        for (number, piece) in buffer.chunks(CELL).enumerate() {
            let differs = |(i, byte): (usize, &u8)| *byte != expected(number * CELL + i);
            if piece.iter().enumerate().any(differs) {
                let _ = write!(self.0, "{word} {number} ");
                for byte in piece {
                    let _ = write!(self.0, "{byte:02x}");
                }
                self.0.push('\n');
            }
        }
    }

    /// The network without what lies behind its counts.
    fn network(&mut self, network: &Network) {
        let Network { switch_count, host_count, link_count, .. } = network;
        self.line(format_args!("network {switch_count} {host_count} {link_count}"));
        for (place, switch) in network.switches().iter().enumerate() {
            let SwitchRecord { ports, hops, salt } = switch;
            self.line(format_args!("switch {place} {ports} {hops} {salt:08x}"));
        }
        for (place, host) in network.hosts().iter().enumerate() {
            let HostRecord { end, address } = host;
            self.line(format_args!("host {place} {} {} {address:016x}", end.switch, end.port));
        }
        for (place, link) in network.links().iter().enumerate() {
            let [a, b] = link.ends;
            self.line(format_args!(
                "link {place} {} {} {} {}",
                a.switch, a.port, b.switch, b.port
            ));
        }
    }

    /// The bench without what lies behind its counts.
    fn bench(&mut self, bench: &Bench) {
        self.network(&bench.network);
        let used = bench.up.iter().zip(bench.network.links()).enumerate();
        let states = used.fold(0, |states, (link, (up, _))| states | u64::from(*up) << link);
        self.line(format_args!("states {states:016x}"));
        for (number, seat) in bench.seats.iter().zip(bench.network.switches()).enumerate() {
            self.line(format_args!("seat {number}"));
            self.switch(&seat.0.switch);
            self.filter(&seat.0.filter);
        }
        self.line(format_args!("copies {}", bench.copy_count));
        for (place, copy) in bench.copies().iter().enumerate() {
            let End { switch, port } = bench.arrival(copy);
            let CopyInFlight { source, destination, header, .. } = copy;
            self.line(format_args!(
                "copy {place} {switch} {port} {source:016x} {destination:016x} {}",
                Shown(*header)
            ));
        }
    }

    fn counters(&mut self, counters: &Counters) {
        let Counters { placed, taken, cut, lost, delivered, overwritten, accepted } = counters;
        self.line(format_args!(
            "counters {placed} {taken} {cut} {lost} {delivered} {overwritten} {accepted}"
        ));
    }

    fn report(&mut self, report: &Report) {
        let outcome = report.stepped.map(|stepped| stepped.outcome);
        let (mask, header) = outcome.map_or((0, Header::default()), |o| (o.mask, o.header));
        let Report { placed, lost, cut, hosts, .. } = report;
        let _ = write!(
            self.0,
            "report {} {mask:04x} {} {placed} {lost} {cut} {hosts:08x} {}",
            report.letter(),
            Shown(header),
            report.overwrote() as u8
        );
        if let Some(stepped) = report.stepped {
            let _ = write!(
                self.0,
                " {} {} {:016x} {:016x}",
                stepped.switch, stepped.arrival, stepped.source, stepped.destination
            );
        }
        self.0.push('\n');
    }
}
