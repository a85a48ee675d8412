//! Writes vectors as FORMAT.md has them.

use crate::benches;
use crate::heads;
use second::bench::{Bench, Counters, Event};
use second::description::{End, HostRecord, LinkRecord, Network, SwitchRecord};
use second::frame::Header;
use second::step::Switch;
use second::table::Slot;
use std::fmt::Write;

/// An output buffer: its length and the fill of its pattern.
#[derive(Clone, Copy)]
pub struct Output {
    pub length: usize,
    pub fill: u8,
}

// The bounds that FORMAT.md promises.
const LINE_MAX: usize = 200_000;
const OUTPUT_MAX: usize = 2_048;
const FRAME_MAX: usize = 1_536;
const FILTER_MAX: usize = 5_120;
const INPUT_MAX: usize = 60_100;

/// A line in the making.
struct Line(String);

impl Line {
    fn new(word: &str) -> Line {
        Line(word.to_string())
    }

    fn done(self) -> String {
        assert!(self.0.len() <= LINE_MAX);
        self.0
    }

    fn number(&mut self, number: impl Into<u64>) {
        let number: u64 = number.into();
        let _ = write!(self.0, " {number:x}");
    }

    fn numbers(&mut self, numbers: &[u64]) {
        for &number in numbers {
            self.number(number);
        }
    }

    fn size(&mut self, size: usize) {
        self.number(size as u64);
    }

    fn bytes(&mut self, bytes: &[u8]) {
        const DIGITS: &[u8; 16] = b"0123456789abcdef";
        self.0.push(' ');
        if bytes.is_empty() {
            self.0.push('-');
        }
        for &byte in bytes {
            self.0.push(char::from(DIGITS[usize::from(byte >> 4)]));
            self.0.push(char::from(DIGITS[usize::from(byte & 15)]));
        }
    }

    fn frame(&mut self, frame: &[u8]) {
        assert!(frame.len() <= FRAME_MAX);
        self.bytes(frame);
    }

    fn output(&mut self, output: Output) {
        assert!(output.length <= OUTPUT_MAX);
        self.size(output.length);
        self.number(output.fill);
    }

    fn header(&mut self, header: Header) {
        self.numbers(&[
            header.l.into(),
            header.f.into(),
            header.hc.into(),
            header.nonce.into(),
        ]);
    }

    fn end(&mut self, end: End) {
        self.numbers(&[end.switch.into(), end.port.into()]);
    }

    fn switch(&mut self, switch: &Switch) {
        self.number(switch.ports);
        self.number(switch.live);
        self.number(switch.hosts);
        self.number(switch.limit);
        self.number(switch.salt);
        self.number(switch.next_nonce);
        let full = |(_, slot): &(usize, &Slot)| **slot != Slot::EMPTY;
        let slots: Vec<(usize, &Slot)> =
            switch.table.slots.iter().enumerate().filter(full).collect();
        self.size(slots.len());
        for (place, slot) in slots {
            self.size(place);
            self.numbers(&[slot.address, slot.port.into(), slot.hops.into()]);
        }
    }

    /// Pieces of ten bytes that are not all zeros.
    fn buffer(&mut self, buffer: &[u8]) {
        assert!(buffer.len() <= FILTER_MAX);
        self.size(buffer.len());
        let pieces: Vec<(usize, &[u8])> = buffer
            .chunks(10)
            .enumerate()
            .filter(|(_, piece)| piece.iter().any(|byte| *byte != 0))
            .collect();
        self.size(pieces.len());
        for (number, piece) in pieces {
            self.size(number * 10);
            self.bytes(piece);
        }
    }

    fn network(&mut self, network: &Network) {
        self.number(network.switch_count);
        self.number(network.host_count);
        self.number(network.link_count);
        let switches = not_zero(&network.switches, SwitchRecord::default());
        self.size(switches.len());
        for (place, switch) in switches {
            self.size(place);
            self.numbers(&[switch.ports.into(), switch.hops.into(), switch.salt.into()]);
        }
        let hosts = not_zero(&network.hosts, HostRecord::default());
        self.size(hosts.len());
        for (place, host) in hosts {
            self.size(place);
            self.end(host.end);
            self.number(host.address);
        }
        let links = not_zero(&network.links, LinkRecord::default());
        self.size(links.len());
        for (place, link) in links {
            self.size(place);
            self.end(link.ends[0]);
            self.end(link.ends[1]);
        }
    }

    fn bench(&mut self, bench: &Bench, by_port: bool) {
        self.0.push_str(if by_port { " p" } else { " l" });
        self.network(&bench.network);
        let states = bench.up.iter().enumerate();
        self.number(states.fold(0u64, |states, (link, up)| states | u64::from(*up) << link));
        let empty = &Bench::empty().seats[0];
        let seats: Vec<_> =
            bench.seats.iter().enumerate().filter(|(_, seat)| *seat != empty).collect();
        self.size(seats.len());
        for (place, seat) in seats {
            self.size(place);
            self.switch(&seat.switch);
            self.buffer(&seat.filter);
        }
        self.number(bench.copy_count);
        let copies = not_zero(&bench.copies, Default::default());
        self.size(copies.len());
        for (place, copy) in copies {
            self.size(place);
            if by_port {
                self.end(benches::place_of(bench, &copy));
            } else {
                self.numbers(&[copy.link.into(), copy.end.into()]);
            }
            self.numbers(&[copy.source, copy.destination]);
            self.header(copy.header);
        }
    }
}

/// The places of an array that are not all zeros.
fn not_zero<T: PartialEq + Copy>(array: &[T], zero: T) -> Vec<(usize, T)> {
    array.iter().copied().enumerate().filter(|(_, item)| *item != zero).collect()
}

pub fn step(case: &heads::Case) -> String {
    let mut line = Line::new("step");
    line.switch(&case.switch);
    line.buffer(&case.filter);
    line.number(case.arrival);
    line.frame(&case.frame);
    line.output(case.output);
    line.done()
}

pub fn tag(frame: &[u8], header: Header, output: Output) -> String {
    let mut line = Line::new("tag");
    line.frame(frame);
    line.header(header);
    line.output(output);
    line.done()
}

pub fn strip(frame: &[u8], output: Output) -> String {
    let mut line = Line::new("strip");
    line.frame(frame);
    line.output(output);
    line.done()
}

/// A whole input: `read` or `run`.
pub fn input(word: &str, bytes: &[u8], zeros: usize) -> String {
    assert!(bytes.len() + zeros <= INPUT_MAX);
    let mut line = Line::new(word);
    line.bytes(bytes);
    line.size(zeros);
    line.done()
}

pub fn write(network: &Network, output: Output) -> String {
    let mut line = Line::new("write");
    line.network(network);
    line.output(output);
    line.done()
}

pub fn fresh(network: &Network) -> String {
    let mut line = Line::new("fresh");
    line.network(network);
    line.done()
}

pub fn event(bench: &Bench, counters: &Counters, event: Event, by_port: bool) -> String {
    let mut line = Line::new("event");
    line.bench(bench, by_port);
    line.numbers(&[
        counters.placed,
        counters.taken,
        counters.cut,
        counters.lost,
        counters.delivered,
        counters.overwritten,
        counters.accepted,
    ]);
    match event {
        Event::Host { host, destination } => {
            line.numbers(&[4, host.into()]);
            line.bytes(&destination);
        }
        Event::Take { place } => line.numbers(&[5, place.into()]),
        Event::Link { link, state } => line.numbers(&[6, link.into(), state.into()]),
    }
    line.done()
}
