//! The inputs, made from a seed: switches with frames that lead to a verdict, and stands with events
//! that keep so many copies in flight.
use perf::bench::{Bench, Event};
use perf::stand::Stand;
use perf::switch::{Setup, Switch, SLOTS};

pub struct Random(pub u64);

impl Random {
    pub fn next(&mut self) -> u64 {
        self.0 ^= self.0 << 13;
        self.0 ^= self.0 >> 7;
        self.0 ^= self.0 << 17;
        self.0
    }

    pub fn below(&mut self, n: u64) -> u64 {
        self.next() % n
    }

    /// An address of one maker: a fixed first half, the rest as it comes.
    fn address(&mut self) -> u64 {
        0x0200_5E00_0000 | self.below(1 << 24)
    }
}

/// A switch with its filter, and frames to step on one after the other.
pub struct Steps {
    pub switch: Switch,
    pub filter: Vec<u8>,
    pub port: u8,
    pub frames: Vec<Vec<u8>>,
}

/// Frames in one script: few enough that the table has room for each one's source.
pub const FRAMES: usize = 32;

const HOST_PORT: u8 = 0;
const LINK_PORT: u8 = 2;

/// Eight live ports, the first two hosts'; so many entries, and three of four cells taken.
pub fn switch_with(random: &mut Random, entries: usize, cells: usize) -> (Switch, Vec<u8>) {
    let setup =
        Setup { ports: 8, live: 0xff, host: 0x03, limit: 16, salt: random.next() as u32 };
    let mut switch = Switch::fresh(setup);
    for slot in 0..entries {
        switch.addresses[slot] = random.address() & !0x3f | slot as u64;
        switch.ports[slot] = LINK_PORT + random.below(6) as u8;
        switch.hops[slot] = 2 + random.below(5) as u8;
    }
    let mut filter = vec![0; cells * 10];
    for (i, cell) in filter.chunks_exact_mut(10).enumerate().filter(|(i, _)| i % 4 != 3) {
        cell[..6].copy_from_slice(&random.address().to_be_bytes()[2..]);
        cell[6..9].copy_from_slice(&(random.below(1 << 24) as u32).to_be_bytes()[1..]);
        cell[9] = (i % 2) as u8;
    }
    (switch, filter)
}

fn frame_of(len: usize, destination: u64, source: u64, header: Option<[u8; 4]>) -> Vec<u8> {
    let mut frame = vec![0x5A; len];
    frame[..6].copy_from_slice(&destination.to_be_bytes()[2..]);
    frame[6..12].copy_from_slice(&source.to_be_bytes()[2..]);
    frame[12..14].copy_from_slice(&[0x08, 0x00]);
    if let Some(header) = header {
        frame[12..14].copy_from_slice(&[0x88, 0xB5]);
        frame[14..18].copy_from_slice(&header);
        frame[18..20].copy_from_slice(&[0x08, 0x00]);
    }
    frame
}

/// The slots that frames are to and from, in the middle of what is taken.
fn pair(s: &mut Switch, entries: usize, port: u8, random: &mut Random) -> (u64, u64) {
    let slot = entries / 2;
    if entries > slot + 1 {
        s.ports[slot] = port;
        s.hops[slot] = if port == HOST_PORT { 1 } else { 3 };
        s.ports[slot + 1] = LINK_PORT + 1;
        return (s.addresses[slot], s.addresses[slot + 1]);
    }
    (random.address(), random.address())
}

/// Tagged frames, all of which a switch answers with U, F or D.
pub fn tagged(verdict: u8, len: usize, entries: usize, cells: usize) -> Steps {
    let mut random = Random(0x5EED);
    let (mut switch, mut filter) = switch_with(&mut random, entries, cells);
    let (source, destination) = pair(&mut switch, entries, LINK_PORT, &mut random);
    let flags = if verdict == b'U' { 0x80 } else { 0xC0 };
    let frames: Vec<Vec<u8>> = (0..FRAMES)
        .map(|i| {
            let nonce = if verdict == b'F' { i as u8 } else { 0 };
            frame_of(len, destination, source, Some([flags | 2, 1, 2, nonce]))
        })
        .collect();
    if verdict == b'D' {
        let mut out = vec![0; len];
        switch.step(&mut filter, LINK_PORT, &frames[0], &mut out);
    }
    Steps { switch, filter, port: LINK_PORT, frames }
}

/// Host frames, all of which a switch answers with U, F or N.
pub fn hosts(verdict: u8, len: usize, entries: usize, cells: usize) -> Steps {
    let mut random = Random(0xFEED);
    let (mut switch, filter) = switch_with(&mut random, entries, cells);
    let (source, known) = pair(&mut switch, entries, HOST_PORT, &mut random);
    let destination = if verdict == b'U' { known } else { 0x0200_0000_0007 };
    let frames = (0..FRAMES)
        .map(|i| {
            let source = if verdict == b'F' { 0x0200_0000_1000 + i as u64 } else { source };
            frame_of(len, destination, source, None)
        })
        .collect();
    Steps { switch, filter, port: HOST_PORT, frames }
}

/// A switch, a filter and a frame of any kind, most of them nearly right.
pub fn any_step(random: &mut Random) -> Steps {
    let entries = random.below(SLOTS as u64 + 1) as usize;
    let cells = [16, 32, 64, 128, 256][random.below(5) as usize];
    let (mut switch, mut filter) = switch_with(random, entries, cells);
    let own = |random: &mut Random| {
        let slot = random.below(SLOTS as u64) as usize;
        (switch.addresses[slot], random.below(4) != 0)
    };
    let (mut source, known) = own(random);
    if !known || source == 0 {
        source = random.address();
    }
    let (mut destination, known) = own(random);
    if !known {
        destination = random.below(3) * random.address();
    }
    let port = random.below(9) as u8;
    let header = [random.below(256) as u8, 0, 0, random.below(4) as u8];
    let tagged = (random.below(8) == 0) != (port >= LINK_PORT);
    let len = [60, 66, 100, 1514, 1520][random.below(5) as usize];
    let mut frame = frame_of(len, destination, source, tagged.then_some(header));
    switch.nonce = [1 << 24, (1 << 24) - 1, 0, 5][random.below(40).min(3) as usize];
    match random.below(16) {
        0 => switch.hops[random.below(64) as usize] = random.below(65) as u8,
        1 => switch.addresses[63] = switch.addresses[random.below(64) as usize],
        2 => filter[random.below(160) as usize] ^= 1,
        3 => frame[random.below(20) as usize] ^= 1 << random.below(8),
        4 => switch.setup.live = random.below(512) as u16,
        5 => frame.truncate(random.below(70) as usize),
        6 => switch.setup.ports = random.below(18) as u8,
        _ => {}
    }
    Steps { switch, filter, port, frames: vec![frame] }
}

/// So many switches with two hosts and four links each, in a ring with chords.
pub fn stand_of(switches: u8) -> Vec<u8> {
    let mut bytes = vec![1];
    for i in 0..switches {
        bytes.extend_from_slice(&[0, 7, 1, 6, 16, 0, 0, 1, i]);
    }
    for i in 0..switches {
        for port in 0..2 {
            bytes.extend_from_slice(&[0, 9, 2, i, port, 2, 0, 0, 0, port, i + 1]);
        }
    }
    let far = if switches > 4 { 4 } else { 1 };
    let mut links: Vec<[(u8, u8); 2]> = Vec::new();
    for i in 0..switches {
        links.push([(i, 2), ((i + 1) % switches, 3)]);
        links.push([(i, 4), ((i + far) % switches, 5)]);
    }
    links.iter_mut().for_each(|l| l.sort());
    links.sort();
    for [first, second] in links {
        bytes.extend_from_slice(&[0, 5, 3, first.0, first.1, second.0, second.1]);
    }
    bytes
}

/// An input, and how it begins: the part up to the moment that so many copies are in flight.
pub struct Run {
    pub input: Vec<u8>,
    pub events: usize,
    pub start: usize,
    pub start_events: usize,
    /// The mean over the events behind the start.
    pub flying: f64,
}

fn record_of(event: &Event) -> Vec<u8> {
    match *event {
        Event::Present { host, to } => [&[0, 8, 4, host], &to.to_be_bytes()[2..]].concat(),
        Event::Take { place } => [&[0, 3, 5], &place.to_be_bytes()[..]].concat(),
        Event::Link { link, state } => vec![0, 3, 6, link, state],
    }
}

/// How many hosts send to each other in a run.
const SPEAKERS: u64 = 3;

const NOBODY: u64 = 0x0200_FFFF_FFFF;

/// A run in the making, with the bench that its events lead to.
struct Maker {
    run: Run,
    bench: Bench,
    random: Random,
}

impl Maker {
    fn add(&mut self, event: Event) {
        self.bench.happen(&event);
        self.run.input.extend_from_slice(&record_of(&event));
        self.run.events += 1;
        self.run.flying += self.bench.flying as f64;
    }

    /// A copy anywhere in the list, or, mostly, one of the flooded copies.
    fn take_one(&mut self) {
        let copies = &self.bench.copies[..self.bench.flying];
        let flooded: Vec<usize> = (0..copies.len()).filter(|&i| copies[i].header.f).collect();
        let place = if flooded.is_empty() || self.random.below(12) == 0 {
            self.random.below(copies.len() as u64) as usize
        } else {
            flooded[self.random.below(flooded.len() as u64) as usize]
        };
        self.add(Event::Take { place: place as u16 });
    }

    /// A frame to nobody, flooded until no copy is left, so that all heads know the speaker.
    fn introduce(&mut self, speaker: u8) {
        self.add(Event::Present { host: speaker, to: NOBODY });
        while self.bench.flying > 0 {
            self.take_one();
        }
    }

    fn pull_each_link(&mut self) {
        for link in 0..self.bench.stand.nlinks as u8 {
            self.add(Event::Link { link, state: 0 });
            self.add(Event::Link { link, state: 1 });
        }
    }

    fn is_flooding(&self) -> bool {
        self.bench.copies[..self.bench.flying].iter().any(|c| c.header.f)
    }

    /// The last host floods, one frame at a time; speakers send to each other. More floods at once
    /// would soon fill the list: heads forget triples, and flood again.
    fn present_one(&mut self) {
        let stand = self.bench.stand;
        if !self.is_flooding() {
            return self.add(Event::Present { host: stand.nhosts as u8 - 1, to: NOBODY });
        }
        let from = self.random.below(SPEAKERS);
        let to = (from + 1 + self.random.below(SPEAKERS - 1)) % (SPEAKERS);
        let to = stand.hosts[to as usize].address;
        self.add(Event::Present { host: from as u8, to });
    }
}

/// So many events, or as many as an input has room for, and then each link is pulled and plugged: frames are presented whenever fewer than so
/// many copies are in flight, else a copy is taken at a place that chance chooses.
pub fn run_of(switches: u8, copies: usize, most_events: usize) -> Run {
    let input = stand_of(switches);
    let (stand, _) = Stand::read(&input).expect("the stand is well-formed");
    let run = Run { input, events: 0, start: 0, start_events: 0, flying: 0.0 };
    let mut maker = Maker { run, bench: Bench::fresh(stand), random: Random(0xBE7C) };
    for speaker in 0..SPEAKERS {
        maker.introduce(speaker as u8);
    }
    while maker.bench.flying < copies {
        maker.present_one();
    }
    maker.run.start = maker.run.input.len();
    maker.run.start_events = maker.run.events;
    maker.run.flying = 0.0;
    let most_events = most_events + maker.run.events;
    let most_bytes = 60_000 - 10 * (1 + stand.nlinks);
    while maker.run.events < most_events && maker.run.input.len() <= most_bytes {
        if maker.bench.flying < copies || !maker.is_flooding() {
            maker.present_one();
        } else {
            maker.take_one();
        }
    }
    maker.pull_each_link();
    let mut run = maker.run;
    run.flying /= (run.events - run.start_events) as f64;
    run
}
