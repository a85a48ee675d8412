//! Benches handed in whole, in shape and out of it, and one event on them.

use crate::heads;
use crate::lines;
use crate::networks;
use crate::Widths;
use second::addresses::{self, BEYOND};
use second::bench::{Bench, CopyInFlight, Counters, Event, COPIES_MAX, EVENTS_MAX};
use second::description::{End, Network};
use second::filter::Triple;
use second::frame::{Header, NONCES};
use second::random::Random;
use second::stands;
use second::traffic::{self, Habit};

pub fn write_vector(r: &mut Random, labels: &mut Vec<&'static str>) -> String {
    let network = network_value(r, labels, 60);
    let records =
        network.switches().len() * 9 + network.hosts().len() * 11 + network.links().len() * 7;
    let output = crate::frames::room(r, 1 + records, 25, labels);
    lines::write(&network, output)
}

pub fn fresh_vector(r: &mut Random, labels: &mut Vec<&'static str>) -> String {
    lines::fresh(&network_value(r, labels, 60))
}

/// A network value, damaged with some chance.
fn network_value(r: &mut Random, labels: &mut Vec<&'static str>, damaged: usize) -> Network {
    let mut network =
        if r.chance(4) { networks::overfull(r) } else { stands::network(r, labels) };
    if r.flag() {
        networks::litter(r, &mut network);
    }
    if r.chance(damaged) {
        for _ in 0..r.pick(&[1, 1, 1, 2]) {
            networks::damage(r, &mut network, true);
        }
    }
    network
}

pub fn event_vector(r: &mut Random, labels: &mut Vec<&'static str>, widths: Widths) -> String {
    let (mut bench, mut counters) =
        if r.chance(35) { reached(r, labels) } else { made_up(r, labels) };
    let event = if r.chance(10) {
        traffic::bad_event(r, &bench)
    } else if r.chance(50) && bench.copy_count > 0 {
        Event::Take { place: r.below(bench.copy_count.into()) as u16 }
    } else {
        let habit = Habit::new(r);
        traffic::event(r, &bench, &habit)
    };
    if r.chance(50) {
        litter(r, &mut bench);
    }
    if usize::from(bench.copy_count) >= COPIES_MAX {
        labels.push("512 copies in flight");
    }
    if r.chance(3) {
        // All events used up, whatever else is wrong.
        counters.accepted = r.pick(&[EVENTS_MAX, EVENTS_MAX + 1, widths.counter]);
        if r.flag() {
            damage(r, &mut bench, &mut counters, widths);
        }
    } else if r.chance(30) {
        damage(r, &mut bench, &mut counters, widths);
        if r.chance(20) {
            damage(r, &mut bench, &mut counters, widths);
        }
    }
    lines::event(&bench, &counters, event, widths.by_port)
}

/// A bench that events have led to.
fn reached(r: &mut Random, labels: &mut Vec<&'static str>) -> (Box<Bench>, Counters) {
    let network = stands::network(r, labels);
    let mut bench = Bench::fresh(&network).expect("a network that the writer accepts");
    let mut counters = Counters::default();
    let events = r.pick(&[0, 3, 10, 30, 80, 200]);
    traffic::advance(r, &mut bench, &mut counters, events);
    (bench, counters)
}

/// A bench in shape that events need not lead to.
fn made_up(r: &mut Random, labels: &mut Vec<&'static str>) -> (Box<Bench>, Counters) {
    let network = stands::busy(r, labels);
    let mut bench = Bench::fresh(&network).expect("a network that the writer accepts");
    let down = r.pick(&[0, 0, 20, 60]);
    for link in 0..network.links().len() {
        bench.up[link] = !r.chance(down);
    }
    let pool: Vec<u64> =
        network.hosts().iter().map(|host| host.address).chain([addresses::POOL[0]]).collect();
    for number in 0..network.switches().len() {
        bench.seats[number].switch = bench.follows(number);
        let seat = &mut bench.seats[number];
        seat.switch.next_nonce = r.pick(&[0, 1, NONCES - 1]);
        heads::fill_table(r, &mut seat.switch.table, seat.switch.ports, &pool);
        heads::fill_filter(r, &mut seat.filter);
    }
    fill_copies(r, &mut bench, &pool);
    let counters = made_up_counters(r, bench.copy_count);
    (bench, counters)
}

/// Copies on live links, some of them known to the switch they will reach.
fn fill_copies(r: &mut Random, bench: &mut Bench, pool: &[u64]) {
    let live: Vec<usize> =
        (0..bench.network.links().len()).filter(|link| bench.up[*link]).collect();
    if live.is_empty() {
        return;
    }
    let most = COPIES_MAX;
    let count = r.pick(&[0, 1, 2, 3, 5, 8, 12, 12, 20, most - 3, most - 1, most]);
    for place in 0..count {
        let (link, end) = (r.pick(&live) as u8, r.below(2) as u8);
        let mut copy = CopyInFlight { link, end, ..CopyInFlight::default() };
        let at = bench.arrival(&copy);
        let seat = &mut bench.seats[usize::from(at.switch)];
        copy.source = r.pick(pool);
        copy.destination = if r.chance(85) { r.pick(pool) } else { addresses::destination(r) };
        copy.destination = copy.destination.max(1);
        let hc = heads::hop_count(r, seat.switch.limit);
        copy.header = Header { l: r.flag(), f: r.flag(), hc, nonce: crate::frames::nonce(r) };
        bench.copies[place] = copy;
        if place < 20 && r.chance(30) {
            let Header { l, nonce, .. } = copy.header;
            let triple = Triple { source: copy.source, nonce, l };
            heads::put_near(r, &mut seat.filter, seat.switch.salt, triple);
        }
        if place < 20 && r.chance(30) {
            let host = r.pick(&[copy.source, copy.destination]);
            if second::frame::is_source(host) {
                let (ports, table) = (seat.switch.ports, &mut seat.switch.table);
                heads::put_entry(r, table, host, at.port, ports, hc + 1);
            }
        }
    }
    bench.copy_count = count as u16;
}

/// Counters in shape, some of them as large as may be.
fn made_up_counters(r: &mut Random, copies: u16) -> Counters {
    let accepted = r.pick(&[0, 1, 2, 77, 4_000, EVENTS_MAX - 1]);
    let mut counter = || {
        let any = r.draw() % (8 * accepted + 1);
        r.pick(&[0, any, any, 8 * accepted])
    };
    let (taken, cut, lost) = (counter(), counter(), counter());
    let (delivered, overwritten) = (counter(), counter());
    let placed = taken + cut + u64::from(copies);
    Counters { placed, taken, cut, lost, delivered, overwritten, accepted }
}

/// Something behind the counts, which no call may mind.
fn litter(r: &mut Random, bench: &mut Bench) {
    networks::litter(r, &mut bench.network);
    for link in bench.network.links().len()..bench.up.len() {
        bench.up[link] = r.flag();
    }
    for number in bench.network.switches().len()..bench.seats.len() {
        if r.chance(30) {
            let switch = &mut bench.seats[number].switch;
            switch.ports = r.byte();
            switch.live = r.word() as u16;
            switch.next_nonce = r.word();
            bench.seats[number].filter[r.below(640)] = r.byte();
        }
    }
    for _ in 0..r.below(5) {
        let first = usize::from(bench.copy_count);
        if first < COPIES_MAX {
            let place = r.between(first, COPIES_MAX - 1);
            bench.copies[place] = CopyInFlight {
                link: r.byte(),
                end: r.below(2) as u8,
                source: r.draw(),
                destination: r.draw(),
                header: Header { l: r.flag(), f: r.flag(), hc: r.byte(), nonce: r.word() },
            };
        }
    }
}

/// Puts bench or counters out of shape, most times.
fn damage(r: &mut Random, bench: &mut Bench, counters: &mut Counters, widths: Widths) {
    match r.below(10) {
        0 if r.chance(10) => bench.network = networks::overfull(r),
        0 => networks::damage(r, &mut bench.network, true),
        1..=3 => damage_seat(r, bench),
        4..=6 => damage_copies(r, bench, counters),
        7 => {
            // A link state that the masks and copies don't follow.
            let link = r.below(bench.network.links().len().max(1));
            bench.up[link] = !bench.up[link];
        }
        _ => damage_counters(r, counters, widths),
    }
}

fn damage_seat(r: &mut Random, bench: &mut Bench) {
    let seat = &mut bench.seats[r.below(bench.network.switches().len().max(1))];
    let switch = &mut seat.switch;
    match r.below(12) {
        0 => switch.ports = r.pick(&[0, switch.ports ^ 1, switch.ports + 1, 17]),
        1 => {
            let (less, more) = (switch.limit.saturating_sub(1), switch.limit + 1);
            switch.limit = r.pick(&[0, 63, less, less, more, more]);
        }
        2 => {
            let any = r.below(32);
            switch.salt ^= 1 << r.pick(&[0, 31, any]);
        }
        3 | 4 => switch.live ^= 1 << r.below(16),
        5 | 6 => switch.hosts ^= 1 << r.below(16),
        7 => switch.next_nonce = r.pick(&[NONCES, NONCES + 1, u32::MAX]),
        8 | 9 => heads::break_slot(r, &mut switch.table, switch.ports),
        _ => heads::break_cell(r, &mut seat.filter),
    }
}

fn damage_copies(r: &mut Random, bench: &mut Bench, counters: &mut Counters) {
    let count = usize::from(bench.copy_count);
    if count == 0 || r.chance(15) {
        // More copies than there are; placed follows.
        let more = r.pick(&[1, (COPIES_MAX + 1).saturating_sub(count), 65_535 - count]);
        bench.copy_count = (count + more) as u16;
        counters.placed = counters.placed.saturating_add(more as u64);
        return;
    }
    let links = bench.network.link_count;
    let any = r.below(count);
    let place = r.pick(&[0, count - 1, any]).min(COPIES_MAX - 1);
    let down = (0..bench.network.links().len()).find(|link| !bench.up[*link]);
    let copy = &mut bench.copies[place];
    match r.below(13) {
        0 => copy.link = links,
        1 => copy.link = r.pick(&[63, 64, 128, 252, 253, 254, 255]).max(links),
        2 | 3 => copy.link = down.map_or(255, |link| link as u8),
        4 | 5 => copy.source = addresses::bad_source(r, true),
        6 => copy.destination = 0,
        7 => copy.destination |= r.pick(&[BEYOND, 1 << 63]),
        8 => copy.destination = r.pick(&[BEYOND, u64::MAX]),
        9 => copy.header.hc = 0,
        10 => copy.header.hc = r.pick(&[64, 65, 128, 255]),
        11 => copy.header.nonce = r.pick(&[NONCES, u32::MAX]),
        // Not wrong at all.
        _ => copy.header.hc = 63,
    }
}

fn damage_counters(r: &mut Random, counters: &mut Counters, widths: Widths) {
    let over = 8 * counters.accepted.min(EVENTS_MAX) + 1;
    let value = r.pick(&[over, over, over, widths.counter, widths.counter / 2 + 1]);
    match r.below(10) {
        0 => counters.placed = counters.placed.wrapping_add(1) & widths.counter,
        1 => counters.placed = counters.placed.saturating_sub(1),
        2 => {
            // Too large, and the sum is right.
            let more = value.saturating_sub(counters.taken);
            counters.taken = value;
            counters.placed = counters.placed.wrapping_add(more) & widths.counter;
        }
        3 => {
            let more = value.saturating_sub(counters.cut);
            counters.cut = value;
            counters.placed = counters.placed.wrapping_add(more) & widths.counter;
        }
        4 => counters.lost = value,
        5 => counters.delivered = value,
        6 => counters.overwritten = value,
        7 => {
            // Sums that come round.
            counters.taken = widths.counter;
            counters.cut = 1;
            counters.placed = 0;
        }
        8 => counters.accepted = 0,
        _ => counters.placed = widths.counter,
    }
}

/// Where a copy stands as switch and port. One that is on no link stands
/// somewhere that no cable of the network leads to.
pub fn place_of(bench: &Bench, copy: &CopyInFlight) -> End {
    if usize::from(copy.link) < bench.network.links().len() {
        return bench.arrival(copy);
    }
    let cabled = |end: &End| bench.network.links().iter().any(|link| link.ends.contains(end));
    let host = bench.network.hosts().first().map(|host| host.end);
    let ports = (0..8).map(|port| End { switch: 0, port });
    let nowhere = match copy.link % 4 {
        0 => host,
        1 => Some(End { switch: 0, port: 200 }),
        2 => ports.into_iter().find(|end| !cabled(end)),
        _ => None,
    };
    nowhere.filter(|end| !cabled(end)).unwrap_or(End { switch: 200, port: 0 })
}
