//! Switches with tables and filters, and the vectors of one step.

use crate::frames;
use crate::lines::{self, Output};
use second::addresses::{self, GROUP};
use second::filter::{cell_number, Triple, CELL};
use second::frame::{address_bytes, Header, HOP_COUNT_MAX, NONCES, TAG_TYPE};
use second::random::Random;
use second::step::Switch;
use second::table::{Slot, Table, SLOTS};

pub struct Case {
    pub switch: Switch,
    pub filter: Vec<u8>,
    pub arrival: u8,
    pub frame: Vec<u8>,
    pub output: Output,
}

pub fn step_vector(r: &mut Random, labels: &mut Vec<&'static str>) -> String {
    let mut case = sound(r, labels);
    if r.chance(35) {
        // Two causes or three: the lowest number has to win.
        for _ in 0..r.pick(&[1, 1, 2, 3]) {
            let refusal = r.pick(&[1, 1, 1, 2, 3, 4, 5, 6, 7, 8, 9, 9]);
            damage(r, &mut case, refusal, labels);
        }
    }
    lines::step(&case)
}

/// A step that nothing is wrong with.
fn sound(r: &mut Random, labels: &mut Vec<&'static str>) -> Case {
    let (mut switch, arrival) = switch_and_arrival(r);
    let source = addresses::source(r);
    let destination = if r.chance(6) { source } else { addresses::destination(r) };
    let from_host = switch.hosts >> arrival & 1 == 1;
    let header = header(r, &switch, from_host);
    let frame = if from_host {
        let length = frames::length(r, 60, 1514);
        frames::host_frame(r, length, source, destination)
    } else {
        let length = frames::length(r, 66, 1520);
        frames::tagged_frame(r, length, source, destination, header)
    };
    let (ports, table) = (switch.ports, &mut switch.table);
    fill_table(r, table, ports, &addresses::POOL);
    if r.chance(50) {
        put_entry(r, table, source, arrival, ports, header.hc + 1);
    }
    if r.chance(60) && second::frame::is_source(destination) {
        put_entry(r, table, destination, arrival, ports, header.hc + 1);
    }
    let filter = filter_about(r, switch.salt, source, header);
    let needed = frame.len() + if from_host { 6 } else { 0 };
    let output = frames::room(r, needed, 0, labels);
    Case { switch, filter, arrival, frame, output }
}

/// A switch that knows nobody yet, and a live port of it.
fn switch_and_arrival(r: &mut Random) -> (Switch, u8) {
    let any = r.between(1, 16) as u8;
    let ports = r.pick(&[1, 2, 3, 4, 4, 4, 8, 15, 16, any]);
    let all = ((1u32 << ports) - 1) as u16;
    let arrival = r.below(ports.into()) as u8;
    let some = r.word() as u16;
    let live = r.pick(&[all, all, some & all]) | 1 << arrival;
    let some = r.word() as u16;
    let hosts = r.pick(&[0, all, some & all, some & all]);
    let limit = r.pick(&[1, 2, 3, 5, 16, 16, 16, 30, 61, 62]);
    let salt = salt(r);
    let some = r.word() % NONCES;
    let next_nonce = r.pick(&[0, 0, 1, NONCES - 2, NONCES - 1, some]);
    let table = Table::empty();
    (Switch { ports, live, hosts, limit, salt, next_nonce, table }, arrival)
}

/// The header a frame arrives with. A host's frame has none; this stands for
/// it, a hop before the one that rule 1 gives.
fn header(r: &mut Random, switch: &Switch, from_host: bool) -> Header {
    if from_host {
        return Header { l: true, f: false, hc: 0, nonce: switch.next_nonce };
    }
    let hc = hop_count(r, switch.limit);
    Header { l: r.flag(), f: r.flag(), hc, nonce: frames::nonce(r) }
}

/// A filter that may know a frame, or one nearly like it: as it arrives, and
/// with L clear as rule 9 records it.
fn filter_about(r: &mut Random, salt: u32, source: u64, header: Header) -> Vec<u8> {
    let cells = r.pick(&[16, 32, 64, 128, 256]);
    let mut filter = vec![0; cells * CELL];
    fill_filter(r, &mut filter);
    for l in [header.l, false] {
        if r.chance(35) {
            let triple = Triple { source, nonce: header.nonce, l };
            put_near(r, &mut filter, salt, triple);
        }
    }
    filter
}

pub fn salt(r: &mut Random) -> u32 {
    let some = r.word();
    r.pick(&[0, 1, 2, u32::MAX, some, some, some])
}

/// A received hop count, often about the limit.
pub fn hop_count(r: &mut Random, limit: u8) -> u8 {
    let below = r.byte() % limit + 1;
    let about = [1, 1, 2, 3, below, below, limit - 1, limit - 1, limit, limit + 1, 62, 63];
    r.pick(&about).clamp(1, HOP_COUNT_MAX)
}

/// Entries of some addresses, in slots with gaps; sometimes a full table.
pub fn fill_table(r: &mut Random, table: &mut Table, ports: u8, pool: &[u64]) {
    let entries = r.pick(&[0, 1, 2, 3, 5, 8, 20, 62, 63, 64, 64]);
    let mut places: Vec<usize> = (0..SLOTS).collect();
    if r.chance(80) {
        r.shuffle(&mut places);
    }
    for &place in &places[..entries] {
        // In a large table most addresses are strangers.
        let known = !pool.is_empty() && (entries < 10 || r.chance(10));
        let address = if known { r.pick(pool) } else { addresses::any_source(r) };
        if table.slots.iter().all(|slot| slot.address != address) {
            let (port, hops) = (r.below(ports.into()) as u8, hops(r, 16));
            table.slots[place] = Slot { address, port, hops };
        }
    }
}

fn hops(r: &mut Random, about: u8) -> u8 {
    let any = r.byte() % 62 + 1;
    let low = about.saturating_sub(1);
    r.pick(&[1, 1, 1, 2, 3, low, about, about + 1, 62, any]).clamp(1, 62)
}

/// An entry for an address: in its slot, in an empty one, or instead of
/// another entry.
pub fn put_entry(
    r: &mut Random,
    table: &mut Table,
    address: u64,
    arrival: u8,
    ports: u8,
    about: u8,
) {
    let known = table.slots.iter().position(|slot| slot.address == address);
    let place = known.unwrap_or_else(|| r.below(SLOTS));
    let any = r.below(ports.into()) as u8;
    let port = r.pick(&[arrival, any, any, any]);
    table.slots[place] = Slot { address, port, hops: hops(r, about) };
}

fn any_triple(r: &mut Random) -> Triple {
    Triple { source: addresses::source(r), nonce: frames::nonce(r), l: r.flag() }
}

/// Triples anywhere in the filter, not only in their own cells.
pub fn fill_filter(r: &mut Random, filter: &mut [u8]) {
    let percent = r.pick(&[0, 0, 3, 20, 100]);
    for cell in filter.chunks_mut(CELL) {
        if r.chance(percent) {
            cell.copy_from_slice(&any_triple(r).to_bytes());
        }
    }
}

/// In the triple's own cell: the triple, or one that differs a little.
pub fn put_near(r: &mut Random, filter: &mut [u8], salt: u32, triple: Triple) {
    let number = cell_number(salt, triple, filter.len() / CELL);
    let cell = &mut filter[number * CELL..(number + 1) * CELL];
    let mut bytes = triple.to_bytes();
    match r.below(6) {
        0..=2 => {}
        3 => bytes[9] ^= 1,
        4 => bytes[r.between(6, 8)] ^= 1 << r.below(8),
        _ => {
            let at = r.between(1, 5);
            bytes[at] ^= 1 << r.below(8);
            // The source must not become zero.
            if bytes[..6] == [0; 6] {
                bytes[at] = 255;
            }
        }
    }
    cell.copy_from_slice(&bytes);
}

/// A slot that breaks the rules.
pub fn break_slot(r: &mut Random, table: &mut Table, ports: u8) {
    let place = r.below(SLOTS);
    let sound = Slot { address: addresses::any_source(r), port: 0, hops: 1 };
    let old = table.slots[place];
    let slot = if old == Slot::EMPTY { sound } else { old };
    table.slots[place] = match r.below(9) {
        0 => Slot { address: 0, port: 1, hops: 0 },
        1 => Slot { address: 0, port: 0, hops: 1 },
        2 => Slot { address: slot.address | GROUP, ..slot },
        3 => Slot { address: addresses::bad_source(r, true), ..slot },
        4 => Slot { port: ports, ..slot },
        5 => Slot { port: 255, ..slot },
        6 => Slot { hops: 0, ..slot },
        7 => Slot { hops: 63, ..slot },
        _ => {
            let other = (place + r.between(1, SLOTS - 1)) % SLOTS;
            table.slots[other] = slot;
            slot
        }
    };
}

/// A cell that breaks the rules.
pub fn break_cell(r: &mut Random, filter: &mut [u8]) {
    let cells = filter.len() / CELL;
    if cells == 0 {
        return;
    }
    let any = r.below(cells);
    let number = r.pick(&[0, cells - 1, any]);
    let cell = &mut filter[number * CELL..(number + 1) * CELL];
    cell.copy_from_slice(&any_triple(r).to_bytes());
    match r.below(6) {
        0 => cell[0] |= 1,
        1 => cell[9] = r.pick(&[2, 128, 255]),
        2 => cell[..9].fill(0),
        _ => cell[..6].fill(0),
    }
    // All zeros would be an empty cell.
    if cell.iter().all(|byte| *byte == 0) {
        cell[9] = 1;
    }
}

/// Puts in the cause of a refusal, by its number, most times.
fn damage(r: &mut Random, case: &mut Case, refusal: usize, labels: &mut Vec<&'static str>) {
    let arrival = u32::from(case.arrival);
    let from_host = case.switch.hosts.checked_shr(arrival).unwrap_or(0) & 1 == 1;
    match refusal {
        1 => break_head(r, case),
        2 => {
            let ports = case.switch.ports;
            case.arrival = r.pick(&[ports, ports, ports.saturating_add(1), 255]);
        }
        3 => case.switch.live &= !1u16.checked_shl(arrival).unwrap_or(0),
        4 => {
            let (least, most) = if from_host { (60, 1514) } else { (66, 1520) };
            case.frame.resize(frames::bad_length(r, least, most), 0x88);
        }
        5 => {
            let source = address_bytes(addresses::bad_source(r, false));
            set(&mut case.frame, 6, &source);
        }
        6 => {
            set(&mut case.frame, if from_host { 12 } else { 18 }, &TAG_TYPE);
        }
        7 => {
            let other = r.pick(&[[0x08, 0x00], [0x88, 0xB4], [0xB5, 0x88]]);
            set(&mut case.frame, 12, &other);
        }
        8 => {
            if let (Some(byte), false) = (case.frame.get_mut(14), from_host) {
                *byte &= 0xC0;
            }
        }
        _ => {
            let needed = case.frame.len() + if from_host { 6 } else { 0 };
            labels.clear();
            case.output = frames::room(r, needed.max(1), 100, labels);
        }
    }
}

/// Something that refusal 1 names, most times.
fn break_head(r: &mut Random, case: &mut Case) {
    let switch = &mut case.switch;
    match r.below(14) {
        0 => switch.ports = r.pick(&[0, 17, 18, 255]),
        1 => switch.ports = r.between(1, 16) as u8,
        2 => switch.live |= 1u16.checked_shl(switch.ports.into()).unwrap_or(0),
        3 => switch.hosts |= 1u16.checked_shl(switch.ports.into()).unwrap_or(0),
        4 => switch.hosts |= 1 << 15,
        5 => switch.limit = r.pick(&[0, 63, 64, 255]),
        6 => switch.next_nonce = r.pick(&[NONCES, NONCES + 1, u32::MAX]),
        7..=9 => break_slot(r, &mut switch.table, switch.ports),
        10 => {
            let lengths =
                [0, 1, 10, 80, 150, 159, 161, 165, 170, 240, 480, 650, 2550, 2570, 5120];
            case.filter.resize(r.pick(&lengths), 0);
        }
        _ => break_cell(r, &mut case.filter),
    }
}

fn set(frame: &mut [u8], at: usize, bytes: &[u8]) {
    if let Some(place) = frame.get_mut(at..at + bytes.len()) {
        place.copy_from_slice(bytes);
    }
}
