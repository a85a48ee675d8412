//! Descriptions as bytes, valid and damaged.

use crate::networks;
use second::description::{Network, HOST, LINK, SWITCH};
use second::frame::address_bytes;
use second::random::Random;
use second::stands;

/// Records one by one, without any check.
pub fn records(network: &Network) -> Vec<Vec<u8>> {
    let mut records = Vec::new();
    for switch in network.switches() {
        let mut record = vec![0, 7, SWITCH, switch.ports, switch.hops];
        record.extend(switch.salt.to_be_bytes());
        records.push(record);
    }
    for host in network.hosts() {
        let mut record = vec![0, 9, HOST, host.end.switch, host.end.port];
        record.extend(address_bytes(host.address));
        records.push(record);
    }
    for link in network.links() {
        let [a, b] = link.ends;
        records.push(vec![0, 5, LINK, a.switch, a.port, b.switch, b.port]);
    }
    records
}

fn joined(version: u8, records: &[Vec<u8>]) -> Vec<u8> {
    let mut bytes = vec![version];
    bytes.extend(records.concat());
    bytes
}

pub fn valid(network: &Network) -> Vec<u8> {
    joined(1, &records(network))
}

/// A description with something wrong, most times.
pub fn damaged(r: &mut Random, network: &Network) -> Vec<u8> {
    match r.below(20) {
        0 => r.pick(&[&[][..], &[0], &[2], &[0xFF, 1], &[0, 1, 1]]).to_vec(),
        1 => joined(r.pick(&[0, 2, 16, 255]), &records(network)),
        2 | 3 => {
            let mut bytes = valid(network);
            bytes.truncate(r.below(bytes.len() + 1));
            bytes
        }
        4 => {
            let mut records = records(&stands::largest(r));
            one_more(r, &mut records);
            joined(1, &records)
        }
        5..=10 => {
            let mut network = network.clone();
            networks::damage(r, &mut network, false);
            if r.chance(20) {
                networks::damage(r, &mut network, false);
            }
            joined(1, &records(&network))
        }
        _ => {
            let mut records = records(network);
            damage_records(r, &mut records);
            if r.chance(25) {
                damage_records(r, &mut records);
            }
            joined(1, &records)
        }
    }
}

/// What may stand where a description ends: events, and what looks like one.
fn tail(r: &mut Random) -> Vec<u8> {
    let tails: [&[u8]; 12] = [
        &[0, 3, 6, 0, 0],
        &[0xFF, 0xFF, 4],
        &[0, 1, 5],
        &[0, 9, 6, 1, 1],
        // Length 0 is no record, whatever follows.
        &[0, 0, 4],
        &[0, 0],
        &[0],
        &[0, 3],
        &[0, 3, 0, 0, 0],
        &[0, 3, 7, 0, 0],
        &[0, 1, 255],
        &[0, 0, 4, 0, 0, 0, 0, 0, 0, 0],
    ];
    r.pick(&tails).to_vec()
}

/// Something wrong at one record or between two, most times.
fn damage_records(r: &mut Random, records: &mut Vec<Vec<u8>>) {
    let count = records.len();
    let place = r.below(count + 1);
    if count == 0 || r.chance(15) {
        records.insert(place, tail(r));
        return;
    }
    let place = r.below(count);
    if records[place].len() < 3 {
        return;
    }
    match r.below(10) {
        field @ 0..=2 => damage_field(r, &mut records[place], field),
        3 => {
            let at = r.below(records[place].len());
            records[place][at] = r.byte() >> r.below(8);
        }
        way @ 4..=7 => misplace(r, records, place, way),
        8 => {
            // A byte too many or too few, length field as before.
            if r.flag() {
                records[place].push(r.byte());
            } else {
                records[place].pop();
            }
        }
        _ => one_more(r, records),
    }
}

/// A wrong length field, in its low byte or its high byte, or a wrong kind.
fn damage_field(r: &mut Random, record: &mut [u8], field: usize) {
    match field {
        0 => record[1] = r.pick(&[0, 1, 4, 5, 6, 7, 8, 9, 10]),
        1 => record[0] = r.pick(&[1, 255]),
        _ => record[2] = r.pick(&[0, 1, 2, 3, 4, 5, 6, 7, 8, 255]),
    }
}

/// A record twice, swapped with another, again far behind where it belongs, or
/// not there at all. Its bytes stay as they are.
fn misplace(r: &mut Random, records: &mut Vec<Vec<u8>>, place: usize, way: usize) {
    let record = records[place].clone();
    match way {
        4 => records.insert(place, record),
        5 => {
            let other = r.below(records.len());
            records.swap(place, other);
        }
        6 => records.push(record),
        _ => {
            records.remove(place);
        }
    }
}

/// A record more of some kind, at its place or further behind, sound or with
/// a second fault.
fn one_more(r: &mut Random, records: &mut Vec<Vec<u8>>) {
    let more: [&[u8]; 11] = [
        &[0, 7, 1, 4, 16, 0, 0, 0, 9],
        &[0, 7, 1, 0, 99, 0, 0, 0, 9],
        &[0, 6, 1, 4, 16, 0, 0, 0],
        &[0, 10, 2, 15, 7, 2, 0, 0, 9, 9, 9, 9],
        &[0, 5, 3, 15, 6, 15],
        &[0, 9, 2, 15, 7, 2, 0, 0, 9, 9, 9],
        &[0, 9, 2, 0, 0, 2, 0, 0, 9, 9, 9],
        &[0, 9, 2, 255, 255, 0, 0, 0, 0, 0, 0],
        &[0, 5, 3, 15, 6, 15, 7],
        &[0, 5, 3, 254, 0, 255, 0],
        &[0, 5, 3, 0, 0, 0, 0],
    ];
    let more = r.pick(&more).to_vec();
    let own = records.iter().rposition(|record| record.get(2) == more.get(2));
    let own = own.map_or(records.len(), |last| last + 1);
    let later = r.between(own, records.len());
    let place = r.pick(&[own, later, records.len()]);
    records.insert(place, more);
}

/// Input for the reader: BYTES, and zeros behind them.
pub fn input(r: &mut Random, labels: &mut Vec<&'static str>) -> (Vec<u8>, usize) {
    let network = stands::network(r, labels);
    let mut bytes = if r.chance(35) { valid(&network) } else { damaged(r, &network) };
    if r.chance(30) {
        bytes.extend(tail(r));
    }
    if r.chance(96) {
        return (bytes, 0);
    }
    // About the largest size.
    let size = r.pick(&[59_999, 60_000, 60_001, 60_002, 60_080]);
    if size == 60_000 {
        labels.push("input of 60,000 bytes");
    }
    if size == 60_001 {
        labels.push("input of 60,001 bytes");
    }
    if r.chance(70) {
        bytes = valid(&network);
        bytes.extend([0, 3, 6, 0, 0]);
    }
    let zeros = size - bytes.len();
    (bytes, zeros)
}
