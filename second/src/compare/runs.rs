//! Runs: a description followed by events, played along while they are made.

use crate::descriptions;
use second::bench::{Bench, Counters};
use second::description::INPUT_MAX;
use second::random::Random;
use second::stands;
use second::traffic::advance;

/// How long a run is.
fn length(r: &mut Random) -> usize {
    match r.below(400) {
        0..=239 => r.between(1, 40),
        240..=339 => r.between(40, 160),
        340..=389 => r.between(160, 600),
        390..=398 => r.between(600, 2_000),
        _ => INPUT_MAX / 5,
    }
}

/// A whole input, and zeros behind it.
pub fn input(r: &mut Random, labels: &mut Vec<&'static str>) -> (Vec<u8>, usize) {
    let network =
        if r.chance(85) { stands::busy(r, labels) } else { stands::network(r, labels) };
    if r.chance(28) {
        return descriptions::input(r, labels);
    }
    let mut bytes = descriptions::valid(&network);
    if r.chance(6) {
        bytes = descriptions::damaged(r, &network);
    }
    let mut bench = Bench::fresh(&network).expect("a network that the writer accepts");
    let mut counters = Counters::default();
    let events = length(r);
    let mut records: Vec<Vec<u8>> = advance(r, &mut bench, &mut counters, events)
        .into_iter()
        .map(|event| event.record())
        .collect();
    if r.chance(8) {
        break_record(r, &mut records);
    }
    for record in records {
        if bytes.len() + record.len() <= INPUT_MAX {
            bytes.extend(record);
        }
    }
    if events > 10_000 {
        return (fill_up(r, bytes, labels), 0);
    }
    (bytes, 0)
}

/// An input of the largest size or one byte more, all of it events.
fn fill_up(r: &mut Random, mut bytes: Vec<u8>, labels: &mut Vec<&'static str>) -> Vec<u8> {
    while bytes.len() + 5 <= INPUT_MAX {
        bytes.extend([0, 3, 6, 0, 1]);
    }
    if r.flag() {
        labels.push("input of 60,000 bytes");
        bytes.resize(INPUT_MAX, 0);
    } else {
        labels.push("input of 60,001 bytes");
        bytes.resize(INPUT_MAX + 1, 0);
    }
    bytes
}

/// An event record that ends the run.
fn break_record(r: &mut Random, records: &mut Vec<Vec<u8>>) {
    let place = r.below(records.len() + 1);
    let bad: [&[u8]; 16] = [
        &[0],
        &[0, 3],
        &[0, 3, 5],
        &[0, 3, 5, 0],
        &[0, 0],
        &[0, 0, 4],
        &[0, 4, 5, 0, 0, 0],
        &[0, 2, 6, 0],
        &[0, 7, 4, 0, 2, 0, 0, 0, 0],
        &[0, 9, 4, 0, 2, 0, 0, 0, 0, 1, 0],
        &[0, 3, 7, 0, 0],
        &[0, 7, 1, 4, 0, 0, 0, 0, 1],
        &[0, 9, 2, 0, 0, 2, 0, 0, 0, 0, 1],
        &[0, 5, 3, 0, 0, 0, 1],
        &[0xFF, 0xFF, 4],
        &[1, 3, 5, 0, 0],
    ];
    records.insert(place, r.pick(&bad).to_vec());
    if r.flag() {
        records.truncate(place + 1);
    }
}
