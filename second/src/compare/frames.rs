//! Frames, and the vectors of tagging and stripping.

use crate::coverage::{JUST_ENOUGH, SHORT_BY_ONE};
use crate::lines::{self, Output};
use second::addresses;
use second::frame::{address_bytes, Header, HOP_COUNT_MAX, NONCES, TAG_TYPE};
use second::random::Random;

/// A frame's length: mostly short, some at both edges.
pub fn length(r: &mut Random, least: usize, most: usize) -> usize {
    match r.below(20) {
        0 => most,
        1 => r.between(least, most),
        2..=9 => least,
        10 => least + 1,
        _ => r.between(least, least + 30),
    }
}

/// A length that is not allowed.
pub fn bad_length(r: &mut Random, least: usize, most: usize) -> usize {
    let shorter = r.below(least);
    r.pick(&[least - 1, least - 1, most + 1, most + 1, shorter, 0, 13, 14, 19, 20, most + 7])
}

fn any_type(r: &mut Random) -> [u8; 2] {
    match r.below(8) {
        0 => r.pick(&[[0x88, 0xB4], [0x88, 0xB6], [0xB5, 0x88], [0x08, 0xB5], [0x88, 0x35]]),
        1..=3 => [0x08, 0x00],
        _ => {
            let some = [r.byte(), r.byte()];
            if some == TAG_TYPE {
                [0x08, 0x06]
            } else {
                some
            }
        }
    }
}

/// A host frame that no check minds.
pub fn host_frame(r: &mut Random, length: usize, source: u64, destination: u64) -> Vec<u8> {
    let mut frame: Vec<u8> = (0..length).map(|_| r.byte()).collect();
    frame[..6].copy_from_slice(&address_bytes(destination));
    frame[6..12].copy_from_slice(&address_bytes(source));
    let kind = any_type(r);
    frame[12..14].copy_from_slice(&kind);
    // Our type where it means nothing.
    if r.chance(10) {
        frame[18..20].copy_from_slice(&TAG_TYPE);
    }
    if r.chance(10) {
        frame[14..16].copy_from_slice(&TAG_TYPE);
    }
    frame
}

/// A tagged frame that no check minds, if the header is sound.
pub fn tagged_frame(
    r: &mut Random,
    length: usize,
    source: u64,
    destination: u64,
    header: Header,
) -> Vec<u8> {
    let mut frame = host_frame(r, length - 6, source, destination);
    frame.splice(12..12, TAG_TYPE.into_iter().chain(header.to_bytes()));
    frame
}

pub fn nonce(r: &mut Random) -> u32 {
    match r.below(8) {
        0..=2 => 0,
        3 => 1,
        4 => NONCES - 1,
        5 => 0x01_0203,
        _ => r.word() % NONCES,
    }
}

/// An output length around what is needed; short ones with some chance.
pub fn room(
    r: &mut Random,
    needed: usize,
    short: usize,
    labels: &mut Vec<&'static str>,
) -> Output {
    let length = if r.chance(short) {
        let shorter = r.below(needed);
        r.pick(&[needed - 1, needed - 1, needed - 1, shorter, 0])
    } else {
        r.pick(&[needed, needed, needed + 1, needed + 12, needed + 100])
    };
    if length + 1 == needed {
        labels.push(SHORT_BY_ONE);
    }
    if length == needed {
        labels.push(JUST_ENOUGH);
    }
    Output { length, fill: r.byte() }
}

/// Bytes that hold our type in the wrong places, or none.
fn set_type(r: &mut Random, frame: &mut [u8], at: usize) {
    if let Some(bytes) = frame.get_mut(at..at + 2) {
        let some = any_type(r);
        bytes.copy_from_slice(if r.flag() { &TAG_TYPE } else { &some });
    }
}

pub fn tag_vector(r: &mut Random, labels: &mut Vec<&'static str>) -> String {
    let (source, destination) =
        (if r.chance(90) { addresses::source(r) } else { 0 }, addresses::destination(r));
    let length = length(r, 60, 1514);
    let mut frame = host_frame(r, length, source, destination);
    let random = r.byte();
    let hc = r.pick(&[1, 2, 16, 62, HOP_COUNT_MAX, random % HOP_COUNT_MAX + 1]);
    let mut header = Header { l: r.flag(), f: r.flag(), hc, nonce: nonce(r) };
    for _ in 0..r.pick(&[0, 0, 1, 1, 2, 3]) {
        match r.below(5) {
            0 => frame.resize(bad_length(r, 60, 1514), 0x88),
            1 => set_type(r, &mut frame, 12),
            2 => header.hc = 0,
            3 => header.hc = r.pick(&[64, 65, 127, 128, 255]),
            _ => header.nonce = r.pick(&[NONCES, NONCES + 1, u32::MAX, 1 << 31]),
        }
    }
    let output = room(r, frame.len() + 6, 15, labels);
    lines::tag(&frame, header, output)
}

pub fn strip_vector(r: &mut Random, labels: &mut Vec<&'static str>) -> String {
    let (source, destination) =
        (if r.chance(90) { addresses::source(r) } else { 0 }, addresses::destination(r));
    let length = length(r, 66, 1520);
    let header =
        Header { l: r.flag(), f: r.flag(), hc: r.byte() % HOP_COUNT_MAX + 1, nonce: nonce(r) };
    let mut frame = tagged_frame(r, length, source, destination, header);
    for _ in 0..r.pick(&[0, 0, 1, 1, 2, 3]) {
        match r.below(5) {
            0 => frame.resize(bad_length(r, 66, 1520), 0x88),
            1 => set_type(r, &mut frame, 12),
            2 => set_type(r, &mut frame, 18),
            3 => set_type(r, &mut frame, 20),
            _ => {
                if let Some(byte) = frame.get_mut(14) {
                    *byte &= 0xC0;
                }
            }
        }
    }
    let output = room(r, frame.len().saturating_sub(6).max(1), 15, labels);
    lines::strip(&frame, output)
}
