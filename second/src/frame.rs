//! Host frames, tagged frames and the header between them.
//!
//! A host frame: destination 6, source 6, type 2, rest.
//! A tagged frame: destination 6, source 6, 0x88B5, header 4, old type 2, rest.

use crate::refusal::{self, Refusal};
use std::ops::RangeInclusive;

pub const TAG_TYPE: [u8; 2] = [0x88, 0xB5];
/// What a tagged frame has more than a host frame.
pub const EXTRA: usize = 6;
pub const HOST_LENGTHS: RangeInclusive<usize> = 60..=1514;
pub const TAGGED_LENGTHS: RangeInclusive<usize> = 66..=1520;
/// The largest hop count that six bits carry.
pub const HOP_COUNT_MAX: u8 = 63;
/// Nonces are below this number.
pub const NONCES: u32 = 1 << 24;

/// Addresses are numbers of 48 bits, the first byte highest.
pub const ADDRESSES: u64 = 1 << 48;
const GROUP_BIT: u64 = 1 << 40;

const TYPE_AT: usize = 12;
const HEADER_AT: usize = 14;
const OLD_TYPE_AT: usize = 18;

#[derive(Clone, Copy, PartialEq, Eq, Debug, Default)]
pub struct Header {
    pub l: bool,
    pub f: bool,
    pub hc: u8,
    pub nonce: u32,
}

impl Header {
    /// Byte 0: L in bit 7, F in bit 6, HC in bits 5 to 0. Bytes 1 to 3: nonce.
    pub fn to_bytes(self) -> [u8; 4] {
        let [_, high, middle, low] = self.nonce.to_be_bytes();
        let flags = (self.l as u8) << 7 | (self.f as u8) << 6;
        [flags | self.hc & 0x3F, high, middle, low]
    }

    pub fn from_bytes(bytes: [u8; 4]) -> Header {
        Header {
            l: bytes[0] & 0x80 != 0,
            f: bytes[0] & 0x40 != 0,
            hc: bytes[0] & 0x3F,
            nonce: u32::from_be_bytes([0, bytes[1], bytes[2], bytes[3]]),
        }
    }
}

pub fn address_from(bytes: &[u8]) -> u64 {
    bytes[..6].iter().fold(0, |number, &byte| number << 8 | u64::from(byte))
}

pub fn address_bytes(address: u64) -> [u8; 6] {
    let b = address.to_be_bytes();
    [b[2], b[3], b[4], b[5], b[6], b[7]]
}

/// The group bit is the lowest bit of the first byte.
pub fn is_group(address: u64) -> bool {
    address & GROUP_BIT != 0
}

/// An address that may stand as a source: neither zero nor group, 48 bits.
pub fn is_source(address: u64) -> bool {
    address != 0 && !is_group(address) && address < ADDRESSES
}

pub fn destination(frame: &[u8]) -> u64 {
    address_from(&frame[0..6])
}

pub fn source(frame: &[u8]) -> u64 {
    address_from(&frame[6..12])
}

/// Whether the type is ours. Needs a frame of at least 14 bytes.
pub fn has_tag_type(frame: &[u8]) -> bool {
    frame[TYPE_AT..TYPE_AT + 2] == TAG_TYPE
}

/// Whether the old type is ours too. Needs a frame of at least 20 bytes.
pub fn is_tagged_twice(frame: &[u8]) -> bool {
    has_tag_type(frame) && frame[OLD_TYPE_AT..OLD_TYPE_AT + 2] == TAG_TYPE
}

/// The header of a tagged frame.
pub fn header(frame: &[u8]) -> Header {
    Header::from_bytes([
        frame[HEADER_AT],
        frame[HEADER_AT + 1],
        frame[HEADER_AT + 2],
        frame[HEADER_AT + 3],
    ])
}

/// Writes the tagged frame of a host frame at the output's start.
pub fn put_tagged(frame: &[u8], header: Header, out: &mut [u8]) -> usize {
    let length = frame.len() + EXTRA;
    out[..TYPE_AT].copy_from_slice(&frame[..TYPE_AT]);
    out[TYPE_AT..HEADER_AT].copy_from_slice(&TAG_TYPE);
    out[HEADER_AT..OLD_TYPE_AT].copy_from_slice(&header.to_bytes());
    out[OLD_TYPE_AT..length].copy_from_slice(&frame[TYPE_AT..]);
    length
}

/// Writes a tagged frame with a new header at the output's start.
pub fn put_retagged(frame: &[u8], header: Header, out: &mut [u8]) -> usize {
    out[..frame.len()].copy_from_slice(frame);
    out[HEADER_AT..OLD_TYPE_AT].copy_from_slice(&header.to_bytes());
    frame.len()
}

/// Tagging: a host frame and a header make a tagged frame. Gives its length.
pub fn tag(frame: &[u8], header: Header, out: &mut [u8]) -> Result<usize, Refusal> {
    if !HOST_LENGTHS.contains(&frame.len()) {
        return Err(refusal::LENGTH);
    }
    if has_tag_type(frame) {
        return Err(refusal::TAGGED_ALREADY);
    }
    if header.hc == 0 {
        return Err(refusal::HOP_COUNT_ZERO);
    }
    if header.hc > HOP_COUNT_MAX || header.nonce >= NONCES {
        return Err(refusal::HEADER_RANGE);
    }
    if out.len() < frame.len() + EXTRA {
        return Err(refusal::OUTPUT_SHORT);
    }
    Ok(put_tagged(frame, header, out))
}

/// Stripping: a tagged frame gives the host frame and the header. Gives the
/// host frame's length.
pub fn strip(frame: &[u8], out: &mut [u8]) -> Result<(usize, Header), Refusal> {
    if !TAGGED_LENGTHS.contains(&frame.len()) {
        return Err(refusal::LENGTH);
    }
    if is_tagged_twice(frame) {
        return Err(refusal::TAGGED_ALREADY);
    }
    if !has_tag_type(frame) {
        return Err(refusal::NOT_TAGGED);
    }
    let header = header(frame);
    if header.hc == 0 {
        return Err(refusal::HOP_COUNT_ZERO);
    }
    let length = frame.len() - EXTRA;
    if out.len() < length {
        return Err(refusal::OUTPUT_SHORT);
    }
    out[..TYPE_AT].copy_from_slice(&frame[..TYPE_AT]);
    out[TYPE_AT..length].copy_from_slice(&frame[OLD_TYPE_AT..]);
    Ok((length, header))
}
