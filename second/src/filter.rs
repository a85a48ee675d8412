//! The filter: a power of two of cells in a lent buffer. A cell is ten bytes:
//! all zeros, or source 6, nonce 3 (high byte first), L as 0 or 1.

use crate::frame::{address_bytes, address_from, is_source};
use std::ops::Range;

pub const CELL: usize = 10;
pub const CELLS_MIN: usize = 16;
pub const CELLS_MAX: usize = 256;

/// What the filter remembers of a flooded frame.
#[derive(Clone, Copy, PartialEq, Eq, Debug)]
pub struct Triple {
    pub source: u64,
    pub nonce: u32,
    pub l: bool,
}

impl Triple {
    /// The bytes as they stand in a cell, which are also those of the hash.
    pub fn to_bytes(self) -> [u8; CELL] {
        let mut bytes = [0; CELL];
        bytes[..6].copy_from_slice(&address_bytes(self.source));
        bytes[6..9].copy_from_slice(&self.nonce.to_be_bytes()[1..]);
        bytes[9] = self.l as u8;
        bytes
    }
}

/// Where a triple belongs in a filter of so many cells.
pub fn cell_number(salt: u32, triple: Triple, cells: usize) -> usize {
    let hash = triple
        .to_bytes()
        .iter()
        .fold(salt, |h, &byte| (h.rotate_left(5) ^ u32::from(byte)).wrapping_add(0x9E37_79B9));
    hash as usize % cells
}

/// The bytes of a triple's cell.
fn cell(length: usize, salt: u32, triple: Triple) -> Range<usize> {
    let start = cell_number(salt, triple, length / CELL) * CELL;
    start..start + CELL
}

/// A triple is a duplicate when its cell holds exactly it.
pub fn is_duplicate(filter: &[u8], salt: u32, triple: Triple) -> bool {
    let cell = &filter[cell(filter.len(), salt, triple)];
    *cell == triple.to_bytes()
}

/// Overwrites the triple's cell. Answers whether another triple was replaced.
#[must_use]
pub fn record(filter: &mut [u8], salt: u32, triple: Triple) -> bool {
    let place = cell(filter.len(), salt, triple);
    let cell = &mut filter[place];
    let new = triple.to_bytes();
    let overwrote = *cell != [0; CELL] && *cell != new;
    cell.copy_from_slice(&new);
    overwrote
}

/// The length fits and every cell is empty or holds a triple. A triple need
/// not stand in its own cell.
pub fn is_well_formed(filter: &[u8]) -> bool {
    let cells = filter.len() / CELL;
    cells * CELL == filter.len()
        && (CELLS_MIN..=CELLS_MAX).contains(&cells)
        && cells.is_power_of_two()
        && filter.chunks(CELL).all(is_well_formed_cell)
}

fn is_well_formed_cell(cell: &[u8]) -> bool {
    *cell == [0; CELL] || is_source(address_from(cell)) && cell[9] <= 1
}
