//! The learning table: 64 slots of source address, port and hop count.

use crate::frame::is_source;
use std::ops::RangeInclusive;

pub const SLOTS: usize = 64;
pub const HOPS: RangeInclusive<u8> = 1..=62;

/// All zeros is an empty slot.
#[derive(Clone, Copy, PartialEq, Eq, Debug, Default)]
pub struct Slot {
    pub address: u64,
    pub port: u8,
    pub hops: u8,
}

impl Slot {
    pub const EMPTY: Slot = Slot { address: 0, port: 0, hops: 0 };
}

#[derive(Clone, PartialEq, Eq, Debug)]
pub struct Table {
    pub slots: [Slot; SLOTS],
}

impl Table {
    pub fn empty() -> Table {
        Table { slots: [Slot::EMPTY; SLOTS] }
    }

    fn place(&self, address: u64) -> Option<usize> {
        // Empty slots hold address zero, which must not be found in them.
        if address == 0 {
            return None;
        }
        self.slots.iter().position(|slot| slot.address == address)
    }

    pub fn lookup(&self, address: u64) -> Option<Slot> {
        self.place(address).map(|place| self.slots[place])
    }

    /// A known address keeps its slot, a new one takes the lowest empty slot.
    /// Answers whether a new address found the table full.
    #[must_use]
    pub fn learn(&mut self, address: u64, port: u8, hops: u8) -> bool {
        let lowest_empty = || self.slots.iter().position(|slot| *slot == Slot::EMPTY);
        match self.place(address).or_else(lowest_empty) {
            Some(place) => {
                self.slots[place] = Slot { address, port, hops };
                false
            }
            None => true,
        }
    }

    pub fn erase(&mut self, address: u64) {
        if let Some(place) = self.place(address) {
            self.slots[place] = Slot::EMPTY;
        }
    }

    /// Every slot is empty or holds a source, a port of the switch and a hop
    /// count, and no address stands twice.
    pub fn is_well_formed(&self, ports: u8) -> bool {
        let full: Vec<Slot> =
            self.slots.iter().copied().filter(|slot| *slot != Slot::EMPTY).collect();
        let each = full.iter().all(|slot| {
            is_source(slot.address) && slot.port < ports && HOPS.contains(&slot.hops)
        });
        let mut addresses: Vec<u64> = full.iter().map(|slot| slot.address).collect();
        addresses.sort_unstable();
        each && addresses.windows(2).all(|pair| pair[0] != pair[1])
    }
}
