//! A map from serials to handles that keeps its entries in order of arrival, as the measured one does: keys and values
//! in vectors, and a table of their places with open addressing.

use crate::arena::Handle;

const VACANT: u32 = u32::MAX;

/// An entry's hash and place; a vacant slot has no place.
#[derive(Clone, Copy)]
struct Slot {
    hash: u32,
    place: u32,
}

#[derive(Default)]
pub struct Serials {
    keys: Vec<u64>,
    handles: Vec<Handle>,
    hashes: Vec<u32>,
    slots: Vec<Slot>,
}

/// A number is multiplied to 128 bits, and the halves are combined.
fn hash_of(key: u64) -> u32 {
    let product = u128::from(key ^ 0x243f_6a88_85a3_08d3) * 0x9e37_79b9_7f4a_7c05;
    product as u32 ^ (product >> 64) as u32
}

impl Serials {
    /// Makes room, so that at most three of four slots are used.
    pub fn reserve(&mut self, additional: usize) {
        self.keys.reserve(additional);
        self.handles.reserve(additional);
        self.hashes.reserve(additional);
        let wanted = self.keys.len() + additional;
        if wanted > self.slots.len() / 4 * 3 {
            self.resize((wanted * 2).next_power_of_two().max(16));
        }
    }

    fn resize(&mut self, slots: usize) {
        let vacant = Slot {
            hash: 0,
            place: VACANT,
        };
        self.slots.clear();
        self.slots.resize(slots, vacant);
        for place in 0..self.hashes.len() {
            let hash = self.hashes[place];
            let at = self.vacant_at(hash);
            self.slots[at] = Slot {
                hash,
                place: place as u32,
            };
        }
    }

    /// The first vacant slot for a hash.
    fn vacant_at(&self, hash: u32) -> usize {
        let mut at = hash as usize & (self.slots.len() - 1);
        while self.slots[at].place != VACANT {
            at = (at + 1) & (self.slots.len() - 1);
        }
        at
    }

    /// Puts the handle in place of the serial's old one, or after all others.
    pub fn insert(&mut self, key: u64, handle: Handle) -> Option<Handle> {
        let hash = hash_of(key);
        let mut at = hash as usize & (self.slots.len() - 1);
        while self.slots[at].place != VACANT {
            let place = self.slots[at].place as usize;
            if self.slots[at].hash == hash && self.keys[place] == key {
                return Some(std::mem::replace(&mut self.handles[place], handle));
            }
            at = (at + 1) & (self.slots.len() - 1);
        }
        self.slots[at] = Slot {
            hash,
            place: self.keys.len() as u32,
        };
        self.keys.push(key);
        self.handles.push(handle);
        self.hashes.push(hash);
        None
    }

    /// The slot of the serial's entry.
    fn slot_of(&self, key: u64) -> Option<usize> {
        if self.slots.is_empty() {
            return None;
        }
        let hash = hash_of(key);
        let mut at = hash as usize & (self.slots.len() - 1);
        while self.slots[at].place != VACANT {
            if self.slots[at].hash == hash && self.keys[self.slots[at].place as usize] == key {
                return Some(at);
            }
            at = (at + 1) & (self.slots.len() - 1);
        }
        None
    }

    pub fn get(&self, key: u64) -> Option<Handle> {
        let at = self.slot_of(key)?;
        Some(self.handles[self.slots[at].place as usize])
    }

    /// Removes the entry; the last entry takes its place.
    pub fn remove(&mut self, key: u64) {
        let Some(mut gap) = self.slot_of(key) else {
            return;
        };
        let place = self.slots[gap].place;
        let last = self.keys.len() as u32 - 1;
        if let Some(moved) = self.slot_of(self.keys[last as usize]) {
            self.slots[moved].place = place;
        }
        self.keys.swap_remove(place as usize);
        self.handles.swap_remove(place as usize);
        self.hashes.swap_remove(place as usize);
        let mask = self.slots.len() - 1;
        let mut at = gap;
        loop {
            at = (at + 1) & mask;
            if self.slots[at].place == VACANT {
                break;
            }
            let home = self.slots[at].hash as usize & mask;
            if (at.wrapping_sub(home) & mask) >= (at.wrapping_sub(gap) & mask) {
                self.slots[gap] = self.slots[at];
                gap = at;
            }
        }
        self.slots[gap].place = VACANT;
    }
}
