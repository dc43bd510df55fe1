//! A cracked store, represented as the measured one is: handles of an arena in a column with an index of bounds,
//! pending insertions and deletions in order of arrival, and a map from serials to handles.

use crate::arena::{Arena, Handle, Row};
use crate::column::{Column, Held};
use crate::index::Index;
use crate::pending::Pending;
use crate::serials::Serials;

/// The high end of the key space.
pub const GREATEST_BOUND: u128 = 1 << 64;

#[derive(Clone, Copy, PartialEq, Eq)]
pub enum Policy {
    Complete,
    Gradual,
    /// Gradual, with room made near the range: the row in the way is put back among the pending insertions, and one of
    /// the piece after the range fills a doomed row's place.
    Ripple,
    /// Complete, in carries that search the index anew at each step, by a key that they read through the arena.
    Anew,
}

#[derive(Default)]
pub struct Store {
    arena: Arena<Row>,
    column: Column,
    index: Index,
    pending_in: Pending,
    pending_out: Pending,
    serials: Serials,
    /// Where the doomed row of a cell was last seen.
    notes: Vec<u32>,
}

impl Store {
    fn held(&self, handle: Handle) -> Held {
        let row = self.arena.get(handle).expect("a live handle");
        Held {
            handle,
            key: row.key,
            payload: row.payload,
        }
    }

    fn add(&mut self, row: Row) -> Handle {
        self.pending_in.reserve(1);
        self.arena.reserve(1);
        let handle = self.arena.put(row);
        self.pending_in.cover(self.arena.cells());
        self.pending_in.push(handle, row.key);
        handle
    }

    /// Adds a row after the last pending insertion.
    pub fn insert(&mut self, row: Row) {
        self.serials.reserve(1);
        let handle = self.add(row);
        self.serials.insert(row.serial, handle);
    }

    fn doom(&mut self, handle: Handle, key: u64) {
        self.pending_out.reserve(1);
        self.pending_out.cover(self.arena.cells());
        self.notes.resize(self.arena.cells(), 0);
        self.pending_out.push(handle, key);
    }

    /// Deletes a row: a pending one is removed at once, one of the column is doomed.
    pub fn delete(&mut self, serial: u64) -> Option<Row> {
        let handle = self.serials.get(serial)?;
        let row = *self.arena.get(handle)?;
        self.serials.remove(serial);
        if self.pending_in.contains(handle.slot()) {
            self.pending_in.strike(handle.slot());
            self.arena.free(handle);
        } else {
            self.doom(handle, row.key);
        }
        Some(row)
    }

    /// Cracks the column at both ends of the range and merges what it needs. Returns the places between which its rows
    /// are.
    pub fn settle(&mut self, low: u128, high: u128, policy: Policy) -> (usize, usize) {
        if high <= low {
            return (0, 0);
        }
        self.index.marks.reserve(2);
        self.crack(low, high);
        match policy {
            Policy::Gradual | Policy::Ripple => self.merge(low, high, policy),
            _ if self.pending_in.next_in(low, high, 0).is_some()
                || self.pending_out.next_in(low, high, 0).is_some() =>
            {
                self.merge(0, GREATEST_BOUND, policy)
            }
            _ => {}
        }
        (self.edge(low), self.edge(high))
    }

    pub fn sum_between(&self, from: usize, to: usize) -> i128 {
        self.column.sum_between(from, to, &self.arena)
    }

    /// The bound with its own piece, by the mark after it, unless the bound exists or is an end of the keys.
    fn missing(&self, bound: u128) -> Option<(usize, u64)> {
        let bound = inner(bound)?;
        let mark = self.index.up_to(bound);
        (mark == 0 || self.index.marks[mark - 1].bound != bound).then_some((mark, bound))
    }

    /// Cracks the column at both ends of the range, in three if both are missing and fall into one piece.
    fn crack(&mut self, low: u128, high: u128) {
        match (self.missing(low), self.missing(high)) {
            (Some((mark, low)), Some((same, high))) if mark == same => {
                let (from, to) = self.index.piece_of(low, self.column.len());
                let (middle, upper) = self.column.crack_three(from, to, low, high, &self.arena);
                self.index.add(low, middle);
                self.index.add(high, upper);
            }
            (first, second) => {
                for (_, bound) in [second, first].into_iter().flatten() {
                    self.crack_in_two(bound);
                }
            }
        }
    }

    fn crack_in_two(&mut self, bound: u64) {
        let (from, to) = self.index.piece_of(bound, self.column.len());
        let place = self.column.crack_two(from, to, bound, &self.arena);
        self.index.add(bound, place);
    }

    fn merge(&mut self, low: u128, high: u128, policy: Policy) {
        let limit = if policy == Policy::Ripple { high } else { GREATEST_BOUND };
        let mut spot = 0;
        while let Some(found) = self.pending_in.next_in(low, high, spot) {
            self.column.reserve(1);
            let (hand, _) = self.pending_in.take(found);
            if policy == Policy::Anew {
                self.carry_anew(hand);
            } else {
                self.carry(hand, limit);
            }
            spot = found + 1;
        }
        self.pending_in.close_up();
        let beyond = inner(high).and_then(|it| self.index.bound_above(it)).map_or(GREATEST_BOUND, u128::from);
        let mut fillers = (policy == Policy::Ripple).then_some(0);
        let mut spot = 0;
        while let Some(found) = self.pending_out.next_in(low, high, spot) {
            let (doomed, key) = self.pending_out.take(found);
            let place = self.place_of(doomed.slot(), key);
            let filler = fillers.and_then(|from| self.pending_in.next_in(high, beyond, from));
            fillers = filler.map(|it| it + 1);
            match filler {
                Some(it) => self.lift(it),
                None => self.lift_last(),
            }
            self.pull(doomed, place);
            self.arena.free(doomed);
            spot = found + 1;
        }
        self.pending_in.close_up();
        self.pending_out.close_up();
    }

    fn lift(&mut self, spot: usize) {
        let (hand, _) = self.pending_in.take(spot);
        let held = self.held(hand);
        self.column.set_aside(held);
    }

    fn bury(&mut self, hand: Handle) {
        self.pending_out.strike(hand.slot());
        self.arena.free(hand);
    }

    /// Puts the hand at the end of its piece, and moves the row that was there on, until one is put at the column's
    /// end, is doomed, or has a key at or above the limit: that one is put back among the pending insertions.
    fn carry(&mut self, hand: Handle, limit: u128) {
        let held = self.held(hand);
        self.column.set_aside(held);
        let mut mark = self.index.up_to(held.key);
        while mark < self.index.marks.len() {
            let place = self.index.marks[mark].position;
            mark = self.index.raise(mark);
            if place == self.column.len() {
                break;
            }
            self.column.exchange(place);
            if self.pending_out.contains(self.column.aside_slot()) {
                return self.bury(self.column.aside().handle);
            }
            if limit <= u128::from(self.column.aside_key()) {
                let out = self.column.aside();
                return self.pending_in.push(out.handle, out.key);
            }
        }
        self.column.append_aside();
    }

    fn carry_anew(&mut self, hand: Handle) {
        let mut hand = hand;
        loop {
            let held = self.held(hand);
            let len = self.column.len();
            let (_, to) = self.index.piece_of(held.key, len);
            let mark = self.index.up_to(held.key);
            if mark < self.index.marks.len() {
                self.index.raise(mark);
            }
            if to == len {
                return self.column.append(held);
            }
            hand = self.column.swap_in(to, held).handle;
            if self.pending_out.contains(hand.slot()) {
                return self.bury(hand);
            }
        }
    }

    /// The place of a doomed row: where it was noted, or else its piece is searched, and each other doomed row there is
    /// noted.
    fn place_of(&mut self, slot: u32, key: u64) -> usize {
        let noted = self.notes[slot as usize] as usize;
        if noted < self.column.len() && self.column.slot_at(noted) == slot {
            return noted;
        }
        let (from, to) = self.index.piece_of(key, self.column.len());
        for (place, other) in (from..to).zip(self.column.slots(from, to)) {
            if other == slot || self.pending_out.contains(other) {
                self.notes[other as usize] = place as u32;
            }
        }
        self.notes[slot as usize] as usize
    }

    fn lift_last(&mut self) {
        let len = self.column.len();
        self.column.pop_aside();
        while self.index.marks.last().is_some_and(|mark| mark.position == len) {
            let to = self.index.marks.partition_point(|mark| mark.position < len);
            for mark in &mut self.index.marks[to..] {
                mark.position -= 1;
            }
        }
    }

    /// Takes a doomed row out of the column: the hand moves down to its place, piece by piece.
    fn pull(&mut self, doomed: Handle, place: usize) {
        let mut mark = self.index.up_to(self.column.aside_key());
        while self.column.aside_slot() != doomed.slot() {
            let from = mark.checked_sub(1).map_or(0, |it| self.index.marks[it].position);
            let to = if from <= place { place } else { from - 1 };
            if from > place {
                mark = self.index.lower(mark);
            }
            let slot = self.column.aside_slot();
            if self.pending_out.contains(slot) {
                self.notes[slot as usize] = to as u32;
            }
            self.column.exchange(to);
        }
    }

    /// The place at which the rows at or above the bound begin.
    fn edge(&self, bound: u128) -> usize {
        if bound == 0 {
            return 0;
        }
        let Some(bound) = inner(bound) else {
            return self.column.len();
        };
        self.index.position(bound).expect("a bound of a crack")
    }

    #[allow(dead_code)]
    pub fn rows(&self) -> usize {
        self.column.len() - self.pending_out.len() + self.pending_in.len()
    }
}

/// The bound, if it is between two keys.
fn inner(bound: u128) -> Option<u64> {
    u64::try_from(bound).ok().filter(|it| *it != 0)
}
