//! A cracker column built for speed alone that does the same steps: it has no history, no generations and no map of
//! numbers. A row is identified by its slot, which its insert returned, until it is deleted; a later row may get its
//! slot. Pending rows are in plain vectors, and a pass over them reads 4 bytes of each. Whether a row is doomed is one
//! bit per slot, beside the column.

use crate::store::Policy;
use std::mem;

/// The spot of a slot without a row, and the slot of a spot whose row has gone.
const NONE: u32 = u32::MAX;

/// How many rows are compared before there is a branch.
const BLOCK: usize = 16;

/// A key with its payload, 16 bytes, which one load and one store move.
#[derive(Clone, Copy)]
#[repr(align(16))]
struct Pair {
    key: u64,
    payload: i64,
}

/// A row that is in hand.
#[derive(Clone, Copy)]
struct Hand {
    pair: Pair,
    slot: u32,
}

/// What a crack moves, 20 bytes a row: pairs, and beside them the slots of their rows. With payloads in a list of their
/// own repeated sums took 2/3 of the time, and carries, pulls and updates a sixth more; as one list of 24 bytes a row,
/// cracks took a fifth more.
#[derive(Default)]
struct Column {
    pairs: Vec<Pair>,
    slots: Vec<u32>,
}

impl Column {
    fn len(&self) -> usize {
        self.pairs.len()
    }

    fn push(&mut self, hand: Hand) {
        self.pairs.push(hand.pair);
        self.slots.push(hand.slot);
    }

    fn pop(&mut self) -> Option<Hand> {
        let (pair, slot) = (self.pairs.pop()?, self.slots.pop()?);
        Some(Hand { pair, slot })
    }

    /// The row in hand and the one at the place change places.
    fn exchange(&mut self, place: usize, hand: &mut Hand) {
        mem::swap(&mut self.pairs[place], &mut hand.pair);
        mem::swap(&mut self.slots[place], &mut hand.slot);
    }

    /// Puts the keys of a piece below the bound first, and returns the place between.
    fn crack_two(&mut self, (from, to): (usize, usize), bound: u64) -> usize {
        from + divide(&mut self.pairs[from..to], &mut self.slots[from..to], bound)
    }

    /// Puts the keys of a piece below the low bound first, then those below the high one, and returns both places
    /// between.
    fn crack_three(&mut self, (from, to): (usize, usize), low: u64, high: u64) -> (usize, usize) {
        let (middle, upper) = divide_three(&mut self.pairs[from..to], &mut self.slots[from..to], low, high);
        (from + middle, from + upper)
    }
}

/// A row by its slot: its place among pending rows, if it is one, and where it was seen in the column, once it is
/// doomed.
#[derive(Clone, Copy)]
struct Cell {
    key: u64,
    payload: i64,
    spot: u32,
    note: u32,
}

/// What merges did.
#[derive(Clone, Copy, Default)]
pub struct Tally {
    pub insertions: u64,
    pub deletions: u64,
    pub evicted: u64,
    pub moved: u64,
    pub pulled: u64,
}

/// One bit per slot.
#[derive(Default)]
struct Bits {
    words: Vec<u64>,
}

impl Bits {
    fn cover(&mut self, slots: usize) {
        if slots > self.words.len() * 64 {
            self.words.push(0);
        }
    }

    fn is_set(&self, slot: u32) -> bool {
        self.words[slot as usize / 64] >> (slot % 64) & 1 != 0
    }

    fn set(&mut self, slot: u32) {
        self.words[slot as usize / 64] |= 1 << (slot % 64);
    }

    fn clear(&mut self, slot: u32) {
        self.words[slot as usize / 64] &= !(1 << (slot % 64));
    }
}

/// The bounds that divide the column, in rising order, and their places.
#[derive(Default)]
struct Marks {
    bounds: Vec<u64>,
    places: Vec<u32>,
}

impl Marks {
    /// How many bounds are at or below this key.
    fn up_to(&self, key: u64) -> usize {
        self.bounds.partition_point(|bound| *bound <= key)
    }

    /// Where the piece begins that is above this many bounds.
    fn start(&self, mark: usize) -> usize {
        mark.checked_sub(1).map_or(0, |it| self.places[it] as usize)
    }

    /// The ends of the piece whose keys include this key, in a column of `len` rows.
    fn piece_of(&self, key: u64, len: usize) -> (usize, usize) {
        let mark = self.up_to(key);
        (self.start(mark), self.places.get(mark).map_or(len, |it| *it as usize))
    }

    /// The last key of the piece whose keys include this key.
    fn last_beside(&self, key: u64) -> u64 {
        self.bounds.get(self.up_to(key)).map_or(u64::MAX, |bound| bound - 1)
    }

    /// The bounds from this one on that are at its place move up by one. Returns the place, and the first bound after
    /// them.
    fn raise(&mut self, from: usize) -> (usize, usize) {
        let (place, mut at) = (self.places[from], from);
        while at < self.places.len() && self.places[at] == place {
            self.places[at] = place + 1;
            at += 1;
        }
        (place as usize, at)
    }

    /// The bounds before this one that are at the place of the last of them move down by one. Returns the first of
    /// them.
    fn lower(&mut self, to: usize) -> usize {
        let (place, mut at) = (self.places[to - 1], to);
        while at > 0 && self.places[at - 1] == place {
            self.places[at - 1] = place - 1;
            at -= 1;
        }
        at
    }
}

/// Pending rows in order of arrival: each by its slot, and beside it its key as a float, which rises with the keys.
/// There is a hole where a row was removed.
#[derive(Default)]
struct Pending {
    floats: Vec<f32>,
    slots: Vec<u32>,
    holes: usize,
}

impl Pending {
    fn holds(&self, spot: u32, slot: u32) -> bool {
        self.slots.get(spot as usize) == Some(&slot)
    }

    /// Adds a row after the last one. Returns its spot.
    fn push(&mut self, key: u64, slot: u32) -> u32 {
        self.floats.push(key as f32);
        self.slots.push(slot);
        self.slots.len() as u32 - 1
    }

    /// Takes the row of this spot, which leaves a hole. Returns its slot.
    fn take(&mut self, spot: usize) -> u32 {
        self.holes += 1;
        mem::replace(&mut self.slots[spot], NONE)
    }

    /// Closes up the holes once there are as many as rows.
    fn close_up(&mut self, cells: &mut [Cell]) {
        if self.holes == 0 || self.holes < self.slots.len() - self.holes {
            return;
        }
        let mut to = 0;
        for from in 0..self.slots.len() {
            let slot = self.slots[from];
            if slot != NONE {
                (self.floats[to], self.slots[to]) = (self.floats[from], slot);
                cells[slot as usize].spot = to as u32;
                to += 1;
            }
        }
        self.floats.truncate(to);
        self.slots.truncate(to);
        self.holes = 0;
    }

    /// The first spot from this one on whose row has a key from the low one up to the last one. A cell is read only if
    /// the float says that its key may be one of these.
    fn next_in(&self, low: u64, last: u64, mut from: usize, cells: &[Cell]) -> Option<usize> {
        let (least, greatest) = (low as f32, last as f32);
        let may_be_in = |float: f32| (least <= float) & (float <= greatest);
        let is_in = |slot: u32| slot != NONE && (low..=last).contains(&cells[slot as usize].key);
        let is_row = |spot: &usize| may_be_in(self.floats[*spot]) && is_in(self.slots[*spot]);
        if from < self.floats.len() && is_row(&from) {
            return Some(from);
        }
        for block in self.floats.get(from..).unwrap_or_default().chunks_exact(BLOCK) {
            let any = block.iter().fold(0, |any, float| any | may_be_in(*float) as u32);
            if any != 0
                && let Some(spot) = (from..from + BLOCK).find(is_row)
            {
                return Some(spot);
            }
            from += BLOCK;
        }
        (from..self.floats.len()).find(is_row)
    }
}

pub struct Fast {
    policy: Policy,
    column: Column,
    marks: Marks,
    pending_in: Pending,
    pending_out: Pending,
    doomed: Bits,
    cells: Vec<Cell>,
    free: Vec<u32>,
    tally: Tally,
}

impl Fast {
    pub fn new(policy: Policy) -> Fast {
        Fast {
            policy,
            column: Column::default(),
            marks: Marks::default(),
            pending_in: Pending::default(),
            pending_out: Pending::default(),
            doomed: Bits::default(),
            cells: Vec::new(),
            free: Vec::new(),
            tally: Tally::default(),
        }
    }

    pub fn tally(&self) -> Tally {
        self.tally
    }

    /// Adds a row after the last pending insertion. Returns its slot.
    pub fn insert(&mut self, key: u64, payload: i64) -> u32 {
        let slot = self.free.pop().unwrap_or(self.cells.len() as u32);
        let spot = self.pending_in.push(key, slot);
        let cell = Cell {
            key,
            payload,
            spot,
            note: 0,
        };
        if let Some(here) = self.cells.get_mut(slot as usize) {
            *here = cell;
        } else {
            self.cells.push(cell);
            self.doomed.cover(self.cells.len());
        }
        slot
    }

    /// Deletes a row: a pending one is removed at once, one of the column is doomed. Returns its key and payload, or
    /// None if there is no such row.
    pub fn delete(&mut self, slot: u32) -> Option<(u64, i64)> {
        let Cell {
            key, payload, spot, ..
        } = *self.cells.get(slot as usize)?;
        if self.pending_in.holds(spot, slot) {
            self.pending_in.take(spot as usize);
            self.pending_in.close_up(&mut self.cells);
            self.release(slot);
        } else if spot == NONE || self.doomed.is_set(slot) {
            return None;
        } else {
            self.doomed.set(slot);
            self.cells[slot as usize].spot = self.pending_out.push(key, slot);
        }
        Some((key, payload))
    }

    fn release(&mut self, slot: u32) {
        self.cells[slot as usize].spot = NONE;
        self.free.push(slot);
    }

    pub fn count(&mut self, low: u128, high: u128) -> u64 {
        let (from, to) = self.settle(low, high);
        (to - from) as u64
    }

    pub fn sum(&mut self, low: u128, high: u128) -> i128 {
        let (from, to) = self.settle(low, high);
        self.column.pairs[from..to].iter().map(|it| i128::from(it.payload)).sum()
    }

    /// Cracks the column at both ends of the range and merges what it needs. Returns the places between which its rows
    /// are.
    fn settle(&mut self, low: u128, high: u128) -> (usize, usize) {
        if high <= low {
            return (0, 0);
        }
        let (first, last) = (low as u64, (high - 1) as u64);
        self.crack(low, high);
        match self.policy {
            Policy::Gradual => self.merge(first, last, u64::MAX),
            Policy::Ripple => self.merge(first, last, last),
            _ if self.is_any_pending(first, last) => self.merge(0, u64::MAX, u64::MAX),
            _ => {}
        }
        (self.edge(low), self.edge(high))
    }

    /// Whether a row waits to be put in or taken out whose key is from the low one up to the last one.
    fn is_any_pending(&self, low: u64, last: u64) -> bool {
        [&self.pending_in, &self.pending_out].iter().any(|it| it.next_in(low, last, 0, &self.cells).is_some())
    }

    /// The place at which the rows at or above the bound begin.
    fn edge(&self, bound: u128) -> usize {
        let Ok(bound) = u64::try_from(bound) else {
            return self.column.len();
        };
        // (a bound of 0 isn't a mark, and is below all of them)
        self.marks.start(self.marks.up_to(bound))
    }

    /// The bound, and the place for its mark, unless it exists or is an end of the keys.
    fn missing(&self, bound: u128) -> Option<(usize, u64)> {
        let bound = u64::try_from(bound).ok().filter(|it| *it != 0)?;
        let mark = self.marks.up_to(bound);
        (mark == 0 || self.marks.bounds[mark - 1] != bound).then_some((mark, bound))
    }

    /// Cracks the column at both ends of the range, in three if both are missing and fall into one piece.
    fn crack(&mut self, low: u128, high: u128) {
        match (self.missing(low), self.missing(high)) {
            (Some((mark, low)), Some((same, high))) if mark == same => self.crack_in_three(mark, low, high),
            (first, second) => {
                // the high end first: so the low one's mark stays where it was found
                for (mark, bound) in [second, first].into_iter().flatten() {
                    self.crack_in_two(mark, bound);
                }
            }
        }
    }

    /// Where the piece before this mark begins and ends.
    fn piece_before(&self, mark: usize) -> (usize, usize) {
        let to = self.marks.places.get(mark).map_or(self.column.len(), |it| *it as usize);
        (self.marks.start(mark), to)
    }

    fn crack_in_two(&mut self, mark: usize, bound: u64) {
        let place = self.column.crack_two(self.piece_before(mark), bound);
        self.marks.bounds.insert(mark, bound);
        self.marks.places.insert(mark, place as u32);
    }

    fn crack_in_three(&mut self, mark: usize, low: u64, high: u64) {
        let (middle, upper) = self.column.crack_three(self.piece_before(mark), low, high);
        for (bound, place) in [(high, upper), (low, middle)] {
            self.marks.bounds.insert(mark, bound);
            self.marks.places.insert(mark, place as u32);
        }
    }

    /// Takes the pending insertion of this spot into the hand.
    fn lift(&mut self, spot: usize) -> Hand {
        self.tally.insertions += 1;
        let slot = self.pending_in.take(spot);
        let Cell { key, payload, .. } = self.cells[slot as usize];
        Hand {
            pair: Pair { key, payload },
            slot,
        }
    }

    /// Puts in the pending rows with keys from the low one up to the last one, and then takes out the doomed ones. No
    /// row whose key is above the greatest stays in the way.
    fn merge(&mut self, low: u64, last: u64, greatest: u64) {
        let mut from = 0;
        while let Some(spot) = self.pending_in.next_in(low, last, from, &self.cells) {
            let hand = self.lift(spot);
            self.carry(hand, greatest);
            from = spot + 1;
        }
        self.pending_in.close_up(&mut self.cells);
        let mut fillers = greatest.checked_add(1).map(|it| (0, it, self.marks.last_beside(it)));
        let mut from = 0;
        while let Some(spot) = self.pending_out.next_in(low, last, from, &self.cells) {
            let doomed = self.pending_out.take(spot);
            let place = self.place_of(doomed);
            fillers = fillers.and_then(|(from, low, last)| {
                Some((self.pending_in.next_in(low, last, from, &self.cells)?, low, last))
            });
            let hand = match &mut fillers {
                Some((filler, ..)) => {
                    let spot = *filler;
                    *filler += 1;
                    self.lift(spot)
                }
                None => self.lift_last(),
            };
            self.pull(doomed, hand, place);
            from = spot + 1;
        }
        self.pending_in.close_up(&mut self.cells);
        self.pending_out.close_up(&mut self.cells);
    }

    /// Frees a doomed row that is in no list.
    fn bury(&mut self, slot: u32) {
        self.tally.deletions += 1;
        self.doomed.clear(slot);
        self.release(slot);
    }

    /// Puts the hand at the end of its piece, and moves the row that was there on, until one is put at the column's
    /// end, is doomed, or has a key above the greatest: that one is put back among the pending insertions.
    fn carry(&mut self, mut hand: Hand, greatest: u64) {
        let mut mark = self.marks.up_to(hand.pair.key);
        while mark < self.marks.places.len() {
            let place;
            (place, mark) = self.marks.raise(mark);
            if place == self.column.len() {
                break;
            }
            self.column.exchange(place, &mut hand);
            self.tally.moved += 1;
            if self.doomed.is_set(hand.slot) {
                self.pending_out.take(self.cells[hand.slot as usize].spot as usize);
                self.pending_out.close_up(&mut self.cells);
                return self.bury(hand.slot);
            }
            if greatest < hand.pair.key {
                self.cells[hand.slot as usize].spot = self.pending_in.push(hand.pair.key, hand.slot);
                self.tally.evicted += 1;
                return;
            }
        }
        self.column.push(hand);
    }

    /// The place of a doomed row: where it was noted, or else its piece is searched, and each other doomed row there is
    /// noted.
    fn place_of(&mut self, doomed: u32) -> usize {
        let Cell { key, note, .. } = self.cells[doomed as usize];
        if self.column.slots.get(note as usize) == Some(&doomed) {
            return note as usize;
        }
        let (from, to) = self.marks.piece_of(key, self.column.len());
        for (place, slot) in (from..to).zip(&self.column.slots[from..to]) {
            if self.doomed.is_set(*slot) {
                self.cells[*slot as usize].note = place as u32;
            }
        }
        self.cells[doomed as usize].note as usize
    }

    fn lift_last(&mut self) -> Hand {
        let len = self.column.len();
        if self.marks.places.last() == Some(&(len as u32)) {
            self.marks.lower(self.marks.places.len());
        }
        self.column.pop().expect("a doomed row stands in the column")
    }

    /// Takes a doomed row out of the column: the hand moves down to its place, piece by piece.
    fn pull(&mut self, doomed: u32, mut hand: Hand, place: usize) {
        let mut mark = self.marks.up_to(hand.pair.key);
        while hand.slot != doomed {
            let from = self.marks.start(mark);
            let to = if from <= place {
                place
            } else {
                mark = self.marks.lower(mark);
                from - 1
            };
            self.column.exchange(to, &mut hand);
            self.tally.pulled += 1;
        }
        self.bury(doomed);
    }
}

/// Puts the keys below the bound first, and returns their number. The first row is held, and the gap that it leaves
/// moves along. What is put at `low` stays as it was after the gap, so that it is held nowhere in between.
fn divide(pairs: &mut [Pair], slots: &mut [u32], bound: u64) -> usize {
    let Some(last) = pairs.len().checked_sub(1) else {
        return 0;
    };
    let slots = &mut slots[..=last];
    let (first, first_slot) = (pairs[0], slots[0]);
    let mut low = 0;
    for gap in 0..last {
        let below = pairs[gap + 1].key < bound;
        pairs[gap] = pairs[low];
        slots[gap] = slots[low];
        pairs[low] = pairs[gap + 1];
        slots[low] = slots[gap + 1];
        low += below as usize;
    }
    pairs[last] = pairs[low];
    slots[last] = slots[low];
    pairs[low] = first;
    slots[low] = first_slot;
    low + (first.key < bound) as usize
}

/// Puts the keys below the low bound first, then those below the high one, and returns how many are below each. The gap
/// moves along through both places in between.
fn divide_three(pairs: &mut [Pair], slots: &mut [u32], low: u64, high: u64) -> (usize, usize) {
    let Some(last) = pairs.len().checked_sub(1) else {
        return (0, 0);
    };
    let slots = &mut slots[..=last];
    let (first, first_slot) = (pairs[0], slots[0]);
    let (mut middle, mut upper) = (0, 0);
    for gap in 0..last {
        let key = pairs[gap + 1].key;
        let place = if key < low { middle } else { upper };
        pairs[gap] = pairs[upper];
        slots[gap] = slots[upper];
        pairs[upper] = pairs[place];
        slots[upper] = slots[place];
        pairs[place] = pairs[gap + 1];
        slots[place] = slots[gap + 1];
        middle += (key < low) as usize;
        upper += (key < high) as usize;
    }
    let place = if first.key < low { middle } else { upper };
    pairs[last] = pairs[upper];
    slots[last] = slots[upper];
    pairs[upper] = pairs[place];
    slots[upper] = slots[place];
    pairs[place] = first;
    slots[place] = first_slot;
    (middle + (first.key < low) as usize, upper + (first.key < high) as usize)
}
