//! A cracker column over an arena: places in cracked order, each with the remembered key of its row and its handle; the
//! payloads are in a list of their own, which is all that a sum reads.

use crate::arena::{Arena, Handle, Row, fill};
use crate::numbers::{Numbers, mixed};
use std::time::Instant;

/// Stands for a key that isn't remembered.
pub const UNKNOWN: u64 = u64::MAX;

/// What a crack exchanges besides a payload, 16 bytes.
#[derive(Clone, Copy)]
pub struct Place {
    key: u64,
    handle: Handle,
}

/// A handle, and what is remembered of its row.
#[derive(Clone, Copy)]
pub struct Held {
    pub handle: Handle,
    pub key: u64,
    pub payload: i64,
}

impl Held {
    fn place(self) -> Place {
        Place {
            key: self.key,
            handle: self.handle,
        }
    }
}

#[derive(Default)]
pub struct Column {
    places: Vec<Place>,
    payloads: Vec<i64>,
    len: usize,
    unread: usize,
}

impl Column {
    pub fn len(&self) -> usize {
        self.len
    }

    pub fn reserve(&mut self, additional: usize) {
        let more = additional.saturating_sub(self.places.len() - self.len);
        self.places.reserve(more);
        self.payloads.reserve(more);
    }

    pub fn slot_at(&self, place: usize) -> u32 {
        self.places[..self.len][place].handle.slot()
    }

    pub fn slots(&self, from: usize, to: usize) -> impl Iterator<Item = u32> {
        self.places[from..to].iter().map(|it| it.handle.slot())
    }

    fn held(&self, place: usize) -> Held {
        let Place { key, handle } = self.places[place];
        Held {
            handle,
            key,
            payload: self.payloads[place],
        }
    }

    /// Puts a row aside, after the last place.
    pub fn set_aside(&mut self, held: Held) {
        if self.len == self.places.len() {
            self.places.push(held.place());
            self.payloads.push(held.payload);
        } else {
            self.keep(self.len, held);
        }
    }

    fn keep(&mut self, place: usize, held: Held) {
        self.places[place] = held.place();
        self.payloads[place] = held.payload;
    }

    pub fn append_aside(&mut self) {
        self.unread += (self.places[self.len].key == UNKNOWN) as usize;
        self.len += 1;
    }

    pub fn pop_aside(&mut self) {
        self.len -= 1;
        self.unread -= (self.places[self.len].key == UNKNOWN) as usize;
    }

    /// The row aside and the one at the place change places.
    pub fn exchange(&mut self, place: usize) {
        let (aside, there) = (self.places[self.len], self.places[place]);
        self.places[place] = aside;
        self.places[self.len] = there;
        self.payloads.swap(place, self.len);
        self.unread += (aside.key == UNKNOWN) as usize;
        self.unread -= (there.key == UNKNOWN) as usize;
    }

    pub fn aside(&self) -> Held {
        self.held(self.len)
    }

    pub fn aside_slot(&self) -> u32 {
        self.places[self.len].handle.slot()
    }

    pub fn aside_key(&self) -> u64 {
        self.places[self.len].key
    }

    pub fn append(&mut self, held: Held) {
        self.set_aside(held);
        self.append_aside();
    }

    /// Puts a row at the place, and takes out the one that was there.
    pub fn swap_in(&mut self, place: usize, held: Held) -> Held {
        let there = self.held(place);
        self.keep(place, held);
        self.unread += (held.key == UNKNOWN) as usize;
        self.unread -= (there.key == UNKNOWN) as usize;
        there
    }

    pub fn crack_two(&mut self, from: usize, to: usize, bound: u64, arena: &Arena<Row>) -> usize {
        let (places, payloads) = (&mut self.places[from..to], &mut self.payloads[from..to]);
        if self.unread > 0 {
            self.unread -= learn(places, payloads, arena);
        }
        from + divide(places, payloads, bound)
    }

    pub fn crack_three(&mut self, from: usize, to: usize, low: u64, high: u64, arena: &Arena<Row>) -> (usize, usize) {
        let (places, payloads) = (&mut self.places[from..to], &mut self.payloads[from..to]);
        if self.unread > 0 {
            self.unread -= learn(places, payloads, arena);
        }
        let (middle, upper) = divide_three(places, payloads, low, high);
        (from + middle, from + upper)
    }

    /// The sum of the payloads from one place up to another; reads a cell only for a row that isn't known.
    pub fn sum_between(&self, from: usize, to: usize, arena: &Arena<Row>) -> i128 {
        if self.unread == 0 {
            return self.payloads[from..to].iter().map(|it| i128::from(*it)).sum();
        }
        let rows = (from..to).map(|place| arena.get(self.held(place).handle));
        rows.map(|row| row.map_or(0, |it| i128::from(it.payload))).sum()
    }
}

/// Reads each row that isn't known. Returns how many are known now.
fn learn(places: &mut [Place], payloads: &mut [i64], arena: &Arena<Row>) -> usize {
    let mut learned = 0;
    for (place, payload) in places.iter_mut().zip(payloads) {
        if place.key == UNKNOWN {
            if let Some(row) = arena.get(place.handle) {
                (place.key, *payload) = (row.key, row.payload);
            }
            learned += (place.key != UNKNOWN) as usize;
        }
    }
    learned
}

/// Puts the keys below the bound first, and returns their number. The first place is held, and the gap that it leaves
/// moves along, so that nothing is exchanged. The key is read first, and then the place.
fn divide(places: &mut [Place], payloads: &mut [i64], bound: u64) -> usize {
    let Some(last) = places.len().checked_sub(1) else {
        return 0;
    };
    let (first, first_payload) = (places[0], payloads[0]);
    let mut low = 0;
    for gap in 0..last {
        let below = places[gap + 1].key < bound;
        let (next, payload) = (places[gap + 1], payloads[gap + 1]);
        shift(places, payloads, gap, low, next, payload);
        low += below as usize;
    }
    shift(places, payloads, last, low, first, first_payload);
    low + (first.key < bound) as usize
}

/// Fills the gap from the place `low`, and puts this one there with its payload.
#[inline(always)]
fn shift(places: &mut [Place], payloads: &mut [i64], gap: usize, low: usize, next: Place, payload: i64) {
    places[gap] = places[low];
    places[low] = next;
    payloads[gap] = payloads[low];
    payloads[low] = payload;
}

/// Puts the keys below the low bound first, then those below the high one, and returns how many are below each. The gap
/// moves along through both places in between.
fn divide_three(places: &mut [Place], payloads: &mut [i64], low: u64, high: u64) -> (usize, usize) {
    let Some(last) = places.len().checked_sub(1) else {
        return (0, 0);
    };
    let (first, first_payload) = (places[0], payloads[0]);
    let (mut middle, mut upper) = (0, 0);
    for gap in 0..last {
        let key = places[gap + 1].key;
        let (next, payload) = (places[gap + 1], payloads[gap + 1]);
        let place = if key < low { middle } else { upper };
        turn(places, payloads, gap, (upper, place), next, payload);
        middle += (key < low) as usize;
        upper += (key < high) as usize;
    }
    let key = first.key;
    let place = if key < low { middle } else { upper };
    turn(places, payloads, last, (upper, place), first, first_payload);
    (middle + (key < low) as usize, upper + (key < high) as usize)
}

/// Fills the gap from the upper place, that one from the other, and puts this one there with its payload.
#[inline(always)]
fn turn(
    places: &mut [Place],
    payloads: &mut [i64],
    gap: usize,
    (upper, place): (usize, usize),
    next: Place,
    payload: i64,
) {
    places[gap] = places[upper];
    places[upper] = places[place];
    places[place] = next;
    payloads[gap] = payloads[upper];
    payloads[upper] = payloads[place];
    payloads[place] = payload;
}

/// A crack that remembers no key: each is read through the arena at each crack.
fn divide_through(handles: &mut [Handle], bound: u64, arena: &Arena<Row>) -> usize {
    let mut low = 0;
    for i in 0..handles.len() {
        let below = arena.get(handles[i]).map_or(0, |row| row.key) < bound;
        handles.swap(low, i);
        low += below as usize;
    }
    low
}

fn shuffle(handles: &mut [Handle], numbers: &mut Numbers) {
    for i in 1..handles.len() {
        let other = numbers.below(i as u64 + 1) as usize;
        handles.swap(i, other);
    }
}

pub fn run(rows: u64) {
    let mut numbers = Numbers(7);
    let (arena, mut handles) = fill(rows, &mut numbers);
    shuffle(&mut handles, &mut numbers);
    let mut others = handles.clone();
    let mut column = Column::default();
    column.reserve(handles.len());
    for handle in handles {
        column.append(Held {
            handle,
            key: UNKNOWN,
            payload: 0,
        });
    }
    let len = column.len();
    let start = Instant::now();
    let first = column.crack_two(0, len, 1 << 30, &arena);
    crate::report("first", start);
    let start = Instant::now();
    let later = (0..16).fold(0, |sum, i| mixed(sum, column.crack_two(0, len, i << 27, &arena) as u64));
    crate::report("later", start);
    let start = Instant::now();
    let through = divide_through(&mut others, 1 << 30, &arena);
    crate::report("through", start);
    assert_eq!(first, through);
    let sum = column.slots(0, len).fold(0, |sum, slot| mixed(sum, slot as u64));
    println!("column {first} {later} sum {sum}");
}
