//! A generational arena, represented as the measured one is: its free list is linked through the free cells.

use crate::numbers::{Numbers, mixed};
use std::mem;
use std::time::Instant;

#[derive(Clone, Copy)]
#[allow(dead_code)]
pub struct Row {
    pub serial: u64,
    pub key: u64,
    pub payload: i64,
}

/// The number of a cell in the low 24 bits, and its generation in the upper 40.
#[derive(Clone, Copy, PartialEq, Eq)]
pub struct Handle {
    word: u64,
}

impl Handle {
    /// The handle of a cell that doesn't exist.
    pub const NONE: Handle = Handle { word: u64::MAX };

    fn new(slot: u32, generation: u64) -> Handle {
        Handle {
            word: generation << 24 | u64::from(slot),
        }
    }

    pub fn slot(self) -> u32 {
        self.word as u32 & 0xff_ffff
    }

    fn generation(self) -> u64 {
        self.word >> 24
    }
}

struct Cell<T> {
    generation: u64,
    content: Content<T>,
}

enum Content<T> {
    Free(Option<u32>),
    Full(T),
}

pub struct Arena<T> {
    cells: Vec<Cell<T>>,
    head: Option<u32>,
    free: usize,
    freed: u64,
}

impl<T> Default for Arena<T> {
    fn default() -> Arena<T> {
        Arena::new()
    }
}

impl<T> Arena<T> {
    pub fn new() -> Arena<T> {
        Arena {
            cells: Vec::new(),
            head: None,
            free: 0,
            freed: 0,
        }
    }

    pub fn reserve(&mut self, additional: usize) {
        if additional > self.free {
            self.cells.reserve(additional - self.free);
        }
    }

    pub fn put(&mut self, value: T) -> Handle {
        let Some(slot) = self.head else {
            let slot = self.cells.len() as u32;
            self.cells.push(Cell {
                generation: 0,
                content: Content::Full(value),
            });
            return Handle::new(slot, 0);
        };
        let cell = &mut self.cells[slot as usize];
        let generation = cell.generation;
        self.free -= 1;
        if let Content::Free(next) = mem::replace(&mut cell.content, Content::Full(value)) {
            self.head = next;
        }
        Handle::new(slot, generation)
    }

    pub fn get(&self, handle: Handle) -> Option<&T> {
        let cell = self.cells.get(handle.slot() as usize)?;
        match &cell.content {
            Content::Full(value) if cell.generation == handle.generation() => Some(value),
            _ => None,
        }
    }

    pub fn free(&mut self, handle: Handle) -> Option<T> {
        let head = self.head;
        let cell = self.cells.get_mut(handle.slot() as usize)?;
        if cell.generation != handle.generation() || matches!(cell.content, Content::Free(_)) {
            return None;
        }
        cell.generation += 1;
        let content = mem::replace(&mut cell.content, Content::Free(head));
        self.head = Some(handle.slot());
        self.free += 1;
        self.freed += 1;
        match content {
            Content::Full(value) => Some(value),
            Content::Free(_) => None,
        }
    }

    pub fn cells(&self) -> usize {
        self.cells.len()
    }

    pub fn freed(&self) -> u64 {
        self.freed
    }
}

/// An arena with this many rows of random keys, and their handles in order.
pub fn fill(rows: u64, numbers: &mut Numbers) -> (Arena<Row>, Vec<Handle>) {
    let mut arena = Arena::new();
    arena.reserve(rows as usize);
    let mut handles = Vec::with_capacity(rows as usize);
    for serial in 0..rows {
        handles.push(arena.put(Row {
            serial,
            key: numbers.below(1 << 31),
            payload: 1,
        }));
    }
    (arena, handles)
}

/// This many puts, gets and frees at random handles, a third each.
fn steps(
    arena: &mut Arena<Row>,
    handles: &mut Vec<Handle>,
    steps: u64,
    numbers: &mut Numbers,
) -> u64 {
    let mut sum = 0;
    for step in 0..steps {
        let which = numbers.below(3);
        if which == 0 || handles.is_empty() {
            handles.push(arena.put(Row {
                serial: step,
                key: 1,
                payload: 2,
            }));
            continue;
        }
        let at = numbers.below(handles.len() as u64) as usize;
        let row = if which == 1 {
            arena.get(handles[at]).copied()
        } else {
            arena.free(handles.swap_remove(at))
        };
        if let Some(row) = row {
            sum = mixed(sum, row.serial);
        }
    }
    sum
}

pub fn run(count: u64, rows: u64) {
    let mut numbers = Numbers(1);
    let (mut arena, mut handles) = fill(rows, &mut numbers);
    let start = Instant::now();
    let sum = steps(&mut arena, &mut handles, count, &mut numbers);
    crate::report("steps", start);
    println!(
        "arena {} cells {} freed {} sum {sum}",
        handles.len(),
        arena.cells(),
        arena.freed()
    );
}
