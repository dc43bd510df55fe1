//! The rows that a checkpoint keeps, sorted by serial from a copy in random order.

use crate::arena::Row;
use crate::numbers::{Numbers, mixed};
use crate::partition::{KEYS_END, WIDTH};
use crate::report;
use std::time::Instant;

/// How many commands of one kind there are before a checkpoint, and after it.
const NEXT: u64 = 1000;

/// The present rows, and how many commands were accepted since the last checkpoint.
struct Rows {
    rows: Vec<Row>,
    next: u64,
    accepted: u64,
    numbers: Numbers,
}

impl Rows {
    fn insert(&mut self, key: u64, payload: i64) {
        self.rows.push(Row {
            serial: self.next,
            key,
            payload,
        });
        self.next += 1;
        self.accepted += 1;
    }

    fn load(&mut self, rows: u64) {
        for row in 0..rows {
            let key = u64::from(self.numbers.word());
            self.insert(key, row as i64);
        }
    }

    fn load_half(&mut self, rows: u64) {
        for row in 0..rows {
            let key = u64::from(self.numbers.word() >> 1);
            self.insert(key, row as i64);
        }
    }

    /// A checksum of this many counts of one range in the upper half.
    fn upper_counts(&mut self, counts: u64) -> u64 {
        let low = KEYS_END / 2;
        let range = low..low + WIDTH;
        let count = self.rows.iter().filter(|row| range.contains(&u128::from(row.key))).count();
        self.accepted += counts;
        (0..counts).fold(0, |sum, _| mixed(sum, count as u64))
    }

    fn count_all(&mut self) -> usize {
        self.accepted += 1;
        self.rows.len()
    }

    /// The commands that are measured before a checkpoint, and after it.
    fn ask_next(&mut self) {
        let sum = self.upper_counts(NEXT);
        self.load_half(NEXT);
        println!("next {sum} rows {}", self.count_all());
    }

    /// This many deletes of random rows among the first ones, a count of everything, as many inserts, and two counts.
    fn mix(&mut self, rows: u64, changes: u64) {
        let mut serials: Vec<u64> = (0..rows).collect();
        let mut is_gone = vec![false; rows as usize];
        for _ in 0..changes {
            let at = self.numbers.below(serials.len() as u64) as usize;
            is_gone[serials.swap_remove(at) as usize] = true;
        }
        self.rows.retain(|row| !is_gone.get(row.serial as usize).is_some_and(|it| *it));
        self.accepted += changes;
        self.count_all();
        self.load(changes);
        self.count_all();
        self.upper_counts(1);
    }

    /// The rows in random order.
    fn shuffled(&self) -> Vec<Row> {
        let (mut rows, mut numbers) = (self.rows.clone(), Numbers(13));
        for i in 1..rows.len() {
            rows.swap(i, numbers.below(i as u64 + 1) as usize);
        }
        rows
    }

    /// Copies the rows in random order and sorts the copy. Prints what a checkpoint keeps; it removes all entries.
    fn sort(&mut self, name: &str) {
        let shuffled = self.shuffled();
        let start = Instant::now();
        let mut rows = shuffled.clone();
        report(&format!("{name}_copy"), start);
        let start = Instant::now();
        rows.sort_unstable_by_key(|row| row.serial);
        report(&format!("{name}_sort"), start);
        let sum = rows.iter().fold(0, |sum, row| {
            let content = row.key << 32 | u64::try_from(row.payload).unwrap_or(0);
            mixed(mixed(sum, row.serial), content)
        });
        println!("{name} {} rows {} sum {sum}", self.accepted, rows.len());
        self.accepted = 0;
    }
}

/// This many inserts, and then this many deletes and inserts.
pub fn run(rows: u64, changes: u64) {
    let mut table = Rows {
        rows: Vec::new(),
        next: 0,
        accepted: 0,
        numbers: Numbers(11),
    };
    table.load(rows / 2);
    table.count_all();
    table.load(rows - rows / 2);
    table.sort("fold");
    table.mix(rows, changes);
    table.ask_next();
    table.sort("mixed_fold");
    table.ask_next();
}
