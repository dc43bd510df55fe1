//! A sorted array with the sums of its prefixes, and beside it what was inserted and deleted since it was built. It is
//! built anew before an answer once there are more late rows than it may have.

use std::mem;

/// A row: its key, its number and its payload. All three identify it.
pub type Name = (u64, u32, i64);

pub struct Overlay {
    rows: Vec<Name>,
    /// The sum of the payloads of the first rows, for each number of them.
    prefixes: Vec<i64>,
    inserted: Vec<Name>,
    deleted: Vec<Name>,
    most_late: usize,
    next: u32,
}

impl Overlay {
    pub fn new(most_late: usize) -> Overlay {
        Overlay {
            rows: Vec::new(),
            prefixes: vec![0],
            inserted: Vec::new(),
            deleted: Vec::new(),
            most_late,
            next: 0,
        }
    }

    pub fn insert(&mut self, key: u64, payload: i64) -> Name {
        let name = (key, self.next, payload);
        self.next += 1;
        self.inserted.push(name);
        name
    }

    pub fn delete(&mut self, name: Name) {
        self.deleted.push(name);
    }

    /// How many rows a range has that isn't empty.
    pub fn count(&mut self, low: u64, last: u64) -> u64 {
        let (from, to) = self.places(low, last);
        let late = |rows: &[Name]| rows.iter().filter(|it| low <= it.0 && it.0 <= last).count();
        (to - from + late(&self.inserted) - late(&self.deleted)) as u64
    }

    /// The sum of the payloads of a range that isn't empty.
    pub fn sum(&mut self, low: u64, last: u64) -> i128 {
        let (from, to) = self.places(low, last);
        let inside = |it: &&Name| low <= it.0 && it.0 <= last;
        let late = |rows: &[Name]| rows.iter().filter(inside).map(|it| it.2).sum::<i64>();
        i128::from(self.prefixes[to] - self.prefixes[from] + late(&self.inserted) - late(&self.deleted))
    }

    /// The places in the array at which a range begins and ends.
    fn places(&mut self, low: u64, last: u64) -> (usize, usize) {
        if self.inserted.len() + self.deleted.len() > self.most_late {
            self.build();
        }
        (self.rows.partition_point(|it| it.0 < low), self.rows.partition_point(|it| it.0 <= last))
    }

    /// Puts the late rows into the array, by one pass over both.
    fn build(&mut self) {
        self.inserted.sort_unstable();
        self.deleted.sort_unstable();
        let old = mem::take(&mut self.rows);
        let mut rows = Vec::with_capacity(old.len() + self.inserted.len());
        let mut late = self.inserted.drain(..).peekable();
        for row in old {
            while late.peek().is_some_and(|it| *it < row) {
                rows.extend(late.next());
            }
            rows.push(row);
        }
        rows.extend(late);
        let mut gone = self.deleted.drain(..).peekable();
        rows.retain(|row| gone.next_if_eq(row).is_none());
        let mut sum = 0;
        self.prefixes.truncate(1);
        self.prefixes.extend(rows.iter().map(|it| {
            sum += it.2;
            sum
        }));
        self.rows = rows;
    }
}
