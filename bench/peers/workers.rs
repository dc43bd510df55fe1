//! Workers on threads that ask partitions, each under a lock, and keep a receipt of each answer.

use crate::numbers::scattered;
use crate::partition::{Command, Entry, Partition, Reply};
use crate::store::{GREATEST_BOUND, Policy};
use std::sync::Mutex;
use std::thread;
use std::time::Instant;

/// How wide a partition's keys are, and the range of a sum.
const PART_WIDTH: u32 = 1 << 26;
const RANGE_WIDTH: u32 = PART_WIDTH / 100;

/// How many partitions there are for each worker, and how far apart the numbers are at which the workers begin.
const PARTS_EACH: u32 = 2;
const APART: u32 = 50_000_000;

#[derive(Clone)]
#[allow(dead_code)]
struct Receipt {
    part: u32,
    position: u64,
    worker: u32,
    command: Command,
    reply: Reply,
}

type Parts = [Mutex<Partition>];

/// A worker that asks a table, and what it asks.
struct Worker {
    number: u32,
    receipts: Vec<Receipt>,
    /// The first partition of the table that it asks, and how many this has.
    parts: (u32, u32),
    rows: Vec<(u32, u64)>,
    next: u32,
    told: i128,
}

impl Worker {
    fn new(number: u32, parts: (u32, u32)) -> Worker {
        Worker {
            number,
            receipts: Vec::new(),
            parts,
            rows: Vec::new(),
            next: number * APART,
            told: 0,
        }
    }

    fn ask(&mut self, table: &Parts, part: u32, command: Command) -> i128 {
        self.receipts.reserve(1);
        let mut partition = table[(part - self.parts.0) as usize].lock().expect("no thread failed");
        let position = partition.history().len() as u64;
        let (kept, reply) = partition.apply(self.number, command).expect("room in the history");
        self.receipts.push(Receipt {
            part,
            position,
            worker: self.number,
            command,
            reply: kept,
        });
        match reply {
            Reply::Placed(number) | Reply::Counted(number) => i128::from(number),
            Reply::Summed(sum) => sum,
            _ => 0,
        }
    }

    fn next(&mut self) -> u32 {
        self.next += 1;
        scattered(self.next)
    }

    fn next_part(&mut self) -> u32 {
        self.parts.0 + self.next() % self.parts.1
    }

    fn insert(&mut self, table: &Parts) -> (u32, u64) {
        let part = self.next_part();
        let key = part * PART_WIDTH + self.next() % PART_WIDTH;
        let insert = Command::Insert {
            key: u64::from(key),
            payload: i64::from(key),
        };
        let serial = self.ask(table, part, insert);
        (part, serial as u64)
    }

    fn sum(&mut self, table: &Parts) -> i128 {
        let part = self.next_part();
        let low = u128::from(part * PART_WIDTH + self.next() % (PART_WIDTH - RANGE_WIDTH));
        let high = low + u128::from(RANGE_WIDTH);
        self.ask(table, part, Command::Sum { low, high })
    }

    fn load(&mut self, table: &Parts, rows: u32) {
        for _ in 0..rows {
            let placed = self.insert(table);
            self.rows.push(placed);
        }
    }

    fn count_all(&mut self, table: &Parts) -> i128 {
        let (low, high) = (0, GREATEST_BOUND);
        let parts = self.parts.0..self.parts.0 + self.parts.1;
        parts.map(|part| self.ask(table, part, Command::Count { low, high })).sum()
    }

    /// A sum, a delete, a sum and an insert, this many times.
    fn worked(mut self, table: &Parts, steps: u32) -> Worker {
        for _ in 0..steps {
            self.told += self.sum(table);
            let at = self.next() as usize % self.rows.len();
            let (part, serial) = self.rows[at];
            self.ask(table, part, Command::Delete { serial });
            self.told += self.sum(table);
            self.rows[at] = self.insert(table);
        }
        self
    }
}

/// A table for each worker, or one for all of them.
struct Pool {
    tables: Vec<Vec<Mutex<Partition>>>,
    workers: Vec<Worker>,
    is_shared: bool,
}

fn table(parts: u32) -> Vec<Mutex<Partition>> {
    (0..parts).map(|_| Mutex::new(Partition::new(Policy::Gradual))).collect()
}

impl Pool {
    /// This many workers, with this many rows for each partition, of which there are two for each worker.
    fn loaded(count: u32, is_shared: bool, rows: u32) -> Pool {
        let (tables, parts) = if is_shared { (1, count * PARTS_EACH) } else { (count, PARTS_EACH) };
        let first = |worker| if is_shared { 0 } else { worker * PARTS_EACH };
        let mut pool = Pool {
            tables: (0..tables).map(|_| table(parts)).collect(),
            workers: (0..count).map(|number| Worker::new(number, (first(number), parts))).collect(),
            is_shared,
        };
        for (worker, table) in pool.workers.iter_mut().zip(pool.tables.iter().cycle()) {
            worker.load(table, rows * PARTS_EACH);
        }
        pool
    }

    fn work(&mut self, steps: u32) {
        // (one worker counts a table)
        let counts = self.workers.iter_mut().zip(&self.tables).map(|(worker, table)| worker.count_all(table));
        println!("rows {}", counts.sum::<i128>());
        let start = Instant::now();
        let workers = std::mem::take(&mut self.workers);
        self.workers = thread::scope(|scope| {
            let both = workers.into_iter().zip(self.tables.iter().cycle());
            let started: Vec<_> =
                both.map(|(worker, table)| scope.spawn(move || worker.worked(table, steps))).collect();
            started.into_iter().map(|it| it.join().expect("no thread failed")).collect()
        });
        crate::report("work", start);
        if !self.is_shared {
            println!("sums {}", self.workers.iter().map(|it| it.told).sum::<i128>());
        }
    }

    fn end(&self) {
        let of = |kind: fn(&Reply) -> bool| {
            let receipts = self.workers.iter().flat_map(|it| &it.receipts);
            receipts.filter(|it| kind(&it.reply)).count()
        };
        let accepted = of(|_| true);
        let inserted = of(|it| matches!(it, Reply::Placed(_)));
        let deleted = of(|it| matches!(it, Reply::Gone(_)));
        println!("accepted {accepted} inserted {inserted} deleted {deleted} held {}", inserted - deleted);
    }
}

/// Steps of each worker on its own thread.
pub fn work(count: u32, is_shared: bool, rows: u32, steps: u32) {
    let mut pool = Pool::loaded(count, is_shared, rows);
    pool.work(steps);
    pool.end();
}

/// Copies of all histories and all receipts, in fresh vectors.
pub fn copies(count: u32, rows: u32) {
    let mut pool = Pool::loaded(count, true, rows);
    let table = pool.tables.pop().into_iter().flatten();
    let parts: Vec<_> = table.map(|it| it.into_inner().expect("no thread failed")).collect();
    let start = Instant::now();
    let histories: Vec<Vec<Entry>> = parts.iter().map(|it| it.history().to_vec()).collect();
    let receipts: Vec<Vec<Receipt>> = pool.workers.iter().map(|it| it.receipts.clone()).collect();
    crate::report("copies", start);
    drop((histories, receipts));
    pool.end();
}
