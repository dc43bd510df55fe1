//! Inserts in random order of keys, a count of everything, and counts, sums and updates: by a cracked partition, by a
//! cracker column built for speed alone, by those of keys alone and of keys and payloads, by a tree, and by a pass over
//! rows for each range, in a vector or through handles.

use crate::arena::Row;
use crate::fast::{Fast, Tally};
use crate::inline::Inline;
use crate::numbers::{Numbers, mixed};
use crate::overlay::{self, Overlay};
use crate::pairs::Pairs;
use crate::sorted::Sorted;
use crate::store::{GREATEST_BOUND, Policy, Store};
use crate::through::Through;
use crate::tree::Tree;
use std::hint::black_box;
use std::time::Instant;

/// The end of the random keys, which have 32 bits.
pub const KEYS_END: u128 = 1 << 32;

/// How wide a random range is: a hundredth of these keys.
pub const WIDTH: u128 = 42949672;

/// How wide a narrow range is: a thousandth.
const NARROW_WIDTH: u128 = 4294967;

/// How many late rows an array has beside it until it is built anew.
const MOST_LATE: usize = 8192;

/// How many entries a history may have.
const LIMIT: usize = 1_000_000;

/// Something that takes rows, counts them and sums their payloads.
trait Table {
    /// What identifies a row.
    type Name: Copy;

    /// Adds a row. Returns what identifies it.
    fn insert(&mut self, key: u64, payload: i64) -> Self::Name;

    fn count(&mut self, low: u128, high: u128) -> u64;

    fn sum(&mut self, _low: u128, _high: u128) -> i128 {
        unimplemented!()
    }

    fn delete(&mut self, _name: Self::Name) {
        unimplemented!()
    }

    /// What its merges did, if it counts that.
    fn tally(&self) -> Option<Tally> {
        None
    }
}

#[derive(Clone, Copy)]
#[allow(dead_code)]
pub enum Command {
    Insert { key: u64, payload: i64 },
    Delete { serial: u64 },
    Update { serial: u64, key: u64, payload: i64 },
    Count { low: u128, high: u128 },
    Sum { low: u128, high: u128 },
    Select { low: u128, high: u128 },
}

#[derive(Clone)]
#[allow(dead_code)]
pub enum Reply {
    Placed(u64),
    Gone(Row),
    NoRow,
    Counted(u64),
    Summed(i128),
    Rows(Vec<Row>),
}

#[derive(Clone)]
#[allow(dead_code)]
pub struct Entry {
    worker: u32,
    command: Command,
    reply: Reply,
}

/// A cracked store, and each command that it kept with its reply.
pub struct Partition {
    store: Store,
    policy: Policy,
    next: u64,
    history: Vec<Entry>,
}

impl Partition {
    pub fn new(policy: Policy) -> Partition {
        Partition {
            store: Store::default(),
            policy,
            next: 0,
            history: Vec::new(),
        }
    }

    pub fn history(&self) -> &[Entry] {
        &self.history
    }

    /// Answers a command and keeps it; None once the history is full. The second reply is a copy, for a receipt.
    pub fn apply(&mut self, worker: u32, command: Command) -> Option<(Reply, Reply)> {
        if self.history.len() >= LIMIT {
            return None;
        }
        self.history.reserve(1);
        let reply = self.reply_to(command);
        self.history.push(Entry {
            worker,
            command,
            reply: reply.clone(),
        });
        Some((reply.clone(), reply))
    }

    /// Answers a command, and keeps nothing of it.
    pub fn reply_to(&mut self, command: Command) -> Reply {
        match command {
            Command::Insert { key, payload } => {
                let serial = self.next;
                self.store.insert(Row {
                    serial,
                    key,
                    payload,
                });
                self.next += 1;
                Reply::Placed(serial)
            }
            Command::Delete { serial } => self.store.delete(serial).map_or(Reply::NoRow, Reply::Gone),
            Command::Count { low, high } => {
                let (from, to) = self.store.settle(low, high, self.policy);
                Reply::Counted((to - from) as u64)
            }
            Command::Sum { low, high } => {
                let (from, to) = self.store.settle(low, high, self.policy);
                Reply::Summed(self.store.sum_between(from, to))
            }
            Command::Update { .. } | Command::Select { .. } => unimplemented!(),
        }
    }
}

impl Table for Partition {
    type Name = u64;

    fn insert(&mut self, key: u64, payload: i64) -> u64 {
        match self.reply_to(Command::Insert { key, payload }) {
            Reply::Placed(serial) => serial,
            _ => unreachable!(),
        }
    }

    fn count(&mut self, low: u128, high: u128) -> u64 {
        match self.reply_to(Command::Count { low, high }) {
            Reply::Counted(count) => count,
            _ => unreachable!(),
        }
    }

    fn sum(&mut self, low: u128, high: u128) -> i128 {
        match self.reply_to(Command::Sum { low, high }) {
            Reply::Summed(sum) => sum,
            _ => unreachable!(),
        }
    }

    fn delete(&mut self, serial: u64) {
        self.reply_to(Command::Delete { serial });
    }
}

impl Table for Fast {
    type Name = u32;

    fn insert(&mut self, key: u64, payload: i64) -> u32 {
        Fast::insert(self, key, payload)
    }

    fn count(&mut self, low: u128, high: u128) -> u64 {
        Fast::count(self, low, high)
    }

    fn sum(&mut self, low: u128, high: u128) -> i128 {
        Fast::sum(self, low, high)
    }

    fn delete(&mut self, slot: u32) {
        black_box(Fast::delete(self, slot));
    }

    fn tally(&self) -> Option<Tally> {
        Some(Fast::tally(self))
    }
}

impl Table for Inline {
    type Name = u64;

    fn insert(&mut self, key: u64, _payload: i64) -> u64 {
        self.keys.push(key);
        self.keys.len() as u64 - 1
    }

    fn count(&mut self, low: u128, high: u128) -> u64 {
        (self.edge(high) - self.edge(low)) as u64
    }
}

impl Table for Pairs {
    type Name = u64;

    fn insert(&mut self, key: u64, payload: i64) -> u64 {
        self.pairs.push((key, payload));
        self.pairs.len() as u64 - 1
    }

    fn count(&mut self, low: u128, high: u128) -> u64 {
        (self.edge(high) - self.edge(low)) as u64
    }

    fn sum(&mut self, low: u128, high: u128) -> i128 {
        let (from, to) = (self.edge(low), self.edge(high));
        self.pairs[from.min(to)..to].iter().map(|it| i128::from(it.1)).sum()
    }
}

impl Table for Tree {
    type Name = (u64, u32);

    fn insert(&mut self, key: u64, payload: i64) -> (u64, u32) {
        Tree::insert(self, key, payload)
    }

    fn count(&mut self, low: u128, high: u128) -> u64 {
        self.between(low, high).count() as u64
    }

    fn sum(&mut self, low: u128, high: u128) -> i128 {
        self.between(low, high).map(i128::from).sum()
    }

    fn delete(&mut self, name: (u64, u32)) {
        black_box(Tree::delete(self, name));
    }
}

impl Table for Vec<Row> {
    type Name = u64;

    fn insert(&mut self, key: u64, payload: i64) -> u64 {
        let serial = self.len() as u64;
        self.push(Row {
            serial,
            key,
            payload,
        });
        serial
    }

    fn count(&mut self, low: u128, high: u128) -> u64 {
        self.iter().filter(inside(low, high)).count() as u64
    }

    fn sum(&mut self, low: u128, high: u128) -> i128 {
        self.iter().filter(inside(low, high)).map(|row| i128::from(row.payload)).sum()
    }
}

impl Table for Through {
    type Name = u64;

    fn insert(&mut self, key: u64, payload: i64) -> u64 {
        self.push(key, payload)
    }

    fn count(&mut self, low: u128, high: u128) -> u64 {
        self.rows().filter(inside(low, high)).count() as u64
    }

    fn sum(&mut self, low: u128, high: u128) -> i128 {
        self.rows().filter(inside(low, high)).map(|row| i128::from(row.payload)).sum()
    }
}

impl Table for Sorted {
    type Name = u64;

    fn insert(&mut self, key: u64, payload: i64) -> u64 {
        self.push(key, payload)
    }

    fn count(&mut self, low: u128, high: u128) -> u64 {
        self.between(low, high).len() as u64
    }

    fn sum(&mut self, low: u128, high: u128) -> i128 {
        self.between(low, high).iter().map(|it| i128::from(it.1)).sum()
    }
}

impl Table for Overlay {
    type Name = overlay::Name;

    fn insert(&mut self, key: u64, payload: i64) -> overlay::Name {
        Overlay::insert(self, key, payload)
    }

    fn count(&mut self, low: u128, high: u128) -> u64 {
        Overlay::count(self, low as u64, (high - 1) as u64)
    }

    fn sum(&mut self, low: u128, high: u128) -> i128 {
        Overlay::sum(self, low as u64, (high - 1) as u64)
    }

    fn delete(&mut self, name: overlay::Name) {
        Overlay::delete(self, name);
    }
}

/// Whether a row's key is in a range that isn't empty.
fn inside(low: u128, high: u128) -> impl Fn(&&Row) -> bool {
    let (low, last) = (low as u64, (high - 1) as u64);
    move |row| low <= row.key && row.key <= last
}

/// A range of that width at a random place: its low end.
fn random_low(numbers: &mut Numbers) -> u128 {
    u128::from(numbers.word()) % (KEYS_END - WIDTH)
}

/// This many inserts of random keys. Returns what identifies the rows.
fn fill<T: Table>(table: &mut T, rows: u64, numbers: &mut Numbers, mut keep: impl FnMut(T::Name)) {
    for row in 0..rows {
        keep(table.insert(u64::from(numbers.word()), row as i64));
    }
}

/// The sums of this many random ranges. Returns a checksum of them, over that of earlier ones.
fn random_sums(table: &mut impl Table, told: u64, ranges: u64, numbers: &mut Numbers) -> u64 {
    (0..ranges).fold(told, |sum, _| {
        let low = random_low(numbers);
        mixed(sum, number_of(table.sum(low, low + WIDTH)))
    })
}

/// A sum, if it fits 64 bits; else the greatest number of 64 bits.
fn number_of(sum: i128) -> u64 {
    u64::try_from(sum).unwrap_or(u64::MAX)
}

/// This many inserts of random keys, and a count of everything. Returns what identifies the rows.
fn load<T: Table>(table: &mut T, rows: u64, numbers: &mut Numbers, keep: impl FnMut(T::Name)) {
    let start = Instant::now();
    fill(table, rows, numbers, keep);
    crate::report("load", start);
    let start = Instant::now();
    // (the bound is hidden from the compiler, which would leave out a pass over rows that are all below it)
    let everything = table.count(0, black_box(GREATEST_BOUND));
    crate::report("everything", start);
    println!("rows {everything}");
}

/// The same, and what identifies the rows.
fn load_named<T: Table>(table: &mut T, rows: u64, numbers: &mut Numbers) -> Vec<T::Name> {
    let mut names = Vec::with_capacity(rows as usize);
    load(table, rows, numbers, |name| names.push(name));
    names
}

/// What the merges did, if that is counted.
fn report_tally(table: &impl Table) {
    if let Some(did) = table.tally() {
        let Tally { insertions, deletions, evicted, moved, pulled } = did;
        eprintln!("put_in {insertions}\ntaken_out {deletions}\nevicted {evicted}\nmoved {moved}\npulled {pulled}");
    }
}

fn counts(mut table: impl Table, rows: u64, ranges: u64) {
    let mut numbers = Numbers(11);
    load(&mut table, rows, &mut numbers, |_| {});
    let start = Instant::now();
    let sum = (0..ranges).fold(0, |sum, _| {
        let low = random_low(&mut numbers);
        mixed(sum, table.count(low, low + WIDTH))
    });
    crate::report("counts", start);
    println!("counts {sum}");
}

/// The sums of this many random ranges, and the same sums again.
fn sums(mut table: impl Table, rows: u64, ranges: u64) {
    let mut numbers = Numbers(11);
    load(&mut table, rows, &mut numbers, |_| {});
    let mut told = 0;
    for name in ["sums", "again"] {
        let mut places = Numbers(numbers.0);
        let start = Instant::now();
        told = random_sums(&mut table, told, ranges, &mut places);
        crate::report(name, start);
    }
    println!("sums {told}");
}

/// The sums of this many random ranges, and the time of each.
fn each(mut table: impl Table, rows: u64, ranges: u64) {
    let mut numbers = Numbers(11);
    load(&mut table, rows, &mut numbers, |_| {});
    let told = (0..ranges).fold(0, |sum, _| {
        let start = Instant::now();
        let sum = random_sums(&mut table, sum, 1, &mut numbers);
        crate::report("sum", start);
        sum
    });
    println!("each {told}");
}

/// This many inserts, and the sums of this many random ranges, with nothing counted before.
fn cold(mut table: impl Table, rows: u64, ranges: u64) {
    let mut numbers = Numbers(11);
    fill(&mut table, rows, &mut numbers, |_| {});
    let start = Instant::now();
    let told = random_sums(&mut table, 0, ranges, &mut numbers);
    crate::report("cold", start);
    println!("cold {told}");
    report_tally(&table);
}

/// This many inserts of keys in the lower half, and the sums of this many random ranges in the upper half.
fn pass(mut table: impl Table, rows: u64, ranges: u64) {
    let mut numbers = Numbers(11);
    for row in 0..rows {
        table.insert(u64::from(numbers.word() >> 1), row as i64);
    }
    let half = KEYS_END / 2;
    let start = Instant::now();
    let told = (0..ranges).fold(0, |sum, _| {
        let low = half + random_low(&mut numbers) / 2;
        mixed(sum, number_of(table.sum(low, low + WIDTH / 2)))
    });
    crate::report("pass", start);
    println!("pass {told}");
}

/// This many deletes of random rows, each followed by an insert.
fn update<T: Table>(table: &mut T, names: &mut [T::Name], size: u64, numbers: &mut Numbers) {
    for _ in 0..size {
        let at = numbers.below(names.len() as u64) as usize;
        table.delete(names[at]);
        let key = numbers.word();
        names[at] = table.insert(u64::from(key), i64::from(key));
    }
}

/// Batches of this many deletes and inserts, each followed by the sum of a random range.
fn updates(mut table: impl Table, rows: u64, batches: u64, size: u64) {
    let mut numbers = Numbers(11);
    let mut names = load_named(&mut table, rows, &mut numbers);
    let start = Instant::now();
    let told = (0..batches).fold(0, |sum, _| {
        update(&mut table, &mut names, size, &mut numbers);
        random_sums(&mut table, sum, 1, &mut numbers)
    });
    crate::report("updates", start);
    println!("updates {told}");
    report_tally(&table);
}

/// The sums of as many neighbouring ranges of one width, from the lowest up.
fn rising(mut table: impl Table, rows: u64, ranges: u64) {
    let mut numbers = Numbers(11);
    load(&mut table, rows, &mut numbers, |_| {});
    let width = KEYS_END / u128::from(ranges.max(1));
    let start = Instant::now();
    let told = (0..ranges).fold(0, |sum, at| {
        let low = u128::from(at) * width;
        mixed(sum, number_of(table.sum(low, low + width)))
    });
    crate::report("rising", start);
    println!("rising {told}");
}

/// The sum of a random range of a thousandth of the keys, over a checksum of earlier ones.
fn narrow_sum(table: &mut impl Table, told: u64, numbers: &mut Numbers) -> u64 {
    let low = random_low(numbers);
    mixed(told, number_of(table.sum(low, low + NARROW_WIDTH)))
}

/// The sums of this many random ranges of a thousandth of the keys.
fn narrow(mut table: impl Table, rows: u64, ranges: u64) {
    let mut numbers = Numbers(11);
    load(&mut table, rows, &mut numbers, |_| {});
    let start = Instant::now();
    let told = (0..ranges).fold(0, |sum, _| narrow_sum(&mut table, sum, &mut numbers));
    crate::report("narrow", start);
    println!("narrow {told}");
}

/// Batches of this many deletes and inserts, each followed by the sum of a thousandth of the keys: the times of the
/// first tenth of them, of those between, and of the last tenth.
fn ageing(mut table: impl Table, rows: u64, batches: u64, size: u64) {
    let mut numbers = Numbers(11);
    let mut names = load_named(&mut table, rows, &mut numbers);
    let (tenth, mut told) = (batches / 10, 0);
    for (name, many) in [("first", tenth), ("middle", batches - 2 * tenth), ("last", tenth)] {
        let start = Instant::now();
        for _ in 0..many {
            update(&mut table, &mut names, size, &mut numbers);
            told = narrow_sum(&mut table, told, &mut numbers);
        }
        crate::report(name, start);
    }
    println!("ageing {told}");
    report_tally(&table);
}

/// Counts that crack the column into this many pieces of one width.
fn crack_evenly(table: &mut impl Table, pieces: u64) {
    let width = KEYS_END / u128::from(pieces.max(1));
    for piece in 1..pieces {
        table.count(0, u128::from(piece) * width);
    }
}

/// The count of everything, which merges, by its name.
fn count_merging(mut table: impl Table, name: &str) {
    let start = Instant::now();
    let after = table.count(0, GREATEST_BOUND);
    crate::report(name, start);
    println!("{name} {after}");
    report_tally(&table);
}

/// This many pending rows and a column of this many pieces, and the count that merges them.
fn merge(mut table: impl Table, rows: u64, pieces: u64, pending: u64) {
    let mut numbers = Numbers(11);
    load(&mut table, rows, &mut numbers, |_| {});
    crack_evenly(&mut table, pieces);
    fill(&mut table, pending, &mut numbers, |_| {});
    count_merging(table, "merge");
}

/// This many deletes of random rows in a column of this many pieces, and the count that takes these rows out.
fn pulls(mut table: impl Table, rows: u64, pieces: u64, deletes: u64) {
    let mut numbers = Numbers(11);
    let names = load_named(&mut table, rows, &mut numbers);
    crack_evenly(&mut table, pieces);
    for _ in 0..deletes {
        table.delete(names[numbers.below(rows) as usize]);
    }
    count_merging(table, "pulls");
}

fn measure(word: &str, table: impl Table, numbers: &[u64]) {
    match (word, numbers) {
        ("counts", [rows, ranges]) => counts(table, *rows, *ranges),
        ("sums", [rows, ranges]) => sums(table, *rows, *ranges),
        ("each", [rows, ranges]) => each(table, *rows, *ranges),
        ("cold", [rows, ranges]) => cold(table, *rows, *ranges),
        ("pass", [rows, ranges]) => pass(table, *rows, *ranges),
        ("updates", [rows, batches, size]) => updates(table, *rows, *batches, *size),
        ("ageing", [rows, batches, size]) => ageing(table, *rows, *batches, *size),
        ("rising", [rows, ranges]) => rising(table, *rows, *ranges),
        ("narrow", [rows, ranges]) => narrow(table, *rows, *ranges),
        ("merge", [rows, pieces, pending]) => merge(table, *rows, *pieces, *pending),
        ("pulls", [rows, pieces, deletes]) => pulls(table, *rows, *pieces, *deletes),
        _ => panic!("as many numbers as are wanted"),
    }
}

pub fn run(word: &str, table: &str, numbers: &[u64]) {
    match table {
        "complete" => measure(word, Partition::new(Policy::Complete), numbers),
        "gradual" => measure(word, Partition::new(Policy::Gradual), numbers),
        "ripple" => measure(word, Partition::new(Policy::Ripple), numbers),
        "anew" => measure(word, Partition::new(Policy::Anew), numbers),
        "fast-complete" => measure(word, Fast::new(Policy::Complete), numbers),
        "fast-gradual" => measure(word, Fast::new(Policy::Gradual), numbers),
        "fast-ripple" => measure(word, Fast::new(Policy::Ripple), numbers),
        "inline" => measure(word, Inline::default(), numbers),
        "pairs" => measure(word, Pairs::default(), numbers),
        "tree" => measure(word, Tree::default(), numbers),
        "through" => measure(word, Through::default(), numbers),
        "rows" => measure(word, Vec::<Row>::new(), numbers),
        "sorted" => measure(word, Sorted::default(), numbers),
        "rebuilt" => measure(word, Overlay::new(0), numbers),
        "overlay" => measure(word, Overlay::new(MOST_LATE), numbers),
        _ => panic!(
            "complete, gradual, ripple, anew, fast-complete, fast-gradual, fast-ripple, inline, pairs, tree, through, \
             rows, sorted, rebuilt or overlay"
        ),
    }
}
