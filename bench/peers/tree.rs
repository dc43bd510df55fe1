//! Payloads by key and number in a tree. A row is identified by both.

use std::collections::BTreeMap;

#[derive(Default)]
pub struct Tree {
    rows: BTreeMap<(u64, u32), i64>,
    next: u32,
}

impl Tree {
    /// Adds a row. Returns its key and its number.
    pub fn insert(&mut self, key: u64, payload: i64) -> (u64, u32) {
        let name = (key, self.next);
        self.rows.insert(name, payload);
        self.next += 1;
        name
    }

    pub fn delete(&mut self, name: (u64, u32)) -> Option<i64> {
        self.rows.remove(&name)
    }

    /// The payloads of the keys in a range that isn't empty.
    pub fn between(&self, low: u128, high: u128) -> impl Iterator<Item = i64> {
        let rows = self.rows.range((low as u64, 0)..=((high - 1) as u64, u32::MAX));
        rows.map(|(_, payload)| *payload)
    }
}
