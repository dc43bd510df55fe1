//! A sorted array of keys with their payloads: it is sorted once, before the first answer.

/// Keys with their payloads.
#[derive(Default)]
pub struct Sorted {
    pairs: Vec<(u64, i64)>,
    is_sorted: bool,
}

impl Sorted {
    /// Adds a row. Returns how many there were before.
    pub fn push(&mut self, key: u64, payload: i64) -> u64 {
        self.pairs.push((key, payload));
        self.is_sorted = false;
        self.pairs.len() as u64 - 1
    }

    /// The pairs of the keys in a range.
    pub fn between(&mut self, low: u128, high: u128) -> &[(u64, i64)] {
        if !self.is_sorted {
            self.pairs.sort_unstable();
            self.is_sorted = true;
        }
        let below = |bound| self.pairs.partition_point(|it| it.0 < bound);
        let edge = |bound| u64::try_from(bound).map_or(self.pairs.len(), below);
        &self.pairs[edge(low)..edge(high)]
    }
}
