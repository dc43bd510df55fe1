//! A cracker column of keys and payloads side by side, and nothing else: a crack exchanges 16 bytes a row, at each
//! step, without a branch on a key.

/// Keys with their payloads in one vector, and the bounds that divide it in rising order, each with its place.
#[derive(Default)]
pub struct Pairs {
    pub pairs: Vec<(u64, i64)>,
    bounds: Vec<u64>,
    places: Vec<usize>,
}

impl Pairs {
    /// The place at which the keys at or above the bound begin. Cracks there unless it is known.
    pub fn edge(&mut self, bound: u128) -> usize {
        let Ok(bound) = u64::try_from(bound) else {
            return self.pairs.len();
        };
        let at = match self.bounds.binary_search(&bound) {
            Ok(at) => return self.places[at],
            Err(at) => at,
        };
        let from = at.checked_sub(1).map_or(0, |below| self.places[below]);
        let to = self.places.get(at).copied().unwrap_or(self.pairs.len());
        let place = from + divide(&mut self.pairs[from..to], bound);
        self.bounds.insert(at, bound);
        self.places.insert(at, place);
        place
    }
}

/// Puts the keys below the pivot first, and returns their number.
fn divide(pairs: &mut [(u64, i64)], pivot: u64) -> usize {
    let mut low = 0;
    for i in 0..pairs.len() {
        let below = pairs[i].0 < pivot;
        let here = pairs[i];
        pairs[i] = pairs[low];
        pairs[low] = here;
        low += below as usize;
    }
    low
}
