//! A cracker column of inline keys, and nothing else: a crack exchanges 8 bytes a row, and there is no branch on a key.

/// Keys in one vector, and the bounds that divide it in rising order, each with its place.
#[derive(Default)]
pub struct Inline {
    pub keys: Vec<u64>,
    bounds: Vec<u64>,
    places: Vec<usize>,
}

impl Inline {
    /// The place at which the keys at or above the bound begin. Cracks there unless it is known.
    pub fn edge(&mut self, bound: u128) -> usize {
        let Ok(bound) = u64::try_from(bound) else {
            return self.keys.len();
        };
        let at = match self.bounds.binary_search(&bound) {
            Ok(at) => return self.places[at],
            Err(at) => at,
        };
        let from = at.checked_sub(1).map_or(0, |below| self.places[below]);
        let to = self.places.get(at).copied().unwrap_or(self.keys.len());
        let place = from + partition(&mut self.keys[from..to], bound);
        self.bounds.insert(at, bound);
        self.places.insert(at, place);
        place
    }
}

/// Puts the keys below the pivot first, and returns their number. The gap moves along, so that each key is written once
/// ("branchless Lomuto partitioning" with a cyclic permutation, as in Rust's own sort).
fn partition(keys: &mut [u64], pivot: u64) -> usize {
    let Some(&first) = keys.first() else {
        return 0;
    };
    let end = keys.len();
    let keys = keys.as_mut_ptr();
    let (mut low, mut gap) = (0, 0);
    // `low` and `gap` are below `i`, which is below `end`
    unsafe {
        for i in 1..end {
            let key = *keys.add(i);
            *keys.add(gap) = *keys.add(low);
            *keys.add(low) = key;
            gap = i;
            low += (key < pivot) as usize;
        }
        *keys.add(gap) = *keys.add(low);
        *keys.add(low) = first;
    }
    low + (first < pivot) as usize
}
