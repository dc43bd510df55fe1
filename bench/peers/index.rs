//! The bounds that divide a cracked column, in rising order.

#[derive(Clone, Copy)]
pub struct Mark {
    pub bound: u64,
    pub position: usize,
}

#[derive(Default)]
pub struct Index {
    pub marks: Vec<Mark>,
}

impl Index {
    /// How many marks have a bound at or below this one.
    pub fn up_to(&self, bound: u64) -> usize {
        self.marks.partition_point(|mark| mark.bound <= bound)
    }

    pub fn position(&self, bound: u64) -> Option<usize> {
        let last = *self.marks[..self.up_to(bound)].last()?;
        (last.bound == bound).then_some(last.position)
    }

    /// The ends of the piece whose keys include this key, in a column of `len` rows.
    pub fn piece_of(&self, key: u64, len: usize) -> (usize, usize) {
        let (below, above) = self.marks.split_at(self.up_to(key));
        (
            below.last().map_or(0, |mark| mark.position),
            above.first().map_or(len, |mark| mark.position),
        )
    }

    /// The first bound above this key.
    pub fn bound_above(&self, key: u64) -> Option<u64> {
        self.marks.get(self.up_to(key)).map(|mark| mark.bound)
    }

    pub fn add(&mut self, bound: u64, position: usize) {
        let at = self.up_to(bound);
        self.marks.insert(at, Mark { bound, position });
    }

    /// The marks from this one on that are at its place move up by one. Returns the first after them.
    pub fn raise(&mut self, from: usize) -> usize {
        let (place, mut at) = (self.marks[from].position, from);
        while at < self.marks.len() && self.marks[at].position == place {
            self.marks[at].position += 1;
            at += 1;
        }
        at
    }

    /// The marks before this one that are at the place of the last of them move down by one. Returns the first of them.
    pub fn lower(&mut self, to: usize) -> usize {
        let (place, mut at) = (self.marks[to - 1].position, to);
        while at > 0 && self.marks[at - 1].position == place {
            self.marks[at - 1].position -= 1;
            at -= 1;
        }
        at
    }
}
