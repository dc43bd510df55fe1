//! Pending rows in order of arrival: adjacent keys with their handles, a hole where a row was removed, and for each
//! cell the place of its row.

use crate::arena::Handle;

/// Stands for the place of a row that is in no list.
const NOWHERE: u32 = u32::MAX;

/// How many keys are compared before there is a branch.
const BLOCK: usize = 16;

#[derive(Default)]
pub struct Pending {
    keys: Vec<u64>,
    handles: Vec<Handle>,
    spots: Vec<u32>,
    holes: usize,
}

impl Pending {
    pub fn len(&self) -> usize {
        self.handles.len() - self.holes
    }

    pub fn reserve(&mut self, additional: usize) {
        self.keys.reserve(additional);
        self.handles.reserve(additional);
    }

    pub fn cover(&mut self, cells: usize) {
        if cells > self.spots.len() {
            self.spots.resize(cells, NOWHERE);
        }
    }

    pub fn push(&mut self, handle: Handle, key: u64) {
        self.spots[handle.slot() as usize] = self.handles.len() as u32;
        self.handles.push(handle);
        self.keys.push(key);
    }

    fn spot_of(&self, slot: u32) -> Option<usize> {
        let spot = *self.spots.get(slot as usize)? as usize;
        (self.handles.get(spot)?.slot() == slot).then_some(spot)
    }

    pub fn contains(&self, slot: u32) -> bool {
        self.spot_of(slot).is_some()
    }

    /// Takes the row of this spot, which leaves a hole.
    pub fn take(&mut self, spot: usize) -> (Handle, u64) {
        let handle = self.handles[spot];
        self.handles[spot] = Handle::NONE;
        self.holes += 1;
        (handle, self.keys[spot])
    }

    pub fn strike(&mut self, slot: u32) {
        if let Some(spot) = self.spot_of(slot) {
            self.take(spot);
        }
        self.close_up();
    }

    /// Closes up the holes once there are as many as rows.
    pub fn close_up(&mut self) {
        if self.holes < self.len() || self.holes == 0 {
            return;
        }
        let mut to = 0;
        for from in 0..self.handles.len() {
            let handle = self.handles[from];
            if handle != Handle::NONE {
                self.handles[to] = handle;
                self.keys[to] = self.keys[from];
                self.spots[handle.slot() as usize] = to as u32;
                to += 1;
            }
        }
        self.handles.truncate(to);
        self.keys.truncate(to);
        self.holes = 0;
    }

    /// The first spot from this one on whose row has its key in the range.
    pub fn next_in(&self, low: u128, high: u128, mut from: usize) -> Option<usize> {
        if high <= low {
            return None;
        }
        let (low, last) = (low as u64, (high - 1) as u64);
        let width = last - low;
        let is_in = |key: u64| key.wrapping_sub(low) <= width;
        let len = self.keys.len();
        while from + BLOCK <= len {
            let block = &self.keys[from..from + BLOCK];
            let mut any = 0;
            for i in 0..BLOCK {
                any |= is_in(block[i]) as u32;
            }
            if any != 0
                && let Some(i) = (0..BLOCK).find(|i| is_in(block[*i]) && self.handles[from + i] != Handle::NONE)
            {
                return Some(from + i);
            }
            from += BLOCK;
        }
        (from..len).find(|spot| is_in(self.keys[*spot]) && self.handles[*spot] != Handle::NONE)
    }
}
