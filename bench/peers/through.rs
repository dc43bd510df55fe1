//! Rows in an arena, and their handles in order of arrival: each pass reads each key through its handle.

use crate::arena::{Arena, Handle, Row};

#[derive(Default)]
pub struct Through {
    arena: Arena<Row>,
    handles: Vec<Handle>,
}

impl Through {
    /// Adds a row. Returns its number.
    pub fn push(&mut self, key: u64, payload: i64) -> u64 {
        let serial = self.handles.len() as u64;
        let handle = self.arena.put(Row {
            serial,
            key,
            payload,
        });
        self.handles.push(handle);
        serial
    }

    pub fn rows(&self) -> impl Iterator<Item = &Row> {
        self.handles.iter().filter_map(|it| self.arena.get(*it))
    }
}
