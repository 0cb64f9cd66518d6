//! The handlers that cover the heads of a method.
use crate::linked::NONE;

/// A tree over the heads: a node has the handlers that cover all heads below it, and no node above it has them.
#[derive(Default)]
pub struct Covers {
    heads: usize,
    /// For each node its last entry, or `NONE`.
    last: Vec<u32>,
    /// A handler, and the entry before it.
    entries: Vec<(u32, u32)>,
}

impl Covers {
    pub fn clear(&mut self, heads: usize) {
        self.heads = heads;
        self.entries.clear();
        self.last.clear();
        self.last.resize(2 * heads, NONE);
    }

    fn put(&mut self, node: usize, handler: u32) {
        let before = std::mem::replace(&mut self.last[node], self.entries.len() as u32);
        self.entries.push((handler, before));
    }

    /// A handler covers the heads from one on and before another.
    pub fn add(&mut self, handler: u32, from: u32, to: u32) {
        let (mut from, mut to) = (from as usize + self.heads, to as usize + self.heads);
        while from < to {
            if from % 2 == 1 {
                self.put(from, handler);
                from += 1;
            }
            if to % 2 == 1 {
                to -= 1;
                self.put(to, handler);
            }
            from /= 2;
            to /= 2;
        }
    }

    /// The handlers that cover a head.
    pub fn find(&self, head: u32, found: &mut Vec<u32>) {
        found.clear();
        let mut node = head as usize + self.heads;
        while node > 0 {
            let mut entry = self.last[node];
            while entry != NONE {
                let (handler, before) = self.entries[entry as usize];
                found.push(handler);
                entry = before;
            }
            node /= 2;
        }
    }
}
