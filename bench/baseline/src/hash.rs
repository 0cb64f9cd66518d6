//! Hash maps whose hasher is fast. Like that of the program it has no seed that a user can't know.
use std::collections::{HashMap, HashSet};
use std::hash::{BuildHasherDefault, Hasher};

pub type Map<K, V> = HashMap<K, V, BuildHasherDefault<Folded>>;
pub type Set<K> = HashSet<K, BuildHasherDefault<Folded>>;

/// Each word is mixed in by a product of 128 bits, whose halves are joined.
pub struct Folded(u64);

const FACTOR: u128 = 0x9e37_79b9_7f4a_7c15;

impl Default for Folded {
    fn default() -> Self {
        Folded(0x243f_6a88_85a3_08d3)
    }
}

impl Hasher for Folded {
    fn write(&mut self, bytes: &[u8]) {
        for chunk in bytes.chunks(8) {
            let mut word = [0; 8];
            word[..chunk.len()].copy_from_slice(chunk);
            self.write_u64(u64::from_le_bytes(word));
        }
    }

    fn write_u8(&mut self, n: u8) {
        self.write_u64(n.into());
    }

    fn write_u32(&mut self, n: u32) {
        self.write_u64(n.into());
    }

    fn write_u64(&mut self, n: u64) {
        let product = u128::from(self.0 ^ n) * FACTOR;
        self.0 = product as u64 ^ (product >> 64) as u64;
    }

    fn write_usize(&mut self, n: usize) {
        self.write_u64(n as u64);
    }

    fn finish(&self) -> u64 {
        self.0
    }
}
