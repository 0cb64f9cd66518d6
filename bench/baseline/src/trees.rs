//! Which entries of pools are doubled: entries with equal trees have one class, the first of them that was asked for. The
//! kept entries of a pool have one class each, and are numbered in the order in which they are taken.
use crate::hash::Map;
use crate::value::*;
use std::hash::Hash;

/// The entries of a pool by their keys.
pub struct Entries<K> {
    firsts: Map<K, u32>,
    /// For each index its class, once it was asked for; index 0 is a class of its own.
    classes: Vec<u32>,
    /// The new numbers of classes, and the kept entries in their new order.
    numbers: Vec<u32>,
    pub kept: Vec<u32>,
}

impl<K: Hash + Eq> Entries<K> {
    fn new(count: usize) -> Self {
        Entries {
            firsts: Map::default(),
            classes: vec![0; count + 1],
            numbers: vec![0; count + 1],
            kept: Vec::new(),
        }
    }

    fn known(&self, n: u32) -> Option<u32> {
        let class = self.classes[n as usize];
        (n == 0 || class != 0).then_some(class)
    }

    fn class(&mut self, n: u32, key: K) -> u32 {
        let class = *self.firsts.entry(key).or_insert(n);
        self.classes[n as usize] = class;
        class
    }

    /// The new number of an entry whose class was asked for.
    pub fn number(&self, n: u32) -> u32 {
        self.numbers[self.classes[n as usize] as usize]
    }

    /// Gives an entry, whose class was asked for, the next number, unless it has one or is none.
    fn take(&mut self, n: u32) -> bool {
        let is_new = n != 0 && self.number(n) == 0;
        if is_new {
            self.kept.push(n);
            self.numbers[self.classes[n as usize] as usize] = self.kept.len() as u32;
        }
        is_new
    }

    pub fn select<T, U>(&self, pool: &[T], new: impl FnMut(&T) -> U) -> Vec<U> {
        let old = self.kept.iter().map(|&n| &pool[n as usize - 1]);
        old.map(new).collect()
    }
}

/// What a multiname is by itself and by the classes of its parts: those of a type name are its base and its parameters.
type NameKey = (u8, u32, u32, Box<[u32]>);

pub struct Trees<'a, 'f> {
    pub pools: &'a File<'f>,
    pub ints: Entries<u32>,
    pub uints: Entries<u32>,
    pub doubles: Entries<[u8; 8]>,
    pub strings: Entries<&'a [u8]>,
    pub spaces: Entries<(u8, u32, u32)>,
    pub sets: Entries<Box<[u32]>>,
    pub names: Entries<NameKey>,
}

const PRIVATE: u8 = 0x05;

impl<'a, 'f> Trees<'a, 'f> {
    /// The names that are used have to stand in the order, each behind those that it names.
    pub fn new(pools: &'a File<'f>, order: &[u32]) -> Self {
        let mut trees = Trees {
            pools,
            ints: Entries::new(pools.ints.len()),
            uints: Entries::new(pools.uints.len()),
            doubles: Entries::new(pools.doubles.len()),
            strings: Entries::new(pools.strings.len()),
            spaces: Entries::new(pools.spaces.len()),
            sets: Entries::new(pools.sets.len()),
            names: Entries::new(pools.names.len()),
        };
        for &name in order.iter().filter(|&&name| name != 0) {
            let key = trees.name_key(name);
            trees.names.class(name, key);
        }
        trees
    }

    fn string(&mut self, n: u32) -> u32 {
        let known = self.strings.known(n);
        known.unwrap_or_else(|| self.strings.class(n, self.pools.text(n)))
    }

    fn space(&mut self, n: u32) -> u32 {
        if let Some(known) = self.spaces.known(n) {
            return known;
        }
        let Namespace { kind, name } = self.pools.spaces[n as usize - 1];
        let own = if kind == PRIVATE { n } else { 0 };
        let key = (kind, self.string(name), own);
        self.spaces.class(n, key)
    }

    fn set(&mut self, n: u32) -> u32 {
        if let Some(known) = self.sets.known(n) {
            return known;
        }
        let pools = self.pools;
        let spaces = pools.sets[n as usize - 1].iter();
        let key = spaces.map(|&space| self.space(space)).collect();
        self.sets.class(n, key)
    }

    fn name_key(&mut self, n: u32) -> NameKey {
        let pools = self.pools;
        let Multiname { kind, name } = &pools.names[n as usize - 1];
        let (first, second) = match name {
            Name::Qualified { space, name } => (self.space(*space), self.string(*name)),
            Name::Runtime { name } => (self.string(*name), 0),
            Name::RuntimeLate => (0, 0),
            Name::Multi { name, set } => (self.string(*name), self.set(*set)),
            Name::MultiLate { set } => (self.set(*set), 0),
            Name::Type { base, params } => {
                let classes = &self.names.classes;
                let class = |&n: &u32| classes[n as usize];
                return (*kind, class(base), 0, params.iter().map(class).collect());
            }
        };
        (*kind, first, second, Box::default())
    }

    pub fn take_int(&mut self, n: u32) -> bool {
        if self.ints.known(n).is_none() {
            self.ints.class(n, self.pools.ints[n as usize - 1]);
        }
        self.ints.take(n)
    }

    pub fn take_uint(&mut self, n: u32) -> bool {
        if self.uints.known(n).is_none() {
            self.uints.class(n, self.pools.uints[n as usize - 1]);
        }
        self.uints.take(n)
    }

    pub fn take_double(&mut self, n: u32) -> bool {
        if self.doubles.known(n).is_none() {
            self.doubles.class(n, self.pools.doubles[n as usize - 1]);
        }
        self.doubles.take(n)
    }

    pub fn take_string(&mut self, n: u32) -> bool {
        self.string(n);
        self.strings.take(n)
    }

    pub fn take_space(&mut self, n: u32) -> bool {
        self.space(n);
        self.spaces.take(n)
    }

    pub fn take_set(&mut self, n: u32) -> bool {
        self.set(n);
        self.sets.take(n)
    }

    pub fn take_name(&mut self, n: u32) -> bool {
        self.names.take(n)
    }
}
