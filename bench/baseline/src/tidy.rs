//! Tidying: pools by first use, without entries that are unused or doubled.
use crate::graph;
use crate::trees::Trees;
use crate::value::*;
use crate::visit::visit_indices;
use crate::writer;
use std::borrow::Cow;
use std::mem::take;

/// The n-th name that a type name names.
fn part(names: &[Multiname], name: u32, n: usize) -> Option<u32> {
    match &entry(names, name)?.name {
        Name::Type { base, .. } if n == 0 => Some(*base),
        Name::Type { params, .. } => params.get(n - 1).copied(),
        _ => None,
    }
}

struct Visit<'a, 'f> {
    trees: Trees<'a, 'f>,
    /// Type names whose parts are being visited, and the next part of each.
    path: Vec<(u32, usize)>,
}

impl<'a, 'f> Visit<'a, 'f> {
    fn pools(&self) -> &'a File<'f> {
        self.trees.pools
    }

    fn space(&mut self, n: u32) {
        if self.trees.take_space(n) {
            let name = self.pools().spaces[n as usize - 1].name;
            self.trees.take_string(name);
        }
    }

    fn set(&mut self, n: u32) {
        if self.trees.take_set(n) {
            let spaces = self.pools().sets[n as usize - 1].iter();
            spaces.for_each(|&space| self.space(space));
        }
    }

    fn enter(&mut self, n: u32) {
        if !self.trees.take_name(n) {
            return;
        }
        match self.pools().names[n as usize - 1].name {
            Name::Qualified { space, name } => {
                self.space(space);
                self.trees.take_string(name);
            }
            Name::Runtime { name } => _ = self.trees.take_string(name),
            Name::RuntimeLate => {}
            Name::Multi { name, set } => {
                self.trees.take_string(name);
                self.set(set);
            }
            Name::MultiLate { set } => self.set(set),
            Name::Type { .. } => self.path.push((n, 0)),
        }
    }

    fn name(&mut self, n: u32) {
        self.enter(n);
        while let Some((name, place)) = self.path.pop() {
            if let Some(next) = part(&self.pools().names, name, place) {
                self.path.push((name, place + 1));
                self.enter(next);
            }
        }
    }

    /// Visits an index and gives its new number.
    fn visit(&mut self, pool: Pool, n: u32) -> u32 {
        let trees = &mut self.trees;
        match pool {
            Pool::Unread => return n,
            Pool::Ints => _ = trees.take_int(n),
            Pool::Uints => _ = trees.take_uint(n),
            Pool::Doubles => _ = trees.take_double(n),
            Pool::Strings => _ = trees.take_string(n),
            Pool::Spaces => self.space(n),
            Pool::Names => self.name(n),
        }
        self.number(pool, n)
    }

    fn number(&self, pool: Pool, n: u32) -> u32 {
        let trees = &self.trees;
        match pool {
            Pool::Unread => n,
            Pool::Ints => trees.ints.number(n),
            Pool::Uints => trees.uints.number(n),
            Pool::Doubles => trees.doubles.number(n),
            Pool::Strings => trees.strings.number(n),
            Pool::Spaces => trees.spaces.number(n),
            Pool::Names => trees.names.number(n),
        }
    }

    fn new_name(&self, old: &Multiname) -> Multiname {
        let string = |n| self.trees.strings.number(n);
        let set = |n| self.trees.sets.number(n);
        let name = match old.name {
            Name::Qualified { space, name } => Name::Qualified {
                space: self.trees.spaces.number(space),
                name: string(name),
            },
            Name::Runtime { name } => Name::Runtime { name: string(name) },
            Name::RuntimeLate => Name::RuntimeLate,
            Name::Multi { name, set: spaces } => Name::Multi {
                name: string(name),
                set: set(spaces),
            },
            Name::MultiLate { set: spaces } => Name::MultiLate { set: set(spaces) },
            Name::Type { base, ref params } => Name::Type {
                base: self.trees.names.number(base),
                params: params.iter().map(|&n| self.trees.names.number(n)).collect(),
            },
        };
        Multiname {
            kind: old.kind,
            name,
        }
    }

    /// Puts the new pools into a file that has none.
    fn put_pools(&self, f: &mut File<'f>) {
        let (trees, pools) = (&self.trees, self.pools());
        f.ints = trees.ints.select(&pools.ints, |&value| value);
        f.uints = trees.uints.select(&pools.uints, |&value| value);
        f.doubles = trees.doubles.select(&pools.doubles, |&bytes| bytes);
        f.strings = trees.strings.select(&pools.strings, Cow::clone);
        f.spaces = trees.spaces.select(&pools.spaces, |old| Namespace {
            name: trees.strings.number(old.name),
            ..*old
        });
        f.sets = trees.sets.select(&pools.sets, |old| {
            let spaces = old.iter();
            spaces.map(|&space| trees.spaces.number(space)).collect()
        });
        f.names = trees.names.select(&pools.names, |old| self.new_name(old));
    }
}

fn take_pools<'f>(f: &mut File<'f>) -> File<'f> {
    File {
        ints: take(&mut f.ints),
        uints: take(&mut f.uints),
        doubles: take(&mut f.doubles),
        strings: take(&mut f.strings),
        spaces: take(&mut f.spaces),
        sets: take(&mut f.sets),
        names: take(&mut f.names),
        ..File::default()
    }
}

/// The rules on indices that the reader doesn't test.
fn unread_indices(f: &File) -> Result<(), String> {
    let is_faulty = |body: &Body| {
        body.code
            .instructions
            .iter()
            .any(|one| one.first as usize > f.size(one.pool()))
    };
    if let Some(n) = f.bodies.iter().position(is_faulty) {
        return Err(format!("body {n}: Operand"));
    }
    let is_faulty = |method: &Method| {
        method
            .param_names
            .iter()
            .any(|&name| name as usize > f.strings.len())
    };
    match f.methods.iter().position(is_faulty) {
        Some(n) => Err(format!("method {n}: ParamName")),
        None => Ok(()),
    }
}

/// The names that are reached, each behind those that it names.
fn reached_names(f: &mut File) -> Result<Vec<u32>, String> {
    let mut roots = Vec::new();
    visit_indices(f, &mut |pool, &mut n| {
        if pool == Pool::Names {
            roots.push(n);
        }
    });
    let reached = graph::reach(f.names.len() + 1, roots.into_iter(), |name, n| {
        part(&f.names, name, n)
    });
    match reached.is_cyclic.iter().position(|&is_cyclic| is_cyclic) {
        Some(n) => Err(format!("name {n}: NameCycle")),
        None => Ok(reached.order),
    }
}

/// The canonical bytes of the tidied file, which may be at most so many.
pub fn tidy(mut f: File, most: usize) -> Result<Vec<u8>, String> {
    unread_indices(&f)?;
    let order = reached_names(&mut f)?;
    let pools = take_pools(&mut f);
    let mut visit = Visit {
        trees: Trees::new(&pools, &order),
        path: Vec::new(),
    };
    visit_indices(&mut f, &mut |pool, index| {
        *index = visit.visit(pool, *index)
    });
    visit.put_pools(&mut f);
    writer::canonical(&f, most).ok_or("file 0: TooLarge".into())
}
