//! What linking gives: the owners of methods, the layouts of objects with their slots, and the kinds of types.
use crate::graph::Reached;
use crate::kinds::Kind;
use crate::linked_names::{HOST_CLASSES, Meaning, Names, is_type_name};
use crate::value::*;
use std::ops::{Range, RangeInclusive};

/// The layouts of the host's instances, in the order of `HOST_CLASSES`. Those of instances, class objects, global objects,
/// activations and catch objects follow.
pub mod hosts {
    pub const OBJECT: u32 = 0;
    pub const CLASS: u32 = 1;
    pub const FUNCTION: u32 = 2;
    pub const ERROR: u32 = 9;
    pub const ARRAY: u32 = 13;
    pub const COUNT: u32 = 14;
}
use hosts::OBJECT;

/// The three classes under Error.
const ERRORS: RangeInclusive<u32> = 10..=12;

/// No body.
pub const NONE: u32 = u32::MAX;

/// What names a method.
#[derive(Clone, Copy)]
pub enum Owner {
    Free,
    Script(u32),
    ClassObject(u32),
    /// A method of instances.
    Instance(u32),
    /// What makes an instance.
    Maker(u32),
}

fn host_base(layout: u32) -> u32 {
    if ERRORS.contains(&layout) {
        hosts::ERROR
    } else {
        OBJECT
    }
}

/// Layouts by numbers, and the slots of each.
pub struct Layouts {
    classes: u32,
    scripts: u32,
    /// Those of the host and of instances: what they stand under, and the places of what stands under them, themselves
    /// first, where all stand in an order of depth first.
    bases: Vec<u32>,
    ranges: Vec<Range<u32>>,
    /// For each of them one far above, so that a few such jumps lead to any that it stands under.
    jumps: Vec<u32>,
    /// The first catch object of each body.
    catches: Vec<u32>,
    first_catch: u32,
    catch_kinds: Vec<Kind>,
    /// The numbers and kinds of own slots, sorted by numbers, layout by layout; and where those of each begin.
    slots: Vec<(u32, Kind)>,
    starts: Vec<u32>,
}

impl Layouts {
    pub fn instance(&self, class: u32) -> u32 {
        hosts::COUNT + class
    }

    pub fn class_object(&self, class: u32) -> u32 {
        hosts::COUNT + self.classes + class
    }

    pub fn global(&self, script: u32) -> u32 {
        hosts::COUNT + 2 * self.classes + script
    }

    pub fn activation(&self, body: u32) -> u32 {
        hosts::COUNT + 2 * self.classes + self.scripts + body
    }

    pub fn catch(&self, body: u32, handler: u32) -> u32 {
        self.catches[body as usize] + handler
    }

    pub fn base(&self, layout: u32) -> u32 {
        let above = || {
            if layout < self.global(0) {
                hosts::CLASS
            } else {
                OBJECT
            }
        };
        self.bases
            .get(layout as usize)
            .copied()
            .unwrap_or_else(above)
    }

    /// A layout above, far away where it may be.
    pub fn jump(&self, layout: u32) -> u32 {
        let jump = self.jumps.get(layout as usize);
        jump.copied().unwrap_or_else(|| self.base(layout))
    }

    /// Whether a layout is another or stands under it. It is told at once.
    pub fn is_under(&self, layout: u32, above: u32) -> bool {
        let range = |layout: u32| self.ranges.get(layout as usize);
        match (range(layout), range(above)) {
            (Some(layout), Some(above)) => above.contains(&layout.start),
            (None, Some(_)) => self.is_under(self.base(layout), above),
            (_, None) => layout == above,
        }
    }

    fn own_slot(&self, layout: u32, number: u32) -> Option<Kind> {
        if layout >= self.first_catch {
            return (number == 1).then(|| self.catch_kinds[(layout - self.first_catch) as usize]);
        }
        let own = self.starts[layout as usize] as usize..self.starts[layout as usize + 1] as usize;
        let slots = &self.slots[own];
        let place = slots.binary_search_by_key(&number, |slot| slot.0).ok()?;
        Some(slots[place].1)
    }

    /// The kind of the slot of a number. An inherited number wins.
    pub fn slot(&self, mut layout: u32, number: u32) -> Option<Kind> {
        let mut found = self.own_slot(layout, number);
        while layout != OBJECT {
            layout = self.base(layout);
            found = self.own_slot(layout, number).or(found);
        }
        found
    }
}

fn host_kind(place: usize) -> Kind {
    match HOST_CLASSES[place] {
        b"Object" => Kind::Any,
        b"int" | b"uint" | b"Number" => Kind::Num,
        b"Boolean" => Kind::Bool,
        b"String" => Kind::Text,
        b"Namespace" => Kind::Space,
        _ => Kind::Obj(place as u32),
    }
}

fn host_layout(host: &[u8]) -> usize {
    HOST_CLASSES
        .iter()
        .position(|&class| class == host)
        .expect("it is a class of the host")
}

/// The kind of a type.
fn kind_of(f: &File, meaning: Meaning) -> Option<Kind> {
    match meaning {
        Meaning::Nothing => None,
        Meaning::Any => Some(Kind::Any),
        Meaning::Void => Some(Kind::Undef),
        Meaning::Host(host) => Some(host_kind(host_layout(host))),
        Meaning::Class(class) => {
            let is_interface = f.instances[class as usize].flags & INTERFACE != 0;
            Some(Kind::Obj(if is_interface {
                OBJECT
            } else {
                hosts::COUNT + class
            }))
        }
    }
}

/// The kinds of the types that names are, from index 0 on.
fn types(f: &File, names: &mut Names) -> Vec<Option<Kind>> {
    let mut kind = |name| is_type_name(f, name).then(|| kind_of(f, names.meaning(name)))?;
    (0..=f.names.len() as u32).map(&mut kind).collect()
}

fn own(owners: &mut [Owner], init: (u32, Owner), traits: &[Trait], owner: Owner) {
    owners[init.0 as usize] = init.1;
    for one in traits {
        if matches!(one.kind, METHOD | GETTER | SETTER) {
            owners[one.target as usize] = owner;
        }
    }
}

fn owners(f: &File) -> Vec<Owner> {
    let mut owners = vec![Owner::Free; f.methods.len()];
    for (instance, k) in f.instances.iter().zip(0..) {
        own(
            &mut owners,
            (instance.init, Owner::Maker(k)),
            &instance.traits,
            Owner::Instance(k),
        );
    }
    for (class, k) in f.classes.iter().zip(0..) {
        let owner = Owner::ClassObject(k);
        own(&mut owners, (class.init, owner), &class.traits, owner);
    }
    for (script, k) in f.scripts.iter().zip(0..) {
        let owner = Owner::Script(k);
        own(&mut owners, (script.init, owner), &script.traits, owner);
    }
    owners
}

fn bodies_of(f: &File) -> Vec<u32> {
    let mut bodies = vec![NONE; f.methods.len()];
    for (body, n) in f.bodies.iter().zip(0..) {
        bodies[body.method as usize] = n;
    }
    bodies
}

/// A file that keeps the rules of linking.
pub struct Linked<'a> {
    pub file: &'a File<'a>,
    pub owners: Vec<Owner>,
    /// The body of each method, or `NONE`.
    pub bodies: Vec<u32>,
    pub layouts: Layouts,
    /// The kind of the type that a name is, if it is one, from index 0 on.
    pub types: Vec<Option<Kind>>,
}

impl<'a> Linked<'a> {
    /// The parts of a file that keeps the rules; `bases` are those of its classes, in an order that has each behind its base.
    pub fn new(f: &'a File<'a>, names: &mut Names, bases: &[Meaning], order: &Reached) -> Self {
        let types = types(f, names);
        Linked {
            file: f,
            owners: owners(f),
            bodies: bodies_of(f),
            layouts: layouts(f, &types, bases, order),
            types,
        }
    }
}

fn layouts(f: &File, types: &[Option<Kind>], bases: &[Meaning], order: &Reached) -> Layouts {
    let mut layouts = Layouts {
        classes: f.instances.len() as u32,
        scripts: f.scripts.len() as u32,
        bases: (0..hosts::COUNT).map(host_base).collect(),
        ranges: Vec::new(),
        jumps: Vec::new(),
        catches: Vec::with_capacity(f.bodies.len()),
        first_catch: 0,
        catch_kinds: Vec::new(),
        slots: Vec::new(),
        starts: vec![0; hosts::COUNT as usize],
    };
    layouts.add_ranges(bases, order);
    layouts.add_catches(f, types);
    layouts.add_all_slots(f, types);
    layouts
}

impl Layouts {
    fn add_ranges(&mut self, bases: &[Meaning], order: &Reached) {
        self.bases.extend(bases.iter().map(|base| match base {
            Meaning::Class(class) => hosts::COUNT + class,
            Meaning::Host(host) => host_layout(host) as u32,
            _ => OBJECT,
        }));
        let instances = order.order.iter().map(|class| hosts::COUNT + class);
        let falling: Vec<u32> = (1..hosts::COUNT).chain(instances).collect();
        self.add_jumps(&falling);
        let mut sizes = vec![1; self.bases.len()];
        for &layout in falling.iter().rev() {
            sizes[self.base(layout) as usize] += sizes[layout as usize];
        }
        // Where what stands under a layout goes on.
        let mut next = vec![1; self.bases.len()];
        self.ranges = vec![0..sizes[OBJECT as usize]; self.bases.len()];
        for &layout in &falling {
            let start = next[self.base(layout) as usize];
            next[self.base(layout) as usize] += sizes[layout as usize];
            next[layout as usize] = start + 1;
            self.ranges[layout as usize] = start..start + sizes[layout as usize];
        }
    }

    /// The layouts stand behind their bases. A jump of a base that is as long as the next one is joined with it.
    fn add_jumps(&mut self, falling: &[u32]) {
        let mut depths = vec![0u32; self.bases.len()];
        self.jumps = vec![OBJECT; self.bases.len()];
        for &layout in falling {
            let base = self.bases[layout as usize] as usize;
            let far = self.jumps[base] as usize;
            let farther = self.jumps[far] as usize;
            depths[layout as usize] = depths[base] + 1;
            let is_joined = depths[base] - depths[far] == depths[far] - depths[farther];
            self.jumps[layout as usize] = if is_joined { farther } else { base } as u32;
        }
    }

    fn add_catches(&mut self, f: &File, types: &[Option<Kind>]) {
        self.first_catch = self.activation(f.bodies.len() as u32);
        for body in &f.bodies {
            self.catches
                .push(self.first_catch + self.catch_kinds.len() as u32);
            let kinds = body
                .handlers
                .iter()
                .map(|handler| types[handler.kind as usize]);
            self.catch_kinds
                .extend(kinds.map(|kind| kind.expect("the rules ask for types")));
        }
    }

    /// The slots of the next layout.
    fn add_slots(&mut self, types: &[Option<Kind>], traits: &[Trait]) {
        let start = self.slots.len();
        self.starts.push(start as u32);
        for one in traits.iter().filter(|one| one.id != 0) {
            match one.kind {
                SLOT | CONST => {
                    let kind = types[one.target as usize].expect("the rules ask for types");
                    self.slots.push((one.id, kind));
                }
                CLASS => self
                    .slots
                    .push((one.id, Kind::Obj(self.class_object(one.target)))),
                _ => {}
            }
        }
        self.slots[start..].sort_unstable_by_key(|slot| slot.0);
    }

    fn add_all_slots(&mut self, f: &File, types: &[Option<Kind>]) {
        let instances = f.instances.iter().map(|instance| &instance.traits);
        let owners = f
            .classes
            .iter()
            .chain(&f.scripts)
            .map(|owner| &owner.traits);
        for traits in instances.chain(owners) {
            self.add_slots(types, traits);
        }
        for body in &f.bodies {
            self.add_slots(types, &body.traits);
        }
        self.starts.push(self.slots.len() as u32);
    }
}
