//! The rules of linking.
use crate::graph::{self, Reached};
use crate::hash::{Map, Set};
use crate::linked::Linked;
use crate::linked_names::*;
use crate::value::*;

/// What breaks a rule: a kind of item and its number.
type Broken = Option<(&'static str, usize)>;

fn find<T>(word: &'static str, items: &[T], mut is_broken: impl FnMut(&T) -> bool) -> Broken {
    items
        .iter()
        .position(|item| is_broken(item))
        .map(|n| (word, n))
}

fn find_class(f: &File, mut is_broken: impl FnMut(&Instance, &Owner) -> bool) -> Broken {
    let mut classes = f.instances.iter().zip(&f.classes);
    classes
        .position(|(instance, class)| is_broken(instance, class))
        .map(|n| ("class", n))
}

/// The first class, script or body with a table of traits that is broken.
fn find_table(f: &File, mut is_broken: impl FnMut(&[Trait]) -> bool) -> Broken {
    find_class(f, |instance, class| {
        is_broken(&instance.traits) || is_broken(&class.traits)
    })
    .or_else(|| find("script", &f.scripts, |script| is_broken(&script.traits)))
    .or_else(|| find("body", &f.bodies, |body| is_broken(&body.traits)))
}

fn no_script(f: &File) -> Broken {
    f.scripts.is_empty().then_some(("file", 0))
}

fn name_kind(f: &File) -> Broken {
    let is_own = |name| qualified(f, name).is_some();
    let is_type = |name| is_type_name(f, name);
    let traits = |traits: &[Trait]| {
        traits
            .iter()
            .any(|one| !is_own(one.name) || one.is_slot() && !is_type(one.target))
    };
    find("method", &f.methods, |method| {
        !is_type(method.result) || !method.params.iter().all(|&param| is_type(param))
    })
    .or_else(|| {
        find_class(f, |instance, class| {
            let named = is_own(instance.name)
                && is_type(instance.base)
                && instance.interfaces.iter().all(|&name| is_type(name));
            !named || traits(&instance.traits) || traits(&class.traits)
        })
    })
    .or_else(|| find("script", &f.scripts, |script| traits(&script.traits)))
    .or_else(|| {
        let handler = |handler: &Handler| {
            !is_type(handler.kind) || handler.name != 0 && !is_own(handler.name)
        };
        find("body", &f.bodies, |body| {
            body.handlers.iter().any(handler) || traits(&body.traits)
        })
    })
}

/// The bases and interfaces of classes.
struct Classes<'a> {
    file: &'a File<'a>,
    bases: Vec<Meaning>,
    by_base: Reached,
    interfaces: Vec<Vec<Meaning>>,
}

/// The classes in an order that has each behind its base, and which return to themselves.
fn reach_by_base(bases: &[Meaning]) -> Reached {
    let classes = bases.len();
    graph::reach(classes, 0..classes as u32, |class, n| {
        match bases[class as usize] {
            Meaning::Class(base) if n == 0 => Some(base),
            _ => None,
        }
    })
}

impl<'a> Classes<'a> {
    fn new(f: &'a File<'a>, names: &mut Names) -> Self {
        let bases: Vec<_> = f
            .instances
            .iter()
            .map(|instance| names.meaning(instance.base))
            .collect();
        Classes {
            file: f,
            by_base: reach_by_base(&bases),
            bases,
            interfaces: f
                .instances
                .iter()
                .map(|instance| {
                    instance
                        .interfaces
                        .iter()
                        .map(|&name| names.meaning(name))
                        .collect()
                })
                .collect(),
        }
    }

    fn has_flag(&self, class: Meaning, flag: u8) -> bool {
        matches!(class, Meaning::Class(class) if self.file.instances[class as usize].flags & flag != 0)
    }

    fn find_base(&self, mut is_broken: impl FnMut(Meaning) -> bool) -> Broken {
        find("class", &self.bases, |&base| is_broken(base))
    }

    fn unknown_base(&self) -> Broken {
        self.find_base(|base| matches!(base, Meaning::Nothing | Meaning::Void))
    }

    /// Interfaces of an interface; none of another class.
    fn interface(&self, class: u32, n: usize) -> Option<u32> {
        if !self.has_flag(Meaning::Class(class), INTERFACE) {
            return None;
        }
        let interfaces = self.interfaces[class as usize].get(n)?;
        match interfaces {
            Meaning::Class(next) => Some(*next),
            // It leads nowhere, and the next one is asked for.
            _ => Some(self.bases.len() as u32),
        }
    }

    fn base_cycle(&self) -> Broken {
        let classes = self.bases.len();
        let interface = |class: u32, n: usize| {
            if class as usize == classes {
                None
            } else {
                self.interface(class, n)
            }
        };
        let bases = &self.by_base.is_cyclic;
        let interfaces = graph::reach(classes + 1, 0..classes as u32, interface).is_cyclic;
        (0..classes)
            .find(|&n| bases[n] || interfaces[n])
            .map(|n| ("class", n))
    }

    fn final_base(&self) -> Broken {
        const OPEN: [&[u8]; 5] = [
            b"Object",
            b"Error",
            b"TypeError",
            b"ReferenceError",
            b"ArgumentError",
        ];
        self.find_base(|base| {
            self.has_flag(base, FINAL)
                || matches!(base, Meaning::Host(host) if !OPEN.contains(&host))
        })
    }

    fn base_is_interface(&self) -> Broken {
        self.find_base(|base| self.has_flag(base, INTERFACE))
    }

    fn unknown_interface(&self) -> Broken {
        find("class", &self.interfaces, |list| {
            list.iter()
                .any(|&interface| !self.has_flag(interface, INTERFACE))
        })
    }
}

fn unknown_type(f: &File, names: &mut Names) -> Broken {
    fn slots(names: &mut Names, traits: &[Trait]) -> bool {
        traits
            .iter()
            .any(|one| one.is_slot() && names.meaning(one.target) == Meaning::Nothing)
    }
    let is_unknown = |names: &mut Names, name| names.meaning(name) == Meaning::Nothing;
    find("method", &f.methods, |method| {
        is_unknown(names, method.result)
            || method.params.iter().any(|&param| is_unknown(names, param))
    })
    .or_else(|| {
        find_class(f, |instance, class| {
            slots(names, &instance.traits) || slots(names, &class.traits)
        })
    })
    .or_else(|| find("script", &f.scripts, |script| slots(names, &script.traits)))
    .or_else(|| {
        find("body", &f.bodies, |body| {
            body.handlers
                .iter()
                .any(|handler| is_unknown(names, handler.kind))
                || slots(names, &body.traits)
        })
    })
}

/// The methods that traits name.
fn methods(traits: &[Trait]) -> impl Iterator<Item = u32> {
    traits
        .iter()
        .filter(|one| !one.is_slot() && one.kind != CLASS)
        .map(|one| one.target)
}

fn owned_methods(owner: &Owner) -> impl Iterator<Item = u32> {
    std::iter::once(owner.init).chain(methods(&owner.traits))
}

fn instance_methods(instance: &Instance) -> impl Iterator<Item = u32> {
    std::iter::once(instance.init).chain(methods(&instance.traits))
}

/// The methods that class objects, scripts and bodies name.
fn other_methods(f: &File) -> impl Iterator<Item = u32> {
    let owners = f.classes.iter().chain(&f.scripts).flat_map(owned_methods);
    owners.chain(f.bodies.iter().flat_map(|body| methods(&body.traits)))
}

fn owned_twice(f: &File) -> Broken {
    let mut times = vec![0u8; f.methods.len()];
    for method in f
        .instances
        .iter()
        .flat_map(instance_methods)
        .chain(other_methods(f))
    {
        let times = &mut times[method as usize];
        *times = times.saturating_add(1);
    }
    find("method", &times, |&times| times > 1)
}

fn no_body(f: &File) -> Broken {
    let mut lacks_body = vec![false; f.methods.len()];
    let classes = f
        .instances
        .iter()
        .filter(|instance| instance.flags & INTERFACE == 0);
    for method in classes.flat_map(instance_methods).chain(other_methods(f)) {
        lacks_body[method as usize] = true;
    }
    for body in &f.bodies {
        lacks_body[body.method as usize] = false;
    }
    find("method", &lacks_body, |&lacks_body| lacks_body)
}

/// Whether two traits of a table have one name and are not a getter and a setter.
fn has_same_name(names: &Names, traits: &[Trait]) -> bool {
    const ALL: u8 = 3;
    let mut taken = Map::default();
    traits.iter().any(|one| {
        let takes = match one.kind {
            GETTER => 1,
            SETTER => 2,
            _ => ALL,
        };
        let taken = taken.entry(names.key(one.name)).or_insert(0);
        let is_taken = *taken & takes != 0;
        *taken |= takes;
        is_taken
    })
}

fn has_same_slot(traits: &[Trait]) -> bool {
    let mut ids = Set::default();
    let mut numbered = traits
        .iter()
        .filter(|one| one.id != 0 && matches!(one.kind, SLOT | CONST | CLASS | FUNCTION));
    numbered.any(|one| !ids.insert(one.id))
}

/// Whether a slot of the type can start with the value: its coercion has to give a value without a new text.
fn can_start(meaning: Meaning, value: Value) -> bool {
    let pool = pool_of_kind(value.kind);
    let is_number = matches!(pool, Some(Pool::Ints | Pool::Uints));
    let (is_text, is_space) = (pool == Some(Pool::Strings), pool == Some(Pool::Spaces));
    let (is_undefined, is_null) = (value.kind == 0x00, value.kind == 0x0c);
    match meaning {
        _ if pool == Some(Pool::Doubles) => false,
        Meaning::Any | Meaning::Void | Meaning::Host(b"Object" | b"Boolean") => true,
        Meaning::Host(b"int" | b"uint") => !is_text && !is_space,
        Meaning::Host(b"Number") => !is_text && !is_space && !is_undefined,
        Meaning::Host(b"String") => !is_number,
        Meaning::Host(b"Namespace") => is_undefined || is_null || is_space,
        _ => is_undefined || is_null,
    }
}

fn trait_not_run(f: &File, names: &mut Names) -> Broken {
    let mut slot =
        |one: &Trait| one.value.index != 0 && !can_start(names.meaning(one.target), one.value);
    let mut is_broken = |one: &Trait| one.kind == FUNCTION || one.is_slot() && slot(one);
    find_class(f, |instance, class| {
        instance
            .traits
            .iter()
            .chain(&class.traits)
            .any(&mut is_broken)
    })
    .or_else(|| {
        find("script", &f.scripts, |script| {
            script.traits.iter().any(&mut is_broken)
        })
    })
    .or_else(|| {
        find("body", &f.bodies, |body| {
            body.traits
                .iter()
                .any(|one| !one.is_slot() || is_broken(one))
        })
    })
}

fn too_large(f: &File) -> Broken {
    find("body", &f.bodies, |body| {
        [body.stack, body.locals, body.scopes]
            .iter()
            .any(|&size| size > 65_535)
    })
}

fn rule(name: &str, broken: Broken) -> Result<(), String> {
    broken.map_or(Ok(()), |(word, n)| Err(format!("{word} {n}: {name}")))
}

/// Tries the rules in their order. The file is linked, or the line names the first broken one.
pub fn link<'a>(f: &'a File<'a>) -> Result<Linked<'a>, String> {
    rule("NoScript", no_script(f))?;
    rule("NameKind", name_kind(f))?;
    let mut names = Names::new(f);
    let classes = Classes::new(f, &mut names);
    rule("UnknownBase", classes.unknown_base())?;
    rule("BaseCycle", classes.base_cycle())?;
    rule("FinalBase", classes.final_base())?;
    rule("BaseIsInterface", classes.base_is_interface())?;
    rule("UnknownInterface", classes.unknown_interface())?;
    rule("UnknownType", unknown_type(f, &mut names))?;
    rule("OwnedTwice", owned_twice(f))?;
    rule("NoBody", no_body(f))?;
    rule(
        "SameName",
        find_table(f, |traits| has_same_name(&names, traits)),
    )?;
    rule("SameSlot", find_table(f, has_same_slot))?;
    rule("TraitNotRun", trait_not_run(f, &mut names))?;
    rule("TooLarge", too_large(f))?;
    Ok(Linked::new(f, &mut names, &classes.bases, &classes.by_base))
}
