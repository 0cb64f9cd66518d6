//! The verifier: a work list over the places where walks begin. A walk goes over straight-line code with one state.
use crate::covers::Covers;
use crate::kinds::Kind;
use crate::linked::{Layouts, Linked, NONE};
use crate::routine::Routine;
use crate::rules::{Cover, Here, Rule, local};
use crate::shapes::*;
use crate::states::{Scope, State, States, Unequal};
use crate::value::*;

/// The first method without a typing, by its body, and a place and a rule that tell so.
pub struct Refused {
    pub body: u32,
    pub place: u32,
    pub rule: Rule,
}

type Verified = Result<(), (u32, Rule)>;

/// Memory that is used again from method to method.
#[derive(Default)]
struct Memory {
    states: States,
    /// For each place the number of its head, or `NONE`.
    heads: Vec<u32>,
    covers: Covers,
    /// The handlers that cover a walk.
    cover: Vec<u32>,
    now: State,
    /// The joins of the locals that a walk had.
    seen: Vec<Kind>,
}

/// Which locals an instruction wrote.
enum Written {
    None,
    One(usize),
    Two(usize, usize),
}

/// Whether all bodies have typings, in the order of their methods.
pub fn verify(linked: &Linked) -> Result<(), Refused> {
    let mut memory = Memory::default();
    for &body in linked.bodies.iter().filter(|&&body| body != NONE) {
        let routine = Routine::new(linked, body);
        let verified = Verifier {
            routine,
            memory: &mut memory,
        }
        .run();
        verified.map_err(|(place, rule)| Refused { body, place, rule })?;
    }
    Ok(())
}

struct Verifier<'a, 'm> {
    routine: Routine<'a>,
    memory: &'m mut Memory,
}

impl Memory {
    /// Numbers the heads of a method: its first place, what instructions and handlers lead to, and where the ranges of
    /// handlers begin and end.
    fn find_heads(&mut self, routine: &Routine) {
        const HEAD: u32 = 0;
        let code = routine.code();
        self.heads.clear();
        self.heads.resize(code.len() + 1, NONE);
        self.heads[0] = HEAD;
        for target in code.iter().flat_map(|one| routine.targets(one)) {
            self.heads[*target as usize] = HEAD;
        }
        for handler in &routine.body.handlers {
            for place in [handler.from, handler.to, handler.target] {
                self.heads[place as usize] = HEAD;
            }
        }
        self.states.clear();
        for (place, head) in self.heads.iter_mut().enumerate() {
            if *head == HEAD {
                *head = self.states.len() as u32;
                self.states.add(place as u32);
            }
        }
    }

    fn find_covers(&mut self, handlers: &[Handler]) {
        let count = if handlers.is_empty() {
            0
        } else {
            self.states.len()
        };
        self.covers.clear(count);
        for (handler, n) in handlers.iter().zip(0..) {
            let (from, to) = (handler.from as usize, handler.to as usize);
            self.covers.add(n, self.heads[from], self.heads[to]);
        }
    }
}

impl<'a> Verifier<'a, '_> {
    fn layouts(&self) -> &'a Layouts {
        &self.routine.linked.layouts
    }

    fn run(&mut self) -> Verified {
        self.memory.find_heads(&self.routine);
        self.memory.find_covers(&self.routine.body.handlers);
        self.enter();
        while let Some(head) = self.memory.states.next(&mut self.memory.now) {
            self.walk(head)?;
        }
        Ok(())
    }

    fn enter(&mut self) {
        let memory = &mut *self.memory;
        self.routine.fill(&mut memory.now.locals);
        let entry = memory
            .states
            .flow(self.routine.layouts(), 0, &[], &[], &memory.now.locals);
        entry.unwrap_or_else(|Unequal| unreachable!("it is the first state"));
    }

    /// Finds the handlers of a walk.
    fn cover(&mut self, head: u32) -> Cover {
        let memory = &mut *self.memory;
        memory.cover.clear();
        if self.routine.body.handlers.is_empty() {
            return Cover::None;
        }
        memory.covers.find(head, &mut memory.cover);
        let handlers = &self.routine.body.handlers;
        let end = self.routine.code().len() as u32;
        let leads_to_end = |&handler: &u32| handlers[handler as usize].target == end;
        match memory.cover.as_slice() {
            [] => Cover::None,
            cover if cover.iter().any(leads_to_end) => Cover::LeadsToEnd,
            _ => Cover::Some,
        }
    }

    /// From a head to the next one, or to an instruction that doesn't go on.
    fn walk(&mut self, head: u32) -> Verified {
        let cover = self.cover(head);
        if cover != Cover::None {
            self.memory.seen.clone_from(&self.memory.now.locals);
        }
        let mut place = self.memory.states.place(head);
        while self.pass(place, cover)? {
            place += 1;
        }
        if cover != Cover::None {
            self.tell_handlers()?;
        }
        Ok(())
    }

    /// Passes a place; whether the walk goes on to the next.
    #[inline(always)]
    fn pass(&mut self, place: u32, cover: Cover) -> Result<bool, (u32, Rule)> {
        let here = self.routine.here(place).map_err(|rule| (place, rule))?;
        let now = &self.memory.now;
        let kept = self.routine.keeps_early(&here, now, cover);
        let kept = kept.and_then(|()| self.routine.keeps_late(&here, now));
        kept.map_err(|rule| (place, rule))?;
        let goes_on = self.routine.goes_on(&here, now);
        let written = self.step(&here);
        if !goes_on {
            return Ok(false);
        }
        for &target in self.routine.targets(here.instruction) {
            self.flow(target)?;
        }
        if !matches!(here.row.leads, Leads::Next | Leads::Branches) {
            return Ok(false);
        }
        if self.memory.heads[place as usize + 1] != NONE {
            return self.flow(place + 1).map(|()| false);
        }
        if cover != Cover::None {
            self.see(written);
        }
        Ok(true)
    }

    /// The state flows to a place.
    fn flow(&mut self, place: u32) -> Verified {
        let memory = &mut *self.memory;
        let (head, now) = (memory.heads[place as usize], &memory.now);
        let flowed = memory.states.flow(
            self.routine.layouts(),
            head,
            &now.stack,
            &now.scopes,
            &now.locals,
        );
        flowed.map_err(|Unequal| self.unequal(head))
    }

    fn tell_handlers(&mut self) -> Verified {
        for n in 0..self.memory.cover.len() {
            let handler = self.memory.cover[n];
            let memory = &mut *self.memory;
            let Handler { target, kind, .. } = self.routine.body.handlers[handler as usize];
            let kind = self.routine.linked.types[kind as usize].expect("the rules ask for types");
            let head = memory.heads[target as usize];
            let flowed =
                memory
                    .states
                    .flow(self.routine.layouts(), head, &[kind], &[], &memory.seen);
            flowed.map_err(|Unequal| self.unequal(head))?;
        }
        Ok(())
    }

    /// The rule that a place breaks to which states of unequal shapes lead.
    fn unequal(&mut self, head: u32) -> (u32, Rule) {
        let place = self.memory.states.place(head);
        self.memory.states.copy(head, &mut self.memory.now);
        let cover = self.cover(head);
        let kept = self.routine.here(place);
        let kept = kept.and_then(|here| self.routine.keeps_early(&here, &self.memory.now, cover));
        (place, kept.err().unwrap_or(Rule::Merge))
    }

    /// Joins the locals that were written to what was seen of them.
    fn see(&mut self, written: Written) {
        let layouts = self.layouts();
        let memory = &mut *self.memory;
        let mut see = |local: usize| {
            let seen = &mut memory.seen[local];
            *seen = layouts.join(*seen, memory.now.locals[local]);
        };
        match written {
            Written::None => {}
            Written::One(local) => see(local),
            Written::Two(one, two) => {
                see(one);
                see(two);
            }
        }
    }

    /// Does what the instruction does to the state.
    #[inline(always)]
    fn step(&mut self, here: &Here) -> Written {
        let (row, routine) = (here.row, self.routine);
        let now = &mut self.memory.now;
        let mut given = [Kind::Any; 2];
        for (kind, &source) in given.iter_mut().zip(row.gives) {
            *kind = routine.kind_of(here, now, source);
        }
        let written = routine.change_locals(here, now);
        match row.scoping {
            Scoping::Stays => {}
            Scoping::Pops => drop(now.scopes.pop()),
            Scoping::Pushes(is_with) => {
                let kind = scope_kind(here.taken(now, 0));
                now.scopes.push(Scope { kind, is_with });
            }
        }
        now.stack.truncate(now.stack.len() - here.depth);
        now.stack.extend(given[..row.gives.len()].iter().rev());
        written
    }
}

/// The kind of a scope that is pushed.
fn scope_kind(kind: Kind) -> Kind {
    match kind {
        Kind::Null | Kind::Obj(_) => kind,
        _ => Kind::Obj(crate::linked::hosts::OBJECT),
    }
}

fn sum_kind(a: Kind, b: Kind) -> Kind {
    match (a, b) {
        (Kind::Num | Kind::Bool, Kind::Num | Kind::Bool) => Kind::Num,
        _ => Kind::Any,
    }
}

impl<'a> Routine<'a> {
    fn layouts(&self) -> &'a Layouts {
        &self.linked.layouts
    }

    /// Nothing follows a slot of null.
    fn goes_on(&self, here: &Here, state: &State) -> bool {
        let is_slot = matches!(here.instruction.opcode, 0x6c | 0x6d);
        !is_slot || here.receiver(state) != Kind::Null
    }

    /// The kind of a value that is pushed.
    #[inline(always)]
    fn kind_of(&self, here: &Here, state: &State, source: Source) -> Kind {
        let first = here.instruction.first;
        let kind_of_type = || self.linked.types[first as usize].unwrap_or(Kind::Any);
        match source {
            Source::Fixed(kind) => kind,
            Source::Taken(depth) => here.taken(state, depth),
            Source::Local => state.locals[local(here.instruction)],
            Source::Scope => state.scopes[usize::from(here.instruction.byte)].kind,
            Source::Slot => match here.receiver(state) {
                Kind::Obj(layout) => self.layouts().slot(layout, first).unwrap_or(Kind::Any),
                _ => Kind::Any,
            },
            Source::Sum => sum_kind(here.taken(state, 1), here.taken(state, 0)),
            Source::Type => kind_of_type(),
            Source::AsType => match kind_of_type() {
                kind @ (Kind::Text | Kind::Space | Kind::Obj(_)) => kind,
                _ => Kind::Any,
            },
            Source::Activation => Kind::Obj(self.layouts().activation(self.number)),
            Source::ClassObject => Kind::Obj(self.layouts().class_object(first)),
            Source::CatchObject => Kind::Obj(self.layouts().catch(self.number, first)),
        }
    }

    #[inline(always)]
    fn change_locals(&self, here: &Here, now: &mut State) -> Written {
        match here.row.locals {
            Locals::Untouched | Locals::Reads => Written::None,
            Locals::Sets(source) => {
                let local = local(here.instruction);
                now.locals[local] = self.kind_of(here, now, source);
                Written::One(local)
            }
            Locals::Walks => {
                let (one, two) = (here.instruction.first, here.instruction.second);
                now.locals[one as usize] = Kind::Obj(crate::linked::hosts::OBJECT);
                now.locals[two as usize] = Kind::Num;
                Written::Two(one as usize, two as usize)
            }
        }
    }
}
