//! What is known at the places of a method where walks begin: the heads.
use crate::kinds::Kind;
use crate::linked::Layouts;

#[derive(Clone, Copy, PartialEq, Eq)]
pub struct Scope {
    pub kind: Kind,
    /// Whether `pushwith` pushed it.
    pub is_with: bool,
}

/// What is known at a place.
#[derive(Default)]
pub struct State {
    pub stack: Vec<Kind>,
    pub scopes: Vec<Scope>,
    pub locals: Vec<Kind>,
}

/// A place with what is known there: its operands and then its locals in the table of kinds, its scopes in that of scopes.
struct Head {
    place: u32,
    depth: u32,
    scopes: u32,
    is_known: bool,
    waits: bool,
    first_kind: usize,
    first_scope: usize,
}

/// States of one place have unequal shapes.
pub struct Unequal;

/// The states of a method's heads, and the heads that wait for a walk.
#[derive(Default)]
pub struct States {
    heads: Vec<Head>,
    kinds: Vec<Kind>,
    scopes: Vec<Scope>,
    work: Vec<u32>,
}

/// Raises kinds to those above them and others.
fn raise(layouts: &Layouts, old: &mut [Kind], next: &[Kind]) -> bool {
    if old == next {
        return false;
    }
    let mut is_raised = false;
    for (old, &next) in old.iter_mut().zip(next) {
        let join = layouts.join(*old, next);
        is_raised |= join != *old;
        *old = join;
    }
    is_raised
}

fn raise_scopes(layouts: &Layouts, old: &mut [Scope], next: &[Scope]) -> bool {
    let mut is_raised = false;
    for (old, next) in old.iter_mut().zip(next) {
        let join = layouts.join(old.kind, next.kind);
        is_raised |= join != old.kind;
        old.kind = join;
    }
    is_raised
}

fn has_same_flags(a: &[Scope], b: &[Scope]) -> bool {
    a.len() == b.len() && a.iter().zip(b).all(|(a, b)| a.is_with == b.is_with)
}

impl States {
    pub fn clear(&mut self) {
        self.heads.clear();
        self.kinds.clear();
        self.scopes.clear();
        self.work.clear();
    }

    /// The next head.
    pub fn add(&mut self, place: u32) {
        self.heads.push(Head {
            place,
            depth: 0,
            scopes: 0,
            is_known: false,
            waits: false,
            first_kind: 0,
            first_scope: 0,
        });
    }

    pub fn len(&self) -> usize {
        self.heads.len()
    }

    pub fn place(&self, head: u32) -> u32 {
        self.heads[head as usize].place
    }

    /// The next head to walk from, and what is known there.
    pub fn next(&mut self, now: &mut State) -> Option<u32> {
        let head = self.work.pop()?;
        self.heads[head as usize].waits = false;
        self.copy(head, now);
        Some(head)
    }

    /// Copies what is known at a head. The other state has as many locals.
    pub fn copy(&self, head: u32, to: &mut State) {
        let (head, locals) = (&self.heads[head as usize], to.locals.len());
        let (stack, rest) = self.kinds[head.first_kind..].split_at(head.depth as usize);
        to.stack.clear();
        to.stack.extend_from_slice(stack);
        to.locals.copy_from_slice(&rest[..locals]);
        to.scopes.clear();
        let scopes = &self.scopes[head.first_scope..][..head.scopes as usize];
        to.scopes.extend_from_slice(scopes);
    }

    fn wait(&mut self, head: u32) {
        if !std::mem::replace(&mut self.heads[head as usize].waits, true) {
            self.work.push(head);
        }
    }

    fn arrive(&mut self, head: u32, stack: &[Kind], scopes: &[Scope], locals: &[Kind]) {
        let one = &mut self.heads[head as usize];
        one.is_known = true;
        one.depth = stack.len() as u32;
        one.scopes = scopes.len() as u32;
        one.first_kind = self.kinds.len();
        one.first_scope = self.scopes.len();
        self.kinds.extend_from_slice(stack);
        self.kinds.extend_from_slice(locals);
        self.scopes.extend_from_slice(scopes);
        self.wait(head);
    }

    /// A state flows to a head.
    pub fn flow(
        &mut self,
        layouts: &Layouts,
        head: u32,
        stack: &[Kind],
        scopes: &[Scope],
        locals: &[Kind],
    ) -> Result<(), Unequal> {
        let one = &self.heads[head as usize];
        if !one.is_known {
            self.arrive(head, stack, scopes, locals);
            return Ok(());
        }
        let kinds = &mut self.kinds[one.first_kind..][..one.depth as usize + locals.len()];
        let old_scopes = &mut self.scopes[one.first_scope..][..one.scopes as usize];
        if one.depth as usize != stack.len() || !has_same_flags(old_scopes, scopes) {
            return Err(Unequal);
        }
        let (old_stack, old_locals) = kinds.split_at_mut(stack.len());
        let is_raised = raise(layouts, old_stack, stack)
            | raise(layouts, old_locals, locals)
            | raise_scopes(layouts, old_scopes, scopes);
        if is_raised {
            self.wait(head);
        }
        Ok(())
    }
}
