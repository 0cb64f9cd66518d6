//! A method with its body, as the verifier sees it.
use crate::kinds::Kind;
use crate::linked::{Linked, Owner, hosts};
use crate::shapes::Site;
use crate::value::*;

#[derive(Clone, Copy)]
pub struct Routine<'a> {
    pub linked: &'a Linked<'a>,
    /// The number of the body.
    pub number: u32,
    pub body: &'a Body,
    pub method: &'a Method,
    pub owner: Owner,
}

impl<'a> Routine<'a> {
    pub fn new(linked: &'a Linked<'a>, number: u32) -> Self {
        let body = &linked.file.bodies[number as usize];
        Routine {
            linked,
            number,
            body,
            method: &linked.file.methods[body.method as usize],
            owner: linked.owners[body.method as usize],
        }
    }

    pub fn code(&self) -> &'a [Instruction] {
        &self.body.code.instructions
    }

    pub fn scope_size(&self) -> usize {
        self.body.scopes.saturating_sub(self.body.scope) as usize
    }

    fn takes_array(&self) -> bool {
        self.method.flags & (NEEDS_ARGUMENTS | NEEDS_REST) != 0
    }

    /// How many locals a call fills.
    pub fn filled(&self) -> usize {
        1 + self.method.params.len() + usize::from(self.takes_array())
    }

    pub fn is_unsupported(&self) -> bool {
        const BOTH: u8 = NEEDS_ARGUMENTS | NEEDS_REST;
        self.method.flags & SETS_DXNS != 0 || self.method.flags & BOTH == BOTH
    }

    fn this(&self) -> Kind {
        let layouts = &self.linked.layouts;
        match self.owner {
            Owner::Free => Kind::Any,
            Owner::Script(script) => Kind::Obj(layouts.global(script)),
            Owner::ClassObject(class) => Kind::Obj(layouts.class_object(class)),
            Owner::Instance(class) | Owner::Maker(class) => Kind::Obj(layouts.instance(class)),
        }
    }

    /// The locals as the method begins.
    pub fn fill(&self, locals: &mut Vec<Kind>) {
        let types = &self.linked.types;
        let param = |&name: &u32| types[name as usize].expect("the rules ask for types");
        locals.clear();
        locals.push(self.this());
        locals.extend(self.method.params.iter().map(param));
        if self.takes_array() {
            locals.push(Kind::Obj(hosts::ARRAY));
        }
        locals.resize(self.body.locals as usize, Kind::Undef);
    }

    /// The layout of the instances that a super operation is about, where it is permitted.
    pub fn super_layout(&self, site: Site) -> Option<u32> {
        let class = match (site, self.owner) {
            (Site::OnInstance, Owner::Instance(class) | Owner::Maker(class)) => class,
            (Site::InMaker, Owner::Maker(class)) => class,
            _ => return None,
        };
        let has_base = self.linked.file.instances[class as usize].base != 0;
        has_base.then(|| self.linked.layouts.instance(class))
    }
}
