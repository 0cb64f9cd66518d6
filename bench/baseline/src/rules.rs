//! The rules of verifying: what an instruction asks of the state at its place.
use crate::kinds::Kind;
use crate::linked::{NONE, Owner};
use crate::routine::Routine;
use crate::shapes::*;
use crate::states::State;
use crate::value::*;

/// By the names that the program prints, in the order in which the first broken one is named.
#[derive(Debug, Clone, Copy, PartialEq, Eq)]
pub enum Rule {
    NotRun,
    PoolIndex,
    NameForm,
    StackUnder,
    StackOver,
    ScopeUnder,
    ScopeOver,
    LocalIndex,
    OffEnd,
    Merge,
    NotSpace,
    NotObject,
    SlotIndex,
    ScopeIndex,
    NotHere,
    NotIndex,
    Parameters,
    Flags,
}

type Kept = Result<(), Rule>;

fn keep(is_kept: bool, rule: Rule) -> Kept {
    if is_kept { Ok(()) } else { Err(rule) }
}

/// An instruction at its place.
pub struct Here<'a> {
    pub place: u32,
    pub row: &'static Row,
    pub instruction: &'a Instruction,
    /// What the name takes at run time, the top first.
    parts: &'static [Need],
    pub args: usize,
    /// How many values are taken.
    pub depth: usize,
}

/// The local that an instruction names.
pub fn local(one: &Instruction) -> usize {
    match one.opcode {
        0xd0..=0xd7 => usize::from(one.opcode & 3),
        _ => one.first as usize,
    }
}

impl Here<'_> {
    /// What is asked of the values below the arguments, the top first.
    fn needs(&self) -> impl Iterator<Item = Need> {
        self.row.takes.iter().flat_map(|need| match need {
            Need::Runtime => self.parts.iter().copied(),
            _ => std::slice::from_ref(need).iter().copied(),
        })
    }

    /// The kind of a value below the arguments.
    #[inline(always)]
    pub fn taken(&self, state: &State, depth: usize) -> Kind {
        state.stack[state.stack.len() - 1 - self.args - depth]
    }

    /// The kind of the value that has to have the slot.
    pub fn receiver(&self, state: &State) -> Kind {
        let depth = self.needs().position(|need| need == Need::Slotted);
        depth.map_or(Kind::Any, |depth| self.taken(state, depth))
    }
}

impl<'a> Routine<'a> {
    /// The instruction at a place.
    pub fn here(&self, place: u32) -> Result<Here<'a>, Rule> {
        let instruction = self.code().get(place as usize).ok_or(Rule::OffEnd)?;
        let row = row_of(instruction.opcode).ok_or(Rule::NotRun)?;
        let parts = match row.operand {
            Operand::Name => self.parts(instruction.first),
            _ => &[],
        };
        let count = match form_of_count(instruction.opcode) {
            true => instruction.second,
            false => instruction.first,
        };
        let args = if row.args == 0 {
            0
        } else {
            row.args * count as usize
        };
        let runtime =
            usize::from(row.operand == Operand::Name && row.takes.contains(&Need::Runtime));
        Ok(Here {
            place,
            row,
            instruction,
            parts,
            args,
            depth: args + row.takes.len() - runtime + parts.len(),
        })
    }

    fn name(&self, index: u32) -> Option<&'a Multiname> {
        entry(&self.linked.file.names, index)
    }

    fn parts(&self, index: u32) -> &'static [Need] {
        match self.name(index).map(|name| &name.name) {
            Some(Name::Runtime { .. }) => &[Need::Space],
            Some(Name::RuntimeLate) => &[Need::Value, Need::Space],
            Some(Name::MultiLate { .. }) => &[Need::Value],
            _ => &[],
        }
    }

    fn is_in_table(&self, operand: Operand, n: u32) -> bool {
        let (f, n) = (self.linked.file, n as usize);
        match operand {
            Operand::Unnamed | Operand::Scope => true,
            Operand::String => n <= f.strings.len(),
            Operand::Int => n <= f.ints.len(),
            Operand::Uint => n <= f.uints.len(),
            Operand::Double => n <= f.doubles.len(),
            Operand::Space => n > 0 && n <= f.spaces.len(),
            Operand::Function => n < f.methods.len() && self.is_function(n),
            Operand::Class => n < f.instances.len(),
            Operand::Handler => n < self.body.handlers.len(),
            Operand::Name | Operand::PlainName | Operand::Type => n > 0 && n <= f.names.len(),
            Operand::TypeOrAny => n <= f.names.len(),
        }
    }

    fn is_function(&self, method: usize) -> bool {
        matches!(self.linked.owners[method], Owner::Free) && self.linked.bodies[method] != NONE
    }

    fn is_plain(&self, index: u32) -> bool {
        match self.name(index) {
            Some(Multiname {
                kind: 0x07,
                name: Name::Qualified { name, .. },
            }) => *name != 0,
            Some(Multiname {
                kind: 0x09,
                name: Name::Multi { name, .. },
            }) => *name != 0,
            _ => false,
        }
    }

    fn is_name(&self, index: u32) -> bool {
        match self.name(index) {
            Some(Multiname {
                kind: 0x0f,
                name: Name::Runtime { name },
            }) => *name != 0,
            Some(Multiname {
                kind: 0x11 | 0x1b, ..
            }) => true,
            _ => self.is_plain(index),
        }
    }

    fn has_form(&self, operand: Operand, n: u32) -> bool {
        match operand {
            Operand::Name => self.is_name(n),
            Operand::PlainName => self.is_plain(n),
            Operand::Type | Operand::TypeOrAny => self.linked.types[n as usize].is_some(),
            _ => true,
        }
    }

    fn has_locals(&self, here: &Here) -> bool {
        let count = self.body.locals as usize;
        match here.row.locals {
            Locals::Untouched => true,
            Locals::Walks => {
                let (one, two) = (here.instruction.first, here.instruction.second);
                (one as usize) < count && (two as usize) < count && one != two
            }
            Locals::Reads | Locals::Sets(_) => local(here.instruction) < count,
        }
    }

    /// Whether the places that an instruction leads to are before the code's end.
    fn stays_inside(&self, here: &Here) -> bool {
        let end = self.code().len() as u32;
        let next = || here.place + 1 < end;
        match here.row.leads {
            Leads::Ends => true,
            Leads::Next => next(),
            Leads::Branches => next() && here.instruction.first < end,
            Leads::Jumps => self
                .targets(here.instruction)
                .iter()
                .all(|&target| target < end),
        }
    }

    /// The places that an instruction names.
    pub fn targets(&self, one: &'a Instruction) -> &'a [u32] {
        match one.opcode {
            0x0c..=0x1a => std::slice::from_ref(&one.first),
            0x1b => &self.body.code.targets[one.switch_targets()],
            _ => &[],
        }
    }

    /// The rules before Merge. `cover` tells whether handlers cover the place, and whether one of them leads to the end.
    #[inline(always)]
    pub fn keeps_early(&self, here: &Here, state: &State, cover: Cover) -> Kept {
        let (row, first) = (here.row, here.instruction.first);
        if row.operand != Operand::Unnamed {
            keep(self.is_in_table(row.operand, first), Rule::PoolIndex)?;
            keep(self.has_form(row.operand, first), Rule::NameForm)?;
        }
        let (depth, most) = (state.stack.len(), self.body.stack as usize);
        keep(here.depth <= depth, Rule::StackUnder)?;
        keep(
            depth - here.depth + row.gives.len() <= most,
            Rule::StackOver,
        )?;
        keep(most > 0 || cover == Cover::None, Rule::StackOver)?;
        match row.scoping {
            Scoping::Stays => {}
            Scoping::Pops => keep(!state.scopes.is_empty(), Rule::ScopeUnder)?,
            Scoping::Pushes(_) => keep(state.scopes.len() < self.scope_size(), Rule::ScopeOver)?,
        }
        keep(self.has_locals(here), Rule::LocalIndex)?;
        keep(
            self.stays_inside(here) && cover != Cover::LeadsToEnd,
            Rule::OffEnd,
        )
    }

    /// All other rules but Merge.
    #[inline(always)]
    pub fn keeps_late(&self, here: &Here, state: &State) -> Kept {
        let row = here.row;
        let asks = row.asks || !here.parts.is_empty();
        if asks {
            for rule in [Rule::NotSpace, Rule::NotObject, Rule::SlotIndex] {
                keep(self.all_suit(here, state, rule), rule)?;
            }
        }
        if row.operand == Operand::Scope {
            let scope = usize::from(here.instruction.byte);
            keep(scope < state.scopes.len(), Rule::ScopeIndex)?;
        }
        keep(self.is_here(row.site), Rule::NotHere)?;
        if asks {
            keep(self.all_suit(here, state, Rule::NotIndex), Rule::NotIndex)?;
        }
        if let Locals::Walks = row.locals {
            let index = state.locals[here.instruction.second as usize];
            keep(index == Kind::Num, Rule::NotIndex)?;
        }
        if here.place == 0 {
            keep(self.filled() <= self.body.locals as usize, Rule::Parameters)?;
            keep(!self.is_unsupported(), Rule::Flags)?;
        }
        Ok(())
    }

    fn all_suit(&self, here: &Here, state: &State, rule: Rule) -> bool {
        here.needs()
            .enumerate()
            .all(|(depth, need)| self.suits(here, rule, need, here.taken(state, depth)))
    }

    /// Whether a value that is taken is what a rule asks.
    fn suits(&self, here: &Here, rule: Rule, need: Need, kind: Kind) -> bool {
        match (rule, need, kind) {
            (Rule::NotSpace, Need::Space, _) => matches!(kind, Kind::Null | Kind::Space),
            (Rule::NotObject, Need::Slotted, _) => matches!(kind, Kind::Null | Kind::Obj(_)),
            (Rule::NotObject, Need::Instance, _) => self.is_instance(here.row.site, kind),
            (Rule::SlotIndex, Need::Slotted, Kind::Obj(layout)) => {
                let layouts = &self.linked.layouts;
                layouts.slot(layout, here.instruction.first).is_some()
            }
            (Rule::NotIndex, Need::Index, _) => kind == Kind::Num,
            _ => true,
        }
    }

    fn is_instance(&self, site: Site, kind: Kind) -> bool {
        match (self.super_layout(site), kind) {
            (None, _) | (_, Kind::Null) => true,
            (Some(above), Kind::Obj(layout)) => self.linked.layouts.is_under(layout, above),
            _ => false,
        }
    }

    fn is_here(&self, site: Site) -> bool {
        match site {
            Site::Anywhere => true,
            Site::WithActivation => self.method.flags & NEEDS_ACTIVATION != 0,
            Site::OnInstance | Site::InMaker => self.super_layout(site).is_some(),
        }
    }
}

/// Whether handlers cover a place.
#[derive(Clone, Copy, PartialEq, Eq)]
pub enum Cover {
    None,
    Some,
    /// One of them leads to the code's end.
    LeadsToEnd,
}

/// Whether the second number of an instruction counts its arguments.
fn form_of_count(opcode: u8) -> bool {
    matches!(opcode, 0x45 | 0x46 | 0x4a | 0x4c | 0x4e | 0x4f)
}
