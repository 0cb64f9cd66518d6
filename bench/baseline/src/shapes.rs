//! The table of instructions as the verifier sees it: what each takes and pushes, what it does to locals and scopes, and where
//! it leads.
use crate::kinds::Kind;
use crate::linked::hosts;

/// What the first operand names.
#[derive(Clone, Copy, PartialEq, Eq)]
pub enum Operand {
    Unnamed,
    String,
    Int,
    Uint,
    Double,
    Space,
    Function,
    Class,
    Handler,
    /// A name that may have parts at run time.
    Name,
    PlainName,
    Type,
    /// A type, where 0 is any.
    TypeOrAny,
    Scope,
}

/// What is asked of a value that is taken.
#[derive(Clone, Copy, PartialEq, Eq)]
pub enum Need {
    Value,
    Space,
    Index,
    /// Null, or an object with the slot.
    Slotted,
    /// An instance of the class that the method stands in.
    Instance,
    /// What the name takes at run time.
    Runtime,
}

/// Where the kind of a value that is pushed comes from.
#[derive(Clone, Copy)]
pub enum Source {
    Fixed(Kind),
    /// The value so deep among those that are taken, below the arguments.
    Taken(usize),
    Local,
    Scope,
    Slot,
    Sum,
    Type,
    AsType,
    Activation,
    ClassObject,
    CatchObject,
}

#[derive(Clone, Copy)]
pub enum Locals {
    Untouched,
    Reads,
    Sets(Source),
    /// The two of `hasnext2`.
    Walks,
}

#[derive(Clone, Copy, PartialEq, Eq)]
pub enum Scoping {
    Stays,
    /// With the flag or without.
    Pushes(bool),
    Pops,
}

#[derive(Clone, Copy, PartialEq, Eq)]
pub enum Leads {
    Next,
    Branches,
    Jumps,
    Ends,
}

#[derive(Clone, Copy, PartialEq, Eq)]
pub enum Site {
    Anywhere,
    WithActivation,
    OnInstance,
    InMaker,
}

/// Values are listed with the top first. Arguments stand above what is taken: so many for each that the instruction names.
#[derive(Clone, Copy)]
pub struct Row {
    pub operand: Operand,
    pub args: usize,
    pub takes: &'static [Need],
    pub gives: &'static [Source],
    pub locals: Locals,
    pub scoping: Scoping,
    pub leads: Leads,
    pub site: Site,
    /// Whether a value that is taken has to be of some kind, whatever the name takes at run time.
    pub asks: bool,
}

const VALUE: &[Need] = &[Need::Value];
const TWO: &[Need] = &[Need::Value, Need::Value];
const WALK: &[Need] = &[Need::Index, Need::Value];
const NAMED: &[Need] = &[Need::Runtime, Need::Value];
const SUPER: &[Need] = &[Need::Runtime, Need::Instance];
const ANY: &[Source] = &[Source::Fixed(Kind::Any)];
const NUM: &[Source] = &[Source::Fixed(Kind::Num)];
const BOOL: &[Source] = &[Source::Fixed(Kind::Bool)];
const TEXT: &[Source] = &[Source::Fixed(Kind::Text)];
const SOME_OBJECT: &[Source] = &[Source::Fixed(Kind::Obj(hosts::OBJECT))];

const fn row(takes: &'static [Need], gives: &'static [Source]) -> Row {
    let mut asks = false;
    let mut n = 0;
    while n < takes.len() {
        asks |= !matches!(takes[n], Need::Value | Need::Runtime);
        n += 1;
    }
    Row {
        operand: Operand::Unnamed,
        args: 0,
        takes,
        gives,
        locals: Locals::Untouched,
        scoping: Scoping::Stays,
        leads: Leads::Next,
        site: Site::Anywhere,
        asks,
    }
}

impl Row {
    const fn naming(self, operand: Operand) -> Row {
        Row { operand, ..self }
    }

    const fn args(self, args: usize) -> Row {
        Row { args, ..self }
    }

    const fn locals(self, locals: Locals) -> Row {
        Row { locals, ..self }
    }

    const fn scoping(self, scoping: Scoping) -> Row {
        Row { scoping, ..self }
    }

    const fn leading(self, leads: Leads) -> Row {
        Row { leads, ..self }
    }

    const fn only(self, site: Site) -> Row {
        Row { site, ..self }
    }
}

/// Those that do nothing, and those that lead elsewhere.
const fn flow(opcode: u8) -> Option<Row> {
    Some(match opcode {
        0x02 | 0x09 | 0xf0 => row(&[], &[]),
        0xef | 0xf1 => row(&[], &[]).naming(Operand::String),
        0x03 | 0x48 => row(VALUE, &[]).leading(Leads::Ends),
        0x47 => row(&[], &[]).leading(Leads::Ends),
        0x0c..=0x0f | 0x13..=0x1a => row(TWO, &[]).leading(Leads::Branches),
        0x11 | 0x12 => row(VALUE, &[]).leading(Leads::Branches),
        0x10 => row(&[], &[]).leading(Leads::Jumps),
        0x1b => row(&[Need::Index], &[]).leading(Leads::Jumps),
        _ => return None,
    })
}

/// Those of constants, of the stack, of scopes and of locals.
const fn values(opcode: u8) -> Option<Row> {
    Some(match opcode {
        0x20 => row(&[], &[Source::Fixed(Kind::Null)]),
        0x21 => row(&[], &[Source::Fixed(Kind::Undef)]),
        0x24 | 0x25 | 0x28 => row(&[], NUM),
        0x26 | 0x27 => row(&[], BOOL),
        0x2c => row(&[], TEXT).naming(Operand::String),
        0x2d => row(&[], NUM).naming(Operand::Int),
        0x2e => row(&[], NUM).naming(Operand::Uint),
        0x2f => row(&[], NUM).naming(Operand::Double),
        0x31 => row(&[], &[Source::Fixed(Kind::Space)]).naming(Operand::Space),
        0x29 => row(VALUE, &[]),
        0x2a => row(VALUE, &[Source::Taken(0), Source::Taken(0)]),
        0x2b => row(TWO, &[Source::Taken(1), Source::Taken(0)]),
        0x1c => row(VALUE, &[]).scoping(Scoping::Pushes(true)),
        0x30 => row(VALUE, &[]).scoping(Scoping::Pushes(false)),
        0x1d => row(&[], &[]).scoping(Scoping::Pops),
        0x64 => row(&[], SOME_OBJECT),
        0x65 => row(&[], &[Source::Scope]).naming(Operand::Scope),
        0x62 | 0xd0..=0xd3 => row(&[], &[Source::Local]).locals(Locals::Reads),
        0x63 | 0xd4..=0xd7 => row(VALUE, &[]).locals(Locals::Sets(Source::Taken(0))),
        0x08 => row(&[], &[]).locals(Locals::Sets(Source::Fixed(Kind::Undef))),
        0x92 | 0x94 | 0xc2 | 0xc3 => row(&[], &[]).locals(Locals::Sets(Source::Fixed(Kind::Num))),
        0x1e => row(WALK, TEXT),
        0x1f => row(WALK, NUM),
        0x23 => row(WALK, ANY),
        0x32 => row(&[], BOOL).locals(Locals::Walks),
        _ => return None,
    })
}

/// Those that make objects, call, and find and change properties.
const fn objects(opcode: u8) -> Option<Row> {
    Some(match opcode {
        0x40 => row(&[], &[Source::Fixed(Kind::Obj(hosts::FUNCTION))]).naming(Operand::Function),
        0x55 => row(&[], SOME_OBJECT).args(2),
        0x56 => row(&[], &[Source::Fixed(Kind::Obj(hosts::ARRAY))]).args(1),
        0x57 => row(&[], &[Source::Activation]).only(Site::WithActivation),
        0x58 => row(VALUE, &[Source::ClassObject]).naming(Operand::Class),
        0x5a => row(&[], &[Source::CatchObject]).naming(Operand::Handler),
        0x41 => row(TWO, ANY).args(1),
        0x42 => row(VALUE, ANY).args(1),
        0x46 | 0x4a | 0x4c => row(NAMED, ANY).naming(Operand::Name).args(1),
        0x4f => row(NAMED, &[]).naming(Operand::Name).args(1),
        0x5d | 0x5e => row(&[Need::Runtime], SOME_OBJECT).naming(Operand::Name),
        0x60 => row(&[], ANY).naming(Operand::PlainName),
        0x61 | 0x68 => row(&[Need::Value, Need::Runtime, Need::Value], &[]).naming(Operand::Name),
        0x66 => row(NAMED, ANY).naming(Operand::Name),
        0x6a => row(NAMED, BOOL).naming(Operand::Name),
        0x6c => row(&[Need::Slotted], &[Source::Slot]),
        0x6d => row(&[Need::Value, Need::Slotted], &[]),
        0x49 => row(&[Need::Instance], &[]).args(1).only(Site::InMaker),
        _ => return of_super(opcode),
    })
}

const fn of_super(opcode: u8) -> Option<Row> {
    let found = match opcode {
        0x04 => row(SUPER, ANY),
        0x05 => row(&[Need::Value, Need::Runtime, Need::Instance], &[]),
        0x45 => row(SUPER, ANY).args(1),
        0x4e => row(SUPER, &[]).args(1),
        _ => return None,
    };
    Some(found.naming(Operand::Name).only(Site::OnInstance))
}

/// Those that reckon, compare and convert.
const fn operations(opcode: u8) -> Option<Row> {
    Some(match opcode {
        0x70 | 0x85 | 0x95 => row(VALUE, TEXT),
        0x73..=0x75 | 0x90 | 0x91 | 0x93 | 0x97 | 0xc0 | 0xc1 | 0xc4 => row(VALUE, NUM),
        0x76 | 0x96 => row(VALUE, BOOL),
        0x77 => row(VALUE, &[Source::Taken(0)]),
        0x80 => row(VALUE, &[Source::Type]).naming(Operand::TypeOrAny),
        0x82 => row(VALUE, ANY),
        0x86 => row(VALUE, &[Source::AsType]).naming(Operand::Type),
        0x87 => row(TWO, ANY),
        0xa0 => row(TWO, &[Source::Sum]),
        0xa1..=0xaa | 0xc5..=0xc7 => row(TWO, NUM),
        0xab..=0xb1 | 0xb3 | 0xb4 => row(TWO, BOOL),
        0xb2 => row(VALUE, BOOL).naming(Operand::Type),
        _ => return None,
    })
}

const fn rows() -> [Option<Row>; 256] {
    let mut rows = [None; 256];
    let mut n = 0;
    while n < rows.len() {
        let opcode = n as u8;
        rows[n] = match (flow(opcode), values(opcode), objects(opcode)) {
            (Some(row), _, _) | (_, Some(row), _) | (_, _, Some(row)) => Some(row),
            _ => operations(opcode),
        };
        n += 1;
    }
    rows
}

static ROWS: [Option<Row>; 256] = rows();

/// The row of an opcode; those without one are not run.
#[inline(always)]
pub fn row_of(opcode: u8) -> Option<&'static Row> {
    ROWS[opcode as usize].as_ref()
}
