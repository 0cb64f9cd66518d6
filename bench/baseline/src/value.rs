//! What a file says. Entries of pools are counted from 1, so that entry n stands at n - 1; index 0 is no entry.
use crate::opcodes::{Form, form};
use std::borrow::Cow;

#[derive(Clone, Copy)]
pub struct Namespace {
    pub kind: u8,
    pub name: u32,
}

pub enum Name {
    Qualified { space: u32, name: u32 },
    Runtime { name: u32 },
    RuntimeLate,
    Multi { name: u32, set: u32 },
    MultiLate { set: u32 },
    Type { base: u32, params: Box<[u32]> },
}

/// The kind tells names of one shape apart: those of attributes from the others.
pub struct Multiname {
    pub kind: u8,
    pub name: Name,
}

/// An entry of the pool that the kind names.
#[derive(Clone, Copy, Default)]
pub struct Value {
    pub index: u32,
    pub kind: u8,
}

#[derive(Default)]
pub struct Method {
    pub result: u32,
    pub params: Vec<u32>,
    pub name: u32,
    pub flags: u8,
    pub options: Vec<Value>,
    pub param_names: Vec<u32>,
}

pub const NEEDS_ARGUMENTS: u8 = 0x01;
pub const NEEDS_ACTIVATION: u8 = 0x02;
pub const NEEDS_REST: u8 = 0x04;
pub const HAS_OPTIONS: u8 = 0x08;
pub const SETS_DXNS: u8 = 0x40;
pub const HAS_PARAM_NAMES: u8 = 0x80;

/// Items are pairs, one after the other.
pub struct Metadata {
    pub name: u32,
    pub items: Vec<u32>,
}

pub const SLOT: u8 = 0;
pub const METHOD: u8 = 1;
pub const GETTER: u8 = 2;
pub const SETTER: u8 = 3;
pub const CLASS: u8 = 4;
pub const FUNCTION: u8 = 5;
pub const CONST: u8 = 6;
pub const HAS_METADATA: u8 = 4;

#[derive(Default)]
pub struct Trait {
    pub name: u32,
    pub kind: u8,
    pub attributes: u8,
    /// The number of a slot or of a method.
    pub id: u32,
    /// The type of a slot, else the method or the class.
    pub target: u32,
    /// That of a slot; with index 0 it has none.
    pub value: Value,
    pub metadata: Vec<u32>,
}

impl Trait {
    pub fn is_slot(&self) -> bool {
        matches!(self.kind, SLOT | CONST)
    }
}

pub const FINAL: u8 = 0x02;
pub const INTERFACE: u8 = 0x04;
pub const HAS_PROTECTED: u8 = 0x08;

#[derive(Default)]
pub struct Instance {
    pub name: u32,
    pub base: u32,
    pub flags: u8,
    pub protected: u32,
    pub interfaces: Vec<u32>,
    pub init: u32,
    pub traits: Vec<Trait>,
}

/// A class object or a script.
pub struct Owner {
    pub init: u32,
    pub traits: Vec<Trait>,
}

/// Which of the fields count depends on the opcode. A branch has its target in `first`; a switch has as many targets as
/// `second` says, and they stand in the code's list from `first` on.
#[derive(Clone, Copy, Default)]
pub struct Instruction {
    pub opcode: u8,
    pub byte: u8,
    pub register: u8,
    pub first: u32,
    pub second: u32,
}

impl Instruction {
    /// The pool that the operand is into that may be into one, which is `first`.
    pub fn pool(&self) -> Pool {
        match form(self.opcode) {
            Form::Name | Form::NameCount => Pool::Names,
            Form::String | Form::Debug => Pool::Strings,
            Form::Int => Pool::Ints,
            Form::Uint => Pool::Uints,
            Form::Double => Pool::Doubles,
            Form::Space => Pool::Spaces,
            _ => Pool::Unread,
        }
    }

    pub fn switch_targets(&self) -> std::ops::Range<usize> {
        self.first as usize..(self.first + self.second) as usize
    }
}

/// Targets are numbers of instructions.
#[derive(Default)]
pub struct Code {
    /// Where it begins in the input, if it was read.
    pub at: u32,
    pub instructions: Vec<Instruction>,
    pub targets: Vec<u32>,
}

pub struct Handler {
    pub from: u32,
    pub to: u32,
    pub target: u32,
    pub kind: u32,
    pub name: u32,
}

#[derive(Default)]
pub struct Body {
    pub method: u32,
    pub stack: u32,
    pub locals: u32,
    pub scope: u32,
    pub scopes: u32,
    pub code: Code,
    pub handlers: Vec<Handler>,
    pub traits: Vec<Trait>,
}

#[derive(Default)]
pub struct File<'a> {
    pub ints: Vec<u32>,
    pub uints: Vec<u32>,
    pub doubles: Vec<[u8; 8]>,
    pub strings: Vec<Cow<'a, [u8]>>,
    pub spaces: Vec<Namespace>,
    pub sets: Vec<Box<[u32]>>,
    pub names: Vec<Multiname>,
    pub methods: Vec<Method>,
    pub metadata: Vec<Metadata>,
    pub instances: Vec<Instance>,
    pub classes: Vec<Owner>,
    pub scripts: Vec<Owner>,
    pub bodies: Vec<Body>,
}

/// Entry n of a pool, unless n is 0 or above the pool.
pub fn entry<T>(pool: &[T], n: u32) -> Option<&T> {
    pool.get((n as usize).wrapping_sub(1))
}

impl File<'_> {
    /// How many entries a pool has.
    pub fn size(&self, pool: Pool) -> usize {
        match pool {
            Pool::Strings => self.strings.len(),
            Pool::Ints => self.ints.len(),
            Pool::Uints => self.uints.len(),
            Pool::Doubles => self.doubles.len(),
            Pool::Spaces => self.spaces.len(),
            Pool::Names => self.names.len(),
            Pool::Unread => usize::MAX,
        }
    }

    /// The text of a string; index 0 is the empty one.
    pub fn text(&self, n: u32) -> &[u8] {
        entry(&self.strings, n).map_or(&[], |text| text)
    }
}

pub const NAMESPACE_KINDS: &[(u8, &str)] = &[
    (0x05, "Private"),
    (0x08, "Namespace"),
    (0x16, "Package"),
    (0x17, "PackageInternal"),
    (0x18, "Protected"),
    (0x19, "Explicit"),
    (0x1a, "StaticProtected"),
];

pub const NAME_KINDS: &[(u8, &str)] = &[
    (0x07, "QName"),
    (0x0d, "QNameA"),
    (0x0f, "RTQName"),
    (0x10, "RTQNameA"),
    (0x11, "RTQNameL"),
    (0x12, "RTQNameLA"),
    (0x09, "Multiname"),
    (0x0e, "MultinameA"),
    (0x1b, "MultinameL"),
    (0x1c, "MultinameLA"),
    (0x1d, "TypeName"),
];

/// Those of values beside the kinds of namespaces.
pub const VALUE_KINDS: &[(u8, &str)] = &[
    (0x00, "Undefined"),
    (0x01, "Utf8"),
    (0x03, "Int"),
    (0x04, "UInt"),
    (0x06, "Double"),
    (0x0a, "False"),
    (0x0b, "True"),
    (0x0c, "Null"),
];

pub const TRAIT_KINDS: &[(u8, &str)] = &[
    (0, "slot"),
    (1, "method"),
    (2, "getter"),
    (3, "setter"),
    (4, "class"),
    (5, "function"),
    (6, "const"),
];

/// The pool that an index is into, if it is into one.
#[derive(Clone, Copy, PartialEq, Eq)]
pub enum Pool {
    Strings,
    Ints,
    Uints,
    Doubles,
    Spaces,
    Names,
    Unread,
}

/// The pool that the kind of a value names.
pub fn pool_of_kind(kind: u8) -> Option<Pool> {
    match kind {
        0x00 | 0x0a | 0x0b | 0x0c => Some(Pool::Unread),
        0x01 => Some(Pool::Strings),
        0x03 => Some(Pool::Ints),
        0x04 => Some(Pool::Uints),
        0x06 => Some(Pool::Doubles),
        0x05 | 0x08 | 0x16..=0x1a => Some(Pool::Spaces),
        _ => None,
    }
}
