//! Which lines may follow which.
use crate::tokens::Word;

/// The tables in their order.
#[derive(Clone, Copy, PartialEq, Eq, PartialOrd, Ord)]
enum Table {
    Nothing,
    Abc,
    Int,
    Uint,
    Double,
    String,
    Ns,
    Set,
    Name,
    Method,
    Metadata,
    Instance,
    Class,
    Script,
    Body,
}

/// The table that the lines so far end in, and how far its last entry is.
pub struct Place {
    table: Table,
    part: u8,
}

/// The parts of entries: of methods their parameters, options and names of parameters; of instances what stands up to the
/// interfaces, and the initializer; of bodies code and handlers. Traits are the last part.
const PROTECTED: u8 = 1;
const IMPLEMENTS: u8 = 2;
const IINIT: u8 = 3;
const TRAITS: u8 = 4;

fn table(word: Word) -> Option<Table> {
    Some(match word {
        Word::Abc => Table::Abc,
        Word::Int => Table::Int,
        Word::Uint => Table::Uint,
        Word::Double => Table::Double,
        Word::String => Table::String,
        Word::Ns => Table::Ns,
        Word::Set => Table::Set,
        Word::Name => Table::Name,
        Word::Method => Table::Method,
        Word::Metadata => Table::Metadata,
        Word::Instance => Table::Instance,
        Word::Class => Table::Class,
        Word::Script => Table::Script,
        Word::Body => Table::Body,
        _ => return None,
    })
}

impl Place {
    pub fn new() -> Self {
        Place {
            table: Table::Nothing,
            part: 0,
        }
    }

    /// Goes on to a part of the last entry, if it may stand there.
    fn part(&mut self, table: Table, least: u8, most: u8, next: u8) -> bool {
        let may_stand = self.table == table && (least..=most).contains(&self.part);
        if may_stand {
            self.part = next;
        }
        may_stand
    }

    fn enter(&mut self, table: Table) -> bool {
        let may_stand = if table == Table::Abc {
            self.table == Table::Nothing
        } else {
            self.table >= Table::Abc && table >= self.table
        };
        if may_stand {
            *self = Place { table, part: 0 };
        }
        may_stand
    }

    /// Whether a line of that word may stand here.
    pub fn may_stand(&mut self, word: Word) -> bool {
        if let Some(table) = table(word) {
            return self.enter(table);
        }
        match word {
            Word::Param => self.part(Table::Method, 0, 0, 0),
            Word::Option => self.part(Table::Method, 0, 1, 1),
            Word::Pname => self.part(Table::Method, 0, 2, 2),
            Word::Item => self.table == Table::Metadata,
            Word::Protected => self.part(Table::Instance, 0, 0, PROTECTED),
            Word::Implements => self.part(Table::Instance, 0, IMPLEMENTS, IMPLEMENTS),
            Word::Iinit => self.part(Table::Instance, 0, IMPLEMENTS, IINIT),
            Word::Instruction(_) | Word::Label => self.part(Table::Body, 0, 0, 0),
            Word::Catch => self.part(Table::Body, 0, 1, 1),
            Word::Trait => self.part(Table::Instance, IINIT, TRAITS, TRAITS) || self.traits(),
            Word::Tmeta => self.part == TRAITS,
            _ => false,
        }
    }

    /// Goes on to the traits of what is no instance.
    fn traits(&mut self) -> bool {
        let may_stand = matches!(self.table, Table::Class | Table::Script | Table::Body);
        if may_stand {
            self.part = TRAITS;
        }
        may_stand
    }
}
