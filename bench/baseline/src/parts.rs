//! What lines ask of other lines: counts of lines below them, and labels. It is counted by first tokens alone.
use crate::operands::LineReason::{self, Count, LabelMissing};
use crate::tokens::{Word, WordMap, label_of_line};
use crate::value::*;

/// A line and why it is refused. The least one is the answer.
#[derive(Debug, Clone, Copy, PartialEq, Eq, PartialOrd, Ord)]
pub struct LineFault {
    pub line: u32,
    pub reason: LineReason,
}

pub struct MethodPart {
    pub line: u32,
    pub flags: u8,
    pub params: u32,
    pub options: u32,
    pub param_names: u32,
}

impl MethodPart {
    fn is_faulty(&self) -> bool {
        let options = if self.flags & HAS_OPTIONS != 0 {
            self.params
        } else {
            0
        };
        let param_names = if self.flags & HAS_PARAM_NAMES != 0 {
            self.params
        } else {
            0
        };
        self.options > options || self.param_names != param_names
    }
}

pub struct InstancePart {
    pub line: u32,
    pub flags: u8,
    pub protected: u32,
    pub inits: u32,
}

impl InstancePart {
    fn is_faulty(&self) -> bool {
        self.inits == 0 || self.protected != u32::from(self.flags & HAS_PROTECTED != 0)
    }
}

pub struct TraitPart {
    pub line: u32,
    pub attributes: u8,
    pub metadata: u32,
}

impl TraitPart {
    fn is_faulty(&self) -> bool {
        self.metadata > 0 && self.attributes & HAS_METADATA == 0
    }
}

/// A label that is set or used.
struct Label {
    /// The number of the instruction that it stands for, once it is set.
    number: Option<u32>,
    /// The first line that uses it.
    used: u32,
}

/// The labels of a body, by numbers of their own.
#[derive(Default)]
pub struct Labels<'a> {
    places: WordMap<'a, u32>,
    labels: Vec<Label>,
}

impl<'a> Labels<'a> {
    fn place(&mut self, label: &'a [u8], used: u32) -> u32 {
        let next = self.labels.len() as u32;
        let place = *self.places.entry(label).or_insert(next);
        if place == next {
            self.labels.push(Label { number: None, used });
        }
        place
    }

    /// Sets a label, and tells whether it was set before.
    pub fn set(&mut self, label: &'a [u8], number: u32) -> bool {
        let place = self.place(label, u32::MAX);
        let entry = &mut self.labels[place as usize];
        let was_set = entry.number.is_some();
        entry.number = entry.number.or(Some(number));
        was_set
    }

    pub fn mention(&mut self, label: &'a [u8], line: u32) -> u32 {
        let place = self.place(label, line);
        let entry = &mut self.labels[place as usize];
        entry.used = entry.used.min(line);
        place
    }

    fn number(&self, place: u32) -> u32 {
        self.labels[place as usize]
            .number
            .expect("a label that is set")
    }

    /// The first use of a label that is set nowhere.
    pub fn missing(&self) -> Option<LineFault> {
        let unset = self.labels.iter().filter(|label| label.number.is_none());
        unset
            .map(|label| LineFault {
                line: label.used,
                reason: LabelMissing,
            })
            .min()
    }

    /// Puts instructions in place of labels.
    pub fn resolve(&self, code: &mut Code, handlers: &mut [Handler]) {
        use crate::opcodes::{Form, form};
        for instruction in &mut code.instructions {
            if form(instruction.opcode) == Form::Branch {
                instruction.first = self.number(instruction.first);
            }
        }
        code.targets
            .iter_mut()
            .for_each(|target| *target = self.number(*target));
        for handler in handlers {
            for place in [&mut handler.from, &mut handler.to, &mut handler.target] {
                *place = self.number(*place);
            }
        }
    }
}

/// The parts that later lines may belong to.
#[derive(Default)]
pub struct Parts<'a> {
    pub method: Option<MethodPart>,
    pub instance: Option<InstancePart>,
    pub one_trait: Option<TraitPart>,
    pub labels: Option<Labels<'a>>,
}

fn count_at(line: u32, is_faulty: bool) -> Option<LineFault> {
    is_faulty.then_some(LineFault {
        line,
        reason: Count,
    })
}

pub fn least(one: Option<LineFault>, other: Option<LineFault>) -> Option<LineFault> {
    one.into_iter().chain(other).min()
}

impl<'a> Parts<'a> {
    pub fn are_closed(&self) -> bool {
        self.method.is_none()
            && self.instance.is_none()
            && self.one_trait.is_none()
            && self.labels.is_none()
    }

    fn end_method(&mut self) -> Option<LineFault> {
        self.method
            .take()
            .and_then(|part| count_at(part.line, part.is_faulty()))
    }

    fn end_instance(&mut self) -> Option<LineFault> {
        self.instance
            .take()
            .and_then(|part| count_at(part.line, part.is_faulty()))
    }

    fn end_trait(&mut self) -> Option<LineFault> {
        self.one_trait
            .take()
            .and_then(|part| count_at(part.line, part.is_faulty()))
    }

    fn method_line(&mut self, word: Word) -> Option<LineFault> {
        let part = self.method.as_mut()?;
        match word {
            Word::Param => part.params += 1,
            Word::Option => part.options += 1,
            Word::Pname => part.param_names += 1,
            _ => return self.end_method(),
        }
        None
    }

    fn instance_line(&mut self, word: Word) -> Option<LineFault> {
        let part = self.instance.as_mut()?;
        match word {
            Word::Protected => part.protected += 1,
            Word::Iinit => part.inits += 1,
            Word::Implements | Word::Trait | Word::Tmeta => {}
            _ => return self.end_instance(),
        }
        None
    }

    fn trait_line(&mut self, word: Word) -> Option<LineFault> {
        let part = self.one_trait.as_mut()?;
        if word != Word::Tmeta {
            return self.end_trait();
        }
        part.metadata += 1;
        None
    }

    /// A line's first word: it counts for the parts that it belongs to and ends others. The labels of a body stay until
    /// they are taken.
    pub fn line(&mut self, word: Word) -> Option<LineFault> {
        if matches!(word, Word::Instruction(_) | Word::Label | Word::Unknown) {
            return None;
        }
        least(
            least(self.method_line(word), self.instance_line(word)),
            self.trait_line(word),
        )
    }

    /// The end of the text.
    pub fn end(&mut self) -> Option<LineFault> {
        least(
            least(self.end_method(), self.end_instance()),
            self.end_trait(),
        )
    }

    pub fn end_labels(&mut self) -> Option<LineFault> {
        self.labels.take().and_then(|labels| labels.missing())
    }

    /// Looks through the lines behind a fault for what the lines before it ask of them.
    pub fn settle(
        &mut self,
        fault: LineFault,
        rest: impl Iterator<Item = (Word, &'a [u8])>,
    ) -> LineFault {
        let mut first = Some(fault);
        for (word, token) in rest {
            if self.are_closed() {
                break;
            }
            first = least(first, self.line(word));
            if word == Word::Body {
                first = least(first, self.end_labels());
            }
            if let (Some(labels), Some(label)) = (&mut self.labels, label_of_line(token)) {
                labels.set(label, 0);
            }
        }
        first = least(first, self.end());
        least(first, self.end_labels()).unwrap_or(fault)
    }
}
