//! What names stand for.
use crate::hash::Map;
use crate::value::*;

pub const HOST_CLASSES: [&[u8]; 14] = [
    b"Object",
    b"Class",
    b"Function",
    b"Namespace",
    b"String",
    b"int",
    b"uint",
    b"Number",
    b"Boolean",
    b"Error",
    b"TypeError",
    b"ReferenceError",
    b"ArgumentError",
    b"Array",
];

/// What the name of a type, a base or an interface stands for.
#[derive(Clone, Copy, PartialEq, Eq)]
pub enum Meaning {
    Nothing,
    Any,
    Void,
    Host(&'static [u8]),
    Class(u32),
}

/// A namespace of its own number for each that is unequal to all before it; a text likewise.
type Number = u32;
const QNAME: u8 = 0x07;
const MULTINAME: u8 = 0x09;
const PRIVATE: u8 = 0x05;
const NAMESPACE: u8 = 0x08;
const PACKAGE: u8 = 0x16;

/// The name of a class or a trait: a namespace and a text, neither of them 0.
pub fn qualified(f: &File, name: u32) -> Option<(u32, u32)> {
    match entry(&f.names, name)? {
        Multiname {
            kind: QNAME,
            name: Name::Qualified { space, name },
        } if *space != 0 && *name != 0 => Some((*space, *name)),
        _ => None,
    }
}

pub fn is_type_name(f: &File, name: u32) -> bool {
    entry(&f.names, name).is_none_or(|name| matches!(name.kind, QNAME | MULTINAME))
}

pub struct Names<'a> {
    file: &'a File<'a>,
    texts: Vec<Number>,
    spaces: Vec<Number>,
    public: Option<Number>,
    hosts: Map<Number, Meaning>,
    /// The first class of a namespace and a text, and of a text.
    classes: Map<(Number, Number), u32>,
    by_text: Map<Number, u32>,
    meanings: Vec<Option<Meaning>>,
}

fn text_numbers<'a>(f: &'a File) -> (Vec<Number>, Map<&'a [u8], Number>) {
    let mut numbers = Map::from_iter([(&[][..], 0)]);
    let mut texts = vec![0];
    for text in &f.strings {
        let next = numbers.len() as u32;
        texts.push(*numbers.entry(text.as_ref()).or_insert(next));
    }
    (texts, numbers)
}

/// The numbers of namespaces, and that of the public one.
fn space_numbers(f: &File, texts: &[Number]) -> (Vec<Number>, Option<Number>) {
    let mut numbers = Map::default();
    let mut spaces = vec![0];
    for (space, n) in f.spaces.iter().zip(1..) {
        let kind = if space.kind == NAMESPACE {
            PACKAGE
        } else {
            space.kind
        };
        let own = if kind == PRIVATE { n } else { 0 };
        let next = numbers.len() as u32 + 1;
        spaces.push(
            *numbers
                .entry((kind, texts[space.name as usize], own))
                .or_insert(next),
        );
    }
    let public = numbers.get(&(PACKAGE, 0, 0)).copied();
    (spaces, public)
}

impl<'a> Names<'a> {
    /// The names of a file whose classes have qualified names.
    pub fn new(f: &'a File<'a>) -> Self {
        let (texts, by_bytes) = text_numbers(f);
        let (spaces, public) = space_numbers(f, &texts);
        let host = |text: &'static [u8], meaning| Some((*by_bytes.get(text)?, meaning));
        let hosts = HOST_CLASSES
            .iter()
            .filter_map(|&text| host(text, Meaning::Host(text)));
        let hosts = hosts.chain(host(b"void", Meaning::Void)).collect();
        let meanings = vec![None; f.names.len() + 1];
        let mut names = Names {
            file: f,
            texts,
            spaces,
            public,
            hosts,
            classes: Map::default(),
            by_text: Map::default(),
            meanings,
        };
        names.add_classes();
        names
    }

    fn add_classes(&mut self) {
        for (instance, class) in self.file.instances.iter().zip(0..) {
            let name = self.key(instance.name);
            self.classes.entry(name).or_insert(class);
            self.by_text.entry(name.1).or_insert(class);
        }
    }

    /// The namespace and the text of the name of a class or a trait: equal names have equal numbers.
    pub fn key(&self, name: u32) -> (Number, Number) {
        let (space, text) = qualified(self.file, name).expect("the kinds of names were tested");
        (self.spaces[space as usize], self.texts[text as usize])
    }

    fn host(&self, text: Number) -> Meaning {
        self.hosts.get(&text).copied().unwrap_or(Meaning::Nothing)
    }

    fn in_spaces(&self, spaces: &[u32], text: Number) -> Meaning {
        let spaces = || spaces.iter().map(|&space| self.spaces[space as usize]);
        let first = spaces()
            .filter_map(|space| self.classes.get(&(space, text)))
            .min();
        match first {
            Some(&class) => Meaning::Class(class),
            None if spaces().any(|space| Some(space) == self.public) => self.host(text),
            None => Meaning::Nothing,
        }
    }

    fn in_any(&self, text: Number) -> Meaning {
        self.by_text
            .get(&text)
            .map_or_else(|| self.host(text), |&class| Meaning::Class(class))
    }

    fn find(&self, name: u32) -> Meaning {
        let Some(multiname) = entry(&self.file.names, name) else {
            return Meaning::Any;
        };
        match multiname.name {
            Name::Qualified { name: 0, .. } | Name::Multi { name: 0, .. } => Meaning::Nothing,
            Name::Qualified { space: 0, name } => self.in_any(self.texts[name as usize]),
            Name::Qualified { space, name } => self.in_spaces(&[space], self.texts[name as usize]),
            Name::Multi { name, set } => {
                self.in_spaces(&self.file.sets[set as usize - 1], self.texts[name as usize])
            }
            _ => Meaning::Nothing,
        }
    }

    /// What the name of a type, a base or an interface stands for; each is looked up once.
    pub fn meaning(&mut self, name: u32) -> Meaning {
        if let Some(meaning) = self.meanings[name as usize] {
            return meaning;
        }
        let meaning = self.find(name);
        self.meanings[name as usize] = Some(meaning);
        meaning
    }
}
