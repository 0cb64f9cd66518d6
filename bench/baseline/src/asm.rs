//! Makes the file of an assembly text.
use crate::opcodes::{Form, form};
use crate::operands::{LineReason, Operands};
use crate::order::Place;
use crate::parts::*;
use crate::tokens::*;
use crate::value::*;
use crate::writer;

/// How many lines each table has.
#[derive(Default)]
struct Sizes {
    ints: u32,
    uints: u32,
    doubles: u32,
    strings: u32,
    spaces: u32,
    sets: u32,
    names: u32,
    methods: u32,
    metadata: u32,
    instances: u32,
    classes: u32,
}

/// The sizes of the tables, by the first tokens of all lines.
fn sizes(text: &[u8]) -> Sizes {
    let mut sizes = Sizes::default();
    for token in text.split(|&byte| byte == b'\n').filter_map(first_token) {
        let size = match token {
            b"int" => &mut sizes.ints,
            b"uint" => &mut sizes.uints,
            b"double" => &mut sizes.doubles,
            b"string" => &mut sizes.strings,
            b"ns" => &mut sizes.spaces,
            b"set" => &mut sizes.sets,
            b"name" => &mut sizes.names,
            b"method" => &mut sizes.methods,
            b"metadata" => &mut sizes.metadata,
            b"instance" => &mut sizes.instances,
            b"class" => &mut sizes.classes,
            _ => continue,
        };
        *size += 1;
    }
    sizes
}

struct Assembler<'a> {
    words: Words,
    sizes: Sizes,
    place: Place,
    parts: Parts<'a>,
    file: File<'a>,
    has_body: Vec<bool>,
    /// The line that is read, and that of the body which it belongs to.
    line: u32,
    body_line: u32,
}

impl<'a> Assembler<'a> {
    fn new(text: &'a [u8]) -> Self {
        let sizes = sizes(text);
        Assembler {
            words: Words::new(),
            place: Place::new(),
            parts: Parts::default(),
            file: File::default(),
            has_body: vec![false; sizes.methods as usize],
            line: 0,
            body_line: 0,
            sizes,
        }
    }

    fn fault(&self, reason: LineReason) -> LineFault {
        LineFault {
            line: self.line,
            reason,
        }
    }

    fn space(&mut self, o: &mut Operands) {
        if o.has(2) {
            let kind = o.kind(NAMESPACE_KINDS).unwrap_or(0);
            let name = o.index(0, self.sizes.strings);
            self.file.spaces.push(Namespace { kind, name });
        }
    }

    fn name(&mut self, o: &mut Operands) {
        if o.count() == 0 {
            return o.fail(LineReason::Operands);
        }
        let Some(kind) = o.kind(NAME_KINDS) else {
            return;
        };
        let fields = match kind {
            0x07 | 0x0d | 0x09 | 0x0e => 2,
            0x0f | 0x10 | 0x1b | 0x1c => 1,
            0x1d => o.count().max(1),
            _ => 0,
        };
        if o.has(fields) {
            let name = self.name_fields(o, kind);
            self.file.names.push(Multiname { kind, name });
        }
    }

    fn name_fields(&self, o: &mut Operands, kind: u8) -> Name {
        let Sizes {
            strings,
            spaces,
            sets,
            names,
            ..
        } = self.sizes;
        match kind {
            0x07 | 0x0d => Name::Qualified {
                space: o.index(0, spaces),
                name: o.index(0, strings),
            },
            0x0f | 0x10 => Name::Runtime {
                name: o.index(0, strings),
            },
            0x09 | 0x0e => Name::Multi {
                name: o.index(0, strings),
                set: o.index(1, sets),
            },
            0x1b | 0x1c => Name::MultiLate {
                set: o.index(1, sets),
            },
            0x1d => Name::Type {
                base: o.index(1, names),
                params: o.indices(0, names).into(),
            },
            _ => Name::RuntimeLate,
        }
    }

    fn value_kind(o: &mut Operands) -> Option<u8> {
        let kinds: Vec<_> = [VALUE_KINDS, NAMESPACE_KINDS].concat();
        o.kind(&kinds)
    }

    /// Whether an index is in the pool that the kind names.
    fn has_value(&self, kind: u8, index: u32) -> bool {
        let most = match pool_of_kind(kind) {
            Some(Pool::Strings) => self.sizes.strings,
            Some(Pool::Ints) => self.sizes.ints,
            Some(Pool::Uints) => self.sizes.uints,
            Some(Pool::Doubles) => self.sizes.doubles,
            Some(Pool::Spaces) => self.sizes.spaces,
            _ => u32::MAX,
        };
        index <= most
    }

    fn method(&mut self, o: &mut Operands) {
        let mut method = Method::default();
        if o.has(3) {
            method.result = o.index(0, self.sizes.names);
            method.name = o.index(0, self.sizes.strings);
            method.flags = o.byte();
        }
        self.parts.method = Some(MethodPart {
            line: self.line,
            flags: method.flags,
            params: 0,
            options: 0,
            param_names: 0,
        });
        self.file.methods.push(method);
    }

    fn last_method(&mut self) -> &mut Method {
        self.file
            .methods
            .last_mut()
            .expect("a line of a method stands behind one")
    }

    fn option(&mut self, o: &mut Operands) {
        if o.has(2) {
            let kind = Self::value_kind(o).unwrap_or(0);
            let index = o.u30();
            o.fail_if(!self.has_value(kind, index), LineReason::Index);
            self.last_method().options.push(Value { index, kind });
        }
    }

    fn item(&mut self, o: &mut Operands) {
        if o.has(2) {
            let item = o.indices(0, self.sizes.strings);
            self.file
                .metadata
                .last_mut()
                .expect("an item stands behind metadata")
                .items
                .extend(item);
        }
    }

    fn instance(&mut self, o: &mut Operands) {
        let mut instance = Instance::default();
        if o.has(3) {
            instance.name = o.index(1, self.sizes.names);
            instance.base = o.index(0, self.sizes.names);
            instance.flags = o.byte();
        }
        o.fail_if(
            self.file.instances.len() >= self.sizes.classes as usize,
            LineReason::Count,
        );
        self.parts.instance = Some(InstancePart {
            line: self.line,
            flags: instance.flags,
            protected: 0,
            inits: 0,
        });
        self.file.instances.push(instance);
    }

    fn last_instance(&mut self) -> &mut Instance {
        self.file
            .instances
            .last_mut()
            .expect("a line of an instance stands behind one")
    }

    fn class(&mut self, o: &mut Operands) {
        o.fail_if(
            self.file.classes.len() >= self.sizes.instances as usize,
            LineReason::Count,
        );
        if o.has(1) {
            let init = o.below(self.sizes.methods);
            self.file.classes.push(Owner {
                init,
                traits: Vec::new(),
            });
        }
    }

    fn script(&mut self, o: &mut Operands) {
        if o.has(1) {
            let init = o.below(self.sizes.methods);
            self.file.scripts.push(Owner {
                init,
                traits: Vec::new(),
            });
        }
    }

    /// The traits of the last thing that has some.
    fn last_traits(&mut self) -> &mut Vec<Trait> {
        let File {
            bodies,
            scripts,
            classes,
            instances,
            ..
        } = &mut self.file;
        if let Some(body) = bodies.last_mut() {
            &mut body.traits
        } else if let Some(script) = scripts.last_mut() {
            &mut script.traits
        } else if let Some(class) = classes.last_mut() {
            &mut class.traits
        } else {
            &mut instances
                .last_mut()
                .expect("a trait stands behind what has traits")
                .traits
        }
    }

    fn one_trait(&mut self, o: &mut Operands) {
        let read = self.trait_fields(o).unwrap_or_default();
        self.parts.one_trait = Some(TraitPart {
            line: self.line,
            attributes: read.attributes,
            metadata: 0,
        });
        self.last_traits().push(read);
    }

    fn trait_fields(&mut self, o: &mut Operands) -> Option<Trait> {
        if o.count() == 0 {
            o.fail(LineReason::Operands);
            return None;
        }
        let mut read = Trait {
            kind: o.kind(TRAIT_KINDS)?,
            ..Trait::default()
        };
        // The value of a slot has a kind unless it is 0.
        let has_kind = read.is_slot() && o.peek(4).is_some_and(|token| token != b"0");
        if !o.has(if read.is_slot() { 5 } else { 4 } + usize::from(has_kind)) {
            return None;
        }
        read.attributes = o.number(15) as u8;
        read.name = o.index(1, self.sizes.names);
        read.id = o.u30();
        match read.kind {
            SLOT | CONST => read.target = o.index(0, self.sizes.names),
            CLASS => read.target = o.below(self.sizes.classes),
            _ => read.target = o.below(self.sizes.methods),
        }
        if read.is_slot() {
            read.value.index = o.u30();
        }
        if has_kind {
            read.value.kind = Self::value_kind(o).unwrap_or(0);
            o.fail_if(
                !self.has_value(read.value.kind, read.value.index),
                LineReason::Index,
            );
        }
        Some(read)
    }

    fn trait_metadata(&mut self, o: &mut Operands) {
        if o.has(1) {
            let metadata = o.below(self.sizes.metadata);
            let last = self.last_traits().last_mut();
            last.expect("metadata of a trait stands behind one")
                .metadata
                .push(metadata);
        }
    }

    fn body(&mut self, o: &mut Operands) {
        let mut body = Body::default();
        if o.has(5) {
            body.method = o.below(self.sizes.methods);
            let [stack, locals, scope, scopes] = std::array::from_fn(|_| o.u30());
            body = Body {
                stack,
                locals,
                scope,
                scopes,
                ..body
            };
            if let Some(has_body) = self.has_body.get_mut(body.method as usize) {
                o.fail_if(std::mem::replace(has_body, true), LineReason::SecondBody);
            }
        }
        self.parts.labels = Some(Labels::default());
        self.body_line = self.line;
        self.file.bodies.push(body);
    }

    fn last_body(&mut self) -> &mut Body {
        self.file
            .bodies
            .last_mut()
            .expect("a line of a body stands behind one")
    }

    /// A label as an operand, by its number among the labels of the body.
    fn label(&mut self, o: &mut Operands<'_, 'a>) -> u32 {
        let (token, line) = (o.next(), self.line);
        if !is_label(token) {
            o.fail(LineReason::Kind);
            return 0;
        }
        self.parts
            .labels
            .as_mut()
            .expect("a body has labels")
            .mention(token, line)
    }

    fn instruction(&mut self, opcode: u8, o: &mut Operands<'_, 'a>) {
        let form = form(opcode);
        let mut read = Instruction {
            opcode,
            ..Instruction::default()
        };
        match form {
            Form::Switch => o.fail_if(o.count() < 2, LineReason::Operands),
            Form::Plain => _ = o.has(0),
            Form::NameCount | Form::Numbers => _ = o.has(2),
            Form::Debug => _ = o.has(4),
            _ => _ = o.has(1),
        }
        if o.reason.is_some() {
            return;
        }
        match form {
            Form::Plain => {}
            Form::NameCount | Form::Numbers => {
                read.first = o.u30();
                read.second = o.u30();
            }
            Form::Branch => read.first = self.label(o),
            Form::Switch => self.switch(&mut read, o),
            Form::SignedByte => read.byte = o.signed(-128, 127) as u8,
            Form::Short => read.first = u32::from(o.signed(-32768, 32767) as u16),
            Form::Scope => read.byte = o.byte(),
            Form::Debug => {
                read.byte = o.byte();
                read.first = o.u30();
                read.register = o.byte();
                read.second = o.u30();
            }
            _ => read.first = o.u30(),
        }
        self.last_body().code.instructions.push(read);
    }

    fn switch(&mut self, read: &mut Instruction, o: &mut Operands<'_, 'a>) {
        read.second = o.count() as u32;
        read.first = self.last_body().code.targets.len() as u32;
        for _ in 0..read.second {
            let target = self.label(o);
            self.last_body().code.targets.push(target);
        }
    }

    fn handler(&mut self, o: &mut Operands<'_, 'a>) {
        if o.has(5) {
            let [from, to, target] = std::array::from_fn(|_| self.label(o));
            let names = self.sizes.names;
            let handler = Handler {
                from,
                to,
                target,
                kind: o.index(0, names),
                name: o.index(0, names),
            };
            self.last_body().handlers.push(handler);
        }
    }

    fn version(o: &mut Operands) {
        if o.has(2) {
            let version = [o.number(u64::MAX), o.number(u64::MAX)];
            o.fail_if(version != [16, 46], LineReason::Range);
        }
    }

    fn double(&mut self, o: &mut Operands) {
        if o.has(1) {
            let token = o.next();
            if token.len() != 16 || !token.iter().all(u8::is_ascii_hexdigit) {
                return o.fail(LineReason::Kind);
            }
            self.file
                .doubles
                .push(std::array::from_fn(|n| hex_byte(&token[2 * n..])));
        }
    }

    fn string(&mut self, o: &mut Operands<'_, 'a>) {
        if o.has(1) {
            let token = o.next();
            if !token.starts_with(b"\"") {
                return o.fail(LineReason::Kind);
            }
            self.file.strings.push(unquoted(token));
        }
    }

    /// The operands of a line that may stand where it is.
    fn operands(&mut self, word: Word, o: &mut Operands<'_, 'a>) {
        let (strings, names, methods) = (self.sizes.strings, self.sizes.names, self.sizes.methods);
        match word {
            Word::Abc => Self::version(o),
            Word::Int if o.has(1) => self
                .file
                .ints
                .push(o.signed(i32::MIN.into(), i32::MAX.into()) as u32),
            Word::Uint if o.has(1) => self.file.uints.push(o.number(u32::MAX.into())),
            Word::Double => self.double(o),
            Word::String => self.string(o),
            Word::Ns => self.space(o),
            Word::Set => self.file.sets.push(o.indices(1, self.sizes.spaces).into()),
            Word::Name => self.name(o),
            Word::Method => self.method(o),
            Word::Param if o.has(1) => self.last_method().params.push(o.index(0, names)),
            Word::Option => self.option(o),
            Word::Pname if o.has(1) => self.last_method().param_names.push(o.u30()),
            Word::Metadata if o.has(1) => self.file.metadata.push(Metadata {
                name: o.index(0, strings),
                items: Vec::new(),
            }),
            Word::Item => self.item(o),
            Word::Instance => self.instance(o),
            Word::Protected if o.has(1) => {
                self.last_instance().protected = o.index(0, self.sizes.spaces)
            }
            Word::Implements if o.has(1) => self.last_instance().interfaces.push(o.index(1, names)),
            Word::Iinit if o.has(1) => self.last_instance().init = o.below(methods),
            Word::Class => self.class(o),
            Word::Script => self.script(o),
            Word::Body => self.body(o),
            Word::Catch => self.handler(o),
            Word::Trait => self.one_trait(o),
            Word::Tmeta => self.trait_metadata(o),
            Word::Instruction(opcode) => self.instruction(opcode, o),
            Word::Label => _ = o.has(0),
            _ => {}
        }
    }

    /// Sets the label of a label line, and tells whether it was set before.
    fn set_label(&mut self, word: Word, token: &'a [u8]) -> bool {
        let number = self
            .file
            .bodies
            .last()
            .map_or(0, |body| body.code.instructions.len() as u32);
        match (&mut self.parts.labels, label_of_line(token)) {
            (Some(labels), Some(label)) if word == Word::Label => labels.set(label, number),
            _ => false,
        }
    }

    /// Ends the last body: its labels become instructions, and its code may be too long.
    fn end_body(&mut self) -> Option<LineFault> {
        let labels = self.parts.labels.take()?;
        let missing = labels.missing();
        if missing.is_some() {
            return missing;
        }
        let body = self.file.bodies.last_mut()?;
        labels.resolve(&mut body.code, &mut body.handlers);
        body.code.instructions.shrink_to_fit();
        let is_long = writer::code_length(&body.code) >= writer::CODE_LIMIT;
        is_long.then_some(LineFault {
            line: self.body_line,
            reason: LineReason::CodeTooLong,
        })
    }

    /// What the first word of a line, or the text's end, ends.
    fn end_parts(&mut self, word: Option<Word>) -> Result<(), LineFault> {
        let counted = match word {
            Some(word) => self.parts.line(word),
            None => self.parts.end(),
        };
        let ends_body = matches!(word, None | Some(Word::Body));
        let fault = match counted {
            Some(_) if ends_body => least(counted, self.parts.end_labels()),
            None if ends_body => self.end_body(),
            _ => counted,
        };
        fault.map_or(Ok(()), Err)
    }

    /// A line with tokens, of which the first is given; the list is for all of them.
    fn read_line(
        &mut self,
        line: &'a [u8],
        token: &'a [u8],
        list: &mut Vec<&'a [u8]>,
    ) -> Result<(), LineFault> {
        let word = self.words.find(token);
        self.end_parts(Some(word))?;
        let is_second = self.set_label(word, token);
        tokens(line, list).ok_or(self.fault(LineReason::Text))?;
        if word == Word::Unknown {
            return Err(self.fault(LineReason::Word));
        }
        if !self.place.may_stand(word) {
            return Err(self.fault(LineReason::Order));
        }
        let mut operands = Operands::new(&list[1..]);
        self.operands(word, &mut operands);
        operands.fail_if(is_second, LineReason::LabelTwice);
        operands
            .reason
            .map_or(Ok(()), |reason| Err(self.fault(reason)))
    }

    fn read(&mut self, text: &'a [u8]) -> Result<(), LineFault> {
        let mut list = Vec::new();
        let mut lines = text.split(|&byte| byte == b'\n').zip(1..);
        let mut is_empty = true;
        while let Some((line, number)) = lines.next() {
            let Some(token) = first_token(line) else {
                continue;
            };
            is_empty = false;
            self.line = number;
            if let Err(fault) = self.read_line(line, token, &mut list) {
                let rest = lines.filter_map(|(line, _)| first_token(line));
                let words = &self.words;
                return Err(self
                    .parts
                    .settle(fault, rest.map(|token| (words.find(token), token))));
            }
        }
        if is_empty {
            return Err(LineFault {
                line: 1,
                reason: LineReason::Order,
            });
        }
        self.end_parts(None)
            .map_err(|fault| self.parts.settle(fault, std::iter::empty()))
    }
}

/// The file of a text, of which at most so many bytes are wanted; of a text that is too long one byte more was read.
pub fn assemble(text: &[u8], most_text: usize, most: usize) -> Result<Vec<u8>, LineFault> {
    if text.len() > most_text {
        return Err(LineFault {
            line: 0,
            reason: LineReason::TextTooLong,
        });
    }
    let mut assembler = Assembler::new(text);
    assembler.read(text)?;
    writer::canonical(&assembler.file, most).ok_or(LineFault {
        line: 1,
        reason: LineReason::FileTooLong,
    })
}
