//! The assembly text of a file.
use crate::opcodes::{Form, known};
use crate::value::*;
use std::io::{self, Write};

/// How many bytes of text are written at a time.
const PIECE: usize = 1 << 16;
/// The most bytes of a text that a comment shows.
const SHOWN: usize = 16;

/// Where the text goes, and its last bytes, which are not written yet.
struct Text<'a, 'f> {
    file: &'a File<'f>,
    line: Vec<u8>,
    out: &'a mut dyn Write,
}

fn digits(out: &mut Vec<u8>, mut value: u32) {
    let mut spelled = [0; 10];
    let mut at = spelled.len();
    loop {
        at -= 1;
        spelled[at] = b'0' + (value % 10) as u8;
        value /= 10;
        if value == 0 {
            break;
        }
    }
    out.extend_from_slice(&spelled[at..]);
}

fn hex(out: &mut Vec<u8>, byte: u8) {
    const DIGITS: &[u8; 16] = b"0123456789abcdef";
    out.push(DIGITS[usize::from(byte >> 4)]);
    out.push(DIGITS[usize::from(byte & 15)]);
}

fn quoted(out: &mut Vec<u8>, text: &[u8]) {
    out.push(b'"');
    for &byte in text {
        match byte {
            b'"' | b'\\' | ..=0x1f | 0x7f.. => {
                out.push(b'\\');
                hex(out, byte);
            }
            _ => out.push(byte),
        }
    }
    out.push(b'"');
}

fn word_of(kinds: &[(u8, &'static str)], kind: u8) -> &'static str {
    kinds
        .iter()
        .find(|(byte, _)| *byte == kind)
        .expect("a value has no other kinds")
        .1
}

fn value_word(kind: u8) -> &'static str {
    let kinds = if pool_of_kind(kind) == Some(Pool::Spaces) {
        NAMESPACE_KINDS
    } else {
        VALUE_KINDS
    };
    word_of(kinds, kind)
}

impl Text<'_, '_> {
    fn word(&mut self, word: &str) -> &mut Self {
        self.line.extend_from_slice(word.as_bytes());
        self
    }

    /// A space and a number.
    fn number(&mut self, value: u32) -> &mut Self {
        self.line.push(b' ');
        digits(&mut self.line, value);
        self
    }

    fn numbers(&mut self, values: &[u32]) -> &mut Self {
        for &value in values {
            self.number(value);
        }
        self
    }

    fn signed(&mut self, value: i32) -> &mut Self {
        self.line.push(b' ');
        if value < 0 {
            self.line.push(b'-');
        }
        digits(&mut self.line, value.unsigned_abs());
        self
    }

    fn label(&mut self, number: u32) -> &mut Self {
        self.line.push(b'L');
        digits(&mut self.line, number);
        self
    }

    fn target(&mut self, number: u32) -> &mut Self {
        self.line.push(b' ');
        self.label(number)
    }

    fn text_comment(&mut self, text: &[u8]) {
        self.word(" ; ");
        quoted(&mut self.line, &text[..text.len().min(SHOWN)]);
    }

    fn string_comment(&mut self, string: u32) {
        let file = self.file;
        if let Some(text) = entry(&file.strings, string) {
            self.text_comment(text);
        }
    }

    /// The text of a multiname, where there is one.
    fn name_comment(&mut self, name: u32) {
        let file = self.file;
        let Some(multiname) = entry(&file.names, name) else {
            return;
        };
        match multiname.name {
            Name::Qualified { name, .. } | Name::Runtime { name } | Name::Multi { name, .. }
                if name != 0 =>
            {
                self.text_comment(file.text(name))
            }
            _ => {
                self.word(" ; *");
            }
        }
    }

    fn end(&mut self) -> io::Result<()> {
        self.line.push(b'\n');
        if self.line.len() >= PIECE {
            self.flush()?;
        }
        Ok(())
    }

    fn flush(&mut self) -> io::Result<()> {
        self.out.write_all(&self.line)?;
        self.line.clear();
        Ok(())
    }

    fn values(&mut self) -> io::Result<()> {
        let file = self.file;
        for &value in &file.ints {
            self.word("int").signed(value as i32).end()?;
        }
        for &value in &file.uints {
            self.word("uint").number(value).end()?;
        }
        for bytes in &file.doubles {
            self.word("double ");
            bytes.iter().for_each(|&byte| hex(&mut self.line, byte));
            self.end()?;
        }
        for text in &file.strings {
            self.word("string ");
            quoted(&mut self.line, text);
            self.end()?;
        }
        Ok(())
    }

    fn names(&mut self) -> io::Result<()> {
        let file = self.file;
        for space in &file.spaces {
            self.word("ns ")
                .word(word_of(NAMESPACE_KINDS, space.kind))
                .number(space.name);
            self.text_comment(file.text(space.name));
            self.end()?;
        }
        for set in &file.sets {
            self.word("set").numbers(set).end()?;
        }
        for n in 0..file.names.len() {
            self.multiname(n as u32 + 1)?;
        }
        Ok(())
    }

    fn multiname(&mut self, n: u32) -> io::Result<()> {
        let multiname = &self.file.names[n as usize - 1];
        self.word("name ").word(word_of(NAME_KINDS, multiname.kind));
        match &multiname.name {
            Name::Qualified { space, name } => self.number(*space).number(*name),
            Name::Runtime { name } => self.number(*name),
            Name::RuntimeLate => self,
            Name::Multi { name, set } => self.number(*name).number(*set),
            Name::MultiLate { set } => self.number(*set),
            Name::Type { base, params } => self.number(*base).numbers(params),
        };
        self.name_comment(n);
        self.end()
    }

    fn method(&mut self, method: &Method) -> io::Result<()> {
        self.word("method")
            .numbers(&[method.result, method.name])
            .number(method.flags.into())
            .end()?;
        for &param in &method.params {
            self.word("param").number(param).end()?;
        }
        for option in &method.options {
            self.word("option ")
                .word(value_word(option.kind))
                .number(option.index)
                .end()?;
        }
        for &name in &method.param_names {
            self.word("pname").number(name).end()?;
        }
        Ok(())
    }

    fn metadata(&mut self, metadata: &Metadata) -> io::Result<()> {
        self.word("metadata").number(metadata.name).end()?;
        for item in metadata.items.chunks(2) {
            self.word("item").numbers(item).end()?;
        }
        Ok(())
    }

    fn traits(&mut self, traits: &[Trait]) -> io::Result<()> {
        traits.iter().try_for_each(|one| self.one_trait(one))
    }

    fn one_trait(&mut self, one: &Trait) -> io::Result<()> {
        self.word("trait ")
            .word(word_of(TRAIT_KINDS, one.kind))
            .number(one.attributes.into());
        self.numbers(&[one.name, one.id, one.target]);
        if one.is_slot() {
            self.number(one.value.index);
            if one.value.index != 0 {
                self.word(" ").word(value_word(one.value.kind));
            }
        }
        self.name_comment(one.name);
        self.end()?;
        for &metadata in &one.metadata {
            self.word("tmeta").number(metadata).end()?;
        }
        Ok(())
    }

    fn instance(&mut self, instance: &Instance) -> io::Result<()> {
        self.word("instance")
            .numbers(&[instance.name, instance.base])
            .number(instance.flags.into());
        self.name_comment(instance.name);
        self.end()?;
        if instance.flags & HAS_PROTECTED != 0 {
            self.word("protected").number(instance.protected).end()?;
        }
        for &interface in &instance.interfaces {
            self.word("implements").number(interface).end()?;
        }
        self.word("iinit").number(instance.init).end()?;
        self.traits(&instance.traits)
    }

    fn owner(&mut self, word: &str, owner: &Owner) -> io::Result<()> {
        self.word(word).number(owner.init).end()?;
        self.traits(&owner.traits)
    }

    fn instruction(&mut self, code: &Code, one: &Instruction) -> io::Result<()> {
        let (name, form) = known(one.opcode).expect("a value has no other opcodes");
        self.word(name);
        match form {
            Form::Plain => {}
            Form::Name => {
                self.number(one.first).name_comment(one.first);
            }
            Form::NameCount => {
                self.number(one.first)
                    .number(one.second)
                    .name_comment(one.first);
            }
            Form::String => {
                self.number(one.first).string_comment(one.first);
            }
            Form::Numbers => {
                self.number(one.first).number(one.second);
            }
            Form::Branch => {
                self.target(one.first);
            }
            Form::Switch => {
                for &target in &code.targets[one.switch_targets()] {
                    self.target(target);
                }
            }
            Form::SignedByte => {
                self.signed(i32::from(one.byte as i8));
            }
            Form::Short => {
                self.signed(i32::from(one.first as i16));
            }
            Form::Scope => {
                self.number(one.byte.into());
            }
            Form::Debug => {
                self.number(one.byte.into())
                    .number(one.first)
                    .number(one.register.into())
                    .number(one.second);
            }
            _ => {
                self.number(one.first);
            }
        }
        self.end()
    }

    fn label_line(&mut self, has_label: &[bool], n: usize) -> io::Result<()> {
        if has_label[n] {
            self.label(n as u32).word(":").end()?;
        }
        Ok(())
    }

    fn body(&mut self, body: &Body, has_label: &mut Vec<bool>) -> io::Result<()> {
        self.word("body")
            .numbers(&[
                body.method,
                body.stack,
                body.locals,
                body.scope,
                body.scopes,
            ])
            .end()?;
        mark_labels(body, has_label);
        for (n, instruction) in body.code.instructions.iter().enumerate() {
            self.label_line(has_label, n)?;
            self.instruction(&body.code, instruction)?;
        }
        self.label_line(has_label, body.code.instructions.len())?;
        for handler in &body.handlers {
            self.word("catch")
                .target(handler.from)
                .target(handler.to)
                .target(handler.target);
            self.numbers(&[handler.kind, handler.name]).end()?;
        }
        self.traits(&body.traits)
    }

    fn file(&mut self) -> io::Result<()> {
        let file = self.file;
        self.word("abc 16 46").end()?;
        self.values()?;
        self.names()?;
        file.methods
            .iter()
            .try_for_each(|method| self.method(method))?;
        file.metadata
            .iter()
            .try_for_each(|metadata| self.metadata(metadata))?;
        file.instances
            .iter()
            .try_for_each(|instance| self.instance(instance))?;
        file.classes
            .iter()
            .try_for_each(|class| self.owner("class", class))?;
        file.scripts
            .iter()
            .try_for_each(|script| self.owner("script", script))?;
        let mut has_label = Vec::new();
        file.bodies
            .iter()
            .try_for_each(|body| self.body(body, &mut has_label))?;
        self.flush()
    }
}

/// Marks the instructions, and the end, that a branch, a switch or a handler names.
fn mark_labels(body: &Body, has_label: &mut Vec<bool>) {
    has_label.clear();
    has_label.resize(body.code.instructions.len() + 1, false);
    for instruction in &body.code.instructions {
        if let Some((_, Form::Branch)) = known(instruction.opcode) {
            has_label[instruction.first as usize] = true;
        }
    }
    for &target in &body.code.targets {
        has_label[target as usize] = true;
    }
    for handler in &body.handlers {
        for number in [handler.from, handler.to, handler.target] {
            has_label[number as usize] = true;
        }
    }
}

/// Writes the one text of a file.
pub fn write_text(file: &File, out: &mut dyn Write) -> io::Result<()> {
    let mut text = Text {
        file,
        line: Vec::with_capacity(2 * PIECE),
        out,
    };
    text.file()
}
