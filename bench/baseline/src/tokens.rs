//! Lines of text: their tokens and their first words.
use crate::opcodes::OPCODES;
use std::borrow::Cow;
use std::collections::HashMap;
use std::hash::{BuildHasherDefault, Hasher};

/// A fast hash of short words.
pub struct Fnv(u64);

impl Default for Fnv {
    fn default() -> Self {
        Fnv(0xcbf2_9ce4_8422_2325)
    }
}

impl Hasher for Fnv {
    fn write(&mut self, bytes: &[u8]) {
        for &byte in bytes {
            self.0 = (self.0 ^ u64::from(byte)).wrapping_mul(0x100_0000_01b3);
        }
    }

    fn finish(&self) -> u64 {
        self.0
    }
}

pub type WordMap<'a, V> = HashMap<&'a [u8], V, BuildHasherDefault<Fnv>>;

/// What the first token of a line says that the line is.
#[derive(Clone, Copy, PartialEq, Eq)]
pub enum Word {
    Abc,
    Int,
    Uint,
    Double,
    String,
    Ns,
    Set,
    Name,
    Method,
    Param,
    Option,
    Pname,
    Metadata,
    Item,
    Instance,
    Protected,
    Implements,
    Iinit,
    Class,
    Script,
    Body,
    Catch,
    Trait,
    Tmeta,
    Instruction(u8),
    Label,
    Unknown,
}

const LINE_WORDS: &[(&str, Word)] = &[
    ("abc", Word::Abc),
    ("int", Word::Int),
    ("uint", Word::Uint),
    ("double", Word::Double),
    ("string", Word::String),
    ("ns", Word::Ns),
    ("set", Word::Set),
    ("name", Word::Name),
    ("method", Word::Method),
    ("param", Word::Param),
    ("option", Word::Option),
    ("pname", Word::Pname),
    ("metadata", Word::Metadata),
    ("item", Word::Item),
    ("instance", Word::Instance),
    ("protected", Word::Protected),
    ("implements", Word::Implements),
    ("iinit", Word::Iinit),
    ("class", Word::Class),
    ("script", Word::Script),
    ("body", Word::Body),
    ("catch", Word::Catch),
    ("trait", Word::Trait),
    ("tmeta", Word::Tmeta),
];

/// All words by their texts.
pub struct Words(WordMap<'static, Word>);

impl Words {
    pub fn new() -> Self {
        let lines = LINE_WORDS
            .iter()
            .map(|&(text, word)| (text.as_bytes(), word));
        let instructions = OPCODES
            .iter()
            .map(|&(opcode, text, _)| (text.as_bytes(), Word::Instruction(opcode)));
        Words(lines.chain(instructions).collect())
    }

    pub fn find(&self, token: &[u8]) -> Word {
        match self.0.get(token) {
            Some(&word) => word,
            None if label_of_line(token).is_some() => Word::Label,
            None => Word::Unknown,
        }
    }
}

pub fn is_label(token: &[u8]) -> bool {
    match token {
        [first, rest @ ..] => {
            (first.is_ascii_alphabetic() || *first == b'_')
                && rest
                    .iter()
                    .all(|&byte| byte.is_ascii_alphanumeric() || byte == b'_')
        }
        [] => false,
    }
}

/// The label that the first token of a line sets, if it is a label line.
pub fn label_of_line(token: &[u8]) -> Option<&[u8]> {
    token.strip_suffix(b":").filter(|label| is_label(label))
}

fn is_blank(byte: u8) -> bool {
    matches!(byte, b' ' | b'\t' | b'\r')
}

/// Where the token that begins at a place ends, if it is not quoted.
fn run_end(line: &[u8], from: usize) -> usize {
    let rest = &line[from..];
    from + rest
        .iter()
        .position(|&byte| is_blank(byte) || matches!(byte, b'"' | b';'))
        .unwrap_or(rest.len())
}

/// Behind the quote that closes a quoted text, unless the text is faulty.
fn quoted_end(line: &[u8], from: usize) -> Option<usize> {
    let mut at = from + 1;
    loop {
        match line.get(at)? {
            b'"' => return Some(at + 1),
            b'\\' if line.get(at + 1..at + 3)?.iter().all(u8::is_ascii_hexdigit) => at += 3,
            b'\\' => return None,
            _ => at += 1,
        }
    }
}

/// Where the next token begins, if there is one.
fn token_start(line: &[u8], from: usize) -> Option<usize> {
    let start = from + line[from..].iter().position(|&byte| !is_blank(byte))?;
    (line[start] != b';').then_some(start)
}

/// The first token of a line, or its quote alone if it is quoted.
pub fn first_token(line: &[u8]) -> Option<&[u8]> {
    let start = token_start(line, 0)?;
    let end = if line[start] == b'"' {
        start + 1
    } else {
        run_end(line, start)
    };
    Some(&line[start..end])
}

/// Puts the tokens of a line, quotes included, in place of the list; none where a quoted text is faulty.
pub fn tokens<'a>(line: &'a [u8], list: &mut Vec<&'a [u8]>) -> Option<()> {
    list.clear();
    let mut at = 0;
    while let Some(start) = token_start(line, at) {
        at = if line[start] == b'"' {
            quoted_end(line, start)?
        } else {
            run_end(line, start)
        };
        list.push(&line[start..at]);
    }
    Some(())
}

fn digit(byte: u8) -> u8 {
    char::from(byte).to_digit(16).unwrap_or(0) as u8
}

/// The byte of two hexadecimal digits.
pub fn hex_byte(digits: &[u8]) -> u8 {
    digit(digits[0]) << 4 | digit(digits[1])
}

/// The bytes that a quoted token stands for.
pub fn unquoted(token: &[u8]) -> Cow<'_, [u8]> {
    let inner = &token[1..token.len() - 1];
    let Some(mut escape) = inner.iter().position(|&byte| byte == b'\\') else {
        return Cow::Borrowed(inner);
    };
    let mut text = Vec::with_capacity(inner.len());
    let mut rest = inner;
    loop {
        text.extend_from_slice(&rest[..escape]);
        if escape == rest.len() {
            text.shrink_to_fit();
            return Cow::Owned(text);
        }
        text.push(hex_byte(&rest[escape + 1..escape + 3]));
        rest = &rest[escape + 3..];
        escape = rest
            .iter()
            .position(|&byte| byte == b'\\')
            .unwrap_or(rest.len());
    }
}
