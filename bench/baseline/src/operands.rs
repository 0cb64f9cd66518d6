//! The operands of a line. Each is taken with its least fault kept, so that the line's first reason is known at its end.

/// Why a line is refused, in the order in which the reasons are tried.
#[derive(Debug, Clone, Copy, PartialEq, Eq, PartialOrd, Ord)]
pub enum LineReason {
    Text,
    Word,
    Order,
    Operands,
    Kind,
    Number,
    Range,
    Count,
    Index,
    LabelMissing,
    LabelTwice,
    CodeTooLong,
    SecondBody,
    FileTooLong,
    TextTooLong,
}

/// The most of a number in a file.
pub const MOST: u64 = (1 << 30) - 1;

/// The operands of a line that are left, and its first reason so far.
pub struct Operands<'l, 'a> {
    left: &'l [&'a [u8]],
    pub reason: Option<LineReason>,
}

/// A number of good form; one that is too large for 64 bits is the greatest.
fn digits(token: &[u8]) -> Option<u64> {
    match token {
        [] | [b'0', _, ..] => None,
        _ => token.iter().try_fold(0u64, |value, byte| {
            byte.is_ascii_digit().then(|| {
                value
                    .saturating_mul(10)
                    .saturating_add(u64::from(byte - b'0'))
            })
        }),
    }
}

/// A number that may have a sign.
fn signed_digits(token: &[u8]) -> Option<i64> {
    let bounded = |value: u64| i64::try_from(value).unwrap_or(i64::MAX);
    match token {
        b"-0" => None,
        [b'-', rest @ ..] => digits(rest).map(|value| -bounded(value)),
        _ => digits(token).map(bounded),
    }
}

impl<'l, 'a> Operands<'l, 'a> {
    pub fn new(left: &'l [&'a [u8]]) -> Self {
        Operands { left, reason: None }
    }

    pub fn fail(&mut self, reason: LineReason) {
        self.reason = Some(self.reason.map_or(reason, |first| first.min(reason)));
    }

    pub fn fail_if(&mut self, is_faulty: bool, reason: LineReason) {
        if is_faulty {
            self.fail(reason);
        }
    }

    pub fn count(&self) -> usize {
        self.left.len()
    }

    pub fn peek(&self, n: usize) -> Option<&'a [u8]> {
        self.left.get(n).copied()
    }

    /// The next operand. Where there are too few, that was told before, and the empty token stands in.
    pub fn next(&mut self) -> &'a [u8] {
        match self.left {
            [first, rest @ ..] => {
                self.left = rest;
                first
            }
            [] => b"",
        }
    }

    /// Whether the line has so many operands; if not, that is its fault.
    pub fn has(&mut self, count: usize) -> bool {
        let fits = self.count() == count;
        self.fail_if(!fits, LineReason::Operands);
        fits
    }

    pub fn kind(&mut self, kinds: &[(u8, &str)]) -> Option<u8> {
        let token = self.next();
        let found = kinds
            .iter()
            .find(|(_, word)| word.as_bytes() == token)
            .map(|(kind, _)| *kind);
        self.fail_if(found.is_none(), LineReason::Kind);
        found
    }

    /// A number of at most `most`; 0 stands for a faulty one.
    pub fn number(&mut self, most: u64) -> u32 {
        match digits(self.next()) {
            Some(value) if value <= most => return value as u32,
            Some(_) => self.fail(LineReason::Range),
            None => self.fail(LineReason::Number),
        }
        0
    }

    pub fn u30(&mut self) -> u32 {
        self.number(MOST)
    }

    pub fn byte(&mut self) -> u8 {
        self.number(255) as u8
    }

    pub fn signed(&mut self, least: i64, most: i64) -> i32 {
        match signed_digits(self.next()) {
            Some(value) if (least..=most).contains(&value) => return value as i32,
            Some(_) => self.fail(LineReason::Range),
            None => self.fail(LineReason::Number),
        }
        0
    }

    /// An index of at least `least` and at most `most`.
    pub fn index(&mut self, least: u32, most: u32) -> u32 {
        let value = self.u30();
        self.fail_if(value < least || value > most, LineReason::Index);
        value
    }

    pub fn below(&mut self, limit: u32) -> u32 {
        let value = self.u30();
        self.fail_if(value >= limit, LineReason::Index);
        value
    }

    pub fn indices(&mut self, least: u32, most: u32) -> Vec<u32> {
        (0..self.count()).map(|_| self.index(least, most)).collect()
    }
}
