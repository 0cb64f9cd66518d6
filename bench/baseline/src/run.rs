//! Runs a verified file: an interpreter of its list of instructions. It knows those that bench/running.py makes use of, and
//! ends as `Unknown` at any other.
use crate::hash::Map;
use crate::heap::{Heap, Limits, Room, Value, What};
use crate::kinds::Kind;
use crate::linked::{Linked, NONE};
use crate::value::*;
use std::io::Write;

/// How a run ends, unless it is done.
pub enum End {
    Uncaught(&'static str),
    /// A fault of the profile.
    Fault(&'static str),
    FuelSpent,
    Full(&'static str),
    WriteFault,
    /// What the peer doesn't know: an opcode, or 0.
    Unknown(u8),
}

impl From<&'static str> for End {
    fn from(room: &'static str) -> Self {
        End::Full(room)
    }
}

type Stepped<T> = Result<T, End>;

/// A frame without its operands.
#[derive(Clone, Copy)]
struct Frame {
    body: u32,
    at: u32,
    /// Where its locals begin, and its scopes.
    base: usize,
    scopes: usize,
    wait: Wait,
}

/// What its caller wants of a frame: nothing, what it returns, or its receiver.
#[derive(Clone, Copy)]
enum Wait {
    Drop,
    Push,
    Receiver,
}

/// The slots of a class's instances: the place of each own one by its text, and what all start as, those of its base first.
struct Class {
    base: Option<u32>,
    places: Map<u32, u32>,
    starts: Vec<Value>,
}

/// A name that an instruction has, its text by number: none where it is on the stack.
#[derive(Clone, Copy)]
struct Wanted {
    text: Option<u32>,
    is_public: bool,
}

/// A trait of a global object.
#[derive(Clone, Copy)]
enum Own {
    Slot(u32),
    Method(u32),
}

struct Machine<'a, W> {
    linked: &'a Linked<'a>,
    limits: Limits,
    heap: Heap,
    out: W,
    /// The number of each text of the pool, from index 0 on, and the names.
    texts: Vec<u32>,
    names: Vec<Option<Wanted>>,
    /// By script and text.
    traits: Map<(u32, u32), Own>,
    classes: Vec<Class>,
    length: u32,
    host: u32,
    stack: Vec<Value>,
    scopes: Vec<u32>,
    frames: Vec<Frame>,
    now: Frame,
    /// How many values the frames may keep.
    kept: usize,
}

const UNKNOWN_NAME: End = End::Unknown(0);
const WITHIN: std::ops::RangeInclusive<i64> = -0x8000_0000..=0xffff_ffff;

fn in_range(n: i64) -> Stepped<Value> {
    if WITHIN.contains(&n) {
        Ok(Value::Number(n))
    } else {
        Err(End::Fault("Range"))
    }
}

fn signed(n: i64) -> Value {
    Value::Number(i64::from(n as i32))
}

/// Runs the last script, with what it writes to `out`.
pub fn run<W: Write>(linked: &Linked, limits: Limits, out: W) -> Result<(), End> {
    let mut machine = Machine::new(linked, limits, out)?;
    machine.start()?;
    machine.steps()
}

impl<'a, W: Write> Machine<'a, W> {
    fn new(linked: &'a Linked<'a>, limits: Limits, out: W) -> Stepped<Self> {
        let mut heap = Heap::new(limits);
        let file = linked.file;
        let texts: Vec<u32> = (0..=file.strings.len() as u32)
            .map(|n| heap.text(file.text(n)))
            .collect();
        let length = heap.text(b"length");
        let mut machine = Machine {
            linked,
            limits,
            heap,
            out,
            names: vec![None; file.names.len() + 1],
            texts,
            traits: Map::default(),
            classes: Vec::new(),
            length,
            host: 0,
            stack: Vec::new(),
            scopes: Vec::new(),
            frames: Vec::new(),
            now: Frame {
                body: 0,
                at: 0,
                base: 0,
                scopes: 0,
                wait: Wait::Drop,
            },
            kept: 0,
        };
        machine.add_names();
        machine.add_classes()?;
        machine.add_objects()?;
        Ok(machine)
    }

    fn is_public(&self, space: u32) -> bool {
        let file = self.linked.file;
        entry(&file.spaces, space)
            .is_some_and(|one| matches!(one.kind, 0x08 | 0x16) && file.text(one.name).is_empty())
    }

    fn add_names(&mut self) {
        let file = self.linked.file;
        for (n, name) in file.names.iter().enumerate() {
            let holds = |set: &u32| {
                let set = entry(&file.sets, *set);
                set.is_some_and(|set| set.iter().any(|&space| self.is_public(space)))
            };
            let wanted = match &name.name {
                Name::Qualified { space, name } => Some(Wanted {
                    text: Some(self.texts[*name as usize]),
                    is_public: *space == 0 || self.is_public(*space),
                }),
                Name::Multi { name, set } => Some(Wanted {
                    text: Some(self.texts[*name as usize]),
                    is_public: holds(set),
                }),
                Name::MultiLate { set } => Some(Wanted {
                    text: None,
                    is_public: holds(set),
                }),
                _ => None,
            };
            self.names[n + 1] = wanted;
        }
    }

    /// The text of a qualified name.
    fn qualified(&self, name: u32) -> Option<u32> {
        match entry(&self.linked.file.names, name)?.name {
            Name::Qualified { name, .. } => Some(self.texts[name as usize]),
            _ => None,
        }
    }

    /// The classes, of which each stands behind its base.
    fn add_classes(&mut self) -> Stepped<()> {
        let mut numbers = Map::default();
        for (one, n) in self.linked.file.instances.iter().zip(0..) {
            let base = match one.base {
                0 => None,
                name => {
                    let text = self.qualified(name).ok_or(UNKNOWN_NAME)?;
                    Some(*numbers.get(&text).ok_or(UNKNOWN_NAME)?)
                }
            };
            let mut class = Class {
                base,
                places: Map::default(),
                starts: base.map_or(Vec::new(), |base| {
                    let base: &Class = &self.classes[base as usize];
                    base.starts.clone()
                }),
            };
            for slot in one.traits.iter().filter(|one| one.is_slot()) {
                let text = self.qualified(slot.name).ok_or(UNKNOWN_NAME)?;
                class.places.insert(text, class.starts.len() as u32);
                class.starts.push(match slot.value {
                    crate::value::Value { index, kind: 0x03 } if index > 0 => Value::Number(
                        i64::from(self.linked.file.ints[index as usize - 1] as i32),
                    ),
                    _ => Value::Undefined,
                });
            }
            numbers.insert(self.qualified(one.name).ok_or(UNKNOWN_NAME)?, n);
            self.classes.push(class);
        }
        Ok(())
    }

    /// The objects of the opening: those of the host that programs of benchmarks don't name stand for all others.
    fn add_objects(&mut self) -> Room<()> {
        for _ in 0..28 {
            self.heap.make(What::Plain, Vec::new(), Vec::new())?;
        }
        let trace = self.heap.make(What::Trace, Vec::new(), Vec::new())?;
        let Value::Object(host) = self.heap.make(What::Plain, Vec::new(), Vec::new())? else {
            unreachable!("an object was made")
        };
        self.host = host;
        let name = self.heap.text(b"trace");
        self.heap.set_own(host, name, trace)?;
        for (script, n) in self.linked.file.scripts.iter().zip(0..) {
            let mut slots = Vec::new();
            for one in &script.traits {
                let Some(text) = self.qualified(one.name) else {
                    continue;
                };
                let own = if one.is_slot() {
                    slots.push(Value::Undefined);
                    Own::Slot(slots.len() as u32 - 1)
                } else {
                    Own::Method(one.target)
                };
                self.traits.insert((n, text), own);
            }
            self.heap.make(What::Global(n), slots, Vec::new())?;
        }
        Ok(())
    }

    fn global(&self, script: u32) -> u32 {
        self.host + 1 + script
    }

    fn start(&mut self) -> Stepped<()> {
        self.fuel()?;
        let script = self.linked.file.scripts.len() as u32 - 1;
        self.stack.push(Value::Object(self.global(script)));
        let init = self.linked.file.scripts[script as usize].init;
        self.enter(init, 0, Wait::Drop)
    }

    #[inline(always)]
    fn fuel(&mut self) -> Stepped<()> {
        if self.limits.fuel == 0 {
            return Err(End::FuelSpent);
        }
        self.limits.fuel -= 1;
        Ok(())
    }

    /// Enters a method, whose receiver and arguments are the topmost values.
    fn enter(&mut self, method: u32, count: usize, wait: Wait) -> Stepped<()> {
        let one = &self.linked.file.methods[method as usize];
        if one.flags & (NEEDS_ARGUMENTS | NEEDS_REST | HAS_OPTIONS) != 0 {
            return Err(UNKNOWN_NAME);
        }
        if one.params.len() != count {
            return Err(End::Uncaught("ArgumentError"));
        }
        let base = self.stack.len() - count - 1;
        for (n, &param) in one.params.iter().enumerate() {
            self.stack[base + 1 + n] = self.coerced(self.stack[base + 1 + n], param)?;
        }
        let number = self.linked.bodies[method as usize];
        if number == NONE {
            return Err(UNKNOWN_NAME);
        }
        let body = &self.linked.file.bodies[number as usize];
        if self.frames.len() >= self.limits.frames {
            return Err(End::Full("Frames"));
        }
        self.kept += Self::keeps(body);
        if self.kept > self.limits.stack {
            return Err(End::Full("Stack"));
        }
        self.stack
            .resize(base + body.locals as usize, Value::Undefined);
        self.frames.push(self.now);
        self.now = Frame {
            body: number,
            at: 0,
            base,
            scopes: self.scopes.len(),
            wait,
        };
        Ok(())
    }

    fn keeps(body: &Body) -> usize {
        body.locals as usize + body.stack as usize + (body.scopes - body.scope) as usize
    }

    /// Leaves the newest frame; whether it was the last.
    fn leave(&mut self, value: Value) -> Stepped<bool> {
        let body = &self.linked.file.bodies[self.now.body as usize];
        let result = self.linked.file.methods[body.method as usize].result;
        let value = self.coerced(value, result)?;
        self.kept -= Self::keeps(body);
        match self.now.wait {
            Wait::Drop => self.stack.truncate(self.now.base),
            Wait::Push => {
                self.stack.truncate(self.now.base);
                self.stack.push(value);
            }
            Wait::Receiver => self.stack.truncate(self.now.base + 1),
        }
        self.scopes.truncate(self.now.scopes);
        self.now = self.frames.pop().expect("a frame is under it");
        Ok(self.frames.is_empty())
    }

    fn coerced(&mut self, value: Value, kind: u32) -> Stepped<Value> {
        if kind == 0 {
            return Ok(value);
        }
        let name = match entry(&self.linked.file.names, kind) {
            Some(Multiname {
                name: Name::Qualified { name, .. },
                ..
            }) => self.linked.file.text(*name),
            _ => return Err(UNKNOWN_NAME),
        };
        match (name, self.linked.types[kind as usize]) {
            (b"int", _) => self.integer(value).map(signed),
            (b"uint", _) => Ok(Value::Number(i64::from(self.integer(value)? as u32))),
            (b"Number", _) => self.number(value).map(Value::Number),
            (_, Some(Kind::Any)) => Ok(value),
            _ => Err(UNKNOWN_NAME),
        }
    }

    #[inline(always)]
    fn number(&self, value: Value) -> Stepped<i64> {
        match value {
            Value::Number(n) => Ok(n),
            Value::Undefined => Err(End::Fault("NotANumber")),
            Value::Null => Ok(0),
            Value::Bool(b) => Ok(i64::from(b)),
            Value::Text(_) => Err(End::Fault("TextToNumber")),
            Value::Object(_) => Err(End::Fault("ObjectToPrimitive")),
        }
    }

    #[inline(always)]
    fn integer(&self, value: Value) -> Stepped<i64> {
        match value {
            Value::Undefined => Ok(0),
            other => self.number(other),
        }
    }

    fn truth(&self, value: Value) -> bool {
        match value {
            Value::Undefined | Value::Null => false,
            Value::Bool(b) => b,
            Value::Number(n) => n != 0,
            Value::Text(text) => !self.heap.texts[text as usize].is_empty(),
            Value::Object(_) => true,
        }
    }

    /// The text of a value; that of a number is made.
    fn text(&mut self, value: Value) -> Stepped<u32> {
        let fixed: &[u8] = match value {
            Value::Text(text) => return Ok(text),
            Value::Number(n) => match self.heap.made(n.to_string().as_bytes())? {
                Value::Text(text) => return Ok(text),
                _ => unreachable!("a text was made"),
            },
            Value::Undefined => b"undefined",
            Value::Null => b"null",
            Value::Bool(true) => b"true",
            Value::Bool(false) => b"false",
            Value::Object(_) => return Err(End::Fault("ObjectToPrimitive")),
        };
        Ok(self.heap.text(fixed))
    }

    #[inline(always)]
    fn pop(&mut self) -> Value {
        self.stack
            .pop()
            .expect("a verified body takes what is there")
    }

    #[inline(always)]
    fn local(&mut self, n: u32) -> &mut Value {
        &mut self.stack[self.now.base + n as usize]
    }

    /// Steps until one ends.
    fn steps(&mut self) -> Stepped<()> {
        loop {
            self.fuel()?;
            let body = &self.linked.file.bodies[self.now.body as usize];
            let one = body.code.instructions[self.now.at as usize];
            self.now.at += 1;
            if self.step(one)? {
                return Ok(());
            }
        }
    }
}

/// What stands under a name: an object's own, or nothing.
enum Found {
    Value(Value),
    Slot(u32, u32),
    Method(u32),
    Nothing,
}

impl<W: Write> Machine<'_, W> {
    /// One instruction; whether it ends the run.
    #[inline(always)]
    fn step(&mut self, one: Instruction) -> Stepped<bool> {
        match one.opcode {
            0x02 | 0x09 => {}
            0x0c..=0x1a => self.branch(one)?,
            0x1d => {
                self.scopes.pop();
            }
            0x30 => match self.pop() {
                Value::Object(object) => self.scopes.push(object),
                _ => return Err(End::Uncaught("TypeError")),
            },
            0x20 => self.stack.push(Value::Null),
            0x21 => self.stack.push(Value::Undefined),
            0x24 => self.stack.push(Value::Number(i64::from(one.byte as i8))),
            0x25 => self
                .stack
                .push(Value::Number(i64::from(one.first as u16 as i16))),
            0x26 => self.stack.push(Value::Bool(true)),
            0x27 => self.stack.push(Value::Bool(false)),
            0x29 => {
                self.pop();
            }
            0x2a => {
                let value = self.pop();
                self.stack.extend([value, value]);
            }
            0x2b => {
                let (y, x) = (self.pop(), self.pop());
                self.stack.extend([y, x]);
            }
            0x2c => self.stack.push(Value::Text(self.texts[one.first as usize])),
            0x2d => {
                let n = entry(&self.linked.file.ints, one.first).map_or(0, |&n| n as i32);
                self.stack.push(Value::Number(n.into()));
            }
            0xd0..=0xd3 => {
                let value = *self.local(u32::from(one.opcode - 0xd0));
                self.stack.push(value);
            }
            0x62 => {
                let value = *self.local(one.first);
                self.stack.push(value);
            }
            0xd4..=0xd7 => {
                let value = self.pop();
                *self.local(u32::from(one.opcode - 0xd4)) = value;
            }
            0x63 => {
                let value = self.pop();
                *self.local(one.first) = value;
            }
            0x92 | 0x94 | 0xc2 | 0xc3 => {
                let value = *self.local(one.first);
                *self.local(one.first) = self.stepped(value, one.opcode)?;
            }
            0x91 | 0x93 | 0xc0 | 0xc1 => {
                let value = self.pop();
                let value = self.stepped(value, one.opcode)?;
                self.stack.push(value);
            }
            0x70 | 0x73..=0x76 | 0x82 => {
                let value = self.pop();
                let value = self.converted(value, one.opcode)?;
                self.stack.push(value);
            }
            0xa0..=0xaa | 0xc5..=0xc7 => {
                let (y, x) = (self.pop(), self.pop());
                let value = self.operation(x, y, one.opcode)?;
                self.stack.push(value);
            }
            0x47 => return self.leave(Value::Undefined),
            0x48 => {
                let value = self.pop();
                return self.leave(value);
            }
            0x55 => self.new_object(one.first)?,
            0x56 => {
                let from = self.stack.len() - one.first as usize;
                let elements = self.stack.split_off(from);
                let array = self.heap.make(What::Array, Vec::new(), elements)?;
                self.stack.push(array);
            }
            0x5d | 0x5e | 0x60 => self.find(one)?,
            0x66 => self.read(one.first)?,
            0x61 | 0x68 => self.write(one.first)?,
            0x46 | 0x4f => self.call(one)?,
            0x42 => self.construct(one.first as usize)?,
            0x58 => self.new_class(one.first)?,
            opcode => return Err(End::Unknown(opcode)),
        }
        Ok(false)
    }

    #[inline(always)]
    fn branch(&mut self, one: Instruction) -> Stepped<()> {
        let goes = match one.opcode {
            0x10 => true,
            0x11 | 0x12 => {
                let value = self.pop();
                self.truth(value) == (one.opcode == 0x11)
            }
            opcode => {
                let (y, x) = (self.pop(), self.pop());
                self.compares(x, y, opcode)?
            }
        };
        if goes {
            self.now.at = one.first;
        }
        Ok(())
    }

    #[inline(always)]
    fn compares(&mut self, x: Value, y: Value, opcode: u8) -> Stepped<bool> {
        if matches!(opcode, 0x13 | 0x14 | 0x19 | 0x1a) {
            let is_equal = match (x, y) {
                (Value::Number(x), Value::Number(y)) => x == y,
                _ if matches!(opcode, 0x19 | 0x1a) => x == y,
                _ => return Err(End::Unknown(opcode)),
            };
            return Ok(is_equal == matches!(opcode, 0x13 | 0x19));
        }
        if x == Value::Undefined || y == Value::Undefined {
            return Ok(matches!(opcode, 0x0c..=0x0f));
        }
        let (x, y) = (self.number(x)?, self.number(y)?);
        Ok(match opcode {
            0x15 => x < y,
            0x16 => x <= y,
            0x17 => x > y,
            0x18 => x >= y,
            0x0c => x >= y,
            0x0d => x > y,
            0x0e => x <= y,
            _ => x < y,
        })
    }

    /// One more or less.
    #[inline(always)]
    fn stepped(&self, value: Value, opcode: u8) -> Stepped<Value> {
        match opcode {
            0x91 | 0x92 => in_range(self.number(value)? + 1),
            0x93 | 0x94 => in_range(self.number(value)? - 1),
            0xc0 | 0xc2 => Ok(signed(self.integer(value)? + 1)),
            _ => Ok(signed(self.integer(value)? - 1)),
        }
    }

    #[inline(always)]
    fn converted(&mut self, value: Value, opcode: u8) -> Stepped<Value> {
        Ok(match opcode {
            0x70 => Value::Text(self.text(value)?),
            0x73 => signed(self.integer(value)?),
            0x74 => Value::Number(i64::from(self.integer(value)? as u32)),
            0x75 => Value::Number(self.number(value)?),
            0x76 => Value::Bool(self.truth(value)),
            _ => value,
        })
    }

    #[inline(always)]
    fn operation(&mut self, x: Value, y: Value, opcode: u8) -> Stepped<Value> {
        if opcode == 0xa0 && (matches!(x, Value::Text(_)) || matches!(y, Value::Text(_))) {
            let (x, y) = (self.text(x)?, self.text(y)?);
            let texts = &self.heap.texts;
            let joined = [&*texts[x as usize], &*texts[y as usize]].concat();
            return Ok(self.heap.made(&joined)?);
        }
        if matches!(opcode, 0xa0..=0xa4) {
            let (x, y) = (self.number(x)?, self.number(y)?);
            return match opcode {
                0xa0 => in_range(x + y),
                0xa1 => in_range(x - y),
                0xa2 => in_range(x * y),
                _ if y == 0 => Err(End::Fault("NotANumber")),
                0xa3 if x % y != 0 => Err(End::Fault("Range")),
                0xa3 => in_range(x / y),
                _ => in_range(x % y),
            };
        }
        let (x, y) = (self.integer(x)?, self.integer(y)?);
        let by = y as u32 & 31;
        Ok(match opcode {
            0xa5 => signed(i64::from((x as i32) << by)),
            0xa6 => signed(i64::from(x as i32 >> by)),
            0xa7 => Value::Number(i64::from(x as u32 >> by)),
            0xa8 => signed(x & y),
            0xa9 => signed(x | y),
            0xaa => signed(x ^ y),
            0xc5 => signed(x.wrapping_add(y)),
            0xc6 => signed(x.wrapping_sub(y)),
            _ => signed(x.wrapping_mul(y)),
        })
    }

    fn new_object(&mut self, pairs: u32) -> Stepped<()> {
        let from = self.stack.len() - 2 * pairs as usize;
        let taken = self.stack.split_off(from);
        let object = self.heap.make(What::Plain, Vec::new(), Vec::new())?;
        let Value::Object(number) = object else {
            unreachable!("an object was made")
        };
        for pair in taken.chunks(2) {
            let text = self.text(pair[0])?;
            self.heap.set_own(number, text, pair[1])?;
        }
        self.stack.push(object);
        Ok(())
    }
}

impl<W: Write> Machine<'_, W> {
    /// The text of a name, which may stand on the stack, and whether it is public.
    #[inline(always)]
    fn name(&mut self, name: u32) -> Stepped<(u32, bool)> {
        let wanted = self.names[name as usize].ok_or(UNKNOWN_NAME)?;
        let text = match wanted.text {
            Some(text) => text,
            None => {
                let value = self.pop();
                self.text(value)?
            }
        };
        Ok((text, wanted.is_public))
    }

    /// The element that a value on top of the stack is of an array under it, if it is one and is there.
    #[inline(always)]
    fn element(&self, name: u32, below: usize) -> Option<(u32, usize)> {
        if self.names[name as usize]?.text.is_some() {
            return None;
        }
        let top = self.stack.len() - 1 - below;
        match (self.stack[top - 1], self.stack[top]) {
            (Value::Object(object), Value::Number(n)) if n >= 0 => {
                let elements = &self.heap.objects[object as usize].elements;
                ((n as usize) < elements.len()).then_some((object, n as usize))
            }
            _ => None,
        }
    }

    /// What an object has under a text.
    #[inline(always)]
    fn found(&self, object: u32, text: u32) -> Found {
        let one = &self.heap.objects[object as usize];
        if let What::Global(script) = one.what {
            match self.traits.get(&(script, text)) {
                Some(Own::Slot(slot)) => return Found::Slot(object, *slot),
                Some(Own::Method(method)) => return Found::Method(*method),
                None => {}
            }
        }
        if let What::Instance(class) = one.what {
            let mut above = Some(class);
            while let Some(class) = above {
                let class = &self.classes[class as usize];
                if let Some(&slot) = class.places.get(&text) {
                    return Found::Slot(object, slot);
                }
                above = class.base;
            }
        }
        if one.what == What::Array && text == self.length {
            return Found::Value(Value::Number(one.elements.len() as i64));
        }
        one.own
            .get(&text)
            .map_or(Found::Nothing, |&value| Found::Value(value))
    }

    fn value_of(&self, found: Found) -> Stepped<Value> {
        match found {
            Found::Value(value) => Ok(value),
            Found::Slot(object, slot) => {
                Ok(self.heap.objects[object as usize].slots[slot as usize])
            }
            Found::Method(..) => Err(UNKNOWN_NAME),
            Found::Nothing => Ok(Value::Undefined),
        }
    }

    /// Searches the scopes, the scripts and the host object.
    fn find(&mut self, one: Instruction) -> Stepped<()> {
        let (text, is_public) = self.name(one.first)?;
        if !is_public {
            return Err(UNKNOWN_NAME);
        }
        let globals = (0..self.linked.file.scripts.len() as u32).map(|n| self.global(n));
        let scopes = self.scopes[self.now.scopes..].iter().rev().copied();
        let mut places = scopes.chain(globals).chain([self.host]);
        let place = places.find(|&place| !matches!(self.found(place, text), Found::Nothing));
        let object = place.ok_or(End::Uncaught("ReferenceError"))?;
        let value = match one.opcode {
            0x60 => self.value_of(self.found(object, text))?,
            _ => Value::Object(object),
        };
        self.stack.push(value);
        Ok(())
    }

    fn read(&mut self, name: u32) -> Stepped<()> {
        if let Some((array, n)) = self.element(name, 0) {
            self.heap.number_text(n)?;
            let value = self.heap.objects[array as usize].elements[n];
            self.pop();
            *self.stack.last_mut().expect("the array") = value;
            return Ok(());
        }
        let (text, _) = self.name(name)?;
        let value = match self.pop() {
            Value::Object(object) => self.value_of(self.found(object, text))?,
            _ => return Err(End::Uncaught("TypeError")),
        };
        self.stack.push(value);
        Ok(())
    }

    fn write(&mut self, name: u32) -> Stepped<()> {
        if let Some((array, n)) = self.element(name, 1) {
            self.heap.number_text(n)?;
            let value = self.pop();
            self.stack.truncate(self.stack.len() - 2);
            self.heap.objects[array as usize].elements[n] = value;
            return Ok(());
        }
        let value = self.pop();
        let added = self.added(name);
        let (text, is_public) = self.name(name)?;
        let Value::Object(object) = self.pop() else {
            return Err(End::Uncaught("TypeError"));
        };
        if added {
            return Ok(self.heap.push(object, value)?);
        }
        match self.found(object, text) {
            Found::Slot(object, slot) => {
                self.heap.objects[object as usize].slots[slot as usize] = value
            }
            Found::Method(..) => return Err(End::Uncaught("ReferenceError")),
            _ if is_public => self.heap.set_own(object, text, value)?,
            _ => return Err(UNKNOWN_NAME),
        }
        Ok(())
    }

    /// Whether the name on the stack is the number behind the last element of the array under it.
    fn added(&self, name: u32) -> bool {
        let is_late = self.names[name as usize].is_some_and(|name| name.text.is_none());
        let top = self.stack.len() - 1;
        is_late
            && match (self.stack[top - 1], self.stack[top]) {
                (Value::Object(object), Value::Number(n)) => {
                    let one = &self.heap.objects[object as usize];
                    one.what == What::Array && one.elements.len() as i64 == n
                }
                _ => false,
            }
    }

    fn call(&mut self, one: Instruction) -> Stepped<()> {
        let count = one.second as usize;
        let wanted = self.names[one.first as usize].ok_or(UNKNOWN_NAME)?;
        let text = wanted.text.ok_or(UNKNOWN_NAME)?;
        let wait = if one.opcode == 0x46 { Wait::Push } else { Wait::Drop };
        let Value::Object(object) = self.stack[self.stack.len() - count - 1] else {
            return Err(End::Uncaught("TypeError"));
        };
        match self.found(object, text) {
            Found::Method(method) => self.enter(method, count, wait),
            found => {
                let value = self.value_of(found)?;
                self.call_value(value, count, wait)
            }
        }
    }

    /// Of all values only `trace` can be called.
    fn call_value(&mut self, value: Value, count: usize, wait: Wait) -> Stepped<()> {
        let is_trace = |object: u32| self.heap.objects[object as usize].what == What::Trace;
        if !matches!(value, Value::Object(object) if is_trace(object)) {
            return Err(UNKNOWN_NAME);
        }
        let mut line = Vec::new();
        for n in 0..count {
            let value = self.stack[self.stack.len() - count + n];
            let text = self.text(value)?;
            if n > 0 {
                line.push(b' ');
            }
            line.extend_from_slice(&self.heap.texts[text as usize]);
        }
        line.push(b'\n');
        self.out.write_all(&line).map_err(|_| End::WriteFault)?;
        self.stack.truncate(self.stack.len() - count - 1);
        if matches!(wait, Wait::Push) {
            self.stack.push(Value::Undefined);
        }
        Ok(())
    }

    /// Makes an instance of the class under the arguments, and enters its initializer.
    fn construct(&mut self, count: usize) -> Stepped<()> {
        let under = self.stack.len() - count - 1;
        let class = match self.stack[under] {
            Value::Object(object) => match self.heap.objects[object as usize].what {
                What::Class(class) => class,
                _ => return Err(UNKNOWN_NAME),
            },
            _ => return Err(End::Uncaught("TypeError")),
        };
        let starts = self.classes[class as usize].starts.clone();
        self.stack[under] = self
            .heap
            .make(What::Instance(class), starts, Vec::new())?;
        let init = self.linked.file.instances[class as usize].init;
        self.enter(init, count, Wait::Receiver)
    }

    /// Makes the object of a class, whose base's object is on top, and enters its initializer.
    fn new_class(&mut self, class: u32) -> Stepped<()> {
        self.pop();
        let prototype = self.heap.make(What::Plain, Vec::new(), Vec::new())?;
        let made = self
            .heap
            .make(What::Class(class), vec![prototype], Vec::new())?;
        self.heap
            .take_cells(self.scopes.len() - self.now.scopes + 1)?;
        self.stack.push(made);
        let init = self.linked.file.classes[class as usize].init;
        self.enter(init, 0, Wait::Receiver)
    }
}
