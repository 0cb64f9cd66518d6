//! The objects and the texts of a run, with the room that is left for them.
use crate::hash::Map;

/// Where a room is used up, its name.
pub type Room<T> = Result<T, &'static str>;

#[derive(Clone, Copy, Debug, PartialEq, Eq)]
pub enum Value {
    Undefined,
    Null,
    Bool(bool),
    /// A whole number from -2^31 to 2^32 - 1.
    Number(i64),
    /// The number of a text; equal texts have one.
    Text(u32),
    Object(u32),
}

#[derive(Clone, Copy, Debug, PartialEq, Eq)]
pub enum What {
    Plain,
    /// The global object of a script.
    Global(u32),
    /// What writes its arguments.
    Trace,
    Array,
    /// The object of a class, and an instance of one.
    Class(u32),
    Instance(u32),
}

pub struct Object {
    pub what: What,
    /// Those of a global object or an instance, by the places of their traits; of a class its prototype.
    pub slots: Vec<Value>,
    /// Own properties by the numbers of their texts.
    pub own: Map<u32, Value>,
    pub elements: Vec<Value>,
}

/// How much a run may have.
#[derive(Clone, Copy)]
pub struct Limits {
    pub fuel: u32,
    pub objects: usize,
    pub cells: usize,
    pub text: usize,
    pub frames: usize,
    pub stack: usize,
}

pub struct Heap {
    pub objects: Vec<Object>,
    pub texts: Vec<Box<[u8]>>,
    numbers: Map<Box<[u8]>, u32>,
    limits: Limits,
    cells: usize,
    bytes: usize,
}

impl Heap {
    pub fn new(limits: Limits) -> Self {
        Heap {
            objects: Vec::new(),
            texts: Vec::new(),
            numbers: Map::default(),
            limits,
            cells: 0,
            bytes: 0,
        }
    }

    /// The number of a text.
    pub fn text(&mut self, bytes: &[u8]) -> u32 {
        if let Some(&number) = self.numbers.get(bytes) {
            return number;
        }
        let number = self.texts.len() as u32;
        self.texts.push(bytes.into());
        self.numbers.insert(bytes.into(), number);
        number
    }

    /// A text that is made, which takes room.
    pub fn made(&mut self, bytes: &[u8]) -> Room<Value> {
        self.bytes += bytes.len();
        if self.bytes > self.limits.text {
            return Err("Text");
        }
        Ok(Value::Text(self.text(bytes)))
    }

    /// The room of the text of an element's number, which nobody looks at.
    pub fn number_text(&mut self, n: usize) -> Room<()> {
        self.bytes += n.checked_ilog10().unwrap_or(0) as usize + 1;
        if self.bytes > self.limits.text {
            return Err("Text");
        }
        Ok(())
    }

    pub fn take_cells(&mut self, count: usize) -> Room<()> {
        self.cells += count;
        if self.cells > self.limits.cells {
            return Err("Cells");
        }
        Ok(())
    }

    pub fn make(&mut self, what: What, slots: Vec<Value>, elements: Vec<Value>) -> Room<Value> {
        if self.objects.len() >= self.limits.objects {
            return Err("Objects");
        }
        self.take_cells(slots.len() + elements.len())?;
        let number = self.objects.len() as u32;
        self.objects.push(Object {
            what,
            slots,
            own: Map::default(),
            elements,
        });
        Ok(Value::Object(number))
    }

    /// Gives an object an own property; a new one takes a cell.
    pub fn set_own(&mut self, object: u32, text: u32, value: Value) -> Room<()> {
        if let Some(old) = self.objects[object as usize].own.get_mut(&text) {
            *old = value;
            return Ok(());
        }
        self.take_cells(1)?;
        self.objects[object as usize].own.insert(text, value);
        Ok(())
    }

    /// Adds an element to an array.
    pub fn push(&mut self, array: u32, value: Value) -> Room<()> {
        self.take_cells(1)?;
        self.objects[array as usize].elements.push(value);
        Ok(())
    }
}
