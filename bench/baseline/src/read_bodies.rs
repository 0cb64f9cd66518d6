//! Reads method bodies and their code. Offsets become numbers of instructions once all instructions of the code are known.
use crate::fault::{Answer, Fault, Reason};
use crate::opcodes::{Form, form, known};
use crate::reader::Reader;
use crate::value::*;

/// No instruction starts there.
const NONE: u32 = u32::MAX;

/// An offset that was read.
struct Offset {
    /// Its first byte in the input.
    place: u32,
    /// Where it leads to, counted from the first byte of the code.
    target: i32,
}

/// Memory that is used again from body to body.
#[derive(Default)]
struct Places {
    /// For each place in the code and for its end: the number of the instruction that starts there, or `NONE`.
    numbers: Vec<u32>,
    offsets: Vec<Offset>,
}

impl Places {
    fn number(&self, place: usize) -> Option<u32> {
        self.numbers
            .get(place)
            .copied()
            .filter(|&number| number != NONE)
    }

    fn target(&self, offset: &Offset) -> Answer<u32> {
        usize::try_from(offset.target)
            .ok()
            .and_then(|place| self.number(place))
            .ok_or(Fault::new(offset.place as usize, Reason::Target))
    }

    /// Gives the branches and switches their targets, in the order in which the offsets were read.
    fn aim(&self, code: &mut Code) -> Answer<()> {
        let mut offsets = self.offsets.iter();
        for instruction in &mut code.instructions {
            match form(instruction.opcode) {
                Form::Branch => {
                    instruction.first = self.target(offsets.next().expect("one for each branch"))?
                }
                Form::Switch => {
                    instruction.first = code.targets.len() as u32;
                    for offset in offsets.by_ref().take(instruction.second as usize) {
                        code.targets.push(self.target(offset)?);
                    }
                }
                _ => {}
            }
        }
        Ok(())
    }
}

impl Reader<'_> {
    /// The length of code and that code.
    fn code(&mut self, places: &mut Places) -> Answer<Code> {
        let start = self.at;
        let length = self.u30()?;
        if length >= 1 << 23 {
            return Err(Fault::new(start, Reason::CodeLength));
        }
        let mut code = Code {
            at: self.at as u32,
            ..Code::default()
        };
        code.instructions = self.instructions(places, length as usize)?;
        places.aim(&mut code)?;
        Ok(code)
    }

    /// The instructions that fill so many bytes. What they need past the code's end is told at their opcode.
    fn instructions(&mut self, places: &mut Places, length: usize) -> Answer<Vec<Instruction>> {
        let (whole, first) = (self.input, self.at);
        let end = first + length;
        self.input = &whole[..end.min(whole.len())];
        places.offsets.clear();
        places.numbers.clear();
        places.numbers.resize(self.input.len() - first + 1, NONE);
        let mut read = Vec::new();
        while self.at < end {
            let here = self.at;
            places.numbers[here - first] = read.len() as u32;
            let instruction =
                self.instruction(places, first)
                    .map_err(|fault| match fault.reason {
                        Reason::Short if end <= whole.len() => Fault::new(here, Reason::CodeEnds),
                        _ => fault,
                    })?;
            read.push(instruction);
        }
        places.numbers[length] = read.len() as u32;
        self.input = whole;
        Ok(read)
    }

    /// One instruction; `first` is where the code began.
    #[inline(always)]
    fn instruction(&mut self, places: &mut Places, first: usize) -> Answer<Instruction> {
        let here = self.at;
        let mut read = Instruction {
            opcode: self.u8()?,
            ..Instruction::default()
        };
        let (_, form) = known(read.opcode).ok_or(Fault::new(here, Reason::Opcode))?;
        match form {
            Form::Plain => {}
            Form::NameCount | Form::Numbers => {
                read.first = self.u30()?;
                read.second = self.u30()?;
            }
            Form::Branch => self.offset(places, here + 4 - first)?,
            Form::Switch => {
                self.offset(places, here - first)?;
                let cases = self.u30()?;
                for _ in 0..=cases {
                    self.offset(places, here - first)?;
                }
                read.second = cases + 2;
            }
            Form::SignedByte | Form::Scope => read.byte = self.u8()?,
            Form::Short => read.first = u32::from(self.raw()? as u16),
            Form::Debug => {
                read.byte = self.u8()?;
                read.first = self.u30()?;
                read.register = self.u8()?;
                read.second = self.u30()?;
            }
            _ => read.first = self.u30()?,
        }
        Ok(read)
    }

    /// An offset from a base.
    #[inline(always)]
    fn offset(&mut self, places: &mut Places, base: usize) -> Answer<()> {
        let place = self.at as u32;
        let bytes = self.bytes(3)?;
        let distance = i32::from_le_bytes([0, bytes[0], bytes[1], bytes[2]]) >> 8;
        places.offsets.push(Offset {
            place,
            target: base as i32 + distance,
        });
        Ok(())
    }

    /// A place in the code, as an exception names it.
    fn place(&mut self, places: &Places) -> Answer<u32> {
        let at = self.at;
        let place = self.u30()?;
        places
            .number(place as usize)
            .ok_or(Fault::new(at, Reason::HandlerRange))
    }

    fn handler(&mut self, f: &File, places: &Places) -> Answer<Handler> {
        Ok(Handler {
            from: self.place(places)?,
            to: self.place(places)?,
            target: self.place(places)?,
            kind: self.index(0, f.names.len())?,
            name: self.index(0, f.names.len())?,
        })
    }

    fn body(&mut self, f: &File, has_body: &mut [bool], places: &mut Places) -> Answer<Body> {
        let start = self.at;
        let method = self.below(f.methods.len())?;
        if std::mem::replace(&mut has_body[method as usize], true) {
            return Err(Fault::new(start, Reason::SecondBody));
        }
        Ok(Body {
            method,
            stack: self.u30()?,
            locals: self.u30()?,
            scope: self.u30()?,
            scopes: self.u30()?,
            code: self.code(places)?,
            handlers: self.counted(|r| r.handler(f, places))?,
            traits: self.traits(f)?,
        })
    }

    pub fn bodies(&mut self, f: &File) -> Answer<Vec<Body>> {
        let mut has_body = vec![false; f.methods.len()];
        let mut places = Places::default();
        self.counted(|r| r.body(f, &mut has_body, &mut places))
    }
}

/// Where an instruction begins in its code, as it was read from the input.
pub fn offset_of(input: &[u8], code: &Code, place: u32) -> usize {
    let first = code.at as usize;
    let mut reader = Reader::new(input);
    reader.at = first;
    for _ in 0..place {
        let read = reader.instruction(&mut Places::default(), first);
        read.expect("it was read before");
    }
    reader.at - first
}
