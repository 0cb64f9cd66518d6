//! Numbers and bytes: each is read, tested and put in its canonical form in one step.
use crate::fault::{Answer, Fault, Reason};

/// The input, the place that was read to, and the canonical bytes so far.
pub struct Canon<'a> {
    pub input: &'a [u8],
    pub at: usize,
    pub out: Vec<u8>,
}

/// How many entries the tables have.
#[derive(Default, Clone, Copy)]
pub struct Sizes {
    pub ints: u32,
    pub uints: u32,
    pub doubles: u32,
    pub strings: u32,
    pub spaces: u32,
    pub sets: u32,
    pub names: u32,
    pub methods: u32,
    pub metadata: u32,
    pub classes: u32,
}

impl<'a> Canon<'a> {
    /// The canonical bytes are never more than the input, so `out` never grows.
    pub fn new(input: &'a [u8]) -> Self {
        Canon {
            input,
            at: 0,
            out: Vec::with_capacity(input.len()),
        }
    }

    fn short(&self) -> Fault {
        Fault::new(self.input.len(), Reason::Short)
    }

    #[inline(always)]
    fn byte(&mut self) -> Answer<u8> {
        match self.input.get(self.at) {
            Some(&byte) => {
                self.at += 1;
                Ok(byte)
            }
            None => Err(self.short()),
        }
    }

    /// The 35 bits of a number.
    #[inline(always)]
    pub fn raw(&mut self) -> Answer<u64> {
        let start = self.at;
        let mut value = 0u64;
        for shift in [0, 7, 14, 21, 28] {
            let byte = self.byte()?;
            value |= u64::from(byte & 0x7f) << shift;
            if byte < 0x80 {
                return Ok(value);
            }
        }
        Err(Fault::new(start, Reason::LongNumber))
    }

    #[inline(always)]
    pub fn read_u30(&mut self) -> Answer<u32> {
        let start = self.at;
        let value = self.raw()?;
        if value >= 1 << 30 {
            return Err(Fault::new(start, Reason::BigNumber));
        }
        Ok(value as u32)
    }

    #[inline(always)]
    pub fn put(&mut self, mut value: u32) {
        while value >= 0x80 {
            self.out.push(value as u8 | 0x80);
            value >>= 7;
        }
        self.out.push(value as u8);
    }

    #[inline(always)]
    pub fn u30(&mut self) -> Answer<u32> {
        let value = self.read_u30()?;
        self.put(value);
        Ok(value)
    }

    pub fn u32(&mut self) -> Answer<()> {
        let value = self.raw()?;
        self.put(value as u32);
        Ok(())
    }

    #[inline(always)]
    pub fn u8(&mut self) -> Answer<u8> {
        let byte = self.byte()?;
        self.out.push(byte);
        Ok(byte)
    }

    /// An index of at least `least` and at most `most`.
    pub fn index(&mut self, least: u32, most: u32) -> Answer<u32> {
        let start = self.at;
        let value = self.read_u30()?;
        if value < least || value > most {
            return Err(Fault::new(start, Reason::Index));
        }
        self.put(value);
        Ok(value)
    }

    /// An index below a number.
    pub fn below(&mut self, limit: u32) -> Answer<u32> {
        let start = self.at;
        let value = self.read_u30()?;
        if value >= limit {
            return Err(Fault::new(start, Reason::Index));
        }
        self.put(value);
        Ok(value)
    }

    pub fn times(&mut self, count: u32, item: impl Fn(&mut Self) -> Answer<()>) -> Answer<()> {
        for _ in 0..count {
            item(self)?;
        }
        Ok(())
    }

    pub fn bytes(&mut self, count: usize) -> Answer<()> {
        match self.input.get(self.at..self.at + count) {
            Some(bytes) => {
                self.out.extend_from_slice(bytes);
                self.at += count;
                Ok(())
            }
            None => Err(self.short()),
        }
    }

    fn version(&mut self, wanted: u16) -> Answer<()> {
        let start = self.at;
        let low = self.u8()?;
        let high = self.u8()?;
        if u16::from_le_bytes([low, high]) != wanted {
            return Err(Fault::new(start, Reason::Version));
        }
        Ok(())
    }

    /// A whole file.
    pub fn file(&mut self) -> Answer<()> {
        self.version(16)?;
        self.version(46)?;
        let pools = self.pools()?;
        let sizes = self.definitions(pools)?;
        self.bodies(&sizes)
    }
}
