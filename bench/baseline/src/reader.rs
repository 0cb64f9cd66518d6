//! Reads a whole file into a value.
use crate::fault::{Answer, Fault, Reason};
use crate::value::*;
use std::borrow::Cow;

/// The input, the place that was read to, and how many classes the file has, once that was read.
pub struct Reader<'a> {
    pub input: &'a [u8],
    pub at: usize,
    pub classes: usize,
}

impl<'a> Reader<'a> {
    pub fn new(input: &'a [u8]) -> Self {
        Reader {
            input,
            at: 0,
            classes: 0,
        }
    }

    fn short(&self) -> Fault {
        Fault::new(self.input.len(), Reason::Short)
    }

    #[inline(always)]
    pub fn u8(&mut self) -> Answer<u8> {
        match self.input.get(self.at) {
            Some(&byte) => {
                self.at += 1;
                Ok(byte)
            }
            None => Err(self.short()),
        }
    }

    /// The 35 bits of a number.
    #[inline(always)]
    pub fn raw(&mut self) -> Answer<u64> {
        let start = self.at;
        let mut value = 0u64;
        for shift in [0, 7, 14, 21, 28] {
            let byte = self.u8()?;
            value |= u64::from(byte & 0x7f) << shift;
            if byte < 0x80 {
                return Ok(value);
            }
        }
        Err(Fault::new(start, Reason::LongNumber))
    }

    #[inline(always)]
    pub fn u30(&mut self) -> Answer<u32> {
        let start = self.at;
        let value = self.raw()?;
        if value >= 1 << 30 {
            return Err(Fault::new(start, Reason::BigNumber));
        }
        Ok(value as u32)
    }

    /// An index of at least `least` and at most `most`.
    pub fn index(&mut self, least: u32, most: usize) -> Answer<u32> {
        let start = self.at;
        let value = self.u30()?;
        if value < least || value as usize > most {
            return Err(Fault::new(start, Reason::Index));
        }
        Ok(value)
    }

    /// An index below a number.
    pub fn below(&mut self, limit: usize) -> Answer<u32> {
        let start = self.at;
        let value = self.u30()?;
        if value as usize >= limit {
            return Err(Fault::new(start, Reason::Index));
        }
        Ok(value)
    }

    /// So many items. No memory is taken for those that are claimed and not there.
    pub fn list<T>(
        &mut self,
        count: u32,
        mut item: impl FnMut(&mut Self) -> Answer<T>,
    ) -> Answer<Vec<T>> {
        (0..count).map(|_| item(self)).collect()
    }

    /// A count and that many items.
    pub fn counted<T>(&mut self, item: impl FnMut(&mut Self) -> Answer<T>) -> Answer<Vec<T>> {
        let count = self.u30()?;
        self.list(count, item)
    }

    pub fn bytes(&mut self, count: usize) -> Answer<&'a [u8]> {
        let bytes = self
            .input
            .get(self.at..self.at + count)
            .ok_or(self.short())?;
        self.at += count;
        Ok(bytes)
    }

    fn version(&mut self, wanted: u16) -> Answer<()> {
        let start = self.at;
        let read = u16::from_le_bytes([self.u8()?, self.u8()?]);
        if read != wanted {
            return Err(Fault::new(start, Reason::Version));
        }
        Ok(())
    }

    /// A whole file.
    pub fn file(&mut self) -> Answer<File<'a>> {
        self.version(16)?;
        self.version(46)?;
        let mut file = File::default();
        self.pools(&mut file)?;
        self.definitions(&mut file)?;
        file.bodies = self.bodies(&file)?;
        Ok(file)
    }

    /// A pool, and how many entries it has, which each of them is told.
    fn pool<T>(&mut self, mut entry: impl FnMut(&mut Self, usize) -> Answer<T>) -> Answer<Vec<T>> {
        let entries = self.u30()?.saturating_sub(1);
        self.list(entries, |r| entry(r, entries as usize))
    }

    fn namespace(&mut self, f: &File) -> Answer<Namespace> {
        let start = self.at;
        let kind = self.u8()?;
        match kind {
            0x05 | 0x08 | 0x16..=0x1a => Ok(Namespace {
                kind,
                name: self.index(0, f.strings.len())?,
            }),
            _ => Err(Fault::new(start, Reason::NamespaceKind)),
        }
    }

    fn multiname(&mut self, f: &File, names: usize) -> Answer<Multiname> {
        let start = self.at;
        let kind = self.u8()?;
        let (strings, sets) = (f.strings.len(), f.sets.len());
        let name = match kind {
            0x07 | 0x0d => Name::Qualified {
                space: self.index(0, f.spaces.len())?,
                name: self.index(0, strings)?,
            },
            0x0f | 0x10 => Name::Runtime {
                name: self.index(0, strings)?,
            },
            0x11 | 0x12 => Name::RuntimeLate,
            0x09 | 0x0e => Name::Multi {
                name: self.index(0, strings)?,
                set: self.index(1, sets)?,
            },
            0x1b | 0x1c => Name::MultiLate {
                set: self.index(1, sets)?,
            },
            0x1d => {
                let base = self.index(1, names)?;
                let params = self.counted(|r| r.index(0, names))?.into();
                Name::Type { base, params }
            }
            _ => return Err(Fault::new(start, Reason::MultinameKind)),
        };
        Ok(Multiname { kind, name })
    }

    fn pools(&mut self, f: &mut File<'a>) -> Answer<()> {
        f.ints = self.pool(|r, _| Ok(r.raw()? as u32))?;
        f.uints = self.pool(|r, _| Ok(r.raw()? as u32))?;
        f.doubles = self.pool(|r, _| Ok(r.bytes(8)?.try_into().expect("eight bytes")))?;
        f.strings = self.pool(|r, _| {
            let size = r.u30()?;
            Ok(Cow::Borrowed(r.bytes(size as usize)?))
        })?;
        f.spaces = self.pool(|r, _| r.namespace(f))?;
        f.sets = self.pool(|r, _| Ok(r.counted(|r| r.index(1, f.spaces.len()))?.into()))?;
        f.names = self.pool(|r, names| r.multiname(f, names))?;
        Ok(())
    }
}
