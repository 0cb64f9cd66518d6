//! The constant pools.
use crate::canon::{Canon, Sizes};
use crate::fault::{Answer, Fault, Reason};

impl Canon<'_> {
    /// A pool, and how many entries it has, which each of them is told.
    fn pool(&mut self, entry: impl Fn(&mut Self, u32) -> Answer<()>) -> Answer<u32> {
        let entries = self.read_u30()?.saturating_sub(1);
        self.put(if entries == 0 { 0 } else { entries + 1 });
        self.times(entries, |c| entry(c, entries))?;
        Ok(entries)
    }

    fn text(&mut self) -> Answer<()> {
        let size = self.u30()?;
        self.bytes(size as usize)
    }

    fn namespace(&mut self, strings: u32) -> Answer<()> {
        let start = self.at;
        match self.u8()? {
            0x05 | 0x08 | 0x16..=0x1a => {}
            _ => return Err(Fault::new(start, Reason::NamespaceKind)),
        }
        self.index(0, strings)?;
        Ok(())
    }

    fn set(&mut self, spaces: u32) -> Answer<()> {
        let count = self.u30()?;
        self.times(count, |c| c.index(1, spaces).map(drop))
    }

    fn multiname(&mut self, v: &Sizes, names: u32) -> Answer<()> {
        let start = self.at;
        match self.u8()? {
            0x07 | 0x0d => {
                self.index(0, v.spaces)?;
                self.index(0, v.strings)?;
            }
            0x0f | 0x10 => {
                self.index(0, v.strings)?;
            }
            0x11 | 0x12 => {}
            0x09 | 0x0e => {
                self.index(0, v.strings)?;
                self.index(1, v.sets)?;
            }
            0x1b | 0x1c => {
                self.index(1, v.sets)?;
            }
            0x1d => {
                self.index(1, names)?;
                let params = self.u30()?;
                self.times(params, |c| c.index(0, names).map(drop))?;
            }
            _ => return Err(Fault::new(start, Reason::MultinameKind)),
        }
        Ok(())
    }

    /// The seven pools.
    pub fn pools(&mut self) -> Answer<Sizes> {
        let mut v = Sizes::default();
        v.ints = self.pool(|c, _| c.u32())?;
        v.uints = self.pool(|c, _| c.u32())?;
        v.doubles = self.pool(|c, _| c.bytes(8))?;
        v.strings = self.pool(|c, _| c.text())?;
        v.spaces = self.pool(|c, _| c.namespace(v.strings))?;
        v.sets = self.pool(|c, _| c.set(v.spaces))?;
        v.names = self.pool(|c, names| c.multiname(&v, names))?;
        Ok(v)
    }
}
