//! Methods, metadata, classes and scripts, with their traits.
use crate::canon::{Canon, Sizes};
use crate::fault::{Answer, Fault, Reason};

impl Canon<'_> {
    /// The kind of a value, which has to be in the pool that the kind names.
    fn value_kind(&mut self, v: &Sizes, start: usize, value: u32) -> Answer<()> {
        let place = self.at;
        let most = match self.u8()? {
            0x00 | 0x0a | 0x0b | 0x0c => u32::MAX,
            0x01 => v.strings,
            0x03 => v.ints,
            0x04 => v.uints,
            0x06 => v.doubles,
            0x05 | 0x08 | 0x16..=0x1a => v.spaces,
            _ => return Err(Fault::new(place, Reason::OptionKind)),
        };
        if value > most {
            return Err(Fault::new(start, Reason::Index));
        }
        Ok(())
    }

    fn options(&mut self, v: &Sizes, params: u32) -> Answer<()> {
        let start = self.at;
        let options = self.u30()?;
        if options > params {
            return Err(Fault::new(start, Reason::OptionCount));
        }
        self.times(options, |c| {
            let start = c.at;
            let value = c.u30()?;
            c.value_kind(v, start, value)
        })
    }

    fn method(&mut self, v: &Sizes) -> Answer<()> {
        let params = self.u30()?;
        self.index(0, v.names)?;
        self.times(params, |c| c.index(0, v.names).map(drop))?;
        self.index(0, v.strings)?;
        let flags = self.u8()?;
        if flags & 0x08 != 0 {
            self.options(v, params)?;
        }
        if flags & 0x80 != 0 {
            self.times(params, |c| c.u30().map(drop))?;
        }
        Ok(())
    }

    fn metadata(&mut self, v: &Sizes) -> Answer<()> {
        self.index(0, v.strings)?;
        let items = self.u30()?;
        self.times(2 * items, |c| c.index(0, v.strings).map(drop))
    }

    fn one_trait(&mut self, v: &Sizes) -> Answer<()> {
        self.index(1, v.names)?;
        let start = self.at;
        let kind = self.u8()?;
        match kind & 15 {
            0 | 6 => {
                self.u30()?;
                self.index(0, v.names)?;
                let start = self.at;
                let value = self.u30()?;
                if value != 0 {
                    self.value_kind(v, start, value)?;
                }
            }
            1 | 2 | 3 | 5 => {
                self.u30()?;
                self.below(v.methods)?;
            }
            4 => {
                self.u30()?;
                self.below(v.classes)?;
            }
            _ => return Err(Fault::new(start, Reason::TraitKind)),
        }
        if kind & 0x40 != 0 {
            let count = self.u30()?;
            self.times(count, |c| c.below(v.metadata).map(drop))?;
        }
        Ok(())
    }

    pub fn traits(&mut self, v: &Sizes) -> Answer<()> {
        let count = self.u30()?;
        self.times(count, |c| c.one_trait(v))
    }

    fn instance(&mut self, v: &Sizes) -> Answer<()> {
        self.index(1, v.names)?;
        self.index(0, v.names)?;
        if self.u8()? & 0x08 != 0 {
            self.index(0, v.spaces)?;
        }
        let count = self.u30()?;
        self.times(count, |c| c.index(1, v.names).map(drop))?;
        self.below(v.methods)?;
        self.traits(v)
    }

    /// A method and traits: a class, or a script.
    fn owner(&mut self, v: &Sizes) -> Answer<()> {
        self.below(v.methods)?;
        self.traits(v)
    }

    /// The tables between the pools and the bodies; the sizes of the pools get theirs.
    pub fn definitions(&mut self, mut v: Sizes) -> Answer<Sizes> {
        let methods = self.u30()?;
        self.times(methods, |c| c.method(&v))?;
        v.methods = methods;
        let metadata = self.u30()?;
        self.times(metadata, |c| c.metadata(&v))?;
        v.metadata = metadata;
        v.classes = self.u30()?;
        self.times(v.classes, |c| c.instance(&v))?;
        self.times(v.classes, |c| c.owner(&v))?;
        let scripts = self.u30()?;
        self.times(scripts, |c| c.owner(&v))?;
        Ok(v)
    }
}
