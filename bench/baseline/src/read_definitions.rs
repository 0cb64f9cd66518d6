//! Reads methods, metadata, classes and scripts, with their traits.
use crate::fault::{Answer, Fault, Reason};
use crate::reader::Reader;
use crate::value::*;

impl<'a> Reader<'a> {
    /// The kind of a value, which has to be in the pool that the kind names; `start` is where the value began.
    fn value_kind(&mut self, f: &File, start: usize, index: u32) -> Answer<Value> {
        let place = self.at;
        let kind = self.u8()?;
        let pool = pool_of_kind(kind).ok_or(Fault::new(place, Reason::OptionKind))?;
        if index as usize > f.size(pool) {
            return Err(Fault::new(start, Reason::Index));
        }
        Ok(Value { index, kind })
    }

    fn option(&mut self, f: &File) -> Answer<Value> {
        let start = self.at;
        let index = self.u30()?;
        self.value_kind(f, start, index)
    }

    fn options(&mut self, f: &File, params: u32) -> Answer<Vec<Value>> {
        let start = self.at;
        let options = self.u30()?;
        if options > params {
            return Err(Fault::new(start, Reason::OptionCount));
        }
        self.list(options, |r| r.option(f))
    }

    fn method(&mut self, f: &File) -> Answer<Method> {
        let params = self.u30()?;
        let mut method = Method {
            result: self.index(0, f.names.len())?,
            params: self.list(params, |r| r.index(0, f.names.len()))?,
            name: self.index(0, f.strings.len())?,
            flags: self.u8()?,
            ..Method::default()
        };
        if method.flags & HAS_OPTIONS != 0 {
            method.options = self.options(f, params)?;
        }
        if method.flags & HAS_PARAM_NAMES != 0 {
            method.param_names = self.list(params, Reader::u30)?;
        }
        Ok(method)
    }

    fn metadata(&mut self, f: &File) -> Answer<Metadata> {
        let strings = f.strings.len();
        let name = self.index(0, strings)?;
        let items = self.u30()?;
        Ok(Metadata {
            name,
            items: self.list(2 * items, |r| r.index(0, strings))?,
        })
    }

    fn one_trait(&mut self, f: &File) -> Answer<Trait> {
        let name = self.index(1, f.names.len())?;
        let start = self.at;
        let byte = self.u8()?;
        let mut read = Trait {
            name,
            kind: byte & 15,
            attributes: byte >> 4,
            ..Trait::default()
        };
        if read.kind > CONST {
            return Err(Fault::new(start, Reason::TraitKind));
        }
        read.id = self.u30()?;
        if read.is_slot() {
            read.target = self.index(0, f.names.len())?;
            read.value = self.slot_value(f)?;
        } else {
            read.target = self.below(if read.kind == CLASS {
                self.classes
            } else {
                f.methods.len()
            })?;
        }
        if read.attributes & HAS_METADATA != 0 {
            read.metadata = self.counted(|r| r.below(f.metadata.len()))?;
        }
        Ok(read)
    }

    /// The value of a slot, which has a kind unless it is 0.
    fn slot_value(&mut self, f: &File) -> Answer<Value> {
        let start = self.at;
        match self.u30()? {
            0 => Ok(Value::default()),
            index => self.value_kind(f, start, index),
        }
    }

    pub fn traits(&mut self, f: &File) -> Answer<Vec<Trait>> {
        self.counted(|r| r.one_trait(f))
    }

    fn instance(&mut self, f: &File) -> Answer<Instance> {
        let names = f.names.len();
        let mut instance = Instance {
            name: self.index(1, names)?,
            base: self.index(0, names)?,
            flags: self.u8()?,
            ..Instance::default()
        };
        if instance.flags & HAS_PROTECTED != 0 {
            instance.protected = self.index(0, f.spaces.len())?;
        }
        instance.interfaces = self.counted(|r| r.index(1, names))?;
        instance.init = self.below(f.methods.len())?;
        instance.traits = self.traits(f)?;
        Ok(instance)
    }

    fn owner(&mut self, f: &File) -> Answer<Owner> {
        Ok(Owner {
            init: self.below(f.methods.len())?,
            traits: self.traits(f)?,
        })
    }

    /// The tables between the pools and the bodies.
    pub fn definitions(&mut self, f: &mut File<'a>) -> Answer<()> {
        f.methods = self.counted(|r| r.method(f))?;
        f.metadata = self.counted(|r| r.metadata(f))?;
        let classes = self.u30()?;
        self.classes = classes as usize;
        f.instances = self.list(classes, |r| r.instance(f))?;
        f.classes = self.list(classes, |r| r.owner(f))?;
        f.scripts = self.counted(|r| r.owner(f))?;
        Ok(())
    }
}
