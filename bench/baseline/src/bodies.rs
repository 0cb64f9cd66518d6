//! Method bodies.
use crate::canon::{Canon, Sizes};
use crate::code::Code;
use crate::fault::{Answer, Fault, Reason};

impl Canon<'_> {
    fn exception(&mut self, v: &Sizes, code: &Code) -> Answer<()> {
        code.place(self)?;
        code.place(self)?;
        code.place(self)?;
        self.index(0, v.names)?;
        self.index(0, v.names)?;
        Ok(())
    }

    fn body(&mut self, v: &Sizes, has_body: &mut [bool], code: &mut Code) -> Answer<()> {
        let start = self.at;
        let method = self.below(v.methods)?;
        if std::mem::replace(&mut has_body[method as usize], true) {
            return Err(Fault::new(start, Reason::SecondBody));
        }
        self.times(4, |c| c.u30().map(drop))?;
        code.canon(self)?;
        let exceptions = self.u30()?;
        self.times(exceptions, |c| c.exception(v, code))?;
        self.traits(v)
    }

    pub fn bodies(&mut self, v: &Sizes) -> Answer<()> {
        let mut has_body = vec![false; v.methods as usize];
        let mut code = Code::default();
        let count = self.u30()?;
        for _ in 0..count {
            self.body(v, &mut has_body, &mut code)?;
        }
        Ok(())
    }
}
