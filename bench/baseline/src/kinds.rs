//! Kinds of values and their order.
use crate::linked::Layouts;

/// What is known of a value.
#[derive(Clone, Copy, Debug, PartialEq, Eq)]
pub enum Kind {
    Any,
    Undef,
    Null,
    Num,
    Bool,
    Text,
    Space,
    /// An object of the layout or of one below it.
    Obj(u32),
}

impl Kind {
    pub fn holds_null(self) -> bool {
        matches!(self, Kind::Null | Kind::Text | Kind::Space | Kind::Obj(_))
    }
}

impl Layouts {
    /// The least kind above both.
    pub fn join(&self, a: Kind, b: Kind) -> Kind {
        match (a, b) {
            _ if a == b => a,
            (Kind::Null, other) | (other, Kind::Null) if other.holds_null() => other,
            (Kind::Obj(a), Kind::Obj(b)) => Kind::Obj(self.common(a, b)),
            _ => Kind::Any,
        }
    }

    /// The lowest layout above both, in a number of steps that grows with the logarithm of the depth.
    fn common(&self, mut a: u32, b: u32) -> u32 {
        while !self.is_under(b, a) {
            let far = self.jump(a);
            a = if self.is_under(b, far) {
                self.base(a)
            } else {
                far
            };
        }
        a
    }
}
