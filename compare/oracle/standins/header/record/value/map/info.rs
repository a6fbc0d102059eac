//! Stand-in: the number and type that an INFO key is defined with.
pub(crate) mod definition; // original

#[derive(Clone, Copy, Debug, Eq, PartialEq)]
pub enum Number {
    Count(usize),
    Unknown,
}
// One string, for a key with no definition: so `Info::get` answers a value's text.
impl Default for Number {
    fn default() -> Self {
        Self::Count(1)
    }
}
#[derive(Clone, Copy, Debug, Default, Eq, PartialEq)]
pub enum Type {
    Integer,
    Float,
    Flag,
    Character,
    #[default]
    String,
}
#[derive(Clone, Copy, Debug)]
pub struct Info {
    number: Number,
    ty: Type,
}
impl Info {
    pub fn number(&self) -> Number {
        self.number
    }
    pub fn ty(&self) -> Type {
        self.ty
    }
}
