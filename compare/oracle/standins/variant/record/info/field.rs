//! Stand-in: the value that `Info::get` answers.
pub mod key {
    pub const END_POSITION: &str = "END";
    pub const SV_LENGTHS: &str = "SVLEN";
}
pub mod value {
    use std::io;
    pub trait Values<'a, N> {
        fn iter(&self) -> Box<dyn Iterator<Item = io::Result<Option<N>>> + '_>;
    }
    impl<'a, N> Values<'a, N> for &'a str {
        fn iter(&self) -> Box<dyn Iterator<Item = io::Result<Option<N>>> + '_> {
            unimplemented!("no list of values is asked for")
        }
    }
    pub enum Array<'a> {
        Integer(Box<dyn Values<'a, i32> + 'a>),
        Float(Box<dyn Values<'a, f32> + 'a>),
        Character(Box<dyn Values<'a, char> + 'a>),
        String(Box<dyn Values<'a, String> + 'a>),
    }
}
pub enum Value<'a> {
    Integer(i32),
    Float(f32),
    Flag,
    Character(char),
    String(std::borrow::Cow<'a, str>),
    Array(value::Array<'a>),
}
