//! What defmt's `Format` does: a value has the index of its own string, and behind it what that string shows.

use crate::wire::Message;

/// The index of an interned string: the address of a symbol of one byte in `.defmt`, whose name is an object of JSON. DATA is written as it stands in JSON.
macro_rules! interned {
    ($tag:literal, $data:expr) => {{
        #[unsafe(link_section = ".defmt.strings")]
        #[unsafe(export_name = concat!(
            "{\"package\":\"rover\",\"tag\":\"defmt_", $tag, "\",\"data\":\"", $data,
            "\",\"disambiguator\":\"", line!(), "-", column!(), "\",\"crate_name\":\"rover\"}"
        ))]
        static STRING: u8 = 0;
        &raw const STRING as usize as u16
    }};
}
pub(crate) use interned;

pub trait Format {
    fn string(&self) -> u16;
    fn data(&self, to: &mut Message);
}

/// A value behind `{=?}`.
pub fn value(to: &mut Message, it: &dyn Format) {
    to.index(it.string());
    it.data(to);
}

macro_rules! number {
    ($($kind:ident $text:literal),*) => {$(
        impl Format for $kind {
            fn string(&self) -> u16 {
                interned!("prim", $text)
            }
            fn data(&self, to: &mut Message) {
                to.bytes(&self.to_le_bytes());
            }
        }
    )*};
}
number!(u8 "{=u8}", u16 "{=u16}", u32 "{=u32}", i16 "{=i16}", i64 "{=i64}", u128 "{=u128}", f32 "{=f32}", f64 "{=f64}");

impl Format for bool {
    fn string(&self) -> u16 {
        interned!("prim", "{=bool}")
    }
    fn data(&self, to: &mut Message) {
        to.bytes(&[u8::from(*self)]);
    }
}

impl Format for &str {
    fn string(&self) -> u16 {
        interned!("prim", "{=str}")
    }
    fn data(&self, to: &mut Message) {
        to.text(self);
    }
}

impl<T: Format> Format for Option<T> {
    fn string(&self) -> u16 {
        interned!("derived", "None|Some({=?})")
    }
    fn data(&self, to: &mut Message) {
        match self {
            None => to.bytes(&[0]),
            Some(it) => {
                to.bytes(&[1]);
                value(to, it);
            }
        }
    }
}

impl<T: Format, E: Format> Format for Result<T, E> {
    fn string(&self) -> u16 {
        interned!("derived", "Err({=?})|Ok({=?})")
    }
    fn data(&self, to: &mut Message) {
        match self {
            Err(it) => {
                to.bytes(&[0]);
                value(to, it);
            }
            Ok(it) => {
                to.bytes(&[1]);
                value(to, it);
            }
        }
    }
}

impl<T: Format> Format for &[T] {
    fn string(&self) -> u16 {
        interned!("prim", "{=[?]}")
    }
    fn data(&self, to: &mut Message) {
        to.length(self.len());
        list(to, self);
    }
}

/// The elements of a list: the first one's index once.
pub fn list<T: Format>(to: &mut Message, elements: &[T]) {
    if let Some(first) = elements.first() {
        to.index(first.string());
    }
    for it in elements {
        it.data(to);
    }
}

impl<A: Format, B: Format> Format for (A, B) {
    fn string(&self) -> u16 {
        interned!("prim", "({=?}, {=?})")
    }
    fn data(&self, to: &mut Message) {
        value(to, &self.0);
        value(to, &self.1);
    }
}

/// What only has Rust's `Debug`.
pub struct Debug2Format<'a, T>(pub &'a T);

impl<T: std::fmt::Debug> Format for Debug2Format<'_, T> {
    fn string(&self) -> u16 {
        interned!("prim", "{=__internal_Debug}")
    }
    fn data(&self, to: &mut Message) {
        to.formatted(&format!("{:?}", self.0));
    }
}

/// What only has Rust's `Display`.
pub struct Display2Format<'a, T>(pub &'a T);

impl<T: std::fmt::Display> Format for Display2Format<'_, T> {
    fn string(&self) -> u16 {
        interned!("prim", "{=__internal_Display}")
    }
    fn data(&self, to: &mut Message) {
        to.formatted(&self.0.to_string());
    }
}

/// A type whose `Format` is written by hand with `write!`: one element for each `write!`.
pub trait Writes {
    fn write(&self, to: &mut Message);
}

pub struct Written<T>(pub T);

impl<T: Writes> Format for Written<T> {
    fn string(&self) -> u16 {
        interned!("prim", "{=__internal_FormatSequence}")
    }
    fn data(&self, to: &mut Message) {
        self.0.write(to);
        to.index(0);
    }
}
