//! Stand-in: as much of serde as obj/relocations.rs and obj/symbols.rs need to compile. Nothing is serialized.
pub use serde_derive::{Deserialize, Serialize};

pub trait Serializer: Sized {
    type Ok;
    type Error;
    fn serialize_str(self, text: &str) -> Result<Self::Ok, Self::Error>;
}

pub trait Serialize {
    fn serialize<S: Serializer>(&self, serializer: S) -> Result<S::Ok, S::Error>;
}

pub trait Deserializer<'de>: Sized {
    type Error: de::Error;
    fn text(self) -> Result<String, Self::Error>;
}

pub trait Deserialize<'de>: Sized {
    fn deserialize<D: Deserializer<'de>>(deserializer: D) -> Result<Self, D::Error>;
}

impl<'de> Deserialize<'de> for String {
    fn deserialize<D: Deserializer<'de>>(deserializer: D) -> Result<Self, D::Error> { deserializer.text() }
}

pub mod de {
    pub trait Error: Sized {
        fn unknown_variant(variant: &str, expected: &'static [&'static str]) -> Self;
    }
}
