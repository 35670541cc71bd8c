// SPDX-License-Identifier: MIT OR Apache-2.0
//! Stands in for `serde`: the traits that the two sources name. Save states are left out of the port, so none of it is ever run.

pub use de::{Deserialize, Deserializer};
pub use ser::{Serialize, Serializer};
pub use serde_derive::{Deserialize, Serialize};

pub mod ser {
    pub trait Serialize {
        fn serialize<S: Serializer>(&self, serializer: S) -> Result<S::Ok, S::Error>;
    }

    pub trait Serializer: Sized {
        type Ok;
        type Error;
        type SerializeTuple: SerializeTuple<Ok = Self::Ok, Error = Self::Error>;

        fn serialize_tuple(self, len: usize) -> Result<Self::SerializeTuple, Self::Error>;
    }

    pub trait SerializeTuple {
        type Ok;
        type Error;

        fn serialize_element<T: Serialize>(&mut self, value: &T) -> Result<(), Self::Error>;
        fn end(self) -> Result<Self::Ok, Self::Error>;
    }
}

pub mod de {
    use std::fmt;

    pub trait Error: Sized {
        fn custom<T: fmt::Display>(message: T) -> Self;
        fn invalid_length<E>(len: usize, expected: &E) -> Self;
    }

    pub trait Deserialize<'de>: Sized {
        fn deserialize<D: Deserializer<'de>>(deserializer: D) -> Result<Self, D::Error>;
    }

    pub trait Deserializer<'de>: Sized {
        type Error: Error;

        fn deserialize_tuple<V: Visitor<'de>>(self, len: usize, visitor: V) -> Result<V::Value, Self::Error>;
    }

    pub trait Visitor<'de>: Sized {
        type Value;

        fn expecting(&self, formatter: &mut fmt::Formatter<'_>) -> fmt::Result;
        fn visit_seq<A: SeqAccess<'de>>(self, seq: A) -> Result<Self::Value, A::Error>;
    }

    pub trait SeqAccess<'de> {
        type Error: Error;

        fn next_element<T: Deserialize<'de>>(&mut self) -> Result<Option<T>, Self::Error>;
    }
}
