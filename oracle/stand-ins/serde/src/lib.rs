//! Stand-in for `serde`: the traits and names that the original files mention.
//! The port leaves the serde forms out, so every form answers an error and none is ever asked for.

pub use serde_derive::{Deserialize, Serialize};

const LEFT_OUT: &str = "serde forms are left out";

pub mod de {
    //! Errors of reading.
    pub trait Error: Sized {
        fn custom<T: std::fmt::Display>(message: T) -> Self;
    }
}

pub mod ser {
    //! Errors of writing.
    pub trait Error: Sized {
        fn custom<T: std::fmt::Display>(message: T) -> Self;
    }
}

pub trait Serializer: Sized {
    type Ok;
    type Error: ser::Error;
}

pub trait Deserializer<'de>: Sized {
    type Error: de::Error;
}

pub trait Serialize {
    fn serialize<S: Serializer>(&self, _serializer: S) -> Result<S::Ok, S::Error> {
        Err(ser::Error::custom(LEFT_OUT))
    }
}

pub trait Deserialize<'de>: Sized {
    fn deserialize<D: Deserializer<'de>>(_deserializer: D) -> Result<Self, D::Error> {
        Err(de::Error::custom(LEFT_OUT))
    }
}

impl Serialize for Vec<u8> {}
impl<'de> Deserialize<'de> for Vec<u8> {}
impl<'de> Deserialize<'de> for u16 {}
impl<'de> Deserialize<'de> for u64 {}
