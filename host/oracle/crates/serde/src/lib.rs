//! Stand-in for the crate `serde`: enough for the originals to type-check. Nothing of it is run.

pub use serde_derive::Serialize;

pub trait Serialize {
    fn serialize<S: Serializer>(&self, serializer: S) -> Result<S::Ok, S::Error>;
}

pub trait Serializer: Sized {
    type Ok;
    type Error;
    type SerializeStruct: ser::SerializeStruct<Ok = Self::Ok, Error = Self::Error>;

    fn serialize_struct(self, name: &'static str, len: usize) -> Result<Self::SerializeStruct, Self::Error>;
}

pub mod ser {
    pub trait SerializeStruct {
        type Ok;
        type Error;

        fn serialize_field<T: ?Sized + super::Serialize>(
            &mut self,
            key: &'static str,
            value: &T,
        ) -> Result<(), Self::Error>;

        fn end(self) -> Result<Self::Ok, Self::Error>;
    }
}

impl<T> Serialize for std::ops::Bound<T> {
    fn serialize<S: Serializer>(&self, _: S) -> Result<S::Ok, S::Error> {
        unimplemented!()
    }
}
