//! Formats of a few kinds of values, by which the tests see what serde is given.

use serde::de::value::Error;
use serde::ser::{Impossible, Serialize, SerializeSeq, SerializeTuple, Serializer};

/// What a format writes of a value of each kind. A kind that it does not have panics.
pub trait Format: Sized {
    /// What is written.
    type Ok;
    /// A list or a tuple that is being written.
    type Items: SerializeSeq<Ok = Self::Ok, Error = Error>
        + SerializeTuple<Ok = Self::Ok, Error = Error>;

    fn is_for_people(&self) -> bool {
        true
    }

    fn text(self, _: &str) -> Self::Ok {
        panic!("texts are not of this format")
    }

    fn bytes(self, _: &[u8]) -> Self::Ok {
        panic!("bytes are not of this format")
    }

    fn number(self, _: u32) -> Self::Ok {
        panic!("numbers are not of this format")
    }

    fn list(self, _: Option<usize>) -> Self::Items {
        panic!("lists are not of this format")
    }

    fn tuple(self, _: usize) -> Self::Items {
        panic!("tuples are not of this format")
    }
}

/// What a format without lists and tuples has as `Items`.
pub type No<T> = Impossible<T, Error>;

/// The serializer of a format.
pub struct By<F>(pub F);

macro_rules! refused {
    ($($name:ident($($argument:ty),*) -> $answer:ty;)*) => {$(
        fn $name(self, $(_: $argument),*) -> Result<$answer, Error> {
            panic!("not of this format")
        }
    )*};
}

impl<F: Format> Serializer for By<F> {
    type Ok = F::Ok;
    type Error = Error;
    type SerializeSeq = F::Items;
    type SerializeTuple = F::Items;
    type SerializeTupleStruct = No<F::Ok>;
    type SerializeTupleVariant = No<F::Ok>;
    type SerializeMap = No<F::Ok>;
    type SerializeStruct = No<F::Ok>;
    type SerializeStructVariant = No<F::Ok>;

    fn is_human_readable(&self) -> bool {
        self.0.is_for_people()
    }

    fn serialize_str(self, text: &str) -> Result<F::Ok, Error> {
        Ok(self.0.text(text))
    }

    fn serialize_bytes(self, bytes: &[u8]) -> Result<F::Ok, Error> {
        Ok(self.0.bytes(bytes))
    }

    fn serialize_u32(self, number: u32) -> Result<F::Ok, Error> {
        Ok(self.0.number(number))
    }

    fn serialize_seq(self, count: Option<usize>) -> Result<F::Items, Error> {
        Ok(self.0.list(count))
    }

    fn serialize_tuple(self, count: usize) -> Result<F::Items, Error> {
        Ok(self.0.tuple(count))
    }

    refused! {
        serialize_bool(bool) -> F::Ok;
        serialize_i8(i8) -> F::Ok;
        serialize_i16(i16) -> F::Ok;
        serialize_i32(i32) -> F::Ok;
        serialize_i64(i64) -> F::Ok;
        serialize_u8(u8) -> F::Ok;
        serialize_u16(u16) -> F::Ok;
        serialize_u64(u64) -> F::Ok;
        serialize_f32(f32) -> F::Ok;
        serialize_f64(f64) -> F::Ok;
        serialize_char(char) -> F::Ok;
        serialize_none() -> F::Ok;
        serialize_unit() -> F::Ok;
        serialize_unit_struct(&'static str) -> F::Ok;
        serialize_unit_variant(&'static str, u32, &'static str) -> F::Ok;
        serialize_tuple_struct(&'static str, usize) -> No<F::Ok>;
        serialize_tuple_variant(&'static str, u32, &'static str, usize) -> No<F::Ok>;
        serialize_map(Option<usize>) -> No<F::Ok>;
        serialize_struct(&'static str, usize) -> No<F::Ok>;
        serialize_struct_variant(&'static str, u32, &'static str, usize) -> No<F::Ok>;
    }

    fn serialize_some<T: Serialize + ?Sized>(self, _: &T) -> Result<F::Ok, Error> {
        panic!("not of this format")
    }

    fn serialize_newtype_struct<T: Serialize + ?Sized>(
        self,
        _: &'static str,
        _: &T,
    ) -> Result<F::Ok, Error> {
        panic!("not of this format")
    }

    fn serialize_newtype_variant<T: Serialize + ?Sized>(
        self,
        _: &'static str,
        _: u32,
        _: &'static str,
        _: &T,
    ) -> Result<F::Ok, Error> {
        panic!("not of this format")
    }
}
