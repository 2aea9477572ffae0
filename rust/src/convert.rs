//! Values from the types of Rust, and back.

use crate::error::Mismatch;
use crate::value::Value;
use std::any::type_name;
use std::collections::{BTreeMap, HashMap};

/// A type that is read from a value.
///
/// A program may implement it for its own types.
pub trait FromValue<'a>: Sized {
    /// Reads the value.
    ///
    /// # Errors
    ///
    /// [`Mismatch::Type`] if the value is of another type, or if its number is out of the type's range.
    fn from_value(value: &'a Value) -> Result<Self, Mismatch>;
}

/// Returns the error of a value that isn't of the type.
fn mismatch<T>(value: &Value) -> Mismatch {
    let found = match value {
        Value::Null => "null".to_owned(),
        Value::Bool(it) => format!("the boolean {it}"),
        Value::Int(it) => format!("the integer {it}"),
        Value::Float(it) => format!("the float {it}"),
        Value::Bytes(_) => "bytes".to_owned(),
        Value::Text(_) => "a text".to_owned(),
        Value::List(_) => "a list".to_owned(),
        Value::Dict(_) => "a dictionary".to_owned(),
        Value::Structure(tag, _) => format!("a structure of tag {tag:02X}"),
    };
    Mismatch::Type { column: None, wanted: type_name::<T>(), found }
}

impl Value {
    /// Reads the value as a type, such as `i64`, `&str`, `Vec<i64>` or `Option<f64>`.
    ///
    /// # Errors
    ///
    /// [`Mismatch::Type`] if the value is of another type, or if its number is out of the type's range.
    pub fn to<'a, T: FromValue<'a>>(&'a self) -> Result<T, Mismatch> {
        T::from_value(self)
    }
}

/// Implements `FromValue`, and by it `TryFrom<&Value>`, with an expression for what is read.
macro_rules! reads {
    ($($type:ty: |$value:ident| $read:expr;)*) => {$(
        impl<'a> FromValue<'a> for $type {
            fn from_value($value: &'a Value) -> Result<Self, Mismatch> {
                $read.ok_or_else(|| mismatch::<$type>($value))
            }
        }

        impl<'a> TryFrom<&'a Value> for $type {
            type Error = Mismatch;

            fn try_from(value: &'a Value) -> Result<Self, Mismatch> {
                value.to()
            }
        }
    )*};
}

// (u8 isn't there: a Vec of it is read from bytes, and no list)
reads! {
    i8: |value| value.as_int().and_then(|it| it.try_into().ok());
    i16: |value| value.as_int().and_then(|it| it.try_into().ok());
    i32: |value| value.as_int().and_then(|it| it.try_into().ok());
    i64: |value| value.as_int();
    u16: |value| value.as_int().and_then(|it| it.try_into().ok());
    u32: |value| value.as_int().and_then(|it| it.try_into().ok());
    u64: |value| value.as_int().and_then(|it| it.try_into().ok());
    usize: |value| value.as_int().and_then(|it| it.try_into().ok());
    bool: |value| value.as_bool();
    f64: |value| value.as_float();
    &'a str: |value| value.as_text();
    String: |value| value.as_text().map(str::to_owned);
    &'a [u8]: |value| value.as_bytes();
    Vec<u8>: |value| value.as_bytes().map(<[u8]>::to_vec);
}

/// Implements both for a collection of values: of a value its items, and of an item what is read from it.
macro_rules! collects {
    ($($type:ty: $items:ident, |$item:ident| $read:expr;)*) => {$(
        impl<'a, T: FromValue<'a>> FromValue<'a> for $type {
            fn from_value(value: &'a Value) -> Result<Self, Mismatch> {
                let items = value.$items().ok_or_else(|| mismatch::<$type>(value))?;
                items.iter().map(|$item| $read).collect()
            }
        }

        impl<'a, T: FromValue<'a>> TryFrom<&'a Value> for $type {
            type Error = Mismatch;

            fn try_from(value: &'a Value) -> Result<Self, Mismatch> {
                value.to()
            }
        }
    )*};
}

collects! {
    Vec<T>: as_list, |item| item.to();
    HashMap<String, T>: as_dict, |item| Ok((item.0.clone(), item.1.to()?));
    BTreeMap<String, T>: as_dict, |item| Ok((item.0.clone(), item.1.to()?));
}

/// Null is read as None.
impl<'a, T: FromValue<'a>> FromValue<'a> for Option<T> {
    fn from_value(value: &'a Value) -> Result<Self, Mismatch> {
        if *value == Value::Null {
            Ok(None)
        } else {
            value.to().map(Some)
        }
    }
}

impl<'a> FromValue<'a> for &'a Value {
    fn from_value(value: &'a Value) -> Result<Self, Mismatch> {
        Ok(value)
    }
}

impl<'a> FromValue<'a> for Value {
    fn from_value(value: &'a Value) -> Result<Self, Mismatch> {
        Ok(value.clone())
    }
}

/// Implements `From` for a type, by an expression for the value.
macro_rules! writes {
    ($($type:ty: |$it:ident| $value:expr;)*) => {$(
        impl From<$type> for Value {
            fn from($it: $type) -> Value {
                $value
            }
        }
    )*};
}

// (u8 isn't there: a Vec of it is bytes, and no list)
writes! {
    i8: |it| Value::Int(it.into());
    i16: |it| Value::Int(it.into());
    i32: |it| Value::Int(it.into());
    i64: |it| Value::Int(it);
    u16: |it| Value::Int(it.into());
    u32: |it| Value::Int(it.into());
    bool: |it| Value::Bool(it);
    f32: |it| Value::Float(it.into());
    f64: |it| Value::Float(it);
    &str: |it| Value::Text(it.to_owned());
    &String: |it| Value::Text(it.clone());
    String: |it| Value::Text(it);
    &[u8]: |it| Value::Bytes(it.to_owned());
    Vec<u8>: |it| Value::Bytes(it);
}

impl<const N: usize> From<&[u8; N]> for Value {
    fn from(it: &[u8; N]) -> Value {
        Value::Bytes(it.to_vec())
    }
}

impl<T: Into<Value>> From<Vec<T>> for Value {
    fn from(it: Vec<T>) -> Value {
        it.into_iter().collect()
    }
}

impl<T: Into<Value>, const N: usize> From<[T; N]> for Value {
    fn from(it: [T; N]) -> Value {
        it.into_iter().collect()
    }
}

/// Collects a list.
impl<T: Into<Value>> FromIterator<T> for Value {
    fn from_iter<I: IntoIterator<Item = T>>(items: I) -> Value {
        Value::List(items.into_iter().map(T::into).collect())
    }
}

/// None is null.
impl<T: Into<Value>> From<Option<T>> for Value {
    fn from(it: Option<T>) -> Value {
        it.map_or(Value::Null, T::into)
    }
}

impl<T: Into<Value>> From<HashMap<String, T>> for Value {
    fn from(it: HashMap<String, T>) -> Value {
        Value::Dict(it.into_iter().map(|(key, value)| (key, value.into())).collect())
    }
}

impl<T: Into<Value>> From<BTreeMap<String, T>> for Value {
    fn from(it: BTreeMap<String, T>) -> Value {
        Value::Dict(it.into_iter().map(|(key, value)| (key, value.into())).collect())
    }
}
