//! Values, and their conversions from and to Rust types.

use crate::error::{Error, FromValueError, Result};
use std::borrow::Cow;
use std::fmt;
use std::rc::Rc;
use std::sync::Arc;

/// The type of a column and of its values.
#[derive(Clone, Copy, Debug, PartialEq, Eq, Hash)]
pub enum Type {
    /// `INT`: a signed integer of 64 bits.
    Int,
    /// `TEXT`: up to 64 bytes without a line feed.
    Text,
}

impl fmt::Display for Type {
    fn fmt(&self, f: &mut fmt::Formatter<'_>) -> fmt::Result {
        f.write_str(match self {
            Type::Int => "INT",
            Type::Text => "TEXT",
        })
    }
}

/// A value. There is no NULL.
///
/// A text is bytes, since the database accepts a text in any encoding. [`as_str`](Value::as_str) returns it as UTF-8. Values are ordered as
/// the database orders them.
#[derive(Clone, PartialEq, Eq, PartialOrd, Ord, Hash)]
pub enum Value {
    /// A number.
    Int(i64),
    /// The bytes of a text.
    Text(Vec<u8>),
}

impl Value {
    /// Returns the type of the value.
    #[must_use]
    pub fn data_type(&self) -> Type {
        ValueRef::from(self).data_type()
    }

    /// Returns the number. `WrongType` if the value is a text.
    pub fn as_i64(&self) -> Result<i64, FromValueError> {
        ValueRef::from(self).as_i64()
    }

    /// Returns the bytes of the text. `WrongType` if the value is a number.
    pub fn as_bytes(&self) -> Result<&[u8], FromValueError> {
        ValueRef::from(self).as_bytes()
    }

    /// Returns the text. `WrongType` if the value is a number, `NotUtf8` if the text is not UTF-8.
    pub fn as_str(&self) -> Result<&str, FromValueError> {
        ValueRef::from(self).as_str()
    }
}

impl fmt::Debug for Value {
    fn fmt(&self, f: &mut fmt::Formatter<'_>) -> fmt::Result {
        ValueRef::from(self).fmt(f)
    }
}

impl From<i64> for Value {
    fn from(number: i64) -> Value {
        Value::Int(number)
    }
}

impl From<String> for Value {
    fn from(text: String) -> Value {
        Value::Text(text.into_bytes())
    }
}

impl From<&str> for Value {
    fn from(text: &str) -> Value {
        Value::Text(text.into())
    }
}

impl From<Vec<u8>> for Value {
    fn from(text: Vec<u8>) -> Value {
        Value::Text(text)
    }
}

impl From<&[u8]> for Value {
    fn from(text: &[u8]) -> Value {
        Value::Text(text.into())
    }
}

/// A borrowed value.
#[derive(Clone, Copy, PartialEq, Eq, PartialOrd, Ord, Hash)]
pub enum ValueRef<'a> {
    /// A number.
    Int(i64),
    /// The bytes of a text.
    Text(&'a [u8]),
}

impl fmt::Debug for ValueRef<'_> {
    /// Writes a text as UTF-8 if it is, and otherwise as bytes: `Text("Ann")`, `Text(b"\xff")`.
    fn fmt(&self, f: &mut fmt::Formatter<'_>) -> fmt::Result {
        match *self {
            ValueRef::Int(number) => f.debug_tuple("Int").field(&number).finish(),
            ValueRef::Text(bytes) => match std::str::from_utf8(bytes) {
                Ok(text) => f.debug_tuple("Text").field(&text).finish(),
                Err(_) => f.debug_tuple("Text").field(&format_args!("b\"{}\"", bytes.escape_ascii())).finish(),
            },
        }
    }
}

impl<'a> ValueRef<'a> {
    /// Returns the type of the value.
    #[must_use]
    pub fn data_type(self) -> Type {
        match self {
            ValueRef::Int(_) => Type::Int,
            ValueRef::Text(_) => Type::Text,
        }
    }

    /// Returns the number. `WrongType` if the value is a text.
    pub fn as_i64(self) -> Result<i64, FromValueError> {
        match self {
            ValueRef::Int(number) => Ok(number),
            ValueRef::Text(_) => Err(FromValueError::WrongType),
        }
    }

    /// Returns the bytes of the text. `WrongType` if the value is a number.
    pub fn as_bytes(self) -> Result<&'a [u8], FromValueError> {
        match self {
            ValueRef::Text(bytes) => Ok(bytes),
            ValueRef::Int(_) => Err(FromValueError::WrongType),
        }
    }

    /// Returns the text. `WrongType` if the value is a number, `NotUtf8` if the text is not UTF-8.
    pub fn as_str(self) -> Result<&'a str, FromValueError> {
        std::str::from_utf8(self.as_bytes()?).map_err(FromValueError::NotUtf8)
    }
}

impl From<i64> for ValueRef<'_> {
    fn from(number: i64) -> Self {
        ValueRef::Int(number)
    }
}

impl<'a> From<&'a str> for ValueRef<'a> {
    fn from(text: &'a str) -> Self {
        ValueRef::Text(text.as_bytes())
    }
}

impl<'a> From<&'a [u8]> for ValueRef<'a> {
    fn from(text: &'a [u8]) -> Self {
        ValueRef::Text(text)
    }
}

impl<'a> From<&'a Value> for ValueRef<'a> {
    fn from(value: &'a Value) -> Self {
        match value {
            Value::Int(number) => ValueRef::Int(*number),
            Value::Text(text) => ValueRef::Text(text),
        }
    }
}

/// The value that a [`ToValue`] returns: borrowed from it, or made for the call.
#[derive(Clone, Debug, PartialEq, Eq)]
#[non_exhaustive]
pub enum ToValueOutput<'a> {
    /// A borrowed value.
    Borrowed(ValueRef<'a>),
    /// A value that was made for the call.
    Owned(Value),
    /// A character.
    Char(EncodedChar),
}

impl ToValueOutput<'_> {
    /// Returns the value.
    #[inline]
    #[must_use]
    pub fn as_value(&self) -> ValueRef<'_> {
        match self {
            ToValueOutput::Borrowed(value) => *value,
            ToValueOutput::Owned(value) => ValueRef::from(value),
            ToValueOutput::Char(encoded) => ValueRef::Text(&encoded.bytes[..encoded.length]),
        }
    }
}

/// A character in UTF-8.
#[derive(Clone, Copy, Debug, PartialEq, Eq)]
pub struct EncodedChar {
    bytes: [u8; 4],
    length: usize,
}

impl From<char> for EncodedChar {
    fn from(character: char) -> EncodedChar {
        let mut bytes = [0; 4];
        let length = character.encode_utf8(&mut bytes).len();
        EncodedChar { bytes, length }
    }
}

impl<'a, T: Into<ValueRef<'a>>> From<T> for ToValueOutput<'a> {
    #[inline]
    fn from(value: T) -> Self {
        ToValueOutput::Borrowed(value.into())
    }
}

/// A type whose values can be values of the database.
///
/// ```
/// use mmdb::{params, Connection, Result, ToValue, ToValueOutput};
///
/// struct Seat {
///     row: char,
///     number: u8,
/// }
///
/// impl ToValue for Seat {
///     fn to_value(&self) -> Result<ToValueOutput<'_>> {
///         Ok(ToValueOutput::Owned(format!("{}{}", self.row, self.number).into()))
///     }
/// }
///
/// # fn main() -> Result<()> {
/// let db = Connection::open()?;
/// db.execute("TABLE seat (place TEXT KEY)", ())?;
/// db.execute("INSERT seat (?)", params![Seat { row: 'A', number: 12 }])?;
/// assert_eq!(db.query_row("SCAN seat", (), |row| row.get::<String>("place"))?, "A12");
/// # Ok(())
/// # }
/// ```
pub trait ToValue {
    /// Returns the value. Fails with [`Error::NumberOutOfRange`] or [`Error::Other`] if there is none.
    fn to_value(&self) -> Result<ToValueOutput<'_>>;
}

macro_rules! to_value_of_pointers {
    ($($pointer:ty)*) => {$(
        impl<T: ToValue + ?Sized> ToValue for $pointer {
            #[inline]
            fn to_value(&self) -> Result<ToValueOutput<'_>> {
                (**self).to_value()
            }
        }
    )*};
}

to_value_of_pointers! { &T Box<T> Rc<T> Arc<T> }

macro_rules! to_value_of_small_integers {
    ($($integer:ty)*) => {$(
        impl ToValue for $integer {
            #[inline]
            fn to_value(&self) -> Result<ToValueOutput<'_>> {
                Ok(ToValueOutput::from(i64::from(*self)))
            }
        }
    )*};
}

macro_rules! to_value_of_great_integers {
    ($($integer:ty)*) => {$(
        /// `NumberOutOfRange` if it does not fit in 64 bits with a sign.
        impl ToValue for $integer {
            fn to_value(&self) -> Result<ToValueOutput<'_>> {
                i64::try_from(*self).map(ToValueOutput::from).map_err(|_| Error::NumberOutOfRange)
            }
        }
    )*};
}

to_value_of_small_integers! { i8 i16 i32 i64 u8 u16 u32 }
to_value_of_great_integers! { i128 isize u64 u128 usize }

/// 0 or 1.
impl ToValue for bool {
    #[inline]
    fn to_value(&self) -> Result<ToValueOutput<'_>> {
        Ok(ToValueOutput::from(i64::from(*self)))
    }
}

impl ToValue for str {
    #[inline]
    fn to_value(&self) -> Result<ToValueOutput<'_>> {
        Ok(ToValueOutput::from(self))
    }
}

impl ToValue for String {
    #[inline]
    fn to_value(&self) -> Result<ToValueOutput<'_>> {
        self.as_str().to_value()
    }
}

impl ToValue for char {
    fn to_value(&self) -> Result<ToValueOutput<'_>> {
        Ok(ToValueOutput::Char(EncodedChar::from(*self)))
    }
}

/// A text of any bytes but the line feed.
impl ToValue for [u8] {
    #[inline]
    fn to_value(&self) -> Result<ToValueOutput<'_>> {
        Ok(ToValueOutput::from(self))
    }
}

/// A text of any bytes but the line feed.
impl<const N: usize> ToValue for [u8; N] {
    #[inline]
    fn to_value(&self) -> Result<ToValueOutput<'_>> {
        self.as_slice().to_value()
    }
}

/// A text of any bytes but the line feed.
impl ToValue for Vec<u8> {
    #[inline]
    fn to_value(&self) -> Result<ToValueOutput<'_>> {
        self.as_slice().to_value()
    }
}

impl<T: ToOwned + ToValue + ?Sized> ToValue for Cow<'_, T> {
    #[inline]
    fn to_value(&self) -> Result<ToValueOutput<'_>> {
        self.as_ref().to_value()
    }
}

impl ToValue for Value {
    #[inline]
    fn to_value(&self) -> Result<ToValueOutput<'_>> {
        Ok(ToValueOutput::from(self))
    }
}

impl ToValue for ValueRef<'_> {
    #[inline]
    fn to_value(&self) -> Result<ToValueOutput<'_>> {
        Ok(ToValueOutput::from(*self))
    }
}

/// A type that is made from a value of the database. `'a` is the lifetime of the row that contains the value.
///
/// If a copy of a text cannot be allocated, the conversion fails with `Memory`. `Rc` and `Arc` are exceptions: the standard library has no
/// constructor for them that can fail, so a failed allocation ends the process.
///
/// ```
/// use mmdb::{Connection, FromValue, FromValueError, Result, ValueRef};
///
/// #[derive(Debug, PartialEq)]
/// enum State {
///     Free,
///     Taken,
/// }
///
/// impl FromValue<'_> for State {
///     fn from_value(value: ValueRef<'_>) -> Result<Self, FromValueError> {
///         match value.as_i64()? {
///             0 => Ok(State::Free),
///             1 => Ok(State::Taken),
///             number => Err(FromValueError::OutOfRange(number)),
///         }
///     }
/// }
///
/// # fn main() -> Result<()> {
/// let db = Connection::open()?;
/// db.execute_batch("TABLE seat (id INT KEY, taken INT)\nINSERT seat (1, 1)")?;
/// assert_eq!(db.query_row("SCAN seat", (), |row| row.get::<State>("taken"))?, State::Taken);
/// # Ok(())
/// # }
/// ```
pub trait FromValue<'a>: Sized {
    /// Makes the type from a value.
    fn from_value(value: ValueRef<'a>) -> Result<Self, FromValueError>;
}

impl FromValue<'_> for i64 {
    #[inline]
    fn from_value(value: ValueRef<'_>) -> Result<Self, FromValueError> {
        value.as_i64()
    }
}

macro_rules! from_value_of_integers {
    ($($integer:ty)*) => {$(
        /// `OutOfRange` if the type has no such number.
        impl FromValue<'_> for $integer {
            #[inline]
            fn from_value(value: ValueRef<'_>) -> Result<Self, FromValueError> {
                let number = value.as_i64()?;
                <$integer>::try_from(number).map_err(|_| FromValueError::OutOfRange(number))
            }
        }
    )*};
}

from_value_of_integers! { i8 i16 i32 i128 isize u8 u16 u32 u64 u128 usize }

/// `OutOfRange` of a number other than 0 and 1.
impl FromValue<'_> for bool {
    fn from_value(value: ValueRef<'_>) -> Result<Self, FromValueError> {
        match value.as_i64()? {
            0 => Ok(false),
            1 => Ok(true),
            number => Err(FromValueError::OutOfRange(number)),
        }
    }
}

impl<'a> FromValue<'a> for &'a str {
    fn from_value(value: ValueRef<'a>) -> Result<Self, FromValueError> {
        value.as_str()
    }
}

impl FromValue<'_> for String {
    fn from_value(value: ValueRef<'_>) -> Result<Self, FromValueError> {
        let text = value.as_str()?;
        let mut copy = String::new();
        copy.try_reserve_exact(text.len()).map_err(|_| FromValueError::Memory)?;
        copy.push_str(text);
        Ok(copy)
    }
}

/// `WrongLength` unless the text is exactly one character.
impl FromValue<'_> for char {
    fn from_value(value: ValueRef<'_>) -> Result<Self, FromValueError> {
        let text = value.as_str()?;
        let mut characters = text.chars();
        match (characters.next(), characters.next()) {
            (Some(character), None) => Ok(character),
            _ => Err(FromValueError::WrongLength { found: text.chars().count(), wanted: 1 }),
        }
    }
}

/// The bytes of a text.
impl<'a> FromValue<'a> for &'a [u8] {
    fn from_value(value: ValueRef<'a>) -> Result<Self, FromValueError> {
        value.as_bytes()
    }
}

/// The bytes of a text. `WrongLength` unless it has exactly `N` bytes.
impl<const N: usize> FromValue<'_> for [u8; N] {
    fn from_value(value: ValueRef<'_>) -> Result<Self, FromValueError> {
        let bytes = value.as_bytes()?;
        bytes.try_into().map_err(|_| FromValueError::WrongLength { found: bytes.len(), wanted: N })
    }
}

/// The bytes of a text.
impl FromValue<'_> for Vec<u8> {
    fn from_value(value: ValueRef<'_>) -> Result<Self, FromValueError> {
        let bytes = value.as_bytes()?;
        let mut copy = Vec::new();
        copy.try_reserve_exact(bytes.len()).map_err(|_| FromValueError::Memory)?;
        copy.extend_from_slice(bytes);
        Ok(copy)
    }
}

impl FromValue<'_> for Box<str> {
    fn from_value(value: ValueRef<'_>) -> Result<Self, FromValueError> {
        String::from_value(value).map(String::into_boxed_str)
    }
}

impl FromValue<'_> for Box<[u8]> {
    fn from_value(value: ValueRef<'_>) -> Result<Self, FromValueError> {
        Vec::from_value(value).map(Vec::into_boxed_slice)
    }
}

/// Borrowed from the row.
impl<'a> FromValue<'a> for Cow<'a, str> {
    fn from_value(value: ValueRef<'a>) -> Result<Self, FromValueError> {
        value.as_str().map(Cow::Borrowed)
    }
}

/// Borrowed from the row.
impl<'a> FromValue<'a> for Cow<'a, [u8]> {
    fn from_value(value: ValueRef<'a>) -> Result<Self, FromValueError> {
        value.as_bytes().map(Cow::Borrowed)
    }
}

macro_rules! from_value_of_shared_texts {
    ($($shared:ty = $part:ident;)*) => {$(
        impl FromValue<'_> for $shared {
            fn from_value(value: ValueRef<'_>) -> Result<Self, FromValueError> {
                value.$part().map(Self::from)
            }
        }
    )*};
}

from_value_of_shared_texts! {
    Rc<str> = as_str;
    Arc<str> = as_str;
    Rc<[u8]> = as_bytes;
    Arc<[u8]> = as_bytes;
}

impl FromValue<'_> for Value {
    fn from_value(value: ValueRef<'_>) -> Result<Self, FromValueError> {
        Ok(match value {
            ValueRef::Int(number) => Value::Int(number),
            ValueRef::Text(_) => Value::Text(Vec::from_value(value)?),
        })
    }
}

impl<'a> FromValue<'a> for ValueRef<'a> {
    fn from_value(value: ValueRef<'a>) -> Result<Self, FromValueError> {
        Ok(value)
    }
}
