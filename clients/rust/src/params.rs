//! The values for the parameters of a statement.

use crate::error::{Error, Result};
use crate::raw::{self, Cell};
use crate::value::{ToValue, ValueRef};

/// The cells of a statement, which get their values from left to right.
pub struct Binder<'c> {
    cells: &'c mut [Cell],
    given: usize,
}

impl<'c> Binder<'c> {
    pub(crate) fn new(cells: &'c mut [Cell]) -> Binder<'c> {
        Binder { cells, given: 0 }
    }

    #[inline]
    fn push<T: ToValue + ?Sized>(&mut self, value: &T) -> Result<()> {
        if let Some(cell) = self.cells.get_mut(self.given) {
            match value.to_value()?.as_value() {
                ValueRef::Int(number) => cell.set_number(number),
                ValueRef::Text(text) => set_text(cell, text)?,
            }
        }
        self.given += 1;
        Ok(())
    }

    /// `WrongParameterCount` unless there was exactly one value for each cell.
    #[inline]
    pub(crate) fn finish(self) -> Result<()> {
        let wanted = self.cells.len();
        if self.given == wanted {
            Ok(())
        } else {
            Err(Error::WrongParameterCount { given: self.given, wanted })
        }
    }
}

fn set_text(cell: &mut Cell, text: &[u8]) -> Result<()> {
    if text.len() > raw::TEXT_BYTES {
        return Err(Error::TextTooLong(text.len()));
    }
    if text.contains(&b'\n') {
        return Err(Error::TextHasLineFeed);
    }
    cell.set_text(text);
    Ok(())
}

mod sealed {
    pub trait Sealed {}
}

/// The values for the parameters of a statement, from left to right.
///
/// - `()` for a statement without parameters
/// - an array or a slice: `[1, 2]`, `&ids[..]`
/// - a tuple of up to 16 values, which may differ in type: `(1, "ann")`
/// - [`params!`](crate::params) for any number of values, which may differ in type
/// - [`params_from_iter()`] for the items of an iterator
///
/// The trait is sealed: only this crate implements it.
pub trait Params: sealed::Sealed {
    /// Returns whether there are certainly no values.
    #[doc(hidden)]
    fn are_none(&self) -> bool {
        false
    }

    /// Writes the values to the cells of a statement.
    #[doc(hidden)]
    fn bind(self, binder: &mut Binder<'_>) -> Result<()>;
}

impl sealed::Sealed for () {}
impl Params for () {
    fn are_none(&self) -> bool {
        true
    }

    #[inline]
    fn bind(self, _: &mut Binder<'_>) -> Result<()> {
        Ok(())
    }
}

impl<T: ToValue> sealed::Sealed for &[T] {}
impl<T: ToValue> Params for &[T] {
    fn are_none(&self) -> bool {
        self.is_empty()
    }

    #[inline]
    fn bind(self, binder: &mut Binder<'_>) -> Result<()> {
        self.iter().try_for_each(|value| binder.push(value))
    }
}

impl<T: ToValue, const N: usize> sealed::Sealed for [T; N] {}
impl<T: ToValue, const N: usize> Params for [T; N] {
    #[inline]
    fn bind(self, binder: &mut Binder<'_>) -> Result<()> {
        self.as_slice().bind(binder)
    }
}

impl<T: ToValue, const N: usize> sealed::Sealed for &[T; N] {}
impl<T: ToValue, const N: usize> Params for &[T; N] {
    #[inline]
    fn bind(self, binder: &mut Binder<'_>) -> Result<()> {
        self.as_slice().bind(binder)
    }
}

macro_rules! params_of_tuples {
    ($($name:ident)*) => {
        impl<$($name: ToValue),*> sealed::Sealed for ($($name,)*) {}
        impl<$($name: ToValue),*> Params for ($($name,)*) {
            #[inline]
            #[allow(non_snake_case)]
            fn bind(self, binder: &mut Binder<'_>) -> Result<()> {
                let ($($name,)*) = self;
                $(binder.push(&$name)?;)*
                Ok(())
            }
        }
    };
}

params_of_tuples! { A }
params_of_tuples! { A B }
params_of_tuples! { A B C }
params_of_tuples! { A B C D }
params_of_tuples! { A B C D E }
params_of_tuples! { A B C D E F }
params_of_tuples! { A B C D E F G }
params_of_tuples! { A B C D E F G H }
params_of_tuples! { A B C D E F G H I }
params_of_tuples! { A B C D E F G H I J }
params_of_tuples! { A B C D E F G H I J K }
params_of_tuples! { A B C D E F G H I J K L }
params_of_tuples! { A B C D E F G H I J K L M }
params_of_tuples! { A B C D E F G H I J K L M N }
params_of_tuples! { A B C D E F G H I J K L M N O }
params_of_tuples! { A B C D E F G H I J K L M N O P }

/// The values that [`params_from_iter`] returns.
#[derive(Clone, Debug)]
pub struct ParamsFromIter<I>(I);

/// Returns the items of an iterator as values, for a statement whose number of parameters is not known when the program is compiled.
///
/// ```
/// use mmdb::{params_from_iter, Connection, Result};
///
/// # fn main() -> Result<()> {
/// let db = Connection::open()?;
/// db.execute("TABLE t (id INT KEY)", ())?;
/// let ids = vec![3, 1, 2];
/// let rows = vec!["(?)"; ids.len()].join(", ");
/// assert_eq!(db.execute(&format!("INSERT t {rows}"), params_from_iter(&ids))?, 3);
/// # Ok(())
/// # }
/// ```
pub fn params_from_iter<I>(values: I) -> ParamsFromIter<I::IntoIter>
where
    I: IntoIterator,
    I::Item: ToValue,
{
    ParamsFromIter(values.into_iter())
}

impl<I: Iterator> sealed::Sealed for ParamsFromIter<I> where I::Item: ToValue {}
impl<I: Iterator> Params for ParamsFromIter<I>
where
    I::Item: ToValue,
{
    fn bind(mut self, binder: &mut Binder<'_>) -> Result<()> {
        self.0.try_for_each(|value| binder.push(&value))
    }
}

/// Values for the parameters of a statement, which may differ in type: a slice of references.
///
/// ```
/// use mmdb::{params, Connection, Result};
///
/// # fn main() -> Result<()> {
/// let db = Connection::open()?;
/// db.execute("TABLE person (id INT KEY, name TEXT)", ())?;
/// let name = String::from("Ann");
/// db.execute("INSERT person (?, ?)", params![1, name])?;
/// # Ok(())
/// # }
/// ```
#[macro_export]
macro_rules! params {
    ($($value:expr),* $(,)?) => {
        &[$(&$value as &dyn $crate::ToValue),*] as &[&dyn $crate::ToValue]
    };
}
