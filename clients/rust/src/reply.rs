//! The rows of a reply in the program's own memory.

use crate::error::Result;
use crate::memory;
use crate::raw::Cell;
use crate::value::ValueRef;

/// A value: a number, or the position of a text among the bytes of all texts.
#[derive(Clone, Copy, Debug)]
pub(crate) enum PackedValue {
    Number(i64),
    Text { start: usize, length: u8 },
}

impl PackedValue {
    #[inline]
    pub(crate) fn value(self, texts: &[u8]) -> ValueRef<'_> {
        match self {
            PackedValue::Number(number) => ValueRef::Int(number),
            PackedValue::Text { start, length } => ValueRef::Text(&texts[start..start + usize::from(length)]),
        }
    }
}

/// The values of rows, row after row. They need a fifth of the memory of cells.
#[derive(Debug, Default)]
pub(crate) struct Reply {
    values: Vec<PackedValue>,
    texts: Vec<u8>,
}

impl Reply {
    #[inline]
    pub(crate) fn values(&self) -> &[PackedValue] {
        &self.values
    }

    #[inline]
    pub(crate) fn texts(&self) -> &[u8] {
        &self.texts
    }

    /// Removes all values. The capacity stays.
    #[inline]
    pub(crate) fn clear(&mut self) {
        self.values.clear();
        self.texts.clear();
    }

    /// The number of values and bytes of texts that fit without an allocation.
    pub(crate) fn capacity(&self) -> usize {
        self.values.capacity() + self.texts.capacity()
    }

    /// Makes room for exactly this many more values. `Refused(Memory)` if the allocation fails.
    pub(crate) fn reserve(&mut self, more: usize) -> Result<()> {
        self.values.try_reserve_exact(more).map_err(|_| crate::Error::MEMORY)
    }

    /// Appends the values of cells. `Refused(Memory)` if an allocation fails; some values may then have been appended.
    #[inline]
    pub(crate) fn push(&mut self, cells: &[Cell]) -> Result<()> {
        memory::reserve(&mut self.values, cells.len())?;
        for cell in cells {
            let value = match cell.number() {
                Some(number) => PackedValue::Number(number),
                None => {
                    let (start, text) = (self.texts.len(), cell.text());
                    memory::reserve(&mut self.texts, text.len())?;
                    self.texts.extend_from_slice(text);
                    PackedValue::Text { start, length: text.len() as u8 }
                }
            };
            self.values.push(value);
        }
        Ok(())
    }
}
