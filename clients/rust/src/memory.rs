//! Copies that fail if memory is short. The standard library's `to_owned`, `format!` and `collect` end the process instead.

use crate::error::{Error, Result};

/// Returns a copy of a text. `Refused(Memory)` if the allocation fails.
pub(crate) fn string(text: &str) -> Result<String> {
    joined(&[text])
}

/// Returns the concatenation of texts. `Refused(Memory)` if the allocation fails.
pub(crate) fn joined(parts: &[&str]) -> Result<String> {
    let mut whole = String::new();
    whole.try_reserve_exact(parts.iter().map(|part| part.len()).sum()).map_err(|_| Error::MEMORY)?;
    parts.iter().for_each(|part| whole.push_str(part));
    Ok(whole)
}

/// Collects items until the first error. `Refused(Memory)` if an allocation fails.
pub(crate) fn collected<T>(items: impl Iterator<Item = Result<T>>) -> Result<Vec<T>> {
    let mut all = Vec::new();
    reserve(&mut all, items.size_hint().0)?;
    for item in items {
        let item = item?;
        reserve(&mut all, 1)?;
        all.push(item);
    }
    Ok(all)
}

/// Makes room for more items. `Refused(Memory)` if the allocation fails.
#[inline]
pub(crate) fn reserve<T>(items: &mut Vec<T>, more: usize) -> Result<()> {
    items.try_reserve(more).map_err(|_| Error::MEMORY)
}

/// Makes a vector have at least this many items. `Refused(Memory)` if the allocation fails.
pub(crate) fn grow<T: Copy>(items: &mut Vec<T>, length: usize, item: T) -> Result<()> {
    if items.len() < length {
        items.try_reserve_exact(length - items.len()).map_err(|_| Error::MEMORY)?;
        items.resize(length, item);
    }
    Ok(())
}
