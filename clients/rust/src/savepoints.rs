//! Which savepoints are set.
//!
//! The library knows savepoints by their names, of which several may be equal. A [`Savepoint`](crate::Savepoint) has to know whether its own
//! one is still set, and whether a later one hides it. So a connection keeps the list that the library has.

use crate::error::{Error, Result};
use crate::line::Name;

/// The number of savepoints that a transaction has at most, a limit of the language.
const MOST_SAVEPOINTS: usize = 64;

/// What a successful line does to the savepoints.
#[derive(Clone, Copy, Debug, Default)]
pub(crate) enum Effect {
    #[default]
    Nothing,
    /// `SAVEPOINT`
    Set(Name),
    /// `ROLLBACK TO`
    RollbackTo(Name),
    /// `BEGIN`, `COMMIT` or `ROLLBACK`
    Clear,
}

impl Effect {
    /// Returns the effect of a line that the library accepts. Of any other line, the result means nothing.
    pub(crate) fn of(line: &[u8]) -> Effect {
        let mut words = line.split(u8::is_ascii_whitespace).filter(|word| !word.is_empty());
        let name = |word: Option<&[u8]>| word.and_then(|word| Name::new(std::str::from_utf8(word).ok()?).ok());
        match words.next() {
            Some(b"SAVEPOINT") => name(words.next()).map_or(Effect::Nothing, Effect::Set),
            Some(b"ROLLBACK") => match words.next() {
                Some(b"TO") => name(words.next()).map_or(Effect::Nothing, Effect::RollbackTo),
                _ => Effect::Clear,
            },
            Some(b"BEGIN" | b"COMMIT") => Effect::Clear,
            _ => Effect::Nothing,
        }
    }
}

/// The savepoints that are set, the oldest first, each with a number that no other one had.
#[derive(Debug)]
pub(crate) struct Savepoints {
    set: Vec<(Name, u64)>,
    newest: u64,
}

impl Savepoints {
    /// `Refused(Memory)`. Later calls allocate nothing.
    pub(crate) fn new() -> Result<Savepoints> {
        let mut set = Vec::new();
        set.try_reserve_exact(MOST_SAVEPOINTS).map_err(|_| Error::MEMORY)?;
        Ok(Savepoints { set, newest: 0 })
    }

    pub(crate) fn follow(&mut self, effect: Effect) {
        match effect {
            Effect::Nothing => {}
            Effect::Set(name) => {
                self.newest += 1;
                self.set.push((name, self.newest));
            }
            Effect::RollbackTo(name) => {
                if let Some((place, _)) = self.latest(name) {
                    self.set.truncate(place + 1);
                }
            }
            Effect::Clear => self.set.clear(),
        }
    }

    /// Drops the latest savepoint with a name and all later ones, as a release does.
    pub(crate) fn release(&mut self, name: Name) {
        if let Some((place, _)) = self.latest(name) {
            self.set.truncate(place);
        }
    }

    /// Returns the number of the savepoint that was set last.
    pub(crate) fn newest(&self) -> u64 {
        self.newest
    }

    pub(crate) fn contains(&self, number: u64) -> bool {
        self.set.iter().any(|savepoint| savepoint.1 == number)
    }

    /// Returns the position and the number of the latest savepoint with a name.
    pub(crate) fn latest(&self, name: Name) -> Option<(usize, u64)> {
        let place = self.set.iter().rposition(|savepoint| savepoint.0 == name)?;
        Some((place, self.set[place].1))
    }
}

#[cfg(test)]
mod tests {
    use super::{Effect, Savepoints};
    use crate::line::Name;

    fn name(word: &str) -> Name {
        Name::new(word).unwrap()
    }

    #[test]
    fn lines_set_savepoints_and_drop_later_ones() {
        let mut savepoints = Savepoints::new().unwrap();
        for line in ["BEGIN", "SAVEPOINT a", " SAVEPOINT\tb ", "SAVEPOINT a", "INSERT t (1)"] {
            savepoints.follow(Effect::of(line.as_bytes()));
        }
        assert_eq!((savepoints.newest(), savepoints.latest(name("a"))), (3, Some((2, 3))));
        savepoints.follow(Effect::of(b"ROLLBACK  TO b"));
        assert_eq!(savepoints.latest(name("a")), Some((0, 1)));
        assert!(savepoints.contains(2) && !savepoints.contains(3));
        savepoints.release(name("a"));
        assert!(!savepoints.contains(1) && !savepoints.contains(2));
        savepoints.follow(Effect::of(b"SAVEPOINT c"));
        savepoints.follow(Effect::of(b"ROLLBACK"));
        assert!(!savepoints.contains(4) && savepoints.newest() == 4);
    }
}
