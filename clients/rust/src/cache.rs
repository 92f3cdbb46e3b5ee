//! The statements that a connection keeps for [`Connection::prepare_cached`](crate::Connection::prepare_cached).

use crate::statement::Prepared;
use std::collections::VecDeque;

/// The capacity of a new cache, in statements.
const DEFAULT_CAPACITY: usize = 16;

/// Statements that are not in use, the most recently used one last.
#[derive(Debug)]
pub(crate) struct Cache {
    statements: VecDeque<Prepared>,
    capacity: usize,
}

impl Cache {
    pub(crate) fn new() -> Cache {
        Cache { statements: VecDeque::new(), capacity: DEFAULT_CAPACITY }
    }

    /// Removes the statement of a line from the cache and returns it.
    pub(crate) fn take(&mut self, line: &str) -> Option<Prepared> {
        let place = self.statements.iter().rposition(|statement| statement.line == line)?;
        self.statements.remove(place)
    }

    /// Puts a statement into the cache. Returns one to finalize: the least recently used one if the cache is full, or this one if there is
    /// another of its line or no memory.
    pub(crate) fn give_back(&mut self, mut statement: Prepared) -> Option<Prepared> {
        let is_there = self.statements.iter().any(|other| other.line == statement.line);
        if self.capacity == 0 || is_there || self.statements.try_reserve(1).is_err() {
            return Some(statement);
        }
        statement.shrink();
        self.statements.push_back(statement);
        self.surplus()
    }

    /// Sets the capacity. [`surplus`](Cache::surplus) then returns the statements beyond it.
    pub(crate) fn set_capacity(&mut self, capacity: usize) {
        self.capacity = capacity;
    }

    /// Removes and returns the least recently used statement, if there are more than the capacity.
    pub(crate) fn surplus(&mut self) -> Option<Prepared> {
        if self.statements.len() > self.capacity {
            self.statements.pop_front()
        } else {
            None
        }
    }
}
