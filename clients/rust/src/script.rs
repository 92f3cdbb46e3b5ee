//! Scripts: commands one after another, each on one line or more.
//!
//! The library determines where a command ends: a command goes on with the next line if both together can be read beyond the beginning of
//! that line. Empty lines and comments are commands of their own.

use crate::connection::Connection;
use crate::error::{Cause, Error, Refusal, Result};
use crate::statement::Statement;

/// A script, and how far it was read.
pub(crate) struct Script<'c, 's> {
    connection: &'c Connection,
    text: &'s str,
    /// The offset of the first line that was not read, or `None` at the end.
    at: Option<usize>,
    /// The number of lines that were read.
    lines: usize,
}

/// Bytes of a script that were read as a command.
struct Command<'c, 's> {
    text: &'s str,
    begin: usize,
    /// The number of the first line, counted from 1.
    line: usize,
    statement: Result<Statement<'c>>,
    /// The offset in the text where reading stopped, if this is a syntax error.
    stopped: usize,
}

impl<'c, 's> Script<'c, 's> {
    pub(crate) fn new(connection: &'c Connection, text: &'s str) -> Script<'c, 's> {
        Script { connection, text, at: Some(0), lines: 0 }
    }

    /// Executes the commands up to the first one that fails, of which `InLine` has the line.
    pub(crate) fn execute(mut self) -> Result<()> {
        let mut next = self.read_line();
        while let Some(mut command) = next {
            next = self.read_rest(&mut command);
            let line = command.line;
            let executed = command.statement.and_then(|mut statement| statement.execute_in_script());
            executed.map_err(|error| Error::InLine { line, error: Cause::new(error) })?;
        }
        Ok(())
    }

    /// Reads the next line as a command. `None` at the end.
    fn read_line(&mut self) -> Option<Command<'c, 's>> {
        let begin = self.at?;
        let length = self.text[begin..].find('\n');
        self.at = length.map(|length| begin + length + 1);
        self.lines += 1;
        let end = length.map_or(self.text.len(), |length| begin + length);
        Some(self.command(begin, end, self.lines))
    }

    fn command(&self, begin: usize, end: usize, line: usize) -> Command<'c, 's> {
        let text = &self.text[begin..end];
        let text = text.strip_suffix('\r').unwrap_or(text);
        let statement = self.connection.prepare_once(text);
        let stopped = match &statement {
            Err(Error::Refused(Refusal::Syntax)) => self.connection.place_of_refusal(text, Refusal::Syntax),
            _ => 0,
        };
        Command { text, begin, line, statement, stopped }
    }

    /// Appends the lines with which a command goes on. Returns the line after them.
    fn read_rest(&mut self, command: &mut Command<'c, 's>) -> Option<Command<'c, 's>> {
        loop {
            let next = self.read_line()?;
            match self.joined(command, &next) {
                Some(joined) => *command = joined,
                None => return Some(next),
            }
        }
    }

    /// Returns the command with one more line, or `None` if it does not go on with this line.
    fn joined(&self, command: &Command<'c, 's>, next: &Command<'c, 's>) -> Option<Command<'c, 's>> {
        // A command that can be read does not go on with another one.
        let are_two = command.statement.is_ok() && next.statement.is_ok();
        // No further line makes it shorter, and each one would copy it again.
        let is_too_long = matches!(&command.statement, Err(Error::Refused(Refusal::LineTooLong)));
        if are_two || is_too_long || command.is_empty() || next.is_empty() {
            return None;
        }
        let joined = self.command(command.begin, next.begin + next.text.len(), command.line);
        let goes_on = match &joined.statement {
            Err(Error::Refused(Refusal::Syntax)) => {
                joined.stopped > next.begin - command.begin + leading_blanks(next.text)
            }
            Err(Error::Refused(Refusal::LineTooLong)) => command.statement.is_err(),
            _ => true,
        };
        goes_on.then_some(joined)
    }
}

impl Command<'_, '_> {
    /// Returns whether this is an empty line or a comment.
    fn is_empty(&self) -> bool {
        matches!(&self.statement, Ok(statement) if statement.is_nothing())
    }
}

fn leading_blanks(text: &str) -> usize {
    text.bytes().take_while(|byte| matches!(byte, b' ' | b'\t')).count()
}
