//! Lines and names as a program passes them.

use crate::error::{Error, Refusal, Result};
use crate::raw::NAME_BYTES;
use std::borrow::Cow;

/// Returns a line with a space for each line feed outside a text, and for a carriage return before it. Offsets stay the same.
///
/// - `CommentHasLineFeed` if the line is a comment, since what follows its line feed would be ignored
/// - `Refused(Memory)`
pub(crate) fn one_line(line: &str) -> Result<Cow<'_, [u8]>> {
    if !line.contains('\n') {
        return Ok(Cow::Borrowed(line.as_bytes()));
    }
    if line.starts_with("--") {
        return Err(Error::CommentHasLineFeed);
    }
    let mut bytes = Vec::new();
    bytes.try_reserve_exact(line.len()).map_err(|_| Error::MEMORY)?;
    let mut is_in_text = false;
    for &byte in line.as_bytes() {
        match byte {
            b'\'' => is_in_text = !is_in_text,
            b'\n' if !is_in_text => {
                if let Some(last @ b'\r') = bytes.last_mut() {
                    *last = b' ';
                }
                bytes.push(b' ');
                continue;
            }
            _ => {}
        }
        bytes.push(byte);
    }
    Ok(Cow::Owned(bytes))
}

/// A word that can be a name in a line. A line that contains it has no other meaning than it should: the library accepts or refuses the
/// word.
#[derive(Clone, Copy, PartialEq)]
pub(crate) struct Name {
    bytes: [u8; NAME_BYTES],
    length: usize,
}

impl Name {
    /// `Refused(Syntax)` if the text is not one word of 1 to 32 bytes.
    pub(crate) fn new(name: &str) -> Result<Name> {
        let is_word = name.bytes().all(|byte| byte.is_ascii_alphanumeric() || byte == b'_');
        if name.is_empty() || name.len() > NAME_BYTES || !is_word {
            return Err(Error::Refused(Refusal::Syntax));
        }
        let mut bytes = [0; NAME_BYTES];
        bytes[..name.len()].copy_from_slice(name.as_bytes());
        Ok(Name { bytes, length: name.len() })
    }

    pub(crate) fn as_bytes(&self) -> &[u8] {
        &self.bytes[..self.length]
    }

    pub(crate) fn as_str(&self) -> &str {
        std::str::from_utf8(self.as_bytes()).unwrap_or_default()
    }
}

impl std::fmt::Debug for Name {
    fn fmt(&self, f: &mut std::fmt::Formatter<'_>) -> std::fmt::Result {
        self.as_str().fmt(f)
    }
}

#[cfg(test)]
mod tests {
    use super::{one_line, Name};
    use crate::Error;
    use std::borrow::Cow;

    #[test]
    fn line_feeds_outside_texts_become_spaces() {
        for (line, expected) in [
            ("SCAN t", "SCAN t"),
            ("SCAN\nt\n", "SCAN t "),
            ("SCAN\r\nt\r", "SCAN  t\r"),
            ("INSERT t\n('a\nb',\n'it''s\r\n', '')\n", "INSERT t ('a\nb', 'it''s\r\n', '') "),
            ("\n-- no comment", " -- no comment"),
            ("-- a comment", "-- a comment"),
        ] {
            assert_eq!(one_line(line).unwrap(), expected.as_bytes(), "{line:?}");
        }
        assert!(matches!(one_line("SCAN t"), Ok(Cow::Borrowed(_))));
        assert!(matches!(one_line("-- a\nSCAN t"), Err(Error::CommentHasLineFeed)));
    }

    #[test]
    fn names_are_one_word() {
        let longest = "n".repeat(32);
        for name in ["a", "a_1", "TABLE", "1", "_", &longest] {
            assert_eq!(Name::new(name).unwrap().as_str(), name);
        }
        for name in ["", " a", "a ", "a b", "a\n", "a;", "ä", &"n".repeat(33)] {
            assert_eq!(Name::new(name).unwrap_err().number(), Some(11), "{name:?}");
        }
    }
}
