//! Numbers, words and lines as they stand in files and scripts, and how things are refused.

use std::ffi::OsString;
use std::fmt;
use std::io::{self, BufRead};

/// A refusal within a stream of lines; its number alone is printed.
#[derive(Clone, Copy, Debug, PartialEq, Eq)]
pub enum Refusal {
    Frame = 1,
    NoWire = 2,
    Memory = 3,
    Format = 4,
}

impl fmt::Display for Refusal {
    fn fmt(&self, f: &mut fmt::Formatter) -> fmt::Result {
        write!(f, "{}", *self as u32)
    }
}

/// What ends a program with status 1 and a line on standard error.
#[derive(Debug)]
pub enum Failure {
    /// Refusal 4, with the line where there is one.
    Refused { line: Option<usize>, reason: String },
    /// Something could not be read or written.
    Io { what: String, error: io::Error },
}

impl Failure {
    pub fn refused(reason: impl Into<String>) -> Self {
        let reason = reason.into();
        Failure::Refused { line: None, reason }
    }

    pub fn at_line(line: usize, reason: impl Into<String>) -> Self {
        let reason = reason.into();
        Failure::Refused { line: Some(line), reason }
    }

    /// For `map_err`: says what it was that failed.
    pub fn io(what: impl Into<String>) -> impl FnOnce(io::Error) -> Self {
        let what = what.into();
        move |error| Failure::Io { what, error }
    }
}

impl fmt::Display for Failure {
    fn fmt(&self, f: &mut fmt::Formatter) -> fmt::Result {
        match self {
            Failure::Refused { line: Some(line), reason } => write!(f, "4 line {line}: {reason}"),
            Failure::Refused { line: None, reason } => write!(f, "4 {reason}"),
            Failure::Io { what, error } => write!(f, "{what}: {error}"),
        }
    }
}

/// One or more decimal digits, at most 4,294,967,295; leading zeros are allowed.
pub fn number(word: &[u8]) -> Option<u32> {
    if word.is_empty() {
        return None;
    }
    word.iter().try_fold(0u32, |sum, &byte| {
        let digit = char::from(byte).to_digit(10)?;
        sum.checked_mul(10)?.checked_add(digit)
    })
}

/// The words of a line: what stands between single spaces, so two spaces make an empty word.
pub fn words(line: &[u8]) -> impl Iterator<Item = &[u8]> {
    line.split(|&byte| byte == b' ')
}

/// The lines of a whole file. The last one may lack its line feed, and behind it there is none.
pub fn lines(bytes: &[u8]) -> impl Iterator<Item = &[u8]> {
    bytes.split_inclusive(|&byte| byte == b'\n').map(|line| line.strip_suffix(b"\n").unwrap_or(line))
}

/// Hands on each line of a stream as soon as it is there.
pub fn each_line(
    mut input: impl BufRead,
    mut each: impl FnMut(&[u8]) -> Result<(), Failure>,
) -> Result<(), Failure> {
    let mut line = Vec::new();
    loop {
        line.clear();
        let read = input.read_until(b'\n', &mut line);
        if read.map_err(Failure::io("standard input"))? == 0 {
            return Ok(());
        }
        each(line.strip_suffix(b"\n").unwrap_or(&line))?;
    }
}

/// Arguments of the form `--name VALUE`, each of an allowed name and at most once.
pub struct Options(Vec<(String, OsString)>);

impl Options {
    pub fn parse(args: &[OsString], allowed: &[&str]) -> Result<Self, Failure> {
        let mut options: Vec<(String, OsString)> = Vec::new();
        for pair in args.chunks(2) {
            let name = pair[0].to_string_lossy().into_owned();
            let [_, value] = pair else {
                return Err(Failure::refused(format!("{name} has no value")));
            };
            if !allowed.contains(&name.as_str()) || options.iter().any(|(n, _)| *n == name) {
                return Err(Failure::refused(format!("{name} does not belong here")));
            }
            options.push((name, value.clone()));
        }
        Ok(Options(options))
    }

    pub fn value(&self, name: &str) -> Option<&OsString> {
        self.0.iter().find(|(n, _)| n == name).map(|(_, v)| v)
    }

    pub fn number(&self, name: &str, default: usize) -> Result<usize, Failure> {
        let Some(value) = self.value(name) else {
            return Ok(default);
        };
        number(value.as_encoded_bytes())
            .map(|n| n as usize)
            .ok_or_else(|| Failure::refused(format!("{name} wants a number")))
    }
}

#[cfg(test)]
mod tests {
    use super::*;

    #[test]
    fn numbers_are_digits_up_to_the_bound() {
        assert_eq!(number(b"4294967295"), Some(u32::MAX));
        assert_eq!(number(b"0000000000000007"), Some(7));
        for word in ["", "4294967296", "-1", "+1", "1.", " 1", "\u{661}"] {
            assert_eq!(number(word.as_bytes()), None, "{word}");
        }
    }

    #[test]
    fn no_line_stands_behind_the_last_line_feed() {
        assert_eq!(lines(b"").count(), 0);
        assert_eq!(lines(b"a\n\nb").collect::<Vec<_>>(), [&b"a"[..], b"", b"b"]);
        assert_eq!(lines(b"a\n").count(), 1);
    }
}
