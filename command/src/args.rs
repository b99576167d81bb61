//! The words behind a verb: options, which may stand anywhere, and arguments.
use std::ffi::{OsStr, OsString};
#[cfg(unix)]
use std::os::unix::ffi::OsStrExt;

use crate::failure::{text, Failure};

/// An option that a verb knows.
pub enum Known {
    /// One without a value.
    Flag(&'static str),
    /// One with a value.
    Valued(&'static str),
}

impl Known {
    /// The option's name, with its dashes.
    fn name(&self) -> &'static str {
        match self {
            Known::Flag(name) | Known::Valued(name) => name,
        }
    }
}

/// What ends the options: each word behind it is an argument.
const END: &str = "--";

/// The options with their values, in their order, and the arguments.
pub struct Line {
    options: Vec<(&'static str, OsString)>,
    /// The words that are no options.
    pub arguments: Vec<OsString>,
}

/// `--help`, or `-h`.
pub fn is_help(word: &OsStr) -> bool {
    word == "--help" || word == "-h"
}

/// `--help` stands among the options.
pub fn asks_for_help(words: &[OsString]) -> bool {
    words.iter().take_while(|word| *word != END).any(|word| is_help(word))
}

/// The word is an option: it begins with `-` and is not `-` alone, which is standard input.
pub fn is_option(word: &OsStr) -> bool {
    word.len() > 1 && word.as_encoded_bytes().starts_with(b"-")
}

/// The text before and behind the first such mark, in a word of any bytes.
#[cfg(unix)]
pub fn cut_at(word: &OsStr, mark: u8) -> Option<(&OsStr, &OsStr)> {
    let bytes = word.as_bytes();
    let at = bytes.iter().position(|byte| *byte == mark)?;
    Some((OsStr::from_bytes(&bytes[..at]), OsStr::from_bytes(&bytes[at + 1..])))
}

/// The same where a word cannot be cut by its bytes: one that is no Unicode has no mark.
#[cfg(not(unix))]
pub fn cut_at(word: &OsStr, mark: u8) -> Option<(&OsStr, &OsStr)> {
    word.to_str()?.split_once(char::from(mark)).map(|(before, behind)| (OsStr::new(before), OsStr::new(behind)))
}

impl Line {
    /// Reads the words of a verb that knows these options.
    pub fn read(words: &[OsString], known: &[Known]) -> Result<Line, Failure> {
        let mut line = Line { options: Vec::new(), arguments: Vec::new() };
        let mut words = words.iter();
        while let Some(word) = words.next() {
            if word == END {
                line.arguments.extend(words.by_ref().cloned());
            } else if is_option(word) {
                line.take_option(word, &mut words, known)?;
            } else {
                line.arguments.push(word.clone());
            }
        }
        Ok(line)
    }

    /// Takes an option, and its value from the same word or from the next one.
    fn take_option<'a>(&mut self, word: &OsStr, rest: &mut impl Iterator<Item = &'a OsString>, known: &[Known]) -> Result<(), Failure> {
        let (name, own) = match cut_at(word, b'=') {
            Some((name, value)) => (name, Some(value)),
            None => (word, None),
        };
        let value = match (known.iter().find(|option| name == option.name()), own) {
            (None, _) => return Err(Failure::Wrong(text(&[&name, &": no such option"]))),
            (Some(Known::Flag(name)), Some(_)) => return Err(Failure::Wrong(text(&[name, &": takes no value"]))),
            (Some(Known::Flag(name)), None) => (*name, OsString::new()),
            (Some(Known::Valued(name)), Some(value)) => (*name, value.to_os_string()),
            (Some(Known::Valued(name)), None) => match rest.next() {
                Some(value) => (*name, value.clone()),
                None => return Err(Failure::Wrong(text(&[name, &": its value is missing"]))),
            },
        };
        self.options.push(value);
        Ok(())
    }

    /// Every value of an option, in their order.
    pub fn all(&self, name: &'static str) -> impl Iterator<Item = &OsStr> + '_ {
        self.options.iter().filter(move |(each, _)| *each == name).map(|(_, value)| value.as_os_str())
    }

    /// The value of an option that holds once: the last one.
    pub fn last(&self, name: &'static str) -> Option<&OsStr> {
        self.all(name).last()
    }

    /// An option is given.
    pub fn has(&self, name: &'static str) -> bool {
        self.all(name).next().is_some()
    }

    /// The value of an option, read; what it must be is told where it cannot be read.
    pub fn value<T>(&self, name: &'static str, must: &str, read: impl Fn(&str) -> Option<T>) -> Result<Option<T>, Failure> {
        self.last(name).map(|value| read_value(name, value, must, &read)).transpose()
    }

    /// As many arguments as a verb has, which are called so.
    pub fn exactly<const N: usize>(&self, names: [&str; N]) -> Result<&[OsString; N], Failure> {
        match self.arguments.get(N) {
            Some(surplus) => Err(Failure::Wrong(text(&[surplus, &": an argument too many"]))),
            None => self.arguments.as_slice().try_into().map_err(|_| missing(names[self.arguments.len()])),
        }
    }
}

/// An argument that is missing.
pub fn missing(name: &str) -> Failure {
    Failure::Wrong(format!("{name} is missing").into())
}

/// The value of an option, read.
pub fn read_value<T>(name: &str, value: &OsStr, must: &str, read: impl Fn(&str) -> Option<T>) -> Result<T, Failure> {
    value.to_str().and_then(read).ok_or_else(|| Failure::Wrong(text(&[&name, &" ", &value, &": not ", &must])))
}
