//! How a verb ends: its status, and what it says where it fails.
use std::ffi::{OsStr, OsString};
use std::io;

/// The status of the command.
#[derive(Clone, Copy)]
pub enum Status {
    /// What was asked is so, or is done.
    Fine = 0,
    /// No: a bundle, an image, a manifest or an offer file is refused, or the update did not complete every offer.
    No = 1,
    /// The command line is wrong.
    Wrong = 2,
    /// A file cannot be read or written, or the output was lost.
    Lost = 3,
}

/// Why a verb was not carried out, as messages for standard error.
pub enum Failure {
    /// The command line is wrong.
    Wrong(OsString),
    /// What was given is refused: messages of one line each.
    Refused(Vec<OsString>),
    /// A file, as it was named, cannot be read or written.
    File(OsString, io::Error),
}

impl Failure {
    /// A refusal of one message.
    pub fn refused(message: impl Into<OsString>) -> Failure {
        Failure::Refused(vec![message.into()])
    }

    /// The status that it ends with.
    pub fn status(&self) -> Status {
        match self {
            Failure::Wrong(_) => Status::Wrong,
            Failure::Refused(_) => Status::No,
            Failure::File(..) => Status::Lost,
        }
    }
}

/// The parts one after the other. A file's name keeps its bytes, whether they are UTF-8 or not.
pub fn text(parts: &[&dyn AsRef<OsStr>]) -> OsString {
    let mut out = OsString::new();
    parts.iter().for_each(|part| out.push(part));
    out
}

/// The system's words for an error, without its number.
pub fn words_of(error: &io::Error) -> String {
    let mut words = error.to_string();
    if let Some(at) = words.rfind(" (os error ") {
        words.truncate(at);
    }
    words
}
