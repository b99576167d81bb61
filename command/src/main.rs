//! The command `cfu`: makes, shows, cuts and tries bundles at the desk (docs/COMMAND.md). The check, the writer, the judgement of an image's bytes and both
//! ends of an update are the proved functions of `cfu_updater`; the rest is its own.
#![deny(unsafe_code)]

mod args;
mod bundle;
mod bus;
mod device;
mod failure;
mod files;
mod help;
mod inspect;
mod join;
mod json;
mod judge;
mod make;
mod manifest;
mod output;
mod prepare;
mod session;
mod shown;
mod split;
mod update;
mod values;

use std::ffi::OsString;
use std::io::{self, Write};
use std::process::ExitCode;

use crate::failure::{text, words_of, Failure, Status};
use crate::output::Output;

/// A verb: its name, its help, and what it does with the words behind it.
struct Verb {
    name: &'static str,
    help: fn() -> String,
    run: fn(&[OsString], &mut Output) -> Result<Status, Failure>,
}

/// Every verb.
const VERBS: [Verb; 5] = [
    Verb { name: "inspect", help: help::inspect, run: inspect::run },
    Verb { name: "make", help: help::make, run: make::run },
    Verb { name: "split", help: help::split, run: split::run },
    Verb { name: "join", help: help::join, run: join::run },
    Verb { name: "update", help: help::update, run: update::run },
];

/// Carries out the words behind the verb.
fn run_verb(verb: &Verb, words: &[OsString], out: &mut Output) -> Result<Status, Failure> {
    if args::asks_for_help(words) {
        out.put((verb.help)());
        return Ok(Status::Fine);
    }
    (verb.run)(words, out)
}

/// Carries out a command line that does not begin with a verb.
fn run_plain(word: Option<&OsString>, out: &mut Output) -> Result<Status, Failure> {
    match word {
        Some(word) if args::is_help(word) => out.put(help::all()),
        Some(word) if word == "--version" => out.put(concat!(env!("CARGO_PKG_NAME"), " ", env!("CARGO_PKG_VERSION"), "\n")),
        Some(word) if args::is_option(word) => return Err(Failure::Wrong(text(&[word, &": no such option"]))),
        Some(word) => return Err(Failure::Wrong(text(&[word, &": no such verb"]))),
        None => return Err(Failure::Wrong("no verb".into())),
    }
    Ok(Status::Fine)
}

/// Prints a message to standard error. Where that fails nobody can be told.
fn say(command: &str, message: &OsString) {
    let line = text(&[&command, &": ", message, &"\n"]);
    let _ = io::stderr().write_all(line.as_encoded_bytes());
}

/// Prints what a failure says, and gives its status.
fn tell(command: &str, failure: &Failure) -> Status {
    match failure {
        Failure::Wrong(message) => say(command, &text(&[message, &format!(" ({command} --help)")])),
        Failure::Refused(messages) => messages.iter().for_each(|message| say(command, message)),
        Failure::File(name, error) => say(command, &text(&[name, &": ", &words_of(error)])),
    }
    failure.status()
}

/// Carries out the command line, and ends with its status; lost output comes before what else was found.
fn main() -> ExitCode {
    let words: Vec<OsString> = std::env::args_os().skip(1).collect();
    let mut out = Output::new();
    let verb = VERBS.iter().find(|verb| words.first().is_some_and(|word| word == verb.name));
    let command = verb.map_or("cfu".to_string(), |verb| format!("cfu {}", verb.name));
    let done = match verb {
        Some(verb) => run_verb(verb, &words[1..], &mut out),
        None => run_plain(words.first(), &mut out),
    };
    let lost = out.finish();
    let mut status = done.unwrap_or_else(|failure| tell(&command, &failure));
    if let Err(error) = lost {
        status = tell(&command, &Failure::File("standard output".into(), error));
    }
    ExitCode::from(status as u8)
}
