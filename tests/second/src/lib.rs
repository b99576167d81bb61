//! A second implementation of the updater, written from document 01 as
//! amended by A1 to A5 of document 02, and from these alone. It is made to be
//! read next to them: the modules follow document 01's headings and A3's, the
//! functions their rows, and each names the row it stands for.
#![forbid(unsafe_code)]

pub mod bundle;
pub mod crc;
pub mod device;
pub mod host;
pub mod maker;
pub mod packets;
pub mod refusal;
pub mod run;
pub mod script;
pub mod version;

#[cfg(test)]
mod examples;
