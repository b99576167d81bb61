//! Files: read with a bound, and written whole or not at all.
use std::ffi::OsStr;
use std::fs::{self, File, Permissions};
use std::io::{self, ErrorKind, Read, Write};
use std::path::{Path, PathBuf};
use std::process;

use crate::failure::{text, Failure};
use crate::output::standard_input;

/// The name that stands for standard input, and for no file that is written.
const STANDARD: &str = "-";

/// The name stands for standard input.
pub fn is_input(name: &OsStr) -> bool {
    name == STANDARD
}

/// Refuses `-` as a file that is written.
pub fn may_be_written(name: &OsStr) -> Result<(), Failure> {
    if name == STANDARD {
        return Err(Failure::Wrong(text(&[&name, &": standard output is no file to write"])));
    }
    Ok(())
}

/// Refuses a file that is written where it is also one of those that are read. One that is not there yet is none of them.
pub fn is_not_read<T: AsRef<Path>>(name: &OsStr, read: impl IntoIterator<Item = T>) -> Result<(), Failure> {
    let Ok(written) = fs::canonicalize(name) else {
        return Ok(());
    };
    if read.into_iter().any(|path| fs::canonicalize(path).is_ok_and(|path| path == written)) {
        return Err(Failure::Wrong(text(&[&name, &" is also read"])));
    }
    Ok(())
}

/// A failure with the file's name.
fn failed(name: &OsStr) -> impl Fn(io::Error) -> Failure + '_ {
    move |error| Failure::File(name.to_os_string(), error)
}

/// Up to one byte over the limit, which shows that there are too many.
fn bounded(file: File, limit: usize) -> io::Result<Vec<u8>> {
    let mut bytes = Vec::new();
    file.take(limit as u64 + 1).read_to_end(&mut bytes)?;
    Ok(bytes)
}

/// Reads a file.
pub fn read(name: &OsStr, limit: usize) -> Result<Vec<u8>, Failure> {
    File::open(name).and_then(|file| bounded(file, limit)).map_err(failed(name))
}

/// Reads a file, or standard input where that is named.
pub fn read_or_input(name: &OsStr, limit: usize) -> Result<Vec<u8>, Failure> {
    if is_input(name) {
        standard_input().and_then(|file| bounded(file, limit)).map_err(failed(called(name)))
    } else {
        read(name, limit)
    }
}

/// What a file is called in a line.
pub fn called(name: &OsStr) -> &OsStr {
    if is_input(name) {
        OsStr::new("standard input")
    } else {
        name
    }
}

/// Makes a folder and those above it, where they are missing. The look behind it refuses an empty name.
pub fn make_folder(name: &OsStr) -> Result<(), Failure> {
    fs::create_dir_all(name).and_then(|()| fs::metadata(name)).map(|_| ()).map_err(failed(name))
}

/// Writes a file. What is no regular file is written to as it is; otherwise an older file stays until the new one is complete.
pub fn write(name: &OsStr, bytes: &[u8]) -> Result<(), Failure> {
    let path = Path::new(name);
    let done = match fs::metadata(path) {
        Ok(older) if !older.is_file() => File::options().write(true).open(path).and_then(|mut file| file.write_all(bytes)),
        Ok(older) => fs::canonicalize(path).and_then(|target| replace(&target, bytes, Some(older.permissions()))), // a link stays a link
        Err(_) => replace(path, bytes, None),
    };
    done.map_err(failed(name))
}

/// Opens a new file in a folder, under a name that no file there has.
fn open_new(folder: &Path) -> io::Result<(PathBuf, File)> {
    let mut number = 0;
    loop {
        let path = folder.join(format!(".cfu-{}-{number}.new", process::id()));
        match File::create_new(&path) {
            Err(error) if error.kind() == ErrorKind::AlreadyExists => number += 1,
            opened => return opened.map(|file| (path, file)),
        }
    }
}

/// Writes a new file beside the old one, with the old one's permissions, and puts it in its place. Where that fails the new one goes.
fn replace(path: &Path, bytes: &[u8], permissions: Option<Permissions>) -> io::Result<()> {
    let (new, mut file) = open_new(path.parent().unwrap_or(Path::new("")))?;
    let kept = permissions.map_or(Ok(()), |permissions| file.set_permissions(permissions));
    let done = kept.and_then(|()| file.write_all(bytes)).and_then(|()| file.sync_all()).and_then(|()| fs::rename(&new, path));
    if done.is_err() {
        let _ = fs::remove_file(&new);
    }
    done
}
