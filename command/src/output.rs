//! Standard output, by one writer that remembers the first error; and the standard streams as they were before the start.
use std::env;
use std::ffi::OsStr;
use std::fs::File;
use std::io::{self, BufWriter, IsTerminal, Write};
#[cfg(unix)]
use std::os::fd::AsFd;
#[cfg(windows)]
use std::os::windows::io::AsHandle;

/// The standard streams that were closed before the start. Rust opens /dev/null in their place before `main`, so they are looked at before that.
mod closed {
    use std::sync::atomic::{AtomicBool, Ordering};

    /// What was seen of standard input and of standard output.
    static INPUT: AtomicBool = AtomicBool::new(false);
    static OUTPUT: AtomicBool = AtomicBool::new(false);

    /// Standard input was closed.
    pub fn input() -> bool {
        INPUT.load(Ordering::Relaxed)
    }

    /// Standard output was closed.
    pub fn output() -> bool {
        OUTPUT.load(Ordering::Relaxed)
    }

    /// What the C library calls before Rust's own start. The attribute counts as unsafe code, since what is called there must need nothing that Rust starts.
    #[cfg(target_os = "linux")]
    #[allow(unsafe_code)]
    #[used]
    #[link_section = ".init_array"]
    static LOOK: extern "C" fn() = look;

    /// Looks for the two streams. Without /proc nothing can be seen, and both count as open.
    #[cfg(target_os = "linux")]
    extern "C" fn look() {
        let is_there = |path| std::fs::symlink_metadata(path).is_ok();
        if is_there("/proc/self/fd") {
            INPUT.store(!is_there("/proc/self/fd/0"), Ordering::Relaxed);
            OUTPUT.store(!is_there("/proc/self/fd/1"), Ordering::Relaxed);
        }
    }
}

/// The number of the system's error for a stream that is not open.
const EBADF: i32 = 9;

/// A standard stream as a file. Rust's own types for the streams take what is written to a stream that is not open for written.
#[cfg(unix)]
fn file_of(stream: impl AsFd) -> io::Result<File> {
    Ok(File::from(stream.as_fd().try_clone_to_owned()?))
}

#[cfg(windows)]
fn file_of(stream: impl AsHandle) -> io::Result<File> {
    Ok(File::from(stream.as_handle().try_clone_to_owned()?))
}

/// The file, unless its stream was closed before the start.
fn unless_closed(closed: bool, file: io::Result<File>) -> io::Result<File> {
    if closed {
        return Err(io::Error::from_raw_os_error(EBADF));
    }
    file
}

/// Standard input as a file.
pub fn standard_input() -> io::Result<File> {
    unless_closed(closed::input(), file_of(io::stdin()))
}

/// Lines are plain where standard output is no terminal, where `NO_COLOR` is set to something, and where `TERM` is `dumb`.
fn is_plain() -> bool {
    !io::stdout().is_terminal()
        || env::var_os("NO_COLOR").is_some_and(|value| !value.is_empty())
        || env::var_os("TERM").is_some_and(|value| value == "dumb")
}

/// Standard output.
pub struct Output {
    /// The writer, or its first error.
    to: io::Result<BufWriter<File>>,
    /// Nothing is coloured, and no line is written over.
    plain: bool,
}

impl Output {
    /// Standard output as it was before the start.
    pub fn new() -> Output {
        Output { to: unless_closed(closed::output(), file_of(io::stdout())).map(BufWriter::new), plain: is_plain() }
    }

    /// Lines are plain.
    pub fn is_plain(&self) -> bool {
        self.plain
    }

    /// Does something with the writer, which is lost with its first error.
    fn with(&mut self, what: impl FnOnce(&mut BufWriter<File>) -> io::Result<()>) {
        if let Ok(to) = &mut self.to {
            if let Err(error) = what(to) {
                self.to = Err(error);
            }
        }
    }

    /// Prints text.
    pub fn put(&mut self, words: impl AsRef<OsStr>) {
        self.with(|to| to.write_all(words.as_ref().as_encoded_bytes()));
    }

    /// Prints text and ends the line.
    pub fn line(&mut self, words: impl AsRef<OsStr>) {
        self.put(words);
        self.put("\n");
    }

    /// What was printed so far is to be seen now.
    pub fn flush(&mut self) {
        self.with(|to| to.flush());
    }

    /// The first error of all that was printed.
    pub fn finish(mut self) -> io::Result<()> {
        self.flush();
        self.to.map(|_| ())
    }

    /// A word that says that something is well.
    pub fn green(&self, word: &str) -> String {
        self.painted("32", word)
    }

    /// A word that says that something is wrong.
    pub fn red(&self, word: &str) -> String {
        self.painted("31", word)
    }

    /// A word in a colour of the terminal, where lines are not plain.
    fn painted(&self, colour: &str, word: &str) -> String {
        if self.plain {
            word.to_string()
        } else {
            format!("\x1b[{colour}m{word}\x1b[0m")
        }
    }
}
