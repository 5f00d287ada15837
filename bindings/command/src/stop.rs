//! How a command ends, and how it writes to standard output and to files.
use std::ffi::OsStr;
use std::fs::{self, File, OpenOptions};
use std::io::{self, BufWriter, ErrorKind, Read, Stdout, Write};
use std::path::{Path, PathBuf};

/// The result of a command that did its work: the exit statuses 0 and 1.
#[derive(Clone, Copy, Debug, PartialEq, Eq)]
pub enum Found {
    Good,
    Bad,
}

impl Found {
    pub fn bad_if(bad: bool) -> Self {
        if bad {
            Found::Bad
        } else {
            Found::Good
        }
    }
}

/// Why a command could not do its work: exit status 2.
#[derive(Debug)]
pub enum Stop {
    /// A sentence for standard error.
    Said(String),
    /// The reader of standard output has gone: nothing is reported.
    Closed,
}

impl Stop {
    pub fn said(sentence: impl Into<String>) -> Self {
        Stop::Said(sentence.into())
    }
}

pub type Done = Result<Found, Stop>;

/// The name of a file that is read, for messages.
pub fn shown(path: &OsStr) -> String {
    if path == "-" {
        return "standard input".to_string();
    }
    plain(path)
}

/// The name of a file that is written, for messages.
pub fn shown_target(path: &OsStr) -> String {
    if path == "-" {
        return "standard output".to_string();
    }
    plain(path)
}

/// A word of the command line, for messages: no control character reaches the terminal.
pub fn plain(path: &OsStr) -> String {
    let name = path.to_string_lossy();
    name.chars().flat_map(|c| if c.is_control() { c.escape_default().collect::<Vec<_>>() } else { vec![c] }).collect()
}

/// The system's description of an error, without its number.
pub fn reason(error: &io::Error) -> String {
    let text = error.to_string();
    let words = text.split(" (os error").next().unwrap_or_default();
    let mut letters = words.chars();
    letters.next().map(|first| first.to_lowercase().chain(letters).collect()).unwrap_or_default()
}

/// Writes a sentence to standard error. If that is closed, there is nobody to tell.
pub fn tell(sentence: &str) {
    let _ = writeln!(io::stderr(), "{sentence}");
}

/// Reads a file, or standard input for `-`, of at most `most` bytes.
pub fn read(path: &OsStr, most: u64) -> Result<Vec<u8>, Stop> {
    let failed = |error: io::Error| Stop::said(format!("{}: {}", shown(path), reason(&error)));
    let source: Box<dyn Read> = if path == "-" { Box::new(io::stdin()) } else { Box::new(File::open(path).map_err(failed)?) };
    let mut bytes = Vec::new();
    source.take(most + 1).read_to_end(&mut bytes).map_err(failed)?;
    if bytes.len() as u64 > most {
        return Err(Stop::said(format!("{}: more than {most} bytes, which is too large", shown(path))));
    }
    Ok(bytes)
}

/// Writes a file whole, or reports why not and leaves the old file unchanged. `-` is standard output; a device is written to directly.
pub fn write(path: &OsStr, bytes: &[u8], out: &mut Out) -> Result<(), Stop> {
    if path == "-" {
        return out.bytes(bytes);
    }
    let failed = |error: io::Error| Stop::said(format!("{}: {}", shown_target(path), reason(&error)));
    let target = fs::canonicalize(path).unwrap_or_else(|_| PathBuf::from(path));
    match fs::metadata(&target) {
        Ok(there) if !there.is_file() => File::create(&target).and_then(|mut file| file.write_all(bytes)).map_err(failed),
        _ => replace(&target, bytes).map_err(failed),
    }
}

// Writes a new file beside the target and then renames it, so that a full disk does no harm.
fn replace(target: &Path, bytes: &[u8]) -> io::Result<()> {
    let mut name = target.file_name().ok_or(ErrorKind::InvalidInput)?.to_os_string();
    name.push(format!(".{}.part", std::process::id()));
    let beside = target.with_file_name(name);
    let written = OpenOptions::new().write(true).create_new(true).open(&beside).and_then(|mut file| {
        file.write_all(bytes)?;
        file.sync_all()
    });
    written.and_then(|()| fs::rename(&beside, target)).inspect_err(|_| {
        let _ = fs::remove_file(&beside);
    })
}

/// Standard output.
pub struct Out(BufWriter<Stdout>);

impl Out {
    pub fn new() -> Self {
        Out(BufWriter::new(io::stdout()))
    }

    pub fn line(&mut self, text: impl AsRef<str>) -> Result<(), Stop> {
        self.bytes(text.as_ref().as_bytes())?;
        self.bytes(b"\n")
    }

    pub fn bytes(&mut self, bytes: &[u8]) -> Result<(), Stop> {
        self.0.write_all(bytes).map_err(unwritten)
    }

    pub fn flush(&mut self) -> Result<(), Stop> {
        self.0.flush().map_err(unwritten)
    }
}

fn unwritten(error: io::Error) -> Stop {
    match error.kind() {
        ErrorKind::BrokenPipe => Stop::Closed,
        _ => Stop::said(format!("standard output: {}", reason(&error))),
    }
}
