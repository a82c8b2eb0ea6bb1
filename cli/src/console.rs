//! What the program prints.

use crate::failure::Failure;
use std::fmt::Write as _;
use std::io::{self, IsTerminal, Write};

/// Prints to standard output. A reader that has gone wants no more of it, and no message either.
pub fn print(bytes: &[u8]) -> Result<(), Failure> {
    let mut output = io::stdout().lock();
    let written = output.write_all(bytes).and_then(|()| output.flush());
    written.map_err(|e| match e.kind() {
        io::ErrorKind::BrokenPipe => Failure::Closed,
        _ => Failure::File("cannot write standard output".into(), e),
    })
}

/// Prints lines that hold names: their bytes as they are, but on a terminal as text.
pub fn print_lines(lines: &[u8]) -> Result<(), Failure> {
    if !io::stdout().is_terminal() {
        return print(lines);
    }
    let lines = lines.split_inclusive(|b| *b == b'\n');
    let text: String =
        lines.map(|line| shown(line.strip_suffix(b"\n").unwrap_or(line)) + "\n").collect();
    print(text.as_bytes())
}

/// Prints a line to standard error. Where that fails there is nowhere left to tell it; the status
/// of the run still says how it went.
pub fn say(text: &str) {
    let _ = io::stderr().write_all(format!("nffs: {text}\n").as_bytes());
}

/// A line on the terminal that says how far a work has come; nothing where standard error is none.
pub struct Progress {
    shown: bool,
}

impl Progress {
    pub fn new(quiet: bool) -> Progress {
        Progress { shown: !quiet && io::stderr().is_terminal() }
    }

    pub fn show(&self, text: &str) {
        if self.shown {
            // a line that went over the edge could not be taken back
            let text: String = text.chars().take(70).collect();
            let _ = io::stderr().write_all(format!("\rnffs: {text}\x1b[K").as_bytes());
        }
    }
}

impl Drop for Progress {
    fn drop(&mut self) {
        if self.shown {
            let _ = io::stderr().write_all(b"\r\x1b[K");
        }
    }
}

/// A path or name as text. Names are bytes of an image that may hold anything: what is not
/// printable is shown by number, so that it cannot steer the terminal.
pub fn shown(bytes: &[u8]) -> String {
    let mut text = String::new();
    for chunk in bytes.utf8_chunks() {
        for c in chunk.valid().chars() {
            match c {
                '"' | '\'' => text.push(c),
                _ => text.extend(c.escape_debug()),
            }
        }
        for byte in chunk.invalid() {
            let _ = write!(text, "\\x{byte:02x}");
        }
    }
    text
}

/// A number of things, in words.
pub fn count(number: usize, one: &str, many: &str) -> String {
    format!("{number} {}", if number == 1 { one } else { many })
}
