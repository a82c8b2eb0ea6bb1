//! The calls of NFFS on an image in a file.

mod advice;
mod areas;
mod arguments;
mod check;
mod console;
mod failure;
mod files;
mod folders;
mod gaps;
mod hints;
mod image_file;
mod json;
mod listing;
mod map;
mod page;
mod records;
mod tree;
mod work;

use arguments::{Arguments, Asked, Command, USAGE};
use console::{print, say};
use failure::Failure;
use std::env;
use std::process::ExitCode;

/// The commands: how many words follow the image, their own options, what they do.
#[rustfmt::skip]
static COMMANDS: [Command; 17] = [
    Command { name: "check", words: (0, 0), options: &["--json"], run: check::check },
    Command { name: "map", words: (0, 0), options: &["--json", "--stretches"], run: map::map },
    Command { name: "areas", words: (0, 0), options: &[], run: files::areas_seen },
    Command { name: "report", words: (0, 0), options: &[], run: files::report },
    Command { name: "tree", words: (0, 0), options: &[], run: listing::tree },
    Command { name: "lookup", words: (1, 1), options: &[], run: files::lookup },
    Command { name: "cat", words: (1, 1), options: &["--from", "--length"], run: files::cat },
    Command { name: "export", words: (1, 2), options: &["--replace"], run: folders::export },
    Command { name: "format", words: (0, 0), options: &["--force"], run: files::format },
    Command { name: "put", words: (1, 2), options: &["--replace", "--collect"], run: files::put },
    Command { name: "append", words: (1, 2), options: &["--collect"], run: files::append },
    Command { name: "write", words: (2, 3), options: &["--collect"], run: files::write },
    Command { name: "import", words: (1, 2), options: &["--replace", "--collect"], run: folders::import },
    Command { name: "mkdir", words: (1, 1), options: &["--collect"], run: files::mkdir },
    Command { name: "mv", words: (2, 2), options: &["--collect"], run: files::mv },
    Command { name: "rm", words: (1, 1), options: &["--collect"], run: files::rm },
    Command { name: "collect", words: (0, 0), options: &[], run: files::collect },
];

fn main() -> ExitCode {
    let words: Vec<_> = env::args_os().skip(1).collect();
    match Arguments::parse(&COMMANDS, &words).and_then(run) {
        Ok(()) => ExitCode::SUCCESS,
        Err(failure) => {
            if let Some(message) = failure.message() {
                say(&message);
            }
            ExitCode::from(failure.status())
        }
    }
}

fn run(asked: Asked) -> Result<(), Failure> {
    match asked {
        Asked::Help => print(USAGE.as_bytes()),
        Asked::Version => print(concat!("nffs ", env!("CARGO_PKG_VERSION"), "\n").as_bytes()),
        Asked::Run(command, arguments) => command(&arguments),
    }
}
