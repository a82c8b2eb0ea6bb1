//! Why a run failed: what could not be done, and where.

use crate::advice;
use crate::console::count;
use crate::work::COLLECTIONS_MOST;
use nffs::Refusal;
use std::fmt;
use std::io;

const NO_FIT: &str =
    "What is live leaves too little: `nffs rm` something, or format with more areas. \
                      The collections were made on a copy and are not kept.";

const NO_TURN: &str =
    "It was given up: counts that are not all among 128 numbers in a row (0 follows 255) can keep \
     an area from ever being collected. `nffs export` copies the files out, and a format sets all \
     counts to 0. The collections were made on a copy and are not kept.";

pub enum Failure {
    /// The words of the command line make no command.
    Usage(String),
    /// A file could not be read or written: what was tried.
    File(String, io::Error),
    /// A file is not what is needed: what it is, and what to do.
    Unfit(String),
    /// The volume does not allow it: the command with its image and path.
    Refused(String, Refusal),
    /// The same, of a move whose new path is there.
    Taken(String),
    /// The volume does not allow it, and collecting did not help: so often it was tried.
    NoFit(String, Refusal, u32),
    /// Something was changed, but not all was done, or it may not last: what.
    Partly(String),
    /// A check found something wrong in a volume that mounts; its page has said what.
    Unsound,
    /// A check printed the refusal of a volume that does not mount.
    Unmounted,
    /// The reader of standard output has gone.
    Closed,
}

impl Failure {
    /// The status of a run, as the usage says it.
    pub fn status(&self) -> u8 {
        match self {
            Failure::Refused(..) | Failure::Taken(_) | Failure::NoFit(..) | Failure::Unmounted => 1,
            Failure::Usage(_) | Failure::File(..) | Failure::Unfit(_) | Failure::Closed => 2,
            Failure::Unsound => 3,
            Failure::Partly(_) => 4,
        }
    }

    /// What is left to say, if anything.
    pub fn message(&self) -> Option<String> {
        match self {
            Failure::Unsound | Failure::Unmounted | Failure::Closed => None,
            other => Some(other.to_string()),
        }
    }
}

impl fmt::Display for Failure {
    fn fmt(&self, f: &mut fmt::Formatter<'_>) -> fmt::Result {
        match self {
            Failure::Usage(what) => write!(f, "{what}; `nffs help` says how to use it"),
            Failure::File(what, why) => write!(f, "{what}: {why}"),
            Failure::Unfit(what) | Failure::Partly(what) => f.write_str(what),
            Failure::Refused(what, refusal) => {
                write!(f, "{what}: refused with {refusal}{}", advice::lines(*refusal))
            }
            Failure::Taken(what) => {
                write!(f, "{what}: refused with {}\n  {}", Refusal::EXISTS, advice::NEW_PATH_TAKEN)
            }
            Failure::NoFit(what, refusal, made) => {
                let words = if *made < COLLECTIONS_MOST { NO_FIT } else { NO_TURN };
                let made = count(*made as usize, "collection", "collections");
                write!(f, "{what}: refused with {refusal}, also after {made}\n  {words}")
            }
            Failure::Unsound | Failure::Unmounted | Failure::Closed => Ok(()),
        }
    }
}
