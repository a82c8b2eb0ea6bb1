//! The command line.

use crate::console::shown;
use crate::failure::Failure;
use nffs::Refusal;
use std::ffi::{OsStr, OsString};
use std::os::unix::ffi::OsStrExt;
use std::path::PathBuf;

pub const USAGE: &str = "\
usage: nffs COMMAND IMAGE [WORDS] [OPTIONS]

  check IMAGE [--json]        a page on the volume: whether it mounts, areas, files, damage
  map IMAGE [--json]          what each area holds, one line with a bar for each; or
      [--stretches]           every damage stretch, as OFFSET+LENGTH, one a line
  areas IMAGE                 the areas whose valid headers are seen, as --areas takes them
  report IMAGE                mount, count inodes, live ones, damage and its bytes, and where the
                              first of it is, as OFFSET+LENGTH
  tree IMAGE                  what is live, a line for each: depth as spaces, name, a file's size
  lookup IMAGE PATH           kind and id (hexadecimal) of what PATH leads to
  cat IMAGE PATH              write a file to standard output; from --from on, --length bytes
  export IMAGE FOLDER [PATH]  copy what lies below PATH, or all, into FOLDER

  format IMAGE --areas AREAS  make an empty volume: a new file as long as the areas need,
                              or with --force of the areas of a file that is there
  put IMAGE PATH [FILE]       store FILE, or standard input, as a new file
  append IMAGE PATH [FILE]    append FILE, or standard input, to a file that is there
  write IMAGE PATH OFFSET     write FILE, or standard input, over what a file holds from OFFSET
      [FILE]                  on; it gets no longer
  import IMAGE FOLDER [PATH]  store what lies in FOLDER below PATH, or the root
  mkdir IMAGE PATH            create a directory
  mv IMAGE OLD NEW            give what the path OLD leads to the path NEW, which must be free
  rm IMAGE PATH               unlink a file, or a directory with what lies below it
  collect IMAGE               collect one area

  --areas AREAS    OFFSET:LENGTH,.. or LENGTHxCOUNT (COUNT areas, one behind the other), or
                   @FILE, which holds such a list; without it, areas are found by their headers
  --at OFFSET      the volume begins there in a longer file; areas are counted from there
  --collect        of put, append, write, import, mkdir, mv, rm: collect until it fits
  --replace        of put, import, export: replace a file that is there
  -q, --quiet      no notes and no progress; warnings, hints and failures are still told
  -h, --help, -V, --version; -- ends the options

Numbers are decimal, or hexadecimal with 0x. PATH is a path of the volume and begins with a slash.

An image is replaced whole or not at all. Status: 0 done; 1 refused by the volume; 2 not done, for
the words or a file; 3 check: it mounts, and something in it is wrong; 4 done in part, as is said.
Unless it is 0 or 4, nothing was changed.
";

/// A command: how many words may follow the image, which options it takes, and what it does.
pub struct Command {
    pub name: &'static str,
    pub words: (usize, usize),
    pub options: &'static [&'static str],
    pub run: fn(&Arguments) -> Result<(), Failure>,
}

/// The options, whether a value follows, and whether every command takes them.
const OPTIONS: [(&str, bool, bool); 11] = [
    ("--areas", true, true),
    ("--at", true, true),
    ("--quiet", false, true),
    ("--from", true, false),
    ("--length", true, false),
    ("--collect", false, false),
    ("--replace", false, false),
    ("--force", false, false),
    ("--json", false, false),
    ("--stretches", false, false),
    ("--help", false, true),
];

#[derive(Default)]
pub struct Arguments {
    pub command: &'static str,
    pub image: PathBuf,
    words: Vec<OsString>,
    options: Vec<(&'static str, OsString)>,
}

/// What the words ask for.
pub enum Asked {
    Help,
    Version,
    Run(fn(&Arguments) -> Result<(), Failure>, Arguments),
}

impl Arguments {
    pub fn parse(commands: &'static [Command], words: &[OsString]) -> Result<Asked, Failure> {
        let mut arguments = Arguments::default();
        if arguments.sort(words)? {
            return Ok(Asked::Version);
        }
        let asked_help = arguments.words.first().is_some_and(|word| word == "help");
        if asked_help || arguments.given("--help") {
            return Ok(Asked::Help);
        }
        if arguments.words.is_empty() {
            return Err(usage("no command"));
        }
        let name = arguments.words.remove(0);
        let Some(command) = commands.iter().find(|command| name == command.name) else {
            return Err(usage(format!("no command {}", name.display())));
        };
        arguments.take(command)?;
        Ok(Asked::Run(command.run, arguments))
    }

    /// Parts options from other words; true where the version is asked for.
    fn sort(&mut self, words: &[OsString]) -> Result<bool, Failure> {
        let mut rest = words.iter();
        while let Some(word) = rest.next() {
            let bytes = word.as_bytes();
            match bytes {
                b"--" => {
                    self.words.extend(rest.by_ref().cloned());
                }
                b"--version" | b"-V" => return Ok(true),
                [b'-', _, ..] => self.option(bytes, &mut rest)?,
                _ => self.words.push(word.clone()),
            }
        }
        Ok(false)
    }

    /// Takes one option, whose value stands behind a '=' or is the next word.
    fn option<'a>(
        &mut self,
        word: &[u8],
        rest: &mut impl Iterator<Item = &'a OsString>,
    ) -> Result<(), Failure> {
        let mut parts = word.splitn(2, |b| *b == b'=');
        let said: &[u8] = match parts.next().unwrap_or_default() {
            b"-h" => b"--help",
            b"-q" => b"--quiet",
            other => other,
        };
        let joined = parts.next().map(|value| OsStr::from_bytes(value).to_owned());
        let Some(&(name, valued, _)) = OPTIONS.iter().find(|option| option.0.as_bytes() == said)
        else {
            return Err(usage(format!("no option {}", shown(said))));
        };
        if self.given(name) {
            return Err(usage(format!("{name} is given twice")));
        }
        let value = match (valued, joined) {
            (true, Some(value)) => value,
            (true, None) => {
                rest.next().cloned().ok_or_else(|| usage(format!("{name}: no value")))?
            }
            (false, None) => OsString::new(),
            (false, Some(_)) => return Err(usage(format!("{name} takes no value"))),
        };
        self.options.push((name, value));
        Ok(())
    }

    /// Takes image and words as the command needs them.
    fn take(&mut self, command: &Command) -> Result<(), Failure> {
        let name = command.name;
        self.command = name;
        for (option, _) in &self.options {
            let common = OPTIONS.iter().any(|o| o.0 == *option && o.2);
            if !common && !command.options.contains(option) {
                return Err(usage(format!("{name} takes no {option}")));
            }
        }
        if self.words.is_empty() {
            return Err(usage(format!("{name}: no image")));
        }
        self.image = PathBuf::from(self.words.remove(0));
        let (least, most) = command.words;
        if self.words.len() > most {
            return Err(usage(format!("{name}: too many words")));
        }
        if self.words.len() < least {
            let what = match (name, self.words.len()) {
                ("import" | "export", _) => "no folder",
                ("mv", 1) => "no new path",
                ("write", 1) => "no offset",
                _ => "no path",
            };
            return Err(usage(format!("{name}: {what}")));
        }
        Ok(())
    }

    pub fn given(&self, option: &str) -> bool {
        self.options.iter().any(|(name, _)| *name == option)
    }

    /// The value of an option.
    pub fn value(&self, option: &str) -> Option<&OsStr> {
        self.options.iter().find(|(name, _)| *name == option).map(|(_, value)| value.as_os_str())
    }

    /// The value of an option that is a number.
    pub fn number(&self, option: &str) -> Result<Option<u64>, Failure> {
        let Some(value) = self.value(option) else { return Ok(None) };
        number(value.as_bytes())
            .map(Some)
            .ok_or_else(|| usage(format!("{option}: '{}' is no number", shown(value.as_bytes()))))
    }

    /// A word behind the image.
    pub fn word(&self, place: usize) -> Option<&OsStr> {
        self.words.get(place).map(OsString::as_os_str)
    }

    /// A word that is a path of the volume; the root where it is left out.
    pub fn path(&self, place: usize) -> &[u8] {
        self.word(place).map_or(b"/", OsStr::as_bytes)
    }

    /// A word that is a position in a file.
    pub fn position(&self, place: usize) -> Result<u32, Failure> {
        let word = self.word(place).unwrap_or_default().as_bytes();
        number(word).and_then(|n| u32::try_from(n).ok()).ok_or_else(|| {
            let (command, word) = (self.command, shown(word));
            usage(format!("{command}: '{word}' is no offset, a number from 0 to {}", u32::MAX))
        })
    }

    /// The command as a message names it: with its image and the path that follows, and the second
    /// path or the offset where there is one.
    pub fn what(&self) -> String {
        let mut what = format!("{} {}", self.command, self.image.display());
        let named = if matches!(self.command, "mv" | "write") { 2 } else { 1 };
        for word in self.words.iter().take(named) {
            what = format!("{what} {}", shown(word.as_bytes()));
        }
        what
    }

    pub fn refused(&self, refusal: Refusal) -> Failure {
        Failure::Refused(self.what(), refusal)
    }
}

pub fn usage(what: impl Into<String>) -> Failure {
    Failure::Usage(what.into())
}

/// A number in decimal, or in hexadecimal behind 0x; digits only.
pub fn number(text: &[u8]) -> Option<u64> {
    let (digits, base) = match text {
        [b'0', b'x' | b'X', digits @ ..] => (digits, 16),
        digits => (digits, 10),
    };
    let digits = std::str::from_utf8(digits).ok()?;
    if !digits.chars().all(|c| c.is_digit(base)) {
        return None;
    }
    u64::from_str_radix(digits, base).ok()
}
