//! Folders copied in and out.

use crate::areas;
use crate::arguments::Arguments;
use crate::console::{count, say, shown, Progress};
use crate::failure::Failure;
use crate::files::{open, read_file};
use crate::image_file::{self, failed, swap, Held, MOST};
use crate::tree::{below, contents, is_directory, prefixes, tree, Entry, Tree, What};
use crate::work::Work;
use nffs::{Kind, Refusal};
use std::ffi::OsStr;
use std::fs;
use std::io::Write;
use std::os::unix::ffi::OsStrExt;
use std::path::{Path, PathBuf};

/// More than any volume holds: a folder with more was hardly meant.
const ENTRIES_MOST: usize = 4096;

/// What is to be stored: a path of the volume with the data of a file, or a directory without.
struct Source {
    path: Vec<u8>,
    data: Option<Vec<u8>>,
}

/// What became of it.
#[derive(PartialEq)]
enum Stored {
    New,
    Replaced,
    ThereAlready,
}

/// Stores a folder. All of it is read before the image is touched. Each file is stored whole or not
/// at all; where one is refused the import ends, what was stored before stays, and that is told.
/// A file that is there with the same contents is left alone, so that the import can be run again.
pub fn import(arguments: &Arguments) -> Result<(), Failure> {
    let sources = gather(Path::new(arguments.word(0).unwrap_or_default()), arguments.path(1))?;
    let held = Held::of(&arguments.image, arguments.number("--at")?)?;
    let areas = areas::take_to_change(arguments, held.image())?;
    nffs::report(held.image(), &areas).map_err(|refusal| arguments.refused(refusal))?;
    let mut work = Work::new(arguments, held.image(), &areas);
    let mut done: Vec<(&Source, Stored)> = Vec::new();
    let mut refused = None;
    for source in &sources {
        work.show(&format!("{} of {}: {}", done.len(), sources.len(), shown(&source.path)));
        match store(&mut work, source, arguments.given("--replace")) {
            Ok(stored) => done.push((source, stored)),
            Err(refusal) => {
                let what = format!("{}: {}", arguments.what(), shown(&source.path));
                refused = Some(work.refused(what, refusal));
                break;
            }
        }
    }
    let (image, collections) = work.done();
    let changed = held.image() != image;
    held.replace(&image)?;
    match refused {
        None => {
            if !arguments.given("--quiet") {
                say(&format!("{}{collections}", summary(&done)));
            }
            Ok(())
        }
        Some(failure) if !changed => Err(failure),
        Some(failure) => Err(stopped(&failure, &done, &sources)),
    }
}

fn summary(done: &[(&Source, Stored)]) -> String {
    let of = |stored: Stored| done.iter().filter(|(_, s)| *s == stored).count();
    format!(
        "{} stored, {} replaced, {} there already",
        of(Stored::New),
        of(Stored::Replaced),
        of(Stored::ThereAlready)
    )
}

fn stopped(failure: &Failure, done: &[(&Source, Stored)], sources: &[Source]) -> Failure {
    let lines = |paths: &[&Source]| -> String {
        paths.iter().map(|source| format!("\n    {}", shown(&source.path))).collect()
    };
    let stored: Vec<_> = done.iter().map(|(source, _)| *source).collect();
    let left: Vec<_> = sources[done.len()..].iter().collect();
    Failure::Partly(format!(
        "{failure}\n  In the volume are, whole:{}\n  Not stored:{}",
        lines(&stored),
        lines(&left)
    ))
}

/// Stores one file or directory.
fn store(work: &mut Work, source: &Source, replace: bool) -> Result<Stored, Refusal> {
    let path = &source.path[..];
    let Some(data) = &source.data else {
        return make_directories(work, path);
    };
    let there = nffs::open(&work.image, work.areas, b"", path)
        .and_then(|file| contents(&work.image, work.areas, file.id, 0, MOST));
    match there {
        Ok(bytes) if bytes == *data => Ok(Stored::ThereAlready),
        Ok(_) | Err(Refusal::BROKEN) if replace => {
            work.replace(path, data).map(|()| Stored::Replaced)
        }
        Ok(_) | Err(Refusal::BROKEN) => Err(Refusal::EXISTS),
        Err(Refusal::NOT_FOUND) => work.store(path, data).map(|()| Stored::New),
        Err(refusal) => Err(refusal),
    }
}

/// Makes a directory, with those above it, where they are not there.
fn make_directories(work: &mut Work, path: &[u8]) -> Result<Stored, Refusal> {
    let mut stored = Stored::ThereAlready;
    for path in prefixes(path) {
        if !is_directory(&work.image, work.areas, path)? {
            work.make(|image, areas| {
                nffs::create(image, areas, b"", path, Kind::Directory).map(|_| ())
            })?;
            stored = Stored::New;
        }
    }
    Ok(stored)
}

/// All that lies in a folder, each directory before what lies in it, in order of names.
fn gather(folder: &Path, path: &[u8]) -> Result<Vec<Source>, Failure> {
    let mut found = Vec::new();
    if path != b"/" {
        found.push(Source { path: path.to_vec(), data: None });
    }
    let mut open = listing(folder, path)?;
    let mut size = 0;
    while let Some((host, path)) = open.pop() {
        let kind = fs::symlink_metadata(&host).map_err(failed("read", &host))?.file_type();
        let data = match () {
            () if kind.is_dir() => {
                open.extend(listing(&host, &path)?);
                None
            }
            () if kind.is_file() => Some(read_file(&host)?),
            () => return Err(unfit(&host, "is neither a file nor a folder")),
        };
        size += data.as_ref().map_or(0, Vec::len);
        if size > MOST {
            return Err(unfit(folder, "holds more than the 65,536 bytes of an image"));
        }
        found.push(Source { path, data });
        if found.len() > ENTRIES_MOST {
            return Err(unfit(folder, "holds more files than any volume"));
        }
    }
    Ok(found)
}

fn unfit(path: &Path, what: &str) -> Failure {
    Failure::Unfit(format!("{} {what}: nothing was stored", path.display()))
}

/// What lies in one folder, with the paths it is to have, the first name last.
fn listing(folder: &Path, path: &[u8]) -> Result<Vec<(PathBuf, Vec<u8>)>, Failure> {
    let read = || fs::read_dir(folder)?.map(|entry| entry.map(|e| e.file_name())).collect();
    let mut names: Vec<_> = Result::<_, std::io::Error>::map_err(read(), failed("read", folder))?;
    names.sort();
    names.reverse();
    let placed = |name: std::ffi::OsString| (folder.join(&name), below(path, name.as_bytes()));
    Ok(names.into_iter().map(placed).collect())
}

/// What is to be written: where, and which entry of the volume.
struct Target<'a> {
    host: PathBuf,
    entry: &'a Entry,
}

/// Copies a directory out. What could be in the way is looked at before anything is written.
pub fn export(arguments: &Arguments) -> Result<(), Failure> {
    let (image, areas) = open(arguments)?;
    let path = arguments.path(1);
    let folder = Path::new(arguments.word(0).unwrap_or_default());
    let refused = |refusal| {
        Failure::Refused(format!("export {} {}", arguments.image.display(), shown(path)), refusal)
    };
    let found = tree(&image, &areas, path).map_err(refused)?;
    let (targets, mut left_out) = targets(&found, path, folder);
    // at or below an ambiguous path, or one that is too long
    let live = nffs::report(&image, &areas).map_err(refused)?.live as usize;
    if path == b"/" && live > found.entries.len() {
        left_out += &format!("\n    {} without a path of their own", live - found.entries.len());
    }
    for target in &targets {
        is_free(target, arguments.given("--replace"))?;
    }
    write_all(&targets, folder, arguments.given("--quiet"))?;
    let files = targets.iter().filter(|t| matches!(t.entry.what, What::File(_))).count();
    let said = format!("{} written to {}", count(files, "file", "files"), folder.display());
    if !left_out.is_empty() {
        return Err(Failure::Partly(format!("{said}; left out:{left_out}")));
    }
    if !arguments.given("--quiet") {
        say(&said);
    }
    Ok(())
}

fn write_all(targets: &[Target], folder: &Path, quiet: bool) -> Result<(), Failure> {
    let is_new = fs::metadata(folder).is_err();
    if is_new {
        fs::create_dir(folder).map_err(failed("make", folder))?;
    }
    let progress = Progress::new(quiet);
    for (k, target) in targets.iter().enumerate() {
        progress.show(&format!("{k} of {}: {}", targets.len(), shown(&target.entry.path)));
        write(target).map_err(|failure| {
            if is_new {
                // only an empty one goes: nothing was written then
                let _ = fs::remove_dir(folder);
            }
            interrupted(failure, &targets[..k])
        })?;
    }
    Ok(())
}

/// Where each entry goes, and as lines what cannot go anywhere.
fn targets<'a>(found: &'a Tree, path: &[u8], folder: &Path) -> (Vec<Target<'a>>, String) {
    let mut targets = Vec::new();
    let mut left_out = String::new();
    for entry in &found.entries {
        let host = host_path(&entry.path, path, folder, matches!(entry.what, What::Directory));
        match (host, &entry.what) {
            (_, What::Broken) => {
                left_out += &format!("\n    {} (broken: blocks are lost)", shown(&entry.path));
            }
            (None, _) => {
                left_out += &format!("\n    {} (no name for a file here)", shown(&entry.path));
            }
            // it is not made by the volume's own directory
            (Some(host), _) if host == folder => {}
            (Some(host), _) => targets.push(Target { host, entry }),
        }
    }
    for path in &found.ambiguous {
        left_out += &format!("\n    {} (two or more have this path)", shown(path));
    }
    for path in &found.too_long {
        left_out += &format!("\n    {} (the path is too long)", shown(path));
    }
    (targets, left_out)
}

/// The place of an entry in the folder. A name may be "." or "..", and then leads out of it: none.
fn host_path(entry: &[u8], path: &[u8], folder: &Path, is_directory: bool) -> Option<PathBuf> {
    // a file that is exported by itself keeps its name
    let above = if entry == path && !is_directory {
        entry.iter().rposition(|b| *b == b'/').unwrap_or(0)
    } else {
        path.len()
    };
    let mut host = folder.to_path_buf();
    for name in entry[above..].split(|b| *b == b'/').filter(|name| !name.is_empty()) {
        if name == b"." || name == b".." {
            return None;
        }
        host.push(OsStr::from_bytes(name));
    }
    Some(host)
}

/// Nothing is in the way: no name is taken, but by a folder for a directory, or with --replace by
/// a file for a file. Links are not followed: they may lead anywhere.
fn is_free(target: &Target, replace: bool) -> Result<(), Failure> {
    let Ok(there) = fs::symlink_metadata(&target.host) else { return Ok(()) };
    let fits = match target.entry.what {
        What::Directory => there.is_dir(),
        _ => replace && there.is_file() && !there.permissions().readonly(),
    };
    let hint = match target.entry.what {
        What::File(_) if there.is_file() && replace => " (it is read-only)",
        What::File(_) if there.is_file() => " (--replace replaces it)",
        _ => "",
    };
    match fits {
        true => Ok(()),
        false => Err(Failure::Unfit(format!(
            "{} is in the way of {}: nothing was written{hint}",
            target.host.display(),
            shown(&target.entry.path)
        ))),
    }
}

fn write(target: &Target) -> Result<(), Failure> {
    let host = &target.host;
    match (&target.entry.what, fs::symlink_metadata(host)) {
        (What::File(bytes), Ok(old)) => swap(host, &old, |mut new| new.write_all(bytes)),
        (What::File(bytes), Err(_)) => image_file::make(host, bytes),
        (_, Ok(_)) => Ok(()),
        (_, Err(_)) => fs::create_dir(host).map_err(failed("make", host)),
    }
}

/// An export that ended before all was written says what is there.
fn interrupted(failure: Failure, written: &[Target]) -> Failure {
    if written.is_empty() {
        return failure;
    }
    let lines: String = written.iter().map(|t| format!("\n    {}", t.host.display())).collect();
    Failure::Partly(format!("{failure}\n  Written, whole:{lines}"))
}
