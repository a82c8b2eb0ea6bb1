//! The commands on one file, directory or volume.

use crate::areas;
use crate::arguments::{usage, Arguments};
use crate::console::{print, say, shown};
use crate::failure::Failure;
use crate::hints::Hints;
use crate::image_file::{self, failed, Held, MOST};
use crate::tree::contents;
use crate::work::{append as append_all, Work};
use nffs::{Area, Kind, Refusal};
use std::ffi::OsStr;
use std::fs::File;
use std::io::{self, Read};
use std::path::Path;

/// The image and the areas of a volume that is only read.
pub fn open(arguments: &Arguments) -> Result<(Vec<u8>, Vec<Area>), Failure> {
    let image = image_file::load(&arguments.image, arguments.number("--at")?)?;
    let areas = areas::take_to_read(arguments, &image)?;
    Ok((image, areas))
}

/// Changes the volume; where a call is refused the file stays as it was.
fn change(
    arguments: &Arguments,
    calls: impl FnOnce(&mut Work) -> Result<(), Refusal>,
) -> Result<(), Failure> {
    let held = Held::of(&arguments.image, arguments.number("--at")?)?;
    let areas = areas::take_to_change(arguments, held.image())?;
    let mut work = Work::new(arguments, held.image(), &areas);
    calls(&mut work).map_err(|refusal| work.refused(what(arguments, &work, refusal), refusal))?;
    let (image, collections) = work.done();
    held.replace(&image)?;
    if !collections.is_empty() && !arguments.given("--quiet") {
        say(&format!("done{collections}"));
    }
    Ok(())
}

/// The command as a message names it; where two paths are given, with the one that is refused.
fn what(arguments: &Arguments, work: &Work, refusal: Refusal) -> String {
    let (old, new) = (arguments.path(0), arguments.path(1));
    let of_a_path = (Refusal::BAD_PATH..=Refusal::EXISTS).contains(&refusal);
    if arguments.command != "mv" || !of_a_path {
        return arguments.what();
    }
    // the old one is walked first, as a lookup walks it
    let is_old = nffs::lookup(&work.image, work.areas, b"", old) == Err(refusal);
    format!("{}: {}", arguments.what(), shown(if is_old { old } else { new }))
}

pub fn areas_seen(arguments: &Arguments) -> Result<(), Failure> {
    let image = image_file::load(&arguments.image, arguments.number("--at")?)?;
    let chosen = areas::choose(arguments, &image)?;
    chosen.warn();
    Hints::of_a_run(&image, &chosen).say();
    if chosen.areas.is_empty() {
        return Err(areas::none_seen(arguments, &chosen));
    }
    print(format!("{}\n", areas::list(&chosen.areas)).as_bytes())
}

/// Prints as document 01's program does, as amended, and on a refusal only the first line.
pub fn report(arguments: &Arguments) -> Result<(), Failure> {
    let (image, areas) = open(arguments)?;
    match nffs::report(&image, &areas) {
        Ok(r) => print(
            format!(
                "mount 0\ninodes {} live {} stretches {} skipped {} first {}+{}\n",
                r.inodes, r.live, r.stretches, r.skipped, r.first_offset, r.first_length
            )
            .as_bytes(),
        ),
        Err(refusal) => {
            print(format!("mount {}\n", refusal.number()).as_bytes())?;
            Err(arguments.refused(refusal))
        }
    }
}

pub fn lookup(arguments: &Arguments) -> Result<(), Failure> {
    let (image, areas) = open(arguments)?;
    let found = nffs::lookup(&image, &areas, b"", arguments.path(0))
        .map_err(|refusal| arguments.refused(refusal))?;
    let kind = match found.kind {
        Kind::Directory => "directory",
        Kind::File => "file",
    };
    print(format!("{kind} {:08x}\n", found.id).as_bytes())
}

pub fn cat(arguments: &Arguments) -> Result<(), Failure> {
    let from = arguments.number("--from")?.unwrap_or(0);
    let from = u32::try_from(from)
        .map_err(|_| usage(format!("--from: {from} is no position of 32 bits")))?;
    let length = arguments.number("--length")?;
    let length = length.map_or(MOST, |length| usize::try_from(length).unwrap_or(MOST));
    let (image, areas) = open(arguments)?;
    let bytes = nffs::open(&image, &areas, b"", arguments.path(0))
        .and_then(|file| contents(&image, &areas, file.id, from, length))
        .map_err(|refusal| arguments.refused(refusal))?;
    print(&bytes)
}

pub fn format(arguments: &Arguments) -> Result<(), Failure> {
    let Some(areas) = areas::listed(arguments)? else {
        return Err(usage("format: no --areas; there are no headers to find them by yet"));
    };
    let at = arguments.number("--at")?;
    if arguments.given("--force") && arguments.image.exists() {
        let held = Held::of(&arguments.image, at)?;
        let mut image = held.image().to_vec();
        nffs::format(&mut image, &areas).map_err(|refusal| arguments.refused(refusal))?;
        // headers of an older volume, which would be found with the new ones
        areas::warn(&areas::seen(&image, &areas).areas);
        return held.replace(&image);
    }
    if at.is_some() {
        return Err(usage("format: --at needs a file that is there, and --force"));
    }
    if arguments.image.symlink_metadata().is_ok() {
        return Err(Failure::Unfit(format!(
            "{} is there: --force formats its areas, and what is in them is lost",
            arguments.image.display()
        )));
    }
    let mut image = vec![0xff; image_size(&areas)];
    nffs::format(&mut image, &areas).map_err(|refusal| arguments.refused(refusal))?;
    image_file::make(&arguments.image, &image)
}

/// The bytes up to the last area's end; one more than an image may have where that is too much,
/// and format will refuse it.
fn image_size(areas: &[Area]) -> usize {
    let end = areas.iter().map(|a| u64::from(a.offset) + u64::from(a.length)).max().unwrap_or(0);
    usize::try_from(end).unwrap_or(usize::MAX).min(MOST + 1)
}

pub fn put(arguments: &Arguments) -> Result<(), Failure> {
    let data = data(arguments.word(1))?;
    let path = arguments.path(0);
    change(arguments, |work| match arguments.given("--replace") {
        true => work.store_or_replace(path, &data),
        false => work.store(path, &data),
    })
}

pub fn append(arguments: &Arguments) -> Result<(), Failure> {
    let data = data(arguments.word(1))?;
    let path = arguments.path(0);
    change(arguments, |work| work.make(|image, areas| append_all(image, areas, b"", path, &data)))
}

pub fn write(arguments: &Arguments) -> Result<(), Failure> {
    let offset = arguments.position(1)?;
    let data = data(arguments.word(2))?;
    let path = arguments.path(0);
    change(arguments, |work| work.overwrite(path, offset, &data))
}

pub fn mkdir(arguments: &Arguments) -> Result<(), Failure> {
    let path = arguments.path(0);
    change(arguments, |work| {
        work.make(|image, areas| nffs::create(image, areas, b"", path, Kind::Directory).map(|_| ()))
    })
}

pub fn mv(arguments: &Arguments) -> Result<(), Failure> {
    let (old, new) = (arguments.path(0), arguments.path(1));
    let renamed = change(arguments, |work| {
        work.make(|image, areas| nffs::rename(image, areas, b"", old, new))
    });
    renamed.map_err(|failure| match failure {
        Failure::Refused(what, Refusal::EXISTS) => Failure::Taken(what),
        other => other,
    })
}

pub fn rm(arguments: &Arguments) -> Result<(), Failure> {
    let path = arguments.path(0);
    change(arguments, |work| work.make(|image, areas| nffs::unlink(image, areas, b"", path)))
}

pub fn collect(arguments: &Arguments) -> Result<(), Failure> {
    change(arguments, |work| work.make(nffs::collect))
}

/// The bytes to store, of a file or of standard input; no more than one byte over what an image
/// can hold, since that is refused whatever follows. They are read before the image is locked.
fn data(file: Option<&OsStr>) -> Result<Vec<u8>, Failure> {
    match file.filter(|name| *name != "-") {
        Some(name) => read_file(Path::new(name)),
        None => {
            let mut data = Vec::new();
            let read = io::stdin().lock().take(MOST as u64 + 1).read_to_end(&mut data);
            read.map_err(|e| Failure::File("cannot read standard input".into(), e))?;
            Ok(data)
        }
    }
}

/// A file of the host, as far as an image could hold it, and a byte more.
pub fn read_file(path: &Path) -> Result<Vec<u8>, Failure> {
    let mut data = Vec::new();
    File::open(path)
        .and_then(|file| file.take(MOST as u64 + 1).read_to_end(&mut data))
        .map_err(failed("read", path))?;
    Ok(data)
}
