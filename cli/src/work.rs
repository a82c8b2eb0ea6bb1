//! Changes of a volume, made on a copy of its image: the file is replaced when all are done.

use crate::areas::header;
use crate::arguments::Arguments;
use crate::console::{count, Progress};
use crate::failure::Failure;
use crate::tree::parted;
use nffs::{Area, Kind, Refusal, MOST_AREAS};

/// No volume is collected oftener for one call. Counts that are all among 128 numbers in a row (0
/// follows 255) are level after some 127 x 15 collections, and then each round of 16 drops at least
/// one of at most 255 nested inodes: some 6,030 in all. More are made only where counts keep an
/// area from its turn.
pub const COLLECTIONS_MOST: u32 = 512 * MOST_AREAS as u32;

/// The most bytes of a name.
const NAME_MOST: usize = 255;

/// Collections of one volume, as long as they can give something. They give nothing more once
/// every area has been collected since records went the last time.
pub struct Collections {
    pub made: u32,
    used: usize,
    sources: Vec<u32>,
}

impl Collections {
    pub fn of(image: &[u8], areas: &[Area]) -> Collections {
        Collections { made: 0, used: used(image, areas), sources: Vec::new() }
    }

    /// Collects once more; false where nothing is to be gained.
    pub fn step(&mut self, image: &mut [u8], areas: &[Area]) -> Result<bool, Refusal> {
        if self.made >= COLLECTIONS_MOST || self.is_round_done(image, areas) {
            return Ok(false);
        }
        nffs::collect(image, areas)?;
        self.made += 1;
        let used = used(image, areas);
        if used < self.used {
            self.used = used;
            self.sources.clear();
        }
        // what was collected is scratch now
        self.sources.extend(scratch(image, areas).map(|area| area.offset));
        Ok(true)
    }

    /// Whether it ended because nothing was left to gain, and not for their number.
    pub fn is_exhausted(&self) -> bool {
        self.made < COLLECTIONS_MOST
    }

    fn is_round_done(&self, image: &[u8], areas: &[Area]) -> bool {
        let Some(scratch) = scratch(image, areas) else { return false };
        let mut long = areas.iter().filter(|a| a.length == scratch.length);
        long.all(|a| header(image, *a).is_none() || self.sources.contains(&a.offset))
    }
}

fn scratch(image: &[u8], areas: &[Area]) -> Option<Area> {
    areas.iter().copied().find(|a| header(image, *a).is_some_and(|h| h.is_scratch()))
}

/// The bytes up to the last that is not blank, of all areas: less of them after a collection means
/// that records or damage went.
fn used(image: &[u8], areas: &[Area]) -> usize {
    let used_of = |area: &Area| {
        let end = area.offset as usize + area.length as usize;
        let bytes = image.get(area.offset as usize..end).unwrap_or_default();
        bytes.iter().rposition(|b| *b != 0xff).map_or(0, |last| last + 1)
    };
    areas.iter().map(used_of).sum()
}

/// What collecting was good for where calls were refused.
enum Collecting {
    NotTried,
    /// It was refused itself.
    Refused,
    /// So often, and it gave too little.
    InVain(u32),
}

/// An image that is being changed.
pub struct Work<'a> {
    pub image: Vec<u8>,
    pub areas: &'a [Area],
    collect: bool,
    progress: Progress,
    last: Collecting,
    collected: u32,
}

impl<'a> Work<'a> {
    pub fn new(arguments: &Arguments, image: &[u8], areas: &'a [Area]) -> Work<'a> {
        Work {
            image: image.to_vec(),
            areas,
            collect: arguments.given("--collect"),
            progress: Progress::new(arguments.given("--quiet")),
            last: Collecting::NotTried,
            collected: 0,
        }
    }

    pub fn show(&self, text: &str) {
        self.progress.show(text);
    }

    /// Makes calls, all or none. With --collect the volume is collected first, as often as it needs,
    /// where they are refused for want of room or ids; it stays as it was where that does not help.
    pub fn make(
        &mut self,
        calls: impl Fn(&mut [u8], &[Area]) -> Result<(), Refusal>,
    ) -> Result<(), Refusal> {
        self.last = Collecting::NotTried;
        let mut base = self.image.clone();
        let mut collections = Collections::of(&base, self.areas);
        loop {
            let mut next = base.clone();
            let Err(refusal) = calls(&mut next, self.areas) else {
                self.image = next;
                self.collected += collections.made;
                return Ok(());
            };
            let mendable = matches!(refusal, Refusal::NO_ROOM | Refusal::TOO_MANY_IDS);
            if !self.collect || !mendable {
                return Err(refusal);
            }
            self.progress.show(&format!("no room: {} collections", collections.made));
            self.last = Collecting::Refused;
            if !collections.step(&mut base, self.areas)? {
                self.last = Collecting::InVain(collections.made);
                return Err(refusal);
            }
        }
    }

    /// The new image, and in words how often it was collected for it, if it was.
    pub fn done(self) -> (Vec<u8>, String) {
        let made = match self.collected {
            0 => String::new(),
            n => format!(", after {}", count(n as usize, "collection", "collections")),
        };
        (self.image, made)
    }

    /// The failure of what was refused last; a refusal of the collection is told as such.
    pub fn refused(&self, what: String, refusal: Refusal) -> Failure {
        match self.last {
            Collecting::NotTried => Failure::Refused(what, refusal),
            Collecting::Refused => {
                Failure::Refused(format!("{what}: no room, and a collection is"), refusal)
            }
            Collecting::InVain(made) => Failure::NoFit(what, refusal, made),
        }
    }

    /// Stores a new file.
    pub fn store(&mut self, path: &[u8], data: &[u8]) -> Result<(), Refusal> {
        self.make(|image, areas| {
            nffs::create(image, areas, b"", path, Kind::File)?;
            append(image, areas, b"", path, data)
        })
    }

    /// Writes data of any length over what a file holds from an offset on, by as many calls as it
    /// takes; where one of them is refused the work is to be given up. Where it takes several, the
    /// range's end is asked for first: a range that is too long is refused as such, and not for want
    /// of room.
    pub fn overwrite(&mut self, path: &[u8], offset: u32, data: &[u8]) -> Result<(), Refusal> {
        let mut write = |at: u32, piece: &[u8]| {
            self.make(|image, areas| nffs::overwrite(image, areas, b"", path, at, piece))
        };
        if data.len() > nffs::APPEND_MOST {
            write(offset.saturating_add(data.len() as u32), b"")?;
        }
        pieces(offset, data).into_iter().try_for_each(|(at, piece)| write(at, piece))
    }

    /// Stores a file, in the place of one that is there. A directory is refused, as open refuses it:
    /// it would go with all that lies below it.
    pub fn store_or_replace(&mut self, path: &[u8], data: &[u8]) -> Result<(), Refusal> {
        match nffs::open(&self.image, self.areas, b"", path) {
            Ok(_) => self.replace(path, data),
            Err(Refusal::NOT_FOUND) => self.store(path, data),
            Err(refusal) => Err(refusal),
        }
    }

    /// Stores a file in the place of one that is there: beside it first, and then it takes its name.
    /// Where the volume cannot hold both, the old one is unlinked before. Both or none either way:
    /// without the new file the old one stays.
    pub fn replace(&mut self, path: &[u8], data: &[u8]) -> Result<(), Refusal> {
        match self.make(|image, areas| swap(image, areas, path, data)) {
            // 17 is that of a collection
            Err(Refusal::NO_ROOM | Refusal::TOO_MANY_IDS | Refusal::NO_SOURCE) => {}
            swapped => return swapped,
        }
        let before = self.image.clone();
        let unlinked = self.make(|image, areas| nffs::unlink(image, areas, b"", path));
        let stored = unlinked.and_then(|()| self.store(path, data));
        if stored.is_err() {
            self.image = before;
        }
        stored
    }
}

/// A range of a file, cut where one call does not take it: where `put` cuts a file, at each so many
/// bytes from its start. So no block of such a file is in two pieces, and none is written twice.
fn pieces(offset: u32, data: &[u8]) -> Vec<(u32, &[u8])> {
    let mut pieces = Vec::new();
    let (mut at, mut rest) = (offset, data);
    while rest.len() > nffs::APPEND_MOST {
        let (piece, later) = rest.split_at(nffs::APPEND_MOST - at as usize % nffs::APPEND_MOST);
        pieces.push((at, piece));
        (at, rest) = (at + piece.len() as u32, later);
    }
    pieces.push((at, rest));
    pieces
}

/// Stores a file beside the one that a path leads to, unlinks that, and gives the new one its name.
/// The directory is the base, so that a longer name than the path's own makes no path too long.
fn swap(image: &mut [u8], areas: &[Area], path: &[u8], data: &[u8]) -> Result<(), Refusal> {
    let (directory, name) = parted(path);
    let beside = free_name(image, areas, directory, name)?;
    nffs::create(image, areas, directory, &beside, Kind::File)?;
    append(image, areas, directory, &beside, data)?;
    nffs::unlink(image, areas, directory, name)?;
    nffs::rename(image, areas, directory, &beside, name)
}

/// A name that nothing in the directory has: the file's own and ".new", or ".new2" and so on. The
/// file's own is cut where the whole would be longer than a name may be. One of them is free, since
/// no volume has more than 256 inodes.
fn free_name(
    image: &[u8],
    areas: &[Area],
    directory: &[u8],
    name: &[u8],
) -> Result<Vec<u8>, Refusal> {
    let mut number = 1;
    loop {
        let end = if number == 1 { ".new".to_string() } else { format!(".new{number}") };
        let kept = &name[..name.len().min(NAME_MOST - end.len())];
        let beside = [kept, end.as_bytes()].concat();
        match nffs::lookup(image, areas, directory, &beside) {
            Err(Refusal::NOT_FOUND) => return Ok(beside),
            Ok(_) | Err(Refusal::AMBIGUOUS) => number += 1,
            Err(refusal) => return Err(refusal),
        }
    }
}

/// Appends data of any length, by as many calls as it takes; one at least, so that a path is asked
/// for where there is no data.
pub fn append(
    image: &mut [u8],
    areas: &[Area],
    base: &[u8],
    path: &[u8],
    data: &[u8],
) -> Result<(), Refusal> {
    let (first, rest) = data.split_at(data.len().min(nffs::APPEND_MOST));
    nffs::append(image, areas, base, path, first)?;
    for piece in rest.chunks(nffs::APPEND_MOST) {
        nffs::append(image, areas, base, path, piece)?;
    }
    Ok(())
}
