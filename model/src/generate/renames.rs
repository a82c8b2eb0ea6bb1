//! Trees to move things about in, and the names of renames (T-01).

use std::ops::Range;

use super::images::{fill_up, place, write_headers};
use super::paths::{name, names_of};
use super::places;
use super::random::Random;
use crate::forge::Flash;
use crate::layout::{is_directory, is_file, Block, Inode, FIRST_BLOCK, FIRST_FILE, NONE, ROOT};
use crate::lookup::walk;
use crate::mount::{Fate, FileArea, FileSystem};
use crate::path::NAME;
use crate::rename::is_within;

pub type Names = Vec<Vec<u8>>;

/// Sequences, the last one and the one before it among them.
const LATE: [u32; 6] = [0, 0, 1, 5, 0xffff_fffe, 0xffff_ffff];

/// Directories below and beside each other with files in them, some of them of
/// one name, broken, dead or without a parent. Often there is little room.
pub fn tree(r: &mut Random) -> Flash {
    let lengths = vec![r.between(300, 800); r.between(2, 4)];
    let mut flash = place(r, &lengths);
    let scratch = write_headers(r, &mut flash);
    let mut inodes = vec![Inode::new(ROOT, r.pick(&LATE), NONE, b"")];
    for id in 1..=r.between(2, 6) as u32 {
        let last = id - 1;
        let parent = if r.chance(65) { last } else { r.below(id as usize) as u32 };
        inodes.push(Inode::new(id, r.pick(&LATE), parent, &name(r)));
    }
    let directories = inodes.len();
    let earlier = earlier_places(r, &inodes);
    for id in FIRST_FILE..FIRST_FILE + r.below(4) as u32 {
        let parent = if r.chance(90) { r.below(directories) as u32 } else { r.pick(&[NONE, 9]) };
        let mut file = Inode::new(id, r.pick(&LATE), parent, &name(r));
        if r.chance(15) {
            let twin = &inodes[r.between(1, inodes.len() - 1)];
            (file.parent, file.name) = (twin.parent, twin.name.clone());
        }
        inodes.push(file);
    }
    inodes.extend(earlier);
    let records = inodes.iter().map(Inode::bytes).chain(blocks(r, &inodes));
    let files: Vec<usize> = (0..lengths.len()).filter(|area| *area != scratch).collect();
    for record in records.collect::<Vec<Vec<u8>>>() {
        let _ = files.iter().any(|area| flash.put(*area, &record));
    }
    for area in files {
        if r.chance(50) {
            fill_up(r, &mut flash, area);
        }
    }
    flash
}

/// Records by which some of these directories lay in others before.
fn earlier_places(r: &mut Random, directories: &[Inode]) -> Vec<Inode> {
    let moved = directories.iter().skip(1).filter(|inode| inode.sequence > 0);
    let moved: Vec<&Inode> = moved.filter(|_| r.chance(30)).collect();
    let earlier = |inode: &&Inode| {
        let parent = r.below(directories.len()) as u32;
        Inode::new(inode.id, inode.sequence - 1, parent, &name(r))
    };
    moved.iter().map(earlier).collect()
}

/// A block of each file; sometimes it names one before it that isn't there.
fn blocks(r: &mut Random, inodes: &[Inode]) -> Vec<Vec<u8>> {
    let files = inodes.iter().map(|inode| inode.id).filter(|id| is_file(*id));
    let block = |(owner, id)| {
        let previous = if r.chance(80) { NONE } else { FIRST_BLOCK + 9 };
        Block::new(id, 0, owner, previous, b"moved").bytes()
    };
    files.zip(FIRST_BLOCK..).map(block).collect()
}

/// Whether there is something that other images seldom have to rename: a
/// directory three below the root, or an inode with the last sequence.
pub fn is_worth_it(fs: &FileSystem) -> bool {
    let third = |inode: &Inode| {
        let up = |id: u32| fs.inode(id).map_or(ROOT, |above| above.parent);
        is_directory(inode.id) && inode.parent != ROOT && up(inode.parent) != ROOT
    };
    fs.inodes().any(|inode| inode.sequence == u32::MAX || third(inode))
}

/// Where the newest record of an inode lies that had another name or parent
/// before: the record of a rename, or one like it.
pub fn renamed(r: &mut Random, fs: &FileSystem) -> Option<Range<usize>> {
    let moved = |inode: &Inode| {
        let versions = fs.accepted().filter_map(|record| record.inode());
        let mut others = versions.filter(|other| other.id == inode.id && !other.is_deletion());
        others.any(|other| (other.parent, &other.name) != (inode.parent, &inode.name))
    };
    let places = places(fs, &|record| record.inode().is_some_and(moved));
    (!places.is_empty()).then(|| r.pick(&places))
}

/// The names of a rename's old path and of its new one.
pub fn two_names(r: &mut Random, fs: &FileSystem) -> (Names, Names) {
    let live: Vec<u32> =
        fs.inodes().map(|inode| inode.id).filter(|id| fs.fate(*id) == Fate::Live).collect();
    let turned = former_children(fs, &live);
    if !turned.is_empty() && r.chance(25) {
        let (parent, child) = r.pick(&turned);
        let new = [&names_of(fs, child)[..], &[new_name(r, fs)]].concat();
        return (names_of(fs, parent), new);
    }
    let deepest = if r.chance(15) { last_directory(fs, &live) } else { Names::new() };
    if deepest.len() >= 63 {
        let old = deepest[..r.between(1, 2)].to_vec();
        return (old, [&deepest[..], &[new_name(r, fs)]].concat());
    }
    let old = old_names(r, fs, &live);
    let new = new_names(r, fs, &live, &old);
    (old, new)
}

/// The names of the live directory of the greatest id: where directories lie deep,
/// mostly the deepest.
fn last_directory(fs: &FileSystem, live: &[u32]) -> Names {
    let directories = live.iter().filter(|id| is_directory(**id));
    names_of(fs, directories.max().copied().unwrap_or(ROOT))
}

/// Live directories with others that were their children by an older record and
/// lie elsewhere now.
fn former_children(fs: &FileSystem, live: &[u32]) -> Vec<(u32, u32)> {
    let versions = fs.accepted().filter_map(|record| record.inode());
    let directories = versions.filter(|inode| is_directory(inode.id));
    let pairs = directories.map(|inode| (inode.parent, inode.id));
    let both_live = |(parent, child): &(u32, u32)| live.contains(parent) && live.contains(child);
    let apart = |(parent, child): &(u32, u32)| *parent != ROOT && !is_within(fs, *child, *parent);
    pairs.filter(|pair| both_live(pair) && apart(pair)).collect()
}

/// Those of something live, oftener of what lies directly below the root or has
/// the last sequence; sometimes the root's, sometimes of nothing.
fn old_names(r: &mut Random, fs: &FileSystem, live: &[u32]) -> Names {
    let of = |holds: &dyn Fn(&Inode) -> bool| {
        let holds = |id: &u32| fs.inode(*id).is_some_and(holds);
        live.iter().copied().filter(holds).collect::<Vec<u32>>()
    };
    let chosen = match r.below(20) {
        0 => vec![ROOT],
        1 => return strange_names(r),
        2..=4 => of(&|inode| inode.sequence == u32::MAX),
        5..=9 => of(&|inode| is_directory(inode.id) && inode.parent == ROOT),
        10..=14 => of(&|inode| is_directory(inode.id) && inode.id != ROOT),
        _ => of(&|inode| is_file(inode.id)),
    };
    let others = of(&|inode| inode.id != ROOT);
    if chosen.is_empty() && others.is_empty() {
        return if r.chance(50) { Names::new() } else { strange_names(r) };
    }
    let moved = r.pick(if chosen.is_empty() { &others } else { &chosen });
    let mut names = names_of(fs, moved);
    if r.chance(6) {
        names.push(name(r));
    }
    names
}

/// Names of nothing, mostly.
pub fn strange_names(r: &mut Random) -> Names {
    (0..r.between(1, 3)).map(|_| name(r)).collect()
}

/// Names that are free, taken, below the old path, below a file or nowhere.
fn new_names(r: &mut Random, fs: &FileSystem, live: &[u32], old: &[Vec<u8>]) -> Names {
    let (directories, files): (Vec<u32>, Vec<u32>) =
        live.iter().copied().partition(|id| is_directory(*id));
    let mut names = match r.below(24) {
        0..=3 => old[..old.len().saturating_sub(1)].to_vec(),
        4..=9 => names_of(fs, r.pick(&directories)),
        10 | 11 => old[..r.below(old.len().max(1))].to_vec(),
        12..=15 => below(r, fs, &directories, old),
        16 => return names_of(fs, r.pick(&within(fs, live, old))),
        17 => return names_of(fs, taken(r, fs, live)),
        18 => return old.to_vec(),
        19 => names_of(fs, if files.is_empty() { ROOT } else { r.pick(&files) }),
        20 => [old, &strange_names(r)].concat(),
        21 => names_of(fs, r.pick(live)).into_iter().chain(strange_names(r)).collect(),
        22 => return strange_names(r),
        _ => return Names::new(),
    };
    names.push(new_name(r, fs));
    names
}

/// A live inode; oftener one of two with one name, where there are such.
fn taken(r: &mut Random, fs: &FileSystem, live: &[u32]) -> u32 {
    let entry = |id: &u32| fs.inode(*id).map(|inode| (inode.parent, &inode.name));
    let twin = |id: &&u32| live.iter().any(|other| other != *id && entry(other) == entry(id));
    let twins: Vec<u32> = live.iter().filter(twin).copied().collect();
    if twins.is_empty() || r.chance(20) {
        return r.pick(live);
    }
    r.pick(&twins)
}

/// What is to be moved or lies below it, of these ids; the root if there is none.
fn within(fs: &FileSystem, of: &[u32], old: &[Vec<u8>]) -> Vec<u32> {
    let moved = walk(fs, old).unwrap_or(ROOT);
    let within: Vec<u32> =
        of.iter().copied().filter(|id| moved == ROOT || is_within(fs, *id, moved)).collect();
    if within.is_empty() {
        return vec![ROOT];
    }
    within
}

/// A directory below what is to be moved: any, or a deep one.
fn below(r: &mut Random, fs: &FileSystem, directories: &[u32], old: &[Vec<u8>]) -> Names {
    let within = within(fs, directories, old);
    let some: Vec<u32> = (0..r.pick(&[1, 2])).map(|_| r.pick(&within)).collect();
    some.into_iter().map(|id| names_of(fs, id)).max_by_key(Vec::len).unwrap_or_default()
}

/// A name; where there is little room, oftener one whose record just fits or is
/// a byte too long.
fn new_name(r: &mut Random, fs: &FileSystem) -> Vec<u8> {
    let room = |area: &FileArea| area.at.len() - area.reading.free;
    let clean = fs.file_areas.iter().filter(|area| area.reading.is_clean());
    let fitting = clean.map(room).max().unwrap_or(0).saturating_sub(Inode::HEADER);
    let length = fitting + r.below(2);
    if (1..=NAME).contains(&length) && r.chance(30) {
        return vec![b'r'; length];
    }
    name(r)
}
