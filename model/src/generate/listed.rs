//! What is rare about tree listings (T-07), told by the whole paths of the live inodes.

use std::collections::{BTreeMap, BTreeSet};

use super::made::{holding, mounts, Made};
use crate::compare::Side;
use crate::file::{contents, size};
use crate::layout::{is_directory, is_file, Inode, ROOT};
use crate::mount::{Fate, FileSystem, INODES};
use crate::tree::DEEPER;

/// A live inode below the root, with the names and ids from the root down to it. In the
/// order of these a directory stands before what lies in it, and its entries stand in
/// order of name, then id.
#[derive(PartialEq, Eq, PartialOrd, Ord)]
pub struct Entry<'a> {
    path: Vec<(&'a [u8], u32)>,
}

impl Entry<'_> {
    fn depth(&self) -> usize {
        self.path.len()
    }

    fn name(&self) -> &[u8] {
        self.path[self.depth() - 1].0
    }

    fn id(&self) -> u32 {
        self.path[self.depth() - 1].1
    }

    fn parent(&self) -> u32 {
        self.depth().checked_sub(2).map_or(ROOT, |above| self.path[above].1)
    }

    /// Whether it has a line of its own.
    fn is_shown(&self) -> bool {
        self.depth() < DEEPER
    }
}

/// How many inodes lie between a live inode and the root, itself counted; 0 for others.
pub fn depth(fs: &FileSystem, id: u32) -> usize {
    let up = |id: &u32| fs.inode(*id).filter(|inode| inode.id != ROOT).map(|inode| inode.parent);
    let above: Vec<u32> = std::iter::successors(Some(id), up).take(INODES + 1).collect();
    if above.last() == Some(&ROOT) {
        above.len() - 1
    } else {
        0
    }
}

/// The live inodes below the root, in order.
pub fn entries(fs: &FileSystem) -> Vec<Entry<'_>> {
    let path = |inode: &Inode| {
        let up = |inode: &&Inode| fs.inode(inode.parent).filter(|parent| parent.id != ROOT);
        let own = fs.inode(inode.id);
        let mut path: Vec<(&[u8], u32)> =
            std::iter::successors(own, up).map(|at| (&at.name[..], at.id)).collect();
        path.reverse();
        path
    };
    let below = fs.inodes().filter(|inode| inode.id != ROOT && fs.fate(inode.id) == Fate::Live);
    let mut entries: Vec<Entry> = below.map(|inode| Entry { path: path(inode) }).collect();
    entries.sort();
    entries
}

/// The text of a listing, told by these.
pub fn by_paths(fs: &FileSystem) -> Vec<u8> {
    let (mut text, mut deeper) = (b"/\n".to_vec(), BTreeSet::new());
    for entry in entries(fs) {
        if entry.is_shown() {
            text.extend(b" ".repeat(entry.depth()));
            text.extend(entry.name().iter().map(|byte| if *byte == 10 { 47 } else { *byte }));
            text.extend(if is_file(entry.id()) { told(fs, entry.id()) } else { Vec::new() });
            text.push(b'\n');
        } else if entry.depth() == DEEPER && deeper.insert(entry.parent()) {
            text.extend([&b" ".repeat(DEEPER)[..], b"deeper\n"].concat());
        }
    }
    text
}

/// What stands behind a file's name.
fn told(fs: &FileSystem, file: u32) -> Vec<u8> {
    let size = contents(fs, file).map(|blocks| size(&blocks));
    size.map_or_else(|_| " broken".to_string(), |size| format!(" {size}")).into_bytes()
}

/// What a listing has by what it is given.
pub fn in_tree(length: usize, side: &Side) -> Vec<Made> {
    let Some(fs) = mounts(side) else { return Vec::new() };
    let entries = entries(&fs);
    [
        in_depths(&fs, &entries),
        in_orders(&entries),
        in_names(&entries),
        in_files(&fs, &entries),
        in_absent(&fs),
        in_buffer(length, &by_paths(&fs)),
    ]
    .concat()
}

/// What lies at depth 64 and below it.
fn in_depths(fs: &FileSystem, entries: &[Entry]) -> Vec<Made> {
    let at = |depth: usize| entries.iter().filter(move |entry| entry.depth() == depth);
    let mut deeper: BTreeMap<u32, Vec<u32>> = BTreeMap::new();
    at(DEEPER).for_each(|entry| deeper.entry(entry.parent()).or_default().push(entry.id()));
    let first = entries.iter().position(|entry| !entry.is_shown()).unwrap_or(entries.len());
    let empty = |entry: &&Entry| is_directory(entry.id()) && !deeper.contains_key(&entry.id());
    let had = |entry: &Entry| {
        fs.accepted().filter_map(|record| record.inode()).any(|old| old.parent == entry.id())
    };
    holding(&[
        (Made::DeeperLine, !deeper.is_empty()),
        (Made::TwoDeeperLines, deeper.len() > 1),
        (Made::DeeperForSeveral, deeper.values().any(|ids| ids.len() > 1)),
        (Made::DeeperForFilesAlone, deeper.values().any(|ids| ids.iter().all(|id| is_file(*id)))),
        (Made::LineBehindDeeper, entries[first..].iter().any(Entry::is_shown)),
        (Made::LiveBelowDeeper, at(DEEPER + 1).count() > 0),
        (Made::FileAtDepth64, at(DEEPER - 1).any(|entry| is_file(entry.id()))),
        (Made::EmptyDirectoryAtDepth64, at(DEEPER - 1).any(|entry| empty(&entry) && !had(entry))),
        (Made::FormerEntriesAtDepth65, at(DEEPER - 1).any(|entry| empty(&entry) && had(entry))),
        (Made::ListingOf256Inodes, entries.len() + 1 == INODES && first == entries.len()),
    ])
}

/// The names of the entries of each directory that have lines, in order.
fn directories<'a>(entries: &'a [Entry]) -> Vec<Vec<&'a Entry<'a>>> {
    let mut directories: BTreeMap<u32, Vec<&Entry>> = BTreeMap::new();
    for entry in entries.iter().filter(|entry| entry.is_shown()) {
        directories.entry(entry.parent()).or_default().push(entry);
    }
    directories.into_values().collect()
}

/// By which other orders the entries of a directory, or all of them, were listed
/// otherwise.
fn in_orders(entries: &[Entry]) -> Vec<Made> {
    let directories = directories(entries);
    let mapped = |entry: &Entry, map: fn(u8) -> i16| {
        entry.name().iter().map(|byte| map(*byte)).collect::<Vec<i16>>()
    };
    let printed = |entry: &Entry| mapped(entry, |byte| if byte == 10 { 47 } else { byte.into() });
    let signed = |entry: &Entry| mapped(entry, |byte| (byte as i8).into());
    let longer = |entry: &Entry| (entry.name().len(), entry.name().to_vec());
    let ids = |of: &[&Entry]| of.is_sorted_by_key(|entry| entry.id());
    let shown = || entries.iter().filter(|entry| entry.is_shown());
    let joined = |entry: &Entry| {
        entry.path.iter().map(|(name, _)| *name).collect::<Vec<&[u8]>>().join(&b'/')
    };
    let followed = |two: &[Entry]| two[1].depth() < two[0].depth();
    holding(&[
        (Made::NewlineSortsOtherwise, directories.iter().any(|of| !sorted(of, &printed))),
        (Made::ByteOver7fSortsOtherwise, directories.iter().any(|of| !sorted(of, &signed))),
        (Made::LengthSortsOtherwise, directories.iter().any(|of| !sorted(of, &longer))),
        (Made::IdsNotInOrderOfNames, !directories.iter().all(|of| ids(of))),
        (Made::PathsSortOtherwise, !shown().is_sorted_by_key(joined)),
        (Made::EntryBehindADirectory, entries.windows(2).any(followed)),
    ])
}

fn sorted<T: PartialOrd>(entries: &[&Entry], key: &dyn Fn(&Entry) -> T) -> bool {
    entries.is_sorted_by_key(|entry| key(entry))
}

/// Names of the entries of one directory. Of those that begin with the same bytes two
/// stand side by side.
fn in_names(entries: &[Entry]) -> Vec<Made> {
    let directories = directories(entries);
    let two = |holds: &dyn Fn(&Entry, &Entry) -> bool| {
        directories.iter().any(|of| of.windows(2).any(|two| holds(two[0], two[1])))
    };
    let equal = |a: &Entry, b: &Entry| a.name() == b.name();
    let any = |holds: &dyn Fn(&[u8]) -> bool| directories.iter().flatten().any(|e| holds(e.name()));
    holding(&[
        (Made::TwoFilesOfOneName, two(&|a, b| equal(a, b) && is_file(a.id()))),
        (Made::TwoDirectoriesOfOneName, two(&|a, b| equal(a, b) && is_directory(b.id()))),
        (
            Made::FileAndDirectoryOfOneName,
            two(&|a, b| equal(a, b) && is_directory(a.id()) && is_file(b.id())),
        ),
        (Made::NameBeginsAnother, two(&|a, b| b.name().starts_with(a.name()) && !equal(a, b))),
        (Made::NamesAlikeFor250Bytes, two(&|a, b| alike(a.name(), b.name()) && !equal(a, b))),
        (Made::NewlineInAName, any(&|name| name.contains(&b'\n'))),
        (Made::SpaceInAName, any(&|name| name.starts_with(b" ") || name.ends_with(b" "))),
        (Made::NameOf255Bytes, any(&|name| name.len() == 255)),
    ])
}

fn alike(a: &[u8], b: &[u8]) -> bool {
    a.len() >= 250 && b.len() >= 250 && a[..250] == b[..250]
}

/// What stands behind the names of files.
fn in_files(fs: &FileSystem, entries: &[Entry]) -> Vec<Made> {
    let files = entries.iter().filter(|entry| entry.is_shown() && is_file(entry.id()));
    let all: Vec<_> = files.map(|entry| contents(fs, entry.id())).collect();
    let whole = || all.iter().flatten();
    let sizes: Vec<usize> = whole().map(|blocks| size(blocks)).collect();
    holding(&[
        (Made::BrokenFileListed, all.iter().any(Result::is_err)),
        (Made::EmptyFileListed, sizes.contains(&0)),
        (Made::SizeWithA0, sizes.iter().any(|size| *size > 0 && size.to_string().contains('0'))),
        (Made::SizeOfThreeDigits, sizes.iter().any(|size| *size >= 100)),
        (Made::SizeOfFiveDigits, sizes.iter().any(|size| *size >= 10_000)),
        (Made::SizeOfThreeBlocks, whole().any(|blocks| blocks.len() >= 3)),
    ])
}

/// What isn't listed though it has records.
fn in_absent(fs: &FileSystem) -> Vec<Made> {
    let fate = |inode: &Inode| fs.fate(inode.id);
    let any = |holds: &dyn Fn(&Inode) -> bool| fs.inodes().any(holds);
    let lost = |inode: &Inode| fs.inode(inode.parent).is_none();
    let below = |inode: &Inode| !inode.is_deletion() && fate(inode) == Fate::Dead;
    let mut records = fs.accepted().filter_map(|record| record.inode());
    let former = |old: &Inode| {
        let now = fs.inode(old.id).filter(|now| fs.fate(now.id) == Fate::Live);
        now.is_some_and(|now| now.parent != old.parent || now.name != old.name)
    };
    holding(&[
        (Made::DeletedAbsent, any(&Inode::is_deletion)),
        (Made::BelowTheDeadAbsent, any(&below)),
        (Made::OrphanAbsent, any(&|inode| fate(inode) == Fate::Orphan && lost(inode))),
        (Made::LoopAbsent, any(&|inode| loops(fs, inode.id))),
        (Made::FormerNameAbsent, records.any(former)),
    ])
}

/// Whether the parents of an inode don't end.
fn loops(fs: &FileSystem, id: u32) -> bool {
    let up = |id: &u32| fs.inode(*id).map(|inode| inode.parent);
    std::iter::successors(Some(id), up).take(INODES + 2).count() == INODES + 2
}

/// How much of the text fits.
fn in_buffer(length: usize, text: &[u8]) -> Vec<Made> {
    let cut = (1..text.len()).contains(&length);
    let at_an_end = cut && text[length - 1] == b'\n';
    holding(&[
        (Made::TextWithoutABuffer, length == 0),
        (Made::TextCutInALine, cut && !at_an_end),
        (Made::TextCutAtALine, at_an_end),
        (Made::TextOneByteTooLong, length + 1 == text.len()),
        (Made::TextFillsTheBuffer, length == text.len()),
        (Made::TextLeavesARest, length > text.len()),
        (Made::TextOver65535, text.len() > 0xffff),
        (Made::TextCutBehind65535, cut && length > 0xffff),
    ])
}
