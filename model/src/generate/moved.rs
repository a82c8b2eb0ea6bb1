//! What is rare about renames (T-01): the rules that refuse one, what an accepted
//! one moves, and what comes back when its record is damaged.

use super::made::{holding, in_path, mounts, Made};
use crate::compare::Side;
use crate::file::contents;
use crate::layout::{is_directory, is_file, Inode, ROOT};
use crate::lookup::{children, walk};
use crate::mount::{Fate, FileArea, FileSystem, INODES};
use crate::path::{self, NAME};
use crate::refusal::Refusal;
use crate::write::name_is_new;

/// The rules that can refuse a rename of an image that mounts, in their order.
#[derive(Clone, Copy, Debug, PartialEq, Eq, PartialOrd, Ord)]
pub enum Rule {
    /// 8, of either path.
    Path,
    /// 9, 10 or 11.
    OldWalk,
    /// 9, 10 or 11.
    NewWalk,
    /// 12.
    NewName,
    /// 18.
    BelowItself,
    /// 16.
    Sequence,
    /// 15.
    Room,
}

/// A rename, with the names of its paths where they are good, and where they lead.
struct Rename<'a> {
    fs: &'a FileSystem,
    old: Option<Vec<Vec<u8>>>,
    /// Not of "/".
    new: Option<Vec<Vec<u8>>>,
    moved: Option<Result<u32, Refusal>>,
    /// Where the new name is to stand and isn't yet.
    parent: Option<Result<u32, Refusal>>,
}

/// The rules that a rename breaks, each asked by itself and for names alone where
/// an earlier one leaves no more, with the numbers that they give. The answer is
/// the first of them, or 0.
pub fn broken_rules(fs: &FileSystem, base: &[u8], old: &[u8], new: &[u8]) -> Vec<(Rule, u32)> {
    Rename::of(fs, base, old, new).broken()
}

impl Rename<'_> {
    fn of<'a>(fs: &'a FileSystem, base: &[u8], old: &[u8], new: &[u8]) -> Rename<'a> {
        let old = path::names(base, old).ok();
        let new = path::names(base, new).ok().filter(|names| !names.is_empty());
        let moved = old.as_ref().map(|names| walk(fs, names));
        let parent = new.as_ref().and_then(|names| names.split_last()).map(|(name, above)| {
            walk(fs, above).and_then(|parent| name_is_new(fs, parent, name).map(|()| parent))
        });
        Rename { fs, old, new, moved, parent }
    }

    fn broken(&self) -> Vec<(Rule, u32)> {
        let bad = self.old.is_none() || self.new.is_none();
        let old_walk = self.moved.and_then(Result::err);
        let new_walk = self.parent.and_then(Result::err);
        let mut rules = vec![
            (Rule::Path, bad.then_some(Refusal::BadRequest)),
            (Rule::OldWalk, old_walk),
            (Rule::NewWalk, new_walk.filter(|refusal| *refusal != Refusal::NameTaken)),
            (Rule::NewName, new_walk.filter(|refusal| *refusal == Refusal::NameTaken)),
            (Rule::BelowItself, self.levels().map(|_| Refusal::BelowItself)),
        ];
        let last = self.inode().is_some_and(|inode| inode.sequence == u32::MAX);
        rules.push((Rule::Sequence, last.then_some(Refusal::LastSequence)));
        let too_long = self.new.is_some() && self.rooms().all(|room| room < self.size());
        rules.push((Rule::Room, too_long.then_some(Refusal::NoRoom)));
        rules.into_iter().filter_map(|(rule, broken)| Some((rule, broken?.number()))).collect()
    }

    /// The counting record of what is to be moved.
    fn inode(&self) -> Option<&Inode> {
        self.fs.inode(self.moved?.ok()?)
    }

    /// By how many names the new path is longer than the old one with which it
    /// begins.
    fn levels(&self) -> Option<usize> {
        let below = self.new.as_ref()?.strip_prefix(&self.old.as_ref()?[..])?;
        (!below.is_empty()).then_some(below.len())
    }

    fn name(&self) -> &[u8] {
        self.new.as_ref().and_then(|names| names.last()).map_or(b"", |name| name)
    }

    fn size(&self) -> usize {
        Inode::HEADER + self.name().len()
    }

    /// The free bytes of the clean file areas, in descriptor order.
    fn rooms(&self) -> impl Iterator<Item = usize> + '_ {
        let clean = self.fs.file_areas.iter().filter(|area| area.reading.is_clean());
        clean.map(|area: &FileArea| area.at.len() - area.reading.free)
    }
}

/// What a rename has by what it is given.
pub fn in_rename(base: &[u8], old: &[u8], new: &[u8], side: &Side) -> Vec<Made> {
    let Some(fs) = mounts(side) else { return Vec::new() };
    let rename = Rename::of(&fs, base, old, new);
    let rules = rename.broken();
    let accepted = rules.is_empty();
    let relative = [old, new].iter().filter(|path| path.first() != Some(&b'/')).count();
    let mut made = holding(&[
        (Made::TwoPathsBelowABase, accepted && relative == 2),
        (Made::OnePathBelowABase, accepted && relative == 1),
    ]);
    made.extend([in_path(base, old, accepted), in_path(base, new, accepted)].concat());
    made.extend(refused(&rules));
    made.extend(if accepted { in_accepted(&rename) } else { in_refused(&rename, rules[0].0) });
    made
}

/// The first rule alone, or with each later one that gives another number.
fn refused(rules: &[(Rule, u32)]) -> Vec<Made> {
    match rules {
        [] => Vec::new(),
        [(rule, _)] => vec![Made::RenameBreaks(*rule)],
        [(rule, number), later @ ..] => {
            let others = later.iter().filter(|(_, other)| other != number);
            others.map(|(other, _)| Made::RenameBreaksBoth(*rule, *other)).collect()
        }
    }
}

fn in_accepted(rename: &Rename) -> Vec<Made> {
    let (Some(inode), Some(Ok(parent))) = (rename.inode(), rename.parent) else {
        return Vec::new();
    };
    let fs = rename.fs;
    let live = |child: &Inode| child.parent == inode.id && fs.fate(child.id) == Fate::Live;
    let filled = fs.inodes().any(live) && is_directory(inode.id);
    let up = |id: &u32| fs.inode(*id).filter(|at| at.id != ROOT).map(|at| at.parent);
    let above: Vec<u32> = std::iter::successors(Some(inode.parent), up).skip(1).collect();
    let once = |other: &Inode| other.parent == parent && other.name == rename.name();
    let below = |other: &Inode| (other.id, other.parent) == (parent, inode.id);
    let versions = || fs.accepted().filter_map(|record| record.inode());
    let fitting = rename.rooms().find(|room| *room >= rename.size());
    holding(&[
        (Made::DirectoryMovedWithContents, filled && parent != inode.parent),
        (Made::MovedUp, above.contains(&parent)),
        (Made::NewNameOf255Bytes, rename.name().len() == NAME),
        (Made::MovedBelowAFormerChild, versions().any(below)),
        (Made::NameOfAnotherTimeTaken, versions().any(once)),
        (Made::RenameFillsAnArea, fitting == Some(rename.size())),
        (Made::RenameInAFullTable, fs.inodes().count() == INODES),
        (Made::BrokenFileRenamed, is_file(inode.id) && contents(fs, inode.id).is_err()),
        (Made::LastSequenceReached, inode.sequence == u32::MAX - 1),
    ])
}

fn in_refused(rename: &Rename, by: Rule) -> Vec<Made> {
    let is_root = rename.old.as_ref().is_some_and(Vec::is_empty);
    let below = |levels: usize| {
        by == Rule::BelowItself && !is_root && rename.levels().is_some_and(|by| by >= levels)
    };
    let longest = rename.rooms().max().unwrap_or(0);
    let there = || {
        let (name, above) = rename.new.as_ref()?.split_last()?;
        Some(children(rename.fs, walk(rename.fs, above).ok()?, name).len())
    };
    holding(&[
        (Made::RenamedToItself, by == Rule::NewName && rename.old == rename.new),
        (Made::NewNameThereTwice, by == Rule::NewName && there() > Some(1)),
        (Made::RootMoved, by == Rule::BelowItself && is_root),
        (Made::RootMovedToATakenName, by == Rule::NewName && is_root),
        (Made::BelowItselfByTwo, below(2)),
        (Made::BelowItselfByThree, below(3)),
        (Made::BelowItselfBy63, below(63)),
        (Made::OneByteTooLong, by == Rule::Room && longest + 1 == rename.size()),
    ])
}

/// "A damaged rename record may bring the old name back, or the answer 10."
pub fn in_damage(before: &FileSystem, now: &FileSystem) -> Vec<Made> {
    let lives = |fs: &FileSystem, id: u32| fs.fate(id) == Fate::Live;
    let is_back = |inode: &&Inode| {
        let newer = before.inode(inode.id).filter(|newer| newer.sequence > inode.sequence);
        let moved =
            newer.is_some_and(|other| (other.parent, &other.name) != (inode.parent, &inode.name));
        moved && lives(before, inode.id) && lives(now, inode.id)
    };
    let back: Vec<&Inode> = now.inodes().filter(is_back).collect();
    let twice = |inode: &&Inode| children(now, inode.parent, &inode.name).len() > 1;
    holding(&[
        (Made::OldNameBack, !back.is_empty()),
        (Made::OldNameBackBesideAnother, back.iter().any(twice)),
    ])
}
