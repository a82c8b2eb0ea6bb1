//! Walking a path: "the first failing step decides among 9, 10 and 11".

use crate::layout::{is_directory, ROOT};
use crate::mount::{mount, Fate, FileSystem};
use crate::path;
use crate::refusal::Refusal;
use crate::Lookup;

/// "kind" in a lookup's answer and in create's question.
pub const DIRECTORY: u32 = 0;
pub const FILE: u32 = 1;

/// The ids of the live children of that name, in order of id.
pub fn children(fs: &FileSystem, directory: u32, name: &[u8]) -> Vec<u32> {
    fs.inodes()
        .filter(|inode| inode.parent == directory && inode.name == name)
        .filter(|inode| fs.fate(inode.id) == Fate::Live)
        .map(|inode| inode.id)
        .collect()
}

/// One step: 11 below a file, 9 for no child, 10 for two or more.
fn step(fs: &FileSystem, at: u32, name: &[u8]) -> Result<u32, Refusal> {
    if !is_directory(at) {
        return Err(Refusal::WrongKind);
    }
    match children(fs, at, name)[..] {
        [] => Err(Refusal::Absent),
        [child] => Ok(child),
        _ => Err(Refusal::Ambiguous),
    }
}

/// The inode that the names lead to from the root.
pub fn walk(fs: &FileSystem, names: &[Vec<u8>]) -> Result<u32, Refusal> {
    names.iter().try_fold(ROOT, |at, name| step(fs, at, name))
}

pub fn lookup(image: &[u8], areas: &[u32], base: &[u8], path: &[u8]) -> Lookup {
    match find(image, areas, base, path) {
        Ok(id) => Lookup { number: 0, id, kind: if is_directory(id) { DIRECTORY } else { FILE } },
        Err(refusal) => Lookup { number: refusal.number(), ..Lookup::default() },
    }
}

pub fn find(image: &[u8], areas: &[u32], base: &[u8], path: &[u8]) -> Result<u32, Refusal> {
    let fs = mount(image, areas)?;
    let names = path::names(base, path)?;
    walk(&fs, &names)
}
