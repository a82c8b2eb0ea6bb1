//! "Rename and move" (document 02, T-01).

use crate::layout::{Inode, ROOT};
use crate::lookup::walk;
use crate::mount::{mount, FileSystem};
use crate::path;
use crate::refusal::{number, Refusal};
use crate::write::{name_is_new, Plan};

/// "Add renaming by two paths". One base serves both.
pub fn rename(image: &mut [u8], areas: &[u32], base: &[u8], old: &[u8], new: &[u8]) -> u32 {
    number(try_rename(image, areas, base, old, new))
}

fn try_rename(
    image: &mut [u8],
    areas: &[u32],
    base: &[u8],
    old: &[u8],
    new: &[u8],
) -> Result<(), Refusal> {
    let fs = mount(image, areas)?;
    // 8 of either path comes before any walk.
    let old = path::names(base, old)?;
    let new = path::names(base, new)?;
    // "A new path "/" is 8." An old path "/" isn't: the root is found, and is 18.
    let Some((name, above)) = new.split_last() else { return Err(Refusal::BadRequest) };
    // "The old path is walked first."
    let moved = walk(&fs, &old)?;
    // "the new name being there is 12, and the new parent being a file is 11":
    // as create walks and asks.
    let parent = walk(&fs, above)?;
    name_is_new(&fs, parent, name)?;
    stays_in_the_tree(&fs, moved, parent)?;
    let sequence = fs.inode(moved).map_or(0, |inode| inode.sequence);
    let next = sequence.checked_add(1).ok_or(Refusal::LastSequence)?;
    // "the inode is rewritten with the same id, sequence plus one, and the new
    // parent and name; it goes where any new record goes." No id is new, so 5
    // isn't tested again.
    let mut plan = Plan::new(&fs);
    plan.add(Inode::new(moved, next, parent, name).bytes())?;
    plan.write(image);
    Ok(())
}

/// "Moving a directory below itself, or the root, gets a new number, 18, checked
/// after 12".
fn stays_in_the_tree(fs: &FileSystem, moved: u32, parent: u32) -> Result<(), Refusal> {
    if moved == ROOT || is_within(fs, parent, moved) {
        return Err(Refusal::BelowItself);
    }
    Ok(())
}

/// Whether a live directory is this one or lies below it, by its ancestors below
/// the root.
pub fn is_within(fs: &FileSystem, directory: u32, moved: u32) -> bool {
    let mut at = directory;
    while at != ROOT {
        if at == moved {
            return true;
        }
        at = fs.inode(at).map_or(ROOT, |inode| inode.parent);
    }
    false
}
