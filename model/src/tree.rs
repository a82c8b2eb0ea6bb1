//! "Tree listing" (document 02, T-07): "every live inode: one line each, its depth as
//! spaces, its name (a newline in it printed as `/`), and for files the size or
//! `broken`."

use crate::file::{contents, size};
use crate::layout::{is_file, Inode, ROOT};
use crate::mount::{mount, Fate, FileSystem};
use crate::Tree;

/// The depth at which there are no entries: "A directory's children at depth 65 give
/// one line, 65 spaces and `deeper`".
pub const DEEPER: usize = 65;

/// Checks 1 to 7, then as much of the text as fits, in the front of the buffer. The
/// length is that of the whole text.
pub fn tree(image: &[u8], areas: &[u32], buffer: &mut [u8]) -> Tree {
    let text = match mount(image, areas) {
        Ok(fs) => text(&fs),
        Err(refusal) => return Tree { number: refusal.number(), length: 0 },
    };
    let fits = text.len().min(buffer.len());
    buffer[..fits].copy_from_slice(&text[..fits]);
    Tree { number: 0, length: text.len() as u32 }
}

/// "The root is `/`, depth 0".
pub fn text(fs: &FileSystem) -> Vec<u8> {
    let root = line(0, b"/");
    [root, directory(fs, ROOT, 1)].concat()
}

/// "showing a directory shows its entries", which are at this depth. Each directory
/// whose children are at depth 65 has its own line for them.
fn directory(fs: &FileSystem, id: u32, depth: usize) -> Vec<u8> {
    let children = children(fs, id);
    if depth == DEEPER && !children.is_empty() {
        return line(depth, b"deeper");
    }
    children.into_iter().flat_map(|child| entry(fs, child, depth)).collect()
}

/// "showing an entry that is a directory shows that directory".
fn entry(fs: &FileSystem, inode: &Inode, depth: usize) -> Vec<u8> {
    let name = printed(&inode.name);
    if is_file(inode.id) {
        let whole = [&name[..], b" ", &size_of(fs, inode.id)].concat();
        return line(depth, &whole);
    }
    [line(depth, &name), directory(fs, inode.id, depth + 1)].concat()
}

/// The live children, "in order of name bytes, then id": by the name's own bytes, a
/// shorter name before a longer one that it begins.
fn children(fs: &FileSystem, directory: u32) -> Vec<&Inode> {
    let live = |inode: &&Inode| fs.fate(inode.id) == Fate::Live;
    let mut children: Vec<&Inode> =
        fs.inodes().filter(|inode| inode.parent == directory).filter(live).collect();
    children.sort_by(|a, b| (&a.name, a.id).cmp(&(&b.name, b.id)));
    children
}

/// "a newline in it printed as `/`".
fn printed(name: &[u8]) -> Vec<u8> {
    name.iter().map(|byte| if *byte == b'\n' { b'/' } else { *byte }).collect()
}

/// "for files the size or `broken`": in decimal, without leading zeros.
fn size_of(fs: &FileSystem, file: u32) -> Vec<u8> {
    match contents(fs, file) {
        Ok(blocks) => size(&blocks).to_string().into_bytes(),
        Err(_) => b"broken".to_vec(),
    }
}

/// "its depth as spaces", what is shown there, and the newline that ends each line.
fn line(depth: usize, shown: &[u8]) -> Vec<u8> {
    [&vec![b' '; depth][..], shown, b"\n"].concat()
}
