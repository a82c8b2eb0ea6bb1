//! "Collect (after source document 004)."

use crate::layout::{AreaHeader, Block, Inode, Record};
use crate::mount::{mount, Fate, FileArea, FileSystem};
use crate::refusal::{number, Refusal};
use crate::write::{erase_and_head, put};

pub fn collect(image: &mut [u8], areas: &[u32]) -> u32 {
    number(try_collect(image, areas))
}

fn try_collect(image: &mut [u8], areas: &[u32]) -> Result<(), Refusal> {
    let fs = mount(image, areas)?;
    let source = source(&fs).ok_or(Refusal::NoSource)?;
    let from = &fs.file_areas[source];
    fill_scratch(image, &fs, from.header.id, &copies(&fs, source));
    // "the source is erased and becomes scratch with its count plus one (255
    // goes to 0)."
    let count = from.header.count.wrapping_add(1);
    erase_and_head(image, &from.at, count, AreaHeader::SCRATCH);
    Ok(())
}

/// "The source area is the first eligible one (as long as scratch), in
/// descriptor order, that no eligible area precedes; if there is none, the
/// first eligible one" (document 02, T-14). An index into the file areas.
pub fn source(fs: &FileSystem) -> Option<usize> {
    let eligible = || (0..fs.file_areas.len()).filter(|i| is_eligible(fs, &fs.file_areas[*i]));
    let count = |i: usize| fs.file_areas[i].header.count;
    let preceded = |i: usize| eligible().any(|other| count_precedes(count(other), count(i)));
    let mut unpreceded = eligible().filter(|i| !preceded(*i));
    unpreceded.next().or_else(|| eligible().next())
}

/// "eligible ... (as long as scratch)".
pub fn is_eligible(fs: &FileSystem, area: &FileArea) -> bool {
    area.at.len() == fs.scratch.at.len()
}

/// "count a precedes count b when (b - a) taken modulo 256 is 1 to 127"
/// (document 02, T-14).
pub fn count_precedes(a: u8, b: u8) -> bool {
    (1..=127).contains(&b.wrapping_sub(a))
}

/// "A scratch area not FF after its header is erased first and its header
/// restored. Scratch takes the source's id; the counting records ... are
/// copied byte for byte". It keeps its own count.
fn fill_scratch(image: &mut [u8], fs: &FileSystem, id: u8, copies: &[&Record]) {
    let scratch = fs.scratch.at.clone();
    image[scratch.start + AreaHeader::SIZE..scratch.end].fill(0xff);
    image[scratch.start + AreaHeader::ID_AT] = id;
    let mut at = scratch.start + AreaHeader::SIZE;
    for record in copies {
        put(image, at, &record.bytes());
        at += record.size();
    }
}

/// "the counting records that lie in the source ... in order of their first
/// place there, each once".
fn copies(fs: &FileSystem, source: usize) -> Vec<&Record> {
    let mut copies = Vec::new();
    for record in in_source(fs, source) {
        let counts = fs.counting(record.id()) == Some(record);
        if counts && !copies.contains(&record) && is_kept(fs, source, record) {
            copies.push(record);
        }
    }
    copies
}

fn is_kept(fs: &FileSystem, source: usize, record: &Record) -> bool {
    match record {
        Record::Block(block) => {
            fs.fate(block.owner) != Fate::Dead || block_stays(fs, source, block)
        }
        Record::Inode(inode) => fs.fate(inode.id) != Fate::Dead || inode_stays(fs, source, inode),
    }
}

/// "A dead block isn't copied if no other file area has a record of its id."
fn block_stays(fs: &FileSystem, source: usize, block: &Block) -> bool {
    elsewhere(fs, source).any(|other| other.id() == block.id)
}

/// "A dead inode isn't copied if no accepted record, as they stood before the
/// collection, names its id as id, parent or owner, its own records in the
/// source area apart."
fn inode_stays(fs: &FileSystem, source: usize, inode: &Inode) -> bool {
    let others_there = in_source(fs, source).filter(|record| record.id() != inode.id);
    let mut considered = elsewhere(fs, source).chain(others_there);
    considered.any(|record| names_inode(record, inode.id))
}

fn names_inode(record: &Record, id: u32) -> bool {
    match record {
        Record::Inode(inode) => inode.id == id || inode.parent == id,
        Record::Block(block) => block.owner == id,
    }
}

/// The accepted records in the source area.
fn in_source(fs: &FileSystem, source: usize) -> impl Iterator<Item = &Record> {
    fs.file_areas[source].reading.records.iter().map(|taken| &taken.record)
}

/// The accepted records in the other file areas.
fn elsewhere(fs: &FileSystem, source: usize) -> impl Iterator<Item = &Record> {
    let others = fs.file_areas.iter().enumerate().filter(move |(i, _)| *i != source);
    others.flat_map(|(_, area)| area.reading.records.iter().map(|taken| &taken.record))
}
