//! Acceptable records, and where their fields stand.

use crate::layout::{half, is_block, is_file, word, LAST_DIRECTORY, LAST_FILE, NONE, ROOT};
use crate::style::Style;

pub const INODE_MAGIC: u32 = 0x925f_8bc0;
pub const BLOCK_MAGIC: u32 = 0x53ba_23b9;
pub const INODE_HEADER: usize = 20;
pub const BLOCK_HEADER: usize = 24;
/// The longest data of a block.
pub const DATA: usize = 2048;

#[derive(Clone, Copy, Debug, PartialEq, Eq)]
pub enum Kind {
    Inode,
    Block,
}

/// What the mount wants to know of an acceptable record.
#[derive(Clone, Copy, Debug)]
pub struct Record {
    pub kind: Kind,
    pub id: u32,
    pub sequence: u32,
    pub size: usize,
}

/// The record that starts at the front of `rest`, which ends with the area.
#[inline(always)]
pub fn acceptable<S: Style>(rest: &[u8]) -> Option<Record> {
    match u32::from_le_bytes(*rest.first_chunk()?) {
        INODE_MAGIC => inode::<S>(rest),
        BLOCK_MAGIC => block::<S>(rest),
        _ => None,
    }
}

/// Fields before the check: they cost less.
#[inline]
fn inode<S: Style>(rest: &[u8]) -> Option<Record> {
    let header: &[u8; INODE_HEADER] = rest.first_chunk()?;
    let (id, sequence, parent) = (word(header, 4), word(header, 8), word(header, 12));
    let length = usize::from(header[17]);
    let name = rest.get(INODE_HEADER..INODE_HEADER + length)?;
    let parent_fits = match parent {
        NONE => id != ROOT || length == 0,
        _ => id != ROOT && parent <= LAST_DIRECTORY && length > 0,
    };
    if id > LAST_FILE || header[16] != 0 || !parent_fits || !name_is_good(name) {
        return None;
    }
    let record = Record { kind: Kind::Inode, id, sequence, size: INODE_HEADER + length };
    (S::inode_check(header, name) == half(header, 18)).then_some(record)
}

/// No '/' and no NUL. All bytes are looked at, many at once.
#[inline]
pub fn name_is_good(name: &[u8]) -> bool {
    !name.iter().fold(false, |bad, byte| bad | (*byte == b'/') | (*byte == 0))
}

#[inline]
fn block<S: Style>(rest: &[u8]) -> Option<Record> {
    let header: &[u8; BLOCK_HEADER] = rest.first_chunk()?;
    let (id, sequence) = (word(header, 4), word(header, 8));
    let (owner, previous) = (word(header, 12), word(header, 16));
    let length = usize::from(half(header, 20));
    let previous_fits = previous == NONE || is_block(previous) && previous != id;
    if !is_block(id) || !is_file(owner) || !previous_fits || !(1..=DATA).contains(&length) {
        return None;
    }
    let data = rest.get(BLOCK_HEADER..BLOCK_HEADER + length)?;
    let record = Record { kind: Kind::Block, id, sequence, size: BLOCK_HEADER + length };
    (S::block_check(header, data) == half(header, 22)).then_some(record)
}

/// Of an accepted record: its id.
pub fn id_at(image: &[u8], place: usize) -> u32 {
    word(image, place + 4)
}

/// Of an accepted record: its sequence.
pub fn sequence_at(image: &[u8], place: usize) -> u32 {
    word(image, place + 8)
}

/// An inode's parent, or a block's owner.
pub fn above_at(image: &[u8], place: usize) -> u32 {
    word(image, place + 12)
}

pub fn previous_at(image: &[u8], place: usize) -> u32 {
    word(image, place + 16)
}

pub fn name_at(image: &[u8], place: usize) -> &[u8] {
    &image[place + INODE_HEADER..][..usize::from(image[place + 17])]
}

pub fn data_at(image: &[u8], place: usize) -> &[u8] {
    &image[place + BLOCK_HEADER..][..usize::from(half(image, place + 20))]
}

/// All bytes of an accepted record.
pub fn bytes_at(image: &[u8], place: usize) -> &[u8] {
    let size = if is_block(id_at(image, place)) {
        BLOCK_HEADER + data_at(image, place).len()
    } else {
        INODE_HEADER + name_at(image, place).len()
    };
    &image[place..place + size]
}
