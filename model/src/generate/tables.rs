//! Images whose tables are about full, or whose ids are about a multiple of 64.

use super::images::{place, write_headers};
use super::large::side_by_side;
use super::random::Random;
use crate::forge::Flash;
use crate::layout::{AreaHeader, Block, Inode, FIRST_BLOCK, FIRST_FILE, NONE, ROOT};
use crate::mount::{BLOCKS, DESCRIPTORS, IMAGE, INODES};

/// 254 to 257 inode ids, 1,022 to 1,025 block ids, both or about a word of
/// either; sometimes a clash.
pub fn tables(r: &mut Random) -> Flash {
    let (inodes, blocks) = counts(r);
    let mut records = inode_records(r, inodes);
    records.extend(block_records(r, blocks));
    match r.below(4) {
        0 => records.reverse(),
        1 => r.shuffle(&mut records),
        _ => {}
    }
    let over = inodes as usize > INODES || blocks as usize > BLOCKS;
    if r.chance(if over { 50 } else { 5 }) {
        records.insert(0, Inode::new(FIRST_FILE, 0, ROOT, b"clash").bytes());
    }
    let mut flash = areas_for(r, &records);
    let scratch = write_headers(r, &mut flash);
    let files: Vec<usize> = (0..flash.areas.len() / 2).filter(|area| *area != scratch).collect();
    for record in records {
        let _ = files.iter().any(|area| flash.put(*area, &record));
    }
    flash
}

/// How many inode ids, the root's among them, and how many block ids.
fn counts(r: &mut Random) -> (u32, u32) {
    let few = (r.between(2, 4) as u32, r.below(4) as u32);
    match r.below(12) {
        0..=2 => (about(r, INODES), few.1),
        3..=5 => (few.0, about(r, BLOCKS)),
        6 => (about(r, INODES), about(r, BLOCKS)),
        7..=9 => (about_a_word(r, INODES), few.1),
        _ => (few.0, about_a_word(r, BLOCKS)),
    }
}

/// As many as a table has places, up to two fewer, or one more.
fn about(r: &mut Random, places: usize) -> u32 {
    r.pick(&[places - 2, places - 1, places - 1, places, places, places + 1]) as u32
}

/// A multiple of 64 that a table has places for, one fewer or one more.
fn about_a_word(r: &mut Random, places: usize) -> u32 {
    (64 * r.between(1, places / 64) + r.pick(&[0, 1, 1, 2]) - 1) as u32
}

/// The root, the file "a", and others; sometimes a few of them are deleted.
fn inode_records(r: &mut Random, count: u32) -> Vec<Vec<u8>> {
    let mut records = vec![Inode::new(ROOT, 0, NONE, b"").bytes()];
    records.push(Inode::new(FIRST_FILE, 0, ROOT, b"a").bytes());
    let deleted = if r.chance(30) { 5 } else { 0 };
    for i in 2..count {
        let id = if r.chance(50) { i } else { FIRST_FILE + i };
        let name = [b'a' + (i % 26) as u8, b'a' + (i / 26) as u8];
        records.push(Inode::new(id, 0, ROOT, &name).bytes());
        if r.chance(deleted) {
            records.push(Inode::new(id, 1, NONE, b"").bytes());
        }
    }
    records
}

/// The blocks of "a" one behind the other; sometimes the last of them belong to
/// a file without an inode, and sometimes the first names one that isn't there.
fn block_records(r: &mut Random, count: u32) -> Vec<Vec<u8>> {
    let apart = r.pick(&[1, 1, 3]);
    let own = if r.chance(70) { count } else { r.below(count as usize + 1) as u32 };
    let first = if r.chance(8) { FIRST_BLOCK + apart * count } else { NONE };
    let block = |i: u32| {
        let owner = if i < own { FIRST_FILE } else { FIRST_FILE + 1 };
        let previous = if i == 0 { first } else { FIRST_BLOCK + apart * (i - 1) };
        Block::new(FIRST_BLOCK + apart * i, 0, owner, previous, &[i as u8]).bytes()
    };
    (0..count).map(block).collect()
}

/// Areas with room for these records and for little more: one beside scratch,
/// perhaps with a short one, or up to all that a list may have.
fn areas_for(r: &mut Random, records: &[Vec<u8>]) -> Flash {
    let bytes: usize = records.iter().map(Vec::len).sum();
    let more = r.pick(&[0, 0, 20, 40, 300, 600]);
    if r.chance(10) {
        let lengths = [IMAGE / DESCRIPTORS; DESCRIPTORS];
        return Flash::over(vec![0xff; IMAGE], side_by_side(&lengths));
    }
    if r.chance(40) {
        // A record that doesn't fit leaves fewer bytes than itself.
        let count = r.between(9, DESCRIPTORS);
        let length = bytes.div_ceil(count - 1) + AreaHeader::SIZE + Block::HEADER + more;
        return place(r, &vec![length.max(128); count]);
    }
    let length = (bytes + AreaHeader::SIZE + more).max(128);
    let lengths = [length, length, 128];
    let count = r.pick(&[2, 2, 3]);
    place(r, &lengths[..count])
}
