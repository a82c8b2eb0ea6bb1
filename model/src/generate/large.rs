//! Images near the limits: whole volumes, thousands of named ids, deep
//! directories, blocks about the greatest length, hundreds of damage stretches.

use super::images::{place, write_headers};
use super::random::Random;
use crate::forge::Flash;
use crate::layout::{Block, Inode, Record, FIRST_BLOCK, FIRST_FILE, NONE, ROOT};
use crate::mount::{DESCRIPTORS, IMAGE, INODES};

/// Lengths that fill an image to its last byte.
fn whole_lengths(r: &mut Random) -> Vec<usize> {
    r.pick(&[
        vec![IMAGE / 2; 2],
        vec![IMAGE / 4; 4],
        vec![21_846, 21_845, 21_845],
        vec![40_000, 25_536],
        vec![128, IMAGE - 128],
        vec![IMAGE / DESCRIPTORS; DESCRIPTORS],
    ])
}

/// Areas of these lengths one behind the other.
pub fn side_by_side(lengths: &[usize]) -> Vec<u32> {
    let mut end = 0;
    let place = |length: &usize| {
        end += *length as u32;
        [end - *length as u32, *length as u32]
    };
    lengths.iter().flat_map(place).collect()
}

/// A whole volume, formatted; mostly with a file longer than one append.
pub fn whole(r: &mut Random) -> Flash {
    let lengths = whole_lengths(r);
    let mut flash = Flash::over(vec![0; IMAGE], side_by_side(&lengths));
    let Flash { image, areas, .. } = &mut flash;
    crate::format(image, areas);
    crate::create(image, areas, b"", b"/long", 1);
    for _ in 0..r.pick(&[0, 1, 2, 3, 3]) {
        let data = r.bytes(8192);
        crate::append(image, areas, b"", b"/long", &data);
    }
    flash
}

/// A whole volume whose records name a long run of ids, with a gap in it: the
/// smallest unused id lies thousands behind the start of its range. Each record
/// is a version of one id far away, so the tables have room.
pub fn named(r: &mut Random) -> Flash {
    let areas = r.pick(&[8, DESCRIPTORS]);
    let mut flash = Flash::over(vec![0xff; IMAGE], side_by_side(&vec![IMAGE / areas; areas]));
    for area in 0..areas {
        flash.head(area, 0, 0, (area as u8).wrapping_sub(1));
    }
    flash.root(1);
    flash.inode(1, FIRST_FILE, 0, ROOT, b"a");
    let count = r.between(1100, 2200);
    let from = r.pick(&[1, 900, 900]);
    let gap = near_a_word(r, from, count);
    let as_parent = r.chance(25);
    for k in (0..count as u32).filter(|k| *k != gap) {
        let record = if as_parent { naming_parent(k + 1, k) } else { naming_both(k, k) };
        let _ = (1..areas).any(|area| flash.put(area, &record));
    }
    for k in [near_a_word(r, 3000, 20_000), 9826 + r.below(5) as u32] {
        flash.put(areas - 1, &naming_both(k, 5000 + k));
        flash.put(areas - 1, &naming_parent(k, 5000 + k));
    }
    flash
}

/// A number near a multiple of 64 in this range.
fn near_a_word(r: &mut Random, low: usize, high: usize) -> u32 {
    (64 * r.between(low.div_ceil(64), high / 64) + r.below(3) - 1) as u32
}

/// A version of a directory that only names a parent.
fn naming_parent(parent: u32, sequence: u32) -> Vec<u8> {
    Inode::new(0x0fff_0000, sequence, parent, b"p").bytes()
}

/// A version of a block that names an owner and a block before it.
fn naming_both(k: u32, sequence: u32) -> Vec<u8> {
    Block::new(0x9000_0000, sequence, FIRST_FILE + k, FIRST_BLOCK + k, b"b").bytes()
}

/// Directories one below the other, 8 to 255 of them, with names of one length,
/// and a file at the bottom where the table has a place.
pub fn deep(r: &mut Random) -> Flash {
    let (depth, length) = match r.below(3) {
        0 => r.pick(&[(64, 1), (128, 2), (INODES - 2, 1)]),
        1 if r.chance(50) => r.pick(&[(INODES - 1, 3), (INODES - 1, 4)]),
        1 => r.pick(&[(62, 2), (63, 1), (63, 1)]),
        _ => r.pick(&[(8, 1), (10, 1), (11, 200), (20, 60), (20, 60), (40, 1)]),
    };
    let whole = 24 + 20 + (depth + 1) * (20 + length);
    let mut flash = place(r, &[whole + 300, whole + 300, 400]);
    let scratch = write_headers(r, &mut flash);
    let file_area = if scratch == 0 { 1 } else { 0 };
    flash.root(file_area);
    for id in 1..=depth as u32 {
        flash.inode(file_area, id, 0, id - 1, &vec![b'd'; length]);
    }
    if depth + 1 < INODES {
        flash.inode(file_area, FIRST_FILE, 0, depth as u32, b"f");
        flash.block(file_area, FIRST_BLOCK, 0, FIRST_FILE, NONE, b"at the bottom");
    }
    flash
}

/// Blocks of the greatest length, of one byte more and of lengths that only a
/// field of 16 bits bounds, all with right checks.
pub fn long_blocks(r: &mut Random) -> Flash {
    let longest = r.pick(&[2047, 2048, 2048, 2049, 2049, 2049, 2050, 4096]);
    let mut flash = place(r, &[6000, 6000]);
    let scratch = write_headers(r, &mut flash);
    flash.root(1 - scratch);
    flash.inode(1 - scratch, FIRST_FILE, 0, ROOT, b"a");
    let lengths = r.pick(&[(longest, 4), (4, longest)]);
    let (first, second) = (r.bytes(lengths.0), r.bytes(lengths.1));
    flash.block(1 - scratch, FIRST_BLOCK, 0, FIRST_FILE, NONE, &first);
    flash.block(1 - scratch, FIRST_BLOCK + 1, 0, FIRST_FILE, FIRST_BLOCK, &second);
    flash
}

/// An area with many versions of one inode: with junk behind most of them, so that
/// it has dozens or hundreds of stretches (T-08), or with little, and more records
/// than the tables have places. Sometimes it is the scratch area.
pub fn torn(r: &mut Random) -> Flash {
    let (records, junk) = r.pick(&[(20, 100), (60, 60), (600, 100), (600, 100), (1400, 5)]);
    let length = 200 + records * Inode::HEADER + records * junk / 30;
    let mut flash = place(r, &[length, length, 200]);
    let scratch = write_headers(r, &mut flash);
    let file_area = if scratch == 0 { 1 } else { 0 };
    flash.root(file_area);
    let area = if r.chance(20) { scratch } else { file_area };
    for sequence in 0..records as u32 {
        flash.delete(area, 0x0fff_0000, sequence);
        if r.chance(junk) {
            let bytes = r.pick(&[&b"\0"[..], b"\xff", b"xy", b"\xff\0\xff"]);
            flash.put(area, bytes);
        }
    }
    flash
}

/// A file whose blocks are a loop and one block more, and another's blocks, to
/// which that one leads: as many in all as the file has, ending in NONE.
pub fn borrowed_chain(r: &mut Random, records: &mut Vec<Vec<u8>>) {
    let (own, other) = (FIRST_FILE, FIRST_FILE + 1);
    let (first, borrowed) = (FIRST_BLOCK + 0x20, FIRST_BLOCK + 0x40);
    let looped = r.between(2, 3) as u32;
    let mut block = |id: u32, owner: u32, previous: u32| {
        let block = Block::new(id, 0, owner, previous, &[id as u8]);
        records.push(Record::Block(block).bytes());
    };
    for k in 0..looped {
        block(first + k, own, first + (k + 1) % looped);
        block(borrowed + k, other, if k == 0 { NONE } else { borrowed + k - 1 });
    }
    block(first + looped, own, borrowed + looped - 1);
    records.push(Inode::new(own, 0, ROOT, b"own").bytes());
    if r.chance(70) {
        records.push(Inode::new(other, 0, ROOT, b"other").bytes());
    }
}
