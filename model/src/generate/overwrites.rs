//! Files to overwrite, and what is written where (T-05).

use std::ops::Range;

use super::blocks::numbered;
use super::images::{place, write_headers};
use super::overwritten::{blocks_of, record};
use super::paths::{name, names_of};
use super::places;
use super::random::Random;
use super::renames::{strange_names, Names};
use crate::forge::Flash;
use crate::layout::{is_directory, is_file, Block, Inode, FIRST_BLOCK, FIRST_FILE, NONE, ROOT};
use crate::mount::{Fate, FileArea, FileSystem};
use crate::write::APPEND;

/// So many blocks of a file are many.
const MANY: usize = 100;

/// Sequences, the last one and the one before it among them.
const LATE: [u32; 10] = [0, 0, 0, 0, 0, 1, 5, 0xffff_fffe, 0xffff_fffe, 0xffff_ffff];

/// Files of some blocks each, all over the areas, some of them rewritten before or
/// broken. Often there is room for a few of a file's blocks only.
pub fn files(r: &mut Random) -> Flash {
    let lengths = vec![r.between(300, 900); r.between(2, 5)];
    let mut flash = place(r, &lengths);
    let scratch = write_headers(r, &mut flash);
    let areas: Vec<usize> = (0..lengths.len()).filter(|area| *area != scratch).collect();
    let longest = if r.chance(20) { lengths[0] / 3 } else { 40 };
    let chains: Vec<Vec<Block>> =
        (0..r.between(1, 3) as u32).map(|file| chain(r, file, longest)).collect();
    let mut records = vec![Inode::new(ROOT, 0, NONE, b"").bytes()];
    records.push(Inode::new(1, 0, ROOT, b"d").bytes());
    for file in FIRST_FILE..FIRST_FILE + chains.len() as u32 {
        records.push(Inode::new(file, 0, r.pick(&[ROOT, ROOT, 1]), &name(r)).bytes());
    }
    let inodes = records.len();
    for block in chains.iter().flatten() {
        records.extend(earlier(r, block).map(|block| block.bytes()));
        records.push(block.bytes());
    }
    if r.chance(60) {
        r.shuffle(&mut records[inodes..]);
    }
    for record in records {
        let first = if r.chance(50) { 0 } else { r.below(areas.len()) };
        let _ = (0..areas.len()).any(|k| flash.put(areas[(first + k) % areas.len()], &record));
    }
    // Sometimes one block is a byte too long for every area.
    let blocks: Vec<&Block> = chains.iter().flatten().collect();
    let tight = if blocks.is_empty() || r.chance(80) { None } else { Some(r.pick(&blocks)) };
    for area in areas {
        let leave = tight.map_or_else(|| some_room(r, &chains), |block| record(block) - 1);
        if tight.is_some() || r.chance(65) {
            fill(&mut flash, area, leave);
        }
        if r.chance(10) {
            flash.put(area, b"torn");
        }
    }
    flash
}

/// The blocks of a file, in file order; their ids are in any order. Sometimes one of
/// them breaks it.
fn chain(r: &mut Random, file: u32, longest: usize) -> Vec<Block> {
    let first = FIRST_BLOCK + 16 * file;
    let mut ids: Vec<u32> = (first..first + r.pick(&[0, 1, 2, 3, 3, 4, 5, 6])).collect();
    if r.chance(50) {
        r.shuffle(&mut ids);
    }
    let mut previous = NONE;
    let mut blocks = Vec::new();
    for id in ids {
        let length = r.between(1, longest);
        let data = numbered(r.below(5), length);
        blocks.push(Block::new(id, r.pick(&LATE), FIRST_FILE + file, previous, &data));
        previous = id;
    }
    if !blocks.is_empty() && r.chance(8) {
        let broken = r.below(blocks.len());
        blocks[broken].previous = first + 15;
    }
    blocks
}

/// The version of a block before it, sometimes.
fn earlier(r: &mut Random, block: &Block) -> Option<Block> {
    let sequence = block.sequence.checked_sub(1).filter(|_| r.chance(60))?;
    let data = block.data.iter().map(|byte| byte ^ 0x80).collect();
    Some(Block { sequence, data, ..block.clone() })
}

/// What some blocks in a row take, or a byte less.
fn some_room(r: &mut Random, chains: &[Vec<Block>]) -> usize {
    let chain = r.pick(chains);
    let from = r.below(chain.len() + 1);
    let to = r.between(from, chain.len());
    let taken: usize = chain[from..to].iter().map(record).sum();
    taken.saturating_sub(r.below(2))
}

/// Leaves so many bytes free, where there are more.
fn fill(flash: &mut Flash, area: usize, leave: usize) {
    let room = flash.room(area);
    if room > leave + Block::HEADER {
        let data = vec![7; room - leave - Block::HEADER];
        flash.block(area, 0x9000_0000 + area as u32, 0, 0x7000_0000, NONE, &data);
    }
}

/// A file of more bytes than one overwrite takes, and room for as many again.
pub fn long(r: &mut Random) -> Flash {
    let lengths = vec![12_288; r.between(3, 4)];
    let mut flash = place(r, &lengths);
    let Flash { image, areas, .. } = &mut flash;
    crate::format(image, areas);
    crate::create(image, areas, b"", b"/long", 1);
    for length in [APPEND, r.between(1, 2000)] {
        crate::append(image, areas, b"", b"/long", &numbered(length, length));
    }
    flash
}

/// A file of a hundred blocks and more, and about as much room again.
pub fn many(r: &mut Random) -> Flash {
    let count = r.between(MANY, 3 * MANY);
    let lengths = [count * (Block::HEADER + 3) + r.below(200); 3];
    let mut flash = place(r, &lengths);
    let scratch = write_headers(r, &mut flash);
    let areas: Vec<usize> = (0..lengths.len()).filter(|area| *area != scratch).collect();
    let mut records = vec![Inode::new(ROOT, 0, NONE, b"").bytes()];
    records.push(Inode::new(FIRST_FILE, 0, ROOT, b"a").bytes());
    let mut previous = NONE;
    for (k, id) in (0..count).zip(FIRST_BLOCK..) {
        let data = numbered(k, 1 + k % 3);
        records.push(Block::new(id, 0, FIRST_FILE, previous, &data).bytes());
        previous = id;
    }
    for record in records {
        let _ = areas.iter().any(|area| flash.put(*area, &record));
    }
    flash
}

/// Whether there is something that other images seldom have to overwrite: a file of
/// three blocks and more, or a block with the last sequence.
pub fn is_worth_it(fs: &FileSystem) -> bool {
    let third = |block: &Block| {
        let previous = |id: u32| fs.counting(id).and_then(|record| record.block());
        previous(block.previous).is_some_and(|before| before.previous != NONE)
    };
    fs.blocks().any(|block| block.sequence == u32::MAX || third(block))
}

/// Where the newest record of a block lies that has an older one: the record of an
/// overwrite, or one like it.
pub fn rewritten(r: &mut Random, fs: &FileSystem) -> Option<Range<usize>> {
    let versions = |id: u32| fs.accepted().filter(|record| record.id() == id).count();
    let places = places(fs, &|record| record.block().is_some_and(|block| versions(block.id) > 1));
    (!places.is_empty()).then(|| r.pick(&places))
}

/// The names of an overwrite's path, its offset and its data.
pub fn aim(r: &mut Random, fs: &FileSystem) -> (Names, u32, Vec<u8>) {
    let live: Vec<u32> =
        fs.inodes().map(|inode| inode.id).filter(|id| fs.fate(*id) == Fate::Live).collect();
    let file = file(r, fs, &live);
    let blocks = file.map_or_else(Vec::new, |id| blocks_of(fs, id));
    let room = |area: &FileArea| area.at.len() - area.reading.free;
    let clean = fs.file_areas.iter().filter(|area| area.reading.is_clean());
    let (offset, length) = range(r, &blocks, clean.map(room).max().unwrap_or(0));
    let data = data(r, &blocks, offset, length);
    let mut names = file.map_or_else(|| strange_names(r), |id| names_of(fs, id));
    match r.below(24) {
        0 => names = strange_names(r),
        1 => {
            let directories: Vec<u32> =
                live.iter().copied().filter(|id| is_directory(*id)).collect();
            names = names_of(fs, r.pick(&directories));
        }
        2 => names.push(name(r)),
        _ => {}
    }
    (names, offset, data)
}

/// A live file, oftener one of several blocks, with the last sequence or broken.
fn file(r: &mut Random, fs: &FileSystem, live: &[u32]) -> Option<u32> {
    let files: Vec<u32> = live.iter().copied().filter(|id| is_file(*id)).collect();
    let last = |block: &Block| block.sequence == u32::MAX;
    let of = |holds: &dyn Fn(&[Block]) -> bool| {
        files.iter().copied().filter(|id| holds(&blocks_of(fs, *id))).collect::<Vec<u32>>()
    };
    let chosen = match r.below(10) {
        0..=3 => of(&|blocks| blocks.len() > 1),
        4..=6 => of(&|blocks| blocks.iter().any(last)),
        7 => files.iter().copied().filter(|id| crate::file::contents(fs, *id).is_err()).collect(),
        _ => files.clone(),
    };
    let among = if chosen.is_empty() { &files } else { &chosen };
    (!among.is_empty()).then(|| r.pick(among))
}

/// Where a file's blocks begin and end.
fn edges(blocks: &[Block]) -> Vec<usize> {
    let mut end = 0;
    let ends = blocks.iter().map(|block| {
        end += block.data.len();
        end
    });
    [0].into_iter().chain(ends).collect()
}

/// Two of these numbers, the lower one first.
fn two(r: &mut Random, of: &[usize]) -> (usize, usize) {
    let (a, b) = (r.pick(of), r.pick(of));
    (a.min(b), a.max(b))
}

/// An offset and a length for what few files have: more bytes than one overwrite takes,
/// many blocks, one with the last sequence or one that is a byte too long for the
/// greatest room.
fn seldom(
    r: &mut Random,
    blocks: &[Block],
    edges: &[usize],
    room: usize,
) -> Option<(usize, usize)> {
    let size = edges[blocks.len()];
    if size > APPEND && r.chance(60) {
        let length = r.pick(&[APPEND, APPEND, APPEND + 1, APPEND + 1, size]);
        return Some((r.pick(&[0, size.saturating_sub(length)]), length));
    }
    if blocks.len() >= MANY && r.chance(40) {
        let (from, less) = (r.below(9), r.below(9));
        return Some((from, size.saturating_sub(from + less)));
    }
    let worth_it = |block: &Block| block.sequence == u32::MAX || record(block) == room + 1;
    let at = blocks.iter().position(worth_it).filter(|_| r.chance(30))?;
    let (start, end) = (edges[at], edges[at + 1]);
    Some((start, r.pick(&[0, 1, end - start, size - start + 1, APPEND + 1])))
}

/// An offset and a length: within the file, along its blocks or across them, at its
/// end, past it, or at the limits.
fn range(r: &mut Random, blocks: &[Block], room: usize) -> (u32, usize) {
    let edges = edges(blocks);
    if let Some((offset, length)) = seldom(r, blocks, &edges, room) {
        return (offset as u32, length);
    }
    let size = edges[blocks.len()];
    let (place, other) = (r.below(size + 1), r.below(size + 1));
    let (from, to) = match r.below(24) {
        0 | 1 => return (nowhere(r, size), 0),
        2..=6 => two(r, &edges),
        7 => (0, size),
        8 => (place, size),
        9 => (place, size + r.between(1, 2)),
        10 => (size + r.below(2), size + r.between(1, 3)),
        11 => return wrapping(r, size),
        12 => {
            let length = r.pick(&[APPEND, APPEND + 1, APPEND + 2, 9000, 65_535, 65_536, 70_000]);
            return (place as u32, length);
        }
        13.. if blocks.len() >= MANY => (place, size.min(place + r.between(1, 4))),
        13..=16 if blocks.len() > 1 => {
            let edge = edges[r.between(1, blocks.len() - 1)];
            (edge.saturating_sub(r.between(1, 3)), (edge + r.between(1, 3)).min(size))
        }
        17..=19 => (place, size.min(place + r.between(1, 4))),
        _ => (place.min(other), place.max(other)),
    };
    (from as u32, to.saturating_sub(from))
}

/// An offset of no bytes: at the file's ends, within it or past it.
fn nowhere(r: &mut Random, size: usize) -> u32 {
    let within = r.below(size + 1) as u32;
    let size = size as u32;
    r.pick(&[0, within, within, size, size, size + 1, size + 2, u32::MAX])
}

/// An offset and a length whose sum is within the file if it wraps at 32 bits, or
/// which are both within it if the offset has 16.
fn wrapping(r: &mut Random, size: usize) -> (u32, usize) {
    if r.chance(40) {
        let from = r.below(size.min(0xffff) + 1);
        let offset = r.pick(&[0x1_0000, 0x2_0000, 0x8000_0000, 0xffff_0000]) + from as u32;
        return (offset, r.below(size - from + 1));
    }
    let before = r.below(20) as u32;
    let behind = r.below(size.min(100) + 1);
    (u32::MAX - before, before as usize + 1 + behind)
}

/// So many bytes; sometimes those that the file has there, or records, or FF.
fn data(r: &mut Random, blocks: &[Block], offset: u32, length: usize) -> Vec<u8> {
    let number = r.below(250);
    let mut data = if length < 40 { r.bytes(length) } else { numbered(number, length) };
    let old = blocks.iter().flat_map(|block| block.data.iter()).skip(offset as usize);
    let block = Block::new(FIRST_BLOCK + 9, 0, FIRST_FILE, NONE, b"within").bytes();
    match r.below(20) {
        0 => data.iter_mut().zip(old).for_each(|(new, old)| *new = *old),
        1 => data.iter_mut().zip(block.iter().cycle()).for_each(|(new, byte)| *new = *byte),
        2 => data.fill(0xff),
        _ => {}
    }
    data
}
