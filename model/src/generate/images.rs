//! Images: formatted ones, hand-made trees, junk, bad headers.

use super::blocks::SHORT;
use super::large::borrowed_chain;
use super::paths::name;
use super::random::Random;
use super::{DIRECTORIES, FILES, SEQUENCES};
use crate::forge::{with_reserved, Flash};
use crate::layout::{
    is_directory, is_file, AreaHeader, Block, Inode, FIRST_BLOCK, FIRST_FILE, NONE, ROOT,
};
use crate::mount::DESCRIPTORS;

/// Areas of mixed lengths, in any order in the image, with gaps; erased,
/// without headers.
pub fn shape(r: &mut Random) -> Flash {
    let count = match r.below(20) {
        0..=13 => r.between(2, 4),
        14..=17 => r.between(2, 8),
        18 => r.between(9, DESCRIPTORS),
        _ => DESCRIPTORS,
    };
    let common = match r.below(100) {
        0..=3 => 4096,
        4..=9 => r.pick(&SHORT),
        _ => r.between(128, 600),
    };
    // Where none is longer than most of them, several are as long as scratch.
    let mixed = r.chance(40);
    let longest = if r.chance(50) { common.min(600) } else { 600 };
    let mut lengths: Vec<usize> = Vec::new();
    for _ in 0..count {
        let length = if mixed && r.chance(60) { r.between(128, longest) } else { common };
        lengths.push(length);
    }
    if count > 4 && r.chance(30) {
        lengths[0] = r.between(128, longest);
    }
    place(r, &lengths)
}

pub fn place(r: &mut Random, lengths: &[usize]) -> Flash {
    let mut order: Vec<usize> = (0..lengths.len()).collect();
    r.shuffle(&mut order);
    let mut areas = vec![0; 2 * lengths.len()];
    let mut offset = 0;
    for i in order {
        offset += if r.chance(30) { r.below(20) } else { 0 };
        areas[2 * i] = offset as u32;
        areas[2 * i + 1] = lengths[i] as u32;
        offset += lengths[i];
    }
    let end = offset + if r.chance(30) { r.below(20) } else { 0 };
    let image = if r.chance(50) { r.bytes(end) } else { vec![0xff; end] };
    Flash::over(image, areas)
}

/// A formatted file system; the calls fill it. Sometimes its areas were
/// collected oftener.
pub fn life(r: &mut Random) -> Flash {
    let mut flash = shape(r);
    crate::format(&mut flash.image, &flash.areas);
    if r.chance(40) {
        for (area, count) in counts(r, flash.areas.len() / 2).into_iter().enumerate() {
            let at = flash.offset(area);
            flash.image[at + AreaHeader::COUNT_AT] = count;
        }
    }
    flash
}

/// Collection counts of so many areas: few, about the passage from 255 to 0,
/// within 127 of each other across it or not, or any of a few distances apart
/// at which the order of counts changes.
fn counts(r: &mut Random, areas: usize) -> Vec<u8> {
    let first: u8 = r.pick(&[0, 1, 100, 127, 128, 200, 254, 255]);
    let across = 255 - r.below(127) as u8;
    let manner = r.below(8);
    let mut count = || match manner {
        0 | 1 => r.below(3) as u8,
        2 | 3 => r.pick(&[254, 255, 0, 1]),
        4 => across.wrapping_add(r.below(128) as u8),
        5 => first.wrapping_add(r.pick(&[0, 100, 200])),
        _ => first.wrapping_add(r.pick(&[0, 0, 1, 64, 126, 127, 128, 129, 192, 255])),
    };
    (0..areas).map(|_| count()).collect()
}

/// A reserved byte that isn't 0.
pub fn reserved(r: &mut Random) -> u8 {
    let any = r.between(1, 255) as u8;
    r.pick(&[1, 2, 0x7f, 0x80, 0xff, 0xff, any])
}

/// Valid headers with one scratch area that is long enough, mostly.
pub fn write_headers(r: &mut Random, flash: &mut Flash) -> usize {
    let count = flash.areas.len() / 2;
    let longest = (0..count).max_by_key(|i| flash.length(*i)).unwrap_or(0);
    let scratch = if r.chance(97) { longest } else { r.below(count) };
    for (area, collections) in counts(r, count).into_iter().enumerate() {
        let id = if area == scratch { 255 } else { area as u8 };
        flash.head(area, collections, 0, id);
    }
    if r.chance(5) {
        reserved_header(r, flash, scratch);
    }
    if r.chance(4) {
        other_length(r, flash, scratch);
    }
    if r.chance(25) {
        dirty_scratch(r, flash, scratch);
    }
    scratch
}

/// A header with a reserved byte that isn't 0: the scratch area's, or that of a
/// file area, which sometimes would be a second scratch area or share its id, and
/// sometimes has damage before its records.
fn reserved_header(r: &mut Random, flash: &mut Flash, scratch: usize) {
    let count = flash.areas.len() / 2;
    let files: Vec<usize> = (0..count).filter(|area| *area != scratch).collect();
    let area = if r.chance(20) { scratch } else { r.pick(&files) };
    let at = flash.offset(area);
    flash.image[at + AreaHeader::RESERVED_AT] = reserved(r);
    if area != scratch && r.chance(40) {
        let other = r.pick(&files) as u8;
        flash.image[at + AreaHeader::ID_AT] = r.pick(&[255, other]);
    }
    if r.chance(60) {
        junk_between(r, flash, area);
    }
}

/// A header that tells another length than its descriptor, mostly a shorter one,
/// and sometimes damage before its records.
fn other_length(r: &mut Random, flash: &mut Flash, scratch: usize) {
    let area = r.below(flash.areas.len() / 2);
    if area == scratch && r.chance(80) {
        return;
    }
    let length = flash.length(area);
    let other = r.pick(&[24, 64, length / 2, length - 1, length + 1, 65_536]) as u32;
    let at = flash.offset(area) + 16;
    flash.image[at..at + 4].copy_from_slice(&other.to_le_bytes());
    if r.chance(60) {
        junk_between(r, flash, area);
    }
}

/// A scratch area left behind with records, which are never read.
fn dirty_scratch(r: &mut Random, flash: &mut Flash, scratch: usize) {
    let (id, sequence) = (r.pick(&FILES), r.pick(&SEQUENCES));
    let name = name(r);
    flash.inode(scratch, id, sequence, ROOT, &name);
    flash.block(scratch, FIRST_BLOCK, sequence, id, NONE, b"scratch");
    let junk = r.bytes(5);
    flash.put(scratch, &junk);
}

/// A file system put together by hand: versions, deletions, loops, orphans,
/// duplicates, clashes, broken chains, records that aren't acceptable.
pub fn tree(r: &mut Random) -> Flash {
    let mut flash = shape(r);
    let scratch = write_headers(r, &mut flash);
    let mut records = Vec::new();
    if r.chance(97) {
        let sequence = if r.chance(80) { 0 } else { r.pick(&SEQUENCES) };
        let root = Inode::new(ROOT, sequence, NONE, b"").bytes();
        records.push(if r.below(200) == 0 { with_reserved(&root, reserved(r)) } else { root });
    }
    if r.chance(2) {
        borrowed_chain(r, &mut records);
    } else {
        let directories = inodes(r, &DIRECTORIES, &[ROOT], &mut records);
        let files = inodes(r, &FILES, &directories, &mut records);
        chains(r, &files, &mut records);
        odd_records(r, &mut records);
    }
    if r.chance(50) {
        let first = usize::from(r.chance(85)).min(records.len());
        r.shuffle(&mut records[first..]);
    }
    lay(r, &mut flash, scratch, records);
    flash
}

/// Inodes of some of these ids, with older and newer versions. The ids used.
fn inodes(r: &mut Random, pool: &[u32], parents: &[u32], records: &mut Vec<Vec<u8>>) -> Vec<u32> {
    let mut ids = Vec::new();
    let hostile = r.chance(40);
    for _ in 0..r.below(4) {
        let id = r.pick(pool);
        if ids.contains(&id) {
            continue;
        }
        ids.push(id);
        let mut parents = parents.to_vec();
        parents.extend(ids.iter().filter(|id| is_directory(**id)));
        versions(r, id, &parents, hostile, records);
    }
    let mut all = parents.to_vec();
    all.extend(&ids);
    all
}

fn versions(r: &mut Random, id: u32, parents: &[u32], hostile: bool, records: &mut Vec<Vec<u8>>) {
    let mut sequences: Vec<u32> = Vec::new();
    for _ in 0..if r.chance(60) { 1 } else { r.between(2, 3) } {
        let sequence = if hostile { r.pick(&SEQUENCES) } else { sequences.len() as u32 };
        if sequences.contains(&sequence) {
            continue;
        }
        sequences.push(sequence);
        let strange = hostile && r.chance(20);
        let parent = if strange { r.pick(&DIRECTORIES) } else { r.pick(parents) };
        let mut inode = Inode::new(id, sequence, parent, &name(r));
        if r.chance(20) {
            let named = r.chance(30);
            inode.parent = NONE;
            inode.name = if named { inode.name } else { Vec::new() };
        }
        let odd = r.chance(2);
        records.push(if odd { with_reserved(&inode.bytes(), reserved(r)) } else { inode.bytes() });
    }
    if r.chance(1) {
        let last = sequences.into_iter().max().unwrap_or(0);
        let deletion = Inode::new(id, last.saturating_add(1), NONE, b"").bytes();
        records.push(with_reserved(&deletion, reserved(r)));
    }
}

/// Block chains for the files among these ids, some of them broken.
fn chains(r: &mut Random, ids: &[u32], records: &mut Vec<Vec<u8>>) {
    let mut next = FIRST_BLOCK;
    let mut owners: Vec<u32> = ids.iter().copied().filter(|id| is_file(*id)).collect();
    if r.chance(15) {
        owners.push(r.pick(&FILES));
    }
    for owner in owners {
        let mut previous = NONE;
        for _ in 0..r.below(4) {
            let id = if r.chance(3) { 0xffff_fffe } else { next };
            next += if r.chance(20) { 2 } else { 1 };
            let length = r.between(1, 20);
            let mut block = Block::new(id, 0, owner, previous, &r.bytes(length));
            break_chain(r, &mut block, &FILES);
            if r.chance(15) {
                let mut old = block.clone();
                block.sequence = r.between(1, 3) as u32;
                break_chain(r, &mut old, &FILES);
                old.data = r.bytes(length);
                records.push(old.bytes());
            }
            records.push(block.bytes());
            previous = id;
        }
    }
}

fn break_chain(r: &mut Random, block: &mut Block, owners: &[u32]) {
    match r.below(60) {
        0 => block.previous = NONE,
        1 => block.previous = FIRST_BLOCK + r.below(4) as u32,
        2 => block.owner = r.pick(owners),
        3 => block.sequence = r.pick(&SEQUENCES),
        _ => {}
    }
}

/// Equal records twice, clashing ones, right checks over wrong fields, wrong
/// checks.
fn odd_records(r: &mut Random, records: &mut Vec<Vec<u8>>) {
    for _ in 0..r.below(3) {
        if r.chance(60) && !records.is_empty() {
            let copy = r.pick(records);
            records.push(copy);
        }
    }
    if r.chance(6) {
        let (id, sequence) = (r.pick(&FILES), r.pick(&SEQUENCES));
        for tail in [b"x", b"y"] {
            records.push(Inode::new(id, sequence, ROOT, tail).bytes());
        }
        if r.chance(50) {
            records.push(Inode::new(id, 0x1000, ROOT, b"z").bytes());
        }
    }
    if r.chance(3) {
        let inode = Inode::new(r.pick(&FILES), 6, ROOT, b"r").bytes();
        records.push(with_reserved(&inode, reserved(r)));
        records.push(inode);
    }
    while r.chance(15) {
        let record = unacceptable(r);
        records.push(record);
    }
    if r.chance(8) && !records.is_empty() {
        let i = r.below(records.len());
        let at = r.below(records[i].len());
        records[i][at] ^= 1 << r.below(8);
    }
}

fn unacceptable(r: &mut Random) -> Vec<u8> {
    let file = FIRST_FILE + 7;
    let block = FIRST_BLOCK + 7;
    match r.below(18) {
        0 => Inode::new(file, 9, ROOT, b"x/y").bytes(),
        1 => Inode::new(file, 9, NONE, b"x\0").bytes(),
        2 => Inode::new(file, 9, ROOT, b"").bytes(),
        3 => Inode::new(file, 9, FIRST_FILE, b"x").bytes(),
        4 => Inode::new(ROOT, 9, NONE, b"x").bytes(),
        5 => Inode::new(ROOT, 9, 1, b"x").bytes(),
        6 => Inode::new(FIRST_BLOCK, 9, ROOT, b"x").bytes(),
        7 => Inode::new(NONE, 9, NONE, b"x").bytes(),
        8 => Block::new(block, 9, 5, NONE, b"x").bytes(),
        9 => Block::new(block, 9, file, block, b"x").bytes(),
        10 => Block::new(block, 9, file, 5, b"x").bytes(),
        11 => Block::new(NONE, 9, file, NONE, b"x").bytes(),
        12 => Block::new(block, 9, file, NONE, b"").bytes(),
        13 => Block::new(block, 9, FIRST_BLOCK, NONE, b"x").bytes(),
        14 => Block::new(file, 9, file, NONE, b"x").bytes(),
        15 => with_reserved(&Inode::new(file, 9, ROOT, b"x").bytes(), reserved(r)),
        16 => {
            let deleted = r.pick(&FILES);
            with_reserved(&Inode::new(deleted, 9, NONE, b"").bytes(), reserved(r))
        }
        _ => with_reserved(&Inode::new(ROOT, 9, NONE, b"").bytes(), reserved(r)),
    }
}

/// Spreads the records over the file areas, with junk between them in some, behind
/// most of them in a few.
fn lay(r: &mut Random, flash: &mut Flash, scratch: usize, records: Vec<Vec<u8>>) {
    let count = flash.areas.len() / 2;
    let files: Vec<usize> = (0..count).filter(|area| *area != scratch).collect();
    let dirty = if r.chance(25) { r.pick(&[15, 15, 60]) } else { 0 };
    for record in records {
        let first = r.below(files.len());
        let area = (0..files.len()).map(|i| files[(first + i) % files.len()]);
        let fits = area.into_iter().find(|area| flash.room(*area) >= record.len());
        let Some(area) = fits else { continue };
        flash.put(area, &record);
        if dirty > 0 && r.chance(dirty) {
            junk_between(r, flash, area);
        }
    }
    for area in files {
        if r.chance(20) {
            fill_up(r, flash, area);
        }
    }
}

fn junk_between(r: &mut Random, flash: &mut Flash, area: usize) {
    let length = r.between(1, 30);
    if r.chance(50) {
        flash.skip(area, length);
    } else {
        let junk = r.bytes(length);
        flash.put(area, &junk);
    }
}

/// Leaves only a few bytes free, or none: a record ends at the area's end or
/// near it, after FF bytes or directly behind the others.
pub fn fill_up(r: &mut Random, flash: &mut Flash, area: usize) {
    if r.chance(20) {
        flash.skip(area, 3);
    }
    let room = flash.room(area);
    let leave = r.pick(&[0, 0, 1, 19, 20, 21, 24, 25, 40, 60]);
    if room < leave + 26 || room - leave > 24 + 2048 {
        return;
    }
    let length = room - leave - Block::HEADER;
    let id = 0x9000_0000 + area as u32;
    let data = r.bytes(length);
    let owner = if r.chance(50) { 0x1000_0100 + area as u32 } else { r.pick(&FILES) };
    flash.block(area, id, 0, owner, NONE, &data);
}

/// Random bytes, behind valid headers or not, of any length.
pub fn junk(r: &mut Random) -> Flash {
    if r.chance(20) {
        let length = r.pick(&[0, 1, 127, 128, 256, 300]);
        let image = r.bytes(length);
        return Flash::over(image, Vec::new());
    }
    let mut flash = shape(r);
    let length = flash.image.len();
    flash.image = if r.chance(50) { r.bytes(length) } else { vec![0; length] };
    if r.chance(70) {
        write_headers(r, &mut flash);
    }
    flash
}

/// A formatted file system with one header changed.
pub fn headers(r: &mut Random) -> Flash {
    let mut flash = life(r);
    let count = flash.areas.len() / 2;
    for _ in 0..r.between(1, 2) {
        let area = r.below(count);
        let at = flash.offset(area);
        match r.below(6) {
            0 => flash.image[at + r.below(24)] ^= 1 << r.below(8),
            1 => flash.image[at + 23] = 255,
            2 => flash.image[at + 23] = r.below(3) as u8,
            3 => flash.image[at + 20] = 1,
            4 => flash.image[at + AreaHeader::RESERVED_AT] = reserved(r),
            _ => flash.fill(area, 0xff),
        }
    }
    flash
}
