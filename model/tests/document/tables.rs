//! Tables of 256 and 1,024 places (document 02, T-06): volumes with so many ids
//! that a word of 64 places, or a table, is full but for one, full, or over by
//! one.

use nffs_model::area;
use nffs_model::forge::Flash;
use nffs_model::layout::{Block, Inode, NONE, ROOT};

use crate::common::*;

const INODES: u32 = 256;
const BLOCKS: u32 = 1024;

/// The multiples of 64 up to a table's places, with one fewer and one more.
fn about_words(places: u32) -> impl Iterator<Item = u32> {
    (64..=places).step_by(64).flat_map(|word| [word - 1, word, word + 1])
}

/// Inode ids and block ids: each count that is of interest with few of the
/// other kind, and the fullest with one another.
fn counts() -> Vec<(u32, u32)> {
    let inodes = [2, 3, 31, 32, 33, 62].into_iter().chain(about_words(INODES));
    let blocks = [0, 1, 2, 62, 66].into_iter().chain(about_words(BLOCKS));
    let mut counts: Vec<(u32, u32)> = inodes.flat_map(|n| [(n, 0), (n, 3)]).collect();
    counts.extend(blocks.map(|n| (2, n)));
    for inodes in [INODES - 1, INODES, INODES + 1] {
        counts.extend([BLOCKS - 1, BLOCKS, BLOCKS + 1].map(|blocks| (inodes, blocks)));
    }
    counts
}

fn too_many(inodes: u32, blocks: u32) -> bool {
    inodes > INODES || blocks > BLOCKS
}

/// The file "/a", whose blocks these are, and other files until there are so
/// many inode ids, the root counted. The tables fill in the order given here,
/// or in the opposite one.
fn volume(areas: usize, inodes: u32, blocks: u32, backwards: bool) -> Flash {
    let mut records = vec![Inode::new(ROOT, 0, NONE, b"").bytes(), file(0)];
    records.extend((1..inodes - 1).map(file));
    records.extend((0..blocks).map(block));
    if backwards {
        records.reverse();
    }
    let bytes: usize = records.iter().map(Vec::len).sum();
    let mut flash = Flash::of(&vec![bytes / (areas - 1) + 400; areas]);
    assert!(records.iter().all(|record| put_anywhere(&mut flash, record)));
    flash
}

fn file(k: u32) -> Vec<u8> {
    let name = if k == 0 { "a".to_string() } else { format!("f{k}") };
    Inode::new(A + k, 0, ROOT, name.as_bytes()).bytes()
}

fn block(k: u32) -> Vec<u8> {
    let previous = if k == 0 { NONE } else { BLOCK + k - 1 };
    Block::new(BLOCK + k, 0, A, previous, &[k as u8]).bytes()
}

/// Each of the counts, by turns in two areas and the other way round in all
/// that a list may have; the fullest both ways.
fn each(check: fn(u32, u32, Flash)) {
    for (turn, (inodes, blocks)) in counts().into_iter().enumerate() {
        let fullest = inodes >= INODES - 1 || blocks >= BLOCKS - 1;
        if fullest || turn % 2 == 0 {
            check(inodes, blocks, volume(2, inodes, blocks, false));
        }
        if fullest || turn % 2 == 1 {
            check(inodes, blocks, volume(16, inodes, blocks, true));
        }
    }
}

fn data(blocks: u32) -> Vec<u8> {
    (0..blocks).map(|k| k as u8).collect()
}

/// Every id is found, and none that isn't there; one more than a table has
/// places is 5.
#[test]
fn every_place_is_found() {
    each(|inodes, blocks, flash| {
        let r = report(&flash);
        if too_many(inodes, blocks) {
            assert_eq!(r.number, 5, "{inodes} inodes, {blocks} blocks");
            assert_eq!(contents(&flash, "/a"), Err(5));
            return;
        }
        assert_eq!((r.number, r.inodes, r.live), (0, inodes, inodes));
        assert_eq!(contents(&flash, "/a"), Ok(data(blocks)));
        assert_eq!(read(&flash, A, 0, 1).0.headers, blocks);
        let places = [1, 31, 32, 61, 62, 63, 126, 127, 190, 191, 253, 254];
        for k in places.into_iter().filter(|k| *k < inodes - 1) {
            assert_eq!(find(&flash, &format!("/f{k}")), Ok(A + k));
        }
        assert_eq!(find(&flash, &format!("/f{}", inodes - 1)), Err(9));
        assert_eq!(read(&flash, A + inodes - 1, 0, 1).0.number, 9);
        assert_eq!(read(&flash, BLOCK + blocks, 0, 1).0.number, 9);
    });
}

/// One more of each: it is there, or 5.
#[test]
fn one_more_id() {
    each(|inodes, blocks, mut flash| {
        if too_many(inodes, blocks) {
            return;
        }
        let created = create(&mut flash, "/one more", 1);
        assert_eq!(created, if inodes < INODES { Ok(A + inodes - 1) } else { Err(5) });
        let full = blocks == BLOCKS;
        assert_eq!(append(&mut flash, "/a", b"!"), if full { 5 } else { 0 });
        assert_eq!(append(&mut flash, "/a", b""), 0);
        let end: &[u8] = if full { b"" } else { b"!" };
        assert_eq!(contents(&flash, "/a"), Ok([&data(blocks), end].concat()));
        assert_eq!(report(&flash).inodes, (inodes + 1).min(INODES));
    });
}

/// Another version takes no place: of the first id and of the last, in full
/// tables too. The greater sequence counts.
#[test]
fn versions_take_no_place() {
    each(|inodes, blocks, mut flash| {
        if too_many(inodes, blocks) {
            return;
        }
        for k in [0, inodes - 2] {
            let inode = Inode::new(A + k, 1, ROOT, format!("new{k}").as_bytes());
            assert!(put_anywhere(&mut flash, &inode.bytes()));
        }
        let mut expected = data(blocks);
        for k in [0, blocks.saturating_sub(1)].into_iter().filter(|k| *k < blocks) {
            let previous = if k == 0 { NONE } else { BLOCK + k - 1 };
            let block = Block::new(BLOCK + k, 1, A, previous, &[99]);
            assert!(put_anywhere(&mut flash, &block.bytes()));
            expected[k as usize] = 99;
        }
        let r = report(&flash);
        assert_eq!((r.number, r.inodes, r.live, r.stretches), (0, inodes, inodes, 0));
        assert_eq!(contents(&flash, "/new0"), Ok(expected));
        assert_eq!(find(&flash, &format!("/new{}", inodes - 2)), Ok(A + inodes - 2));
    });
}

/// Unlinking and collecting with tables about full; what a collection frees is
/// used again.
#[test]
fn places_that_collection_frees() {
    let counts = counts().into_iter().filter(|(inodes, blocks)| !too_many(*inodes, *blocks));
    let both_ways = counts.flat_map(|counts| [(counts, false), (counts, true)]);
    for ((inodes, blocks), backwards) in both_ways {
        let mut flash = volume(2, inodes, blocks, backwards);
        assert_eq!(unlink(&mut flash, "/a"), 0);
        assert_eq!(report(&flash).inodes, inodes);
        // Dead blocks name their owner: it goes a collection after them.
        assert_eq!((collect(&mut flash), collect(&mut flash)), (0, 0));
        let r = report(&flash);
        assert_eq!((r.number, r.inodes, r.live), (0, inodes - 1, inodes - 1));
        assert_eq!(create(&mut flash, "/again", 1), Ok(A));
        assert_eq!(append(&mut flash, "/again", b"new"), 0);
        assert_eq!(contents(&flash, "/again"), Ok(b"new".to_vec()));
    }
}

/// An id is no place: a read by the place of a record finds nothing there, also
/// where a table is full.
#[test]
fn a_place_is_no_id() {
    for (inodes, blocks) in [(2, 64), (255, 0), (256, 0), (2, 256)] {
        let flash = volume(2, inodes, blocks, false);
        let start = flash.offset(1);
        let reading = area::read(&flash.image[start..start + flash.length(1)]);
        assert_eq!(reading.records.len(), (inodes + blocks) as usize);
        for taken in reading.records {
            let place = start + taken.offset;
            assert_eq!(read(&flash, place as u32, 0, 1).0.number, 9, "{place}");
        }
    }
}

/// Directories one below the other until the table is full, with a file at the
/// bottom where there is a place for it.
fn deep(directories: u32) -> (Flash, String) {
    let mut flash = rooted(8192);
    for id in 1..=directories {
        assert!(flash.inode(1, id, 0, id - 1, b"d"));
    }
    let mut path = "/d".repeat(directories as usize);
    if directories + 2 <= INODES {
        assert!(flash.inode(1, A, 0, directories, b"f"));
        path += "/f";
    }
    (flash, path)
}

/// All places lead to the root one by one; the deletion of the uppermost is the
/// death of all below it.
#[test]
fn as_deep_as_the_table() {
    for directories in [62, 63, 64, 65, 127, 128, 129, 191, 192, 193, 253, 254, 255] {
        let (mut flash, path) = deep(directories);
        let inodes = (directories + 2).min(INODES);
        assert_eq!((report(&flash).inodes, report(&flash).live), (inodes, inodes));
        let bottom = if directories + 2 <= INODES { A } else { directories };
        assert_eq!(find(&flash, &path), Ok(bottom), "{directories} directories");
        assert_eq!(find(&flash, &format!("{path}/x")), Err(if bottom == A { 11 } else { 9 }));
        assert_eq!(unlink(&mut flash, "/d"), 0);
        assert_eq!((report(&flash).inodes, report(&flash).live), (inodes, 1));
        assert_eq!(find(&flash, &path), Err(9));
    }
}

/// A loop through all places but the root's, and loops that all others lead
/// into: orphans.
#[test]
fn loops_through_the_whole_table() {
    for (count, back) in [(255, 1), (255, 254), (255, 255), (64, 1), (128, 63)] {
        let mut flash = rooted(8192);
        for id in 1..=count {
            let parent = if id == count { back } else { id + 1 };
            assert!(flash.inode(1, id, 0, parent, b"d"));
        }
        let r = report(&flash);
        assert_eq!((r.number, r.inodes, r.live), (0, count + 1, 1));
        assert_eq!(find(&flash, "/d"), Err(9));
        assert_eq!(read(&flash, 1, 0, 1).0.number, 9);
    }
}

/// A chain of blocks that uses the whole table, in any order of places; one
/// that leads back into itself breaks the file.
#[test]
fn chains_through_the_whole_table() {
    for (back, broken) in [(None, false), (Some(1), true), (Some(511), true), (Some(1022), true)] {
        let mut flash = rooted(32_768);
        assert!(flash.inode(1, A, 0, ROOT, b"a"));
        // Ids fall where places rise, within each word.
        let id = |k: u32| BLOCK + (k ^ 63);
        for k in 0..BLOCKS {
            let first = back.map_or(NONE, id);
            let previous = if k == 0 { first } else { id(k - 1) };
            assert!(flash.block(1, id(k), 0, A, previous, &[k as u8]));
        }
        let expected = if broken { Err(13) } else { Ok(data(BLOCKS)) };
        assert_eq!(contents(&flash, "/a"), expected, "back to {back:?}");
        assert_eq!(append(&mut flash, "/a", b""), if broken { 13 } else { 0 });
        assert_eq!(append(&mut flash, "/a", b"x"), if broken { 13 } else { 5 });
    }
}
