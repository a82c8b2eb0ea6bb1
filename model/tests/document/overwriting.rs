//! "Overwrite in the middle" (document 02, T-05): refusals 8 to 11 and 13 to 16.

use nffs_model::forge::Flash;
use nffs_model::layout::{Block, Inode, NONE, ROOT};

use crate::calls;
use crate::common::*;

/// The bytes of the bench's file: a block of 10 and one of 5.
const BENCH: [u8; 15] = [0x41; 15];

/// Data unlike what a file has.
fn new_data(length: usize) -> Vec<u8> {
    (0..length).map(|i| (i % 199) as u8 ^ 0xe0).collect()
}

/// The bytes with these in their place from an offset on.
fn spliced(old: &[u8], offset: usize, data: &[u8]) -> Vec<u8> {
    let mut new = old.to_vec();
    new[offset..offset + data.len()].copy_from_slice(data);
    new
}

/// A file /a (A) of blocks with these sequences and data, ids from BLOCK on, in an
/// area of 4,096.
fn file(blocks: &[(u32, &[u8])]) -> Flash {
    let mut flash = rooted(4096);
    flash.inode(1, A, 0, ROOT, b"a");
    let mut previous = NONE;
    for ((sequence, data), id) in blocks.iter().zip(BLOCK..) {
        assert!(flash.block(1, id, *sequence, A, previous, data));
        previous = id;
    }
    flash
}

/// Directories /d (1) and /d/e (2), the files /d/e/f (A, "dose" in two blocks), /a (B,
/// "0.5") and /empty; two files named /twice.
fn tree() -> Flash {
    let mut flash = rooted(4096);
    flash.inode(1, 1, 0, ROOT, b"d");
    flash.inode(1, 2, 0, 1, b"e");
    flash.inode(1, A, 0, 2, b"f");
    flash.block(1, BLOCK, 0, A, NONE, b"do");
    flash.block(1, BLOCK + 1, 0, A, BLOCK, b"se");
    flash.inode(1, B, 0, ROOT, b"a");
    flash.block(1, BLOCK + 2, 0, B, NONE, b"0.5");
    flash.inode(1, B + 1, 0, ROOT, b"empty");
    flash.inode(1, B + 2, 0, ROOT, b"twice");
    flash.inode(1, B + 3, 0, ROOT, b"twice");
    flash
}

/// Asserts that the free space of area 1, from its offset `free` on, got these records
/// and that no other byte changed.
fn got(flash: &Flash, before: &[u8], free: usize, records: &[Vec<u8>]) {
    let records = records.concat();
    let end = free + records.len();
    let expected = [&before[..free], &records, &before[end..]].concat();
    assert_eq!(area(flash, 1), expected);
}

/// "each block that holds a byte of the written range is rewritten with the same id,
/// owner, previous and length, sequence plus one, and its changed data".
#[test]
fn the_records() {
    let mut flash = bench();
    let before = area(&flash, 1);
    assert_eq!(overwrite(&mut flash, "/a", 8, b"wxyz"), 0);
    let first = Block::new(BLOCK, 1, A, NONE, b"AAAAAAAAwx").bytes();
    let second = Block::new(BLOCK + 1, 1, A, BLOCK, b"yzAAA").bytes();
    got(&flash, &before, 128, &[first, second]);
    assert_eq!(contents(&flash, "/a"), Ok(b"AAAAAAAAwxyzAAA".to_vec()));
}

/// Every range within the bench's file: inside a block, from one into the other, a
/// whole block, the whole file, nothing. "The range then reads as the new data, every
/// other byte as before."
#[test]
fn every_range() {
    for (from, to) in (0..=15).flat_map(|from| (from..=15).map(move |to| (from, to))) {
        let mut flash = bench();
        let (before, data) = (area(&flash, 1), new_data(to - from));
        assert_eq!(overwrite(&mut flash, "/a", from as u32, &data), 0, "{from} to {to}");
        let bytes = spliced(&BENCH, from, &data);
        let mut records = Vec::new();
        if from < 10 && from < to {
            records.push(Block::new(BLOCK, 1, A, NONE, &bytes[..10]).bytes());
        }
        if to > 10 && from < to {
            records.push(Block::new(BLOCK + 1, 1, A, BLOCK, &bytes[10..]).bytes());
        }
        got(&flash, &before, 128, &records);
        assert_eq!(contents(&flash, "/a"), Ok(bytes));
    }
}

/// "an offset or an end past the size is 14": every range past the bench's file.
#[test]
fn every_range_past_the_size() {
    let mut flash = bench();
    for offset in 0..=18 {
        for length in 0..=18 {
            if offset + length > 15 {
                assert_eq!(overwrite(&mut flash, "/a", offset, &new_data(length as usize)), 14);
            }
        }
    }
    assert_eq!(contents(&flash, "/a"), Ok(BENCH.to_vec()));
}

/// Sums don't wrap: an offset near ffffffff is past the size, whatever the length.
#[test]
fn the_greatest_offsets() {
    let mut flash = bench();
    for offset in [LAST, LAST - 1, LAST - 14, LAST - 15, LAST - 16, 0x8000_0000, 0xffff_0000] {
        for length in [0, 1, 2, 15, 16, 17, 30, 31, 32, 8192] {
            assert_eq!(overwrite(&mut flash, "/a", offset, &new_data(length)), 14, "{offset:x}");
        }
        assert_eq!(overwrite(&mut flash, "/a", offset, &new_data(8193)), 8);
    }
    // The last 16 bits alone, or the last 24, are within the file.
    for offset in [0x1_0000, 0x1_0003, 0x100_0000, 0xff00_000f] {
        assert_eq!(overwrite(&mut flash, "/a", offset, b"x"), 14, "{offset:x}");
        assert_eq!(overwrite(&mut flash, "/a", offset, b""), 14, "{offset:x}");
    }
}

/// "0 bytes write nothing": at any offset up to the size.
#[test]
fn nothing_written() {
    let mut flash = bench();
    let before = flash.image.clone();
    for offset in 0..=15 {
        assert_eq!(overwrite(&mut flash, "/a", offset, b""), 0, "{offset}");
    }
    assert_eq!(flash.image, before);
    assert_eq!(overwrite(&mut flash, "/a", 16, b""), 14);
    // They are asked all that an append of 0 bytes is.
    assert_eq!(overwrite(&mut flash, "a", 0, b""), 8);
    assert_eq!(overwrite(&mut flash, "/no", 0, b""), 9);
    assert_eq!(overwrite(&mut flash, "/a/x", 0, b""), 11);
    assert_eq!(overwrite(&mut flash, "/", 0, b""), 11);
}

/// Where nothing could be written 0 bytes are none too many: in a damaged area, a full
/// one, and at the last sequence.
#[test]
fn nothing_written_anywhere() {
    let mut torn = bench();
    torn.put(1, b"torn");
    let mut full = bench();
    fill(&mut full, 1, 0);
    let mut last = file(&[(LAST, b"ab"), (LAST, b"c")]);
    for (flash, size, number) in [(&mut torn, 15, 15), (&mut full, 15, 15), (&mut last, 3, 16)] {
        for offset in 0..=size {
            assert_eq!(overwrite(flash, "/a", offset, b""), 0);
        }
        assert_eq!(overwrite(flash, "/a", size + 1, b""), 14);
        assert_eq!(overwrite(flash, "/a", 0, b"x"), number);
    }
}

/// "within the present size": an empty file has no byte to overwrite.
#[test]
fn an_empty_file() {
    let mut flash = tree();
    let before = flash.image.clone();
    assert_eq!(overwrite(&mut flash, "/empty", 0, b""), 0);
    assert_eq!(flash.image, before);
    for (offset, data) in [(0, &b"x"[..]), (1, b""), (1, b"x"), (LAST, b""), (LAST, b"x")] {
        assert_eq!(overwrite(&mut flash, "/empty", offset, data), 14);
    }
    assert_eq!(contents(&flash, "/empty"), Ok(vec![]));
}

/// What is written may be what was there: the blocks are rewritten all the same.
#[test]
fn the_same_bytes() {
    let mut flash = bench();
    let before = area(&flash, 1);
    assert_eq!(overwrite(&mut flash, "/a", 9, b"AA"), 0);
    let first = Block::new(BLOCK, 1, A, NONE, &[0x41; 10]).bytes();
    let second = Block::new(BLOCK + 1, 1, A, BLOCK, &[0x41; 5]).bytes();
    got(&flash, &before, 128, &[first, second]);
    assert_eq!(contents(&flash, "/a"), Ok(BENCH.to_vec()));
}

/// Overwritten again and again: the sequence of the block goes on, and of no other.
#[test]
fn blocks_sequences_go_on() {
    let mut flash = file(&[(0, b"first"), (41, b"second"), (7, b"third")]);
    let (before, free) = (area(&flash, 1), flash.next(1));
    let mut records = Vec::new();
    for k in 0..50u32 {
        let data = format!("s{k:05}").into_bytes();
        assert_eq!(overwrite(&mut flash, "/a", 5, &data), 0);
        records.push(Block::new(BLOCK + 1, 42 + k, A, BLOCK, &data).bytes());
    }
    got(&flash, &before, free, &records);
    assert_eq!(contents(&flash, "/a"), Ok(b"firsts00049third".to_vec()));
}

/// The counting version is what is rewritten, wherever it lies among the others.
#[test]
fn the_counting_version_rewritten() {
    let versions: [(u32, &[u8]); 4] = [(5, b"five"), (7, b"seven"), (6, b"six"), (7, b"seven")];
    let mut flash = rooted(4096);
    flash.inode(1, A, 0, ROOT, b"a");
    for (sequence, data) in versions {
        flash.block(1, BLOCK, sequence, A, NONE, data);
    }
    let (before, free) = (area(&flash, 1), flash.next(1));
    assert_eq!(overwrite(&mut flash, "/a", 4, b"N!"), 14);
    assert_eq!(overwrite(&mut flash, "/a", 4, b"N"), 0);
    got(&flash, &before, free, &[Block::new(BLOCK, 8, A, NONE, b"seveN").bytes()]);
    assert_eq!(contents(&flash, "/a"), Ok(b"seveN".to_vec()));
}

/// A file of which the ids, the records on flash and the blocks are in three different
/// orders: from the front "ab", "cde", "f", "ghij".
fn shuffled() -> Flash {
    let mut flash = rooted(4096);
    flash.block(1, BLOCK + 4, 2, A, BLOCK + 7, b"f");
    flash.block(1, BLOCK + 5, 0, A, BLOCK + 4, b"ghij");
    flash.inode(1, A, 0, ROOT, b"a");
    flash.block(1, BLOCK + 9, 1, A, NONE, b"ab");
    flash.block(1, BLOCK + 7, 0, A, BLOCK + 9, b"cde");
    flash
}

/// "in file order".
#[test]
fn in_file_order() {
    let mut flash = shuffled();
    assert_eq!(contents(&flash, "/a"), Ok(b"abcdefghij".to_vec()));
    let (before, free) = (area(&flash, 1), flash.next(1));
    assert_eq!(overwrite(&mut flash, "/a", 0, b"ABCDEFGHIJ"), 0);
    let all = [
        Block::new(BLOCK + 9, 2, A, NONE, b"AB").bytes(),
        Block::new(BLOCK + 7, 1, A, BLOCK + 9, b"CDE").bytes(),
        Block::new(BLOCK + 4, 3, A, BLOCK + 7, b"F").bytes(),
        Block::new(BLOCK + 5, 1, A, BLOCK + 4, b"GHIJ").bytes(),
    ];
    got(&flash, &before, free, &all);
    let mut flash = shuffled();
    assert_eq!(overwrite(&mut flash, "/a", 4, b"EFG"), 0);
    let three = [
        Block::new(BLOCK + 7, 1, A, BLOCK + 9, b"cdE").bytes(),
        Block::new(BLOCK + 4, 3, A, BLOCK + 7, b"F").bytes(),
        Block::new(BLOCK + 5, 1, A, BLOCK + 4, b"Ghij").bytes(),
    ];
    got(&flash, &before, free, &three);
    assert_eq!(contents(&flash, "/a"), Ok(b"abcdEFGhij".to_vec()));
}

/// "all or none, in file order", each where any new record goes: a damaged area waits,
/// a full one is passed over, and a later, shorter record may go to an earlier area.
#[test]
fn where_the_records_go() {
    let mut flash = Flash::of(&[256; 5]);
    flash.root(1);
    flash.inode(1, A, 0, ROOT, b"a");
    flash.put(1, b"torn");
    fill(&mut flash, 2, 26);
    fill(&mut flash, 3, 60);
    flash.block(4, BLOCK, 0, A, NONE, &[1; 30]);
    flash.block(4, BLOCK + 1, 0, A, BLOCK, &[2; 20]);
    flash.block(4, BLOCK + 2, 0, A, BLOCK + 1, &[3; 2]);
    let (before, data) = (flash.clone(), new_data(52));
    assert_eq!(overwrite(&mut flash, "/a", 0, &data), 0);
    let first = Block::new(BLOCK, 1, A, NONE, &data[..30]).bytes();
    let second = Block::new(BLOCK + 1, 1, A, BLOCK, &data[30..50]).bytes();
    let third = Block::new(BLOCK + 2, 1, A, BLOCK + 1, &data[50..]).bytes();
    assert_eq!(area(&flash, 3)[196..250], first);
    assert_eq!(area(&flash, 4)[24 + 124..][..44], second);
    assert_eq!(area(&flash, 2)[230..], third);
    assert_eq!((area(&flash, 0), area(&flash, 1)), (area(&before, 0), area(&before, 1)));
    assert_eq!(area(&flash, 3)[250..], [0xff; 6]);
    assert_eq!(contents(&flash, "/a"), Ok(data));
    assert_eq!(report(&flash).stretches, 1);
}

/// A file over all areas of 128, of 28 bytes a block, rewritten into others.
#[test]
fn a_file_over_several_areas() {
    let mut flash = Flash::of(&[128; 8]);
    flash.root(1);
    assert_eq!(create(&mut flash, "/a", 1), Ok(A));
    let data: Vec<u8> = (0..140).collect();
    assert_eq!(append(&mut flash, "/a", &data), 0);
    let before = flash.clone();
    // One block beside root and name, two in each of the next areas.
    assert_eq!(overwrite(&mut flash, "/a", 20, &[7; 100]), 0);
    let bytes = spliced(&data, 20, &[7; 100]);
    let mut places = [(4, 24), (4, 76), (5, 24), (5, 76), (6, 24)].into_iter();
    for (k, piece) in bytes.chunks(28).enumerate() {
        let id = BLOCK + k as u32;
        let previous = if k == 0 { NONE } else { id - 1 };
        let (index, offset) = places.next().expect("a place");
        let record = Block::new(id, 1, A, previous, piece).bytes();
        assert_eq!(area(&flash, index)[offset..offset + 52], record, "block {k}");
    }
    for index in [0, 1, 2, 3, 7] {
        assert_eq!(area(&flash, index), area(&before, index));
    }
    assert_eq!(contents(&flash, "/a"), Ok(bytes));
    assert_eq!(read(&flash, A, 0, 1).0.headers, 5);
}

/// "all or none": with room for the first blocks but not for the last, nothing changes.
#[test]
fn all_or_none() {
    let mut flash = Flash::of(&[512; 3]);
    flash.root(1);
    flash.inode(1, A, 0, ROOT, b"a");
    for k in 0..3 {
        let previous = if k == 0 { NONE } else { BLOCK + k - 1 };
        flash.block(1, BLOCK + k, 0, A, previous, &[b'0' + k as u8; 20]);
    }
    let old = contents(&flash, "/a").expect("a file");
    // 44 bytes a record.
    for (one, other, number) in
        [(132, 0, 0), (88, 44, 0), (44, 88, 0), (44, 87, 15), (43, 131, 15), (131, 43, 15)]
    {
        let mut flash = flash.clone();
        fill(&mut flash, 1, one);
        fill(&mut flash, 2, other);
        let data = new_data(60);
        assert_eq!(overwrite(&mut flash, "/a", 0, &data), number, "{one} and {other}");
        let now = if number == 0 { data } else { old.clone() };
        assert_eq!(contents(&flash, "/a"), Ok(now));
        // A byte of each block is as much as all of it.
        if number != 0 {
            assert_eq!(overwrite(&mut flash, "/a", 19, &new_data(22)), number);
            assert_eq!(overwrite(&mut flash, "/a", 19, &new_data(21)), 0);
        }
    }
}

/// 15 by one byte; a record may fill the free space exactly. The whole block counts,
/// not what is written of it.
#[test]
fn fifteen_by_one_byte() {
    for length in [1, 2, 28, 255, 256, 2047, 2048] {
        for (leave, number) in [(24 + length, 0), (23 + length, 15), (24, 15), (0, 15)] {
            let mut flash = rooted(8192);
            flash.inode(1, A, 0, ROOT, b"a");
            flash.block(1, BLOCK, 0, A, NONE, &vec![1; length]);
            fill(&mut flash, 1, leave);
            assert_eq!(overwrite(&mut flash, "/a", length as u32 - 1, b"x"), number, "{length}");
            let last = if number == 0 { b'x' } else { 1 };
            assert_eq!(contents(&flash, "/a").map(|bytes| bytes[length - 1]), Ok(last));
            assert_eq!(report(&flash).stretches, 0);
        }
    }
}

/// No clean area: 15; a collection makes one.
#[test]
fn no_clean_area() {
    let mut flash = bench();
    flash.put(1, b"torn");
    assert_eq!(overwrite(&mut flash, "/a", 3, b"x"), 15);
    assert_eq!(overwrite(&mut flash, "/a", 15, b"x"), 14);
    assert_eq!(collect(&mut flash), 0);
    assert_eq!(overwrite(&mut flash, "/a", 3, b"x"), 0);
    assert_eq!(contents(&flash, "/a"), Ok(spliced(&BENCH, 3, b"x")));
}

/// A block longer than appends make them now (T-03) is rewritten with its length: one
/// of 40 bytes in areas of 128, where the greatest has 28, and of 2,048 in areas of
/// 4,096, where it has 2,012.
#[test]
fn longer_blocks() {
    for (length, size) in [(128, 40), (128, 80), (4096, 2024), (4096, 2048)] {
        let mut flash = Flash::of(&[length; 4]);
        flash.root(1);
        flash.inode(1, A, 0, ROOT, b"a");
        flash.block(2, BLOCK, 0, A, NONE, &vec![1; size]);
        flash.block(1, BLOCK + 1, 0, A, BLOCK, b"end");
        fill(&mut flash, 1, 0);
        let offset = size as u32 - 1;
        assert_eq!(overwrite(&mut flash, "/a", offset, b"x"), 0, "{size} in {length}");
        let data = [&vec![1; size - 1][..], b"x"].concat();
        let record = Block::new(BLOCK, 1, A, NONE, &data).bytes();
        assert_eq!(area(&flash, 3)[24..24 + record.len()], record);
        assert_eq!(contents(&flash, "/a"), Ok([&data[..], b"end"].concat()));
        assert_eq!(read(&flash, A, 0, 1).0.headers, 2);
    }
}

/// "n from 1 to 2,048": a block without data is no record, so that no file has one. One
/// that stands in a chain breaks it; behind all others it is damage and nothing else.
#[test]
fn blocks_without_data() {
    let none = |id: u32, previous: u32| Block::new(id, 0, A, previous, b"").bytes();
    let mut flash = Flash::of(&[256; 3]);
    flash.root(1);
    flash.inode(1, A, 0, ROOT, b"a");
    flash.block(1, BLOCK, 0, A, NONE, b"abc");
    let mut within = flash.clone();
    within.put(1, &none(BLOCK + 1, BLOCK));
    within.block(1, BLOCK + 2, 0, A, BLOCK + 1, b"def");
    assert_eq!(overwrite(&mut within, "/a", 2, b"x"), 13);
    assert_eq!(overwrite(&mut within, "/a", 0, b""), 13);
    flash.put(1, &none(BLOCK + 1, BLOCK));
    assert_eq!(overwrite(&mut flash, "/a", 3, b"x"), 14);
    assert_eq!(overwrite(&mut flash, "/a", 0, b"xyz"), 0);
    holds(&flash, 2, [0, 0, 0, 1], &Block::new(BLOCK, 1, A, NONE, b"xyz").bytes());
    assert_eq!((contents(&flash, "/a"), report(&flash).skipped), (Ok(b"xyz".to_vec()), 24));
}

/// "such a block at sequence ffffffff is 16"; from the one before it the record has the
/// last.
#[test]
fn a_blocks_last_sequence() {
    let mut flash = file(&[(LAST - 1, b"ab")]);
    let (before, free) = (area(&flash, 1), flash.next(1));
    assert_eq!(overwrite(&mut flash, "/a", 1, b"B"), 0);
    got(&flash, &before, free, &[Block::new(BLOCK, LAST, A, NONE, b"aB").bytes()]);
    assert_eq!(overwrite(&mut flash, "/a", 0, b"A"), 16);
    assert_eq!(overwrite(&mut flash, "/a", 0, b"aB"), 16);
    assert_eq!(overwrite(&mut flash, "/a", 0, b""), 0);
    assert_eq!(overwrite(&mut flash, "/a", 2, b"c"), 14);
    assert_eq!(contents(&flash, "/a"), Ok(b"aB".to_vec()));
    // An append writes another block.
    assert_eq!(append(&mut flash, "/a", b"c"), 0);
    assert_eq!(overwrite(&mut flash, "/a", 2, b"C"), 0);
    assert_eq!(contents(&flash, "/a"), Ok(b"aBC".to_vec()));
}

/// 16 for "such a block" only, one that holds a byte of the range: not for its
/// neighbours, nor for the file's inode. Nothing of the others is written then.
#[test]
fn sixteen_for_blocks_of_the_range() {
    let blocks: [(u32, &[u8]); 5] =
        [(0, b"ab"), (LAST, b"cd"), (3, b"ef"), (LAST - 1, b"gh"), (LAST, b"ij")];
    let old = b"abcdefghij";
    for (from, to) in (0..=10).flat_map(|from| (from..=10).map(move |to| (from, to))) {
        let mut flash = file(&blocks);
        let data = new_data(to - from);
        let last = from < to && (from < 4 && to > 2 || to > 8);
        let number = if last { 16 } else { 0 };
        assert_eq!(overwrite(&mut flash, "/a", from as u32, &data), number, "{from} to {to}");
        let now = if last { old.to_vec() } else { spliced(old, from, &data) };
        assert_eq!(contents(&flash, "/a"), Ok(now));
    }
    let mut flash = rooted(4096);
    flash.inode(1, A, LAST, ROOT, b"a");
    flash.block(1, BLOCK, 0, A, NONE, b"ab");
    assert_eq!(overwrite(&mut flash, "/a", 0, b"AB"), 0);
    assert_eq!(contents(&flash, "/a"), Ok(b"AB".to_vec()));
}

/// 14, 16, 15 in this order, with room for all, for some and for none.
#[test]
fn fourteen_sixteen_fifteen() {
    let blocks: [(u32, &[u8]); 3] = [(0, b"ab"), (LAST, b"cd"), (0, b"ef")];
    for leave in [100, 52, 51, 26, 25, 0] {
        let mut flash = file(&blocks);
        fill(&mut flash, 1, leave);
        for (offset, length, number) in
            [(0, 7, 14), (2, 5, 14), (6, 1, 14), (7, 0, 14), (0, 6, 16), (1, 2, 16), (3, 1, 16)]
        {
            let mut flash = flash.clone();
            assert_eq!(overwrite(&mut flash, "/a", offset, &new_data(length)), number, "{leave}");
        }
        let fits = |number: u32| if number as usize <= leave { 0 } else { 15 };
        assert_eq!(overwrite(&mut flash.clone(), "/a", 1, b"x"), fits(26));
        assert_eq!(overwrite(&mut flash.clone(), "/a", 4, b"xy"), fits(26));
        let mut other = file(&[(0, b"ab"), (1, b"cd"), (0, b"ef")]);
        fill(&mut other, 1, leave);
        assert_eq!(overwrite(&mut other, "/a", 1, b"xy"), fits(52));
    }
}

/// "It ... is refused as append is": over 8,192 bytes are 8, before any walk, whatever
/// the file.
#[test]
fn the_limit_of_8192_bytes() {
    let mut flash = Flash::of(&[30_000; 2]);
    flash.root(1);
    flash.inode(1, B, 0, ROOT, b"broken");
    flash.block(1, 0x9000_0000, LAST, B, BLOCK + 99, b"x");
    assert_eq!(create(&mut flash, "/a", 1), Ok(A));
    let data = new_data(8193);
    for _ in 0..2 {
        assert_eq!(append(&mut flash, "/a", &[1; 5000]), 0);
    }
    for path in ["/a", "/no", "/", "/a/b", "/broken"] {
        for offset in [0, 1, 1807, 1808, 9999, 10_000, LAST] {
            for more in [&data[..], &[2; 9000], &[3; 65_535], &[3; 65_536], &[3; 70_000]] {
                assert_eq!(overwrite(&mut flash, path, offset, more), 8, "{path}");
            }
        }
    }
    for offset in [0, 1, 1808] {
        let mut flash = flash.clone();
        assert_eq!(overwrite(&mut flash, "/a", offset, &data[..8192]), 0);
        let bytes = spliced(&[1; 10_000], offset as usize, &data[..8192]);
        assert_eq!(contents(&flash, "/a"), Ok(bytes));
    }
    assert_eq!(overwrite(&mut flash, "/a", 1809, &data[..8192]), 14);
}

/// 8 of path and base comes before any walk.
#[test]
fn bad_paths() {
    let mut flash = tree();
    let long = format!("{}a", "/nn".repeat(341));
    for (path, number) in [(&long[..], 9), (&format!("{long}n"), 8)] {
        assert_eq!(overwrite(&mut flash, path, 0, b"x"), number);
    }
    for path in ["", "//", "/a/", "/a//b", "/a\0", "a", "d/e/f"] {
        for (offset, data) in [(0, &b"x"[..]), (0, b""), (LAST, b"x"), (1, &[1; 9000])] {
            assert_eq!(overwrite(&mut flash, path, offset, data), 8, "{path:?}");
        }
    }
    for base in ["", "d", "/d/", "//", "/d\0"] {
        assert_eq!(overwrite_below(&mut flash, base, "a", 0, b"x"), 8, "{base:?}");
        assert_eq!(overwrite_below(&mut flash, base, "/a", 0, b"x"), 0, "{base:?}");
    }
}

/// "It takes a path": absolute, or below a base.
#[test]
fn paths_and_bases() {
    for (base, path) in
        [("", "/d/e/f"), ("/no", "/d/e/f"), ("/", "d/e/f"), ("/d", "e/f"), ("/d/e", "f")]
    {
        let mut flash = tree();
        assert_eq!(overwrite_below(&mut flash, base, path, 1, b"OS"), 0, "{base} {path}");
        assert_eq!(contents(&flash, "/d/e/f"), Ok(b"dOSe".to_vec()));
        assert_eq!(contents(&flash, "/a"), Ok(b"0.5".to_vec()));
    }
    let mut flash = tree();
    assert_eq!(overwrite_below(&mut flash, "/", "f", 1, b"x"), 9);
    assert_eq!(overwrite_below(&mut flash, "/a", "f", 1, b"x"), 11);
    assert_eq!(overwrite_below(&mut flash, "/twice", "f", 1, b"x"), 10);
}

/// 9, 10 and 11 as "the first failing step decides"; a directory is 11, the root too.
#[test]
fn the_path_walked() {
    let numbers = [
        ("/no", 9),
        ("/d/no", 9),
        ("/no/twice", 9),
        ("/twice", 10),
        ("/twice/x", 10),
        ("/a/x", 11),
        ("/a/x/y", 11),
        ("/d/e/f/x", 11),
        ("/", 11),
        ("/d", 11),
        ("/d/e", 11),
    ];
    let mut flash = tree();
    for (path, number) in numbers {
        for (offset, data) in [(0, &b""[..]), (0, b"x"), (1, b""), (LAST, b"x"), (3, &[1; 8192])] {
            assert_eq!(overwrite(&mut flash, path, offset, data), number, "{path}");
        }
    }
    fill(&mut flash, 1, 0);
    for (path, number) in numbers {
        assert_eq!(overwrite(&mut flash, path, 0, b"x"), number, "{path}");
    }
    assert_eq!(overwrite(&mut flash, "/a", 0, b"x"), 15);
}

/// Only what is live is there: not the dead, not orphans, not old names.
#[test]
fn what_is_not_live() {
    let mut flash = tree();
    flash.inode(1, B + 4, 0, ROOT, b"dead");
    flash.block(1, BLOCK + 3, 0, B + 4, NONE, b"dead");
    flash.delete(1, B + 4, 1);
    flash.inode(1, B + 5, 0, 9, b"orphan");
    flash.block(1, BLOCK + 4, 0, B + 5, NONE, b"orphan");
    for path in ["/dead", "/orphan"] {
        assert_eq!(overwrite(&mut flash, path, 0, b"x"), 9, "{path}");
    }
    assert_eq!(rename(&mut flash, "/d/e/f", "/f"), 0);
    assert_eq!(overwrite(&mut flash, "/d/e/f", 0, b"x"), 9);
    assert_eq!(overwrite(&mut flash, "/f", 1, b"OS"), 0);
    assert_eq!(contents(&flash, "/f"), Ok(b"dOSe".to_vec()));
    assert_eq!(unlink(&mut flash, "/f"), 0);
    assert_eq!(overwrite(&mut flash, "/f", 1, b"x"), 9);
}

/// "13 too": of a broken file, whatever the offset, of 0 bytes, at the last sequence and
/// without room.
#[test]
fn a_broken_file() {
    let mut missing = file(&[(0, b"ab"), (LAST, b"cd")]);
    missing.block(1, BLOCK + 3, 0, A, BLOCK + 2, b"ef");
    let mut two_ends = file(&[(0, b"ab"), (LAST, b"cd")]);
    two_ends.block(1, BLOCK + 2, 0, A, BLOCK, b"ef");
    let mut looped = file(&[(0, b"ab"), (LAST, b"cd")]);
    looped.block(1, BLOCK, 1, A, BLOCK + 1, b"ab");
    for (flash, leave) in [missing, two_ends, looped].iter().flat_map(|f| [(f, 900), (f, 0)]) {
        let mut flash = flash.clone();
        fill(&mut flash, 1, leave);
        assert_eq!(contents(&flash, "/a"), Err(13));
        for offset in [0, 1, 2, 3, 4, 6, 7, LAST] {
            for data in [&b""[..], b"x", b"abcdefgh", &[1; 8192]] {
                assert_eq!(overwrite(&mut flash, "/a", offset, data), 13, "{offset}");
            }
            assert_eq!(overwrite(&mut flash, "/a", offset, &[1; 8193]), 8);
        }
    }
}

/// Of another file than the broken one nothing is asked.
#[test]
fn beside_a_broken_file() {
    let mut flash = file(&[(0, b"ab")]);
    flash.inode(1, B, 0, ROOT, b"broken");
    flash.block(1, BLOCK + 1, 0, B, BLOCK + 9, b"x");
    assert_eq!(overwrite(&mut flash, "/broken", 0, b"y"), 13);
    assert_eq!(overwrite(&mut flash, "/a", 0, b"AB"), 0);
    assert_eq!(
        (contents(&flash, "/a"), contents(&flash, "/broken")),
        (Ok(b"AB".to_vec()), Err(13))
    );
}

/// Checks 1 to 7 come before 8.
#[test]
fn checks_before_eight() {
    let refused = |flash: &mut Flash, number: u32| {
        for (path, offset, data) in [("/a", 0, &b"x"[..]), ("", 0, b""), ("/no", 9, &[1; 8193])] {
            assert_eq!(overwrite(flash, path, offset, data), number, "{path}");
        }
    };
    let mut flash = tree();
    flash.areas[0] = 1;
    refused(&mut flash, 1);
    let mut flash = Flash::of(&[256, 256, 256]);
    flash.root(1);
    flash.head(2, 0, 0, 0);
    refused(&mut flash, 2);
    flash.head(2, 0, 0, 255);
    refused(&mut flash, 3);
    let mut flash = Flash::of(&[256, 300]);
    flash.root(1);
    refused(&mut flash, 4);
    let mut flash = rooted(32_768);
    blocks_up_to(&mut flash, A, 0, 1025);
    refused(&mut flash, 5);
    let mut flash = bench();
    flash.block(1, BLOCK, 0, A, NONE, b"clash");
    refused(&mut flash, 6);
    refused(&mut Flash::of(&[256, 256]), 7);
}

/// No id is new: with 256 inode ids and 1,024 block ids it is never 5, and the next
/// append takes the id that it would have taken.
#[test]
fn full_tables() {
    let mut flash = rooted(32_768);
    flash.inode(1, A, 0, ROOT, b"a");
    inodes_up_to(&mut flash, 2, 256);
    blocks_up_to(&mut flash, A, 0, 1024);
    assert_eq!(append(&mut flash, "/a", b"x"), 5);
    assert_eq!(overwrite(&mut flash, "/a", 500, b"over"), 0);
    assert_eq!(contents(&flash, "/a"), Ok(spliced(&[b'd'; 1024], 500, b"over")));
    assert_eq!((report(&flash).inodes, report(&flash).live), (256, 256));
    let mut flash = bench();
    assert_eq!(overwrite(&mut flash, "/a", 0, &new_data(15)), 0);
    assert_eq!(append(&mut flash, "/a", b"new"), 0);
    let appended = Block::new(BLOCK + 2, 0, A, BLOCK + 1, b"new").bytes();
    assert_eq!(area(&flash, 1)[128 + 63..][..27], appended);
    assert_eq!(contents(&flash, "/a"), Ok([&new_data(15)[..], b"new"].concat()));
}

/// A read follows as many headers as before, from every position on.
#[test]
fn header_counts_stay() {
    let mut flash = shuffled();
    let reads = |flash: &Flash| {
        let read = |position| read(flash, A, position, 3).0;
        (0..=11).map(read).collect::<Vec<_>>()
    };
    let before = reads(&flash);
    assert_eq!(before.iter().map(|read| read.headers).max(), Some(4));
    for (offset, data) in [(0, &b"ABCDEFGHIJ"[..]), (3, b"x"), (5, b"yz"), (9, b"!")] {
        assert_eq!(overwrite(&mut flash, "/a", offset, data), 0);
        assert_eq!(reads(&flash), before);
    }
}

/// All else keeps path and contents, and the report its numbers.
#[test]
fn everything_else_stays() {
    let mut flash = tree();
    let before = report(&flash);
    assert_eq!(overwrite(&mut flash, "/d/e/f", 0, b"rate"), 0);
    assert_eq!(overwrite(&mut flash, "/a", 2, b"7"), 0);
    for (path, id) in [("/", ROOT), ("/d", 1), ("/d/e", 2), ("/d/e/f", A), ("/a", B)] {
        assert_eq!(find(&flash, path), Ok(id), "{path}");
    }
    assert_eq!(find(&flash, "/twice"), Err(10));
    assert_eq!(contents(&flash, "/d/e/f"), Ok(b"rate".to_vec()));
    assert_eq!(contents(&flash, "/a"), Ok(b"0.7".to_vec()));
    assert_eq!(contents(&flash, "/empty"), Ok(vec![]));
    assert_eq!(report(&flash), before);
}

/// What is written may read as records: inside a block it is none.
#[test]
fn records_as_data() {
    let inode = Inode::new(B + 7, 9, ROOT, b"within").bytes();
    let block = Block::new(BLOCK + 9, 0, A, BLOCK, b"within").bytes();
    let data = [inode, block].concat();
    let mut flash = file(&[(0, &[1; 40]), (0, &[2; 40])]);
    let before = report(&flash);
    assert_eq!(overwrite(&mut flash, "/a", 10, &data), 0);
    let old = [[1; 40], [2; 40]].concat();
    assert_eq!(contents(&flash, "/a"), Ok(spliced(&old, 10, &data)));
    assert_eq!(overwrite(&mut flash, "/a", 0, &[0xff; 80]), 0);
    assert_eq!((contents(&flash, "/a"), report(&flash)), (Ok(vec![0xff; 80]), before));
}

/// "Logs need a header rewritten": a log of lines with their number in front of them,
/// collected where there is no room.
#[test]
fn a_log_with_a_header() {
    let mut flash = formatted(&[640; 3]);
    assert_eq!(create(&mut flash, "/log", 1), Ok(A));
    assert_eq!(append(&mut flash, "/log", b"lines 00000\n"), 0);
    let (mut log, mut collections) = (b"lines 00000\n".to_vec(), 0);
    let mut again = |flash: &mut Flash, write: &dyn Fn(&mut Flash) -> u32| {
        while write(flash) == 15 {
            assert_eq!(collect(flash), 0);
            collections += 1;
        }
    };
    for k in 1..=12 {
        let line = format!("dose {k}\n");
        log.extend(line.as_bytes());
        again(&mut flash, &|flash| append(flash, "/log", line.as_bytes()));
        for part in [format!("{k:05}"), format!("{:05}", k + 100), format!("{k:05}")] {
            again(&mut flash, &|flash| overwrite(flash, "/log", 6, part.as_bytes()));
        }
        log = spliced(&log, 6, format!("{k:05}").as_bytes());
        assert_eq!(contents(&flash, "/log"), Ok(log.clone()));
    }
    assert!(collections > 0);
    assert_eq!(read(&flash, A, 0, 1).0.headers, 13);
}

/// The image with one bit of a record in area 1 flipped.
fn flipped(flash: &Flash, byte: usize, bit: usize) -> Flash {
    let mut damaged = flash.clone();
    let at = damaged.offset(1) + byte;
    damaged.image[at] ^= 1 << bit;
    damaged
}

/// Any one bit of a new record altered brings the old bytes of its block back, and of no
/// other; the report shows it.
#[test]
fn a_damaged_record_brings_the_old_bytes_back() {
    let mut flash = bench();
    assert_eq!(overwrite(&mut flash, "/a", 8, b"wxyz"), 0);
    for (bytes, now) in [(128..162, b"AAAAAAAAAAyzAAA"), (162..191, b"AAAAAAAAwxAAAAA")] {
        for (byte, bit) in bytes.clone().flat_map(|byte| (0..8).map(move |bit| (byte, bit))) {
            let damaged = flipped(&flash, byte, bit);
            assert_eq!(contents(&damaged, "/a"), Ok(now.to_vec()), "byte {byte}, bit {bit}");
            let r = report(&damaged);
            assert_eq!((r.live, r.stretches, r.skipped as usize), (2, 1, bytes.len()));
        }
    }
}

/// Where the old records are collected by now, a damaged one leaves the file broken, or
/// shorter if it was the last.
#[test]
fn a_damaged_record_without_an_older_one() {
    let mut flash = bench();
    assert_eq!(overwrite(&mut flash, "/a", 8, b"wxyz"), 0);
    assert_eq!(collect(&mut flash), 0);
    let records = [
        Block::new(BLOCK, 1, A, NONE, b"AAAAAAAAwx").bytes(),
        Block::new(BLOCK + 1, 1, A, BLOCK, b"yzAAA").bytes(),
    ];
    holds(
        &flash,
        0,
        [0, 0, 0, 0],
        &[bench().image[4096 + 24..4096 + 65].to_vec(), records.concat()].concat(),
    );
    let mut first = flash.clone();
    first.image[65] ^= 1;
    assert_eq!(contents(&first, "/a"), Err(13));
    let mut last = flash;
    last.image[65 + 34] ^= 1;
    assert_eq!(contents(&last, "/a"), Ok(b"AAAAAAAAwx".to_vec()));
}

/// Power lost while the records are written, so many bytes of them being there: each
/// block reads as before or as it is to be, the earlier ones first.
#[test]
fn an_overwrite_cut_short() {
    let before = bench();
    let mut flash = before.clone();
    assert_eq!(overwrite(&mut flash, "/a", 8, b"wxyz"), 0);
    for bytes in 0..=63 {
        let mut cut = before.clone();
        let at = 4096 + 128;
        cut.image[at..at + bytes].copy_from_slice(&flash.image[at..at + bytes]);
        let now = match bytes {
            0..=33 => b"AAAAAAAAAAAAAAA",
            34..=62 => b"AAAAAAAAwxAAAAA",
            _ => b"AAAAAAAAwxyzAAA",
        };
        assert_eq!(contents(&cut, "/a"), Ok(now.to_vec()), "{bytes} bytes");
        let torn = !matches!(bytes, 0 | 34 | 63);
        assert_eq!(report(&cut).stretches, u32::from(torn));
        assert_eq!(overwrite(&mut cut, "/a", 8, b"wxyz"), if torn { 15 } else { 0 });
    }
}

/// Older records of the blocks in another area: collections of either area leave the new
/// bytes.
#[test]
fn collected() {
    let mut flash = Flash::of(&[512; 3]);
    flash.root(1);
    flash.inode(1, A, 0, ROOT, b"a");
    flash.block(1, BLOCK, 0, A, NONE, b"ab");
    flash.block(1, BLOCK + 1, 0, A, BLOCK, b"cd");
    fill(&mut flash, 1, 26);
    assert_eq!(overwrite(&mut flash, "/a", 1, b"BC"), 0);
    assert_eq!(area(&flash, 1)[486..], Block::new(BLOCK, 1, A, NONE, b"aB").bytes());
    assert_eq!(area(&flash, 2)[24..50], Block::new(BLOCK + 1, 1, A, BLOCK, b"Cd").bytes());
    for _ in 0..6 {
        assert_eq!(collect(&mut flash), 0);
        assert_eq!(contents(&flash, "/a"), Ok(b"aBCd".to_vec()));
    }
    assert_eq!(unlink(&mut flash, "/a"), 0);
    for _ in 0..6 {
        assert_eq!(collect(&mut flash), 0);
        assert_eq!(find(&flash, "/a"), Err(9));
    }
}

/// Only the newest of a hundred records of each block is copied.
#[test]
fn a_hundred_overwrites_collected() {
    let mut flash = file(&[(0, b"ab"), (0, b"cd")]);
    for k in 0..50u8 {
        assert_eq!(overwrite(&mut flash, "/a", 1, &[k, k + 1]), 0);
    }
    assert_eq!(collect(&mut flash), 0);
    let kept = [
        Inode::new(ROOT, 0, NONE, b"").bytes(),
        Inode::new(A, 0, ROOT, b"a").bytes(),
        Block::new(BLOCK, 50, A, NONE, b"a\x31").bytes(),
        Block::new(BLOCK + 1, 50, A, BLOCK, b"\x32d").bytes(),
    ];
    holds(&flash, 0, [0, 0, 0, 0], &kept.concat());
    assert_eq!(contents(&flash, "/a"), Ok(b"a\x31\x32d".to_vec()));
}

/// Bytes as a call is given them, without this module's helpers.
#[test]
fn by_the_call_itself() {
    let Flash { mut image, areas, .. } = tree();
    assert_eq!(calls::overwrite(&mut image, &areas, b"/d", b"e/f", 3, b"\xff"), 0);
    let mut buffer = [0; 8];
    assert_eq!(calls::read_at(&image, &areas, A, 0, &mut buffer).given, 4);
    assert_eq!(&buffer, b"dos\xff\0\0\0\0");
    assert_eq!(calls::overwrite(&mut image, &areas, b"", b"", 0, b""), 8);
    assert_eq!(calls::overwrite(&mut [], &[], b"", b"/a", 0, b"x"), 1);
}
