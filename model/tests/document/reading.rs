//! "A live file's contents", open and read: refusals 9, 11, 13 and 14.

use nffs_model::forge::Flash;
use nffs_model::layout::{Block, NONE, ROOT};

use crate::calls;
use crate::common::*;

/// A block's id, sequence, owner, previous and data.
type Fields<'a> = (u32, u32, u32, u32, &'a [u8]);

/// The file "/a" with these blocks.
fn file(blocks: &[Fields]) -> Flash {
    let mut flash = rooted(4096);
    flash.inode(1, A, 0, ROOT, b"a");
    for (id, sequence, owner, previous, data) in blocks {
        flash.block(1, *id, *sequence, *owner, *previous, data);
    }
    flash
}

const B0: u32 = BLOCK;
const B1: u32 = BLOCK + 1;
const B2: u32 = BLOCK + 2;

#[test]
fn joined_from_the_none_end() {
    assert_eq!(contents(&file(&[]), "/a"), Ok(vec![]));
    let blocks: [Fields; 3] =
        [(B1, 0, A, B2, b"end"), (B2, 0, A, B0, b"mid"), (B0, 0, A, NONE, b"top")];
    assert_eq!(contents(&file(&blocks), "/a"), Ok(b"topmidend".to_vec()));
}

#[test]
fn the_counting_block_decides() {
    let flash = file(&[(B0, 2, A, NONE, b"new"), (B0, 1, A, NONE, b"old"), (B1, 0, A, B0, b"!")]);
    assert_eq!(contents(&flash, "/a"), Ok(b"new!".to_vec()));
    let moved = file(&[(B0, 0, A, NONE, b"a"), (B1, 0, A, B0, b"b"), (B1, 1, B, B0, b"b")]);
    assert_eq!(contents(&moved, "/a"), Ok(b"a".to_vec()));
}

#[test]
fn broken_chains() {
    let broken: [&[Fields]; 8] = [
        &[(B0, 0, A, B1, b"missing previous")],
        &[(B0, 0, A, NONE, b"two"), (B1, 0, A, NONE, b"starts")],
        &[(B0, 0, A, NONE, b"x"), (B1, 0, A, B0, b"two"), (B2, 0, A, B0, b"ends")],
        &[(B0, 0, A, B1, b"a"), (B1, 0, A, B0, b"loop")],
        &[(B0, 0, A, NONE, b"x"), (B1, 0, A, B2, b"chain"), (B2, 0, A, B1, b"and loop")],
        &[(B0, 0, A, B1, b"into"), (B1, 0, A, B2, b"a"), (B2, 0, A, B1, b"loop")],
        &[(B0, 0, B, NONE, b"another's"), (B1, 0, A, B0, b"block")],
        &[(B0, 0, A, NONE, b"x"), (B1, 0, A, B0, b"y"), (B2, 0, A, B1, b"z"), (B1, 1, B, B0, b"y")],
    ];
    for blocks in broken {
        let mut flash = file(blocks);
        assert_eq!(contents(&flash, "/a"), Err(13), "{blocks:?}");
        assert_eq!(read(&flash, A, 70_000, 0).0.number, 13);
        assert_eq!(append(&mut flash, "/a", b"x"), 13);
        assert_eq!(append(&mut flash, "/a", b""), 13);
        // "no other call minds"
        assert_eq!(mount(&flash), 0);
        assert_eq!(find(&flash, "/a"), Ok(A));
        assert_eq!(create(&mut flash, "/b", 1), Ok(B + u32::from(blocks.iter().any(|b| b.2 == B))));
        assert_eq!(unlink(&mut flash, "/a"), 0);
        assert_eq!(collect(&mut flash), 0);
    }
}

/// A file whose last block leads into another's blocks, which are as many as it
/// lacks and end in NONE; its own others are a loop, so each of them is named.
/// The chain must be of its own blocks, whatever has become of the other.
#[test]
fn a_chain_through_another_files_blocks() {
    for looped in [2, 3, 5] {
        for fate in 0..3 {
            let mut flash = file(&[(BLOCK + 30, 0, A, BLOCK + 20 + looped - 1, b"last")]);
            for k in 0..looped {
                flash.block(1, BLOCK + 10 + k, 0, A, BLOCK + 10 + (k + 1) % looped, b"loop");
                let previous = if k == 0 { NONE } else { BLOCK + 20 + k - 1 };
                flash.block(1, BLOCK + 20 + k, 0, B, previous, b"other");
            }
            match fate {
                0 => assert!(flash.inode(1, B, 0, ROOT, b"b")),
                1 => assert!(flash.delete(1, B, 0)),
                _ => {}
            }
            assert_eq!(contents(&flash, "/a"), Err(13), "{looped} blocks");
            assert_eq!(read(&flash, A, 0, 0).0.number, 13);
            assert_eq!(append(&mut flash, "/a", b"x"), 13);
            let other = if fate == 0 { Ok(b"other".repeat(looped as usize)) } else { Err(9) };
            assert_eq!(contents(&flash, "/b"), other);
        }
    }
}

/// Blocks of 10, 5 and 3 bytes: which headers are followed.
#[test]
fn bytes_and_headers() {
    let flash =
        file(&[(B0, 0, A, NONE, b"0123456789"), (B1, 0, A, B0, b"abcde"), (B2, 0, A, B1, b"xyz")]);
    let cases: [(u32, usize, u32, u32); 15] = [
        (0, 0, 0, 0),
        (0, 1, 1, 3),
        (0, 10, 10, 3),
        (0, 18, 18, 3),
        (0, 99, 18, 3),
        (9, 1, 1, 3),
        (9, 2, 2, 3),
        (10, 1, 1, 2),
        (14, 1, 1, 2),
        (14, 9, 4, 2),
        (15, 1, 1, 1),
        (15, 0, 0, 0),
        (17, 5, 1, 1),
        (18, 0, 0, 0),
        (18, 5, 0, 0),
    ];
    let whole = b"0123456789abcdexyz";
    for (position, length, given, headers) in cases {
        let (read, bytes) = read(&flash, A, position, length);
        assert_eq!(
            (read.number, read.given, read.headers),
            (0, given, headers),
            "{position} {length}"
        );
        assert_eq!(bytes, whole[position as usize..(position + given) as usize]);
    }
    for (position, length) in [(19, 1), (19, 0), (0xffff_ffff, 5)] {
        assert_eq!(refused(&flash, A, position, length), 14);
    }
}

/// A refused read: the handle and every byte of the buffer stay.
fn refused(flash: &Flash, id: u32, position: u32, length: usize) -> u32 {
    let mut handle = nffs_model::Handle { id, position };
    let mut buffer = vec![0x5a; length];
    let read = calls::read(&flash.image, &flash.areas, &mut handle, &mut buffer);
    assert_eq!(handle, nffs_model::Handle { id, position });
    assert_eq!(buffer, vec![0x5a; length]);
    assert_eq!((read.given, read.headers), (0, 0));
    read.number
}

#[test]
fn refused_reads_leave_handle_and_buffer() {
    let mut flash = bench();
    assert_eq!(refused(&flash, A, 16, 8), 14);
    assert_eq!(refused(&flash, ROOT, 0, 8), 11);
    assert_eq!(refused(&flash, B, 0, 8), 9);
    assert_eq!(refused(&flash, BLOCK, 0, 8), 9);
    assert_eq!(refused(&flash, NONE, 0, 8), 9);
    flash.delete(1, A, 1);
    assert_eq!(refused(&flash, A, 0, 8), 9);
    flash.areas.clear();
    assert_eq!(refused(&flash, A, 0, 8), 1);
}

/// Order of a read's refusals: 9, 11, 13, 14.
#[test]
fn order_of_a_reads_refusals() {
    let mut flash = file(&[(B0, 0, A, B1, b"broken")]);
    assert_eq!(refused(&flash, A, 999, 4), 13);
    assert_eq!(refused(&flash, ROOT, 999, 4), 11);
    flash.inode(1, 2, 0, 3, b"orphan directory");
    assert_eq!(refused(&flash, 2, 999, 4), 9);
    flash.delete(1, A, 1);
    assert_eq!(refused(&flash, A, 999, 4), 9);
}

#[test]
fn a_read_moves_the_position() {
    let flash = bench();
    let mut handle = nffs_model::Handle { id: A, position: 0 };
    let mut given = Vec::new();
    for _ in 0..5 {
        let mut buffer = [0; 4];
        let read = calls::read(&flash.image, &flash.areas, &mut handle, &mut buffer);
        given.push((read.given, read.headers, handle.position));
    }
    assert_eq!(given, [(4, 2, 4), (4, 2, 8), (4, 2, 12), (3, 1, 15), (0, 0, 15)]);
}

/// A block whose owner has another file's id, or none, belongs to nobody else.
#[test]
fn blocks_of_other_owners() {
    let flash = file(&[(B0, 0, A, NONE, b"mine"), (B1, 0, B, NONE, b"nobody's")]);
    assert_eq!(contents(&flash, "/a"), Ok(b"mine".to_vec()));
}

/// Lengths of areas, the greatest block of document 01 and that of document 02,
/// T-03.
const EARLIER: [(usize, usize, usize); 5] =
    [(128, 40, 28), (129, 40, 28), (4096, 2024, 2012), (4142, 2047, 2035), (4144, 2048, 2036)];

/// The file "/a" as it was written in such areas by the rule of document 01: so
/// many of its greatest blocks, each in the first area with room. Its contents.
fn earlier(length: usize, size: usize, blocks: usize) -> (Flash, Vec<u8>) {
    let mut flash = Flash::of(&[length; 7]);
    flash.root(1);
    flash.inode(1, A, 0, ROOT, b"a");
    let data: Vec<u8> = (0..blocks * size).map(|i| (i % 251) as u8).collect();
    for (piece, id) in data.chunks(size).zip(BLOCK..) {
        let previous = if id == BLOCK { NONE } else { id - 1 };
        assert!(put_anywhere(&mut flash, &Block::new(id, 0, A, previous, piece).bytes()));
    }
    (flash, data)
}

/// Asserts that "/a" holds these bytes in so many blocks, and that nothing is
/// damaged.
fn reads(flash: &Flash, data: &[u8], blocks: usize) {
    let r = report(flash);
    assert_eq!((r.number, r.inodes, r.live, r.stretches, r.skipped), (0, 2, 2, 0, 0));
    assert_eq!(find(flash, "/a"), Ok(A));
    assert_eq!(contents(flash, "/a").as_deref(), Ok(data));
    assert_eq!(read(flash, A, 0, 1).0.headers as usize, blocks);
}

/// "Earlier images still read: reading allows 2,048 always." What is appended
/// is cut by the rule in force, behind the longer blocks; they are collected as
/// they are.
#[test]
fn earlier_images_still_read() {
    for (length, old, new) in EARLIER {
        let (mut flash, mut data) = earlier(length, old, 3);
        reads(&flash, &data, 3);
        for k in 0..3 {
            let (from, last) = (k * old, (k + 1) * old - 1);
            let headers = |position: usize| read(&flash, A, position as u32, 1).0.headers;
            assert_eq!((headers(from), headers(last)), (3 - k as u32, 3 - k as u32), "{length}");
        }
        let more: Vec<u8> = (0..new + 1).map(|i| (i % 241) as u8).collect();
        assert_eq!(append(&mut flash, "/a", &more), 0);
        let end = data.len() as u32;
        data.extend(more);
        reads(&flash, &data, 5);
        let headers = |position: u32| read(&flash, A, position, 1).0.headers;
        let pieces = (headers(end), headers(end + new as u32 - 1), headers(end + new as u32));
        assert_eq!(pieces, (2, 2, 1), "areas of {length}");
        // Each file area has been the source after seven.
        for _ in 0..9 {
            assert_eq!(collect(&mut flash), 0);
            reads(&flash, &data, 5);
        }
    }
}

/// Whichever area is the source, its earlier blocks are copied byte for byte.
#[test]
fn earlier_blocks_are_collected() {
    for (length, old, _) in EARLIER {
        for source in 1..=4 {
            let (mut flash, data) = earlier(length, old, 3);
            for area in 1..7 {
                flash.head(area, u8::from(area != source), 0, area as u8 - 1);
            }
            let records = area(&flash, source)[24..].to_vec();
            assert_eq!(collect(&mut flash), 0);
            holds(&flash, 0, [0, 0, 0, source as u8 - 1], &records);
            holds(&flash, source, [0, 1, 0, 255], &[]);
            reads(&flash, &data, 3);
        }
    }
}

/// A block of 2,048 bytes is taken whatever the areas let a writer write; one of
/// 2,049 isn't.
#[test]
fn blocks_of_2048_in_any_areas() {
    // 2,137 has just room for root, name and a block of 2,048.
    for lengths in [[2137, 128], [2137, 2137], [4096, 129], [4144, 4144], [4166, 4096]] {
        let mut flash = Flash::of(&[lengths[0], lengths[0], lengths[1]]);
        flash.root(1);
        flash.inode(1, A, 0, ROOT, b"a");
        let mut over = flash.clone();
        let data: Vec<u8> = (0..2049).map(|i| (i % 251) as u8).collect();
        assert!(flash.block(1, BLOCK, 0, A, NONE, &data[..2048]));
        reads(&flash, &data[..2048], 1);
        assert_eq!(append(&mut flash, "/a", b"behind it"), 0);
        reads(&flash, &[&data[..2048], b"behind it"].concat(), 2);
        let placed = over.block(1, BLOCK, 0, A, NONE, &data);
        assert_eq!(placed, lengths[0] > 2137, "{lengths:?}");
        if placed {
            assert!(report(&over).stretches > 0, "{lengths:?}");
            assert_eq!(contents(&over, "/a"), Ok(Vec::new()));
        }
    }
}
