//! "Records and area headers whose reserved byte isn't 0 are no longer acceptable
//! or valid" (document 02, T-14). The checks of all records here are right.

use nffs_model::crc::crc16;
use nffs_model::forge::{with_reserved, Flash};
use nffs_model::layout::{AreaHeader, Block, Inode, NONE, ROOT};

use crate::calls;
use crate::common::*;

/// Values that are tried where each of the 255 would be too many.
const SOME: [u8; 6] = [1, 2, 0x7f, 0x80, 0xfe, 0xff];

fn inode(id: u32, sequence: u32, parent: u32, name: &[u8], reserved: u8) -> Vec<u8> {
    with_reserved(&Inode::new(id, sequence, parent, name).bytes(), reserved)
}

/// The counts of a report that answers 0: inodes, live ones, stretches, skipped
/// bytes.
fn counted(flash: &Flash) -> [u32; 4] {
    let r = report(flash);
    assert_eq!(r.number, 0);
    [r.inodes, r.live, r.stretches, r.skipped]
}

/// A mount that answers this number, and so does every call but format, which
/// changes no byte.
fn refused(flash: &mut Flash, number: u32) {
    assert_eq!(mount(flash), number);
    assert_eq!(find(flash, "/"), Err(number));
    assert_eq!(contents(flash, "/a"), Err(number));
    assert_eq!(read(flash, A, 0, 4).0.number, number);
    assert_eq!(create(flash, "/new", 1), Err(number));
    assert_eq!(append(flash, "/a", b"more"), number);
    assert_eq!(unlink(flash, "/a"), number);
    assert_eq!(collect(flash), number);
}

/// Every kind of inode with every reserved byte: only 0 is accepted. The others
/// are one stretch, as long as the record.
#[test]
fn every_reserved_byte_of_every_record() {
    let records = [
        Inode::new(ROOT, 3, NONE, b""),
        Inode::new(1, 3, ROOT, b"directory"),
        Inode::new(A, 3, ROOT, b"f"),
        Inode::new(A, 3, 1, &[b'n'; 255]),
        Inode::new(1, 3, NONE, b""),
        Inode::new(A, 3, NONE, b""),
        Inode::new(A, 3, NONE, b"deleted name"),
    ];
    for record in records.map(|record| record.bytes()) {
        assert_eq!(with_reserved(&record, 0), record);
        for reserved in 0..=255 {
            let other = with_reserved(&record, reserved);
            let check = crc16(other[..18].iter().chain(&other[20..]).copied());
            assert_eq!((other[16], &other[18..20]), (reserved, &check.to_le_bytes()[..]));
            assert_eq!(accepted(&other), reserved == 0, "{reserved}");
            let mut flash = rooted(512);
            flash.put(1, &other);
            flash.inode(1, B, 0, ROOT, b"behind it");
            let (stretches, skipped) = if reserved == 0 { (0, 0) } else { (1, other.len() as u32) };
            assert_eq!(counted(&flash)[2..], [stretches, skipped], "{reserved}");
        }
    }
}

/// Blocks have no reserved byte: where an inode's stands, they name the block
/// before.
#[test]
fn blocks_have_none() {
    for byte in 0..=255 {
        let record = Block::new(BLOCK + 0x100, 3, A, BLOCK + byte, b"data").bytes();
        assert_eq!(u32::from(record[16]), byte);
        assert!(accepted(&record));
    }
}

/// A file area's header with every reserved byte; it is the only one: 3.
#[test]
fn every_reserved_byte_of_the_only_file_area() {
    for reserved in 0..=255 {
        let mut flash = rooted(128);
        flash.head(1, 7, reserved, 0);
        assert_eq!(flash.image[128 + 22], reserved);
        let valid = reserved == 0;
        assert_eq!(AreaHeader::valid(&flash.image[128..]).is_some(), valid);
        assert_eq!(mount(&flash), if valid { 0 } else { 3 }, "{reserved}");
        if !valid {
            refused(&mut flash, 3);
        }
    }
}

/// "Scratch" headers are area headers: without a valid one there is no scratch.
#[test]
fn every_reserved_byte_of_the_scratch_area() {
    for reserved in 0..=255 {
        let mut flash = Flash::of(&[128, 128, 128]);
        flash.root(1);
        flash.head(0, 7, reserved, 255);
        let valid = reserved == 0;
        assert_eq!(AreaHeader::valid(&flash.image[..128]).is_some(), valid);
        assert_eq!(mount(&flash), if valid { 0 } else { 3 }, "{reserved}");
        if !valid {
            refused(&mut flash, 3);
        }
    }
}

/// Scratch and two file areas of 256: the root and "/kept" in the first; in the
/// second "/gone" with a block, and some damage. Its header is as told.
fn half_gone(reserved: u8) -> Flash {
    let mut flash = Flash::of(&[256; 3]);
    flash.root(1);
    flash.inode(1, B, 0, ROOT, b"kept");
    flash.inode(2, A, 0, ROOT, b"gone");
    flash.block(2, BLOCK, 0, A, NONE, b"data");
    flash.put(2, b"torn");
    flash.head(2, 3, reserved, 1);
    flash
}

/// An area that is passed over is so with all its contents: they are gone, and
/// they are no damage.
#[test]
fn a_file_area_passed_over() {
    let whole = half_gone(0);
    assert_eq!(counted(&whole), [3, 3, 1, 4]);
    assert_eq!(contents(&whole, "/gone"), Ok(b"data".to_vec()));
    for reserved in 1..=255 {
        let mut flash = half_gone(reserved);
        let passed_over = area(&flash, 2);
        assert_eq!(counted(&flash), [2, 2, 0, 0]);
        assert_eq!((find(&flash, "/kept"), find(&flash, "/gone")), (Ok(B), Err(9)));
        assert_eq!(read(&flash, A, 0, 4).0.number, 9);
        // No accepted record names its ids any more.
        assert_eq!(create(&mut flash, "/new", 1), Ok(A));
        assert_eq!(append(&mut flash, "/new", b"other"), 0);
        assert_eq!(contents(&flash, "/new"), Ok(b"other".to_vec()));
        for _ in 0..3 {
            assert_eq!(collect(&mut flash), 0);
            assert_eq!(counted(&flash), [3, 3, 0, 0]);
        }
        assert_eq!(area(&flash, 2), passed_over);
    }
}

/// With 0 in the byte again the contents are back.
#[test]
fn a_header_set_right() {
    for reserved in SOME {
        let mut flash = half_gone(reserved);
        flash.image[512 + 22] = 0;
        assert_eq!(flash.image, half_gone(0).image);
        assert_eq!(counted(&flash), [3, 3, 1, 4]);
    }
}

/// The root in the area that is passed over: 7.
#[test]
fn the_roots_area_passed_over() {
    for reserved in SOME {
        let mut flash = Flash::of(&[128; 3]);
        flash.root(1);
        flash.inode(2, A, 0, ROOT, b"a");
        flash.head(1, 0, reserved, 0);
        refused(&mut flash, 7);
    }
}

/// Two file areas of one id, one of which is passed over: not 2.
#[test]
fn one_of_two_that_share_an_id() {
    for reserved in SOME {
        for odd in [1, 2] {
            let mut flash = Flash::of(&[128; 3]);
            flash.root(3 - odd);
            flash.head(1, 0, 0, 5);
            flash.head(2, 0, 0, 5);
            assert_eq!(mount(&flash), 2);
            flash.head(odd, 0, reserved, 5);
            assert_eq!(counted(&flash), [1, 1, 0, 0]);
        }
    }
    let mut three = Flash::of(&[128; 4]);
    three.root(1);
    (1..4).for_each(|area| three.head(area, 0, 0, 5));
    three.head(2, 0, 1, 5);
    assert_eq!(mount(&three), 2);
}

/// Two scratch areas, one of which is passed over: not 3. Both: 3.
#[test]
fn one_of_two_scratch_areas() {
    for reserved in SOME {
        let mut flash = Flash::of(&[128; 3]);
        flash.root(1);
        flash.head(2, 0, 0, 255);
        assert_eq!(mount(&flash), 3);
        for odd in [0, 2] {
            let mut one = flash.clone();
            one.head(odd, 0, reserved, 255);
            assert_eq!(counted(&one), [1, 1, 0, 0]);
            let before = area(&one, odd);
            assert_eq!(collect(&mut one), 0);
            assert_eq!((area(&one, odd), area(&one, 1)[23]), (before, 255));
        }
        flash.head(0, 0, reserved, 255);
        flash.head(2, 0, reserved, 255);
        assert_eq!(mount(&flash), 3);
    }
}

/// An area longer than scratch is passed over: not 4. One as long as scratch: it
/// is no source (17). The shortest: the others give the greatest block size.
#[test]
fn lengths_of_areas_passed_over() {
    for reserved in SOME {
        let mut longer = Flash::of(&[128, 128, 256]);
        longer.root(1);
        assert_eq!(mount(&longer), 4);
        longer.head(2, 0, reserved, 1);
        assert_eq!(mount(&longer), 0);

        let mut as_long = Flash::of(&[256, 128, 256]);
        as_long.root(1);
        as_long.head(2, 0, reserved, 1);
        assert_eq!(collect(&mut as_long), 17);
        as_long.head(2, 0, 0, 1);
        assert_eq!(collect(&mut as_long), 0);

        let mut shortest = Flash::of(&[512, 512, 128]);
        shortest.root(1);
        shortest.inode(1, A, 0, ROOT, b"a");
        for (byte, headers) in [(reserved, 1), (0, 4)] {
            let mut flash = shortest.clone();
            flash.head(2, 0, byte, 1);
            assert_eq!(append(&mut flash, "/a", &[7; 100]), 0);
            assert_eq!(read(&flash, A, 0, 1).0.headers, headers);
        }
    }
}

/// Nothing is written to an area that is passed over, though it is empty: 15.
#[test]
fn no_room_in_an_area_passed_over() {
    let mut flash = Flash::of(&[128; 3]);
    flash.root(1);
    flash.inode(1, A, 0, ROOT, b"a");
    fill(&mut flash, 1, 0);
    let mut other = flash.clone();
    assert_eq!(create(&mut other, "/b", 1), Ok(B));
    flash.head(2, 0, 1, 1);
    assert_eq!(create(&mut flash, "/b", 1), Err(15));
    assert_eq!(append(&mut flash, "/a", b"x"), 15);
    assert_eq!(unlink(&mut flash, "/a"), 15);
}

/// The only root record: 7. Beside another one it is damage.
#[test]
fn a_root_record() {
    for reserved in 1..=255 {
        let mut flash = Flash::of(&[128; 2]);
        flash.put(1, &inode(ROOT, 0, NONE, b"", reserved));
        flash.inode(1, A, 0, ROOT, b"a");
        refused(&mut flash, 7);
        for sequence in [0, 9] {
            let mut other = Flash::of(&[128; 2]);
            other.put(1, &inode(ROOT, sequence, NONE, b"", reserved));
            other.root(1);
            assert_eq!(counted(&other), [1, 1, 1, 20]);
            assert_eq!(find(&other, "/"), Ok(ROOT));
        }
    }
}

/// The bench's file "a" at 44: its record is 21 bytes of damage, it is gone, and
/// its blocks are nobody's; the area takes no record.
#[test]
fn the_bench_area() {
    for reserved in 1..=255 {
        let mut flash = bench();
        let record = inode(A, 0, ROOT, b"a", reserved);
        flash.image[4096 + 44..][..21].copy_from_slice(&record);
        assert_eq!(counted(&flash), [1, 1, 1, 21]);
        assert_eq!((find(&flash, "/a"), contents(&flash, "/a")), (Err(9), Err(9)));
        assert_eq!(create(&mut flash, "/b", 1), Err(15));
        // Its blocks name it: the id is not used again, and they are kept.
        assert_eq!(collect(&mut flash), 0);
        assert_eq!(counted(&flash), [1, 1, 0, 0]);
        assert_eq!(create(&mut flash, "/b", 1), Ok(B));
        assert_eq!(area(&flash, 0)[44..107], bench().image[4096 + 65..4096 + 128]);
    }
}

/// The newest version is damage: the one before counts, its name is back. An old
/// version is: nothing but the damage is seen.
#[test]
fn versions_of_an_inode() {
    for reserved in SOME {
        let mut newest = rooted(256);
        newest.inode(1, A, 0, ROOT, b"old");
        newest.put(1, &inode(A, 1, ROOT, b"new", reserved));
        assert_eq!(counted(&newest), [2, 2, 1, 23]);
        assert_eq!((find(&newest, "/old"), find(&newest, "/new")), (Ok(A), Err(9)));

        let mut old = rooted(256);
        old.put(1, &inode(A, 0, ROOT, b"old", reserved));
        old.inode(1, A, 1, ROOT, b"new");
        assert_eq!(counted(&old), [2, 2, 1, 23]);
        assert_eq!((find(&old, "/old"), find(&old, "/new")), (Err(9), Ok(A)));

        let mut only = rooted(256);
        only.put(1, &inode(1, 0, ROOT, b"d", reserved));
        only.inode(1, A, 0, 1, b"below");
        assert_eq!(counted(&only), [2, 1, 1, 21]);
        assert_eq!((find(&only, "/d"), find(&only, "/d/below")), (Err(9), Err(9)));
        assert_eq!(read(&only, A, 0, 1).0.number, 9);
    }
}

/// A deletion record is damage: what it deleted is back, with all below it.
#[test]
fn a_deletion_record() {
    for name in [&b""[..], b"a name"] {
        for reserved in 0..=255 {
            let mut flash = rooted(256);
            flash.inode(1, 1, 0, ROOT, b"d");
            flash.inode(1, A, 0, 1, b"f");
            flash.put(1, &inode(1, 1, NONE, name, reserved));
            flash.block(1, BLOCK, 0, A, NONE, b"data");
            if reserved == 0 {
                assert_eq!(counted(&flash), [3, 1, 0, 0]);
                assert_eq!(contents(&flash, "/d/f"), Err(9));
            } else {
                assert_eq!(counted(&flash), [3, 3, 1, 20 + name.len() as u32]);
                assert_eq!(contents(&flash, "/d/f"), Ok(b"data".to_vec()));
            }
        }
    }
}

/// Check 6 of records that differ in the reserved byte alone: those with another
/// than 0 are damage.
#[test]
fn records_that_differ_in_it_alone() {
    for reserved in 1..=255 {
        let (good, bad) = (inode(A, 4, ROOT, b"a", 0), inode(A, 4, ROOT, b"a", reserved));
        for records in [[&good, &bad], [&bad, &good]] {
            let mut flash = rooted(256);
            records.into_iter().for_each(|record| assert!(flash.put(1, record)));
            assert_eq!(counted(&flash), [2, 2, 1, 21]);
            assert_eq!(find(&flash, "/a"), Ok(A));
        }
        let mut flash = rooted(256);
        flash.put(1, &bad);
        flash.put(1, &inode(A, 4, ROOT, b"a", reserved ^ 1));
        let (inodes, skipped) = if reserved == 1 { (2, 21) } else { (1, 42) };
        assert_eq!(counted(&flash), [inodes, inodes, 1, skipped]);
    }
    let mut clash = rooted(256);
    clash.put(1, &inode(A, 4, ROOT, b"a", 0));
    clash.put(1, &inode(A, 4, ROOT, b"b", 1));
    assert_eq!(mount(&clash), 0);
    clash.put(1, &inode(A, 4, ROOT, b"b", 0));
    assert_eq!(mount(&clash), 6);
}

/// An inode that is damage takes no place (5), bears no id and names none.
#[test]
fn no_place_and_no_id() {
    let mut flash = rooted(8192);
    inodes_up_to(&mut flash, 1, 256);
    flash.put(1, &inode(A, 0, ROOT, b"one too many", 1));
    assert_eq!(counted(&flash)[..2], [256, 256]);
    flash.inode(1, A, 0, ROOT, b"one too many");
    assert_eq!(mount(&flash), 5);

    let mut flash = Flash::of(&[256; 3]);
    flash.root(1);
    flash.put(2, &inode(1, 0, 2, b"d", 1));
    flash.put(2, &inode(A, 0, 3, b"f", 0xff));
    assert_eq!(counted(&flash), [1, 1, 1, 42]);
    assert_eq!(create(&mut flash, "/f", 1), Ok(A));
    for (id, name) in [(1, "/d"), (2, "/e"), (3, "/g")] {
        assert_eq!(create(&mut flash, name, 0), Ok(id));
    }
}

/// A stretch of several such records, and of one between others.
#[test]
fn stretches() {
    let mut flash = rooted(512);
    flash.put(1, &inode(A, 0, ROOT, b"a", 1));
    flash.put(1, &inode(B, 0, ROOT, b"bb", 2));
    flash.inode(1, A + 2, 0, ROOT, b"c");
    flash.put(1, &inode(A + 3, 0, ROOT, b"d", 3));
    flash.block(1, BLOCK, 0, A + 2, NONE, b"data");
    flash.put(1, b"x");
    flash.put(1, &inode(A + 4, 0, NONE, b"", 4));
    assert_eq!(counted(&flash), [2, 2, 3, 21 + 22 + 21 + 1 + 20]);
    assert_eq!(contents(&flash, "/c"), Ok(b"data".to_vec()));
}

/// Where such a record is the last and ends in FF, these bytes are free space;
/// the rest is damage. They may be of its check.
#[test]
fn a_last_stretch_that_ends_in_ff() {
    let deletion = |reserved: u8| inode(1, 1, NONE, b"", reserved);
    let ends = (1..=255).find(|reserved| deletion(*reserved)[19] == 0xff);
    let mut flash = rooted(256);
    flash.put(1, &deletion(ends.expect("a check that ends in FF")));
    assert_eq!(counted(&flash), [1, 1, 1, 19]);
    for ends in 1..=5 {
        let name = [&b"a"[..], &vec![0xff; ends]].concat();
        let mut flash = rooted(256);
        flash.put(1, &inode(A, 0, ROOT, &name, 0xff));
        assert_eq!(counted(&flash), [1, 1, 1, 21]);
        // The area is damaged, though its free space would have room.
        assert_eq!(create(&mut flash, "/b", 1), Err(15));
        flash.put(1, b"x");
        assert_eq!(counted(&flash), [1, 1, 1, 21 + ends as u32 + 1]);
    }
}

/// A collection leaves such a record behind, and the area is clean.
#[test]
fn collected_without_it() {
    let mut flash = Flash::of(&[256; 2]);
    flash.root(1);
    flash.inode(1, A, 0, ROOT, b"a");
    flash.put(1, &inode(A, 1, NONE, b"", 9));
    flash.block(1, BLOCK, 0, A, NONE, b"data");
    let copies = [&area(&flash, 1)[24..65], &area(&flash, 1)[85..113]].concat();
    assert_eq!(counted(&flash), [2, 2, 1, 20]);
    assert_eq!(collect(&mut flash), 0);
    holds(&flash, 0, [0, 0, 0, 0], &copies);
    holds(&flash, 1, [0, 1, 0, 255], &[]);
    assert_eq!(counted(&flash), [2, 2, 0, 0]);
    assert_eq!(contents(&flash, "/a"), Ok(b"data".to_vec()));
}

/// "writers store 0": headers of format and of collection, scratch's restored
/// one, inodes and deletion records.
#[test]
fn writers_store_0() {
    let mut flash = formatted(&[256; 3]);
    let headers = |flash: &Flash| [0, 256, 512].map(|at| flash.image[at + 22]);
    assert_eq!(headers(&flash), [0; 3]);
    assert_eq!(create(&mut flash, "/d", 0), Ok(1));
    assert_eq!(create(&mut flash, "/f", 1), Ok(A));
    assert_eq!(unlink(&mut flash, "/d"), 0);
    // The root, "d", "f" and the deletion.
    for at in [24, 44, 65, 86] {
        assert_eq!(flash.image[256 + at..][..4], [0xc0, 0x8b, 0x5f, 0x92]);
        assert_eq!(flash.image[256 + at + 16], 0);
    }
    for dirty in [false, true, false, true] {
        let scratch = (0..3).find(|area| flash.image[256 * area + 23] == 255);
        if let Some(area) = scratch.filter(|_| dirty) {
            flash.image[256 * area + 100] = 0;
        }
        assert_eq!(collect(&mut flash), 0);
        assert_eq!(headers(&flash), [0; 3]);
        assert_eq!(mount(&flash), 0);
    }
}

/// An area without a valid header may be formatted again.
#[test]
fn format_does_not_mind() {
    let mut flash = rooted(128);
    flash.head(0, 1, 9, 255);
    flash.head(1, 1, 9, 0);
    refused(&mut flash, 3);
    assert_eq!(calls::format(&mut flash.image, &flash.areas), 0);
    assert_eq!(counted(&flash), [1, 1, 0, 0]);
}
