//! "Acceptable record" and "How an area is read".

use nffs_model::area::{Reading, Stretch};
use nffs_model::forge::Flash;
use nffs_model::layout::{AreaHeader, Block, Inode, NONE, ROOT};

use crate::common::*;

fn inode(id: u32, parent: u32, name: &[u8]) -> bool {
    accepted(&Inode::new(id, 3, parent, name).bytes())
}

fn block(id: u32, owner: u32, previous: u32) -> bool {
    accepted(&Block::new(id, 3, owner, previous, b"data").bytes())
}

#[test]
fn acceptable_inodes() {
    assert!(inode(0, NONE, b""));
    assert!(!inode(0, NONE, b"x") && !inode(0, 0, b"x") && !inode(0, 1, b""));
    assert!(inode(1, 0, b"x") && inode(0x0fff_ffff, 0x0fff_ffff, b"x"));
    assert!(inode(0x7fff_ffff, 0x0fff_ffff, b"x") && !inode(0x8000_0000, 0, b"x"));
    assert!(!inode(NONE, 0, b"x") && !inode(NONE, NONE, b""));
    assert!(!inode(1, 0x1000_0000, b"x") && !inode(1, 0x8000_0000, b"x"));
    assert!(!inode(1, 0, b"x/y") && !inode(1, 0, b"\0") && !inode(1, 0, b""));
    assert!(inode(1, 0, b".") && inode(1, 0, b"\xff\n"));
}

#[test]
fn acceptable_deletion_records() {
    assert!(inode(1, NONE, b"") && inode(A, NONE, b"name") && inode(A, NONE, &[b'n'; 255]));
    assert!(!inode(A, NONE, b"a/b") && !inode(A, NONE, b"a\0"));
}

#[test]
fn acceptable_blocks() {
    assert!(block(BLOCK, A, NONE) && block(0xffff_fffe, 0x7fff_ffff, BLOCK));
    assert!(!block(0x7fff_ffff, A, NONE) && !block(NONE, A, NONE));
    for previous in [NONE, BLOCK + 1] {
        assert!(block(BLOCK, 0x1000_0000, previous) && block(BLOCK, 0x7fff_ffff, previous));
        for owner in [0, 0x0fff_ffff, 0x8000_0000, 0x8000_0001, 0xffff_fffe, NONE] {
            assert!(!block(BLOCK, owner, previous), "{owner:x}");
        }
    }
    assert!(!block(BLOCK, A, BLOCK) && !block(BLOCK, A, 0x7fff_ffff) && !block(BLOCK, A, 0));
}

/// Magic, check and the end of the area: a record that the area's end cuts off is not taken.
#[test]
fn header_and_body_lie_inside_the_area() {
    for record in
        [Inode::new(A, 0, ROOT, b"abc").bytes(), Block::new(BLOCK, 0, A, NONE, b"abc").bytes()]
    {
        assert!(accepted(&record));
        for end in 1..record.len() + 1 {
            let mut flash = rooted(128);
            fill(&mut flash, 1, end);
            assert!(flash.put(1, &record[..end]));
            let stretches = report(&flash).stretches;
            assert_eq!(stretches == 0, end == record.len(), "{end} bytes");
        }
        for i in 0..record.len() {
            let mut other = record.clone();
            other[i] ^= 4;
            assert!(!accepted(&other), "byte {i}");
        }
    }
}

/// An area's bytes: a header and what follows, FF to the length.
fn area_of(length: usize, parts: &[&[u8]]) -> Vec<u8> {
    let header = AreaHeader { length: length as u32, count: 0, id: 0 };
    let mut area = header.bytes();
    area.extend(parts.concat());
    area.resize(length, 0xff);
    area
}

fn places(reading: &Reading) -> Vec<usize> {
    reading.records.iter().map(|taken| taken.offset).collect()
}

fn damage(reading: &Reading) -> Vec<(usize, usize)> {
    reading.damage.iter().map(|Stretch { offset, length }| (*offset, *length)).collect()
}

fn root() -> Vec<u8> {
    Inode::new(ROOT, 0, NONE, b"").bytes()
}

/// The reading of an area; its damage is what a report of a volume counts in which it is the
/// second of two file areas, and what the report of this area tells (T-08).
fn read(area: &[u8]) -> Reading {
    let reading = nffs_model::area::read(area);
    let mut flash = Flash::of(&[area.len(); 3]);
    flash.root(1);
    let start = flash.offset(2);
    flash.image[start..][..area.len()].copy_from_slice(area);
    flash.image[start + 23] = 1;
    let r = report(&flash);
    let sum: usize = reading.damage.iter().map(|stretch| stretch.length).sum();
    assert_eq!(
        (r.number, r.stretches as usize, r.skipped as usize),
        (0, reading.damage.len(), sum)
    );
    let first = damage(&reading).first().map_or((0, 0), |(at, length)| (start + at, *length));
    assert_eq!((r.first_offset as usize, r.first_length as usize), first);
    tells(&flash, &reading);
    reading
}

/// What the report of the third area tells.
fn tells(flash: &Flash, reading: &Reading) {
    let r = area_report(flash, 2, 0);
    let free = flash.length(2) - reading.free;
    assert_eq!((r.number, r.kind, r.free as usize), (0, 1, free));
    let counts = (reading.records.len(), reading.damage.len(), reading.damage_bytes());
    assert_eq!((r.records as usize, r.stretches as usize, r.skipped as usize), counts);
    let listed = stretches(flash, 2).into_iter().map(|(at, length)| (at as usize, length as usize));
    assert_eq!(listed.collect::<Vec<_>>(), damage(reading));
}

#[test]
fn an_empty_area_is_clean() {
    let reading = read(&area_of(128, &[]));
    assert_eq!((places(&reading), damage(&reading), reading.free), (vec![], vec![], 24));
    assert!(reading.is_clean());
}

#[test]
fn stretches_between_records_and_at_the_end() {
    let reading = read(&area_of(128, &[b"xyz", &root(), b"\xff\xff", &root(), b"\xffq"]));
    assert_eq!(places(&reading), vec![27, 49]);
    assert_eq!(damage(&reading), vec![(24, 3), (47, 2), (69, 2)]);
    assert_eq!((reading.free, reading.damage_bytes()), (71, 7));
    assert!(!reading.is_clean());
}

/// FF bytes before a record that ends the area are damage; free space is
/// empty. A record may end exactly at the area's end.
#[test]
fn ff_before_a_record_that_ends_the_area() {
    let reading = read(&area_of(128, &[&root(), &[0xff; 64], &root()]));
    assert_eq!((places(&reading), damage(&reading)), (vec![24, 108], vec![(44, 64)]));
    assert_eq!(reading.free, 128);
}

#[test]
fn a_record_of_ff_bytes_that_ends_the_area() {
    let block = Block::new(BLOCK, 0, A, NONE, &[0xff; 80]).bytes();
    let reading = read(&area_of(128, &[&block]));
    assert_eq!((places(&reading), damage(&reading), reading.free), (vec![24], vec![], 128));
}

/// "The declared length of a record that isn't acceptable is never believed."
#[test]
fn a_bad_record_does_not_hide_the_next() {
    let mut bad = Inode::new(A, 0, ROOT, b"a").bytes();
    bad[17] = 40;
    let reading = read(&area_of(200, &[&bad, &root()]));
    assert_eq!((places(&reading), damage(&reading)), (vec![45], vec![(24, 21)]));
}

/// A record inside a damaged block's data is read; inside a good block's, not.
#[test]
fn a_record_inside_a_block() {
    let block = Block::new(BLOCK, 0, A, NONE, &root()).bytes();
    assert_eq!(places(&read(&area_of(128, &[&block]))), vec![24]);
    let mut torn = block;
    torn[5] ^= 1;
    let reading = read(&area_of(128, &[&torn]));
    assert_eq!((places(&reading), damage(&reading)), (vec![48], vec![(24, 24)]));
}

#[test]
fn zero_bytes_are_damage() {
    let reading = read(&area_of(128, &[&[0; 104]]));
    assert_eq!((damage(&reading), reading.free), (vec![(24, 104)], 128));
}

/// Of a header that is not valid, the area is passed over: of two areas no file area is left
/// (3). Only count and id may be others.
#[test]
fn valid_area_headers() {
    let flash = rooted(128);
    assert_eq!(mount(&flash), 0);
    for i in 0..24 {
        let mut other = rooted(128);
        other.image[128 + i] ^= 1;
        let area = &other.image[128..];
        let valid = i == 21 || i == 23;
        assert_eq!(AreaHeader::valid(area).is_some(), valid, "byte {i}");
        assert_eq!(mount(&other), if valid { 0 } else { 3 }, "byte {i}");
    }
    assert!(AreaHeader::valid(&area_of(128, &[])[..127]).is_none());
    let mut shorter = Flash::over(flash.image, vec![0, 128, 129, 127]);
    assert_eq!(mount(&shorter), 1);
    shorter = Flash::over([&shorter.image[..], &[0xff]].concat(), vec![0, 128, 128, 129]);
    assert_eq!(mount(&shorter), 3);
}
