//! "Measured on the bench".

use nffs_model::compare::bytes;
use nffs_model::crc::crc16;
use nffs_model::forge::Flash;
use nffs_model::layout::{is_block, is_directory, is_file, AreaHeader, Block, Inode, NONE, ROOT};
use nffs_model::mount::greatest_block;
use nffs_model::path;

use crate::calls;
use crate::common::*;

#[test]
fn the_published_check_value() {
    assert_eq!(crc16(*b"123456789"), 0x31c3);
    assert_eq!(crc16([]), 0);
}

/// Asserts that an append of one byte more than this cuts them into a block of this size and
/// one of the byte: the headers that a read follows tell where the second block begins.
fn cuts_at(length: usize, size: usize) {
    let mut flash = Flash::of(&vec![length; (65_536 / length).min(8)]);
    flash.root(1);
    assert_eq!(create(&mut flash, "/a", 1), Ok(A));
    assert_eq!(append(&mut flash, "/a", &vec![7; size + 1]), 0);
    let headers = |position| read(&flash, A, position as u32, 1).0.headers;
    assert_eq!((headers(0), headers(size - 1), headers(size)), (2, 2, 1), "areas of {length}");
}

/// As document 02, T-03 amends it: "128 gives 28, 4,096 gives 2,012, 4,166 gives 2,047, 4,168
/// gives 2,048"; so does more.
#[test]
fn greatest_block_size_by_shortest_area() {
    let amended = [(128, 28), (4096, 2012), (4166, 2047), (4168, 2048)];
    let more = [(4169, 2048), (8191, 2048), (32_768, 2048)];
    for (length, size) in [&amended[..], &more].concat() {
        assert_eq!(greatest_block(length), size, "areas of {length}");
        cuts_at(length, size);
    }
    assert_eq!(greatest_block(65_536), 2048);
}

/// "two greatest blocks must fit in the smallest area", behind its header; two blocks of a byte
/// more don't, unless that is over 2,048.
#[test]
fn two_greatest_blocks_fit_in_every_length() {
    for length in 128..=65_536 {
        let size = greatest_block(length);
        let two = |size: usize| AreaHeader::SIZE + 2 * (Block::HEADER + size);
        assert!((28..=2048).contains(&size) && two(size) <= length, "{length}");
        assert!(size == 2048 || two(size + 1) > length, "{length}");
    }
}

/// The same by calls, for every length up to those that give 2,048: an append of two greatest
/// blocks goes into an area with nothing but its header, and there is no room for another.
#[test]
fn two_greatest_blocks_fill_an_area() {
    for length in 128..=4170 {
        let fits = |size: &usize| 2 * (24 + size) <= length - 24;
        let size = (1..=2048).rev().find(fits).expect("two blocks of 28 fit");
        let mut flash = Flash::of(&[length; 3]);
        flash.root(1);
        flash.inode(1, A, 0, ROOT, b"a");
        fill(&mut flash, 1, 0);
        let data: Vec<u8> = (0..2 * size).map(|i| (i % 251) as u8).collect();
        assert_eq!(append(&mut flash, "/a", &data), 0, "areas of {length}");
        let first = Block::new(BLOCK, 0, A, NONE, &data[..size]).bytes();
        let second = Block::new(BLOCK + 1, 0, A, BLOCK, &data[size..]).bytes();
        holds(&flash, 2, [0, 0, 0, 1], &[first, second].concat());
        assert_eq!(append(&mut flash, "/a", b"x"), 15, "areas of {length}");
    }
}

#[test]
fn name_and_data_lengths() {
    assert!(accepted(&Inode::new(A, 0, 0, &[b'n'; 255]).bytes()));
    assert!(!accepted(&Inode::new(A, 0, 0, b"").bytes()));
    for previous in [NONE, BLOCK + 1] {
        let block = |n: usize| Block::new(BLOCK, 0, A, previous, &vec![0; n]).bytes();
        assert!(accepted(&block(2048)));
        assert!(accepted(&block(1)));
        assert!(!accepted(&block(2049)));
        assert!(!accepted(&block(0)));
    }
}

/// The ranges by the kind that a lookup tells of an inode, and by which ids an inode and a
/// block may bear.
#[test]
fn id_ranges() {
    for (id, kind) in [(1, 0), (0x0fff_ffff, 0), (0x1000_0000, 1), (0x7fff_ffff, 1)] {
        let mut flash = rooted(4096);
        assert!(flash.inode(1, id, 0, ROOT, b"x"));
        let found = lookup(&flash, "/x");
        assert_eq!((found.number, found.id, found.kind), (0, id, kind));
    }
    assert!(!accepted(&Inode::new(0x8000_0000, 0, 0, b"x").bytes()));
    for (id, good) in
        [(0x7fff_ffff, false), (0x8000_0000, true), (0xffff_fffe, true), (NONE, false)]
    {
        assert_eq!(accepted(&Block::new(id, 0, A, NONE, b"x").bytes()), good, "{id:x}");
    }
    assert!(is_directory(0) && is_directory(0x0fff_ffff) && !is_directory(0x1000_0000));
    assert!(!is_file(0x0fff_ffff) && is_file(0x1000_0000) && is_file(0x7fff_ffff));
    assert!(!is_file(0x8000_0000) && is_block(0x8000_0000) && is_block(0xffff_fffe));
    assert!(!is_block(0x7fff_ffff) && !is_block(NONE) && !is_file(NONE) && !is_directory(NONE));
}

#[test]
fn the_named_paths() {
    assert_eq!(path::names(b"", b"/"), Ok(vec![]));
    assert_eq!(path::names(b"", b"/a"), Ok(vec![b"a".to_vec()]));
    let flash = rooted(4096);
    assert_eq!((find(&flash, "/"), find(&flash, "/a")), (Ok(ROOT), Err(9)));
    for bad in [&b""[..], b"//a", b"/a/"] {
        for base in [&b""[..], b"/"] {
            assert!(path::names(base, bad).is_err());
            assert_eq!(calls::lookup(&flash.image, &flash.areas, base, bad).number, 8);
        }
    }
}

#[test]
fn position_equal_to_size() {
    let flash = bench();
    assert_eq!(read(&flash, A, 15, 10).0, nffs_model::Read { number: 0, given: 0, headers: 0 });
    assert_eq!(read(&flash, A, 16, 10).0.number, 14);
}

#[test]
fn the_area_undamaged() {
    let flash = bench();
    let r = report(&flash);
    assert_eq!((r.number, r.inodes, r.live, r.stretches, r.skipped), (0, 2, 2, 0, 0));
    assert_eq!(first(&flash), (0, 0));
    assert_eq!(contents(&flash, "/a"), Ok(vec![0x41; 15]));
}

#[test]
fn each_bit_of_byte_70() {
    for bit in 0..8 {
        let mut flash = bench();
        flash.image[4096 + 70] ^= 1 << bit;
        let r = report(&flash);
        assert_eq!((r.number, r.inodes, r.live, r.stretches, r.skipped), (0, 2, 2, 1, 34));
        assert_eq!(first(&flash), (4096 + 65, 34));
        assert_eq!(contents(&flash, "/a"), Err(13));
    }
}

#[test]
fn each_bit_of_byte_103() {
    for bit in 0..8 {
        let mut flash = bench();
        flash.image[4096 + 103] ^= 1 << bit;
        let r = report(&flash);
        assert_eq!((r.number, r.inodes, r.live, r.stretches, r.skipped), (0, 2, 2, 1, 29));
        assert_eq!(first(&flash), (4096 + 99, 29));
        assert_eq!(contents(&flash, "/a"), Ok(vec![0x41; 10]));
    }
}

/// The same image with every byte written out; the checks were worked out by
/// another program.
#[test]
fn the_bytes_of_the_bench_area() {
    let area = bytes(
        "e2318ab98c42b07f5382e0ac8efc85b1 0010000000000000
         c08b5f920000000000000000ffffffff00001751
         c08b5f920000001000000000000000000001f0c561
         b923ba53000000800000000000000010ffffffff0a00fa49 41*10
         b923ba5301000080000000000000001000000080050026634141414141
         ff*3968",
    );
    assert_eq!(area.len(), 4096);
    assert_eq!(&bench().image[4096..], &area[..]);
}

/// The calls write these very bytes.
#[test]
fn the_bytes_that_the_calls_write() {
    let mut flash = Flash::over(vec![0; 8192], vec![0, 4096, 4096, 4096]);
    assert_eq!(calls::format(&mut flash.image, &flash.areas), 0);
    assert_eq!(create(&mut flash, "/a", 1), Ok(A));
    assert_eq!(append(&mut flash, "/a", &[0x41; 10]), 0);
    assert_eq!(append(&mut flash, "/a", &[0x41; 5]), 0);
    assert_eq!(flash.image, bench().image);
    assert_eq!(create(&mut flash, "/d", 0), Ok(1));
    assert_eq!(unlink(&mut flash, "/a"), 0);
    let written = bytes(
        "c08b5f920100000000000000000000000001f90c64
         c08b5f920000001001000000ffffffff00006f6b",
    );
    assert_eq!(&flash.image[4096 + 128..4096 + 128 + 41], &written[..]);
}
