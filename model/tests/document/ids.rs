//! New ids: "the smallest id of their range that no accepted record names as
//! id, parent, owner or previous", also far from the start of the range.

use nffs_model::forge::Flash;
use nffs_model::layout::{Block, Inode, FIRST_BLOCK, FIRST_DIRECTORY, FIRST_FILE, NONE, ROOT};

use crate::common::*;

/// How records name ids.
#[derive(Clone, Copy, Debug, PartialEq)]
enum By {
    Parent,
    Owner,
    Previous,
}

const WAYS: [By; 3] = [By::Parent, By::Owner, By::Previous];

impl By {
    fn first(self) -> u32 {
        match self {
            By::Parent => FIRST_DIRECTORY,
            By::Owner => FIRST_FILE,
            By::Previous => FIRST_BLOCK,
        }
    }

    /// A record that names the id, and besides it only ids far away: a version
    /// of one inode or block, so that the tables have room.
    fn record(self, id: u32, sequence: u32) -> Vec<u8> {
        match self {
            By::Parent => Inode::new(0x0fff_0000, sequence, id, b"p").bytes(),
            By::Owner => Block::new(0x9000_0000, sequence, id, NONE, b"o").bytes(),
            By::Previous => Block::new(0x9000_0000, sequence, 0x7000_0000, id, b"p").bytes(),
        }
    }

    /// The new id that a call takes.
    fn taken(self, flash: &mut Flash, name: &str) -> u32 {
        match self {
            By::Parent => create(flash, name, 0).expect("a new directory"),
            By::Owner => create(flash, name, 1).expect("a new file"),
            By::Previous => {
                let before = block_ids(flash);
                assert_eq!(append(flash, "/a", b"new"), 0);
                let new: Vec<u32> =
                    block_ids(flash).into_iter().filter(|id| !before.contains(id)).collect();
                assert_eq!(new.len(), 1);
                new[0]
            }
        }
    }
}

/// The ids of the blocks of "/a", in file order.
fn block_ids(flash: &Flash) -> Vec<u32> {
    let fs = nffs_model::mount::mount(&flash.image, &flash.areas).expect("it mounts");
    let blocks = nffs_model::file::contents(&fs, A).expect("it isn't broken");
    blocks.into_iter().map(|block| block.id).collect()
}

/// 65,536 bytes in eight areas, with the root and the file "/a"; its id, the
/// root's and the first block's are in use.
fn volume() -> Flash {
    let mut flash = Flash::of(&[8192; 8]);
    flash.root(1);
    flash.inode(1, A, 0, ROOT, b"a");
    flash.block(1, BLOCK, 0, A, NONE, b"first");
    flash
}

/// Names these, counted from the start of the range; as many as have room.
fn name_all(flash: &mut Flash, by: By, numbers: impl Iterator<Item = u32>) -> u32 {
    let mut sequence = 0;
    for number in numbers {
        let record = by.record(by.first() + number, sequence);
        assert!(put_anywhere(flash, &record), "{sequence} records had room");
        sequence += 1;
    }
    sequence
}

/// A run of thousands of named ids with one gap, which is taken first, and then
/// the id behind the run: gaps at each multiple of 64 and on both sides of it.
#[test]
fn a_gap_in_a_run_of_named_ids() {
    for by in WAYS {
        let words = (64..=if by == By::Parent { 2560 } else { 2112 }).step_by(64);
        for gap in words.flat_map(|word| [word - 1, word, word + 1]) {
            let mut flash = volume();
            let end = gap + 1 + gap % 3;
            name_all(&mut flash, by, (1..end).filter(|number| *number != gap));
            assert_eq!(by.taken(&mut flash, "/x"), by.first() + gap, "{by:?}");
            assert_eq!(by.taken(&mut flash, "/y"), by.first() + end, "{by:?}, {gap}");
        }
    }
}

/// As many named ids as an image holds: the new id is the one behind them.
#[test]
fn the_most_named_ids() {
    for (by, count) in [(By::Parent, 2713), (By::Owner, 2279), (By::Previous, 2279)] {
        let mut flash = volume();
        let named = name_all(&mut flash, by, 1..count);
        let more = by.record(by.first() + count, named);
        let left: usize = (1..8).map(|area| flash.room(area) / more.len()).sum();
        assert!((1..=8).contains(&left), "room for {left} records more");
        assert_eq!(by.taken(&mut flash, "/x"), by.first() + count);
    }
}

/// What is named far away changes nothing, wherever a window of ids might end.
#[test]
fn ids_named_far_from_the_start() {
    let words = (64..16_384).step_by(64).flat_map(|word| [word - 1, word, word + 1]);
    let far = words.chain(9_800..9_860).chain([65_535, 65_536, 65_537, 0x0fff_fffe]);
    for number in far {
        let mut flash = bench();
        for by in WAYS {
            flash.put(1, &by.record(by.first() + number, by.first() + number));
        }
        for (by, next) in [(By::Parent, 1), (By::Owner, 1), (By::Previous, 2)] {
            assert_eq!(by.taken(&mut flash, &format!("/{by:?}")), by.first() + next, "{number}");
        }
    }
}

/// All of a few words are named but for single ids: the pieces of one append
/// take these in order, and then go on behind the last.
#[test]
fn pieces_take_the_gaps_in_order() {
    let gaps = [2, 63, 64, 127, 128, 129, 511, 512, 1023];
    let mut flash = Flash::of(&[8192, 8192, 8192, 8192, 8192, 8192, 128]);
    flash.root(1);
    flash.inode(1, A, 0, ROOT, b"a");
    name_all(&mut flash, By::Previous, (0..1100).filter(|number| !gaps.contains(number)));
    assert_eq!(append(&mut flash, "/a", &[7; 11 * 28]), 0);
    let expected = gaps.into_iter().chain([1100, 1101]).map(|number| BLOCK + number);
    assert_eq!(block_ids(&flash), expected.collect::<Vec<u32>>());
    assert_eq!(contents(&flash, "/a"), Ok(vec![7; 11 * 28]));
}

/// Each way of naming bars an id by itself, and none bars an id of another range.
#[test]
fn each_way_of_naming_alone() {
    for by in WAYS {
        let mut flash = volume();
        flash.put(1, &by.record(by.first() + 1, 0));
        for other in WAYS {
            let next = if other == by { 2 } else { 1 };
            assert_eq!(other.taken(&mut flash, &format!("/{other:?}")), other.first() + next);
        }
    }
}

/// Bytes in no area name nothing, also where they read as a record and stand at
/// the very start of the image.
#[test]
fn a_record_in_no_area_names_nothing() {
    for by in WAYS {
        let mut image = vec![0xff; 128 + 2 * 4096];
        let record = match by {
            By::Parent => Inode::new(1, 0, ROOT, b"d").bytes(),
            By::Owner => Inode::new(B, 0, ROOT, b"f").bytes(),
            By::Previous => Block::new(BLOCK, 0, B, NONE, b"b").bytes(),
        };
        image[..record.len()].copy_from_slice(&record);
        let mut flash = Flash::over(image, vec![128, 4096, 128 + 4096, 4096]);
        flash.head(0, 0, 0, 255);
        flash.head(1, 0, 0, 0);
        flash.root(1);
        flash.inode(1, A, 0, ROOT, b"a");
        let next = by.first() + u32::from(by != By::Previous);
        assert_eq!(by.taken(&mut flash, "/x"), next, "{by:?}");
    }
}
