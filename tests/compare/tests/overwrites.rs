//! T-05, run: overwrites on the proved calls and on the model, answer and image of each. Every range of a file, by every rule alone and against each later
//! one; every path; every order of blocks; every room for their records; every length of a block; every block of a full table; damaged records; a file
//! overwritten for long.

use std::collections::{BTreeMap, BTreeSet};

use nffs_compare::two::{leave, Two};
use nffs_model::compare::Call;
use nffs_model::forge::Flash;
use nffs_model::generate::made::{self, Made};
use nffs_model::generate::overwritten::broken_rules;
use nffs_model::generate::Random;
use nffs_model::mount::mount;

const FILE: u32 = 0x1000_0000;
const BLOCK: u32 = 0x8000_0000;
const NONE: u32 = 0xffff_ffff;
const LAST: u32 = 0xffff_ffff;

/// So many bytes, unlike those of the files here.
fn data(length: usize) -> Vec<u8> {
    (0..length).map(|k| (k % 61) as u8 | 0x80).collect()
}

/// The bytes with these in their place from an offset on.
fn spliced(old: &[u8], offset: usize, data: &[u8]) -> Vec<u8> {
    let mut new = old.to_vec();
    new[offset..offset + data.len()].copy_from_slice(data);
    new
}

/// Blocks of these lengths and sequences, ids from this one on, as a file's, into the first area with room. A byte tells which block it is of.
fn blocks(flash: &mut Flash, file: u32, first: u32, blocks: &[(usize, u32)]) {
    for ((length, sequence), id) in blocks.iter().zip(first..) {
        let previous = if id == first { NONE } else { id - 1 };
        let areas = 1..flash.areas.len() / 2;
        assert!(areas.into_iter().any(|area| flash.block(area, id, *sequence, file, previous, &vec![id as u8; *length])));
    }
}

/// The files /a of five blocks, the third with the last sequence, /b, which is broken, /e, which is empty, and two named /twice; the directories /d and
/// /d/e, with the file /d/e/f.
fn tree() -> Flash {
    let mut flash = Flash::of(&[1024, 1024]);
    let inodes: [(u32, u32, u32, &[u8]); 9] = [
        (0, 0, NONE, b""),
        (1, 0, 0, b"d"),
        (2, 0, 1, b"e"),
        (FILE, LAST, 0, b"a"),
        (FILE + 1, 0, 0, b"b"),
        (FILE + 2, 0, 0, b"e"),
        (FILE + 3, 0, 2, b"f"),
        (FILE + 4, 0, 0, b"twice"),
        (FILE + 5, 0, 0, b"twice"),
    ];
    for (id, sequence, parent, name) in inodes {
        assert!(flash.inode(1, id, sequence, parent, name));
    }
    blocks(&mut flash, FILE, BLOCK, &[(3, 0), (1, LAST - 1), (4, LAST), (2, 7), (3, 0)]);
    blocks(&mut flash, FILE + 1, BLOCK + 8, &[(2, 0), (3, LAST)]);
    assert!(flash.block(1, BLOCK + 8, 1, FILE + 1, BLOCK + 15, b"br"));
    blocks(&mut flash, FILE + 3, BLOCK + 16, &[(5, 0), (2, 0)]);
    flash
}

/// A file /a of more bytes than one overwrite takes, and room for them.
fn long() -> Flash {
    let mut flash = Flash::of(&[12_288; 3]);
    assert!(flash.root(1) && flash.inode(1, FILE, 0, 0, b"a"));
    blocks(&mut flash, FILE, BLOCK, &[(2048, 0), (2048, 0), (2048, 0), (2048, 0), (300, 0)]);
    flash
}

/// What was met and answered.
#[derive(Default)]
struct Met {
    rare: BTreeSet<Made>,
    numbers: BTreeMap<u32, u32>,
}

impl Met {
    /// These overwrites, each on the same image: the first rule that is broken gives the number.
    fn each(&mut self, flash: &Flash, overwrites: impl Iterator<Item = (Vec<u8>, Vec<u8>, u32, Vec<u8>)>) {
        let (fs, fresh) = (mount(&flash.image, &flash.areas).expect("it mounts"), Two::of(flash));
        for (base, path, offset, data) in overwrites {
            let mut two = fresh.clone();
            let number = broken_rules(&fs, &base, &path, offset, &data).first().map_or(0, |(_, number)| *number);
            let call = Call::Overwrite { base, path, offset, data };
            self.rare.extend(made::before_call(&call, &two.ours));
            assert_eq!(two.call(&call), [number], "{call:?}");
            *self.numbers.entry(number).or_default() += 1;
        }
    }
}

/// Every range of each file up to two bytes past its end, at the limits of offset and length too, where there is room for all blocks, for some and for
/// none; each rule is met alone, and with each later one that can be broken besides.
#[test]
fn every_range() {
    let mut met = Met::default();
    for room in [400, 130, 80, 27, 25, 0] {
        let mut flash = tree();
        leave(&mut flash, 1, room);
        let near = |path: &'static [u8]| (0..=15).flat_map(move |offset| (0..=15).map(move |length| (path, offset, length)));
        let ranges = [&b"/a"[..], b"/b", b"/e", b"/d/e/f", b"/d", b"/no", b"bad"].into_iter().flat_map(near);
        let offsets = [0, 4, 12, 13, 14, 0x1_0000, 0x1_0004, 0x7fff_ffff, 0x8000_0000, LAST - 12, LAST - 1, LAST];
        let lengths = [0, 1, 2, 13, 14, 8191, 8192, 8193, 65_535, 65_536, 65_540];
        let far = offsets.into_iter().flat_map(|offset| lengths.map(|length| (&b"/a"[..], offset, length)));
        let others = [&b"/b"[..], b"/d", b"/no", b"/"].into_iter().flat_map(|path| [0, 8192, 8193].map(|length| (path, 1, length)));
        let all = ranges.chain(far).chain(others);
        met.each(&flash, all.map(|(path, offset, length)| (b"".to_vec(), path.to_vec(), offset, data(length))));
    }
    let ends = [0, 1, 2047, 2048, 299, 300, 301].into_iter().flat_map(|offset| [8191, 8192, 8193].map(|length| (offset, length)));
    met.each(&long(), ends.map(|(offset, length)| (b"/".to_vec(), b"a".to_vec(), offset, data(length))));
    println!("overwrites by number: {:?}, in all {}", met.numbers, met.numbers.values().sum::<u32>());
    assert!(met.numbers.keys().eq(&[0, 8, 9, 11, 13, 14, 15, 16]));
    let rules = |made: &&Made| matches!(made, Made::OverwriteBreaks(_) | Made::OverwriteBreaksBoth(..));
    for rule in made::ALL.iter().filter(rules) {
        assert!(met.rare.contains(rule), "{rule:?} was never met");
    }
}

/// Paths to each thing in the tree, to nothing and to two things, below files, and bad ones, with good and bad bases.
#[test]
fn every_path() {
    let good = "/ /a /b /e /d /d/e /d/e/f /twice /no /a/b /d/e/f/x /twice/x /no/x /d/no/f a b d e e/f f d/e/f twice no";
    let bad = ["", "//", "/a/", "/a//b", "/a\0", "d/", "\0"];
    let long = [[b"/", &[b'n'; 255][..]].concat(), [b"/", &[b'n'; 256][..]].concat(), b"/nn".repeat(341), b"/nn".repeat(342)];
    let paths: Vec<Vec<u8>> = good.split_whitespace().chain(bad).map(|path| path.as_bytes().to_vec()).chain(long).collect();
    let mut met = Met::default();
    for base in [&b"/"[..], b"/d", b"/d/e", b"/a", b"/twice", b"/no", b"", b"d", b"/d/"] {
        let ranges = [(0, 0), (0, 2), (1, 6), (6, 1), (14, 0), (LAST, 1), (0, 8193)];
        let overwrites = paths.iter().flat_map(|path| ranges.map(|(offset, length)| (base.to_vec(), path.clone(), offset, data(length))));
        met.each(&tree(), overwrites);
    }
    println!("overwrites by number: {:?}", met.numbers);
    assert!(met.numbers.keys().eq(&[0, 8, 9, 10, 11, 13, 14, 16]));
    for made in [Made::OverwriteBelowABase, Made::RootOverwritten, Made::NothingInABrokenFile, Made::NothingInAnEmptyFile] {
        assert!(met.rare.contains(&made), "{made:?} was never met");
    }
}

/// The orders of so many things.
fn orders(count: usize) -> Vec<Vec<usize>> {
    if count == 0 {
        return vec![Vec::new()];
    }
    let with = |order: Vec<usize>| (0..count).map(move |at| [&order[..at], &[count - 1], &order[at..]].concat());
    orders(count - 1).into_iter().flat_map(with).collect()
}

/// Four blocks whose ids and whose records are in any two orders: what is written is read, and overwritten again.
#[test]
fn every_order_of_blocks() {
    let mut times = 0;
    for (ids, records) in orders(4).into_iter().flat_map(|ids| orders(4).into_iter().map(move |records| (ids.clone(), records))) {
        let mut flash = Flash::of(&[512; 2]);
        assert!(flash.root(1) && flash.inode(1, FILE, 0, 0, b"a"));
        for k in records {
            let id = |k: usize| BLOCK + ids[k] as u32;
            let previous = if k == 0 { NONE } else { id(k - 1) };
            assert!(flash.block(1, id(k), k as u32, FILE, previous, &vec![k as u8; k + 1]));
        }
        let mut two = Two::of(&flash);
        let mut text = two.read(FILE, 20);
        assert_eq!(text, [0, 1, 1, 2, 2, 2, 3, 3, 3, 3]);
        for (offset, length) in [(0, 10), (2, 5), (3, 3), (9, 1)] {
            assert_eq!(two.overwrite(b"/a", offset, &data(length)), 0);
            text = spliced(&text, offset as usize, &data(length));
            assert_eq!(two.read(FILE, 20), text);
            times += 1;
        }
    }
    assert_eq!(times, 4 * 24 * 24);
}

/// Three areas with every few bytes of room, a fourth damaged or not, for records of 27, 25 and 26 bytes: all or none, each in the first area with room.
#[test]
fn every_room() {
    let rooms = [0, 24, 25, 26, 27, 50, 51, 52, 53, 77, 78];
    let mut numbers: BTreeMap<u32, u32> = BTreeMap::new();
    for (first, second, third) in rooms.iter().flat_map(|a| rooms.iter().flat_map(move |b| rooms.map(|c| (*a, *b, c)))) {
        for torn in [false, true] {
            let mut flash = Flash::of(&[300; 5]);
            assert!(flash.root(1) && flash.inode(1, FILE, 0, 0, b"a"));
            blocks(&mut flash, FILE, BLOCK, &[(3, 0), (1, 0), (2, 0)]);
            leave(&mut flash, 1, if torn { 100 } else { first });
            assert!(!torn || flash.put(1, b"torn"));
            leave(&mut flash, 2, second);
            leave(&mut flash, 3, third);
            leave(&mut flash, 4, if torn { first } else { 0 });
            let mut two = Two::of(&flash);
            let number = two.overwrite(b"/a", 1, &data(5));
            let old = [0, 0, 0, 1, 2, 2];
            assert_eq!(two.read(FILE, 9), if number == 0 { spliced(&old, 1, &data(5)) } else { old.to_vec() });
            *numbers.entry(number).or_default() += 1;
        }
    }
    println!("{numbers:?}");
    assert!(numbers.keys().eq(&[0, 15]) && numbers.values().all(|times| *times > 500));
}

/// Blocks of 1 to 2,048 bytes in areas with just enough room for their record and with a byte too little; the first byte, the last, or all of them.
#[test]
fn every_length_of_a_block() {
    for length in 1..=2048 {
        for (room, number) in [(24 + length, 0), (23 + length, 15)] {
            let mut flash = Flash::of(&[4400; 2]);
            assert!(flash.root(1) && flash.inode(1, FILE, 0, 0, b"a"));
            blocks(&mut flash, FILE, BLOCK, &[(length, 0)]);
            leave(&mut flash, 1, room);
            let (offset, count) = [(0, 1), (length - 1, 1), (0, length)][length % 3];
            assert_eq!(Two::of(&flash).overwrite(b"/a", offset as u32, &data(count)), number, "{length} bytes, room for {room}");
            assert_eq!(Two::of(&flash).overwrite(b"/a", length as u32, b"x"), 14);
        }
    }
}

/// A volume with 255 files and 1,024 blocks: each file is overwritten from its first block to its last, and reads so. Never 5.
#[test]
fn every_block_of_a_full_table() {
    let mut flash = Flash::of(&[4096; 16]);
    assert!(flash.root(1) && (0..255).all(|k| (1..3).any(|area| flash.inode(area, FILE + k, 0, 0, format!("{k}").as_bytes()))));
    for k in 0..1024 {
        let previous = if k < 255 { NONE } else { BLOCK + k - 255 };
        assert!((1..16).any(|area| flash.block(area, BLOCK + k, 0, FILE + k % 255, previous, &k.to_le_bytes()[..2])));
    }
    let mut two = Two::of(&flash);
    for k in 0..255 {
        let size = two.read(FILE + k, 30).len();
        let more = k.to_be_bytes().repeat(3);
        assert_eq!(two.overwrite(format!("/{k}").as_bytes(), 1, &more[..size - 2]), 0, "file {k}");
        let text = two.read(FILE + k, 30);
        assert_eq!((text.len(), &text[1..size - 1]), (size, &more[..size - 2]));
    }
    assert_eq!(two.call(&Call::Collect), [0]);
    assert_eq!(two.overwrite(b"/0", 0, b"again"), 0);
    let append = Call::Append { base: Vec::new(), path: b"/0".to_vec(), data: b"x".to_vec() };
    assert_eq!(two.call(&append), [5]);
}

/// Each bit of the records of an overwrite flipped: the old bytes of that block are read, and the new ones of the other.
#[test]
fn every_bit_of_the_records() {
    let mut flash = Flash::of(&[1024, 1024]);
    assert!(flash.root(1) && flash.inode(1, FILE, 0, 0, b"a"));
    blocks(&mut flash, FILE, BLOCK, &[(10, 0), (5, 0)]);
    let start = flash.offset(1) + flash.next(1);
    let mut two = Two::of(&flash);
    let old = two.read(FILE, 20);
    assert_eq!(two.overwrite(b"/a", 8, &data(4)), 0);
    let new = two.read(FILE, 20);
    for (bytes, text) in [(start..start + 34, [&old[..10], &new[10..]].concat()), (start + 34..start + 63, [&new[..10], &old[10..]].concat())] {
        for (byte, bit) in bytes.flat_map(|byte| (0..8).map(move |bit| (byte, bit))) {
            let whole = two.ours.image[byte];
            two.call(&Call::Damage { offset: byte, bytes: vec![whole ^ 1 << bit] });
            assert_eq!(two.read(FILE, 20), text, "byte {byte}, bit {bit}");
            two.call(&Call::Damage { offset: byte, bytes: vec![whole] });
        }
    }
    assert_eq!(two.read(FILE, 20), new);
}

/// Two files overwritten and appended to, collected where there is no room: each reads as the bytes that were written, told from the calls alone.
#[test]
fn a_file_overwritten_for_long() {
    let mut flash = Flash::of(&[2048; 4]);
    assert!(flash.root(1) && flash.inode(1, FILE, 0, 0, b"0") && flash.inode(1, FILE + 1, 0, 0, b"1"));
    let (mut two, mut r, mut texts) = (Two::of(&flash), Random::new(5), [Vec::new(), Vec::new()]);
    for turn in 0..2500 {
        let (k, bytes) = (r.below(2), r.between(0, 90));
        let bytes = r.bytes(bytes);
        let (base, path, size) = (b"/".to_vec(), vec![b'0' + k as u8], texts[k].len());
        let appends = size < 600 && r.chance(10);
        let offset = if r.chance(95) { r.below(size + 1) } else { size + r.below(3) };
        let call = match appends {
            true => Call::Append { base, path, data: bytes.clone() },
            false => Call::Overwrite { base, path, offset: offset as u32, data: bytes.clone() },
        };
        while two.call(&call) == [15] {
            assert_eq!(two.call(&Call::Collect), [0]);
        }
        if appends {
            texts[k].extend(&bytes);
        } else if offset + bytes.len() <= size {
            texts[k] = spliced(&texts[k], offset, &bytes);
        }
        assert_eq!(two.read(FILE + k as u32, 1000), texts[k], "turn {turn}");
    }
    println!("{:?}", two.numbers);
    assert!(two.count("Overwrite", 0) > 1000 && two.count("Overwrite", 14) > 50 && two.count("Overwrite", 15) > 50 && two.count("Collect", 0) > 50);
}
