//! Calls at their limits, on the proved code and on the model: full tables, greatest appends, areas filled to the last byte, counts that wrap.
//! Each call is run on both, and answers and images must be equal; what they must be is said besides.

use nffs_compare::Proved;
use nffs_model::compare::{Engine, Model};
use nffs_model::forge::Flash;
use nffs_model::{AreaReport, Create, Handle, Lookup, Report};

const FILE: u32 = 0x1000_0000;
const BLOCK: u32 = 0x8000_0000;
const NONE: u32 = 0xffff_ffff;

/// The path of the file of this number.
fn path(file: u32) -> Vec<u8> {
    format!("/{file}").into_bytes()
}

/// The data of the block of this number.
fn data(block: u32) -> [u8; 2] {
    (block as u16).to_le_bytes()
}

/// So many bytes, others for each number.
fn block(number: u32, size: usize) -> Vec<u8> {
    (0..size).map(|k| (k % 251) as u8 ^ number as u8).collect()
}

/// What a file holds if so many blocks go round so many files.
fn text(file: u32, files: u32, blocks: u32) -> Vec<u8> {
    (file..blocks).step_by(files as usize).flat_map(data).collect()
}

/// The two engines, each on its own image, under one list of areas.
struct Pair {
    ours: Vec<u8>,
    model: Vec<u8>,
    areas: Vec<u32>,
}

impl Pair {
    /// Areas of these lengths one behind the other, formatted: the first of the longest is scratch.
    fn formatted(lengths: &[u32]) -> Pair {
        let mut areas = Vec::new();
        let mut end = 0;
        for length in lengths {
            areas.extend([end, *length]);
            end += length;
        }
        let mut pair = Pair { ours: vec![0; end as usize], model: vec![0; end as usize], areas };
        assert_eq!(pair.both(|e, image, areas| e.format(image, areas)), 0);
        pair
    }

    /// Areas of these lengths, the first of them scratch: besides the root so many files, and so many blocks that go round them.
    fn filled(lengths: &[usize], files: u32, blocks: u32) -> Pair {
        let mut flash = Flash::of(lengths);
        let areas = 1..lengths.len();
        assert!(flash.root(1));
        for k in 0..files {
            assert!(areas.clone().any(|area| flash.inode(area, FILE + k, 0, 0, &path(k)[1..])));
        }
        for k in 0..blocks {
            let previous = if k < files { NONE } else { BLOCK + k - files };
            assert!(areas.clone().any(|area| flash.block(area, BLOCK + k, 0, FILE + k % files, previous, &data(k))));
        }
        Pair::of(flash)
    }

    /// The same answer and the same image of both.
    fn both<T: PartialEq + std::fmt::Debug>(&mut self, call: impl Fn(&dyn Engine, &mut [u8], &[u32]) -> T) -> T {
        let answer = call(&Proved, &mut self.ours, &self.areas);
        assert_eq!(answer, call(&Model, &mut self.model, &self.areas));
        assert!(self.ours == self.model, "images differ");
        answer
    }

    fn lookup(&mut self, path: &[u8]) -> Lookup {
        self.both(|e, image, areas| e.lookup(image, areas, b"", path))
    }

    fn create(&mut self, path: &[u8]) -> Create {
        self.both(|e, image, areas| e.create(image, areas, b"", path, 1))
    }

    fn append(&mut self, path: &[u8], data: &[u8]) -> u32 {
        self.both(|e, image, areas| e.append(image, areas, b"", path, data))
    }

    fn overwrite(&mut self, path: &[u8], offset: u32, data: &[u8]) -> u32 {
        self.both(|e, image, areas| e.overwrite(image, areas, b"", path, offset, data))
    }

    fn unlink(&mut self, path: &[u8]) -> u32 {
        self.both(|e, image, areas| e.unlink(image, areas, b"", path))
    }

    fn rename(&mut self, old: &[u8], new: &[u8]) -> u32 {
        self.both(|e, image, areas| e.rename(image, areas, b"", old, new))
    }

    fn collect(&mut self) -> u32 {
        self.both(|e, image, areas| e.collect(image, areas))
    }

    fn report(&mut self) -> Report {
        self.both(|e, image, areas| e.report(image, areas))
    }

    fn area_report(&mut self, index: u32, stretch: u32) -> AreaReport {
        self.both(|e, image, areas| e.area_report(image, areas, index, stretch))
    }

    /// What is made by hand, for both.
    fn of(flash: Flash) -> Pair {
        Pair { ours: flash.image.clone(), model: flash.image, areas: flash.areas }
    }

    /// A refusal with this number, which changes no byte.
    fn refuses(&mut self, number: u32, call: impl Fn(&mut Pair) -> u32) {
        let before = self.ours.clone();
        assert_eq!(call(self), number);
        assert!(self.ours == before, "refusal {number} changed the image");
    }

    /// The whole contents of a file, by a handle and a buffer of a few bytes; at the end 0 bytes are given, and one byte behind it is 14.
    fn contents(&mut self, path: &[u8]) -> Vec<u8> {
        let open = self.both(|e, image, areas| e.open(image, areas, b"", path));
        assert_eq!((open.number, open.position), (0, 0));
        let mut at = Handle { id: open.id, position: 0 };
        let mut text = Vec::new();
        loop {
            let (read, moved, buffer) = self.both(|e, image, areas| {
                let (mut handle, mut buffer) = (at, [0; 61]);
                (e.read(image, areas, &mut handle, &mut buffer), handle, buffer.to_vec())
            });
            assert_eq!((read.number, moved.position), (0, at.position + read.given));
            text.extend(&buffer[..read.given as usize]);
            at = moved;
            if read.given == 0 {
                let behind = self.both(|e, image, areas| e.read_at(image, areas, open.id, at.position + 1, &mut []));
                assert_eq!(behind.number, 14);
                return text;
            }
        }
    }

    /// What one read gives of a file, into a buffer with room for a byte more than its size, and the headers followed.
    fn whole(&mut self, id: u32, size: usize) -> (Vec<u8>, u32) {
        let (read, mut buffer) = self.both(|e, image, areas| {
            let mut buffer = vec![0; size + 1];
            (e.read_at(image, areas, id, 0, &mut buffer), buffer)
        });
        assert_eq!(read.number, 0);
        buffer.truncate(read.given as usize);
        (buffer, read.headers)
    }

    /// The headers that a read of the first byte follows: the file's blocks.
    fn blocks(&mut self, id: u32) -> u32 {
        self.both(|e, image, areas| e.read_at(image, areas, id, 0, &mut [0])).headers
    }

    /// The bytes of an area.
    fn area(&self, index: usize) -> &[u8] {
        let (offset, length) = (self.areas[2 * index] as usize, self.areas[2 * index + 1] as usize);
        &self.ours[offset..offset + length]
    }

    /// The counts of the areas, from their headers.
    fn counts(&self) -> Vec<u8> {
        (0..self.areas.len() / 2).map(|index| self.area(index)[21]).collect()
    }
}

#[test]
fn the_256th_and_the_257th_inode() {
    let mut pair = Pair::formatted(&[8192; 3]);
    for k in 1..256 {
        assert_eq!(pair.create(&path(k)), Create { number: 0, id: FILE + k - 1 });
    }
    pair.refuses(5, |pair| pair.create(b"/one more").number);
    // a directory in its place is refused too, and a name that is there is 12 first
    pair.refuses(5, |pair| pair.both(|e, image, areas| e.create(image, areas, b"", b"/dir", 0).number));
    pair.refuses(12, |pair| pair.create(&path(1)).number);
    // a rename takes no place
    assert_eq!((pair.rename(&path(255), b"/renamed"), pair.rename(b"/renamed", &path(255))), (0, 0));
    pair.refuses(12, |pair| pair.rename(&path(255), &path(1)));
    assert_eq!(pair.report(), Report { number: 0, inodes: 256, live: 256, ..Report::default() });
    assert_eq!(pair.lookup(&path(255)), Lookup { number: 0, id: FILE + 254, kind: 1 });
    // a deletion takes no place and frees none; collected, it does
    assert_eq!(pair.unlink(&path(1)), 0);
    pair.refuses(5, |pair| pair.create(b"/one more").number);
    assert_eq!(pair.collect(), 0);
    assert_eq!(pair.create(b"/one more"), Create { number: 0, id: FILE });
    assert_eq!(pair.report(), Report { number: 0, inodes: 256, live: 256, ..Report::default() });
}

#[test]
fn the_1024th_and_the_1025th_block() {
    let mut pair = Pair::filled(&[16384; 3], 1, 960);
    for k in 960..1024 {
        assert_eq!(pair.append(&path(0), &data(k)), 0);
    }
    pair.refuses(5, |pair| pair.append(&path(0), b"x"));
    let before = pair.ours.clone();
    assert_eq!(pair.append(&path(0), b""), 0);
    assert!(pair.ours == before);
    assert_eq!(pair.contents(&path(0)), text(0, 1, 1024));
    assert_eq!(pair.blocks(FILE), 1024);
}

/// The last of several pieces would be the 1,025th block: none is stored. With one piece fewer all places are taken.
#[test]
fn pieces_up_to_the_1024th_block_and_past_it() {
    // the greatest block of areas of 4,096 bytes
    const PIECE: usize = 2012;
    for pieces in 2..=4 {
        let mut pair = Pair::filled(&[4096; 16], 1, 1025 - pieces as u32);
        let more: Vec<u8> = (0..pieces * PIECE).map(|k| (k % 251) as u8).collect();
        pair.refuses(5, |pair| pair.append(&path(0), &more));
        let fewer = &more[..(pieces - 1) * PIECE];
        pair.refuses(5, |pair| pair.append(&path(0), &more[..fewer.len() + 1]));
        assert_eq!(pair.append(&path(0), fewer), 0);
        let all = [&text(0, 1, 1025 - pieces as u32)[..], fewer].concat();
        assert_eq!(pair.whole(FILE, all.len()), (all, 1024));
        pair.refuses(5, |pair| pair.append(&path(0), b"x"));
    }
}

/// The places of inodes are bits of words: before, at and behind the end of each word a new file takes the next place, and is found and read
/// (behind the last word: `the_256th_and_the_257th_inode`).
#[test]
fn a_new_inode_at_the_end_of_each_word() {
    for taken in [63, 64, 65, 127, 128, 129, 191, 192, 193, 255] {
        let mut pair = Pair::filled(&[8192; 2], taken - 1, 0);
        let (new, before) = (path(taken - 1), path(taken - 2));
        assert_eq!(pair.create(&new), Create { number: 0, id: FILE + taken - 1 });
        assert_eq!(pair.append(&new, &new), 0);
        assert_eq!(pair.whole(FILE + taken - 1, new.len()), (new.clone(), 1));
        for (k, path) in [(taken - 1, new), (taken - 2, before), (0, path(0))] {
            assert_eq!(pair.lookup(&path), Lookup { number: 0, id: FILE + k, kind: 1 });
        }
        let inodes = taken + 1;
        assert_eq!(pair.report(), Report { number: 0, inodes, live: inodes, ..Report::default() });
    }
}

/// Before, at and behind each multiple of 64 blocks one more is appended, and the file is read from its first byte to its last; at 1,024 it is
/// refused, and 1,025 do not mount.
#[test]
fn a_new_block_at_each_multiple_of_64() {
    for taken in (64..=1024).step_by(64).flat_map(|most| most - 1..=most + 1) {
        let mut pair = Pair::filled(&[32768; 2], 1, taken);
        match taken {
            1025 => pair.refuses(5, |pair| pair.report().number),
            1024 => pair.refuses(5, |pair| pair.append(&path(0), &data(taken))),
            _ => assert_eq!(pair.append(&path(0), &data(taken)), 0),
        }
        let blocks = (taken + 1).min(1024);
        if taken < 1025 {
            assert_eq!(pair.whole(FILE, 2 * blocks as usize), (text(0, 1, blocks), blocks));
        }
    }
}

/// 256 inodes and 1,024 blocks in the area that is collected: each file keeps its contents.
#[test]
fn a_full_volume_collected() {
    let mut pair = Pair::filled(&[32768; 2], 255, 1024);
    assert_eq!(pair.collect(), 0);
    assert_eq!(pair.area(1)[24..], [0xff; 32744]);
    assert_eq!(pair.report(), Report { number: 0, inodes: 256, live: 256, ..Report::default() });
    for file in 0..255 {
        let text = text(file, 255, 1024);
        assert_eq!(pair.whole(FILE + file, text.len()), (text.clone(), text.len() as u32 / 2));
    }
    assert_eq!(pair.lookup(&path(254)), Lookup { number: 0, id: FILE + 254, kind: 1 });
    pair.refuses(5, |pair| pair.create(b"/one more").number);
    pair.refuses(5, |pair| pair.append(&path(254), b"x"));
}

/// 8,192 bytes are four blocks of 2,048.
#[test]
fn appends_of_0_1_8192_and_8193_bytes() {
    let mut pair = Pair::formatted(&[16384; 3]);
    assert_eq!(pair.create(b"/f").number, 0);
    let data: Vec<u8> = (0..8193u32).map(|k| (k * 7 % 251) as u8).collect();
    let before = pair.ours.clone();
    assert_eq!(pair.append(b"/f", b""), 0);
    assert!(pair.ours == before);
    pair.refuses(8, |pair| pair.append(b"/f", &data));
    assert_eq!(pair.append(b"/f", &data[..1]), 0);
    assert_eq!(pair.append(b"/f", &data[..8192]), 0);
    assert_eq!(pair.contents(b"/f"), [&data[..1], &data[..8192]].concat());
    assert_eq!(pair.blocks(FILE), 5);
}

/// The same over what is there, at its start, at its end and between; sums of offset and length do not wrap (T-05).
#[test]
fn overwrites_of_0_1_8192_and_8193_bytes() {
    let mut pair = Pair::formatted(&[16384; 4]);
    assert_eq!(pair.create(b"/f").number, 0);
    let mut text = block(1, 8192 + 1000);
    assert_eq!((pair.append(b"/f", &text[..8192]), pair.append(b"/f", &text[8192..])), (0, 0));
    let (data, size, blocks) = (block(2, 70_000), text.len(), pair.blocks(FILE));
    let before = pair.ours.clone();
    for offset in [0, 1, size - 1, size] {
        assert_eq!(pair.overwrite(b"/f", offset as u32, b""), 0);
    }
    assert!(pair.ours == before);
    for offset in [size + 1, 65_535, 65_536, 1 << 31, u32::MAX as usize - size, u32::MAX as usize] {
        for length in [0, 1, size.min(8192), 8192] {
            pair.refuses(14, |pair| pair.overwrite(b"/f", offset as u32, &data[..length]));
        }
    }
    for (offset, length) in [(0, 8193), (999, 8193), (size, 8193), (0, size), (0, 65_536), (u32::MAX as usize, 70_000)] {
        pair.refuses(8, |pair| pair.overwrite(b"/f", offset as u32, &data[..length]));
    }
    pair.refuses(14, |pair| pair.overwrite(b"/f", 1001, &data[..8192]));
    for (offset, length) in [(0, 1), (size - 1, 1), (2047, 2), (0, 8192), (1000, 8192), (1, 8192)] {
        assert_eq!(pair.overwrite(b"/f", offset as u32, &data[..length]), 0);
        text[offset..offset + length].copy_from_slice(&data[..length]);
        assert_eq!(pair.whole(FILE, size), (text.clone(), blocks));
    }
    assert_eq!(pair.contents(b"/f"), text);
}

/// All 1,024 blocks rewritten by one call, 2,048 bytes; as many again have no room, and all but the last few neither. Collected, they have.
#[test]
fn every_block_overwritten_at_once() {
    let mut pair = Pair::filled(&[4096; 16], 1, 1024);
    let (first, second) = (block(3, 2048), block(4, 2048));
    assert_eq!(pair.overwrite(&path(0), 0, &first), 0);
    assert_eq!(pair.whole(FILE, 2048), (first.clone(), 1024));
    pair.refuses(15, |pair| pair.overwrite(&path(0), 0, &second));
    pair.refuses(15, |pair| pair.overwrite(&path(0), 0, &second[..1000]));
    pair.refuses(5, |pair| pair.append(&path(0), b"x"));
    assert_eq!(pair.overwrite(&path(0), 1999, &second[..49]), 0);
    let text = [&first[..1999], &second[..49]].concat();
    assert_eq!(pair.contents(&path(0)), text);
    for _ in 0..16 {
        assert_eq!(pair.collect(), 0);
        assert_eq!(pair.whole(FILE, 2048), (text.clone(), 1024));
    }
    assert_eq!(pair.overwrite(&path(0), 0, &second), 0);
    assert_eq!(pair.whole(FILE, 2048), (second, 1024));
}

/// Pieces of 28 bytes, for the shortest file area has 128: two fill an area, and they go on in the next, all or none.
#[test]
fn an_area_filled_to_its_last_byte_and_pieces_over_areas() {
    let mut pair = Pair::formatted(&[128; 4]);
    // 24 of the header and 20 of the root leave 84 bytes in the first file area: 20 and a name of 64
    let path = [&b"/"[..], &[b'n'; 64]].concat();
    assert_eq!(pair.create(&path).number, 0);
    assert_eq!(pair.area(1)[64..], [b'n'; 64]);
    // 104 bytes are free in each of the others: two pieces of 24 + 28 bytes in each, and no room for a fifth
    pair.refuses(15, |pair| pair.append(&path, &[2; 4 * 28 + 1]));
    assert_eq!(pair.append(&path, &[1; 3 * 28]), 0);
    for (index, at) in [(2, 48), (2, 100), (3, 48)] {
        assert_eq!(pair.area(index)[at..at + 28], [1; 28]);
    }
    assert_eq!(pair.area(3)[76..], [0xff; 52]);
    // 52 bytes are free: room for two records of 26, and for no second one of 27
    assert_eq!(pair.append(&path, &[4; 2]), 0);
    pair.refuses(15, |pair| pair.append(&path, &[3; 3]));
    assert_eq!(pair.append(&path, &[5; 2]), 0);
    assert_eq!((&pair.area(3)[100..102], &pair.area(3)[126..]), (&[4; 2][..], &[5; 2][..]));
    pair.refuses(15, |pair| pair.append(&path, b"x"));
    pair.refuses(15, |pair| pair.unlink(&path));
    pair.refuses(15, |pair| pair.rename(&path, b"/x"));
    pair.refuses(12, |pair| pair.rename(&path, &path));
    pair.refuses(15, |pair| pair.overwrite(&path, 87, b"x"));
    pair.refuses(14, |pair| pair.overwrite(&path, 88, b"x"));
    assert_eq!(pair.contents(&path), [&[1; 84][..], &[4; 2], &[5; 2]].concat());
    assert_eq!(pair.report(), Report { number: 0, inodes: 2, live: 2, ..Report::default() });
}

/// A rename from the sequence before the last one to the last, and none from there: 16, after 12 and 18 and before 15 (T-01).
#[test]
fn renames_up_to_the_last_sequence() {
    const LAST: u32 = 0xffff_ffff;
    for (room, full) in [(100, false), (21, false), (20, true), (0, true)] {
        let mut flash = Flash::of(&[512; 2]);
        assert!(flash.inode(1, 0, LAST, NONE, b"") && flash.inode(1, 1, LAST, 0, b"d") && flash.inode(1, FILE, LAST - 1, 0, b"a"));
        assert!(flash.inode(1, FILE + 1, LAST, 1, b"b"));
        let rest = vec![7; flash.room(1) - room - 24];
        assert!(flash.block(1, BLOCK, 0, FILE + 9, NONE, &rest));
        let mut pair = Pair::of(flash);
        let refused: [(&[u8], &[u8], u32); 7] = [
            (b"/d/b", b"/b", 16),
            (b"/d", b"/b", 16),
            (b"/d", b"/d/c", 18),
            (b"/d", b"/d/b", 12),
            (b"/", b"/d/c", 18),
            (b"/", b"/d", 12),
            (b"/d/b", b"/a/b", 11),
        ];
        for (old, new, number) in refused {
            pair.refuses(number, |pair| pair.rename(old, new));
        }
        if full {
            pair.refuses(15, |pair| pair.rename(b"/a", b"/c"));
        } else {
            assert_eq!(pair.rename(b"/a", b"/c"), 0);
            pair.refuses(16, |pair| pair.rename(b"/c", b"/a"));
        }
        let file = Lookup { number: 0, id: FILE, kind: 1 };
        assert_eq!(pair.lookup(if full { b"/a" } else { b"/c" }), file);
    }
}

/// An overwrite of each of three blocks, one of them at the sequence before the last one and one at the last: 16 for what has a byte of that block, 14
/// before it and 15 behind it (T-05).
#[test]
fn overwrites_up_to_the_last_sequence() {
    const LAST: u32 = 0xffff_ffff;
    for room in [100, 78, 77, 52, 51, 26, 25, 0] {
        let mut flash = Flash::of(&[512; 2]);
        assert!(flash.root(1) && flash.inode(1, FILE, LAST, 0, b"a"));
        for (id, sequence) in (BLOCK..).zip([LAST - 1, 0, LAST]) {
            let previous = if id == BLOCK { NONE } else { id - 1 };
            assert!(flash.block(1, id, sequence, FILE, previous, b"ab"));
        }
        let rest = vec![7; flash.room(1) - room - 24];
        assert!(flash.block(1, BLOCK + 9, 0, FILE + 9, NONE, &rest));
        let mut pair = Pair::of(flash);
        for (offset, length, number) in [(4, 1, 16), (5, 1, 16), (0, 6, 16), (3, 2, 16), (4, 3, 14), (6, 1, 14), (7, 0, 14), (0, 7, 14)] {
            pair.refuses(number, |pair| pair.overwrite(b"/a", offset, &[b'x'; 7][..length]));
        }
        assert_eq!((pair.overwrite(b"/a", 4, b""), pair.overwrite(b"/a", 6, b"")), (0, 0));
        let fits = |records: usize| if 26 * records <= room { 0 } else { 15 };
        assert_eq!(pair.overwrite(b"/a", 1, b"xy"), fits(2));
        // the first block has the last sequence, or there was no room for both
        assert_eq!(pair.overwrite(b"/a", 0, b"z"), if room >= 52 { 16 } else { fits(1) });
        assert_eq!(pair.overwrite(b"/a", 3, b"z"), if room >= 52 { fits(3) } else { fits(2) });
    }
}

/// The shortest file area's length, and the greatest block.
const GREATEST: [(u32, usize); 14] = [
    (128, 28),
    (129, 28),
    (130, 29),
    (4095, 2011),
    (4096, 2012),
    (4097, 2012),
    (4144, 2036),
    (4165, 2046),
    (4166, 2047),
    (4167, 2047),
    (4168, 2048),
    (4169, 2048),
    (4170, 2048),
    (16384, 2048),
];

/// Appends of one and two greatest blocks, and of a byte less and more. The shortest file area may stand anywhere in the list, be damaged, and
/// hold none of the blocks.
#[test]
fn appends_around_the_greatest_block() {
    for (length, greatest) in GREATEST {
        for (shortest, damaged) in [(1, false), (2, false), (2, true), (3, false), (3, true)] {
            let mut lengths = [16384; 4];
            lengths[shortest] = length;
            let mut pair = Pair::formatted(&lengths);
            assert_eq!(pair.create(b"/a").number, 0);
            if damaged {
                let at = pair.areas[2 * shortest] as usize + 24;
                pair.ours[at] = 0;
                pair.model[at] = 0;
            }
            let (mut stored, mut blocks) = (Vec::new(), 0);
            for (size, pieces) in [(greatest - 1, 1), (greatest, 1), (greatest + 1, 2), (2 * greatest, 2), (2 * greatest + 1, 3)] {
                assert_eq!(pair.append(b"/a", &block(blocks, size)), 0);
                stored.extend(block(blocks, size));
                blocks += pieces;
                assert_eq!(pair.blocks(FILE), blocks, "{size} bytes, the shortest file area has {length}");
            }
            assert_eq!(pair.whole(FILE, stored.len()), (stored, blocks));
        }
    }
}

/// Volumes as version 0.2.0 left them: formatted, a file created, one append of two of its greatest blocks, 24 bytes less than half of the
/// area's length and at most 2,048. The sums (31 times the sum so far, and the next byte) are of the images that it wrote. They read, take blocks of
/// the size in force and are collected; the long blocks stay as they are.
#[test]
fn volumes_of_version_0_2_0() {
    for (length, greatest, now, sum) in [(128, 40, 28, 0xa9cf_2b91), (4096, 2024, 2012, 0x9c41_48a6), (4144, 2048, 2036, 0x4c1b_f4b2)] {
        let mut flash = Flash::of(&[length; 4]);
        assert!(flash.root(1) && flash.inode(1, FILE, 0, 0, b"a"));
        for (k, previous) in [(0, NONE), (1, BLOCK)] {
            assert!((1..4).any(|area| flash.block(area, BLOCK + k, 0, FILE, previous, &block(k, greatest))));
        }
        assert_eq!(flash.image.iter().fold(0, |sum: u32, byte| sum.wrapping_mul(31).wrapping_add(u32::from(*byte))), sum);
        let mut pair = Pair::of(flash);
        let mut stored = [block(0, greatest), block(1, greatest)].concat();
        assert_eq!(pair.report(), Report { number: 0, inodes: 2, live: 2, ..Report::default() });
        assert_eq!(pair.contents(b"/a"), stored);
        assert_eq!(pair.blocks(FILE), 2);
        assert_eq!(pair.append(b"/a", &block(2, now + 1)), 0);
        stored.extend(block(2, now + 1));
        assert_eq!(pair.blocks(FILE), 4);
        // until each area was the source once
        for _ in 0..4 {
            assert_eq!(pair.whole(FILE, stored.len()), (stored.clone(), 4));
            assert_eq!(pair.collect(), 0);
        }
        assert_eq!(pair.counts(), [1; 4]);
        assert_eq!(pair.contents(b"/a"), stored);
        assert_eq!(pair.blocks(FILE), 4);
    }
}

/// "count a precedes count b when (b - a) taken modulo 256 is 1 to 127" (T-14).
fn precedes(a: u8, b: u8) -> bool {
    (1..=127).contains(&(i32::from(b) - i32::from(a)).rem_euclid(256))
}

/// The area that no other precedes is collected, the first of several, and its count goes on, from 255 to 0: the areas take turns.
#[test]
fn counts_that_wrap() {
    let mut pair = Pair::formatted(&[512; 3]);
    assert_eq!(pair.create(b"/dose").number, 0);
    assert_eq!(pair.append(b"/dose", b"0.5 ml/h"), 0);
    let (mut times, mut scratch) = ([0u32; 3], 0);
    for turn in 1..=1600 {
        let counts = times.map(|times| times as u8);
        let (first, second) = [(1, 2), (0, 2), (0, 1)][scratch];
        scratch = if precedes(counts[second], counts[first]) { second } else { first };
        times[scratch] += 1;
        assert_eq!(pair.collect(), 0);
        assert_eq!(pair.counts(), times.map(|times| times as u8));
        assert_eq!(pair.contents(b"/dose"), b"0.5 ml/h");
        assert!(times.iter().all(|times| (turn / 3..=turn / 3 + 1).contains(times)), "{times:?}");
    }
    println!("collections of each area, its count twice going from 255 to 0: {times:?}");
    assert!(times.iter().all(|times| times / 256 == 2));
}

/// Which of two file areas is the source, the first or the second: areas in this order, scratch last, with these counts. The source becomes scratch,
/// its count one more; the two others keep theirs.
fn source_of_two(order: [usize; 3], counts: [u8; 3]) -> usize {
    let mut flash = Flash::of(&[128; 3]);
    for (area, (count, id)) in order.into_iter().zip(counts.into_iter().zip([7, 8, 255])) {
        flash.head(area, count, 0, id);
        flash.root(area);
    }
    let mut pair = Pair::of(flash);
    assert_eq!(pair.collect(), 0);
    let headers = order.map(|area| (pair.area(area)[21], pair.area(area)[23]));
    let source = usize::from(headers[1].1 == 255);
    let mut expected = [(counts[0], 7), (counts[1], 8), (counts[2], [7, 8][source])];
    expected[source] = (counts[source].wrapping_add(1), 255);
    assert_eq!(headers, expected);
    source
}

/// Each area as the source with each count: what it becomes, and that the two others keep theirs. The second of two is the source where it precedes
/// the first, across 255 to 0 too.
#[test]
fn every_count_of_every_area() {
    for order in [[0, 2, 1], [0, 1, 2], [1, 2, 0]] {
        for count in 0..=255u8 {
            assert_eq!(source_of_two(order, [count, count, 255 - count]), 0);
            assert_eq!(source_of_two(order, [count, count.wrapping_add(1), 255 - count]), 0);
            assert_eq!(source_of_two(order, [count.wrapping_add(1), count, 255 - count]), 1);
        }
    }
}

/// All 65,536 pairs of counts of two file areas. Scratch's count, the first's, the second's or one between them, takes no part.
#[test]
fn every_two_counts() {
    let mut second = 0;
    for a in 0..=255u8 {
        for b in 0..=255u8 {
            let scratch = [a, b, a.wrapping_add(b.wrapping_sub(a) / 2)][usize::from(a ^ b) % 3];
            let source = source_of_two([1, 2, 0], [a, b, scratch]);
            assert_eq!(source, usize::from(precedes(b, a)), "{a} and {b}");
            second += source;
        }
    }
    println!("of 65536 pairs of counts {second} have the second area collected");
    assert_eq!(second, 256 * 127);
}

/// The report of one area (T-08) for each of sixteen, all damaged, and for entries that are not there; of each the one stretch, and no other.
#[test]
fn every_area_of_sixteen() {
    let mut flash = Flash::of(&[4096; 16]);
    assert!(flash.root(1));
    for area in 0..16 {
        flash.head(area, 3 * area as u8, 0, (area as u8).wrapping_sub(1));
        assert!(flash.put(area, &[0; 16][..1 + area]));
    }
    let mut pair = Pair::of(flash);
    for index in 0..16 {
        let (kind, id) = if index == 0 { (2, 255) } else { (1, index - 1) };
        let (records, offset, length) = if index == 1 { (1, 44, 2) } else { (0, 24, index + 1) };
        let free = 4096 - offset - length;
        let whole = AreaReport { number: 0, kind, id, count: 3 * index, records, stretches: 1, skipped: length, free, offset, length };
        assert_eq!(pair.area_report(index, 0), whole);
        for stretch in [1, 2, 256, 0x8000_0000, u32::MAX] {
            assert_eq!(pair.area_report(index, stretch), AreaReport { offset: 0, length: 0, ..whole });
        }
    }
    for index in [16, 17, 255, 256, 0x1_0000, 0x8000_0000, u32::MAX] {
        for stretch in [0, 1, u32::MAX] {
            assert_eq!(pair.area_report(index, stretch), AreaReport { number: 1, ..AreaReport::default() });
        }
    }
    let (stretches, skipped) = (15, (2..=16).sum());
    assert_eq!(pair.report(), Report { number: 0, inodes: 1, live: 1, stretches, skipped, first_offset: 4096 + 44, first_length: 2 });
}

/// The same areas with their descriptors backwards: scratch is the last, and the first damage is that of the highest offset.
#[test]
fn sixteen_areas_backwards() {
    let areas: Vec<u32> = (0..16).rev().flat_map(|area| [4096 * area, 4096]).collect();
    let mut flash = Flash::over(vec![0; 65_536], areas);
    for area in 0..16 {
        flash.head(area, 0, 0, if area == 15 { 255 } else { area as u8 });
        assert!(area != 3 || flash.root(area));
    }
    for damaged in [15, 14, 3, 1, 0] {
        assert!(flash.put(damaged, b"torn"));
        let mut pair = Pair::of(flash.clone());
        let told = pair.area_report(damaged as u32, 0);
        assert_eq!((told.stretches, told.offset, told.length), (1, if damaged == 3 { 44 } else { 24 }, 4));
        let (first_offset, first_length) = if damaged == 15 { (0, 0) } else { (4096 * (15 - damaged as u32) + told.offset, 4) };
        let report = pair.report();
        assert_eq!((report.first_offset, report.first_length), (first_offset, first_length), "area {damaged}");
    }
}

/// The most stretches that an area can have, one byte each between records of 20, in the longest area: each by its number, and no more.
#[test]
fn the_most_stretches() {
    let mut flash = Flash::of(&[65_536]);
    let mut most = 0;
    while flash.room(0) > 20 {
        assert!(flash.put(0, b"x") && flash.root(0));
        most += 1;
    }
    // and one more behind the last record
    assert!(flash.put(0, b"x"));
    let stretches = most + 1;
    assert_eq!(stretches, 3120);
    let mut pair = Pair::of(flash);
    assert_eq!(pair.report().number, 3);
    let free = 65_536 - 24 - 21 * most - 1;
    let whole = AreaReport { kind: 2, id: 255, records: most, stretches, skipped: stretches, free, ..AreaReport::default() };
    for stretch in (0..stretches).step_by(7).chain([254, 255, 256, 257, most - 1, most]) {
        assert_eq!(pair.area_report(0, stretch), AreaReport { offset: 24 + 21 * stretch, length: 1, ..whole });
    }
    for stretch in [stretches, stretches + 1, 0x1_0000, 0x8000_0000, u32::MAX] {
        assert_eq!(pair.area_report(0, stretch), whole);
    }
}

/// The most records, 3,271 of them, in the longest area, and behind them 0 to 60 free bytes: the FF at the end of the last record are not free.
#[test]
fn the_most_records_and_the_least_free_space() {
    for free in 0..=60 {
        let mut flash = Flash::of(&[65_536]);
        while flash.room(0) >= 120 {
            assert!(flash.root(0));
        }
        let data = vec![0xff; flash.room(0) - free as usize - 24];
        assert!(flash.block(0, BLOCK, 0, FILE, NONE, &data));
        let whole = AreaReport { kind: 2, id: 255, records: 3271, free, ..AreaReport::default() };
        assert_eq!(Pair::of(flash).area_report(0, 0), whole);
    }
}

/// Damage at the last byte of the greatest image, which is the greatest offset; and the longest damage, of a file area and of any.
#[test]
fn the_greatest_offset_and_the_greatest_length() {
    let mut flash = Flash::of(&[32_768, 32_768]);
    assert!(flash.root(1) && flash.inode(1, FILE, 0, 0, b"a"));
    let mut id = BLOCK;
    while flash.room(1) > 1 {
        let whole = match flash.room(1) - 1 {
            rest @ 0..=2072 => rest,
            rest => (rest - 30).min(2072),
        };
        assert!(flash.block(1, id, 0, FILE, NONE, &vec![7; whole - 24]));
        id += 1;
    }
    flash.image[65_535] = 0;
    let mut last = Pair::of(flash);
    let report = last.report();
    assert_eq!((report.stretches, report.skipped, report.first_offset, report.first_length), (1, 1, 65_535, 1));
    let told = last.area_report(1, 0);
    assert_eq!((told.free, told.offset, told.length), (0, 32_767, 1));
    let mut flash = Flash::of(&[32_704, 128, 32_704]);
    assert!(flash.root(1));
    flash.put(2, &[0; 32_680]);
    let mut all = Pair::of(flash);
    let report = all.report();
    assert_eq!((report.skipped, report.first_offset, report.first_length), (32_680, 32_704 + 128 + 24, 32_680));
    let mut zeros = Pair { ours: vec![0; 65_536], model: vec![0; 65_536], areas: vec![0, 65_536] };
    let told = zeros.area_report(0, 0);
    assert_eq!((told.kind, told.skipped, told.offset, told.length), (0, 65_512, 24, 65_512));
}

/// The run with overflow checks has them.
#[cfg(debug_assertions)]
#[test]
fn overflow_is_seen() {
    let most = std::hint::black_box(u32::MAX);
    assert!(std::panic::catch_unwind(|| most + 1).is_err());
}
