//! T-07, run: listings of the proved call and of the model, answer, image and buffer of each. Every byte of a name, every two names, every depth,
//! every directory at depth 64, every parent of a few directories, every size, every length of a buffer, every refusal, full tables in several shapes,
//! the longest names and the longest text, damaged records, a tree listed for long. What the lines must be is said besides, by the paths.

use std::collections::BTreeMap;

use nffs_compare::two::Two;
use nffs_compare::Proved;
use nffs_model::compare::{Call, Engine, Model};
use nffs_model::forge::Flash;
use nffs_model::generate::listed::by_paths;
use nffs_model::generate::Random;
use nffs_model::layout::{Block, Inode};
use nffs_model::mount::mount;

const FILE: u32 = 0x1000_0000;
const BLOCK: u32 = 0x8000_0000;
const NONE: u32 = 0xffff_ffff;
/// A buffer that every text fits in.
const ENOUGH: usize = 102_400;

/// Scratch and so many file areas of this length, with the root.
fn rooted(areas: usize, length: usize) -> Flash {
    let mut flash = Flash::of(&vec![length; areas + 1]);
    assert!(flash.root(1));
    flash
}

/// A record into the first area with room.
#[track_caller]
fn put(flash: &mut Flash, record: &[u8]) {
    assert!((1..flash.areas.len() / 2).any(|area| flash.put(area, record)), "no room");
}

#[track_caller]
fn inode(flash: &mut Flash, id: u32, parent: u32, name: &[u8]) {
    put(flash, &Inode::new(id, 0, parent, name).bytes());
}

#[track_caller]
fn block(flash: &mut Flash, id: u32, owner: u32, previous: u32, data: &[u8]) {
    put(flash, &Block::new(id, 0, owner, previous, data).bytes());
}

/// Directories 1, 2, .. one below the other, so many.
fn chain(flash: &mut Flash, length: u32) {
    (1..=length).for_each(|id| inode(flash, id, id - 1, b"d"));
}

/// One line.
fn line(depth: usize, shown: &[u8]) -> Vec<u8> {
    [&vec![b' '; depth], shown, b"\n"].concat()
}

fn printed(name: &[u8]) -> Vec<u8> {
    name.iter().map(|byte| if *byte == b'\n' { b'/' } else { *byte }).collect()
}

/// The text of both, which is the one that the sorted paths tell.
#[track_caller]
fn listing(flash: &Flash) -> Vec<u8> {
    let text = Two::of(flash).tree();
    let fs = mount(&flash.image, &flash.areas).expect("it mounts");
    assert!(text == by_paths(&fs), "{}", String::from_utf8_lossy(&text));
    text
}

/// The root's line and these.
fn below_the_root(lines: &[Vec<u8>]) -> Vec<u8> {
    [line(0, b"/"), lines.concat()].concat()
}

/// Every byte that a name may have, alone, before another and behind one, in one directory; the ids and the places are in other orders.
#[test]
fn every_byte_of_a_name() {
    let bytes: Vec<u8> = (1..=255).filter(|byte| *byte != b'/').collect();
    for [front, back] in [[&b""[..], b""], [b"a", b""], [b"", b"a"], [b"\n", b"\xff"]] {
        for step in [1, 3, 100, 253] {
            let mut flash = rooted(3, 4096);
            for k in 0..bytes.len() {
                let name = [front, &bytes[k * step % bytes.len()..][..1], back].concat();
                inode(&mut flash, if k % 3 == 0 { FILE } else { 0 } + 1 + k as u32, 0, &name);
            }
            let mut names: Vec<(Vec<u8>, bool)> =
                (0..bytes.len()).map(|k| ([front, &bytes[k * step % bytes.len()..][..1], back].concat(), k % 3 == 0)).collect();
            names.sort();
            let lines = names.iter().map(|(name, is_file)| line(1, &[&printed(name)[..], if *is_file { b" 0" } else { b"" }].concat()));
            assert_eq!(listing(&flash), below_the_root(&lines.collect::<Vec<_>>()), "step {step}");
        }
    }
}

/// All names of one to three of these bytes, two of them in each volume, of either order of ids: "in order of name bytes, then id".
#[test]
fn every_two_names() {
    let bytes = [b'\n', b' ', b'.', b'0', 0x80];
    let longer = |names: &[Vec<u8>]| names.iter().flat_map(|name| bytes.map(|byte| [&name[..], &[byte]].concat())).collect::<Vec<_>>();
    let one = longer(&[Vec::new()]);
    let two = longer(&one);
    let three = longer(&two).into_iter().step_by(4);
    let names: Vec<Vec<u8>> = one.into_iter().chain(two.clone()).chain(three).collect();
    let mut times = 0;
    for (a, b) in names.iter().flat_map(|a| names.iter().map(move |b| (a, b))) {
        let mut flash = rooted(1, 128);
        let ids = [(1, 2), (2, 1), (FILE, 1), (1, FILE), (FILE + 1, FILE)][times % 5];
        inode(&mut flash, ids.0, 0, a);
        inode(&mut flash, ids.1, 0, b);
        let mut order = [(a, ids.0), (b, ids.1)];
        order.sort();
        let lines = order.map(|(name, id)| line(1, &[&printed(name)[..], if id >= FILE { b" 0" } else { b"" }].concat()));
        assert_eq!(listing(&flash), below_the_root(&lines), "{a:?} {b:?}");
        times += 1;
    }
    assert!(times > 3000);
}

/// Chains of 0 to 255 directories, with a file at the end and one at each depth in turn: lines down to depth 64, and one `deeper` for what is below.
#[test]
fn every_depth() {
    for length in 0..=255u32 {
        let mut flash = rooted(2, 8192);
        chain(&mut flash, length);
        let (mut files, room) = (Vec::new(), 255 - length);
        for (k, depth) in [(0, length), (1, length / 2), (2, length.min(63)), (3, length.min(64))] {
            if k < room {
                inode(&mut flash, FILE + k, depth, b"e");
                files.push((depth + 1, k));
            }
        }
        let at = |depth: u32| files.iter().filter(move |(at, _)| *at == depth).count();
        let mut expected = line(0, b"/");
        for depth in 1..=length.min(64) {
            expected.extend(line(depth as usize, b"d"));
        }
        if length > 64 || at(65) > 0 {
            expected.extend(line(65, b"deeper"));
        }
        for depth in (1..=length.min(63) + 1).rev() {
            // "e" is behind "d" and what lies in it
            expected.extend(line(depth as usize, b"e 0").repeat(at(depth)));
        }
        assert_eq!(listing(&flash), expected, "{length} directories");
    }
}

/// Eight directories at depth 64, each subset of them with a live child, the others with none, with a deleted one or with one that was moved away.
#[test]
fn every_directory_at_depth_64() {
    for subset in 0..256u32 {
        let mut flash = rooted(2, 4096);
        chain(&mut flash, 63);
        let mut expected: Vec<u8> = (1..=63).flat_map(|depth| line(depth, b"d")).collect();
        for k in 0..8 {
            let (parent, child) = (100 + k, 200 + k);
            inode(&mut flash, parent, 63, &[b'a' + k as u8]);
            expected.extend(line(64, &[b'a' + k as u8]));
            let is_live = subset >> k & 1 == 1;
            if is_live {
                (0..=k % 3).for_each(|more| inode(&mut flash, if k % 2 == 0 { child } else { FILE + child } + 8 * more, parent, b"below"));
                expected.extend(line(65, b"deeper"));
            } else if k % 3 > 0 {
                inode(&mut flash, child, parent, b"gone");
                put(&mut flash, &Inode::new(child, 1, if k % 3 == 1 { NONE } else { 63 }, if k % 3 == 1 { b"" } else { b"moved" }).bytes());
            }
        }
        let moved = (0..8).filter(|k| k % 3 == 2 && subset >> k & 1 == 0).count();
        expected.extend(line(64, b"moved").repeat(moved));
        assert_eq!(listing(&flash), below_the_root(&[expected]), "subset {subset:08b}");
    }
}

/// Five directories and a file, each directory in the root, in any of the five, in one without a record, or deleted: 32,768 trees, loops among them.
#[test]
fn every_parent() {
    let (mut shown, mut loops) = (BTreeMap::new(), 0);
    for shape in 0..8u32.pow(5) {
        let mut flash = rooted(1, 256);
        for id in 1..=5 {
            let parent = match shape / 8u32.pow(id - 1) % 8 {
                parent @ 0..=5 => parent,
                6 => 99,
                _ => NONE,
            };
            inode(&mut flash, id, parent, &[b'a' + (3 * id % 5) as u8]);
        }
        inode(&mut flash, FILE, 1 + shape % 5, b"c");
        let text = Two::of(&flash).tree();
        let fs = mount(&flash.image, &flash.areas).expect("it mounts");
        assert_eq!(text, by_paths(&fs), "shape {shape:o}");
        let lines = text.iter().filter(|byte| **byte == b'\n').count();
        *shown.entry(lines).or_insert(0u32) += 1;
        loops += u32::from(lines == 1);
    }
    println!("trees by their lines: {shown:?}");
    assert!(shown.keys().eq(&[1, 2, 3, 4, 5, 6, 7]) && loops > 1000);
}

/// Every size up to the greatest block, and sums up to a whole volume.
#[test]
fn every_size() {
    for size in 0..=2048 {
        let mut flash = rooted(1, 2200);
        inode(&mut flash, FILE, 0, b"a");
        if size > 0 {
            block(&mut flash, BLOCK, FILE, NONE, &vec![7; size]);
        }
        assert_eq!(listing(&flash), below_the_root(&[line(1, format!("a {size}").as_bytes())]));
    }
    let mut flash = rooted(1, 32_768);
    inode(&mut flash, FILE, 0, b"a");
    let (mut size, mut previous) = (0, NONE);
    for (k, length) in [2048, 2048, 2048, 2048, 1807, 1, 90, 1, 2048, 2048, 2048, 2048, 2048, 2048, 2048, 2048].into_iter().enumerate() {
        let id = BLOCK + k as u32;
        block(&mut flash, id, FILE, previous, &vec![7; length]);
        (size, previous) = (size + length, id);
        assert_eq!(listing(&flash), below_the_root(&[line(1, format!("a {size}").as_bytes())]));
    }
    assert!(size > 26_000);
}

/// Each order of the "previous" of up to four blocks of a file: its size, or `broken`, as a read answers 0 or 13.
#[test]
fn every_chain_of_blocks() {
    let mut numbers: BTreeMap<u32, u32> = BTreeMap::new();
    for shape in 0..6u32.pow(4) {
        let mut flash = rooted(1, 256);
        inode(&mut flash, FILE, 0, b"a");
        for k in 0..4u32 {
            let previous = match shape / 6u32.pow(k) % 6 {
                other @ 0..=3 if other != k => BLOCK + other,
                4 => BLOCK + 9,
                5 => NONE,
                // no such block
                _ => continue,
            };
            block(&mut flash, BLOCK + k, FILE, previous, &vec![7; 1 << k]);
        }
        let (text, mut two) = (listing(&flash), Two::of(&flash));
        let read = two.call(&Call::ReadAt { id: FILE, position: 0, length: 100 });
        let shown = if read[0] == 0 { read[1].to_string() } else { "broken".to_string() };
        assert_eq!(text, below_the_root(&[line(1, format!("a {shown}").as_bytes())]), "shape {shape}");
        *numbers.entry(read[0]).or_default() += 1;
    }
    println!("reads by number: {numbers:?}");
    assert!(numbers.keys().eq(&[0, 13]));
}

/// A tree with files, a broken one, newlines, long names and `deeper`.
fn mixed() -> Flash {
    let mut flash = rooted(2, 4096);
    chain(&mut flash, 66);
    inode(&mut flash, 100, 63, b"a\nb");
    inode(&mut flash, FILE, 100, b"below");
    inode(&mut flash, FILE + 1, 0, b"a");
    block(&mut flash, BLOCK, FILE + 1, NONE, &[1; 1234]);
    inode(&mut flash, FILE + 2, 2, &[0xff; 255]);
    block(&mut flash, BLOCK + 1, FILE + 2, BLOCK + 9, b"x");
    inode(&mut flash, FILE + 3, 0, b"a");
    flash
}

/// What a call leaves in a buffer of this length, which stands between other bytes: these stay.
fn between(engine: &dyn Engine, flash: &Flash, length: usize) -> (u32, u32, Vec<u8>) {
    let mut bytes = vec![0x3c; length + 200];
    let tree = engine.tree(&flash.image, &flash.areas, &mut bytes[100..100 + length]);
    assert!(bytes[..100].iter().chain(&bytes[100 + length..]).all(|byte| *byte == 0x3c), "bytes beside the buffer");
    (tree.number, tree.length, bytes[100..100 + length].to_vec())
}

/// Buffers of every length up to some bytes more than the text has: the front of it, and the rest of the buffer as it was.
#[test]
fn every_length_of_a_buffer() {
    let flash = mixed();
    let text = listing(&flash);
    for length in 0..=text.len() + 70 {
        let fits = length.min(text.len());
        let expected = [&text[..fits], &vec![0x3c; length - fits]].concat();
        for engine in [&Proved as &dyn Engine, &Model] {
            assert_eq!(between(engine, &flash, length), (0, text.len() as u32, expected.clone()), "{length} bytes");
        }
    }
}

/// A volume for each number.
fn refused() -> Vec<(u32, Flash)> {
    let mut over = mixed();
    over.image.resize(65_537, 0xff);
    let mut list = mixed();
    list.areas = vec![0, 4096, 4095, 4096];
    let mut shared = mixed();
    shared.head(2, 0, 0, 0);
    let mut two = mixed();
    two.head(2, 0, 0, 255);
    let mut none = mixed();
    none.areas.truncate(2);
    let mut short = Flash::of(&[128, 129]);
    assert!(short.root(1));
    let (mut inodes, mut blocks) = (rooted(2, 8192), rooted(1, 32_768));
    (1..=256).for_each(|id| inode(&mut inodes, id, 0, b"d"));
    (0..1025).for_each(|k| block(&mut blocks, BLOCK + k, FILE, NONE, b"x"));
    let mut clash = mixed();
    inode(&mut clash, FILE, 0, b"other");
    let mut rootless = Flash::of(&[4096; 2]);
    chain(&mut rootless, 3);
    vec![(1, over), (1, list), (2, shared), (3, two), (3, none), (4, short), (5, inodes), (5, blocks), (6, clash), (7, rootless)]
}

/// Each refusal of checks 1 to 7: length 0, and every buffer as it was.
#[test]
fn every_refusal() {
    for (number, flash) in refused() {
        for length in [0, 1, 2, 3, 65, 1000, ENOUGH] {
            for engine in [&Proved as &dyn Engine, &Model] {
                assert_eq!(between(engine, &flash, length), (number, 0, vec![0x3c; length]));
            }
            Two::of(&flash).call(&Call::Tree { length });
        }
    }
}

/// The parents of 255 inodes in several shapes, by their number: all in the root, a chain, a comb, a heap, one directory among files, and drawn.
fn parents(shape: usize, r: &mut Random) -> Vec<(u32, u32)> {
    let id = |k: u32, is_file: bool| if is_file { FILE + k } else { k };
    let inode = |k: u32| match shape {
        0 => (id(k, true), 0),
        1 => (k, k - 1),
        2 => (id(k, k % 2 == 0), (k - 1) / 2 * 2 - u32::from((k - 1) / 2 > 0)),
        3 => (id(k, k > 127), k / 2),
        4 => (id(k, k != 100), if k % 2 == 0 { 100 } else { 0 }),
        _ => (id(k, k > 120), r.below(k.min(121) as usize) as u32),
    };
    let mut all: Vec<(u32, u32)> = (1..=255).map(inode).collect();
    all.iter_mut().filter(|(id, parent)| id == parent).for_each(|inode| inode.1 = 0);
    all
}

/// 256 inodes and 1,024 blocks, in shapes that are flat, deep and between, records forwards, backwards and in any order; names alike or not.
#[test]
fn full_tables() {
    let (mut r, mut live) = (Random::new(7), Vec::new());
    for (shape, turn) in (0..12).flat_map(|shape| (0..4).map(move |turn| (shape, turn))) {
        let inodes = parents(shape, &mut r);
        let mut records: Vec<Vec<u8>> = Vec::new();
        for (id, parent) in &inodes {
            let name = [&b"d"[..], b"a\n", b"ab", b"\xff"][(*id as usize * 7 + turn) % [1, 2, 3, 4][turn]].to_vec();
            records.push(Inode::new(*id, 0, *parent, &[&name[..], &[b'a' + (*id % 5) as u8]].concat()).bytes());
        }
        let files: Vec<u32> = inodes.iter().map(|(id, _)| *id).filter(|id| *id >= FILE).collect();
        for k in 0..1024 {
            let count = files.len().max(1) as u32;
            let owner = files.get((k % count) as usize).copied().unwrap_or(FILE);
            let previous = if k < count { NONE } else { BLOCK + k - count };
            records.push(Block::new(BLOCK + k, 0, owner, if k == 900 { NONE } else { previous }, b"x").bytes());
        }
        match turn {
            1 => records.reverse(),
            2 | 3 => r.shuffle(&mut records),
            _ => {}
        }
        let mut flash = rooted(15, 4096);
        records.iter().for_each(|record| put(&mut flash, record));
        let lines = listing(&flash).iter().filter(|byte| **byte == b'\n').count();
        live.push(lines);
    }
    println!("lines: {live:?}");
    assert!(live.iter().filter(|lines| **lines == 256).count() > 20 && live.contains(&66));
}

/// As many names of 255 bytes as a volume has room for, which are alike up to their 250th byte or to their last.
#[test]
fn the_longest_names() {
    for (turn, alike) in [250, 252, 254].into_iter().enumerate() {
        let lengths: Vec<usize> = [4149; 15].into_iter().chain([3301]).collect();
        let mut flash = Flash::of(&lengths);
        let name = |k: u32| {
            let digits = [(k / 128) as u8, (k / 16 % 8) as u8, (k % 16) as u8].map(|digit| b'0' + digit);
            let own = if alike == 254 { vec![b'0' + (k * 77 % 200) as u8] } else { digits.to_vec() };
            [&vec![b'n'; alike], &own[..], &[b'n'; 5]].concat()[..255].to_vec()
        };
        assert!(flash.root(15));
        let mut names = Vec::new();
        for k in 0..221 {
            let id = [1 + k, FILE + 300 - k, FILE + k * 7 % 221][turn];
            inode(&mut flash, id, 0, &name(k));
            names.push((name(k), id));
        }
        names.sort();
        let lines = names.iter().map(|(name, id)| line(1, &[&name[..], if *id >= FILE { b" 0" } else { b"" }].concat()));
        assert_eq!(listing(&flash), below_the_root(&lines.collect::<Vec<_>>()), "alike for {alike} bytes");
    }
}

/// 63 directories one below the other and 192 files in the last: the text has more bytes than the image. Buffers about 65,536 bytes and about its length.
#[test]
fn the_longest_text() {
    let mut flash = rooted(15, 4096);
    let name = |k: u32| format!("{k:0>217}").into_bytes();
    (1..64).for_each(|k| inode(&mut flash, k, k - 1, &name(k)));
    (64..256).rev().for_each(|k| inode(&mut flash, FILE + k, 63, &name(k)));
    let shown = |k: u32| [&name(k)[..], if k < 64 { b"" } else { b" 0" }].concat();
    let lines: Vec<Vec<u8>> = (1..256).map(|k| line(k.min(64) as usize, &shown(k))).collect();
    let text = below_the_root(&lines);
    assert!(text.len() > 70_000 && text.len() < ENOUGH);
    assert_eq!(listing(&flash), text);
    for length in [65_534, 65_535, 65_536, 65_537, text.len() - 1, text.len(), text.len() + 1, ENOUGH] {
        let fits = length.min(text.len());
        let expected = [&text[..fits], &vec![0x3c; length - fits]].concat();
        assert_eq!(between(&Proved, &flash, length), (0, text.len() as u32, expected));
    }
}

/// Each bit of every record of a tree flipped: the same listing of both, by the paths that are left.
#[test]
fn every_bit_of_the_records() {
    let mut flash = rooted(1, 512);
    inode(&mut flash, 1, 0, b"d");
    inode(&mut flash, 2, 1, b"e\nf");
    inode(&mut flash, FILE, 2, b"a");
    block(&mut flash, BLOCK, FILE, NONE, &[7; 10]);
    block(&mut flash, BLOCK + 1, FILE, BLOCK, &[7; 5]);
    put(&mut flash, &Inode::new(2, 1, 0, b"moved").bytes());
    let (from, to) = (flash.offset(1) + 24, flash.offset(1) + flash.next(1));
    let mut texts: BTreeMap<Vec<u8>, u32> = BTreeMap::new();
    for (byte, bit) in (from..to).flat_map(|byte| (0..8).map(move |bit| (byte, bit))) {
        let mut flipped = flash.clone();
        flipped.image[byte] ^= 1 << bit;
        let mut two = Two::of(&flipped);
        let text = if two.call(&Call::Tree { length: 0 })[0] == 0 { listing(&flipped) } else { Vec::new() };
        *texts.entry(text).or_default() += 1;
    }
    println!("{} texts: {:?}", texts.len(), texts.values());
    // the root lost; the whole; "d", "moved", "a" and either block lost; the old place back
    assert!(texts.len() >= 6 && texts.contains_key(&Vec::new()));
}

/// The tree as the calls alone tell it: names and, for files, sizes, by the path.
type Paths = BTreeMap<Vec<Vec<u8>>, Option<usize>>;

/// What is listed of it. Sorted paths are in the order of a listing where no name is there twice.
fn told(paths: &Paths) -> Vec<u8> {
    let shown = |(path, size): (&Vec<Vec<u8>>, &Option<usize>)| {
        let name = printed(&path[path.len() - 1]);
        line(path.len(), &[name, size.map_or(Vec::new(), |size| format!(" {size}").into_bytes())].concat())
    };
    below_the_root(&paths.iter().map(shown).collect::<Vec<_>>())
}

/// A path of these names.
fn path(names: &[Vec<u8>]) -> Vec<u8> {
    names.iter().flat_map(|name| [&b"/"[..], name]).flatten().copied().collect()
}

/// One call, and what it does to the tree where it is accepted.
fn drawn(r: &mut Random, paths: &Paths) -> (Call, Paths) {
    let base = Vec::new();
    let (all, mut after) = (paths.keys().cloned().collect::<Vec<_>>(), paths.clone());
    let directories: Vec<Vec<Vec<u8>>> = paths.iter().filter(|(_, size)| size.is_none()).map(|(path, _)| path.clone()).chain([Vec::new()]).collect();
    let name = r.pick(&[&b"a"[..], b"ab", b"a\n", b"a.", b"b", b"\xfe", b"long name of a file"]).to_vec();
    let new = [r.pick(&directories), vec![name]].concat();
    let old = if all.is_empty() { new.clone() } else { r.pick(&all) };
    match r.below(10) {
        0..=4 => {
            let kind = r.below(2) as u32;
            after.insert(new.clone(), (kind == 1).then_some(0));
            (Call::Create { base, path: path(&new), kind }, after)
        }
        5 | 6 => {
            let data = vec![7; r.between(1, 120)];
            after.entry(old.clone()).and_modify(|size| *size = size.map(|size| size + data.len()));
            (Call::Append { base, path: path(&old), data }, after)
        }
        7 => {
            after.retain(|path, _| !path.starts_with(&old));
            (Call::Unlink { base, path: path(&old) }, after)
        }
        _ => {
            let moved = |path: &[Vec<u8>]| if path.starts_with(&old) { [&new[..], &path[old.len()..]].concat() } else { path.to_vec() };
            after = paths.iter().map(|(path, size)| (moved(path), *size)).collect();
            (Call::Rename { base, old: path(&old), new: path(&new) }, after)
        }
    }
}

/// Creates, appends, unlinks, renames and, where there is no room or no place, collections: after each the listing is the tree that the calls tell.
#[test]
fn a_tree_listed_for_long() {
    let (mut two, mut r, mut paths) = (Two::of(&rooted(3, 4096)), Random::new(7), Paths::new());
    for turn in 0..2500 {
        let (call, after) = drawn(&mut r, &paths);
        let mut number = two.call(&call)[0];
        for _ in 0..4 {
            if number == 5 || number == 15 {
                assert_eq!(two.call(&Call::Collect), [0]);
                number = two.call(&call)[0];
            }
        }
        if number == 0 {
            paths = after;
        }
        assert_eq!(String::from_utf8_lossy(&two.tree()), String::from_utf8_lossy(&told(&paths)), "turn {turn}, {call:?}");
    }
    println!("{:?}, {} paths at last", two.numbers, paths.len());
    assert!(two.count("Create", 0) > 300 && two.count("Append", 0) > 100 && two.count("Rename", 0) > 100 && two.count("Unlink", 0) > 100);
    assert!(two.count("Collect", 0) > 10);
}
