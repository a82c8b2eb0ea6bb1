//! T-01, run: renames on the proved calls and on the model, answer and image of each. Every two paths of a list that breaks each rule alone and
//! against each later one; every length of name; every depth; every row of a full table; damaged records; a tree moved about for long.

use std::collections::{BTreeMap, BTreeSet};

use nffs_compare::two::{leave, Two};
use nffs_model::compare::Call;
use nffs_model::forge::Flash;
use nffs_model::generate::made::{self, Made};
use nffs_model::generate::moved::broken_rules;
use nffs_model::generate::Random;
use nffs_model::mount::mount;

const FILE: u32 = 0x1000_0000;
const BLOCK: u32 = 0x8000_0000;
const NONE: u32 = 0xffff_ffff;
const LAST: u32 = 0xffff_ffff;

fn rename(base: &[u8], old: &[u8], new: &[u8]) -> Call {
    Call::Rename { base: base.to_vec(), old: old.to_vec(), new: new.to_vec() }
}

fn lookup(path: &[u8]) -> Call {
    Call::Lookup { base: Vec::new(), path: path.to_vec() }
}

/// Directories /d, /d/e, /d/e/g, /z, /l and /l/e, files /a, /d/e/f and /m, and one of each kind named /twice. The root, /l and /m have the last
/// sequence.
fn tree() -> Flash {
    let mut flash = Flash::of(&[1024, 1024]);
    let inodes: [(u32, u32, u32, &[u8]); 12] = [
        (0, LAST, NONE, b""),
        (1, 0, 0, b"d"),
        (2, 3, 1, b"e"),
        (3, 0, 2, b"g"),
        (4, LAST - 1, 0, b"z"),
        (5, LAST, 0, b"l"),
        (6, 0, 0, b"twice"),
        (7, 0, 5, b"e"),
        (FILE, 0, 0, b"a"),
        (FILE + 1, LAST - 1, 2, b"f"),
        (FILE + 2, LAST, 0, b"m"),
        (FILE + 3, 0, 0, b"twice"),
    ];
    for (id, sequence, parent, name) in inodes {
        assert!(flash.inode(1, id, sequence, parent, name));
    }
    assert!(flash.block(1, BLOCK, 0, FILE, NONE, b"0.5 ml/h"));
    flash
}

/// Paths to each thing in the tree, to nothing and to two things, below files, and bad ones; some names are longer than there is room.
fn paths() -> Vec<Vec<u8>> {
    let there = "/ /a /d /d/e /d/e/f /d/e/g /z /l /l/e /m /twice a d e e/f twice l";
    let free = "/no /b /d/b /d/e/b /d/e/g/b /z/b /l/b /l/e/b b e/b";
    let nowhere = "/a/b /m/b /d/e/f/b /twice/b /no/b /a/b/c /no/b/c /twice/b/c /d/no/b";
    let bad = ["", "//", "/a/", "/a//b", "/a\0", "d/", "\0"];
    let words = [there, free, nowhere].map(str::split_whitespace).into_iter().flatten();
    let long = [(&b""[..], 100), (b"/d/", 200), (b"/d/e/", 255), (b"/z/", 256)];
    let long = long.map(|(above, length)| [above, &vec![b'n'; length]].concat());
    words.chain(bad).map(|path| path.as_bytes().to_vec()).chain(long).collect()
}

/// Every two paths, with good and bad bases, where there is room for each name, for short ones and for none. The first rule that is broken gives the
/// number; each is met alone, and with each later one that can be broken besides.
#[test]
fn every_two_paths() {
    let mut met: BTreeSet<Made> = BTreeSet::new();
    let mut numbers: BTreeMap<u32, u32> = BTreeMap::new();
    for room in [400, 120, 21, 20] {
        let mut flash = tree();
        leave(&mut flash, 1, room);
        let (fs, fresh, paths) = (mount(&flash.image, &flash.areas).expect("it mounts"), Two::of(&flash), paths());
        let mut two = Two::of(&flash);
        for (old, new) in paths.iter().flat_map(|old| paths.iter().map(move |new| (old, new))) {
            for base in [&b"/"[..], b"/d", b"/twice/"] {
                let number = broken_rules(&fs, base, old, new).first().map_or(0, |(_, number)| *number);
                met.extend(made::before_call(&rename(base, old, new), &two.ours));
                assert_eq!(two.rename(base, old, new), number, "{base:?} {old:?} {new:?}");
                *numbers.entry(number).or_default() += 1;
                if number == 0 {
                    two = Two { ours: fresh.ours.clone(), model: fresh.model.clone(), ..two };
                }
            }
        }
    }
    println!("renames by number: {numbers:?}, in all {}", numbers.values().sum::<u32>());
    assert!(numbers.keys().eq(&[0, 8, 9, 10, 11, 12, 15, 16, 18]));
    let rules = |made: &&Made| matches!(made, Made::RenameBreaks(_) | Made::RenameBreaksBoth(..));
    for rule in made::ALL.iter().filter(rules) {
        assert!(met.contains(rule), "{rule:?} was never met");
    }
}

/// Names of 1 to 255 bytes in areas with just enough room and with a byte too little; 256 bytes are 8 whatever the room.
#[test]
fn every_length_of_name() {
    for length in 1..=256 {
        for (room, number) in [(20 + length, 0), (19 + length, 15), (20, 15)] {
            let number = if length > 255 { 8 } else { number };
            let mut flash = Flash::of(&[512, 512]);
            assert!(flash.root(1) && flash.inode(1, FILE, 0, 0, b"a"));
            leave(&mut flash, 1, room);
            let new = [b"/", &vec![b'n'; length][..]].concat();
            assert_eq!(Two::of(&flash).rename(b"", b"/a", &new), number, "{length} bytes, room for {room}");
            assert_eq!(Two::of(&flash).rename(b"/", b"a", &new[1..]), number, "{length} bytes, room for {room}");
        }
    }
}

/// So many names in a row.
fn names(length: usize, count: usize) -> Vec<u8> {
    vec![vec![b'd'; length]; count].join(&b'/')
}

/// Directories one below the other, as many as the table has places for: each to below one deeper is 18, by 1 to 255 levels, base and path having up
/// to 2,041 bytes together.
#[test]
fn every_depth() {
    const DEPTHS: [usize; 12] = [1, 2, 3, 4, 62, 63, 64, 127, 128, 192, 254, 255];
    let mut numbers: BTreeMap<u32, u32> = BTreeMap::new();
    for length in [1, 7] {
        let mut flash = Flash::of(&[8000; 2]);
        assert!(flash.root(1) && (1..=255).all(|id| flash.inode(1, id, 0, id - 1, &vec![b'd'; length])));
        for (from, to) in DEPTHS.iter().flat_map(|from| DEPTHS.map(|to| (*from, to))) {
            let [base, old] = [to - to / 2, from].map(|count| [b"/", &names(length, count)[..]].concat());
            let new = [names(length, to / 2), b"x".to_vec()].join(&b'/');
            let new = new.strip_prefix(b"/").unwrap_or(&new);
            let number = match old.len() {
                1025.. => 8,
                _ if from <= to => 18,
                _ => 0,
            };
            assert_eq!(Two::of(&flash).rename(&base, &old, new), number, "{from} to below {to}");
            *numbers.entry(number).or_default() += 1;
        }
    }
    println!("{numbers:?}");
    assert!(numbers[&18] > 80 && numbers[&0] > 40);
}

/// A volume with 255 files or directories and 1,024 blocks: each inode is renamed, is found there and reads as before. Never 5.
#[test]
fn every_row_of_a_full_table() {
    for first in [FILE, 1] {
        let mut flash = Flash::of(&[16_384; 4]);
        assert!(flash.root(1) && (0..255).all(|k| flash.inode(1, first + k, 0, 0, format!("{k}").as_bytes())));
        for k in 0..1024 {
            let previous = if k < 255 { NONE } else { BLOCK + k - 255 };
            assert!((1..4).any(|area| flash.block(area, BLOCK + k, 0, FILE + k % 255, previous, &k.to_le_bytes())));
        }
        let mut two = Two::of(&flash);
        for k in 0..255 {
            assert_eq!(two.rename(b"/", format!("{k}").as_bytes(), format!("/{k}.").as_bytes()), 0);
        }
        for k in (0..255).step_by(7) {
            assert_eq!(two.call(&lookup(format!("/{k}.").as_bytes()))[..2], [0, first + k]);
            assert_eq!(two.call(&lookup(format!("/{k}").as_bytes()))[0], 9);
            two.call(&Call::ReadAt { id: FILE + k, position: 0, length: 30 });
        }
        assert_eq!(two.count("ReadAt", 0), if first == FILE { 37 } else { 0 });
        assert_eq!(two.call(&Call::Collect), [0]);
        assert_eq!(two.call(&Call::Create { base: Vec::new(), path: b"/5".to_vec(), kind: 1 })[0], 5);
        assert_eq!(two.rename(b"", b"/5.", b"/5"), 0);
    }
}

/// "A damaged rename record may bring the old name back, or the answer 10": each bit of the record flipped, where the old name is free and where it
/// is another's by now.
#[test]
fn every_bit_of_the_record() {
    let mut flash = Flash::of(&[1024, 1024]);
    assert!(flash.root(1) && flash.inode(1, 1, 0, 0, b"d") && flash.inode(1, FILE, 0, 0, b"a"));
    let start = flash.offset(1) + flash.next(1);
    for again in [false, true] {
        let mut two = Two::of(&flash);
        assert_eq!(two.rename(b"", b"/a", b"/d/new"), 0);
        assert_eq!(two.call(&lookup(b"/a"))[0], 9);
        if again {
            assert_eq!(two.call(&Call::Create { base: Vec::new(), path: b"/a".to_vec(), kind: 1 }), [0, FILE + 1]);
        }
        for (byte, bit) in (start..start + 23).flat_map(|byte| (0..8).map(move |bit| (byte, bit))) {
            let whole = two.ours.image[byte];
            two.call(&Call::Damage { offset: byte, bytes: vec![whole ^ 1 << bit] });
            assert_eq!(two.call(&lookup(b"/a"))[..2], if again { [10, 0] } else { [0, FILE] });
            assert_eq!(two.call(&lookup(b"/d/new"))[0], 9);
            two.call(&Call::Damage { offset: byte, bytes: vec![whole] });
        }
        assert_eq!(two.call(&lookup(b"/d/new"))[..2], [0, FILE]);
    }
}

/// Where things lie that are moved about: each one's parent and name. The first so many are directories, the root among them.
struct Places {
    of: Vec<(usize, String)>,
    directories: usize,
}

impl Places {
    fn id(&self, k: usize) -> u32 {
        if k < self.directories {
            k as u32
        } else {
            FILE + k as u32
        }
    }

    fn path(&self, k: usize) -> String {
        let (parent, name) = &self.of[k];
        if k == 0 {
            String::new()
        } else {
            format!("{}/{name}", self.path(*parent))
        }
    }

    fn is_within(&self, k: usize, top: usize) -> bool {
        k == top || k != 0 && self.is_within(self.of[k].0, top)
    }

    /// The number of a rename of this to there, as told from the moves alone.
    fn number(&self, k: usize, to: &(usize, String)) -> u32 {
        match self.of.iter().skip(1).any(|place| place == to) {
            true => 12,
            false if self.is_within(to.0, k) => 18,
            false => 0,
        }
    }
}

/// A tree of 20 directories and 20 files moved about, collected where there is no room.
#[test]
fn a_tree_moved_about() {
    const COUNT: usize = 41;
    let mut places = Places { of: (0..COUNT).map(|k| (0, format!("n{k}"))).collect(), directories: 21 };
    let mut flash = Flash::of(&[2048; 3]);
    assert!(flash.root(1) && (1..COUNT).all(|k| flash.inode(1, places.id(k), 0, 0, places.of[k].1.as_bytes())));
    let (mut two, mut r) = (Two::of(&flash), Random::new(1));
    for turn in 0..2500 {
        let (k, to) = (r.between(1, COUNT - 1), (r.below(places.directories), format!("n{}", r.below(60))));
        let (old, new) = (places.path(k), format!("{}/{}", places.path(to.0), to.1));
        let mut number = two.rename(b"", old.as_bytes(), new.as_bytes());
        while number == 15 {
            assert_eq!(two.call(&Call::Collect), [0]);
            number = two.rename(b"", old.as_bytes(), new.as_bytes());
        }
        assert_eq!(number, places.number(k, &to), "turn {turn}: {old} to {new}");
        if number == 0 {
            places.of[k] = to;
        }
    }
    for k in 1..COUNT {
        assert_eq!(two.call(&lookup(places.path(k).as_bytes()))[..2], [0, places.id(k)]);
    }
    println!("{:?}", two.numbers);
    assert!(two.count("Rename", 0) > 1000 && two.count("Rename", 12) > 50 && two.count("Rename", 18) > 50 && two.count("Collect", 0) > 5);
}
