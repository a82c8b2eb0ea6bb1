//! Trees to list, and buffers for their text (T-07).

use super::images::{place, write_headers};
use super::large::side_by_side;
use super::listed::depth;
use super::random::Random;
use crate::forge::Flash;
use crate::layout::{is_directory, AreaHeader, Block, Inode, FIRST_BLOCK, FIRST_FILE, NONE, ROOT};
use crate::mount::{FileSystem, DESCRIPTORS, IMAGE, INODES};
use crate::tree::DEEPER;

/// Bytes about which names sort: control characters, those about a newline and about
/// `/`, letters, and those from 7F on.
const BYTES: [u8; 16] =
    [1, 9, b'\n', b'\n', b'\n', 0x0b, b' ', b'-', b'.', b'0', b'a', b'b', 0x7f, 0x80, 0xc3, 0xff];

/// A buffer that a listing of any volume fits in.
const ENOUGH: usize = 102_400;

/// So many live inodes are many.
const MANY: usize = 200;

/// Records of a tree that grows.
struct Grown {
    records: Vec<Vec<u8>>,
    /// Directories that may get entries.
    open: Vec<u32>,
    /// Ids to be used, from the last one on.
    directories: Vec<u32>,
    files: Vec<u32>,
    block: u32,
}

impl Grown {
    /// The root, with so many ids of each kind to be used, in any order.
    fn new(r: &mut Random, ids: u32) -> Grown {
        let mut directories: Vec<u32> = (1..=ids).collect();
        let mut files: Vec<u32> = (FIRST_FILE..FIRST_FILE + ids).collect();
        if r.chance(80) {
            r.shuffle(&mut directories);
            r.shuffle(&mut files);
        }
        let records = vec![Inode::new(ROOT, 0, NONE, b"").bytes()];
        Grown { records, open: vec![ROOT], directories, files, block: FIRST_BLOCK }
    }

    fn put(&mut self, inode: &Inode) {
        self.records.push(inode.bytes());
    }

    /// A directory in some open one.
    fn directory(&mut self, r: &mut Random, name: &[u8]) -> u32 {
        let parent = r.pick(&self.open);
        self.directory_in(r, parent, name)
    }

    fn directory_in(&mut self, r: &mut Random, parent: u32, name: &[u8]) -> u32 {
        let id = self.directories.pop().unwrap_or(0x0fff_fff0);
        self.inode(r, id, parent, name);
        self.open.push(id);
        id
    }

    /// A file in some open directory, with a few blocks, which sometimes are no chain.
    fn file(&mut self, r: &mut Random, name: &[u8]) -> u32 {
        let (id, parent) = (self.files.pop().unwrap_or(0x7fff_fff0), r.pick(&self.open));
        self.inode(r, id, parent, name);
        let mut previous = NONE;
        for _ in 0..r.pick(&[0, 0, 1, 1, 2, 3]) {
            let length = r.pick(&[1, 2, 5, 7, 10, 10, 33, 90, 100]);
            let before = if r.chance(6) { self.block + 7 } else { previous };
            self.records.push(Block::new(self.block, 0, id, before, &vec![b'x'; length]).bytes());
            previous = self.block;
            self.block += 1;
        }
        id
    }

    /// Sometimes it had another name or lay elsewhere before.
    fn inode(&mut self, r: &mut Random, id: u32, parent: u32, name: &[u8]) {
        let earlier = r.chance(8);
        if earlier {
            let elsewhere = r.pick(&self.open);
            let old = r.pick(&[b"old".to_vec(), name.to_vec()]);
            self.put(&Inode::new(id, 0, elsewhere, &old));
        }
        self.put(&Inode::new(id, 1, parent, name));
    }

    /// A file or a directory.
    fn either(&mut self, r: &mut Random, directories: usize, name: &[u8]) -> u32 {
        if r.chance(directories) {
            self.directory(r, name)
        } else {
            self.file(r, name)
        }
    }

    /// The last open directory had an entry, which was deleted or moved to the root, and
    /// gets no other.
    fn left(&mut self, r: &mut Random) {
        let ids = if r.chance(50) { &mut self.directories } else { &mut self.files };
        let id = ids.pop().unwrap_or(FIRST_FILE);
        let parent = self.open.pop().unwrap_or(ROOT);
        self.put(&Inode::new(id, 0, parent, b"left"));
        self.put(&Inode::new(id, 1, r.pick(&[NONE, ROOT]), b"left"));
    }

    /// What is absent from a listing: deleted inodes with what lies below them, a loop
    /// with a file in it, and files and directories whose parent has no record.
    fn absent(&mut self, r: &mut Random, made: &[u32], deleted: usize) {
        for id in made {
            if r.chance(deleted) {
                self.put(&Inode::new(*id, r.pick(&[2, 9]), NONE, r.pick(&[&b""[..], b"gone"])));
            }
        }
        if r.chance(25) {
            let (a, b) = (0x0fff_0001, r.pick(&[0x0fff_0001, 0x0fff_0002]));
            self.put(&Inode::new(a, 0, b, b"loop"));
            self.put(&Inode::new(0x0fff_0002, 0, a, b"loop"));
            self.put(&Inode::new(0x7fff_0001, 0, b, b"in the loop"));
        }
        if r.chance(25) {
            self.put(&Inode::new(0x0fff_0003, 0, 0x0fff_0004, b"lost"));
            self.put(&Inode::new(0x7fff_0002, 0, 0x0fff_0003, b"below the lost"));
        }
    }

    /// Into the areas but scratch, in some order; the root stays first, mostly.
    fn laid(mut self, r: &mut Random, mut flash: Flash) -> Flash {
        let scratch = write_headers(r, &mut flash);
        let areas: Vec<usize> =
            (0..flash.areas.len() / 2).filter(|area| *area != scratch).collect();
        match r.below(3) {
            0 => self.records.reverse(),
            1 => r.shuffle(&mut self.records[1..]),
            _ => {}
        }
        for record in self.records {
            let _ = areas.iter().any(|area| flash.put(*area, &record));
        }
        flash
    }

    /// Two or three areas, one of them scratch, with room for all and for some more.
    fn in_areas(self, r: &mut Random) -> Flash {
        let bytes: usize = self.records.iter().map(Vec::len).sum();
        let more = r.pick(&[0, 40, 300]);
        let length = (AreaHeader::SIZE + bytes + more).max(128);
        let lengths =
            if r.chance(70) { vec![length; 2] } else { vec![length, length / 2 + 300, length] };
        let flash = place(r, &lengths);
        self.laid(r, flash)
    }
}

/// A name near a stem: the stem, a beginning of it, more than it, or one of its bytes
/// another.
fn near(r: &mut Random, stem: &[u8]) -> Vec<u8> {
    let mut name = stem.to_vec();
    match r.below(8) {
        0 => {}
        1 => name.truncate(r.between(1, stem.len())),
        2 | 3 => name.push(r.pick(&BYTES)),
        4 => name.extend([r.pick(&BYTES), r.pick(&BYTES)]),
        5 => name = vec![r.pick(&BYTES)],
        _ => {
            let at = r.below(name.len());
            name[at] = r.pick(&BYTES);
        }
    }
    name.truncate(255);
    name
}

/// A few directories and files whose names begin each other, are equal, or differ in
/// bytes about a newline and from 7F on.
pub fn names(r: &mut Random) -> Flash {
    let long = vec![b'n'; r.pick(&[250, 253, 254, 255, 255])];
    let stem =
        if r.chance(12) { long } else { r.pick(&[&b"a"[..], b"ab", b"a\n", b"dose"]).to_vec() };
    let mut grown = Grown::new(r, 16);
    let mut made = Vec::new();
    for _ in 0..r.between(2, 14) {
        let name = near(r, &stem);
        made.push(grown.either(r, 45, &name));
    }
    grown.absent(r, &made, 7);
    grown.in_areas(r)
}

/// Directories one below the other down to about depth 64, and a few more and files
/// among the last of them.
pub fn depths(r: &mut Random) -> Flash {
    let mut grown = Grown::new(r, INODES as u32 / 2);
    let left = r.chance(25);
    let chain = if left { DEEPER - 1 } else { r.between(DEEPER - 5, DEEPER + 2) };
    for _ in 0..chain {
        let last = grown.open[grown.open.len() - 1];
        grown.directory_in(r, last, b"d");
    }
    if left {
        grown.left(r);
    }
    grown.open = grown.open.split_off(grown.open.len() - r.between(2, 5));
    let mut made = Vec::new();
    for _ in 0..r.between(0, 12) {
        let name = near(r, b"d");
        made.push(grown.either(r, 60, &name));
    }
    grown.absent(r, &made, 20);
    grown.in_areas(r)
}

/// As many inodes as the table has places or a few fewer, all over the tree.
pub fn full(r: &mut Random) -> Flash {
    let mut grown = Grown::new(r, INODES as u32);
    let directories = r.pick(&[3, 30, 60, 100]);
    for _ in 0..INODES - r.pick(&[1, 1, 1, 2, 5]) {
        let name = near(r, b"ab");
        grown.either(r, directories, &name);
    }
    grown.in_areas(r)
}

/// A whole volume of long names, deep in the tree, so that the text has more bytes than
/// a number of 16 bits tells. The names are as long as 17 in each file area may be.
pub fn long(r: &mut Random) -> Flash {
    let mut grown = Grown::new(r, INODES as u32);
    let chain = r.between(45, DEEPER - 2);
    let name = |k: usize| [&[b'n'; 216][..], &[b'0' + (k % 64) as u8]].concat();
    for k in 1..INODES {
        let last = grown.open[grown.open.len() - 1];
        let is_directory = k <= chain;
        let ids = if is_directory { &mut grown.directories } else { &mut grown.files };
        let id = ids.pop().unwrap_or(FIRST_FILE);
        grown.put(&Inode::new(id, 0, last, &name(k)));
        grown.open.extend(is_directory.then_some(id));
    }
    let lengths = [IMAGE / DESCRIPTORS; DESCRIPTORS];
    let flash = Flash::over(vec![0xff; IMAGE], side_by_side(&lengths));
    grown.laid(r, flash)
}

/// Whether a listing has something that other images seldom have: an inode about depth
/// 64, many inodes, or names with other bytes than letters.
pub fn is_worth_it(fs: &FileSystem) -> bool {
    let odd = |byte: &u8| *byte == b'\n' || *byte > 0x7f;
    let worth_it = |inode: &Inode| {
        inode.name.iter().any(odd) || is_directory(inode.id) && depth(fs, inode.id) + 1 >= DEEPER
    };
    fs.inodes().count() > MANY || fs.inodes().any(worth_it)
}

/// The length of a buffer for a text: none, all, a byte less or more, up to a line's
/// end or within a line, or enough for any.
pub fn buffer(r: &mut Random, text: &[u8]) -> usize {
    let whole = text.len();
    let ends: Vec<usize> = (0..whole).filter(|at| text[*at] == b'\n').collect();
    match r.below(40) {
        0..=2 => 0,
        3..=8 => whole,
        9..=14 => whole.saturating_sub(1),
        15..=17 => whole + 1,
        18..=25 => r.below(whole + 1),
        26..=28 => ends.get(r.below(ends.len().max(1))).map_or(0, |end| end + r.below(2)),
        29..=31 => whole.saturating_sub(r.between(2, 9)),
        32 => r.pick(&[IMAGE, ENOUGH]),
        _ => whole + r.between(1, 60),
    }
}
