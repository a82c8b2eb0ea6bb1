//! The calls of a case. The maker keeps its own copy of the image and runs the
//! model on it, so that paths often hit and damage has targets.

use super::images::reserved;
use super::lists;
use super::overwrites;
use super::paths::{name, names_of, spell, spell_two};
use super::random::Random;
use super::renames;
use super::trees;
use super::{FILES, NAMES, SEQUENCES};
use crate::area;
use crate::compare::{Call, Case, Model, Side};
use crate::forge::with_reserved;
use crate::layout::{
    is_file, AreaHeader, Block, Inode, Record, FIRST_BLOCK, FIRST_FILE, NONE, ROOT,
};
use crate::mount::{
    descriptors, entries, greatest_block, mount, Fate, FileSystem, BLOCKS, INODES, SHORTEST_AREA,
};
use crate::tree;

/// A table with so few places left is about full.
const ABOUT_FULL: usize = 3;
/// So many records may name as many ids.
const MANY_RECORDS: usize = 1000;

/// The first of the numbers by which these calls are drawn.
const CREATE: usize = 44;
const APPEND: usize = 61;
const RENAME: usize = 100;
const OVERWRITE: usize = 112;
const TREE: usize = 124;
/// How many of these numbers there are.
const KINDS: usize = 130;

/// Makes the calls of a case, running the model along.
pub struct Maker {
    r: Random,
    pub case: Case,
    side: Side,
    /// What the image mounts as, if it does.
    mounted: Option<FileSystem>,
    /// The good list, when a bad one is in force.
    good: Vec<u32>,
    /// An earlier image, whose pages may come back.
    stale: Vec<u8>,
}

impl Maker {
    pub fn new(r: Random, image: Vec<u8>, areas: Vec<u32>) -> Maker {
        let case = Case { image: image.clone(), areas: areas.clone(), calls: Vec::new() };
        let side = Side::new(&case);
        let mounted = mount(&image, &areas).ok();
        Maker { r, case, side, mounted, good: areas, stale: image }
    }

    fn push(&mut self, call: Call) {
        let before = (self.side.image.clone(), self.side.areas.clone());
        self.side.perform(&Model, &call);
        self.case.calls.push(call);
        if before != (self.side.image.clone(), self.side.areas.clone()) {
            self.mount();
        }
    }

    pub fn make(&mut self) {
        self.start_list();
        if self.is_torn() || self.r.chance(5) {
            self.area_reports();
        }
        self.first_tree();
        self.populate();
        let count = self.r.between(4, 24);
        let harm = if self.r.chance(40) { 12 } else { 0 };
        for _ in 0..count {
            if self.r.chance(harm) {
                self.damage();
            }
            if self.r.chance(10) {
                self.stale = self.side.image.clone();
            }
            if self.r.chance(2) {
                self.change_list();
            }
            self.call();
        }
        let call = self.tree();
        self.push(call);
        self.push(Call::Report);
        self.area_reports();
    }

    /// Before the calls leave another tree.
    fn first_tree(&mut self) {
        if self.mounted.as_ref().is_some_and(trees::is_worth_it) || self.r.chance(5) {
            let call = self.tree();
            self.push(call);
        }
    }

    /// A bare file system gets some files first.
    fn populate(&mut self) {
        if self.live().len() == 1 {
            for _ in 0..self.r.between(2, 6) {
                let call = self.create();
                self.push(call);
                let call = self.append();
                self.push(call);
            }
        }
    }

    /// The list of the case, sometimes with a tail that isn't looked at.
    fn start_list(&mut self) {
        let mut list = lists::with_tail(&mut self.r, &self.good);
        if self.r.chance(4) {
            list = lists::strange(&mut self.r, &list, self.side.image.len());
        }
        self.case.areas.clone_from(&list);
        self.side.areas = list;
        self.mount();
    }

    /// Another order, fewer entries, a bad list, or the good one again.
    fn change_list(&mut self) {
        let mut pairs: Vec<Vec<u32>> = self.good.chunks(2).map(<[u32]>::to_vec).collect();
        match self.r.below(4) {
            0 => self.r.shuffle(&mut pairs),
            1 => {
                pairs.pop();
            }
            2 => {
                let list = lists::strange(&mut self.r, &self.good, self.side.image.len());
                return self.push(Call::Areas(list));
            }
            _ => {}
        }
        self.push(Call::Areas(pairs.concat()));
    }

    fn mount(&mut self) {
        self.mounted = mount(&self.side.image, &self.side.areas).ok();
    }

    fn call(&mut self) {
        if self.side.areas != self.good && self.r.chance(15) {
            self.push(Call::Areas(self.good.clone()));
        }
        let call = match self.kind_of_call() {
            0..=2 => Call::Report,
            3..=5 => self.area_report(),
            6..=13 => self.lookup(),
            14..=21 => self.open(),
            22..=33 => self.read(),
            34..=43 => self.read_at(),
            CREATE..=60 => self.create(),
            APPEND..=77 => self.append(),
            78..=88 => self.unlink(),
            89..=98 => Call::Collect,
            RENAME..=111 => self.rename(),
            OVERWRITE..=123 => self.overwrite(),
            TREE.. => self.tree(),
            _ => Call::Format,
        };
        self.push(call);
    }

    /// Where a table is about full, oftener a call that needs a place in it; where
    /// there are many records, oftener one that needs an id; where directories lie
    /// deep or a sequence is the last one, oftener a rename; where a file has several
    /// blocks or one of the last sequence, oftener an overwrite.
    fn kind_of_call(&mut self) -> usize {
        let (inodes, blocks) = self.places_left();
        if inodes <= ABOUT_FULL && self.r.chance(40) {
            return CREATE;
        }
        if blocks <= ABOUT_FULL && self.r.chance(70) {
            return if self.r.chance(70) { APPEND } else { OVERWRITE };
        }
        let many = |fs: &FileSystem| fs.accepted().count() > MANY_RECORDS;
        if self.mounted.as_ref().is_some_and(many) && self.r.chance(20) {
            return CREATE;
        }
        if self.mounted.as_ref().is_some_and(renames::is_worth_it) && self.r.chance(30) {
            return RENAME;
        }
        if self.mounted.as_ref().is_some_and(overwrites::is_worth_it) && self.r.chance(25) {
            return OVERWRITE;
        }
        self.r.below(KINDS)
    }

    /// How many places the tables have left; all of them if nothing mounts.
    fn places_left(&self) -> (usize, usize) {
        let Some(fs) = &self.mounted else { return (INODES, BLOCKS) };
        (INODES - fs.inodes().count(), BLOCKS - fs.blocks().count())
    }

    /// Whether an area has many stretches, which a collection would leave behind.
    fn is_torn(&self) -> bool {
        (0..self.side.areas.len() as u32 / 2).any(|index| self.stretches(index) > 16)
    }

    /// Of every entry, of those behind the end of the list, of one that isn't
    /// there and of one far beyond.
    fn area_reports(&mut self) {
        let listed = self.side.areas.len() as u32 / 2;
        for index in (0..=listed).chain([u32::MAX]) {
            let call = self.area_report_of(index);
            self.push(call);
        }
    }

    /// Of some entry, sometimes of one that stands behind the list or nowhere.
    fn area_report(&mut self) -> Call {
        let entries = entries(&self.side.areas).len();
        let index = match self.r.below(12) {
            0 => entries,
            1 => entries + 1,
            2 => self.r.pick(&[15, 16, 17, 0x100, u32::MAX as usize]),
            _ => self.r.below(entries.max(1)),
        };
        self.area_report_of(index as u32)
    }

    /// Its first damage stretch, its last, one between, one beyond them or one
    /// far beyond.
    fn area_report_of(&mut self, index: u32) -> Call {
        let stretches = self.stretches(index);
        let stretch = match self.r.below(12) {
            0 => self.r.pick(&[0x100, u32::MAX, u32::MAX]) as usize,
            1 | 2 => stretches,
            3..=5 => stretches.saturating_sub(1),
            6..=9 => self.r.below(stretches.max(1)),
            _ => 0,
        };
        Call::AreaReport { index, stretch: stretch as u32 }
    }

    /// How many damage stretches an entry has, if it is there.
    fn stretches(&self, index: u32) -> usize {
        let Side { image, areas, .. } = &self.side;
        let descriptors = descriptors(image, areas).unwrap_or_default();
        let entry = descriptors.into_iter().nth(index as usize);
        entry.map_or(0, |at| area::read(&image[at]).damage.len())
    }

    fn tree(&mut self) -> Call {
        let text = self.mounted.as_ref().map_or_else(|| b"refused".to_vec(), tree::text);
        Call::Tree { length: trees::buffer(&mut self.r, &text) }
    }

    fn lookup(&mut self) -> Call {
        let (base, path) = self.some_path(60);
        Call::Lookup { base, path }
    }

    fn open(&mut self) -> Call {
        let (base, path) = self.some_path(85);
        Call::Open { base, path }
    }

    fn create(&mut self) -> Call {
        let mut names = self.live_names(20);
        if self.r.chance(85) {
            names.push(name(&mut self.r));
        }
        let (base, path) = spell(&mut self.r, &names);
        let kind = self.r.pick(&[0, 1, 1, 1, 2, u32::MAX]);
        Call::Create { base, path, kind }
    }

    fn append(&mut self) -> Call {
        let (base, path) = self.some_path(90);
        let data = self.data();
        Call::Append { base, path, data }
    }

    fn overwrite(&mut self) -> Call {
        let r = &mut self.r;
        let (names, offset, data) = match &self.mounted {
            Some(fs) => overwrites::aim(r, fs),
            None => (vec![name(r)], r.below(9) as u32, r.bytes(3)),
        };
        let (base, path) = spell(r, &names);
        Call::Overwrite { base, path, offset, data }
    }

    fn unlink(&mut self) -> Call {
        let (base, path) = self.some_path(70);
        Call::Unlink { base, path }
    }

    /// Sometimes as the updater does: the new name's file is unlinked before.
    /// Sometimes the old name is taken again behind it.
    fn rename(&mut self) -> Call {
        let r = &mut self.r;
        let (old, new) = match &self.mounted {
            Some(fs) => renames::two_names(r, fs),
            None => (vec![name(r)], vec![name(r)]),
        };
        let (base, old, new) = spell_two(r, &old, &new);
        let rename = Call::Rename { base: base.clone(), old: old.clone(), new: new.clone() };
        match self.r.below(10) {
            0 => self.push(Call::Unlink { base, path: new }),
            1 | 2 => {
                self.push(rename);
                return Call::Create { base, path: old, kind: 1 };
            }
            _ => {}
        }
        rename
    }

    /// Data of an interesting length; sometimes it reads as records itself.
    fn data(&mut self) -> Vec<u8> {
        let smallest = greatest_block(SHORTEST_AREA as usize);
        let block = self.mounted.as_ref().map_or(smallest, FileSystem::greatest_block);
        let left = self.places_left().1;
        let longer = self.has_longer_blocks(block);
        let r = &mut self.r;
        if left <= ABOUT_FULL && r.chance(60) {
            let fitting = left * block;
            let length = r.pick(&[0, 1, fitting, fitting + 1, fitting + block]);
            return r.bytes(length);
        }
        if longer && r.chance(25) {
            let length = r.between(block + 1, 2 * block);
            return r.bytes(length);
        }
        let length = match r.below(80) {
            0 => r.pick(&[8194, 9000, 65_535, 65_536, 70_000]),
            1..=4 => 0,
            5..=8 => 8192,
            9..=12 => 8193,
            13..=16 => r.pick(&[block - 1, block, block + 1]),
            17..=20 => 2 * block + r.below(3) - 1,
            21..=24 => r.between(1, 4 * block),
            _ => r.between(1, 30),
        };
        if r.chance(12) {
            let inode = Inode::new(r.pick(&FILES), r.pick(&SEQUENCES), ROOT, r.pick(&NAMES));
            let block = Block::new(FIRST_BLOCK + 9, 0, r.pick(&FILES), NONE, b"within");
            return [inode.bytes(), block.bytes()].concat();
        }
        if r.chance(10) {
            return vec![0xff; length];
        }
        r.bytes(length)
    }

    /// Whether there are blocks longer than a writer makes now: then two pieces
    /// are appended oftener.
    fn has_longer_blocks(&self, greatest: usize) -> bool {
        let longer = |fs: &FileSystem| fs.blocks().any(|block| block.data.len() > greatest);
        self.mounted.as_ref().is_some_and(longer)
    }

    /// The handle is set anew now and then.
    fn read(&mut self) -> Call {
        if self.r.chance(25) {
            let (id, position) = self.id_and_position();
            self.push(Call::Handle { id, position });
        }
        if !is_file(self.side.handle.id) && self.r.chance(80) {
            let call = self.open();
            self.push(call);
        }
        let length = self.buffer_length(self.side.handle.id);
        Call::Read { length }
    }

    fn read_at(&mut self) -> Call {
        let (id, position) = self.id_and_position();
        let length = self.buffer_length(id);
        Call::ReadAt { id, position, length }
    }

    fn size(&self, id: u32) -> usize {
        let Some(fs) = &self.mounted else { return 0 };
        crate::file::contents(fs, id)
            .map_or(3, |blocks| blocks.iter().map(|block| block.data.len()).sum())
    }

    fn buffer_length(&mut self, id: u32) -> usize {
        let size = self.size(id);
        match self.r.below(50) {
            0 => self.r.pick(&[8192, 8193, 9000, 65_536, 70_000]),
            1..=10 => self.r.below(3),
            11..=20 => size,
            21..=30 => size + 1,
            _ => self.r.below(size + 20),
        }
    }

    fn id_and_position(&mut self) -> (u32, u32) {
        let live: Vec<u32> = self.live().into_iter().filter(|id| is_file(*id)).collect();
        let r = &mut self.r;
        let id = if !live.is_empty() && r.chance(85) {
            r.pick(&live)
        } else {
            r.pick(&[ROOT, 1, FIRST_FILE, FIRST_FILE + 1, 0x7fff_ffff, FIRST_BLOCK, NONE])
        };
        let size = self.size(id);
        let position = match self.r.below(10) {
            0 => size,
            1 => size + 1,
            2 => u32::MAX as usize,
            3 => 0,
            _ => self.r.below(size + 1),
        };
        (id, position as u32)
    }

    fn live(&self) -> Vec<u32> {
        let Some(fs) = &self.mounted else { return Vec::new() };
        fs.inodes().map(|inode| inode.id).filter(|id| fs.fate(*id) == Fate::Live).collect()
    }

    /// The names of a live inode's path; `files` is the share of files.
    fn live_names(&mut self, files: usize) -> Vec<Vec<u8>> {
        let live = self.live();
        let Some(fs) = &self.mounted else { return vec![name(&mut self.r)] };
        let wants_file = self.r.chance(files);
        let of_kind: Vec<u32> =
            live.iter().copied().filter(|id| is_file(*id) == wants_file).collect();
        let id = if of_kind.is_empty() { self.r.pick(&live) } else { self.r.pick(&of_kind) };
        names_of(fs, id)
    }

    /// Mostly the path of something live, sometimes of nothing, sometimes bad.
    fn some_path(&mut self, files: usize) -> (Vec<u8>, Vec<u8>) {
        let mut names = self.live_names(files);
        if self.r.chance(10) {
            names.push(name(&mut self.r));
        }
        if self.r.chance(6) {
            names = (0..self.r.between(0, 3)).map(|_| name(&mut self.r)).collect();
        }
        spell(&mut self.r, &names)
    }

    /// Bytes overwritten: inside a record, oftener of a rename or of an overwrite
    /// where there is one, a header, free space, the scratch area or anywhere; or an
    /// earlier page comes back.
    fn damage(&mut self) {
        let length = self.side.image.len();
        if length == 0 {
            return;
        }
        if self.r.chance(15) {
            let offset = self.r.below(length);
            let end = (offset + self.r.between(1, 64)).min(length);
            let bytes = self.stale[offset..end].to_vec();
            return self.push(Call::Damage { offset, bytes });
        }
        if self.r.chance(8) {
            if let Some((offset, bytes)) = self.reserve() {
                return self.push(Call::Damage { offset, bytes });
            }
        }
        if self.r.chance(35) {
            if let Some((offset, bytes)) = self.torn_record() {
                return self.push(Call::Damage { offset, bytes });
            }
        }
        let offset = self.target().min(length - 1);
        let old = self.side.image[offset];
        let bytes = match self.r.below(4) {
            0 => vec![old ^ 1 << self.r.below(8)],
            1 => vec![self.r.draw() as u8],
            2 => {
                let length = self.r.between(1, 24);
                self.r.bytes(length)
            }
            _ => vec![self.r.pick(&[0, 0xff]); self.r.between(1, 24)],
        };
        self.push(Call::Damage { offset, bytes });
    }

    /// A bit of the record of a rename or of an overwrite.
    fn torn_record(&mut self) -> Option<(usize, Vec<u8>)> {
        let (r, fs) = (&mut self.r, self.mounted.as_ref()?);
        let overwritten = if r.chance(40) { overwrites::rewritten(r, fs) } else { None };
        let record = overwritten.or_else(|| renames::renamed(r, fs))?;
        let offset = record.start + self.r.below(record.len());
        Some((offset, vec![self.side.image[offset] ^ 1 << self.r.below(8)]))
    }

    /// The reserved byte of an inode, its check mended, or of a header.
    fn reserve(&mut self) -> Option<(usize, Vec<u8>)> {
        let fs = self.mounted.clone()?;
        let area = self.r.pick(&fs.file_areas);
        let reserved = reserved(&mut self.r);
        let header = match self.r.below(10) {
            0 | 1 => area.at.start,
            2 => fs.scratch.at.start,
            _ => {
                let inodes = area.reading.records.iter().filter(|t| t.record.inode().is_some());
                let inodes: Vec<_> = inodes.collect();
                let taken = inodes.get(self.r.below(inodes.len().max(1)))?;
                let bytes = with_reserved(&taken.record.bytes(), reserved);
                let from = Inode::RESERVED_AT;
                let offset = area.at.start + taken.offset + from;
                return Some((offset, bytes[from..Inode::HEADER].to_vec()));
            }
        };
        Some((header + AreaHeader::RESERVED_AT, vec![reserved]))
    }

    fn target(&mut self) -> usize {
        let length = self.side.image.len();
        let Some(fs) = self.mounted.clone() else { return self.r.below(length) };
        let area = self.r.pick(&fs.file_areas);
        let start = area.at.start;
        match self.r.below(20) {
            0 => start + self.r.below(24),
            1 => fs.scratch.at.start + self.r.below(fs.scratch.at.len()),
            2 => self.r.below(length),
            3 => start + area.reading.free + self.r.below(2),
            4 => start + area.reading.free + self.r.below(40),
            _ if area.reading.records.is_empty() => self.r.below(length),
            _ => {
                let taken = self.r.pick(&area.reading.records);
                start + taken.offset + self.inside(&taken.record)
            }
        }
    }

    /// An offset in a record: its length field, its check, or anywhere.
    fn inside(&mut self, record: &Record) -> usize {
        let (length_at, check) = match record {
            Record::Inode(_) => (17, Inode::CHECK),
            Record::Block(_) => (20, Block::CHECK),
        };
        match self.r.below(5) {
            0 | 1 => length_at,
            2 => check,
            _ => self.r.below(record.size()),
        }
    }
}
