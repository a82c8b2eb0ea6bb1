//! Damage inside records, the files that it spares, and what an engine must
//! answer of these before and after: the words of demand 3.

use crate::area::{self, Taken};
use crate::area_report;
use crate::compare::{Engine, Side};
use crate::forge::with_reserved;
use crate::generate::Random;
use crate::layout::{is_file, Inode, Record, ROOT};
use crate::mount::{descriptors, Fate, FileArea, FileSystem};
use crate::path;
use crate::refusal::Refusal;
use crate::{AreaReport, Handle, Read};

/// Each record touched, and the number of its file area.
pub type Touched = Vec<(usize, Taken)>;

/// Overwrites bytes in some records. The records touched, or none if an
/// acceptable record then starts inside one.
pub fn overwrite(r: &mut Random, fs: &FileSystem, image: &mut [u8]) -> Option<Touched> {
    let mut touched = Vec::new();
    for (i, area) in fs.file_areas.iter().enumerate() {
        for taken in &area.reading.records {
            if !r.chance(10) {
                continue;
            }
            let start = area.at.start + taken.offset;
            let bytes = &mut image[start..start + taken.record.size()];
            if taken.record.inode().is_some() && r.chance(10) {
                reserve(bytes, r.between(1, 255) as u8);
            } else {
                scribble(r, bytes);
            }
            if bytes != taken.record.bytes() {
                touched.push((i, taken.clone()));
            }
        }
    }
    let inside = |(i, taken): &(usize, Taken)| {
        let area = &image[fs.file_areas[*i].at.clone()];
        (taken.offset..taken.offset + taken.record.size())
            .any(|at| Record::acceptable(&area[at..]).is_some())
    };
    (!touched.iter().any(inside)).then_some(touched)
}

/// An inode that is unacceptable by its reserved byte alone, its check being
/// right: "demand 3 reads the new rule" (document 02, T-14).
pub fn reserve(inode: &mut [u8], reserved: u8) {
    let altered = with_reserved(inode, reserved);
    inode.copy_from_slice(&altered);
}

/// "whatever is written": flipped bits, one byte over and over, or any bytes.
fn scribble(r: &mut Random, bytes: &mut [u8]) {
    let from = r.below(bytes.len());
    let to = r.between(from, bytes.len() - 1);
    match r.below(8) {
        0 => bytes[from..=to].fill(0xff),
        1 => bytes.fill(r.pick(&[0, 0xff])),
        2 => bytes[from..=to].iter_mut().for_each(|byte| *byte = r.draw() as u8),
        _ => (0..r.between(1, 4)).for_each(|_| bytes[r.below(to + 1)] ^= 1 << r.below(8)),
    }
}

fn untouched<'a>(
    fs: &'a FileSystem,
    touched: &'a Touched,
    area: usize,
) -> impl Iterator<Item = &'a Taken> {
    let records = fs.file_areas[area].reading.records.iter();
    records.filter(move |taken| !touched.iter().any(|(i, other)| *i == area && other == *taken))
}

/// Asserts that "each file area reads as exactly its untouched records, in
/// order, at their old places".
pub fn reads_as_untouched(before: &FileSystem, image: &[u8], touched: &Touched) {
    for (i, file_area) in before.file_areas.iter().enumerate() {
        let now = area::read(&image[file_area.at.clone()]).records;
        assert!(now.iter().eq(untouched(before, touched, i)), "file area {i}");
    }
}

/// The number that mounting answers after the damage. Areas and headers are as
/// they were, and each file area reads as its untouched records: of checks 1 to
/// 7 only "no record of id 0" can fail now.
pub fn mount_number(before: &FileSystem, touched: &Touched) -> u32 {
    let mut left = (0..before.file_areas.len()).flat_map(|i| untouched(before, touched, i));
    if left.any(|taken| taken.record.id() == ROOT) {
        0
    } else {
        Refusal::NoRoot.number()
    }
}

/// Asserts where an engine says that the damage is (T-08): in each file area as
/// `area_tells` has it, and in the report the first of these.
pub fn tells_where(engine: &dyn Engine, before: &FileSystem, after: &Side, touched: &Touched) {
    let Side { image, areas, .. } = after;
    let list = descriptors(image, areas).unwrap_or_default();
    let mut first = None;
    for (i, area) in before.file_areas.iter().enumerate() {
        let index = list.iter().position(|at| *at == area.at).expect("its descriptor");
        let told = engine.area_report(image, areas, index as u32, 0);
        let gone = touched.iter().filter(|(at, _)| *at == i).map(|(_, taken)| taken);
        area_tells(&told, area, &gone.collect::<Vec<&Taken>>());
        if told.stretches > 0 {
            first = first.or(Some((area.at.start as u32 + told.offset, told.length)));
        }
    }
    let report = engine.report(image, areas);
    if report.number == 0 {
        assert_eq!((report.first_offset, report.first_length), first.unwrap_or_default());
    }
}

/// Of an area that was clean: the untouched records are taken, all bytes of the
/// others are damage or free, and the first stretch starts where the first of
/// these did. There may be none, for FF up to the area's end is free.
fn area_tells(told: &AreaReport, before: &FileArea, gone: &[&Taken]) {
    let bytes: usize = gone.iter().map(|taken| taken.record.size()).sum();
    let old_free = before.at.len() - before.reading.free;
    assert_eq!((told.number, told.kind), (0, area_report::FILE));
    assert_eq!(told.records as usize, before.reading.records.len() - gone.len());
    assert_eq!((told.skipped + told.free) as usize, old_free + bytes);
    assert!(told.stretches == 0 || told.offset as usize == gone[0].offset);
}

/// A live inode and its ancestors, itself first.
fn lineage(fs: &FileSystem, id: u32) -> Vec<Inode> {
    let counting = |id: u32| fs.inodes().find(|inode| inode.id == id).cloned();
    let mut chain: Vec<Inode> = counting(id).into_iter().collect();
    while let Some(parent) = chain.last().filter(|at| at.id != 0).map(|at| at.parent) {
        chain.extend(counting(parent));
    }
    chain
}

/// The live files of which no record was touched: of any version of itself, of
/// its ancestors, and of any block that some version gives to it.
pub fn spared(fs: &FileSystem, touched: &Touched) -> Vec<u32> {
    let touched: Vec<u32> = touched.iter().map(|(_, taken)| taken.record.id()).collect();
    let is_spared = |id: u32| {
        let chain = lineage(fs, id).into_iter().map(|inode| inode.id);
        let blocks = fs.accepted().filter_map(Record::block).filter(|block| block.owner == id);
        !chain.chain(blocks.map(|block| block.id)).any(|id| touched.contains(&id))
    };
    let live = fs.inodes().map(|inode| inode.id).filter(|id| fs.fate(*id) == Fate::Live);
    live.filter(|id| is_file(*id) && is_spared(*id)).collect()
}

/// Some of these files, spread over them: each takes many calls to ask about,
/// and of a full table there are hundreds.
pub fn some_of(files: &[u32]) -> Vec<u32> {
    files.iter().copied().step_by(files.len().div_ceil(8).max(1)).collect()
}

/// Base and path in each way to spell a live inode's path: absolute, or below
/// a base of some of its names. Those over the limits are left out.
fn spellings(fs: &FileSystem, id: u32) -> Vec<(Vec<u8>, Vec<u8>)> {
    let chain = lineage(fs, id);
    let names: Vec<&[u8]> = chain.iter().rev().skip(1).map(|at| &at.name[..]).collect();
    let absolute = |names: &[&[u8]]| [b"/", &names.join(&b'/')[..]].concat();
    let below = (0..names.len()).map(|at| (absolute(&names[..at]), names[at..].join(&b'/')));
    let all = below.chain([(Vec::new(), absolute(&names))]);
    all.filter(|(base, path)| base.len().max(path.len()) <= path::PATH).collect()
}

/// Whether a name on the old path belongs to two or more live children now.
fn is_ambiguous(old: &FileSystem, new: &FileSystem, id: u32) -> bool {
    let chain = lineage(old, id);
    chain.iter().filter(|at| at.id != 0).any(|at| {
        let same = new.inodes().filter(|other| {
            other.id != 0
                && (other.parent, &other.name) == (at.parent, &at.name)
                && new.fate(other.id) == Fate::Live
        });
        same.count() > 1
    })
}

/// A read by id and one by handle: answers, buffers and the handle.
fn reads(
    engine: &dyn Engine,
    side: &Side,
    mut handle: Handle,
    length: usize,
) -> (Read, Vec<u8>, Read, Vec<u8>, Handle) {
    let mut buffer: Vec<u8> = (0..length).map(|i| (i * 7 + 13) as u8).collect();
    let mut other = buffer.clone();
    let (Handle { id, position }, Side { image, areas, .. }) = (handle, side);
    let by_id = engine.read_at(image, areas, id, position, &mut buffer);
    let by_handle = engine.read(image, areas, &mut handle, &mut other);
    (by_id, buffer, by_handle, other, handle)
}

/// Asserts what an engine answers of one spared file: reads as before; lookup
/// and open of its path refused as ambiguous exactly when they must be, and
/// otherwise this file. `old` and `new` are the two mounts. Whether the path is
/// ambiguous.
pub fn answers_stay(
    engine: &dyn Engine,
    (before, old): (&Side, &FileSystem),
    (after, new): (&Side, &FileSystem),
    id: u32,
) -> bool {
    for (position, length) in
        [(0, 0), (0, 1), (0, 20_000), (1, 7), (9, 4096), (3000, 3000), (u32::MAX, 1)]
    {
        let handle = Handle { id, position };
        let alike = reads(engine, before, handle, length) == reads(engine, after, handle, length);
        assert!(alike, "read of {id:x} at {position}");
    }
    let ambiguous = is_ambiguous(old, new, id);
    let spellings = spellings(old, id);
    let (number, id, kind) = if ambiguous { (10, 0, 0) } else { (0, id, 1) };
    for (base, path) in spellings {
        let found = engine.lookup(&after.image, &after.areas, &base, &path);
        let opened = engine.open(&after.image, &after.areas, &base, &path);
        assert_eq!((found.number, found.id, found.kind), (number, id, kind));
        assert_eq!((opened.number, opened.id, opened.position), (number, id, 0));
    }
    ambiguous
}
