//! "What a call is given", checks 1 to 7, "What counts" and the report.

use std::collections::{BTreeMap, BTreeSet};
use std::ops::Range;

use crate::area::{self, Reading, Stretch};
use crate::layout::{is_block, AreaHeader, Block, Inode, Record, BLOCK_DATA, ROOT};
use crate::refusal::Refusal;
use crate::Report;

/// "An image: 0 to 65,536 bytes".
pub const IMAGE: usize = 65_536;
/// "descriptors to 16" (document 02, T-06).
pub const DESCRIPTORS: usize = 16;
/// "each length 128 to 65,536".
pub const SHORTEST_AREA: u64 = 128;
pub const LONGEST_AREA: u64 = 65_536;
/// "Raise inodes to 256, blocks to 1,024" (document 02, T-06).
pub const INODES: usize = 256;
pub const BLOCKS: usize = 1024;

/// A good descriptor: the bytes of the image that it describes.
pub type Descriptor = Range<usize>;

/// "The list ends at the first length 0 or at its end; later entries aren't
/// looked at." An odd last number isn't looked at either.
pub fn entries(areas: &[u32]) -> Vec<(u64, u64)> {
    areas
        .chunks_exact(2)
        .map(|pair| (u64::from(pair[0]), u64::from(pair[1])))
        .take_while(|(_, length)| *length != 0)
        .collect()
}

/// Check 1: 1 to 16 entries (document 02, T-06), "each length 128 to 65,536,
/// each wholly inside the image, no two overlapping."
pub fn descriptors(image: &[u8], areas: &[u32]) -> Result<Vec<Descriptor>, Refusal> {
    let entries = entries(areas);
    let count = (1..=DESCRIPTORS).contains(&entries.len());
    let each = entries.iter().all(|(offset, length)| {
        (SHORTEST_AREA..=LONGEST_AREA).contains(length) && offset + length <= image.len() as u64
    });
    if image.len() > IMAGE || !count || !each || overlap(&entries) {
        return Err(Refusal::Descriptors);
    }
    Ok(entries
        .iter()
        .map(|(offset, length)| *offset as usize..(offset + length) as usize)
        .collect())
}

fn overlap(entries: &[(u64, u64)]) -> bool {
    entries.iter().enumerate().any(|(i, (a, a_length))| {
        entries[..i].iter().any(|(b, b_length)| *a < b + b_length && *b < a + a_length)
    })
}

/// A descriptor with a valid header.
#[derive(Clone, Debug)]
pub struct Area {
    pub at: Descriptor,
    pub header: AreaHeader,
}

/// A file area as it reads.
#[derive(Clone, Debug)]
pub struct FileArea {
    pub at: Descriptor,
    pub header: AreaHeader,
    pub reading: Reading,
}

/// An inode "is live when ... lead to the root", "dead when that chain meets a
/// deletion record", "Otherwise it is an orphan."
#[derive(Clone, Copy, Debug, PartialEq, Eq)]
pub enum Fate {
    Live,
    Dead,
    Orphan,
}

/// A mounted file system: what checks 1 to 7 found, and the records that count.
#[derive(Clone, Debug)]
pub struct FileSystem {
    /// In descriptor order.
    pub file_areas: Vec<FileArea>,
    pub scratch: Area,
    /// For each id "the one with the greatest sequence among all records in
    /// file areas".
    counting: BTreeMap<u32, Record>,
}

/// Checks 1 to 7, in order.
pub fn mount(image: &[u8], areas: &[u32]) -> Result<FileSystem, Refusal> {
    let descriptors = descriptors(image, areas)?;
    let valid = valid_areas(image, &descriptors);
    let (scratches, files): (Vec<Area>, Vec<Area>) =
        valid.into_iter().partition(|area| area.header.is_scratch());
    no_shared_id(&files)?;
    let [scratch] = &scratches[..] else { return Err(Refusal::Areas) };
    if files.is_empty() {
        return Err(Refusal::Areas);
    }
    if files.iter().any(|file| file.at.len() > scratch.at.len()) {
        return Err(Refusal::ShortScratch);
    }
    let file_areas: Vec<FileArea> = files.iter().map(|area| read(image, area)).collect();
    let counting = counting(&file_areas)?;
    Ok(FileSystem { file_areas, scratch: scratch.clone(), counting })
}

/// "A descriptor without a valid header is passed over", its contents too.
fn valid_areas(image: &[u8], descriptors: &[Descriptor]) -> Vec<Area> {
    let area = |at: &Descriptor| {
        let header = AreaHeader::valid(&image[at.clone()])?;
        Some(Area { at: at.clone(), header })
    };
    descriptors.iter().filter_map(area).collect()
}

/// Check 2.
fn no_shared_id(files: &[Area]) -> Result<(), Refusal> {
    let ids: BTreeSet<u8> = files.iter().map(|area| area.header.id).collect();
    if ids.len() < files.len() {
        return Err(Refusal::SharedAreaId);
    }
    Ok(())
}

fn read(image: &[u8], area: &Area) -> FileArea {
    let reading = area::read(&image[area.at.clone()]);
    FileArea { at: area.at.clone(), header: area.header, reading }
}

fn accepted(file_areas: &[FileArea]) -> impl Iterator<Item = &Record> {
    file_areas.iter().flat_map(|area| area.reading.records.iter().map(|taken| &taken.record))
}

/// Checks 5 to 7, and the record that counts for each id.
fn counting(file_areas: &[FileArea]) -> Result<BTreeMap<u32, Record>, Refusal> {
    let ids: BTreeSet<u32> = accepted(file_areas).map(Record::id).collect();
    tables_hold(&ids, 0, 0)?;
    no_clash(file_areas)?;
    if !ids.contains(&ROOT) {
        return Err(Refusal::NoRoot);
    }
    Ok(greatest(file_areas))
}

/// Check 5 with the limits of document 02, T-06; also for a write, "with the new records counted in".
fn tables_hold(ids: &BTreeSet<u32>, new_inodes: usize, new_blocks: usize) -> Result<(), Refusal> {
    let blocks = ids.iter().filter(|id| is_block(**id)).count();
    let inodes = ids.len() - blocks;
    if inodes + new_inodes > INODES || blocks + new_blocks > BLOCKS {
        return Err(Refusal::Tables);
    }
    Ok(())
}

/// Check 6, about any two versions, the counting ones and the others. The
/// fields of accepted records are equal just when all their bytes are.
fn no_clash(file_areas: &[FileArea]) -> Result<(), Refusal> {
    let mut versions: BTreeMap<(u32, u32), &Record> = BTreeMap::new();
    for record in accepted(file_areas) {
        let version = (record.id(), record.sequence());
        let first = *versions.entry(version).or_insert(record);
        if first != record {
            return Err(Refusal::Clash);
        }
    }
    Ok(())
}

/// "The record that counts for an id is the one with the greatest sequence".
/// Where two have it, they are equal by check 6.
fn greatest(file_areas: &[FileArea]) -> BTreeMap<u32, Record> {
    let mut counting: BTreeMap<u32, Record> = BTreeMap::new();
    for record in accepted(file_areas) {
        let old = counting.get(&record.id());
        let newer = old.is_none_or(|old| old.sequence() < record.sequence());
        if newer {
            counting.insert(record.id(), record.clone());
        }
    }
    counting
}

impl FileSystem {
    /// All accepted records, whichever version, in order of area and place.
    pub fn accepted(&self) -> impl Iterator<Item = &Record> {
        accepted(&self.file_areas)
    }

    pub fn counting(&self, id: u32) -> Option<&Record> {
        self.counting.get(&id)
    }

    /// The counting inode records, by id.
    pub fn inodes(&self) -> impl Iterator<Item = &Inode> {
        self.counting.values().filter_map(Record::inode)
    }

    /// The counting block records, by id.
    pub fn blocks(&self) -> impl Iterator<Item = &Block> {
        self.counting.values().filter_map(Record::block)
    }

    pub fn inode(&self, id: u32) -> Option<&Inode> {
        self.counting(id).and_then(Record::inode)
    }

    /// Follows the counting records of the inode and its parents. A chain that
    /// goes on for longer than there are records loops.
    pub fn fate(&self, id: u32) -> Fate {
        let mut at = id;
        for _ in 0..self.counting.len() {
            let Some(inode) = self.inode(at) else { return Fate::Orphan };
            if at == ROOT {
                return Fate::Live;
            }
            if inode.is_deletion() {
                return Fate::Dead;
            }
            at = inode.parent;
        }
        Fate::Orphan
    }

    /// 5 "tested again ... with the new records counted in".
    pub fn tables_hold(&self, new_inodes: usize, new_blocks: usize) -> Result<(), Refusal> {
        let ids = self.counting.keys().copied().collect();
        tables_hold(&ids, new_inodes, new_blocks)
    }

    /// "the first of these over the file areas in descriptor order, as an offset
    /// in the image" (document 02, T-08).
    pub fn first_damage(&self) -> Stretch {
        let damaged = self.file_areas.iter().find(|area| !area.reading.is_clean());
        let Some(area) = damaged else { return Stretch::default() };
        let first = area.reading.first_damage();
        Stretch { offset: area.at.start + first.offset, ..first }
    }

    /// The greatest block size by "the shortest file area's length".
    pub fn greatest_block(&self) -> usize {
        let shortest = self.file_areas.iter().map(|area| area.at.len()).min().unwrap_or(0);
        greatest_block(shortest)
    }
}

/// "two greatest blocks must fit in the smallest area, so the size is half of
/// (length less 24), rounded down, less 24, at most 2,048" (document 02, T-03).
/// The length is 128 or more. Only writers keep to this size.
pub fn greatest_block(shortest: usize) -> usize {
    let behind_the_header = shortest - AreaHeader::SIZE;
    (behind_the_header / 2 - Block::HEADER).min(BLOCK_DATA)
}

/// "report: distinct inode ids, live ones, damage stretches, damage bytes over
/// file areas", and where the first damage is (document 02, T-08).
pub fn report(image: &[u8], areas: &[u32]) -> Report {
    match mount(image, areas) {
        Ok(fs) => mounted(&fs),
        Err(refusal) => Report { number: refusal.number(), ..Report::default() },
    }
}

fn mounted(fs: &FileSystem) -> Report {
    let first = fs.first_damage();
    let readings = || fs.file_areas.iter().map(|area| &area.reading);
    Report {
        number: 0,
        inodes: fs.inodes().count() as u32,
        live: fs.inodes().filter(|inode| fs.fate(inode.id) == Fate::Live).count() as u32,
        stretches: readings().map(|reading| reading.damage.len()).sum::<usize>() as u32,
        skipped: readings().map(Reading::damage_bytes).sum::<usize>() as u32,
        first_offset: first.offset as u32,
        first_length: first.length as u32,
    }
}
