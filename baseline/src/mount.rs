//! Checks 1 to 7, and the tables they fill.

use crate::area::{self, Reading, SCRATCH};
use crate::fate::{fates, Fate};
use crate::layout::{AREAS, BLOCKS, IMAGE, INODES, RECORDS, ROOT};
use crate::ordinary::Ordinary;
use crate::record::{bytes_at, Kind, Record, BLOCK_HEADER, DATA};
use crate::refusal::{number, Refusal};
use crate::style::Style;
use crate::table::{Seen, Table};
use crate::versions::Versions;

const LENGTHS: core::ops::RangeInclusive<usize> = 128..=65_536;

pub type Inodes = Table<INODES, 1024>;
pub type Blocks = Table<BLOCKS, 4096>;

/// A file area; the start of free space is an offset in it.
#[derive(Clone, Copy, Debug, Default, PartialEq, Eq)]
pub struct FileArea {
    pub start: u32,
    pub length: u32,
    pub stretches: u32,
    pub free: u32,
}

/// The damage of all file areas; the first stretch's offset is in the image.
#[derive(Clone, Copy, Debug, Default, PartialEq, Eq)]
pub struct Damage {
    pub stretches: u32,
    pub skipped: u32,
    pub first_offset: u32,
    pub first_length: u32,
}

/// A mounted volume. After a refusal what it holds means nothing.
#[derive(Clone, Debug)]
pub struct Volume {
    areas: [FileArea; AREAS],
    files: usize,
    places: [u16; RECORDS],
    records: usize,
    pub inodes: Inodes,
    pub blocks: Blocks,
    versions: Versions,
    clash: bool,
    pub damage: Damage,
    pub scratch_offset: u32,
    pub scratch_length: u32,
}

impl Volume {
    pub const fn new() -> Volume {
        Volume {
            areas: [FileArea { start: 0, length: 0, stretches: 0, free: 0 }; AREAS],
            files: 0,
            places: [0; RECORDS],
            records: 0,
            inodes: Table::new(),
            blocks: Table::new(),
            versions: Versions::new(),
            clash: false,
            damage: Damage { stretches: 0, skipped: 0, first_offset: 0, first_length: 0 },
            scratch_offset: 0,
            scratch_length: 0,
        }
    }

    /// The file areas in the order of the list.
    pub fn files(&self) -> &[FileArea] {
        &self.areas[..self.files]
    }

    /// The places of all accepted records in the order read.
    pub fn places(&self) -> &[u16] {
        &self.places[..self.records]
    }

    /// Two greatest blocks fit in the shortest file area.
    pub fn greatest_block(&self) -> usize {
        let shortest = self.files().iter().map(|area| area.length).min().unwrap_or(0) as usize;
        ((shortest - area::HEADER) / 2 - BLOCK_HEADER).min(DATA)
    }

    fn clear(&mut self) {
        (self.files, self.records, self.clash) = (0, 0, false);
        self.damage = Damage::default();
        self.inodes.clear();
        self.blocks.clear();
        self.versions.clear();
    }

    #[inline(always)]
    fn take(&mut self, image: &[u8], place: usize, record: Record) -> Result<(), Refusal> {
        self.places[self.records] = place as u16;
        self.records += 1;
        let seen = match record.kind {
            Kind::Inode => self.inodes.see(record.id, record.sequence, place),
            Kind::Block => self.blocks.see(record.id, record.sequence, place),
        };
        let same = match seen {
            Seen::First => None,
            Seen::Newer(old) => self.versions.put(image, old),
            Seen::Same(other) => Some(other),
            Seen::Older => self.versions.put(image, place),
            Seen::Full => return Err(Refusal::Tables),
        };
        if let Some(other) = same {
            self.clash |= bytes_at(image, other) != bytes_at(image, place);
        }
        Ok(())
    }

    fn add_damage(&mut self, start: usize, reading: &Reading) {
        if self.damage.stretches == 0 && reading.stretches > 0 {
            self.damage.first_offset = start as u32 + reading.offset;
            self.damage.first_length = reading.length;
        }
        self.damage.stretches += reading.stretches;
        self.damage.skipped += reading.skipped;
    }
}

impl Default for Volume {
    fn default() -> Self {
        Self::new()
    }
}

/// Good descriptors: offset and length.
pub struct Descriptors {
    pairs: [(usize, usize); AREAS],
    length: usize,
}

impl Descriptors {
    pub fn listed(&self) -> &[(usize, usize)] {
        &self.pairs[..self.length]
    }
}

/// Check 1.
pub fn descriptors(image: &[u8], areas: &[u32]) -> Result<Descriptors, Refusal> {
    let mut good = Descriptors { pairs: [(0, 0); AREAS], length: 0 };
    let entries = areas.chunks_exact(2).take_while(|pair| pair[1] != 0);
    for pair in entries {
        let (offset, length) = (pair[0] as usize, pair[1] as usize);
        let inside = length <= image.len() && offset <= image.len() - length;
        let apart =
            |other: &(usize, usize)| offset + length <= other.0 || other.0 + other.1 <= offset;
        if good.length == AREAS
            || !LENGTHS.contains(&length)
            || !inside
            || !good.listed().iter().all(apart)
        {
            return Err(Refusal::Descriptors);
        }
        good.pairs[good.length] = (offset, length);
        good.length += 1;
    }
    if image.len() > IMAGE || good.length == 0 {
        return Err(Refusal::Descriptors);
    }
    Ok(good)
}

/// 0, and what was found is in the volume, or the number of refusal.
pub fn mount(image: &[u8], areas: &[u32], volume: &mut Volume) -> u32 {
    number(try_mount(image, areas, volume))
}

/// As every call mounts.
pub fn try_mount(image: &[u8], areas: &[u32], volume: &mut Volume) -> Result<(), Refusal> {
    try_mount_by::<Ordinary>(image, areas, volume)
}

pub fn try_mount_by<S: Style>(
    image: &[u8],
    areas: &[u32],
    volume: &mut Volume,
) -> Result<(), Refusal> {
    volume.clear();
    valid_areas(image, &descriptors(image, areas)?, volume)?;
    for file in 0..volume.files {
        let start = volume.areas[file].start as usize;
        let area = &image[start..start + volume.areas[file].length as usize];
        let take = |at, record| volume.take(image, start + at, record);
        let reading = area::read::<S>(area, 0, take)?;
        volume.areas[file].stretches = reading.stretches;
        volume.areas[file].free = reading.free;
        volume.add_damage(start, &reading);
    }
    if volume.clash {
        return Err(Refusal::Clash);
    }
    volume.inodes.find(ROOT).map(|_| ()).ok_or(Refusal::NoRoot)
}

/// Checks 2 to 4. Areas without a valid header are passed over.
fn valid_areas(image: &[u8], list: &Descriptors, volume: &mut Volume) -> Result<(), Refusal> {
    let (mut seen, mut shared, mut scratches, mut longest) = ([false; 256], false, 0, 0);
    for &(offset, length) in list.listed() {
        let Some(id) = area::valid(&image[offset..offset + length]) else { continue };
        if id == SCRATCH {
            scratches += 1;
            (volume.scratch_offset, volume.scratch_length) = (offset as u32, length as u32);
            continue;
        }
        shared |= seen[usize::from(id)];
        seen[usize::from(id)] = true;
        longest = longest.max(length);
        let (start, length) = (offset as u32, length as u32);
        volume.areas[volume.files] = FileArea { start, length, ..FileArea::default() };
        volume.files += 1;
    }
    if shared {
        return Err(Refusal::SharedAreaId);
    }
    if volume.files == 0 || scratches != 1 {
        return Err(Refusal::Areas);
    }
    if longest > volume.scratch_length as usize {
        return Err(Refusal::ShortScratch);
    }
    Ok(())
}

#[derive(Clone, Copy, Debug, Default, PartialEq, Eq)]
pub struct Report {
    pub number: u32,
    pub inodes: u32,
    pub live: u32,
    pub damage: Damage,
}

pub fn report(image: &[u8], areas: &[u32], volume: &mut Volume) -> Report {
    let number = mount(image, areas, volume);
    if number != 0 {
        return Report { number, ..Report::default() };
    }
    let inodes = volume.inodes.ids().len();
    let fates = fates(image, &volume.inodes);
    let live = fates[..inodes].iter().filter(|fate| **fate == Fate::Live).count();
    Report { number, inodes: inodes as u32, live: live as u32, damage: volume.damage }
}
