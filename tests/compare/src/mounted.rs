//! What a mount finds, in one form for the proved one, the baselines and the model.

use std::collections::BTreeMap;

use nffs_baseline::Volume;
use nffs_model::layout::is_block;
use nffs_model::mount::FileSystem;

#[derive(Clone, Debug, PartialEq, Eq)]
pub struct Mounted {
    /// Start, length, stretches of damage and the start of free space, an offset in the area.
    pub files: Vec<[u32; 4]>,
    /// Of all accepted records, in the order read.
    pub places: Vec<u16>,
    /// Ids in the order of first sight, with the place of the record that counts.
    pub inodes: Vec<(u32, u32)>,
    pub blocks: Vec<(u32, u32)>,
    /// Stretches, skipped bytes, the first stretch's offset in the image and its length.
    pub damage: [u32; 4],
    /// Offset and length.
    pub scratch: [u32; 2],
}

/// What two answers differ in, so far as it can be told in a line.
pub fn difference(a: &Result<Mounted, u32>, b: &Result<Mounted, u32>) -> Option<String> {
    let (Ok(left), Ok(right)) = (a, b) else {
        let number = |answer: &Result<Mounted, u32>| answer.as_ref().err().copied().unwrap_or(0);
        return (a != b).then(|| format!("numbers {} and {}", number(a), number(b)));
    };
    first("file area", &left.files, &right.files)
        .or_else(|| first("place", &left.places, &right.places))
        .or_else(|| first("inode", &left.inodes, &right.inodes))
        .or_else(|| first("block", &left.blocks, &right.blocks))
        .or_else(|| first("damage", &left.damage, &right.damage))
        .or_else(|| first("scratch", &left.scratch, &right.scratch))
}

/// The first row that differs.
fn first<T: PartialEq + std::fmt::Debug>(what: &str, a: &[T], b: &[T]) -> Option<String> {
    if a.len() != b.len() {
        return Some(format!("{what}: {} and {} of them", a.len(), b.len()));
    }
    let at = (0..a.len()).find(|at| a[*at] != b[*at])?;
    Some(format!("{what} {at}: {:?} and {:?}", a[at], b[at]))
}

/// The mount of a baseline.
pub type Mount = fn(&[u8], &[u32], &mut Volume) -> u32;

pub const BASELINES: [(&str, Mount); 2] = [("ordinary", nffs_baseline::mount), ("tuned", nffs_baseline::tuned::mount)];

/// A baseline's answer.
pub fn of_baseline(mount: Mount, image: &[u8], areas: &[u32], volume: &mut Volume) -> Result<Mounted, u32> {
    match mount(image, areas, volume) {
        0 => Ok(found(volume)),
        number => Err(number),
    }
}

/// What a mounted volume of a baseline holds.
pub fn found(volume: &Volume) -> Mounted {
    let rows = |ids: &[u32], places: &[u32]| ids.iter().copied().zip(places.iter().copied()).collect();
    let damage = volume.damage;
    Mounted {
        files: volume.files().iter().map(|area| [area.start, area.length, area.stretches, area.free]).collect(),
        places: volume.places().to_vec(),
        inodes: rows(volume.inodes.ids(), volume.inodes.places()),
        blocks: rows(volume.blocks.ids(), volume.blocks.places()),
        damage: [damage.stretches, damage.skipped, damage.first_offset, damage.first_length],
        scratch: [volume.scratch_offset, volume.scratch_length],
    }
}

/// The model's answer, with the places that it does not keep.
pub fn of_model(image: &[u8], areas: &[u32]) -> Result<Mounted, u32> {
    let fs = nffs_model::mount::mount(image, areas).map_err(|refusal| refusal.number())?;
    let first = fs.first_damage();
    let readings = || fs.file_areas.iter().map(|area| &area.reading);
    let stretches: usize = readings().map(|reading| reading.damage.len()).sum();
    let skipped: usize = readings().map(|reading| reading.damage_bytes()).sum();
    let of_area = |area: &nffs_model::mount::FileArea| [area.at.start, area.at.len(), area.reading.damage.len(), area.reading.free];
    let (inodes, blocks) = counting(&fs);
    Ok(Mounted {
        files: fs.file_areas.iter().map(|area| of_area(area).map(|number| number as u32)).collect(),
        places: records(&fs).map(|(place, _, _)| place as u16).collect(),
        inodes,
        blocks,
        damage: [stretches, skipped, first.offset, first.length].map(|number| number as u32),
        scratch: [fs.scratch.at.start, fs.scratch.at.len()].map(|number| number as u32),
    })
}

/// Place, id and sequence of all accepted records in the order read.
fn records(fs: &FileSystem) -> impl Iterator<Item = (u32, u32, u32)> + '_ {
    fs.file_areas.iter().flat_map(|area| {
        let taken = area.reading.records.iter();
        taken.map(|taken| ((area.at.start + taken.offset) as u32, taken.record.id(), taken.record.sequence()))
    })
}

type Rows = Vec<(u32, u32)>;

/// Inodes and blocks in the order of first sight, each with the first of its records of the greatest sequence.
fn counting(fs: &FileSystem) -> (Rows, Rows) {
    let mut order = Vec::new();
    let mut greatest: BTreeMap<u32, (u32, u32)> = BTreeMap::new();
    for (place, id, sequence) in records(fs) {
        let known = greatest.get(&id);
        if known.is_none() {
            order.push(id);
        }
        if known.is_none_or(|(old, _)| *old < sequence) {
            greatest.insert(id, (sequence, place));
        }
    }
    order.into_iter().map(|id| (id, greatest[&id].1)).partition(|(id, _)| !is_block(*id))
}
