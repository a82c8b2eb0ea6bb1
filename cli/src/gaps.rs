//! What may be a part of the volume, and is no area as it was found: records that lie between the
//! areas, and valid headers inside of areas. The header of an area has no check: with one altered bit
//! the area is not found, or reaches over the next one.

use crate::areas::{header, valid_at};
use nffs::Area;

/// Bytes that are not read, of which a call says that so many records stand in them.
pub struct Gap {
    pub area: Area,
    pub records: u32,
}

/// The bytes before, between and behind what is taken, where records stand in them. Each gap is
/// asked about as if it were an area: where areas begin in it is not known.
pub fn gaps(image: &[u8], taken: impl Iterator<Item = Area>) -> Vec<Gap> {
    let mut taken: Vec<_> = taken.collect();
    taken.push(Area { offset: image.len() as u32, length: 0 });
    taken.sort_by_key(|area| area.offset);
    let mut offset = 0;
    let mut gaps = Vec::new();
    for next in taken {
        gaps.extend(gap(image, Area { offset, length: next.offset.saturating_sub(offset) }));
        offset = offset.max(next.offset + next.length);
    }
    gaps
}

/// None too where it is shorter than any area.
fn gap(image: &[u8], area: Area) -> Option<Gap> {
    let records = nffs::area_report(image, &[area], 0, 0).ok()?.records;
    (records > 0).then_some(Gap { area, records })
}

/// The areas of a list that are passed over, where records stand in them.
pub fn passed_over(image: &[u8], areas: &[Area]) -> Vec<Gap> {
    let without = areas.iter().filter(|area| header(image, **area).is_none());
    without.filter_map(|area| gap(image, *area)).collect()
}

/// A valid header inside of another area.
pub struct Inside {
    /// The area that it would begin.
    pub area: Area,
    /// The area that it lies in.
    pub of: Area,
}

/// The valid headers that begin inside of areas with a valid header, and in none of their records:
/// a file may hold anything.
pub fn inside(image: &[u8], areas: &[Area]) -> Vec<Inside> {
    let valid = areas.iter().filter(|area| header(image, **area).is_some());
    valid.flat_map(|area| inside_of(image, *area)).collect()
}

fn inside_of(image: &[u8], of: Area) -> Vec<Inside> {
    let places = of.offset + 1..of.offset + of.length;
    let mut found: Vec<_> = places.filter_map(|place| valid_at(image, place)).collect();
    if !found.is_empty() {
        let stretches: Vec<_> = nffs::stretches(image, &[of], 0).into_iter().flatten().collect();
        let is_bare =
            |place: u32| stretches.iter().any(|s| (s.offset..s.offset + s.length).contains(&place));
        found.retain(|area| is_bare(area.offset - of.offset));
    }
    found.into_iter().map(|area| Inside { area, of }).collect()
}
