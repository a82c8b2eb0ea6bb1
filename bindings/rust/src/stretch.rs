//! The damage stretches of an area, one after the other.

use crate::{raw, Area, Refusal};
use core::iter::FusedIterator;

/// A damage stretch of an area: a run of bytes that no record holds. Of the last one the bytes that
/// read FF up to the area's end are left out and count as free, so that a torn or worn record can
/// reach farther.
#[derive(Clone, Copy, Debug, PartialEq, Eq)]
#[non_exhaustive]
pub struct Stretch {
    /// Where it begins, counted from the area's start.
    pub offset: u32,
    /// Its length in bytes, 1 at least.
    pub length: u32,
}

/// The damage stretches of an area, see [`stretches`].
#[derive(Clone, Debug)]
pub struct Stretches<'a> {
    image: &'a [u8],
    areas: &'a [Area],
    index: u32,
    next: u32,
    count: u32,
}

/// All damage stretches of one area, entry `index` of the list, from its start on: as many as
/// [`area_report`](crate::area_report) counts. They do not touch each other, and their lengths come
/// to its `skipped`. Each is one call, which reads the area anew: n stretches take n + 1 readings, so
/// bound how many are taken.
///
/// Where the area is scratch, or passed over, they are no damage of the volume.
///
/// Checks in order: 1, and 1 where the list has no entry `index`.
///
/// ```
/// # use nffs::{Area, Kind, Refusal};
/// # let mut flash = [0; 2 * 4096];
/// # let areas = Area::row::<2>(4096);
/// # nffs::format(&mut flash, &areas)?;
/// for path in [b"/a", b"/b", b"/c", b"/d"] {
///     nffs::create(&mut flash, &areas, b"", path, Kind::File)?;
/// }
/// // the records of "a" and "c", each of 21 bytes, behind the header and the root
/// flash[4096 + 44] ^= 1;
/// flash[4096 + 44 + 2 * 21] ^= 1;
/// let found: Vec<_> =
///     nffs::stretches(&flash, &areas, 1)?.map(|s| (s.offset, s.length)).collect();
/// assert_eq!(found, [(44, 21), (86, 21)]);
/// # Ok::<(), Refusal>(())
/// ```
pub fn stretches<'a>(
    image: &'a [u8],
    areas: &'a [Area],
    index: u32,
) -> Result<Stretches<'a>, Refusal> {
    let r = raw::area_report(image, areas, index, 0);
    Refusal::check(r.number)?;
    Ok(Stretches { image, areas, index, next: 0, count: r.stretches })
}

impl Iterator for Stretches<'_> {
    type Item = Stretch;

    fn next(&mut self) -> Option<Stretch> {
        if self.next == self.count {
            return None;
        }
        let r = raw::area_report(self.image, self.areas, self.index, self.next);
        self.next += 1;
        Some(Stretch { offset: r.offset, length: r.length })
    }

    fn size_hint(&self) -> (usize, Option<usize>) {
        let left = (self.count - self.next) as usize;
        (left, Some(left))
    }
}

impl ExactSizeIterator for Stretches<'_> {}

impl FusedIterator for Stretches<'_> {}
