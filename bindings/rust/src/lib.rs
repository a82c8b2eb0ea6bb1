//! NFFS version 0 over a lent flash image.
//!
//! The calls are proved: for every image, path and byte they stay inside what they are lent, end,
//! neither allocate nor panic, and answer as the rules say. This crate passes slices to them and
//! gives each answer as a `Result`. Every call answers from the bytes alone, as if the image were
//! mounted anew; a refused call changes nothing.
//!
//! ```
//! use nffs::{Area, Kind, Refusal};
//!
//! let mut flash = [0; 2 * 4096];
//! let areas = Area::row::<2>(4096);
//! nffs::format(&mut flash, &areas)?;
//! nffs::create(&mut flash, &areas, b"", b"/dose", Kind::File)?;
//! nffs::append(&mut flash, &areas, b"", b"/dose", b"20 mSv")?;
//!
//! let mut file = nffs::open(&flash, &areas, b"", b"/dose")?;
//! let mut buffer = [0; 64];
//! let given = nffs::read(&flash, &areas, &mut file, &mut buffer)?;
//! assert_eq!(&buffer[..given.bytes], b"20 mSv");
//! # Ok::<(), Refusal>(())
//! ```
//!
//! Paths are bytes: `/`, or names of 1 to 255 bytes parted by single slashes. A path without a
//! leading slash is taken below `base`, which must then be a good absolute path; otherwise `base`
//! is not looked at and may be empty.

#![no_std]
#![deny(missing_docs)]

pub mod raw;
mod refusal;
mod stretch;
mod volume;

pub use refusal::Refusal;
pub use stretch::{stretches, Stretch, Stretches};
pub use volume::Volume;

/// An area of the flash.
///
/// A list of areas ends at the first length 0 or at its end. Good are 1 to 16 areas of 128 to
/// 65,536 bytes, each inside the image, none overlapping.
///
/// An area without a valid header is passed over with all that lies in it, by every call but
/// [`format`](crate::format()) and [`area_report`], which tells of it. Since version 0.4.0 a header
/// whose reserved byte is not 0 is not valid, and an inode's record with such a byte is not read
/// (`docs/LINKING.md`, "Volumes of other writers").
///
/// ```
/// use nffs::{Area, Refusal};
///
/// let mut flash = [0; 2 * 4096];
/// let areas = Area::row::<2>(4096);
/// nffs::format(&mut flash, &areas)?;
/// flash[22] = 1;
/// assert_eq!(nffs::report(&flash, &areas), Err(Refusal::NO_FILE_OR_SCRATCH));
/// # Ok::<(), Refusal>(())
/// ```
#[repr(C)]
#[derive(Clone, Copy, Debug, PartialEq, Eq)]
pub struct Area {
    /// Where it starts in the image.
    pub offset: u32,
    /// Its length in bytes.
    pub length: u32,
}

impl Area {
    /// `N` areas of one length, one behind the other from the image's start.
    ///
    /// ```
    /// let [first, second] = nffs::Area::row(4096);
    /// assert_eq!((first.offset, second.offset), (0, 4096));
    /// ```
    ///
    /// # Panics
    ///
    /// Where an offset does not fit in 32 bits.
    pub const fn row<const N: usize>(length: u32) -> [Area; N] {
        let mut areas = [Area { offset: 0, length }; N];
        let mut i = 1;
        while i < N {
            areas[i].offset = match areas[i - 1].offset.checked_add(length) {
                Some(offset) => offset,
                None => panic!("an area's offset does not fit in 32 bits"),
            };
            i += 1;
        }
        areas
    }
}

/// What an inode is.
#[derive(Clone, Copy, Debug, PartialEq, Eq)]
pub enum Kind {
    /// It has children.
    Directory = 0,
    /// It has contents.
    File = 1,
}

/// The state of a volume.
///
/// The first damage stretch is the first of the first damaged file area in the order of the list,
/// which need not be the one with the lowest offset. Of the last stretch of an area the bytes that
/// read FF up to the area's end are left out and count as free: a torn or worn record can reach
/// farther than is told. Not seen is what lies in scratch or in an area that is passed over; nor is a
/// page that came back with its previous contents, where its checks are right: it is no damage and
/// has no stretch.
#[derive(Clone, Copy, Debug, PartialEq, Eq)]
#[non_exhaustive]
pub struct Report {
    /// Distinct inode ids.
    pub inodes: u32,
    /// Inodes that are live.
    pub live: u32,
    /// Damage stretches in the file areas.
    pub stretches: u32,
    /// The bytes of these stretches.
    pub skipped: u32,
    /// Where the first of them begins in the image; 0 if there is none.
    pub first_offset: u32,
    /// Its length; 0 if there is none.
    pub first_length: u32,
}

/// What an area is.
#[derive(Clone, Copy, Debug, PartialEq, Eq)]
pub enum AreaKind {
    /// Without a valid header, and so passed over with all that lies in it.
    PassedOver = 0,
    /// It holds records of the volume.
    File = 1,
    /// Into which the next area is collected.
    Scratch = 2,
}

/// The state of one area, and one of its damage stretches.
///
/// `records`, `stretches`, `skipped`, `free`, `offset` and `length` tell what stands behind its
/// first 24 bytes, whatever its kind. What is no record and not free in scratch, or in an area that
/// is passed over, is no damage of the volume. Header, records, stretches and free space are the
/// whole area: 24 + bytes of records + `skipped` + `free` is its length.
#[derive(Clone, Copy, Debug, PartialEq, Eq)]
#[non_exhaustive]
pub struct AreaReport {
    /// File area, scratch, or passed over.
    pub kind: AreaKind,
    /// The id in its header, 255 of scratch; 0 where it is passed over.
    pub id: u32,
    /// The collection count in its header; 0 where it is passed over.
    pub count: u32,
    /// Records that are taken.
    pub records: u32,
    /// Damage stretches.
    pub stretches: u32,
    /// The bytes of these stretches.
    pub skipped: u32,
    /// The bytes of free space at its end.
    pub free: u32,
    /// Where the stretch that was asked for begins, counted from the area's start; 0 if there are
    /// not so many.
    pub offset: u32,
    /// Its length; 0 if there are not so many.
    pub length: u32,
}

/// What a path leads to.
#[derive(Clone, Copy, Debug, PartialEq, Eq)]
#[non_exhaustive]
pub struct Found {
    /// The id of the inode.
    pub id: u32,
    /// Directory or file.
    pub kind: Kind,
}

/// An open file. It is plain data: nothing has to be closed.
#[repr(C)]
#[derive(Clone, Copy, Debug, PartialEq, Eq)]
pub struct Handle {
    /// The id of the file.
    pub id: u32,
    /// Where the next read begins.
    pub position: u32,
}

/// What a read gave.
#[derive(Clone, Copy, Debug, PartialEq, Eq)]
#[non_exhaustive]
pub struct Given {
    /// The number of bytes, in the front of the buffer; 0 at the end of the file.
    pub bytes: usize,
    /// The block headers followed, from the last block back.
    pub headers: u32,
}

/// The most areas of a list.
///
/// ```
/// use nffs::{Area, Refusal, MOST_AREAS};
///
/// let mut flash = [0; (MOST_AREAS + 1) * 128];
/// let areas = Area::row::<{ MOST_AREAS + 1 }>(128);
/// assert_eq!(nffs::format(&mut flash, &areas[..MOST_AREAS]), Ok(()));
/// assert_eq!(nffs::format(&mut flash, &areas), Err(Refusal::BAD_AREAS));
/// ```
pub const MOST_AREAS: usize = 16;

/// The most bytes that one [`append`] or [`overwrite`] takes.
pub const APPEND_MOST: usize = 8192;

/// A length that no text of [`tree`] exceeds, of any image.
pub const TREE_MOST: usize = 102400;

/// Erases the areas and makes an empty volume of them. The longest area, first among equals, is
/// scratch; there must be two at least. Bytes outside the areas stay.
///
/// Checks in order: 1, 3.
///
/// ```
/// use nffs::{Area, Refusal};
///
/// let mut flash = [0; 2 * 4096];
/// let areas = Area::row::<2>(4096);
/// assert_eq!(nffs::format(&mut flash, &areas), Ok(()));
/// assert_eq!(nffs::format(&mut flash, &areas[..1]), Err(Refusal::NO_FILE_OR_SCRATCH));
/// ```
pub fn format(image: &mut [u8], areas: &[Area]) -> Result<(), Refusal> {
    Refusal::check(raw::format(image, areas))
}

/// Whether a volume mounts, what is in it, and where its damage begins.
///
/// Checks in order: 1 to 7.
///
/// ```
/// # use nffs::{Area, Kind};
/// # let mut flash = [0; 2 * 4096];
/// # let areas = Area::row::<2>(4096);
/// nffs::format(&mut flash, &areas)?;
/// nffs::create(&mut flash, &areas, b"", b"/dose", Kind::File)?;
/// let report = nffs::report(&flash, &areas)?;
/// assert_eq!((report.inodes, report.live, report.stretches, report.skipped), (2, 2, 0, 0));
/// assert_eq!((report.first_offset, report.first_length), (0, 0));
///
/// // the file area is the second, and the file's record stands behind its header and the root
/// flash[4096 + 24 + 20] ^= 1;
/// let report = nffs::report(&flash, &areas)?;
/// assert_eq!((report.inodes, report.live, report.stretches, report.skipped), (1, 1, 1, 24));
/// assert_eq!((report.first_offset, report.first_length), (4140, 24));
/// # Ok::<(), nffs::Refusal>(())
/// ```
pub fn report(image: &[u8], areas: &[Area]) -> Result<Report, Refusal> {
    let r = raw::report(image, areas);
    Refusal::check(r.number)?;
    Ok(Report {
        inodes: r.inodes,
        live: r.live,
        stretches: r.stretches,
        skipped: r.skipped,
        first_offset: r.first_offset,
        first_length: r.first_length,
    })
}

/// The state of one area, entry `index` of the list, and its damage stretch of number `stretch`;
/// both count from 0. It tells of the areas of a volume that does not mount, too. [`stretches`]
/// gives all stretches of an area.
///
/// Checks in order: 1, and 1 where the list has no entry `index`.
///
/// ```
/// # use nffs::{Area, AreaKind, Refusal};
/// # let mut flash = [0; 2 * 4096];
/// # let areas = Area::row::<2>(4096);
/// nffs::format(&mut flash, &areas)?;
/// let scratch = nffs::area_report(&flash, &areas, 0, 0)?;
/// assert_eq!((scratch.kind, scratch.id, scratch.records), (AreaKind::Scratch, 255, 0));
/// let area = nffs::area_report(&flash, &areas, 1, 0)?;
/// assert_eq!((area.kind, area.id, area.records), (AreaKind::File, 0, 1));
/// assert_eq!(24 + 20 + area.skipped + area.free, 4096);
///
/// // the root is lost, and nothing mounts: where the damage lies is still told
/// flash[4096 + 30] ^= 1;
/// assert_eq!(nffs::report(&flash, &areas), Err(Refusal::NO_ROOT));
/// let area = nffs::area_report(&flash, &areas, 1, 0)?;
/// assert_eq!((area.records, area.stretches, area.skipped), (0, 1, 20));
/// assert_eq!((area.offset, area.length), (24, 20));
///
/// assert_eq!(nffs::area_report(&flash, &areas, 2, 0), Err(Refusal::BAD_AREAS));
/// # Ok::<(), Refusal>(())
/// ```
pub fn area_report(
    image: &[u8],
    areas: &[Area],
    index: u32,
    stretch: u32,
) -> Result<AreaReport, Refusal> {
    let r = raw::area_report(image, areas, index, stretch);
    Refusal::check(r.number)?;
    Ok(AreaReport {
        kind: match r.kind {
            1 => AreaKind::File,
            2 => AreaKind::Scratch,
            _ => AreaKind::PassedOver,
        },
        id: r.id,
        count: r.count,
        records: r.records,
        stretches: r.stretches,
        skipped: r.skipped,
        free: r.free,
        offset: r.offset,
        length: r.length,
    })
}

/// What is live, as text, one line for each inode: its depth as spaces, its name and, for a file, a
/// space and its size in decimal digits, or `broken`; then a newline. Gives the length of the whole
/// text; the front of `text` holds as much of it as fits, and the rest stays. So an empty `text` asks
/// for the length alone, and [`TREE_MOST`] bytes are enough for any image.
///
/// The first line is the root, `/` alone, at depth 0. The line of a directory is followed by those of
/// what lies in it, in order of the names' bytes, a shorter name before a longer one that it begins,
/// and by id where names are equal. So two children of one name, to which no path leads (10), are both
/// there. What was deleted, and what is an orphan, is not. Nor is what lies in a directory at depth
/// 64, or below it: where something live does, one line stands for all of it, 65 spaces and `deeper`.
/// Where no directory has that line, there are as many lines as [`report`] counts live.
///
/// A name holds any byte but NUL and slash, so the text need not be UTF-8. A newline in a name is
/// written as a slash, so that a newline always ends a line, and each slash below the first line is a
/// newline of a name. The last space of a file's line parts its size from its name, which may hold
/// spaces and digits, too. But a line does not tell its kind: a directory `a 15` and a file `a` of 15
/// bytes have the same, and a name that begins with a space looks deeper than it is
/// (`docs/LINKING.md`, "List what is live").
///
/// Checks in order: 1 to 7.
///
/// ```
/// # use nffs::{Area, Kind, Refusal, TREE_MOST};
/// # let mut flash = [0; 2 * 4096];
/// # let areas = Area::row::<2>(4096);
/// # nffs::format(&mut flash, &areas)?;
/// nffs::create(&mut flash, &areas, b"", b"/tables", Kind::Directory)?;
/// nffs::create(&mut flash, &areas, b"", b"/tables/dose", Kind::File)?;
/// nffs::append(&mut flash, &areas, b"", b"/tables/dose", b"20 mSv")?;
/// nffs::create(&mut flash, &areas, b"", b"/log", Kind::File)?;
///
/// let mut text = vec![0; TREE_MOST];
/// let length = nffs::tree(&flash, &areas, &mut text)?;
/// assert_eq!(&text[..length], b"/\n log 0\n tables\n  dose 6\n");
///
/// // what does not fit is left out, and the length tells it
/// assert_eq!(nffs::tree(&flash, &areas, &mut []), Ok(length));
/// let mut front = [b'.'; 8];
/// assert_eq!(nffs::tree(&flash, &areas, &mut front), Ok(length));
/// assert_eq!(&front, b"/\n log 0");
///
/// assert_eq!(nffs::tree(&flash, &areas[..1], &mut front), Err(Refusal::NO_FILE_OR_SCRATCH));
/// # Ok::<(), Refusal>(())
/// ```
pub fn tree(image: &[u8], areas: &[Area], text: &mut [u8]) -> Result<usize, Refusal> {
    let r = raw::tree(image, areas, text);
    Refusal::check(r.number)?;
    Ok(r.length as usize)
}

/// What a path leads to.
///
/// Checks in order: 1 to 7, 8, then 9, 10 or 11 at the first step of the path that fails.
///
/// ```
/// # use nffs::{Area, Kind, Refusal};
/// # let mut flash = [0; 2 * 4096];
/// # let areas = Area::row::<2>(4096);
/// nffs::format(&mut flash, &areas)?;
/// assert_eq!(nffs::lookup(&flash, &areas, b"", b"/")?.kind, Kind::Directory);
/// assert_eq!(nffs::lookup(&flash, &areas, b"/", b"dose"), Err(Refusal::NOT_FOUND));
/// # Ok::<(), Refusal>(())
/// ```
pub fn lookup(image: &[u8], areas: &[Area], base: &[u8], path: &[u8]) -> Result<Found, Refusal> {
    let r = raw::lookup(image, areas, base, path);
    Refusal::check(r.number)?;
    Ok(Found { id: r.id, kind: if r.kind == 0 { Kind::Directory } else { Kind::File } })
}

/// Opens the file of a path, at position 0.
///
/// Checks in order: 1 to 7, 8, then 9, 10 or 11 at the first step of the path that fails, 11 for a
/// directory.
///
/// ```
/// # use nffs::{Area, Refusal};
/// # let mut flash = [0; 2 * 4096];
/// # let areas = Area::row::<2>(4096);
/// # nffs::format(&mut flash, &areas)?;
/// assert_eq!(nffs::open(&flash, &areas, b"", b"/dose"), Err(Refusal::NOT_FOUND));
/// assert_eq!(nffs::open(&flash, &areas, b"", b"/"), Err(Refusal::WRONG_KIND));
/// # Ok::<(), Refusal>(())
/// ```
pub fn open(image: &[u8], areas: &[Area], base: &[u8], path: &[u8]) -> Result<Handle, Refusal> {
    let r = raw::open(image, areas, base, path);
    Refusal::check(r.number)?;
    Ok(Handle { id: r.id, position: r.position })
}

/// Reads from the handle's position on into the front of the buffer, as much as buffer and file
/// allow, and moves the position behind what was given.
///
/// Checks in order: 1 to 7, 9, 11, 13, 14.
///
/// ```
/// # use nffs::{Area, Kind};
/// # let mut flash = [0; 2 * 4096];
/// # let areas = Area::row::<2>(4096);
/// # nffs::format(&mut flash, &areas)?;
/// # nffs::create(&mut flash, &areas, b"", b"/dose", Kind::File)?;
/// nffs::append(&mut flash, &areas, b"", b"/dose", b"20 mSv")?;
/// let mut file = nffs::open(&flash, &areas, b"", b"/dose")?;
/// let mut buffer = [0; 4];
/// assert_eq!(nffs::read(&flash, &areas, &mut file, &mut buffer)?.bytes, 4);
/// assert_eq!(nffs::read(&flash, &areas, &mut file, &mut buffer)?.bytes, 2);
/// assert_eq!(nffs::read(&flash, &areas, &mut file, &mut buffer)?.bytes, 0);
/// assert_eq!(file.position, 6);
/// # Ok::<(), nffs::Refusal>(())
/// ```
pub fn read(
    image: &[u8],
    areas: &[Area],
    handle: &mut Handle,
    buffer: &mut [u8],
) -> Result<Given, Refusal> {
    given(raw::read(image, areas, handle, buffer))
}

/// The same as [`read`] with id and position by value.
///
/// Checks in order: 1 to 7, 9, 11, 13, 14.
///
/// ```
/// # use nffs::{Area, Kind, Refusal};
/// # let mut flash = [0; 2 * 4096];
/// # let areas = Area::row::<2>(4096);
/// # nffs::format(&mut flash, &areas)?;
/// let id = nffs::create(&mut flash, &areas, b"", b"/dose", Kind::File)?;
/// nffs::append(&mut flash, &areas, b"", b"/dose", b"20 mSv")?;
/// let mut unit = [0; 3];
/// nffs::read_at(&flash, &areas, id, 3, &mut unit)?;
/// assert_eq!(&unit, b"mSv");
/// assert_eq!(nffs::read_at(&flash, &areas, id, 7, &mut unit), Err(Refusal::PAST_END));
/// # Ok::<(), Refusal>(())
/// ```
pub fn read_at(
    image: &[u8],
    areas: &[Area],
    id: u32,
    position: u32,
    buffer: &mut [u8],
) -> Result<Given, Refusal> {
    given(raw::read_at(image, areas, id, position, buffer))
}

/// Creates an empty directory or file, and gives its id.
///
/// Checks in order: 1 to 7, 8, then 9, 10 or 11 at the first step before the last name that fails,
/// 11 where the last name is asked for below a file, 12, 5 with the new inode counted in, 15.
///
/// ```
/// # use nffs::{Area, Kind, Refusal};
/// # let mut flash = [0; 2 * 4096];
/// # let areas = Area::row::<2>(4096);
/// # nffs::format(&mut flash, &areas)?;
/// nffs::create(&mut flash, &areas, b"", b"/tables", Kind::Directory)?;
/// let id = nffs::create(&mut flash, &areas, b"/tables", b"dose", Kind::File)?;
/// assert_eq!(nffs::lookup(&flash, &areas, b"", b"/tables/dose")?.id, id);
/// let again = nffs::create(&mut flash, &areas, b"", b"/tables", Kind::File);
/// assert_eq!(again, Err(Refusal::EXISTS));
/// # Ok::<(), Refusal>(())
/// ```
pub fn create(
    image: &mut [u8],
    areas: &[Area],
    base: &[u8],
    path: &[u8],
    kind: Kind,
) -> Result<u32, Refusal> {
    let r = raw::create(image, areas, base, path, kind as u32);
    Refusal::check(r.number)?;
    Ok(r.id)
}

/// Appends data to a file, all of it or nothing; at most [`APPEND_MOST`] bytes. It is stored in
/// blocks, whose greatest size follows from the shortest file area: 2,048 bytes where that has
/// 4,168 or more (`docs/LINKING.md`, "Plan the areas").
///
/// Checks in order: 1 to 7, 8, then 9, 10 or 11 at the first step of the path that fails, 11 for a
/// directory, 13, 5 with the new blocks counted in, 15.
///
/// ```
/// # use nffs::{Area, Kind, Refusal};
/// # let mut flash = [0; 2 * 4096];
/// # let areas = Area::row::<2>(4096);
/// # nffs::format(&mut flash, &areas)?;
/// # nffs::create(&mut flash, &areas, b"", b"/dose", Kind::File)?;
/// let before = flash;
/// let refused = nffs::append(&mut flash, &areas, b"", b"/dose", &[0; 5000]);
/// assert_eq!(refused, Err(Refusal::NO_ROOM));
/// assert_eq!(flash, before);
/// # Ok::<(), Refusal>(())
/// ```
pub fn append(
    image: &mut [u8],
    areas: &[Area],
    base: &[u8],
    path: &[u8],
    data: &[u8],
) -> Result<(), Refusal> {
    Refusal::check(raw::append(image, areas, base, path, data))
}

/// Writes data over what a file holds from `offset` on, all of it or nothing; at most
/// [`APPEND_MOST`] bytes, and within the file's size: it gets no longer. Every other byte stays, and
/// so do its id, handles to it, and how many headers a read follows.
///
/// Each block that holds a byte of the range is written anew, whole, in file order, where any new
/// record goes. So it needs room for a copy of each such block, 24 bytes and the block's length,
/// however few bytes change; the old versions keep their room until their areas are collected. 0
/// bytes write nothing.
///
/// A range in one block is one record. One in several is several records: where only some of them
/// come to the flash, or one is damaged or comes back stale, the file reads partly new and partly
/// old, each block with a right check, and a report need not show it (`docs/LINKING.md`, "Rewrite in
/// place").
///
/// Checks in order: 1 to 7, 8, then 9, 10 or 11 at the first step of the path that fails, 11 for a
/// directory, 13, 14 where offset or end is past the size, 16 where a block of the range is at the
/// greatest sequence, 15.
///
/// ```
/// # use nffs::{Area, Kind, Refusal};
/// # let mut flash = [0; 2 * 4096];
/// # let areas = Area::row::<2>(4096);
/// # nffs::format(&mut flash, &areas)?;
/// // a header of its own block, and an entry behind it
/// let id = nffs::create(&mut flash, &areas, b"", b"/log", Kind::File)?;
/// nffs::append(&mut flash, &areas, b"", b"/log", b"0 entries\n")?;
/// nffs::append(&mut flash, &areas, b"", b"/log", b"pump started\n")?;
/// let free = nffs::area_report(&flash, &areas, 1, 0)?.free;
/// nffs::overwrite(&mut flash, &areas, b"", b"/log", 0, b"1")?;
/// assert_eq!(nffs::area_report(&flash, &areas, 1, 0)?.free, free - 24 - 10);
///
/// let mut log = [0; 23];
/// nffs::read_at(&flash, &areas, id, 0, &mut log)?;
/// assert_eq!(&log, b"1 entries\npump started\n");
///
/// // within the size, and no further
/// let before = flash;
/// assert_eq!(nffs::overwrite(&mut flash, &areas, b"", b"/log", 23, b""), Ok(()));
/// assert_eq!(nffs::overwrite(&mut flash, &areas, b"", b"/log", 24, b""), Err(Refusal::PAST_END));
/// let longer = nffs::overwrite(&mut flash, &areas, b"", b"/log", 22, b"..");
/// assert_eq!((longer, flash), (Err(Refusal::PAST_END), before));
/// # Ok::<(), Refusal>(())
/// ```
pub fn overwrite(
    image: &mut [u8],
    areas: &[Area],
    base: &[u8],
    path: &[u8],
    offset: u32,
    data: &[u8],
) -> Result<(), Refusal> {
    Refusal::check(raw::overwrite(image, areas, base, path, offset, data))
}

/// Deletes a file, or a directory with what lies below it.
///
/// Checks in order: 1 to 7, 8, then 9, 10 or 11 at the first step of the path that fails, 16, 15.
///
/// ```
/// # use nffs::{Area, Kind, Refusal};
/// # let mut flash = [0; 2 * 4096];
/// # let areas = Area::row::<2>(4096);
/// # nffs::format(&mut flash, &areas)?;
/// nffs::create(&mut flash, &areas, b"", b"/tables", Kind::Directory)?;
/// nffs::create(&mut flash, &areas, b"", b"/tables/dose", Kind::File)?;
/// nffs::unlink(&mut flash, &areas, b"", b"/tables")?;
/// assert_eq!(nffs::open(&flash, &areas, b"", b"/tables/dose"), Err(Refusal::NOT_FOUND));
/// # Ok::<(), Refusal>(())
/// ```
pub fn unlink(image: &mut [u8], areas: &[Area], base: &[u8], path: &[u8]) -> Result<(), Refusal> {
    Refusal::check(raw::unlink(image, areas, base, path))
}

/// Gives a file or a directory another name, another directory, or both; one base serves both paths.
/// Its inode is written anew with the same id, so that a file keeps its contents, handles to it stay
/// right, and what lies below a directory goes with it. What has the new name already is not
/// replaced.
///
/// Where the new record is damaged, or comes back stale, the newest version that is left counts,
/// whichever it is: an earlier name is back, or answers 10 where something else has it by now; where
/// none is left, or it leads nowhere any more, the answer is 9. What is written while a record is
/// lost can make the volume unmountable when it is read again: 6 (`docs/LINKING.md`, "Swap a
/// table").
///
/// What lies below a directory may get too deep for a base and a path of 1,024 bytes each: every call
/// that is given its path answers 8 then. It stays live, and has a path again when a directory above
/// it is renamed to a shorter one.
///
/// Checks in order: 1 to 7, 8 of either path and for a new path "/", then 9, 10 or 11 at the first
/// step of the old path that fails, then the same at the first step of the new path before its last
/// name that fails, 11 where that name is asked for below a file, 12, 18, 16, 15.
///
/// ```
/// # use nffs::{Area, Kind, Refusal};
/// # let mut flash = [0; 2 * 4096];
/// # let areas = Area::row::<2>(4096);
/// # nffs::format(&mut flash, &areas)?;
/// nffs::create(&mut flash, &areas, b"", b"/tables", Kind::Directory)?;
/// let id = nffs::create(&mut flash, &areas, b"", b"/dose.new", Kind::File)?;
/// nffs::rename(&mut flash, &areas, b"", b"/dose.new", b"/tables/dose")?;
/// assert_eq!(nffs::lookup(&flash, &areas, b"", b"/tables/dose")?.id, id);
/// assert_eq!(nffs::lookup(&flash, &areas, b"", b"/dose.new"), Err(Refusal::NOT_FOUND));
///
/// let into_itself = nffs::rename(&mut flash, &areas, b"", b"/tables", b"/tables/old");
/// assert_eq!(into_itself, Err(Refusal::INTO_ITSELF));
/// # Ok::<(), Refusal>(())
/// ```
pub fn rename(
    image: &mut [u8],
    areas: &[Area],
    base: &[u8],
    old_path: &[u8],
    new_path: &[u8],
) -> Result<(), Refusal> {
    Refusal::check(raw::rename(image, areas, base, old_path, new_path))
}

/// Copies what counts in one file area into scratch and erases that area, which becomes scratch:
/// superseded records leave room, deleted ones as soon as nothing else names them, and the damage
/// of that area goes. One call collects one area: of the file areas as long as scratch the first
/// that none of them precedes, by the counts in their headers, where 255 precedes 0; if there is
/// none, the first (`docs/LINKING.md`, "Plan the areas").
///
/// Checks in order: 1 to 7, 17.
///
/// ```
/// # use nffs::{Area, Kind, Refusal};
/// # let mut flash = [0; 2 * 4096];
/// # let areas = Area::row::<2>(4096);
/// # nffs::format(&mut flash, &areas)?;
/// # nffs::create(&mut flash, &areas, b"", b"/dose", Kind::File)?;
/// // a full volume has room again once what was deleted is collected
/// while nffs::append(&mut flash, &areas, b"", b"/dose", &[7; 500]).is_ok() {}
/// nffs::unlink(&mut flash, &areas, b"", b"/dose")?;
/// nffs::create(&mut flash, &areas, b"", b"/dose", Kind::File)?;
/// let full = nffs::append(&mut flash, &areas, b"", b"/dose", &[8; 2000]);
/// assert_eq!(full, Err(Refusal::NO_ROOM));
/// nffs::collect(&mut flash, &areas)?;
/// nffs::append(&mut flash, &areas, b"", b"/dose", &[8; 2000])?;
/// # Ok::<(), Refusal>(())
/// ```
pub fn collect(image: &mut [u8], areas: &[Area]) -> Result<(), Refusal> {
    Refusal::check(raw::collect(image, areas))
}

fn given(r: raw::ReadAnswer) -> Result<Given, Refusal> {
    Refusal::check(r.number)?;
    Ok(Given { bytes: r.given as usize, headers: r.headers })
}
