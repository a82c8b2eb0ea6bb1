//! Calls on a hand-made image. Each asserts that a refused call changes no
//! byte of the image.

use crate::calls;
use nffs_model::forge::Flash;
use nffs_model::layout::{Block, Inode, Record, NONE, ROOT};
use nffs_model::{AreaReport, Handle, Lookup, Read, Report, Tree};

pub const A: u32 = 0x1000_0000;
pub const B: u32 = 0x1000_0001;
pub const BLOCK: u32 = 0x8000_0000;
pub const LAST: u32 = 0xffff_ffff;

/// Scratch and one file area of this length, with the root record.
pub fn rooted(length: usize) -> Flash {
    let mut flash = Flash::of(&[length, length]);
    flash.root(1);
    flash
}

/// Areas of these lengths as the call formats them, over bytes that aren't FF.
pub fn formatted(lengths: &[usize]) -> Flash {
    let mut flash = Flash::of(lengths);
    flash.image.fill(0x5a);
    assert_eq!(calls::format(&mut flash.image, &flash.areas), 0);
    flash
}

/// The bench's area of 4,096: "root at 24, file "a" at 44, block of 10 at 65,
/// block of 5 at 99, all data 41 hex, FF from 128".
pub fn bench() -> Flash {
    let mut flash = rooted(4096);
    assert_eq!(flash.next(1), 44);
    flash.inode(1, A, 0, ROOT, b"a");
    assert_eq!(flash.next(1), 65);
    flash.block(1, BLOCK, 0, A, NONE, &[0x41; 10]);
    assert_eq!(flash.next(1), 99);
    flash.block(1, BLOCK + 1, 0, A, BLOCK, &[0x41; 5]);
    assert_eq!(flash.next(1), 128);
    flash
}

/// Fills the area so that exactly `leave` bytes are free, by blocks of a file
/// without an inode; their ids start at 90000000.
pub fn fill(flash: &mut Flash, area: usize, leave: usize) {
    let mut id = 0x9000_0000 + 0x100 * area as u32;
    while flash.room(area) > leave {
        let rest = flash.room(area) - leave;
        let whole = if rest > 2072 + 25 { 2072 } else { rest };
        let whole = if rest > 2072 && rest <= 2072 + 25 { 1000 } else { whole };
        assert!(flash.block(area, id, 0, 0x7000_0000, NONE, &vec![7; whole - Block::HEADER]));
        id += 1;
    }
    assert_eq!(flash.room(area), leave);
}

/// Inodes below the root until there are `count` inode ids in all, over the
/// areas from 1 on; the root is among those already there.
pub fn inodes_up_to(flash: &mut Flash, already: u32, count: u32) {
    for i in already..count {
        let record = Inode::new(0x1000_1000 + i, 0, ROOT, format!("f{i}").as_bytes()).bytes();
        assert!(put_anywhere(flash, &record));
    }
}

pub fn blocks_up_to(flash: &mut Flash, owner: u32, already: u32, count: u32) {
    for i in already..count {
        let previous = if i == 0 { NONE } else { BLOCK + i - 1 };
        let record = Block::new(BLOCK + i, 0, owner, previous, b"d").bytes();
        assert!(put_anywhere(flash, &record));
    }
}

pub fn put_anywhere(flash: &mut Flash, record: &[u8]) -> bool {
    (1..flash.areas.len() / 2).any(|area| flash.put(area, record))
}

fn unchanged_if_refused(number: u32, before: &[u8], after: &[u8]) -> u32 {
    assert!(number == 0 || before == after, "refusal {number} changed the image");
    number
}

/// Whether a record behind the root, in an area of 4,096, is acceptable: it is taken, and
/// nothing of it is damage.
pub fn accepted(record: &[u8]) -> bool {
    let mut flash = rooted(4096);
    assert!(flash.put(1, record));
    let r = report(&flash);
    assert_eq!(r.number, 0);
    let taken = (r.stretches, r.skipped) == (0, 0);
    assert!(taken || r.skipped > 0);
    assert_eq!(taken, Record::acceptable(record).is_some());
    taken
}

pub fn report(flash: &Flash) -> Report {
    let report = calls::report(&flash.image, &flash.areas);
    if report.number != 0 {
        assert_eq!(report, Report { number: report.number, ..Report::default() });
    }
    report
}

pub fn mount(flash: &Flash) -> u32 {
    report(flash).number
}

/// The first damage by a report that answers 0: offset and length.
pub fn first(flash: &Flash) -> (u32, u32) {
    let r = report(flash);
    assert_eq!(r.number, 0);
    (r.first_offset, r.first_length)
}

pub fn area_report(flash: &Flash, index: u32, stretch: u32) -> AreaReport {
    let report = calls::area_report(&flash.image, &flash.areas, index, stretch);
    if report.number != 0 {
        assert_eq!(report, AreaReport { number: report.number, ..AreaReport::default() });
    }
    report
}

/// The damage stretches of an area, asked for one after the other.
pub fn stretches(flash: &Flash, index: u32) -> Vec<(u32, u32)> {
    let asked = |stretch| area_report(flash, index, stretch);
    (0..asked(0).stretches).map(|stretch| (asked(stretch).offset, asked(stretch).length)).collect()
}

/// The answer of a listing into a buffer of this length, and what it leaves there.
pub fn tree_into(flash: &Flash, length: usize) -> (Tree, Vec<u8>) {
    let mut buffer = vec![0xa5; length];
    let answer = calls::tree(&flash.image, &flash.areas, &mut buffer);
    (answer, buffer)
}

/// The whole text of a listing, or its refusal. The answer is the same whatever the
/// buffer, which has as much of the text as fits and is left as it was behind it.
pub fn tree(flash: &Flash) -> Result<Vec<u8>, u32> {
    let (answer, text) = tree_into(flash, 102_400);
    let whole = answer.length as usize;
    assert!(answer.number == 0 || whole == 0);
    assert!(text[whole..].iter().all(|byte| *byte == 0xa5));
    for length in [0, 1, whole / 2, whole.saturating_sub(1), whole, whole + 1] {
        let (again, buffer) = tree_into(flash, length);
        let fits = whole.min(length);
        assert_eq!((again, &buffer[..fits]), (answer, &text[..fits]), "{length} bytes");
        assert!(buffer[fits..].iter().all(|byte| *byte == 0xa5), "{length} bytes");
    }
    match answer.number {
        0 => Ok(text[..whole].to_vec()),
        number => Err(number),
    }
}

/// The text of a listing that answers 0, with a `?` for each byte over 7F.
pub fn lines(flash: &Flash) -> String {
    let text = tree(flash).expect("it mounts");
    text.iter().map(|byte| if byte.is_ascii() { *byte as char } else { '?' }).collect()
}

pub fn lookup(flash: &Flash, path: &str) -> Lookup {
    calls::lookup(&flash.image, &flash.areas, b"", path.as_bytes())
}

pub fn find(flash: &Flash, path: &str) -> Result<u32, u32> {
    let found = lookup(flash, path);
    match found.number {
        0 => Ok(found.id),
        number => {
            assert_eq!((found.id, found.kind), (0, 0));
            Err(number)
        }
    }
}

pub fn create(flash: &mut Flash, path: &str, kind: u32) -> Result<u32, u32> {
    let before = flash.image.clone();
    let created = calls::create(&mut flash.image, &flash.areas, b"", path.as_bytes(), kind);
    match unchanged_if_refused(created.number, &before, &flash.image) {
        0 => Ok(created.id),
        number => {
            assert_eq!(created.id, 0);
            Err(number)
        }
    }
}

pub fn append(flash: &mut Flash, path: &str, data: &[u8]) -> u32 {
    let before = flash.image.clone();
    let number = calls::append(&mut flash.image, &flash.areas, b"", path.as_bytes(), data);
    unchanged_if_refused(number, &before, &flash.image)
}

pub fn overwrite(flash: &mut Flash, path: &str, offset: u32, data: &[u8]) -> u32 {
    overwrite_below(flash, "", path, offset, data)
}

pub fn overwrite_below(flash: &mut Flash, base: &str, path: &str, offset: u32, data: &[u8]) -> u32 {
    let (base, path) = (base.as_bytes(), path.as_bytes());
    let before = flash.image.clone();
    let number = calls::overwrite(&mut flash.image, &flash.areas, base, path, offset, data);
    unchanged_if_refused(number, &before, &flash.image)
}

pub fn unlink(flash: &mut Flash, path: &str) -> u32 {
    let before = flash.image.clone();
    let number = calls::unlink(&mut flash.image, &flash.areas, b"", path.as_bytes());
    unchanged_if_refused(number, &before, &flash.image)
}

pub fn rename(flash: &mut Flash, old: &str, new: &str) -> u32 {
    rename_below(flash, "", old, new)
}

pub fn rename_below(flash: &mut Flash, base: &str, old: &str, new: &str) -> u32 {
    let (base, old, new) = (base.as_bytes(), old.as_bytes(), new.as_bytes());
    let before = flash.image.clone();
    let number = calls::rename(&mut flash.image, &flash.areas, base, old, new);
    unchanged_if_refused(number, &before, &flash.image)
}

pub fn collect(flash: &mut Flash) -> u32 {
    let before = flash.image.clone();
    let number = calls::collect(&mut flash.image, &flash.areas);
    unchanged_if_refused(number, &before, &flash.image)
}

/// A read by handle and one by value, which must agree; a refused one leaves
/// buffer and handle.
pub fn read(flash: &Flash, id: u32, position: u32, length: usize) -> (Read, Vec<u8>) {
    let mut buffer = vec![0xa5; length];
    let mut other = vec![0xa5; length];
    let mut handle = Handle { id, position };
    let read = calls::read(&flash.image, &flash.areas, &mut handle, &mut buffer);
    let again = calls::read_at(&flash.image, &flash.areas, id, position, &mut other);
    assert_eq!((read, &buffer), (again, &other));
    assert_eq!(handle, Handle { id, position: position + read.given });
    assert!(buffer[read.given as usize..].iter().all(|byte| *byte == 0xa5));
    if read.number != 0 {
        assert_eq!((read.given, read.headers), (0, 0));
    }
    buffer.truncate(read.given as usize);
    (read, buffer)
}

/// All contents of the file at the path, or the refusal of open or read.
pub fn contents(flash: &Flash, path: &str) -> Result<Vec<u8>, u32> {
    let opened = calls::open(&flash.image, &flash.areas, b"", path.as_bytes());
    if opened.number != 0 {
        assert_eq!((opened.id, opened.position), (0, 0));
        return Err(opened.number);
    }
    assert_eq!(opened.position, 0);
    let (read, bytes) = read(flash, opened.id, 0, 70_000);
    match read.number {
        0 => Ok(bytes),
        number => Err(number),
    }
}

/// The bytes of one area.
pub fn area(flash: &Flash, area: usize) -> Vec<u8> {
    let start = flash.offset(area);
    flash.image[start..start + flash.length(area)].to_vec()
}

/// Asserts that an area holds this header and these bytes, and FF behind them.
pub fn holds(flash: &Flash, area_index: usize, header: [u8; 4], bytes: &[u8]) {
    let area = area(flash, area_index);
    assert_eq!(&area[20..24], &header, "version, count, reserved, id");
    assert_eq!(&area[24..24 + bytes.len()], bytes);
    assert!(area[24 + bytes.len()..].iter().all(|byte| *byte == 0xff));
}
