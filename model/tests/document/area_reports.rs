//! The report of one area (T-08): its header, what the reading of its bytes comes
//! to, whatever its kind, and a damage stretch that is asked for by number.

use nffs_model::forge::Flash;
use nffs_model::layout::{Block, Inode, NONE, ROOT};
use nffs_model::AreaReport;

use crate::calls;
use crate::common::*;

/// "kind: 0 without a valid header (the area is passed over), 1 a file area, 2 a
/// scratch area."
const PASSED_OVER: u32 = 0;
const FILE: u32 = 1;
const SCRATCH: u32 = 2;

const REFUSED: AreaReport = AreaReport {
    number: 1,
    kind: 0,
    id: 0,
    count: 0,
    records: 0,
    stretches: 0,
    skipped: 0,
    free: 0,
    offset: 0,
    length: 0,
};

/// Records, stretches, skipped and free bytes.
fn counts(report: AreaReport) -> [u32; 4] {
    [report.records, report.stretches, report.skipped, report.free]
}

fn header(report: AreaReport) -> [u32; 3] {
    [report.kind, report.id, report.count]
}

/// An area that reads as two records and three stretches, 12 bytes in all, with a
/// free part behind the last; 256 bytes long.
fn torn(flash: &mut Flash, area: usize) {
    flash.put(area, b"xyz");
    flash.inode(area, A, 0, ROOT, b"a");
    flash.put(area, b"12345");
    flash.block(area, BLOCK, 0, A, NONE, b"data");
    flash.put(area, b"\xff\xff\xffq");
}

const TORN: [u32; 4] = [2, 3, 12, 256 - 24 - 21 - 28 - 12];
const STRETCHES: [(u32, u32); 3] = [(24, 3), (48, 5), (81, 4)];

/// The bench's volume, every number of it.
#[test]
fn the_bench_volume() {
    let flash = bench();
    let clean = AreaReport { number: 0, ..REFUSED };
    let scratch = AreaReport { kind: SCRATCH, id: 255, free: 4072, ..clean };
    let file = AreaReport { kind: FILE, records: 4, free: 3968, ..clean };
    for stretch in [0, 1, u32::MAX] {
        assert_eq!(area_report(&flash, 0, stretch), scratch);
        assert_eq!(area_report(&flash, 1, stretch), file);
        assert_eq!(area_report(&flash, 2, stretch), REFUSED);
    }
    for (byte, offset, length) in [(70, 65, 34), (103, 99, 29)] {
        let mut flipped = bench();
        flipped.image[4096 + byte] ^= 1;
        let damaged = AreaReport { records: 3, stretches: 1, skipped: length, ..file };
        assert_eq!(area_report(&flipped, 1, 0), AreaReport { offset, length, ..damaged });
        assert_eq!(area_report(&flipped, 1, 1), damaged);
        assert_eq!(area_report(&flipped, 1, u32::MAX), damaged);
        assert_eq!(area_report(&flipped, 0, 0), scratch);
    }
}

/// "id, count: the header's id byte and collection count"; "Id of a scratch area:
/// 255."
#[test]
fn every_id_and_every_count() {
    for value in 0..=255 {
        let mut flash = rooted(128);
        flash.head(1, 3, 0, value);
        let kind = if value == 255 { SCRATCH } else { FILE };
        assert_eq!(header(area_report(&flash, 1, 0)), [kind, u32::from(value), 3]);
        flash.head(1, value, 0, 7);
        assert_eq!(header(area_report(&flash, 1, 0)), [FILE, 7, u32::from(value)]);
        flash.head(1, value, 0, 255);
        assert_eq!(header(area_report(&flash, 1, 0)), [SCRATCH, 255, u32::from(value)]);
        assert_eq!(counts(area_report(&flash, 1, 0)), [1, 0, 0, 84]);
    }
}

/// Without a valid header: kind, id and count are 0, and the area is read all the
/// same, from byte 24 on. Only count and id may be others.
#[test]
fn every_byte_of_a_header() {
    for byte in 0..24 {
        for value in [0, 1, 0x80, 0xff] {
            let mut flash = Flash::of(&[256; 2]);
            torn(&mut flash, 1);
            flash.head(1, 9, 0, 5);
            let old = flash.image[256 + byte];
            flash.image[256 + byte] = value;
            let told = area_report(&flash, 1, 1);
            let expected = match byte {
                _ if old == value => [FILE, 5, 9],
                21 => [FILE, 5, u32::from(value)],
                23 if value == 255 => [SCRATCH, 255, 9],
                23 => [FILE, u32::from(value), 9],
                _ => [PASSED_OVER, 0, 0],
            };
            assert_eq!(header(told), expected, "byte {byte} is {value}");
            assert_eq!((counts(told), (told.offset, told.length)), (TORN, STRETCHES[1]));
        }
    }
}

/// T-14: every reserved byte of a header.
#[test]
fn every_reserved_byte() {
    for reserved in 0..=255 {
        for (id, kind) in [(5, FILE), (255, SCRATCH)] {
            let mut flash = Flash::of(&[256; 2]);
            torn(&mut flash, 1);
            flash.head(1, 9, reserved, id);
            let valid = [kind, u32::from(id), 9];
            let expected = if reserved == 0 { valid } else { [PASSED_OVER, 0, 0] };
            assert_eq!(header(area_report(&flash, 1, 0)), expected);
            assert_eq!(counts(area_report(&flash, 1, 0)), TORN);
        }
    }
}

/// "offset, length: of damage stretch number `stretch` ...; both 0 if there are not
/// so many." Nothing else turns on it.
#[test]
fn each_stretch() {
    let mut flash = Flash::of(&[256; 3]);
    flash.root(1);
    torn(&mut flash, 0);
    torn(&mut flash, 2);
    for index in [0, 2] {
        assert_eq!(stretches(&flash, index), STRETCHES);
        let first = area_report(&flash, index, 0);
        assert_eq!(counts(first), TORN);
        for stretch in [1, 2, 3, 4, 255, 256, 257, 0x1_0000, 0x8000_0000, u32::MAX] {
            let (offset, length) = STRETCHES.get(stretch as usize).copied().unwrap_or((0, 0));
            assert_eq!(area_report(&flash, index, stretch), AreaReport { offset, length, ..first });
        }
    }
}

/// "1 where check 1 of document 01 fails for the image and the list": each way by
/// itself, for every entry, though the entry asked for is good.
#[test]
fn one_for_check_1() {
    let flash = rooted(128);
    let bad: [&[u32]; 12] = [
        &[],
        &[0],
        &[0, 0, 0, 128],
        &[0, 128, 128, 127],
        &[0, 127, 128, 128],
        &[0, 128, 129, 128],
        &[0, 128, 127, 128],
        &[0, 128, 0, 128],
        &[0, 128, 0xffff_ff80, 128],
        &[0, 128, 128, 0xffff_ff80],
        &[0, 128, 128, 65_537],
        &[0, 128, 256, 128],
    ];
    for list in bad {
        for index in [0, 1, 2, u32::MAX] {
            for stretch in [0, 1, u32::MAX] {
                assert_eq!(calls::area_report(&flash.image, list, index, stretch), REFUSED);
            }
        }
    }
    let seventeen: Vec<u32> = (0..17).flat_map(|i| [128 * i, 128]).collect();
    for index in [0, 8, 15, 16, 17] {
        let told = |list: &[u32]| calls::area_report(&[0xff; 17 * 128], list, index, 0).number;
        assert_eq!(told(&seventeen), 1);
        assert_eq!(told(&seventeen[..32]), u32::from(index > 15));
    }
}

#[test]
fn one_for_an_image_too_long() {
    let mut flash = rooted(128);
    flash.image.resize(65_536, 0);
    assert_eq!(area_report(&flash, 1, 0).number, 0);
    flash.image.push(0);
    for index in [0, 1, 2] {
        assert_eq!(area_report(&flash, index, 0), REFUSED);
    }
    assert_eq!(calls::area_report(&[], &[0, 128], 0, 0), REFUSED);
}

/// "or where the list has no entry `index`": one beyond it, the mark that ends it,
/// an entry behind the mark, and far beyond.
#[test]
fn one_beyond_the_list() {
    let flash = Flash::of(&[128; 16]);
    let image = &flash.image;
    for count in 1..=16 {
        let list = &flash.areas[..2 * count];
        let ended = [list, &[0, 0, 1920, 128, 0, 128]].concat();
        for index in 0..20 {
            let number = u32::from(index as usize >= count);
            for list in [list, &ended] {
                let told = calls::area_report(image, list, index, 0);
                assert_eq!(told.number, number, "{index} of {count}");
                assert_eq!(told == REFUSED, number == 1);
            }
        }
        for index in [255, 256, 0x1_0000, 0x8000_0000, u32::MAX] {
            assert_eq!(calls::area_report(image, list, index, 0), REFUSED);
        }
    }
}

/// "No other check is made": the areas of a volume that a report refuses with 2 to
/// 7 answer 0, and so does a list of one area.
#[test]
fn nothing_else_refuses() {
    let tells = |flash: &Flash, number: u32, kinds: &[u32]| {
        assert_eq!(mount(flash), number);
        let told = |index| area_report(flash, index, 0);
        let indices = 0..flash.areas.len() as u32 / 2;
        assert!(indices.clone().all(|index| told(index).number == 0), "{number}");
        assert_eq!(indices.map(|index| told(index).kind).collect::<Vec<_>>(), kinds, "{number}");
    };
    let mut flash = Flash::of(&[256; 3]);
    flash.root(1);
    torn(&mut flash, 2);
    tells(&flash, 0, &[SCRATCH, FILE, FILE]);
    let mut two = flash.clone();
    two.head(2, 0, 0, 0);
    tells(&two, 2, &[SCRATCH, FILE, FILE]);
    let mut three = flash.clone();
    three.head(0, 0, 0, 9);
    tells(&three, 3, &[FILE, FILE, FILE]);
    three.head(0, 0, 0, 255);
    three.head(1, 0, 0, 255);
    tells(&three, 3, &[SCRATCH, SCRATCH, FILE]);
    assert_eq!(stretches(&three, 2), STRETCHES);
    let mut four = Flash::of(&[128, 256]);
    torn(&mut four, 1);
    tells(&four, 4, &[SCRATCH, FILE]);
    assert_eq!(counts(area_report(&four, 1, 0)), TORN);
    let mut six = flash.clone();
    six.inode(1, B, 0, ROOT, b"x");
    six.inode(1, B, 0, ROOT, b"y");
    tells(&six, 6, &[SCRATCH, FILE, FILE]);
    assert_eq!(counts(area_report(&six, 1, 0)), [3, 0, 0, 256 - 24 - 20 - 42]);
    let mut seven = flash;
    seven.image[256 + 24] ^= 1;
    tells(&seven, 7, &[SCRATCH, FILE, FILE]);
    assert_eq!(stretches(&seven, 1), [(24, 20)]);
    let mut single = rooted(256);
    single.areas.truncate(2);
    tells(&single, 3, &[SCRATCH]);
}

/// 5: more ids than the tables have places, which are records all the same.
#[test]
fn more_records_than_places() {
    let mut inodes = rooted(8192);
    inodes_up_to(&mut inodes, 1, 300);
    assert_eq!((mount(&inodes), area_report(&inodes, 1, 0).records), (5, 300));
    let mut blocks = rooted(32_768);
    blocks_up_to(&mut blocks, A, 0, 1200);
    let told = area_report(&blocks, 1, 0);
    assert_eq!(mount(&blocks), 5);
    assert_eq!(counts(told), [1201, 0, 0, 32_768 - 44 - 1200 * 25]);
}

/// Images that no call wrote: erased, zeros, and areas without a header at all.
#[test]
fn no_file_system() {
    let areas = [0, 128, 200, 300];
    for (byte, expected) in [(0xff, [0, 0, 0, 1]), (0, [0, 1, 1, 0]), (0x41, [0, 1, 1, 0])] {
        let image = vec![byte; 500];
        for (index, rest) in [(0, 104), (1, 276)] {
            let told = calls::area_report(&image, &areas, index, 0);
            let [records, stretches, skipped, free] = expected;
            assert_eq!(header(told), [PASSED_OVER, 0, 0]);
            assert_eq!(counts(told), [records, stretches, skipped * rest, free * rest]);
            let first = if stretches == 1 { (24, rest) } else { (0, 0) };
            assert_eq!((told.offset, told.length), first);
        }
    }
}

/// Every record that is taken is counted: old versions, equal ones, deletions,
/// orphans, blocks of nobody.
#[test]
fn every_record_counts() {
    let mut flash = rooted(512);
    flash.inode(1, A, 0, ROOT, b"a");
    flash.inode(1, A, 0, ROOT, b"a");
    flash.inode(1, A, 1, ROOT, b"b");
    flash.delete(1, A, 2);
    flash.inode(1, 9, 0, 77, b"orphan");
    flash.block(1, BLOCK, 0, B, NONE, b"x");
    flash.block(1, BLOCK, 5, B, NONE, b"y");
    let taken = 20 + 3 * 21 + 20 + 26 + 2 * 25;
    assert_eq!(counts(area_report(&flash, 1, 0)), [8, 0, 0, 512 - 24 - taken]);
    assert_eq!(report(&flash).inodes, 3);
}

/// Free space is what of the last stretch is FF: FF bytes of a record that ends the
/// area aren't, nor those before a record.
#[test]
fn no_free_space() {
    let mut record = Flash::of(&[128; 2]);
    record.block(1, BLOCK, 0, A, NONE, &[0xff; 80]);
    assert_eq!(counts(area_report(&record, 1, 0)), [1, 0, 0, 0]);
    let mut before = Flash::of(&[128; 2]);
    before.skip(1, 84);
    before.root(1);
    assert_eq!(counts(area_report(&before, 1, 0)), [1, 1, 84, 0]);
    assert_eq!(stretches(&before, 1), [(24, 84)]);
    let mut zero = rooted(128);
    zero.image[255] = 0;
    assert_eq!(counts(area_report(&zero, 1, 0)), [1, 1, 84, 0]);
    let mut full = rooted(4096);
    fill(&mut full, 1, 0);
    assert_eq!(area_report(&full, 1, 0).free, 0);
    for leave in 1..60 {
        let mut flash = rooted(4096);
        fill(&mut flash, 1, leave);
        assert_eq!(area_report(&flash, 1, 0).free, leave as u32);
    }
}

/// The longest area, the whole image, and the shortest; more stretches than eight
/// bits number.
#[test]
fn the_longest_and_the_shortest_area() {
    let mut flash = Flash::of(&[65_536]);
    assert_eq!(counts(area_report(&flash, 0, 0)), [0, 0, 0, 65_512]);
    assert_eq!(header(area_report(&flash, 0, 0)), [SCRATCH, 255, 0]);
    let record = Inode::new(ROOT, 0, NONE, b"").bytes();
    let mut placed = 0;
    while flash.room(0) > record.len() {
        assert!(flash.put(0, b"x") && flash.put(0, &record));
        placed += 1;
    }
    assert_eq!(placed, 3119);
    let told = area_report(&flash, 0, 3118);
    assert_eq!(counts(told), [3119, 3119, 3119, 65_536 - 24 - 3119 * 21]);
    assert_eq!((told.offset, told.length), (24 + 3118 * 21, 1));
    assert_eq!(area_report(&flash, 0, 256).offset, 24 + 256 * 21);
    assert_eq!(area_report(&flash, 0, 3119).offset, 0);
    let shortest = rooted(128);
    assert_eq!(counts(area_report(&shortest, 1, 0)), [1, 0, 0, 84]);
}

/// A descriptor that cuts an area or reaches over it: its header isn't valid, and
/// what lies inside is read, from 24 behind its offset.
#[test]
fn descriptors_across_areas() {
    let mut flash = Flash::of(&[256; 2]);
    torn(&mut flash, 1);
    let told = |list: [u32; 2]| calls::area_report(&flash.image, &list, 0, 0);
    let shorter = told([256, 255]);
    assert_eq!((header(shorter), counts(shorter)), ([0; 3], [2, 3, 12, TORN[3] - 1]));
    let behind = told([257, 255]);
    assert_eq!((header(behind), counts(behind)), ([0; 3], [2, 3, 11, TORN[3]]));
    assert_eq!((behind.offset, behind.length), (24, 2));
    let both = told([0, 512]);
    assert_eq!((header(both), counts(both)), ([0; 3], [2, 3, 232 + 24 + 12, TORN[3]]));
    assert_eq!((both.offset, both.length), (24, 232 + 24 + 3));
    // Cut in its block.
    let cut = told([256, 128]);
    assert_eq!(counts(cut), [2, 3, 12, 128 - 24 - 21 - 28 - 12]);
    let block = Block::new(BLOCK, 0, A, NONE, b"data").bytes().len() as u32;
    let cut = told([150, 106 + 24 + 3 + 21 + 5 + block - 1]);
    assert_eq!((cut.records, cut.stretches), (1, 2));
}
