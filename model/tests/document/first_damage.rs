//! "Say where the damage is" (document 02, T-08): the first damage of an area's
//! reading, and the first that a report passes on.

use nffs_model::area;
use nffs_model::forge::Flash;
use nffs_model::layout::{Inode, ROOT};

use crate::calls;
use crate::common::*;

/// The first damage by the reading of an area, and by its report, which must tell
/// the same: the offset from the area's start, and the length.
fn first_of(flash: &Flash, index: usize) -> (usize, usize) {
    let first = area::read(&area(flash, index)).first_damage();
    let told = area_report(flash, index as u32, 0);
    assert_eq!((told.number, told.offset as usize), (0, first.offset));
    assert_eq!(told.length as usize, first.length);
    (first.offset, first.length)
}

/// Areas at these offsets of an image of zeros, in this order, with the ids 255,
/// 0, 1, ...
fn placed(length: u32, offsets: &[u32]) -> Flash {
    let end = offsets.iter().max().map_or(0, |last| last + length);
    let areas = offsets.iter().flat_map(|offset| [*offset, length]).collect();
    let mut flash = Flash::over(vec![0; end as usize], areas);
    for area in 0..offsets.len() {
        flash.head(area, 0, 0, (area as u8).wrapping_sub(1));
    }
    flash
}

#[test]
fn the_fresh_pair() {
    assert_eq!(first(&formatted(&[4096, 4096])), (0, 0));
    assert_eq!(first(&formatted(&[128; 16])), (0, 0));
}

/// "One bit of byte 70 flipped: 1 stretch, 34 bytes", and "of byte 103 instead: 1
/// stretch, 29 bytes": where these are, in the area's reading.
#[test]
fn the_flips_in_the_areas_reading() {
    assert_eq!(first_of(&bench(), 1), (0, 0));
    for (byte, damage) in [(70, (65, 34)), (103, (99, 29))] {
        for bit in 0..8 {
            let mut flash = bench();
            flash.image[4096 + byte] ^= 1 << bit;
            assert_eq!(first_of(&flash, 1), damage);
            assert_eq!(first_of(&flash, 0), (0, 0));
        }
    }
}

/// In the report they are offsets in the image, wherever the area lies in it.
#[test]
fn the_flips_in_a_report() {
    let whole = bench().image;
    for (scratch, file) in [(0, 4096), (4096, 0), (4100, 3), (0, 5000), (57_344, 61_440)] {
        let mut flash = placed(4096, &[scratch, file]);
        let start = file as usize;
        flash.image[start..start + 4096].copy_from_slice(&whole[4096..]);
        assert_eq!(first(&flash), (0, 0));
        for (byte, offset, length) in [(70, 65, 34), (103, 99, 29)] {
            let mut flipped = flash.clone();
            flipped.image[start + byte] ^= 0x10;
            assert_eq!(first(&flipped), (file + offset, length));
            assert_eq!(first_of(&flipped, 1), (offset as usize, length as usize));
        }
    }
}

/// Both flips are one stretch of both blocks. With one in "a" before them there
/// are two, and the shorter one is the first.
#[test]
fn two_flips_at_once() {
    let mut flash = bench();
    flash.image[4096 + 70] ^= 1;
    flash.image[4096 + 103] ^= 1;
    assert_eq!((first_of(&flash, 1), first(&flash)), ((65, 63), (4096 + 65, 63)));
    let mut apart = bench();
    apart.image[4096 + 50] ^= 1;
    apart.image[4096 + 103] ^= 1;
    assert_eq!((first_of(&apart, 1), first(&apart)), ((44, 21), (4096 + 44, 21)));
    assert_eq!(stretches(&apart, 1), [(44, 21), (99, 29)]);
}

/// Of several stretches the first, be it the longest or the shortest.
#[test]
fn the_first_of_an_area() {
    for lengths in [[1, 5, 9], [9, 5, 1], [5, 9, 1], [3, 3, 3]] {
        let mut flash = rooted(512);
        for length in lengths {
            flash.put(1, &vec![0; length]);
            flash.inode(1, A, length as u32, ROOT, b"a");
        }
        assert_eq!(report(&flash).stretches, 3);
        assert_eq!(first(&flash), (512 + 44, lengths[0] as u32));
    }
}

/// "Of a last stretch the free part is left out", of its length; its offset stays.
#[test]
fn the_free_part_left_out() {
    for (bytes, length) in [
        (&b"x"[..], 1),
        (b"x\xff", 1),
        (b"\xffx", 2),
        (b"\xff\xff\xffx\xff\xffx\xff\xff", 7),
        (b"\0\0\0", 3),
    ] {
        let mut flash = rooted(128);
        flash.put(1, bytes);
        assert_eq!(first(&flash), (128 + 44, length));
        assert_eq!(area_report(&flash, 1, 0).free, 128 - 44 - length);
        // Before a record nothing of it is free.
        flash.inode(1, A, 0, ROOT, b"a");
        assert_eq!(first(&flash), (128 + 44, bytes.len() as u32));
    }
}

/// Free space alone is no damage: its place isn't told.
#[test]
fn free_space_is_not_told() {
    let flash = rooted(128);
    assert_eq!((first(&flash), first_of(&flash, 1)), ((0, 0), (0, 0)));
    let mut full = rooted(128);
    fill(&mut full, 1, 0);
    assert_eq!((first(&full), area_report(&full, 1, 0).free), ((0, 0), 0));
}

/// A last stretch that has no free part, up to the area's last byte; and FF before
/// a record that ends the area.
#[test]
fn up_to_the_end_of_the_area() {
    let mut flash = rooted(128);
    flash.put(1, &[0; 84]);
    assert_eq!(first(&flash), (128 + 44, 84));
    let mut last = rooted(128);
    last.image[255] = 0;
    assert_eq!(first(&last), (128 + 44, 84));
    let mut before = rooted(128);
    before.skip(1, 64);
    before.root(1);
    assert_eq!(first(&before), (128 + 44, 64));
}

/// Right behind the header, in an area without a record, or before its records.
#[test]
fn damage_at_24() {
    for more in [false, true] {
        let mut flash = Flash::of(&[128; 3]);
        flash.root(1);
        flash.put(2, b"torn");
        if more {
            flash.inode(2, A, 0, ROOT, b"a");
        }
        assert_eq!((first(&flash), first_of(&flash, 2)), ((256 + 24, 4), (24, 4)));
    }
}

/// "over the file areas in descriptor order": the first that has any, though
/// others come before it.
#[test]
fn the_first_file_area_with_damage() {
    for damaged in 1..16 {
        let mut flash = Flash::of(&[128; 16]);
        flash.root(1);
        for area in damaged..16 {
            flash.put(area, &[0; 8][..1 + area % 8]);
        }
        let at = if damaged == 1 { 44 } else { 24 };
        assert_eq!(first(&flash), (128 * damaged as u32 + at, 1 + damaged as u32 % 8));
    }
}

/// "the first in descriptor order, not the lowest offset": three damaged file
/// areas in each order of their descriptors, whatever their ids.
#[test]
fn descriptors_not_in_order_of_offset() {
    let orders = [[0, 1, 2], [0, 2, 1], [1, 0, 2], [1, 2, 0], [2, 0, 1], [2, 1, 0]].map(|order| {
        let places = order.map(|place: u32| 128 + 128 * place);
        [0, places[0], places[1], places[2]]
    });
    for offsets in orders {
        let mut flash = placed(128, &offsets);
        flash.root(1);
        for (area, id) in [(1, 9), (2, 5), (3, 7)] {
            flash.head(area, 0, 0, id);
        }
        flash.put(1, b"one");
        flash.put(2, b"two22");
        flash.put(3, b"three33");
        assert_eq!(first(&flash), (offsets[1] + 44, 3), "{offsets:?}");
        flash.image[offsets[1] as usize + 44..][..3].fill(0xff);
        assert_eq!(first(&flash), (offsets[2] + 24, 5), "{offsets:?}");
    }
}

/// "Damage only in scratch ... is not reported", wherever scratch stands.
#[test]
fn damage_in_scratch_alone() {
    for offsets in [[0, 256, 512], [512, 0, 256]] {
        let mut flash = placed(256, &offsets);
        flash.root(1);
        flash.put(0, b"torn");
        flash.inode(0, A, 0, ROOT, b"a");
        let r = report(&flash);
        assert_eq!((r.number, r.stretches, r.skipped), (0, 0, 0));
        assert_eq!(first(&flash), (0, 0));
        assert_eq!(first_of(&flash, 0), (24, 4));
        flash.put(2, b"damage");
        assert_eq!(first(&flash), (offsets[2] + 24, 6));
    }
}

/// Nor is damage only "in a passed-over region", whatever makes the header invalid.
#[test]
fn damage_passed_over_alone() {
    for (byte, value) in
        [(0, 0), (5, 0), (15, 0xff), (16, 1), (17, 0), (20, 1), (22, 1), (22, 0xff)]
    {
        let mut flash = Flash::of(&[256; 4]);
        flash.root(2);
        flash.put(1, b"torn");
        assert_eq!(first(&flash), (256 + 24, 4));
        flash.image[256 + byte] = value;
        assert_eq!(report(&flash).stretches, 0, "byte {byte}");
        assert_eq!(first(&flash), (0, 0));
        assert_eq!(first_of(&flash, 1), (24, 4));
        flash.put(3, b"damage");
        assert_eq!(first(&flash), (768 + 24, 6));
    }
}

/// "0 in a refused report": a damaged volume that is refused with each number.
#[test]
fn nothing_in_a_refused_report() {
    let mut flash = Flash::of(&[256; 3]);
    flash.root(1);
    flash.put(1, b"torn");
    assert_eq!(first(&flash), (256 + 44, 4));
    let refused = |flash: &Flash, number: u32| {
        let r = report(flash);
        assert_eq!((r.number, r.first_offset, r.first_length), (number, 0, 0));
    };
    let mut one = flash.clone();
    one.areas[5] = 257;
    refused(&one, 1);
    let mut two = flash.clone();
    two.head(2, 0, 0, 0);
    refused(&two, 2);
    let mut three = flash.clone();
    three.head(2, 0, 0, 255);
    refused(&three, 3);
    let mut four = Flash::of(&[128, 256]);
    four.root(1);
    four.put(1, b"torn");
    refused(&four, 4);
    let mut five = rooted(8192);
    five.put(1, b"torn");
    inodes_up_to(&mut five, 1, 257);
    refused(&five, 5);
    let mut six = flash.clone();
    six.inode(1, A, 0, ROOT, b"x");
    six.inode(1, A, 0, ROOT, b"y");
    refused(&six, 6);
    let mut seven = flash;
    seven.image[256 + 24] ^= 1;
    refused(&seven, 7);
}

/// Collection leaves the damage behind: then there is none.
#[test]
fn gone_after_a_collection() {
    let mut flash = bench();
    flash.image[4096 + 103] ^= 1;
    assert_eq!(first(&flash), (4096 + 99, 29));
    assert_eq!(collect(&mut flash), 0);
    assert_eq!(first(&flash), (0, 0));
    assert_eq!(contents(&flash, "/a"), Ok(vec![0x41; 10]));
}

/// A torn append, as power lost in it leaves one: the record's first bytes.
#[test]
fn a_torn_record() {
    let record = Inode::new(B, 0, ROOT, b"b").bytes();
    assert!(!record.contains(&0xff));
    for torn in 1..record.len() {
        let mut flash = bench();
        flash.put(1, &record[..torn]);
        assert_eq!(first(&flash), (4096 + 128, torn as u32));
    }
}

/// The call itself, under a list with entries behind its end.
#[test]
fn a_list_that_ends_early() {
    let mut flash = bench();
    flash.image[4096 + 70] ^= 1;
    let list = [0, 4096, 4096, 4096, 7, 0, 0, 128];
    let r = calls::report(&flash.image, &list);
    assert_eq!((r.number, r.first_offset, r.first_length), (0, 4161, 34));
}
