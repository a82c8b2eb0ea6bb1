//! "What a call is given", refusals 1 to 7 and their order, what counts, the
//! report.

use crate::calls::report as bare_report;
use nffs_model::forge::Flash;
use nffs_model::layout::{Inode, NONE, ROOT};

use crate::calls;
use crate::common::*;

fn with_list(list: &[u32]) -> u32 {
    bare_report(&rooted(128).image, list).number
}

#[test]
fn one_good_lists() {
    assert_eq!(with_list(&[0, 128, 128, 128]), 0);
    assert_eq!(with_list(&[128, 128, 0, 128]), 0);
    assert_eq!(with_list(&[0, 128, 128, 128, 9]), 0);
    assert_eq!(with_list(&[0, 128, 128, 128, 9, 0, 1, 1]), 0);
}

#[test]
fn one_bad_lists() {
    assert_eq!(with_list(&[]), 1);
    assert_eq!(with_list(&[0]), 1);
    assert_eq!(with_list(&[0, 0, 0, 128, 128, 128]), 1);
    assert_eq!(with_list(&[0, 127, 128, 128]), 1);
    assert_eq!(with_list(&[0, 128, 127, 128]), 1);
    assert_eq!(with_list(&[0, 128, 0, 128]), 1);
    assert_eq!(with_list(&[0, 128, 129, 128]), 1);
    assert_eq!(with_list(&[0, 128, 256, 128]), 1);
    assert_eq!(with_list(&[0, 128, 0xffff_ff80, 128]), 1);
    assert_eq!(with_list(&[0, 128, 128, 0xffff_ff80]), 1);
    assert_eq!(with_list(&[0, 128, 128, 65_537]), 1);
}

/// So many entries of 128 bytes, one behind the other.
fn entries(count: u32) -> Vec<u32> {
    (0..count).flat_map(|i| [128 * i, 128]).collect()
}

/// "descriptors to 16" (document 02, T-06).
#[test]
fn one_more_than_sixteen_entries() {
    let mut image = vec![0; 17 * 128];
    assert_eq!(calls::format(&mut image, &entries(17)), 1);
    assert!(image.iter().all(|byte| *byte == 0));
    assert_eq!(calls::format(&mut image, &entries(16)), 0);
    assert_eq!((0..16).map(|i| image[128 * i + 23]).collect::<Vec<u8>>(), sixteen_ids());
    assert_eq!(bare_report(&image, &entries(17)).number, 1);
    assert_eq!(bare_report(&image, &entries(16)).number, 0);
    let mut ended = entries(17);
    ended[2 * 16 + 1] = 0;
    assert_eq!(bare_report(&image, &ended).number, 0);
}

/// "The longest, first among equals, is scratch; the others get ids 0, 1, ..."
fn sixteen_ids() -> Vec<u8> {
    [255].into_iter().chain(0..15).collect()
}

/// Lists of up to 20 entries with the mark that ends them at each place: only
/// the entries before it decide, whatever stands behind it.
#[test]
fn one_by_the_entries_before_the_end() {
    let mut formatted = vec![0; 20 * 128];
    assert_eq!(calls::format(&mut formatted, &entries(16)), 0);
    for count in 0..=20 {
        for end in 0..=count {
            let mut list = entries(count);
            if end < count {
                list[2 * end as usize + 1] = 0;
            }
            let number = match end {
                1 => 3,
                2..=16 => 0,
                _ => 1,
            };
            assert_eq!(bare_report(&formatted, &list).number, number, "{end} of {count}");
            let mut image = vec![0; 20 * 128];
            assert_eq!(calls::format(&mut image, &list), number, "{end} of {count}");
            list.extend([0, 127, 5, 128, 0, 128]);
            let number = if end < count { number } else { 1 };
            assert_eq!(bare_report(&formatted, &list).number, number, "{end} of {count}");
        }
    }
}

/// One bad entry of sixteen, wherever it stands; two that overlap, whichever.
#[test]
fn one_bad_entry_of_sixteen() {
    let mut flash = Flash::of(&[128; 16]);
    flash.root(1);
    assert_eq!(mount(&flash), 0);
    for i in 0..16 {
        let bad = |offset: u32, length: u32| {
            let mut list = flash.areas.clone();
            list[2 * i..2 * i + 2].copy_from_slice(&[offset, length]);
            bare_report(&flash.image, &list).number
        };
        let offset = flash.areas[2 * i];
        assert_eq!((bad(offset, 127), bad(offset, 65_537)), (1, 1));
        assert_eq!((bad(15 * 128 + 1, 128), bad(0xffff_ff80, 128)), (1, 1));
        for other in (0..16).filter(|other| *other != i) {
            assert_eq!(bad(128 * other as u32, 128), 1, "{i} over {other}");
        }
    }
}

#[test]
fn one_image_too_long() {
    let mut flash = rooted(128);
    flash.image.resize(65_536, 0);
    assert_eq!(mount(&flash), 0);
    flash.image.push(0);
    assert_eq!(mount(&flash), 1);
    assert_eq!(calls::format(&mut flash.image, &flash.areas), 1);
    assert_eq!(bare_report(&[], &[0, 128]).number, 1);
}

#[test]
fn the_longest_area() {
    let mut image = vec![0; 65_536];
    assert_eq!(calls::format(&mut image, &[0, 65_536]), 3);
    assert_eq!(calls::format(&mut image, &[0, 128, 128, 65_408]), 0);
}

#[test]
fn one_before_three() {
    assert_eq!(bare_report(&[0; 256], &[0, 128, 64, 128]).number, 1);
    assert_eq!(bare_report(&[0; 256], &[0, 128, 128, 128]).number, 3);
    assert_eq!(calls::format(&mut [0; 256], &[0, 127]), 1);
    assert_eq!(calls::format(&mut [0; 256], &[0, 128]), 3);
    assert_eq!(calls::format(&mut [0; 256], &[]), 1);
}

#[test]
fn two_alone_and_before_three_and_four() {
    let mut flash = Flash::of(&[128, 128, 128]);
    flash.root(1);
    flash.head(2, 5, 0, 0);
    assert_eq!(mount(&flash), 2);
    flash.head(0, 0, 0, 7);
    assert_eq!(mount(&flash), 2);
    let mut short = Flash::of(&[128, 200, 200]);
    short.head(2, 0, 0, 0);
    assert_eq!(mount(&short), 2);
}

#[test]
fn three_alone_and_before_four() {
    let mut flash = rooted(128);
    flash.head(0, 0, 0, 1);
    assert_eq!(mount(&flash), 3);
    flash.head(0, 0, 0, 255);
    flash.head(1, 0, 0, 255);
    assert_eq!(mount(&flash), 3);
    let mut scratches = Flash::of(&[128, 200, 128]);
    scratches.head(2, 0, 0, 255);
    assert_eq!(mount(&scratches), 3);
}

/// "A descriptor without a valid header is passed over."
#[test]
fn a_descriptor_passed_over() {
    let mut flash = Flash::of(&[128, 128, 4096]);
    flash.root(1);
    assert_eq!(mount(&flash), 4);
    let version = flash.offset(2) + 20;
    flash.image[version] = 1;
    assert_eq!(mount(&flash), 0);
    flash.inode(2, A, 0, ROOT, b"unseen");
    assert_eq!(report(&flash).inodes, 1);
}

#[test]
fn four_alone_and_before_five_and_seven() {
    let mut flash = Flash::of(&[128, 129]);
    assert_eq!(mount(&flash), 4);
    flash.root(1);
    assert_eq!(mount(&flash), 4);
    let mut full = Flash::of(&[8191, 8192]);
    full.root(1);
    inodes_up_to(&mut full, 1, 257);
    assert_eq!(mount(&full), 4);
}

/// "Raise inodes to 256" (document 02, T-06).
#[test]
fn five_for_inodes() {
    let mut flash = rooted(8192);
    inodes_up_to(&mut flash, 1, 256);
    assert_eq!((mount(&flash), report(&flash).inodes), (0, 256));
    inodes_up_to(&mut flash, 256, 257);
    assert_eq!(mount(&flash), 5);
}

/// "blocks to 1,024" (document 02, T-06).
#[test]
fn five_for_blocks() {
    let mut flash = rooted(32_768);
    blocks_up_to(&mut flash, A, 0, 1024);
    assert_eq!(mount(&flash), 0);
    blocks_up_to(&mut flash, A, 1024, 1025);
    assert_eq!(mount(&flash), 5);
}

/// The tables are two: one that is full leaves the other its places.
#[test]
fn five_for_each_table_alone() {
    let mut flash = rooted(32_768);
    inodes_up_to(&mut flash, 1, 256);
    blocks_up_to(&mut flash, A, 0, 1024);
    assert_eq!((mount(&flash), report(&flash).inodes), (0, 256));
    let mut over = flash.clone();
    inodes_up_to(&mut over, 256, 257);
    assert_eq!(mount(&over), 5);
    blocks_up_to(&mut flash, A, 1024, 1025);
    assert_eq!(mount(&flash), 5);
}

/// Only ids that records bear are counted, versions once.
#[test]
fn five_counts_own_ids() {
    let mut flash = rooted(8192);
    inodes_up_to(&mut flash, 1, 255);
    flash.inode(1, A, 0, 77, b"parent without a record");
    flash.inode(1, A, 1, 78, b"another one");
    flash.block(1, BLOCK, 0, B, BLOCK + 1, b"owner and previous without one");
    assert_eq!((mount(&flash), report(&flash).inodes), (0, 256));
}

/// 5 comes before 6, even where the clash is met first.
#[test]
fn five_before_six() {
    let mut flash = rooted(8192);
    flash.inode(1, A, 0, ROOT, b"x");
    flash.inode(1, A, 0, ROOT, b"y");
    assert_eq!(mount(&flash), 6);
    inodes_up_to(&mut flash, 2, 256);
    assert_eq!(mount(&flash), 6);
    inodes_up_to(&mut flash, 256, 257);
    assert_eq!(mount(&flash), 5);
}

#[test]
fn five_before_seven() {
    let mut flash = Flash::of(&[8192, 8192]);
    inodes_up_to(&mut flash, 1, 257);
    assert_eq!(mount(&flash), 7);
    inodes_up_to(&mut flash, 257, 258);
    assert_eq!(mount(&flash), 5);
}

/// About any two versions of one id and sequence, in any order.
#[test]
fn six_about_versions_that_do_not_count() {
    let orders = [[5, 7, 5], [5, 5, 7], [7, 5, 5]];
    for sequences in orders {
        let mut flash = rooted(4096);
        for (i, sequence) in sequences.into_iter().enumerate() {
            flash.inode(1, A, sequence, ROOT, &[b'a' + i as u8]);
        }
        assert_eq!(mount(&flash), 6, "{sequences:?}");
    }
}

#[test]
fn six_about_all_bytes() {
    let mut flash = rooted(4096);
    let inode = Inode::new(A, 0, ROOT, b"a");
    flash.put(1, &inode.bytes());
    flash.put(1, &inode.bytes());
    assert_eq!(mount(&flash), 0);
    for other in [Inode { parent: 1, ..inode.clone() }, Inode { name: b"b".to_vec(), ..inode }] {
        let mut flash = flash.clone();
        flash.put(1, &other.bytes());
        assert_eq!(mount(&flash), 6);
    }
}

#[test]
fn six_across_areas_and_of_blocks() {
    let mut flash = Flash::of(&[256, 256, 256]);
    flash.root(1);
    flash.root(2);
    flash.block(1, BLOCK, 4, A, NONE, b"one");
    flash.block(2, BLOCK, 5, A, NONE, b"two");
    assert_eq!(mount(&flash), 0);
    flash.block(2, BLOCK, 4, A, NONE, b"six");
    assert_eq!(mount(&flash), 6);
}

#[test]
fn six_before_seven_alone() {
    let mut flash = Flash::of(&[128, 128]);
    assert_eq!(mount(&flash), 7);
    flash.inode(1, A, 0, ROOT, b"x");
    assert_eq!(mount(&flash), 7);
    flash.inode(1, A, 0, ROOT, b"y");
    assert_eq!(mount(&flash), 6);
}

#[test]
fn seven_before_eight_and_seventeen() {
    let mut flash = Flash::of(&[256, 128]);
    assert_eq!(find(&flash, ""), Err(7));
    assert_eq!(collect(&mut flash), 7);
    assert_eq!(append(&mut flash, "/a", &[0; 9000]), 7);
    assert_eq!(create(&mut flash, "/", 1), Err(7));
    assert_eq!(unlink(&mut flash, "/"), 7);
    assert_eq!(read(&flash, A, 0, 4).0.number, 7);
}

/// Scratch is never read: not for 5, 6, 7, the report or contents.
#[test]
fn scratch_is_never_read() {
    let mut flash = rooted(8192);
    flash.inode(1, A, 0, ROOT, b"a");
    for i in 0..300 {
        assert!(flash.inode(0, A + i, 0, ROOT, b"s"));
    }
    let r = report(&flash);
    assert_eq!((r.number, r.inodes, r.live, r.stretches, r.skipped), (0, 2, 2, 0, 0));
    assert_eq!(first(&flash), (0, 0));
    let mut rootless = Flash::of(&[128, 128]);
    rootless.root(0);
    assert_eq!(mount(&rootless), 7);
}

/// "the one with the greatest sequence among all records in file areas",
/// wherever it lies.
#[test]
fn the_greatest_sequence_counts() {
    for (first, second) in [(1, 2), (2, 1)] {
        let mut flash = Flash::of(&[256, 256, 256]);
        flash.root(1);
        flash.inode(first, A, 9, ROOT, b"new");
        flash.inode(second, A, 8, ROOT, b"old");
        assert_eq!(find(&flash, "/new"), Ok(A));
        assert_eq!(find(&flash, "/old"), Err(9));
    }
    let mut flash = rooted(256);
    flash.inode(1, A, LAST, ROOT, b"last");
    flash.inode(1, A, 0, ROOT, b"first");
    assert_eq!(find(&flash, "/last"), Ok(A));
}

/// Live, dead and orphan inodes in the report.
#[test]
fn fates() {
    let mut flash = rooted(4096);
    flash.inode(1, 1, 0, ROOT, b"live");
    flash.inode(1, A, 0, 1, b"live too");
    flash.inode(1, 2, 0, ROOT, b"dies");
    flash.delete(1, 2, 1);
    flash.inode(1, B, 0, 2, b"dead with it");
    flash.inode(1, 3, 0, 99, b"missing parent");
    flash.inode(1, 4, 0, 5, b"loop");
    flash.inode(1, 5, 0, 4, b"loop");
    flash.inode(1, 6, 0, 6, b"own parent");
    flash.inode(1, 7, 0, 4, b"into the loop");
    let r = report(&flash);
    assert_eq!((r.number, r.inodes, r.live), (0, 10, 3));
}

/// "Id 0: parent NONE" is no deletion record.
#[test]
fn the_root_is_live_in_every_version() {
    let mut flash = rooted(256);
    flash.inode(1, ROOT, 7, NONE, b"");
    assert_eq!(find(&flash, "/"), Ok(ROOT));
    assert_eq!((report(&flash).inodes, report(&flash).live), (1, 1));
}

/// A deletion record may carry a name, which means nothing.
#[test]
fn a_deletion_record_with_a_name() {
    let mut flash = rooted(256);
    flash.inode(1, A, 0, ROOT, b"a");
    flash.inode(1, A, 1, NONE, b"a");
    assert_eq!(find(&flash, "/a"), Err(9));
    assert_eq!((report(&flash).inodes, report(&flash).live), (2, 1));
}

/// An older record after the deletion record brings nothing back.
#[test]
fn an_old_record_read_last() {
    let mut flash = rooted(256);
    flash.delete(1, A, 1);
    flash.inode(1, A, 0, ROOT, b"a");
    assert_eq!(find(&flash, "/a"), Err(9));
    flash.inode(1, A, 2, ROOT, b"a");
    assert_eq!(find(&flash, "/a"), Ok(A));
}

#[test]
fn damage_over_file_areas() {
    let mut flash = Flash::of(&[256, 256, 256]);
    flash.root(1);
    flash.put(1, b"xx");
    flash.inode(1, A, 0, ROOT, b"a");
    flash.put(1, b"yyy");
    flash.put(2, b"zzzz");
    flash.put(0, b"scratch");
    let r = report(&flash);
    assert_eq!((r.stretches, r.skipped), (3, 9));
    assert_eq!(first(&flash), (256 + 44, 2));
}
