//! "Collect": refusal 17, the source, scratch, what is copied and what isn't.

use nffs_model::forge::Flash;
use nffs_model::layout::{Block, Inode, NONE, ROOT};

use crate::calls;
use crate::common::*;

fn inode(id: u32, sequence: u32, parent: u32, name: &[u8]) -> Vec<u8> {
    Inode::new(id, sequence, parent, name).bytes()
}

fn block(id: u32, sequence: u32, owner: u32, previous: u32, data: &[u8]) -> Vec<u8> {
    Block::new(id, sequence, owner, previous, data).bytes()
}

fn root() -> Vec<u8> {
    inode(ROOT, 0, NONE, b"")
}

/// Scratch (area 0) and two file areas of 512; the root is in area 2, and area
/// 1 is the source.
fn three() -> Flash {
    let mut flash = Flash::of(&[512, 512, 512]);
    flash.root(2);
    flash
}

/// Collects area 1 of `three` into area 0, which then holds these records.
fn collected(flash: &mut Flash, records: &[Vec<u8>]) {
    let untouched = area(flash, 2);
    assert_eq!(collect(flash), 0);
    holds(flash, 0, [0, 0, 0, 0], &records.concat());
    holds(flash, 1, [0, 1, 0, 255], &[]);
    assert_eq!(area(flash, 2), untouched);
}

#[test]
fn seventeen() {
    let mut flash = Flash::of(&[256, 255, 128]);
    flash.root(1);
    assert_eq!(collect(&mut flash), 17);
    let mut other = Flash::of(&[256, 255, 256]);
    other.root(1);
    assert_eq!(collect(&mut other), 0);
    holds(&other, 0, [0, 0, 0, 1], &[]);
    holds(&other, 2, [0, 1, 0, 255], &[]);
}

/// Scratch takes the source's id and keeps its own count; the source becomes
/// scratch with its count plus one.
#[test]
fn headers_after_a_collection() {
    let mut flash = rooted(128);
    flash.head(0, 9, 0, 255);
    flash.head(1, 4, 0, 3);
    assert_eq!(collect(&mut flash), 0);
    holds(&flash, 0, [0, 9, 0, 3], &root());
    holds(&flash, 1, [0, 5, 0, 255], &[]);
    assert_eq!(mount(&flash), 0);
}

#[test]
fn the_count_passes_from_255_to_0() {
    let mut flash = rooted(128);
    flash.head(1, 255, 0, 0);
    assert_eq!(collect(&mut flash), 0);
    holds(&flash, 1, [0, 0, 0, 255], &[]);
}

/// Scratch (area 0) of 256 and file areas from 1 on, each with its count and as
/// long as told; the root is in the last, and the ids are 0, 1, ...
fn counted(scratch: u8, areas: &[(u8, usize)]) -> Flash {
    let lengths: Vec<usize> = [256].into_iter().chain(areas.iter().map(|area| area.1)).collect();
    let mut flash = Flash::of(&lengths);
    flash.head(0, scratch, 0, 255);
    for (i, (count, _)) in areas.iter().enumerate() {
        flash.head(i + 1, *count, 0, i as u8);
    }
    flash.root(areas.len());
    flash
}

/// Collects, and answers which area was the source: it is scratch now, its count
/// is one more, and area 0, which keeps its count, has its id. The other headers
/// stay.
fn sourced(flash: &mut Flash) -> usize {
    let headers = |flash: &Flash| -> Vec<[u8; 4]> {
        let tail = |i: usize| area(flash, i)[20..24].try_into().expect("four bytes");
        (0..flash.areas.len() / 2).map(tail).collect()
    };
    let mut expected = headers(flash);
    assert_eq!(collect(flash), 0);
    let after = headers(flash);
    let source = after.iter().position(|header| header[3] == 255).expect("a scratch area");
    expected[0][3] = expected[source][3];
    expected[source] = [0, expected[source][1].wrapping_add(1), 0, 255];
    assert_eq!(after, expected);
    source
}

/// Which area is the source by the counts of areas as long as scratch.
fn source(counts: &[u8]) -> usize {
    let areas: Vec<(u8, usize)> = counts.iter().map(|count| (*count, 256)).collect();
    sourced(&mut counted(0, &areas))
}

/// "count a precedes count b when (b - a) taken modulo 256 is 1 to 127" (document
/// 02, T-14): two areas, either of them first.
#[test]
fn the_order_of_two_counts() {
    // 1: the first is the source in this order, 2: the second.
    for (counts, first) in [
        ([255, 0], 1),
        ([0, 255], 2),
        ([0, 128], 1),
        ([128, 0], 1),
        ([0, 127], 1),
        ([127, 0], 2),
        ([0, 129], 2),
        ([129, 0], 1),
        ([1, 128], 1),
        ([128, 1], 2),
        ([1, 129], 1),
        ([129, 1], 1),
        ([200, 71], 1),
        ([71, 200], 2),
        ([200, 72], 1),
        ([72, 200], 1),
        ([200, 73], 2),
        ([73, 200], 1),
        ([7, 7], 1),
        ([255, 255], 1),
    ] {
        assert_eq!(source(&counts), first, "{counts:?}");
    }
    for a in [0, 1, 100, 127, 128, 200, 255] {
        for b in 0..=255u8 {
            let b_precedes = (1..=127).contains(&(i32::from(a) - i32::from(b)).rem_euclid(256));
            assert_eq!(source(&[a, b]), if b_precedes { 2 } else { 1 }, "{a} and {b}");
        }
    }
}

/// "The source area is the first eligible one (as long as scratch), in descriptor
/// order, that no eligible area precedes".
#[test]
fn the_source_area() {
    for (counts, first) in [
        (&[3, 2, 2][..], 2),
        (&[2, 2, 2], 1),
        (&[9, 8, 7], 3),
        // across 255 to 0
        (&[255, 0, 1], 1),
        (&[1, 0, 255], 3),
        (&[1, 0, 254, 255, 254], 3),
        (&[3, 250, 1], 2),
        // 192 precedes 0, which precedes 64; 64 and 192 are 128 apart
        (&[64, 0, 192], 3),
        // 0 precedes 64, which precedes 128; 0 and 128 are 128 apart
        (&[64, 128, 0], 3),
        (&[128, 64, 0], 3),
        // 0 precedes 127, which precedes 128
        (&[128, 0, 127], 2),
        // none precedes any: 128 apart
        (&[128, 0, 128], 1),
        (&[0, 128, 0, 128], 1),
        (&[5], 1),
    ] {
        assert_eq!(source(counts), first, "{counts:?}");
    }
}

/// "if there is none, the first eligible one".
#[test]
fn every_area_preceded() {
    // 0 precedes 100, that 200, and that 0: in any order the first.
    for counts in
        [[0, 100, 200], [0, 200, 100], [100, 0, 200], [100, 200, 0], [200, 0, 100], [200, 100, 0]]
    {
        assert_eq!(source(&counts), 1, "{counts:?}");
        let [a, b, c] = counts;
        assert_eq!(source(&[a, a, b, c]), 1);
        // The first eligible one isn't the first file area.
        let mut behind = counted(0, &[(a, 128), (a, 256), (b, 256), (c, 256)]);
        assert_eq!(sourced(&mut behind), 2, "{counts:?}");
    }
    assert_eq!(source(&[0, 85, 170]), 1);
    assert_eq!(source(&[1, 128, 0, 129]), 1);
    assert_eq!(source(&[170, 64, 128, 255, 0]), 1);
}

/// All counts 0 to 255 of equal areas: the first.
#[test]
fn equal_counts() {
    for count in 0..=255 {
        assert_eq!(source(&[count, count, count]), 1, "{count}");
        assert_eq!(source(&[count.wrapping_add(1), count, count]), 2, "{count}");
    }
}

/// An area that isn't as long as scratch is no source and precedes none.
#[test]
fn only_areas_as_long_as_scratch() {
    for shorter in 0..=255 {
        for length in [128, 255] {
            let areas = [(9, 256), (shorter, length), (5, 256)];
            assert_eq!(sourced(&mut counted(0, &areas)), 3, "{shorter}");
            let areas = [(shorter, length), (5, 256), (9, 256)];
            assert_eq!(sourced(&mut counted(0, &areas)), 2, "{shorter}");
        }
    }
    assert_eq!(sourced(&mut counted(0, &[(0, 128), (5, 256)])), 2);
}

/// Nor does one that is passed over.
#[test]
fn an_area_passed_over_does_not_precede() {
    for odd in 0..=255 {
        let mut flash = counted(0, &[(9, 256), (odd, 256), (5, 256)]);
        flash.head(2, odd, 1, 1);
        assert_eq!(sourced(&mut flash), 3, "{odd}");
    }
}

/// The scratch area's own count takes no part.
#[test]
fn scratch_does_not_precede() {
    for scratch in 0..=255 {
        let mut flash = counted(scratch, &[(9, 256), (5, 256), (7, 256)]);
        assert_eq!(sourced(&mut flash), 2, "{scratch}");
        assert_eq!(area(&flash, 0)[21], scratch);
    }
}

/// First in descriptor order, not in the image, nor by id.
#[test]
fn first_by_descriptor() {
    let mut flash = three();
    flash.areas = vec![1024, 512, 0, 512, 512, 512];
    assert_eq!(calls::collect(&mut flash.image, &flash.areas), 0);
    assert_eq!((flash.image[1024 + 23], flash.image[512 + 23], flash.image[23]), (255, 0, 1));
    for (counts, source) in [([0, 128], 512), ([0, 127], 256), ([127, 0], 512), ([0, 255], 512)] {
        let mut flash = counted(0, &[(counts[0], 256), (counts[1], 256)]);
        flash.areas = vec![512, 256, 0, 256, 256, 256];
        assert_eq!(calls::collect(&mut flash.image, &flash.areas), 0);
        assert_eq!(flash.image[source + 23], 255, "{counts:?}");
    }
}

/// "Also, the collection count passes from 255 to 0 and that area is then chosen
/// again and again": no longer. Three areas take turns.
#[test]
fn turns_across_255_to_0() {
    for count in [0, 100, 254, 255] {
        let mut flash = counted(count, &[(count, 256), (count, 256)]);
        let mut times = [0; 3];
        let mut counts = [count; 3];
        for turn in 1..=30 {
            assert_eq!(collect(&mut flash), 0);
            let source = (0..3).find(|i| area(&flash, *i)[23] == 255).expect("scratch");
            times[source] += 1;
            counts[source] = counts[source].wrapping_add(1);
            assert_eq!([0, 1, 2].map(|i| area(&flash, i)[21]), counts);
            assert!(times.iter().all(|n| (turn / 3..=turn / 3 + 1).contains(n)), "{times:?}");
        }
        assert_eq!(times, [10; 3]);
    }
}

/// "erased first and its header restored": the same bytes.
#[test]
fn a_dirty_scratch_area() {
    for dirty in [24, 100, 127] {
        let mut flash = rooted(128);
        flash.head(0, 7, 0, 255);
        flash.image[dirty] = 0;
        assert_eq!(collect(&mut flash), 0);
        holds(&flash, 0, [0, 7, 0, 0], &root());
    }
}

/// A clean scratch area only has its id byte stored.
#[test]
fn a_clean_scratch_area_keeps_its_header() {
    let mut flash = rooted(128);
    flash.head(0, 7, 0, 255);
    assert_eq!(collect(&mut flash), 0);
    holds(&flash, 0, [0, 7, 0, 0], &root());
}

/// "the counting records that lie in the source ... in order of their first
/// place there, each once"; damage and old versions go.
#[test]
fn counting_records_are_copied_once() {
    let mut flash = three();
    flash.put(1, b"torn");
    flash.inode(1, A, 1, ROOT, b"a");
    flash.inode(1, A, 0, ROOT, b"old name");
    flash.block(1, BLOCK, 0, A, NONE, b"data");
    flash.inode(1, A, 1, ROOT, b"a");
    flash.block(1, BLOCK, 0, A, NONE, b"data");
    let before = contents(&flash, "/a");
    collected(&mut flash, &[inode(A, 1, ROOT, b"a"), block(BLOCK, 0, A, NONE, b"data")]);
    assert_eq!(contents(&flash, "/a"), before);
    assert_eq!(report(&flash).stretches, 0);
}

/// A counting record of which an equal copy lies elsewhere is copied.
#[test]
fn an_equal_copy_elsewhere() {
    let mut flash = three();
    flash.root(1);
    flash.inode(1, A, 0, ROOT, b"a");
    flash.inode(2, A, 0, ROOT, b"a");
    collected(&mut flash, &[root(), inode(A, 0, ROOT, b"a")]);
}

#[test]
fn a_version_superseded_elsewhere_is_not_copied() {
    let mut flash = three();
    flash.inode(1, A, 0, ROOT, b"a");
    flash.inode(2, A, 1, ROOT, b"b");
    collected(&mut flash, &[]);
    assert_eq!(find(&flash, "/b"), Ok(A));
}

/// Belief 1: a deletion record stays while an older inode lies elsewhere.
#[test]
fn a_deletion_record_stays_for_an_old_inode() {
    let mut flash = three();
    flash.inode(2, A, 0, ROOT, b"a");
    flash.delete(1, A, 1);
    collected(&mut flash, &[inode(A, 1, NONE, b"")]);
    assert_eq!(find(&flash, "/a"), Err(9));
}

/// "its own records in the source area apart": then nothing names it.
#[test]
fn a_deletion_record_goes_with_its_own_records() {
    let mut flash = three();
    flash.inode(1, A, 0, ROOT, b"a");
    flash.delete(1, A, 1);
    collected(&mut flash, &[]);
    // "an id that collection freed is used again"
    assert_eq!(create(&mut flash, "/b", 1), Ok(A));
}

/// Also one that names itself as parent.
#[test]
fn an_own_record_that_names_itself() {
    let mut flash = three();
    flash.inode(1, 1, 0, 1, b"own parent");
    flash.delete(1, 1, 1);
    collected(&mut flash, &[]);
}

/// A child or a block that names the dead inode keeps it, in either area.
#[test]
fn a_dead_inode_stays_while_named() {
    for place in [1, 2] {
        let mut flash = three();
        flash.delete(1, 1, 1);
        flash.inode(place, 2, 0, 1, b"old child");
        flash.inode(place, 2, 1, ROOT, b"moved");
        let mut kept = vec![inode(1, 1, NONE, b"")];
        kept.extend((place == 1).then(|| inode(2, 1, ROOT, b"moved")));
        collected(&mut flash, &kept);
    }
    let mut flash = three();
    flash.delete(1, A, 1);
    flash.block(2, BLOCK, 0, A, NONE, b"block of a");
    collected(&mut flash, &[inode(A, 1, NONE, b"")]);
}

/// "as they stood before the collection": what the same collection drops still
/// keeps it; the next round lets it go.
#[test]
fn dropped_records_still_keep_a_dead_inode() {
    let mut flash = three();
    flash.delete(1, A, 1);
    flash.block(1, BLOCK, 0, A, NONE, b"dead block");
    collected(&mut flash, &[inode(A, 1, NONE, b"")]);
    flash.head(2, 9, 0, 1);
    assert_eq!(collect(&mut flash), 0);
    holds(&flash, 1, [0, 1, 0, 0], &[]);
}

/// A file below a dead directory is dead without a deletion record of its own.
#[test]
fn inodes_dead_by_their_parents() {
    let mut flash = three();
    flash.inode(1, A, 0, 1, b"below the dead");
    flash.delete(2, 1, 1);
    collected(&mut flash, &[]);
    let mut named = three();
    named.inode(1, A, 0, 1, b"below the dead");
    named.delete(2, 1, 1);
    named.block(2, BLOCK, 0, A, NONE, b"names it");
    collected(&mut named, &[inode(A, 0, 1, b"below the dead")]);
}

/// "A dead block isn't copied if no other file area has a record of its id",
/// of any version.
#[test]
fn dead_blocks() {
    let mut flash = three();
    flash.delete(2, A, 1);
    flash.block(1, BLOCK, 1, A, NONE, b"dead");
    collected(&mut flash, &[]);
    let mut elsewhere = three();
    elsewhere.delete(2, A, 1);
    elsewhere.block(1, BLOCK, 1, A, NONE, b"dead");
    elsewhere.block(2, BLOCK, 0, B, NONE, b"older");
    collected(&mut elsewhere, &[block(BLOCK, 1, A, NONE, b"dead")]);
}

/// Orphans, and blocks without a dead owner, stay.
#[test]
fn orphans_stay() {
    let mut flash = three();
    let records = [
        inode(3, 0, 99, b"missing parent"),
        inode(4, 0, 5, b"loop"),
        inode(5, 0, 4, b"loop"),
        block(BLOCK, 0, B, NONE, b"no owner"),
        inode(A, 0, 3, b"below an orphan"),
        block(BLOCK + 1, 0, A, NONE, b"of an orphan"),
    ];
    for record in &records {
        flash.put(1, record);
    }
    collected(&mut flash, &records);
}

/// What could be reached by path reads as before, round after round.
#[test]
fn contents_stay_over_many_rounds() {
    let mut flash = Flash::of(&[512, 512, 512]);
    assert_eq!(calls::format(&mut flash.image, &flash.areas), 0);
    assert_eq!(create(&mut flash, "/d", 0), Ok(1));
    assert_eq!(create(&mut flash, "/d/f", 1), Ok(A));
    assert_eq!(append(&mut flash, "/d/f", &[0x41; 100]), 0);
    assert_eq!(append(&mut flash, "/d/f", b"tail"), 0);
    let before = contents(&flash, "/d/f");
    for _ in 0..600 {
        assert_eq!(collect(&mut flash), 0);
        assert_eq!(contents(&flash, "/d/f"), before);
    }
}

/// Only the two areas change.
#[test]
fn other_bytes_stay() {
    let mut image = vec![0x33; 600];
    let areas = [10, 128, 200, 128, 400, 128];
    assert_eq!(calls::format(&mut image, &areas), 0);
    let before = image.clone();
    assert_eq!(calls::collect(&mut image, &areas), 0);
    let changed: Vec<usize> = (0..600).filter(|i| image[*i] != before[*i]).collect();
    assert!(changed.iter().all(|i| (10..138).contains(i) || (200..328).contains(i)));
    assert!(!changed.is_empty());
}
