//! Lists of areas: good ones with a tail that isn't looked at, and strange ones.

use super::random::Random;
use crate::mount::DESCRIPTORS;

/// The most entries of a list here, its end and what stands behind it counted.
const MOST: usize = DESCRIPTORS + 4;

/// The list, sometimes with its end marked and entries behind the mark.
pub fn with_tail(r: &mut Random, good: &[u32]) -> Vec<u32> {
    let mut list = good.to_vec();
    match r.below(20) {
        0 => list.extend([7, 0]),
        1 => list.extend([9, 0, 9, 9, 3]),
        2 => {
            list.extend([r.below(9) as u32, 0]);
            for _ in 0..(MOST - good.len() / 2).saturating_sub(r.below(8)) {
                list.extend([r.below(4000) as u32, r.pick(&[0, 127, 128, 300])]);
            }
        }
        _ => {}
    }
    list
}

/// A list that isn't good, or a strange one that is.
pub fn strange(r: &mut Random, good: &[u32], image: usize) -> Vec<u32> {
    let mut list = good.to_vec();
    if list.len() < 4 {
        return r.pick(&[vec![], vec![0, 128], vec![0, 0], vec![1, 0], vec![0, image as u32]]);
    }
    // Only a longer image has room for more entries than are good.
    if image > 128 * DESCRIPTORS && r.chance(50) {
        return of_many_entries(r, image);
    }
    let i = 2 * r.below(list.len() / 2);
    match r.below(12) {
        0 => list[i + 1] = 127,
        1 => list[i + 1] = 65_537,
        2 => list[i] = (image as u32).wrapping_sub(list[i + 1]).wrapping_add(1),
        3 => list[i] = u32::MAX - r.below(200) as u32,
        4 => list[i] = list[(i + 2) % list.len()],
        5 => list[i] += 1,
        6 => list[i + 1] = 0,
        7 => list.clear(),
        8 => list.truncate(2),
        9 => list[i + 1] = u32::MAX,
        10 => list = of_many_entries(r, image),
        _ => list[i + 1] = list[i + 1].wrapping_sub(1),
    }
    list
}

/// Entries of 128 bytes all over the image, as many as a list may have or about
/// so many, or any number; sometimes with the end marked among them.
fn of_many_entries(r: &mut Random, image: usize) -> Vec<u32> {
    let about = [DESCRIPTORS - 1, DESCRIPTORS, DESCRIPTORS + 1, DESCRIPTORS + 1];
    let count = if r.chance(75) { r.pick(&about) } else { r.below(MOST + 1) };
    let apart = (image / count.max(1)).max(128);
    let mut list: Vec<u32> = (0..count).flat_map(|k| [(k * apart) as u32, 128]).collect();
    if count > 0 && r.chance(30) {
        list[2 * r.below(count) + 1] = 0;
    }
    list
}
