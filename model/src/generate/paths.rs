//! Names, and paths with their bases, good and bad.

use super::random::Random;
use super::NAMES;
use crate::layout::ROOT;
use crate::mount::FileSystem;
use crate::path::PATH;

/// Bases that an absolute path doesn't look at.
const JUNK: [&[u8]; 5] = [b"", b"/", b"/a", b"a", b"//"];

pub fn name(r: &mut Random) -> Vec<u8> {
    match r.below(40) {
        0 => vec![b'n'; 255],
        1 => {
            let length = r.between(1, 60);
            vec![b'm'; length]
        }
        _ => r.pick(&NAMES).to_vec(),
    }
}

/// The names of a live inode's path.
pub fn names_of(fs: &FileSystem, id: u32) -> Vec<Vec<u8>> {
    let mut names = Vec::new();
    let mut at = id;
    while at != ROOT {
        let Some(inode) = fs.inode(at) else { break };
        names.push(inode.name.clone());
        at = inode.parent;
    }
    names.reverse();
    names
}

/// Base and path that spell these names, mostly.
pub fn spell(r: &mut Random, names: &[Vec<u8>]) -> (Vec<u8>, Vec<u8>) {
    if r.chance(8) {
        return misspell(r, names);
    }
    // What is too long for one path may be short enough for a base and a path.
    let too_long = absolute(names).len() > PATH;
    if names.is_empty() || !too_long && r.chance(60) {
        return (r.pick(&JUNK).to_vec(), absolute(names));
    }
    let at = r.below(names.len());
    (absolute(&names[..at]), names[at..].join(&b'/'))
}

/// A base and two paths that spell these names with it, mostly. Where one is bad,
/// the other is absolute.
pub fn spell_two(r: &mut Random, old: &[Vec<u8>], new: &[Vec<u8>]) -> (Vec<u8>, Vec<u8>, Vec<u8>) {
    let turned = r.chance(50);
    let (first, second) = if turned { (new, old) } else { (old, new) };
    let (base, first, second) = if r.chance(9) {
        let (base, first) = misspell(r, first);
        (base, first, absolute(second))
    } else {
        below_one_base(r, first, second)
    };
    if turned {
        (base, second, first)
    } else {
        (base, first, second)
    }
}

/// The second path is relative too where its names begin with the base's.
fn below_one_base(
    r: &mut Random,
    first: &[Vec<u8>],
    second: &[Vec<u8>],
) -> (Vec<u8>, Vec<u8>, Vec<u8>) {
    let too_long = absolute(first).len() > PATH;
    if first.is_empty() || !too_long && r.chance(40) {
        return (r.pick(&JUNK).to_vec(), absolute(first), absolute(second));
    }
    let (base, below) = first.split_at(r.below(first.len()));
    let rest = second.strip_prefix(base).filter(|rest| !rest.is_empty() && r.chance(80));
    let second = rest.map_or_else(|| absolute(second), |rest| rest.join(&b'/'));
    (absolute(base), below.join(&b'/'), second)
}

fn absolute(names: &[Vec<u8>]) -> Vec<u8> {
    [b"/".to_vec(), names.join(&b'/')].concat()
}

/// A bad path or base, or one near the limits.
fn misspell(r: &mut Random, names: &[Vec<u8>]) -> (Vec<u8>, Vec<u8>) {
    let good = absolute(names);
    let relative = good[1..].to_vec();
    let long = |length: usize, times: usize| absolute(&vec![b"n".repeat(length); times]);
    let about_the_limit = r.pick(&[1023, 1024, 1025, 1026, 1300, 5000]);
    match r.below(17) {
        0 => (b"/".to_vec(), [&good[..], b"/"].concat()),
        1 => (b"/".to_vec(), [b"/", &good[..]].concat()),
        2 => (b"/".to_vec(), [&good[..], b"/\0"].concat()),
        3 => (b"/".to_vec(), Vec::new()),
        4 => (b"a".to_vec(), relative),
        5 => (b"".to_vec(), relative),
        6 => (b"/a/".to_vec(), relative),
        7 => (b"/a\0".to_vec(), relative),
        8 => (b"//".to_vec(), good),
        9 => (b"/".to_vec(), long(255, 1)),
        10 => (b"/".to_vec(), long(256, 1)),
        11 => (b"/".to_vec(), long(255, 4)),
        12 => (long(255, 4), [b"n/", &relative[..]].concat()),
        13 => (b"/".to_vec(), of_length(about_the_limit)),
        14 => ([b"/", &of_length(about_the_limit - 1)[..]].concat(), relative),
        15 => (b"/".to_vec(), [b"/", &of_length(about_the_limit - 1)[..]].concat()),
        _ => (b"/".to_vec(), [long(254, 4), b"n/nnn".to_vec()].concat()),
    }
}

/// Names in a path without a leading slash, so many bytes in all.
fn of_length(length: usize) -> Vec<u8> {
    let slash = |i: usize| i % 200 == 199 && i + 1 < length;
    (0..length).map(|i| if slash(i) { b'/' } else { b'n' }).collect()
}
