//! T-14, run: collections that follow one another, the counts passing from 255 to 0. Two to eight areas of one length, one of them scratch; the proved
//! calls beside the model, answer and image of each collection, and how often each area was the source.

use nffs_compare::Proved;
use nffs_model::compare::{Engine, Model};
use nffs_model::forge::Flash;
use nffs_model::generate::Random;

/// In a row, of one volume.
const COLLECTIONS: i32 = 600;

const FILE: u32 = 0x1000_0000;
const BLOCK: u32 = 0x8000_0000;
const NONE: u32 = 0xffff_ffff;
const DOSE: &[u8] = b"0.5 ml/h";

/// Areas of one length, by descriptor. Counts here go on past 255; a header holds the last eight bits.
struct Volume {
    ours: Vec<u8>,
    model: Vec<u8>,
    areas: Vec<u32>,
    /// The counts at first.
    began: Vec<i32>,
    /// How often each area was the source.
    times: Vec<i32>,
}

impl Volume {
    /// With these counts and this area as scratch; in the first of the others are the root and a file. Backwards, the first descriptor's area is the
    /// last in the image.
    fn of(length: usize, counts: &[i32], scratch: usize, backwards: bool) -> Volume {
        let place = |area: usize| if backwards { counts.len() - 1 - area } else { area };
        let areas = (0..counts.len()).flat_map(|area| [(place(area) * length) as u32, length as u32]).collect();
        let mut flash = Flash::over(vec![0; counts.len() * length], areas);
        for (area, count) in counts.iter().enumerate() {
            flash.head(area, *count as u8, 0, if area == scratch { 255 } else { area as u8 });
        }
        let first = usize::from(scratch == 0);
        assert!(flash.root(first) && flash.inode(first, FILE, 0, 0, b"dose") && flash.block(first, BLOCK, 0, FILE, NONE, DOSE));
        Volume { ours: flash.image.clone(), model: flash.image, areas: flash.areas, began: counts.to_vec(), times: vec![0; counts.len()] }
    }

    /// As the call formats it, with the file.
    fn formatted(length: u32, areas: u32) -> Volume {
        let list: Vec<u32> = (0..areas).flat_map(|area| [area * length, length]).collect();
        let bytes = vec![0; (areas * length) as usize];
        let mut volume = Volume { ours: bytes.clone(), model: bytes, areas: list, began: vec![0; areas as usize], times: vec![0; areas as usize] };
        assert_eq!(volume.both(|e, image, areas| e.format(image, areas)), 0);
        assert_eq!(volume.both(|e, image, areas| e.create(image, areas, b"", b"/dose", 1).number), 0);
        assert_eq!(volume.both(|e, image, areas| e.append(image, areas, b"", b"/dose", DOSE)), 0);
        volume
    }

    /// The same answer and the same image of both.
    fn both<T: PartialEq + std::fmt::Debug>(&mut self, call: impl Fn(&dyn Engine, &mut [u8], &[u32]) -> T) -> T {
        let answer = call(&Proved, &mut self.ours, &self.areas);
        assert_eq!(answer, call(&Model, &mut self.model, &self.areas));
        assert!(self.ours == self.model, "images differ");
        answer
    }

    /// Version, count, reserved byte and id of each area.
    fn headers(&self) -> Vec<[u8; 4]> {
        let end = |pair: &[u32]| self.ours[pair[0] as usize + 20..][..4].try_into().expect("four bytes");
        self.areas.chunks(2).map(end).collect()
    }

    fn scratch(&self) -> usize {
        self.headers().iter().position(|header| header[3] == 255).expect("a scratch area")
    }

    fn counts(&self) -> Vec<i32> {
        self.began.iter().zip(&self.times).map(|(count, times)| count + times).collect()
    }

    /// A collection. Its source is scratch then, with a count of one more, and the other counts stay.
    fn collect(&mut self) -> usize {
        assert_eq!(self.both(|e, image, areas| e.collect(image, areas)), 0);
        self.collected()
    }

    /// Notes which area was the source.
    fn collected(&mut self) -> usize {
        let source = self.scratch();
        self.times[source] += 1;
        assert!(self.headers().iter().zip(self.counts()).all(|(header, count)| header[1] == count as u8), "counts {:?}", self.headers());
        source
    }

    /// Whether no area was collected more often than another by more than what its count was lower at first, and one.
    fn in_turn(&self) -> bool {
        let areas = 0..self.began.len();
        let most = |d: usize, e: usize| self.times[e] + 1 + (self.began[e] - self.began[d]).max(0);
        areas.clone().all(|d| areas.clone().all(|e| self.times[d] <= most(d, e)))
    }

    /// One line of the shares.
    fn tell(&self, scratch: usize, how: &str) {
        println!("{} areas, counts {:?}, scratch {scratch}{how}: {:?} of {COLLECTIONS}", self.began.len(), self.began, self.times);
        assert_eq!(self.times.iter().sum::<i32>(), COLLECTIONS);
    }

    fn file_stays(&mut self) {
        let (number, given) = self.both(|e, image, areas| {
            let mut buffer = [0; 64];
            let read = e.read_at(image, areas, FILE, 0, &mut buffer);
            (read.number, buffer[..read.given as usize].to_vec())
        });
        assert_eq!((number, &given[..]), (0, DOSE));
    }
}

/// The first area but scratch that no other of them precedes, or else the first.
fn first(counts: &[i32], scratch: usize, precedes: impl Fn(i32, i32) -> bool) -> usize {
    let eligible = || (0..counts.len()).filter(|area| *area != scratch);
    let mut unpreceded = eligible().filter(|area| !eligible().any(|other| precedes(counts[other], counts[*area])));
    unpreceded.next().or_else(|| eligible().next()).expect("a file area")
}

/// "count a precedes count b when (b - a) taken modulo 256 is 1 to 127".
fn precedes(a: i32, b: i32) -> bool {
    (1..=127).contains(&(b - a).rem_euclid(256))
}

/// Collections in a row, of a volume whose counts lie within 127 of each other, scratch's too; before each `between` is done. The source is each time
/// the one of T-14 and the first of the lowest count, and the areas have their turns.
fn take_turns(volume: &mut Volume, between: impl Fn(&mut Volume, i32)) {
    let (low, high) = (volume.began.iter().min().expect("areas"), volume.began.iter().max().expect("areas"));
    assert!(high - low <= 127);
    for turn in 0..COLLECTIONS {
        between(volume, turn);
        let (counts, scratch) = (volume.counts(), volume.scratch());
        let source = volume.collect();
        assert_eq!(source, first(&counts, scratch, precedes), "{counts:?}");
        assert_eq!(source, first(&counts, scratch, |a, b| a < b), "{counts:?}");
        assert!(volume.in_turn(), "{:?}", volume.times);
    }
    volume.file_stays();
}

/// Turns with nothing between them, and the shares: of equal counts each area has as many as the others, rounded down or up.
fn alone(mut volume: Volume) {
    let scratch = volume.scratch();
    take_turns(&mut volume, |_, _| ());
    volume.tell(scratch, "");
    let n = volume.began.len() as i32;
    if volume.began.iter().all(|count| *count == volume.began[0]) {
        assert!(volume.times.iter().all(|times| (COLLECTIONS / n..=(COLLECTIONS + n - 1) / n).contains(times)));
    }
}

/// All counts equal: each area gets its turn, also the one that is scratch at first.
#[test]
fn equal_counts() {
    for areas in 2..=8 {
        for count in [0, 200, 255] {
            for scratch in [0, areas - 1] {
                alone(Volume::of(128, &vec![count; areas], scratch, count == 200));
            }
        }
        alone(Volume::formatted(128, areas as u32));
    }
}

/// Counts within 127 of each other, on both sides of 255: rising, falling, one below the others, one above them, each also scratch's.
#[test]
fn spread_counts() {
    for areas in 2..=8usize {
        let rising: Vec<i32> = (0..areas).map(|area| 180 + (127 * area / (areas - 1)) as i32).collect();
        let falling: Vec<i32> = rising.iter().rev().copied().collect();
        for scratch in [0, areas - 1] {
            alone(Volume::of(128, &rising, scratch, false));
            alone(Volume::of(128, &falling, scratch, true));
            for odd in [0, areas - 1] {
                for (one, others) in [(140, 267), (300, 250)] {
                    let mut counts = vec![others; areas];
                    counts[odd] = one;
                    alone(Volume::of(128, &counts, scratch, odd == 0));
                }
            }
        }
    }
}

/// Writes between the collections change no count, and the areas take turns as before.
#[test]
fn writes_between() {
    for areas in 2..=8 {
        let spread: Vec<i32> = (0..areas as i32).map(|area| 200 + area * 37 % 120).collect();
        for counts in [vec![200; areas], spread] {
            let mut volume = Volume::of(256, &counts, areas - 1, areas % 2 == 0);
            let accepted = std::cell::Cell::new([0; 5]);
            take_turns(&mut volume, |volume, turn| {
                let headers = volume.headers();
                let (path, new) = (format!("/{}", turn / 5), format!("/new {}", turn / 5));
                let number = volume.both(|e, image, areas| match turn % 5 {
                    0 => e.create(image, areas, b"", path.as_bytes(), 1).number,
                    1 => e.append(image, areas, b"", path.as_bytes(), &[turn as u8; 20]),
                    2 => e.overwrite(image, areas, b"", path.as_bytes(), 5, &[turn as u8; 10]),
                    3 => e.rename(image, areas, b"", path.as_bytes(), new.as_bytes()),
                    _ => e.unlink(image, areas, b"", new.as_bytes()),
                });
                let mut times = accepted.get();
                times[turn as usize % 5] += i32::from(number == 0);
                accepted.set(times);
                assert_eq!(volume.headers(), headers);
            });
            volume.tell(areas - 1, &format!(", {:?} creates, appends, overwrites, renames and unlinks", accepted.get()));
            assert!(accepted.get().iter().all(|times| *times > 90), "{:?}", accepted.get());
        }
    }
}

/// From any counts: each source is the one of T-14. Areas may wait long for their turn.
#[test]
fn any_counts() {
    let mut r = Random::new(14);
    for areas in 2..=8 {
        let cyclic: Vec<i32> = (0..areas as i32).map(|area| 100 * area % 300).collect();
        let opposite: Vec<i32> = (0..areas as i32).map(|area| 128 * (area % 2)).collect();
        let drawn = (0..3).map(|_| (0..areas).map(|_| r.below(256) as i32).collect());
        for counts in [cyclic, opposite].into_iter().chain(drawn.collect::<Vec<Vec<i32>>>()) {
            let scratch = r.below(areas);
            let mut volume = Volume::of(128, &counts, scratch, r.chance(50));
            for _ in 0..COLLECTIONS {
                let (counts, scratch) = (volume.counts(), volume.scratch());
                assert_eq!(volume.collect(), first(&counts, scratch, precedes), "{counts:?}");
            }
            volume.tell(scratch, "");
            volume.file_stays();
        }
    }
}

/// Three areas behind two others, each preceded by another of the three whatever the two have: the two have every turn. Collections do not lead to
/// such counts from those within 127 of each other.
#[test]
fn a_circle_of_counts() {
    for count in [0, 70, 255] {
        let mut volume = Volume::of(128, &[count, count, 0, 100, 200], 0, false);
        for _ in 0..COLLECTIONS {
            volume.collect();
        }
        volume.tell(0, "");
        assert_eq!(volume.times, [300, 300, 0, 0, 0]);
    }
}

/// A collection by the order before T-14, the lowest number in the header first.
fn collect_the_lowest(volume: &mut Volume) -> usize {
    let headers = volume.headers();
    let counts: Vec<i32> = headers.iter().map(|header| i32::from(header[1])).collect();
    let scratch = volume.scratch();
    let source = first(&counts, scratch, |a, b| a < b);
    let at = |area: usize| volume.areas[2 * area] as usize + 20;
    let (from, to) = (at(source), at(scratch));
    volume.ours[to + 3] = headers[source][3];
    volume.ours[from..from + 4].copy_from_slice(&[0, headers[source][1].wrapping_add(1), 0, 255]);
    volume.collected()
}

/// What the request complains of, and that these tests would see it: by the order before, two areas whose counts have passed to 0 are chosen again and
/// again, and the others wait for hundreds of turns.
#[test]
fn the_order_before() {
    for areas in [3, 8] {
        for count in [200, 255] {
            let mut volume = Volume::of(128, &vec![count; areas], 0, false);
            let (mut unfair, mut longest, mut waited) = (None, 0, vec![0; areas]);
            for turn in 0..COLLECTIONS {
                let source = collect_the_lowest(&mut volume);
                waited.iter_mut().for_each(|turns| *turns += 1);
                waited[source] = 0;
                longest = longest.max(*waited.iter().max().expect("areas"));
                unfair = unfair.or((!volume.in_turn()).then_some(turn));
            }
            volume.tell(0, &format!(", the order before T-14, {longest} turns without one of them"));
            // all is well until two counts have passed to 0; then these two have every turn
            assert!(unfair.is_some() && unfair >= Some((255 - count) * areas as i32));
            assert!(longest > 100 && volume.times.iter().any(|times| times + 50 < volume.times[1]), "{:?}", volume.times);
        }
    }
}
