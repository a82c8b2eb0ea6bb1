//! How long the proved mount and the proved calls take beside those of the baselines, in one run: `tools/bench-mount` builds what it links. Without
//! an argument the kinds of image, the calls and hostile images; with `growth` tables against the image's length and the number of ids.

use std::hint::black_box;
use std::process::ExitCode;
use std::time::Instant;

#[path = "../mount_alone.rs"]
mod mount_alone;

use mount_alone::Tables;
use nffs::{raw, Area};
use nffs_baseline::{self as baseline, Volume};
use nffs_compare::mounted::{difference, of_baseline, BASELINES};
use nffs_compare::volumes::{self, Named};
use nffs_model::forge::Flash;
use nffs_model::layout::FIRST_FILE;

/// The greatest ratio of a mount (T-10).
const MOST: f64 = 1.5;
/// No mount may take longer, in microseconds, whatever is done to the index.
const MOST_HOSTILE: f64 = 30_000.0;
/// Of a call.
const MOST_OF_CALL: f64 = 1.2;
const ROUNDS: usize = 400;
/// Hostile images take long.
const HOSTILE_ROUNDS: usize = 40;
/// A measurement lasts about so long at least, in microseconds: short mounts are repeated in it.
const LASTS: f64 = 100.0;

/// Microseconds.
struct Times {
    least: f64,
    median: f64,
}

impl Times {
    fn of(mut measured: Vec<f64>) -> Times {
        measured.sort_by(f64::total_cmp);
        Times { least: measured[0], median: measured[measured.len() / 2] }
    }

    /// Of the leasts.
    fn ratio(&self, other: &Times) -> f64 {
        self.least / other.least
    }
}

type Program<'a> = &'a mut dyn FnMut();

fn microseconds(program: &mut dyn FnMut(), repeats: usize) -> f64 {
    let begin = Instant::now();
    for _ in 0..repeats {
        program();
    }
    begin.elapsed().as_secs_f64() * 1e6 / repeats as f64
}

/// So often a program is run in a measurement.
fn repeats(program: &mut dyn FnMut()) -> usize {
    (LASTS / microseconds(program, 3)).ceil().clamp(1.0, 1_000.0) as usize
}

/// The programs take turns, so that what else the machine does meets all of them. `between`, which isn't timed, comes before each.
fn in_turn<const N: usize>(rounds: usize, repeats: usize, programs: [Program; N], between: Program) -> [Times; N] {
    let mut measured = [const { Vec::new() }; N];
    for turn in 0..rounds * N {
        between();
        measured[turn % N].push(microseconds(programs[turn % N], repeats));
    }
    measured.map(Times::of)
}

/// What the columns of the lines are; of calls there is no tuned one.
fn heading(group: &str, of: &str, tuned: &str) {
    println!("== {group}: the least and (median) microseconds");
    let columns = format!("{of:<42} {:>6} {:>9} {:<11}{:>9} {:<11}{tuned:>9}", "answer", "ours", "", "ordinary", "");
    println!("{}", columns.trim_end());
}

/// Prints a line that ends in the ratio to the ordinary baseline, which is the answer. The tuned one, if timed, comes third.
fn line(name: &str, answer: u32, times: &[Times]) -> f64 {
    let both = |t: &Times| format!("{:>9.2} {:<11}", t.least, format!("({:.2})", t.median));
    let tuned = times.get(2).map_or(String::new(), |t| format!("{:>9.2}  {:>11}", t.least, format!("tuned {:.2}", times[0].ratio(t))));
    let ratio = times[0].ratio(&times[1]);
    println!("{name:<42} {answer:>6} {}{}{tuned}  {:>11}", both(&times[0]), both(&times[1]), format!("ratio {ratio:.2}"));
    ratio
}

/// The memory that the mounts are lent.
struct Lent {
    tables: Box<Tables>,
    volume: Box<Volume>,
}

impl Lent {
    /// All find the same, or nothing is timed. The number.
    fn same(&mut self, name: &str, flash: &Flash) -> u32 {
        let ours = self.tables.answer(&flash.image, &flash.areas);
        for (style, mount) in BASELINES {
            let baseline = of_baseline(mount, &flash.image, &flash.areas, &mut self.volume);
            assert_eq!(difference(&ours, &baseline), None, "{name}: ours and the {style} baseline's");
        }
        ours.err().unwrap_or(0)
    }

    /// Ours, the ordinary and the tuned one.
    fn mounts(&mut self, rounds: usize, flash: &Flash) -> [Times; 3] {
        let Lent { tables, volume } = self;
        let (image, areas) = (&flash.image[..], &flash.areas[..]);
        // the baselines share one volume, as only one of them runs at a time
        let volume = std::cell::RefCell::new(volume);
        let mut ours = || {
            black_box(tables.mount(black_box(image), black_box(areas)));
        };
        let mut ordinary = || {
            black_box(baseline::mount(black_box(image), black_box(areas), black_box(&mut volume.borrow_mut())));
        };
        let mut tuned = || {
            black_box(baseline::tuned::mount(black_box(image), black_box(areas), black_box(&mut volume.borrow_mut())));
        };
        let repeats = repeats(&mut tuned);
        in_turn(rounds, repeats, [&mut ours, &mut ordinary, &mut tuned], &mut || ())
    }

    /// A line for each image; those whose ratio is too great, and the greatest times of all three.
    fn lines(&mut self, rounds: usize, images: &[Named]) -> (Vec<&'static str>, [f64; 3]) {
        let (mut over, mut greatest) = (Vec::new(), [0.0; 3]);
        for (name, flash) in images {
            let answer = self.same(name, flash);
            let times = self.mounts(rounds, flash);
            if line(name, answer, &times) > MOST {
                over.push(*name);
            }
            greatest = [0, 1, 2].map(|k| times[k].least.max(greatest[k]));
        }
        (over, greatest)
    }
}

/// What a call is given.
struct Given {
    areas: Vec<u32>,
    listed: Vec<Area>,
    /// Of the first file.
    path: Vec<u8>,
}

/// A call on the proved code and on the ordinary baseline; their numbers.
struct Call {
    name: &'static str,
    ours: fn(&mut [u8], &Given) -> u32,
    baseline: fn(&mut [u8], &Given, &mut Volume) -> u32,
}

const CALLS: [Call; 8] = [
    Call {
        name: "report",
        ours: |image, g| raw::report(image, &g.listed).number,
        baseline: |image, g, v| baseline::report(image, &g.areas, v).number,
    },
    Call {
        name: "lookup",
        ours: |image, g| raw::lookup(image, &g.listed, b"", &g.path).number,
        baseline: |image, g, v| baseline::lookup(image, &g.areas, b"", &g.path, v).number,
    },
    Call {
        name: "open",
        ours: |image, g| raw::open(image, &g.listed, b"", &g.path).number,
        baseline: |image, g, v| baseline::open(image, &g.areas, b"", &g.path, v).number,
    },
    Call {
        name: "read",
        ours: |image, g| raw::read_at(image, &g.listed, FIRST_FILE, 0, black_box(&mut [0; 4096])).number,
        baseline: |image, g, v| baseline::read_at(image, &g.areas, FIRST_FILE, 0, black_box(&mut [0; 4096]), v).number,
    },
    Call {
        name: "create",
        ours: |image, g| raw::create(image, &g.listed, b"", b"/new", 1).number,
        baseline: |image, g, v| baseline::create(image, &g.areas, b"", b"/new", 1, v).number,
    },
    Call {
        name: "append",
        ours: |image, g| raw::append(image, &g.listed, b"", &g.path, &[7; 100]),
        baseline: |image, g, v| baseline::append(image, &g.areas, b"", &g.path, &[7; 100], v),
    },
    Call {
        name: "unlink",
        ours: |image, g| raw::unlink(image, &g.listed, b"", &g.path),
        baseline: |image, g, v| baseline::unlink(image, &g.areas, b"", &g.path, v),
    },
    Call { name: "collect", ours: |image, g| raw::collect(image, &g.listed), baseline: |image, g, v| baseline::collect(image, &g.areas, v) },
];

/// The volumes that the calls are timed on, each with the path of its first file.
fn volumes_of_calls() -> [(&'static str, Flash, Vec<u8>); 2] {
    [
        ("nearly full", volumes::nearly_full(), [&b"/"[..], &[b'n'; 80], b"0"].concat()),
        ("1,024 blocks, 256 inodes", volumes::full_tables(), b"/000".to_vec()),
    ]
}

/// One call on one volume: the ratio. Both leave the same image and answer the same number, or nothing is timed.
fn time_call(name: &str, call: &Call, flash: &Flash, path: &[u8], volume: &mut Volume) -> f64 {
    let listed = flash.areas.chunks_exact(2).map(|pair| Area { offset: pair[0], length: pair[1] }).collect();
    let given = Given { areas: flash.areas.clone(), listed, path: path.to_vec() };
    let (mut left, mut right) = (flash.image.clone(), flash.image.clone());
    let number = (call.ours)(&mut left, &given);
    assert_eq!(number, (call.baseline)(&mut right, &given, volume), "{} on {name}", call.name);
    assert!(left == right, "{} on {name}: the images differ", call.name);

    // one image for both, as it was before each call: so nothing is repeated
    let image = std::cell::RefCell::new(left);
    let mut ours = || {
        black_box((call.ours)(black_box(&mut image.borrow_mut()[..]), &given));
    };
    let mut baseline = || {
        black_box((call.baseline)(black_box(&mut image.borrow_mut()[..]), &given, volume));
    };
    let mut between = || image.borrow_mut().copy_from_slice(&flash.image);
    let times = in_turn(ROUNDS, 1, [&mut ours, &mut baseline], &mut between);
    line(&format!("{}, {name}", call.name), number, &times)
}

/// A line for each call on each volume: the greatest ratio.
fn calls(volume: &mut Volume) -> f64 {
    let volumes = volumes_of_calls();
    let pairs = volumes.iter().flat_map(|on| CALLS.iter().map(move |call| (on, call)));
    pairs.map(|((name, flash, path), call)| time_call(name, call, flash, path, volume)).fold(0.0, f64::max)
}

fn bench(lent: &mut Lent) -> ExitCode {
    println!("ratio: ours divided by the ordinary baseline, of the least times; tuned: ours divided by the tuned one");
    heading("the mount by itself", "kind of image", "tuned");
    let (over, _) = lent.lines(ROUNDS, &volumes::kinds());
    heading("calls, each of which mounts", "call", "");
    let greatest = calls(&mut lent.volume);
    println!("calls: the greatest ratio is {greatest:.2}, wanted {MOST_OF_CALL:.2}");
    heading("the mount by itself, hostile images", "kind of image", "tuned");
    let (_, [ours, ordinary, tuned]) = lent.lines(HOSTILE_ROUNDS, &volumes::hostile());
    println!("hostile: ours at most {ours:.0}, the ordinary one at most {ordinary:.0}, the tuned one at most {tuned:.0} microseconds; bound {MOST_HOSTILE:.0}");
    if ours > MOST_HOSTILE {
        println!("FAILED: hostile: a mount takes longer than {MOST_HOSTILE:.0} microseconds");
    }
    for name in &over {
        println!("FAILED: {name}: the ratio is above {MOST}");
    }
    ExitCode::from(u8::from(ours > MOST_HOSTILE || !over.is_empty()))
}

/// A row of a Markdown table: the least times of ours and of the ordinary baseline.
fn row(lent: &mut Lent, kind: &str, x: usize, flash: &Flash) {
    assert_eq!(lent.same(kind, flash), 0, "{kind}, {x}");
    let [ours, ordinary, _] = lent.mounts(ROUNDS, flash);
    println!("| {kind} | {x} | {:.2} | {:.2} | {:.2} |", ours.least, ordinary.least, ours.ratio(&ordinary));
}

fn columns(x: &str) {
    println!("| Image | {x} | Ours, us | Ordinary, us | Ratio |\n|---|---|---|---|---|");
}

/// A volume by the length of its image.
type Make = fn(usize) -> Flash;

/// Eight areas share the image.
fn by_length(lent: &mut Lent) {
    let kinds: [(&str, Make); 3] = [
        ("fresh", |length| volumes::volume(8, length)),
        ("full of greatest blocks", volumes::greatest_blocks),
        ("the most records", |length| volumes::most_records(8, length)),
    ];
    columns("KiB");
    for ((kind, make), kib) in kinds.iter().flat_map(|kind| [8, 16, 32, 64].map(|kib| (kind, kib))) {
        row(lent, kind, kib, &make(kib << 10));
    }
}

/// The ids stand in 1,024 records each time.
fn by_ids(lent: &mut Lent) {
    columns("Ids");
    for count in [64, 128, 256, 512, 1024] {
        row(lent, "1,024 records", count, &volumes::ids(count as u32));
    }
}

fn growth(lent: &mut Lent) -> ExitCode {
    by_length(lent);
    println!();
    by_ids(lent);
    ExitCode::SUCCESS
}

fn main() -> ExitCode {
    let mut lent = Lent { tables: Tables::new(), volume: Box::default() };
    match std::env::args().nth(1).as_deref() {
        None => bench(&mut lent),
        Some("growth") => growth(&mut lent),
        Some(other) => {
            eprintln!("mount_times: what is {other}? There is `growth`.");
            ExitCode::from(2)
        }
    }
}
