//! How long the proved calls take, each of which mounts anew, and how long the model's take: the figures of docs/FIGURES.md.

use std::hint::black_box;
use std::time::Instant;

use nffs_compare::Proved;
use nffs_model::compare::{Engine, Model};
use nffs_model::forge::Flash;

const FILE: u32 = 0x1000_0000;
const BLOCK: u32 = 0x8000_0000;
const NONE: u32 = 0xffff_ffff;

/// A volume of 65,536 bytes: seven file areas and a scratch area of 8,192 bytes each.
fn fresh() -> Flash {
    let mut flash = Flash::of(&[8192; 8]);
    for area in 0..7 {
        flash.head(area, 0, 0, area as u8);
    }
    flash.head(7, 0, 0, 255);
    flash.root(0);
    flash
}

/// With so many files and blocks of this data, which go round the files.
fn filled(names: &[Vec<u8>], blocks: u32, data: &[u8]) -> Flash {
    let mut flash = fresh();
    let files = names.len() as u32;
    for (name, id) in names.iter().zip(FILE..) {
        assert!((0..7).any(|area| flash.inode(area, id, 0, 0, name)));
    }
    for k in 0..blocks {
        let previous = if k < files { NONE } else { BLOCK + k - files };
        assert!((0..7).any(|area| flash.block(area, BLOCK + k, 0, FILE + k % files, previous, data)));
    }
    flash
}

/// Nearly every byte is taken, by files of four or five blocks.
fn full() -> Flash {
    let names: Vec<_> = (0..60).map(|k| [&[b'n'; 80][..], &[b'0' + k]].concat()).collect();
    filled(&names, 250, &[0xa5; 170])
}

/// 256 inodes, the root among them, and 1,024 blocks: a create and an append are refused with 5.
fn full_tables() -> Flash {
    let others = (1..255).map(|k: u32| k.to_string().into_bytes());
    let names: Vec<_> = [first_file()[1..].to_vec()].into_iter().chain(others).collect();
    filled(&names, 1024, &[0xa5; 20])
}

fn most_records() -> Flash {
    let mut flash = fresh();
    for sequence in 0.. {
        if !(0..7).any(|area| flash.delete(area, FILE + sequence % 63, sequence)) {
            break;
        }
    }
    flash
}

fn all_damaged() -> Flash {
    let mut flash = fresh();
    for area in 0..7 {
        let at = flash.offset(area) + 64;
        let end = flash.offset(area) + flash.length(area);
        flash.image[at..end].fill(0);
    }
    flash
}

/// An empty file; two file areas of 16,384 bytes and one of this length.
fn with_an_area_of(length: usize) -> Flash {
    let mut flash = Flash::of(&[16384, 16384, 16384, length]);
    assert!(flash.root(1) && flash.inode(1, FILE, 0, 0, &first_file()[1..]));
    flash
}

fn volumes() -> [(&'static str, Flash); 5] {
    [
        ("fresh", fresh()),
        ("nearly full", full()),
        ("full tables", full_tables()),
        ("the most records", most_records()),
        ("all damaged", all_damaged()),
    ]
}

/// Ids, parents and names.
type Inodes = Vec<(u32, u32, Vec<u8>)>;

/// Inodes in areas of these lengths, and blocks that go round the files.
fn listed(lengths: &[usize], inodes: Inodes, blocks: u32) -> Flash {
    let mut flash = Flash::of(lengths);
    assert!(flash.root(lengths.len() - 1));
    for (id, parent, name) in &inodes {
        assert!((1..lengths.len()).any(|area| flash.inode(area, *id, 0, *parent, name)));
    }
    let files: Vec<u32> = inodes.iter().map(|(id, ..)| *id).filter(|id| *id >= FILE).collect();
    for k in 0..blocks {
        let count = files.len() as u32;
        let previous = if k < count { NONE } else { BLOCK + k - count };
        assert!((1..lengths.len()).any(|area| flash.block(area, BLOCK + k, 0, files[(k % count) as usize], previous, &[0xa5; 20])));
    }
    flash
}

/// Files in the root, whose names are in another order than their ids.
fn flat(count: u32, name: fn(u32) -> String) -> Inodes {
    (0..count).map(|k| (FILE + k, 0, name(k * 86 % count).into_bytes())).collect()
}

/// Trees to list.
fn trees() -> [(&'static str, Flash); 6] {
    let even = [4096; 16];
    let chain = |length: u32| (1..=length).map(|id| (id, id - 1, b"d".to_vec())).collect();
    let inode = |k: u32| (if k < 64 { k } else { FILE + k }, if k < 64 { k - 1 } else { 63 }, format!("{k:0>217}").into_bytes());
    // as many names of 255 bytes as there is room for
    let longest = [&[4149; 15][..], &[3301]].concat();
    [
        ("255 files in the root", listed(&even, flat(255, |k| k.to_string()), 0)),
        ("64 directories, each in the one before", listed(&even, chain(64), 0)),
        ("255 directories, each in the one before", listed(&even, chain(255), 0)),
        ("221 names of 255 bytes, alike up to the 250th", listed(&longest, flat(221, |k| format!("{}{k:05}", "n".repeat(250))), 0)),
        ("255 files in the root, 1,024 blocks", listed(&even, flat(255, |k| k.to_string()), 1024)),
        ("a text of 70,280 bytes", listed(&even, (1..256).map(inode).collect(), 0)),
    ]
}

/// The path of the first file of the volumes that are nearly full or have full tables.
fn first_file() -> Vec<u8> {
    [&b"/"[..], &[b'n'; 80], b"0"].concat()
}

/// One call on one engine: the number that it answers.
type Call = (&'static str, fn(&dyn Engine, &mut [u8], &[u32]) -> u32);

const CALLS: [Call; 16] = [
    ("format", |e, image, areas| e.format(image, areas)),
    REPORT,
    ("area report", |e, image, areas| e.area_report(image, areas, 0, 0).number),
    TREE,
    ("lookup", |e, image, areas| e.lookup(image, areas, b"", &first_file()).number),
    ("open", |e, image, areas| e.open(image, areas, b"", &first_file()).number),
    ("read", |e, image, areas| e.read_at(image, areas, FILE, 0, &mut [0; 4096]).number),
    ("create", |e, image, areas| e.create(image, areas, b"", b"/new", 1).number),
    ("append", |e, image, areas| e.append(image, areas, b"", &first_file(), &[7; 100])),
    ("append 2,000", |e, image, areas| e.append(image, areas, b"", &first_file(), &[7; 2000])),
    ("overwrite 64 from 18 on", |e, image, areas| e.overwrite(image, areas, b"", &first_file(), 18, &[7; 64])),
    // the whole of the first file, five blocks, of the volume with full tables and of the one that is nearly full
    ("overwrite 100", |e, image, areas| e.overwrite(image, areas, b"", &first_file(), 0, &[7; 100])),
    ("overwrite 850", |e, image, areas| e.overwrite(image, areas, b"", &first_file(), 0, &[7; 850])),
    ("unlink", |e, image, areas| e.unlink(image, areas, b"", &first_file())),
    ("rename", |e, image, areas| e.rename(image, areas, b"", &first_file(), b"/new")),
    ("collect", |e, image, areas| e.collect(image, areas)),
];

const REPORT: Call = ("report", |e, image, areas| e.report(image, areas).number);

/// Into a buffer that every text fits in.
const TREE: Call = ("tree", |e, image, areas| e.tree(image, areas, &mut [0; 102_400]).number);

/// The longest append, which the shortest file area cuts into the most blocks.
const LONGEST: Call = ("append 8,192", |e, image, areas| e.append(image, areas, b"", &first_file(), &[7; 8192]));

/// The longest overwrite, of a file that was appended so.
const WHOLE: Call = ("overwrite 8,192", |e, image, areas| e.overwrite(image, areas, b"", &first_file(), 0, &[9; 8192]));

/// The shortest of 50 runs in microseconds, each on the same bytes, and the number answered.
fn shortest(engine: &dyn Engine, flash: &Flash, call: Call) -> (f64, u32) {
    let mut number = 0;
    let mut image = flash.image.clone();
    let time = |_| {
        image.copy_from_slice(&flash.image);
        let begin = Instant::now();
        number = black_box(call.1(engine, &mut image, &flash.areas));
        begin.elapsed().as_secs_f64() * 1e6
    };
    let least = (0..50).map(time).fold(f64::INFINITY, f64::min);
    (least, number)
}

/// One call on one volume, on both.
fn row(name: &str, flash: &Flash, call: Call) {
    let (ours, number) = shortest(&Proved, flash, call);
    let (model, expected) = shortest(&Model, flash, call);
    assert_eq!(number, expected, "{name}, {}", call.0);
    println!("| {name} | {} | {number} | {ours:.0} | {model:.0} | {:.2} |", call.0, ours / model);
}

fn main() {
    println!("| Image | Call | Answer | Microseconds | The model's | Ratio |\n|---|---|---|---|---|---|");
    for (name, flash) in volumes() {
        for call in CALLS {
            row(name, &flash, call);
        }
    }
    for (name, flash) in trees() {
        row(name, &flash, REPORT);
        row(name, &flash, TREE);
    }
    for length in [128, 512, 1024, 4096, 4168] {
        let mut flash = with_an_area_of(length);
        row(&format!("an area of {length}"), &flash, LONGEST);
        assert_eq!(LONGEST.1(&Model, &mut flash.image, &flash.areas), 0);
        row(&format!("an area of {length}, with the file"), &flash, WHOLE);
    }
}
