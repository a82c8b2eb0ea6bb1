//! The demands as properties of the model over generated cases.

use std::collections::{BTreeMap, BTreeSet};

use nffs_model::account::{Added, Books};
use nffs_model::compare::{Answer, Call, Model, Side};
use nffs_model::damage::{
    answers_stay, mount_number, overwrite, reads_as_untouched, some_of, spared, tells_where,
    Touched,
};
use nffs_model::file::contents;
use nffs_model::generate::{self, listed, moved, names_of, overwritten, Random};
use nffs_model::layout::{is_file, Block, Inode, Record, FIRST_BLOCK, FIRST_FILE, NONE};
use nffs_model::lookup::walk;
use nffs_model::mount::{mount, Fate, FileSystem};
use nffs_model::refusal::Refusal;
use nffs_model::Lookup;

const CASES: u64 = if cfg!(debug_assertions) { 500 } else { 3000 };

/// What can be reached by path: each live inode and its contents, if it is a
/// file that isn't broken.
type View = BTreeMap<u32, (Inode, Option<Vec<u8>>)>;

fn view(side: &Side) -> Option<View> {
    let fs = mount(&side.image, &side.areas).ok()?;
    Some(view_of(&fs))
}

fn view_of(fs: &FileSystem) -> View {
    let live = fs.inodes().filter(|inode| fs.fate(inode.id) == Fate::Live);
    live.map(|inode| (inode.id, (inode.clone(), bytes_of(fs, inode.id)))).collect()
}

fn bytes_of(fs: &FileSystem, id: u32) -> Option<Vec<u8>> {
    if !is_file(id) {
        return None;
    }
    let blocks = contents(fs, id).ok()?;
    Some(blocks.into_iter().flat_map(|block| block.data).collect())
}

/// Runs a case, handing each call's side before and after to `check`.
fn each_call(seed: u64, check: &mut dyn FnMut(&Side, &Call, &Answer, &Side)) {
    let case = generate::case(seed);
    let mut side = Side::new(&case);
    for call in &case.calls {
        let before = side.clone();
        let answer = side.perform(&Model, call);
        if !answer.is_empty() {
            check(&before, call, &answer, &side);
        }
    }
}

/// Demand 1: "A refused call changes no byte of the image, of an output buffer
/// or of a file handle." "A refused answer's other numbers are 0."
#[test]
fn refused_calls_change_nothing() {
    let untouched =
        |buffer: &[u8]| buffer.iter().enumerate().all(|(i, b)| *b == (i * 7 + 13) as u8);
    for seed in 0..CASES {
        each_call(seed, &mut |before, call, answer, after| {
            if answer[0] != 0 {
                assert_eq!((&before.image, before.handle), (&after.image, after.handle));
                assert!(answer[1..].iter().all(|number| *number == 0));
                if matches!(call, Call::Read { .. } | Call::ReadAt { .. } | Call::Tree { .. }) {
                    assert!(untouched(&after.buffer));
                }
            }
        });
    }
}

/// "over FF bytes only".
#[test]
fn records_are_written_over_ff() {
    for seed in 0..CASES {
        each_call(seed, &mut |before, call, _, after| {
            let writes = matches!(
                call,
                Call::Create { .. }
                    | Call::Append { .. }
                    | Call::Overwrite { .. }
                    | Call::Unlink { .. }
                    | Call::Rename { .. }
            );
            if writes {
                let mut pairs = before.image.iter().zip(&after.image);
                assert!(pairs.all(|(old, new)| old == new || *old == 0xff));
            }
        });
    }
}

/// Demand 2: what each accepted write does to what can be reached.
#[test]
fn writes_do_what_is_written() {
    for seed in 0..CASES {
        each_call(seed, &mut |before, call, answer, after| {
            if answer[0] == 0 {
                written(before, call, answer, after);
            }
        });
    }
}

fn find(side: &Side, base: &[u8], path: &[u8]) -> Lookup {
    nffs_model::lookup(&side.image, &side.areas, base, path)
}

fn written(before: &Side, call: &Call, answer: &Answer, after: &Side) {
    let Some(old) = view(before) else { return };
    let new = view(after).expect("it mounts after a write");
    match call {
        Call::Create { base, path, kind } => {
            let found = find(after, base, path);
            assert_eq!((found.number, found.id), (0, answer[1]));
            assert_eq!(found.kind, (*kind).min(1));
            let mut rest = new.clone();
            let (_, bytes) = rest.remove(&found.id).expect("it is live");
            assert_eq!(bytes.unwrap_or_default(), b"");
            assert_eq!(rest, old);
        }
        Call::Append { base, path, data } => {
            let append = |bytes: &mut Vec<u8>| bytes.extend(data);
            assert_eq!(new, with_bytes(&old, find(before, base, path).id, &append));
        }
        Call::Overwrite { base, path, offset, data } => {
            let at = *offset as usize;
            let splice = |bytes: &mut Vec<u8>| bytes[at..at + data.len()].copy_from_slice(data);
            assert_eq!(new, with_bytes(&old, find(before, base, path).id, &splice));
        }
        Call::Unlink { base, path } => {
            let id = find(before, base, path).id;
            assert_eq!(new, without(&old, id));
        }
        Call::Rename { base, old: from, new: to } => {
            let moved = find(before, base, from).id;
            assert_eq!(new, with_names(&old, before, moved, &names(base, to)));
        }
        Call::Collect => assert_eq!(new, old),
        _ => {}
    }
}

/// The view with other bytes of a file, and nothing else changed.
fn with_bytes(view: &View, file: u32, change: &dyn Fn(&mut Vec<u8>)) -> View {
    let mut expected = view.clone();
    let file = expected.get_mut(&file).expect("it is live");
    change(file.1.as_mut().expect("it isn't broken"));
    expected
}

/// The view with other names of an inode.
fn with_names(view: &View, before: &Side, moved: u32, names: &[Vec<u8>]) -> View {
    let mut expected = view.clone();
    let inode = &mut expected.get_mut(&moved).expect("it is live").0;
    inode.sequence += 1;
    inode.name.clone_from(names.last().expect("a name"));
    let fs = mount(&before.image, &before.areas).expect("it mounts");
    inode.parent = walk(&fs, &names[..names.len() - 1]).expect("a directory");
    expected
}

/// The view without an inode and all that lies below it.
fn without(view: &View, id: u32) -> View {
    let below = |mut at: u32| loop {
        if at == id {
            return true;
        }
        match view.get(&at) {
            Some((inode, _)) if at != 0 => at = inode.parent,
            _ => return false,
        }
    };
    view.iter().filter(|(at, _)| !below(**at)).map(|(at, entry)| (*at, entry.clone())).collect()
}

type Names = Vec<Vec<u8>>;

fn names(base: &[u8], path: &[u8]) -> Names {
    nffs_model::path::names(base, path).expect("a good path")
}

/// T-01: the order of its rules, and "Everything that isn't the moved object or
/// below it keeps its path and contents. The moved file keeps its contents."
#[test]
fn a_rename_moves_paths() {
    let mut renames = 0;
    for seed in 0..CASES {
        each_call(seed, &mut |before, call, answer, after| {
            let Call::Rename { base, old, new } = call else { return };
            first_rule_answers(before, call, answer);
            if answer[0] == 0 {
                renames += 1;
                let [before, after] =
                    [before, after].map(|s| mount(&s.image, &s.areas).expect("it mounts"));
                paths_move(&before, &names(base, old), &names(base, new), &after);
                ids_stay(&before, &after);
            }
        });
    }
    println!("{renames} renames");
    assert!(renames > CASES / 10);
}

/// Each path at or below the new one answers what the same rest below the old one
/// did, each at or below the old one is 9, and all others answer as before.
fn paths_move(before: &FileSystem, old: &[Vec<u8>], new: &[Vec<u8>], after: &FileSystem) {
    for path in paths(before) {
        let Some(rest) = path.strip_prefix(old) else { continue };
        assert_eq!(walk(after, &[new, rest].concat()), walk(before, &path));
        assert_eq!(walk(after, &path), Err(Refusal::Absent));
    }
    for path in paths(after) {
        let Some(rest) = path.strip_prefix(new) else { continue };
        assert_eq!(walk(after, &path), walk(before, &[old, rest].concat()));
    }
    for path in paths(before).into_iter().chain(paths(after)) {
        if !path.starts_with(old) && !path.starts_with(new) {
            assert_eq!(walk(after, &path), walk(before, &path));
        }
    }
}

/// The names of live inodes, and below each of them one that isn't there and one
/// that may be. Of many only some: each takes long where they lie deep.
fn paths(fs: &FileSystem) -> Vec<Names> {
    let live: Vec<u32> =
        fs.inodes().map(|inode| inode.id).filter(|id| fs.fate(*id) == Fate::Live).collect();
    let mut all = Vec::new();
    for id in live.iter().step_by(live.len().div_ceil(40)) {
        let path = names_of(fs, *id);
        all.extend([&b"not there"[..], b"a"].map(|name| [&path[..], &[name.to_vec()]].concat()));
        all.push(path);
    }
    all
}

/// Every id keeps its fate, and every file its contents: nothing dies or comes to
/// life.
fn ids_stay(before: &FileSystem, after: &FileSystem) {
    let named = |fs: &FileSystem| fs.accepted().flat_map(|record| record.named()).collect();
    let ids: BTreeSet<u32> = named(before);
    assert_eq!(ids.difference(&named(after)).count(), 0);
    for id in ids {
        assert_eq!(before.fate(id), after.fate(id), "{id:x}");
        assert_eq!(contents(before, id), contents(after, id), "{id:x}");
    }
    assert_eq!(before.inodes().count(), after.inodes().count());
    assert!(before.blocks().eq(after.blocks()));
}

/// Of the rules that a rename breaks the first gives the answer.
fn first_rule_answers(before: &Side, call: &Call, answer: &Answer) {
    let Call::Rename { base, old, new } = call else { return };
    let Ok(fs) = mount(&before.image, &before.areas) else { return };
    let rules = moved::broken_rules(&fs, base, old, new);
    assert_eq!(answer[0], rules.first().map_or(0, |(_, number)| *number), "{rules:?}");
}

/// T-05: the order of its rules; which records an overwrite writes, and that all others
/// are as before; that it is as if each block were overwritten by itself, in file order.
#[test]
fn an_overwrite_rewrites_blocks() {
    let (mut done, mut blocks) = (0, 0);
    for seed in 0..CASES {
        each_call(seed, &mut |before, call, answer, after| {
            let Call::Overwrite { base, path, offset, data } = call else { return };
            let Ok(old) = mount(&before.image, &before.areas) else { return };
            let rules = overwritten::broken_rules(&old, base, path, *offset, data);
            assert_eq!(answer[0], rules.first().map_or(0, |(_, number)| *number), "{rules:?}");
            if let 0 | 15 = answer[0] {
                block_by_block(before, call, answer[0], after);
            }
            if answer[0] == 0 {
                let new = mount(&after.image, &after.areas).expect("it mounts");
                blocks += only_rewritten(&old, &new, find(before, base, path).id, *offset, data);
                done += 1;
            }
        });
    }
    println!("{done} overwrites of {blocks} blocks");
    assert!(done > CASES / 5 && blocks > CASES / 5);
}

/// Each record of the image is there as before, behind them are those of the blocks that
/// hold a byte of the range, with their ids, owners, previous blocks and lengths and a
/// sequence of one more. How many blocks these are.
fn only_rewritten(old: &FileSystem, new: &FileSystem, file: u32, offset: u32, data: &[u8]) -> u64 {
    let (mut held, mut written) = (holders(old, file, offset, data), Vec::new());
    for (a, b) in old.file_areas.iter().zip(&new.file_areas) {
        let (before, behind) = b.reading.records.split_at(a.reading.records.len());
        assert!(before == a.reading.records && a.reading.damage == b.reading.damage);
        for taken in behind {
            let record = taken.record.block().expect("a block");
            let before = old.counting(record.id).and_then(Record::block).expect("it was there");
            let fields = |b: &Block| (b.owner, b.previous, b.data.len());
            assert_eq!((fields(record), record.sequence), (fields(before), before.sequence + 1));
            written.push(record.id);
        }
    }
    held.sort_unstable();
    written.sort_unstable();
    assert_eq!(held, written);
    // By these a read counts headers.
    let lengths = |fs: &FileSystem| {
        let blocks = contents(fs, file).expect("it isn't broken");
        blocks.iter().map(|block| block.data.len()).collect::<Vec<_>>()
    };
    assert_eq!(lengths(old), lengths(new));
    held.len() as u64
}

/// The ids of the blocks that hold a byte of the range.
fn holders(fs: &FileSystem, file: u32, offset: u32, data: &[u8]) -> Vec<u32> {
    let range = offset as usize..offset as usize + data.len();
    let mut end = 0;
    let mut blocks = contents(fs, file).expect("it isn't broken");
    blocks.retain(|block| {
        let start = end;
        end += block.data.len();
        (start..end).any(|at| range.contains(&at))
    });
    blocks.iter().map(|block| block.id).collect()
}

/// The parts of the range in each block written one after the other leave the same
/// image; where the whole is 15, so is one of the parts.
fn block_by_block(before: &Side, call: &Call, number: u32, after: &Side) {
    let Call::Overwrite { base, path, offset, data } = call else { return };
    let fs = mount(&before.image, &before.areas).expect("it mounts");
    let (mut image, mut end, mut numbers) = (before.image.clone(), 0, Vec::new());
    for block in contents(&fs, find(before, base, path).id).expect("it isn't broken") {
        let start = end;
        end += block.data.len();
        let from = start.max(*offset as usize);
        let to = end.min(*offset as usize + data.len());
        if from < to {
            let part = &data[from - *offset as usize..to - *offset as usize];
            let at = from as u32;
            let areas = &before.areas;
            numbers.push(nffs_model::overwrite(&mut image, areas, base, path, at, part));
        }
    }
    if number == 0 {
        assert!(numbers.iter().all(|number| *number == 0) && image == after.image);
    } else {
        assert!(numbers.contains(&number));
    }
}

/// Which blocks `overwrite::rewritten` gives, and with which bytes, asked byte by byte;
/// blocks without data, which no image has, hold no byte of any range.
#[test]
fn blocks_that_hold_a_byte() {
    for lengths in [&[3, 0, 2, 1][..], &[0, 4], &[4, 0], &[0, 0], &[1, 1, 1], &[5], &[]] {
        let size: usize = lengths.iter().sum();
        for (from, to) in (0..=size).flat_map(|from| (from..=size).map(move |to| (from, to))) {
            let blocks = blocks_of_lengths(lengths);
            let data: Vec<u8> = (from..to).map(|at| 100 + at as u8).collect();
            let (mut at, mut expected) = (0, Vec::new());
            for mut block in blocks.clone() {
                let mut held = false;
                for byte in &mut block.data {
                    if from <= at && at < to {
                        (*byte, held) = (100 + at as u8, true);
                    }
                    at += 1;
                }
                block.sequence += 1;
                expected.extend(held.then_some(block));
            }
            let rewritten = nffs_model::overwrite::rewritten(&blocks, from, &data);
            assert_eq!(rewritten, Ok(expected), "{lengths:?}, {from} to {to}");
        }
    }
}

/// A file's blocks of these lengths.
fn blocks_of_lengths(lengths: &[usize]) -> Vec<Block> {
    let block = |(length, k): (&usize, u32)| {
        let previous = if k == 0 { NONE } else { FIRST_BLOCK + k - 1 };
        Block::new(FIRST_BLOCK + k, 7 * k, FIRST_FILE, previous, &vec![k as u8; *length])
    };
    lengths.iter().zip(0..).map(block).collect()
}

/// Demand 3: damage inside records of a mounted image with clean file areas.
#[test]
fn damage_leaves_the_untouched_alone() {
    let (mut damaged, mut files) = (0, 0);
    for seed in 0..CASES {
        let case = generate::case(seed);
        let mut side = Side::new(&case);
        case.calls.iter().for_each(|call| {
            side.perform(&Model, call);
        });
        let Ok(before) = mount(&side.image, &side.areas) else { continue };
        if !before.file_areas.iter().all(|area| area.reading.is_clean()) {
            continue;
        }
        let mut r = Random::new(seed ^ 0x5eed);
        let whole = side.clone();
        let Some(touched) = overwrite(&mut r, &before, &mut side.image) else { continue };
        damaged += 1;
        reads_as_untouched(&before, &side.image, &touched);
        let number = nffs_model::report(&side.image, &side.areas).number;
        assert_eq!(number, mount_number(&before, &touched));
        tells_where(&Model, &before, &side, &touched);
        files += files_stay(&whole, &before, &side, &touched);
    }
    println!("{damaged} damaged images, {files} files looked at");
    assert!(damaged > CASES / 10 && files > CASES / 10);
}

/// Each live file of which no record was touched keeps number, parent, name,
/// contents, reads and path. How many were asked for.
fn files_stay(before: &Side, old: &FileSystem, after: &Side, touched: &Touched) -> u64 {
    let spared = spared(old, touched);
    if spared.is_empty() {
        return 0;
    }
    let new = mount(&after.image, &after.areas).expect("the root wasn't touched");
    let (old_view, new_view) = (view_of(old), view_of(&new));
    for id in &spared {
        assert_eq!(old_view.get(id), new_view.get(id));
    }
    let asked = some_of(&spared);
    for id in &asked {
        answers_stay(&Model, (before, old), (after, &new), *id);
    }
    asked.len() as u64
}

/// T-08: every area adds up to its length, its stretches are apart and in order,
/// and the report is the sum of its file areas: of each image that a case begins
/// with, and of what its calls leave.
#[test]
fn areas_add_up() {
    let mut sum = Added::default();
    for seed in 0..CASES {
        let case = generate::case(seed);
        let mut side = Side::new(&case);
        add_up(&side, &mut sum);
        case.calls.iter().for_each(|call| {
            side.perform(&Model, call);
        });
        add_up(&side, &mut sum);
    }
    println!("{sum:?}");
    let enough = CASES as usize;
    assert!(sum.areas > 4 * enough && sum.stretches > enough && sum.mounted > enough);
}

fn add_up(side: &Side, sum: &mut Added) {
    let books = Books { engine: &Model, image: &side.image, areas: &side.areas };
    let added = books.add_up();
    sum.areas += added.areas;
    sum.stretches += added.stretches;
    sum.mounted += added.mounted;
}

/// Every case asks for every entry of its last list, for those behind the end of
/// it, and for two that are nowhere.
#[test]
fn cases_ask_for_every_area() {
    for seed in 0..CASES {
        let case = generate::case(seed);
        let list = case.calls.iter().rev().find_map(|call| match call {
            Call::Areas(list) => Some(list),
            _ => None,
        });
        let listed = list.unwrap_or(&case.areas).len() as u32 / 2;
        let every: Vec<u32> = (0..=listed).chain([u32::MAX]).collect();
        let last = &case.calls[case.calls.len() - every.len()..];
        let asked = last.iter().map(|call| match call {
            Call::AreaReport { index, .. } => *index,
            other => panic!("{other:?}"),
        });
        assert_eq!(asked.collect::<Vec<u32>>(), every);
    }
}

/// A listing (T-07): the text is the one that the paths of the live inodes tell when they
/// are sorted, the front of the buffer holds as much of it as fits, and the rest stays.
/// Each live inode has a line, but for those at depth 65 and below.
#[test]
fn a_listing_shows_each_live_inode_once() {
    let (mut done, mut deep) = (0, 0);
    for seed in 0..CASES {
        each_call(seed, &mut |before, call, answer, after| {
            let Call::Tree { length } = call else { return };
            if answer[0] != 0 {
                return;
            }
            let fs = mount(&before.image, &before.areas).expect("it mounts");
            let text = listed::by_paths(&fs);
            assert_eq!((answer[1] as usize, after.buffer.len()), (text.len(), *length));
            let rest = (text.len()..*length).map(|i| (i * 7 + 13) as u8);
            let front = text.iter().copied().take(*length);
            assert!(after.buffer.iter().copied().eq(front.chain(rest)), "seed {seed}");
            deep += lines_of(&fs, &text);
            done += 1;
        });
    }
    println!("{done} listings, {deep} deeper");
    assert!(done > CASES as usize && (deep > 20 || cfg!(debug_assertions)));
}

/// Asserts that there are as many lines as live inodes of depths under 65, each name at
/// its depth, and one for each directory with live children at depth 65. How many of
/// these there are.
fn lines_of(fs: &FileSystem, text: &[u8]) -> usize {
    let live: Vec<&Inode> = fs.inodes().filter(|i| fs.fate(i.id) == Fate::Live).collect();
    let depth = |inode: &Inode| names_of(fs, inode.id).len();
    let shown = live.iter().filter(|inode| depth(inode) < 65).count();
    let deeper: BTreeSet<u32> =
        live.iter().filter(|inode| depth(inode) == 65).map(|inode| inode.parent).collect();
    let mut lines: Vec<&[u8]> = text.split(|byte| *byte == b'\n').collect();
    assert_eq!(lines.pop(), Some(&b""[..]));
    assert_eq!(lines.len(), shown + deeper.len());
    for inode in live.into_iter().filter(|inode| inode.id != 0 && depth(inode) < 65) {
        let name: Vec<u8> =
            inode.name.iter().map(|byte| if *byte == b'\n' { b'/' } else { *byte }).collect();
        let start = [&vec![b' '; depth(inode)][..], &name].concat();
        assert!(lines.iter().any(|line| line.starts_with(&start)));
    }
    deeper.len()
}

/// Every case asks for a listing behind its last write.
#[test]
fn cases_ask_for_a_listing() {
    for seed in 0..CASES {
        let calls = generate::case(seed).calls;
        let last = calls.iter().rposition(|call| *call == Call::Report).expect("a report");
        assert!(matches!(calls[last - 1], Call::Tree { .. }));
    }
}
