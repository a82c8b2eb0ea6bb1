//! What is rare about overwrites (T-05): the rules that refuse one, which blocks an
//! accepted one rewrites and where their records go, and what comes back when such a
//! record is damaged.

use super::made::{holding, in_path, mounts, Made};
use crate::compare::Side;
use crate::file::{contents, size};
use crate::layout::{is_directory, is_file, Block, Record, ROOT};
use crate::lookup::walk;
use crate::mount::{Fate, FileArea, FileSystem, BLOCKS};
use crate::path;
use crate::refusal::Refusal;
use crate::write::APPEND;

/// The rules that can refuse an overwrite of an image that mounts, in their order.
#[derive(Clone, Copy, Debug, PartialEq, Eq, PartialOrd, Ord)]
pub enum Rule {
    /// 8, of path or base.
    Path,
    /// 8, of the data.
    Length,
    /// 9, 10 or 11.
    Walk,
    /// 11, of a directory.
    Kind,
    /// 13.
    Broken,
    /// 14.
    Range,
    /// 16.
    Sequence,
    /// 15.
    Room,
}

/// An overwrite, with what its path leads to.
struct Overwrite<'a> {
    fs: &'a FileSystem,
    /// Where the names lead, if the path is good.
    found: Option<Result<u32, Refusal>>,
    blocks: Vec<Block>,
    offset: usize,
    data: &'a [u8],
}

/// The blocks of a file in file order; of a broken one all that name it, by id.
pub fn blocks_of(fs: &FileSystem, file: u32) -> Vec<Block> {
    let naming = || fs.blocks().filter(|block| block.owner == file).cloned().collect();
    contents(fs, file).unwrap_or_else(|_| naming())
}

/// The rules that an overwrite breaks, each asked by itself, with the numbers that
/// they give. The answer is the first of them, or 0.
pub fn broken_rules(
    fs: &FileSystem,
    base: &[u8],
    path: &[u8],
    offset: u32,
    data: &[u8],
) -> Vec<(Rule, u32)> {
    Overwrite::of(fs, base, path, offset, data).broken()
}

impl Overwrite<'_> {
    fn of<'a>(
        fs: &'a FileSystem,
        base: &[u8],
        path: &[u8],
        offset: u32,
        data: &'a [u8],
    ) -> Overwrite<'a> {
        let found = path::names(base, path).ok().map(|names| walk(fs, &names));
        let file = found.and_then(Result::ok).filter(|id| is_file(*id));
        let blocks = file.map_or_else(Vec::new, |id| blocks_of(fs, id));
        Overwrite { fs, found, blocks, offset: offset as usize, data }
    }

    fn broken(&self) -> Vec<(Rule, u32)> {
        let id = self.found.and_then(Result::ok);
        let is_broken = |id: u32| contents(self.fs, id).is_err();
        let past = self.offset + self.data.len() > size(&self.blocks);
        let held = self.held();
        let last = held.iter().any(|block| block.sequence == u32::MAX);
        let rules = [
            (Rule::Path, self.found.is_none().then_some(Refusal::BadRequest)),
            (Rule::Length, (self.data.len() > APPEND).then_some(Refusal::BadRequest)),
            (Rule::Walk, self.found.and_then(Result::err)),
            (Rule::Kind, id.filter(|id| is_directory(*id)).map(|_| Refusal::WrongKind)),
            (Rule::Broken, id.filter(|id| is_broken(*id)).map(|_| Refusal::Broken)),
            (Rule::Range, id.filter(|id| is_file(*id) && past).map(|_| Refusal::AfterEnd)),
            (Rule::Sequence, last.then_some(Refusal::LastSequence)),
            (Rule::Room, (self.areas().0.len() < held.len()).then_some(Refusal::NoRoom)),
        ];
        rules.into_iter().filter_map(|(rule, broken)| Some((rule, broken?.number()))).collect()
    }

    /// The blocks that hold a byte of the range, asked byte by byte.
    fn held(&self) -> Vec<&Block> {
        let holders = self.blocks.iter().flat_map(|block| block.data.iter().map(move |_| block));
        let mut held: Vec<&Block> = holders.skip(self.offset).take(self.data.len()).collect();
        held.dedup_by_key(|block| block.id);
        held
    }

    /// The free bytes of the file areas, in descriptor order; none of a damaged one.
    fn rooms(&self) -> Vec<usize> {
        let free = |area: &FileArea| area.at.len() - area.reading.free;
        let room = |area: &FileArea| if area.reading.is_clean() { free(area) } else { 0 };
        self.fs.file_areas.iter().map(room).collect()
    }

    /// Which file area each of the records goes to, as far as there is room, and what
    /// is free then.
    fn areas(&self) -> (Vec<usize>, Vec<usize>) {
        let (mut areas, mut rooms) = (Vec::new(), self.rooms());
        for block in self.held() {
            let Some(area) = rooms.iter().position(|room| *room >= record(block)) else { break };
            rooms[area] -= record(block);
            areas.push(area);
        }
        (areas, rooms)
    }

    /// What the range has before.
    fn old(&self) -> Vec<u8> {
        let bytes = self.blocks.iter().flat_map(|block| block.data.iter().copied());
        bytes.skip(self.offset).take(self.data.len()).collect()
    }
}

/// The bytes of a block's record.
pub fn record(block: &Block) -> usize {
    Block::HEADER + block.data.len()
}

/// What an overwrite has by what it is given.
pub fn in_overwrite(
    (base, path): (&[u8], &[u8]),
    offset: u32,
    data: &[u8],
    side: &Side,
) -> Vec<Made> {
    let Some(fs) = mounts(side) else { return Vec::new() };
    let overwrite = Overwrite::of(&fs, base, path, offset, data);
    let rules = overwrite.broken();
    let accepted = rules.is_empty();
    let mut made = in_path(base, path, accepted);
    made.extend(holding(&[
        (Made::OverwriteBelowABase, accepted && path.first() != Some(&b'/')),
        (Made::OverwriteOver8193, data.len() > APPEND + 1),
    ]));
    made.extend(refused(&rules));
    made.extend(match rules.first() {
        None if data.is_empty() => in_nothing(&overwrite),
        None => [in_range(&overwrite), in_blocks(&overwrite), in_places(&overwrite)].concat(),
        Some((rule, _)) => in_refused(&overwrite, *rule),
    });
    made
}

/// The first rule alone, or with each later one that gives another number.
fn refused(rules: &[(Rule, u32)]) -> Vec<Made> {
    match rules {
        [] => Vec::new(),
        [(rule, _)] => vec![Made::OverwriteBreaks(*rule)],
        [(rule, number), later @ ..] => {
            let others = later.iter().filter(|(_, other)| other != number);
            others.map(|(other, _)| Made::OverwriteBreaksBoth(*rule, *other)).collect()
        }
    }
}

/// What an overwrite of 0 bytes has that is accepted. The block at its offset, if
/// there is one, isn't rewritten.
fn in_nothing(overwrite: &Overwrite) -> Vec<Made> {
    let (size, at) = (size(&overwrite.blocks), overwrite.offset);
    let there = Overwrite { data: &[0], blocks: overwrite.blocks.clone(), ..*overwrite };
    let last = there.held().first().is_some_and(|block| block.sequence == u32::MAX);
    let no_room = there.areas().0.len() < there.held().len();
    holding(&[
        (Made::NothingInAnEmptyFile, size == 0),
        (Made::NothingAtTheStart, size > 0 && at == 0),
        (Made::NothingInTheMiddle, 0 < at && at < size),
        (Made::NothingAtTheEnd, size > 0 && at == size),
        (Made::NothingAtTheLastSequence, last),
        (Made::NothingWithoutRoom, no_room),
    ])
}

/// Where the range of an accepted overwrite begins and ends.
fn in_range(overwrite: &Overwrite) -> Vec<Made> {
    let (length, held) = (overwrite.data.len(), overwrite.held());
    let edges: Vec<usize> =
        (0..=overwrite.blocks.len()).map(|k| size(&overwrite.blocks[..k])).collect();
    let [first, last] = [0, length].map(|at| edges.contains(&(overwrite.offset + at)));
    let several = overwrite.blocks.len() > 1;
    let ends = [overwrite.blocks.first(), overwrite.blocks.last()];
    let middle = !held.iter().any(|block| ends.contains(&Some(*block)));
    holding(&[
        (Made::OverwriteInsideABlock, held.len() == 1 && !first && !last),
        (Made::OverwriteFromBlockToBlock, held.len() > 1 && !first && !last),
        (Made::OneBlockOverwritten, several && held.len() == 1 && first && last),
        (Made::WholeFileOverwritten, several && length == size(&overwrite.blocks)),
        (Made::ThreeBlocksOverwritten, held.len() >= 3),
        (Made::HundredBlocksOverwritten, held.len() >= 100),
        (Made::MiddleBlocksOverwritten, held.len() > 1 && middle),
        (Made::OverwriteOf8192Bytes, length == APPEND),
        (Made::OverwriteWithTheSame, overwrite.old() == overwrite.data),
    ])
}

/// The blocks that an accepted overwrite rewrites, and the others of the file.
fn in_blocks(overwrite: &Overwrite) -> Vec<Made> {
    let (fs, held) = (overwrite.fs, overwrite.held());
    let any = |holds: &dyn Fn(&Block) -> bool| held.iter().any(|block| holds(block));
    let last = |block: &Block| block.sequence == u32::MAX;
    let versions = |block: &Block| fs.accepted().filter(|other| other.id() == block.id).count();
    let in_order = overwrite.blocks.windows(2).all(|two| two[0].id < two[1].id);
    holding(&[
        (Made::LastSequenceBesideTheRange, overwrite.blocks.iter().any(last)),
        (Made::LastSequenceOfABlockReached, any(&|block| block.sequence == u32::MAX - 1)),
        (Made::LongerBlockOverwritten, any(&|block| block.data.len() > fs.greatest_block())),
        (Made::OverwrittenAgain, any(&|block| versions(block) > 1)),
        (Made::IdsNotInFileOrder, held.len() > 1 && !in_order),
        (Made::OverwriteInAFullTable, fs.blocks().count() == BLOCKS),
    ])
}

/// Where the blocks' records lie, and where the new ones go.
fn in_places(overwrite: &Overwrite) -> Vec<Made> {
    let (areas, rooms) = overwrite.areas();
    let old: Vec<_> =
        overwrite.held().into_iter().map(|block| place(overwrite.fs, block)).collect();
    let first = overwrite.held().first().map_or(0, |block| record(block));
    let free = |area: &FileArea| area.at.len() - area.reading.free;
    let passed = |area: &FileArea| !area.reading.is_clean() && free(area) >= first;
    let filled = |area: &usize| rooms[*area] == 0;
    holding(&[
        (Made::RecordsNotInFileOrder, !old.is_sorted()),
        (Made::OverwriteOverAreas, areas.iter().any(|area| *area != areas[0])),
        (Made::LaterBlockInAnEarlierArea, !areas.is_sorted()),
        (Made::DamagedAreaPassedOver, overwrite.fs.file_areas[..areas[0]].iter().any(passed)),
        (Made::OverwriteFillsAnArea, areas.iter().any(filled)),
    ])
}

/// The area and the offset where a block's counting record lies first.
fn place(fs: &FileSystem, block: &Block) -> Option<(usize, usize)> {
    fs.file_areas.iter().enumerate().find_map(|(index, area)| {
        let mut records = area.reading.records.iter();
        let there = records.find(|taken| taken.record.block() == Some(block))?;
        Some((index, there.offset))
    })
}

fn in_refused(overwrite: &Overwrite, by: Rule) -> Vec<Made> {
    let (size, at, length) = (size(&overwrite.blocks), overwrite.offset, overwrite.data.len());
    let wrapped = (at as u32).checked_add(length as u32).is_none();
    let end = (at as u32).wrapping_add(length as u32) as usize;
    let low = at % 0x1_0000 + length <= size && length > 0;
    let (held, placed) = (overwrite.held(), overwrite.areas().0.len());
    let longest = overwrite.rooms().into_iter().max().unwrap_or(0);
    let short = matches!(held[..], [block] if longest + 1 == record(block));
    let first = held.first().is_some_and(|block| block.sequence == u32::MAX);
    let is_root = overwrite.found == Some(Ok(ROOT));
    holding(&[
        (Made::RootOverwritten, by == Rule::Kind && is_root),
        (Made::NothingInABrokenFile, by == Rule::Broken && length == 0),
        (Made::EndOneBytePast, by == Rule::Range && at < size && at + length == size + 1),
        (Made::DataAtTheEnd, by == Rule::Range && at == size),
        (Made::OffsetOneBytePast, by == Rule::Range && at == size + 1),
        (Made::NothingPastTheEnd, by == Rule::Range && length == 0),
        (Made::SumWraps, by == Rule::Range && wrapped && end <= size && length > 0),
        (Made::OffsetOver16Bits, by == Rule::Range && low),
        (Made::LastSequenceOfALaterBlock, by == Rule::Sequence && !first),
        (Made::RoomForAllButTheLast, by == Rule::Room && placed > 0 && placed + 1 == held.len()),
        (Made::BlockOneByteTooLong, by == Rule::Room && short),
    ])
}

/// Damage to the record of an overwrite: the file is whole and as long as before, and
/// an older version of the block is read.
pub fn in_damage(before: &FileSystem, now: &FileSystem) -> Vec<Made> {
    let bytes = |fs: &FileSystem, id: u32| {
        let blocks = contents(fs, id).ok().filter(|_| fs.fate(id) == Fate::Live)?;
        Some(blocks.into_iter().flat_map(|block| block.data).collect::<Vec<u8>>())
    };
    let older = |old: &&Block| {
        let newer = before.counting(old.id).and_then(Record::block);
        newer.is_some_and(|newer| newer.owner == old.owner && newer.sequence > old.sequence)
    };
    let is_back = |old: &Block| match (bytes(before, old.owner), bytes(now, old.owner)) {
        (Some(a), Some(b)) => a.len() == b.len() && a != b,
        _ => false,
    };
    let back = now.blocks().filter(older).any(is_back);
    holding(&[(Made::OldBytesBack, back)])
}
