//! What a case has that is rare: counted, so that a run can say how often each
//! was made, and a test that each was.

use std::collections::BTreeSet;

use super::listed::{depth, in_tree};
use super::moved::{self, in_rename, Rule};
use super::overwritten::{self, in_overwrite};
use super::stretches::{in_area_report, in_report};
use crate::area::{self, Reading};
use crate::collect::{count_precedes, is_eligible, source};
use crate::compare::{Answer, Call, Case, Side};
use crate::file::contents;
use crate::forge::with_reserved;
use crate::layout::{is_block, AreaHeader, Block, Inode, Record, FIRST_FILE, ROOT};
use crate::mount::{
    descriptors, greatest_block, mount, Fate, FileArea, FileSystem, BLOCKS, DESCRIPTORS, IMAGE,
    INODES, SHORTEST_AREA,
};
use crate::path::PATH;
use crate::refusal::Refusal;
use crate::write::APPEND;

#[derive(Clone, Copy, Debug, PartialEq, Eq, PartialOrd, Ord)]
pub enum Made {
    /// An image of 65,536 bytes that mounts, all of it in two to four areas.
    WholeVolume,
    ThousandsOfNamedIds,
    TenDirectoriesDeep,
    /// 63 and more.
    SixtyThreeDirectoriesDeep,
    /// As many as the table has places, the root's apart.
    DirectoriesDeepAsTheTable,
    /// Nine areas and more that mount.
    NineAreas,
    /// All that a list may have, and they mount.
    SixteenAreas,
    /// Before the end of the list.
    SeventeenEntries,
    /// A list that ends in time, with so many entries behind its end that there
    /// are more than 16.
    EntriesBehindTheEnd,
    /// 64, 128 or 192 inode ids.
    InodesAtAWord,
    FullInodeTable,
    OneInodeTooMany,
    /// A multiple of 64 block ids, fewer than the table has places.
    BlocksAtAWord,
    FullBlockTable,
    OneBlockTooMany,
    /// 5 where the image mounts.
    CreateInAFullTable,
    AppendInAFullTable,
    /// Two pieces and more, of which all but the last have places.
    AppendOverByItsLastPiece,
    AppendOfNothingInAFullTable,
    /// An append whose piece is the second of two greatest blocks that fill a
    /// file area, nothing but its header before them, to the last byte.
    TwoGreatestBlocksFillAnArea,
    /// Bytes are read of a block that is longer than appends make them there;
    /// reads of fewer bytes than any greatest block has aren't counted.
    LongerBlockRead,
    /// An append of two pieces and more to a file that has such a block.
    AppendBehindALongerBlock,
    /// With a right check.
    BlockOf2049Bytes,
    RelativePathOver1024,
    /// Below which a relative path is asked for.
    BaseOver1024,
    /// Each is good by itself, and something is found.
    BaseAndPathTogetherOver1024,
    TenNamesFound,
    AppendOver8193,
    BufferOver8192,
    MoreThan8192BytesGiven,
    /// Create answers an id a thousand and more behind its range's first.
    NewIdFarFromTheStart,
    /// An image that mounts, without an area whose header has a wrong reserved
    /// byte alone.
    ReservedAreaPassedOver,
    /// 3 for the reserved byte of the scratch area's header alone.
    ReservedScratchPassedOver,
    /// An image that mounts; with the reserved byte of a header 0 it had two
    /// scratch areas.
    ReservedSecondScratchPassedOver,
    /// An image that isn't 2; with the reserved byte of a header 0 it were.
    ReservedSharedIdPassedOver,
    /// An inode of an image that mounts, acceptable but for its reserved byte.
    ReservedInodeSkipped,
    /// Such a deletion record; what it was to delete is live.
    ReservedDeletionSkipped,
    /// Such an inode beside an equal one whose reserved byte is 0.
    ReservedTwinSkipped,
    /// 7, with such a root record there.
    ReservedRootSkipped,
    /// The source has not the lowest count, and no eligible area precedes it.
    CollectionAcrossTheWrap,
    /// Each eligible area is preceded by one.
    EveryEligibleAreaPreceded,
    /// By so many the source precedes an eligible area that comes before it in
    /// descriptor order.
    CountsApartBy127,
    /// Three eligible areas and more, two of them 128 apart.
    CountsApartBy128,
    /// The source's count is 255.
    CountPassesTo0,
    /// An area that isn't as long as scratch precedes the source.
    ShorterAreaPrecedes,
    /// The scratch area's count precedes the source's.
    ScratchPrecedes,
    /// A report that answers 0, here and in those that follow.
    DamageInTwoFileAreas,
    /// Of the damaged file areas the first in descriptor order is not the lowest
    /// in the image.
    FirstDamageNotTheLowest,
    /// And a later one is damaged.
    FirstFileAreaClean,
    /// In a file area.
    NoFreeSpace,
    /// In the first damaged file area, as those that follow.
    TwoStretchesInAnArea,
    LaterStretchLonger,
    /// The only stretch is the last one, free space being a part of it.
    DamageBeforeFreeSpace,
    /// The only stretch reaches the area's end.
    DamageUpToTheEnd,
    DamageAt24,
    FfBeginsDamage,
    FfEndsDamage,
    /// No file area is damaged.
    DamageInScratchAlone,
    /// The scratch area comes before the first damaged file area.
    DamageInScratchBefore,
    /// No file area is damaged, nor is scratch.
    DamagePassedOverAlone,
    DamagePassedOverBefore,
    /// The report of one area, here and in those that follow.
    LastStretchOfSeveral,
    StretchBetween,
    /// A stretch of the area, of a number over 255.
    StretchBehind255,
    /// In the area.
    MoreRecordsThanPlaces,
    /// One more than the area has, which has some.
    OneStretchBeyond,
    StretchFarBeyond,
    /// One more than a good list has.
    OneEntryBeyond,
    /// An entry that stands behind the end of a good list.
    EntryBehindTheEnd,
    EntryFarBeyond,
    /// With records and damage.
    ScratchAreaReported,
    PassedOverAreaReported,
    /// A mount would answer 2, ..., 7.
    AreaReportWhere2,
    AreaReportWhere3,
    AreaReportWhere4,
    AreaReportWhere5,
    AreaReportWhere6,
    AreaReportWhere7,
    /// A rename that this rule alone refuses.
    RenameBreaks(Rule),
    /// A rename that the first rule refuses, and the second would by another
    /// number.
    RenameBreaksBoth(Rule, Rule),
    /// A rename that is accepted, here and in those that follow.
    TwoPathsBelowABase,
    /// The other is absolute.
    OnePathBelowABase,
    DirectoryMovedWithContents,
    /// To a directory that its own lies below.
    MovedUp,
    /// To a directory that lay in the moved one by an older record.
    MovedBelowAFormerChild,
    NewNameOf255Bytes,
    /// Some record has that parent and name, of a child that isn't live or as an
    /// older version.
    NameOfAnotherTimeTaken,
    /// To the last byte.
    RenameFillsAnArea,
    RenameInAFullTable,
    BrokenFileRenamed,
    /// From the one before it.
    LastSequenceReached,
    /// 12, here and in the next two.
    RenamedToItself,
    NewNameThereTwice,
    RootMovedToATakenName,
    /// 18, here and in those that follow.
    RootMoved,
    /// Below a child of the moved directory, or deeper.
    BelowItselfByTwo,
    /// Below a grandchild, or deeper.
    BelowItselfByThree,
    BelowItselfBy63,
    /// 15 by one byte.
    OneByteTooLong,
    /// Damage to the counting record of a live inode, which is found by an older
    /// name then.
    OldNameBack,
    /// And another live child has that name: 10.
    OldNameBackBesideAnother,
    /// An overwrite that this rule alone refuses.
    OverwriteBreaks(overwritten::Rule),
    /// An overwrite that the first rule refuses, and the second would by another
    /// number.
    OverwriteBreaksBoth(overwritten::Rule, overwritten::Rule),
    OverwriteOver8193,
    /// An overwrite that is accepted, here and in those that follow.
    OverwriteBelowABase,
    /// Of 0 bytes, here and in the next five.
    NothingInAnEmptyFile,
    /// Of a file that has bytes, as those that follow.
    NothingAtTheStart,
    NothingInTheMiddle,
    NothingAtTheEnd,
    /// The block at the offset has it.
    NothingAtTheLastSequence,
    /// For the block at the offset.
    NothingWithoutRoom,
    /// Neither the first byte of the block nor its last is in the range.
    OverwriteInsideABlock,
    /// From behind the first byte of a block to before the last of another.
    OverwriteFromBlockToBlock,
    /// The whole of it, one of several.
    OneBlockOverwritten,
    /// Of several blocks.
    WholeFileOverwritten,
    ThreeBlocksOverwritten,
    /// 100 and more.
    HundredBlocksOverwritten,
    /// Two and more, the first and the last of the file not among them.
    MiddleBlocksOverwritten,
    OverwriteOf8192Bytes,
    /// The bytes that are there already.
    OverwriteWithTheSame,
    /// Another block of the file has it.
    LastSequenceBesideTheRange,
    /// From the one before it.
    LastSequenceOfABlockReached,
    /// Longer than appends make them there.
    LongerBlockOverwritten,
    /// A block of which there is an older record.
    OverwrittenAgain,
    /// Two blocks and more; the ids of the file's aren't in its order.
    IdsNotInFileOrder,
    OverwriteInAFullTable,
    /// The old records of the blocks don't lie in the order of the file.
    RecordsNotInFileOrder,
    /// The new records go to different areas.
    OverwriteOverAreas,
    /// Than the record of the block before it.
    LaterBlockInAnEarlierArea,
    /// It has room for the first record.
    DamagedAreaPassedOver,
    /// To the last byte.
    OverwriteFillsAnArea,
    /// 11.
    RootOverwritten,
    /// 13, for 0 bytes.
    NothingInABrokenFile,
    /// 14, here and in those that follow; the offset is within the file.
    EndOneBytePast,
    /// And not one byte fits.
    DataAtTheEnd,
    OffsetOneBytePast,
    NothingPastTheEnd,
    /// In 32 bits, to an end that is within the file.
    SumWraps,
    /// The last 16 bits of the offset and the end from there are within the file.
    OffsetOver16Bits,
    /// 16; the first block of the range has another.
    LastSequenceOfALaterBlock,
    /// 15, of two records and more.
    RoomForAllButTheLast,
    /// 15 by one byte.
    BlockOneByteTooLong,
    /// Damage to the counting record of a block, in whose place an older one is read.
    OldBytesBack,
    /// A listing of an image that mounts, here and in those that follow.
    DeeperLine,
    TwoDeeperLines,
    /// One line for several entries.
    DeeperForSeveral,
    DeeperForFilesAlone,
    /// Of an inode.
    LineBehindDeeper,
    /// At depth 66.
    LiveBelowDeeper,
    FileAtDepth64,
    EmptyDirectoryAtDepth64,
    /// A directory that has none now.
    FormerEntriesAtDepth65,
    /// Each with a line of its own.
    ListingOf256Inodes,
    /// The entries of a directory by what is printed, here and in the next three by other
    /// orders.
    NewlineSortsOtherwise,
    ByteOver7fSortsOtherwise,
    LengthSortsOtherwise,
    IdsNotInOrderOfNames,
    /// All entries, by their paths as text.
    PathsSortOtherwise,
    /// Which has entries of its own.
    EntryBehindADirectory,
    /// In one directory, as those that follow.
    TwoFilesOfOneName,
    TwoDirectoriesOfOneName,
    FileAndDirectoryOfOneName,
    NameBeginsAnother,
    NamesAlikeFor250Bytes,
    NewlineInAName,
    /// At its start or its end.
    SpaceInAName,
    NameOf255Bytes,
    BrokenFileListed,
    EmptyFileListed,
    /// And other digits.
    SizeWithA0,
    /// And more.
    SizeOfThreeDigits,
    SizeOfFiveDigits,
    /// And more.
    SizeOfThreeBlocks,
    DeletedAbsent,
    /// Itself not deleted.
    BelowTheDeadAbsent,
    OrphanAbsent,
    LoopAbsent,
    /// Or a former place, of a live inode.
    FormerNameAbsent,
    TextWithoutABuffer,
    TextCutInALine,
    /// Behind its newline.
    TextCutAtALine,
    TextOneByteTooLong,
    TextFillsTheBuffer,
    TextLeavesARest,
    TextOver65535,
    TextCutBehind65535,
}

pub const ALL: [Made; 227] = [
    Made::WholeVolume,
    Made::ThousandsOfNamedIds,
    Made::TenDirectoriesDeep,
    Made::SixtyThreeDirectoriesDeep,
    Made::DirectoriesDeepAsTheTable,
    Made::NineAreas,
    Made::SixteenAreas,
    Made::SeventeenEntries,
    Made::EntriesBehindTheEnd,
    Made::InodesAtAWord,
    Made::FullInodeTable,
    Made::OneInodeTooMany,
    Made::BlocksAtAWord,
    Made::FullBlockTable,
    Made::OneBlockTooMany,
    Made::CreateInAFullTable,
    Made::AppendInAFullTable,
    Made::AppendOverByItsLastPiece,
    Made::AppendOfNothingInAFullTable,
    Made::TwoGreatestBlocksFillAnArea,
    Made::LongerBlockRead,
    Made::AppendBehindALongerBlock,
    Made::BlockOf2049Bytes,
    Made::RelativePathOver1024,
    Made::BaseOver1024,
    Made::BaseAndPathTogetherOver1024,
    Made::TenNamesFound,
    Made::AppendOver8193,
    Made::BufferOver8192,
    Made::MoreThan8192BytesGiven,
    Made::NewIdFarFromTheStart,
    Made::ReservedAreaPassedOver,
    Made::ReservedScratchPassedOver,
    Made::ReservedSecondScratchPassedOver,
    Made::ReservedSharedIdPassedOver,
    Made::ReservedInodeSkipped,
    Made::ReservedDeletionSkipped,
    Made::ReservedTwinSkipped,
    Made::ReservedRootSkipped,
    Made::CollectionAcrossTheWrap,
    Made::EveryEligibleAreaPreceded,
    Made::CountsApartBy127,
    Made::CountsApartBy128,
    Made::CountPassesTo0,
    Made::ShorterAreaPrecedes,
    Made::ScratchPrecedes,
    Made::DamageInTwoFileAreas,
    Made::FirstDamageNotTheLowest,
    Made::FirstFileAreaClean,
    Made::NoFreeSpace,
    Made::TwoStretchesInAnArea,
    Made::LaterStretchLonger,
    Made::DamageBeforeFreeSpace,
    Made::DamageUpToTheEnd,
    Made::DamageAt24,
    Made::FfBeginsDamage,
    Made::FfEndsDamage,
    Made::DamageInScratchAlone,
    Made::DamageInScratchBefore,
    Made::DamagePassedOverAlone,
    Made::DamagePassedOverBefore,
    Made::LastStretchOfSeveral,
    Made::StretchBetween,
    Made::StretchBehind255,
    Made::MoreRecordsThanPlaces,
    Made::OneStretchBeyond,
    Made::StretchFarBeyond,
    Made::OneEntryBeyond,
    Made::EntryBehindTheEnd,
    Made::EntryFarBeyond,
    Made::ScratchAreaReported,
    Made::PassedOverAreaReported,
    Made::AreaReportWhere2,
    Made::AreaReportWhere3,
    Made::AreaReportWhere4,
    Made::AreaReportWhere5,
    Made::AreaReportWhere6,
    Made::AreaReportWhere7,
    Made::RenameBreaks(Rule::Path),
    Made::RenameBreaks(Rule::OldWalk),
    Made::RenameBreaks(Rule::NewWalk),
    Made::RenameBreaks(Rule::NewName),
    Made::RenameBreaks(Rule::BelowItself),
    Made::RenameBreaks(Rule::Sequence),
    Made::RenameBreaks(Rule::Room),
    Made::RenameBreaksBoth(Rule::Path, Rule::OldWalk),
    Made::RenameBreaksBoth(Rule::Path, Rule::NewWalk),
    Made::RenameBreaksBoth(Rule::Path, Rule::NewName),
    Made::RenameBreaksBoth(Rule::Path, Rule::Sequence),
    Made::RenameBreaksBoth(Rule::Path, Rule::Room),
    Made::RenameBreaksBoth(Rule::OldWalk, Rule::NewWalk),
    Made::RenameBreaksBoth(Rule::OldWalk, Rule::NewName),
    Made::RenameBreaksBoth(Rule::OldWalk, Rule::BelowItself),
    Made::RenameBreaksBoth(Rule::OldWalk, Rule::Room),
    Made::RenameBreaksBoth(Rule::NewWalk, Rule::BelowItself),
    Made::RenameBreaksBoth(Rule::NewWalk, Rule::Sequence),
    Made::RenameBreaksBoth(Rule::NewWalk, Rule::Room),
    Made::RenameBreaksBoth(Rule::NewName, Rule::BelowItself),
    Made::RenameBreaksBoth(Rule::NewName, Rule::Sequence),
    Made::RenameBreaksBoth(Rule::NewName, Rule::Room),
    Made::RenameBreaksBoth(Rule::BelowItself, Rule::Sequence),
    Made::RenameBreaksBoth(Rule::BelowItself, Rule::Room),
    Made::RenameBreaksBoth(Rule::Sequence, Rule::Room),
    Made::TwoPathsBelowABase,
    Made::OnePathBelowABase,
    Made::DirectoryMovedWithContents,
    Made::MovedUp,
    Made::MovedBelowAFormerChild,
    Made::NewNameOf255Bytes,
    Made::NameOfAnotherTimeTaken,
    Made::RenameFillsAnArea,
    Made::RenameInAFullTable,
    Made::BrokenFileRenamed,
    Made::LastSequenceReached,
    Made::RenamedToItself,
    Made::NewNameThereTwice,
    Made::RootMovedToATakenName,
    Made::RootMoved,
    Made::BelowItselfByTwo,
    Made::BelowItselfByThree,
    Made::BelowItselfBy63,
    Made::OneByteTooLong,
    Made::OldNameBack,
    Made::OldNameBackBesideAnother,
    Made::OverwriteBreaks(overwritten::Rule::Path),
    Made::OverwriteBreaks(overwritten::Rule::Length),
    Made::OverwriteBreaks(overwritten::Rule::Walk),
    Made::OverwriteBreaks(overwritten::Rule::Kind),
    Made::OverwriteBreaks(overwritten::Rule::Broken),
    Made::OverwriteBreaks(overwritten::Rule::Range),
    Made::OverwriteBreaks(overwritten::Rule::Sequence),
    Made::OverwriteBreaks(overwritten::Rule::Room),
    Made::OverwriteBreaksBoth(overwritten::Rule::Length, overwritten::Rule::Walk),
    Made::OverwriteBreaksBoth(overwritten::Rule::Length, overwritten::Rule::Kind),
    Made::OverwriteBreaksBoth(overwritten::Rule::Length, overwritten::Rule::Broken),
    Made::OverwriteBreaksBoth(overwritten::Rule::Length, overwritten::Rule::Range),
    Made::OverwriteBreaksBoth(overwritten::Rule::Length, overwritten::Rule::Sequence),
    Made::OverwriteBreaksBoth(overwritten::Rule::Length, overwritten::Rule::Room),
    Made::OverwriteBreaksBoth(overwritten::Rule::Broken, overwritten::Rule::Range),
    Made::OverwriteBreaksBoth(overwritten::Rule::Broken, overwritten::Rule::Sequence),
    Made::OverwriteBreaksBoth(overwritten::Rule::Broken, overwritten::Rule::Room),
    Made::OverwriteBreaksBoth(overwritten::Rule::Range, overwritten::Rule::Sequence),
    Made::OverwriteBreaksBoth(overwritten::Rule::Range, overwritten::Rule::Room),
    Made::OverwriteBreaksBoth(overwritten::Rule::Sequence, overwritten::Rule::Room),
    Made::OverwriteOver8193,
    Made::OverwriteBelowABase,
    Made::NothingInAnEmptyFile,
    Made::NothingAtTheStart,
    Made::NothingInTheMiddle,
    Made::NothingAtTheEnd,
    Made::NothingAtTheLastSequence,
    Made::NothingWithoutRoom,
    Made::OverwriteInsideABlock,
    Made::OverwriteFromBlockToBlock,
    Made::OneBlockOverwritten,
    Made::WholeFileOverwritten,
    Made::ThreeBlocksOverwritten,
    Made::HundredBlocksOverwritten,
    Made::MiddleBlocksOverwritten,
    Made::OverwriteOf8192Bytes,
    Made::OverwriteWithTheSame,
    Made::LastSequenceBesideTheRange,
    Made::LastSequenceOfABlockReached,
    Made::LongerBlockOverwritten,
    Made::OverwrittenAgain,
    Made::IdsNotInFileOrder,
    Made::OverwriteInAFullTable,
    Made::RecordsNotInFileOrder,
    Made::OverwriteOverAreas,
    Made::LaterBlockInAnEarlierArea,
    Made::DamagedAreaPassedOver,
    Made::OverwriteFillsAnArea,
    Made::RootOverwritten,
    Made::NothingInABrokenFile,
    Made::EndOneBytePast,
    Made::DataAtTheEnd,
    Made::OffsetOneBytePast,
    Made::NothingPastTheEnd,
    Made::SumWraps,
    Made::OffsetOver16Bits,
    Made::LastSequenceOfALaterBlock,
    Made::RoomForAllButTheLast,
    Made::BlockOneByteTooLong,
    Made::OldBytesBack,
    Made::DeeperLine,
    Made::TwoDeeperLines,
    Made::DeeperForSeveral,
    Made::DeeperForFilesAlone,
    Made::LineBehindDeeper,
    Made::LiveBelowDeeper,
    Made::FileAtDepth64,
    Made::EmptyDirectoryAtDepth64,
    Made::FormerEntriesAtDepth65,
    Made::ListingOf256Inodes,
    Made::NewlineSortsOtherwise,
    Made::ByteOver7fSortsOtherwise,
    Made::LengthSortsOtherwise,
    Made::IdsNotInOrderOfNames,
    Made::PathsSortOtherwise,
    Made::EntryBehindADirectory,
    Made::TwoFilesOfOneName,
    Made::TwoDirectoriesOfOneName,
    Made::FileAndDirectoryOfOneName,
    Made::NameBeginsAnother,
    Made::NamesAlikeFor250Bytes,
    Made::NewlineInAName,
    Made::SpaceInAName,
    Made::NameOf255Bytes,
    Made::BrokenFileListed,
    Made::EmptyFileListed,
    Made::SizeWithA0,
    Made::SizeOfThreeDigits,
    Made::SizeOfFiveDigits,
    Made::SizeOfThreeBlocks,
    Made::DeletedAbsent,
    Made::BelowTheDeadAbsent,
    Made::OrphanAbsent,
    Made::LoopAbsent,
    Made::FormerNameAbsent,
    Made::TextWithoutABuffer,
    Made::TextCutInALine,
    Made::TextCutAtALine,
    Made::TextOneByteTooLong,
    Made::TextFillsTheBuffer,
    Made::TextLeavesARest,
    Made::TextOver65535,
    Made::TextCutBehind65535,
];

/// Those that hold, of things with whether they do.
pub fn holding(of: &[(Made, bool)]) -> Vec<Made> {
    of.iter().filter(|(_, holds)| *holds).map(|(made, _)| *made).collect()
}

/// What a list of areas has.
pub fn in_list(list: &[u32]) -> Vec<Made> {
    let entries = list.chunks_exact(2).take_while(|pair| pair[1] != 0).count();
    holding(&[
        (Made::SeventeenEntries, entries > DESCRIPTORS),
        (Made::EntriesBehindTheEnd, entries <= DESCRIPTORS && list.len() / 2 > DESCRIPTORS),
    ])
}

/// What the image has that a case begins with.
pub fn in_image(case: &Case) -> Vec<Made> {
    let mounted = mount(&case.image, &case.areas);
    let mut made = match &mounted {
        Ok(fs) => [in_areas(fs, case), in_tables(fs), in_damage(fs, case)].concat(),
        Err(Refusal::Tables) => over_the_tables(case),
        Err(Refusal::NoRoot) => without_a_root(case),
        Err(_) => Vec::new(),
    };
    made.extend(in_headers(&mounted, case));
    made
}

/// What headers with a wrong reserved byte do to an image: it is compared with
/// the image in which these bytes are 0.
fn in_headers(mounted: &Result<FileSystem, Refusal>, case: &Case) -> Vec<Made> {
    let mut image = case.image.clone();
    for at in descriptors(&image, &case.areas).unwrap_or_default() {
        image[at.start + AreaHeader::RESERVED_AT] = 0;
    }
    if image == case.image {
        return Vec::new();
    }
    let zeroed = mount(&image, &case.areas);
    let areas = |fs: &FileSystem| fs.file_areas.len();
    let fewer = matches!((mounted, &zeroed), (Ok(a), Ok(b)) if areas(a) < areas(b));
    let (now, then) = (mounted.as_ref().err(), zeroed.as_ref().err());
    let (two, three) = (Some(&Refusal::SharedAreaId), Some(&Refusal::Areas));
    holding(&[
        (Made::ReservedAreaPassedOver, fewer),
        (Made::ReservedScratchPassedOver, now == three && then.is_none()),
        (Made::ReservedSecondScratchPassedOver, now.is_none() && then == three),
        (Made::ReservedSharedIdPassedOver, now != two && then == two),
    ])
}

/// The inode at the front of these bytes that is acceptable but for its reserved
/// byte.
fn reserved_inode(rest: &[u8]) -> Option<Inode> {
    if rest.len() < Inode::HEADER || !rest.starts_with(&Inode::MAGIC.to_le_bytes()) {
        return None;
    }
    let inode = rest.get(..Inode::HEADER + usize::from(rest[17]))?;
    let reserved = inode[Inode::RESERVED_AT];
    let check_is_right = with_reserved(inode, reserved) == inode;
    let zeroed = Record::acceptable(&with_reserved(inode, 0))?;
    zeroed.inode().filter(|_| reserved != 0 && check_is_right).cloned()
}

/// Such inodes among the bytes of a file area that are skipped.
fn reserved_inodes(area: &[u8], reading: &Reading) -> Vec<Inode> {
    let places = reading.damage.iter().flat_map(|stretch| stretch.offset..stretch.end());
    places.filter_map(|at| reserved_inode(&area[at..])).collect()
}

fn in_damage(fs: &FileSystem, case: &Case) -> Vec<Made> {
    let inodes = |area: &FileArea| reserved_inodes(&case.image[area.at.clone()], &area.reading);
    let skipped: Vec<Inode> = fs.file_areas.iter().flat_map(inodes).collect();
    let back = |inode: &Inode| {
        let newer = fs.inode(inode.id).is_some_and(|other| other.sequence < inode.sequence);
        inode.is_deletion() && newer && fs.fate(inode.id) == Fate::Live
    };
    let twin = |inode: &Inode| fs.accepted().any(|record| record.inode() == Some(inode));
    holding(&[
        (Made::ReservedInodeSkipped, !skipped.is_empty()),
        (Made::ReservedDeletionSkipped, skipped.iter().any(back)),
        (Made::ReservedTwinSkipped, skipped.iter().any(twin)),
    ])
}

fn without_a_root(case: &Case) -> Vec<Made> {
    let areas = file_areas(case).into_iter();
    let mut skipped = areas.flat_map(|area| reserved_inodes(area, &area::read(area)));
    holding(&[(Made::ReservedRootSkipped, skipped.any(|inode| inode.id == ROOT))])
}

/// The bytes of the file areas of an image that doesn't mount.
fn file_areas(case: &Case) -> Vec<&[u8]> {
    let areas = descriptors(&case.image, &case.areas).unwrap_or_default();
    let areas = areas.into_iter().map(|at| &case.image[at]);
    areas.filter(|area| AreaHeader::valid(area).is_some_and(|head| !head.is_scratch())).collect()
}

fn in_areas(fs: &FileSystem, case: &Case) -> Vec<Made> {
    let lengths: Vec<usize> =
        fs.file_areas.iter().map(|area| area.at.len()).chain([fs.scratch.at.len()]).collect();
    let depth = fs.inodes().map(|inode| depth(fs, inode.id)).max().unwrap_or(0);
    let named: BTreeSet<u32> = fs.accepted().flat_map(Record::named).collect();
    holding(&[
        (Made::WholeVolume, lengths.len() <= 4 && lengths.iter().sum::<usize>() == IMAGE),
        (Made::ThousandsOfNamedIds, named.len() >= 2000),
        (Made::TenDirectoriesDeep, depth >= 10),
        (Made::SixtyThreeDirectoriesDeep, depth >= 63),
        (Made::DirectoriesDeepAsTheTable, depth == INODES - 1),
        (Made::NineAreas, lengths.len() >= 9),
        (Made::SixteenAreas, lengths.len() == DESCRIPTORS),
        (Made::BlockOf2049Bytes, has_block(&case.image, 2049)),
    ])
}

fn in_tables(fs: &FileSystem) -> Vec<Made> {
    let (inodes, blocks) = (fs.inodes().count(), fs.blocks().count());
    let at_a_word =
        |count: usize, places: usize| count.is_multiple_of(64) && (1..places).contains(&count);
    holding(&[
        (Made::InodesAtAWord, at_a_word(inodes, INODES)),
        (Made::FullInodeTable, inodes == INODES),
        (Made::BlocksAtAWord, at_a_word(blocks, BLOCKS)),
        (Made::FullBlockTable, blocks == BLOCKS),
    ])
}

/// Of an image that is refused for its ids: by how many.
fn over_the_tables(case: &Case) -> Vec<Made> {
    let records = file_areas(case).into_iter().flat_map(|area| area::read(area).records);
    let ids: BTreeSet<u32> = records.map(|taken| taken.record.id()).collect();
    let blocks = ids.iter().filter(|id| is_block(**id)).count();
    holding(&[
        (Made::OneInodeTooMany, ids.len() - blocks == INODES + 1),
        (Made::OneBlockTooMany, blocks == BLOCKS + 1),
    ])
}

/// Whether a block with so many bytes of data and a right check stands there.
fn has_block(image: &[u8], length: usize) -> bool {
    let magic = Block::MAGIC.to_le_bytes();
    let starts = (0..image.len()).filter(|at| image[*at..].starts_with(&magic));
    starts
        .filter_map(|at| Record::parse(&image[at..]))
        .any(|record| record.block().is_some_and(|block| block.data.len() == length))
}

/// What a call has by what it is given: a collection, by the counts; reports, by
/// the damage; a listing, by the tree and the buffer; a rename and an overwrite, by the
/// rules that they break.
pub fn before_call(call: &Call, side: &Side) -> Vec<Made> {
    match call {
        Call::Collect => mounts(side).map_or_else(Vec::new, |fs| in_collection(&fs)),
        Call::Report => mounts(side).map_or_else(Vec::new, |fs| in_report(&fs, side)),
        Call::AreaReport { index, stretch } => in_area_report(*index, *stretch, side),
        Call::Tree { length } => in_tree(*length, side),
        Call::Rename { base, old, new } => in_rename(base, old, new, side),
        Call::Overwrite { base, path, offset, data } => {
            in_overwrite((base, path), *offset, data, side)
        }
        Call::Damage { offset, bytes } => of_damage(*offset, bytes, side),
        _ => Vec::new(),
    }
}

/// What damage to an image brings back.
fn of_damage(offset: usize, bytes: &[u8], side: &Side) -> Vec<Made> {
    let mut after = side.clone();
    after.image.iter_mut().skip(offset).zip(bytes).for_each(|(old, new)| *old = *new);
    let (Some(before), Some(now)) = (mounts(side), mounts(&after)) else { return Vec::new() };
    [moved::in_damage(&before, &now), overwritten::in_damage(&before, &now)].concat()
}

fn in_collection(fs: &FileSystem) -> Vec<Made> {
    let Some(at) = source(fs) else { return Vec::new() };
    let source = fs.file_areas[at].header.count;
    let counts = |eligible: bool| {
        let areas = fs.file_areas.iter().filter(move |area| is_eligible(fs, area) == eligible);
        areas.map(|area| area.header.count).collect::<Vec<u8>>()
    };
    let (eligible, others) = (counts(true), counts(false));
    let precedes = |count: &u8| count_precedes(*count, source);
    let preceded = eligible.iter().any(precedes);
    let behind = |area: &FileArea| area.header.count.wrapping_sub(source) == 127;
    let behind = fs.file_areas[..at].iter().any(|area| is_eligible(fs, area) && behind(area));
    let apart = |by: u8| eligible.iter().any(|a| eligible.contains(&a.wrapping_add(by)));
    holding(&[
        (Made::CollectionAcrossTheWrap, !preceded && eligible.iter().min() != Some(&source)),
        (Made::EveryEligibleAreaPreceded, preceded),
        (Made::CountsApartBy127, behind),
        (Made::CountsApartBy128, eligible.len() > 2 && apart(128)),
        (Made::CountPassesTo0, source == 255),
        (Made::ShorterAreaPrecedes, others.iter().any(precedes)),
        (Made::ScratchPrecedes, precedes(&fs.scratch.header.count)),
    ])
}

/// What a call has, its answer, and what it left.
pub fn in_call(call: &Call, answer: &Answer, side: &Side) -> Vec<Made> {
    let found = answer[0] == 0;
    match call {
        Call::Lookup { base, path } | Call::Open { base, path } | Call::Unlink { base, path } => {
            in_path(base, path, found)
        }
        Call::Append { base, path, data } => {
            let mut made = in_path(base, path, found);
            made.extend(holding(&[(Made::AppendOver8193, data.len() > APPEND + 1)]));
            made.extend(in_append((base, path), data, answer[0], side));
            made
        }
        Call::Create { base, path, .. } => {
            let mut made = in_path(base, path, found);
            // Both ranges of inodes begin at a multiple of it.
            let far = found && answer[1] % FIRST_FILE >= 1000;
            let full = answer[0] == Refusal::Tables.number() && mounts(side).is_some();
            made.extend(holding(&[
                (Made::NewIdFarFromTheStart, far),
                (Made::CreateInAFullTable, full),
            ]));
            made
        }
        Call::Read { length } => {
            let from = side.handle.position.saturating_sub(answer[1]);
            in_read(*length, (side.handle.id, from), answer[1] as usize, side)
        }
        Call::ReadAt { id, position, length } => {
            in_read(*length, (*id, *position), answer[1] as usize, side)
        }
        _ => Vec::new(),
    }
}

pub fn mounts(side: &Side) -> Option<FileSystem> {
    mount(&side.image, &side.areas).ok()
}

/// Whether so many bytes can be a greatest block, or more: others aren't worth
/// the time of a mount.
fn long_enough(bytes: usize) -> bool {
    bytes >= greatest_block(SHORTEST_AREA as usize)
}

/// What a read has that gives bytes of a file from a position on.
fn in_read(length: usize, (id, from): (u32, u32), given: usize, side: &Side) -> Vec<Made> {
    holding(&[
        (Made::BufferOver8192, length > 8192),
        (Made::MoreThan8192BytesGiven, given > 8192),
        (Made::LongerBlockRead, long_enough(given) && of_longer_block(id, from, given, side)),
    ])
}

/// Whether some of these bytes are of a block longer than the greatest.
fn of_longer_block(id: u32, from: u32, given: usize, side: &Side) -> bool {
    let Some(fs) = mounts(side) else { return false };
    let (from, mut end) = (from as usize, 0);
    contents(&fs, id).unwrap_or_default().iter().any(|block| {
        let start = end;
        end += block.data.len();
        is_longer(&fs, block) && start < from + given && from < end
    })
}

fn is_longer(fs: &FileSystem, block: &Block) -> bool {
    block.data.len() > fs.greatest_block()
}

/// Whether a file's blocks, as they are after an append, have a longer one.
fn has_longer_block(fs: &FileSystem, (base, path): (&[u8], &[u8]), side: &Side) -> bool {
    let file = crate::lookup(&side.image, &side.areas, base, path).id;
    contents(fs, file).unwrap_or_default().iter().any(|block| is_longer(fs, block))
}

/// Whether two blocks of this size, the second a piece of the data, fill an area.
fn filled_by_two(area: &FileArea, size: usize, data: &[u8]) -> bool {
    let blocks = area.reading.records.iter().filter_map(|taken| taken.record.block());
    let blocks: Vec<&[u8]> = blocks.map(|block| &block.data[..]).collect();
    let [first, second] = blocks[..] else { return false };
    let two_fill = AreaHeader::SIZE + 2 * (Block::HEADER + size) == area.at.len();
    two_fill && first.len() == size && data.chunks_exact(size).any(|piece| piece == second)
}

/// What an append has when the table of blocks is full, or would be over, or when
/// it fills an area.
fn in_append(at: (&[u8], &[u8]), data: &[u8], number: u32, side: &Side) -> Vec<Made> {
    let refused = number == Refusal::Tables.number();
    if !refused && (number != 0 || !data.is_empty() && !long_enough(data.len())) {
        return Vec::new();
    }
    let Some(fs) = mounts(side) else { return Vec::new() };
    let (blocks, pieces) = (fs.blocks().count(), data.len().div_ceil(fs.greatest_block()));
    let by_the_last = pieces >= 2 && blocks + pieces == BLOCKS + 1;
    let filled = |area: &FileArea| filled_by_two(area, fs.greatest_block(), data);
    let behind = !refused && pieces >= 2 && has_longer_block(&fs, at, side);
    holding(&[
        (Made::AppendInAFullTable, refused && blocks == BLOCKS),
        (Made::AppendOverByItsLastPiece, refused && by_the_last),
        (Made::AppendOfNothingInAFullTable, data.is_empty() && blocks == BLOCKS),
        (Made::TwoGreatestBlocksFillAnArea, !refused && fs.file_areas.iter().any(filled)),
        (Made::AppendBehindALongerBlock, behind),
    ])
}

pub fn in_path(base: &[u8], path: &[u8], found: bool) -> Vec<Made> {
    let relative = path.first() != Some(&b'/');
    let names = |text: &[u8]| text.split(|byte| *byte == b'/').filter(|n| !n.is_empty()).count();
    let below = if relative { names(base) } else { 0 };
    holding(&[
        (Made::RelativePathOver1024, relative && path.len() > PATH),
        (Made::BaseOver1024, relative && base.len() > PATH),
        (Made::BaseAndPathTogetherOver1024, found && relative && base.len() + path.len() > PATH),
        (Made::TenNamesFound, found && below + names(path) >= 10),
    ])
}
