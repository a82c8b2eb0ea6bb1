//! The comparison must be able to fail: each engine here has one deliberate
//! fault at the call itself, and a bounded number of generated cases finds it.
//! Faults inside the rules: the package `mutants`.

use nffs_model::compare::{
    compare, first_difference, run, show, shrink, Call, Engine, Model, Tally,
};
use nffs_model::{generate, AreaReport, Create, Handle, Lookup, Open, Read, Report, Tree};

/// Cases allowed for finding a fault.
const CASES: u64 = 4000;

fn found(name: &str, mutant: &dyn Engine) {
    let seed = first_difference(0..CASES, &MODEL, mutant);
    println!("{name}: {seed:?}");
    assert!(seed.is_some(), "{name} isn't found in {CASES} cases");
}

#[derive(Clone, Copy, Debug, PartialEq)]
enum Impostor {
    RefusesEverything,
    ConstantId,
    CollectorDoesNothing,
    AppendStoresNothing,
    NoDamageReported,
    NoFirstDamage,
    RefusesEveryArea,
    AreaReportByTheReport,
    OffsetLeftWithoutAStretch,
    InventedHeaderCount,
    RefusedReadMoves,
    RefusedReadTouchesBuffer,
    ReadFillsWholeBuffer,
    KindLost,
    FirstOfTwo,
    RefusedAnswerKeepsId,
    FormatErasesEverything,
    WalkBeforeEight,
    SeventeenthEntryIgnored,
    RenameStoresNothing,
    RenameByCreateAndUnlink,
    RefusedRenameWrites,
    NoNumber18,
    OverwriteStoresNothing,
    OverwriteByAppend,
    OverwriteByANewFile,
    OverwriteOfTheFrontAtLeast,
    RefusedOverwriteWrites,
    ListingOfNoLength,
    RootAlone,
    ListingStoresNothing,
    RestOfTheTextErased,
    RefusedListingErasesTheText,
    RefusedListingTellsTheRoot,
}

struct Wrapped(Impostor);

impl Wrapped {
    fn is(&self, impostor: Impostor) -> bool {
        self.0 == impostor
    }
}

const MODEL: Model = Model;

impl Engine for Wrapped {
    fn format(&self, image: &mut [u8], areas: &[u32]) -> u32 {
        if self.is(Impostor::FormatErasesEverything) && MODEL.format(image, areas) == 0 {
            image.fill(0xff);
        }
        MODEL.format(image, areas)
    }

    fn report(&self, image: &[u8], areas: &[u32]) -> Report {
        let ignored = self.is(Impostor::SeventeenthEntryIgnored);
        let areas = if ignored { &areas[..areas.len().min(2 * 16)] } else { areas };
        let report = MODEL.report(image, areas);
        match self.0 {
            Impostor::NoDamageReported => {
                Report { stretches: 0, skipped: 0, first_offset: 0, first_length: 0, ..report }
            }
            Impostor::NoFirstDamage => Report { first_offset: 0, first_length: 0, ..report },
            _ => report,
        }
    }

    fn area_report(&self, image: &[u8], areas: &[u32], index: u32, stretch: u32) -> AreaReport {
        let report = MODEL.area_report(image, areas, index, stretch);
        match self.0 {
            Impostor::RefusesEveryArea => AreaReport { number: 1, ..AreaReport::default() },
            Impostor::AreaReportByTheReport => {
                let Report { stretches, skipped, .. } = MODEL.report(image, areas);
                AreaReport { stretches, skipped, ..report }
            }
            Impostor::OffsetLeftWithoutAStretch if report.number == 0 => {
                let first = MODEL.area_report(image, areas, index, 0).offset;
                AreaReport { offset: report.offset.max(first), ..report }
            }
            _ => report,
        }
    }

    fn tree(&self, image: &[u8], areas: &[u32], buffer: &mut [u8]) -> Tree {
        let before = buffer.to_vec();
        let tree = MODEL.tree(image, areas, buffer);
        let accepted = tree.number == 0;
        match self.0 {
            Impostor::RefusesEverything => return Tree { number: 1, length: 0 },
            Impostor::ListingStoresNothing => buffer.copy_from_slice(&before),
            Impostor::ListingOfNoLength => return Tree { length: 0, ..tree },
            Impostor::RootAlone if accepted => return Tree { length: 2, ..tree },
            Impostor::RestOfTheTextErased if accepted => {
                buffer.iter_mut().skip(tree.length as usize).for_each(|byte| *byte = 0);
            }
            Impostor::RefusedListingErasesTheText if !accepted => buffer.fill(0),
            Impostor::RefusedListingTellsTheRoot if !accepted => return Tree { length: 2, ..tree },
            _ => {}
        }
        tree
    }

    fn lookup(&self, image: &[u8], areas: &[u32], base: &[u8], path: &[u8]) -> Lookup {
        let found = MODEL.lookup(image, areas, base, path);
        match self.0 {
            Impostor::RefusesEverything => Lookup { number: 1, id: 0, kind: 0 },
            Impostor::ConstantId if found.number == 0 => Lookup { id: 0x1000_0000, ..found },
            Impostor::KindLost => Lookup { kind: 0, ..found },
            Impostor::FirstOfTwo if found.number == 10 => Lookup { number: 0, id: 1, kind: 0 },
            _ => found,
        }
    }

    fn open(&self, image: &[u8], areas: &[u32], base: &[u8], path: &[u8]) -> Open {
        let opened = MODEL.open(image, areas, base, path);
        if self.is(Impostor::RefusedAnswerKeepsId) && opened.number == 11 {
            return Open { id: MODEL.lookup(image, areas, base, path).id, ..opened };
        }
        opened
    }

    fn read_at(&self, image: &[u8], areas: &[u32], id: u32, at: u32, buffer: &mut [u8]) -> Read {
        let read = MODEL.read_at(image, areas, id, at, buffer);
        match self.0 {
            Impostor::InventedHeaderCount => Read { headers: read.headers.min(1), ..read },
            Impostor::RefusedReadTouchesBuffer if read.number != 0 => {
                buffer.fill(0);
                read
            }
            Impostor::ReadFillsWholeBuffer if read.number == 0 => {
                buffer[read.given as usize..].fill(0);
                read
            }
            _ => read,
        }
    }

    fn read(&self, image: &[u8], areas: &[u32], handle: &mut Handle, buffer: &mut [u8]) -> Read {
        let read = MODEL.read(image, areas, handle, buffer);
        if self.is(Impostor::RefusedReadMoves) && read.number != 0 {
            handle.position = handle.position.wrapping_add(1);
        }
        read
    }

    fn create(&self, i: &mut [u8], areas: &[u32], base: &[u8], path: &[u8], kind: u32) -> Create {
        MODEL.create(i, areas, base, path, kind)
    }

    fn append(&self, i: &mut [u8], areas: &[u32], base: &[u8], path: &[u8], data: &[u8]) -> u32 {
        let before = i.to_vec();
        if self.is(Impostor::WalkBeforeEight) {
            let walked = MODEL.lookup(i, areas, base, path).number;
            if walked != 0 {
                return walked;
            }
        }
        let number = MODEL.append(i, areas, base, path, data);
        if self.is(Impostor::AppendStoresNothing) {
            i.copy_from_slice(&before);
        }
        number
    }

    fn overwrite(
        &self,
        i: &mut [u8],
        areas: &[u32],
        base: &[u8],
        path: &[u8],
        offset: u32,
        data: &[u8],
    ) -> u32 {
        let before = i.to_vec();
        let number = MODEL.overwrite(i, areas, base, path, offset, data);
        match self.0 {
            Impostor::OverwriteStoresNothing => i.copy_from_slice(&before),
            Impostor::OverwriteByAppend if number == 0 => {
                i.copy_from_slice(&before);
                return MODEL.append(i, areas, base, path, data);
            }
            Impostor::OverwriteByANewFile if number == 0 => {
                let id = MODEL.lookup(i, areas, base, path).id;
                let mut bytes = vec![0; 8192];
                let given = MODEL.read_at(i, areas, id, 0, &mut bytes).given as usize;
                i.copy_from_slice(&before);
                MODEL.unlink(i, areas, base, path);
                MODEL.create(i, areas, base, path, 1);
                return MODEL.append(i, areas, base, path, &bytes[..given]);
            }
            Impostor::OverwriteOfTheFrontAtLeast if number == 15 => {
                let front = &data[..data.len() / 2];
                return MODEL.overwrite(i, areas, base, path, offset, front);
            }
            Impostor::RefusedOverwriteWrites if number > 7 => i[0] ^= 1,
            _ => {}
        }
        number
    }

    fn unlink(&self, image: &mut [u8], areas: &[u32], base: &[u8], path: &[u8]) -> u32 {
        MODEL.unlink(image, areas, base, path)
    }

    fn rename(&self, i: &mut [u8], areas: &[u32], base: &[u8], old: &[u8], new: &[u8]) -> u32 {
        let before = i.to_vec();
        let number = MODEL.rename(i, areas, base, old, new);
        match self.0 {
            Impostor::RenameStoresNothing => i.copy_from_slice(&before),
            Impostor::RenameByCreateAndUnlink if number == 0 => {
                i.copy_from_slice(&before);
                return copied(i, areas, base, old, new);
            }
            Impostor::RefusedRenameWrites if number > 7 => i[0] ^= 1,
            Impostor::NoNumber18 if number == 18 => return 8,
            _ => {}
        }
        number
    }

    fn collect(&self, image: &mut [u8], areas: &[u32]) -> u32 {
        let before = image.to_vec();
        let number = MODEL.collect(image, areas);
        if self.is(Impostor::CollectorDoesNothing) {
            image.copy_from_slice(&before);
        }
        number
    }
}

/// A new file with the contents of the old one, which is unlinked.
fn copied(image: &mut [u8], areas: &[u32], base: &[u8], old: &[u8], new: &[u8]) -> u32 {
    let Lookup { id, kind, .. } = MODEL.lookup(image, areas, base, old);
    let mut data = vec![0; 8192];
    let given = MODEL.read_at(image, areas, id, 0, &mut data).given;
    let created = MODEL.create(image, areas, base, new, kind).number;
    if kind == 1 {
        MODEL.append(image, areas, base, new, &data[..given as usize]);
    }
    created.max(MODEL.unlink(image, areas, base, old))
}

const IMPOSTORS: [Impostor; 34] = [
    Impostor::RefusesEverything,
    Impostor::ConstantId,
    Impostor::CollectorDoesNothing,
    Impostor::AppendStoresNothing,
    Impostor::NoDamageReported,
    Impostor::NoFirstDamage,
    Impostor::RefusesEveryArea,
    Impostor::AreaReportByTheReport,
    Impostor::OffsetLeftWithoutAStretch,
    Impostor::InventedHeaderCount,
    Impostor::RefusedReadMoves,
    Impostor::RefusedReadTouchesBuffer,
    Impostor::ReadFillsWholeBuffer,
    Impostor::KindLost,
    Impostor::FirstOfTwo,
    Impostor::RefusedAnswerKeepsId,
    Impostor::FormatErasesEverything,
    Impostor::WalkBeforeEight,
    Impostor::SeventeenthEntryIgnored,
    Impostor::RenameStoresNothing,
    Impostor::RenameByCreateAndUnlink,
    Impostor::RefusedRenameWrites,
    Impostor::NoNumber18,
    Impostor::OverwriteStoresNothing,
    Impostor::OverwriteByAppend,
    Impostor::OverwriteByANewFile,
    Impostor::OverwriteOfTheFrontAtLeast,
    Impostor::RefusedOverwriteWrites,
    Impostor::ListingOfNoLength,
    Impostor::RootAlone,
    Impostor::ListingStoresNothing,
    Impostor::RestOfTheTextErased,
    Impostor::RefusedListingErasesTheText,
    Impostor::RefusedListingTellsTheRoot,
];

#[test]
fn impostors_at_the_call() {
    for impostor in IMPOSTORS {
        found(&format!("{impostor:?}"), &Wrapped(impostor));
    }
}

/// The shrunk case still differs, is no larger, and comes as text.
#[test]
fn a_difference_is_shrunk_and_shown() {
    let mutant = Wrapped(Impostor::FirstOfTwo);
    let seed = first_difference(0..CASES, &MODEL, &mutant).expect("a difference");
    let case = generate::case(seed);
    let small = shrink(case.clone(), &MODEL, &mutant);
    assert!(run(&small, &MODEL, &mutant, &mut Tally::default()).is_some());
    assert!(small.calls.len() <= case.calls.len() && small.image.len() <= case.image.len());
    let text = compare(seed..seed + 1, &MODEL, &mutant).expect_err("a difference");
    println!("{text}");
    assert!(text.contains("answers [10") && text.contains("image: bytes(\""));
}

/// The same of the report of an area (T-08): the entries that are not needed go,
/// and the index and the stretch become as small as they can.
#[test]
fn a_difference_of_an_area_is_shrunk() {
    let mutant = Wrapped(Impostor::OffsetLeftWithoutAStretch);
    let seed = first_difference(0..CASES, &MODEL, &mutant).expect("a difference");
    let small = shrink(generate::case(seed), &MODEL, &mutant);
    assert!(run(&small, &MODEL, &mutant, &mut Tally::default()).is_some());
    let text = show(&small, &MODEL, &mutant);
    println!("{text}");
    let last = Call::AreaReport { index: 0, stretch: 1 };
    assert_eq!((small.areas.len(), small.calls.last()), (2, Some(&last)));
    assert!(text.contains("        Call::AreaReport { index: 0, stretch: 1 },\n"));
}
