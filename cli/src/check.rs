//! `check`: what there is to say of a volume.
//!
//! Whether it mounts, what is live, how long a file is and whether it is broken, how much is damaged:
//! all of it is answered by the calls. Only the headers of areas, the names that are asked for, the
//! names of orphans and what hints are about are read here (`areas`, `gaps`, `records`).

use crate::areas::{choose, header};
use crate::arguments::Arguments;
use crate::console::print;
use crate::failure::Failure;
use crate::hints::Hints;
use crate::image_file;
use crate::page::{rows, Gone, Mounted, Page};
use crate::records::{candidates, is_each_once, Candidate};
use crate::tree::tree;
use crate::work::Collections;
use nffs::{Area, Refusal, Report};

pub fn check(arguments: &Arguments) -> Result<(), Failure> {
    let at = arguments.number("--at")?;
    let image = image_file::load(&arguments.image, at)?;
    let chosen = choose(arguments, &image)?;
    let mounted = mounted(&image, &chosen.areas);
    let rows = rows(&image, &chosen.areas);
    let hints = Hints::of(&image, &chosen, &rows);
    let page = Page {
        image: arguments.image.display().to_string(),
        size: image.len(),
        at: at.unwrap_or(0),
        chosen: &chosen,
        rows,
        hints,
        mounted,
    };
    let text = if arguments.given("--json") { page.json() } else { page.text() };
    print(text.as_bytes())?;
    match page.status() {
        0 => Ok(()),
        1 => Err(Failure::Unmounted),
        _ => Err(Failure::Unsound),
    }
}

fn mounted(image: &[u8], areas: &[Area]) -> Result<Mounted, Refusal> {
    let report = nffs::report(image, areas)?;
    let tree = tree(image, areas, b"/")?;
    let unreached = report.live.saturating_sub(tree.entries.len() as u32);
    Ok(Mounted { report, gone: gone(image, areas, &report), tree, unreached })
}

/// Which inodes that are not live were deleted, and which are orphans. No call tells them apart,
/// but a collection drops the deleted in the end and keeps orphans for ever: so a copy is collected
/// until nothing more goes. Three things can keep the deleted too, and then it is not known: an area
/// shorter than scratch, which is never collected; counts, which may keep an area from its turn; and
/// equal records in two areas.
fn gone(image: &[u8], areas: &[Area], report: &Report) -> Gone {
    if report.inodes == report.live {
        return Gone { deleted: Some(0), orphans: Some(0), named: Vec::new() };
    }
    let lengths: Vec<_> =
        areas.iter().filter_map(|a| header(image, *a)).map(|h| h.length).collect();
    if lengths.iter().any(|length| *length != lengths[0]) {
        return Gone::default();
    }
    let mut copy = image.to_vec();
    let mut collections = Collections::of(&copy, areas);
    while let Ok(true) = collections.step(&mut copy, areas) {}
    match nffs::report(&copy, areas) {
        Ok(after) if collections.is_exhausted() && is_each_once(&copy, areas) => Gone {
            deleted: report.inodes.checked_sub(after.inodes),
            orphans: Some(after.inodes - after.live),
            named: orphans(&copy, areas, after.inodes - after.live),
        },
        _ => Gone::default(),
    }
}

/// The candidates that are not live, if there are as many of them as orphans.
fn orphans(image: &[u8], areas: &[Area], number: u32) -> Vec<Candidate> {
    let is_gone = |id: u32| nffs::read_at(image, areas, id, 0, &mut []) == Err(Refusal::NOT_FOUND);
    let named: Vec<_> = candidates(image, areas).into_iter().filter(|c| is_gone(c.id)).collect();
    if named.len() == number as usize {
        named
    } else {
        Vec::new()
    }
}
