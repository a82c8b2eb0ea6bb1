//! Hints at what may be a part of the volume and is not read: reserved bytes that are not 0, records
//! in no area, and headers inside of areas. Since version 0.4.0 an area with a reserved byte in its
//! header is passed over, and such a record of an inode is not acceptable; versions before took any.
//!
//! A hint is from the bytes alone and states nothing of the volume: what it is about may lie in a
//! file, or belong to another volume. That is for whoever reads it to say.

use crate::areas::{Chosen, Header, Placed};
use crate::console::{count, say, shown};
use crate::gaps::{Gap, Inside};
use crate::json;
use crate::page::{path_fields, place, rows, Row};
use crate::records::{reserved_records, ReservedRecord};
use nffs::Refusal;

const NONE: u32 = 0xffff_ffff;
/// So many of a kind are shown one by one; JSON has all.
const SHOWN: usize = 16;
const ADVICE: &str =
    "A hint is from the bytes alone, and no call confirms it. If this is a part of the volume, \
     write nothing to the image: a volume that is used without one of its parts reads wrong, and \
     writes to it go wrong.";
const OF_RESERVED: &str =
    " Versions before 0.4.0 take any reserved byte: where 0.3.1 mounts the volume, its `nffs \
     export` copies the files out, and `nffs import` stores them in a newly formatted image.";
const OF_MISSED: &str =
    " Where an area begins and ends that has no good header is a guess: with --areas, and all areas \
     that the volume was formatted with, `nffs check` and `nffs map` show which are passed over, and \
     what lies in them.";
const OLDER: &str =
    "and what is live without it may be an older version, and what was deleted may be back";

/// What is hinted at.
pub struct Hints<'a> {
    chosen: &'a Chosen,
    records: Vec<ReservedRecord>,
}

impl<'a> Hints<'a> {
    /// Of a run: parts, and records where it is the root's that is not read.
    pub fn of_a_run(image: &[u8], chosen: &'a Chosen) -> Hints<'a> {
        match nffs::report(image, &chosen.areas) {
            Err(Refusal::NO_ROOT) => Hints::of(image, chosen, &rows(image, &chosen.areas)),
            _ => Hints::of(image, chosen, &[]),
        }
    }

    /// Parts, and records of those of these areas that are file areas and that no call has found
    /// clean. In a clean one every byte is a record's or free, so what looks like such a record is a
    /// part of others.
    pub fn of(image: &[u8], chosen: &'a Chosen, rows: &[Row]) -> Hints<'a> {
        let is_unclean = |row: &&Row| !matches!(row.damage(), Some((0, _)));
        let unclean = rows.iter().filter(|row| is_file_area(row.header)).filter(is_unclean);
        let areas: Vec<_> = unclean.map(|row| row.area).collect();
        let mut records = reserved_records(image, &areas);
        // the root's first: without it nothing is read
        records.sort_by_key(|record| (record.id != 0, record.offset));
        Hints { chosen, records }
    }

    pub fn say(&self) {
        let lines = self.lines();
        let Some((last, before)) = lines.split_last() else { return };
        before.iter().for_each(|line| say(&format!("hint: {line}")));
        say(&format!("hint: {last}\n  {}", self.advice()));
    }

    /// The same as a part of a page.
    pub fn text(&self) -> String {
        let lines: String = self.lines().iter().map(|line| format!("Hint: {line}\n")).collect();
        match lines.is_empty() {
            true => lines,
            false => format!("{lines}  {}\n", self.advice()),
        }
    }

    fn lines(&self) -> Vec<String> {
        let Chosen { reserved_headers, gaps, inside, .. } = self.chosen;
        let mut lines = shortened(reserved_headers, header_line, "headers");
        lines.extend(shortened(inside, inside_line, "headers"));
        lines.extend(shortened(gaps, gap_line, "gaps"));
        lines.extend(shortened(&self.records, record_line, "records"));
        lines
    }

    fn advice(&self) -> String {
        let of_reserved = !(self.chosen.reserved_headers.is_empty() && self.records.is_empty());
        let of_missed = !(self.chosen.gaps.is_empty() && self.chosen.inside.is_empty());
        let reserved = if of_reserved { OF_RESERVED } else { "" };
        let missed = if of_missed { OF_MISSED } else { "" };
        format!("{ADVICE}{reserved}{missed}")
    }

    pub fn json(&self) -> Vec<(&'static str, String)> {
        let records = json::list(self.records.iter().map(record_json));
        parts_json(self.chosen).into_iter().chain([("reserved_records", records)]).collect()
    }
}

/// The areas that may be missing.
pub fn parts_json(chosen: &Chosen) -> [(&'static str, String); 4] {
    let left_out = chosen.left_out.iter().map(|area| json::object(&place(*area)));
    [
        ("left_out", json::list(left_out)),
        ("reserved_headers", json::list(chosen.reserved_headers.iter().map(header_json))),
        ("headers_inside", json::list(chosen.inside.iter().map(inside_json))),
        ("gaps", json::list(chosen.gaps.iter().map(gap_json))),
    ]
}

/// The lines of the first, and how many more there are.
fn shortened<T>(all: &[T], line: fn(&T) -> String, what: &str) -> Vec<String> {
    all.iter().take(SHOWN).map(line).chain(more(all.len(), what)).collect()
}

fn is_file_area(header: Option<Header>) -> bool {
    header.is_some_and(|h| !h.is_scratch())
}

fn more(number: usize, what: &str) -> Option<String> {
    let left = number.checked_sub(SHOWN).filter(|left| *left > 0)?;
    Some(format!("{left} more such {what} (`nffs check IMAGE --json` has all)"))
}

fn header_line(placed: &Placed) -> String {
    let header = placed.header;
    let what = match header.is_scratch() {
        true => "scratch".to_string(),
        false => format!("file area {}", header.id),
    };
    format!(
        "{what} would begin at {} (length {}), but the reserved byte of its header (byte 22) is \
         0x{:02x} and not 0: since version 0.4.0 it is passed over with all its contents",
        placed.offset, header.length, header.reserved
    )
}

fn inside_line(inside: &Inside) -> String {
    let Inside { area, of } = inside;
    format!(
        "a valid header at {} (length {}) lies inside the area at {} (length {}), and in none of \
         its records: if the length of that area is damaged, an area is missing, {OLDER}",
        area.offset, area.length, of.offset, of.length
    )
}

fn gap_line(gap: &Gap) -> String {
    let stand = if gap.records == 1 { "stands" } else { "stand" };
    format!(
        "{} {stand} in the {} bytes from {} on, in no area that was found: if an area lies there \
         whose header is damaged, it is missing, {OLDER}",
        count(gap.records as usize, "record", "records"),
        gap.area.length,
        gap.area.offset
    )
}

fn record_line(record: &ReservedRecord) -> String {
    let what = match (record.id, record.parent) {
        (0, _) => "a record of the root".to_string(),
        (id, NONE) => format!("a record that deletes inode {id:08x}"),
        (id, _) => format!("a record of inode {id:08x}, {},", shown(&record.name)),
    };
    format!(
        "{what} would begin at {}, but its reserved byte (byte 16) is 0x{:02x} and not 0: since \
         version 0.4.0 it is not read, for this byte at least",
        record.offset, record.reserved
    )
}

fn header_json(placed: &Placed) -> String {
    let header = placed.header;
    json::object(&[
        ("offset", placed.offset.to_string()),
        ("length", header.length.to_string()),
        ("kind", json::text(header.kind())),
        ("id", header.id.to_string()),
        ("reserved", header.reserved.to_string()),
    ])
}

fn inside_json(inside: &Inside) -> String {
    let [offset, length] = place(inside.area);
    json::object(&[offset, length, ("of", json::object(&place(inside.of)))])
}

fn gap_json(gap: &Gap) -> String {
    let [offset, length] = place(gap.area);
    json::object(&[offset, length, ("records", gap.records.to_string())])
}

fn record_json(record: &ReservedRecord) -> String {
    let [name, bytes] = path_fields("name", &record.name);
    json::object(&[
        ("offset", record.offset.to_string()),
        ("id", record.id.to_string()),
        ("parent", record.parent.to_string()),
        name,
        bytes,
        ("reserved", record.reserved.to_string()),
    ])
}
