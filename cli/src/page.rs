//! The page of `check`, for a person or as JSON; docs/DESK.md has its fields.

use crate::advice;
use crate::areas::{header, list, Chosen, Header};
use crate::console::{count, shown};
use crate::hints::Hints;
use crate::json;
use crate::records::Candidate;
use crate::tree::{Entry, Tree, What};
use nffs::{Area, AreaKind, AreaReport, Refusal, Report};
use std::collections::BTreeSet;
use std::fmt::Write;

const DAMAGE: &str = "\
Damage: bytes that no record holds, torn or worn. Of what stood there an older version may count,
  with earlier bytes or an earlier name perhaps, or something deleted be back: compare with what you
  expect. Nothing is written to a damaged area; `nffs collect` clears the area that it collects,
  which is never one shorter than scratch. `nffs map` shows where it lies.";
const PASSED_OVER: &str = "where the list names an area without a valid header.
  What lies there is not read, and no damage is counted in it: what is live without it may be an
  older version, and what was deleted may be back. If it is a part of the volume, write nothing to
  the image, and keep it: what lies in the area may all be whole.";
const BROKEN: &str = "\
Broken: blocks of the file are lost. `nffs put IMAGE PATH FILE --replace` stores it anew, `nffs rm`
  unlinks it.";
const ORPHANS: &str = "\
Orphans: not deleted, but the directories they lie in do not lead to the root: one of these is lost,
  or a record of a move is, so that they lie in each other. No path leads to orphans, and they keep
  their room until the volume is formatted.";
const AMBIGUOUS: &str = "\
Ambiguous: two or more have one path, so that it leads to none of them, nor to what lies below them.
  `nffs mv` of the directory above leaves its name for a new one, `nffs rm` takes them away with all
  that lies in it; the root can be neither moved nor unlinked.";
const TOO_LONG: &str = "\
Too long: live, but below so many names that no call takes the path. Nothing of it is lost:
  `nffs mv` of a directory above to a shorter path brings it back, and `nffs rm` would delete it.";

/// An area, what its header says, and what a call says of it, if the list is good.
pub struct Row {
    pub area: Area,
    pub header: Option<Header>,
    report: Option<AreaReport>,
    /// Whether it reads as nothing but FF.
    is_blank: bool,
}

/// The areas of a list.
pub fn rows(image: &[u8], areas: &[Area]) -> Vec<Row> {
    let is_blank = |area: &Area| {
        let bytes = image.get(area.offset as usize..).and_then(|i| i.get(..area.length as usize));
        bytes.is_some_and(|bytes| bytes.iter().all(|byte| *byte == 0xff))
    };
    let row = |(area, index): (&Area, u32)| Row {
        area: *area,
        header: header(image, *area),
        report: nffs::area_report(image, areas, index, 0).ok(),
        is_blank: is_blank(area),
    };
    areas.iter().zip(0..).map(row).collect()
}

/// What became of the inodes that are not live.
#[derive(Default)]
pub struct Gone {
    pub deleted: Option<u32>,
    pub orphans: Option<u32>,
    /// The orphans by name, where it is sure which they are.
    pub named: Vec<Candidate>,
}

/// A volume that mounts.
pub struct Mounted {
    pub report: Report,
    pub gone: Gone,
    pub tree: Tree,
    /// Live inodes to which no path leads.
    pub unreached: u32,
}

pub struct Page<'a> {
    pub image: String,
    pub size: usize,
    pub at: u64,
    pub chosen: &'a Chosen,
    pub rows: Vec<Row>,
    pub hints: Hints<'a>,
    pub mounted: Result<Mounted, Refusal>,
}

impl Page<'_> {
    /// 0 nothing wrong, 1 it does not mount, 3 something is wrong in it.
    pub fn status(&self) -> u8 {
        match &self.mounted {
            Err(_) => 1,
            Ok(volume) if volume.wrong().is_empty() && !self.may_lack_a_part() => 0,
            Ok(_) => 3,
        }
    }

    /// Whether a part of the volume may be missing from what mounts.
    fn may_lack_a_part(&self) -> bool {
        let left_out = !self.chosen.left_out.is_empty();
        left_out || self.chosen.may_lack_a_part() || self.passed_over().is_some()
    }

    /// The records in areas of the list that are passed over and not blank, if there are such areas.
    fn passed_over(&self) -> Option<u32> {
        let rows = self.rows.iter().filter(|row| row.is_passed_over() && !row.is_blank);
        rows.filter_map(|row| row.report).map(|report| report.records).reduce(|sum, n| sum + n)
    }

    pub fn text(&self) -> String {
        let mut page = format!("{}: {} bytes", self.image, self.size);
        if self.at > 0 {
            let _ = write!(page, " from {} on", self.at);
        }
        page += &match &self.mounted {
            Ok(_) if self.status() == 0 => ", mounts, and nothing is wrong\n".to_string(),
            Ok(_) => ", mounts, and something is wrong\n".to_string(),
            Err(refusal) => {
                format!(", does not mount: {refusal}{}\n", advice::lines(*refusal))
            }
        };
        page += &self.areas_text();
        if let Ok(volume) = &self.mounted {
            page += &volume.text();
        }
        if let Some(records) = self.passed_over() {
            let records = count(records as usize, "record lies", "records lie");
            let _ = writeln!(page, "Passed over: {records} {PASSED_OVER}");
        }
        page + &self.hints.text()
    }

    fn areas_text(&self) -> String {
        let from = match (self.chosen.found, self.chosen.areas.is_empty()) {
            (true, true) if !self.chosen.reserved_headers.is_empty() => {
                "areas: no valid header is seen; headers are passed over for their reserved byte \
                 (see the hint)\n"
                    .to_string()
            }
            (true, true) => "areas: no valid header is seen\n".to_string(),
            (true, false) => format!("areas: {}, found\n", list(&self.chosen.areas)),
            (false, _) => format!("areas: {}, as listed\n", list(&self.chosen.areas)),
        };
        let rows: String = self.rows.iter().map(|row| format!("  {}\n", row.text())).collect();
        let left_out = self.chosen.left_out.iter().map(|area| {
            format!("  {:>5}+{:<5} a header that the list leaves out\n", area.offset, area.length)
        });
        from + &rows + &left_out.collect::<String>()
    }

    pub fn json(&self) -> String {
        let mut fields = vec![
            ("image", json::text(&self.image)),
            ("at", self.at.to_string()),
            ("size", self.size.to_string()),
            ("status", self.status().to_string()),
            ("refusal", refusal_json(self.mounted.as_ref().err())),
            ("found", self.chosen.found.to_string()),
            ("areas", json::list(self.rows.iter().map(Row::json))),
        ];
        fields.extend(self.hints.json());
        if let Ok(volume) = &self.mounted {
            fields.extend(volume.json());
        }
        json::page(&fields)
    }
}

/// Why a volume does not mount; null where it does.
pub fn refusal_json(refusal: Option<&Refusal>) -> String {
    let Some(refusal) = refusal else { return "null".into() };
    json::object(&[
        ("number", refusal.number().to_string()),
        ("meaning", json::text(refusal.meaning())),
        ("advice", json::text(advice::of(*refusal).map_or("", |(words, _)| words))),
    ])
}

pub fn place(area: Area) -> [(&'static str, String); 2] {
    [("offset", area.offset.to_string()), ("length", area.length.to_string())]
}

impl Row {
    fn is_passed_over(&self) -> bool {
        self.report.is_some_and(|report| report.kind == AreaKind::PassedOver)
    }

    /// Stretches and bytes, of a file area.
    pub fn damage(&self) -> Option<(u32, u32)> {
        let report = self.report.filter(|report| report.kind == AreaKind::File)?;
        Some((report.stretches, report.skipped))
    }

    fn text(&self) -> String {
        let what = match self.header {
            Some(header) if header.is_scratch() => format!("scratch, count {}", header.count),
            Some(header) => format!("file area {}, count {}", header.id, header.count),
            None if self.is_blank => "blank: passed over".to_string(),
            None => "no valid header of this length: passed over".to_string(),
        };
        let state = match (self.damage(), self.report) {
            (Some((0, _)), _) => ", clean".to_string(),
            (Some((stretches, bytes)), _) => format!(", damaged: {}", damage(stretches, bytes)),
            (None, Some(report)) if self.is_passed_over() && !self.is_blank => {
                let records = count(report.records as usize, "record", "records");
                format!(", with {records} in it")
            }
            _ => String::new(),
        };
        format!("{:>5}+{:<5} {what}{state}", self.area.offset, self.area.length)
    }

    fn json(&self) -> String {
        let [offset, length] = place(self.area);
        json::object(&[
            offset,
            length,
            ("kind", json::text(self.header.map_or("none", |h| h.kind()))),
            ("id", json::number(self.header.map(|h| h.id))),
            ("count", json::number(self.header.map(|h| h.count))),
            ("records", json::number(self.report.map(|report| report.records))),
            ("blank", self.is_blank.to_string()),
            ("stretches", json::number(self.damage().map(|d| d.0))),
            ("skipped", json::number(self.damage().map(|d| d.1))),
        ])
    }
}

fn damage(stretches: u32, bytes: u32) -> String {
    let stretches = count(stretches as usize, "stretch", "stretches");
    format!("{stretches}, {}", count(bytes as usize, "byte", "bytes"))
}

impl Mounted {
    /// What is wrong, and what to do about it.
    fn wrong(&self) -> Vec<&'static str> {
        let broken = self.tree.entries.iter().any(|e| matches!(e.what, What::Broken));
        let found = [
            (self.report.stretches > 0, DAMAGE),
            (broken, BROKEN),
            (self.gone.orphans.is_some_and(|n| n > 0), ORPHANS),
            (!self.tree.ambiguous.is_empty(), AMBIGUOUS),
            (!self.tree.too_long.is_empty(), TOO_LONG),
        ];
        found.into_iter().filter(|(is, _)| *is).map(|(_, words)| words).collect()
    }

    /// The counts of inodes and of damage.
    fn counts(&self) -> String {
        let r = &self.report;
        let mut text = format!("inodes: {}, of which {} live", r.inodes, r.live);
        match (self.gone.deleted, self.gone.orphans) {
            (Some(deleted), Some(orphans)) => {
                let _ = write!(
                    text,
                    ", {deleted} deleted, {}",
                    count(orphans as usize, "orphan", "orphans")
                );
            }
            _ => {
                let _ = write!(text, ", {} deleted or orphans", r.inodes - r.live);
            }
        }
        let _ = write!(text, "\ndamage: {}", damage(r.stretches, r.skipped));
        if r.stretches > 0 {
            let _ = write!(text, ", first {}+{}", r.first_offset, r.first_length);
        }
        text.push('\n');
        text
    }

    fn text(&self) -> String {
        let mut text = self.counts();
        for entry in &self.tree.entries {
            let _ = writeln!(text, "  {}", entry.text());
        }
        for path in &self.tree.ambiguous {
            let _ = writeln!(text, "  {:>9}  {}", "ambiguous", shown(path));
        }
        for path in &self.tree.too_long {
            let _ = writeln!(text, "  {:>9}  {}", "too long", shown(path));
        }
        for orphan in &self.gone.named {
            let name = shown(&orphan.name);
            let _ = writeln!(
                text,
                "  {:>9}  {name} (was in directory {:08x})",
                "orphan", orphan.parent
            );
        }
        for words in self.wrong() {
            let _ = writeln!(text, "{words}");
        }
        text
    }

    fn json(&self) -> Vec<(&'static str, String)> {
        let r = &self.report;
        let paths = |paths: &BTreeSet<Vec<u8>>| {
            json::list(paths.iter().map(|path| json::object(&path_fields("path", path))))
        };
        let orphan = |c: &Candidate| {
            let [name, bytes] = path_fields("name", &c.name);
            json::object(&[name, bytes, ("id", c.id.to_string()), ("parent", c.parent.to_string())])
        };
        vec![
            ("inodes", r.inodes.to_string()),
            ("live", r.live.to_string()),
            ("deleted", json::number(self.gone.deleted)),
            ("orphans", json::number(self.gone.orphans)),
            ("stretches", r.stretches.to_string()),
            ("skipped", r.skipped.to_string()),
            ("first_offset", r.first_offset.to_string()),
            ("first_length", r.first_length.to_string()),
            ("entries", json::list(self.tree.entries.iter().map(Entry::json))),
            ("ambiguous", paths(&self.tree.ambiguous)),
            ("too_long", paths(&self.tree.too_long)),
            ("unreached", self.unreached.to_string()),
            ("orphaned", json::list(self.gone.named.iter().map(orphan))),
        ]
    }
}

/// Bytes as text, if they are any, and by number.
pub fn path_fields(name: &'static str, bytes: &[u8]) -> [(&'static str, String); 2] {
    let text = std::str::from_utf8(bytes).map_or("null".into(), json::text);
    let by_number = if name == "path" { "path_hex" } else { "name_hex" };
    [(name, text), (by_number, json::hex(bytes))]
}

impl Entry {
    fn text(&self) -> String {
        let what = match &self.what {
            What::Directory => "directory".to_string(),
            What::File(bytes) => bytes.len().to_string(),
            What::Broken => "broken".to_string(),
        };
        format!("{what:>9}  {}", shown(&self.path))
    }

    fn json(&self) -> String {
        let (kind, size) = match &self.what {
            What::Directory => ("directory", None),
            What::File(bytes) => ("file", Some(bytes.len())),
            What::Broken => ("broken", None),
        };
        let [path, bytes] = path_fields("path", &self.path);
        json::object(&[
            path,
            bytes,
            ("id", self.id.to_string()),
            ("kind", json::text(kind)),
            ("size", json::number(size)),
        ])
    }
}
