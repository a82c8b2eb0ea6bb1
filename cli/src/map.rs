//! `map`: what each area holds, and where.
//!
//! All of it is answered by the calls, also where the volume does not mount. Here only the picture
//! is drawn, and an area's offset added to what counts from its start. A gap is asked about as if it
//! were an area: where it begins and ends is from the areas that were found.

use crate::areas::{take, Chosen};
use crate::arguments::Arguments;
use crate::console::{print, say};
use crate::failure::Failure;
use crate::hints::parts_json;
use crate::image_file;
use crate::json;
use crate::page::refusal_json;
use nffs::{Area, AreaKind, AreaReport, Refusal, Stretch};

/// The characters of a bar. No area has fewer bytes than this, and each byte falls into one.
const CELLS: u32 = 48;
/// The bytes of an area's header.
const HEADER: u32 = 24;
const FREE: char = '.';
const LEGEND: &str = "H header, = records, X damage, x in part, . free; \
                      in scratch or passed over: - records, ~ other bytes; ? no valid header";

struct Map {
    image: String,
    size: usize,
    at: u64,
    chosen: Chosen,
    /// Why the volume does not mount.
    refusal: Option<Refusal>,
    /// None where the list is not good.
    areas: Vec<Mapped>,
    /// What is in no area that was found, and holds records.
    gaps: Vec<Mapped>,
}

/// An area of the list, or a gap, its state and its stretches.
struct Mapped {
    area: Area,
    report: AreaReport,
    stretches: Vec<Stretch>,
    is_gap: bool,
}

/// What a kind of area is called in the map and in JSON, and how header, records and stretches are
/// drawn and named. Only those of a file area are damage.
struct Look {
    kind: &'static str,
    json: &'static str,
    header: char,
    records: char,
    rest: char,
    /// Of a cell that holds something else, too.
    rest_in_part: char,
    rest_name: &'static str,
}

const FILE: Look = Look {
    kind: "file",
    json: "file",
    header: 'H',
    records: '=',
    rest: 'X',
    rest_in_part: 'x',
    rest_name: "damaged",
};
const SCRATCH: Look = Look {
    kind: "scratch",
    json: "scratch",
    header: 'H',
    records: '-',
    rest: '~',
    rest_in_part: '~',
    rest_name: "other",
};
const PASSED_OVER: Look = Look { kind: "passed over", json: "none", header: '?', ..SCRATCH };
const GAP: Look = Look { kind: "not in list", ..PASSED_OVER };

pub fn map(arguments: &Arguments) -> Result<(), Failure> {
    let at = arguments.number("--at")?;
    let image = image_file::load(&arguments.image, at)?;
    let chosen = take(arguments, &image)?;
    let areas = mapped(&image, &chosen.areas);
    if let (Err(refusal), false) = (&areas, arguments.given("--json")) {
        return Err(arguments.refused(*refusal));
    }
    let map = Map {
        image: arguments.image.display().to_string(),
        size: image.len(),
        at: at.unwrap_or(0),
        refusal: nffs::report(&image, &chosen.areas).err(),
        areas: areas.unwrap_or_default(),
        gaps: mapped_gaps(&image, &chosen),
        chosen,
    };
    map.show(arguments)
}

/// The areas of a list; refused where it is not good, or empty.
fn mapped(image: &[u8], areas: &[Area]) -> Result<Vec<Mapped>, Refusal> {
    nffs::area_report(image, areas, 0, 0)?;
    let one = |(area, index): (&Area, u32)| {
        Ok(Mapped {
            area: *area,
            report: nffs::area_report(image, areas, index, 0)?,
            stretches: nffs::stretches(image, areas, index)?.collect(),
            is_gap: false,
        })
    };
    areas.iter().zip(0..).map(one).collect()
}

/// Each gap as a list of its own.
fn mapped_gaps(image: &[u8], chosen: &Chosen) -> Vec<Mapped> {
    let gaps = chosen.gaps.iter().filter_map(|gap| mapped(image, &[gap.area]).ok());
    gaps.flatten().map(|gap| Mapped { is_gap: true, ..gap }).collect()
}

impl Map {
    fn show(&self, arguments: &Arguments) -> Result<(), Failure> {
        let (as_json, as_list) = (arguments.given("--json"), arguments.given("--stretches"));
        if let Some(refusal) = self.refusal {
            let shown = match (self.areas.is_empty(), as_list) {
                (true, _) => "no area is shown",
                (false, true) => "its stretches are shown",
                (false, false) => "its areas are shown",
            };
            let what = arguments.what();
            say(&format!("{what}: the volume is refused with {refusal}; {shown}"));
        }
        let text = match (as_json, as_list) {
            (true, _) => self.json(),
            (false, true) => self.stretches(),
            (false, false) => self.text(),
        };
        print(text.as_bytes())?;
        self.refusal.map_or(Ok(()), |_| Err(Failure::Unmounted))
    }

    fn text(&self) -> String {
        let mut head = format!(
            "{:<11}  {:<11}  {:>3}  {:>5}  {:>7}  {:>5}  {:>5}",
            "area", "kind", "id", "count", "records", "free", "rest"
        );
        if self.at > 0 {
            head = format!("{head}  from {} on", self.at);
        }
        let mut areas: Vec<_> = self.areas.iter().chain(&self.gaps).collect();
        if !self.gaps.is_empty() {
            // areas that were found are in this order already
            areas.sort_by_key(|area| area.area.offset);
        }
        let lines: String = areas.iter().map(|area| area.line() + "\n").collect();
        format!("{head}\n{lines}{LEGEND}\n")
    }

    fn stretches(&self) -> String {
        let places = self.areas.iter().flat_map(Mapped::damage);
        places.map(|(offset, length)| format!("{offset}+{length}\n")).collect()
    }

    fn json(&self) -> String {
        let mut fields = vec![
            ("image", json::text(&self.image)),
            ("at", self.at.to_string()),
            ("size", self.size.to_string()),
            ("status", u8::from(self.refusal.is_some()).to_string()),
            ("refusal", refusal_json(self.refusal.as_ref())),
            ("found", self.chosen.found.to_string()),
            ("areas", json::list(self.areas.iter().map(Mapped::json))),
        ];
        fields.extend(parts_json(&self.chosen));
        json::page(&fields)
    }
}

impl Mapped {
    fn look(&self) -> &'static Look {
        match self.report.kind {
            _ if self.is_gap => &GAP,
            AreaKind::File => &FILE,
            AreaKind::Scratch => &SCRATCH,
            AreaKind::PassedOver => &PASSED_OVER,
        }
    }

    fn is_file_area(&self) -> bool {
        self.report.kind == AreaKind::File
    }

    /// Id and count of the header, if it is valid.
    fn header(&self) -> [Option<u32>; 2] {
        let is_valid = self.report.kind != AreaKind::PassedOver;
        [self.report.id, self.report.count].map(|number| is_valid.then_some(number))
    }

    /// The damage stretches, if it is a file area: where each begins in the image, and its length.
    fn damage(&self) -> impl Iterator<Item = (u32, u32)> + '_ {
        let stretches = self.stretches.iter().filter(|_| self.is_file_area());
        stretches.map(|s| (self.area.offset + s.offset, s.length))
    }

    fn line(&self) -> String {
        let (look, report) = (self.look(), &self.report);
        let [id, count] = self.header().map(|n| n.map_or("-".into(), |n| n.to_string()));
        let rest = match (report.skipped, self.is_file_area()) {
            (0, true) => format!("{:>5} {:<7}", "", "clean"),
            (bytes, _) => format!("{bytes:>5} {:<7}", look.rest_name),
        };
        format!(
            "{:>5}+{:<5}  {:<11}  {id:>3}  {count:>5}  {:>7}  {:>5}  {rest}  {}",
            self.area.offset,
            self.area.length,
            look.kind,
            report.records,
            report.free,
            self.bar()
        )
    }

    /// The area to scale.
    fn bar(&self) -> String {
        (0..CELLS).map(|cell| self.cell(cell)).collect()
    }

    /// What is shown of the bytes that fall into a cell. Where there are several things, it is the
    /// first of these: damage, header, records, free space. So no stretch is too short to be seen.
    fn cell(&self, cell: u32) -> char {
        let start = |cell: u32| (cell * self.area.length).div_ceil(CELLS);
        let (from, to) = (start(cell), start(cell + 1));
        let common = |s: &Stretch| to.min(s.offset + s.length).saturating_sub(from.max(s.offset));
        let rest: u32 = self.stretches.iter().map(common).sum();
        let look = self.look();
        match () {
            () if rest == to - from => look.rest,
            () if rest > 0 => look.rest_in_part,
            () if from < HEADER => look.header,
            () if from < self.area.length - self.report.free => look.records,
            () => FREE,
        }
    }

    /// For machines; what is no damage has another name here, too.
    fn json(&self) -> String {
        let report = &self.report;
        let [id, count] = self.header().map(json::number);
        let of_file = |number: u32| json::number(self.is_file_area().then_some(number));
        let other = json::number((!self.is_file_area()).then_some(report.skipped));
        let stretch = |(offset, length): (u32, u32)| {
            json::object(&[("offset", offset.to_string()), ("length", length.to_string())])
        };
        let damage: Vec<_> = self.damage().map(stretch).collect();
        json::object(&[
            ("offset", self.area.offset.to_string()),
            ("length", self.area.length.to_string()),
            ("kind", json::text(self.look().json)),
            ("id", id),
            ("count", count),
            ("records", report.records.to_string()),
            ("free", report.free.to_string()),
            ("stretches", of_file(report.stretches)),
            ("skipped", of_file(report.skipped)),
            ("other", other),
            ("damage", format!("[{}]", damage.join(", "))),
        ])
    }
}
