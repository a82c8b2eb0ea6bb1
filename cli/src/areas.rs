//! Which areas a volume has: by a list, or found by their headers.
//!
//! Headers are read here to propose a list and to show what stands in them. What a list means is
//! for the calls to say: they look at every header again.

use crate::arguments::{number, usage, Arguments};
use crate::console::{count, say};
use crate::failure::Failure;
use crate::gaps::{gaps, inside, passed_over, Gap, Inside};
use crate::hints::Hints;
use crate::image_file::MOST;
use nffs::{Area, MOST_AREAS};
use std::ffi::OsStr;
use std::fs::File;
use std::io::Read;
use std::os::unix::ffi::OsStrExt;
use std::path::Path;

/// The lengths of a good area.
const LENGTHS: std::ops::RangeInclusive<u32> = 128..=MOST as u32;
const MAGICS: [u32; 4] = [0xb98a_31e2, 0x7fb0_428c, 0xace0_8253, 0xb185_fc8e];
const HEADER_SIZE: usize = 24;
/// The area id of scratch.
const SCRATCH: u8 = 255;

/// What stands in the header of an area.
#[derive(Clone, Copy)]
pub struct Header {
    pub length: u32,
    pub count: u8,
    pub reserved: u8,
    pub id: u8,
}

impl Header {
    pub fn is_scratch(&self) -> bool {
        self.id == SCRATCH
    }

    /// The kind of its area, as JSON names it.
    pub fn kind(&self) -> &'static str {
        match self.is_scratch() {
            true => "scratch",
            false => "file",
        }
    }

    /// Since version 0.4.0 a header whose reserved byte is not 0 is passed over with its area.
    fn is_valid(&self) -> bool {
        self.reserved == 0
    }
}

/// The header at a place: the four magics, version 0, and a length that fits. Its reserved byte may
/// be any.
fn header_at(image: &[u8], offset: usize) -> Option<Header> {
    let bytes = image.get(offset..)?.get(..HEADER_SIZE)?;
    let field = |k: usize| u32::from_le_bytes([bytes[k], bytes[k + 1], bytes[k + 2], bytes[k + 3]]);
    let magics = MAGICS.iter().enumerate().all(|(k, magic)| field(4 * k) == *magic);
    let length = field(16);
    let fits = LENGTHS.contains(&length) && length as usize <= image.len() - offset;
    let good = magics && fits && bytes[20] == 0;
    good.then(|| Header { length, count: bytes[21], reserved: bytes[22], id: bytes[23] })
}

/// The header of an area, where it is a valid one of this length.
pub fn header(image: &[u8], area: Area) -> Option<Header> {
    let is_its_own = |header: &Header| header.is_valid() && header.length == area.length;
    header_at(image, area.offset as usize).filter(is_its_own)
}

/// The area that a valid header begins here.
pub fn valid_at(image: &[u8], offset: u32) -> Option<Area> {
    let header = header_at(image, offset as usize).filter(Header::is_valid)?;
    Some(Area { offset, length: header.length })
}

/// A header and where it stands.
#[derive(Clone, Copy)]
pub struct Placed {
    pub offset: u32,
    pub header: Header,
}

impl Placed {
    fn area(&self) -> Area {
        Area { offset: self.offset, length: self.header.length }
    }
}

/// What is seen in an image.
#[derive(Default)]
pub struct Seen {
    /// The areas with a valid header that are not listed.
    pub areas: Vec<Area>,
    /// The headers, of listed areas too, whose reserved byte is not 0.
    pub reserved_headers: Vec<Placed>,
}

/// The headers that are seen, but for the valid ones of listed areas. Inside an area whose own
/// header is seen none is looked for, also where it is passed over for its reserved byte: a file may
/// hold anything.
pub fn seen(image: &[u8], listed: &[Area]) -> Seen {
    let mut found = Seen::default();
    let mut offset = 0;
    while offset < image.len() {
        let Some(header) = header_at(image, offset) else {
            offset += 1;
            continue;
        };
        let area = Area { offset: offset as u32, length: header.length };
        if !header.is_valid() {
            found.reserved_headers.push(Placed { offset: area.offset, header });
        } else if !listed.contains(&area) {
            found.areas.push(area);
        }
        let mut end = area.offset + area.length;
        if !listed.contains(&area) {
            // what is listed is looked at from its start
            let next = listed.iter().map(|l| l.offset).filter(|o| *o > area.offset).min();
            end = end.min(next.unwrap_or(end));
        }
        offset = end as usize;
    }
    found
}

/// A list of areas, and where it is from.
pub struct Chosen {
    pub areas: Vec<Area>,
    /// By their headers; otherwise they were listed.
    pub found: bool,
    /// Headers that the list leaves out.
    pub left_out: Vec<Area>,
    /// Headers that are passed over for their reserved byte.
    pub reserved_headers: Vec<Placed>,
    /// Areas of a list that are passed over, for another reason, and hold records.
    pub passed_over: Vec<Gap>,
    /// Where the areas were found: bytes in none of them that hold records.
    pub gaps: Vec<Gap>,
    /// Valid headers inside of these areas, but in none of their records.
    pub inside: Vec<Inside>,
}

impl Chosen {
    /// Whether a part of the volume may be missing, by a hint.
    pub fn may_lack_a_part(&self) -> bool {
        !(self.reserved_headers.is_empty() && self.gaps.is_empty() && self.inside.is_empty())
    }

    /// Warns of headers that the list leaves out, and of records in areas that are passed over.
    pub fn warn(&self) {
        warn(&self.left_out);
        for Gap { area, records } in &self.passed_over {
            say(&format!(
                "warning: the area at {} (length {}) has no valid header and is passed over, with \
                 {} in it: what is live without it may be an older version, and what was deleted \
                 may be back",
                area.offset,
                area.length,
                count(*records as usize, "record", "records")
            ));
        }
    }
}

/// The areas by `--areas`, or else by their headers; nothing is said of them.
pub fn choose(arguments: &Arguments, image: &[u8]) -> Result<Chosen, Failure> {
    let list = listed(arguments)?;
    let found = list.is_none();
    let listed = list.unwrap_or_default();
    let Seen { areas: seen, reserved_headers } = seen(image, &listed);
    let taken = seen.iter().copied().chain(reserved_headers.iter().map(Placed::area));
    let gaps = if found { gaps(image, taken) } else { Vec::new() };
    let (areas, left_out) = if found { (seen, Vec::new()) } else { (listed, seen) };
    let inside = inside(image, &areas);
    let mut passed_over = passed_over(image, &areas);
    passed_over.retain(|gap| reserved_headers.iter().all(|placed| placed.area() != gap.area));
    Ok(Chosen { areas, found, left_out, reserved_headers, passed_over, gaps, inside })
}

/// The same; which areas were found is said, a header that was left out is warned of, and what may
/// be a part of the volume and is not read is hinted at.
pub fn take(arguments: &Arguments, image: &[u8]) -> Result<Chosen, Failure> {
    let chosen = choose(arguments, image)?;
    chosen.warn();
    Hints::of_a_run(image, &chosen).say();
    if !chosen.found {
        return Ok(chosen);
    }
    let many = chosen.areas.len();
    if many == 0 {
        return Err(none_seen(arguments, &chosen));
    }
    if many > MOST_AREAS {
        return Err(Failure::Unfit(format!(
            "{} area headers are seen in {}, and a volume has at most {MOST_AREAS}: name its own \
             with --areas",
            many,
            arguments.image.display()
        )));
    }
    if !arguments.given("--quiet") {
        say(&format!("areas {}, found by their headers", list(&chosen.areas)));
    }
    Ok(chosen)
}

/// The areas of a volume that is only read.
pub fn take_to_read(arguments: &Arguments, image: &[u8]) -> Result<Vec<Area>, Failure> {
    take(arguments, image).map(|chosen| chosen.areas)
}

/// The areas of a volume that is to be changed. Where they were found, no part may be missing by a
/// hint: if it is one of the volume, ids that stand in it would be given again.
pub fn take_to_change(arguments: &Arguments, image: &[u8]) -> Result<Vec<Area>, Failure> {
    let chosen = take(arguments, image)?;
    if chosen.found && chosen.may_lack_a_part() {
        let what = match chosen.reserved_headers.is_empty() {
            true => "what may be a part of the volume is in no area that was found",
            false => {
                "an area that may be a part of the volume is passed over for its reserved byte"
            }
        };
        return Err(Failure::Unfit(format!(
            "{} was not changed: {what} (hint above). If it is none, name the areas with --areas.",
            arguments.image.display()
        )));
    }
    Ok(chosen.areas)
}

/// Warns of headers that a list of areas leaves out.
pub fn warn(left_out: &[Area]) {
    for area in left_out {
        say(&format!(
            "warning: an area header at {} (length {}) is not in the list: a volume that is used \
             without one of its areas reads wrong, and writes to it go wrong",
            area.offset, area.length
        ));
    }
}

pub fn none_seen(arguments: &Arguments, chosen: &Chosen) -> Failure {
    let passed_over = match chosen.reserved_headers.is_empty() {
        true => "",
        false => " or are passed over for their reserved byte (then see the hint)",
    };
    Failure::Unfit(format!(
        "no valid area header is seen in {}: it holds no volume, or the headers are damaged (then \
         name the areas with --areas){passed_over}, or the volume lies elsewhere in it (--at)",
        arguments.image.display()
    ))
}

/// A list of areas in the form that `--areas` takes.
pub fn list(areas: &[Area]) -> String {
    let length = areas.first().map_or(0, |area| area.length);
    let row = |(k, area): (usize, &Area)| {
        area.length == length && u64::from(area.offset) == k as u64 * u64::from(length)
    };
    if areas.iter().enumerate().all(row) {
        return format!("{length}x{}", areas.len());
    }
    let pairs: Vec<_> = areas.iter().map(|a| format!("{}:{}", a.offset, a.length)).collect();
    pairs.join(",")
}

/// The areas that `--areas` lists, in its value or in a file.
pub fn listed(arguments: &Arguments) -> Result<Option<Vec<Area>>, Failure> {
    let Some(value) = arguments.value("--areas") else { return Ok(None) };
    match value.as_bytes() {
        [b'@', name @ ..] => from_file(Path::new(OsStr::from_bytes(name))).map(Some),
        text => parse(&String::from_utf8_lossy(text)).map(Some),
    }
}

/// A list in a file: its lines joined, without spaces and what follows a '#'.
fn from_file(path: &Path) -> Result<Vec<Area>, Failure> {
    let mut text = Vec::new();
    // no list is longer than an image
    File::open(path)
        .and_then(|file| file.take(MOST as u64).read_to_end(&mut text))
        .map_err(|e| Failure::File(format!("--areas: cannot read {}", path.display()), e))?;
    let text = String::from_utf8_lossy(&text);
    let entries: Vec<&str> = text
        .lines()
        .flat_map(|line| line.split('#').next().unwrap_or_default().split([',', ' ', '\t', '\r']))
        .filter(|entry| !entry.is_empty())
        .collect();
    parse(&entries.join(","))
}

/// Areas by OFFSET:LENGTH,.. or LENGTHxCOUNT. Whether they are good is for the calls to say, but
/// for their number: a list without bound could not be held.
fn parse(text: &str) -> Result<Vec<Area>, Failure> {
    let row_of = text.rsplit_once('x').filter(|_| !text.contains(':') && number_of(text).is_err());
    let mut areas = match row_of {
        Some((length, count)) => row(number_of(length)?, number_of(count)?)?,
        None => text.split(',').map(area).collect::<Result<Vec<_>, _>>()?,
    };
    // there a list ends for the calls; so it does for what is shown
    areas.truncate(areas.iter().position(|a| a.length == 0).unwrap_or(areas.len()));
    if areas.len() > MOST_AREAS {
        return Err(too_many());
    }
    Ok(areas)
}

fn row(length: u32, count: u32) -> Result<Vec<Area>, Failure> {
    if count as usize > MOST_AREAS {
        return Err(too_many());
    }
    (0..count)
        .map(|i| match i.checked_mul(length) {
            Some(offset) => Ok(Area { offset, length }),
            None => Err(usage(format!("--areas: area {i} of {length} bytes starts past 32 bits"))),
        })
        .collect()
}

fn area(text: &str) -> Result<Area, Failure> {
    let Some((offset, length)) = text.split_once(':') else {
        return Err(usage(format!("--areas: '{text}' is neither OFFSET:LENGTH nor LENGTHxCOUNT")));
    };
    Ok(Area { offset: number_of(offset)?, length: number_of(length)? })
}

fn number_of(text: &str) -> Result<u32, Failure> {
    number(text.as_bytes())
        .and_then(|number| u32::try_from(number).ok())
        .ok_or_else(|| usage(format!("--areas: '{text}' is no number of 32 bits")))
}

fn too_many() -> Failure {
    usage(format!("--areas: more than {MOST_AREAS} areas"))
}
