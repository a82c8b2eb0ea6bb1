//! Two engines on their own copies of one image: answer, whole image, whole
//! buffer and handle are compared after each call.

use std::collections::BTreeMap;
use std::fmt::Write;
use std::ops::Range;

use crate::generate::made::{self, Made};
pub use crate::shrink::shrink;
use crate::{generate, AreaReport, Create, Handle, Lookup, Open, Read, Report, Tree};

/// The calls of documents 01 and 02.
pub trait Engine {
    fn format(&self, image: &mut [u8], areas: &[u32]) -> u32;
    fn report(&self, image: &[u8], areas: &[u32]) -> Report;
    fn area_report(&self, image: &[u8], areas: &[u32], index: u32, stretch: u32) -> AreaReport;
    fn tree(&self, image: &[u8], areas: &[u32], buffer: &mut [u8]) -> Tree;
    fn lookup(&self, image: &[u8], areas: &[u32], base: &[u8], path: &[u8]) -> Lookup;
    fn open(&self, image: &[u8], areas: &[u32], base: &[u8], path: &[u8]) -> Open;
    fn read_at(
        &self,
        image: &[u8],
        areas: &[u32],
        id: u32,
        position: u32,
        buffer: &mut [u8],
    ) -> Read;
    fn read(&self, image: &[u8], areas: &[u32], handle: &mut Handle, buffer: &mut [u8]) -> Read;
    fn create(
        &self,
        image: &mut [u8],
        areas: &[u32],
        base: &[u8],
        path: &[u8],
        kind: u32,
    ) -> Create;
    fn append(&self, image: &mut [u8], areas: &[u32], base: &[u8], path: &[u8], data: &[u8])
        -> u32;
    fn overwrite(
        &self,
        image: &mut [u8],
        areas: &[u32],
        base: &[u8],
        path: &[u8],
        offset: u32,
        data: &[u8],
    ) -> u32;
    fn unlink(&self, image: &mut [u8], areas: &[u32], base: &[u8], path: &[u8]) -> u32;
    fn rename(&self, image: &mut [u8], areas: &[u32], base: &[u8], old: &[u8], new: &[u8]) -> u32;
    fn collect(&self, image: &mut [u8], areas: &[u32]) -> u32;
}

/// The model.
#[derive(Clone, Copy, Debug, Default)]
pub struct Model;

impl Engine for Model {
    fn format(&self, image: &mut [u8], areas: &[u32]) -> u32 {
        crate::format(image, areas)
    }
    fn report(&self, image: &[u8], areas: &[u32]) -> Report {
        crate::report(image, areas)
    }
    fn area_report(&self, image: &[u8], areas: &[u32], index: u32, stretch: u32) -> AreaReport {
        crate::area_report(image, areas, index, stretch)
    }
    fn tree(&self, image: &[u8], areas: &[u32], buffer: &mut [u8]) -> Tree {
        crate::tree(image, areas, buffer)
    }
    fn lookup(&self, image: &[u8], areas: &[u32], base: &[u8], path: &[u8]) -> Lookup {
        crate::lookup(image, areas, base, path)
    }
    fn open(&self, image: &[u8], areas: &[u32], base: &[u8], path: &[u8]) -> Open {
        crate::open(image, areas, base, path)
    }
    fn read_at(
        &self,
        image: &[u8],
        areas: &[u32],
        id: u32,
        position: u32,
        buffer: &mut [u8],
    ) -> Read {
        crate::read_at(image, areas, id, position, buffer)
    }
    fn read(&self, image: &[u8], areas: &[u32], handle: &mut Handle, buffer: &mut [u8]) -> Read {
        crate::read(image, areas, handle, buffer)
    }
    fn create(
        &self,
        image: &mut [u8],
        areas: &[u32],
        base: &[u8],
        path: &[u8],
        kind: u32,
    ) -> Create {
        crate::create(image, areas, base, path, kind)
    }
    fn append(
        &self,
        image: &mut [u8],
        areas: &[u32],
        base: &[u8],
        path: &[u8],
        data: &[u8],
    ) -> u32 {
        crate::append(image, areas, base, path, data)
    }
    fn overwrite(
        &self,
        image: &mut [u8],
        areas: &[u32],
        base: &[u8],
        path: &[u8],
        offset: u32,
        data: &[u8],
    ) -> u32 {
        crate::overwrite(image, areas, base, path, offset, data)
    }
    fn unlink(&self, image: &mut [u8], areas: &[u32], base: &[u8], path: &[u8]) -> u32 {
        crate::unlink(image, areas, base, path)
    }
    fn rename(&self, image: &mut [u8], areas: &[u32], base: &[u8], old: &[u8], new: &[u8]) -> u32 {
        crate::rename(image, areas, base, old, new)
    }
    fn collect(&self, image: &mut [u8], areas: &[u32]) -> u32 {
        crate::collect(image, areas)
    }
}

/// One step of a case. The first three are no calls: they change what the
/// calls after them are given.
#[derive(Clone, Debug, PartialEq, Eq)]
pub enum Call {
    /// The area list from here on.
    Areas(Vec<u32>),
    /// Bytes of the image overwritten from outside, as far as it reaches.
    Damage {
        offset: usize,
        bytes: Vec<u8>,
    },
    /// The handle from here on.
    Handle {
        id: u32,
        position: u32,
    },
    Format,
    Report,
    /// Of entry `index` of the list, with its damage stretch number `stretch`.
    AreaReport {
        index: u32,
        stretch: u32,
    },
    /// Into a buffer of this length.
    Tree {
        length: usize,
    },
    Lookup {
        base: Vec<u8>,
        path: Vec<u8>,
    },
    /// An accepted open also sets the handle.
    Open {
        base: Vec<u8>,
        path: Vec<u8>,
    },
    ReadAt {
        id: u32,
        position: u32,
        length: usize,
    },
    /// A read of the handle.
    Read {
        length: usize,
    },
    Create {
        base: Vec<u8>,
        path: Vec<u8>,
        kind: u32,
    },
    Append {
        base: Vec<u8>,
        path: Vec<u8>,
        data: Vec<u8>,
    },
    Overwrite {
        base: Vec<u8>,
        path: Vec<u8>,
        offset: u32,
        data: Vec<u8>,
    },
    Unlink {
        base: Vec<u8>,
        path: Vec<u8>,
    },
    /// The base serves both paths.
    Rename {
        base: Vec<u8>,
        old: Vec<u8>,
        new: Vec<u8>,
    },
    Collect,
}

impl Call {
    pub fn name(&self) -> &'static str {
        match self {
            Call::Areas(_) => "Areas",
            Call::Damage { .. } => "Damage",
            Call::Handle { .. } => "Handle",
            Call::Format => "Format",
            Call::Report => "Report",
            Call::AreaReport { .. } => "AreaReport",
            Call::Tree { .. } => "Tree",
            Call::Lookup { .. } => "Lookup",
            Call::Open { .. } => "Open",
            Call::ReadAt { .. } => "ReadAt",
            Call::Read { .. } => "Read",
            Call::Create { .. } => "Create",
            Call::Append { .. } => "Append",
            Call::Overwrite { .. } => "Overwrite",
            Call::Unlink { .. } => "Unlink",
            Call::Rename { .. } => "Rename",
            Call::Collect => "Collect",
        }
    }

    fn is_call(&self) -> bool {
        !matches!(self, Call::Areas(_) | Call::Damage { .. } | Call::Handle { .. })
    }
}

#[derive(Clone, Debug, PartialEq, Eq)]
pub struct Case {
    pub image: Vec<u8>,
    pub areas: Vec<u32>,
    pub calls: Vec<Call>,
}

/// An answer's numbers in order, the refusal number first.
pub type Answer = Vec<u32>;

/// What one engine works on.
#[derive(Clone, Debug)]
pub struct Side {
    pub image: Vec<u8>,
    pub areas: Vec<u32>,
    pub handle: Handle,
    pub buffer: Vec<u8>,
}

impl Side {
    pub fn new(case: &Case) -> Side {
        let (image, areas) = (case.image.clone(), case.areas.clone());
        Side { image, areas, handle: Handle::default(), buffer: Vec::new() }
    }

    /// A buffer whose every byte is known, so that a touched one is seen.
    fn lend(&mut self, length: usize) {
        self.buffer = (0..length).map(|i| (i * 7 + 13) as u8).collect();
    }

    pub fn perform(&mut self, engine: &dyn Engine, call: &Call) -> Answer {
        let Side { image, areas, .. } = self;
        match call {
            Call::Areas(list) => areas.clone_from(list),
            Call::Damage { offset, bytes } => {
                image.iter_mut().skip(*offset).zip(bytes).for_each(|(old, new)| *old = *new);
            }
            Call::Handle { id, position } => self.handle = Handle { id: *id, position: *position },
            Call::Report => return reported(&engine.report(image, areas)),
            Call::AreaReport { index, stretch } => {
                return area_reported(&engine.area_report(image, areas, *index, *stretch))
            }
            Call::Tree { length } => return self.tree(engine, *length),
            Call::Lookup { base, path } => {
                let found = engine.lookup(image, areas, base, path);
                return vec![found.number, found.id, found.kind];
            }
            Call::Open { base, path } => {
                let opened = engine.open(image, areas, base, path);
                if opened.number == 0 {
                    self.handle = Handle { id: opened.id, position: opened.position };
                }
                return vec![opened.number, opened.id, opened.position];
            }
            Call::ReadAt { id, position, length } => {
                return self.read_at(engine, *id, *position, *length)
            }
            Call::Read { length } => return self.read(engine, *length),
            write => return self.write(engine, write),
        }
        Vec::new()
    }

    /// A call that may change the image.
    fn write(&mut self, engine: &dyn Engine, call: &Call) -> Answer {
        let Side { image, areas, .. } = self;
        let number = match call {
            Call::Format => engine.format(image, areas),
            Call::Create { base, path, kind } => {
                let created = engine.create(image, areas, base, path, *kind);
                return vec![created.number, created.id];
            }
            Call::Append { base, path, data } => engine.append(image, areas, base, path, data),
            Call::Overwrite { base, path, offset, data } => {
                engine.overwrite(image, areas, base, path, *offset, data)
            }
            Call::Unlink { base, path } => engine.unlink(image, areas, base, path),
            Call::Rename { base, old, new } => engine.rename(image, areas, base, old, new),
            Call::Collect => engine.collect(image, areas),
            _ => return Vec::new(),
        };
        vec![number]
    }

    fn tree(&mut self, engine: &dyn Engine, length: usize) -> Answer {
        self.lend(length);
        let tree = engine.tree(&self.image, &self.areas, &mut self.buffer);
        vec![tree.number, tree.length]
    }

    fn read_at(&mut self, engine: &dyn Engine, id: u32, position: u32, length: usize) -> Answer {
        self.lend(length);
        let read = engine.read_at(&self.image, &self.areas, id, position, &mut self.buffer);
        vec![read.number, read.given, read.headers]
    }

    fn read(&mut self, engine: &dyn Engine, length: usize) -> Answer {
        self.lend(length);
        let read = engine.read(&self.image, &self.areas, &mut self.handle, &mut self.buffer);
        vec![read.number, read.given, read.headers]
    }
}

fn reported(r: &Report) -> Answer {
    let damage = [r.stretches, r.skipped, r.first_offset, r.first_length];
    [&[r.number, r.inodes, r.live][..], &damage].concat()
}

fn area_reported(r: &AreaReport) -> Answer {
    let counts = [r.records, r.stretches, r.skipped, r.free];
    [&[r.number, r.kind, r.id, r.count][..], &counts, &[r.offset, r.length]].concat()
}

/// How many calls were made, which numbers each kind of call answered, and how
/// often each thing of `generate::made` was met.
#[derive(Clone, Debug, Default)]
pub struct Tally {
    pub calls: u64,
    pub answers: BTreeMap<(&'static str, u32), u64>,
    pub made: BTreeMap<Made, u64>,
}

impl Tally {
    fn begin(&mut self, case: &Case) {
        let met = [made::in_list(&case.areas), made::in_image(case)].concat();
        met.into_iter().for_each(|made| self.met(made));
    }

    /// `before` is what was to be met in the call, `side` what it left.
    fn count(&mut self, call: &Call, answer: &Answer, before: Vec<Made>, side: &Side) {
        if call.is_call() {
            self.calls += 1;
            *self.answers.entry((call.name(), answer[0])).or_default() += 1;
        }
        let met = match call {
            Call::Areas(list) => made::in_list(list),
            Call::Damage { .. } | Call::Handle { .. } => Vec::new(),
            _ => made::in_call(call, answer, side),
        };
        before.into_iter().chain(met).for_each(|made| self.met(made));
    }

    fn met(&mut self, made: Made) {
        *self.made.entry(made).or_default() += 1;
    }
}

#[derive(Clone, Debug)]
pub struct Difference {
    /// Which of the case's calls.
    pub call: usize,
    pub what: String,
}

/// Runs one case on both engines up to the first difference.
pub fn run(
    case: &Case,
    left: &dyn Engine,
    right: &dyn Engine,
    tally: &mut Tally,
) -> Option<Difference> {
    tally.begin(case);
    let (mut a, mut b) = (Side::new(case), Side::new(case));
    for (call, step) in case.calls.iter().enumerate() {
        let before = made::before_call(step, &a);
        let answers = (a.perform(left, step), b.perform(right, step));
        tally.count(step, &answers.0, before, &a);
        if let Some(what) = difference(&answers, &a, &b) {
            return Some(Difference { call, what });
        }
    }
    None
}

fn difference(answers: &(Answer, Answer), a: &Side, b: &Side) -> Option<String> {
    if answers.0 != answers.1 {
        return Some(format!("answers {:?} and {:?}", answers.0, answers.1));
    }
    if a.handle != b.handle {
        return Some(format!("handles {:?} and {:?}", a.handle, b.handle));
    }
    bytes_differ("image", &a.image, &b.image)
        .or_else(|| bytes_differ("buffer", &a.buffer, &b.buffer))
}

fn bytes_differ(what: &str, a: &[u8], b: &[u8]) -> Option<String> {
    if a == b {
        return None;
    }
    if a.len() != b.len() {
        return Some(format!("{what} lengths {} and {}", a.len(), b.len()));
    }
    let at = (0..a.len()).find(|i| a[*i] != b[*i])?;
    Some(format!("{what} byte {at}: {:02x} and {:02x}", a[at], b[at]))
}

/// Runs the generated cases of these seeds. On a difference the answer is the
/// shrunk case as text, ready to be pasted into a test.
pub fn compare(seeds: Range<u64>, left: &dyn Engine, right: &dyn Engine) -> Result<Tally, String> {
    let mut tally = Tally::default();
    for seed in seeds {
        let case = generate::case(seed);
        if run(&case, left, right, &mut tally).is_some() {
            return Err(format!(
                "// seed {seed}\n{}",
                show(&shrink(case, left, right), left, right)
            ));
        }
    }
    Ok(tally)
}

/// The first of these seeds whose case tells the engines apart.
pub fn first_difference(seeds: Range<u64>, left: &dyn Engine, right: &dyn Engine) -> Option<u64> {
    let differs =
        |seed: &u64| run(&generate::case(*seed), left, right, &mut Tally::default()).is_some();
    seeds.into_iter().find(differs)
}

/// The case as Rust text, with what differs.
pub fn show(case: &Case, left: &dyn Engine, right: &dyn Engine) -> String {
    let found = run(case, left, right, &mut Tally::default());
    let mut text = String::new();
    if let Some(found) = found {
        let _ = writeln!(text, "// call {}: {}", found.call, found.what);
    }
    let _ = writeln!(text, "Case {{\n    image: bytes(\"{}\"),", hex(&case.image));
    let _ = writeln!(text, "    areas: vec!{:?},\n    calls: vec![", case.areas);
    for call in &case.calls {
        let _ = writeln!(text, "        {},", show_call(call));
    }
    text + "    ],\n}\n"
}

fn show_call(call: &Call) -> String {
    let text = |bytes: &[u8]| format!("bytes(\"{}\")", hex(bytes));
    let two = |base: &[u8], path: &[u8]| format!("base: {}, path: {}", text(base), text(path));
    match call {
        Call::Areas(list) => format!("Call::Areas(vec!{list:?})"),
        Call::Damage { offset, bytes } => {
            format!("Call::Damage {{ offset: {offset}, bytes: {} }}", text(bytes))
        }
        Call::Lookup { base, path } => format!("Call::Lookup {{ {} }}", two(base, path)),
        Call::Open { base, path } => format!("Call::Open {{ {} }}", two(base, path)),
        Call::Unlink { base, path } => format!("Call::Unlink {{ {} }}", two(base, path)),
        Call::Rename { base, old, new } => {
            let (base, old, new) = (text(base), text(old), text(new));
            format!("Call::Rename {{ base: {base}, old: {old}, new: {new} }}")
        }
        Call::Create { base, path, kind } => {
            format!("Call::Create {{ {}, kind: {kind} }}", two(base, path))
        }
        Call::Append { base, path, data } => {
            format!("Call::Append {{ {}, data: {} }}", two(base, path), text(data))
        }
        Call::Overwrite { base, path, offset, data } => {
            let at = format!("{}, offset: {offset}", two(base, path));
            format!("Call::Overwrite {{ {at}, data: {} }}", text(data))
        }
        plain => format!("Call::{plain:?}"),
    }
}

/// Bytes as hex, a run of 8 or more equal bytes as `ff*100`.
pub fn hex(bytes: &[u8]) -> String {
    let mut text = String::new();
    let mut at = 0;
    while at < bytes.len() {
        let run = bytes[at..].iter().take_while(|byte| **byte == bytes[at]).count();
        if run >= 8 {
            let _ = write!(text, " {:02x}*{run} ", bytes[at]);
            at += run;
        } else {
            let _ = write!(text, "{:02x}", bytes[at]);
            at += 1;
        }
    }
    text.trim().to_string()
}

/// The bytes that `hex` shows. What isn't hex is left out.
pub fn bytes(text: &str) -> Vec<u8> {
    text.split_whitespace().flat_map(token).collect()
}

fn token(token: &str) -> Vec<u8> {
    let (digits, times) = token.split_once('*').unwrap_or((token, "1"));
    let values: Vec<u8> =
        digits.bytes().filter_map(|c| (c as char).to_digit(16)).map(|d| d as u8).collect();
    let once: Vec<u8> = values.chunks_exact(2).map(|pair| pair[0] << 4 | pair[1]).collect();
    once.repeat(times.parse().unwrap_or(0))
}
