//! A log in flash whose header counts its entries. An entry is appended first, and then the header is
//! rewritten in place: so it never counts an entry that is not there yet. Power may be lost after
//! each call: printed is what a reader finds then, and what a start does about it, on a copy, line
//! for line as examples/log_header.c does; status 1 at the first surprise.

use nffs::{Area, AreaKind, Kind, Refusal, Volume};
use std::process::ExitCode;

const AREAS: [Area; 2] = Area::row(4096);
const IMAGE: usize = 2 * 4096;
const ENTRIES: usize = 90;

// The header is appended alone, so that it is a block of its own: rewriting it stores one record, of
// 24 bytes and its length.
const LOG: &[u8] = b"/log";
const HEADER: &[u8] = b"entries 0000\n";
const COUNT_AT: usize = 8;
const COUNT_END: usize = 12;
const ENTRY_BYTES: usize = 16;

type Flash<'a> = Volume<'static, &'a mut [u8]>;

/// Says how a step ended, and passes it on.
fn done<T>(step: &str, answer: Result<T, Refusal>) -> Result<(), Refusal> {
    match &answer {
        Ok(_) => println!("{step}: done"),
        Err(refusal) => println!("{step}: refused with {refusal}"),
    }
    answer.map(|_| ())
}

/// What the header counts, and how many entries there are.
#[derive(Clone, Copy, PartialEq)]
struct Log {
    counted: usize,
    there: usize,
}

/// The bytes of the log.
fn load(flash: &Flash) -> Result<Vec<u8>, Refusal> {
    let mut file = flash.open(b"", LOG)?;
    // an area holds no longer file
    let mut text = vec![0; 4096];
    let given = flash.read(&mut file, &mut text)?;
    text.truncate(given.bytes);
    Ok(text)
}

/// The log that bytes are, if they are a header with whole entries behind it.
fn whole(text: &[u8]) -> Option<Log> {
    let (header, entries) = text.split_at_checked(HEADER.len())?;
    let (count, good) = (&header[COUNT_AT..COUNT_END], header.starts_with(&HEADER[..COUNT_AT]));
    let good = good && header.ends_with(b"\n") && count.iter().all(u8::is_ascii_digit);
    let counted = count.iter().fold(0, |n, digit| 10 * n + usize::from(digit.wrapping_sub(b'0')));
    let there = entries.len() / ENTRY_BYTES;
    (good && entries.len() % ENTRY_BYTES == 0).then_some(Log { counted, there })
}

fn show(flash: &Flash) {
    match load(flash).map(|text| (text.len(), whole(&text))) {
        Err(refusal) => println!("    the log is refused with {}", refusal.number()),
        Ok((length, None)) => println!("    {length} bytes, no log"),
        Ok((_, Some(log))) => println!("    counted {}, there {}", log.counted, log.there),
    }
}

/// Whether no damage is counted and no area passed over. What comes back stale is not seen.
fn sound(flash: &Flash) -> bool {
    let passed_over = |index| match flash.area_report(index, 0) {
        Ok(area) => area.kind == AreaKind::PassedOver,
        Err(_) => true,
    };
    let clean = flash.report().is_ok_and(|report| report.stretches == 0);
    clean && !(0..AREAS.len() as u32).any(passed_over)
}

/// Makes a call. Where there is no room it collects and calls again, as often as there are areas.
/// Gives how often it collected.
fn settle(
    flash: &mut Flash,
    call: impl Fn(&mut Flash) -> Result<(), Refusal>,
) -> Result<usize, Refusal> {
    let mut collected = 0;
    loop {
        match call(flash) {
            Err(Refusal::NO_ROOM) if collected < AREAS.len() && flash.collect().is_ok() => {
                collected += 1;
            }
            answer => return answer.map(|()| collected),
        }
    }
}

fn append(flash: &mut Flash, text: &[u8]) -> Result<usize, Refusal> {
    settle(flash, |flash| flash.append(b"", LOG, text))
}

fn append_entry(flash: &mut Flash, n: usize) -> Result<usize, Refusal> {
    append(flash, format!("{n:04} started   \n").as_bytes())
}

fn rewrite_header(flash: &mut Flash, n: usize) -> Result<usize, Refusal> {
    let count = format!("{n:04}");
    settle(flash, |flash| flash.overwrite(b"", LOG, COUNT_AT as u32, count.as_bytes()))
}

/// What a firmware does at its start, before it uses the log. False where somebody has to look.
fn start(flash: &mut Flash) -> bool {
    if !sound(flash) {
        println!("    a start changes nothing: the flash is damaged");
        return false;
    }
    let text = load(flash);
    if text.as_ref().is_ok_and(Vec::is_empty) {
        println!("    a start appends the header");
        return append(flash, HEADER).is_ok();
    }
    match text.ok().and_then(|text| whole(&text)) {
        Some(log) if log.counted < log.there => {
            println!("    a start counts {}", log.there);
            rewrite_header(flash, log.there).is_ok()
        }
        Some(log) if log.counted == log.there => {
            println!("    a start has nothing to do");
            true
        }
        _ => {
            println!("    a start changes nothing: there is no whole log");
            false
        }
    }
}

/// Power is lost here: what is found, and whether a start leaves a log whose header counts what is
/// there.
fn cut(flash: &Flash, right: usize) -> bool {
    show(flash);
    let mut copy = flash.image().to_vec();
    let mut later = Volume::new(&mut copy[..], &AREAS);
    let started = start(&mut later);
    let log = load(&later).ok().and_then(|text| whole(&text));
    started && log == Some(Log { counted: right, there: right })
}

fn enter(flash: &mut Flash, n: usize) -> Result<bool, Refusal> {
    done("append entry", append_entry(flash, n))?;
    let between = cut(flash, n);
    done("rewrite header", rewrite_header(flash, n))?;
    Ok(between && cut(flash, n))
}

fn run(flash: &mut Flash) -> Result<bool, Refusal> {
    done("format", flash.format())?;
    done("create log", flash.create(b"", LOG, Kind::File))?;
    let mut good = cut(flash, 0);
    done("append header", append(flash, HEADER))?;
    good &= cut(flash, 0) && enter(flash, 1)? && enter(flash, 2)?;
    let mut collections = 0;
    for n in 3..=ENTRIES {
        collections += append_entry(flash, n)? + rewrite_header(flash, n)?;
    }
    // a header that was rewritten keeps its room until a collection
    println!("up to entry {ENTRIES}, collections: {collections}");
    Ok(good && cut(flash, ENTRIES))
}

fn main() -> ExitCode {
    let mut image = [0; IMAGE];
    let good = run(&mut Volume::new(&mut image[..], &AREAS));
    let sum = image.iter().fold(0u32, |sum, &byte| sum.wrapping_mul(31).wrapping_add(byte.into()));
    println!("sum of the image: {sum:08x}");
    if good == Ok(true) {
        ExitCode::SUCCESS
    } else {
        ExitCode::FAILURE
    }
}
