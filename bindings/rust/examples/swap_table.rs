//! A table in flash is swapped for a new one: that is written beside it, the old one is unlinked,
//! and the new one takes its name. Power may be lost after each call: printed is what a reader finds
//! then, and what a start does about it, on a copy, line for line as examples/swap_table.c does;
//! status 1 at the first surprise.

use nffs::{Area, AreaKind, Kind, Refusal, Volume};
use std::process::ExitCode;

const AREAS: [Area; 2] = Area::row(4096);
const IMAGE: usize = 2 * 4096;

// One base serves both names.
const HOME: &[u8] = b"/dose";
const TABLE: &[u8] = b"table";
const FRESH: &[u8] = b"table.new";
// A table begins with its number, which goes up with each update, and ends with a dot: one without a
// dot is a part.
const OLD: &[u8] = b"1: 0 5 10 20 40.";
const NEW: &[u8] = b"2: 0 4 9 18 36.";
const HALF: usize = 8;
const ROOM: usize = 64;

type Flash<'a> = Volume<'static, &'a mut [u8]>;

/// Says how a step ended, and passes it on.
fn done<T>(step: &str, answer: Result<T, Refusal>) -> Result<(), Refusal> {
    match &answer {
        Ok(_) => println!("{step}: done"),
        Err(refusal) => println!("{step}: refused with {refusal}"),
    }
    answer.map(|_| ())
}

/// The text under a name. One that fills the buffer may go on behind it.
fn load(flash: &Flash, name: &[u8]) -> Result<Vec<u8>, Refusal> {
    let mut file = flash.open(HOME, name)?;
    let mut text = vec![0; ROOM];
    let given = flash.read(&mut file, &mut text)?;
    text.truncate(given.bytes);
    Ok(text)
}

fn show(flash: &Flash, name: &[u8]) {
    let said = match load(flash, name) {
        Ok(table) => format!("\"{}\"", table.escape_ascii()),
        Err(refusal) => format!("refused with {}", refusal.number()),
    };
    println!("    {}: {said}", name.escape_ascii());
}

fn too_long(text: &[u8]) -> bool {
    text.len() == ROOM
}

/// The number of a table that is whole: digits, ": ", and a dot at the end. 0 of any other.
fn whole(text: &[u8]) -> u32 {
    let digits = text.iter().take_while(|b| b.is_ascii_digit()).count();
    let (number, rest) = text.split_at(digits);
    if digits > 9 || too_long(text) || !rest.starts_with(b": ") || !rest.ends_with(b".") {
        return 0;
    }
    number.iter().fold(0, |number, digit| 10 * number + u32::from(digit - b'0'))
}

/// Whether it is a part of a table: neither whole nor too long.
fn part(text: &[u8]) -> bool {
    !too_long(text) && whole(text) == 0
}

/// Whether no damage is counted and no area passed over. What comes back stale is not seen.
fn sound(flash: &Flash) -> bool {
    let passed_over = |index| match flash.area_report(index, 0) {
        Ok(area) => area.kind == AreaKind::PassedOver,
        Err(_) => true,
    };
    let clean = flash.report().is_ok_and(|report| report.stretches == 0);
    clean && !(0..AREAS.len() as u32).any(passed_over)
}

/// Whether the unlink and the rename will both have room: one clean file area holds both records, or
/// two hold the longer one each, since the shorter may go into either. If not it collects, as often
/// as there are areas.
fn room(flash: &mut Flash) -> bool {
    let (deletion, renamed) = (20, 20 + TABLE.len() as u32);
    let records = |flash: &Flash, index| match flash.area_report(index, 0) {
        Ok(area) if area.kind != AreaKind::File || area.stretches > 0 => 0,
        Ok(area) if area.free >= deletion + renamed => 2,
        Ok(area) if area.free >= renamed => 1,
        _ => 0,
    };
    let fit = |flash: &Flash| {
        (0..AREAS.len() as u32).map(|index| records(flash, index)).sum::<u32>() >= 2
    };
    for _ in AREAS {
        if fit(flash) || flash.collect().is_err() {
            break;
        }
    }
    fit(flash)
}

/// Makes a call. Where there is no room it collects and calls again, as often as there are areas.
fn settle(
    flash: &mut Flash,
    call: impl Fn(&mut Flash) -> Result<(), Refusal>,
) -> Result<(), Refusal> {
    let mut answer = call(flash);
    for _ in AREAS {
        if answer != Err(Refusal::NO_ROOM) || flash.collect().is_err() {
            break;
        }
        answer = call(flash);
    }
    answer
}

fn create_fresh(flash: &mut Flash) -> Result<(), Refusal> {
    flash.create(HOME, FRESH, Kind::File).map(|_| ())
}

fn unlink_table(flash: &mut Flash) -> Result<(), Refusal> {
    flash.unlink(HOME, TABLE)
}

fn unlink_fresh(flash: &mut Flash) -> Result<(), Refusal> {
    flash.unlink(HOME, FRESH)
}

fn rename_fresh(flash: &mut Flash) -> Result<(), Refusal> {
    flash.rename(HOME, FRESH, TABLE)
}

/// What a start sees that does not know what to do.
fn told(read: &Result<Vec<u8>, Refusal>) -> String {
    match read {
        Err(refusal) => format!("refused with {}", refusal.number()),
        Ok(text) if too_long(text) => "too long for this program".into(),
        Ok(text) if part(text) => "a part".into(),
        Ok(text) => format!("whole, number {}", whole(text)),
    }
}

/// What a firmware does at its start, before it uses the table. False where somebody has to look.
fn start(flash: &mut Flash) -> bool {
    if !sound(flash) {
        println!("    a start changes nothing: the flash is damaged");
        return false;
    }
    let (read, fresh_read) = (load(flash, TABLE), load(flash, FRESH));
    let number = |read: &Result<Vec<u8>, Refusal>| read.as_deref().map_or(0, whole);
    let (table, fresh) = (number(&read), number(&fresh_read));
    if table > 0 && fresh_read == Err(Refusal::NOT_FOUND) {
        println!("    a start has nothing to do");
        true
    } else if table > 0 && fresh > table {
        if !room(flash) {
            println!("    a start unlinks nothing: there is no room for the rename");
            return false;
        }
        println!("    a start unlinks table and renames table.new: that is whole and newer");
        settle(flash, unlink_table).and_then(|()| settle(flash, rename_fresh)).is_ok()
    } else if table > 0 && fresh_read.as_deref().is_ok_and(part) {
        println!("    a start unlinks table.new: that is a part");
        settle(flash, unlink_fresh).is_ok()
    } else if read == Err(Refusal::NOT_FOUND) && fresh > 0 {
        println!("    a start renames table.new: that is whole");
        settle(flash, rename_fresh).is_ok()
    } else {
        let (table, fresh) = (told(&read), told(&fresh_read));
        println!("    a start changes nothing: table is {table}, table.new is {fresh}");
        false
    }
}

/// Power is lost here: what is found, and whether a start leaves the one table that is right; none:
/// it changes nothing.
fn cut(flash: &Flash, right: Option<&[u8]>) -> bool {
    show(flash, TABLE);
    show(flash, FRESH);
    let mut copy = flash.image().to_vec();
    let mut later = Volume::new(&mut copy[..], &AREAS);
    let started = start(&mut later);
    let Some(right) = right else { return !started && later.image() == flash.image() };
    let table = load(&later, TABLE).unwrap_or_default();
    println!("    then table: \"{}\"", table.escape_ascii());
    started && table == right && load(&later, FRESH) == Err(Refusal::NOT_FOUND)
}

/// An update, call by call, to a table from an old one; none: the first table, for which there is
/// nothing to unlink. False at the first surprise.
fn update(flash: &mut Flash, text: &[u8], old: Option<&[u8]>) -> Result<bool, Refusal> {
    if !sound(flash) {
        println!("an update changes nothing: the flash is damaged");
        return Ok(false);
    }
    let (begin, end) = text.split_at(HALF);
    done("create table.new", settle(flash, create_fresh))?;
    let mut good = cut(flash, old);
    done("append to table.new", settle(flash, |flash| flash.append(HOME, FRESH, begin)))?;
    good &= cut(flash, old);
    done("append to table.new", settle(flash, |flash| flash.append(HOME, FRESH, end)))?;
    good &= cut(flash, Some(text));
    if old.is_some() {
        if !room(flash) {
            println!("an update unlinks nothing: there is no room for the rename");
            return Ok(false);
        }
        done("unlink table", settle(flash, unlink_table))?;
        good &= cut(flash, Some(text));
    }
    done("rename table.new to table", settle(flash, rename_fresh))?;
    Ok(good && cut(flash, Some(text)))
}

fn run(flash: &mut Flash) -> Result<bool, Refusal> {
    done("format", flash.format())?;
    done("create directory", flash.create(b"", HOME, Kind::Directory))?;
    Ok(update(flash, OLD, None)? && update(flash, NEW, Some(OLD))?)
}

fn main() -> ExitCode {
    let mut image = [0; IMAGE];
    let good = run(&mut Volume::new(&mut image[..], &AREAS));
    let sum = image.iter().fold(0u32, |sum, &byte| sum.wrapping_mul(31).wrapping_add(byte.into()));
    println!("sum of the image: {sum:08x}");
    if good == Ok(true) {
        ExitCode::SUCCESS
    } else {
        ExitCode::FAILURE
    }
}
