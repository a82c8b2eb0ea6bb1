//! What is live in flash, as text: of a new volume, with some files, after one was deleted, and when
//! a byte is worn. Prints line for line as examples/show_tree.c does; status 1 at the first surprise.

use nffs::{Area, Kind, Refusal};
use std::io::{self, Write};
use std::process::ExitCode;

const AREAS: [Area; 2] = Area::row(4096);
const IMAGE: usize = 2 * 4096;

/// Says how a step ended, and passes it on.
fn done<T>(step: &str, answer: Result<T, Refusal>) -> Result<(), Refusal> {
    match &answer {
        Ok(_) => println!("{step}: done"),
        Err(refusal) => println!("{step}: refused with {refusal}"),
    }
    answer.map(|_| ())
}

fn append(flash: &mut [u8], path: &[u8], text: &[u8]) -> Result<(), Refusal> {
    done("append", nffs::append(flash, &AREAS, b"", path, text))
}

fn store(flash: &mut [u8], path: &[u8], text: &[u8]) -> Result<(), Refusal> {
    done("create", nffs::create(flash, &AREAS, b"", path, Kind::File))?;
    append(flash, path, text)
}

/// Prints the tree; true where it is the right one. Its length is asked for first. It is bytes, and
/// need not be UTF-8.
fn show(flash: &[u8], right: &str) -> Result<bool, Refusal> {
    let length = nffs::tree(flash, &AREAS, &mut [])?;
    println!("tree, {length} bytes:");
    let mut text = vec![0; length];
    nffs::tree(flash, &AREAS, &mut text)?;
    Ok(io::stdout().write_all(&text).is_ok() && text == right.as_bytes())
}

/// Where the next record goes: the file area is the second.
fn next_place(flash: &[u8]) -> Result<usize, Refusal> {
    Ok(IMAGE - nffs::area_report(flash, &AREAS, 1, 0)?.free as usize)
}

fn run(flash: &mut [u8]) -> Result<bool, Refusal> {
    done("format", nffs::format(flash, &AREAS))?;
    let mut good = show(flash, "/\n")?;
    done("create directory", nffs::create(flash, &AREAS, b"", b"/dose", Kind::Directory))?;
    store(flash, b"/dose/table", b"0 5 10 20 40")?;
    store(flash, b"/dose/old", b"0 4 9 18 36")?;
    store(flash, b"/log", b"pump started\n")?;
    let first_block_end = next_place(flash)?;
    append(flash, b"/log", b"pump stopped\n")?;
    good &= show(flash, "/\n dose\n  old 11\n  table 12\n log 26\n")?;
    done("unlink", nffs::unlink(flash, &AREAS, b"", b"/dose/old"))?;
    good &= show(flash, "/\n dose\n  table 12\n log 26\n")?;
    // without its first block the log is broken
    println!("a byte is worn");
    flash[first_block_end - 1] ^= 1;
    Ok(good & show(flash, "/\n dose\n  table 12\n log broken\n")?)
}

fn main() -> ExitCode {
    let mut flash = [0; IMAGE];
    let good = run(&mut flash);
    let sum = flash.iter().fold(0u32, |sum, &byte| sum.wrapping_mul(31).wrapping_add(byte.into()));
    println!("sum of the image: {sum:08x}");
    if good == Ok(true) {
        ExitCode::SUCCESS
    } else {
        ExitCode::FAILURE
    }
}
