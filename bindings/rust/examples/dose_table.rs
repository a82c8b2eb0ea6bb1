//! A dose table kept in flash: formatted, stored, updated, collected and read back. Prints what
//! happens, line for line as examples/dose_table.c does; status 1 at the first surprise.

use nffs::{Area, Kind, Refusal};
use std::process::ExitCode;

const ROWS: u32 = 12;
const TABLE: &[u8] = b"/dose/table";
const AREAS: [Area; 2] = Area::row(4096);

/// Rows of energy and dose, low byte first, so that the bytes in flash do not depend on the
/// machine that wrote them.
fn table(revision: u32) -> Vec<u8> {
    (0..ROWS)
        .flat_map(|row| [50 + 10 * row, 1000 * revision + 7 * row * row])
        .flat_map(u32::to_le_bytes)
        .collect()
}

/// Says how a step ended, and passes it on.
fn done<T>(step: &str, answer: Result<T, Refusal>) -> Result<T, Refusal> {
    match &answer {
        Ok(_) => println!("{step}: done"),
        Err(refusal) => println!("{step}: refused with {refusal}"),
    }
    answer
}

fn store(flash: &mut [u8], table: &[u8]) -> Result<(), Refusal> {
    done("create", nffs::create(flash, &AREAS, b"", TABLE, Kind::File))?;
    done("append", nffs::append(flash, &AREAS, b"", TABLE, table))
}

/// Reads the table in portions, to show that the handle moves.
fn load(flash: &[u8]) -> Result<Vec<u8>, Refusal> {
    let mut file = done("open", nffs::open(flash, &AREAS, b"", TABLE))?;
    let mut table = Vec::new();
    let mut portion = [0; 40];
    loop {
        let given = nffs::read(flash, &AREAS, &mut file, &mut portion)?;
        if given.bytes == 0 {
            return Ok(table);
        }
        table.extend_from_slice(&portion[..given.bytes]);
    }
}

fn show(flash: &[u8]) -> Result<(), Refusal> {
    let r = nffs::report(flash, &AREAS)?;
    println!(
        "report: inodes {} live {} stretches {} skipped {} first {}+{}",
        r.inodes, r.live, r.stretches, r.skipped, r.first_offset, r.first_length
    );
    Ok(())
}

/// True where the table is read back as it was stored.
fn reads_as(flash: &[u8], stored: &[u8]) -> Result<bool, Refusal> {
    let read = load(flash)?;
    if read != stored {
        println!("read: other bytes than were stored");
        return Ok(false);
    }
    println!("read: {} bytes, as stored", read.len());
    Ok(true)
}

fn run(flash: &mut [u8]) -> Result<bool, Refusal> {
    let (first, second) = (table(1), table(2));
    done("format", nffs::format(flash, &AREAS))?;
    done("create directory", nffs::create(flash, &AREAS, b"", b"/dose", Kind::Directory))?;
    store(flash, &first)?;
    let stored = reads_as(flash, &first)?;

    // the update: the old table goes, and the new one takes its name
    done("unlink", nffs::unlink(flash, &AREAS, b"", TABLE))?;
    store(flash, &second)?;
    show(flash)?;

    // the first collection drops the old table's block, the second its inode, which the block
    // still named
    for _ in 0..2 {
        done("collect", nffs::collect(flash, &AREAS))?;
        show(flash)?;
    }
    Ok(stored && reads_as(flash, &second)?)
}

fn main() -> ExitCode {
    let mut flash = [0; 2 * 4096];
    let good = run(&mut flash);
    let sum = flash.iter().fold(0u32, |sum, &byte| sum.wrapping_mul(31).wrapping_add(byte.into()));
    println!("sum of the image: {sum:08x}");
    if good == Ok(true) {
        ExitCode::SUCCESS
    } else {
        ExitCode::FAILURE
    }
}
