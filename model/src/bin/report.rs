//! Document 01's program: "reads standard input, cut into areas of 4,096", 2 to
//! 16 of them (document 02, T-06), "no rest; else `mount 1`". "The program's
//! second line ends in ` first O+L`" (T-08).

#![forbid(unsafe_code)]

use std::io::{self, Read, Write};

use nffs_model::Report;

const AREA: usize = 4096;

fn main() -> io::Result<()> {
    let mut image = Vec::new();
    io::stdin().lock().read_to_end(&mut image)?;
    io::stdout().lock().write_all(answer(&image).as_bytes())
}

fn answer(image: &[u8]) -> String {
    let Some(areas) = areas(image) else { return "mount 1\n".to_string() };
    let report = nffs_model::report(image, &areas);
    if report.number != 0 {
        return format!("mount {}\n", report.number);
    }
    let Report { inodes, live, stretches, skipped, first_offset, first_length, .. } = report;
    format!(
        "mount 0\ninodes {inodes} live {live} stretches {stretches} skipped {skipped} \
         first {first_offset}+{first_length}\n"
    )
}

fn areas(image: &[u8]) -> Option<Vec<u32>> {
    let count = image.len() / AREA;
    if !image.len().is_multiple_of(AREA) || !(2..=nffs_model::mount::DESCRIPTORS).contains(&count) {
        return None;
    }
    Some((0..count).flat_map(|i| [(i * AREA) as u32, AREA as u32]).collect())
}
