//! How long the proved check takes beside ordinary ones in Rust, in one run: the figures of docs/FIGURES.md. `check-times` builds what it links.

use std::hint::black_box;
use std::slice::from_raw_parts;
use std::time::Instant;

#[path = "../crc16_alone.rs"]
mod crc16_alone;

use crc16_alone::{call, crc16_check, Check};

#[cfg(before)]
#[link(name = "crc16_before", kind = "static")]
extern "C" {
    fn crc16_before(front: *const u8, front_length: usize, body: *const u8, body_length: usize) -> u16;
}

const POLYNOMIAL: u16 = 0x1021;

/// The register after one bit.
const fn bit(r: u16) -> u16 {
    if r & 0x8000 == 0 {
        r << 1
    } else {
        r << 1 ^ POLYNOMIAL
    }
}

/// Table 0: the register after each byte, from 0; each next one: after a zero byte more.
const TABLES: [[u16; 256]; 4] = {
    let mut tables = [[0; 256]; 4];
    let mut i = 0;
    while i < 4 * 256 {
        let mut r = if i < 256 { (i as u16) << 8 } else { tables[i / 256 - 1][i % 256] };
        let mut k = 0;
        while k < 8 {
            r = bit(r);
            k += 1;
        }
        tables[i / 256][i % 256] = r;
        i += 1;
    }
    tables
};

// each a static of its own, so that the small checks do not lie among tables of others
static AFTER_0: [u16; 256] = TABLES[0];
static AFTER_1: [u16; 256] = TABLES[1];
static AFTER_2: [u16; 256] = TABLES[2];
static AFTER_3: [u16; 256] = TABLES[3];

fn by_table(r: u16, bytes: &[u8]) -> u16 {
    bytes.iter().fold(r, |r, byte| r << 8 ^ AFTER_0[usize::from(r >> 8 ^ u16::from(*byte))])
}

fn by_two(r: u16, bytes: &[u8]) -> u16 {
    let steps = bytes.chunks_exact(2);
    let rest = steps.remainder();
    let r = steps.fold(r, |r, s| {
        let [high, low] = r.to_be_bytes();
        AFTER_1[usize::from(high ^ s[0])] ^ AFTER_0[usize::from(low ^ s[1])]
    });
    by_table(r, rest)
}

fn by_four(r: u16, bytes: &[u8]) -> u16 {
    let steps = bytes.chunks_exact(4);
    let rest = steps.remainder();
    let r = steps.fold(r, |r, s| {
        let [high, low] = r.to_be_bytes();
        let first = AFTER_3[usize::from(high ^ s[0])] ^ AFTER_2[usize::from(low ^ s[1])];
        first ^ AFTER_1[usize::from(s[2])] ^ AFTER_0[usize::from(s[3])]
    });
    by_table(r, rest)
}

/// Without a table, as the proved check takes what its turns of four bytes leave: two zero bytes behind `x`, divided by the polynomial, and what is left.
fn remainder(x: u16) -> u16 {
    let sum = x ^ x >> 8;
    let quotient = sum ^ sum >> 4 ^ x >> 11;
    quotient ^ quotient << 5 ^ quotient << 12
}

fn by_shifts(r: u16, bytes: &[u8]) -> u16 {
    let steps = bytes.chunks_exact(2);
    let rest = steps.remainder();
    let r = steps.fold(r, |r, s| remainder(r ^ u16::from_be_bytes([s[0], s[1]])));
    rest.iter().fold(r, |r, byte| r << 8 ^ remainder(r >> 8 ^ u16::from(*byte)))
}

/// As one would write it. rustc (1.95, with LLVM 22) sees that the loop is a CRC and puts a table in its place.
fn by_loop(r: u16, bytes: &[u8]) -> u16 {
    bytes.iter().fold(r, |r, byte| (0..8).fold(r ^ u16::from(*byte) << 8, |r, _| bit(r)))
}

/// Without the loop there is nothing to see: eight steps a byte, as the proved check took them before T-02.
fn by_bits(r: u16, bytes: &[u8]) -> u16 {
    bytes.iter().fold(r, |r, byte| bit(bit(bit(bit(bit(bit(bit(bit(r ^ u16::from(*byte) << 8)))))))))
}

/// A check of the same form as the archive's, so that all are called alike: over the front, and from there over the body.
macro_rules! checks {
    ($($name:ident $over:ident),*) => {
        $(
            #[inline(never)]
            unsafe extern "C" fn $name(front: *const u8, front_length: usize, body: *const u8, body_length: usize) -> u16 {
                // SAFETY: `call` gives pointers and lengths of slices.
                let (front, body) = unsafe { (from_raw_parts(front, front_length), from_raw_parts(body, body_length)) };
                $over($over(0, front), body)
            }
        )*
    };
}

checks!(table by_table, two by_two, four by_four, shifts by_shifts, recognised by_loop, bits by_bits);

/// Where all are divided by the time of this one.
const ORDINARY: &str = "Rust, table, a byte a step";

fn checks() -> Vec<(&'static str, Check)> {
    vec![
        ("proved", crc16_check as Check),
        #[cfg(before)]
        ("proved, before", crc16_before),
        (ORDINARY, table),
        ("Rust, two tables, two bytes a step", two),
        ("Rust, four tables, four bytes a step", four),
        ("Rust, shifts, two bytes a step", shifts),
        ("Rust, a loop over bits, a table by rustc", recognised),
        ("Rust, bit by bit", bits),
    ]
}

/// Bytes in front of the check field and in the body. 18 in front: an inode's record with a name of 2 bytes; else a block's, of which the longest
/// that there is has 2,070 covered bytes. The proved check uses its tables for each four bytes of a part, so for every front here.
const PARTS: [(usize, usize); 7] = [(18, 2), (22, 22), (22, 24), (22, 40), (22, 106), (22, 1002), (22, 2050)];
const ROUNDS: usize = 400;
/// So many bytes are checked between two looks at the clock.
const BYTES: usize = 40_000;

/// The shortest time of each check in nanoseconds a call. They take turns, so that what else the machine does meets all of them.
fn shortest(checks: &[(&str, Check)], front: &[u8], body: &[u8]) -> Vec<f64> {
    let calls = BYTES / (front.len() + body.len());
    let mut least = vec![f64::INFINITY; checks.len()];
    for _ in 0..ROUNDS {
        for (least, (_, check)) in least.iter_mut().zip(checks) {
            let check = black_box(*check);
            let begin = Instant::now();
            for _ in 0..calls {
                black_box(call(check, black_box(front), black_box(body)));
            }
            *least = least.min(begin.elapsed().as_secs_f64() * 1e9 / calls as f64);
        }
    }
    least
}

fn main() {
    let checks = checks();
    // a record as it lies in an image: the check field of two bytes between the parts
    let image: Vec<_> = (0..4096_u32).map(|k| (k.wrapping_mul(0x9e37_79b9) >> 24) as u8).collect();
    let times = PARTS.map(|(front, body)| {
        let (front, body) = (&image[..front], &image[front + 2..][..body]);
        for (name, check) in &checks {
            assert_eq!(call(*check, front, body), call(table, front, body), "{name}");
        }
        shortest(&checks, front, body)
    });
    let ordinary = checks.iter().position(|(name, _)| *name == ORDINARY).expect("is there");
    let columns = PARTS.map(|(front, body)| format!("{front} + {body}"));
    println!("| Nanoseconds, and divided by the ordinary table's | {} |", columns.join(" | "));
    println!("|{}", "---|".repeat(1 + PARTS.len()));
    for (k, (name, _)) in checks.iter().enumerate() {
        let cells = times.each_ref().map(|times| format!("{:.1} ({:.2})", times[k], times[k] / times[ordinary]));
        println!("| {name} | {} |", cells.join(" | "));
    }
}
