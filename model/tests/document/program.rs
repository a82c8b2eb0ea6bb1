//! "A program reads standard input, cut into areas of 4,096".

use std::io::Write;
use std::process::{Command, Stdio};

use nffs_model::forge::with_reserved;

use crate::calls;
use crate::common::*;

fn program(input: &[u8]) -> String {
    let mut child = Command::new(env!("CARGO_BIN_EXE_report"))
        .stdin(Stdio::piped())
        .stdout(Stdio::piped())
        .spawn()
        .expect("the program starts");
    child.stdin.take().expect("a pipe").write_all(input).expect("it reads all");
    let output = child.wait_with_output().expect("it ends");
    assert!(output.status.success());
    String::from_utf8(output.stdout).expect("text")
}

/// What is printed where a mount answers 0: the second line "ends in ` first O+L`"
/// (document 02, T-08).
fn counted(second: &str, first: &str) -> String {
    format!("mount 0\n{second} first {first}\n")
}

fn formatted(count: usize) -> Vec<u8> {
    let mut image = vec![0; 4096 * count];
    let areas: Vec<u32> = (0..count as u32).flat_map(|i| [4096 * i, 4096]).collect();
    assert_eq!(calls::format(&mut image, &areas), 0);
    image
}

#[test]
fn a_freshly_formatted_pair() {
    let text = "mount 0\ninodes 1 live 1 stretches 0 skipped 0 first 0+0\n";
    assert_eq!(program(&formatted(2)), text);
}

/// "the program's 2 to 8 areas" are 2 to 16 (document 02, T-06): each number of
/// areas, and each with a rest.
#[test]
fn two_to_sixteen_areas() {
    for count in 1..=17 {
        let mut image = formatted(count.clamp(2, 16));
        image.resize(4096 * count, 0xff);
        let good = (2..=16).contains(&count);
        let clean = counted("inodes 1 live 1 stretches 0 skipped 0", "0+0");
        let text = if good { &clean } else { "mount 1\n" };
        assert_eq!(program(&image), text, "{count} areas");
        for rest in [1, 24, 128, 4095] {
            image.resize(4096 * count + rest, 0xff);
            assert_eq!(program(&image), "mount 1\n", "{count} areas and {rest} bytes");
        }
    }
}

/// 256 files and their blocks over sixteen areas, and one id too many.
#[test]
fn full_tables_in_sixteen_areas() {
    let mut flash = nffs_model::forge::Flash::of(&[4096; 16]);
    flash.root(1);
    inodes_up_to(&mut flash, 1, 256);
    blocks_up_to(&mut flash, A, 0, 1024);
    let text = counted("inodes 256 live 256 stretches 0 skipped 0", "0+0");
    assert_eq!(program(&flash.image), text);
    let mut over = flash.clone();
    inodes_up_to(&mut over, 256, 257);
    assert_eq!(program(&over.image), "mount 5\n");
    blocks_up_to(&mut flash, A, 1024, 1025);
    assert_eq!(program(&flash.image), "mount 5\n");
}

/// The bench area behind a scratch area: the flips at 70 and at 103.
#[test]
fn the_bench_area_and_its_damage() {
    let image = bench().image;
    assert_eq!(program(&image), counted("inodes 2 live 2 stretches 0 skipped 0", "0+0"));
    for (byte, skipped, text) in [(70, 34, "4161+34"), (103, 29, "4195+29")] {
        let mut flipped = image.clone();
        flipped[4096 + byte] ^= 1;
        let second = format!("inodes 2 live 2 stretches 1 skipped {skipped}");
        assert_eq!(program(&flipped), counted(&second, text));
    }
}

/// Two stretches in the second area and one in the last; the bench area first, in
/// decimal without more digits than needed.
#[test]
fn the_first_of_several() {
    let mut flash = nffs_model::forge::Flash::of(&[4096; 16]);
    flash.root(1);
    flash.put(15, b"torn");
    let second = |stretches: u32, skipped: u32| {
        format!("inodes 1 live 1 stretches {stretches} skipped {skipped}")
    };
    assert_eq!(program(&flash.image), counted(&second(1, 4), "61464+4"));
    flash.put(1, b"t");
    assert_eq!(program(&flash.image), counted(&second(2, 5), "4140+1"));
    let whole = bench().image;
    let mut image = [&whole[4096..], &whole[..4096]].concat();
    image[70] ^= 0x80;
    let second = "inodes 2 live 2 stretches 1 skipped 34";
    assert_eq!(program(&image), counted(second, "65+34"));
}

/// A reserved byte that isn't 0 (document 02, T-14): in either header, in the root
/// record, in the record of "a".
#[test]
fn reserved_bytes() {
    for area in [0, 1] {
        let mut flash = bench();
        flash.image[4096 * area + 22] = 1;
        assert_eq!(program(&flash.image), "mount 3\n");
    }
    let damaged = counted("inodes 1 live 1 stretches 1 skipped 21", "4140+21");
    for (at, text) in [(24, "mount 7\n"), (44, &damaged)] {
        let mut image = bench().image;
        let length = 20 + usize::from(image[4096 + at + 17]);
        let record = &mut image[4096 + at..][..length];
        record.copy_from_slice(&with_reserved(record, 0x80));
        assert_eq!(program(&image), text);
    }
}

#[test]
fn refused_input() {
    assert_eq!(program(b""), "mount 1\n");
    assert_eq!(program(&[0xff; 4096]), "mount 1\n");
    assert_eq!(program(&formatted(2)[..8191]), "mount 1\n");
    assert_eq!(program(&[0xff; 65_537]), "mount 1\n");
    assert_eq!(program(&[0xff; 69_632]), "mount 1\n");
    for count in [2, 8, 9, 16] {
        assert_eq!(program(&vec![0xff; 4096 * count]), "mount 3\n");
    }
    let mut image = formatted(2);
    image[4096 + 30] ^= 1;
    assert_eq!(program(&image), "mount 7\n");
}
