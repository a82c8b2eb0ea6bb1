//! Document 01's program, with the areas of T-06 and the first damage of T-08, run on images on its standard input and compared with what the
//! documents say it prints.

use std::fs::File;
use std::io::Write;
use std::os::fd::OwnedFd;
use std::os::unix::net::UnixStream;
use std::process::{Command, Stdio};

use nffs_model::forge::{with_reserved, Flash};

const DIRECTORY: u32 = 1;
const FILE: u32 = 0x1000_0000;
const BLOCK: u32 = 0x8000_0000;
const NONE: u32 = 0xffff_ffff;

fn command() -> Command {
    Command::new(std::env::var("NFFS_PROGRAM").expect("NFFS_PROGRAM: the program's path"))
}

/// What the program prints for an input.
fn program(input: &[u8]) -> String {
    let mut child = command().stdin(Stdio::piped()).stdout(Stdio::piped()).spawn().expect("the program");
    child.stdin.take().expect("standard input").write_all(input).expect("the program reads to the end of its input");
    let output = child.wait_with_output().expect("the program ends");
    assert!(output.status.success());
    String::from_utf8(output.stdout).expect("text")
}

fn refused(number: u32) -> String {
    format!("mount {number}\n")
}

/// Of a volume without damage.
fn clean(inodes: u32, live: u32) -> String {
    format!("mount 0\ninodes {inodes} live {live} stretches 0 skipped 0 first 0+0\n")
}

/// With the offset in the image and the length of the first damage (T-08).
fn damaged(inodes: u32, live: u32, (stretches, skipped): (u32, u32), (offset, length): (u32, u32)) -> String {
    format!("mount 0\ninodes {inodes} live {live} stretches {stretches} skipped {skipped} first {offset}+{length}\n")
}

/// `count` areas of 4,096: the first is scratch, the others file areas 0, 1, ..; nothing in them.
fn volume(count: usize) -> Flash {
    let mut flash = Flash::of(&vec![4096; count]);
    flash.head(0, 0, 0, 255);
    for area in 1..count {
        flash.head(area, 0, 0, area as u8 - 1);
    }
    flash
}

/// The area of document 01's bench, behind a scratch area: the root, the file "a", its block of 10 and its block of 5.
fn bench() -> Flash {
    let mut flash = volume(2);
    assert!(flash.root(1));
    assert!(flash.inode(1, FILE, 0, 0, b"a"));
    assert!(flash.block(1, BLOCK, 0, FILE, NONE, &[0x41; 10]));
    assert!(flash.block(1, BLOCK + 1, 0, FILE, BLOCK, &[0x41; 5]));
    flash
}

#[test]
fn a_freshly_formatted_pair() {
    let mut image = vec![0; 8192];
    assert_eq!(nffs_compare::format(&mut image, &[0, 4096, 4096, 4096]), 0);
    assert_eq!(program(&image), "mount 0\ninodes 1 live 1 stretches 0 skipped 0 first 0+0\n");
}

#[test]
fn the_bench_area_and_its_flips() {
    let flash = bench();
    assert_eq!(program(&flash.image), clean(2, 2));
    for (byte, at, bytes) in [(70, 65, 34), (103, 99, 29)] {
        let mut image = flash.image.clone();
        image[4096 + byte] ^= 1;
        assert_eq!(program(&image), damaged(2, 2, (1, bytes), (4096 + at, bytes)));
        // the two areas the other way round
        image.rotate_left(4096);
        assert_eq!(program(&image), damaged(2, 2, (1, bytes), (at, bytes)));
    }
}

/// The first of several stretches in the first of several areas, in decimal; what is in scratch and in an area that is passed over is not told.
#[test]
fn the_first_damage() {
    let mut flash = volume(16);
    assert!(flash.root(2) && flash.put(0, b"scratch"));
    flash.head(1, 0, 7, 0);
    assert!(flash.put(1, b"passed over"));
    assert_eq!(program(&flash.image), clean(1, 1));
    let mut last = flash.clone();
    last.image[65_535] = 0;
    assert_eq!(program(&last.image), damaged(1, 1, (1, 4072), (61_464, 4072)));
    assert!(flash.put(15, b"\xff\xfftorn\xff"));
    assert_eq!(program(&flash.image), damaged(1, 1, (1, 6), (61_464, 6)));
    assert!(flash.put(9, &[0; 500]) && flash.inode(9, FILE, 0, 0, b"a") && flash.put(9, &[0; 600]));
    assert_eq!(program(&flash.image), damaged(2, 2, (3, 1106), (36_888, 500)));
    assert!(flash.put(2, b"\0"));
    assert_eq!(program(&flash.image), damaged(2, 2, (4, 1107), (8236, 1)));
    flash.image[8192 + 24] ^= 1;
    assert_eq!(program(&flash.image), refused(7));
}

/// A reserved byte that is not 0 (T-14), checks right: in a header the area is passed over, and what lay in it is no damage; in a record it is damage.
#[test]
fn reserved_bytes() {
    for reserved in [1, 0x80, 0xff] {
        for area in [0, 1] {
            let mut flash = bench();
            flash.image[4096 * area + 22] = reserved;
            assert_eq!(program(&flash.image), refused(3));
        }
        let mut flash = volume(3);
        assert!(flash.root(1) && flash.inode(2, FILE, 0, 0, b"a") && flash.put(2, b"torn"));
        assert_eq!(program(&flash.image), damaged(2, 2, (1, 4), (8192 + 45, 4)));
        flash.head(2, 0, reserved, 1);
        assert_eq!(program(&flash.image), clean(1, 1));
        for (at, expected) in [(24, refused(7)), (44, damaged(1, 1, (1, 21), (4096 + 44, 21)))] {
            let mut image = bench().image;
            let record = 4096 + at..4096 + at + 20 + usize::from(image[4096 + at + 17]);
            let altered = with_reserved(&image[record.clone()], reserved);
            image[record].copy_from_slice(&altered);
            assert_eq!(program(&image), expected);
        }
    }
}

#[test]
fn input_that_is_not_two_to_sixteen_whole_areas() {
    let flash = volume(17);
    for length in [0, 1, 4095, 4096, 4097, 8191, 8193, 32767, 32769, 65535, 65537, 65536 + 4096] {
        assert_eq!(program(&flash.image[..length]), refused(1), "{length} bytes");
    }
    for length in [1 << 20, (1 << 20) + 1] {
        assert_eq!(program(&vec![0xff; length]), refused(1), "{length} bytes");
    }
}

/// The root in the last area is found; one area, and one more than sixteen, are refused.
#[test]
fn one_to_seventeen_areas() {
    for count in [1, 2, 8, 9, 16, 17] {
        let mut flash = volume(count);
        assert!(flash.root(count - 1));
        let expected = if (2..=16).contains(&count) { clean(1, 1) } else { refused(1) };
        assert_eq!(program(&flash.image), expected, "{count} areas");
    }
}

#[test]
fn shared_ids_come_before_missing_scratch() {
    let mut flash = volume(3);
    flash.head(2, 0, 0, 0);
    assert!(flash.root(1));
    assert_eq!(program(&flash.image), refused(2));
    flash.head(0, 0, 0, 9);
    assert_eq!(program(&flash.image), refused(2));
}

#[test]
fn wrong_areas() {
    let mut none = volume(2);
    none.head(0, 0, 0, 7);
    assert_eq!(program(&none.image), refused(3));
    let mut two = volume(3);
    two.head(2, 0, 0, 255);
    assert_eq!(program(&two.image), refused(3));
    assert_eq!(program(&[0xff; 8192]), refused(3));
}

/// One inode id more than the table has places, and a clash of versions before it: 5 comes before 6.
#[test]
fn too_many_ids_come_before_a_clash() {
    let mut flash = volume(3);
    assert!(flash.root(1));
    for i in 0..255 {
        assert!(flash.inode(1 + i as usize / 128, DIRECTORY + i, 0, 0, b"d"));
    }
    assert_eq!(program(&flash.image), clean(256, 256));
    assert!(flash.inode(1, DIRECTORY, 0, 0, b"other"));
    assert_eq!(program(&flash.image), refused(6));
    assert!(flash.inode(2, DIRECTORY + 255, 0, 0, b"d"));
    assert_eq!(program(&flash.image), refused(5));
}

#[test]
fn too_many_blocks() {
    let mut flash = volume(16);
    assert!(flash.root(1));
    for i in 0..1024 {
        assert!(flash.block(1 + i as usize / 70, BLOCK + i, 0, FILE, NONE, b"x"));
    }
    assert_eq!(program(&flash.image), clean(1, 1));
    assert!(flash.block(15, BLOCK + 1024, 0, FILE, NONE, b"x"));
    assert_eq!(program(&flash.image), refused(5));
}

/// Versions 5, 7 and 5 of one id: the two of sequence 5 differ, though neither counts. Without a root 6 still comes before 7.
#[test]
fn a_clash_among_versions_that_do_not_count() {
    let mut flash = volume(2);
    assert!(flash.inode(1, FILE, 5, 0, b"a"));
    assert!(flash.inode(1, FILE, 7, 0, b"b"));
    assert!(flash.inode(1, FILE, 5, 0, b"c"));
    assert_eq!(program(&flash.image), refused(6));
}

#[test]
fn no_root() {
    let mut flash = volume(2);
    assert!(flash.inode(1, FILE, 0, 0, b"a"));
    assert_eq!(program(&flash.image), refused(7));
    assert_eq!(program(&volume(2).image), refused(7));
}

/// Scratch is never read: a root there does not count.
#[test]
fn a_root_in_scratch() {
    let mut flash = volume(2);
    assert!(flash.root(0));
    assert_eq!(program(&flash.image), refused(7));
}

/// Dead, orphaned and looping inodes are counted, and are not live.
#[test]
fn fates() {
    let mut flash = volume(2);
    assert!(flash.root(1));
    assert!(flash.inode(1, DIRECTORY, 0, 0, b"d"));
    assert!(flash.inode(1, FILE, 0, DIRECTORY, b"below a deleted directory"));
    assert!(flash.delete(1, DIRECTORY, 1));
    assert!(flash.inode(1, 2, 0, 3, b"loop"));
    assert!(flash.inode(1, 3, 0, 2, b"loop"));
    assert!(flash.inode(1, 4, 0, 4, b"its own parent"));
    assert!(flash.inode(1, FILE + 1, 0, 99, b"no such parent"));
    assert_eq!(program(&flash.image), clean(7, 1));
}

/// The greatest sequence counts, not the last record.
#[test]
fn an_older_version_read_last() {
    let mut flash = volume(2);
    assert!(flash.root(1));
    assert!(flash.delete(1, FILE, 2));
    assert!(flash.inode(1, FILE, 1, 0, b"last year's dose table"));
    assert_eq!(program(&flash.image), clean(2, 1));
}

/// A read that fails is not the end of the input: whole areas may have come before it, and nothing is reported of them.
#[test]
fn input_that_cannot_be_read() {
    let mut image = vec![0; 8192];
    assert_eq!(nffs_compare::format(&mut image, &[0, 4096, 4096, 4096]), 0);
    let fails = |input: Stdio| {
        let output = command().stdin(input).output().expect("the program ends");
        assert_eq!(String::from_utf8_lossy(&output.stdout), "");
        assert_eq!(String::from_utf8_lossy(&output.stderr), "standard input could not be read\n");
    };
    fails(Stdio::from(File::open(".").expect("a folder, which no read takes")));
    for length in [0, 4096, 8192] {
        let (mut writer, reader) = UnixStream::pair().expect("a pair of sockets");
        reader.set_nonblocking(true).expect("a reader that does not wait: its read fails where nothing has come yet");
        writer.write_all(&image[..length]).expect("room for the image");
        fails(Stdio::from(OwnedFd::from(reader)));
    }
}

/// The command that README names, on the image that lies beside the program.
#[test]
fn the_command_of_the_readme() {
    let output = Command::new("../../report").arg("../../crates/program_report/stdin").output().expect("the command");
    assert!(output.status.success());
    assert_eq!(String::from_utf8(output.stdout).expect("text"), clean(1, 1));
    for image in ["no-such-image", "."] {
        let output = Command::new("../../report").arg(image).output().expect("the command");
        assert_eq!(output.status.code(), Some(2), "{image}");
        assert!(output.stdout.is_empty(), "{image}");
    }
}
