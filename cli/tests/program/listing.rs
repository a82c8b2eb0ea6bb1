//! What is live, line by line: `tree`.

use crate::folder::{Folder, PROGRAM};
use crate::records::{block, image, image_of, inode, NONE};
use std::process::Command;

const FILE: u32 = 0x1000_0000;

/// What `tree` prints of an image that holds these records.
fn tree_of(folder: &Folder, records: &[Vec<u8>]) -> Vec<u8> {
    folder.write("image", image_of(8192, records));
    folder.good(&["tree", "image"], b"")
}

/// The same as lines.
fn lines_of(folder: &Folder, records: &[Vec<u8>]) -> Vec<String> {
    String::from_utf8(tree_of(folder, records)).unwrap().lines().map(str::to_string).collect()
}

#[test]
fn the_areas_of_document_01() {
    let folder = Folder::formatted("listing_01");
    assert_eq!(folder.text(&["tree", "image"]), "/\n");
    folder.good(&["put", "image", "/a"], &[0x41; 10]);
    folder.good(&["append", "image", "/a"], &[0x41; 5]);
    assert_eq!(folder.text(&["tree", "image"]), "/\n a 15\n");
    let mut bytes = folder.bytes("image");
    bytes[4096 + 70] ^= 1;
    folder.write("image", &bytes);
    assert_eq!(folder.text(&["tree", "image"]), "/\n a broken\n");
}

#[test]
fn each_directory_before_what_lies_in_it_in_order_of_names() {
    let folder = Folder::formatted("listing_order");
    for path in ["/tables", "/tables/old", "/z"] {
        folder.good(&["mkdir", "image", path], b"");
    }
    for path in ["/tables/old/dose", "/tables/dose", "/log", "/lo", "/Log"] {
        folder.good(&["put", "image", path], path.as_bytes());
    }
    let tree = "/\n Log 4\n lo 3\n log 4\n tables\n  dose 12\n  old\n   dose 16\n z\n";
    assert_eq!(folder.text(&["tree", "image"]), tree);
}

#[test]
fn a_volume_that_does_not_mount_is_refused_and_nothing_printed() {
    let folder = Folder::new("listing_refused");
    folder.write("image", &image(&[])[4096..]);
    let output = folder.run(&["tree", "image", "-q"], b"");
    assert_eq!((output.status.code(), &output.stdout[..]), (Some(1), &b""[..]));
    let said = String::from_utf8(output.stderr).unwrap();
    assert!(said.starts_with("nffs: tree image: refused with 3, no file area"), "{said}");
}

#[test]
fn two_of_one_name_are_both_there_and_what_is_not_live_is_not() {
    let folder = Folder::new("listing_twice");
    let records = [
        inode(2, 0, 0, b"twice"),
        inode(FILE + 1, 0, 2, b"in the second"),
        inode(1, 0, 0, b"twice"),
        inode(FILE, 0, 1, b"in the first"),
        // a deleted one, an orphan, a former name
        inode(3, 1, NONE, b""),
        inode(FILE + 2, 0, 3, b"deleted"),
        inode(FILE + 3, 0, 99, b"orphan"),
        inode(FILE + 4, 0, 0, b"before"),
        inode(FILE + 4, 1, 0, b"now"),
        // of one name and two kinds
        inode(FILE + 5, 0, 0, b"other"),
        inode(4, 0, 0, b"other"),
        block(0x8000_0000, FILE + 5, b"dose"),
    ];
    let lines =
        "/\n now 0\n other\n other 4\n twice\n  in the first 0\n twice\n  in the second 0\n";
    assert_eq!(String::from_utf8(tree_of(&folder, &records)).unwrap(), lines);
}

#[test]
fn names_are_bytes_and_on_a_terminal_text() {
    let folder = Folder::new("listing_names");
    let records = [
        inode(1, 0, 0, b"line\nbreak"),
        inode(FILE, 0, 1, b"\x1b[2J"),
        inode(FILE + 1, 0, 1, b"\xff\\"),
        inode(FILE + 2, 0, 0, "größe \"x\"".as_bytes()),
    ];
    let lines = "/\n größe \"x\" 0\n line/break\n  \x1b[2J 0\n  \\xff\\\\ 0\n";
    let bytes = [&lines.as_bytes()[..lines.find("\\xff").unwrap()], b"\xff\\ 0\n"];
    assert_eq!(tree_of(&folder, &records), bytes.concat());
    let command = format!("exec {PROGRAM} tree -q image");
    let mut script = Command::new("script");
    script.env("SHELL", "/bin/bash").args(["-qec", &command, "/dev/null"]);
    let output = script.current_dir(&folder.0).output().unwrap();
    let shown = String::from_utf8(output.stdout).unwrap();
    let expected = lines.replace('\x1b', "\\u{1b}").replace('\n', "\r\n");
    assert_eq!((output.status.code(), shown), (Some(0), expected));
}

#[test]
fn a_file_and_a_directory_with_the_same_line() {
    let folder = Folder::new("listing_same_line");
    let records = [
        inode(1, 0, 0, b"a 4"),
        inode(2, 0, 1, b"a 4"),
        inode(FILE, 0, 0, b"a"),
        block(0x8000_0000, FILE, b"dose"),
        inode(FILE + 1, 0, 0, b"a 3"),
        inode(3, 0, 0, b"a broken"),
        inode(FILE + 2, 0, 3, b"a"),
    ];
    let lines = ["/", " a 4", " a 3 0", " a 4", "  a 4", " a broken", "  a 0"];
    assert_eq!(lines_of(&folder, &records), lines);
}

#[test]
fn a_name_that_begins_with_a_space_looks_deeper() {
    let folder = Folder::new("listing_spaces");
    // the last line of the first is in the root, that of the second in the directory " a"
    let both = [inode(1, 0, 0, b" a"), inode(2, 0, 0, b"x"), inode(3, 0, 2, b"y")];
    let (in_root, below) = (inode(4, 0, 0, b" b"), inode(4, 0, 1, b"b"));
    let trees = [in_root, below].map(|last| tree_of(&folder, &[&both[..], &[last]].concat()));
    assert_eq!(trees[0], trees[1]);
    assert_eq!(trees[0], b"/\n  a\n  b\n x\n  y\n");
}

/// Directories from the root on, one in the other, each called `d`.
fn nested(levels: u32) -> Vec<Vec<u8>> {
    (0..levels).map(|k| inode(k + 1, 0, k, b"d")).collect()
}

#[test]
fn what_lies_deeper_than_64_levels() {
    let folder = Folder::new("listing_deep");
    let line = |depth: usize, words: &str| " ".repeat(depth) + words;
    let lines = lines_of(&folder, &nested(64));
    assert_eq!((lines.len(), &lines[64]), (65, &line(64, "d")));

    let lines = lines_of(&folder, &nested(67));
    assert_eq!((lines.len(), &lines[64], &lines[65]), (66, &line(64, "d"), &line(65, "deeper")));

    // as many lines as directories; a name is not taken for the line
    let mut records = nested(63);
    records.extend([inode(64, 0, 63, b"deeper"), inode(65, 0, 63, b"e"), inode(66, 0, 63, b"f")]);
    records.extend([inode(67, 0, 64, b"x"), inode(68, 0, 66, b"y"), inode(69, 0, 66, b"z")]);
    let deep = [(64, "deeper"), (65, "deeper"), (64, "e"), (64, "f"), (65, "deeper")];
    assert_eq!(lines_of(&folder, &records)[64..], deep.map(|(depth, words)| line(depth, words)));
}

#[test]
fn the_longest_text() {
    let folder = Folder::new("listing_longest");
    // 256 inodes, all that can be at the greatest depth and with names of 255 bytes, 14 in an area
    let mut image = image_of(4096, &nested(63));
    let names = (0..).map(|k: u32| inode(FILE + k, 0, 63, format!("{k:x<255}").as_bytes()));
    let mut names = names.take(256 - 64);
    for id in 1..15 {
        let mut area = crate::records::header(id, 4096);
        names.by_ref().take(14).for_each(|name| area.extend(name));
        area.resize(4096, 0xff);
        image.extend(area);
    }
    assert!(names.next().is_none());
    folder.write("image", image);
    let tree = folder.good(&["tree", "image"], b"");
    let front: usize = (0..64).map(|depth| depth + "d\n".len()).sum();
    assert_eq!(tree.len(), front + 192 * (64 + 255 + " 0\n".len()));
    assert_eq!(tree.iter().filter(|b| **b == b'\n').count(), 256);
}
