//! `write`: bytes in the middle of a file.

use crate::folder::Folder;
use crate::moves::told;
use crate::records::{block, block_with, image, inode};

const FILE: u32 = 0x1000_0000;

/// A volume with a log, whose header is a block of its own.
fn with_log(name: &str) -> Folder {
    let folder = Folder::formatted(name);
    folder.good(&["put", "image", "/log"], b"entries 0000\n");
    folder.good(&["append", "image", "/log"], b"pump started\n");
    folder
}

/// How many records stand in the file areas.
fn records(folder: &Folder) -> u32 {
    let map = folder.text(&["map", "image", "-q"]);
    let files = map.lines().filter(|line| line.contains("   file "));
    files.map(|line| line.split_whitespace().nth(4).unwrap().parse::<u32>().unwrap()).sum()
}

/// Bytes that differ from those of another start nearly everywhere.
fn counting(length: usize, start: usize) -> Vec<u8> {
    (start..start + length).map(|i| (i * 7 + i / 256) as u8).collect()
}

#[test]
fn what_is_written_is_there_and_all_else_stays() {
    let folder = with_log("write");
    let id = folder.text(&["lookup", "image", "/log"]);
    let output = folder.run(&["write", "image", "/log", "8"], b"0001");
    let note = "nffs: areas 4096x2, found by their headers\n";
    assert_eq!((output.status.code(), &output.stdout[..]), (Some(0), &b""[..]));
    assert_eq!(String::from_utf8(output.stderr).unwrap(), note);
    assert_eq!(folder.text(&["cat", "image", "/log"]), "entries 0001\npump started\n");
    // from a file, and without a word; a number in hexadecimal
    folder.write("text", b"ENDED");
    let output = folder.run(&["write", "image", "/log", "0x14", "text", "-q"], b"other");
    assert!(output.status.success() && output.stdout.is_empty() && output.stderr.is_empty());
    assert_eq!(folder.text(&["cat", "image", "/log"]), "entries 0001\npump stENDED\n");
    folder.good(&["write", "image", "/log", "0", "-"], b"E");
    assert_eq!(folder.text(&["cat", "image", "/log"]), "Entries 0001\npump stENDED\n");
    assert_eq!(folder.text(&["lookup", "image", "/log"]), id);
    // root, name, two blocks, and three new versions
    assert_eq!(records(&folder), 7);
    folder.good(&["collect", "image"], b"");
    assert_eq!(records(&folder), 4);
    assert_eq!(folder.text(&["cat", "image", "/log"]), "Entries 0001\npump stENDED\n");
}

#[test]
fn no_bytes_change_nothing() {
    let folder = with_log("write_none");
    let before = folder.bytes("image");
    for offset in ["0", "8", "26"] {
        folder.good(&["write", "image", "/log", offset], b"");
        assert_eq!(folder.bytes("image"), before);
    }
    let said = folder.refused(&["write", "image", "/log", "27"], b"");
    assert!(said.contains("write image /log 27: refused with 14, "), "{said}");
}

#[test]
fn a_range_that_one_call_does_not_take() {
    let folder = Folder::new("write_long");
    let old = counting(20_000, 0);
    for (offset, length) in
        [(0, 8192), (0, 8193), (1, 8192), (3000, 16_000), (8191, 8194), (8192, 11_808), (0, 20_000)]
    {
        folder.good(&["format", "image", "--force", "--areas", "8192x8"], b"");
        folder.good(&["put", "image", "/curve"], &old);
        let (before, new) = (records(&folder), counting(length, 99_991));
        folder.good(&["write", "image", "/curve", &offset.to_string()], &new);
        let mut expected = old.clone();
        expected[offset..offset + length].copy_from_slice(&new);
        assert_eq!(folder.good(&["cat", "image", "/curve"], b""), expected, "{offset}+{length}");
        // blocks have 2,048 bytes: each that is touched is written once
        let touched = (offset + length).div_ceil(2048) - offset / 2048;
        assert_eq!(records(&folder) - before, touched as u32, "{offset}+{length}");
    }
}

#[test]
fn all_of_a_long_range_or_nothing() {
    let folder = Folder::new("write_all");
    // each file area holds three blocks of 2,048: the file has eight, and there is room for seven
    folder.good(&["format", "image", "--areas", "8192x6"], b"");
    let (old, new) = (counting(16_384, 0), counting(16_384, 99_991));
    folder.good(&["put", "image", "/curve"], &old);
    let words = ["write", "image", "/curve", "0", "-q"];
    let said = folder.refused(&words, &new);
    let first = "write image /curve 0: refused with 15, a record fits in no clean file area";
    let offered =
        "--collect collects until it fits; `nffs rm` gives a collection something to free.";
    assert_eq!(said, told(first, 15, offered));
    assert_eq!(folder.good(&["cat", "image", "/curve"], b""), old);
    // a range that is too long is told as such
    for (path, offset, number) in
        [("/curve", "1", 14), ("/curve", "4294967295", 14), ("/none", "0", 9), ("/", "0", 11)]
    {
        let said = folder.refused(&["write", "image", path, offset], &new);
        assert!(said.contains(&format!("{path} {offset}: refused with {number}, ")), "{said}");
    }

    // each call may collect what those before it have replaced
    let output = folder.run(&["write", "image", "/curve", "0", "--collect"], &new);
    let said = String::from_utf8(output.stderr).unwrap();
    assert!(output.status.success() && said.contains("\nnffs: done, after "), "{said}");
    assert_eq!(folder.good(&["cat", "image", "/curve"], b""), new);
}

#[test]
fn a_copy_of_each_block_needs_room() {
    let folder = Folder::formatted("write_room");
    folder.good(&["put", "image", "/dose"], &[1; 1900]);
    // one byte of it: the block is written anew, and there is room for one such
    folder.good(&["write", "image", "/dose", "0"], &[2]);
    let said = folder.refused(&["write", "image", "/dose", "1"], &[3]);
    assert!(said.contains("an overwrite needs it for a copy of each block"), "{said}");
    for value in 3..=6 {
        let output = folder.run(&["write", "image", "/dose", "0", "--collect"], &[value]);
        let said = String::from_utf8(output.stderr).unwrap();
        assert!(value > 3 || said.ends_with("\nnffs: done, after 1 collection\n"), "{said}");
        let dose = folder.good(&["cat", "image", "/dose"], b"");
        assert!(dose[0] == value && dose[1..] == [1; 1899]);
    }
    // what is live leaves too little
    folder.good(&["put", "image", "/more", "--collect"], &[7; 1000]);
    let said = folder.refused(&["write", "image", "/dose", "0", "--collect"], &[8]);
    let words = "write image /dose 0: refused with 15, a record fits in no clean file area, also \
                 after ";
    assert!(said.contains(words), "{said}");
}

#[test]
fn each_refusal_is_told_with_path_and_offset() {
    let folder = with_log("write_refused");
    folder.good(&["mkdir", "image", "/tables"], b"");
    let kind = "`nffs lookup IMAGE PATH` prints the kind.";
    let sizes = "`nffs check IMAGE` prints sizes; `nffs append` makes a file longer.";
    let past = "14, read begins after the end, or overwrite begins or ends after it";
    for (path, offset, words, number, offered) in [
        (
            "log",
            "0",
            "8, bad path or name, too much to append or overwrite, or creating or unlinking the \
             root, or renaming to it",
            8,
            "",
        ),
        (
            "/none",
            "0x10",
            "9, no such child, or a handle's id is not live",
            9,
            "`nffs check IMAGE` lists what is live.",
        ),
        ("/tables", "0", "11, a file where a directory is needed, or the reverse", 11, kind),
        ("/log/x", "0", "11, a file where a directory is needed, or the reverse", 11, kind),
        ("/log", "25", past, 14, sizes),
        ("/log", "26", past, 14, sizes),
        ("/log", "4294967295", past, 14, sizes),
    ] {
        let said = folder.refused(&["write", "image", path, offset, "-q"], b"ab");
        let first = format!("write image {path} {offset}: refused with {words}");
        assert_eq!(said, told(&first, number, offered));
    }
}

#[test]
fn broken_ambiguous_and_at_the_greatest_sequence() {
    let folder = Folder::new("write_made");
    let words = ["write", "image", "/a", "0", "-q"];
    folder.write("image", image(&[inode(FILE, 0, 0, b"a"), inode(FILE + 1, 0, 0, b"a")]));
    let first = "write image /a 0: refused with 10, two or more live children of that name";
    assert_eq!(folder.refused(&words, b"x"), told(first, 10, ""));
    // of two blocks each is the first
    let two = [block(0x8000_0000, FILE, b"one"), block(0x8000_0001, FILE, b"two")].concat();
    folder.write("image", image(&[inode(FILE, 0, 0, b"a"), two]));
    let first = "write image /a 0: refused with 13, the file is broken";
    let offered = "`nffs put IMAGE PATH FILE --replace` does both.";
    assert_eq!(folder.refused(&words, b"x"), told(first, 13, offered));
    let last = block_with(u32::MAX, 0x8000_0000, FILE, b"one");
    folder.write("image", image(&[inode(FILE, 0, 0, b"a"), last]));
    assert_eq!(folder.text(&["cat", "image", "/a"]), "one");
    let first = "write image /a 0: refused with 16, the sequence is at its greatest";
    assert_eq!(folder.refused(&words, b"x"), told(first, 16, ""));
    folder.good(&words, b"");
}

#[test]
fn words_that_make_no_write() {
    let folder = with_log("write_words");
    let no_offset = |word: &str| format!("write: '{word}' is no offset, a number from 0 to 42949");
    for (words, said) in [
        (&["write"][..], "write: no image".to_string()),
        (&["write", "image"], "write: no path".into()),
        (&["write", "image", "/log"], "write: no offset".into()),
        (&["write", "image", "/log", "0", "text", "more"], "write: too many words".into()),
        (&["write", "image", "/log", "0", "--replace"], "write takes no --replace".into()),
        (&["write", "image", "/log", "one"], no_offset("one")),
        (&["write", "image", "/log", ""], no_offset("")),
        (&["write", "image", "/log", "0x"], no_offset("0x")),
        (&["write", "image", "/log", "+1"], no_offset("+1")),
        (&["write", "image", "/log", "1.5"], no_offset("1.5")),
        (&["write", "image", "/log", "4294967296"], no_offset("4294967296")),
        (&["write", "image", "/log", "0x100000000"], no_offset("0x100000000")),
        (&["write", "image", "/log", "99999999999999999999"], no_offset("99999999999999999999")),
        (&["write", "image", "/log", "-1"], "no option -1".into()),
        (&["write", "image", "/log", "0", "missing"], "cannot read missing: ".into()),
        (&["write", "missing", "/log", "0"], "cannot read missing: ".into()),
    ] {
        let heard = folder.bad(words, b"x", 2);
        assert!(heard.contains(&said), "{words:?}: {heard}");
    }
    assert!(folder.text(&["help"]).contains("\n  write IMAGE PATH OFFSET "));
}

#[test]
fn in_a_longer_dump_and_with_listed_areas() {
    let folder = with_log("write_dump");
    let dump = [&[7; 1000][..], &folder.bytes("image"), &[9; 500]].concat();
    folder.write("dump", &dump);
    folder.good(&["write", "dump", "/log", "8", "--at=1000"], b"0001");
    let words = ["cat", "dump", "/log", "--at", "1000", "--areas", "4096x2"];
    assert_eq!(folder.text(&words), "entries 0001\npump started\n");
    let after = folder.bytes("dump");
    assert!(after[..1000] == dump[..1000] && after[1000 + 8192..] == dump[1000 + 8192..]);
    folder.good(&["write", "--areas", "4096x2", "--", "image", "/log", "8"], b"0001");
    assert_eq!(folder.bytes("image"), after[1000..1000 + 8192]);
}

#[test]
fn where_the_new_version_is_damaged_the_old_bytes_are_back() {
    let folder = with_log("write_damaged");
    folder.good(&["write", "image", "/log", "8"], b"0001");
    let mut bytes = folder.bytes("image");
    let place = bytes.windows(4).position(|w| w == b"0001").unwrap();
    bytes[place] ^= 1;
    folder.write("image", &bytes);
    assert_eq!(folder.text(&["cat", "image", "/log"]), "entries 0000\npump started\n");
    let page = String::from_utf8(folder.run(&["check", "image"], b"").stdout).unwrap();
    assert!(page.contains("\ndamage: 1 stretch, 37 bytes, first "), "{page}");
    assert!(page.contains("an older version may count,\n  with earlier bytes or"), "{page}");
    folder.good(&["write", "image", "/log", "8", "--collect"], b"0001");
    assert_eq!(folder.text(&["cat", "image", "/log"]), "entries 0001\npump started\n");
}
