//! Headers and records whose reserved byte is not 0: passed over, and hinted at.

use crate::check::page;
use crate::folder::{finish, Folder};
use crate::records::{block, header, image, inode, inode_with, NONE};
use std::process::Command;

const FILE: u32 = 0x1000_0000;
/// Where the root stands in `image`.
const ROOT: usize = 4096 + 24;
const ADVICE: &str = "\n  A hint is from the bytes alone, and no call confirms it. If this is";

/// An image with a third area, whose header has this reserved byte, that holds these records.
fn with_area(reserved: u8, records: &[Vec<u8>]) -> Vec<u8> {
    let mut area = [header(1, 4096), records.concat()].concat();
    area[22] = reserved;
    area.resize(4096, 0xff);
    [image(&[inode(FILE, 0, 0, b"dose"), block(0x8000_0000, FILE, b"dose")]), area].concat()
}

/// An image whose root has this reserved byte, and a right check; these records follow it.
fn with_root(reserved: u8, records: &[Vec<u8>]) -> Vec<u8> {
    let mut image = image(records);
    image[ROOT..ROOT + 20].copy_from_slice(&inode_with(reserved, 0, 0, NONE, b""));
    image
}

fn area_hint(what: &str, offset: usize, reserved: u8) -> String {
    format!(
        "int: {what} would begin at {offset} (length 4096), but the reserved byte of its header \
         (byte 22) is 0x{reserved:02x} and not 0: since version 0.4.0 it is passed over with all \
         its contents\n"
    )
}

fn record_hint(what: &str, offset: usize, reserved: u8) -> String {
    format!(
        "int: {what} would begin at {offset}, but its reserved byte (byte 16) is \
         0x{reserved:02x} and not 0: since version 0.4.0 it is not read, for this byte at least\n"
    )
}

/// What a command says, with a status.
fn said(folder: &Folder, words: &[&str], status: i32) -> String {
    let output = folder.run(words, b"data");
    let said = String::from_utf8(output.stderr).unwrap();
    assert_eq!(output.status.code(), Some(status), "{words:?}: {said}");
    said
}

/// Both fields of a page as JSON, taken out by another program.
fn fields(folder: &Folder, words: &[&str], status: i32) -> String {
    let page = page(folder, &[&["--json"], words].concat(), status);
    let script = "import json, sys\nv = json.load(sys.stdin)\n\
                  print([tuple(h.values()) for h in v['reserved_headers']], \
                  [tuple(r.values()) for r in v['reserved_records']])";
    let output = finish(Command::new("python3").args(["-c", script]), page.as_bytes());
    assert!(output.status.success(), "{page}{}", String::from_utf8_lossy(&output.stderr));
    String::from_utf8(output.stdout).unwrap().trim_end().into()
}

fn hints(text: &str) -> usize {
    text.matches("hint: ").count() + text.matches("Hint: ").count()
}

#[test]
fn every_command_that_reads_hints_at_an_area_that_is_passed_over() {
    let folder = Folder::new("reserved_area");
    folder.write("image", with_area(0x55, &[inode(FILE + 1, 0, 0, b"other")]));
    let hint = format!("nffs: h{}", area_hint("file area 1", 8192, 0x55).trim_end()) + ADVICE;
    for (words, status) in [
        (&["areas", "image"][..], 0),
        (&["report", "image"], 0),
        (&["lookup", "image", "/dose"], 0),
        (&["cat", "image", "/dose"], 0),
        (&["cat", "image", "/other"], 1),
        (&["export", "image", "out"], 0),
        (&["report", "image", "--areas", "4096x3"], 0),
        (&["report", "image", "--areas", "4096x2"], 0),
    ] {
        // it is no note, so it is told without notes too
        for quiet in [&[][..], &["-q"]] {
            let words = [words, quiet].concat();
            if words[0] == "export" {
                let _ = std::fs::remove_dir_all(folder.path("out"));
            }
            let said = said(&folder, &words, status);
            assert!(said.contains(&hint) && hints(&said) == 1, "{words:?}: {said}");
        }
    }
}

/// Each command that changes an image, on what `with_area` holds.
const CHANGES: [&[&str]; 9] = [
    &["put", "image", "/new"],
    &["put", "image", "/dose", "--replace", "--collect"],
    &["append", "image", "/dose"],
    &["write", "image", "/dose", "0"],
    &["import", "image", "folder"],
    &["mkdir", "image", "/new"],
    &["mv", "image", "/dose", "/new"],
    &["rm", "image", "/dose"],
    &["collect", "image"],
];

#[test]
fn nothing_is_changed_where_a_found_area_is_passed_over() {
    let folder = Folder::new("reserved_change");
    std::fs::create_dir(folder.path("folder")).unwrap();
    folder.write("folder/new", b"data");
    // the other file has the id that a new one would be given
    let bytes = with_area(0x55, &[inode(FILE + 1, 0, 0, b"other")]);
    let hint = format!("nffs: h{}", area_hint("file area 1", 8192, 0x55).trim_end()) + ADVICE;
    let end = "\nnffs: image was not changed: an area that may be a part of the volume is passed \
               over for its reserved byte (hint above). If it is none, name the areas with \
               --areas.\n";
    for words in CHANGES {
        folder.write("image", &bytes);
        for quiet in [&[][..], &["-q"]] {
            let said = folder.bad(&[words, quiet].concat(), b"data", 2);
            assert!(said.starts_with(&hint) && hints(&said) == 1, "{words:?}: {said}");
            assert!(said.ends_with(end), "{words:?}: {said}");
        }
        // who names the areas has decided; what lies in the other is left as it is
        for list in ["4096x2", "4096x3"] {
            folder.write("image", &bytes);
            let said = said(&folder, &[words, &["--areas", list]].concat(), 0);
            assert!(said.starts_with(&hint) && hints(&said) == 1, "{words:?}: {said}");
            assert!(!said.contains("was not changed"), "{words:?}: {said}");
            let after = folder.bytes("image");
            assert!(after[..8192] != bytes[..8192] && after[8192..] == bytes[8192..], "{words:?}");
        }
        // without the byte it is an area like others
        folder.write("image", with_area(0, &[inode(FILE + 1, 0, 0, b"other")]));
        folder.good(words, b"data");
    }
    // a format makes all anew
    folder.write("image", &bytes);
    folder.good(&["format", "image", "--force", "--areas", "4096x3"], b"");
    folder.good(&["put", "image", "/new"], b"data");
}

#[test]
fn nothing_is_changed_also_where_the_volume_does_not_mount() {
    let folder = Folder::new("reserved_change_none");
    for at in [0, 4096] {
        let mut bytes = image(&[]);
        bytes[at + 22] = 1;
        folder.write("image", &bytes);
        let said = folder.bad(&["put", "image", "/new"], b"data", 2);
        assert!(said.contains("\nnffs: image was not changed: "), "{said}");
        let said = folder.refused(&["put", "image", "/new", "--areas", "4096x2"], b"data");
        assert!(said.contains("refused with 3, ") && hints(&said) == 1, "{said}");
    }
    // a record that is not read is damage, which a call counts
    folder.write("image", with_area(0, &[inode_with(1, FILE + 1, 0, 0, b"other")]));
    folder.good(&["put", "image", "/new"], b"data");
}

#[test]
fn an_area_that_is_passed_over_is_none() {
    let folder = Folder::new("reserved_none");
    // inside of it none is looked for either: it may hold a file with a header in it
    let inside = [header(7, 128), vec![0xff; 104]].concat();
    folder.write("image", with_area(1, &[inode(FILE + 1, 0, 0, b"other"), inside]));
    assert_eq!(folder.text(&["areas", "image"]), "4096x2\n");
    let report = "mount 0\ninodes 2 live 2 stretches 0 skipped 0 first 0+0\n";
    assert_eq!(folder.text(&["report", "image"]), report);
    assert_eq!(folder.text(&["report", "image", "--areas", "4096x3"]), report);
    let expected = "\
image: 12288 bytes, mounts, and something is wrong
areas: 4096x2, found
      0+4096  scratch, count 0
   4096+4096  file area 0, count 0, clean
inodes: 2, of which 2 live, 0 deleted, 0 orphans
damage: 0 stretches, 0 bytes
  directory  /
          4  /dose
";
    let hint = format!("H{}", area_hint("file area 1", 8192, 1).trim_end()) + ADVICE;
    let found = page(&folder, &[], 3);
    assert!(found.starts_with(&(expected.to_string() + &hint)), "{found}");
    let listed = page(&folder, &["--areas", "4096x3"], 3);
    let row = "\n   8192+4096  no valid header of this length: passed over, with 1 record in it\n";
    assert!(listed.contains(row) && listed.contains("\nPassed over: 1 record lies "), "{listed}");
    assert!(listed.contains(&hint) && hints(&listed) == 1, "{listed}");
    let told = "[(8192, 4096, 'file', 1, 1)] []";
    assert_eq!(fields(&folder, &[], 3), told);
    assert_eq!(fields(&folder, &["--areas", "4096x3"], 3), told);
    // with a list that leaves it out, it is no area that is left out
    assert_eq!(hints(&page(&folder, &["--areas", "4096x2"], 3)), 1);
    assert!(!said(&folder, &["report", "image", "--areas", "4096x2"], 0).contains("warning"));
}

#[test]
fn a_volume_without_its_only_file_area_or_scratch() {
    let folder = Folder::new("reserved_scratch");
    for (what, at, id) in [("scratch", 0, 255), ("file area 0", 4096, 0)] {
        let mut bytes = image(&[]);
        bytes[at + 22] = 0xff;
        folder.write("image", &bytes);
        let hint = area_hint(what, at, 0xff);
        for words in [&["report", "image"][..], &["report", "image", "--areas", "4096x2"]] {
            let said = folder.refused(words, b"");
            assert!(said.starts_with(&("nffs: h".to_string() + &hint)), "{said}");
            assert!(said.contains("refused with 3, ") && hints(&said) == 1, "{said}");
        }
        let page = page(&folder, &[], 1);
        assert!(page.contains("does not mount: 3, ") && page.contains(&hint), "{page}");
        let kind = if id == 255 { "scratch" } else { "file" };
        assert_eq!(fields(&folder, &[], 1), format!("[({at}, 4096, '{kind}', {id}, 255)] []"));
    }
}

#[test]
fn a_volume_without_both() {
    let folder = Folder::new("reserved_both");
    let mut bytes = image(&[]);
    (bytes[22], bytes[4096 + 22]) = (1, 2);
    folder.write("image", &bytes);
    let both = format!(
        "nffs: h{}nffs: h{}",
        area_hint("scratch", 0, 1),
        area_hint("file area 0", 4096, 2).trim_end()
    );
    let said = folder.bad(&["report", "image"], b"", 2);
    assert!(said.starts_with(&(both.clone() + ADVICE)), "{said}");
    let none = "\nnffs: no valid area header is seen in image: it holds no volume, or the headers \
                are damaged (then name the areas with --areas) or are passed over for their \
                reserved byte (then see the hint), or the volume lies elsewhere in it (--at)\n";
    assert!(said.ends_with(none), "{said}");
    for words in [&["areas", "image"][..], &["put", "image", "/new"]] {
        let said = folder.bad(words, b"", 2);
        assert!(said.starts_with(&both) && said.ends_with(none), "{said}");
    }
    assert!(folder.refused(&["report", "image", "--areas", "4096x2"], b"").starts_with(&both));
    let page = page(&folder, &[], 1);
    let seen = "\nareas: no valid header is seen; headers are passed over for their reserved byte \
                (see the hint)\nHint: ";
    assert!(page.contains("does not mount: 1, ") && page.contains(seen), "{page}");
    assert_eq!(hints(&page), 2);
}

#[test]
fn a_root_that_is_not_read() {
    let folder = Folder::new("reserved_root");
    let other = inode_with(0x80, FILE, 0, 0, b"do\nse");
    let deletion = inode_with(3, FILE + 1, 1, NONE, b"");
    folder.write("image", with_root(2, &[other, inode(FILE + 1, 0, 0, b"old"), deletion]));
    let hints = [
        record_hint("a record of the root", ROOT, 2),
        record_hint("a record of inode 10000000, do\\nse,", ROOT + 20, 0x80),
        record_hint("a record that deletes inode 10000001", ROOT + 20 + 25 + 23, 3),
    ];
    for words in [&["report", "image"][..], &["cat", "image", "/dose"], &["put", "image", "/a"]] {
        let said = folder.refused(&[words, &["-q"]].concat(), b"");
        let all: String = hints.iter().map(|hint| format!("nffs: h{hint}")).collect();
        assert!(said.starts_with(&(all.trim_end().to_string() + ADVICE)), "{said}");
        assert!(said.contains("refused with 7, no record of the root\n"), "{said}");
    }
    let page_of = page(&folder, &[], 1);
    let all: String = hints.iter().map(|hint| format!("H{hint}")).collect();
    assert!(page_of.contains(&(all.trim_end().to_string() + ADVICE)), "{page_of}");
    let none = NONE;
    assert_eq!(
        fields(&folder, &[], 1),
        format!(
            "[] [({ROOT}, 0, {none}, '', '', 2), \
             ({}, 268435456, 0, 'do\\nse', '646f0a7365', 128), \
             ({}, 268435457, {none}, '', '', 3)]",
            ROOT + 20,
            ROOT + 68
        )
    );
}

#[test]
fn an_inode_that_is_not_read() {
    let folder = Folder::new("reserved_inode");
    let record = inode_with(1, FILE, 0, 0, b"dose");
    folder.write("image", image(&[record, inode(FILE + 1, 0, 0, b"other")]));
    let hint = record_hint("a record of inode 10000000, dose,", ROOT + 20, 1);
    let page_of = page(&folder, &[], 3);
    assert!(page_of.contains("\ndamage: 1 stretch, 24 bytes, first 4140+24\n"), "{page_of}");
    assert!(page_of.contains(&format!("\nH{}{ADVICE}", hint.trim_end())), "{page_of}");
    let told = format!("[] [({}, 268435456, 0, 'dose', '646f7365', 1)]", ROOT + 20);
    assert_eq!(fields(&folder, &[], 3), told);
    // the volume mounts, and a command does not look for records
    assert_eq!(hints(&said(&folder, &["cat", "image", "/dose"], 1)), 0);
    assert_eq!(hints(&said(&folder, &["cat", "image", "/other"], 0)), 0);

    // a header and a record
    let mut bytes = with_area(9, &[]);
    bytes[ROOT + 20..ROOT + 44].copy_from_slice(&inode_with(1, FILE, 0, 0, b"dose"));
    folder.write("image", &bytes);
    let page_of = page(&folder, &[], 3);
    let both = format!("\nH{}H{}", area_hint("file area 1", 8192, 9), hint.trim_end()) + ADVICE;
    assert!(page_of.contains(&both), "{page_of}");
}

#[test]
fn a_record_that_no_version_read() {
    let folder = Folder::new("reserved_other_rules");
    // for its id, its name, or the root's parent
    for (id, parent, name, what) in [
        (0x9000_0000, 0, "dose", "a record of inode 90000000, dose,"),
        (FILE, 0, "do/se", "a record of inode 10000000, do/se,"),
        (0, 5, "", "a record of the root"),
    ] {
        let hint = record_hint(what, ROOT + 20, 1);
        folder.write("image", image(&[inode_with(1, id, 0, parent, name.as_bytes())]));
        let page_of = page(&folder, &[], 3);
        assert!(page_of.contains(&format!("\nH{}{ADVICE}", hint.trim_end())), "{page_of}");
        // with a 0 there it is not read either, and that is no hint
        folder.write("image", image(&[inode(id, 0, parent, name.as_bytes())]));
        let page_of = page(&folder, &[], 3);
        assert!(page_of.contains("\ndamage: 1 stretch, ") && hints(&page_of) == 0, "{page_of}");
    }
}

/// No hint is given at an image whose check ends with this status.
fn no_hint(folder: &Folder, bytes: Vec<u8>, status: i32) {
    folder.write("image", bytes);
    let page = page(folder, &[], status);
    assert!(hints(&page) == 0, "{page}");
    assert_eq!(fields(folder, &[], status), "[] []");
    let refused = i32::from(status == 1);
    assert_eq!(hints(&said(folder, &["report", "image"], refused)), 0);
}

#[test]
fn no_hint_where_there_is_nothing() {
    let folder = Folder::new("reserved_not");
    let clean = |bytes: Vec<u8>, status: i32| no_hint(&folder, bytes, status);
    clean(image(&[]), 0);
    clean(with_area(0, &[inode(FILE + 1, 0, 0, b"other")]), 0);
    // records that were torn behind their magic, or whose reserved byte was damaged
    let mut torn = inode(FILE, 0, 0, b"dose");
    torn[9..].fill(0xff);
    clean(image(&[torn.clone(), vec![0; 300]]), 3);
    let mut damaged = inode(FILE, 0, 0, b"dose");
    damaged[16] ^= 1;
    clean(image(&[damaged]), 3);
    let mut rootless = image(&[vec![0; 300]]);
    rootless[ROOT + 16] = 0xff;
    clean(rootless, 1);
    // of another version, or longer than what follows
    for at in [20, 18] {
        let mut other = with_area(1, &[]);
        other[8192 + at] = 1;
        clean(other, 0);
    }
    // a record that ends behind its area
    let mut last = image(&[]);
    let end = last.len() - 20;
    last[end..].copy_from_slice(&inode_with(1, FILE, 0, 0, b"dose")[..20]);
    clean(last, 3);
    // scratch is not read
    let mut scratch = image(&[]);
    scratch[24..48].copy_from_slice(&inode_with(1, FILE, 0, 0, b"dose"));
    clean(scratch.clone(), 0);
    scratch[ROOT] = 0;
    clean(scratch, 1);
    // without a root, but in an area that a call finds clean: in the data of a block
    let mut held = image(&[]);
    let block = block(0x8000_0000, FILE, &inode_with(1, FILE, 0, 0, b"dose"));
    held[ROOT..ROOT + block.len()].copy_from_slice(&block);
    clean(held, 1);
}

#[test]
fn a_file_may_hold_anything() {
    let folder = Folder::formatted("reserved_file");
    let mut copy = with_area(1, &[]);
    copy[ROOT..ROOT + 20].copy_from_slice(&inode_with(1, 0, 0, NONE, b""));
    let parts = [&copy[8192..8192 + 24], &copy[ROOT..ROOT + 20]].concat();
    folder.good(&["put", "image", "/copy"], &parts);
    let page_of = page(&folder, &[], 0);
    assert_eq!(hints(&page_of), 0, "{page_of}");
    assert_eq!(fields(&folder, &[], 0), "[] []");
}

#[test]
fn many_are_counted() {
    let folder = Folder::new("reserved_many");
    let areas = |number: u8| -> Vec<u8> {
        let mut area = [header(1, 128), vec![0xff; 104]].concat();
        area[22] = 1;
        area.repeat(usize::from(number))
    };
    // the root is the last of the records, and is told first
    let mut records: Vec<_> = (0..17).map(|id| inode_with(1, FILE + id, 0, 0, b"a")).collect();
    records.push(inode_with(1, 0, 0, NONE, b""));
    let mut rootless = image(&records);
    rootless[ROOT] = 0;
    folder.write("image", [rootless, areas(20)].concat());
    let said = folder.refused(&["report", "image", "-q"], b"");
    let root = record_hint("a record of the root", ROOT + 20 + 17 * 21, 1);
    let first = said.lines().nth(17).unwrap_or_default();
    assert_eq!(format!("{first}\n"), format!("nffs: h{root}"), "{said}");
    assert!(said.contains("hint: 4 more such headers (`nffs check IMAGE --json` has all)\n"));
    let last = "hint: 2 more such records (`nffs check IMAGE --json` has all)";
    assert!(said.contains(&(last.to_string() + ADVICE)), "{said}");
    assert_eq!(hints(&said), 16 + 1 + 16 + 1);
    let told = fields(&folder, &[], 1);
    assert_eq!(told.matches('(').count(), 20 + 18, "{told}");

    folder.write("image", [image(&[]), areas(16)].concat());
    assert_eq!(hints(&folder.bad(&["areas", "image", "--areas", "0:0"], b"", 2)), 16);
}

#[test]
fn what_is_listed_is_looked_at_from_its_start() {
    let folder = Folder::new("reserved_listed");
    // the first reaches over the second, and only the second is listed
    let mut bytes = image(&[]);
    bytes[..24].copy_from_slice(&header(255, 8192));
    (bytes[22], bytes[4096 + 22]) = (1, 2);
    folder.write("image", &bytes);
    let said = folder.refused(&["report", "image", "--areas", "4096:4096"], b"");
    assert!(said.contains(&area_hint("file area 0", 4096, 2)[..40]) && hints(&said) == 2, "{said}");
    assert_eq!(hints(&folder.bad(&["report", "image"], b"", 2)), 1);
}

#[test]
fn an_old_header_hides_areas_that_can_be_named() {
    let folder = Folder::new("reserved_hides");
    let mut old = header(3, 12_288);
    old[22] = 1;
    folder.write("image", [old, vec![0xff; 4072], image(&[])].concat());
    assert_eq!(hints(&folder.bad(&["report", "image"], b"", 2)), 1);
    let named = ["--areas", "4096:4096,8192:4096"];
    folder.good(&[&["put", "image", "/dose"], &named[..]].concat(), b"20 mSv");
    assert_eq!(folder.text(&[&["cat", "image", "/dose"], &named[..]].concat()), "20 mSv");
    assert_eq!(hints(&said(&folder, &[&["report", "image"], &named[..]].concat(), 0)), 1);
}

#[test]
fn inside_a_listed_area_without_a_header_of_its_own() {
    let folder = Folder::new("reserved_inside");
    let mut bytes = with_area(1, &[]);
    bytes.copy_within(8192..8216, 8192 + 1000);
    // the length goes over the end from there
    bytes[8192 + 1000 + 16..][..4].copy_from_slice(&128_u32.to_le_bytes());
    let listed = ["report", "image", "--areas", "4096x3"];
    folder.write("image", &bytes);
    assert_eq!(hints(&said(&folder, &listed, 0)), 1);
    bytes[8192] = 0;
    folder.write("image", &bytes);
    let said = said(&folder, &listed, 0);
    assert!(said.contains("file area 1 would begin at 9192 (length 128)"), "{said}");
}
