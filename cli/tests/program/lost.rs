//! Areas whose header is damaged: not found, or passed over, and told.

use crate::check::{page, python};
use crate::folder::Folder;
use crate::records::{block, header, image, image_of, inode, NONE};

const FILE: u32 = 0x1000_0000;
const OLDER: &str =
    "and what is live without it may be an older version, and what was deleted may be back\n";
const ADVICE: &str = "  A hint is from the bytes alone, and no call confirms it. If this is";
const KEPT: &str =
    "\nnffs: image was not changed: what may be a part of the volume is in no area that \
                    was found (hint above). If it is none, name the areas with --areas.\n";
const NONE_WRONG: &str = "nothing is wrong";

/// Last year's dose fills the first file area; what deletes it, and this year's, is in the second.
fn this_year(folder: &Folder) -> Vec<u8> {
    folder.good(&["format", "image", "--areas", "4096x4"], b"");
    folder.good(&["put", "image", "/dose"], b"last year");
    folder.good(&["put", "image", "/curve"], &[0; 2000]);
    folder.good(&["put", "image", "/other"], &[0; 1886]);
    folder.good(&["put", "image", "/dose", "--replace"], b"this year");
    assert_eq!(folder.text(&["cat", "image", "/dose"]), "this year");
    page(folder, &[], 0);
    folder.bytes("image")
}

fn said(folder: &Folder, words: &[&str], status: i32) -> String {
    let output = folder.run(words, b"data");
    let said = String::from_utf8(output.stderr).unwrap();
    assert_eq!(output.status.code(), Some(status), "{words:?}: {said}");
    said
}

fn hints(text: &str) -> usize {
    text.matches("hint: ").count() + text.matches("Hint: ").count()
}

fn gap_hint(records: &str, length: usize, offset: usize) -> String {
    format!(
        "int: {records} in the {length} bytes from {offset} on, in no area that was found: if an \
         area lies there whose header is damaged, it is missing, {OLDER}{ADVICE}"
    )
}

#[test]
fn every_bit_of_a_header_that_brings_last_year_back_is_told() {
    let folder = Folder::new("lost_bits");
    let bytes = this_year(&folder);
    let mut back = 0;
    for bit in 0..24 * 8 {
        let mut worn = bytes.clone();
        worn[8192 + bit / 8] ^= 1 << (bit % 8);
        folder.write("image", &worn);
        for words in [&[][..], &["--areas", "4096x4"]] {
            let output = folder.run(&[&["cat", "image", "/dose"], words].concat(), b"");
            let is_back = output.stdout != b"this year";
            back += usize::from(is_back);
            let said = String::from_utf8(output.stderr).unwrap();
            let told = ["hint: ", "warning: ", "refused with "];
            assert!(!is_back || told.iter().any(|word| said.contains(word)), "{bit}: {said}");
            let page = folder.run(&[&["check", "image"], words].concat(), b"");
            let text = String::from_utf8(page.stdout).unwrap();
            assert_eq!(text.contains(NONE_WRONG), page.status.success(), "{bit}: {text}");
            assert!(!(is_back && page.status.success()), "{bit} {words:?}: {text}");
        }
    }
    // magics, length, version and reserved byte, and the bit by which two areas have one id; found
    // or listed
    assert_eq!(back, 2 * (22 * 8 + 1));
}

#[test]
fn records_in_no_area_that_was_found() {
    let folder = Folder::new("lost_gap");
    let mut bytes = this_year(&folder);
    bytes[8192] ^= 1;
    folder.write("image", &bytes);
    let hint = gap_hint("4 records stand", 4096, 8192);
    for words in [
        &["areas", "image"][..],
        &["report", "image"],
        &["lookup", "image", "/dose"],
        &["cat", "image", "/dose"],
        &["export", "image", "out"],
        &["map", "image"],
        &["map", "image", "--stretches"],
    ] {
        let said = said(&folder, &[words, &["-q"]].concat(), 0);
        assert!(said.starts_with(&format!("nffs: h{hint}")) && hints(&said) == 1, "{said}");
    }
    let text = page(&folder, &[], 3);
    assert!(text.contains(&format!("\nH{hint}")) && !text.contains(NONE_WRONG), "{text}");
    let map = folder.text(&["map", "image"]);
    let line = "\n 8192+4096   not in list    -      -        4 ";
    assert!(map.contains(line), "{map}");
    let gaps = "v['gaps'], v['headers_inside']";
    let told = "[{'offset': 8192, 'length': 4096, 'records': 4}] []";
    assert_eq!(python(&page(&folder, &["--json"], 3), gaps), told);
    assert_eq!(python(&folder.text(&["map", "image", "--json"]), gaps), told);
}

#[test]
fn nothing_is_changed_where_records_are_in_no_area_that_was_found() {
    let folder = Folder::new("lost_change");
    let mut bytes = this_year(&folder);
    bytes[8192] ^= 1;
    std::fs::create_dir(folder.path("folder")).unwrap();
    folder.write("folder/new", b"data");
    for words in [
        &["put", "image", "/new"][..],
        &["append", "image", "/dose"],
        &["write", "image", "/dose", "0"],
        &["import", "image", "folder"],
        &["mkdir", "image", "/new"],
        &["mv", "image", "/dose", "/new"],
        &["rm", "image", "/dose"],
        &["collect", "image"],
    ] {
        folder.write("image", &bytes);
        let said = folder.bad(words, b"data", 2);
        assert!(hints(&said) == 1 && said.ends_with(KEPT), "{words:?}: {said}");
        // who names the areas has decided
        for list in ["4096x4", "0:4096,4096:4096,12288:4096"] {
            folder.write("image", &bytes);
            folder.good(&[words, &["--areas", list]].concat(), b"data");
            assert_eq!(folder.bytes("image")[8192..12_288], bytes[8192..12_288], "{words:?}");
        }
    }
}

#[test]
fn an_area_of_the_list_that_is_passed_over() {
    let folder = Folder::new("lost_listed");
    let mut bytes = this_year(&folder);
    bytes[8192] ^= 1;
    folder.write("image", &bytes);
    let listed = ["--areas", "4096x4"];
    let warning =
        "nffs: warning: the area at 8192 (length 4096) has no valid header and is passed \
                   over, with 4 records in it: what is live";
    for words in [&["report", "image"][..], &["areas", "image"], &["map", "image"]] {
        let said = said(&folder, &[words, &listed].concat(), 0);
        assert!(said.starts_with(warning) && said.lines().count() == 1, "{said}");
    }
    let text = page(&folder, &listed, 3);
    let row = "\n   8192+4096  no valid header of this length: passed over, with 4 records in it\n";
    assert!(text.contains(row) && text.contains("\nPassed over: 4 records lie where"), "{text}");
    assert!(!text.contains(NONE_WRONG) && hints(&text) == 0, "{text}");
    let row = "[v['areas'][2][k] for k in ('kind', 'records', 'blank')]";
    let json = page(&folder, &["--json", listed[0], listed[1]], 3);
    assert_eq!(python(&json, row), "['none', 4, False]");

    // with other bytes alone, and blank
    bytes[8192..12_288].fill(0);
    folder.write("image", &bytes);
    let text = page(&folder, &listed, 3);
    assert!(text.contains("\nPassed over: 0 records lie where"), "{text}");
    assert_eq!(said(&folder, &["report", "image", listed[0], listed[1]], 0), "");
    bytes[8192..12_288].fill(0xff);
    folder.write("image", &bytes);
    let text = page(&folder, &listed, 0);
    assert!(text.contains("\n   8192+4096  blank: passed over\n"), "{text}");
}

#[test]
fn an_area_that_reaches_over_the_next() {
    let folder = Folder::new("lost_inside");
    let bytes = this_year(&folder);
    // scratch as long as that: the next header begins in its last byte, farther in it, or lies in it
    // with its whole area
    for (length, inside) in [(4097, 1), (4352, 1), (6144, 1), (12_288, 2)] {
        let mut worn = bytes[..12_288].to_vec();
        worn[16..20].copy_from_slice(&u32::to_le_bytes(length));
        // a root for what is left, so that it mounts
        let root = [header(7, 4096), inode(0, 0, NONE, b"")].concat();
        worn.extend(&root);
        worn.resize(16_384, 0xff);
        folder.write("image", &worn);
        let hint = format!(
            "Hint: a valid header at 4096 (length 4096) lies inside the area at 0 (length {length}), \
             and in none of its records: if the length of that area is damaged, an area is missing, \
             {OLDER}"
        );
        let text = page(&folder, &[], 3);
        assert!(text.contains(&hint) && !text.contains(NONE_WRONG), "{text}");
        let told = "len(v['headers_inside']), v['headers_inside'][0]['of']['length']";
        let json = page(&folder, &["--json"], 3);
        assert_eq!(python(&json, told), format!("{inside} {length}"));
        assert!(folder.bad(&["mkdir", "image", "/new"], b"", 2).ends_with(KEPT));
        let listed = said(&folder, &["report", "image", "--areas", "4096x4"], 1);
        assert!(listed.contains("warning: an area header at 0 "), "{listed}");
    }
}

#[test]
fn no_hint_where_nothing_is_missing() {
    let folder = Folder::new("lost_not");
    let clean = |bytes: Vec<u8>, status: i32| {
        folder.write("image", bytes);
        let text = page(&folder, &[], status);
        assert_eq!(hints(&text), 0, "{text}");
        assert_eq!(hints(&said(&folder, &["report", "image"], 0)), 0);
        let json = page(&folder, &["--json"], status);
        assert_eq!(python(&json, "v['gaps'], v['headers_inside']"), "[] []");
    };
    let root = inode(0, 0, NONE, b"");
    // other data around and between the areas, and what begins like a record
    let text: Vec<u8> = (0..3000).map(|i| (i % 251) as u8).collect();
    let volume = image(&[]);
    clean([&text, &volume[..4096], &text, &volume[4096..], &text, &root[..19]].concat(), 0);
    // too short to be an area
    clean([&volume[..], &[0xff; 24], &root, &[0xff; 83]].concat(), 0);
    // a file that holds a header, or a whole area
    let held = [header(9, 128), root.clone(), vec![0xff; 84]].concat();
    clean(image(&[inode(FILE, 0, 0, b"a"), block(0x8000_0000, FILE, &held)]), 0);
    // one with 20 bytes more is told
    folder.write("image", [&volume[..], &[0xff; 24], &root, &[0xff; 84]].concat());
    let text = page(&folder, &[], 3);
    assert!(text.contains(&gap_hint("1 record stands", 128, 8192)), "{text}");
    // and one without any area
    let mut lost = image_of(4096, &[]);
    (lost[0], lost[4096]) = (0, 0);
    folder.write("image", lost);
    let text = page(&folder, &[], 1);
    assert!(text.contains(&gap_hint("1 record stands", 8192, 0)), "{text}");
    assert_eq!(hints(&folder.bad(&["report", "image"], b"", 2)), 1);
}
