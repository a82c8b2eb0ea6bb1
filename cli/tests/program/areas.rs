//! Areas: found, listed, and in a longer file.

use crate::folder::Folder;
use crate::records;
use std::fs;

const WARNING: &str = "warning: an area header at ";

#[test]
fn areas_are_found_and_said() {
    let folder = Folder::new("found");
    for list in ["4096x4", "4096x16", "100:1000,2000:1500,3500:128", "65408:128,0:65408"] {
        folder.good(&["format", "image", "--force", "--areas", list], b"");
        let output = folder.run(&["report", "image"], b"");
        let said = String::from_utf8(output.stderr).unwrap();
        let found = folder.text(&["areas", "image"]);
        assert_eq!(said, format!("nffs: areas {}, found by their headers\n", found.trim()));
        assert_eq!(output.stdout, folder.good(&["report", "image", "--areas", list], b""));
        // what is printed is what --areas takes, here and in a file
        folder.write("list", &found);
        assert_eq!(output.stdout, folder.good(&["report", "image", "--areas", found.trim()], b""));
        assert_eq!(output.stdout, folder.good(&["report", "image", "--areas", "@list"], b""));
        fs::remove_file(folder.path("image")).unwrap();
    }
    folder.good(&["format", "image", "--areas", "0x1000x2"], b"");
    assert_eq!(folder.text(&["areas", "image"]), "4096x2\n");
    let quiet = folder.run(&["report", "image", "--quiet"], b"");
    assert!(quiet.status.success() && quiet.stderr.is_empty());
}

#[test]
fn a_header_that_is_left_out_is_warned_of() {
    let folder = Folder::new("left_out");
    folder.good(&["format", "image", "--areas", "4096x4"], b"");
    let warned = |list: &str| {
        let output = folder.run(&["report", "image", "--areas", list], b"");
        let said = String::from_utf8(output.stderr).unwrap();
        assert!(output.status.success(), "{said}");
        said.matches(WARNING).count()
    };
    assert_eq!(warned("4096x4"), 0);
    assert_eq!(warned("4096x3"), 1);
    assert_eq!(warned("4096x2"), 2);
    assert_eq!(warned("0:4096,8192:4096,4096:4096,12288:4096"), 0);
    // the list ends at the length 0
    assert_eq!(warned("0:4096,4096:4096,8192:4096,0:0,12288:4096"), 1);
    // a descriptor without its header is passed over
    assert_eq!(warned("0:4096,4096:4096,8192:8192"), 2);

    // an older volume whose headers stay outside of the new areas
    let output = folder.run(&["format", "image", "--force", "--areas", "4096x2"], b"");
    let said = String::from_utf8(output.stderr).unwrap();
    assert!(output.status.success() && said.matches(WARNING).count() == 2, "{said}");
}

#[test]
fn what_looks_like_a_header_in_a_file_is_none() {
    let folder = Folder::new("inside");
    folder.good(&["format", "image", "--areas", "4096x3"], b"");
    folder.good(&["put", "image", "/header"], &records::header(9, 128).repeat(10));
    assert_eq!(folder.text(&["areas", "image"]), "4096x3\n");
    let output = folder.run(&["report", "image", "--areas", "4096x3"], b"");
    assert!(output.status.success() && output.stderr.is_empty());
}

#[test]
fn no_header_or_too_many() {
    let folder = Folder::new("none");
    folder.write("blank", [0xff; 8192]);
    for words in [&["areas", "blank"][..], &["report", "blank"], &["rm", "blank", "/a"]] {
        let said = folder.bad(words, b"", 2);
        assert!(said.contains("no valid area header is seen in blank"), "{said}");
        assert!(!said.contains("hint"), "{said}");
    }
    // of another version, or longer than what follows
    let mut other = records::image(&[]);
    other[20] = 1;
    other[4096 + 17] = 0x11;
    folder.write("other", &other);
    assert!(folder.bad(&["areas", "other"], b"", 2).contains("no valid area header is seen"));
    let many = [records::header(1, 128), vec![0xff; 104]].concat().repeat(17);
    folder.write("many", many);
    let said = folder.bad(&["report", "many"], b"", 2);
    let words = "17 area headers are seen in many, and a volume has at most 16";
    assert!(said.contains(words), "{said}");
}

#[test]
fn a_volume_in_a_longer_file() {
    let folder = Folder::new("dump");
    let firmware: Vec<u8> = (0..100_000).map(|i| (i % 251) as u8).collect();
    folder.write("dump", &firmware);
    folder.good(&["format", "dump", "--force", "--at", "0x10000", "--areas", "4096x4"], b"");
    folder.good(&["put", "dump", "/dose", "--at", "65536"], b"20 mSv");
    assert_eq!(folder.text(&["cat", "dump", "/dose", "--at", "0x10000"]), "20 mSv");
    assert_eq!(folder.text(&["areas", "dump", "--at=0x10000"]), "4096x4\n");

    // the same volume by itself, and nothing around it has changed
    let dump = folder.bytes("dump");
    assert_eq!(dump.len(), firmware.len());
    assert_eq!(dump[..65_536], firmware[..65_536]);
    assert_eq!(dump[65_536 + 16_384..], firmware[65_536 + 16_384..]);
    folder.write("image", &dump[65_536..][..16_384]);
    assert_eq!(folder.text(&["cat", "image", "/dose"]), "20 mSv");

    // without the place the file is too long; a place behind its end
    assert!(folder.refused(&["rm", "dump", "/dose", "--areas", "4096x4"], b"").contains("1, "));
    let said = folder.bad(&["report", "dump", "--at", "100000"], b"", 2);
    assert!(said.contains("dump has 100000 bytes: nothing lies at 100000"), "{said}");
    let said = folder.bad(&["format", "new", "--at", "1", "--areas", "4096x2"], b"", 2);
    assert!(said.contains("--at needs a file that is there"), "{said}");
}

#[test]
fn areas_by_offset_and_by_number() {
    let folder = Folder::new("lists");
    folder.good(&["format", "image", "--areas", "0x64:1000,2000:0x5dc,1100:500"], b"");
    assert_eq!(fs::metadata(folder.path("image")).unwrap().len(), 3500);
    assert_eq!(folder.text(&["areas", "image"]), "100:1000,1100:500,2000:1500\n");
    folder.write("list", "# the volume\n100:1000, 0x7d0:1500 # scratch\n\n1100:500\n");
    folder.good(&["report", "image", "--areas", "@list"], b"");
    let many: &str = &["1:1"; 17].join(",");
    for (areas, words) in [
        ("", "'' is neither"),
        ("4096", "'4096' is neither"),
        ("0x1000", "'0x1000' is neither"),
        ("4096x", "'' is no number"),
        ("x2", "'' is no number"),
        ("4096xx2", "'4096x' is no number"),
        ("+1:2", "'+1' is no number"),
        ("0x:2", "'0x' is no number"),
        ("0xg:2", "'0xg' is no number"),
        ("0:4096,", "'' is neither"),
        ("0:4294967296", "'4294967296' is no number"),
        ("4294967295x3", "area 2 of 4294967295 bytes starts past 32 bits"),
        ("4096x17", "more than 16 areas"),
        (many, "more than 16 areas"),
        ("@missing", "--areas: cannot read missing"),
        ("@image", "is neither OFFSET:LENGTH nor LENGTHxCOUNT"),
    ] {
        let said = folder.bad(&["report", "image", "--areas", areas], b"", 2);
        assert!(said.contains(words), "{areas}: {said}");
    }
    // the calls say which areas are good
    for areas in ["100x2", "4096x0", "0:4096,0:4096", "65536x8"] {
        folder.bad(&["format", "other", "--areas", areas], b"", 1);
    }
}
