//! What each command does.

use crate::folder::Folder;
use crate::records::{header, image_of, inode, NONE};
use std::fs;

#[test]
fn a_fresh_image_reports_as_document_01_prints() {
    let folder = Folder::formatted("fresh");
    let printed = folder.text(&["report", "image"]);
    assert_eq!(printed, "mount 0\ninodes 1 live 1 stretches 0 skipped 0 first 0+0\n");
    assert_eq!(fs::metadata(folder.path("image")).unwrap().len(), 8192);
}

#[test]
fn what_is_put_is_what_cat_prints() {
    let folder = Folder::new("sizes");
    for size in [0, 1, 2048, 2049, 8192, 8193, 15_000] {
        let data: Vec<u8> = (0..size).map(|i| (i % 251) as u8).collect();
        folder.write("data", &data);
        folder.good(&["format", "image", "--force", "--areas", "8192x8"], b"");
        folder.good(&["put", "image", "/a", "data"], b"");
        folder.good(&["put", "image", "/b"], &data);
        folder.good(&["put", "image", "/c", "-"], b"");
        folder.good(&["append", "image", "/c", "data"], b"");
        for path in ["/a", "/b", "/c"] {
            assert_eq!(folder.good(&["cat", "image", path], b""), data, "{size} bytes");
        }
    }
}

#[test]
fn append_goes_on_where_the_file_ends() {
    let folder = Folder::formatted("append");
    folder.good(&["put", "image", "/log"], b"one\n");
    folder.good(&["append", "image", "/log"], b"two\n");
    folder.good(&["append", "image", "/log"], b"");
    assert_eq!(folder.text(&["cat", "image", "/log"]), "one\ntwo\n");
    assert!(folder.refused(&["append", "image", "/none"], b"").contains("refused with 9, "));
    // all or nothing, also where one call would have been accepted
    let said = folder.refused(&["append", "image", "/log"], &[7; 9000]);
    assert!(said.contains("refused with 15, "), "{said}");
    assert_eq!(folder.text(&["cat", "image", "/log"]), "one\ntwo\n");
}

#[test]
fn cat_of_a_part() {
    let folder = Folder::formatted("part");
    folder.good(&["put", "image", "/dose"], b"0123456789");
    for (words, part) in [
        (&["--from", "3"][..], "3456789"),
        (&["--length", "0x4"], "0123"),
        (&["--from=0x8", "--length=9"], "89"),
        (&["--from", "10"], ""),
        (&["--length", "0"], ""),
        (&["--length", "99999999999999"], "0123456789"),
    ] {
        assert_eq!(folder.text(&[&["cat", "image", "/dose"], words].concat()), part, "{words:?}");
    }
    let said = folder.bad(&["cat", "image", "/dose", "--from", "4294967296"], b"", 2);
    assert!(said.contains("--from: 4294967296 is no position"), "{said}");
}

#[test]
fn a_name_that_is_there_is_replaced_only_when_asked() {
    let folder = Folder::formatted("replace");
    folder.good(&["put", "image", "/dose"], b"old");
    let said = folder.refused(&["put", "image", "/dose", "-q"], b"new");
    let words = "nffs: put image /dose: refused with 12, the name is there already\n  Take another";
    assert!(said.starts_with(words), "{said}");
    folder.good(&["put", "image", "/dose", "--replace"], b"new");
    assert_eq!(folder.good(&["cat", "image", "/dose"], b""), b"new");
    folder.good(&["put", "image", "/other", "--replace"], b"new");

    // a directory would go with all that lies below it
    folder.good(&["mkdir", "image", "/tables"], b"");
    assert!(folder.refused(&["put", "image", "/tables", "--replace"], b"").contains("11, "));
}

#[test]
fn what_does_not_fit_leaves_the_old_file() {
    let folder = Folder::formatted("full");
    folder.good(&["put", "image", "/dose"], b"old");
    let said = folder.refused(&["put", "image", "/dose", "--replace"], &[1; 5000]);
    assert!(said.contains("refused with 15, a record fits in no clean file area\n"), "{said}");
    let said = folder.refused(&["put", "image", "/dose", "--replace"], &[1; 100_000]);
    assert!(said.contains("refused with 15"), "{said}");
    assert_eq!(folder.good(&["cat", "image", "/dose"], b""), b"old");
}

#[test]
fn directories_lookup_and_rm() {
    let folder = Folder::formatted("tree");
    folder.good(&["mkdir", "image", "/tables"], b"");
    folder.good(&["put", "image", "/tables/dose"], b"20 mSv");
    assert_eq!(folder.text(&["lookup", "image", "/"]), "directory 00000000\n");
    assert_eq!(folder.text(&["lookup", "image", "/tables"]), "directory 00000001\n");
    assert_eq!(folder.text(&["lookup", "image", "/tables/dose"]), "file 10000000\n");
    assert!(folder.refused(&["cat", "image", "/tables"], b"").contains("11, "));
    folder.good(&["rm", "image", "/tables"], b"");
    let said = folder.refused(&["cat", "image", "/tables/dose", "--quiet"], b"");
    assert!(said.starts_with("nffs: cat image /tables/dose: refused with 9, "), "{said}");
    assert!(folder.refused(&["rm", "image", "/"], b"").contains("8, "));
    assert!(folder.refused(&["lookup", "image", "relative"], b"").contains("8, "));
}

#[test]
fn collect_makes_room_again() {
    let folder = Folder::formatted("collect");
    folder.good(&["put", "image", "/dose"], &[1; 3000]);
    folder.good(&["rm", "image", "/dose"], b"");
    folder.refused(&["put", "image", "/dose"], &[2; 3000]);
    folder.good(&["collect", "image"], b"");
    folder.good(&["put", "image", "/dose"], &[2; 3000]);
    assert_eq!(folder.good(&["cat", "image", "/dose"], b""), [2; 3000]);
}

#[test]
fn with_collect_it_fits_or_it_is_said_that_it_cannot() {
    let folder = Folder::formatted("fits");
    for value in 1..=5 {
        let words = ["put", "image", "/dose", "--replace", "--collect"];
        folder.good(&words, &[value; 3000]);
        assert_eq!(folder.good(&["cat", "image", "/dose"], b""), [value; 3000]);
    }
    folder.good(&["append", "image", "/dose", "--collect"], &[6; 500]);
    let said = folder.refused(&["put", "image", "/more", "--collect"], &[7; 3000]);
    assert!(said.contains("refused with 15, "), "{said}");
    assert!(
        said.contains(", also after 2 collections\n  What is live leaves too little"),
        "{said}"
    );

    // a deletion record needs room too
    while folder.run(&["append", "image", "/dose"], &[8; 100]).status.success() {}
    while folder.run(&["append", "image", "/dose"], &[8; 1]).status.success() {}
    assert!(folder.refused(&["rm", "image", "/dose"], b"").contains("15, "));
    folder.good(&["rm", "image", "/dose", "--collect"], b"");

    // no area can be collected
    folder.good(&["format", "short", "--areas", "0:8192,8192:4096"], b"");
    let said = folder.refused(&["put", "short", "/a", "--collect"], &[1; 5000]);
    assert!(
        said.contains("put short /a: no room, and a collection is: refused with 17, "),
        "{said}"
    );
}

/// An area of 1,024 bytes with this count.
fn area(id: u8, count: u8, records: &[u8]) -> Vec<u8> {
    let mut area = [&header(id, 1024)[..], records].concat();
    assert!(area.len() <= 1024, "the records have no room");
    area[21] = count;
    area.resize(1024, 0xff);
    area
}

#[test]
fn an_area_that_never_has_its_turn() {
    let folder = Folder::new("turns");
    // of the last three each is preceded by another, and the first two are before them in the list
    let deleted = [inode(1, 0, 0, b"old"), inode(1, 1, NONE, b"")].concat();
    let areas = [
        area(255, 0, b""),
        area(0, 0, &inode(0, 0, NONE, b"")),
        area(1, 0, &deleted),
        area(2, 86, b""),
        area(3, 172, b""),
    ];
    folder.write("image", areas.concat());
    let said = folder.refused(&["put", "image", "/a", "--collect"], &[7; 5000]);
    let words = ", also after 8192 collections\n  It was given up: counts that are not all among 128 \
                 numbers in a row (0 follows 255) can keep an area from ever being collected. `nffs";
    assert!(said.contains(words), "{said}");
    let page = folder.text(&["check", "image"]);
    assert!(page.contains("inodes: 2, of which 1 live, 1 deleted or orphans\n"), "{page}");
    for _ in 0..300 {
        folder.good(&["collect", "image"], b"");
    }
    let counts: Vec<u8> = folder.bytes("image").chunks(1024).map(|area| area[21]).collect();
    assert_eq!(counts, [150, 150, 0, 86, 172]);
}

#[test]
fn many_collections_where_counts_are_good() {
    let folder = Folder::new("many_turns");
    // each directory in the one before it, and the first deleted: a round of 16 collections drops
    // the innermost alone, and its area waits for 126 x 15 collections first
    let nested = (2..=255).rev().map(|id| inode(id, 0, id - 1, b"d"));
    let records: Vec<_> = nested.chain([inode(1, 1, NONE, b"")]).collect();
    let mut parts: Vec<_> = records.chunks(47).map(|part| part.concat()).collect();
    parts.resize(14, Vec::new());
    parts.push(inode(0, 0, NONE, b""));
    let mut image = area(255, 0, b"");
    for (id, part) in (0..).zip(parts.iter().rev()) {
        image.extend(area(id, if id == 14 { 126 } else { 0 }, part));
    }
    folder.write("image", &image);
    let page = folder.text(&["check", "image"]);
    assert!(page.contains("inodes: 256, of which 1 live, 255 deleted, 0 orphans\n"), "{page}");
    let output = folder.run(&["put", "image", "/a", "--collect"], &[7; 13_300]);
    let said = String::from_utf8(output.stderr).unwrap();
    assert!(said.ends_with("\nnffs: done, after 5157 collections\n"), "{said}");
    assert_eq!(folder.good(&["cat", "image", "/a"], b""), [7; 13_300]);
}

#[test]
fn ids_are_collected_level_by_level() {
    let folder = Folder::new("ids");
    // one below the other, so that each collection gives back one id
    let deep = (1..=10).map(|id| inode(id, 0, id - 1, b"d"));
    let others = (11..=255).map(|id| inode(id, 0, 0, id.to_string().as_bytes()));
    folder.write("image", image_of(8192, &deep.chain(others).collect::<Vec<_>>()));
    assert!(folder.refused(&["mkdir", "image", "/more"], b"").contains("refused with 5, "));
    folder.good(&["rm", "image", "/d"], b"");
    assert!(folder.refused(&["mkdir", "image", "/more"], b"").contains("refused with 5, "));
    for i in 0..10 {
        folder.good(&["mkdir", "image", &format!("/more{i}"), "--collect"], b"");
    }
    let said = folder.refused(&["mkdir", "image", "/over", "--collect"], b"");
    assert!(said.contains("refused with 5, ") && said.contains("also after"), "{said}");
}

/// Words of no command that can be run, and what is said of them.
const NO_COMMANDS: [(&[&str], &str); 32] = [
    (&[], "no command"),
    (&["ls", "image"], "no command ls"),
    (&["dir", "image"], "no command dir"),
    (&["report"], "report: no image"),
    (&["format", "other"], "format: no --areas"),
    (&["report", "image", "--areas"], "--areas: no value"),
    (&["report", "image", "--areas", "4096x2", "--areas", "4096x2"], "--areas is given twice"),
    (&["report", "image", "--at=0", "--at", "0"], "--at is given twice"),
    (&["report", "image", "--at", "1k"], "--at: '1k' is no number"),
    (&["report", "image", "--at", "0x"], "--at: '0x' is no number"),
    (&["cat", "image"], "cat: no path"),
    (&["import", "image"], "import: no folder"),
    (&["cat", "image", "/a", "/b"], "cat: too many words"),
    (&["cat", "image", "/a", "--force"], "cat takes no --force"),
    (&["rm", "image", "/a", "--replace"], "rm takes no --replace"),
    (&["collect", "image", "--collect"], "collect takes no --collect"),
    (&["report", "image", "--json"], "report takes no --json"),
    (&["report", "image", "--stretches"], "report takes no --stretches"),
    (&["map", "image", "--collect"], "map takes no --collect"),
    (&["map", "image", "--stretches=1"], "--stretches takes no value"),
    (&["map"], "map: no image"),
    (&["tree", "image", "/a"], "tree: too many words"),
    (&["tree", "image", "--json"], "tree takes no --json"),
    (&["report", "image", "--all"], "no option --all"),
    (&["report", "image", "-x"], "no option -x"),
    (&["check", "image", "--json=1"], "--json takes no value"),
    (&["report", "missing"], "cannot read missing: "),
    (&["report", "--", "--areas"], "cannot read --areas: "),
    (&["rm", "missing", "/a"], "cannot read missing: "),
    (&["put", "image", "/a", "missing"], "cannot read missing: "),
    (&["format", "no/image", "--areas", "4096x2"], "cannot make a file in no: "),
    (&["format", "image", "--areas", "4096x2"], "image is there: --force formats its areas"),
];

#[test]
fn words_that_make_no_command() {
    let folder = Folder::formatted("usage");
    for (words, said) in NO_COMMANDS {
        let heard = folder.bad(words, b"", 2);
        assert!(heard.contains(said), "{words:?}: {heard}");
    }
    for words in [&["--help"][..], &["-h"], &["help"], &["put", "-h"]] {
        assert!(folder.text(words).starts_with("usage: nffs"), "{words:?}");
    }
    for words in [&["--version"][..], &["-V"]] {
        assert_eq!(folder.text(words), concat!("nffs ", env!("CARGO_PKG_VERSION"), "\n"));
    }
}

#[test]
fn behind_two_dashes_all_are_words() {
    let folder = Folder::formatted("dashes");
    fs::rename(folder.path("image"), folder.path("--image")).unwrap();
    folder.good(&["put", "-q", "--", "--image", "/dose"], b"20 mSv");
    assert_eq!(folder.text(&["cat", "--areas=4096x2", "--", "--image", "/dose"]), "20 mSv");
}
