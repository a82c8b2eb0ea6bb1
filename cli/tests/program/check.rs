//! The page on a volume.

use crate::folder::{finish, Folder};
use crate::records::{header, image, inode, NONE};
use std::process::Command;

const FILE: u32 = 0x1000_0000;

/// What check prints with a status; it says nothing else.
pub fn page(folder: &Folder, words: &[&str], status: i32) -> String {
    let output = folder.run(&[&["check", "image"], words].concat(), b"");
    let page = String::from_utf8(output.stdout).unwrap();
    assert_eq!((output.status.code(), &output.stderr[..]), (Some(status), &b""[..]), "{page}");
    page
}

/// A part of what check prints as JSON, taken out by another program.
fn json(folder: &Folder, expression: &str, status: i32) -> String {
    python(&page(folder, &["--json"], status), expression)
}

/// A part `v` of a JSON page, taken out by another program.
pub fn python(page: &str, expression: &str) -> String {
    let script = format!("import json, sys\nv = json.load(sys.stdin)\nprint({expression})");
    let output = finish(Command::new("python3").args(["-c", &script]), page.as_bytes());
    assert!(output.status.success(), "{page}{}", String::from_utf8_lossy(&output.stderr));
    String::from_utf8(output.stdout).unwrap().trim_end().into()
}

#[test]
fn a_sound_volume() {
    let folder = Folder::new("sound");
    folder.good(&["format", "image", "--areas", "4096x3"], b"");
    folder.good(&["mkdir", "image", "/tables"], b"");
    folder.good(&["put", "image", "/tables/dose"], b"20 mSv");
    folder.good(&["put", "image", "/old"], b"10 mSv");
    folder.good(&["rm", "image", "/old"], b"");
    let expected = "\
image: 12288 bytes, mounts, and nothing is wrong
areas: 4096x3, found
      0+4096  scratch, count 0
   4096+4096  file area 0, count 0, clean
   8192+4096  file area 1, count 0, clean
inodes: 4, of which 3 live, 1 deleted, 0 orphans
damage: 0 stretches, 0 bytes
  directory  /
  directory  /tables
          6  /tables/dose
";
    assert_eq!(page(&folder, &[], 0), expected);
    let listed = page(&folder, &["--areas", "4096x3"], 0);
    assert_eq!(listed, expected.replace(", found", ", as listed"));
    let entries =
        "[(e['path'], e['path_hex'], e['kind'], e['size'], e['id']) for e in v['entries']]";
    assert_eq!(
        json(&folder, entries, 0),
        "[('/', '2f', 'directory', None, 0), ('/tables', '2f7461626c6573', 'directory', None, 1), \
         ('/tables/dose', '2f7461626c65732f646f7365', 'file', 6, 268435456)]"
    );
    let counts = "[v[k] for k in 'status refusal inodes live deleted orphans stretches \
                  first_offset first_length'.split()]";
    assert_eq!(json(&folder, counts, 0), "[0, None, 4, 3, 1, 0, 0, 0, 0]");
}

#[test]
fn a_volume_that_does_not_mount() {
    let folder = Folder::new("unmounted");
    folder.write("image", &image(&[])[4096..]);
    let page_of = page(&folder, &[], 1);
    let first = "image: 4096 bytes, does not mount: 3, no file area, or not exactly one scratch area\n  Give the areas";
    assert!(page_of.starts_with(first), "{page_of}");
    let area = "\nareas: 4096x1, found\n      0+4096  file area 0, count 0, clean\n";
    assert!(page_of.ends_with(area), "{page_of}");
    let told = "v['refusal']['number'], v['status'], 'inodes' in v, v['refusal']['advice'][:4]";
    assert_eq!(json(&folder, told, 1), "3 1 False Give");
    folder.write("image", [0xff; 8192]);
    let page_of = page(&folder, &[], 1);
    assert!(page_of.contains("does not mount: 1, "), "{page_of}");
    assert!(page_of.ends_with("\nareas: no valid header is seen\n"), "{page_of}");
    assert!(page(&folder, &["--areas", "4096x2"], 1).contains("passed over"));
    folder.bad(&["check", "missing"], b"", 2);
}

#[test]
fn damage_is_told_by_area_and_files_as_broken() {
    let folder = Folder::new("damaged");
    folder.good(&["format", "image", "--areas", "4096x4"], b"");
    folder.good(&["put", "image", "/first"], &[0x41; 3000]);
    folder.good(&["put", "image", "/second"], &[0x42; 3000]);
    folder.good(&["append", "image", "/second"], &[0x43; 10]);
    let mut bytes = folder.bytes("image");
    // a block of the second file, which lies in the second file area
    let place = bytes.windows(4).position(|w| w == b"BBBB").unwrap();
    assert!((8192..12_288).contains(&place));
    bytes[place] = 0;
    folder.write("image", &bytes);
    let page_of = page(&folder, &[], 3);
    let rows = "
   4096+4096  file area 0, count 0, clean
   8192+4096  file area 1, count 0, damaged: 1 stretch, 2036 bytes
  12288+4096  file area 2, count 0, clean
";
    assert!(page_of.contains(rows), "{page_of}");
    assert!(page_of.contains("\n       3000  /first\n     broken  /second\nDamage: "), "{page_of}");
    assert!(page_of.contains("\nBroken: blocks of the file are lost."), "{page_of}");
    assert!(
        page_of.contains(&format!("\ndamage: 1 stretch, 2036 bytes, first {}+2036\n", place - 24)),
        "{page_of}"
    );
    let damage = "[(a['kind'], a['stretches'], a['skipped']) for a in v['areas']][2], v['skipped'], v['first_length']";
    assert_eq!(json(&folder, damage, 3), "('file', 1, 2036) 2036 2036");
    assert_eq!(json(&folder, "v['entries'][2]['kind'], v['entries'][2]['size']", 3), "broken None");

    // stored anew and collected, it is sound
    folder.good(&["put", "image", "/second", "--replace"], &[0x42; 3010]);
    while page_of_damage(&folder) != "0" {
        folder.good(&["collect", "image"], b"");
    }
    page(&folder, &[], 0);
}

fn page_of_damage(folder: &Folder) -> String {
    let report = folder.text(&["report", "image"]);
    report.split_whitespace().nth(7).unwrap().to_string()
}

#[test]
fn orphans_are_told_from_the_deleted() {
    let folder = Folder::new("orphans");
    folder.write(
        "image",
        image(&[
            // in a directory that is not there, and below such a one
            inode(FILE, 0, 5, b"lost"),
            inode(6, 0, 5, b"dir"),
            inode(FILE + 1, 0, 6, b"below"),
            // two that are each other's parent
            inode(7, 0, 8, b"seven"),
            inode(8, 0, 7, b"eight"),
            inode(FILE + 2, 0, 0, b"live"),
        ]),
    );
    folder.good(&["mkdir", "image", "/a"], b"");
    folder.good(&["mkdir", "image", "/a/b"], b"");
    folder.good(&["put", "image", "/a/b/c"], b"deleted");
    folder.good(&["rm", "image", "/a"], b"");
    let page_of = page(&folder, &[], 3);
    assert!(page_of.contains("\ninodes: 10, of which 2 live, 3 deleted, 5 orphans\n"), "{page_of}");
    assert!(page_of.contains("\n     orphan  lost (was in directory 00000005)\n"), "{page_of}");
    assert!(page_of.contains("\n     orphan  eight (was in directory 00000007)\n"), "{page_of}");
    assert!(page_of.contains("\nOrphans: not deleted, but the directories they lie in "));
    let orphans = "v['deleted'], v['orphans'], sorted(o['name'] for o in v['orphaned'])";
    assert_eq!(json(&folder, orphans, 3), "3 5 ['below', 'dir', 'eight', 'lost', 'seven']");
}

#[test]
fn what_collections_keep_is_counted_together() {
    let folder = Folder::new("together_counted");
    // equal records in two areas keep each other, so that it is not known
    let deleted = [inode(1, 0, 0, b"a"), inode(1, 1, NONE, b"")].concat();
    let one = image(std::slice::from_ref(&deleted));
    let mut other = [header(1, 4096), deleted].concat();
    other.resize(4096, 0xff);
    folder.write("image", [one, other].concat());
    assert!(page(&folder, &[], 0).contains("inodes: 2, of which 1 live, 1 deleted or orphans\n"));

    // nor is it where an area is never collected
    let mut short = [header(1, 2048), inode(1, 1, NONE, b"")].concat();
    short.resize(2048, 0xff);
    folder.write("image", [image(&[]), short].concat());
    assert!(page(&folder, &[], 0).contains("inodes: 2, of which 1 live, 1 deleted or orphans\n"));
    assert_eq!(json(&folder, "v['deleted'], v['orphans']", 0), "None None");
}

#[test]
fn names_may_hold_anything() {
    let folder = Folder::new("names");
    folder.write(
        "image",
        image(&[
            inode(FILE, 0, 0, b"line\nbreak"),
            inode(FILE + 1, 0, 0, b"\x1b[2J"),
            inode(FILE + 2, 0, 0, b"\xff\xfe"),
            inode(FILE + 3, 0, 0, "größe \"x\" 😀".as_bytes()),
            // one name for two, and a directory of that name with a child
            inode(1, 0, 0, b"twice"),
            inode(2, 0, 0, b"twice"),
            inode(FILE + 4, 0, 1, b"below"),
            // an older version under another name, which no longer counts
            inode(FILE + 5, 0, 0, b"before"),
            inode(FILE + 5, 2, 0, b"now"),
            // and one under a name that another has now
            inode(FILE + 5, 1, 0, b"heir"),
            inode(FILE + 6, 0, 0, b"heir"),
        ]),
    );
    let page_of = page(&folder, &[], 3);
    for line in [
        "\n          0  /line\\nbreak\n",
        "\n          0  /\\u{1b}[2J\n",
        "\n          0  /\\xff\\xfe\n",
        "\n          0  /größe \"x\" 😀\n",
        "\n          0  /now\n",
        "\n  ambiguous  /twice\n",
        "\nAmbiguous: ",
    ] {
        assert!(page_of.contains(line), "{line}: {page_of}");
    }
    assert!(!page_of.contains("before"), "{page_of}");
    let entries = "ascii([e['path'] for e in v['entries']]), v['unreached']";
    let paths = r#"['/', '/\x1b[2J', '/gr\xf6\xdfe "x" \U0001f600', '/heir', '/line\nbreak', '/now', None] 3"#;
    assert_eq!(json(&folder, entries, 3), paths);
    assert_eq!(json(&folder, "v['ambiguous'][0]['path']", 3), "/twice");
}

#[test]
fn a_list_that_leaves_out_a_header() {
    let folder = Folder::new("left_out_page");
    folder.good(&["format", "image", "--areas", "4096x4"], b"");
    let page_of = page(&folder, &["--areas", "4096x3"], 3);
    assert!(page_of.contains("\n  12288+4096  a header that the list leaves out\n"), "{page_of}");
    let output = folder.run(&["check", "image", "--json", "--areas", "4096x3"], b"");
    let page_of = String::from_utf8(output.stdout).unwrap();
    assert!(page_of.contains("\"left_out\": [\n    {\"offset\": 12288, \"length\": 4096}\n  ]"));
}
