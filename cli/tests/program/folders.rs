//! Folders copied in and out.

use crate::folder::{files_of, Folder};
use crate::records::{image, inode};
use std::fs::{self, set_permissions, Permissions};
use std::os::unix::fs::{symlink, PermissionsExt};
use std::path::PathBuf;
use std::process::Command;

/// A folder `tables` with files, one of them below a second folder.
fn with_tables(name: &str) -> Folder {
    let folder = Folder::new(name);
    folder.good(&["format", "image", "--areas", "4096x3"], b"");
    fs::create_dir_all(folder.path("tables/old/empty")).unwrap();
    folder.write("tables/dose", b"20 mSv");
    folder.write("tables/rate", b"");
    folder.write("tables/old/dose", [7; 3000]);
    folder
}

/// What stands below a folder, without its own path.
fn below(folder: &Folder, name: &str) -> Vec<(PathBuf, Vec<u8>)> {
    let top = folder.path(name);
    let strip = |(path, bytes): (PathBuf, _)| (path.strip_prefix(&top).unwrap().into(), bytes);
    files_of(&top).into_iter().map(strip).collect()
}

/// What a run says with a status.
fn said(folder: &Folder, words: &[&str], status: i32) -> String {
    let output = folder.run(words, b"");
    let said = String::from_utf8(output.stderr).unwrap();
    assert_eq!(output.status.code(), Some(status), "{words:?}: {said}");
    said
}

#[test]
fn what_is_imported_is_what_is_exported() {
    let folder = with_tables("round");
    folder.good(&["import", "image", "tables"], b"");
    folder.good(&["export", "image", "all"], b"");
    assert_eq!(below(&folder, "all"), below(&folder, "tables"));
    folder.good(&["export", "image", "part", "/old"], b"");
    assert_eq!(below(&folder, "part"), below(&folder, "tables/old"));
    folder.good(&["export", "image", "one", "/old/dose"], b"");
    assert_eq!(below(&folder, "one"), [("dose".into(), vec![7; 3000])]);
    folder.good(&["import", "image", "tables/old/empty", "/a/b/c"], b"");
    assert_eq!(folder.text(&["lookup", "image", "/a/b/c"]), "directory 00000005\n");

    // again: nothing is left to do, and nothing is in the way
    let before = folder.bytes("image");
    assert!(said(&folder, &["import", "image", "tables"], 0).contains("0 stored, 0 replaced, 5 "));
    assert_eq!(folder.bytes("image"), before);
    let words = folder.bad(&["export", "image", "all"], b"", 2);
    assert!(words.contains("all/dose is in the way of /dose: nothing was written"), "{words}");
    assert!(folder.bad(&["export", "image", "all", "/none"], b"", 1).contains("9, "));
}

#[test]
fn files_are_replaced_only_when_asked() {
    let folder = with_tables("again");
    folder.good(&["import", "image", "tables"], b"");
    folder.write("tables/dose", b"10 mSv");
    assert!(folder.refused(&["import", "image", "tables"], b"").contains("/dose: refused with 12"));
    assert!(said(&folder, &["import", "image", "tables", "--replace"], 0).contains("1 replaced"));
    assert_eq!(folder.text(&["cat", "image", "/dose"]), "10 mSv");
    // what does not fit leaves the old one
    folder.write("tables/dose", [1; 9000]);
    let words = folder.refused(&["import", "image", "tables", "--replace", "--collect"], b"");
    assert!(words.contains("/dose: refused with 15, "), "{words}");
    folder.write("tables/dose", b"10 mSv");
    folder.good(&["export", "image", "out"], b"");
    folder.write("out/dose", b"mine");
    folder.good(&["export", "image", "out", "--replace"], b"");
    assert_eq!(below(&folder, "out"), below(&folder, "tables"));

    // not one that is read-only, not through a link, and no folder for a file
    set_permissions(folder.path("out/rate"), Permissions::from_mode(0o444)).unwrap();
    let words = folder.bad(&["export", "image", "out", "--replace"], b"", 2);
    assert!(
        words.contains("out/rate is in the way of /rate: nothing was written (it is read-only)")
    );
    set_permissions(folder.path("out/rate"), Permissions::from_mode(0o644)).unwrap();
    fs::remove_file(folder.path("out/dose")).unwrap();
    symlink("../tables/rate", folder.path("out/dose")).unwrap();
    let words = folder.bad(&["export", "image", "out", "--replace"], b"", 2);
    assert!(words.contains("out/dose is in the way of /dose"), "{words}");
    fs::remove_file(folder.path("out/dose")).unwrap();
    fs::create_dir(folder.path("out/dose")).unwrap();
    folder.bad(&["export", "image", "out", "--replace"], b"", 2);
}

#[test]
fn an_import_that_stops_half_way_tells_what_is_there() {
    let folder = with_tables("half");
    folder.write("tables/more", [1; 3000]);
    folder.write("tables/next", [2; 3000]);
    let words = said(&folder, &["import", "image", "tables", "-q"], 4);
    let start = "nffs: import image tables: /old/dose: refused with 15, ";
    assert!(words.starts_with(start), "{words}");
    let end = "
  In the volume are, whole:
    /dose
    /more
    /next
    /old
  Not stored:
    /old/dose
    /old/empty
    /rate
";
    assert!(words.ends_with(end), "{words}");
    assert_eq!(folder.good(&["cat", "image", "/more"], b""), [1; 3000]);
    folder.refused(&["lookup", "image", "/old/dose"], b"");

    // nothing more fits: now nothing is changed, and that is a refusal
    let words = folder.refused(&["import", "image", "tables"], b"");
    assert!(words.contains("/old/dose: refused with 15, "), "{words}");
    let words = folder.refused(&["import", "image", "tables", "--collect"], b"");
    assert!(words.contains("also after "), "{words}");

    // with room it goes on where it ended
    folder.good(&["rm", "image", "/more"], b"");
    fs::remove_file(folder.path("tables/more")).unwrap();
    let words = said(&folder, &["import", "image", "tables", "--collect"], 0);
    assert!(words.contains("3 stored, 0 replaced, 3 there already, after "), "{words}");
    folder.good(&["export", "image", "out"], b"");
    assert_eq!(below(&folder, "out"), below(&folder, "tables"));
}

#[test]
fn what_a_volume_cannot_hold_is_seen_before() {
    let folder = with_tables("before");
    symlink("dose", folder.path("tables/link")).unwrap();
    let words = folder.bad(&["import", "image", "tables"], b"", 2);
    assert!(words.contains("tables/link is neither a file nor a folder: nothing was stored"));
    fs::remove_file(folder.path("tables/link")).unwrap();
    folder.write("tables/large", vec![0; 70_000]);
    let words = folder.bad(&["import", "image", "tables"], b"", 2);
    assert!(words.contains("tables holds more than the 65,536 bytes of an image"), "{words}");
    assert!(folder.bad(&["import", "image", "none"], b"", 2).contains("cannot read none: "));
    let words = folder.bad(&["import", "image", "image"], b"", 2);
    assert!(words.contains("cannot read image: "), "{words}");
    let words = folder.refused(&["import", "image", "tables/old/empty", "relative"], b"");
    assert!(words.contains("refused with 8, "), "{words}");
    folder.write("blank", [0; 8192]);
    let words = ["import", "blank", "tables/old/empty", "--areas", "4096x2"];
    assert!(folder.refused(&words, b"").contains("refused with 3, "));
}

#[test]
fn what_cannot_be_exported_is_told() {
    let folder = Folder::new("left");
    let file = 0x1000_0000;
    folder.write(
        "image",
        image(&[
            inode(file, 0, 0, b".."),
            inode(1, 0, 0, b"."),
            inode(file + 1, 0, 1, b"below"),
            inode(file + 2, 0, 0, b"twice"),
            inode(file + 3, 0, 0, b"twice"),
            inode(file + 4, 0, 0, b"good"),
        ]),
    );
    folder.good(&["put", "image", "/broken"], &[0x41; 100]);
    let mut bytes = folder.bytes("image");
    let place = bytes.windows(3).position(|w| w == b"AAA").unwrap();
    bytes[place] = b'B';
    folder.write("image", &bytes);
    // the only block of a file is lost: it reads as empty, and the damage is what tells it
    let words = said(&folder, &["export", "image", "out"], 4);
    for line in [
        "2 files written to out; left out:",
        "\n    /.. (no name for a file here)",
        "\n    /. (no name for a file here)",
        "\n    /./below (no name for a file here)",
        "\n    /twice (two or more have this path)",
        "\n    2 without a path of their own\n",
    ] {
        assert!(words.contains(line), "{line}: {words}");
    }
    let expected = [("broken".into(), vec![]), ("good".into(), vec![])];
    assert_eq!(below(&folder, "out"), expected);
}

#[test]
fn an_export_that_stops_tells_what_is_written() {
    let folder = with_tables("disk");
    folder.good(&["import", "image", "tables"], b"");
    // files may have 1,024 bytes: the third is longer
    let output = Command::new("bash")
        .args(["-c", "trap '' XFSZ; ulimit -f 1 && exec \"$0\" \"$@\"", crate::folder::PROGRAM])
        .args(["export", "image", "out", "-q"])
        .current_dir(&folder.0)
        .output()
        .unwrap();
    let words = String::from_utf8(output.stderr).unwrap();
    assert_eq!(output.status.code(), Some(4), "{words}");
    assert!(words.starts_with("nffs: cannot make out/old/dose: "), "{words}");
    assert!(words.ends_with("\n  Written, whole:\n    out/dose\n    out/old\n"), "{words}");
    assert_eq!(
        below(&folder, "out"),
        [("dose".into(), b"20 mSv".to_vec()), ("old".into(), vec![])]
    );
}

#[test]
fn on_a_terminal_progress_is_shown() {
    let folder = with_tables("progress");
    for (words, line) in [
        ("import image tables", "\rnffs: 1 of 5: /old\x1b[K"),
        ("export image out", "\rnffs: 1 of 5: /old\x1b[K"),
        ("import image tables -q", ""),
    ] {
        let command = format!("{} {words}", crate::folder::PROGRAM);
        let mut script = Command::new("script");
        let output = script.args(["-qec", &command, "/dev/null"]).current_dir(&folder.0).output();
        let output = output.unwrap();
        let shown = String::from_utf8(output.stdout).unwrap();
        assert!(output.status.success() && shown.contains(line), "{shown:?}");
        assert_eq!(shown.is_empty(), line.is_empty(), "{shown:?}");
    }
}
