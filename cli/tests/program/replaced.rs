//! `--replace`: the new file is stored beside the old one, which goes only then.

use crate::folder::Folder;
use crate::records::{block, image, image_of, inode, NONE};
use std::fs;

const FILE: u32 = 0x1000_0000;

/// Whether the bytes stand in the image.
fn holds(folder: &Folder, bytes: &[u8]) -> bool {
    folder.bytes("image").windows(bytes.len()).any(|w| w == bytes)
}

/// The paths that `check` lists.
fn paths(folder: &Folder) -> Vec<String> {
    let page = folder.text(&["check", "image"]);
    let paths = page.lines().filter_map(|line| line.split_once("  /").map(|(_, path)| path));
    paths.map(|path| format!("/{path}")).collect()
}

#[test]
fn the_new_file_is_stored_beside_the_old_one() {
    let folder = Folder::formatted("beside");
    folder.good(&["mkdir", "image", "/tables"], b"");
    folder.good(&["put", "image", "/tables/dose"], b"old");
    let before = folder.bytes("image");
    folder.good(&["put", "image", "/tables/dose", "--replace"], b"new");
    // a new file, its block, the old one's deletion, and last the new one's name, in this order
    let start = before.iter().rposition(|byte| *byte != 0xff).unwrap() + 1;
    let expected = [
        inode(FILE + 1, 0, 1, b"dose.new"),
        block(0x8000_0001, FILE + 1, b"new"),
        inode(FILE, 1, NONE, b""),
        inode(FILE + 1, 1, 1, b"dose"),
    ];
    let expected = expected.concat();
    let after = folder.bytes("image");
    assert_eq!(after[..start], before[..start]);
    assert_eq!(after[start..start + expected.len()], expected);
    assert!(after[start + expected.len()..].iter().all(|byte| *byte == 0xff));
    assert_eq!(paths(&folder), ["/", "/tables", "/tables/dose"]);
}

#[test]
fn a_name_that_something_has_is_left_to_it() {
    let folder = Folder::formatted("taken");
    folder.good(&["put", "image", "/dose"], b"old");
    folder.good(&["put", "image", "/dose.new"], b"mine");
    folder.good(&["mkdir", "image", "/dose.new2"], b"");
    folder.good(&["put", "image", "/dose", "--replace"], b"new");
    assert!(holds(&folder, b"dose.new3"));
    assert_eq!(folder.text(&["cat", "image", "/dose"]), "new");
    assert_eq!(folder.text(&["cat", "image", "/dose.new"]), "mine");
    assert_eq!(paths(&folder), ["/", "/dose", "/dose.new", "/dose.new2"]);
    // that of a file that was deleted is free
    folder.good(&["rm", "image", "/dose.new"], b"");
    folder.good(&["put", "image", "/dose", "--replace"], b"newer");
    assert_eq!(paths(&folder), ["/", "/dose", "/dose.new2"]);

    // two that have it, too
    let two = [inode(FILE + 1, 0, 0, b"a.new"), inode(FILE + 2, 0, 0, b"a.new")].concat();
    folder.write("image", image(&[inode(FILE, 0, 0, b"a"), two]));
    folder.good(&["put", "image", "/a", "--replace"], b"new");
    assert!(holds(&folder, b"a.new2"));
    assert_eq!(folder.text(&["cat", "image", "/a"]), "new");
}

#[test]
fn the_longest_names_and_paths() {
    let folder = Folder::formatted("longest");
    // the end of the name makes room for the new one's; where that is its own name, the next is taken
    for (name, beside) in [
        ("n".repeat(255), "n".repeat(251) + ".new"),
        ("o".repeat(252), "o".repeat(251) + ".new"),
        ("p".repeat(251), "p".repeat(251) + ".new"),
        ("q".repeat(251) + ".new", "q".repeat(250) + ".new2"),
    ] {
        let path = format!("/{name}");
        folder.good(&["put", "image", &path], b"old");
        folder.good(&["put", "image", &path, "--replace"], b"new");
        assert_eq!(folder.text(&["cat", "image", &path]), "new");
        assert!(holds(&folder, beside.as_bytes()), "{beside}");
        folder.good(&["rm", "image", &path, "--collect"], b"");
        folder.good(&["collect", "image"], b"");
    }
    // 1,024 bytes: with a longer name the path would be none
    let mut path = String::new();
    for (letter, length) in [("a", 255), ("b", 255), ("c", 255), ("d", 253)] {
        path += &format!("/{}", letter.repeat(length));
        folder.good(&["mkdir", "image", &path, "--collect"], b"");
    }
    path += "/f";
    assert_eq!(path.len(), 1024);
    folder.good(&["put", "image", &path], b"old");
    folder.good(&["put", "image", &path, "--replace"], b"new");
    assert!(holds(&folder, b"f.new"));
    assert_eq!(folder.text(&["cat", "image", &path]), "new");
}

#[test]
fn without_room_for_both_the_old_one_goes_first() {
    let folder = Folder::formatted("tight");
    folder.good(&["put", "image", "/dose"], &[1; 1000]);
    // behind header, root, name and block; a deletion, a name and a block fit, and nothing more
    let free = 4096 - 24 - 20 - 24 - 1024;
    let most = free - 20 - 24 - 2 * 24;
    let said = folder.refused(&["put", "image", "/dose", "--replace"], &vec![2; most + 1]);
    assert!(said.contains("put image /dose: refused with 15, "), "{said}");
    assert_eq!(folder.good(&["cat", "image", "/dose"], b""), [1; 1000]);
    folder.good(&["put", "image", "/dose", "--replace"], &vec![2; most]);
    assert_eq!(folder.good(&["cat", "image", "/dose"], b""), vec![2; most]);
    assert!(!holds(&folder, b"dose.new"));

    // with collections, which leave the old one's room
    for value in 3..=6 {
        folder.good(&["put", "image", "/dose", "--replace", "--collect"], &[value; 3900]);
        assert_eq!(folder.good(&["cat", "image", "/dose"], b""), [value; 3900]);
    }
    let said = folder.refused(&["put", "image", "/dose", "--replace", "--collect"], &[7; 4000]);
    assert!(said.contains("refused with 15, ") && said.contains(", also after "), "{said}");
    assert_eq!(folder.good(&["cat", "image", "/dose"], b""), [6; 3900]);
}

#[test]
fn where_there_is_room_for_both_it_is_made() {
    let folder = Folder::new("both");
    folder.good(&["format", "image", "--areas", "4096x3"], b"");
    folder.good(&["put", "image", "/dose"], &[0; 1500]);
    for value in 1..=20 {
        folder.good(&["put", "image", "/dose", "--replace", "--collect"], &[value; 1500]);
        assert_eq!(folder.good(&["cat", "image", "/dose"], b""), [value; 1500]);
        assert!(holds(&folder, b"dose.new"));
        assert_eq!(paths(&folder), ["/", "/dose"]);
    }
}

#[test]
fn what_is_refused_on_the_way_leaves_the_old_one() {
    let folder = Folder::new("on_the_way");
    // the old one cannot be deleted; two have the name; no collection is possible
    let last = image(&[inode(FILE, NONE, 0, b"a"), block(0x8000_0000, FILE, b"old")]);
    let twice = image(&[inode(FILE, 0, 0, b"a"), inode(FILE + 1, 0, 0, b"a")]);
    folder.good(&["format", "short", "--areas", "0:8192,8192:4096"], b"");
    folder.good(&["put", "short", "/a"], b"old");
    for (image, size, number) in [(last, 3, 16), (twice, 3, 10), (folder.bytes("short"), 5000, 17)]
    {
        folder.write("image", image);
        let said =
            folder.refused(&["put", "image", "/a", "--replace", "--collect"], &vec![7; size]);
        assert!(said.contains(&format!("refused with {number}, ")), "{said}");
        let output = folder.run(&["cat", "image", "/a"], b"");
        assert!(number == 10 || output.stdout == b"old");
    }
}

#[test]
fn ids_of_the_old_one_are_given_back() {
    let folder = Folder::new("replaced_ids");
    let others = (1..=254).map(|id| inode(id, 0, 0, id.to_string().as_bytes()));
    let all: Vec<_> = others.chain([inode(FILE, 0, 0, b"a")]).collect();
    folder.write("image", image_of(8192, &all));
    let said = folder.refused(&["put", "image", "/a", "--replace"], b"new");
    assert!(said.contains("refused with 5, "), "{said}");
    folder.good(&["put", "image", "/a", "--replace", "--collect"], b"new");
    assert_eq!(folder.text(&["cat", "image", "/a"]), "new");
}

#[test]
fn an_import_replaces_in_the_same_way() {
    let folder = Folder::formatted("import_beside");
    fs::create_dir(folder.path("tables")).unwrap();
    for (contents, beside) in [("old", false), ("new", true)] {
        folder.write("tables/dose", contents);
        folder.good(&["import", "image", "tables", "/tables", "--replace"], b"");
        assert_eq!(folder.text(&["cat", "image", "/tables/dose"]), contents);
        assert_eq!(holds(&folder, b"dose.new"), beside);
    }
    assert_eq!(paths(&folder), ["/", "/tables", "/tables/dose"]);
}
