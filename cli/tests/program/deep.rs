//! Paths that are longer than a path of one call, and those that are too long for any.

use crate::folder::Folder;
use crate::records::{block, image_of, inode};

const FILE: u32 = 0x1000_0000;

/// A path of names of 255 bytes each, of one letter.
fn path(letters: &str) -> String {
    letters.chars().map(|letter| format!("/{}", letter.to_string().repeat(255))).collect()
}

/// Directories from the root on, one in the other, and at the end a file; a name of 255 bytes each.
fn chain(letters: &str) -> Vec<Vec<u8>> {
    let name = |letter: char| letter.to_string().repeat(255).into_bytes();
    let last = letters.len() as u32 - 1;
    let record =
        |(letter, k): (char, u32)| inode(if k == last { FILE } else { k + 1 }, 0, k, &name(letter));
    let mut records: Vec<_> = letters.chars().zip(0..).map(record).collect();
    records.push(block(0x8000_0000, FILE, b"dose"));
    records
}

/// The page of `check`, with its status.
fn page(folder: &Folder, status: i32) -> String {
    let output = folder.run(&["check", "image"], b"");
    let page = String::from_utf8(output.stdout).unwrap();
    assert_eq!(output.status.code(), Some(status), "{page}");
    page
}

#[test]
fn what_a_base_and_a_path_can_say_is_listed_and_copied_out() {
    let folder = Folder::new("deep_listed");
    folder.write("image", image_of(8192, &chain("abcdefgh")));
    let listed = page(&folder, 0);
    assert!(listed.contains(&format!("\n          4  {}\n", path("abcdefgh"))), "{listed}");
    folder.good(&["export", "image", "out"], b"");
    assert_eq!(folder.bytes(&format!("out{}", path("abcdefgh"))), b"dose");
    // another command takes what one path can say
    let found = folder.text(&["lookup", "image", &path("abcd")]);
    assert_eq!(found, "directory 00000004\n");
    let said = folder.refused(&["lookup", "image", &path("abcde")], b"");
    assert!(said.contains("refused with 8, "), "{said}");
}

#[test]
fn what_is_too_long_is_not_advised_to_be_deleted() {
    let folder = Folder::new("deep_moved");
    let mut records = chain("pqrstuvabcdefgh");
    // an old name in the deepest directory that is reached, of what has another path by now
    records.push(inode(FILE + 1, 0, 8, &[b'x'; 255]));
    records.push(inode(FILE + 1, 1, 0, b"now"));
    folder.write("image", image_of(16384, &records));
    let told = page(&folder, 3);
    assert!(told.contains(&format!("\n  directory  {}\n", path("pqrstuva"))), "{told}");
    assert!(told.contains(&format!("\n   too long  {}\nToo long: ", path("pqrstuvab"))), "{told}");
    assert!(told.contains("`nffs mv` of a directory above to a shorter path brings it back"));
    assert!(!told.contains("Ambiguous: ") && !told.contains("xxx"), "{told}");
    let json = String::from_utf8(folder.run(&["check", "image", "--json"], b"").stdout).unwrap();
    let deep = format!("\"too_long\": [\n    {{\"path\": \"{}\", ", path("pqrstuvab"));
    assert!(json.contains(&deep) && json.contains("\n  \"unreached\": 7,\n"), "{json}");

    let output = folder.run(&["export", "image", "out", "-q"], b"");
    let said = String::from_utf8(output.stderr).unwrap();
    assert_eq!(output.status.code(), Some(4), "{said}");
    let left_out = format!("\n    {} (the path is too long)\n", path("pqrstuvab"));
    assert!(said.contains(&left_out), "{said}");
    assert!(said.ends_with("\n    7 without a path of their own\n"), "{said}");
    // below a directory it is told, too
    let output = folder.run(&["export", "image", "part", &path("p"), "-q"], b"");
    let said = String::from_utf8(output.stderr).unwrap();
    assert!(output.status.code() == Some(4) && said.contains(left_out.trim_end()), "{said}");

    // moved up, as it is advised, nothing is lost
    for (old, new, status) in [("pqrs", "s", 3), ("stuv", "v", 3), ("va", "a", 0)] {
        folder.good(&["mv", "image", &path(old), &path(new)], b"");
        page(&folder, status);
    }
    folder.good(&["export", "image", "all"], b"");
    assert_eq!(folder.bytes(&format!("all{}", path("abcdefgh"))), b"dose");
    assert_eq!(folder.bytes("all/now"), b"");
}

#[test]
fn an_old_name_of_what_has_another_path_by_now_is_not_told_as_too_long() {
    let folder = Folder::new("deep_old_names");
    // eight directories, one in the other; a file that had a long name in the last one is `/f` now
    let mut records: Vec<_> =
        (0..8).map(|k| inode(k + 1, 0, k, &[b"wtuabcde"[k as usize]; 255])).collect();
    records.push(inode(FILE, 0, 8, &[b'x'; 255]));
    records.push(inode(FILE, 1, 0, b"f"));
    records.push(block(0x8000_0000, FILE, b"dose"));
    folder.write("image", image_of(16384, &records));
    page(&folder, 0);
    folder.good(&["export", "image", "all", "-q"], b"");
    assert_eq!(folder.bytes("all/f"), b"dose");
    for (out, from) in [("one", "w"), ("two", "wtu")] {
        let output = folder.run(&["export", "image", out, &path(from)], b"");
        let said = String::from_utf8(output.stderr).unwrap();
        assert!(output.status.code() == Some(0) && !said.contains("left out"), "{said}");
    }

    // others are at an ambiguous path now, and below one
    records.push(inode(FILE + 1, 0, 8, &[b'y'; 255]));
    records.push(inode(FILE + 1, 1, 0, b"g"));
    records.push(inode(FILE + 2, 0, 0, b"g"));
    records.push(inode(20, 0, 0, b"d"));
    records.push(inode(21, 0, 0, b"d"));
    records.push(inode(FILE + 3, 0, 8, &[b'z'; 255]));
    records.push(inode(FILE + 3, 1, 20, b"n"));
    folder.write("image", image_of(16384, &records));
    let told = page(&folder, 3);
    assert!(told.contains("\n  ambiguous  /d\n  ambiguous  /g\n"), "{told}");
    assert!(!told.contains("too long") && !told.contains("Too long"), "{told}");
    folder.good(&["export", "image", "three", &path("w"), "-q"], b"");
}
