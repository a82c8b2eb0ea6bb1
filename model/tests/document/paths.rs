//! "Paths", lookup, and refusals 8 to 11 on a walk.

use nffs_model::layout::ROOT;
use nffs_model::path::names;

use crate::calls;
use crate::common::*;

/// The names of a path, if it is good; a lookup of it answers 8 exactly if not.
fn good(base: &[u8], path: &[u8]) -> Option<Vec<String>> {
    let flash = rooted(4096);
    let number = calls::lookup(&flash.image, &flash.areas, base, path).number;
    assert_eq!(number == 8, names(base, path).is_err(), "{base:?} {path:?}");
    let text = |name: &Vec<u8>| String::from_utf8_lossy(name).into_owned();
    names(base, path).ok().map(|names| names.iter().map(text).collect())
}

fn list(names: &[&str]) -> Option<Vec<String>> {
    Some(names.iter().map(|name| name.to_string()).collect())
}

#[test]
fn absolute_paths_do_not_look_at_the_base() {
    for base in [&b""[..], b"x", b"//", &[b'b'; 2000]] {
        assert_eq!(good(base, b"/"), list(&[]));
        assert_eq!(good(base, b"/a/./.."), list(&["a", ".", ".."]));
    }
}

#[test]
fn relative_paths_lie_below_the_base() {
    assert_eq!(good(b"/", b"a"), list(&["a"]));
    assert_eq!(good(b"/a", b"b/c"), list(&["a", "b", "c"]));
    for base in [&b""[..], b"a", b"/a/", b"//", b"/a\0"] {
        assert_eq!(good(base, b"b"), None, "{base:?}");
    }
    assert_eq!(good(b"/", b""), None);
    assert_eq!(good(b"/a", b""), None);
}

#[test]
fn bad_paths() {
    for path in [&b"//"[..], b"//a", b"/a/", b"/a//b", b"/\0", b"/a\0b", b"a/", b"a//b", b"\0"] {
        assert_eq!(good(b"/", path), None, "{path:?}");
    }
}

#[test]
fn limits_of_names_and_paths() {
    let long = |lengths: &[usize]| -> Vec<u8> {
        lengths.iter().flat_map(|n| [b"/".to_vec(), vec![b'n'; *n]].concat()).collect()
    };
    assert!(good(b"", &long(&[255])).is_some());
    assert!(good(b"", &long(&[256])).is_none());
    let whole = long(&[255, 255, 255, 255]);
    assert_eq!(whole.len(), 1024);
    assert!(good(b"", &whole).is_some());
    let over = long(&[255, 255, 255, 254, 1]);
    assert_eq!(over.len(), 1025);
    assert!(good(b"", &over).is_none());
    assert!(good(&whole, &whole[1..]).is_some());
    assert!(good(&over, b"a").is_none());
    assert!(good(b"/", &[&over[2..], b"n"].concat()).is_some());
    assert!(good(b"/", &over[1..]).is_some());
    assert!(good(b"/", &[&over[1..], b"n"].concat()).is_none());
}

/// /d, /d/a (file), /twice (file), /twice (directory), /twice/x below one.
fn tree() -> nffs_model::forge::Flash {
    let mut flash = rooted(4096);
    flash.inode(1, 1, 0, ROOT, b"d");
    flash.inode(1, A, 0, 1, b"a");
    flash.inode(1, 2, 0, ROOT, b"twice");
    flash.inode(1, B, 0, ROOT, b"twice");
    flash.inode(1, B + 1, 0, 2, b"x");
    flash
}

#[test]
fn a_lookup_gives_id_and_kind() {
    let flash = tree();
    let found = lookup(&flash, "/");
    assert_eq!((found.number, found.id, found.kind), (0, 0, 0));
    let found = lookup(&flash, "/d");
    assert_eq!((found.number, found.id, found.kind), (0, 1, 0));
    let found = lookup(&flash, "/d/a");
    assert_eq!((found.number, found.id, found.kind), (0, A, 1));
    let below = calls::lookup(&flash.image, &flash.areas, b"/d", b"a");
    assert_eq!((below.number, below.id, below.kind), (0, A, 1));
}

#[test]
fn the_first_failing_step_decides() {
    let flash = tree();
    assert_eq!(find(&flash, "/no"), Err(9));
    assert_eq!(find(&flash, "/no/twice"), Err(9));
    assert_eq!(find(&flash, "/twice"), Err(10));
    assert_eq!(find(&flash, "/twice/x"), Err(10));
    assert_eq!(find(&flash, "/d/a/x"), Err(11));
    assert_eq!(find(&flash, "/d/a/x/y"), Err(11));
    assert_eq!(find(&flash, "/d/no"), Err(9));
}

#[test]
fn open_of_a_directory() {
    let flash = tree();
    assert_eq!(contents(&flash, "/"), Err(11));
    assert_eq!(contents(&flash, "/d"), Err(11));
    assert_eq!(contents(&flash, "/twice"), Err(10));
    assert_eq!(contents(&flash, "/d/a"), Ok(vec![]));
}

/// 8 comes before any walk.
#[test]
fn eight_before_the_walk() {
    let mut flash = tree();
    assert_eq!(find(&flash, "/no/"), Err(8));
    assert_eq!(append(&mut flash, "/no", &[0; 9000]), 8);
    assert_eq!(append(&mut flash, "/twice", &[0; 8193]), 8);
    assert_eq!(append(&mut flash, "/d", &[0; 8193]), 8);
    assert_eq!(append(&mut flash, "/no", &[0; 8192]), 9);
    assert_eq!(append(&mut flash, "/twice", &[0; 8192]), 10);
    assert_eq!(append(&mut flash, "/d", &[0; 8192]), 11);
    assert_eq!(append(&mut flash, "/", b""), 11);
    assert_eq!(create(&mut flash, "/no//x", 1), Err(8));
    assert_eq!(unlink(&mut flash, "no"), 8);
}

#[test]
fn the_root_is_neither_created_nor_unlinked() {
    let mut flash = tree();
    assert_eq!(create(&mut flash, "/", 0), Err(8));
    assert_eq!(create(&mut flash, "/", 1), Err(8));
    assert_eq!(unlink(&mut flash, "/"), 8);
}

/// Dead and orphan children aren't found.
#[test]
fn only_live_children() {
    let mut flash = rooted(4096);
    flash.inode(1, A, 0, ROOT, b"a");
    flash.delete(1, A, 1);
    flash.inode(1, B, 0, ROOT, b"a");
    assert_eq!(find(&flash, "/a"), Ok(B));
    flash.inode(1, 5, 0, 5, b"loop");
    assert_eq!(find(&flash, "/loop"), Err(9));
}
