//! "Rename and move" (document 02, T-01): refusals 8 to 12, 15, 16 and 18.

use nffs_model::forge::{with_reserved, Flash};
use nffs_model::layout::{Block, Inode, NONE, ROOT};

use crate::calls;
use crate::common::*;

/// /d (1) with /d/e (2), /d/e/g (3) and the file /d/e/f (A, "dose"); the file /a
/// (B, "0.5"); /z (4), empty.
fn tree() -> Flash {
    let mut flash = rooted(4096);
    flash.inode(1, 1, 0, ROOT, b"d");
    flash.inode(1, 2, 0, 1, b"e");
    flash.inode(1, 3, 0, 2, b"g");
    flash.inode(1, A, 0, 2, b"f");
    flash.block(1, BLOCK, 0, A, NONE, b"do");
    flash.block(1, BLOCK + 1, 0, A, BLOCK, b"se");
    flash.inode(1, B, 0, ROOT, b"a");
    flash.block(1, BLOCK + 2, 0, B, NONE, b"0.5");
    flash.inode(1, 4, 0, ROOT, b"z");
    flash
}

/// The tree with a directory and a file besides that are both named /twice.
fn ambiguous() -> Flash {
    let mut flash = tree();
    flash.inode(1, 5, 0, ROOT, b"twice");
    flash.inode(1, B + 1, 0, ROOT, b"twice");
    flash
}

/// "the inode is rewritten with the same id, sequence plus one, and the new parent
/// and name": this record, behind all others, and no other byte.
#[test]
fn the_record() {
    let moves = [("/a", "/d/e/new", B, 2), ("/d/e", "/z/e", 2, 4), ("/d/e/f", "/f", A, ROOT)];
    for (old, new, id, parent) in moves {
        let mut flash = tree();
        let (before, next) = (area(&flash, 1), flash.next(1));
        assert_eq!(rename(&mut flash, old, new), 0);
        let name = new.rsplit('/').next().expect("a name").as_bytes();
        let record = Inode::new(id, 1, parent, name).bytes();
        let end = next + record.len();
        let expected = [&before[..next], &record, &before[end..]].concat();
        assert_eq!(area(&flash, 1), expected, "{old} to {new}");
        assert_eq!((find(&flash, new), find(&flash, old)), (Ok(id), Err(9)));
    }
}

/// Renamed again and again: the sequence goes on.
#[test]
fn sequences_go_on() {
    let mut flash = rooted(4096);
    flash.inode(1, A, 41, ROOT, b"0");
    for k in 0..50u32 {
        let next = 24 + 20 + 21 + (0..k).map(|k| 20 + (k + 1).to_string().len()).sum::<usize>();
        assert_eq!(rename(&mut flash, &format!("/{k}"), &format!("/{}", k + 1)), 0);
        let record = Inode::new(A, 42 + k, ROOT, (k + 1).to_string().as_bytes()).bytes();
        assert_eq!(&area(&flash, 1)[next..next + record.len()], &record[..]);
    }
    assert_eq!((report(&flash).inodes, report(&flash).live), (2, 2));
}

/// "it goes where any new record goes": a damaged area waits, a full one is passed
/// over, and the old record's area isn't asked.
#[test]
fn where_the_record_goes() {
    let mut flash = Flash::of(&[256, 256, 256, 256]);
    flash.root(1);
    flash.inode(1, A, 0, ROOT, b"a");
    flash.put(1, b"torn");
    fill(&mut flash, 2, 21);
    assert_eq!(rename(&mut flash, "/a", "/long"), 0);
    assert_eq!(rename(&mut flash, "/long", "/s"), 0);
    let long = Inode::new(A, 1, ROOT, b"long").bytes();
    let short = Inode::new(A, 2, ROOT, b"s").bytes();
    assert_eq!(&area(&flash, 3)[24..48], &long[..]);
    assert_eq!(&area(&flash, 2)[235..], &short[..]);
    assert!(area(&flash, 1)[69..].iter().all(|byte| *byte == 0xff));
    assert_eq!(find(&flash, "/s"), Ok(A));
}

/// What a reader finds at "table" and at "table.new".
fn tables(flash: &Flash) -> [Result<Vec<u8>, u32>; 2] {
    [contents(flash, "/table"), contents(flash, "/table.new")]
}

/// "Our updater writes "table.new" and must swap it in." What a reader finds at
/// each point between.
#[test]
fn the_updaters_story() {
    let mut flash = formatted(&[4096, 4096, 4096]);
    assert_eq!(create(&mut flash, "/table", 1), Ok(A));
    assert_eq!(append(&mut flash, "/table", b"old"), 0);
    for (k, table) in [b"first", b"again"].into_iter().enumerate() {
        let old = contents(&flash, "/table");
        let id = create(&mut flash, "/table.new", 1).expect("a new file");
        assert_eq!(id, B + k as u32);
        assert_eq!(tables(&flash), [old.clone(), Ok(vec![])]);
        assert_eq!(append(&mut flash, "/table.new", &table[..2]), 0);
        assert_eq!(append(&mut flash, "/table.new", &table[2..]), 0);
        assert_eq!(tables(&flash), [old.clone(), Ok(table.to_vec())]);
        // Not before the old one is gone.
        assert_eq!(rename(&mut flash, "/table.new", "/table"), 12);
        assert_eq!(unlink(&mut flash, "/table"), 0);
        assert_eq!(tables(&flash), [Err(9), Ok(table.to_vec())]);
        assert_eq!(rename(&mut flash, "/table.new", "/table"), 0);
        assert_eq!(tables(&flash), [Ok(table.to_vec()), Err(9)]);
        assert_eq!(find(&flash, "/table"), Ok(id));
    }
    for _ in 0..4 {
        assert_eq!(collect(&mut flash), 0);
        assert_eq!(tables(&flash), [Ok(b"again".to_vec()), Err(9)]);
    }
}

/// Power lost while a record of the story is written: so many bytes of it are
/// there. The rename's record in part leaves the old name.
#[test]
fn the_story_cut_short() {
    let mut flash = formatted(&[4096, 4096]);
    assert_eq!(create(&mut flash, "/table.new", 1), Ok(A));
    assert_eq!(append(&mut flash, "/table.new", b"data"), 0);
    let before = flash.clone();
    assert_eq!(rename(&mut flash, "/table.new", "/table"), 0);
    let record = Inode::new(A, 1, ROOT, b"table").bytes();
    let at = 4096 + 24 + 20 + 29 + 28;
    assert_eq!(&flash.image[at..at + 25], &record[..]);
    for bytes in 0..25 {
        let mut cut = before.clone();
        cut.image[at..at + bytes].copy_from_slice(&record[..bytes]);
        assert_eq!(tables(&cut), [Err(9), Ok(b"data".to_vec())], "{bytes} bytes");
        assert_eq!(report(&cut).stretches, u32::from(bytes > 0));
        assert_eq!(rename(&mut cut, "/table.new", "/table"), if bytes > 0 { 15 } else { 0 });
    }
}

/// "Everything that isn't the moved object or below it keeps its path and
/// contents. The moved file keeps its contents."
#[test]
fn a_file_moved() {
    for new in ["/d/a", "/z/b", "/d/e/g/long name.", "/A"] {
        let mut flash = tree();
        assert_eq!(rename(&mut flash, "/a", new), 0);
        assert_eq!((find(&flash, "/a"), contents(&flash, new)), (Err(9), Ok(b"0.5".to_vec())));
        assert_eq!(find(&flash, new), Ok(B));
        for (path, id) in [("/", ROOT), ("/d", 1), ("/d/e", 2), ("/d/e/g", 3), ("/z", 4)] {
            assert_eq!(find(&flash, path), Ok(id), "{path}");
        }
        assert_eq!(contents(&flash, "/d/e/f"), Ok(b"dose".to_vec()));
        assert_eq!((report(&flash).inodes, report(&flash).live), (7, 7));
    }
}

/// A handle is an id: it reads on.
#[test]
fn a_handle_stays() {
    let mut flash = tree();
    let before = read(&flash, A, 1, 2);
    assert_eq!(rename(&mut flash, "/d/e/f", "/moved"), 0);
    assert_eq!(read(&flash, A, 1, 2), before);
    assert_eq!(before.1, b"os");
}

/// A directory moves with its contents: into another, to the root, up out of its
/// parent.
#[test]
fn a_directory_moved() {
    for (old, new) in [("/d/e", "/z/e"), ("/d/e", "/e"), ("/d", "/z/d"), ("/d", "/D")] {
        let mut flash = tree();
        let below = |top: &str| [format!("{top}/g"), format!("{top}/f"), format!("{top}/no")];
        let top = |path: &str| if old == "/d" { format!("{path}/e") } else { path.to_string() };
        let [g, f, no] = below(&top(new));
        assert_eq!(rename(&mut flash, old, new), 0);
        assert_eq!((find(&flash, &top(new)), find(&flash, &g)), (Ok(2), Ok(3)), "{old}, {new}");
        assert_eq!((find(&flash, &f), find(&flash, &no)), (Ok(A), Err(9)));
        assert_eq!(contents(&flash, &f), Ok(b"dose".to_vec()));
        for path in below(&top(old)).iter().chain([&top(old), &old.to_string()]) {
            assert_eq!(find(&flash, path), Err(9), "{path}");
        }
        assert_eq!(contents(&flash, "/a"), Ok(b"0.5".to_vec()));
        assert_eq!((report(&flash).inodes, report(&flash).live), (7, 7));
    }
}

/// The tree turned over: a child moved out, its former parent into it, and back.
#[test]
fn parent_and_child_change_places() {
    let mut flash = tree();
    assert_eq!(rename(&mut flash, "/d", "/d/e/d"), 18);
    assert_eq!(rename(&mut flash, "/d/e", "/e"), 0);
    assert_eq!(rename(&mut flash, "/d", "/e/d"), 0);
    assert_eq!(
        (find(&flash, "/e/d"), find(&flash, "/e/g"), find(&flash, "/d")),
        (Ok(1), Ok(3), Err(9))
    );
    assert_eq!(rename(&mut flash, "/e", "/e/d/e"), 18);
    assert_eq!(rename(&mut flash, "/e/d", "/d"), 0);
    assert_eq!(rename(&mut flash, "/e", "/d/e"), 0);
    assert_eq!(contents(&flash, "/d/e/f"), Ok(b"dose".to_vec()));
    assert_eq!(report(&flash).live, 7);
}

/// One base serves both paths; an absolute path doesn't look at it.
#[test]
fn one_base_for_both_paths() {
    let moves = [
        ("/d/e", "f", "h", "/d/e/h"),
        ("/d", "e/f", "f", "/d/f"),
        ("/", "d/e/f", "z/f", "/z/f"),
        ("/d/e", "f", "/h", "/h"),
        ("/z", "/d/e/f", "h", "/z/h"),
        ("//", "/d/e/f", "/h", "/h"),
    ];
    for (base, old, new, path) in moves {
        let mut flash = tree();
        assert_eq!(rename_below(&mut flash, base, old, new), 0, "{base} {old} {new}");
        assert_eq!((find(&flash, path), find(&flash, "/d/e/f")), (Ok(A), Err(9)));
    }
    let mut flash = tree();
    // Neither path has a base of its own.
    assert_eq!(rename_below(&mut flash, "/d/e", "f", "e/h"), 9);
    assert_eq!(rename_below(&mut flash, "/z", "f", "h"), 9);
    for base in ["", "d", "/d/", "//", "/d\0"] {
        assert_eq!(rename_below(&mut flash, base, "/a", "b"), 8, "{base:?}");
        assert_eq!(rename_below(&mut flash, base, "a", "/b"), 8, "{base:?}");
        assert_eq!(rename_below(&mut flash, base, "no", "no"), 8, "{base:?}");
    }
}

/// Names of up to 255 bytes, and paths of up to 1,024 each.
#[test]
fn the_longest_names() {
    let mut flash = tree();
    let name = "n".repeat(255);
    assert_eq!(rename(&mut flash, "/a", &format!("/{name}n")), 8);
    assert_eq!(rename(&mut flash, "/a", &format!("/{name}")), 0);
    assert_eq!(contents(&flash, &format!("/{name}")), Ok(b"0.5".to_vec()));
    assert_eq!(rename(&mut flash, &format!("/{name}"), "/d/."), 0);
    assert_eq!(rename(&mut flash, "/d/.", "/d/.."), 0);
    assert_eq!(contents(&flash, "/d/.."), Ok(b"0.5".to_vec()));
    let long = format!("{}a", "/nn".repeat(341));
    assert_eq!((long.len(), rename(&mut flash, "/a", &long)), (1024, 9));
    let longer = format!("{long}n");
    for (old, new) in [("/no", &longer[..]), (&longer, "/no"), ("/d", &longer)] {
        assert_eq!(rename(&mut flash, old, new), 8);
    }
}

/// "Refusals 8 to 12 ... apply". 8 of either path comes before any walk.
#[test]
fn eight_before_the_walks() {
    let mut flash = ambiguous();
    for bad in ["", "//", "/a/", "/a//b", "/a\0", "/no/", "b"] {
        for good in ["/a", "/no", "/twice", "/a/b", "/d", "/d/x", "/"] {
            assert_eq!(rename(&mut flash, bad, good), 8, "{bad:?} to {good}");
            assert_eq!(rename(&mut flash, good, bad), 8, "{good} to {bad:?}");
        }
        assert_eq!(rename(&mut flash, bad, bad), 8);
    }
}

/// "A new path "/" is 8", whatever the old one is.
#[test]
fn the_root_as_new_path() {
    let mut flash = ambiguous();
    for old in ["/a", "/d", "/d/e/f", "/no", "/twice", "/a/b", "/"] {
        assert_eq!(rename(&mut flash, old, "/"), 8, "{old}");
    }
}

/// 9, 10 and 11 of the old path: "the first failing step decides".
#[test]
fn the_old_path_walked() {
    let mut flash = ambiguous();
    let numbers = [
        ("/no", 9),
        ("/d/no", 9),
        ("/no/twice", 9),
        ("/twice", 10),
        ("/twice/x", 10),
        ("/a/x", 11),
        ("/a/x/y", 11),
        ("/d/e/f/x", 11),
    ];
    for (old, number) in numbers {
        assert_eq!(rename(&mut flash, old, "/new"), number, "{old}");
    }
}

/// 9, 10 and 11 of the new path's names but the last; "the new parent being a file
/// is 11", and "the new name being there is 12", once or oftener.
#[test]
fn the_new_path_walked() {
    let mut flash = ambiguous();
    let numbers = [
        ("/no/x", 9),
        ("/d/no/x", 9),
        ("/no/twice/x", 9),
        ("/twice/x", 10),
        ("/twice/x/y", 10),
        ("/a/x", 11),
        ("/a/x/y", 11),
        ("/d/e/f/x", 11),
        ("/a", 12),
        ("/z", 12),
        ("/d/e", 12),
        ("/d/e/f", 12),
        ("/twice", 12),
    ];
    for old in ["/a", "/d", "/d/e/f", "/z"] {
        for (new, number) in numbers {
            assert_eq!(rename(&mut flash, old, new), number, "{old} to {new}");
        }
    }
}

/// "The old path is walked first."
#[test]
fn the_old_path_before_the_new_one() {
    let mut flash = ambiguous();
    for (old, number) in [("/no", 9), ("/twice", 10), ("/a/x", 11)] {
        for new in ["/no/x", "/twice/x", "/a/x", "/a", "/twice", "/z/x", old] {
            assert_eq!(rename(&mut flash, old, new), number, "{old} to {new}");
        }
        // Not 18: the names alone don't say what would be moved.
        assert_eq!(rename(&mut flash, old, &format!("{old}/x")), number);
    }
}

/// The present name is there: 12, of a file and of a directory.
#[test]
fn the_present_name() {
    let mut flash = tree();
    for path in ["/a", "/d", "/d/e", "/d/e/f", "/z"] {
        assert_eq!(rename(&mut flash, path, path), 12, "{path}");
    }
    assert_eq!(rename_below(&mut flash, "/d", "e", "/d/e"), 12);
}

/// 12 counts live children only: of the dead, of orphans and of older versions the
/// names are free.
#[test]
fn names_that_are_free() {
    let mut flash = tree();
    flash.inode(1, B + 1, 0, ROOT, b"dead");
    flash.delete(1, B + 1, 1);
    flash.inode(1, B + 2, 0, 9, b"orphan");
    flash.inode(1, B + 3, 0, ROOT, b"earlier");
    flash.inode(1, B + 3, 1, ROOT, b"now");
    for (old, new) in [("/a", "/dead"), ("/dead", "/orphan"), ("/orphan", "/earlier")] {
        assert_eq!(rename(&mut flash, old, new), 0, "{new}");
    }
    assert_eq!(rename(&mut flash, "/earlier", "/now"), 12);
    // The old name is free again, and the id isn't.
    assert_eq!(rename(&mut flash, "/now", "/a"), 0);
    assert_eq!(create(&mut flash, "/now", 1), Ok(B + 4));
    assert_eq!(contents(&flash, "/earlier"), Ok(b"0.5".to_vec()));
}

/// "Moving a directory below itself": by one, two and three names.
#[test]
fn a_directory_below_itself() {
    let mut flash = tree();
    let refused = [
        ("/d", "/d/x"),
        ("/d", "/d/e/x"),
        ("/d", "/d/e/g/x"),
        ("/d/e", "/d/e/x"),
        ("/d/e", "/d/e/g/x"),
        ("/d/e/g", "/d/e/g/g"),
        ("/z", "/z/z"),
    ];
    for (old, new) in refused {
        assert_eq!(rename(&mut flash, old, new), 18, "{old} to {new}");
    }
    assert_eq!(rename_below(&mut flash, "/d/e", "g", "g/x"), 18);
    // Beside itself and above itself it may go.
    assert_eq!(rename(&mut flash, "/d/e/g", "/d/e/G"), 0);
    assert_eq!(rename(&mut flash, "/d/e/G", "/d/g"), 0);
    assert_eq!(rename(&mut flash, "/d/e", "/d/g/e"), 0);
    assert_eq!(contents(&flash, "/d/g/e/f"), Ok(b"dose".to_vec()));
}

/// "checked after 12": the new path's 9 to 12 come before 18.
#[test]
fn eighteen_after_the_new_walk() {
    let mut flash = tree();
    flash.inode(1, 5, 0, 1, b"twice");
    flash.inode(1, B + 1, 0, 1, b"twice");
    for (new, number) in [("/d/e", 12), ("/d/e/f", 12), ("/d/e/g", 12), ("/d/twice", 12)] {
        assert_eq!(rename(&mut flash, "/d", new), number, "{new}");
    }
    for (new, number) in [("/d/no/x", 9), ("/d/twice/x", 10), ("/d/e/f/x", 11)] {
        assert_eq!(rename(&mut flash, "/d", new), number, "{new}");
    }
}

/// A file whose path begins the new one: nothing lies below it, 11.
#[test]
fn a_file_below_itself() {
    let mut flash = tree();
    assert_eq!(rename(&mut flash, "/a", "/a/x"), 11);
    assert_eq!(rename(&mut flash, "/d/e/f", "/d/e/f/x"), 11);
    assert_eq!(rename(&mut flash, "/a", "/a/x/y"), 11);
}

/// Names decide, not bytes: "/d" doesn't begin "/dd/x".
#[test]
fn a_name_that_begins_another() {
    let mut flash = tree();
    assert_eq!(rename(&mut flash, "/z", "/dd"), 0);
    assert_eq!(rename(&mut flash, "/d", "/dd/d"), 0);
    assert_eq!(contents(&flash, "/dd/d/e/f"), Ok(b"dose".to_vec()));
    assert_eq!(rename(&mut flash, "/dd", "/d"), 0);
    assert_eq!(contents(&flash, "/d/d/e/f"), Ok(b"dose".to_vec()));
}

/// "or the root": 18, after 9 to 12 of the new path.
#[test]
fn the_root_moved() {
    let mut flash = ambiguous();
    for new in ["/new", "/d/new", "/d/e/g/new"] {
        assert_eq!(rename(&mut flash, "/", new), 18, "{new}");
    }
    let refused =
        [("/a", 12), ("/d/e", 12), ("/twice", 12), ("/no/x", 9), ("/twice/x", 10), ("/a/x", 11)];
    for (new, number) in refused {
        assert_eq!(rename(&mut flash, "/", new), number, "{new}");
    }
    let mut bare = rooted(128);
    assert_eq!(rename(&mut bare, "/", "/new"), 18);
}

/// 254 directories below itself: as deep as the table lets one be.
#[test]
fn the_deepest_below_itself() {
    let mut flash = rooted(16_384);
    for id in 1..=255 {
        assert!(flash.inode(1, id, 0, id - 1, b"d"));
    }
    let path = |depth: usize| "/d".repeat(depth);
    assert_eq!(find(&flash, &path(255)), Ok(255));
    for depth in 1..=255 {
        assert_eq!(rename(&mut flash, "/d", &format!("{}/x", path(depth))), 18, "{depth}");
        assert_eq!(rename(&mut flash, &path(depth), &format!("{}/x", path(255))), 18);
    }
    assert_eq!(rename(&mut flash, &path(255), "/x"), 0);
    assert_eq!(rename(&mut flash, "/d", "/x/d"), 0);
    assert_eq!((find(&flash, "/x/d"), report(&flash).live), (Ok(1), 256));
}

/// "16": sequence ffffffff; from the one before it the record has the last.
#[test]
fn the_last_sequence() {
    let mut flash = rooted(4096);
    flash.inode(1, A, LAST - 1, ROOT, b"a");
    assert_eq!(rename(&mut flash, "/a", "/b"), 0);
    assert_eq!(&area(&flash, 1)[65..86], &Inode::new(A, LAST, ROOT, b"b").bytes()[..]);
    assert_eq!(rename(&mut flash, "/b", "/c"), 16);
    assert_eq!(rename(&mut flash, "/b", "/b"), 12);
    assert_eq!(unlink(&mut flash, "/b"), 16);
    assert_eq!(find(&flash, "/b"), Ok(A));
}

/// 12, 18, 16, 15 in this order.
#[test]
fn eighteen_sixteen_fifteen() {
    let mut flash = Flash::of(&[512, 512]);
    flash.inode(1, ROOT, LAST, NONE, b"");
    flash.inode(1, 1, LAST, ROOT, b"d");
    flash.inode(1, 2, 0, 1, b"e");
    flash.inode(1, A, LAST, ROOT, b"a");
    flash.inode(1, B, 0, ROOT, b"b");
    let numbers = [("/d", "/d/e", 12), ("/d", "/d/x", 18), ("/d", "/x", 16), ("/a", "/d/e/x", 16)];
    let others = [("/a", "/b", 12), ("/", "/a", 12), ("/", "/x", 18), ("/d", "/d/e/x", 18)];
    for leave in [100, 21, 20, 0] {
        let mut flash = flash.clone();
        fill(&mut flash, 1, leave);
        for (old, new, number) in numbers.into_iter().chain(others) {
            assert_eq!(rename(&mut flash, old, new), number, "{old} to {new}");
        }
        assert_eq!(rename(&mut flash, "/b", "/x"), if leave > 20 { 0 } else { 15 });
    }
}

/// 15 by one byte; a record may fill the free space exactly.
#[test]
fn fifteen_by_one_byte() {
    for length in [1, 2, 60, 254, 255] {
        for (leave, number) in [(20 + length, 0), (19 + length, 15)] {
            let mut flash = rooted(1024);
            flash.inode(1, A, 0, ROOT, b"a");
            fill(&mut flash, 1, leave);
            let new = format!("/{}", "n".repeat(length));
            assert_eq!(rename(&mut flash, "/a", &new), number, "{length}");
            assert_eq!(find(&flash, &new).is_ok(), number == 0);
            assert_eq!(report(&flash).stretches, 0);
        }
    }
}

/// No clean area; a collection makes one.
#[test]
fn no_clean_area() {
    let mut flash = tree();
    flash.put(1, b"torn");
    assert_eq!(rename(&mut flash, "/a", "/b"), 15);
    assert_eq!(rename(&mut flash, "/d", "/d/x"), 18);
    assert_eq!(collect(&mut flash), 0);
    assert_eq!(rename(&mut flash, "/a", "/b"), 0);
    assert_eq!(contents(&flash, "/b"), Ok(b"0.5".to_vec()));
}

/// No id is new: with 256 inode ids and 1,024 block ids it is never 5.
#[test]
fn full_tables() {
    let mut flash = rooted(32_768);
    flash.inode(1, A, 0, ROOT, b"a");
    inodes_up_to(&mut flash, 2, 256);
    blocks_up_to(&mut flash, A, 0, 1024);
    assert_eq!(create(&mut flash, "/b", 1), Err(5));
    assert_eq!(rename(&mut flash, "/a", "/b"), 0);
    assert_eq!(contents(&flash, "/b"), Ok(vec![b'd'; 1024]));
    assert_eq!((report(&flash).inodes, report(&flash).live), (256, 256));
}

/// "13 read or append of a broken file; no other call minds".
#[test]
fn a_broken_file() {
    let mut flash = rooted(4096);
    flash.inode(1, A, 0, ROOT, b"a");
    flash.block(1, BLOCK, 0, A, BLOCK + 9, b"broken");
    assert_eq!(rename(&mut flash, "/a", "/b"), 0);
    assert_eq!((find(&flash, "/b"), contents(&flash, "/b")), (Ok(A), Err(13)));
}

/// Checks 1 to 7 come before 8.
#[test]
fn checks_before_eight() {
    let refused = |flash: &mut Flash, number: u32| {
        for (old, new) in [("/a", "/b"), ("", "/"), ("/no", "/b")] {
            assert_eq!(rename(flash, old, new), number, "{old} to {new}");
        }
    };
    let mut flash = tree();
    flash.areas[0] = 1;
    refused(&mut flash, 1);
    let mut flash = Flash::of(&[256, 256, 256]);
    flash.root(1);
    flash.head(2, 0, 0, 0);
    refused(&mut flash, 2);
    flash.head(2, 0, 0, 255);
    refused(&mut flash, 3);
    let mut flash = Flash::of(&[256, 300]);
    flash.root(1);
    refused(&mut flash, 4);
    let mut flash = rooted(8192);
    inodes_up_to(&mut flash, 1, 257);
    refused(&mut flash, 5);
    let mut flash = tree();
    flash.inode(1, A, 0, ROOT, b"clash");
    refused(&mut flash, 6);
    refused(&mut Flash::of(&[256, 256]), 7);
}

/// The image with one bit of a record in area 1 flipped.
fn flipped(flash: &Flash, byte: usize, bit: usize) -> Flash {
    let mut damaged = flash.clone();
    let at = damaged.offset(1) + byte;
    damaged.image[at] ^= 1 << bit;
    damaged
}

/// "A damaged rename record may bring the old name back": any one bit of it does.
#[test]
fn a_damaged_record_brings_the_old_name_back() {
    let mut flash = tree();
    let start = flash.next(1);
    assert_eq!(rename(&mut flash, "/a", "/d/new"), 0);
    for byte in start..start + 23 {
        for bit in 0..8 {
            let damaged = flipped(&flash, byte, bit);
            assert_eq!(find(&damaged, "/d/new"), Err(9), "byte {byte}, bit {bit}");
            assert_eq!(contents(&damaged, "/a"), Ok(b"0.5".to_vec()));
            let r = report(&damaged);
            assert_eq!((r.live, r.stretches, r.skipped), (7, 1, 23));
        }
    }
}

/// The whole of a directory comes back with its old name; also for a reserved byte
/// alone (T-14).
#[test]
fn a_damaged_record_of_a_directory() {
    let mut flash = tree();
    let start = flash.offset(1) + flash.next(1);
    assert_eq!(rename(&mut flash, "/d/e", "/z/moved"), 0);
    let odd = with_reserved(&Inode::new(2, 1, 4, b"moved").bytes(), 1);
    flash.image[start..start + odd.len()].copy_from_slice(&odd);
    assert_eq!((find(&flash, "/z/moved"), find(&flash, "/z/moved/f")), (Err(9), Err(9)));
    assert_eq!((find(&flash, "/d/e"), contents(&flash, "/d/e/f")), (Ok(2), Ok(b"dose".to_vec())));
}

/// "or the answer 10": where the old name is another's by now.
#[test]
fn a_damaged_record_gives_ten() {
    let mut flash = tree();
    let start = flash.next(1);
    assert_eq!(rename(&mut flash, "/a", "/b"), 0);
    assert_eq!(create(&mut flash, "/a", 1), Ok(B + 1));
    let damaged = flipped(&flash, start + 20, 0);
    assert_eq!((find(&damaged, "/a"), find(&damaged, "/b")), (Err(10), Err(9)));
    assert_eq!(contents(&damaged, "/a"), Err(10));
    // By id both are read as before.
    assert_eq!(
        (read(&damaged, B, 0, 9).1, read(&damaged, B + 1, 0, 9).1),
        (b"0.5".to_vec(), vec![])
    );
    // By a second rename too.
    let mut flash = tree();
    assert_eq!(rename(&mut flash, "/a", "/b"), 0);
    assert_eq!(rename(&mut flash, "/z", "/a"), 0);
    assert_eq!(find(&flipped(&flash, start + 20, 0), "/a"), Err(10));
}

/// "may": where the old record is collected by now, or its directory unlinked,
/// nothing has the old name, and by id nothing is read.
#[test]
fn a_damaged_record_leaves_nothing() {
    let mut flash = tree();
    assert_eq!(rename(&mut flash, "/a", "/b"), 0);
    assert_eq!(collect(&mut flash), 0);
    let record = Inode::new(B, 1, ROOT, b"b").bytes();
    let at = flash.image.windows(record.len()).position(|bytes| bytes == record).expect("a copy");
    flash.image[at] ^= 1;
    let names = ["/a", "/b"].map(|path| find(&flash, path));
    assert_eq!((names, read(&flash, B, 0, 9).0.number, report(&flash).inodes), ([Err(9); 2], 9, 6));

    let mut flash = tree();
    let start = flash.next(1);
    assert_eq!(rename(&mut flash, "/d/e/f", "/f"), 0);
    assert_eq!(unlink(&mut flash, "/d"), 0);
    assert_eq!(contents(&flash, "/f"), Ok(b"dose".to_vec()));
    let damaged = flipped(&flash, start + 20, 0);
    assert_eq!((find(&damaged, "/f"), read(&damaged, A, 0, 9).0.number), (Err(9), 9));
}

/// The updater's: with the unlink's record damaged "table" is there twice, 10; with
/// the rename's damaged besides, the old table alone.
#[test]
fn the_updaters_records_damaged() {
    let mut flash = rooted(4096);
    flash.inode(1, A, 0, ROOT, b"table");
    flash.inode(1, B, 0, ROOT, b"table.new");
    flash.block(1, BLOCK, 0, A, NONE, b"old");
    flash.block(1, BLOCK + 1, 0, B, NONE, b"new");
    let start = flash.next(1);
    assert_eq!(unlink(&mut flash, "/table"), 0);
    assert_eq!(rename(&mut flash, "/table.new", "/table"), 0);
    assert_eq!(tables(&flash), [Ok(b"new".to_vec()), Err(9)]);
    let undeleted = flipped(&flash, start + 4, 0);
    assert_eq!(tables(&undeleted), [Err(10), Err(9)]);
    let neither = flipped(&undeleted, start + 20 + 4, 0);
    assert_eq!(tables(&neither), [Ok(b"old".to_vec()), Ok(b"new".to_vec())]);
    let unnamed = flipped(&flash, start + 20 + 4, 0);
    assert_eq!(tables(&unnamed), [Err(9), Ok(b"new".to_vec())]);
}

/// Older records of a renamed inode in another area: collections of either area
/// leave the new name, and after an unlink no name comes back.
#[test]
fn collected() {
    let mut flash = Flash::of(&[512, 512, 512]);
    flash.root(1);
    flash.inode(1, A, 0, ROOT, b"a");
    flash.block(1, BLOCK, 0, A, NONE, b"kept");
    fill(&mut flash, 1, 10);
    assert_eq!(rename(&mut flash, "/a", "/b"), 0);
    assert_eq!(&area(&flash, 2)[24..45], &Inode::new(A, 1, ROOT, b"b").bytes()[..]);
    for _ in 0..6 {
        assert_eq!(collect(&mut flash), 0);
        assert_eq!((find(&flash, "/a"), contents(&flash, "/b")), (Err(9), Ok(b"kept".to_vec())));
    }
    assert_eq!(unlink(&mut flash, "/b"), 0);
    for _ in 0..6 {
        assert_eq!(collect(&mut flash), 0);
        assert_eq!((find(&flash, "/a"), find(&flash, "/b")), (Err(9), Err(9)));
    }
}

/// Only the newest of a hundred records of one inode is copied.
#[test]
fn a_hundred_renames_collected() {
    let mut flash = rooted(8192);
    flash.inode(1, A, 0, ROOT, b"00");
    flash.block(1, BLOCK, 0, A, NONE, b"kept");
    for k in 0..100 {
        assert_eq!(rename(&mut flash, &format!("/{k:02}"), &format!("/{:02}", k + 1)), 0);
    }
    assert_eq!(collect(&mut flash), 0);
    let kept = [
        Inode::new(ROOT, 0, NONE, b"").bytes(),
        Block::new(BLOCK, 0, A, NONE, b"kept").bytes(),
        Inode::new(A, 100, ROOT, b"100").bytes(),
    ];
    holds(&flash, 0, [0, 0, 0, 0], &kept.concat());
    assert_eq!(contents(&flash, "/100"), Ok(b"kept".to_vec()));
}

/// Bytes as a call is given them, without this module's helpers.
#[test]
fn by_the_call_itself() {
    let Flash { mut image, areas, .. } = tree();
    assert_eq!(calls::rename(&mut image, &areas, b"/d/e", b"f", b"\xfe\xff"), 0);
    let found = calls::lookup(&image, &areas, b"/d", b"e/\xfe\xff");
    assert_eq!((found.number, found.id, found.kind), (0, A, 1));
    assert_eq!(calls::rename(&mut image, &areas, b"", b"", b""), 8);
    assert_eq!(calls::rename(&mut [], &[], b"", b"/a", b"/b"), 1);
}
