//! "Tree listing" (document 02, T-07).

use nffs_model::forge::Flash;
use nffs_model::layout::{Inode, NONE, ROOT};

use crate::calls;
use crate::common::*;

/// A directory or a file of this id, parent and name behind those put before.
fn put(flash: &mut Flash, id: u32, parent: u32, name: &[u8]) {
    let record = Inode::new(id, 0, parent, name).bytes();
    assert!(put_anywhere(flash, &record));
}

/// Inodes in the root, in this order on flash.
fn in_root(inodes: &[(u32, &[u8])]) -> Flash {
    let mut flash = rooted(8192);
    inodes.iter().for_each(|(id, name)| put(&mut flash, *id, ROOT, name));
    flash
}

/// Directories 1, 2, .. one below the other, so many, each named "d".
fn chain(length: u32) -> Flash {
    let mut flash = rooted(16_384);
    (1..=length).for_each(|id| put(&mut flash, id, id - 1, b"d"));
    flash
}

/// The lines of such a chain, as far as they are shown.
fn chain_lines(length: usize) -> String {
    (1..=length).fold("/\n".to_string(), |text, depth| text + &" ".repeat(depth) + "d\n")
}

/// "65 spaces and `deeper`".
fn deeper() -> String {
    " ".repeat(65) + "deeper\n"
}

/// "document 01's undamaged area then gives `/` and ` a 15`".
#[test]
fn the_undamaged_area() {
    assert_eq!(lines(&bench()), "/\n a 15\n");
}

/// "the fresh pair's third is `/`".
#[test]
fn the_fresh_pair() {
    assert_eq!(lines(&formatted(&[4096, 4096])), "/\n");
    assert_eq!(lines(&rooted(128)), "/\n");
}

/// The bench's flips: the first block lost, the second lost.
#[test]
fn the_damaged_area() {
    for (byte, text) in [(70, "/\n a broken\n"), (103, "/\n a 10\n"), (50, "/\n")] {
        let mut flash = bench();
        flash.image[4096 + byte] ^= 1;
        assert_eq!(lines(&flash), text);
    }
}

#[test]
fn sizes_in_decimal() {
    for size in [0, 1, 9, 10, 15, 99, 100, 101, 999, 1000, 2048] {
        let mut flash = rooted(4096);
        flash.inode(1, A, 0, ROOT, b"a");
        assert!(size == 0 || flash.block(1, BLOCK, 0, A, NONE, &vec![7; size]));
        assert_eq!(lines(&flash), format!("/\n a {size}\n"));
    }
    let mut flash = formatted(&[24_576, 24_576]);
    assert!(create(&mut flash, "/a", 1).is_ok());
    for (more, size) in [(8192, 8192), (1807, 9999), (1, 10_000), (8192, 18_192)] {
        assert_eq!(append(&mut flash, "/a", &vec![1; more]), 0);
        assert_eq!(lines(&flash), format!("/\n a {size}\n"));
    }
}

/// A version of a block that is longer or shorter than the one before it; that which
/// counts gives the size.
#[test]
fn the_size_by_the_counting_blocks() {
    let mut flash = bench();
    flash.block(1, BLOCK, 1, A, NONE, &[1; 100]);
    assert_eq!(lines(&flash), "/\n a 105\n");
    flash.block(1, BLOCK + 1, 7, A, BLOCK, &[1]);
    flash.block(1, BLOCK + 1, 6, A, BLOCK, &[1; 50]);
    assert_eq!(lines(&flash), "/\n a 101\n");
    flash.block(1, BLOCK + 1, 8, B, NONE, &[1]);
    assert_eq!(lines(&flash), "/\n a 100\n");
}

/// Chains that don't end, have two ends, or lack a block; read of each is 13.
#[test]
fn broken_files() {
    let chains: [&[(u32, u32)]; 5] = [
        &[(0, 1), (1, 0)],
        &[(0, NONE), (1, NONE)],
        &[(0, 5)],
        &[(0, NONE), (1, 0), (2, 0)],
        &[(0, NONE), (1, 2), (2, 1)],
    ];
    for blocks in chains {
        let mut flash = in_root(&[(A, b"a"), (B, b"b"), (1, b"c")]);
        for (id, previous) in blocks {
            let previous = if *previous == NONE { NONE } else { BLOCK + previous };
            flash.block(1, BLOCK + id, 0, A, previous, b"x");
        }
        assert_eq!(contents(&flash, "/a"), Err(13));
        assert_eq!(lines(&flash), "/\n a broken\n b 0\n c\n");
    }
}

/// "showing a directory shows its entries, and showing an entry that is a directory
/// shows that directory": entries stand behind their directory, before what follows it.
#[test]
fn directories_within_directories() {
    let mut flash = rooted(4096);
    let inodes: [(u32, u32, &[u8]); 9] = [
        (5, ROOT, b"b"),
        (A, 5, b"y"),
        (4, 5, b"x"),
        (B, 4, b"deep"),
        (3, ROOT, b"a"),
        (B + 1, 3, b"z"),
        (B + 2, ROOT, b"aa"),
        (9, ROOT, b"c"),
        (2, 4, b"empty"),
    ];
    inodes.iter().for_each(|(id, parent, name)| put(&mut flash, *id, *parent, name));
    flash.block(1, BLOCK, 0, B, NONE, b"0.5 ml/h");
    let text = "/\n a\n  z 0\n aa 0\n b\n  x\n   deep 8\n   empty\n  y 0\n c\n";
    assert_eq!(lines(&flash), text);
}

/// As a path "a/x" is behind "a.b", but "a" is before it, with all that is in it.
#[test]
fn a_directory_and_a_name_behind_it() {
    let mut flash = in_root(&[(A, b"a.b"), (1, b"a"), (B, b"a!")]);
    put(&mut flash, B + 1, 1, b"x");
    assert_eq!(lines(&flash), "/\n a\n  x 0\n a! 0\n a.b 0\n");
}

/// "in order of name bytes": as unsigned numbers, whatever the ids and the places.
#[test]
fn order_of_name_bytes() {
    let names: [&[u8]; 14] = [
        b"\x01", b"\t", b"\n", b"\x0b", b" ", b"-", b".", b"0", b"A", b"Z", b"a", b"\x7f", b"\x80",
        b"\xff",
    ];
    let shown = |name: &[u8]| if name == b"\n" { b"/".to_vec() } else { name.to_vec() };
    let line = |name: &[u8]| [b" ", &shown(name)[..], b"\n"].concat();
    let expected = [b"/\n".to_vec(), names.map(line).concat()].concat();
    let rotated = |by: usize| {
        let mut inodes: Vec<(u32, &[u8])> = (1..).zip(names).collect();
        inodes.rotate_left(by);
        inodes.iter().map(|(id, name)| ((id * 5) % 17, *name)).collect::<Vec<_>>()
    };
    for by in 0..names.len() {
        let mut inodes = rotated(by);
        assert_eq!(tree(&in_root(&inodes)), Ok(expected.clone()));
        inodes.reverse();
        assert_eq!(tree(&in_root(&inodes)), Ok(expected.clone()));
    }
}

/// "a newline in it printed as `/`"; it sorts as 0A, before a space and a dot, though
/// what is printed is behind them.
#[test]
fn newlines() {
    let flash = in_root(&[(A, b"a.b"), (B, b"a\nb"), (1, b"a b"), (2, b"a\n"), (3, b"a\t")]);
    assert_eq!(lines(&flash), "/\n a\t\n a/\n a/b 0\n a b\n a.b 0\n");
    let flash = in_root(&[(1, b"\n\n"), (2, b"\n"), (A, b"\n\n\n"), (B, b"0")]);
    assert_eq!(lines(&flash), "/\n /\n //\n /// 0\n 0 0\n");
}

#[test]
fn bytes_over_7f() {
    let flash = in_root(&[(1, b"\xc3\xa4"), (2, b"z"), (A, b"\x80"), (B, b"\xff"), (3, b"\x7f")]);
    let text = b"/\n z\n \x7f\n \x80 0\n \xc3\xa4\n \xff 0\n".to_vec();
    assert_eq!(tree(&flash), Ok(text));
}

/// Shorter before longer, a name before those that it begins.
#[test]
fn names_that_begin_each_other() {
    let flash = in_root(&[(1, b"abc"), (A, b"ab"), (2, b"abcd"), (3, b"a"), (B, b"b"), (4, b"aa")]);
    assert_eq!(lines(&flash), "/\n a\n aa\n ab 0\n abc\n abcd\n b 0\n");
    let mut flash = Flash::of(&[32_768; 2]);
    flash.root(1);
    (1..=255).step_by(2).for_each(|n| put(&mut flash, 256 - n, ROOT, &vec![b'n'; n as usize]));
    let line = |n: usize| " ".to_string() + &"n".repeat(n) + "\n";
    assert_eq!(
        lines(&flash),
        "/\n".to_string() + &(1..=255).step_by(2).map(line).collect::<String>()
    );
}

/// "then id": directories before files, which their ids are too.
#[test]
fn children_of_one_name() {
    for order in [[0, 1, 2, 3], [3, 2, 1, 0], [2, 0, 3, 1]] {
        let mut flash = rooted(4096);
        let ids = [3, 7, A, B];
        order.iter().for_each(|k| put(&mut flash, ids[*k], ROOT, b"twice"));
        put(&mut flash, B + 1, 7, b"in 7");
        put(&mut flash, B + 2, 3, b"in 3");
        flash.block(1, BLOCK, 0, A, NONE, b"a");
        flash.block(1, BLOCK + 1, 0, B, NONE, b"bb");
        let text = "/\n twice\n  in 3 0\n twice\n  in 7 0\n twice 1\n twice 2\n";
        assert_eq!(lines(&flash), text);
        assert_eq!(find(&flash, "/twice"), Err(10));
    }
}

/// Names of 255 bytes that differ in the last one.
#[test]
fn the_longest_names() {
    let name = |last: u8| [&[b'n'; 254][..], &[last]].concat();
    let flash =
        in_root(&[(A, &name(b'b')), (1, &name(b'a')), (B, &name(b'\n')), (2, &[b'n'; 254])]);
    let n = "n".repeat(254);
    assert_eq!(lines(&flash), format!("/\n {n}\n {n}/ 0\n {n}a\n {n}b 0\n"));
}

/// What is a name is printed as it is, though it looks like something else.
#[test]
fn names_that_look_like_lines() {
    let flash =
        in_root(&[(1, b" "), (2, b"a 15"), (A, b"a"), (B, b"deeper"), (3, b"."), (4, b"..")]);
    assert_eq!(lines(&flash), "/\n  \n .\n ..\n a 0\n a 15\n deeper 0\n");
}

/// The record that counts gives name and place.
#[test]
fn the_newest_name_and_place() {
    let mut flash = in_root(&[(1, b"d"), (A, b"old")]);
    flash.inode(1, A, 2, 1, b"new");
    flash.inode(1, A, 1, ROOT, b"between");
    assert_eq!(lines(&flash), "/\n d\n  new 0\n");
    assert_eq!(rename(&mut flash, "/d/new", "/back"), 0);
    assert_eq!(lines(&flash), "/\n back 0\n d\n");
    assert_eq!(rename(&mut flash, "/d", "/a"), 0);
    assert_eq!(lines(&flash), "/\n a\n back 0\n");
}

/// "orphans and dead ones never".
#[test]
fn orphans_loops_and_the_dead() {
    let mut flash = rooted(4096);
    put(&mut flash, 1, ROOT, b"deleted");
    put(&mut flash, 2, 1, b"in the deleted");
    put(&mut flash, A, 2, b"below it");
    put(&mut flash, B, ROOT, b"deleted too");
    flash.delete(1, 1, 1);
    flash.inode(1, B, 1, NONE, b"with a name");
    put(&mut flash, 3, 99, b"lost");
    put(&mut flash, B + 1, 3, b"below the lost");
    put(&mut flash, 4, 5, b"loop");
    put(&mut flash, 5, 4, b"loop");
    put(&mut flash, 6, 6, b"its own parent");
    put(&mut flash, B + 2, 6, b"in a loop");
    put(&mut flash, B + 3, 5, b"in a loop");
    assert_eq!(lines(&flash), "/\n");
    put(&mut flash, B + 4, ROOT, b"live");
    assert_eq!(lines(&flash), "/\n live 0\n");
    assert_eq!((report(&flash).inodes, report(&flash).live), (13, 2));
}

/// A deleted directory takes what is in it away, one with the same name comes without it.
#[test]
fn a_directory_deleted_and_made_again() {
    let mut flash = formatted(&[4096, 4096]);
    for (path, kind) in [("/d", 0), ("/d/e", 0), ("/d/e/f", 1), ("/d/g", 1)] {
        assert!(create(&mut flash, path, kind).is_ok());
    }
    assert_eq!(append(&mut flash, "/d/e/f", b"dose"), 0);
    assert_eq!(lines(&flash), "/\n d\n  e\n   f 4\n  g 0\n");
    assert_eq!(collect(&mut flash), 0);
    assert_eq!(lines(&flash), "/\n d\n  e\n   f 4\n  g 0\n");
    assert_eq!(unlink(&mut flash, "/d/e"), 0);
    assert_eq!(lines(&flash), "/\n d\n  g 0\n");
    assert_eq!(unlink(&mut flash, "/d"), 0);
    assert_eq!(lines(&flash), "/\n");
    assert!(create(&mut flash, "/d", 0).is_ok());
    assert_eq!(lines(&flash), "/\n d\n");
}

/// Records in scratch and in an area that is passed over aren't listed.
#[test]
fn areas_that_are_not_read() {
    let mut flash = Flash::of(&[1024; 3]);
    flash.root(1);
    flash.inode(0, A, 0, ROOT, b"in scratch");
    flash.inode(2, B, 0, ROOT, b"in an area");
    assert_eq!(lines(&flash), "/\n in an area 0\n");
    flash.head(2, 0, 1, 1);
    assert_eq!(lines(&flash), "/\n");
}

/// Directories down to depth 64 are shown, and have no line behind them.
#[test]
fn depths_up_to_64() {
    for length in [1, 2, 63, 64] {
        assert_eq!(lines(&chain(length)), chain_lines(length as usize));
    }
}

/// "A directory's children at depth 65 give one line": of 65 directories and of all
/// that the table has places for, the last with a file in it or not.
#[test]
fn depths_from_65_on() {
    for length in [65, 66, 128, 255] {
        let mut flash = chain(length);
        assert_eq!(lines(&flash), chain_lines(64) + &deeper());
        if length < 255 {
            put(&mut flash, A, length, b"f");
            assert_eq!(lines(&flash), chain_lines(64) + &deeper());
        }
    }
}

/// A file at depth 64 is shown; at depth 65 it isn't, nor what lies beside it.
#[test]
fn files_about_depth_64() {
    let mut flash = chain(64);
    put(&mut flash, A, 63, b"f");
    put(&mut flash, B, 63, b"a");
    let (a, f) = (" ".repeat(64) + "a 0\n", " ".repeat(64) + "f 0\n");
    let last = " ".repeat(64) + "d\n";
    assert_eq!(lines(&flash), chain_lines(63) + &a + &last + &f);
    for id in [B + 1, B + 2, 100, 101] {
        put(&mut flash, id, 64, b"below");
        assert_eq!(lines(&flash), chain_lines(63) + &a + &last + &deeper() + &f);
    }
}

/// Each directory at depth 64 with a live child has a line of its own behind it.
#[test]
fn two_lines_deeper() {
    let mut flash = chain(63);
    for (id, name) in [(70, b"x"), (71, b"z"), (72, b"y")] {
        put(&mut flash, id, 63, name);
    }
    put(&mut flash, 80, 70, b"in x");
    put(&mut flash, 81, 80, b"below it");
    let last = |name: &str| " ".repeat(64) + name + "\n";
    let [x, y, z] = ["x", "y", "z"].map(last);
    assert_eq!(lines(&flash), chain_lines(63) + &x + &deeper() + &y + &z);
    put(&mut flash, A, 71, b"in z");
    assert_eq!(lines(&flash), chain_lines(63) + &x + &deeper() + &y + &z + &deeper());
    put(&mut flash, B, 72, b"in y");
    let all = [&x, &deeper(), &y, &deeper(), &z, &deeper()].map(String::as_str).concat();
    assert_eq!(lines(&flash), chain_lines(63) + &all);
    // Two branches that part higher up.
    put(&mut flash, B + 1, ROOT, b"zz");
    assert_eq!(lines(&flash), chain_lines(63) + &all + " zz 0\n");
}

/// A directory at depth 64 whose only child was deleted or moved away.
#[test]
fn no_line_deeper_without_a_live_child() {
    let mut flash = chain(64);
    put(&mut flash, 70, 64, b"deleted");
    put(&mut flash, A, 70, b"in the deleted");
    assert_eq!(lines(&flash), chain_lines(64) + &deeper());
    flash.delete(1, 70, 1);
    assert_eq!(lines(&flash), chain_lines(64));
    put(&mut flash, B, 64, b"moved");
    assert_eq!(lines(&flash), chain_lines(64) + &deeper());
    flash.inode(1, B, 1, ROOT, b"moved");
    assert_eq!(lines(&flash), chain_lines(64) + " moved 0\n");
}

/// A file whose name is `deeper` stands where it would, and tells its size.
#[test]
fn a_file_named_deeper() {
    let mut flash = chain(64);
    put(&mut flash, A, 63, b"deeper");
    put(&mut flash, B, 64, b"deeper");
    let named = " ".repeat(64) + "deeper 0\n";
    assert_eq!(lines(&flash), chain_lines(64) + &deeper() + &named);
}

/// 256 inodes in one directory, 1,024 blocks of the first and of a broken one.
#[test]
fn full_tables() {
    let mut flash = Flash::of(&[4096; 16]);
    flash.root(1);
    for k in (1..256).rev() {
        put(&mut flash, A + k, ROOT, format!("{k:03}").as_bytes());
    }
    blocks_up_to(&mut flash, A + 1, 0, 1024);
    let line = |k: u32| format!(" {k:03} {}\n", if k == 1 { 1024 } else { 0 });
    let text = (1..256).map(line).fold("/\n".to_string(), |text, line| text + &line);
    assert_eq!(lines(&flash), text);
    flash.image.fill(0xff);
    assert_eq!(tree(&flash), Err(3));
}

/// A text of more bytes than the image has: long names at depth 64.
#[test]
fn the_longest_text() {
    let mut flash = Flash::of(&[4096; 16]);
    flash.root(1);
    let name = |k: u32| format!("{k:0>217}");
    (1..=63).for_each(|id| put(&mut flash, id, id - 1, name(id).as_bytes()));
    (64..256).for_each(|k| put(&mut flash, A + k, 63, name(k).as_bytes()));
    let line = |k: u32| match k {
        0..64 => " ".repeat(k as usize) + &name(k) + "\n",
        _ => " ".repeat(64) + &name(k) + " 0\n",
    };
    let text = "/\n".to_string() + &(1..256).map(line).collect::<String>();
    assert!(text.len() > 65_536);
    assert_eq!(lines(&flash), text);
}

/// Buffers of every length: the front of the text, and the rest as it was.
#[test]
fn every_length_of_a_buffer() {
    let mut flash = bench();
    put(&mut flash, 1, ROOT, b"d");
    put(&mut flash, B, 1, b"e\nf");
    let text = b"/\n a 15\n d\n  e/f 0\n";
    for length in 0..=text.len() + 20 {
        let (answer, buffer) = tree_into(&flash, length);
        assert_eq!((answer.number, answer.length as usize), (0, text.len()));
        let fits = length.min(text.len());
        assert_eq!(buffer[..fits], text[..fits]);
        assert!(buffer[fits..].iter().all(|byte| *byte == 0xa5));
    }
}

/// The bench's image under another list.
fn listed(areas: Vec<u32>) -> Flash {
    let mut flash = bench();
    flash.areas = areas;
    flash
}

/// An image for each refusal 1 to 7: the buffer is as it was, the length 0.
#[test]
fn each_refusal() {
    let refused = |flash: &Flash, number: u32| assert_eq!(tree(flash), Err(number));
    let mut over = bench();
    over.image.resize(65_537, 0xff);
    refused(&over, 1);
    for areas in [vec![], vec![0, 127], vec![0, 4096, 4000, 4096], vec![0, 4096, 8192, 4096]] {
        refused(&listed(areas), 1);
    }
    let mut shared = Flash::of(&[4096; 3]);
    shared.root(1);
    shared.head(2, 0, 0, 0);
    refused(&shared, 2);
    let mut none = bench();
    none.head(0, 0, 0, 7);
    refused(&none, 3);
    refused(&listed(vec![0, 4096]), 3);
    let mut short = Flash::of(&[128, 256]);
    short.root(1);
    refused(&short, 4);
    let mut many = Flash::of(&[8192; 3]);
    many.root(1);
    inodes_up_to(&mut many, 1, 257);
    refused(&many, 5);
    let mut blocks = Flash::of(&[32_768; 2]);
    blocks.root(1);
    blocks_up_to(&mut blocks, A, 0, 1025);
    refused(&blocks, 5);
    let mut clash = bench();
    clash.inode(1, A, 0, ROOT, b"b");
    refused(&clash, 6);
    let mut rootless = Flash::of(&[4096; 2]);
    rootless.inode(1, A, 0, ROOT, b"a");
    refused(&rootless, 7);
}

/// The image is never changed, and an answer is the same each time.
#[test]
fn again() {
    let flash = bench();
    let before = flash.clone();
    let (mut first, mut second) = ([7; 6], [7; 6]);
    let answer = calls::tree(&flash.image, &flash.areas, &mut first);
    assert_eq!(answer, calls::tree(&flash.image, &flash.areas, &mut second));
    assert_eq!((&first, &second, flash.image), (b"/\n a 1", b"/\n a 1", before.image));
}
