//! `mv`: what gets another path, and what is refused.

use crate::folder::Folder;
use crate::records::{block, image, image_of, inode, NONE};

const FILE: u32 = 0x1000_0000;

/// A volume with a file in a directory, and one beside it.
fn with_tables(name: &str) -> Folder {
    let folder = Folder::formatted(name);
    folder.good(&["mkdir", "image", "/tables"], b"");
    folder.good(&["put", "image", "/tables/dose"], b"20 mSv");
    folder.good(&["put", "image", "/log"], b"pump started");
    folder
}

/// What is live, a line each, as `check` has it.
fn listed(folder: &Folder) -> String {
    let page = folder.text(&["check", "image"]);
    let lines = page.lines().skip_while(|line| !line.starts_with("damage: ")).skip(1);
    lines.map(|line| format!("{}\n", line.trim_start())).collect()
}

#[test]
fn a_file_gets_another_name_and_keeps_id_and_contents() {
    let folder = with_tables("mv_file");
    let id = folder.text(&["lookup", "image", "/tables/dose"]);
    let output = folder.run(&["mv", "image", "/tables/dose", "/tables/limit"], b"");
    let note = "nffs: areas 4096x2, found by their headers\n";
    assert_eq!((output.status.code(), &output.stdout[..]), (Some(0), &b""[..]));
    assert_eq!(String::from_utf8(output.stderr).unwrap(), note);
    assert_eq!(folder.text(&["lookup", "image", "/tables/limit"]), id);
    assert_eq!(folder.text(&["cat", "image", "/tables/limit"]), "20 mSv");
    assert!(folder.refused(&["cat", "image", "/tables/dose"], b"").contains("refused with 9, "));

    // back again, without a word
    let output = folder.run(&["mv", "image", "/tables/limit", "/tables/dose", "-q"], b"");
    assert!(output.status.success() && output.stdout.is_empty() && output.stderr.is_empty());
    assert_eq!(folder.text(&["lookup", "image", "/tables/dose"]), id);
}

#[test]
fn a_directory_goes_with_what_lies_below_it() {
    let folder = with_tables("mv_directory");
    folder.good(&["mkdir", "image", "/site"], b"");
    folder.good(&["mv", "image", "/tables", "/site/curves"], b"");
    folder.good(&["mv", "image", "/log", "/site/curves/log"], b"");
    let expected = "directory  /\ndirectory  /site\ndirectory  /site/curves\n\
                    6  /site/curves/dose\n12  /site/curves/log\n";
    assert_eq!(listed(&folder), expected);
    // nothing of it is an older version's, before a collection and after
    for _ in 0..2 {
        folder.good(&["collect", "image"], b"");
        assert_eq!(listed(&folder), expected);
        assert_eq!(folder.text(&["cat", "image", "/site/curves/dose"]), "20 mSv");
    }
    // an old name is free again
    folder.good(&["put", "image", "/log"], b"new");
    folder.good(&["export", "image", "out"], b"");
    assert_eq!(folder.bytes("out/log"), b"new");
    assert_eq!(folder.bytes("out/site/curves/log"), b"pump started");
}

/// All that a refusal says: the first line, and below it what docs/LINKING.md says of its number and
/// what the program offers.
pub fn told(first: &str, number: u32, offered: &str) -> String {
    let row = format!("\n| {number} | ");
    let document = include_str!("../../../docs/LINKING.md");
    // the first such row is that of the numbers
    let (_, advice) = document.split_once(&row).unwrap();
    let (advice, _) = advice.split_once(" |\n").unwrap();
    let offered = if offered.is_empty() { String::new() } else { format!("  {offered}\n") };
    format!("nffs: {first}\n  {advice}\n{offered}")
}

const NOT_FOUND: &str = "refused with 9, no such child, or a handle's id is not live";
const WRONG_KIND: &str = "refused with 11, a file where a directory is needed, or the reverse";
const EXISTS: &str = "refused with 12, the name is there already";
const INTO_ITSELF: &str = "refused with 18, renaming the root, or moving a directory below itself";
const BAD_PATH: &str = "refused with 8, bad path or name, too much to append or overwrite, or \
                        creating or unlinking the root, or renaming to it";

#[test]
fn each_refusal_names_the_path_that_it_is_about() {
    let folder = with_tables("mv_refused");
    let lists = "`nffs check IMAGE` lists what is live.";
    let kind = "`nffs lookup IMAGE PATH` prints the kind.";
    for (old, new, about, words, number, offered) in [
        ("log", "/x", ": log", BAD_PATH, 8, ""),
        ("/log", "x", ": x", BAD_PATH, 8, ""),
        ("/log", "/x/", ": /x/", BAD_PATH, 8, ""),
        ("/log", "/", ": /", BAD_PATH, 8, ""),
        ("/none", "/", ": /", BAD_PATH, 8, ""),
        ("/none", "/x", ": /none", NOT_FOUND, 9, lists),
        ("/none", "/log", ": /none", NOT_FOUND, 9, lists),
        ("/log", "/none/x", ": /none/x", NOT_FOUND, 9, lists),
        ("/log/x", "/x", ": /log/x", WRONG_KIND, 11, kind),
        ("/tables", "/log/x", ": /log/x", WRONG_KIND, 11, kind),
        ("/", "/x", "", INTO_ITSELF, 18, ""),
        ("/tables", "/tables/x", "", INTO_ITSELF, 18, ""),
    ] {
        let said = folder.refused(&["mv", "image", old, new, "-q"], b"");
        let first = format!("mv image {old} {new}{about}: {words}");
        assert_eq!(said, told(&first, number, offered));
    }
    // nothing that is there is to be unlinked: it may be the thing itself, or where it was meant to go
    for (old, new) in [("/log", "/tables"), ("/log", "/log"), ("/", "/log"), ("/tables", "/tables")]
    {
        let said = folder.refused(&["mv", "image", old, new, "-q"], b"");
        let advice =
            "The new path is given in full, the name included, and nothing is replaced: take \
                      one that is free. Where nothing should be there, `nffs check IMAGE` tells of \
                      damage, which can bring a deleted or an earlier name back.";
        assert_eq!(said, format!("nffs: mv image {old} {new}: {new}: {EXISTS}\n  {advice}\n"));
    }
    // what steers a terminal is shown by its name
    let said = folder.refused(&["mv", "image", "/\u{1b}[2J", "/b\n", "-q"], b"");
    assert!(said.starts_with("nffs: mv image /\\u{1b}[2J /b\\n: /\\u{1b}[2J: refused"), "{said}");
}

#[test]
fn words_that_make_no_mv() {
    let folder = Folder::formatted("mv_words");
    for (words, said) in [
        (&["mv"][..], "mv: no image"),
        (&["mv", "image"], "mv: no path"),
        (&["mv", "image", "/a"], "mv: no new path"),
        (&["mv", "image", "/a", "/b", "/c"], "mv: too many words"),
        (&["mv", "image", "/a", "/b", "--replace"], "mv takes no --replace"),
        (&["mv", "missing", "/a", "/b"], "cannot read missing: "),
    ] {
        let heard = folder.bad(words, b"", 2);
        assert!(heard.contains(said), "{words:?}: {heard}");
    }
    assert!(folder.text(&["help"]).contains("\n  mv IMAGE OLD NEW "));
}

#[test]
fn two_of_a_name_and_the_greatest_sequence() {
    let folder = Folder::new("mv_made");
    folder.write("image", image(&[inode(FILE, 0, 0, b"a"), inode(FILE + 1, 0, 0, b"a")]));
    let ambiguous = "mv image /a /b: /a: refused with 10, two or more live children of that name";
    assert_eq!(folder.refused(&["mv", "image", "/a", "/b", "-q"], b""), told(ambiguous, 10, ""));
    // at the greatest sequence, where nothing more would fit
    let full =
        [block(0x8000_0000, FILE, &[7; 2000]), block(0x8000_0001, FILE, &[7; 1950])].concat();
    folder.write("image", image(&[inode(FILE, NONE, 0, b"a"), inode(1, NONE, 0, b"d"), full]));
    let last = "mv image /a /b: refused with 16, the sequence is at its greatest";
    assert_eq!(folder.refused(&["mv", "image", "/a", "/b", "-q"], b""), told(last, 16, ""));
    assert!(folder.refused(&["mkdir", "image", "/b"], b"").contains("refused with 15, "));
    assert!(folder.refused(&["mv", "image", "/d", "/d/b"], b"").contains("refused with 18, "));
}

#[test]
fn a_new_name_needs_room() {
    let folder = Folder::formatted("mv_room");
    folder.good(&["put", "image", "/old"], &[1; 1000]);
    folder.good(&["rm", "image", "/old"], b"");
    folder.good(&["put", "image", "/dose"], &[2; 1000]);
    while folder.run(&["append", "image", "/dose"], &[2; 1]).status.success() {}
    let said = folder.refused(&["mv", "image", "/dose", "/limit", "-q"], b"");
    let first = "mv image /dose /limit: refused with 15, a record fits in no clean file area";
    let offered =
        "--collect collects until it fits; `nffs rm` gives a collection something to free.";
    assert_eq!(said, told(first, 15, offered));
    let output = folder.run(&["mv", "image", "/dose", "/limit", "--collect"], b"");
    let note = "nffs: areas 4096x2, found by their headers\nnffs: done, after 1 collection\n";
    assert_eq!(String::from_utf8(output.stderr).unwrap(), note);
    let dose = folder.good(&["cat", "image", "/limit"], b"");
    assert!(dose.len() > 1000 && dose.iter().all(|byte| *byte == 2));

    // a collection gives nothing where all is live
    while folder.run(&["append", "image", "/limit"], &[2; 500]).status.success() {}
    while folder.run(&["append", "image", "/limit"], &[2; 1]).status.success() {}
    folder.good(&["collect", "image"], b"");
    while folder.run(&["append", "image", "/limit"], &[2; 1]).status.success() {}
    let words = ["mv", "image", "/limit", "/dose", "--collect", "-q"];
    let said = folder.refused(&words, b"");
    let start =
        "nffs: mv image /limit /dose: refused with 15, a record fits in no clean file area, \
                 also after ";
    assert!(said.starts_with(start), "{said}");
}

#[test]
fn no_id_is_new() {
    let folder = Folder::new("mv_ids");
    let all: Vec<_> = (1..=255).map(|id| inode(id, 0, 0, id.to_string().as_bytes())).collect();
    folder.write("image", image_of(8192, &all));
    assert!(folder.refused(&["mkdir", "image", "/more"], b"").contains("refused with 5, "));
    folder.good(&["mv", "image", "/255", "/1/more"], b"");
    assert_eq!(folder.text(&["lookup", "image", "/1/more"]), "directory 000000ff\n");
}

#[test]
fn in_a_longer_dump_and_with_listed_areas() {
    let folder = with_tables("mv_dump");
    let dump = [&[7; 1000][..], &folder.bytes("image"), &[9; 500]].concat();
    folder.write("dump", &dump);
    folder.good(&["mv", "dump", "/log", "/tables/log", "--at=1000"], b"");
    let words = ["cat", "dump", "/tables/log", "--at", "1000", "--areas", "4096x2"];
    assert_eq!(folder.text(&words), "pump started");
    let after = folder.bytes("dump");
    assert!(after[..1000] == dump[..1000] && after[1000 + 8192..] == dump[1000 + 8192..]);
    folder.good(&["mv", "--areas", "4096x2", "--", "image", "/log", "/tables/log"], b"");
    assert_eq!(folder.bytes("image"), after[1000..1000 + 8192]);
}

#[test]
fn where_the_new_name_is_damaged_the_old_one_is_back() {
    let folder = with_tables("mv_damaged");
    folder.good(&["mv", "image", "/log", "/tables/log"], b"");
    let mut bytes = folder.bytes("image");
    let place = bytes.windows(3).rposition(|w| w == b"log").unwrap();
    bytes[place] ^= 1;
    folder.write("image", &bytes);
    assert_eq!(folder.text(&["cat", "image", "/log"]), "pump started");
    let page = String::from_utf8(folder.run(&["check", "image"], b"").stdout).unwrap();
    assert!(page.contains("\ndamage: 1 stretch, 23 bytes, first "), "{page}");
    assert!(page.contains("\n         12  /log\n  directory  /tables\n"), "{page}");
    assert!(
        page.contains(
            "an older version may count,\n  with earlier bytes or an earlier name perhaps"
        ),
        "{page}"
    );
    folder.good(&["mv", "image", "/log", "/tables/log", "--collect"], b"");
    assert_eq!(folder.text(&["cat", "image", "/tables/log"]), "pump started");
}
