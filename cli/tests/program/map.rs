//! The map of a volume, and its damage stretches.

use crate::check::python;
use crate::folder::Folder;
use crate::records::{header, image, inode, NONE};
use crate::refusals::cases;

const CELLS: usize = 48;
const HEAD: &str = "area         kind          id  count  records   free   rest";
const LEGEND: &str = "H header, = records, X damage, x in part, . free; \
                      in scratch or passed over: - records, ~ other bytes; ? no valid header";

/// What a command prints and says, with a status.
fn run(folder: &Folder, words: &[&str], status: i32) -> (String, String) {
    let output = folder.run(words, b"");
    let said = String::from_utf8(output.stderr).unwrap();
    assert_eq!(output.status.code(), Some(status), "{words:?}: {said}");
    (String::from_utf8(output.stdout).unwrap(), said)
}

/// The lines of a map, one for each area; head and legend are as always.
fn lines(folder: &Folder, words: &[&str], status: i32) -> Vec<String> {
    let (map, _) = run(folder, &[&["map", "image"], words].concat(), status);
    let lines: Vec<_> = map.lines().map(String::from).collect();
    let [head, areas @ .., legend] = &lines[..] else { panic!("{map}") };
    assert_eq!((&head[..], &legend[..]), (HEAD, LEGEND));
    assert!(lines.iter().all(|line| line.len() <= 120), "{map}");
    for line in areas {
        assert!(line.len() == areas[0].len() && line.is_ascii(), "{map}");
        // what is found by this word is damaged
        assert_eq!(line.contains("damaged"), bar(line).contains(['X', 'x']), "{map}");
    }
    areas.to_vec()
}

fn bar(line: &str) -> &str {
    &line[line.len() - CELLS..]
}

/// A bar by its runs.
fn drawn(runs: &[(char, usize)]) -> String {
    let bar: String = runs.iter().flat_map(|(c, n)| std::iter::repeat_n(*c, *n)).collect();
    assert_eq!(bar.len(), CELLS);
    bar
}

/// An area of this length; what is not given is blank.
fn area(id: u8, length: u32, contents: &[u8]) -> Vec<u8> {
    let mut area = [&header(id, length)[..], contents].concat();
    assert!(area.len() <= length as usize, "the contents have no room");
    area.resize(length as usize, 0xff);
    area
}

/// So many bytes of records, all of one id, each with a name of 235 bytes but the last.
fn records(bytes: usize) -> Vec<u8> {
    let many = (bytes - 20) / 255;
    let last = bytes - 20 - 255 * many;
    let lengths = (0..many).map(|_| 235).chain([last]);
    lengths.zip(0..).flat_map(|(length, k)| inode(1, k, NONE, &vec![b'n'; length])).collect()
}

/// A volume of three areas, the last of which holds this.
fn with_last(contents: &[u8]) -> Vec<u8> {
    [image(&[]), area(1, 4096, contents)].concat()
}

/// What --stretches prints.
fn stretches(folder: &Folder, words: &[&str], status: i32) -> Vec<(u32, u32)> {
    let (text, _) = run(folder, &[&["map", "image", "--stretches"], words].concat(), status);
    assert!(text.is_empty() || text.ends_with('\n'), "{text}");
    let number = |text: &str| text.parse::<u32>().unwrap();
    let pair = |line: &str| line.split_once('+').map(|(o, l)| (number(o), number(l))).unwrap();
    text.lines().map(pair).collect()
}

/// Stretches, bytes and the first, as the report counts them.
fn reported(folder: &Folder, words: &[&str]) -> (usize, u32, String) {
    let report = folder.text(&[&["report", "image"], words].concat());
    let word = |k: usize| report.split_whitespace().nth(k).unwrap();
    assert_eq!((word(6), word(8), word(10)), ("stretches", "skipped", "first"));
    (word(7).parse().unwrap(), word(9).parse().unwrap(), word(11).to_string())
}

/// The stretches that are listed are those of the report, the first of them first.
fn as_reported(folder: &Folder, words: &[&str]) -> Vec<(u32, u32)> {
    let listed = stretches(folder, words, 0);
    let (offset, length) = listed.first().copied().unwrap_or((0, 0));
    let sum = listed.iter().map(|s| s.1).sum();
    assert_eq!(reported(folder, words), (listed.len(), sum, format!("{offset}+{length}")));
    listed
}

#[test]
fn a_fresh_volume() {
    let folder = Folder::formatted("map_fresh");
    let expected = "\
area         kind          id  count  records   free   rest
    0+4096   scratch      255      0        0   4072      0 other    H...............................................
 4096+4096   file           0      0        1   4052        clean    H...............................................
H header, = records, X damage, x in part, . free; in scratch or passed over: - records, ~ other bytes; ? no valid header
";
    let (map, said) = run(&folder, &["map", "image"], 0);
    assert_eq!((&map[..], &said[..]), (expected, "nffs: areas 4096x2, found by their headers\n"));
    let (map, said) = run(&folder, &["map", "image", "--areas", "4096x2"], 0);
    assert_eq!((&map[..], &said[..]), (expected, ""));
    assert!(as_reported(&folder, &[]).is_empty());
}

#[test]
fn a_full_area_and_the_shortest_and_longest() {
    let folder = Folder::new("map_full");
    folder.write("image", with_last(&records(4072)));
    let lines_of = lines(&folder, &[], 0);
    let start = " 8192+4096   file           1      0       16      0        clean    ";
    assert_eq!(lines_of[2], start.to_string() + &drawn(&[('H', 1), ('=', 47)]));

    // two or three bytes a character, and 1,365 or 1,366
    std::fs::remove_file(folder.path("image")).unwrap();
    folder.good(&["format", "image", "--areas", "128x2"], b"");
    let lines_of = lines(&folder, &[], 0);
    assert_eq!(bar(&lines_of[1]), drawn(&[('H', 9), ('=', 8), ('.', 31)]));
    folder.write("image", area(0, 65_536, &records(40_000)));
    let lines_of = lines(&folder, &[], 1);
    assert!(
        lines_of[0].starts_with("    0+65536  file           0      0      157  25512        c")
    );
    assert_eq!(bar(&lines_of[0]), drawn(&[('H', 1), ('=', 29), ('.', 18)]));
}

#[test]
fn damage_at_the_first_and_at_the_last_byte() {
    let folder = Folder::new("map_edges");
    folder.write("image", with_last(&[0]));
    assert_eq!(bar(&lines(&folder, &[], 0)[2]), drawn(&[('x', 1), ('.', 47)]));
    assert_eq!(as_reported(&folder, &[]), [(8192 + 24, 1)]);

    // the last alone behind records, and the last record
    folder.write("image", with_last(&[records(4071), vec![0]].concat()));
    assert_eq!(bar(&lines(&folder, &[], 0)[2]), drawn(&[('H', 1), ('=', 46), ('x', 1)]));
    assert_eq!(as_reported(&folder, &[]), [(8192 + 4095, 1)]);
    let mut bytes = with_last(&records(4072));
    *bytes.last_mut().unwrap() ^= 1;
    folder.write("image", &bytes);
    let listed = as_reported(&folder, &[]);
    assert_eq!(listed, [(8192 + 24 + 15 * 255, 247)]);
    let expected = drawn(&[('H', 1), ('=', 44), ('x', 1), ('X', 2)]);
    assert_eq!(bar(&lines(&folder, &[], 0)[2]), expected);

    // blank bytes before it are no free space
    folder.write("image", with_last(&[&[0xff; 4071][..], &[0]].concat()));
    assert_eq!(bar(&lines(&folder, &[], 0)[2]), drawn(&[('x', 1), ('X', 47)]));
    assert_eq!(as_reported(&folder, &[]), [(8192 + 24, 4072)]);
}

#[test]
fn one_byte_of_65536_is_seen() {
    let folder = Folder::new("map_byte");
    for place in [44, 1365, 1366, 1367, 40_000, 65_515] {
        let before = records(place - 24);
        let contents = [&before[..], &[0], &records(65_536 - place - 1)].concat();
        folder.write("image", area(0, 65_536, &contents));
        let line = lines(&folder, &[], 1).remove(0);
        assert!(line.contains("      0      1 damaged  "), "{line}");
        let mut expected = drawn(&[('H', 1), ('=', 47)]);
        let cell = place * CELLS / 65_536;
        expected.replace_range(cell..cell + 1, "x");
        assert_eq!(bar(&line), expected);
        assert_eq!(stretches(&folder, &[], 1), [(place as u32, 1)]);
    }
}

#[test]
fn many_stretches() {
    let folder = Folder::new("map_many");
    let pair = [inode(1, 0, NONE, b""), vec![0]].concat();
    let (many, most) = (pair.repeat(4072 / 21), [vec![0], pair.repeat(65_512 / 21)].concat());
    folder.write("image", with_last(&many));
    let listed = as_reported(&folder, &[]);
    assert_eq!(listed.len(), 193);
    assert!(listed.iter().zip(0..).all(|(s, k)| *s == (8192 + 24 + 20 + 21 * k, 1)));
    assert_eq!(bar(&lines(&folder, &[], 0)[2]), drawn(&[('x', 48)]));

    // no area has more
    folder.write("image", area(0, 65_536, &most));
    assert_eq!(stretches(&folder, &[], 1).len(), 3120);
    let line = lines(&folder, &[], 1).remove(0);
    assert!(line.contains("  3119     12   3120 damaged  x"), "{line}");
}

#[test]
fn what_lies_in_scratch_is_no_damage() {
    let folder = Folder::new("map_scratch");
    let mut bytes = image(&[]);
    bytes[24..44].copy_from_slice(&inode(0, 0, NONE, b""));
    bytes[300..320].fill(0);
    folder.write("image", &bytes);
    let lines_of = lines(&folder, &[], 0);
    let start = "    0+4096   scratch      255      0        1   3776    276 other    ";
    let bar = drawn(&[('~', 4), ('.', 44)]);
    assert_eq!(lines_of[0], start.to_string() + &bar);
    assert!(as_reported(&folder, &[]).is_empty());
    assert!(folder.text(&["check", "image"]).contains("mounts, and nothing is wrong\n"));
    // a record farther in it
    bytes[44..300].fill(0xff);
    bytes[24..44].fill(0xff);
    bytes[300..320].copy_from_slice(&inode(0, 0, NONE, b""));
    folder.write("image", &bytes);
    let line = lines(&folder, &[], 0).remove(0);
    assert!(line.ends_with(&drawn(&[('~', 4), ('.', 44)])), "{line}");
    bytes[24..44].copy_from_slice(&inode(0, 0, NONE, b""));
    bytes[44..144].copy_from_slice(&records(100));
    bytes[144..320].fill(0xff);
    folder.write("image", &bytes);
    let line = lines(&folder, &[], 0).remove(0);
    assert!(line.ends_with(&drawn(&[('H', 1), ('-', 1), ('.', 46)])), "{line}");
}

#[test]
fn an_area_that_is_passed_over_is_shown_and_is_no_damage() {
    let folder = Folder::new("map_passed_over");
    let mut bytes = with_last(&[records(1000), vec![0; 500]].concat());
    for at in [0, 17, 20, 22] {
        bytes[8192 + at] ^= 1;
        folder.write("image", &bytes);
        let listed = ["--areas", "4096x3"];
        let start = " 8192+4096   passed over    -      -        4   2572    500 other    ";
        let bar = drawn(&[('?', 1), ('-', 11), ('~', 6), ('.', 30)]);
        assert_eq!(lines(&folder, &listed, 0)[2], start.to_string() + &bar);
        assert!(as_reported(&folder, &listed).is_empty());
        // it is not found; the records are seen, but where another hint tells it
        let found = lines(&folder, &[], 0);
        assert_eq!(found.len(), if at == 22 { 2 } else { 3 });
        let gap = start.replace("passed over", "not in list") + &bar;
        assert!(at == 22 || found[2] == gap, "{found:?}");
        bytes[8192 + at] ^= 1;
    }
    folder.write("image", &bytes);
    assert_eq!(as_reported(&folder, &[]), [(8192 + 1024, 500)]);
}

#[test]
fn volumes_that_do_not_mount() {
    let folder = Folder::new("map_refused");
    for (number, mut image, _) in cases(&folder) {
        if !(2..=7).contains(&number) {
            continue;
        }
        folder.write("image", &image);
        let (_, said) = run(&folder, &["map", "image", "-q"], 1);
        let start = format!("nffs: map image: the volume is refused with {number}, ");
        assert!(said.starts_with(&start) && said.lines().count() == 1, "{said}");
        let lines_of = lines(&folder, &[], 1);
        assert!(
            !lines_of.is_empty() && lines_of.iter().all(|line| !bar(line).contains(['X', 'x']))
        );
        assert!(stretches(&folder, &[], 1).is_empty());
        let (_, said) = run(&folder, &["map", "image", "-q", "--stretches"], 1);
        assert!(said.ends_with("; its stretches are shown\n"), "{said}");

        // damage is shown all the same; in one of the images the last area is scratch
        *image.last_mut().unwrap() ^= 1;
        folder.write("image", &image);
        let is_scratch = number == 4;
        let last = lines(&folder, &[], 1).pop().unwrap();
        assert!(last.ends_with(if is_scratch { '~' } else { 'X' }), "{number}: {last}");
        assert_eq!(stretches(&folder, &[], 1).len(), usize::from(!is_scratch), "{number}");
    }
}

#[test]
fn a_list_that_is_not_good() {
    let folder = Folder::formatted("map_list");
    for list in ["4096x3", "0:4096,4095:4096", "0:127", "0:0", "4096x0"] {
        for words in [&["map", "image"][..], &["map", "image", "--stretches"]] {
            let (map, said) = run(&folder, &[words, &["--areas", list]].concat(), 1);
            assert!(said.contains("nffs: map image: refused with 1, image over"), "{said}");
            assert_eq!(map, "");
        }
        let (page, said) = run(&folder, &["map", "image", "--json", "--areas", list], 1);
        let told = "v['status'], v['refusal']['number'], v['found'], v['areas'], v['gaps']";
        assert_eq!(python(&page, told), "1 1 False [] []");
        assert!(said.contains("refused with 1, ") && said.ends_with("; no area is shown\n"));
    }
    // behind its end nothing is looked at
    let ended = lines(&folder, &["--areas", "4096:4096,0:4096,0:0,9:9"], 0);
    assert_eq!(ended.len(), 2);
    folder.write("image", [folder.bytes("image"), vec![0; 60_000]].concat());
    assert!(folder.refused(&["map", "image"], b"").contains("refused with 1, "));
    folder.write("image", [0xff; 8192]);
    assert!(folder.bad(&["map", "image"], b"", 2).contains("no valid area header is seen"));
}

#[test]
fn the_first_is_by_the_order_of_the_list() {
    let folder = Folder::new("map_order");
    let mut bytes = with_last(&[0, 0]);
    bytes[4096 + 1000] = 0;
    folder.write("image", &bytes);
    let (low, high) = ((4096 + 44, 957), (8192 + 24, 2));
    assert_eq!(as_reported(&folder, &[]), [low, high]);
    let turned = ["--areas", "8192:4096,0:4096,4096:4096"];
    assert_eq!(as_reported(&folder, &turned), [high, low]);
    let lines_of = lines(&folder, &turned, 0);
    assert!(lines_of[0].starts_with(" 8192+4096   file           1 "), "{lines_of:?}");
    assert!(lines_of[2].starts_with(" 4096+4096   file           0 "), "{lines_of:?}");
}

#[test]
fn places_count_from_where_the_volume_begins() {
    let folder = Folder::new("map_at");
    folder.write("image", [vec![0; 5000], with_last(&[0])].concat());
    assert_eq!(as_reported(&folder, &["--at", "5000"]), [(8192 + 24, 1)]);
    let map = folder.text(&["map", "image", "--at", "5000"]);
    assert!(map.starts_with(&format!("{HEAD}  from 5000 on\n    0+4096 ")), "{map}");
}

#[test]
fn for_machines() {
    let folder = Folder::new("map_json");
    let mut bytes = with_last(&[0, 0]);
    bytes[24..100].fill(0);
    folder.write("image", [bytes, vec![0; 4096]].concat());
    let json = |words: &[&str], status: i32, expression: &str| {
        let page = run(&folder, &[&["map", "image", "--json"], words].concat(), status).0;
        python(&page, expression)
    };
    let fields = "[v[k] for k in ('image', 'at', 'size', 'status', 'refusal', 'found')]";
    let listed = ["--areas", "4096x4"];
    assert_eq!(json(&listed, 0, fields), "['image', 0, 16384, 0, None, False]");
    let areas = "[[v for v in a.values()] for a in v['areas']]";
    let expected = "[[0, 4096, 'scratch', 255, 0, 0, 3996, None, None, 76, []], \
                    [4096, 4096, 'file', 0, 0, 1, 4052, 0, 0, None, []], \
                    [8192, 4096, 'file', 1, 0, 0, 4070, 1, 2, None, [{'offset': 8216, 'length': 2}]], \
                    [12288, 4096, 'none', None, None, 0, 0, None, None, 4072, []]]";
    assert_eq!(json(&listed, 0, areas), expected);
    assert_eq!(json(&["--stretches"], 0, "v['found'], len(v['areas'])"), "True 3");
    let parts = "v['left_out'], v['reserved_headers'], v['headers_inside'], v['gaps']";
    assert_eq!(json(&listed, 0, parts), "[] [] [] []");
    let two = ["--areas", "4096x2"];
    assert_eq!(json(&two, 0, parts), "[{'offset': 8192, 'length': 4096}] [] [] []");
    let refusal = "v['status'], v['refusal']['number'], v['areas'][0]['damage']";
    let one = ["--areas", "8192:4096"];
    assert_eq!(json(&one, 1, refusal), "1 3 [{'offset': 8216, 'length': 2}]");
}
