//! Each number of refusal, reached once, in words with what to do next.

use crate::folder::Folder;
use crate::records::{header, image, image_of, inode, NONE};

const FILE: u32 = 0x1000_0000;

/// A number, the image `image` that leads to it, and the words of a command.
pub fn cases(folder: &Folder) -> Vec<(u32, Vec<u8>, Vec<&'static str>)> {
    let fresh = image(&[]);
    let mut headers = [header(0, 4096), vec![0xff; 4072]].concat();
    headers.extend([header(255, 128), vec![0xff; 104]].concat());
    folder.good(&["format", "short", "--areas", "0:8192,8192:4096"], b"");
    let one = inode(FILE, 0, 0, b"a");
    let deepest = inode(FILE, NONE, 0, b"a");
    let many: Vec<_> = (1..=256).map(|id| inode(id, 0, 0, id.to_string().as_bytes())).collect();
    let with_one = image(std::slice::from_ref(&one));
    let two_ids = [one.clone(), inode(FILE + 1, 0, 0, b"a")];
    vec![
        (1, fresh[..8000].to_vec(), vec!["report", "image", "--areas", "4096x2"]),
        (2, [fresh.clone(), fresh[4096..].to_vec()].concat(), vec!["report", "image"]),
        (3, fresh[4096..].to_vec(), vec!["report", "image"]),
        (4, headers, vec!["report", "image"]),
        (5, image_of(8192, &many), vec!["report", "image"]),
        (6, image(&[one.clone(), inode(FILE, 0, 0, b"b")]), vec!["report", "image"]),
        (7, [&fresh[..4120], &[0xff; 4072][..]].concat(), vec!["report", "image"]),
        (8, fresh.clone(), vec!["put", "image", "a/"]),
        (9, fresh.clone(), vec!["cat", "image", "/a"]),
        (10, image(&two_ids), vec!["cat", "image", "/a"]),
        (11, fresh.clone(), vec!["cat", "image", "/"]),
        (12, with_one.clone(), vec!["put", "image", "/a"]),
        (13, broken(folder), vec!["cat", "image", "/a"]),
        (14, with_one, vec!["cat", "image", "/a", "--from", "1"]),
        (15, fresh, vec!["put", "image", "/a", "image"]),
        (16, image(&[deepest]), vec!["rm", "image", "/a"]),
        (17, folder.bytes("short"), vec!["collect", "image"]),
        (18, image(&[]), vec!["mv", "image", "/", "/a"]),
    ]
}

/// Document 01's bench area, one bit of its first block flipped.
fn broken(folder: &Folder) -> Vec<u8> {
    folder.good(&["format", "bench", "--areas", "4096x2"], b"");
    folder.good(&["put", "bench", "/a"], &[0x41; 10]);
    folder.good(&["append", "bench", "/a"], &[0x41; 5]);
    let mut image = folder.bytes("bench");
    image[4096 + 70] ^= 1;
    image
}

#[test]
fn each_number_says_what_it_means_and_what_to_do() {
    let folder = Folder::new("numbers");
    let cases = cases(&folder);
    assert!(cases.iter().map(|case| case.0).eq(1..=18));
    let document = include_str!("../../../docs/LINKING.md");
    for (number, image, words) in cases {
        folder.write("image", &image);
        let said = folder.refused(&[&words[..], &["-q"]].concat(), b"");
        let mut lines = said.lines();
        let first = lines.next().unwrap();
        let starts = |named: usize| {
            let words = words[..named.min(words.len())].join(" ");
            first.starts_with(&format!("nffs: {words}: refused with {number}, "))
        };
        assert!(starts(if words[0] == "mv" { 4 } else { 3 }) || starts(2), "{number}: {said}");
        assert!(!first.contains("does not know"), "{said}");
        let advice = lines.next().unwrap_or_default().trim_start();
        assert!(document.contains(&format!("\n| {number} | {advice} |\n")), "{number}: {advice}");
    }
}

#[test]
fn a_refused_report_prints_its_number_alone() {
    let folder = Folder::formatted("damage");
    folder.good(&["put", "image", "/dose"], b"20 mSv");
    let mut bytes = folder.bytes("image");
    let place = bytes.windows(4).position(|w| w == b"dose").unwrap();
    bytes[place] ^= 1;
    folder.write("image", &bytes);
    let printed = folder.text(&["report", "image"]);
    assert_eq!(printed, "mount 0\ninodes 1 live 1 stretches 1 skipped 24 first 4140+24\n");

    folder.write("image", [0; 8192]);
    let output = folder.run(&["report", "image", "--areas", "4096x2"], b"");
    assert_eq!((output.status.code(), &output.stdout[..]), (Some(1), &b"mount 3\n"[..]));
    for size in [0, 8191, 65_537, 1_000_000] {
        folder.write("image", vec![0; size]);
        let said = folder.refused(&["collect", "image", "--areas", "4096x2"], b"");
        assert!(said.contains("refused with 1, "), "{said}");
    }
}
