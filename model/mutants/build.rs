//! Makes the mutants: for each edit a copy of the model's module with the edit
//! in it, and of the modules that use it. An edit is read from `edits`: a line
//! `== name`, then lines to be replaced (`-`) and what replaces them (`+`).

use std::collections::BTreeMap;
use std::fmt::Write;
use std::path::Path;
use std::{env, fs};

/// The module of the layouts and those that use it, each behind those that it uses.
const FROM_LAYOUT: [&str; 11] = [
    "layout",
    "area",
    "mount",
    "area_report",
    "lookup",
    "file",
    "tree",
    "write",
    "overwrite",
    "rename",
    "collect",
];

/// Each module that has edits, and which are copied for them.
const COPIED: [(&str, &[&str]); 12] = [
    ("layout", &FROM_LAYOUT),
    ("area", FROM_LAYOUT.split_at(1).1),
    ("mount", FROM_LAYOUT.split_at(2).1),
    ("area_report", &["area_report"]),
    ("path", &["path", "lookup", "file", "tree", "write", "overwrite", "rename"]),
    ("lookup", &["lookup", "file", "tree", "write", "overwrite", "rename"]),
    ("file", &["file", "tree", "write", "overwrite"]),
    ("tree", &["tree"]),
    ("write", &["write", "overwrite", "rename"]),
    ("overwrite", &["overwrite"]),
    ("rename", &["rename"]),
    ("collect", &["collect"]),
];

/// The modules whose functions an engine calls.
const CALLED: [&str; 9] =
    ["mount", "area_report", "lookup", "file", "tree", "write", "overwrite", "rename", "collect"];

fn main() {
    println!("cargo::rerun-if-changed=edits");
    println!("cargo::rerun-if-changed=../src");
    let (mut mutants, mut tests) = (String::new(), String::new());
    for (module, copied) in COPIED {
        let source = read(&format!("../src/{module}.rs"));
        for (name, hunks) in edits(&read(&format!("edits/{module}.edit"))) {
            let edited = hunks.iter().fold(source.clone(), |text, hunk| apply(&name, &text, hunk));
            let texts = texts(module, edited, copied);
            let _ = writeln!(mutants, "{}", mutant(&name, &texts));
            let _ =
                writeln!(tests, "#[test]\nfn {name}() {{ found(&nffs_mutants::{name}::Mutant); }}");
        }
    }
    let out = env::var("OUT_DIR").expect("a place for the mutants");
    fs::write(Path::new(&out).join("mutants.rs"), mutants).expect("the mutants are written");
    fs::write(Path::new(&out).join("tests.rs"), tests).expect("their tests are written");
}

fn read(path: &str) -> String {
    fs::read_to_string(path).unwrap_or_else(|error| panic!("{path}: {error}"))
}

/// Lines that stand in the source and those that take their place.
#[derive(Default)]
struct Hunk {
    old: Vec<String>,
    new: Vec<String>,
}

/// The edits of a file by name. Other lines than those said above are comments.
fn edits(text: &str) -> Vec<(String, Vec<Hunk>)> {
    let mut edits: Vec<(String, Vec<Hunk>)> = Vec::new();
    for line in text.lines() {
        if let Some(name) = line.strip_prefix("== ") {
            edits.push((name.to_string(), Vec::new()));
            continue;
        }
        let Some((_, hunks)) = edits.last_mut() else { continue };
        if let Some(old) = line.strip_prefix('-') {
            if hunks.last().is_none_or(|hunk| !hunk.new.is_empty()) {
                hunks.push(Hunk::default());
            }
            hunks.last_mut().expect("a hunk").old.push(old.trim().to_string());
        } else if let Some(new) = line.strip_prefix('+') {
            hunks.last_mut().expect("lines to replace").new.push(new.to_string());
        }
    }
    edits
}

/// The old lines must stand in the source once, whatever their indentation.
fn apply(name: &str, text: &str, hunk: &Hunk) -> String {
    let lines: Vec<&str> = text.lines().collect();
    let here =
        |at: &usize| lines[*at..].iter().zip(&hunk.old).all(|(line, old)| line.trim() == old);
    let last = lines.len() - hunk.old.len();
    let places: Vec<usize> = (0..=last).filter(here).collect();
    let [at] = places[..] else { panic!("{name}: {} places have {:?}", places.len(), hunk.old) };
    let new: Vec<&str> = hunk.new.iter().map(String::as_str).collect();
    [&lines[..at], &new, &lines[at + hunk.old.len()..]].concat().join("\n")
}

/// The text of each copied module: uses of copied modules stay among the copies.
fn texts(module: &str, edited: String, copied: &[&'static str]) -> BTreeMap<&'static str, String> {
    let mut texts = BTreeMap::new();
    for name in copied {
        let text =
            if *name == module { edited.clone() } else { read(&format!("../src/{name}.rs")) };
        let text = copied.iter().fold(text, |text, other| {
            text.replace(&format!("crate::{other}::"), &format!("super::{other}::"))
                .replace(&format!("use crate::{other};"), &format!("use super::{other};"))
        });
        texts.insert(*name, text.replace("crate::", "nffs_model::"));
    }
    texts
}

fn mutant(name: &str, texts: &BTreeMap<&str, String>) -> String {
    let mut text = format!("#[allow(warnings)]\npub mod {name} {{\n");
    for (module, copy) in texts {
        let _ = writeln!(text, "pub mod {module} {{\n{copy}\n}}");
    }
    for module in CALLED.iter().filter(|module| !texts.contains_key(*module)) {
        let _ = writeln!(text, "use nffs_model::{module};");
    }
    text + "crate::engine!();\n}\n"
}
