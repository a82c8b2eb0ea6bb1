//! docs/DESK.md and README.md, run: what they show is what the program prints.

use crate::folder::{finish, Folder, PROGRAM};
use std::fs;
use std::os::unix::fs::symlink;
use std::process::Command;

/// Begins the output of each command; no command prints it.
const MARK: &str = "\u{1}";

/// The commands that a page shows, with what it shows that they print.
fn shown(page: &str) -> Vec<(String, String)> {
    let mut commands: Vec<(String, String)> = Vec::new();
    let mut inside = false;
    for line in page.lines() {
        match (inside, line.strip_prefix("$ ")) {
            (false, _) => inside = line == "```console",
            (true, _) if line == "```" => inside = false,
            (true, Some(command)) => commands.push((command.into(), String::new())),
            (true, None) => {
                let (_, output) = commands.last_mut().expect("output stands below a command");
                *output += line;
                output.push('\n');
            }
        }
    }
    commands
}

#[test]
fn the_page_shows_what_is_printed() {
    let folder = Folder::new("desk");
    let place = Folder::new("desk_program");
    symlink(PROGRAM, place.path("nffs")).unwrap();
    let path = format!("{}:{}", place.0.display(), std::env::var("PATH").unwrap());
    let commands = shown(include_str!("../../../docs/DESK.md"));
    assert!(commands.len() > 20);
    compare(&folder, &path, &commands);
}

#[test]
fn the_readme_shows_what_is_printed() {
    let folder = Folder::new("readme");
    fs::create_dir(folder.path("tools")).unwrap();
    symlink(PROGRAM, folder.path("tools/nffs")).unwrap();
    let commands = shown(include_str!("../../../README.md"));
    assert!(commands.iter().any(|(command, map)| command.contains(" map ") && map.contains('X')));
    compare(&folder, &std::env::var("PATH").unwrap(), &commands);
}

/// Runs the commands in a folder, and compares what they print.
fn compare(folder: &Folder, path: &str, commands: &[(String, String)]) {
    // one shell for all, so that $? is that of the command before
    let mut script = String::from("exec 2>&1\n");
    for (command, _) in commands {
        script += &format!("{command}\n{{ s=$?; printf '{MARK}'; (exit $s); }}\n");
    }
    let mut bash = Command::new("timeout");
    bash.args(["60", "bash"]).current_dir(&folder.0).env("PATH", path).env("LC_ALL", "C");
    let output = String::from_utf8(finish(&mut bash, script.as_bytes()).stdout).unwrap();
    let printed: Vec<_> = output.split_terminator(MARK).collect();
    assert_eq!(printed.len(), commands.len(), "{output}");
    for ((command, expected), printed) in commands.iter().zip(printed) {
        assert_eq!(expected, printed, "$ {command}");
    }
}
