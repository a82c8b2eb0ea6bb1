//! A folder for a test, and the program run in it.

use std::fs;
use std::io::Write;
use std::path::{Path, PathBuf};
use std::process::{Command, Output, Stdio};

pub const PROGRAM: &str = env!("CARGO_BIN_EXE_nffs");

/// A folder that goes with the test.
pub struct Folder(pub PathBuf);

impl Folder {
    pub fn new(name: &str) -> Folder {
        let folder = std::env::temp_dir().join(format!("nffs-{name}-{}", std::process::id()));
        fs::create_dir(&folder).unwrap();
        Folder(folder)
    }

    /// With an image of two areas of 4,096 bytes.
    pub fn formatted(name: &str) -> Folder {
        let folder = Folder::new(name);
        folder.good(&["format", "image", "--areas", "4096x2"], b"");
        folder
    }

    pub fn path(&self, name: &str) -> PathBuf {
        self.0.join(name)
    }

    pub fn bytes(&self, name: &str) -> Vec<u8> {
        fs::read(self.path(name)).unwrap()
    }

    pub fn write(&self, name: &str, bytes: impl AsRef<[u8]>) {
        fs::write(self.path(name), bytes).unwrap();
    }

    /// The program with some words; one that does not end is ended after a minute, with status 124.
    pub fn command(&self, words: &[&str]) -> Command {
        let mut command = Command::new("timeout");
        command.args(["60", PROGRAM]).args(words).current_dir(&self.0);
        command
    }

    /// Runs the program in the folder, with standard input.
    pub fn run(&self, words: &[&str], input: &[u8]) -> Output {
        finish(&mut self.command(words), input)
    }

    /// What a command prints that must succeed.
    pub fn good(&self, words: &[&str], input: &[u8]) -> Vec<u8> {
        let output = self.run(words, input);
        assert!(output.status.success(), "{words:?}: {}", String::from_utf8_lossy(&output.stderr));
        output.stdout
    }

    /// The same as text.
    pub fn text(&self, words: &[&str]) -> String {
        String::from_utf8(self.good(words, b"")).unwrap()
    }

    /// What a command says that must end with a status, and that it leaves the folder as it was.
    pub fn bad(&self, words: &[&str], input: &[u8], status: i32) -> String {
        let before = self.files();
        let output = self.run(words, input);
        let said = String::from_utf8(output.stderr).unwrap();
        assert_eq!(output.status.code(), Some(status), "{words:?}: {said}");
        assert_eq!(before, self.files(), "{words:?} changed a file");
        said
    }

    pub fn refused(&self, words: &[&str], input: &[u8]) -> String {
        self.bad(words, input, 1)
    }

    /// The files of the folder and below it, with their bytes; of a folder, or what is no regular
    /// file, none.
    pub fn files(&self) -> Vec<(PathBuf, Vec<u8>)> {
        files_of(&self.0)
    }
}

pub fn files_of(folder: &Path) -> Vec<(PathBuf, Vec<u8>)> {
    let mut paths: Vec<_> =
        fs::read_dir(folder).unwrap().map(|entry| entry.unwrap().path()).collect();
    paths.sort();
    let mut files = Vec::new();
    for path in paths {
        let kind = fs::symlink_metadata(&path).unwrap().file_type();
        let bytes = if kind.is_file() { fs::read(&path).unwrap() } else { Vec::new() };
        files.push((path.clone(), bytes));
        if kind.is_dir() {
            files.extend(files_of(&path));
        }
    }
    files
}

/// Runs a command to its end, with standard input.
pub fn finish(command: &mut Command, input: &[u8]) -> Output {
    let mut child = command
        .stdin(Stdio::piped())
        .stdout(Stdio::piped())
        .stderr(Stdio::piped())
        .spawn()
        .unwrap();
    // a program that needs no input may end before it is written
    let _ = child.stdin.take().unwrap().write_all(input);
    child.wait_with_output().unwrap()
}

impl Drop for Folder {
    fn drop(&mut self) {
        let _ = fs::remove_dir_all(&self.0);
    }
}
