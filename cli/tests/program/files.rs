//! Image files: locked, replaced whole or not at all, and what stands in the way of it.

use crate::folder::{finish, Folder, PROGRAM};
use std::fs::{self, File, OpenOptions, Permissions};
use std::os::unix::fs::{chown, symlink, MetadataExt, PermissionsExt};
use std::path::{Path, PathBuf};
use std::process::{Child, Command, Stdio};
use std::thread::sleep;
use std::time::{Duration, Instant};

/// What a test lets become of calls of the system: `fsync` of a file or a folder fails, or `linkat`;
/// `fsync` or `fchmod` never ends; `flock` makes a file and waits for another.
const CALLS: &str = r#"
#include <errno.h>
#include <fcntl.h>
#include <stdlib.h>
#include <string.h>
#include <sys/stat.h>
#include <sys/syscall.h>
#include <unistd.h>

int fsync(int file) {
    struct stat s;
    const char *of = S_ISDIR(fstat(file, &s) == 0 ? s.st_mode : 0) ? "folder" : "file";
    const char *fails = getenv("TEST_FAILS"), *waits = getenv("TEST_WAITS");
    while (waits && strcmp(waits, of) == 0) pause();
    if (!fails || strcmp(fails, of) != 0) return 0;
    errno = EIO;
    return -1;
}

int fchmod(int file, mode_t mode) {
    const char *waits = getenv("TEST_WAITS");
    while (waits && strcmp(waits, "mode") == 0) pause();
    return (int)syscall(SYS_fchmod, file, mode);
}

int flock(int file, int how) {
    if (getenv("TEST_WAITS") && strcmp(getenv("TEST_WAITS"), "lock") == 0) {
        close(open("begun", O_CREAT | O_WRONLY, 0600));
        while (access("go", F_OK) != 0) usleep(10000);
    }
    return (int)syscall(SYS_flock, file, how);
}

int linkat(int from, const char *old, int to, const char *new, int flags) {
    const char *fails = getenv("TEST_FAILS");
    if (!fails || strcmp(fails, "link") != 0) return (int)syscall(SYS_linkat, from, old, to, new, flags);
    errno = EPERM;
    return -1;
}
"#;

/// A library that puts them before the system's own, in a folder of its own.
fn with_calls(name: &str) -> (Folder, PathBuf) {
    let folder = Folder::new(name);
    let (source, library) = (folder.path("calls.c"), folder.path("calls.so"));
    fs::write(&source, CALLS).unwrap();
    let mut compiler = Command::new("cc");
    let built = compiler.args(["-shared", "-fPIC", "-o"]).args([&library, &source]).status();
    assert!(built.unwrap().success());
    (folder, library)
}

fn mode(path: &Path) -> u32 {
    fs::symlink_metadata(path).unwrap().mode() & 0o7777
}

fn set_mode(path: &Path, mode: u32) {
    fs::set_permissions(path, Permissions::from_mode(mode)).unwrap();
}

#[test]
fn a_link_stays_and_the_file_behind_it_keeps_its_mode() {
    let folder = Folder::formatted("link");
    let (image, link) = (folder.path("image"), folder.path("link"));
    set_mode(&image, 0o640);
    symlink("image", &link).unwrap();
    folder.good(&["put", "link", "/dose"], b"20 mSv");
    assert!(fs::symlink_metadata(&link).unwrap().is_symlink());
    assert_eq!(mode(&image), 0o640);
    assert_eq!(folder.text(&["cat", "image", "/dose"]), "20 mSv");
    assert_eq!(folder.files().len(), 2);
}

#[test]
fn a_read_only_image_is_not_replaced() {
    let folder = Folder::formatted("read_only");
    set_mode(&folder.path("image"), 0o444);
    folder.good(&["report", "image"], b"");
    for words in [
        &["put", "image", "/dose"][..],
        &["write", "image", "/dose", "0"],
        &["mv", "image", "/dose", "/limit"],
        &["collect", "image"],
        &["import", "image", "."],
        &["format", "image", "--force", "--areas", "4096x2"],
    ] {
        let said = folder.bad(words, b"", 2);
        assert!(said.contains("image is read-only: nothing was changed"), "{said}");
    }
    assert_eq!(mode(&folder.path("image")), 0o444);
}

#[test]
fn the_owner_is_kept_or_its_loss_is_told() {
    let folder = Folder::formatted("owner");
    let image = folder.path("image");
    // only the superuser gives files away
    if chown(&image, Some(1234), Some(1235)).is_err() {
        return;
    }
    set_mode(&image, 0o664);
    folder.good(&["put", "image", "/dose"], b"20 mSv");
    let metadata = fs::metadata(&image).unwrap();
    assert_eq!((metadata.uid(), metadata.gid(), mode(&image)), (1234, 1235, 0o664));

    // somebody else who may write both file and folder, but is not of the file's group
    set_mode(&folder.0, 0o777);
    set_mode(&image, 0o666);
    let program = folder.path("program");
    fs::copy(PROGRAM, &program).unwrap();
    let mut other = Command::new("setpriv");
    other.args(["--reuid", "4321", "--regid", "4321", "--clear-groups"]).arg(&program);
    let output = finish(other.args(["rm", "image", "/dose"]).current_dir(&folder.0), b"");
    let said = String::from_utf8(output.stderr).unwrap();
    assert!(output.status.success(), "{said}");
    assert!(said.contains("warning: the owner of "), "{said}");
    let metadata = fs::metadata(&image).unwrap();
    assert_eq!((metadata.uid(), metadata.gid(), mode(&image)), (4321, 4321, 0o606));

    // and one who may not write it
    set_mode(&image, 0o600);
    chown(&image, Some(1234), None).unwrap();
    let mut other = Command::new("setpriv");
    other.args(["--reuid", "4321", "--regid", "4321", "--clear-groups"]).arg(&program);
    let output = finish(other.args(["collect", "image"]).current_dir(&folder.0), b"");
    let said = String::from_utf8(output.stderr).unwrap();
    assert!(output.status.code() == Some(2) && said.contains("image is read-only"), "{said}");
}

#[test]
fn files_of_the_user_are_left_alone() {
    let folder = Folder::formatted("neighbours");
    folder.write("image.new", b"mine");
    folder.good(&["put", "image", "/dose"], b"20 mSv");
    folder.good(&["rm", "image", "/dose"], b"");
    assert_eq!(folder.bytes("image.new"), b"mine");
    assert_eq!(folder.files().len(), 2);
}

#[test]
fn only_a_regular_file_is_an_image() {
    let folder = Folder::new("kinds");
    fs::create_dir(folder.path("folder")).unwrap();
    assert!(Command::new("mkfifo").arg(folder.path("fifo")).status().unwrap().success());
    for (name, what) in
        [("fifo", "is a FIFO"), ("folder", "is a folder"), ("/dev/null", "is a device")]
    {
        for words in [
            &["report", name][..],
            &["check", name],
            &["put", name, "/a"],
            &["format", name, "--force", "--areas", "4096x2"],
        ] {
            let said = folder.bad(words, b"", 2);
            assert!(said.contains(&format!("{name} {what}, not an image file")), "{said}");
        }
    }
}

#[test]
fn a_folder_that_is_not_brought_to_the_disk_is_told_as_it_is() {
    let folder = Folder::formatted("sync");
    let (_calls, library) = with_calls("sync_calls");
    let old = folder.bytes("image");
    let run = |of: &str, words: &[&str]| {
        let mut command = folder.command(words);
        let output = finish(command.env("LD_PRELOAD", &library).env("TEST_FAILS", of), b"20 mSv");
        (output.status.code(), String::from_utf8(output.stderr).unwrap())
    };
    // before the image is replaced: nothing has changed, and nothing is left
    let (status, said) = run("file", &["put", "image", "/dose"]);
    assert!(status == Some(2) && said.contains("cannot write "), "{said}");
    assert_eq!(folder.files(), [(folder.path("image"), old)]);

    // after it: it was replaced
    let (status, said) = run("folder", &["put", "image", "/dose"]);
    assert!(status == Some(4) && said.contains("image was replaced, but its folder"), "{said}");
    assert_eq!(folder.text(&["cat", "image", "/dose"]), "20 mSv");
    let (status, said) = run("folder", &["format", "other", "--areas", "4096x2"]);
    assert!(status == Some(4) && said.contains("other was made, but its folder"), "{said}");
    folder.good(&["report", "other"], b"");
    assert_eq!(folder.files().len(), 2);
}

#[test]
fn a_new_image_where_there_are_no_links() {
    let folder = Folder::new("links");
    let (_calls, library) = with_calls("links_calls");
    let mut command = folder.command(&["format", "image", "--areas", "4096x2"]);
    let output = finish(command.env("LD_PRELOAD", library).env("TEST_FAILS", "link"), b"");
    assert!(output.status.success(), "{}", String::from_utf8_lossy(&output.stderr));
    folder.good(&["report", "image"], b"");
    assert_eq!(folder.files().len(), 1);
}

/// A run under no mask that waits, of itself for ever; it is stopped by force with the test, however
/// that ends.
struct Waiting(Child);

impl Waiting {
    fn new(folder: &Folder, library: &Path, waits: &str, words: &[&str]) -> Waiting {
        let child = Command::new("bash")
            .args(["-c", "umask 0; exec \"$0\" \"$@\"", PROGRAM])
            .args(words)
            .current_dir(&folder.0)
            .env("LD_PRELOAD", library)
            .env("TEST_WAITS", waits)
            .stdin(Stdio::null())
            .stdout(Stdio::null())
            .stderr(Stdio::null())
            .spawn()
            .unwrap();
        Waiting(child)
    }

    /// Comes back when something has come about.
    fn until(self, is: impl Fn() -> bool) -> Waiting {
        let begun = Instant::now();
        while !is() {
            assert!(begun.elapsed() < Duration::from_secs(30), "it does not come about");
            sleep(Duration::from_millis(10));
        }
        self
    }
}

impl Drop for Waiting {
    fn drop(&mut self) {
        let _ = self.0.kill();
        let _ = self.0.wait();
    }
}

/// Whether a run has made the file that it replaces the image by, with so many bytes at least.
fn has_written(folder: &Folder, size: u64) -> bool {
    beside(folder).is_some_and(|path| fs::metadata(path).unwrap().len() >= size)
}

/// The file that a run writes before it replaces the image.
fn beside(folder: &Folder) -> Option<PathBuf> {
    let is_beside =
        |path: &PathBuf| path.file_name().unwrap().to_str().unwrap().starts_with(".nffs-");
    folder.files().into_iter().map(|(path, _)| path).find(is_beside)
}

#[test]
fn a_lock_ends_with_the_run_that_is_stopped() {
    let folder = Folder::formatted("stopped");
    let (_calls, library) = with_calls("stopped_calls");
    set_mode(&folder.path("image"), 0o600);
    let old = folder.bytes("image");
    let words = ["mkdir", "image", "/first"];
    let first =
        Waiting::new(&folder, &library, "file", &words).until(|| has_written(&folder, 8192));

    // meanwhile it can be read, and a second change waits some seconds and is then turned away
    folder.good(&["report", "image"], b"");
    let said = folder.bad(&["mkdir", "image", "/second"], b"", 2);
    assert!(said.contains("image is being changed by another run"), "{said}");

    drop(first);
    assert_eq!(folder.bytes("image"), old);
    // what it left is in nobody's way
    folder.good(&["mkdir", "image", "/second"], b"");
    assert_eq!(folder.files().len(), 2);
    assert!(folder.refused(&["lookup", "image", "/first"], b"").contains("9, "));
}

#[test]
fn a_new_image_is_never_open_to_more_than_the_old() {
    let folder = Folder::formatted("modes");
    let (_calls, library) = with_calls("modes_calls");
    set_mode(&folder.path("image"), 0o640);
    for (waits, size, expected) in [("mode", 0, 0o600), ("file", 8192, 0o640)] {
        let words = ["mkdir", "image", "/first"];
        let run =
            Waiting::new(&folder, &library, waits, &words).until(|| has_written(&folder, size));
        let path = beside(&folder).unwrap();
        assert_eq!((fs::metadata(&path).unwrap().len(), mode(&path)), (size, expected));
        drop(run);
        fs::remove_file(path).unwrap();
    }
}

#[test]
fn a_change_waits_for_another() {
    let folder = Folder::formatted("waits");
    let image = OpenOptions::new().write(true).open(folder.path("image")).unwrap();
    image.lock().unwrap();
    std::thread::scope(|scope| {
        let second = scope.spawn(|| folder.good(&["mkdir", "image", "/second"], b""));
        sleep(Duration::from_millis(300));
        assert!(!second.is_finished());
        image.unlock().unwrap();
        second.join().unwrap();
    });
    folder.good(&["lookup", "image", "/second"], b"");
}

#[test]
fn an_image_replaced_just_before_it_is_locked_is_taken_anew() {
    let folder = Folder::formatted("replaced");
    let (_calls, library) = with_calls("replaced_calls");
    let words = ["mkdir", "image", "/first"];
    let begun = || folder.path("begun").exists();
    let mut first = Waiting::new(&folder, &library, "lock", &words).until(begun);
    folder.good(&["mkdir", "image", "/second"], b"");
    folder.write("go", b"");
    assert!(first.0.wait().unwrap().success());
    for path in ["/first", "/second"] {
        folder.good(&["lookup", "image", path], b"");
    }
}

#[test]
fn a_run_stopped_while_it_writes_leaves_the_old_image() {
    let folder = Folder::formatted("cut");
    folder.good(&["put", "image", "/dose"], b"old");
    let old = folder.bytes("image");
    // files may have 4,096 bytes: the system ends the run in the middle of the 8,192
    let stopped = Command::new("bash")
        .args(["-c", "ulimit -c 0 -f 4 && exec \"$0\" \"$@\"", PROGRAM])
        .args(["rm", "image", "/dose"])
        .current_dir(&folder.0)
        .output()
        .unwrap();
    assert!(!stopped.status.success());
    assert_eq!(folder.bytes("image"), old);
    assert_eq!(folder.text(&["cat", "image", "/dose"]), "old");
    folder.good(&["rm", "image", "/dose"], b"");
}

#[test]
fn of_changes_at_one_time_none_is_lost() {
    let folder = Folder::formatted("together");
    let names: Vec<String> = (0..8).map(|i| format!("/file{i}")).collect();
    std::thread::scope(|scope| {
        for name in &names {
            let folder = &folder;
            scope.spawn(move || folder.good(&["put", "image", name], name.as_bytes()));
        }
    });
    for name in &names {
        assert_eq!(folder.good(&["cat", "image", name], b""), name.as_bytes());
    }
    assert_eq!(folder.files().len(), 1);
}

#[test]
fn of_two_new_images_one_is_made() {
    let folder = Folder::new("one");
    let made = std::thread::scope(|scope| {
        let format = || folder.run(&["format", "image", "--areas", "4096x2"], b"").status.code();
        let runs: Vec<_> = (0..4).map(|_| scope.spawn(format)).collect();
        let statuses = runs.into_iter().map(|run| run.join().unwrap().unwrap());
        statuses.filter(|status| *status == 0).count()
    });
    assert_eq!(made, 1);
    assert_eq!(folder.files().len(), 1);
}

#[test]
fn what_cannot_be_printed_does_not_end_in_a_panic() {
    let folder = Folder::formatted("full_device");
    folder.good(&["put", "image", "/dose"], b"20 mSv");
    let full = || Stdio::from(OpenOptions::new().write(true).open("/dev/full").unwrap());
    let status = |command: &mut Command| command.stdin(Stdio::null()).status().unwrap().code();
    // standard error
    assert_eq!(status(folder.command(&["cat", "image", "/none"]).stderr(full())), Some(1));
    assert_eq!(status(folder.command(&["mkdir", "image", "/a"]).stderr(full())), Some(0));
    // standard output
    let output = folder.command(&["cat", "image", "/dose", "-q"]).stdout(full()).output().unwrap();
    assert_eq!(output.status.code(), Some(2));
    assert!(output.stderr.starts_with(b"nffs: cannot write standard output: "));
}

#[test]
fn a_reader_that_has_gone_is_told_nothing() {
    let folder = Folder::formatted("gone");
    let (reader, writer) = std::io::pipe().unwrap();
    drop(reader);
    let mut command = folder.command(&["help"]);
    let output = command.stdout(File::from(std::os::fd::OwnedFd::from(writer))).output().unwrap();
    assert_eq!((output.status.code(), &output.stderr[..]), (Some(2), &b""[..]));
}
