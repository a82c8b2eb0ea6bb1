//! An image in a file: read, and replaced whole.

use crate::console::say;
use crate::failure::Failure;
use std::fs::{self, File, Metadata, OpenOptions, Permissions, TryLockError};
use std::io::{self, Read, Seek, SeekFrom, Write};
use std::os::unix::fs::{
    fchown, FileExt, FileTypeExt, MetadataExt, OpenOptionsExt, PermissionsExt,
};
use std::path::{Path, PathBuf};
use std::thread::sleep;
use std::time::{Duration, Instant};

/// The most bytes of an image.
pub const MOST: usize = 65_536;

/// How long a run waits for another that changes the same image.
const PATIENCE: Duration = Duration::from_secs(10);

/// The bytes of an image file. Of one that is too long it is one byte more than an image may have,
/// so that the calls refuse it; with `at` it is what lies there, as far as an image may go.
pub fn load(path: &Path, at: Option<u64>) -> Result<Vec<u8>, Failure> {
    regular(path)?;
    let file = File::open(path).map_err(failed("read", path))?;
    read(&file, path, at)
}

/// Only a regular file is opened: a FIFO would wait for its writer, and a device might act on it.
fn regular(path: &Path) -> Result<(), Failure> {
    let kind = fs::metadata(path).map_err(failed("read", path))?.file_type();
    let what = match () {
        () if kind.is_file() => return Ok(()),
        () if kind.is_dir() => "a folder",
        () if kind.is_fifo() => "a FIFO",
        () if kind.is_socket() => "a socket",
        () => "a device",
    };
    Err(Failure::Unfit(format!("{} is {what}, not an image file", path.display())))
}

fn read(mut file: &File, path: &Path, at: Option<u64>) -> Result<Vec<u8>, Failure> {
    let length = file.metadata().map_err(failed("read", path))?.len();
    let begin = at.unwrap_or(0);
    if begin > 0 && begin >= length {
        return Err(Failure::Unfit(format!(
            "{} has {length} bytes: nothing lies at {begin} (--at)",
            path.display()
        )));
    }
    let most = MOST as u64 + u64::from(at.is_none());
    let mut image = Vec::new();
    file.seek(SeekFrom::Start(begin))
        .and_then(|_| file.take(most).read_to_end(&mut image))
        .map_err(failed("read", path))?;
    Ok(image)
}

/// An image file that this run alone may change: it is locked until the run ends, however it ends.
/// The new image is written to a file beside it, which is renamed over it once it is on the disk:
/// whoever looks, and whenever the machine stops, finds the old image or the new one, whole.
pub struct Held {
    target: PathBuf,
    file: File,
    at: u64,
    old: Vec<u8>,
}

impl Held {
    /// Locks an image that is there, and reads it.
    pub fn of(path: &Path, at: Option<u64>) -> Result<Held, Failure> {
        regular(path)?;
        // behind a symbolic link it is the file that is changed, not the link
        let target = fs::canonicalize(path).map_err(failed("read", path))?;
        let file = lock(&target, path)?;
        let old = read(&file, path, at)?;
        Ok(Held { target, file, at: at.unwrap_or(0), old })
    }

    /// The image as it is in the file.
    pub fn image(&self) -> &[u8] {
        &self.old
    }

    /// Puts a new image in the old one's place; what the file holds around it stays.
    pub fn replace(mut self, image: &[u8]) -> Result<(), Failure> {
        if image == self.old {
            return Ok(());
        }
        let old = self.file.metadata().map_err(failed("read", &self.target))?;
        let target = self.target.clone();
        swap(&target, &old, |mut new| {
            self.file.seek(SeekFrom::Start(0))?;
            io::copy(&mut self.file, &mut new)?;
            new.write_all_at(image, self.at)
        })
    }
}

/// Opens a file for a change, and locks it.
fn lock(target: &Path, path: &Path) -> Result<File, Failure> {
    let begun = Instant::now();
    while begun.elapsed() < PATIENCE {
        let file = writable(target, path)?;
        match file.try_lock() {
            // the run that held it has replaced it since it was opened: the new one is to be held
            Ok(()) if !is_at(&file, target) => continue,
            Ok(()) => return Ok(file),
            Err(TryLockError::WouldBlock) => sleep(Duration::from_millis(20)),
            Err(TryLockError::Error(e)) => return Err(failed("lock", path)(e)),
        }
    }
    Err(Failure::Unfit(format!(
        "{} is being changed by another run, or locked by another program: nothing was changed",
        path.display()
    )))
}

fn is_at(file: &File, target: &Path) -> bool {
    let same = |a: &Metadata, b: &Metadata| a.dev() == b.dev() && a.ino() == b.ino();
    matches!((file.metadata(), fs::metadata(target)), (Ok(a), Ok(b)) if same(&a, &b))
}

/// Replacing a file needs only its folder to be writable, so the file itself is asked.
fn writable(target: &Path, path: &Path) -> Result<File, Failure> {
    let read_only = || {
        Failure::Unfit(format!(
            "{} is read-only: nothing was changed (`chmod u+w` allows it)",
            path.display()
        ))
    };
    let opened = OpenOptions::new().read(true).write(true).open(target);
    let file = opened.map_err(|e| match e.kind() {
        io::ErrorKind::PermissionDenied | io::ErrorKind::ReadOnlyFilesystem => read_only(),
        _ => failed("change", path)(e),
    })?;
    let metadata = file.metadata().map_err(failed("read", path))?;
    // the superuser may open it all the same
    if metadata.permissions().readonly() {
        return Err(read_only());
    }
    Ok(file)
}

/// Makes a file that is not there yet, whole or not at all.
pub fn make(path: &Path, bytes: &[u8]) -> Result<(), Failure> {
    let folder = folder_of(path);
    let mut new = Beside::make(folder, 0o666).map_err(failed("make a file in", folder))?;
    new.file
        .write_all(bytes)
        .and_then(|()| new.file.sync_all())
        .and_then(|()| new.place(path))
        .map_err(failed("make", path))?;
    settle(path, "made")
}

/// Replaces a file by one that bears its owner and mode.
pub fn swap(
    target: &Path,
    old: &Metadata,
    fill: impl FnOnce(&File) -> io::Result<()>,
) -> Result<(), Failure> {
    let folder = folder_of(target);
    // for its owner alone until it has the old one's owner and mode, and empty until then
    let beside = Beside::make(folder, old.mode() & 0o700);
    let mut new = beside.map_err(failed("make a file in", folder))?;
    let kept = liken(&new.file, old).map_err(failed("write", &new.path))?;
    fill(&new.file).and_then(|()| new.file.sync_all()).map_err(failed("write", &new.path))?;
    fs::rename(&new.path, target).map_err(failed("replace", target))?;
    new.placed = true;
    if !kept {
        say(&format!("warning: the owner of {} could not be kept", target.display()));
    }
    settle(target, "replaced")
}

/// Gives a new file owner and mode of the one it replaces; false where the owner could not be kept.
/// It is never open to more than the old one: without its group it is not open to a group.
fn liken(new: &File, old: &Metadata) -> io::Result<bool> {
    let made = new.metadata()?;
    let mut mode = old.mode() & 0o7777;
    let same = made.uid() == old.uid() && made.gid() == old.gid();
    let kept = same || fchown(new, Some(old.uid()), Some(old.gid())).is_ok();
    if !kept {
        mode &= 0o777;
        if made.gid() != old.gid() && fchown(new, None, Some(old.gid())).is_err() {
            mode &= !0o070;
        }
    }
    new.set_permissions(Permissions::from_mode(mode))?;
    Ok(kept)
}

/// Brings the new name to the disk. The file stands there already, and that is what is said.
fn settle(path: &Path, done: &str) -> Result<(), Failure> {
    File::open(folder_of(path)).and_then(|folder| folder.sync_all()).map_err(|e| {
        Failure::Partly(format!(
            "{} was {done}, but its folder could not be brought to the disk ({e}): until the \
             system has done so by itself, a power cut may undo it",
            path.display()
        ))
    })
}

/// A file beside the one to be made, under a name that no other has; it goes with the run, unless
/// the run is stopped by force. No later run minds it.
struct Beside {
    path: PathBuf,
    file: File,
    placed: bool,
}

impl Beside {
    fn make(folder: &Path, mode: u32) -> io::Result<Beside> {
        let mut number = 0;
        loop {
            let path = folder.join(format!(".nffs-{}-{number}", std::process::id()));
            let made = OpenOptions::new().write(true).create_new(true).mode(mode).open(&path);
            match made {
                Err(e) if e.kind() == io::ErrorKind::AlreadyExists && number < 1000 => number += 1,
                Err(e) => return Err(e),
                Ok(file) => return Ok(Beside { path, file, placed: false }),
            }
        }
    }

    /// Gives it a name that must be free: a link is refused where the name is taken. Where there
    /// are no links the name is looked at first.
    fn place(&mut self, path: &Path) -> io::Result<()> {
        match fs::hard_link(&self.path, path) {
            Err(e) if e.kind() == io::ErrorKind::AlreadyExists => Err(e),
            Err(_) if fs::symlink_metadata(path).is_err() => {
                fs::rename(&self.path, path)?;
                self.placed = true;
                Ok(())
            }
            linked => linked,
        }
    }
}

impl Drop for Beside {
    fn drop(&mut self) {
        if !self.placed {
            // where it fails a file is left that no run minds
            let _ = fs::remove_file(&self.path);
        }
    }
}

fn folder_of(path: &Path) -> &Path {
    match path.parent() {
        Some(folder) if !folder.as_os_str().is_empty() => folder,
        _ => Path::new("."),
    }
}

pub fn failed(what: &str, path: &Path) -> impl Fn(io::Error) -> Failure {
    let tried = format!("cannot {what} {}", path.display());
    move |e| Failure::File(tried.clone(), e)
}
