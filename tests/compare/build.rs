//! With the feature `check`: finds the archives that `tools/archive crc16_alone mount_alone` writes. NFFS_ARCHIVE names their
//! folder; without it the repository's target/staticlib is taken. CRC16_BEFORE, if set, names the folder of libcrc16_before.a, the check of another
//! commit (`check-times`).

use std::env;
use std::path::{Path, PathBuf};

/// Lets the linker look into a folder for an archive, which must be there.
fn found(folder: &Path, archive: &str, how: &str) {
    let archive = folder.join(archive);
    println!("cargo::rerun-if-changed={}", archive.display());
    if archive.is_file() {
        println!("cargo::rustc-link-search=native={}", folder.display());
    } else {
        println!("cargo::error={} is not there: {how}", archive.display());
    }
}

fn main() {
    println!("cargo::rustc-check-cfg=cfg(before)");
    println!("cargo::rerun-if-env-changed=NFFS_ARCHIVE");
    println!("cargo::rerun-if-env-changed=CRC16_BEFORE");
    if env::var_os("CARGO_FEATURE_CHECK").is_none() {
        return;
    }
    let folder = match env::var_os("NFFS_ARCHIVE") {
        Some(named) => PathBuf::from(named),
        None => PathBuf::from(env::var_os("CARGO_MANIFEST_DIR").expect("cargo sets this")).join("../../target/staticlib"),
    };
    found(&folder, "libcrc16_alone.a", "run `tools/archive crc16_alone`, or set NFFS_ARCHIVE");
    found(&folder, "libmount_alone.a", "run `tools/archive mount_alone`, or set NFFS_ARCHIVE");
    if let Some(folder) = env::var_os("CRC16_BEFORE") {
        found(Path::new(&folder), "libcrc16_before.a", "run `tests/compare/check-times COMMIT`");
        println!("cargo::rustc-cfg=before");
    }
}
