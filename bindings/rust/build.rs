//! Links the archive that `tools/archive nffs` writes. NFFS_ARCHIVE names its folder; without it
//! the repository's target/staticlib is taken.

use std::env;
use std::path::PathBuf;

fn main() {
    println!("cargo::rerun-if-env-changed=NFFS_ARCHIVE");
    let folder = match env::var_os("NFFS_ARCHIVE") {
        Some(named) => PathBuf::from(named),
        None => PathBuf::from(env::var_os("CARGO_MANIFEST_DIR").expect("cargo sets this"))
            .join("../../target/staticlib"),
    };
    let archive = folder.join("libnffs.a");
    println!("cargo::rerun-if-changed={}", archive.display());
    if !archive.is_file() {
        println!(
            "cargo::error={} is not there: run `tools/archive nffs`, or set NFFS_ARCHIVE",
            archive.display()
        );
        return;
    }
    println!("cargo::rustc-link-search=native={}", folder.display());
    println!("cargo::rustc-link-lib=static=nffs");
}
