//! The mutants that `build.rs` makes of the model, each an engine.

#![forbid(unsafe_code)]

/// An engine of the modules that are in sight where it stands.
macro_rules! engine {
    () => {
        use nffs_model::compare::Engine;
        use nffs_model::{AreaReport, Create, Handle, Lookup, Open, Read, Report, Tree};

        pub struct Mutant;

        impl Engine for Mutant {
            fn format(&self, i: &mut [u8], a: &[u32]) -> u32 {
                write::format(i, a)
            }
            fn report(&self, i: &[u8], a: &[u32]) -> Report {
                mount::report(i, a)
            }
            fn area_report(&self, i: &[u8], a: &[u32], index: u32, stretch: u32) -> AreaReport {
                area_report::area_report(i, a, index, stretch)
            }
            fn tree(&self, i: &[u8], a: &[u32], buffer: &mut [u8]) -> Tree {
                tree::tree(i, a, buffer)
            }
            fn lookup(&self, i: &[u8], a: &[u32], base: &[u8], path: &[u8]) -> Lookup {
                lookup::lookup(i, a, base, path)
            }
            fn open(&self, i: &[u8], a: &[u32], base: &[u8], path: &[u8]) -> Open {
                file::open(i, a, base, path)
            }
            fn read_at(&self, i: &[u8], a: &[u32], id: u32, at: u32, buffer: &mut [u8]) -> Read {
                file::read_at(i, a, id, at, buffer)
            }
            fn read(&self, i: &[u8], a: &[u32], handle: &mut Handle, buffer: &mut [u8]) -> Read {
                file::read(i, a, handle, buffer)
            }
            fn create(&self, i: &mut [u8], a: &[u32], base: &[u8], path: &[u8], k: u32) -> Create {
                write::create(i, a, base, path, k)
            }
            fn append(&self, i: &mut [u8], a: &[u32], base: &[u8], path: &[u8], d: &[u8]) -> u32 {
                write::append(i, a, base, path, d)
            }
            fn overwrite(
                &self,
                i: &mut [u8],
                a: &[u32],
                base: &[u8],
                path: &[u8],
                offset: u32,
                d: &[u8],
            ) -> u32 {
                overwrite::overwrite(i, a, base, path, offset, d)
            }
            fn unlink(&self, i: &mut [u8], a: &[u32], base: &[u8], path: &[u8]) -> u32 {
                write::unlink(i, a, base, path)
            }
            fn rename(&self, i: &mut [u8], a: &[u32], base: &[u8], old: &[u8], new: &[u8]) -> u32 {
                rename::rename(i, a, base, old, new)
            }
            fn collect(&self, i: &mut [u8], a: &[u32]) -> u32 {
                collect::collect(i, a)
            }
        }
    };
}

use engine;

include!(concat!(env!("OUT_DIR"), "/mutants.rs"));
