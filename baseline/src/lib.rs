//! NFFS version 0 over a lent image in ordinary Rust, without proofs: what the
//! proved calls are measured against (document 02, T-10). Written from the
//! documents without sight of the proved code, and made to be fast. `mount` and
//! the calls are those of the ordinary baseline; `tuned::mount` goes further.
//!
//! `areas` holds offset and length in turn. Every call mounts anew into a lent
//! `Volume` and works on its tables. `number` is 0 or a refusal; a refused
//! answer's other numbers are 0. Nothing is allocated.

#![no_std]
#![forbid(unsafe_code)]

pub mod area;
pub mod collect;
pub mod crc;
pub mod fate;
pub mod file;
pub mod layout;
pub mod lookup;
pub mod mount;
pub mod ordinary;
pub mod path;
pub mod record;
pub mod refusal;
pub mod style;
pub mod table;
pub mod tuned;
pub mod versions;
pub mod write;

pub use area::area_report;
pub use collect::collect;
pub use file::{open, read_at};
pub use lookup::lookup;
pub use mount::{mount, report, Volume};
pub use write::{append, create, format, unlink};
