//! Cases from documents 01 and 02; the expected values are theirs. The calls are
//! named `calls`, so that other engines can be held to the same cases.

use nffs_model as calls;

mod area_reports;
mod areas;
mod bench;
mod collecting;
mod common;
mod first_damage;
mod ids;
mod listing;
mod mounting;
mod overwriting;
mod paths;
mod program;
mod reading;
mod renaming;
mod reserved;
mod tables;
mod writing;
