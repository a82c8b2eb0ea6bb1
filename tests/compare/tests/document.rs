//! The cases of documents 01 and 02, with their expected values, run on the proved calls.

use nffs_compare as calls;

#[allow(dead_code)]
#[path = "../../../model/tests/document/common.rs"]
mod common;

#[path = "../../../model/tests/document/area_reports.rs"]
mod area_reports;
#[path = "../../../model/tests/document/areas.rs"]
mod areas;
#[path = "../../../model/tests/document/bench.rs"]
mod bench;
#[path = "../../../model/tests/document/collecting.rs"]
mod collecting;
#[path = "../../../model/tests/document/first_damage.rs"]
mod first_damage;
#[path = "../../../model/tests/document/ids.rs"]
mod ids;
#[path = "../../../model/tests/document/listing.rs"]
mod listing;
#[path = "../../../model/tests/document/mounting.rs"]
mod mounting;
#[path = "../../../model/tests/document/overwriting.rs"]
mod overwriting;
#[path = "../../../model/tests/document/paths.rs"]
mod paths;
#[path = "../../../model/tests/document/reading.rs"]
mod reading;
#[path = "../../../model/tests/document/renaming.rs"]
mod renaming;
#[path = "../../../model/tests/document/reserved.rs"]
mod reserved;
#[path = "../../../model/tests/document/tables.rs"]
mod tables;
#[path = "../../../model/tests/document/writing.rs"]
mod writing;
