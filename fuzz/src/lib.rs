//! One case of the fuzzer: its bytes choose image, areas and calls; the proved calls and the model must agree on every answer, image, buffer
//! and handle. Each case ends in a listing of its tree (T-07), a report, and the report of every area of its list and of some that are not
//! there (T-08). The archive is compiled with counters, so the coverage of the proved calls guides the search; the model is run as it is.

use nffs_compare::Proved;
use nffs_model::compare::{run, show, Model, Tally};
use nffs_model::generate;

/// # Safety
/// `data` points to `size` bytes.
#[no_mangle]
pub unsafe extern "C" fn LLVMFuzzerTestOneInput(data: *const u8, size: usize) -> i32 {
    // SAFETY: as said above; an empty slice may come with a null pointer.
    let script = if size == 0 { &[][..] } else { unsafe { std::slice::from_raw_parts(data, size) } };
    let case = generate::scripted(script);
    let model = Model;
    if run(&case, &Proved, &model, &mut Tally::default()).is_some() {
        println!("{}", show(&case, &Proved, &model));
        std::process::abort();
    }
    0
}
