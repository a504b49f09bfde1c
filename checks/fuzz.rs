//! A fuzz target: the bytes are a replay script (docs/REPLAY.md), which the linked library and the second program answer. Any difference ends the run.
//! Built by checks/fuzz as a part of the second program, whose branches guide the search.

#[path = "../host/rust/replay.rs"]
#[allow(dead_code)]
mod library;

use crate::run_script::answer_script;
use crate::script::ALL_KINDS;

/// Called by libFuzzer for every input.
///
/// # Safety
/// `data` leads to `size` bytes.
#[no_mangle]
pub unsafe extern "C" fn LLVMFuzzerTestOneInput(data: *const u8, size: usize) -> i32 {
    let script = if size == 0 { &[][..] } else { std::slice::from_raw_parts(data, size) };
    let (mut expected, mut answered) = (Vec::new(), Vec::new());
    answer_script(&mut &script[..], &mut expected, ALL_KINDS).expect("the second program answers");
    library::replay(script.to_vec(), &mut answered).expect("the library answers");
    if expected != answered {
        eprintln!("second:  {}", String::from_utf8_lossy(&expected));
        eprintln!("library: {}", String::from_utf8_lossy(&answered));
        std::process::abort();
    }
    0
}
