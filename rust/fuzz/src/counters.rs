//! The counters that the compiler puts at every edge of the code, where it is told to. All unsafe
//! code is here. In a program that was built without them there are none.

use std::sync::atomic::{AtomicPtr, AtomicU8, Ordering};

static FIRST: AtomicPtr<AtomicU8> = AtomicPtr::new(std::ptr::null_mut());
static END: AtomicPtr<AtomicU8> = AtomicPtr::new(std::ptr::null_mut());

/// Called before `main`, by each part of the program that has counters, with where all of them are.
#[no_mangle]
extern "C" fn __sanitizer_cov_8bit_counters_init(first: *mut AtomicU8, end: *mut AtomicU8) {
    FIRST.store(first, Ordering::Relaxed);
    END.store(end, Ordering::Relaxed);
}

/// Called likewise, with the counters' places in the code.
#[no_mangle]
extern "C" fn __sanitizer_cov_pcs_init(_first: *const usize, _end: *const usize) {}

/// Called before each call of an address that is not known beforehand.
#[no_mangle]
extern "C" fn __sanitizer_cov_trace_pc_indir(_address: usize) {}

/// All counters of the program.
pub(crate) fn counters() -> &'static [AtomicU8] {
    let (first, end) = (FIRST.load(Ordering::Relaxed), END.load(Ordering::Relaxed));
    if first.is_null() {
        return &[];
    }
    // SAFETY: the compiler's own code gave both ends of one array of bytes that lives as long as
    // the program. It is written by the counting code and through these atomic bytes alone.
    unsafe { std::slice::from_raw_parts(first, end.offset_from(first) as usize) }
}
