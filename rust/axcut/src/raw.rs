//! The static library's functions, as they are declared in `crates/boundary/src/lib.rt`. All unsafe
//! code is here.

/// The library's struct of the same name, field by field.
#[repr(C)]
pub(crate) struct Verdict {
    pub(crate) number: u8,
    pub(crate) offset: u64,
}

/// The library's struct of the same name, field by field.
#[repr(C)]
pub(crate) struct Answer {
    pub(crate) number: u8,
    pub(crate) steps: u32,
    pub(crate) words: u32,
    pub(crate) value: u64,
}

// A slice is handed over as its first element's address and its length, counted in elements.
extern "C" {
    fn axcut_check(image: *const u8, length: usize) -> Verdict;

    fn axcut_run(
        image: *const u8,
        image_length: usize,
        args: *const u64,
        args_length: usize,
        fuel: u32,
        table: *mut u64,
        table_length: usize,
    ) -> Answer;
}

/// The library's verdict on `image`.
pub(crate) fn check(image: &[u8]) -> Verdict {
    // SAFETY: address and length are a live slice's, which nobody writes during the call; of an
    // empty slice the address is not null and is never read. The library is proved to read inside
    // the slice only, to write nothing of the caller's, and to end; it keeps no address.
    unsafe { axcut_check(image.as_ptr(), image.len()) }
}

/// The library's answer for a run, which writes to `table`.
pub(crate) fn run(image: &[u8], args: &[u64], fuel: u32, table: &mut [u64]) -> Answer {
    // SAFETY: addresses and lengths are three live slices'; `table` is borrowed alone, so nobody
    // else reads or writes it during the call and it overlaps neither `image` nor `args`, which
    // nobody writes. Of an empty slice the address is aligned, not null, and never read or written.
    // The library is proved to read inside the slices only, to write inside `table` only, and to
    // end; it keeps no address.
    unsafe {
        axcut_run(
            image.as_ptr(),
            image.len(),
            args.as_ptr(),
            args.len(),
            fuel,
            table.as_mut_ptr(),
            table.len(),
        )
    }
}
