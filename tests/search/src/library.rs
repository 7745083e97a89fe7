//! The library's function behind a safe one.

mod archive {
    // The archive takes a slice as a pointer, then its length.
    extern "C" {
        pub fn test_search(
            ids: *const u64,
            ids_size: usize,
            next: *const u64,
            next_size: usize,
            first: u64,
            n: usize,
        ) -> u64;
    }
}

/// Makes so many searches in a table of requests with these ids: the first for `first`, each other for the id that `next` has for the place
/// where the one before it matched, or for 0. Tells the id that comes after them.
pub fn search(ids: &[u64], next: &[u64], first: u64, searches: usize) -> u64 {
    // SAFETY: two slices that live over the call, each with its length; neither is written.
    unsafe {
        archive::test_search(
            ids.as_ptr(),
            ids.len(),
            next.as_ptr(),
            next.len(),
            first,
            searches,
        )
    }
}
