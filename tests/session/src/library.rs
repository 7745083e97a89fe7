//! The library's function behind a safe one.

mod archive {
    // The archive takes a slice as a pointer, then its length.
    extern "C" {
        pub fn test_replay(
            script: *const u8,
            script_size: usize,
            out: *mut u8,
            out_size: usize,
        ) -> usize;
    }
}

/// Writes the numbers of the script's packets, from a fresh session on; how many it wrote.
pub fn replay(script: &[u8], out: &mut [u8]) -> usize {
    let (input, input_size) = (script.as_ptr(), script.len());
    let (output, output_size) = (out.as_mut_ptr(), out.len());
    // SAFETY: two slices that live over the call and don't overlap; only the second is written, within its length.
    unsafe { archive::test_replay(input, input_size, output, output_size) }
}
