//! Two sheets merged by the library.

use reference::merge::Merge;

mod exported {
    extern "C" {
        pub fn rack_merge_sheets(
            first: *const u8,
            first_len: usize,
            second: *const u8,
            second_len: usize,
            out: *mut u8,
            out_len: usize,
            number: *mut u32,
            line: *mut u32,
        ) -> usize;
    }
}

/// Merges two sheets into `out`, in the manner of [`reference::merge::merge`].
pub fn merge_sheets(first: &[u8], second: &[u8], out: &mut [u8]) -> Merge {
    // No refusal has this number, and no sheet this line, so that one that was never written shows.
    let (mut number, mut line) = (u32::MAX, u32::MAX);
    // SAFETY: each slice is valid for its length, and no other name reaches what is lent to be written.
    let length = unsafe {
        exported::rack_merge_sheets(
            first.as_ptr(),
            first.len(),
            second.as_ptr(),
            second.len(),
            out.as_mut_ptr(),
            out.len(),
            &mut number,
            &mut line,
        )
    };
    Merge { length, number, line }
}
