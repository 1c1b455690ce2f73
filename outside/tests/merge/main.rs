//! Two sheets merged by the library: the conformance pairs, what each buffer holds then, and what is so of
//! every merged sheet by the library's own answers.

mod buffers;
mod facts;
mod listed;
mod pairs;

use outside::merge_sheets;
use reference::merge::{Merge, MERGED_BYTES};

/// What a byte holds before it is lent: none of a sheet.
const LENT: u8 = 0xa5;

/// The merged sheet, or the refusal's number and line; nothing else of the lent bytes is altered.
fn merged(first: &[u8], second: &[u8]) -> Result<Vec<u8>, (u32, u32)> {
    let mut out = vec![LENT; MERGED_BYTES];
    let Merge { length, number, line } = merge_sheets(first, second, &mut out);
    assert!(out[length..].iter().all(|&byte| byte == LENT));
    out.truncate(length);
    match number {
        0 => {
            assert_eq!(line, 0);
            Ok(out)
        }
        _ => {
            assert_eq!(length, 0);
            Err((number, line))
        }
    }
}
