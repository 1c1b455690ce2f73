//! What is found of a stick, as the library hands it over: sign, size, pass and allowance.

use reference::stick::StickCheck;

use crate::STICK;

/// The four figures of a check; no difference has no sign.
pub fn figures(check: StickCheck) -> [u32; STICK] {
    let StickCheck { difference, passes, allowance } = check;
    let size = u32::try_from(difference.unsigned_abs()).expect("a difference of two levels");
    [u32::from(difference < 0), size, u32::from(passes), allowance]
}
