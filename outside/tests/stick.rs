//! The figures of a stick as the library hands them over: a negative difference, any other, and none.

use outside::stick::figures;
use reference::stick::StickCheck;

#[test]
fn sign_and_size() {
    for (difference, expected) in [
        (-359_900, [1, 359_900, 0, 45]),
        (-205, [1, 205, 0, 45]),
        (-200, [1, 200, 1, 45]),
        (-5, [1, 5, 1, 45]),
        (0, [0, 0, 1, 45]),
        (5, [0, 5, 1, 45]),
        (200, [0, 200, 1, 45]),
        (359_900, [0, 359_900, 0, 45]),
    ] {
        let check = StickCheck { difference, passes: difference.abs() <= 200, allowance: 45 };
        assert_eq!(figures(check), expected);
    }
}
