//! Densities so near a half that a slip in the last digits of E turns them.

use super::{Group, Vector};

/// Reports, temperatures, and the least slip of E, in 10⁻¹⁰, that turns the answer: 2 to 15 units, to
/// one side only. One unit turns no report.
pub const BESIDE: [(u32, u32, i64); 18] = [
    (8_993, 426, -2),
    (9_448, 332, -3),
    (9_523, 435, -3),
    (9_679, 426, -3),
    (8_934, 669, 5),
    (8_732, 799, 6),
    (9_558, 227, 6),
    (9_089, 505, -6),
    (9_014, 393, -7),
    (8_983, 289, -8),
    (9_391, 880, -9),
    (9_217, 232, 10),
    (9_020, 562, -10),
    (9_380, 336, -10),
    (8_587, 823, 13),
    (9_563, 428, -14),
    (9_314, 757, -15),
    (9_436, 812, -15),
];

pub fn groups() -> Vec<Group<Vector>> {
    let named = |(reported, temperature, _)| {
        Vector::new(format!("half-{reported}-at-{temperature}"), reported, temperature)
    };
    vec![Group {
        about: "So near a half that a slip in the last digits of E shows",
        vectors: BESIDE.map(named).to_vec(),
    }]
}
