//! Sets: three tenths that differ, and every way in which three floats are good, refused by 31 or by 32.

use super::{Group, Vector, LARGEST_PAYLOAD, SET, SIGNALLING, WITH_SIGN};
use crate::probe::Set;

/// What refuses a float in a round of sets: one by 31 and one by 32.
const ROUNDS: [(&str, f32, f32); 3] = [
    ("negative", -1e-45, 10_000_000.0),
    ("infinite", f32::INFINITY, f32::MAX),
    ("not-a-number", f32::NAN, 4_294_967_296.0),
];

pub fn groups() -> Vec<Group<Vector>> {
    vec![
        Group { about: "Sets of three tenths", vectors: good() },
        Group {
            about:
                "31 and 32 in sets: level, temperature and density in turn, for each 31 before 32",
            vectors: ROUNDS.into_iter().flat_map(refused).collect(),
        },
        Group { about: "31 and 32 in sets by kinds of float beside these", vectors: kinds() },
    ]
}

const fn set(level: f32, temperature: f32, density: f32) -> Set {
    Set { level, temperature, density }
}

fn good() -> Vec<Vector> {
    let most = 9_999_999.0;
    let sets = [
        ("rack-car", SET),
        ("annex-car", set(2904.0, 52.3, 963.2)),
        ("first-car-on-the-cylinder", set(2806.5, 52.3, 957.2)),
        ("of-1-2-3", set(0.1, 0.2, 0.3)),
        ("of-1-3-2", set(0.1, 0.3, 0.2)),
        ("of-2-1-3", set(0.2, 0.1, 0.3)),
        ("of-2-3-1", set(0.2, 0.3, 0.1)),
        ("of-3-1-2", set(0.3, 0.1, 0.2)),
        ("of-3-2-1", set(0.3, 0.2, 0.1)),
        ("of-halves", set(0.25, 0.75, 1.25)),
        ("of-large-halves", set(4_194_303.75, 1_048_576.25, 65_536.25)),
        ("of-decimals-short-of-halves", set(0.35, 0.45, 0.65)),
        ("of-decimals-past-halves", set(0.05, 0.15, 0.85)),
        ("of-zeros", set(0.0, 0.0, 0.0)),
        ("of-minus-zeros", set(-0.0, -0.0, -0.0)),
        ("with-one-minus-zero", set(1500.0, -0.0, 950.0)),
        ("of-the-largest", set(most, most, most)),
        ("with-the-largest-level", set(most, 60.0, 950.0)),
        ("with-the-largest-temperature", set(1500.0, most, 950.0)),
        ("with-the-largest-density", set(1500.0, 60.0, most)),
        ("of-denormals", set(1e-45, 1e-40, 1e-39)),
    ];
    sets.into_iter().map(|(name, set)| Vector::set(format!("set-{name}"), set)).collect()
}

/// All sets with one fault or more.
fn refused((round, by_31, by_32): (&str, f32, f32)) -> Vec<Vector> {
    let floats = |good: f32| [("good", good), ("31", by_31), ("32", by_32)];
    let mut vectors = Vec::new();
    for level in floats(SET.level) {
        for temperature in floats(SET.temperature) {
            for density in floats(SET.density) {
                vectors.extend(faulty(round, [level, temperature, density]));
            }
        }
    }
    vectors
}

/// A set whose floats are told by their refusals, unless all are good.
fn faulty(round: &str, three: [(&str, f32); 3]) -> Option<Vector> {
    let faults: Vec<&str> =
        three.map(|(told, _)| told).into_iter().filter(|of| *of != "good").collect();
    let outcome = match faults[..] {
        [] => return None,
        [only] => format!("refusal-{only}"),
        [first, second, ..] => format!("order-{first}-before-{second}"),
    };
    let [level, temperature, density] = three;
    let told = [level.0, temperature.0, density.0].join("-");
    let set = set(level.1, temperature.1, density.1);
    Some(Vector::set(format!("{outcome}-set-{told}-{round}"), set))
}

/// One float of a kind that no round has.
fn kinds() -> Vec<Vector> {
    let sets = [
        ("31-set-level-minus-infinity", Set { level: f32::NEG_INFINITY, ..SET }),
        ("31-set-temperature-not-a-number-with-sign", Set { temperature: WITH_SIGN, ..SET }),
        ("31-set-density-signalling", Set { density: SIGNALLING, ..SET }),
        ("31-set-level-quiet-largest-payload", Set { level: LARGEST_PAYLOAD, ..SET }),
        ("32-set-temperature-20000000", Set { temperature: 20_000_000.0, ..SET }),
        ("32-set-density-2-to-64", Set { density: 1.844_674_4e19, ..SET }),
    ];
    sets.map(|(name, set)| Vector::set(format!("refusal-{name}"), set)).to_vec()
}
