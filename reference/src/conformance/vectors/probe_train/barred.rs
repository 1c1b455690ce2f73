//! 9: every train that bars a dipped car bars a probe's.

use super::{all, numbered, train, Group, Vector};

pub fn groups() -> Vec<Group<Vector>> {
    vec![Group {
        about: "9: the trains of train-strike.vectors that bar a car",
        vectors: all::<train::Vector>().iter().filter(|vector| bars(vector)).map(of).collect(),
    }]
}

fn bars(vector: &train::Vector) -> bool {
    vector.name.starts_with("refusal-09-car-")
}

fn of(vector: &train::Vector) -> Vector {
    Vector::new(vector.name.clone(), &vector.train, numbered(50_000_001))
}
