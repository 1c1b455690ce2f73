//! Wrong turns beside the names of the vectors that must show them.

use std::fmt::Debug;

use reference::conformance::vectors::{all, Written};

/// Takes each turn at its vectors: the answer must be another than without one.
pub fn shows<V: Written, T: Copy + Debug, A: PartialEq + Debug>(
    turns: &[(&str, &[T])],
    none: T,
    answer: impl Fn(T, &V) -> A,
) {
    let vectors = all::<V>();
    for (name, turns) in turns {
        let vector = vectors.iter().find(|vector| vector.name() == *name).expect(name);
        let right = answer(none, vector);
        for turn in *turns {
            assert_ne!(answer(*turn, vector), right, "{name}: {turn:?} does not show");
        }
    }
}

/// Every vector whose name begins so has a turn.
pub fn has_all<V: Written, T>(turns: &[(&str, &[T])], begins: &str) {
    for vector in all::<V>().iter().filter(|vector| vector.name().starts_with(begins)) {
        let name = vector.name();
        assert!(turns.iter().any(|(of, _)| *of == name), "{name} shows no wrong turn");
    }
}
