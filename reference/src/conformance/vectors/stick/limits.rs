//! Differences of exactly 2 mm and the next larger ones, with every number of readings.

use super::{both_ways, least, Group, Vector, LEVEL, STICK};

pub fn groups() -> Vec<Group<Vector>> {
    vec![
        Group {
            about: "Exactly 2 mm, which passes, both ways",
            vectors: of_2_mm("at-2-mm", |_| 0),
        },
        Group {
            about: "The least difference past 2 mm, both ways",
            vectors: of_2_mm("past-2-mm", least),
        },
        Group {
            about: "The largest difference short of 2 mm, both ways",
            vectors: of_2_mm("short-of-2-mm", |count| -least(count)),
        },
        Group {
            about: "2.4 mm, which is 2 mm where the stick level is taken in whole mm, both ways",
            vectors: (10..=20).flat_map(by_tenths).collect(),
        },
        Group {
            about: "More than 2 mm, but 2 mm from the whole mm that is nearest to the mean",
            vectors: (10..=20).map(from_a_mean_between).collect(),
        },
    ]
}

/// The stick 2.4 mm above so many equal readings, and below.
fn by_tenths(count: usize) -> [Vector; 2] {
    [("above", STICK + 24), ("below", STICK - 24)].map(|(way, stick)| {
        Vector::new(format!("past-2-mm-by-tenths-{way}-with-{count}"), stick, &vec![LEVEL; count])
    })
}

/// The stick 2 mm above a whole mm, from which the mean of the readings lies less than half a mm down.
fn from_a_mean_between(count: usize) -> Vector {
    let mut given = vec![LEVEL; count];
    given[..=count / 2].fill(LEVEL + 1);
    Vector::new(format!("past-2-mm-of-a-mean-between-with-{count}"), STICK + 30, &given)
}

/// 2 mm and a little more with every number of readings, by so many tenths of a mm in all.
fn of_2_mm(kind: &str, more: fn(u32) -> i64) -> Vec<Vector> {
    let of = |count| both_ways(kind, count, 20 * i64::from(count) + more(count));
    (10..=20).flat_map(of).collect()
}
