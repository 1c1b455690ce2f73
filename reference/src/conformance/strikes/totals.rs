//! The totals of all cars and of each grade where cars are struck.

use super::super::rack::events_on;
use super::super::tenths::Named;
use super::super::totals::{car as sound, heaviest, sixty_of_all_grades, TALLEST};
use super::super::Case;
use super::{named, of, on_rack, strikes, wrong};
use crate::car::Car;
use crate::sheet::Event::{self, Enter, Strike};

pub fn cases() -> Vec<Case> {
    let sheets = [of_grades(), of_others(), of_many()].concat();
    named(sheets, include_str!("totals.txt"))
}

/// Cars of grades 1 to 4 by turns, numbered from 1, each of another mass.
fn by_turns(count: u32) -> Vec<Event> {
    (1..=count).map(|number| of(number, 1 + (number - 1) % 4, 300 + 170 * number)).collect()
}

fn of_grades() -> Vec<Named> {
    let without = |grade: u32| {
        let name = format!("totals-without-struck-cars-of-grade-{grade}").leak();
        let struck = strikes([grade, grade + 4].into_iter());
        (&*name, on_rack(&[by_turns(8), struck].concat()))
    };
    let one_of_each = on_rack(&[by_turns(12), strikes(5..=8)].concat());
    let all = on_rack(&[by_turns(8), strikes((1..=8).rev())].concat());
    let others = [
        ("totals-of-cars-struck-one-of-each-grade", one_of_each),
        ("totals-of-struck-cars-only", all),
    ];
    (1..=4).map(without).chain(others).collect()
}

/// Refused cars struck, and numbers that are entered again in another grade.
fn of_others() -> Vec<Named> {
    let refused = |number: u32, grade: u32| Enter(Car { number, stick: 3, ..sound(grade, 1500) });
    let neighbours: Vec<Event> = (1..=4)
        .flat_map(|grade| [of(grade, grade, 700), refused(10 + grade, grade), Strike(10 + grade)])
        .collect();
    let moved =
        [of(7, 1, 1500), of(8, 2, 1200), Strike(7), of(7, 3, 900), Strike(8), of(8, 4, 600)];
    let turned_away = [
        of(7, 1, 1500),
        of(7, 2, 1200),
        Strike(7),
        wrong(7),
        of(7, 3, 900),
        Strike(7),
        of(7, 4, 600),
        Strike(9),
    ];
    vec![
        ("totals-of-cars-whose-refused-neighbours-are-struck", on_rack(&neighbours)),
        ("totals-of-cars-struck-and-entered-in-another-grade", on_rack(&moved)),
        ("totals-of-cars-struck-and-turned-away", on_rack(&turned_away)),
    ]
}

/// Sixty cars of all grades, half of them struck; and the heaviest train struck and entered again, whose
/// cars have more than 12,000,000 kg together.
fn of_many() -> Vec<Named> {
    let numbers = 1..;
    let sixty: Vec<Event> = sixty_of_all_grades()
        .into_iter()
        .zip(numbers)
        .map(|(car, number)| Enter(Car { number, ..car }))
        .collect();
    let scattered = strikes((1..=30).map(|turn| 1 + 37 * turn % 61 % 60));
    let heavy = |number| Enter(Car { number, ..heaviest() });
    let first: Vec<Event> = (1..=60).map(heavy).collect();
    let again = (1..=60).flat_map(|number| [Strike(number), heavy(number)]);
    let again: Vec<Event> = again.collect();
    vec![
        ("totals-of-sixty-cars-of-which-thirty-are-struck", on_rack(&[sixty, scattered].concat())),
        (
            "totals-of-the-heaviest-train-struck-and-entered-again",
            events_on(TALLEST, &[first, again].concat()),
        ),
    ]
}
