//! Trains that answer a strike and a car with 9, for one reason each where there is not a second in it.

use super::{but, held, made, many, six, totals, Group, Vector, SIX};
use crate::conformance::rack::CAR;
use crate::train::{Place, Totals, Train};

/// A train with a fault, and what it is.
pub type Fault = (String, Train);

/// A number that every train here holds.
pub const HELD: u32 = 12;

pub fn groups() -> Vec<Group<Vector>> {
    vec![
        both("9: more than sixty numbers", more_than_sixty()),
        both("9: a number twice", twice()),
        both("9: totals above 12000000", heavy()),
        both("9: count or totals of all that the held cars do not make", of_all()),
        both("9: count or totals of a grade that the held cars do not make", of_grades()),
        both("9: totals that are each other's sums, but not the held cars'", sums()),
        both("9: held cars of a grade that there is not", of_no_grade()),
        both("9: sums that agree where bits are cut off", cut_off()),
        both("9: one sum that agrees where 32 bits are left of it", one_cut_off()),
    ]
}

/// Each fault with a strike and with a car.
fn both(about: &'static str, faults: Vec<Fault>) -> Group<Vector> {
    let vectors = faults.into_iter().flat_map(|(fault, train)| {
        [
            Vector::strike(format!("refusal-09-strike-{fault}"), &train, HELD),
            Vector::car(format!("refusal-09-car-{fault}"), &train, CAR.number),
        ]
    });
    Group { about, vectors: vectors.collect() }
}

fn fault(name: impl Into<String>, train: Train) -> Fault {
    (name.into(), train)
}

fn more_than_sixty() -> Vec<Fault> {
    let mut sixty = many(60);
    sixty.places[6].number = HELD;
    let mut faults: Vec<Fault> = [61, 62, 64, 120, 255, 256]
        .map(|count| fault(format!("{count}-held"), but(sixty.clone(), |train| train.held = count)))
        .to_vec();
    let six_in = |bits: u32| but(six(), |train| train.held += 1 << bits);
    faults.extend([8, 16, 31].map(|bits| fault(format!("6-held-in-{bits}-bits"), six_in(bits))));
    faults.push(fault(
        "largest-number-of-32-bits-held",
        but(six(), |train| train.held = u32::MAX as usize),
    ));
    faults
}

fn twice() -> Vec<Fault> {
    let again = |number: u32, grade: u32, place: usize| {
        let mut cars = SIX.to_vec();
        let mass = if grade > 0 { 60 } else { 0 };
        cars.insert(place, held(number, grade, mass, mass));
        made(&cars)
    };
    let mut sixty = many(60);
    (sixty.places[0].number, sixty.places[59].number) = (HELD, HELD);
    let mut neighbours = many(60);
    (neighbours.places[58].number, neighbours.places[59].number) = (HELD, HELD);
    let mut others = many(60);
    (others.places[0].number, others.places[59].number) = (HELD, 159);
    let late = |number: u32, other: u32| {
        but(many(59), |train| {
            train.places[0].number = HELD;
            (train.places[39].number, train.places[40].number) = (number, other);
        })
    };
    let zeros = [held(0, 0, 0, 0), held(0, 1, 5, 4)];
    let large = [held(4_000_000_000, 2, 5, 4), SIX[0], held(4_000_000_000, 2, 5, 4)];
    let with_held = |cars: &[Place]| made(&[&SIX[1..2], cars].concat());
    vec![
        fault("number-twice-next-to-each-other", again(12, 2, 2)),
        fault("number-twice-first-and-last", again(11, 1, 6)),
        fault("number-twice-accepted-and-refused", again(14, 0, 6)),
        fault("number-twice-refused-and-accepted", again(13, 4, 6)),
        fault("number-twice-both-refused", again(13, 0, 0)),
        fault("number-twice-alike-in-all", again(12, 2, 5)),
        fault("number-twice-first-and-last-of-sixty", sixty),
        fault("number-twice-last-two-of-sixty", neighbours),
        fault("number-twice-last-two-of-sixty-another", others),
        fault("number-twice-places-40-and-41-of-59", late(140, 140)),
        fault("number-twice-places-41-and-59-of-59", late(140, 159)),
        fault("number-twice-0", with_held(&zeros)),
        fault("number-twice-of-ten-digits", with_held(&large)),
        fault("number-three-times", with_held(&[held(9, 0, 0, 0); 3])),
    ]
}

fn heavy() -> Vec<Fault> {
    let one = |gross, net| made(&[held(HELD, 3, gross, net)]);
    let rest = |gross, net| made(&[&SIX[..5], &[held(17, 4, gross, net)]].concat());
    let sixty: Vec<Place> =
        (1..=60).map(|place| held(10 + place, 1 + place % 4, 200_001, 200_000)).collect();
    let largest: Vec<Place> =
        (1..=60).map(|place| held(10 + place, 1 + place % 4, u32::MAX, u32::MAX)).collect();
    vec![
        fault("gross-12000001", one(12_000_001, 0)),
        fault("net-12000001", one(0, 12_000_001)),
        fault("gross-and-net-12000001", one(12_000_001, 12_000_001)),
        fault("gross-12000001-of-six", rest(7_679_001, 1)),
        fault("net-12000001-of-six", rest(1, 8_111_101)),
        fault("gross-12000060-of-sixty", made(&sixty)),
        fault("masses-of-sixty-the-largest-of-32-bits", made(&largest)),
        fault("gross-65536-times-as-much", one(65_536 * 1_000, 900)),
    ]
}

/// Count, gross and net, each one more and one less.
fn one_off() -> [(&'static str, fn(&mut Totals)); 6] {
    [
        ("count-one-more", |totals| totals.accepted += 1),
        ("count-one-less", |totals| totals.accepted -= 1),
        ("gross-one-more", |totals| totals.gross += 1),
        ("gross-one-less", |totals| totals.gross -= 1),
        ("net-one-more", |totals| totals.net += 1),
        ("net-one-less", |totals| totals.net -= 1),
    ]
}

fn of_all() -> Vec<Fault> {
    let mut faults: Vec<Fault> = one_off()
        .map(|(what, change)| {
            fault(format!("{what}-of-all"), but(six(), |train| change(&mut train.all)))
        })
        .to_vec();
    let all = |all: Totals| but(six(), |train| train.all = all);
    let (gross, net) = (six().all.gross, six().all.net);
    let mut sixty = many(60);
    sixty.places[6].number = HELD;
    let accepted = but(sixty, |train| train.all.accepted = 61);
    faults.extend([
        fault("gross-and-net-of-all-exchanged", all(totals(5, net, gross))),
        fault("no-totals-of-all", all(Totals::default())),
        fault("refused-car-counted-in-all", all(totals(6, gross, net))),
        fault("61-accepted-of-sixty-held", accepted),
        fault("totals-of-all-the-largest", all(totals(u32::MAX, u64::MAX, u64::MAX))),
        fault("gross-12000001-of-all-alone", all(totals(5, 12_000_001, net))),
        fault("net-12000001-of-all-alone", all(totals(5, gross, 12_000_001))),
    ]);
    faults
}

fn of_grades() -> Vec<Fault> {
    let mut faults = Vec::new();
    for grade in 1..=4 {
        for (what, change) in one_off() {
            let train = but(six(), |train| change(&mut train.grades[grade - 1]));
            faults.push(fault(format!("{what}-of-grade-{grade}"), train));
        }
    }
    let none = but(six(), |train| train.grades = [Totals::default(); 4]);
    let most = totals(u32::MAX, u64::MAX, u64::MAX);
    faults.push(fault("no-totals-of-the-grades", none));
    faults.push(fault(
        "totals-of-the-grades-the-largest",
        but(six(), |train| train.grades = [most; 4]),
    ));
    faults
}

/// The totals of all are the sums of the grades', as (a) asks.
fn sums() -> Vec<Fault> {
    let mut faults: Vec<Fault> = one_off()
        .map(|(what, change)| {
            let train = but(six(), |train| {
                change(&mut train.all);
                change(&mut train.grades[2]);
            });
            fault(format!("{what}-of-all-and-of-grade-3"), train)
        })
        .to_vec();
    let refused = made(&[SIX[1], held(13, 4, 800, 700)]);
    let empty = but(six(), |train| train.places = [Place::default(); 60]);
    faults.extend([
        fault("grades-2-and-3-exchanged", but(six(), |train| train.grades.swap(1, 2))),
        fault("1-kg-moved-to-the-next-grade", but(six(), |train| move_gross(train))),
        fault("car-counted-in-another-grade", but(six(), |train| move_count(train))),
        fault("refused-car-s-masses-counted", but(refused, |train| train.places[1].grade = 0)),
        fault("car-left-out", but(made(&SIX[..5]), |train| hold(train, SIX[5]))),
        fault("car-counted-that-is-not-held", but(six(), |train| train.held = 5)),
        fault("totals-without-held-cars", but(six(), |train| train.held = 0)),
        fault("places-empty", empty),
        fault("held-cars-without-totals", without_totals()),
        fault("car-of-another-grade", but(six(), |train| train.places[3].grade = 4)),
        fault("masses-of-two-cars-of-two-grades-exchanged", but(six(), exchange)),
        fault("free-place-counted", counted_free()),
    ]);
    faults
}

fn move_gross(train: &mut Train) {
    train.grades[1].gross -= 1;
    train.grades[2].gross += 1;
}

fn move_count(train: &mut Train) {
    train.grades[2].accepted -= 1;
    train.grades[3].accepted += 1;
}

/// Holds a car that its totals do not know.
fn hold(train: &mut Train, car: Place) {
    train.places[train.held] = car;
    train.held += 1;
}

fn without_totals() -> Train {
    but(six(), |train| {
        train.all = Totals::default();
        train.grades = [Totals::default(); 4];
    })
}

/// The masses of the first two cars.
fn exchange(train: &mut Train) {
    let (first, second) = (train.places[0], train.places[1]);
    train.places[0] = Place { gross: second.gross, net: second.net, ..first };
    train.places[1] = Place { gross: first.gross, net: first.net, ..second };
}

/// The totals are those of seven places, of which six are held.
fn counted_free() -> Train {
    let mut train = made(&[&SIX[..], &[held(17, 1, 70, 60)]].concat());
    train.held = 6;
    train
}

/// Beside the number struck, a car of a grade that is none.
fn of_no_grade() -> Vec<Fault> {
    let alone = |grade: u32, all: Totals| {
        let mut train = made(&SIX[1..2]);
        hold(&mut train, held(17, grade, 80, 70));
        train.all = all;
        train
    };
    let with = totals(2, 20_080, 18_070);
    let without = totals(1, 20_000, 18_000);
    let as_grade = |grade: u32, counted: usize| {
        but(alone(grade, with), |train| {
            let of = &mut train.grades[counted - 1];
            *of = totals(of.accepted + 1, of.gross + 80, of.net + 70);
        })
    };
    let mut empty = made(&SIX[1..2]);
    hold(&mut empty, held(17, 5, 0, 0));
    let counted = but(empty.clone(), |train| train.all.accepted += 1);
    vec![
        fault("grade-5-counted-in-all", alone(5, with)),
        fault("grade-5-not-counted", alone(5, without)),
        fault("grade-5-without-mass", empty),
        fault("grade-5-without-mass-counted-in-all", counted),
        fault("grade-5-counted-in-grade-4", as_grade(5, 4)),
        fault("grade-5-counted-in-grade-1", as_grade(5, 1)),
        fault("grade-257-counted-in-grade-1", as_grade(257, 1)),
        fault("grade-65538-counted-in-grade-2", as_grade(65_538, 2)),
        fault("grade-256-not-counted", alone(256, without)),
        fault("grade-65536-not-counted", alone(65_536, without)),
        fault("grade-largest-of-32-bits-not-counted", alone(u32::MAX, without)),
    ]
}

fn cut_off() -> Vec<Fault> {
    let (small, half) = (u64::from(SIX[1].gross), 1_u32 << 31);
    let cars = [SIX[1], held(17, 2, half, half), held(18, 2, half, half)];
    let sums_in_32_bits = but(made(&cars), |train| {
        for totals in [&mut train.all, &mut train.grades[1]] {
            (totals.gross, totals.net) = (small, SIX[1].net.into());
        }
    });
    let raised = |by: u64| {
        but(made(&SIX[1..2]), |train| {
            train.all.gross += by;
            train.grades[1].gross += by;
        })
    };
    let around = but(made(&SIX[1..2]), |train| {
        (train.grades[0].gross, train.grades[2].gross) = (1 << 63, 1 << 63);
    });
    let net_around = but(made(&SIX[1..2]), |train| {
        (train.grades[0].net, train.grades[3].net) = (u64::MAX, 1);
    });
    let count_around = but(made(&SIX[1..2]), |train| {
        (train.grades[0].accepted, train.grades[3].accepted) = (1 << 31, 1 << 31);
    });
    vec![
        fault("held-sums-in-32-bits", sums_in_32_bits),
        fault("totals-in-16-bits", raised(1 << 16)),
        fault("totals-in-32-bits", raised(1 << 32)),
        fault("totals-in-63-bits", raised(1 << 63)),
        fault("gross-of-grades-in-64-bits", around),
        fault("net-of-grades-in-64-bits", net_around),
        fault("count-of-grades-in-32-bits", count_around),
        fault(
            "count-in-8-bits",
            but(made(&SIX[1..2]), |train| {
                train.all.accepted += 256;
                train.grades[1].accepted += 256;
            }),
        ),
    ]
}

/// Two held cars of one grade whose gross, or net, makes 2^32 kg more than the totals say: of all and of
/// the grade, or of all alone.
fn one_cut_off() -> Vec<Fault> {
    let most = u32::MAX;
    let gross = || made(&[SIX[1], held(17, 2, most, 70)]);
    let net = || made(&[SIX[1], held(17, 2, 80, most)]);
    let over = 1 << 32;
    vec![
        fault(
            "held-gross-in-32-bits",
            but(gross(), |train| {
                train.all.gross -= over;
                train.grades[1].gross -= over;
            }),
        ),
        fault(
            "held-net-in-32-bits",
            but(net(), |train| {
                train.all.net -= over;
                train.grades[1].net -= over;
            }),
        ),
        fault("gross-of-all-in-32-bits", but(gross(), |train| train.all.gross -= over)),
        fault("net-of-all-in-32-bits", but(net(), |train| train.all.net -= over)),
    ]
}
