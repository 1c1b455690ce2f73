//! What the rewritten modules ask at every point: whether to go wrong there, and how.

use std::sync::atomic::{AtomicBool, AtomicU32, AtomicU64, AtomicUsize, Ordering::Relaxed};
use std::sync::{Mutex, MutexGuard, OnceLock};

use crate::turned::refusal::Refusal;
use crate::POINTS;

/// No point goes wrong.
pub const NONE: usize = usize::MAX;
/// No point goes wrong, and the points that are met are noted.
const NOTED: usize = usize::MAX - 1;

/// Asked this often at the point gone wrong, a program is taken to run for ever.
const PATIENCE: u32 = 2_000_000;

static POINT: AtomicUsize = AtomicUsize::new(NONE);
static CHOICE: AtomicUsize = AtomicUsize::new(0);
static KEY: AtomicUsize = AtomicUsize::new(0);
static LOW: AtomicU32 = AtomicU32::new(0);
static HIGH: AtomicU32 = AtomicU32::new(0);
static SERIAL: AtomicU64 = AtomicU64::new(1);
static ASKED: AtomicU32 = AtomicU32::new(0);
static MET: Mutex<Vec<u128>> = Mutex::new(Vec::new());

/// The density whose stored B is off by one, in 0.1 kg/m³, or 0, and whether it is one more.
static STORED: AtomicU32 = AtomicU32::new(0);
static MORE: AtomicBool = AtomicBool::new(false);
/// The densities whose B is taken while the points that are met are noted.
static DENSITIES: Mutex<Vec<u32>> = Mutex::new(Vec::new());

/// Numbers that a wrong program keeps beside the train: for refusal 11, and to be struck.
static KEPT: Mutex<Vec<u32>> = Mutex::new(Vec::new());
static WAITING: Mutex<Vec<u32>> = Mutex::new(Vec::new());
/// Struck cars that a wrong program keeps: number, grade, gross and net.
static BURIED: Mutex<Vec<[u32; 4]>> = Mutex::new(Vec::new());

/// What is at hand: the key's number for each key.
static PLACES: [AtomicU32; KEYS] = [const { AtomicU32::new(0) }; KEYS];

pub const ALWAYS: usize = 0;
pub const LINE: usize = 1;
pub const FIELD: usize = 2;
pub const TABLE: usize = 3;
pub const ROW: usize = 4;
pub const GRADE: usize = 5;
pub const STICK: usize = 6;
pub const GIVEN: usize = 7;
pub const POWER: usize = 8;
pub const AT: usize = 9;
pub const CAR: usize = 10;
/// The letter of the line of the answer.
pub const ANSWER: usize = 19;
/// The number of tape readings.
pub const TAPE: usize = 20;
/// The strikes of a sheet, counted from 1.
pub const STRIKE: usize = 21;
/// The place of a struck car in the train, counted from 1.
pub const PLACE: usize = 22;
/// What a train is handed in with, [`TO_ENTER`] or [`TO_STRIKE`]; on a sheet 0.
pub const HANDED_IN: usize = 23;
/// Which of a probe's numbers is taken, from [`LEVEL`] to [`DENSITY`].
pub const READING: usize = 24;
/// What a probe's numbers are handed over for, from [`ONE`] to [`PERMITTED`]; without a probe 0.
pub const PROBE: usize = 25;
/// Whether a probe's car is at hand, of whichever kind: 1 where it is.
pub const BY_PROBE: usize = 26;
/// Whether B of a density is asked by itself: 1 where it is.
pub const BY_ITSELF: usize = 30;
/// Which of two sheets to be merged is at hand, [`FIRST_HALF`] or [`SECOND_HALF`]; else 0.
pub const HALF: usize = 31;
const SKIPPED: usize = 11;
const TYPES: usize = 12;
const ROW_LEVEL: usize = 16;
const ROW_CAPACITY: usize = 17;
const TABLES: usize = 18;
const FLOATS: usize = 27;
const KEYS: usize = 32;

/// Where a wrong way is taken: where the key's number lies between two bounds.
#[derive(Clone, Copy, Debug, PartialEq, Eq)]
pub struct Context {
    pub key: usize,
    pub low: u32,
    pub high: u32,
}

/// At a laboratory, where the temperature is any: among the numbers of [`AT`], which are degrees.
pub const LABORATORY: u32 = 100;

/// A train that is handed in with a car, and one that is handed in with a strike: among the numbers of
/// [`HANDED_IN`].
pub const TO_ENTER: u32 = 1;
pub const TO_STRIKE: u32 = 2;

/// The first and the second of two sheets to be merged: among the numbers of [`HALF`].
pub const FIRST_HALF: u32 = 1;
pub const SECOND_HALF: u32 = 2;

/// What a number of a probe is: among the numbers of [`READING`].
pub const LEVEL: u32 = 1;
pub const TEMPERATURE: u32 = 2;
pub const DENSITY: u32 = 3;

/// A reading by itself, a set by itself, a car worked out alone, a car that is entered in a train, and a car
/// with its permitted error: among the numbers of [`PROBE`].
pub const ONE: u32 = 1;
pub const SET: u32 = 2;
pub const ALONE: u32 = 3;
pub const ENTERED: u32 = 4;
pub const PERMITTED: u32 = 5;

/// Refusals in the order in which they are tested, and the number of [`PROBE`] for which they are.
pub struct Order {
    pub probe: u32,
    pub refusals: &'static [u32],
}

const fn order(probe: u32, refusals: &'static [u32]) -> Order {
    Order { probe, refusals }
}

/// The refusals of a car, of a report, of a stick's check and of a strike, then those of a probe's numbers
/// and cars.
pub const ORDERS: [Order; 9] = [
    order(0, &[9, 10, 11, 12, 13, 14, 15, 23, 16, 17, 18, 19, 20, 21, 24, 25]),
    order(0, &[26, 27]),
    order(0, &[28, 29]),
    order(0, &[9, 30]),
    order(ONE, &[31, 32]),
    order(SET, &[31, 32]),
    order(ALONE, &[31, 32, 7, 8, 10, 12, 13, 16, 17, 18, 19, 20, 21]),
    order(ENTERED, &[31, 32, 7, 8, 9, 10, 11, 12, 13, 16, 17, 18, 19, 20, 21]),
    order(PERMITTED, &[31, 32, 7, 8, 10, 12, 13, 16, 17, 18, 19, 20, 21, 24, 25]),
];

/// The letters of a sheet.
pub const LETTERS: &[u8; 5] = b"TRCKE";

/// Two refusals that are tested in the other order, or none, and the place of their order.
static ORDER: AtomicUsize = AtomicUsize::new(0);
static FIRST: AtomicU32 = AtomicU32::new(0);
static SECOND: AtomicU32 = AtomicU32::new(0);

/// Sets the point that goes wrong from here on.
pub fn go_wrong(point: usize, choice: usize, context: Context) {
    POINT.store(point, Relaxed);
    CHOICE.store(choice, Relaxed);
    KEY.store(context.key, Relaxed);
    LOW.store(context.low, Relaxed);
    HIGH.store(context.high, Relaxed);
    SERIAL.fetch_add(1, Relaxed);
}

/// Sets two refusals that are tested in the other order from here on; 0 and 0 for none.
pub fn exchange(order: usize, first: u32, second: u32) {
    ORDER.store(order, Relaxed);
    FIRST.store(first, Relaxed);
    SECOND.store(second, Relaxed);
}

/// Sets the density whose stored B is one more, or one less, from here on; 0 for none.
pub fn put_off(density: u32, more: bool) {
    STORED.store(density, Relaxed);
    MORE.store(more, Relaxed);
}

/// B of a density as the list has it.
pub fn stored(density: u64, right: u64) -> u64 {
    if POINT.load(Relaxed) == NOTED {
        held(&DENSITIES).push(density as u32);
    }
    match u64::from(STORED.load(Relaxed)) == density {
        false => right,
        true if MORE.load(Relaxed) => right + 1,
        true => right - 1,
    }
}

/// The densities whose B was taken while points were noted last, rising, each once.
pub fn densities() -> Vec<u32> {
    let mut found = std::mem::take(&mut *held(&DENSITIES));
    found.sort_unstable();
    found.dedup();
    found
}

/// Starts a sheet.
pub fn begin_sheet() {
    ASKED.store(0, Relaxed);
    PLACES.iter().for_each(|place| place.store(0, Relaxed));
    held(&KEPT).clear();
    held(&WAITING).clear();
    held(&BURIED).clear();
}

fn held<T>(list: &'static Mutex<Vec<T>>) -> MutexGuard<'static, Vec<T>> {
    list.lock().expect("no other thread")
}

/// Lets refusal 11 know a number that the train does not hold.
pub fn keep(number: u32) {
    held(&KEPT).push(number);
}

pub fn is_kept(number: u32) -> bool {
    held(&KEPT).contains(&number)
}

/// Lets a number be struck that the train does not hold.
pub fn wait(number: u32) {
    held(&WAITING).push(number);
}

pub fn is_waiting(number: u32) -> bool {
    held(&WAITING).contains(&number)
}

/// Keeps a struck car.
pub fn bury(car: [u32; 4]) {
    held(&BURIED).push(car);
}

/// The kept car with a number.
pub fn buried(number: u32) -> Option<[u32; 4]> {
    held(&BURIED).iter().copied().find(|car| car[0] == number)
}

/// The contexts in which each point is met while `work` is done: a bit for each of the point's,
/// in their order.
pub fn met(work: impl FnOnce()) -> Vec<u128> {
    begin_sheet();
    *MET.lock().expect("no other thread") = vec![0; POINTS.len()];
    POINT.store(NOTED, Relaxed);
    SERIAL.fetch_add(1, Relaxed);
    work();
    POINT.store(NONE, Relaxed);
    std::mem::take(&mut MET.lock().expect("no other thread"))
}

/// Changes with the point that goes wrong.
pub fn serial() -> u64 {
    SERIAL.load(Relaxed)
}

pub fn place(key: usize, number: u32) {
    PLACES[key].store(number, Relaxed);
}

fn at(key: usize) -> u32 {
    PLACES[key].load(Relaxed)
}

/// One of two sheets to be merged is looked at, from its start.
pub fn begin_half(half: u32) {
    [LINE, FIELD, TABLE, ROW, CAR, STRIKE, PLACE, TABLES].iter().for_each(|&key| place(key, 0));
    place(HALF, half);
}

/// A line is looked at.
pub fn begin_line(rest: &[u8]) {
    let letter = rest.first().copied().unwrap_or(0);
    place(LINE, u32::from(letter));
    place(FIELD, 100 * u32::from(letter));
}

/// A line of the answer is written.
pub fn begin_answer(letter: u8) {
    place(LINE, 0);
    place(FIELD, 0);
    place(ANSWER, u32::from(letter));
}

pub fn next_field() {
    place(FIELD, at(FIELD) + 1);
}

pub fn next_car() {
    place(CAR, at(CAR) + 1);
}

/// The C lines answered so far, the one at hand among them.
pub fn cars() -> u32 {
    at(CAR)
}

pub fn next_strike() {
    place(STRIKE, at(STRIKE) + 1);
}

pub fn begin_table(before: usize, car_type: u32) {
    place(TABLE, before as u32 + 1);
    place(TABLES, (before as u32 + 1).min(4));
    place(ROW, 0);
    place(TYPES + before.min(3), car_type);
}

pub fn begin_row(table: usize, before: usize) {
    place(TABLE, table as u32);
    place(ROW, before as u32 + 1);
}

pub fn end_row(level: u32, capacity: u32) {
    place(ROW_LEVEL, level);
    place(ROW_CAPACITY, capacity);
}

pub fn first_type() -> u32 {
    at(TYPES)
}

/// The types of the tables read.
pub fn types() -> Vec<u32> {
    (0..at(TABLES) as usize).map(|table| at(TYPES + table)).collect()
}

/// A probe's numbers are handed over, for what a number of [`PROBE`] says.
pub fn begin_probe(probe: u32) {
    place(PROBE, probe);
    place(BY_PROBE, u32::from(probe >= ALONE));
}

/// A probe's set is at hand: level, temperature and density.
pub fn hold_set(set: [f32; 3]) {
    (FLOATS..).zip(set).for_each(|(key, float)| place(key, float.to_bits()));
}

/// Level, temperature and density as the probe handed them over.
pub fn floats() -> [f64; 3] {
    [0, 1, 2].map(|of| f32::from_bits(at(FLOATS + of)).into())
}

/// Whether a probe's car is at hand.
pub fn is_by_probe() -> bool {
    at(BY_PROBE) == 1
}

/// Level and capacity of the row before, and the rows read of its table.
pub fn row_before() -> (u32, u32, u32) {
    (at(ROW_LEVEL), at(ROW_CAPACITY), at(ROW))
}

/// The wrong way to take at a point, counted from 1, or 0.
#[inline(always)]
pub fn chosen(point: usize) -> usize {
    let wrong = POINT.load(Relaxed);
    if wrong == point {
        asked()
    } else if wrong == NOTED {
        note(point);
        0
    } else {
        0
    }
}

impl Context {
    /// Whether it is at hand.
    fn is_here(self) -> bool {
        self.key == ALWAYS || (self.low..=self.high).contains(&at(self.key))
    }
}

fn note(point: usize) {
    let bits = crate::mutants::contexts_of(point)
        .iter()
        .enumerate()
        .fold(0, |bits, (place, context)| bits | u128::from(context.is_here()) << place);
    MET.lock().expect("no other thread")[point] |= bits;
}

#[cold]
fn asked() -> usize {
    let context =
        Context { key: KEY.load(Relaxed), low: LOW.load(Relaxed), high: HIGH.load(Relaxed) };
    assert!(ASKED.fetch_add(1, Relaxed) < PATIENCE, "runs for ever");
    if context.is_here() {
        CHOICE.load(Relaxed)
    } else {
        0
    }
}

/// The name of the wrong way to take at a point, or none.
#[inline(always)]
fn named(point: usize) -> &'static str {
    match chosen(point) {
        0 => "",
        choice => POINTS[point].choices[choice - 1],
    }
}

/// Whether a refusal is left untested for the moment.
pub fn skipped(refusal: u32) -> bool {
    at(SKIPPED) == refusal
}

/// The refusal that is given in place of `first` where the two are tested in the other order.
pub fn overtaken<T>(first: u32, work: impl FnOnce() -> Result<T, Refusal>) -> Option<Refusal> {
    let order = &ORDERS[ORDER.load(Relaxed)];
    if FIRST.load(Relaxed) != first || order.probe != at(PROBE) {
        return None;
    }
    let second = SECOND.load(Relaxed);
    let place = |refusal: u32| order.refusals.iter().position(|&other| other == refusal);
    let later = place(first)..=place(second);
    work().err().filter(|other| later.contains(&place(other.number())) && other.number() != first)
}

/// The refusal that `work` gives in place of the first of two that are tested in the other order.
pub fn first_overtaken<T>(work: impl FnOnce() -> Result<T, Refusal>) -> Option<Refusal> {
    let first = FIRST.load(Relaxed);
    if first == 0 {
        return None;
    }
    place(SKIPPED, first);
    let other = overtaken(first, work);
    place(SKIPPED, 0);
    other
}

/// The answer of `work` where two of its refusals are tested in the other order.
pub fn reordered<T>(work: impl Fn() -> Result<T, Refusal>) -> Result<T, Refusal> {
    first_overtaken(&work).map_or_else(&work, Err)
}

/// Whole numbers of the rules.
pub trait Number: Copy + PartialEq {
    fn of(wide: u128) -> Self;
    fn wide(self) -> u128;
    fn double(number: f64) -> Self;
}

macro_rules! number {
    ($($kind:ty),*) => {$(
        impl Number for $kind {
            fn of(wide: u128) -> Self {
                wide as Self
            }
            fn wide(self) -> u128 {
                self as u128
            }
            fn double(number: f64) -> Self {
                number as Self
            }
        }
    )*};
}

number!(u8, u32, u64, i64, usize);

pub fn number<T: Number>(point: usize, right: T) -> T {
    match chosen(point) {
        0 => right,
        choice => T::of(u128::from(POINTS[point].values[choice - 1])),
    }
}

pub fn constant<T: Number>(point: usize, right: T) -> T {
    match chosen(point) {
        0 => right,
        1 => T::of(right.wide() + 1),
        _ => T::of(right.wide().wrapping_sub(1)),
    }
}

/// One of the letters is left out, or comes in.
pub fn letters(point: usize, right: &'static [u8]) -> &'static [u8] {
    match chosen(point) {
        0 => right,
        choice => {
            let places = LETTERS.iter().enumerate();
            let bits = places.map(|(place, letter)| usize::from(right.contains(letter)) << place);
            some_letters(bits.sum::<usize>() ^ 1 << (choice - 1))
        }
    }
}

/// The letters whose bits are set.
fn some_letters(bits: usize) -> &'static [u8] {
    static ALL: OnceLock<Vec<Vec<u8>>> = OnceLock::new();
    let some = |bits: usize| {
        let set = LETTERS.iter().enumerate().filter(|(place, _)| bits >> place & 1 == 1);
        set.map(|(_, letter)| *letter).collect()
    };
    &ALL.get_or_init(|| (0..1 << LETTERS.len()).map(some).collect())[bits]
}

pub fn flip(point: usize) -> bool {
    chosen(point) == 0
}

/// In single floating point.
fn single<T: Number>(a: T, b: T, work: fn(f32, f32) -> f32) -> T {
    T::double(f64::from(work(a.wide() as f32, b.wide() as f32)))
}

/// In double floating point.
fn double<T: Number>(a: T, b: T, work: fn(f64, f64) -> f64) -> T {
    T::double(work(a.wide() as f64, b.wide() as f64))
}

/// The wrong ways that all operators have in common.
fn calculated<T: Number>(way: &str, a: T, b: T) -> T {
    let (left, right) = (a.wide(), b.wide());
    match way {
        "left alone" => a,
        "right alone" => b,
        "+" => T::of(left.wrapping_add(right)),
        "-" => T::of(left.wrapping_sub(right)),
        "right less left" => T::of(right.wrapping_sub(left)),
        "*" => T::of(left.wrapping_mul(right)),
        "/" => T::of(left / right),
        "rounded up" => T::of(left.div_ceil(right)),
        "%" => T::of(left % right),
        other => unreachable!("no way {other}"),
    }
}

pub fn plus<T: Number>(point: usize, a: T, b: T) -> T {
    match named(point) {
        "" => T::of(a.wide().wrapping_add(b.wide())),
        "single" => single(a, b, |a, b| a + b),
        way => calculated(way, a, b),
    }
}

pub fn minus<T: Number>(point: usize, a: T, b: T) -> T {
    match named(point) {
        "" => T::of(a.wide().wrapping_sub(b.wide())),
        "single" => single(a, b, |a, b| a - b),
        way => calculated(way, a, b),
    }
}

pub fn times<T: Number>(point: usize, a: T, b: T) -> T {
    match named(point) {
        "" => T::of(a.wide().wrapping_mul(b.wide())),
        "single" => single(a, b, |a, b| a * b),
        "double" => double(a, b, |a, b| a * b),
        way => calculated(way, a, b),
    }
}

pub fn divided<T: Number>(point: usize, a: T, b: T) -> T {
    match named(point) {
        "" => T::of(a.wide() / b.wide()),
        way => calculated(way, a, b),
    }
}

pub fn remainder<T: Number>(point: usize, a: T, b: T) -> T {
    match named(point) {
        "" => T::of(a.wide() % b.wide()),
        way => calculated(way, a, b),
    }
}

// The right way of the next three is known where they are called: inlined, it costs no comparison
// of names.

#[inline(always)]
pub fn equal<T: PartialEq>(point: usize, a: T, right: &'static str, b: T) -> bool {
    let by = |way: &str| match way {
        "==" => a == b,
        "!=" => a != b,
        way => way == "true",
    };
    match named(point) {
        "" => by(right),
        way => by(way),
    }
}

#[inline(always)]
pub fn compared<T: PartialOrd>(point: usize, a: T, right: &'static str, b: T) -> bool {
    let by = |way: &str| match way {
        "<" => a < b,
        "<=" => a <= b,
        ">" => a > b,
        ">=" => a >= b,
        "==" => a == b,
        "!=" => a != b,
        way => way == "true",
    };
    match named(point) {
        "" => by(right),
        way => by(way),
    }
}

#[inline(always)]
pub fn joined(point: usize, a: bool, right: &'static str, b: impl FnOnce() -> bool) -> bool {
    let way = match named(point) {
        "" if right == "&&" => return a && b(),
        "" => return a || b(),
        way => way,
    };
    match way {
        "&&" => a && b(),
        "||" => a || b(),
        "left alone" => a,
        _ => b(),
    }
}

pub fn rounding(point: usize, dividend: u64, divisor: u64) -> u64 {
    let (down, rest) = (dividend / divisor, dividend % divisor);
    let half = rest == divisor - rest;
    match named(point) {
        "" => crate::turned::rounding::nearest(dividend, divisor),
        "rounded down" => down,
        "rounded up" => dividend.div_ceil(divisor),
        "a half rounded down" => down + u64::from(rest > divisor - rest),
        "a half rounded to even" if half => down + down % 2,
        "a half rounded to even" => down + u64::from(rest > divisor - rest),
        "in double floating point" => (dividend as f64 / divisor as f64).round() as u64,
        "in single floating point" => (dividend as f32 / divisor as f32).round() as u64,
        "a half added in double floating point" => {
            (dividend as f64 / divisor as f64 + 0.5).floor() as u64
        }
        "dividend cut to 32 bits" => {
            crate::turned::rounding::nearest(dividend & 0xffff_ffff, divisor)
        }
        "one unit more" => crate::turned::rounding::nearest(dividend, divisor) + 1,
        way => unreachable!("no way {way}"),
    }
}
