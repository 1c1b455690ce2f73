//! The longer wrong ways, which the edits name.

use crate::hooks;
use crate::turned::car::{Car, Figures, Measured};
use crate::turned::field;
use crate::turned::level::Taken;
use crate::turned::refusal::Refusal;
use crate::turned::sheet::{Event, Sheet};
use crate::turned::table::{Table, Tables};
use crate::turned::train::{Place, Totals, Train, CARS};

const ONE: u128 = 10_000_000_000;

/// Reads a field by the rules, or else in a lenient way.
pub fn field(way: usize, bytes: &[u8; 9]) -> Option<u32> {
    field::read(bytes).or_else(|| lenient(way, bytes))
}

fn lenient(way: usize, bytes: &[u8; 9]) -> Option<u32> {
    let text: String = bytes.iter().map(|&byte| byte as char).collect();
    let spaced = |from: &dyn Fn(char) -> bool| -> String {
        text.chars().map(|c| if from(c) { ' ' } else { c }).collect()
    };
    match way {
        0 => text.trim_start_matches(' ').is_empty().then_some(0),
        1 => number(text.trim_start_matches(' ')),
        2 => number(text.trim_start_matches(' ').strip_prefix('+')?),
        3 => number(text.trim_start_matches(' ').strip_prefix('-')?),
        4 => (!text.starts_with('0')).then(|| number(&text))?,
        5 => number(text.trim_matches(' ')),
        6 => number(&text.replace(' ', "")),
        7 => leading(&text),
        8 => number(spaced(&|c| c == '\t').trim_start_matches(' ')),
        9 => number(spaced(&|c| c == '\0').trim_start_matches(' ')),
        10 => number(spaced(&|c| c == '\r').trim_matches(' ')),
        11 => number(text.trim_start_matches(' ').split(['.', ',']).next()?),
        12 => number(text.replace('O', "0").trim_start_matches(' ')),
        13 => as_digits(text.trim_start_matches(' ')),
        14 => number(spaced(&|c| c as u32 >= 128).trim_start_matches(' ')),
        15 => text.trim_start_matches(' ').parse::<f64>().ok().map(|number| number as u32),
        16 => u32::from_str_radix(text.trim_start_matches(' ').strip_prefix("0x")?, 16).ok(),
        17 => text.bytes().all(|byte| byte == b'0').then_some(0),
        _ => number(text.trim_start_matches(' ').strip_prefix(['+', '-'])?),
    }
}

/// Digits alone, zeros before among them.
fn number(text: &str) -> Option<u32> {
    text.bytes().all(|byte| byte.is_ascii_digit()).then(|| text.parse().ok())?
}

/// The digits at the start, as C's library reads a number; 0 where there are none.
fn leading(text: &str) -> Option<u32> {
    let text = text.trim_start_matches([' ', '\t', '\r', '\x0b']);
    let digits = text.find(|c: char| !c.is_ascii_digit()).unwrap_or(text.len());
    Some(text[..digits].parse().unwrap_or(0))
}

/// Each byte less the byte of 0.
fn as_digits(text: &str) -> Option<u32> {
    let digit = |byte: u8| u32::from(byte).wrapping_sub(u32::from(b'0'));
    Some(text.bytes().fold(0, |sum: u32, byte| sum.wrapping_mul(10).wrapping_add(digit(byte))))
}

/// The number in a field of the line, counted from 0, if it can be read.
pub fn number_at(rest: &[u8], place: usize) -> Option<u32> {
    let field = rest.get(1 + 9 * place..10 + 9 * place)?;
    field::read(field.try_into().ok()?)
}

/// Whether a field that stands within the line is none by the rules.
pub fn bad_field(rest: &[u8], length: usize) -> bool {
    let end = rest.iter().position(|&byte| byte == b'\n').unwrap_or(rest.len());
    let within = (length.min(end + 1) - 1) / 9;
    (0..within).any(|place| number_at(rest, place).is_none())
}

/// 5 for a length that is no letter's, 6 for a field that is none, else 4.
pub fn fault_first(rest: &[u8], by_field: bool) -> Refusal {
    let length = rest.iter().position(|&byte| byte == b'\n').map_or(0, |end| end + 1);
    if ![11, 20, 128].contains(&length) {
        return if by_field { Refusal::Letter } else { Refusal::LineLength };
    }
    if by_field && bad_field(rest, length) {
        return Refusal::Field;
    }
    Refusal::Letter
}

/// The line without the carriage return before its line feed, if its length is then right.
pub fn without_return(rest: &[u8], length: usize) -> Option<Vec<u8>> {
    let end = rest.iter().position(|&byte| byte == b'\n')?;
    let fits = end == length && rest[end - 1] == b'\r';
    fits.then(|| [&rest[..end - 1], b"\n"].concat())
}

/// A line that is too long, cut to its length, and how much was cut.
pub fn cut(rest: &[u8], length: usize) -> Option<(Vec<u8>, usize)> {
    let end = rest.iter().position(|&byte| byte == b'\n')?;
    (end + 1 > length).then(|| ([&rest[..length - 1], b"\n"].concat(), end + 1 - length))
}

/// The words of a line set in columns, if there are as many as fields.
pub fn words(rest: &[u8], fields: usize) -> Option<Vec<u8>> {
    let end = rest.iter().position(|&byte| byte == b'\n')?;
    let text = std::str::from_utf8(&rest[1..end]).ok()?;
    let words: Vec<&str> = text.split(' ').filter(|word| !word.is_empty()).collect();
    let set: String = words.iter().map(|word| format!("{word:>9}")).collect();
    (words.len() == fields && set.len() == 9 * fields)
        .then(|| [&rest[..1], set.as_bytes(), b"\n"].concat())
}

/// Whether bytes follow the line.
pub fn more_lines(rest: &[u8]) -> bool {
    let end = rest.iter().position(|&byte| byte == b'\n');
    end.is_some_and(|end| end + 1 < rest.len())
}

/// The number of a strike whose line is so long.
pub fn strike_of(rest: &[u8], length: usize) -> Option<[u32; 1]> {
    let end = rest.iter().position(|&byte| byte == b'\n')?;
    let text = std::str::from_utf8(&rest[1..end.min(10)]).ok()?;
    let number = number(text.trim_start_matches(' '))?;
    (end + 1 == length).then_some([number])
}

/// Whether 8 applies by the level alone.
pub fn bad_level(rest: &[u8]) -> bool {
    let (before, _, row) = hooks::row_before();
    number_at(rest, 0)
        .is_some_and(|level| level > 3_600 || if row == 0 { level != 0 } else { level <= before })
}

/// Whether 8 applies by the capacity alone.
pub fn bad_capacity(rest: &[u8]) -> bool {
    let (_, before, row) = hooks::row_before();
    number_at(rest, 1).is_some_and(|capacity| {
        capacity > 200_000 || if row == 0 { capacity != 0 } else { capacity <= before }
    })
}

pub fn zero<const N: usize>(mut numbers: [u32; N], place: usize) -> [u32; N] {
    if place < N {
        numbers[place] = 0;
    }
    numbers
}

pub fn swapped<const N: usize>(mut numbers: [u32; N], place: usize) -> [u32; N] {
    if place + 1 < N {
        numbers.swap(place, place + 1);
    }
    numbers
}

pub fn cut_bits<const N: usize>(mut numbers: [u32; N], place: usize, bits: u32) -> [u32; N] {
    if place < N {
        numbers[place] &= (1 << bits) - 1;
    }
    numbers
}

pub fn single<const N: usize>(mut numbers: [u32; N], place: usize) -> [u32; N] {
    if place < N {
        numbers[place] = numbers[place] as f32 as u32;
    }
    numbers
}

pub fn tens<const N: usize>(mut numbers: [u32; N], place: usize) -> [u32; N] {
    numbers[place] -= numbers[place] % 10;
    numbers
}

/// The cars of a sheet.
pub fn cars(sheet: &Sheet) -> Vec<Car> {
    sheet.cars().copied().collect()
}

/// The numbers on the C lines of a sheet, each once.
pub fn numbers_on(sheet: &Sheet) -> usize {
    let mut numbers: Vec<u32> = sheet.cars().map(|car| car.number).collect();
    numbers.sort_unstable();
    numbers.dedup();
    numbers.len()
}

/// How many numbers are left on a sheet, those struck taken off.
pub fn left(sheet: &Sheet) -> usize {
    let mut numbers = Vec::new();
    for event in sheet.events() {
        match event {
            Event::Enter(car) if !numbers.contains(&car.number) => numbers.push(car.number),
            Event::Enter(_) => {}
            Event::Strike(number) => numbers.retain(|other| other != number),
        }
    }
    numbers.len()
}

/// The S line by the history of lines: the accepted cars of which none of some lines strikes the number.
pub fn by_history<'a>(sheet: &'a Sheet, lines: impl Fn(usize) -> &'a [Event]) -> [u32; 3] {
    let mut train = Train::default();
    let mut sum = [0; 3];
    for (line, event) in sheet.events().iter().enumerate() {
        let Event::Enter(car) = event else {
            if let Event::Strike(number) = event {
                let _ = train.strike_sound(*number);
            }
            continue;
        };
        let strikes =
            |other: &Event| matches!(other, Event::Strike(number) if *number == car.number);
        match train.enter_sound(&Measured::from(car), &sheet.tables) {
            Ok(figures) if !lines(line).iter().any(strikes) => {
                sum = [sum[0] + 1, sum[1] + figures.gross, sum[2] + figures.net];
            }
            _ => {}
        }
    }
    sum
}

/// The lines of a sheet, strikes first or cars first.
pub fn by_kind(sheet: &Sheet, strikes_first: bool) -> &'static [Event] {
    let mut events = sheet.events().to_vec();
    events.sort_by_key(|event| matches!(event, Event::Enter(_)) == strikes_first);
    events.leak()
}

/// Whether a listing shows a refusal of a car or strike.
pub fn shows(listing: &[u8], refusal: u32) -> bool {
    let end = format!("{refusal:>9}");
    listing
        .split(|&byte| byte == b'\n')
        .any(|line| line.starts_with(b"X") && line.ends_with(end.as_bytes()))
}

/// Takes the figures of a car out of a listing, and gives what length is left.
pub fn without_car(listing: &mut [u8], number: u32) -> usize {
    let start = format!("A{number:>9}");
    let found = listing.windows(start.len()).rposition(|text| text == start.as_bytes());
    let Some(found) = found else { return listing.len() };
    let end =
        found + listing[found..].iter().position(|&byte| byte == b'\n').map_or(0, |end| end + 1);
    listing.copy_within(end.., found);
    listing.len() - (end - found)
}

/// The net total by the shares of the last car.
pub fn net_of_total(gross: u64, cars: &[Car]) -> u32 {
    let shares = cars.last().map_or(0, |car| (car.water + car.impurities).min(10_000));
    crate::turned::mass::net(gross, shares, 0) as u32
}

/// Totals as the fields of an S line.
pub fn in_fields(totals: Totals) -> [u32; 3] {
    [totals.accepted, totals.gross as u32, totals.net as u32]
}

/// Totals as the fields of a G line.
pub fn of_grade(grade: u32, totals: Totals) -> [u32; 4] {
    let [accepted, gross, net] = in_fields(totals);
    [grade, accepted, gross, net]
}

/// The totals of all less those of a grade.
pub fn without(all: Totals, grade: Totals) -> [u32; 3] {
    let (all, grade) = (in_fields(all), in_fields(grade));
    [0, 1, 2].map(|part| all[part] - grade[part])
}

/// The sums of the first so many grades.
pub fn all(grades: &[Totals], count: usize) -> [u32; 3] {
    let fields: Vec<[u32; 3]> = grades[..count].iter().map(|of| in_fields(*of)).collect();
    [0, 1, 2].map(|part| fields.iter().map(|grade| grade[part]).sum())
}

/// The totals with every car of a grade counted, refused or not.
pub fn with_refused(mut grades: [Totals; 4], cars: &[Car]) -> [Totals; 4] {
    for (grade, of) in (1..).zip(&mut grades) {
        of.accepted = cars.iter().filter(|car| car.grade == grade).count() as u32;
    }
    grades
}

/// The totals with each net by the shares of the grade's last car.
pub fn net_of_grades(mut grades: [Totals; 4], cars: &[Car]) -> [Totals; 4] {
    for (grade, of) in (1..).zip(&mut grades) {
        let cars: Vec<Car> = cars.iter().copied().filter(|car| car.grade == grade).collect();
        of.net = net_of_total(of.gross, &cars).into();
    }
    grades
}

/// The totals, the heaviest first.
pub fn by_mass(mut grades: [Totals; 4]) -> [Totals; 4] {
    grades.sort_by_key(|of| std::cmp::Reverse(of.gross));
    grades
}

/// Four readings, rising.
pub fn sorted(mut readings: [u32; 4]) -> [u32; 4] {
    readings.sort_unstable();
    readings
}

/// The two closest readings, the lower of pairs that are equally close.
pub fn closest_two(readings: [u32; 4]) -> [u32; 2] {
    let all = sorted(readings);
    let pairs = [[all[0], all[1]], [all[1], all[2]], [all[2], all[3]]];
    pairs.into_iter().min_by_key(|[low, high]| high - low).unwrap_or_default()
}

/// The three readings that are nearest to the mean of all four.
pub fn nearest_three(readings: [u32; 4]) -> [u32; 3] {
    let [a, b, c, d] = sorted(readings);
    let sum: u64 = readings.iter().copied().map(u64::from).sum();
    let off = |reading: u32| (4 * u64::from(reading)).abs_diff(sum);
    if off(d) >= off(a) {
        [a, b, c]
    } else {
        [b, c, d]
    }
}

/// How far some readings lie apart.
pub fn span(readings: &[u32]) -> u32 {
    let highest = readings.iter().max().copied().unwrap_or(0);
    highest - readings.iter().min().copied().unwrap_or(0)
}

/// The last level of a table by its place on the sheet, or the car's own where there is none.
pub fn end_of(tables: &Tables, place: usize, own: Table) -> u32 {
    let other = hooks::types().get(place).and_then(|&car_type| tables.find(car_type));
    other.unwrap_or(own).last_level()
}

fn ends(tables: &Tables) -> Vec<u32> {
    let found = hooks::types().into_iter().filter_map(|car_type| tables.find(car_type));
    found.map(|table| table.last_level()).collect()
}

pub fn end_of_last(tables: &Tables) -> u32 {
    ends(tables).last().copied().unwrap_or(0)
}

pub fn longest(tables: &Tables) -> u32 {
    ends(tables).into_iter().max().unwrap_or(0)
}

pub fn shortest(tables: &Tables) -> u32 {
    ends(tables).into_iter().min().unwrap_or(0)
}

/// The difference of the capacities at two levels in 0.1 mm, rounded once.
pub fn rounded_once(table: Table, level: u64, water: u64) -> u64 {
    let (oil, oil_step) = table.fraction(level);
    let (water, water_step) = table.fraction(water);
    let difference = oil * water_step - water * oil_step;
    round(u128::from(difference), u128::from(oil_step * water_step))
}

fn round(dividend: u128, divisor: u128) -> u64 {
    ((2 * dividend + divisor) / (2 * divisor)) as u64
}

fn contraction_by_rule(density: u32, tenths: u32) -> u128 {
    let density = crate::turned::thermal::Density15(density);
    u128::from(crate::turned::thermal::contraction(density, tenths))
}

/// Step 7 from the unrounded volume of step 3.
pub fn volume_at_15(volume: u64, steel: bool, temperature: u32, density: u32) -> u64 {
    let stick = if steel { 100 } else { 121 };
    let factor = 20_000_000 + stick * u128::from(temperature - 200);
    let contraction = contraction_by_rule(density, temperature - 150);
    round(u128::from(volume) * factor * contraction, 20_000_000 * ONE)
}

/// Step 8 from the unrounded volume of step 7.
pub fn gross(measured: u64, temperature: u32, density: u32) -> u64 {
    let contraction = contraction_by_rule(density, temperature - 150);
    round(u128::from(measured) * contraction * u128::from(density), 1_000_000 * ONE)
}

pub fn gross_by_20(volume: u64, density: u32) -> u64 {
    let at_20 = crate::turned::thermal::density_at_20(crate::turned::thermal::Density15(density));
    round(u128::from(volume) * u128::from(at_20.0), 1_000_000)
}

/// Net from the unrounded gross.
pub fn net(volume_at_15: u64, density: u32, shares: u32) -> u64 {
    let parts = u128::from(volume_at_15) * u128::from(density) * u128::from(10_000 - shares);
    round(parts, ONE)
}

/// A part of the gross, in kg.
pub fn part(gross: u64, share: u32) -> u64 {
    round(u128::from(gross) * u128::from(share), 10_000)
}

/// What a density at 15 °C comes to at a laboratory, got in another way.
pub fn comes_to(density: u32, tenths: u32, way: usize) -> u32 {
    let wide = u128::from(density);
    let by = |of: u32| round(wide * contraction_by_rule(of, tenths), ONE) as u32;
    let (r, d) = (f64::from(density), f64::from(tenths));
    let exponent = (18_696_960_000_000.0 + 4_861_800_000.0 * r) / (r * r) * d / 1e10;
    match way {
        0 => round(wide * ONE, contraction_by_rule(density, tenths)) as u32,
        1 => (wide * contraction_by_rule(density, tenths) / ONE) as u32,
        2 => by(density - 1),
        3 => by(density + 1),
        4 => by(9_500),
        5 => (r * (1.0 - exponent)).round() as u32,
        6 => (r * (-exponent * (1.0 + 0.8 * exponent)).exp()).round() as u32,
        _ => {
            let exponent = exponent as f32;
            (density as f32 * (-exponent * (1.0 + 0.8 * exponent)).exp()).round() as u32
        }
    }
}

/// E rounded to so many digits after the point.
pub fn to_digits(contraction: u64, digits: u32) -> u64 {
    let unit = 10_u64.pow(10 - digits);
    (contraction + unit / 2) / unit * unit
}

/// E got in another way.
pub fn contraction(density: u32, tenths: u32, way: usize) -> u64 {
    let (r, d) = (f64::from(density), f64::from(tenths));
    let exact = (18_696_960_000_000.0 + 4_861_800_000.0 * r) / (r * r);
    let b = if matches!(way, 0 | 4) { exact } else { exact.round() };
    let y = b * d;
    let square = 8.0 * y * y / 1e11;
    let x = y + if matches!(way, 1 | 4) { square } else { square.round() };
    match way {
        3 | 4 => ((-x / 1e10).exp() * 1e10).round() as u64,
        5 => f64::from((-(x as f32) / 1e10).exp() * 1e10).round() as u64,
        1 => (1e10 + series(x, 6, f64::round)).round() as u64,
        2 => (1e10 + series(x, 6, |term| term)).round() as u64,
        6 => (1e10 + series(x, 7, f64::round)).round() as u64,
        7 => (1e10 + series(x, 5, f64::round)).round() as u64,
        8 => (1e10 + series(x, 4, f64::round)).round() as u64,
        9 => (1e10 + series(x, 3, f64::round)).round() as u64,
        10 => (1e10 + rounded_apart(x)).round() as u64,
        _ => (1e10 + series(x.round(), 6, f64::round)).round() as u64,
    }
}

/// The terms after the first, each from the one before.
fn series(x: f64, terms: u32, rounding: fn(f64) -> f64) -> f64 {
    let mut term = x;
    let mut sum = -x;
    for power in 2..=terms {
        term = rounding(term * x / (f64::from(power) * 1e10));
        sum += if power % 2 == 0 { term } else { -term };
    }
    sum
}

/// The terms after the first, each rounded, but got from the unrounded one before.
fn rounded_apart(x: f64) -> f64 {
    let mut term = x;
    let mut sum = -x;
    for power in 2..=6 {
        term = term * x / (f64::from(power) * 1e10);
        sum += if power % 2 == 0 { term.round() } else { -term.round() };
    }
    sum
}

/// The places of a train that are held, of sixty at most.
pub fn held(train: &Train) -> impl Iterator<Item = &Place> {
    train.places.iter().take(train.held)
}

pub fn numbers(train: &Train) -> impl Iterator<Item = u32> + '_ {
    held(train).map(|place| place.number)
}

pub fn holds(train: &Train, number: u32) -> bool {
    numbers(train).any(|other| other == number)
}

/// The refusals of a car in a train from 10 on.
pub(crate) fn later_than_9(train: &Train, car: &Measured, tables: &Tables) -> Result<(), Refusal> {
    car.check_number()?;
    later_than_10(train, car, tables)
}

/// The refusals of a car in a train from 11 on.
pub(crate) fn later_than_10(train: &Train, car: &Measured, tables: &Tables) -> Result<(), Refusal> {
    if holds(train, car.number) {
        return Err(Refusal::CarTwice);
    }
    car.figures(tables).map(drop)
}

pub fn digits(number: u32) -> u32 {
    number.to_string().bytes().map(u32::from).sum()
}

/// Keeps a struck car, and gives it.
pub fn bury(place: Place) -> Place {
    hooks::bury([place.number, place.grade, place.gross, place.net]);
    place
}

/// An accepted car, or the one of its number that was kept.
pub fn dug_up(place: Place) -> Place {
    hooks::buried(place.number).map_or(place, |[number, grade, gross, net]| Place {
        number,
        grade,
        gross,
        net,
    })
}

/// An accepted car as a train holds it.
pub(crate) fn place(car: &Measured, figures: &Figures) -> Place {
    Place { number: car.number, grade: car.grade, gross: figures.gross, net: figures.net }
}

/// Puts a car in the place of the held one that has its number.
pub(crate) fn replace(train: &mut Train, car: &Measured, tables: &Tables) {
    let behind: Vec<Place> =
        held(train).skip_while(|place| place.number != car.number).skip(1).copied().collect();
    let _ = train.strike_sound(car.number);
    let _ = train.enter_sound(car, tables);
    let last = train.held - 1;
    train.places[last - behind.len()..=last].rotate_right(1);
}

/// Moves up what stands behind a gap, place by place.
pub fn move_up(places: &mut [Place; CARS], gap: usize, by: fn(&mut Place, &Place)) {
    for place in gap..CARS {
        let next = places.get(place + 1).copied().unwrap_or_default();
        by(&mut places[place], &next);
    }
}

/// The totals that the held cars of a train make.
pub fn made(train: &Train) -> Made {
    let sum = |fits: &dyn Fn(u32) -> bool| {
        held(train).filter(|car| fits(car.grade)).fold(Totals::default(), |sum, car| Totals {
            accepted: sum.accepted + 1,
            gross: sum.gross + u64::from(car.gross),
            net: sum.net + u64::from(car.net),
        })
    };
    (sum(&|grade| grade > 0), [1, 2, 3, 4].map(|of| sum(&|grade| grade == of)))
}

/// Whether a train is within its total when it has lost a car.
pub fn is_light_without(train: &Train, number: u32) -> bool {
    let lost = held(train).find(|place| place.number == number);
    let (gross, net) = lost.map_or((0, 0), |place| (place.gross.into(), place.net.into()));
    train.all.gross.wrapping_sub(gross).max(train.all.net.wrapping_sub(net)) <= 12_000_000
}

/// Totals of all and of each grade.
type Made = (Totals, [Totals; 4]);

/// Whether a train is like what its held cars make, part by part: all, then the grades; of each the
/// count, gross and net. Grades that there are not are turned away.
pub fn same(train: &Train, made: Made, by: fn(usize, usize, u64, u64) -> bool) -> bool {
    let parts = |of: Totals| [of.accepted.into(), of.gross, of.net];
    let all = |(all, grades): Made| std::iter::once(all).chain(grades).map(parts);
    let like = |(of, (a, b)): (usize, ([u64; 3], [u64; 3]))| {
        (0..3).all(|part| by(of, part, a[part], b[part]))
    };
    held(train).all(|place| place.grade <= 4)
        && all((train.all, train.grades)).zip(all(made)).enumerate().all(like)
}

/// Whether the totals of all are the sums of the grades' in 64 bits.
pub fn adds_up(train: &Train) -> bool {
    let sum = |part: fn(&Totals) -> u64| {
        train.grades.iter().map(part).fold(0, u64::wrapping_add) == part(&train.all)
    };
    sum(|of| of.accepted.into()) && sum(|of| of.gross) && sum(|of| of.net)
}

/// The same in 32 bits.
pub fn adds_up_in_32_bits(train: &Train) -> bool {
    let sum = |part: fn(&Totals) -> u64| {
        train.grades.iter().map(part).fold(0, u64::wrapping_add) as u32 == part(&train.all) as u32
    };
    sum(|of| of.accepted.into()) && sum(|of| of.gross) && sum(|of| of.net)
}

/// A train with its counts and its masses cut to so many bits.
pub fn in_bits(train: &Train, counts: u32, masses: u32) -> Train {
    let cut = |of: Totals| Totals {
        accepted: of.accepted & (u32::MAX >> (32 - counts)),
        gross: of.gross & (u64::MAX >> (64 - masses)),
        net: of.net & (u64::MAX >> (64 - masses)),
    };
    Train { all: cut(train.all), grades: train.grades.map(cut), ..train.clone() }
}

/// How many readings a car has, and which; none where a probe took its level.
pub(crate) fn dip(car: &Measured) -> (u32, [u32; 4]) {
    match car.level {
        Taken::Dipped { given, readings } => (given, readings),
        Taken::Probed(_) => (0, [0; 4]),
    }
}
