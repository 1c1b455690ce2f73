//! A second calculation of the train that can take a wrong turn with strikes, or where sixty are held:
//! each turn must show on the sheet made for it. The figures of a single car are the package's.

use reference::car::{Car, Figures};
use reference::conformance::cases;
use reference::sheet::{Event, Sheet};
use reference::table::Tables;

#[derive(Clone, Copy, Debug, PartialEq, Eq)]
enum Turn {
    None,
    /// Count, gross or net is left, counted from 0: in the totals of all, in those of the grade.
    LeavesOfAll(usize),
    LeavesOfGrade(usize),
    LeavesAll,
    LeavesGrade,
    LowersNextGrade,
    LowersNetByGross,
    LowersByLastCar,
    LowersByFirstEntry,
    LowersByLastLine,
    LowersCountOfRefused,
    /// The figures of a number's first car for every later one.
    FirstFigures,
    CountsEveryEntryOfHeld,
    CountsNoneOnceStruck,
    StrikesFirst,
    StrikesLast,
    StrikesNext,
    StrikesCarsBehind,
    AcceptedOnly,
    RefusedKeepsNumber,
    ByPlace,
    /// Numbers are compared by what is left over where they are divided by so much.
    Modulo(u32),
    KeepsNumber,
    /// So many places more, or fewer, are free after a strike.
    Frees(i32),
    FreesLastOnly,
    HoldsUnknown,
    RepeatReplaces,
    /// The car turned away by 11 is held too; the first, the last or each of its number is struck.
    RepeatHeldFirst,
    RepeatHeldLast,
    RepeatHeldBoth,
    AnswersUnknown,
    UnknownRefusesSheet,
    AnswersByX,
    AnswersByNoLine,
    DropsLineOfCar,
    LinesBehindCars,
    CountedByE,
    WorkedBeforeCars,
    WorkedAfterCars,
    Remembered,
    ZeroBy10,
    ZeroPassedOver,
    /// Every strike on a full train, or one of an unknown number, is refused by this.
    StrikeOnFull(u32),
    UnknownOnFull(u32),
    FullOf(usize),
    FullBy(u32),
    FullRefusesSheet,
    FullLosesFirst,
    FullByCarLines,
    FullByEverHeld,
    FullByAccepted,
    FullHoldsNumber,
    StaysFull,
    /// 9 is tested after 10, after 11, after all of the car's refusals.
    FullAfter10,
    FullAfter11,
    FullAfterCar,
    /// 10 or 11 is not tested, or no place is taken, at this C line.
    No10At(usize),
    No11At(usize),
    NotHeldAt(usize),
}

/// Count, gross and net.
type Totals = [i64; 3];

/// A car that is held; grade 0 is a refused one.
#[derive(Clone, Copy, Default)]
struct Held {
    number: u32,
    grade: u32,
    gross: u32,
    net: u32,
}

/// The train, what was written, and what only wrong ways look at.
struct Train<'a> {
    turn: Turn,
    tables: &'a Tables,
    held: Vec<Held>,
    all: Totals,
    grades: [Totals; 4],
    /// All cars that were accepted, in the order of the sheet, and all that were struck.
    entries: Vec<Held>,
    struck: Vec<u32>,
    /// The last line of each number, worked out alone.
    typed: Vec<Held>,
    car_lines: usize,
    ever: usize,
    lost_places: i32,
    barred: Vec<u32>,
    remembered: Vec<u32>,
    was_full: bool,
}

/// A sheet that is turned away.
struct Refused;

impl Train<'_> {
    fn is_full(&mut self) -> bool {
        let held = self.held.len();
        let places = 60 - self.lost_places;
        self.was_full |= held >= 60;
        match self.turn {
            Turn::FullOf(most) => held >= most,
            Turn::FullByCarLines => self.car_lines >= 60,
            Turn::FullByEverHeld => self.ever >= 60,
            Turn::FullByAccepted => self.all[0] >= 60,
            Turn::StaysFull => self.was_full,
            _ => held as i32 >= places,
        }
    }

    fn has(&self, number: u32) -> bool {
        self.held.iter().any(|held| held.number == number) || self.barred.contains(&number)
    }

    /// 9 and, for a turn, what is tested before it.
    fn full(&mut self, car: &Car, alone: &Result<Figures, u32>) -> Result<u32, Refused> {
        let number = car.number;
        let before = match self.turn {
            Turn::FullRefusesSheet => return Err(Refused),
            Turn::FullBy(refusal) => Some(refusal),
            Turn::FullAfter10 | Turn::FullAfter11 | Turn::FullAfterCar if number == 0 => Some(10),
            Turn::FullAfter11 | Turn::FullAfterCar if self.has(number) => Some(11),
            Turn::FullAfterCar => alone.err(),
            _ => None,
        };
        if self.turn == Turn::FullHoldsNumber {
            self.barred.push(number);
        }
        Ok(before.unwrap_or(9))
    }

    fn enter(&mut self, car: &Car) -> Result<String, Refused> {
        let alone = alone(car, self.tables);
        let line = Held::of(car, &alone);
        self.typed.retain(|typed| typed.number != car.number);
        self.typed.push(line);
        let is_full = self.is_full();
        self.car_lines += 1;
        if is_full && self.turn == Turn::FullLosesFirst {
            self.take_out(0);
        } else if is_full {
            return self.full(car, &alone).map(|refusal| refused(car.number, refusal));
        }
        if car.number == 0 && self.turn != Turn::No10At(self.car_lines) {
            return Ok(refused(0, 10));
        }
        if self.has(car.number) && self.turn != Turn::No11At(self.car_lines) {
            self.repeat(line);
            return Ok(refused(car.number, 11));
        }
        self.ever += 1;
        if self.turn != Turn::NotHeldAt(self.car_lines) {
            self.held.push(line);
        }
        match alone {
            Ok(figures) => Ok(self.accept(car, figures)),
            Err(refusal) => Ok(refused(car.number, refusal)),
        }
    }

    fn repeat(&mut self, line: Held) {
        let first = self.held.iter_mut().find(|held| held.number == line.number);
        match (self.turn, first) {
            (Turn::RepeatReplaces, Some(held)) => *held = line,
            (Turn::RepeatHeldFirst | Turn::RepeatHeldLast | Turn::RepeatHeldBoth, _) => {
                self.held.push(line);
            }
            _ => {}
        }
    }

    fn accept(&mut self, car: &Car, mut figures: Figures) -> String {
        let mut entry = Held::of(car, &Ok(figures));
        let earlier = self.entries.iter().find(|entry| entry.number == car.number);
        if let (Turn::FirstFigures, Some(first)) = (self.turn, earlier) {
            (entry.gross, entry.net) = (first.gross, first.net);
            (figures.gross, figures.net) = (first.gross, first.net);
        }
        self.entries.push(entry);
        if self.turn == Turn::Remembered && self.remembered.contains(&car.number) {
            self.held.pop();
        } else {
            add(&mut self.all, &entry, 1);
            add(&mut self.grades[entry.grade as usize - 1], &entry, 1);
        }
        let Figures { number, level, volume, volume_at_15, gross, net } = figures;
        line('A', &[number, level, volume, volume_at_15, gross, net].map(i64::from))
    }

    fn strike(&mut self, number: u32) -> Result<String, Refused> {
        let is_full = self.is_full();
        match self.turn {
            Turn::ZeroBy10 if number == 0 => return Ok(refused(0, 10)),
            Turn::ZeroPassedOver if number == 0 => return Ok(String::new()),
            Turn::StrikeOnFull(refusal) if is_full => return Ok(refused(number, refusal)),
            _ => {}
        }
        let Some(place) = self.place(number) else {
            return self.unknown(number, is_full);
        };
        if self.turn == Turn::RefusedKeepsNumber && self.held[place].grade == 0 {
            return Ok(struck(number));
        }
        if self.turn == Turn::RepeatHeldBoth {
            let last = self.held.iter().rposition(|held| held.number == number);
            last.filter(|last| *last > place).into_iter().for_each(|last| self.take_out(last));
        }
        self.take_out(place);
        self.struck.push(number);
        Ok(match self.turn {
            Turn::AnswersByX => refused(number, 30),
            Turn::AnswersByNoLine => String::new(),
            _ => struck(number),
        })
    }

    fn unknown(&mut self, number: u32, is_full: bool) -> Result<String, Refused> {
        match self.turn {
            Turn::AnswersUnknown => return Ok(struck(number)),
            Turn::UnknownRefusesSheet => return Err(Refused),
            Turn::UnknownOnFull(refusal) if is_full => return Ok(refused(number, refusal)),
            Turn::HoldsUnknown => self.barred.push(number),
            Turn::Remembered => self.remembered.push(number),
            _ => {}
        }
        Ok(refused(number, 30))
    }

    /// The place of the car that is struck.
    fn place(&self, number: u32) -> Option<usize> {
        let last = self.held.len().checked_sub(1)?;
        let place = match self.turn {
            Turn::Modulo(rest) => {
                self.held.iter().position(|held| held.number % rest == number % rest)
            }
            Turn::ByPlace => (number as usize).checked_sub(1).filter(|place| *place <= last),
            Turn::RepeatHeldLast => self.held.iter().rposition(|held| held.number == number),
            _ => self.held.iter().position(|held| held.number == number),
        }?;
        match self.turn {
            Turn::StrikesFirst => Some(0),
            Turn::StrikesLast => Some(last),
            Turn::StrikesNext => Some(last.min(place + 1)),
            Turn::AcceptedOnly => Some(place).filter(|place| self.held[*place].grade > 0),
            _ => Some(place),
        }
    }

    fn take_out(&mut self, place: usize) {
        let last = self.held[self.held.len() - 1];
        self.lost_places += match self.turn {
            Turn::Frees(more) => 1 - more,
            Turn::FreesLastOnly if place + 1 < self.held.len() => 1,
            _ => 0,
        };
        let mut car = self.held.remove(place);
        if self.turn == Turn::StrikesCarsBehind {
            self.held.truncate(place);
        }
        if self.turn == Turn::KeepsNumber {
            self.barred.push(car.number);
        }
        if car.grade == 0 {
            self.all[0] -= i64::from(self.turn == Turn::LowersCountOfRefused);
            return;
        }
        let of_number = |entry: &&Held| entry.number == car.number;
        let masses = match self.turn {
            Turn::LowersByLastCar => last,
            Turn::LowersByFirstEntry => *self.entries.iter().find(of_number).unwrap(),
            Turn::LowersByLastLine => *self.typed.iter().find(of_number).unwrap(),
            Turn::LowersNetByGross => Held { net: car.gross, ..car },
            _ => car,
        };
        (car.gross, car.net) = (masses.gross, masses.net);
        self.lower(&car);
    }

    /// Takes a car off the totals.
    fn lower(&mut self, car: &Held) {
        let next = usize::from(self.turn == Turn::LowersNextGrade);
        let grade = &mut self.grades[(car.grade as usize - 1 + next) % 4];
        let (all_before, grade_before) = (self.all, *grade);
        add(&mut self.all, car, -1);
        add(grade, car, -1);
        match self.turn {
            Turn::LeavesOfAll(part) => self.all[part] = all_before[part],
            Turn::LeavesOfGrade(part) => grade[part] = grade_before[part],
            Turn::LeavesAll => self.all = all_before,
            Turn::LeavesGrade => *grade = grade_before,
            _ => {}
        }
    }

    /// The totals read off the entries in a wrong way, where the turn does so.
    fn read_off(&mut self) {
        let counts = |entry: &&Held| match self.turn {
            Turn::CountsEveryEntryOfHeld => self.has(entry.number),
            _ => !self.struck.contains(&entry.number),
        };
        if matches!(self.turn, Turn::CountsEveryEntryOfHeld | Turn::CountsNoneOnceStruck) {
            let mut all = [0; 3];
            let mut grades = [[0; 3]; 4];
            for entry in self.entries.iter().filter(counts) {
                add(&mut all, entry, 1);
                add(&mut grades[entry.grade as usize - 1], entry, 1);
            }
            (self.all, self.grades) = (all, grades);
        }
    }

    fn totals(&self) -> String {
        let grades = (1..).zip(self.grades).map(|(grade, [a, b, c])| line('G', &[grade, a, b, c]));
        line('S', &self.all) + &grades.collect::<String>()
    }
}

/// A car worked out without a train, whatever its number.
fn alone(car: &Car, tables: &Tables) -> Result<Figures, u32> {
    let figures = Car { number: 1, ..*car }.work_out(tables).map_err(|refusal| refusal.number())?;
    Ok(Figures { number: car.number, ..figures })
}

impl Held {
    fn of(car: &Car, alone: &Result<Figures, u32>) -> Self {
        match alone {
            Ok(Figures { gross, net, .. }) => {
                Self { number: car.number, grade: car.grade, gross: *gross, net: *net }
            }
            Err(_) => Self { number: car.number, ..Self::default() },
        }
    }
}

fn add(totals: &mut Totals, car: &Held, times: i64) {
    for (total, part) in totals.iter_mut().zip([1, car.gross, car.net]) {
        *total += times * i64::from(part);
    }
}

fn line(letter: char, numbers: &[i64]) -> String {
    let fields: String = numbers.iter().map(|number| format!("{number:>9}")).collect();
    format!("{letter}{fields}\n")
}

fn refused(number: u32, refusal: u32) -> String {
    line('X', &[number.into(), refusal.into()])
}

fn struck(number: u32) -> String {
    line('K', &[number.into()])
}

impl Turn {
    /// The listing of a sheet that is not turned away by the rules.
    fn listing(self, sheet: &Sheet) -> String {
        let events = sheet.events();
        let is_strike = |place: &usize| matches!(events[*place], Event::Strike(_));
        if self == Self::CountedByE && (0..events.len()).any(|place| is_strike(&place)) {
            return line('Z', &[0, 9]);
        }
        let mut order: Vec<usize> = (0..events.len()).collect();
        match self {
            Self::WorkedBeforeCars => order.sort_by_key(|place| !is_strike(place)),
            Self::WorkedAfterCars => order.sort_by_key(is_strike),
            _ => {}
        }
        let mut train = Train::new(self, &sheet.tables);
        let mut answers = vec![String::new(); events.len()];
        for place in order {
            let answer = match &events[place] {
                Event::Enter(car) => train.enter(car),
                Event::Strike(number) => train.strike(*number),
            };
            let Ok(answer) = answer else { return line('Z', &[0, 9]) };
            answers[place] = answer;
        }
        self.drop_lines(&train, &mut answers);
        if self == Self::LinesBehindCars {
            answers.sort_by_key(|answer| answer.starts_with('K'));
        }
        train.read_off();
        answers.concat() + &train.totals()
    }

    fn drop_lines(self, train: &Train, answers: &mut Vec<String>) {
        if self == Self::DropsLineOfCar {
            let of_struck = |answer: &String| {
                let number = answer[1..10].trim_start().parse().unwrap();
                answer.starts_with('A') && train.struck.contains(&number)
            };
            answers.retain(|answer| !of_struck(answer));
        }
    }
}

impl<'a> Train<'a> {
    fn new(turn: Turn, tables: &'a Tables) -> Self {
        Self {
            turn,
            tables,
            held: Vec::new(),
            all: [0; 3],
            grades: [[0; 3]; 4],
            entries: Vec::new(),
            struck: Vec::new(),
            typed: Vec::new(),
            car_lines: 0,
            ever: 0,
            lost_places: 0,
            barred: Vec::new(),
            remembered: Vec::new(),
            was_full: false,
        }
    }
}

const TURNS: &[(&str, &[Turn])] = &[
    ("parting-strike-leaves-the-count", &[Turn::LeavesOfAll(0)]),
    ("parting-strike-leaves-gross", &[Turn::LeavesOfAll(1)]),
    ("parting-strike-leaves-net", &[Turn::LeavesOfAll(2)]),
    ("parting-strike-leaves-the-totals-of-all", &[Turn::LeavesAll]),
    ("parting-strike-leaves-the-totals-of-the-grade", &[Turn::LeavesGrade]),
    ("parting-strike-leaves-the-count-of-the-grade", &[Turn::LeavesOfGrade(0)]),
    ("parting-strike-leaves-gross-of-the-grade", &[Turn::LeavesOfGrade(1)]),
    ("parting-strike-leaves-net-of-the-grade", &[Turn::LeavesOfGrade(2)]),
    ("parting-strike-lowers-the-next-grade", &[Turn::LowersNextGrade]),
    ("parting-strike-lowers-net-by-gross", &[Turn::LowersNetByGross]),
    ("parting-strike-lowers-by-the-last-car-s-masses", &[Turn::LowersByLastCar]),
    ("parting-strike-of-a-refused-car-lowers-the-count", &[Turn::LowersCountOfRefused]),
    ("parting-strike-lowers-by-the-first-entry-s-masses", &[Turn::LowersByFirstEntry]),
    ("parting-strike-lowers-by-the-last-line-s-masses", &[Turn::LowersByLastLine]),
    ("parting-strike-then-masses-of-the-first-entry", &[Turn::FirstFigures]),
    ("parting-strike-counts-every-entry-of-a-held-number", &[Turn::CountsEveryEntryOfHeld]),
    ("parting-strike-counts-no-number-once-struck", &[Turn::CountsNoneOnceStruck]),
    ("parting-strike-of-the-first-car-held", &[Turn::StrikesFirst]),
    ("parting-strike-of-the-last-car-held", &[Turn::StrikesLast]),
    ("parting-strike-of-the-next-car", &[Turn::StrikesNext]),
    ("parting-strike-of-the-cars-behind-too", &[Turn::StrikesCarsBehind]),
    ("parting-strike-of-accepted-cars-only", &[Turn::AcceptedOnly]),
    ("parting-strike-of-a-refused-car-keeps-its-number", &[Turn::RefusedKeepsNumber]),
    ("parting-strike-by-the-place", &[Turn::ByPlace]),
    ("parting-strike-by-the-low-16-bits", &[Turn::Modulo(1 << 16)]),
    ("parting-strike-by-the-low-24-bits", &[Turn::Modulo(1 << 24)]),
    ("parting-strike-by-the-last-seven-digits", &[Turn::Modulo(10_000_000)]),
    ("parting-strike-keeps-the-number", &[Turn::KeepsNumber]),
    ("parting-strike-keeps-the-place", &[Turn::Frees(0), Turn::FullByEverHeld]),
    ("parting-strike-frees-the-last-place-only", &[Turn::FreesLastOnly]),
    ("parting-strike-frees-two-places", &[Turn::Frees(2)]),
    ("parting-strike-holds-a-number-that-it-does-not-find", &[Turn::HoldsUnknown]),
    ("parting-strike-of-a-car-that-its-repeat-replaced", &[Turn::RepeatReplaces]),
    ("parting-strike-of-the-first-of-two-entries", &[Turn::RepeatHeldFirst]),
    ("parting-strike-of-the-second-of-two-entries", &[Turn::RepeatHeldLast]),
    ("parting-strike-of-both-of-two-entries", &[Turn::RepeatHeldBoth]),
    ("parting-strike-answered-where-30-is-due", &[Turn::AnswersUnknown]),
    ("parting-strike-not-found-refuses-the-sheet", &[Turn::UnknownRefusesSheet]),
    ("parting-strike-answered-by-x", &[Turn::AnswersByX]),
    ("parting-strike-answered-by-no-line", &[Turn::AnswersByNoLine]),
    ("parting-strike-drops-the-line-of-its-car", &[Turn::DropsLineOfCar]),
    ("parting-strike-lines-behind-all-cars", &[Turn::LinesBehindCars]),
    ("parting-strike-counted-by-e", &[Turn::CountedByE]),
    ("parting-strike-worked-before-all-cars", &[Turn::WorkedBeforeCars]),
    ("parting-strike-worked-after-all-cars", &[Turn::WorkedAfterCars]),
    ("parting-strike-remembered-for-a-later-car", &[Turn::Remembered, Turn::WorkedAfterCars]),
    ("parting-strike-of-0-refused-by-10", &[Turn::ZeroBy10]),
    ("parting-strike-of-0-passed-over", &[Turn::ZeroPassedOver]),
    ("parting-strike-on-a-full-train-refused-by-9", &[Turn::StrikeOnFull(9)]),
    ("parting-strike-on-a-full-train-refused-by-30", &[Turn::StrikeOnFull(30)]),
    ("parting-strike-not-found-on-a-full-train-refused-by-9", &[Turn::UnknownOnFull(9)]),
    ("parting-full-train-of-61", &[Turn::FullOf(61)]),
    ("parting-full-train-of-59", &[Turn::FullOf(59)]),
    ("parting-full-train-refuses-by-10", &[Turn::FullBy(10)]),
    ("parting-full-train-refuses-by-11", &[Turn::FullBy(11)]),
    ("parting-full-train-refuses-the-sheet", &[Turn::FullRefusesSheet]),
    ("parting-full-train-loses-its-first-car", &[Turn::FullLosesFirst]),
    ("parting-full-train-by-car-lines", &[Turn::FullByCarLines]),
    ("parting-full-train-by-numbers-ever-held", &[Turn::FullByEverHeld, Turn::Frees(0)]),
    ("parting-full-train-by-accepted-cars", &[Turn::FullByAccepted]),
    ("parting-full-train-holds-the-number-that-it-refuses", &[Turn::FullHoldsNumber]),
    ("parting-full-train-stays-full", &[Turn::StaysFull]),
    ("parting-full-train-tested-after-10", &[Turn::FullAfter10]),
    ("parting-full-train-tested-after-11", &[Turn::FullAfter11]),
    ("parting-full-train-tested-after-the-car", &[Turn::FullAfterCar]),
    ("strike-accepted-car", OF_ONE),
    ("strike-first-of-three", OF_ONE),
    ("strike-middle-of-three", &[Turn::StrikesFirst, Turn::StrikesLast, Turn::StrikesNext]),
    ("strike-last-of-three", &[Turn::StrikesFirst, Turn::ByPlace]),
    ("strike-cars-refused-by-12-to-23-and-enter-them-again", OF_REFUSED),
    ("strike-refused-car-between-accepted", &[Turn::LowersCountOfRefused, Turn::AcceptedOnly]),
    ("strike-and-enter-again-with-other-masses", OF_ENTRIES),
    ("strike-and-enter-again-in-another-grade", OF_ENTRIES),
    ("strike-number-typed-twice", OF_REPEATS),
    ("strike-number-typed-twice-in-two-grades", OF_REPEATS),
    ("strike-one-number-again-and-again", &[Turn::LowersByFirstEntry, Turn::KeepsNumber]),
    ("strike-first-of-five-the-others-still-held", OF_PLACES),
    ("strike-middle-of-five-the-others-still-held", OF_PLACES),
    ("strike-last-of-five-the-others-still-held", &[Turn::StrikesFirst, Turn::KeepsNumber]),
    ("strike-on-a-full-train", OF_FULL),
    ("strike-refused-car-on-a-full-train", &[Turn::AcceptedOnly, Turn::RefusedKeepsNumber]),
    ("strike-all-sixty", &[Turn::StrikeOnFull(9), Turn::StrikeOnFull(30), Turn::LeavesOfAll(2)]),
    ("strike-one-place-sixty-times", &[Turn::Frees(0), Turn::FullByEverHeld, Turn::KeepsNumber]),
    ("refusal-30-number-0", &[Turn::ZeroBy10, Turn::AnswersUnknown, Turn::ZeroPassedOver]),
    ("refusal-30-struck-before", &[Turn::AnswersUnknown, Turn::LeavesOfAll(0)]),
    ("refusal-30-before-the-car-comes", &[Turn::Remembered, Turn::WorkedAfterCars]),
    ("refusal-30-numbers-that-are-nearly-alike", OF_NUMBERS),
    ("refusal-30-numbers-that-are-places", &[Turn::ByPlace]),
    ("refusal-30-on-a-full-train", &[Turn::UnknownOnFull(9), Turn::UnknownRefusesSheet]),
    ("refusal-30-number-turned-away-by-9", &[Turn::FullOf(61), Turn::FullLosesFirst]),
    ("order-09-before-10-number-0-on-a-full-train", &[Turn::FullAfter10, Turn::FullBy(10)]),
    ("order-09-before-11-held-number-on-a-full-train", &[Turn::FullAfter11, Turn::FullBy(11)]),
    ("order-09-before-12-to-23-on-a-full-train", &[Turn::FullAfterCar]),
    ("refusal-09-number-of-a-car-turned-away-stays-free", &[Turn::FullHoldsNumber]),
    ("refusal-09-sixty-first-number-though-cars-were-turned-away", &[Turn::FullByCarLines]),
    ("accepted-120-car-lines-of-which-sixty-are-held", &[Turn::FullOf(61), Turn::FullBy(11)]),
    ("refusal-10-on-120-car-lines", &[Turn::No10At(61), Turn::No10At(119), Turn::No10At(120)]),
    ("refusal-11-on-the-last-two-of-120-car-lines", &[Turn::No11At(119), Turn::No11At(120)]),
    ("strike-sixty-cars-of-car-lines-61-to-120", OF_LATE_CARS),
    ("accepted-longest-sheet-48111-bytes", &[Turn::FullByCarLines, Turn::FullByEverHeld]),
    ("totals-without-struck-cars-of-grade-1", OF_TOTALS),
    ("totals-without-struck-cars-of-grade-2", OF_TOTALS),
    ("totals-without-struck-cars-of-grade-3", OF_TOTALS),
    ("totals-without-struck-cars-of-grade-4", OF_TOTALS),
    ("totals-of-cars-struck-and-entered-in-another-grade", OF_ENTRIES),
    ("totals-of-sixty-cars-of-which-thirty-are-struck", OF_TOTALS),
    ("totals-of-the-heaviest-train-struck-and-entered-again", OF_TOTALS),
];

/// One car is struck.
const OF_ONE: &[Turn] = &[
    Turn::LeavesOfAll(0),
    Turn::LeavesOfAll(1),
    Turn::LeavesOfAll(2),
    Turn::LeavesOfGrade(0),
    Turn::LeavesOfGrade(1),
    Turn::LeavesOfGrade(2),
    Turn::AnswersByX,
    Turn::DropsLineOfCar,
    Turn::CountedByE,
];

const OF_REFUSED: &[Turn] =
    &[Turn::AcceptedOnly, Turn::RefusedKeepsNumber, Turn::LowersCountOfRefused, Turn::KeepsNumber];

/// A number is entered again.
const OF_ENTRIES: &[Turn] = &[
    Turn::KeepsNumber,
    Turn::CountsEveryEntryOfHeld,
    Turn::CountsNoneOnceStruck,
    Turn::FirstFigures,
    Turn::WorkedBeforeCars,
    Turn::WorkedAfterCars,
];

/// A number is typed twice.
const OF_REPEATS: &[Turn] =
    &[Turn::RepeatReplaces, Turn::RepeatHeldLast, Turn::RepeatHeldBoth, Turn::LowersByLastLine];

const OF_PLACES: &[Turn] =
    &[Turn::StrikesCarsBehind, Turn::StrikesLast, Turn::StrikesNext, Turn::KeepsNumber];

const OF_FULL: &[Turn] = &[
    Turn::Frees(0),
    Turn::Frees(2),
    Turn::FreesLastOnly,
    Turn::StaysFull,
    Turn::FullByCarLines,
    Turn::FullHoldsNumber,
    Turn::StrikeOnFull(9),
    Turn::StrikeOnFull(30),
];

/// Sixty cars are entered behind sixty C lines.
const OF_LATE_CARS: &[Turn] =
    &[Turn::NotHeldAt(61), Turn::NotHeldAt(119), Turn::NotHeldAt(120), Turn::FullByCarLines];

const OF_NUMBERS: &[Turn] = &[Turn::Modulo(1 << 16), Turn::Modulo(10_000_000)];

const OF_TOTALS: &[Turn] = &[
    Turn::LeavesAll,
    Turn::LeavesGrade,
    Turn::LowersNextGrade,
    Turn::LowersNetByGross,
    Turn::LeavesOfGrade(0),
];

#[test]
fn every_wrong_turn_shows_on_its_sheet() {
    let cases = cases();
    for (name, turns) in TURNS {
        let case = cases.iter().find(|case| case.name == *name).expect(name);
        let sheet = Sheet::read(&case.sheet).ok().expect(name);
        let listing = String::from_utf8_lossy(&case.listing);
        for turn in *turns {
            assert_ne!(turn.listing(&sheet), listing, "{name}: {turn:?} does not show");
        }
    }
}

#[test]
fn without_a_wrong_turn_every_listing_is_right() {
    for case in cases() {
        let Ok(sheet) = Sheet::read(&case.sheet) else { continue };
        let listing = String::from_utf8_lossy(&case.listing);
        assert_eq!(Turn::None.listing(&sheet), listing, "{}", case.name);
    }
}

#[test]
fn every_parting_sheet_has_a_wrong_turn() {
    for case in cases() {
        let name = case.name;
        if name.starts_with("parting-strike-") || name.starts_with("parting-full-train-") {
            assert!(TURNS.iter().any(|(of, _)| *of == name), "{name} shows no wrong turn");
        }
    }
}
