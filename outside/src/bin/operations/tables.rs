//! Capacity tables handed in, and V0: every limit at every table and row, then tables by lot.

use std::fmt;

use outside::random::Random;
use outside::{Tables, BAD_LENGTH, PLACES, TABLES};
use reference::operations::{self, HandedIn};
use reference::table::Row;

use crate::figures::{ends_of_levels, ENDS};
use crate::tally::{handed, Tally, LENT};

/// Rows of a table, at most.
const ROWS: usize = PLACES / TABLES;

/// Tables as the exported operations take them. Row `i` of table `k` stands at `400 k + i`.
#[derive(Clone)]
pub struct Given {
    pub count: u32,
    pub types: Vec<u32>,
    pub rows: Vec<u32>,
    pub levels: Vec<u32>,
    pub capacities: Vec<u32>,
}

/// The tables without the places that they do not use, or the lengths where one is wrong.
impl fmt::Debug for Given {
    fn fmt(&self, f: &mut fmt::Formatter) -> fmt::Result {
        if self.fits() {
            write!(f, "{} tables {:?}", self.count, self.handed_in())
        } else {
            write!(f, "slices of {:?}", self.lengths())
        }
    }
}

impl Given {
    /// Sound tables of the types 1, 2 and so on, with so many rows each; unused places hold
    /// what would be refused.
    pub fn sound(random: &mut Random, rows: &[usize]) -> Self {
        let mut given = Self {
            count: rows.len() as u32,
            types: vec![0; TABLES],
            rows: vec![u32::MAX; TABLES],
            levels: vec![u32::MAX; PLACES],
            capacities: vec![u32::MAX; PLACES],
        };
        for (table, &count) in rows.iter().enumerate() {
            given.types[table] = table as u32 + 1;
            given.rows[table] = count as u32;
            let places = ROWS * table..ROWS * table + count;
            let height = random.pick(&[3_600, 3_600, count as u32 + 20]);
            let content = random.pick(&[200_000, 70_000, count as u32 + 20]);
            given.levels[places.clone()].copy_from_slice(&rising(random, count, height));
            given.capacities[places].copy_from_slice(&rising(random, count, content));
        }
        given
    }

    /// One to four sound tables, mostly small.
    pub fn draw(random: &mut Random) -> Self {
        let count = 1 + random.below(TABLES);
        let rows: Vec<usize> =
            (0..count).map(|_| random.pick(&[2, 2, 3, 4, 7, 20, 40, 41, 399, 400])).collect();
        let mut given = Self::sound(random, &rows);
        given.types[random.below(count)] = random.pick(&[9_998, 9_999, 57]);
        given
    }

    pub fn lent(&self) -> Tables<'_> {
        Tables {
            count: self.count,
            types: &self.types,
            rows: &self.rows,
            levels: &self.levels,
            capacities: &self.capacities,
        }
    }

    fn lengths(&self) -> [usize; 4] {
        [&self.types, &self.rows, &self.levels, &self.capacities].map(Vec::len)
    }

    /// Whether every slice has the length that is asked for.
    pub fn fits(&self) -> bool {
        self.lengths() == [TABLES, TABLES, PLACES, PLACES]
    }

    /// The tables as the reference takes them; the fifth, which has no places, ends them.
    pub fn handed_in(&self) -> Vec<HandedIn> {
        (0..(self.count as usize).min(TABLES + 1)).map(|table| self.table(table)).collect()
    }

    fn table(&self, table: usize) -> HandedIn {
        if table == TABLES {
            return HandedIn { car_type: 0, announced: 0, rows: Vec::new() };
        }
        let announced = self.rows[table];
        let places = ROWS * table..ROWS * table + ROWS.min(announced as usize);
        let row =
            |place: usize| Row { level: self.levels[place], capacity: self.capacities[place] };
        HandedIn { car_type: self.types[table], announced, rows: places.map(row).collect() }
    }

    /// The level of a table's last row.
    pub fn last_level(&self, table: usize) -> u32 {
        self.levels[ROWS * table + self.rows[table] as usize - 1]
    }

    /// The same with each slice too short by one, too long by one, empty and twice as long.
    pub fn misfits(&self) -> Vec<Self> {
        let mut misfits = Vec::new();
        for place in 0..4 {
            for change in 0..4 {
                let mut misfit = self.clone();
                let slices = [
                    &mut misfit.types,
                    &mut misfit.rows,
                    &mut misfit.levels,
                    &mut misfit.capacities,
                ];
                let slice = slices.into_iter().nth(place).expect("four slices");
                let length = slice.len();
                slice.resize([length - 1, length + 1, 0, 2 * length][change], 1);
                misfits.push(misfit);
            }
        }
        misfits
    }

    /// One number of the tables changed, near a limit or at an end.
    fn spoil(&mut self, random: &mut Random) {
        let table = random.below(TABLES);
        let place = ROWS * table + random.below((self.rows[table].clamp(1, ROWS as u32)) as usize);
        let end = random.pick(&ENDS);
        match random.below(8) {
            0 => self.count = random.pick(&[0, 1, 2, 3, 4, 5, 6, end]),
            1 => self.types[table] = random.pick(&[0, 1, 2, 9_999, 10_000, end]),
            2 => self.rows[table] = random.pick(&[0, 1, 2, 3, 399, 400, 401, end]),
            3 => self.levels[place] = random.pick(&[0, 1, 3_600, 3_601, end]),
            4 => self.capacities[place] = random.pick(&[0, 1, 200_000, 200_001, end]),
            5 => {
                self.levels[place] =
                    self.levels[place.saturating_sub(1)].wrapping_add(random.between(0, 1))
            }
            6 => {
                self.capacities[place] =
                    self.capacities[place.saturating_sub(1)].wrapping_add(random.between(0, 1))
            }
            _ => self.levels[place] = self.levels[place].wrapping_sub(1),
        }
    }

    /// Every table with its type, its rows, and the level and the capacity of its first rows and
    /// its last set to each number at a limit.
    fn at_limits(&self) -> Vec<Self> {
        let mut changed = Vec::new();
        for table in 0..self.count as usize {
            let last = self.rows[table] as usize - 1;
            for number in [0, 1, 2, 3, 4, 5, 399, 400, 401, 9_999, 10_000].into_iter().chain(ENDS) {
                changed.push(self.with(|given| given.types[table] = number));
                changed.push(self.with(|given| given.rows[table] = number));
            }
            for place in [0, 1, 2.min(last), last - 1, last].map(|row| ROWS * table + row) {
                let before = place.saturating_sub(1);
                let (level, capacity) = (self.levels[before], self.capacities[before]);
                let near = [0, 1, 3_599, 3_600, 3_601, 199_999, 200_000, 200_001];
                for number in near.into_iter().chain(ENDS).chain([level, level.wrapping_add(1)]) {
                    changed.push(self.with(|given| given.levels[place] = number));
                }
                for number in
                    near.into_iter().chain(ENDS).chain([capacity, capacity.wrapping_add(1)])
                {
                    changed.push(self.with(|given| given.capacities[place] = number));
                }
            }
        }
        changed
    }

    fn with(&self, change: impl FnOnce(&mut Self)) -> Self {
        let mut changed = self.clone();
        change(&mut changed);
        changed
    }
}

/// So many numbers from 0, each above the one before, the last of them `top`.
fn rising(random: &mut Random, count: usize, top: u32) -> Vec<u32> {
    let mut numbers = vec![0; count];
    let mut reached = 0;
    for place in 1..count {
        let left = (count - 1 - place) as u32;
        let room = top - reached - left;
        let step = if left == 0 {
            room
        } else {
            random.between(1, (2 * room / (left + 1)).clamp(1, room))
        };
        reached += step;
        numbers[place] = reached;
    }
    numbers
}

fn compare_tables(tally: &mut Tally, given: &Given) {
    let number = outside::check_tables(given.lent());
    let expected = if given.fits() {
        handed(operations::check_tables(&given.handed_in()).map(drop), ())
    } else {
        (BAD_LENGTH, ())
    };
    tally.compare(given, (number, ()), expected);
}

pub fn check_tables(times: u64) -> Tally {
    let mut tally = Tally::new("check_tables");
    let mut random = Random::new(4);
    let small = Given::sound(&mut random, &[2, 3, 4, 5]);
    let large = Given::sound(&mut random, &[400, 400, 400, 400]);
    for given in [&small, &large] {
        given.misfits().iter().for_each(|misfit| compare_tables(&mut tally, misfit));
        for count in (0..=6).chain(ENDS) {
            compare_tables(&mut tally, &given.with(|given| given.count = count));
        }
        given.at_limits().iter().for_each(|changed| compare_tables(&mut tally, changed));
    }
    for _ in 0..times {
        let mut given = Given::draw(&mut random);
        for _ in 0..random.below(3) {
            given.spoil(&mut random);
        }
        compare_tables(&mut tally, &given);
    }
    tally
}

fn compare_volume(tally: &mut Tally, given: &Given, car_type: u32, level: u64, water_level: u32) {
    let mut volume = LENT;
    let number = outside::checked_volume(given.lent(), car_type, level, water_level, &mut volume);
    let expected = if given.fits() {
        let volume = operations::volume(&given.handed_in(), car_type, level, water_level);
        handed(volume.map(|figure| figure as u32), LENT)
    } else {
        (BAD_LENGTH, LENT)
    };
    tally.compare((car_type, level, water_level, given), (number, volume), expected);
}

/// The levels of a table's rows, in mm.
fn rows(given: &Given, table: usize) -> &[u32] {
    &given.levels[ROWS * table..][..given.rows[table] as usize]
}

/// Water levels in mm on and beside the rows of a table, at the ends, and such as ten times as much is small
/// in 32 bits.
fn water_levels_near(given: &Given, table: usize) -> Vec<u32> {
    let beside =
        rows(given, table).iter().flat_map(|&level| [level.saturating_sub(1), level, level + 1]);
    let mut levels: Vec<u32> =
        beside.chain(ENDS).chain([429_496_729, 429_496_730, 858_993_460]).collect();
    levels.sort_unstable();
    levels.dedup();
    levels
}

/// Levels in 0.1 mm on the rows of a table and around them, by tenths and by mm, and at the ends.
fn levels_near(given: &Given, table: usize) -> Vec<u64> {
    let around = [-10, -7, -5, -3, -1, 0, 1, 3, 5, 7, 10];
    let beside = rows(given, table)
        .iter()
        .flat_map(|&row| around.map(|tenths| (10 * u64::from(row)).saturating_add_signed(tenths)));
    let mut levels: Vec<u64> = beside.chain(ends_of_levels()).collect();
    levels.sort_unstable();
    levels.dedup();
    levels
}

/// Every level near the rows of a table above every water level there, and types that are none.
fn compare_volumes(tally: &mut Tally, given: &Given) {
    for table in 0..TABLES {
        for level in levels_near(given, table) {
            for water_level in water_levels_near(given, table) {
                compare_volume(tally, given, given.types[table], level, water_level);
            }
        }
    }
    for car_type in (0..=5).chain([9_999, 10_000]).chain(ENDS) {
        compare_volume(tally, given, car_type, 20, 1);
    }
}

pub fn checked_volume(times: u64) -> Tally {
    let mut tally = Tally::new("checked_volume");
    let mut random = Random::new(5);
    for rows in [[2, 3, 4, 5], [2, 6, 3, 9], [5, 2, 2, 4]] {
        let given = Given::sound(&mut random, &rows);
        given.misfits().iter().for_each(|misfit| compare_volume(&mut tally, misfit, 1, 10, 0));
        compare_volumes(&mut tally, &given);
    }
    for _ in 0..times {
        let mut given = Given::draw(&mut random);
        let table = random.below(given.count as usize);
        let car_type = given.types[table];
        let last = given.last_level(table);
        if random.one_in(8) {
            given.spoil(&mut random);
        }
        let level = random.between(0, 10 * last + 11);
        let highest = random.pick(&[0, level / 10, level / 10 + 1, last]);
        let water_level = if random.one_in(4) { highest } else { random.between(0, highest) };
        compare_volume(&mut tally, &given, car_type, level.into(), water_level);
    }
    tally
}
