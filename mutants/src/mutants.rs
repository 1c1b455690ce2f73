//! The list of wrong programs: every wrong way at every point, also held to one line, field, table,
//! car, strike or number of a probe, every two refusals of a car, of a report, of a stick's check, of a
//! strike or of a probe's car, tested in the other order, and every entry of a stored list of B off by one.

use std::fmt;
use std::sync::OnceLock;

use crate::hooks::{self, Context};
use crate::{Point, POINTS};

#[derive(Clone, Copy, Debug)]
pub enum Mutant {
    /// A point, a wrong way counted from 1, and which of the point's contexts it is held to.
    Point(usize, usize, usize),
    /// The place of an order, and two of its refusals, the first of which is tested directly after the second.
    Order(usize, u32, u32),
    /// A density in 0.1 kg/m³ whose stored B is one more, or else one less.
    Stored(u32, bool),
}

const EVERYWHERE: Context = Context { key: hooks::ALWAYS, low: 0, high: 0 };

/// Keys to whose numbers the wrong ways of a point are held one by one. Lists of constants are made
/// once and know none.
fn keys(point: &Point) -> &'static [usize] {
    match (point.module, point.function) {
        (_, "") => &[],
        ("line", _) if point.choices[0].starts_with("each field") => &[hooks::LINE, hooks::FIELD],
        ("field" | "line", _) => &[hooks::LINE, hooks::ANSWER],
        ("listing", "write") => &[hooks::ANSWER],
        ("merge", "write") if point.code.starts_with("self.length") => &[hooks::ANSWER],
        ("merge", "read" | "held") => &[hooks::HALF],
        ("sheet", _) => &[hooks::LINE],
        ("table", "add") => &[hooks::TABLE, hooks::ROW],
        ("table", "find" | "new") => &[],
        ("table", "begin") => &[hooks::TABLE],
        ("table", _) => &[hooks::TABLE, hooks::BY_PROBE],
        ("level", "tape_allowance" | "has_allowance" | "metres") => &[],
        ("level", "unless_zero" | "in_tenths") => &[hooks::GIVEN, hooks::BY_PROBE],
        ("level", _) if point.code.starts_with("Self::Probed") => &[],
        ("level", _) => &[hooks::GIVEN],
        ("stick", _) if point.code.starts_with("ensure(") => &[],
        ("stick", _) => &[hooks::TAPE],
        ("car", "work_out" | "check_number") => &[hooks::BY_PROBE],
        ("car", _) => &[hooks::GRADE, hooks::STICK, hooks::TABLE, hooks::GIVEN, hooks::BY_PROBE],
        ("thermal", "exponential") => {
            &[hooks::AT, hooks::POWER, hooks::STICK, hooks::GRADE, hooks::BY_PROBE]
        }
        ("thermal", "numbered" | "expansion" | "volume_at_temperature") => {
            &[hooks::STICK, hooks::GRADE, hooks::BY_PROBE]
        }
        ("thermal", "coefficient") => {
            &[hooks::AT, hooks::STICK, hooks::GRADE, hooks::BY_PROBE, hooks::BY_ITSELF]
        }
        ("thermal", _) => &[hooks::AT, hooks::STICK, hooks::GRADE, hooks::BY_PROBE],
        ("mass", _) => &[hooks::STICK, hooks::GRADE, hooks::TABLE, hooks::BY_PROBE],
        ("permitted", "of") => &[hooks::BY_PROBE],
        ("probe", "work_out") => &[],
        ("probe", _) if is_of_number(point) => &[hooks::READING, hooks::PROBE],
        ("probe", _) => &[hooks::PROBE],
        ("listing", "write_grades") => &[hooks::GRADE],
        ("train", _) => keys_of_train(point),
        _ => &[],
    }
}

/// Whether a point of the probe stands where one number is taken, and not where three are or a car is.
fn is_of_number(point: &Point) -> bool {
    let of_more = ["let level", "let temperature", "let density", "Ok(SetTenths"];
    let of_set = of_more.iter().any(|start| point.code.starts_with(start));
    matches!(point.function, "tenths" | "take_apart") && !of_set
}

fn keys_of_train(point: &Point) -> &'static [usize] {
    let by_grade = point.code.starts_with("self.grades[") || point.code.starts_with("self.all.");
    match (point.function, point.what) {
        ("add", "statement") => &[hooks::GRADE, hooks::CAR],
        ("subtract", "statement") => &[hooks::GRADE, hooks::STRIKE, hooks::PLACE],
        ("add" | "subtract", _) => &[hooks::GRADE],
        ("enter_sound", "statement") if by_grade => &[hooks::GRADE, hooks::CAR, hooks::BY_PROBE],
        ("enter_sound", "statement") if point.code.starts_with("ensure(self.held") => {
            &[hooks::BY_PROBE]
        }
        ("enter_sound", "statement") => &[hooks::CAR, hooks::BY_PROBE],
        ("strike_sound", "statement") if by_grade => &[hooks::GRADE, hooks::STRIKE, hooks::PLACE],
        ("strike_sound", "statement") if point.code.starts_with("self.places[") => &[hooks::PLACE],
        ("strike_sound", "statement") => &[hooks::STRIKE, hooks::PLACE],
        ("enter_sound", _) if by_grade => &[hooks::GRADE, hooks::BY_PROBE],
        ("strike_sound", _) if by_grade => &[hooks::GRADE],
        ("enter_sound" | "enter_measured", _) => &[hooks::BY_PROBE],
        ("enter" | "enter_probe" | "strike" | "strike_sound" | "place_of" | "default", _) => &[],
        _ => &[hooks::HANDED_IN],
    }
}

/// The ranges of numbers that a key is tried with.
fn ranges(key: usize) -> Vec<(u32, u32)> {
    let each =
        |numbers: std::ops::RangeInclusive<u32>| -> Vec<_> { numbers.map(|n| (n, n)).collect() };
    match key {
        hooks::LINE => hooks::LETTERS.map(|letter| (letter.into(), letter.into())).to_vec(),
        hooks::ANSWER => b"AXKSZGTRCE".map(|letter| (letter.into(), letter.into())).to_vec(),
        hooks::HALF => each(hooks::FIRST_HALF..=hooks::SECOND_HALF),
        hooks::FIELD => fields(),
        hooks::TABLE | hooks::GRADE => each(1..=4),
        hooks::ROW => vec![(1, 1), (2, 2), (3, 3), (4, 400), (256, 400), (400, 400)],
        hooks::STICK => each(1..=2),
        hooks::GIVEN => vec![(2, 2), (4, 4)],
        hooks::TAPE => each(10..=20),
        hooks::POWER => each(2..=6),
        hooks::AT => [15, 20, hooks::LABORATORY].map(|at| (at, at)).to_vec(),
        hooks::STRIKE => [1, 2, 3, 4, 16, 30, 32, 59, 60].map(|n| (n, n)).to_vec(),
        hooks::PLACE => vec![(1, 1), (2, 2), (3, 3), (4, 60), (30, 30), (59, 59), (60, 60)],
        hooks::HANDED_IN => each(hooks::TO_ENTER..=hooks::TO_STRIKE),
        hooks::READING => each(hooks::LEVEL..=hooks::DENSITY),
        hooks::PROBE => each(hooks::ONE..=hooks::PERMITTED),
        hooks::BY_PROBE | hooks::BY_ITSELF => each(1..=1),
        _ => {
            each(1..=60).into_iter().chain([(61, 61), (61, 120), (119, 119), (120, 120)]).collect()
        }
    }
}

/// Every field of every line of a sheet.
fn fields() -> Vec<(u32, u32)> {
    let counts = [(b'T', 2), (b'R', 2), (b'C', 14), (b'K', 1), (b'E', 1)];
    let of = |(letter, count): (u8, u32)| (1..=count).map(move |f| 100 * u32::from(letter) + f);
    counts.into_iter().flat_map(of).map(|field| (field, field)).collect()
}

/// The contexts of each point, everywhere first.
pub fn contexts_of(point: usize) -> &'static [Context] {
    static LISTS: OnceLock<Vec<Vec<Context>>> = OnceLock::new();
    &LISTS.get_or_init(|| POINTS.iter().map(contexts).collect())[point]
}

fn contexts(point: &Point) -> Vec<Context> {
    let of =
        |&key: &usize| ranges(key).into_iter().map(move |(low, high)| Context { key, low, high });
    let found: Vec<Context> =
        std::iter::once(EVERYWHERE).chain(keys(point).iter().flat_map(of)).collect();
    assert!(found.len() <= u128::BITS as usize, "a point has more contexts than there are bits");
    found
}

/// Whether a wrong way is tried in a context: some are for fields, some for one line, some for all lines,
/// some for a probe's cars alone. A stored list is one for all, and is held to V15, which sheets show, and to
/// B by itself, which vectors do.
fn is_tried(name: &str, context: Context) -> bool {
    match context.key {
        hooks::ALWAYS => true,
        _ if name.starts_with("stored") => {
            matches!((context.key, context.low), (hooks::AT, 15) | (hooks::BY_ITSELF, _))
        }
        hooks::BY_PROBE => true,
        _ if name.ends_with("as handed over") => false,
        hooks::FIELD => name.starts_with("each field"),
        hooks::LINE | hooks::ANSWER => {
            !name.starts_with("each field") && !name.starts_with("all lines")
        }
        _ => true,
    }
}

/// All wrong programs.
pub fn all() -> Vec<Mutant> {
    let of_points = (0..POINTS.len()).flat_map(|point| {
        let choices = POINTS[point].choices.iter().enumerate();
        choices.flat_map(move |(choice, name)| {
            let places = (0..contexts_of(point).len())
                .filter(move |&place| is_tried(name, contexts_of(point)[place]));
            places.map(move |place| Mutant::Point(point, choice + 1, place))
        })
    });
    of_points.chain((0..hooks::ORDERS.len()).flat_map(exchanged)).chain(stored()).collect()
}

/// Every entry of a stored list of B, one more and one less.
fn stored() -> impl Iterator<Item = Mutant> {
    (9_000..=9_900).flat_map(|density| [true, false].map(|more| Mutant::Stored(density, more)))
}

/// Every two refusals of an order in the other one; 7 and 8 are tested line by line.
fn exchanged(order: usize) -> Vec<Mutant> {
    let refusals = hooks::ORDERS[order].refusals;
    let behind = |place: usize| refusals[place + 1..].iter();
    let pairs = (0..refusals.len())
        .flat_map(|place| behind(place).map(move |&second| (refusals[place], second)));
    pairs
        .filter(|pair| *pair != (7, 8))
        .map(|(first, second)| Mutant::Order(order, first, second))
        .collect()
}

impl Mutant {
    /// Whether it goes wrong in a module.
    pub fn is_of(&self, module: &str) -> bool {
        matches!(self, Self::Point(point, ..) if POINTS[*point].module == module)
    }
}

impl fmt::Display for Mutant {
    fn fmt(&self, to: &mut fmt::Formatter) -> fmt::Result {
        match *self {
            Self::Point(point, choice, place) => {
                let context = contexts_of(point)[place];
                let here = &POINTS[point];
                let (module, function, code) = (here.module, here.function, here.code);
                let way = here.choices[choice - 1];
                write!(to, "{module}.{function} | {code} | {} -> {way} | {context}", here.what)
            }
            Self::Order(order, first, second) => {
                write!(to, "order | {first} directly after {second} | |")?;
                match hooks::ORDERS[order].probe {
                    0 => Ok(()),
                    probe => write!(to, " {}", probe_text(probe)),
                }
            }
            Self::Stored(density, more) => {
                write!(to, "stored | B of {density} | one {} |", if more { "more" } else { "less" })
            }
        }
    }
}

/// What a probe's numbers are handed over for.
fn probe_text(number: u32) -> &'static str {
    match number {
        hooks::ONE => "a probe's reading",
        hooks::SET => "a probe's set",
        hooks::ALONE => "a probe's car alone",
        hooks::ENTERED => "a probe's car entered",
        _ => "a probe's car with errors",
    }
}

impl fmt::Display for Context {
    fn fmt(&self, to: &mut fmt::Formatter) -> fmt::Result {
        let names = [
            "everywhere",
            "line",
            "field",
            "table",
            "row",
            "grade",
            "stick",
            "given",
            "power",
            "at",
            "car",
        ];
        let Self { key, low, high } = *self;
        match key {
            hooks::ALWAYS => write!(to, "{}", names[0]),
            hooks::ANSWER if b"TRCE".contains(&(low as u8)) => {
                write!(to, "merged line {}", low as u8 as char)
            }
            hooks::LINE | hooks::ANSWER => write!(to, "line {}", low as u8 as char),
            hooks::HALF if low == hooks::FIRST_HALF => write!(to, "first sheet"),
            hooks::HALF => write!(to, "second sheet"),
            hooks::FIELD => write!(to, "field {} of {}", low % 100, (low / 100) as u8 as char),
            hooks::AT if low == hooks::LABORATORY => write!(to, "at the laboratory"),
            hooks::TAPE => write!(to, "tape readings {low}"),
            hooks::HANDED_IN if low == hooks::TO_ENTER => write!(to, "handed in with a car"),
            hooks::HANDED_IN => write!(to, "handed in with a strike"),
            hooks::READING => {
                write!(to, "{}", ["", "level", "temperature", "density"][low as usize])
            }
            hooks::PROBE => write!(to, "{}", probe_text(low)),
            hooks::BY_PROBE => write!(to, "a probe's car"),
            hooks::BY_ITSELF => write!(to, "B by itself"),
            hooks::STRIKE => write!(to, "strike {low}"),
            hooks::PLACE if low == high => write!(to, "place {low}"),
            hooks::PLACE => write!(to, "place {low} to {high}"),
            _ if low == high => write!(to, "{} {low}", names[key]),
            _ => write!(to, "{} {low} to {high}", names[key]),
        }
    }
}
