//! What is got wrong: the names of the wrong ways at each kind of point, and hand-made edits.

/// Wrong ways to round a quotient.
pub const ROUNDINGS: [&str; 9] = [
    "rounded down",
    "rounded up",
    "a half rounded down",
    "a half rounded to even",
    "in double floating point",
    "in single floating point",
    "a half added in double floating point",
    "dividend cut to 32 bits",
    "one unit more",
];
pub const PLUS: [&str; 5] = ["-", "left alone", "right alone", "*", "single"];
pub const MINUS: [&str; 5] = ["+", "left alone", "right less left", "right alone", "single"];
pub const TIMES: [&str; 6] = ["+", "left alone", "right alone", "/", "single", "double"];
pub const DIVIDED: [&str; 4] = ["*", "left alone", "%", "rounded up"];
pub const REMAINDER: [&str; 3] = ["/", "*", "left alone"];
pub const COMPARED: [&str; 8] = ["<", "<=", ">", ">=", "==", "!=", "true", "false"];
pub const EQUAL: [&str; 4] = ["==", "!=", "true", "false"];
pub const JOINED: [&str; 4] = ["&&", "||", "left alone", "right alone"];

/// Other ways to do what stands between the marks « and ».
pub struct Edit {
    pub module: &'static str,
    pub old: &'static str,
    /// Name and code of each wrong way.
    pub new: &'static [(&'static str, &'static str)],
}

/// Code put before and after what stands between the marks, in every wrong program: it tells
/// `hooks` what is at hand, and lets refusals be tested in another order.
pub const MARKS: &[(&str, &str, &str, &str)] = &[
    ("sheet", "«self.number += 1;»", "crate::hooks::begin_line(self.rest);", ""),
    ("line", "«let (&last, line) = rest»", "crate::hooks::begin_line(rest);", ""),
    ("line", "«*number = field::read(field)?;»", "crate::hooks::next_field();", ""),
    ("line", "«let line = &mut buffer»", "crate::hooks::begin_answer(letter);", ""),
    ("line", "«field::write(field, number);»", "crate::hooks::next_field();", ""),
    ("table", "«let taken = »", "crate::hooks::begin_table(self.tables, car_type);", ""),
    ("table", "«let full = »", "crate::hooks::begin_table(self.tables, car_type);", ""),
    ("table", "«let in_order = »", "crate::hooks::begin_row(self.tables, *end - *start);", ""),
    ("table", "«self.rows[*end] = row;»", "crate::hooks::end_row(row.level, row.capacity);", ""),
    (
        "table",
        "«self.heads[..self.tables]\n»            .iter()",
        "crate::hooks::place(crate::hooks::TABLE, self.heads[..self.tables].iter()\
         .position(|head| head.car_type == car_type).map_or(0, |place| place as u32 + 1));",
        "",
    ),
    (
        "table",
        "«pub fn last_level»",
        "pub fn fraction(&self, level: u64) -> (u64, u64) { \
         let tenths = |level: u32| 10 * u64::from(level); \
         let above = self.rows.partition_point(|row| tenths(row.level) < level).max(1); \
         let (lower, upper) = (self.rows[above - 1], self.rows[above]); \
         let step = tenths(upper.level - lower.level); \
         let rise = u64::from(upper.capacity - lower.capacity) * (level - tenths(lower.level)); \
         (100 * (u64::from(lower.capacity) * step + rise), step) }",
        "",
    ),
    (
        "car",
        "«let table = »tables.find",
        "crate::hooks::place(crate::hooks::GRADE, self.grade);\
         crate::hooks::place(crate::hooks::STICK, self.stick);\
         crate::hooks::place(crate::hooks::GIVEN, crate::wrong::dip(self).0);",
        "",
    ),
    (
        "thermal",
        "«nearest(18_696_960_000_000 + 4_861_800_000 * density, density * density)»",
        "crate::hooks::stored(density, ",
        ")",
    ),
    ("thermal", "«term = nearest»", "crate::hooks::place(crate::hooks::POWER, power as u32);", ""),
    ("thermal", "«Density20(density_at»", "crate::hooks::place(crate::hooks::AT, 20);", ""),
    (
        "laboratory",
        "«let tenths = »",
        "crate::hooks::place(crate::hooks::AT, crate::hooks::LABORATORY);",
        "",
    ),
    ("stick", "«ensure(COUNTS»", "crate::hooks::place(crate::hooks::TAPE, count);", ""),
    (
        "probe",
        "«tenths(number.to_bits())»",
        "crate::hooks::place(crate::hooks::READING, crate::wrong_probe::kind(&self));",
        "",
    ),
    (
        "probe",
        "«let SetTenths { level, temperature, density: Density15(density) } = »",
        "crate::hooks::hold_set([self.set.level, self.set.temperature, self.set.density]);",
        "",
    ),
    ("mass", "«nearest(volume * contraction»", "crate::hooks::place(crate::hooks::AT, 15);", ""),
    ("listing", "«match train.enter_sound»", "crate::hooks::next_car();", ""),
    ("listing", "«match train.strike_sound»", "crate::hooks::next_strike();", ""),
    (
        "listing",
        "«self.length += line::write(&mut self.buffer[self.length..], letter, numbers);»",
        "crate::hooks::begin_answer(letter);",
        "",
    ),
    ("listing", "«for (grade, »", "crate::hooks::place(crate::hooks::GRADE, 0);", ""),
    (
        "listing",
        "in «(1..).zip(grades)» {",
        "",
        ".inspect(|(grade, _)| crate::hooks::place(crate::hooks::GRADE, *grade))",
    ),
    ("merge", "«let first = »", "crate::hooks::begin_half(crate::hooks::FIRST_HALF);", ""),
    ("merge", "«let second = »", "crate::hooks::begin_half(crate::hooks::SECOND_HALF);", ""),
    (
        "merge",
        "«self.length += line::write(&mut self.out[self.length..], letter, numbers);»",
        "crate::hooks::begin_answer(letter);",
        "",
    ),
    ("sheet", "«let [car_type, rows] = »", "let mut late: Option<Rejection> = None;", ""),
    (
        "sheet",
        "self.tables.add(row).map_err(|refusal| lines.reject(refusal))?;\n        }\n        «Ok»",
        "if let Some(late) = late { return Err(late); }",
        "",
    ),
    (
        "car",
        "«tables.find(self.car_type)»",
        "",
        ".or_else(|| if crate::hooks::skipped(12) { tables.find(crate::hooks::first_type()) } \
         else { None })",
    ),
    (
        "car",
        "«self.grade()».ok_or",
        "",
        ".or_else(|| if crate::hooks::skipped(13) { LIMITS().get(3) } else { None })",
    ),
    (
        "car",
        "«Stick::numbered(self.stick)»",
        "",
        ".or(if crate::hooks::skipped(13) { Some(Stick::Steel) } else { None })",
    ),
    ("refusal", "if «condition» {", "(", " || crate::hooks::skipped(otherwise.number()))"),
    ("level", "2 if «(third, fourth) != (0, 0)»", "(", ") && !crate::hooks::skipped(14)"),
    ("level", "2 if «!agree»", "", " && !crate::hooks::skipped(15)"),
    ("level", "2 | 4 if «agree»", "", " || (given == 2 && crate::hooks::skipped(15))"),
    (
        "level",
        "_ => «return Err(Refusal::ReadingCount)»",
        "if crate::hooks::skipped(14) && agree { mean_of(&[first, second]) } \
         else if crate::hooks::skipped(14) && given > 2 { mean_of(&three_together(readings)?) } \
         else if crate::hooks::skipped(14) { return Err(Refusal::ReadingsApart) } else { ",
        " }",
    ),
    ("level", "if «high - low > SPAN» {", "(", ") && !crate::hooks::skipped(23)"),
    ("level", "if «mean == 0» {", "", " && !crate::hooks::skipped(16)"),
    (
        "train",
        "    ) -> Result<Figures, Refusal> {\n        \
         «ensure(self.is_sound(), Refusal::Count)?;»",
        "crate::hooks::place(crate::hooks::HANDED_IN, crate::hooks::TO_ENTER); \
         if let Some(other) = crate::hooks::overtaken(9, || if self.is_sound() { Ok(()) } else \
         { crate::wrong::later_than_9(self, car, tables) }) { return Err(other); }",
        "",
    ),
    (
        "train",
        "fn strike(&mut self, number: u32) -> Result<(), Refusal> {\n        \
         «ensure(self.is_sound(), Refusal::Count)?;»",
        "crate::hooks::place(crate::hooks::HANDED_IN, crate::hooks::TO_STRIKE); \
         if let Some(other) = crate::hooks::overtaken(9, || if self.is_sound() \
         || crate::wrong::holds(self, number) { Ok(()) } else { Err(Refusal::NotHeld) }) \
         { return Err(other); }",
        "",
    ),
    (
        "train",
        "«ensure(self.held < CARS, Refusal::Count)?;»",
        "if self.held >= 60 { if let Some(other) = crate::hooks::overtaken(9, \
         || crate::wrong::later_than_9(self, car, tables)) { return Err(other); } }",
        "",
    ),
    (
        "train",
        "«car.check_number()?;»",
        "if !(1..=99_999_999).contains(&car.number) { if let Some(other) = \
         crate::hooks::overtaken(10, || crate::wrong::later_than_10(self, car, tables)) \
         { return Err(other); } }",
        "",
    ),
    (
        "train",
        "«ensure(self.place_of(car.number).is_none(), Refusal::CarTwice)?;»",
        "if crate::wrong::holds(self, car.number) { if let Some(other) = \
         crate::hooks::overtaken(11, || car.figures(tables)) { return Err(other); } }",
        "",
    ),
    (
        "train",
        "ensure(«self.place_of(car.number).is_none()», Refusal::CarTwice)?;",
        "",
        " && !crate::hooks::is_kept(car.number)",
    ),
    ("train", "let worked_out = «car.figures(tables)»;", "crate::hooks::reordered(|| ", ")"),
    (
        "train",
        "place = «Place { grade: car.grade, gross, net, ..place }»;",
        "crate::wrong::dug_up(",
        ")",
    ),
    ("train", "«let gap = »", "if crate::hooks::is_waiting(number) { return Ok(()); }", ""),
    (
        "train",
        "«if struck.is_accepted()»",
        "crate::hooks::place(crate::hooks::GRADE, struck.grade); \
         crate::hooks::place(crate::hooks::PLACE, gap as u32 + 1);",
        "",
    ),
    (
        "train",
        "            «all.add(car);»",
        "crate::hooks::place(crate::hooks::GRADE, car.grade);",
        "",
    ),
];

include!("wrong_ways.rs");
include!("wrong_merges.rs");
