//! The index of the cases: the rule that each tries, where it shows, and what it tries.

use super::merges::{Outcome, Pair};
use super::Case;

/// What each refusal says, in a few words.
const REFUSALS: [&str; 36] = [
    "",
    "the answer buffer is too short",
    "the sheet is too long",
    "a line is missing or has no line feed",
    "the letter may not come next",
    "the line's length is not its letter's",
    "a field is not a number",
    "a bad T line",
    "a bad R line",
    "too many lines or cars, the count of cars, or bytes after the end",
    "the car number",
    "the train holds the car number",
    "no table has the type",
    "grade or stick",
    "the number of readings, or an unused one",
    "two readings apart",
    "the mean level",
    "the water level",
    "the temperature",
    "the density at 15 °C",
    "water or impurities",
    "the density at 20 °C",
    "one line written alone",
    "the span of the three readings used",
    "a given error",
    "no volume, or the level term",
    "the laboratory's temperature",
    "no density is near the report",
    "the number of tape readings",
    "a tape reading or the stick level",
    "the train does not hold the number",
    "a probe's number",
    "the tenths of a probe's number",
    "rows that differ, or a held car whose type only the other sheet has",
    "a number held on both sheets",
    "too many types or cars",
];

/// Words of a name that tell the step, or the rule, that it tries.
const STEPS: [(&str, &str); 28] = [
    ("strike", "strikes"),
    ("full-train", "sixty held"),
    ("span", "refusal 23"),
    ("last-level", "refusal 16"),
    ("below-1-mm", "refusal 16"),
    ("water-level", "refusal 17"),
    ("rows-not", "step 2"),
    ("capacit", "step 2"),
    ("mean", "step 1"),
    ("reading", "step 1"),
    ("triple", "step 1"),
    ("first-two", "step 1"),
    ("tenths", "steps 1 and 2"),
    ("flat", "step 2"),
    ("levels", "steps 1 and 2"),
    ("volume-at-temperature", "step 3"),
    ("wall", "step 3"),
    ("sticks", "step 3"),
    ("coefficient", "step 4"),
    ("expansion-9", "step 4"),
    ("square", "step 5"),
    ("exponent", "steps 4 to 6"),
    ("volume-at-15", "step 7"),
    ("expansion-of-oil", "step 7"),
    ("gross", "step 8"),
    ("net", "step 8"),
    ("density-at-20", "step 9"),
    ("densest", "refusal 21"),
];

/// Words with which a pair's name begins, the rule that it tries, and what that is. A dash ends what is no
/// word of the rest.
const MERGES: [(&str, &str, &str); 14] = [
    ("again-", "merged again", "A merged sheet merged again"),
    ("cars", "cars rise", "The cars of the merged sheet"),
    ("entered-again", "held cars", "A number struck and entered again stays by its later line"),
    ("full-train-", "held cars", "Cars met while sixty are held vanish"),
    ("longest", "the buffer", "The greatest length"),
    ("numbers", "refusal 34", "Not 34"),
    ("paper", "cars rise", "The sheet that the rules print"),
    ("size-", "refusal 35", "Not 35"),
    ("struck", "held cars", "Struck lines vanish"),
    ("tables", "tables rise", "The tables of the merged sheet"),
    ("turned-away", "held cars", "Lines turned away by 9 vanish"),
    ("typed", "held cars", "Lines turned away by 11 vanish"),
    ("unknown-type", "refusal 33", "Not 33, since the line vanishes"),
    ("unnumbered", "held cars", "Lines turned away by 10 vanish"),
];

/// The index as Markdown: the sheets, then the pairs.
pub fn of(cases: &[Case], pairs: &[Pair]) -> String {
    sheets(cases) + &merges(pairs)
}

fn merges(pairs: &[Pair]) -> String {
    let mut text = format!(
        "\n## The {} pairs of sheets to be merged\n\n\
         The rule is that of document 02 (k).\n\n\
         | Pair | Rule | Comes to | What it tries |\n|---|---|---|---|\n",
        pairs.len()
    );
    let mut sorted: Vec<&Pair> = pairs.iter().collect();
    sorted.sort_by_key(|pair| &pair.name);
    for pair in sorted {
        let name = pair.name.trim_start_matches("merge-");
        let (rule, what) = merge_rule(name);
        let row = [format!("`{}`", pair.name), rule, comes_to(pair), what];
        text.push_str(&format!("| {} |\n", row.join(" | ")));
    }
    text
}

/// The rule that a pair tries, and what that is in words.
fn merge_rule(name: &str) -> (String, String) {
    if name.starts_with("refusal-") || name.starts_with("order-") {
        return (rule(name), words(name));
    }
    let known = MERGES.iter().find(|(begins, ..)| name.starts_with(begins));
    let (begins, rule, what) = known.unwrap_or_else(|| panic!("no rule of {name}"));
    let rest = if begins.ends_with('-') { &name[begins.len()..] } else { name };
    (rule.to_string(), format!("{what}: {}.", rest.replace('-', " ")))
}

/// What a pair comes to: how large the merged sheet is, or which refusal is given.
fn comes_to(pair: &Pair) -> String {
    let count = |sheet: &[u8], letter: u8| {
        sheet.split(|&byte| byte == b'\n').filter(|line| line.starts_with(&[letter])).count()
    };
    let merged: Outcome = pair.work_out();
    match merged {
        Ok(sheet) => {
            let (tables, cars) = (count(&sheet, b'T'), count(&sheet, b'C'));
            format!("types: {tables}, cars: {cars}, bytes: {}", sheet.len())
        }
        Err((number, 0)) => format!("refusal {number}"),
        Err((number, line)) => format!("refusal {number}, line {line}"),
    }
}

fn sheets(cases: &[Case]) -> String {
    let mut text = format!(
        "# Index of the {} sheets\n\n\
         Made by `make_conformance`. The rule is that of document 01, for totals by grade that of \
         document 02 (a), for refusal 23 that of 02 (b), for levels in tenths of a mm that of 02 (g), for strikes and \
         trains that hold sixty that of 02 (h); lines are counted from 1 on the sheet.\n\n| Sheet | Rule | Shown by | What it tries |\n|---|---|---|---|\n",
        cases.len()
    );
    let mut sorted: Vec<&Case> = cases.iter().collect();
    sorted.sort_by_key(|case| case.name);
    for case in sorted {
        let row = [format!("`{}`", case.name), rule(case.name), shown_by(case), words(case.name)];
        text.push_str(&format!("| {} |\n", row.join(" | ")));
    }
    text
}

/// The refusal in two digits at the start of a text.
fn refusal(text: &str) -> Option<usize> {
    text.get(..2)?.parse().ok().filter(|number| *number < REFUSALS.len())
}

fn rule(name: &str) -> String {
    if let Some(first) = name.strip_prefix("refusal-").and_then(refusal) {
        let last = name.split_once("-to-").and_then(|(_, rest)| refusal(rest));
        return last
            .map_or(format!("refusal {first}"), |last| format!("refusals {first} to {last}"));
    }
    if let Some(rest) = name.strip_prefix("order-") {
        return refusal(rest).map_or("order of refusals".to_string(), |first| {
            let second = rest.split_once("before-").and_then(|(_, rest)| refusal(rest));
            second.map_or(format!("refusal {first}"), |second| format!("{first} before {second}"))
        });
    }
    let step = STEPS.iter().find(|(word, _)| name.contains(word)).map(|(_, step)| *step);
    match name.split('-').next() {
        Some("paper") => "the sheet of 01".to_string(),
        Some("card") => "the rack card".to_string(),
        Some("source") => "the standards".to_string(),
        Some("figures") => "steps 1 to 8".to_string(),
        Some("totals") => "totals by grade".to_string(),
        _ => step.unwrap_or("the sheet's form").to_string(),
    }
}

/// The name in words, after what its kind says.
fn words(name: &str) -> String {
    let (kind, rest) = name.split_once('-').unwrap_or((name, ""));
    let plain = rest.replace('-', " ");
    let numbered = |text: &str| text.get(2..).unwrap_or("").trim_start().to_string();
    match (kind, refusal(rest)) {
        ("refusal", Some(number)) if plain.get(2..6) == Some(" to ") => {
            format!("Refusal {number} and those after it: {}.", numbered(&plain))
        }
        ("refusal", Some(number)) => {
            format!("Refusal {number}, {}: {}.", REFUSALS[number], numbered(&plain))
        }
        ("order", Some(number)) => {
            format!("Two faults, of which {number} is given ({}): {plain}.", REFUSALS[number])
        }
        ("order", None) => format!("Two faults, of which one is given: {plain}."),
        ("accepted", _) => format!("Just within the rules: {plain}."),
        ("rounding", _) => format!("A rounding: {plain}."),
        ("parting", _) => format!("Told from a program that takes the wrong way: {plain}."),
        ("figures", _) => format!("Figures that a wrong calculation misses: {plain}."),
        ("totals", _) => format!("Totals of each grade: {plain}."),
        ("strike", _) => format!("A car struck: {plain}."),
        ("expansion", _) => format!("B of each density, told to the unit by V15: {plain}."),
        ("card", _) => format!("Figures of the rack card: {plain}."),
        ("source", _) => format!("From the standards: {plain}."),
        _ => format!("The sheet that the rules print: {plain}."),
    }
}

/// The line, or the car or strike with its line, that shows what is tried.
fn shown_by(case: &Case) -> String {
    let listing = String::from_utf8_lossy(&case.listing).into_owned();
    let first: Vec<&str> = listing.split_whitespace().take(3).collect();
    if first[0] == "Z" {
        let whole = first[1] == "0";
        return if whole { "the whole sheet".to_string() } else { format!("line {}", first[1]) };
    }
    let lines = (1..).zip(case.sheet.split(|&byte| byte == b'\n'));
    let asked = lines.filter(|(_, line)| line.starts_with(b"C") || line.starts_with(b"K"));
    let shown: Vec<(usize, &str)> = asked
        .zip(listing.lines())
        .filter(|((_, line), answer)| shows(case.name, line[0], answer))
        .map(|((number, _), answer)| (number, answer.split_whitespace().nth(1).unwrap_or("")))
        .collect();
    let (noun, of) = if tries_strikes(case.name) { ("strike", "of ") } else { ("car", "") };
    match shown.as_slice() {
        [] => "the listing without cars".to_string(),
        [(line, number)] => format!("{noun} {of}{number}, line {line}"),
        [(line, number), .., (last, its)] => {
            format!("{} {noun}s, {of}{number} in line {line} to {its} in line {last}", shown.len())
        }
    }
}

/// Whether the answer to a C or K line shows what a case tries: its refusal, a strike, or any car.
fn shows(name: &str, letter: u8, answer: &str) -> bool {
    match name.strip_prefix("refusal-").and_then(refusal) {
        Some(number) => answer.starts_with('X') && answer.ends_with(&format!("{number:>9}")),
        None => letter == if tries_strikes(name) { b'K' } else { b'C' },
    }
}

fn tries_strikes(name: &str) -> bool {
    let refused = name.strip_prefix("refusal-").and_then(refusal);
    refused.map_or(name.contains("strike"), |number| number == 30)
}
