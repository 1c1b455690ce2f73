//! Rewrites a module: operators, numbers, roundings, statements and hand-made edits become points.

use std::collections::HashSet;

use crate::edits;
use crate::tokens::{self, Kind, Token};

/// Names of the constants: those that are one number, and those that are lists or ranges.
pub struct Constants {
    numbers: HashSet<String>,
    lists: HashSet<String>,
}

/// Finds the constants of all modules.
pub fn constants(sources: &[(String, String)]) -> Constants {
    let mut found = Constants { numbers: HashSet::new(), lists: HashSet::new() };
    for line in sources.iter().flat_map(|(_, source)| source.lines()) {
        let line = line.trim_start().trim_start_matches("pub ");
        let Some((name, rest)) = line.strip_prefix("const ").and_then(|c| c.split_once(':')) else {
            continue;
        };
        let number = ["u32", "u64", "usize"].iter().any(|t| rest.trim_start().starts_with(t));
        let names = if number { &mut found.numbers } else { &mut found.lists };
        names.insert(name.to_string());
    }
    found.lists.retain(|name| !name.starts_with("fn ") && name != "_");
    found
}

/// Text put around some tokens, or in place of them.
struct Wrap {
    left: usize,
    right: usize,
    open: String,
    close: String,
}

struct Module<'a> {
    name: &'a str,
    source: &'a str,
    tokens: Vec<Token<'a>>,
    /// The place of the bracket that belongs to a bracket.
    partner: Vec<usize>,
    wraps: Vec<Wrap>,
    instead: Vec<Option<String>>,
    points: &'a mut Vec<String>,
}

/// The rewritten text of a module; its points are added to the list.
pub fn module(name: &str, source: &str, constants: &Constants, points: &mut Vec<String>) -> String {
    let tokens = tokens::of(source);
    let partner = partners(&tokens);
    let instead = vec![None; tokens.len()];
    let mut module = Module { name, source, tokens, partner, wraps: Vec::new(), instead, points };
    module.edit();
    module.mark();
    let inside = module.code();
    for place in 0..module.tokens.len() {
        module.constant_item(place, constants);
        if inside[place] {
            module.point(place, constants);
        }
    }
    module.plain_paths();
    module.write()
}

fn partners(tokens: &[Token]) -> Vec<usize> {
    let mut partner = vec![0; tokens.len()];
    let mut open = Vec::new();
    for (place, token) in tokens.iter().enumerate() {
        match token.kind {
            Kind::Open => open.push(place),
            Kind::Close => {
                let other = open.pop().expect("brackets come in pairs");
                partner[place] = other;
                partner[other] = place;
            }
            _ => {}
        }
    }
    partner
}

/// How tightly an operator of two operands binds.
fn strength(token: &Token) -> Option<u32> {
    if !token.spaced {
        return None;
    }
    match token.text {
        "*" | "/" | "%" => Some(6),
        "+" | "-" => Some(5),
        "<" | "<=" | ">" | ">=" | "==" | "!=" => Some(3),
        "&&" => Some(2),
        "||" => Some(1),
        _ => None,
    }
}

/// Words and marks at which an operand ends.
fn ends_operand(token: &Token) -> bool {
    matches!(
        token.text,
        "," | ";"
            | "="
            | "=>"
            | "|"
            | ".."
            | "..="
            | "+="
            | "-="
            | "*="
            | "/="
            | "%="
            | "||"
            | "return"
            | "if"
            | "match"
            | "let"
            | "in"
            | "else"
            | "while"
    ) && strength(token).is_none()
}

impl<'a> Module<'a> {
    /// Whether each token stands in the body of a function or the value of a list of constants,
    /// and not in the length of an array.
    fn code(&self) -> Vec<bool> {
        let mut inside = vec![false; self.tokens.len()];
        for place in 0..self.tokens.len() {
            if self.tokens[place].text != "fn" {
                continue;
            }
            // The semicolon of an array among the parameters ends nothing.
            let mut body = place;
            while !matches!(self.tokens[body].text, "{" | ";") {
                let bracket = self.tokens[body].kind == Kind::Open;
                body = if bracket { self.partner[body] + 1 } else { body + 1 };
            }
            if self.tokens[body].text == "{" {
                inside[body..self.partner[body]].fill(true);
            }
        }
        for place in 0..self.tokens.len() {
            if self.is_constant(place) && self.tokens[place + 1].text != "fn" {
                let end = self.end_of_statement(place);
                inside[place..end].fill(false);
            }
            if self.tokens[place].text == "[" {
                let close = self.partner[place];
                let length = (place..close).find(|&p| self.tokens[p].text == ";");
                if let Some(length) = length {
                    inside[length..close].fill(false);
                }
            }
        }
        inside
    }

    /// Whether a constant or a constant function begins at a place, and not a parameter of a type.
    fn is_constant(&self, place: usize) -> bool {
        let before = place.checked_sub(1).map_or("", |before| self.tokens[before].text);
        self.tokens[place].text == "const" && !matches!(before, "<" | ",")
    }

    /// The place of the semicolon that ends the statement or item at a place.
    fn end_of_statement(&self, place: usize) -> usize {
        let mut at = place;
        while self.tokens[at].text != ";" {
            at = if self.tokens[at].kind == Kind::Open { self.partner[at] + 1 } else { at + 1 };
        }
        at
    }

    /// The first place of the statement that a place stands in.
    fn start_of_statement(&self, place: usize) -> usize {
        let mut at = place;
        while at > 0 {
            let before = &self.tokens[at - 1];
            match before.text {
                "}" if self.tokens[at].text == "=" => at = self.partner[at - 1],
                ";" | "{" | "}" | "=>" | "," | "(" | "[" => break,
                ")" | "]" => at = self.partner[at - 1],
                _ => at -= 1,
            }
        }
        at
    }

    /// Adds a point and gives its number; `choices` are the names of the wrong ways.
    fn add(&mut self, place: usize, what: &str, choices: &[String], values: &[u64]) -> usize {
        let token = &self.tokens[place];
        let start = self.source[..token.start].rfind('\n').map_or(0, |found| found + 1);
        let line = self.source[start..].lines().next().unwrap_or("").trim();
        let number = self.source[..token.start].matches('\n').count() + 1;
        let function = self.source[..token.start].rfind("fn ").map_or("", |found| {
            let name = &self.source[found + 3..];
            &name[..name.find(|c: char| !c.is_alphanumeric() && c != '_').unwrap_or(0)]
        });
        self.points.push(format!(
            "Point {{ module: {:?}, function: {:?}, line: {}, code: {:?}, what: {:?}, \
             choices: &{:?}, values: &{:?} }}",
            self.name, function, number, line, what, choices, values
        ));
        self.points.len() - 1
    }

    fn wrap(&mut self, left: usize, right: usize, open: String, close: &str) {
        self.wraps.push(Wrap { left, right, open, close: close.to_string() });
    }

    /// Makes a point of a token, where it is one.
    fn point(&mut self, place: usize, constants: &Constants) {
        let token = self.tokens[place];
        match token.kind {
            Kind::Number => self.number(place),
            Kind::Byte => self.byte(place),
            Kind::Bytes => self.letters(place),
            Kind::Word if constants.numbers.contains(token.text) => self.constant(place),
            Kind::Word if constants.lists.contains(token.text) => {
                self.instead[place] = Some(format!("{}()", token.text));
            }
            Kind::Word if token.text == "nearest" => self.rounding(place),
            Kind::Mark if token.text == "!" => self.negation(place),
            Kind::Mark if strength(&token).is_some() => self.operator(place),
            Kind::Mark if matches!(token.text, ";") => self.statement(place),
            _ => {}
        }
    }

    /// A number in a pattern is no expression.
    fn in_pattern(&self, place: usize) -> bool {
        let (before, after) = (self.tokens[place - 1].text, self.tokens[place + 1].text);
        let starts = matches!(before, "{" | "," | "}" | "|");
        after == "=>" || (starts && matches!(after, "|" | "if")) || before == "."
    }

    fn number(&mut self, place: usize) {
        if self.in_pattern(place) {
            return;
        }
        let value: u64 = self.tokens[place].text.replace('_', "").parse().expect("a number");
        let mut values = Vec::new();
        for wrong in [value + 1, value.wrapping_sub(1), 0, 2 * value, 10 * value, value / 10] {
            if wrong != value && wrong != u64::MAX && !values.contains(&wrong) {
                values.push(wrong);
            }
        }
        let choices: Vec<String> = values.iter().map(u64::to_string).collect();
        let id = self.add(place, self.tokens[place].text, &choices, &values);
        let of_index = if self.in_index(place) { "::<usize>" } else { "" };
        self.wrap(place, place, format!("crate::hooks::number{of_index}({id}, "), ")");
    }

    /// Whether a place stands directly in the brackets of an index.
    fn in_index(&self, place: usize) -> bool {
        let open = (0..place)
            .rev()
            .find(|&p| self.tokens[p].kind == Kind::Open && self.partner[p] > place);
        open.is_some_and(|open| {
            let before = &self.tokens[open - 1];
            self.tokens[open].text == "[" && (before.kind == Kind::Word || before.text == ")")
        })
    }

    fn byte(&mut self, place: usize) {
        if self.in_pattern(place) {
            return;
        }
        let text = self.tokens[place].text;
        let value = match &text[2..text.len() - 1] {
            "\\n" => b'\n',
            other => other.as_bytes()[0],
        };
        let wrong = [value - 1, value + 1, b' ', b'0', b'\n', b'\r', b'\t', 0];
        let wrong: Vec<u64> =
            wrong.iter().filter(|w| **w != value).map(|w| u64::from(*w)).collect();
        let choices: Vec<String> = wrong.iter().map(|byte| format!("byte {byte}")).collect();
        let id = self.add(place, text, &choices, &wrong);
        self.wrap(place, place, format!("crate::hooks::number({id}, "), ")");
    }

    /// The letters that may come next: one left out, or one more.
    fn letters(&mut self, place: usize) {
        let text = self.tokens[place].text;
        let choices: Vec<String> =
            "TRCKE".chars().map(|letter| format!("{letter} turned")).collect();
        let id = self.add(place, text, &choices, &[]);
        self.wrap(place, place, format!("crate::hooks::letters({id}, "), ")");
    }

    fn constant(&mut self, place: usize) {
        let mut left = place;
        while self.tokens[left - 1].text == "::" {
            left -= 2;
        }
        let choices = ["one more", "one less"].map(String::from);
        let id = self.add(place, self.tokens[place].text, &choices, &[]);
        self.wrap(left, place, format!("crate::hooks::constant({id}, "), ")");
    }

    /// The call of a rounding.
    fn rounding(&mut self, place: usize) {
        if self.tokens[place + 1].text != "(" || self.tokens[place - 1].text == "fn" {
            return;
        }
        let choices = edits::ROUNDINGS.map(String::from);
        let id = self.add(place, "nearest", &choices, &[]);
        self.instead[place] = Some("crate::hooks::rounding".to_string());
        self.instead[place + 1] = Some(format!("({id}, "));
    }

    fn negation(&mut self, place: usize) {
        let of_macro = self.tokens[place - 1].end == self.tokens[place].start
            && self.tokens[place - 1].kind == Kind::Word;
        if of_macro {
            return;
        }
        let id = self.add(place, "!", &["not negated".to_string()], &[]);
        self.instead[place] = Some(format!("crate::hooks::flip({id}) ^ "));
    }

    fn operator(&mut self, place: usize) {
        let token = self.tokens[place];
        let bound = strength(&token).expect("an operator");
        let (left, right) = (self.left_operand(place, bound), self.right_operand(place, bound));
        let (hook, wrong): (&str, &[&str]) = match token.text {
            "+" => ("plus", &edits::PLUS),
            "-" => ("minus", &edits::MINUS),
            "*" => ("times", &edits::TIMES),
            "/" => ("divided", &edits::DIVIDED),
            "%" => ("remainder", &edits::REMAINDER),
            "==" | "!=" => ("equal", &edits::EQUAL),
            "&&" | "||" => ("joined", &edits::JOINED),
            _ => ("compared", &edits::COMPARED),
        };
        // Floating point is tried where the steps from dip to kilogram, and the permitted error,
        // calculate.
        let steps = matches!(self.name, "thermal" | "mass" | "table" | "permitted");
        let tried = |name: &&&str| {
            **name != token.text && (steps || !matches!(**name, "single" | "double"))
        };
        let wrong: Vec<String> = wrong.iter().filter(tried).map(|name| name.to_string()).collect();
        let id = self.add(place, token.text, &wrong, &[]);
        self.wrap(left, right, format!("crate::hooks::{hook}({id}, "), ")");
        let lazy = if hook == "joined" { " || " } else { " " };
        self.instead[place] = Some(match hook {
            "equal" | "compared" | "joined" => format!(", {:?},{lazy}", token.text),
            _ => ",".to_string(),
        });
    }

    fn left_operand(&self, place: usize, bound: u32) -> usize {
        let mut at = place;
        loop {
            let before = &self.tokens[at - 1];
            let weaker = strength(before).is_some_and(|other| other < bound);
            if before.kind == Kind::Open || before.text == "}" || ends_operand(before) || weaker {
                return at;
            }
            at = if before.kind == Kind::Close { self.partner[at - 1] } else { at - 1 };
        }
    }

    fn right_operand(&self, place: usize, bound: u32) -> usize {
        let mut at = place;
        loop {
            let after = &self.tokens[at + 1];
            let ends = strength(after).is_some_and(|other| other <= bound);
            let text = self.tokens[at].text;
            let of_struct = text.starts_with(|c: char| c.is_ascii_uppercase())
                && text.contains(|c: char| c.is_ascii_lowercase());
            let block = after.text == "{" && !of_struct;
            if after.kind == Kind::Close || block || ends_operand(after) || ends {
                return at;
            }
            at = if after.kind == Kind::Open { self.partner[at + 1] } else { at + 1 };
        }
    }

    /// A statement that assigns or calls: left out, or done twice where it adds.
    fn statement(&mut self, end: usize) {
        let start = self.start_of_statement(end);
        let first = self.tokens[start].text;
        let opens = matches!(self.tokens[start.max(1) - 1].text, ";" | "{" | "}");
        if !opens || start >= end || matches!(first, "let" | "const" | "use" | "static") {
            return;
        }
        let text = &self.source[self.tokens[start].start..self.tokens[end].end];
        let adds = (start..end)
            .any(|at| matches!(self.tokens[at].text, "+=" | "-=" | "/=" | "add" | "subtract"));
        let wrong: &[&str] = if adds { &["left out", "done twice"] } else { &["left out"] };
        let wrong: Vec<String> = wrong.iter().map(|name| name.to_string()).collect();
        let id = self.add(start, "statement", &wrong, &[]);
        let twice = if adds { format!("2 => {{ {text} {text} }}") } else { String::new() };
        let open = format!("match crate::hooks::chosen({id}) {{ 1 => {{}} {twice} _ => {{ ");
        self.wrap(start, end, open, " } }");
    }

    /// A constant that is a number keeps its value; a list becomes a function, so that its numbers
    /// can be points. `const fn` becomes `fn`.
    fn constant_item(&mut self, place: usize, constants: &Constants) {
        if !self.is_constant(place) {
            return;
        }
        let name = self.tokens[place + 1].text;
        if name == "fn" {
            self.instead[place] = Some(String::new());
            return;
        }
        let end = self.end_of_statement(place);
        let equals = (place..end).find(|&p| self.tokens[p].text == "=").unwrap_or(end);
        let public = place > 0 && self.tokens[place - 1].text == "pub";
        if constants.numbers.contains(name) && public {
            self.instead[equals + 1..end].fill(Some(String::new()));
            self.instead[equals + 1] = Some(format!("::reference::{}::{name}", self.name));
        } else if constants.lists.contains(name) {
            self.list(place, equals, end, constants);
        }
    }

    fn list(&mut self, place: usize, equals: usize, end: usize, constants: &Constants) {
        let name = self.tokens[place + 1].text;
        let held = &self.source[self.tokens[place + 3].start..self.tokens[equals - 1].end];
        let held = held.replace("crate::", "crate::turned::");
        for at in place..equals {
            self.instead[at] = Some(String::new());
        }
        self.instead[place] =
            Some(format!("#[allow(non_snake_case)] fn {name}() -> &'static {held} {{"));
        self.instead[equals] = Some(format!(
            "thread_local! {{ static KEPT: std::cell::Cell<(u64, Option<&'static {held}>)> = \
             const {{ std::cell::Cell::new((0, None)) }}; }} \
             match KEPT.get() {{ (serial, Some(kept)) if serial == crate::hooks::serial() => kept, \
             _ => {{ let made: &'static {held} = Box::leak(Box::new("
        ));
        self.instead[end] =
            Some(")); KEPT.set((crate::hooks::serial(), Some(made))); made } } }".to_string());
        for at in equals + 1..end {
            self.point(at, constants);
        }
    }

    /// Hand-made edits: the text between the marks is done in other ways.
    fn edit(&mut self) {
        let name = self.name;
        let all = edits::EDITS.iter().chain(edits::MERGES);
        for edit in all.filter(|edit| edit.module == name) {
            let (left, right) = self.find(edit.old);
            let names: Vec<String> = edit.new.iter().map(|(name, _)| name.to_string()).collect();
            let id = self.add(left, "edit", &names, &[]);
            let mut open = format!("match crate::hooks::chosen({id}) {{ ");
            for (choice, (_, code)) in edit.new.iter().enumerate() {
                open.push_str(&format!("{} => {{ {code} }} ", choice + 1));
            }
            open.push_str("_ => { ");
            // No block may stand directly before `else`.
            if self.tokens[right + 1].text == "else" {
                self.wrap(left, right, format!("({open}"), " } })");
            } else {
                self.wrap(left, right, open, " } }");
            }
        }
    }

    /// Statements that tell `hooks` which line, table or car is at hand.
    fn mark(&mut self) {
        let name = self.name;
        for (_, old, open, close) in edits::MARKS.iter().filter(|mark| mark.0 == name) {
            let (left, right) = self.find(old);
            self.wrap(left, right, format!("{open} "), close);
        }
    }

    /// The tokens between the marks of a text that stands once in the module.
    fn find(&self, marked: &str) -> (usize, usize) {
        let plain = marked.replace(['«', '»'], "");
        let found = self.source.find(&plain);
        let found = found.unwrap_or_else(|| panic!("{}.rs has no longer: {plain}", self.name));
        let twice = self.source[found + 1..].contains(&plain);
        assert!(!twice, "{}.rs has more than once: {plain}", self.name);
        let start = found + marked.find('«').expect("a mark");
        let end = found + marked.find('»').expect("a mark") - '«'.len_utf8();
        let left = self.tokens.iter().position(|token| token.start >= start);
        let right = self.tokens.iter().rposition(|token| token.end <= end);
        (left.expect("a token"), right.expect("a token"))
    }

    /// `crate::` of the reference is `crate::turned::` here.
    fn plain_paths(&mut self) {
        for place in 0..self.tokens.len() - 1 {
            let path = self.tokens[place].text == "crate" && self.tokens[place + 1].text == "::";
            if path && self.instead[place].is_none() {
                self.instead[place] = Some("crate::turned".to_string());
            }
        }
    }

    fn write(&self) -> String {
        let mut written = String::new();
        let mut done = 0;
        for (place, token) in self.tokens.iter().enumerate() {
            written.push_str(&self.source[done..token.start]);
            self.opened(place).iter().for_each(|text| written.push_str(text));
            written.push_str(self.instead[place].as_deref().unwrap_or(token.text));
            self.closed(place).iter().for_each(|text| written.push_str(text));
            done = token.end;
        }
        written
    }

    /// What opens at a place, the widest first.
    fn opened(&self, place: usize) -> Vec<&str> {
        let mut here: Vec<&Wrap> = self.wraps.iter().filter(|wrap| wrap.left == place).collect();
        here.sort_by_key(|wrap| std::cmp::Reverse(wrap.right));
        here.iter().map(|wrap| wrap.open.as_str()).collect()
    }

    /// What closes at a place, the narrowest first.
    fn closed(&self, place: usize) -> Vec<&str> {
        let mut here: Vec<&Wrap> = self.wraps.iter().filter(|wrap| wrap.right == place).collect();
        here.reverse();
        here.sort_by_key(|wrap| std::cmp::Reverse(wrap.left));
        here.iter().map(|wrap| wrap.close.as_str()).collect()
    }
}
