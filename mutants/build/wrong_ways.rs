/// Hand-made edits.
pub const EDITS: &[Edit] = &[
    Edit {
        module: "line",
        old: "*number = «field::read(field)?»;",
        new: &[
            ("each field: blank is 0", "crate::wrong::field(0, field)?"),
            ("each field: zeros before are taken", "crate::wrong::field(1, field)?"),
            ("each field: a sign is taken", "crate::wrong::field(18, field)?"),
            ("each field: nine digits are taken", "crate::wrong::field(4, field)?"),
            ("each field: spaces after are taken", "crate::wrong::field(5, field)?"),
            ("each line: a plus sign is taken", "crate::wrong::field(2, field)?"),
            ("each line: a minus sign is left out", "crate::wrong::field(3, field)?"),
            ("each line: spaces inside are left out", "crate::wrong::field(6, field)?"),
            ("each line: what follows the digits is left out", "crate::wrong::field(7, field)?"),
            ("each line: a tab is a space", "crate::wrong::field(8, field)?"),
            ("each line: a zero byte is a space", "crate::wrong::field(9, field)?"),
            ("each line: a carriage return is a space", "crate::wrong::field(10, field)?"),
            ("each line: a decimal point or comma is left out", "crate::wrong::field(11, field)?"),
            ("each line: the letter O is 0", "crate::wrong::field(12, field)?"),
            ("each line: : and / are digits", "crate::wrong::field(13, field)?"),
            ("each line: bytes from 128 are spaces", "crate::wrong::field(14, field)?"),
            ("each line: an exponent is taken", "crate::wrong::field(15, field)?"),
            ("each line: hexadecimal is taken", "crate::wrong::field(16, field)?"),
            ("each line: nine zeros are 0", "crate::wrong::field(17, field)?"),
        ],
    },
    Edit {
        module: "line",
        old: "None => «Refusal::LineMissing»",
        new: &[
            (
                "5 before 3",
                "if rest.len() >= length { Refusal::LineLength } else { Refusal::LineMissing }",
            ),
            (
                "6 before 3",
                "if crate::wrong::bad_field(rest, length) { Refusal::Field } \
                 else { Refusal::LineMissing }",
            ),
            ("5 for a line that is cut", "Refusal::LineLength"),
            ("6 for a line that is cut", "Refusal::Field"),
        ],
    },
    Edit {
        module: "line",
        old: "=> «Refusal::LineLength»",
        new: &[(
            "6 before 5",
            "if crate::wrong::bad_field(rest, length) { Refusal::Field } \
             else { Refusal::LineLength }",
        )],
    },
    Edit {
        module: "sheet",
        old: "«line::read(self.rest).map_err(|refusal| self.reject(refusal))?»",
        new: &[
            (
                "a carriage return before the line feed is left out",
                "match crate::wrong::without_return(self.rest, line::length(N)) { \
                 Some(line) => { self.rest = &self.rest[1..]; \
                 line::read(&line).map_err(|refusal| self.reject(refusal))? } \
                 None => line::read(self.rest).map_err(|refusal| self.reject(refusal))? }",
            ),
            (
                "a long line is cut",
                "match crate::wrong::cut(self.rest, line::length(N)) { \
                 Some((line, more)) => { self.rest = &self.rest[more..]; \
                 line::read(&line).map_err(|refusal| self.reject(refusal))? } \
                 None => line::read(self.rest).map_err(|refusal| self.reject(refusal))? }",
            ),
            (
                "fields may be of any width",
                "match crate::wrong::words(self.rest, N) { \
                 Some(line) => { let end = self.rest.iter().position(|&byte| byte == b'\\n'); \
                 let end = end.unwrap_or(0) + 1; \
                 let fields = line::read(&line).map_err(|refusal| self.reject(refusal))?; \
                 self.rest = &self.rest[end..]; return Ok(fields); } \
                 None => line::read(self.rest).map_err(|refusal| self.reject(refusal))? }",
            ),
            (
                "the last line feed may be missing",
                "if self.rest.len() + 1 == line::length(N) && !self.rest.contains(&b'\\n') { \
                 let mut line = self.rest.to_vec(); line.push(b'\\n'); \
                 let fields = line::read(&line).map_err(|refusal| self.reject(refusal))?; \
                 self.rest = &[]; return Ok(fields); } \
                 line::read(self.rest).map_err(|refusal| self.reject(refusal))?",
            ),
        ],
    },
    Edit {
        module: "sheet",
        old: "let [car_type, rows] = «lines.fields()?»;",
        new: &[
            (
                "fifth table before 3",
                "match lines.fields() { Err(other) if self.tables.count() == 4 => \
                 return Err(Rejection { refusal: Refusal::TableHead, ..other }), other => other? }",
            ),
            (
                "fifth table before 5",
                "match lines.fields() { Err(other) if self.tables.count() == 4 \
                 && other.refusal.number() >= 5 => \
                 return Err(Rejection { refusal: Refusal::TableHead, ..other }), other => other? }",
            ),
            (
                "fifth table before 6",
                "match lines.fields() { Err(other) if self.tables.count() == 4 \
                 && other.refusal.number() >= 6 => \
                 return Err(Rejection { refusal: Refusal::TableHead, ..other }), other => other? }",
            ),
            (
                "7 by the type before 6",
                "match lines.fields() { Err(other) if other.refusal.number() == 6 \
                 && crate::wrong::number_at(lines.rest, 0).is_some_and(|n| \
                 !(1..=9_999).contains(&n)) => \
                 return Err(Rejection { refusal: Refusal::TableHead, ..other }), other => other? }",
            ),
            (
                "7 by the rows before 6",
                "match lines.fields() { Err(other) if other.refusal.number() == 6 \
                 && crate::wrong::number_at(lines.rest, 1).is_some_and(|n| \
                 !(2..=400).contains(&n)) => \
                 return Err(Rejection { refusal: Refusal::TableHead, ..other }), other => other? }",
            ),
            (
                "type cut to 16 bits",
                "{ let [car_type, rows]: [u32; 2] = lines.fields()?; [car_type & 0xffff, rows] }",
            ),
            (
                "rows cut to 16 bits",
                "{ let [car_type, rows]: [u32; 2] = lines.fields()?; [car_type, rows & 0xffff] }",
            ),
        ],
    },
    Edit {
        module: "sheet",
        old: "«self.tables.begin(car_type, rows).map_err(|refusal| lines.reject(refusal))?;»",
        new: &[(
            "7 after the table's rows",
            "if let Err(refusal) = self.tables.begin(car_type, rows) { \
             let late = lines.reject(refusal); \
             for _ in 0..rows { lines.letter(b\"R\")?; let _: [u32; 2] = lines.fields()?; } \
             return Err(late); }",
        )],
    },
    Edit {
        module: "sheet",
        old: "«self.tables.add(row).map_err(|refusal| lines.reject(refusal))?;»",
        new: &[(
            "8 after the table's rows",
            "if let Err(refusal) = self.tables.add(row) { \
             late.get_or_insert(lines.reject(refusal)); }",
        )],
    },
    Edit {
        module: "sheet",
        old: "let [level, capacity] = «lines.fields()?»;",
        new: &[
            (
                "8 by the level before 6",
                "match lines.fields() { Err(other) if other.refusal.number() == 6 \
                 && crate::wrong::bad_level(lines.rest) => \
                 return Err(Rejection { refusal: Refusal::TableRow, ..other }), other => other? }",
            ),
            (
                "8 by the capacity before 6",
                "match lines.fields() { Err(other) if other.refusal.number() == 6 \
                 && crate::wrong::bad_capacity(lines.rest) => \
                 return Err(Rejection { refusal: Refusal::TableRow, ..other }), other => other? }",
            ),
            (
                "level cut to 16 bits",
                "{ let [level, capacity]: [u32; 2] = lines.fields()?; [level & 0xffff, capacity] }",
            ),
            (
                "capacity cut to 16 bits",
                "{ let [level, capacity]: [u32; 2] = lines.fields()?; [level, capacity & 0xffff] }",
            ),
            (
                "capacity cut to 18 bits",
                "{ let [level, capacity]: [u32; 2] = lines.fields()?; [level, capacity & 0x3ffff] }",
            ),
        ],
    },
    Edit {
        module: "sheet",
        old: "let fields: [u32; car::FIELDS] = «lines.fields()?»;",
        new: &[
            (
                "car past the last before 3",
                "match lines.fields() { Err(other) if self.cars == 120 => \
                 return Err(Rejection { refusal: Refusal::Count, ..other }), other => other? }",
            ),
            (
                "car past the last before 5",
                "match lines.fields() { Err(other) if self.cars == 120 \
                 && other.refusal.number() >= 5 => \
                 return Err(Rejection { refusal: Refusal::Count, ..other }), other => other? }",
            ),
            (
                "car past the last before 6",
                "match lines.fields() { Err(other) if self.cars == 120 \
                 && other.refusal.number() >= 6 => \
                 return Err(Rejection { refusal: Refusal::Count, ..other }), other => other? }",
            ),
        ],
    },
    Edit {
        module: "sheet",
        old: "if «self.cars == CAR_LINES» {",
        new: &[
            ("sixty cars at most", "self.cars == 60"),
            ("sixty cars more than strikes at most", "2 * self.cars == self.events.len() + 60"),
            ("cars and strikes counted together for a car", "self.events.len() == 120"),
            ("180 lines at most, be they cars", "self.events.len() == 180"),
            ("any number of cars", "false"),
        ],
    },
    Edit {
        module: "sheet",
        old: "if self.cars == CAR_LINES {\n            «return Err(lines.reject(Refusal::Count));»",
        new: &[
            ("7 for a car past the last", "return Err(lines.reject(Refusal::TableHead));"),
            ("4 for a car past the last", "return Err(lines.reject(Refusal::Letter));"),
            ("cars past the last are left out", "return Ok(());"),
            ("9 for a car past the last with line 0", "return Err(Rejection { line: 0, \
              refusal: Refusal::Count });"),
        ],
    },
    Edit {
        module: "sheet",
        old: "let [number] = «lines.fields()?»;",
        new: &[
            (
                "strike past the last before 3",
                "match lines.fields() { Err(other) if self.events.len() - self.cars == 60 => \
                 return Err(Rejection { refusal: Refusal::Count, ..other }), other => other? }",
            ),
            (
                "strike past the last before 5",
                "match lines.fields() { Err(other) if self.events.len() - self.cars == 60 \
                 && other.refusal.number() >= 5 => \
                 return Err(Rejection { refusal: Refusal::Count, ..other }), other => other? }",
            ),
            (
                "strike past the last before 6",
                "match lines.fields() { Err(other) if self.events.len() - self.cars == 60 \
                 && other.refusal.number() >= 6 => \
                 return Err(Rejection { refusal: Refusal::Count, ..other }), other => other? }",
            ),
            ("a strike of 10 bytes is taken", "crate::wrong::strike_of(lines.rest, 10)\
              .inspect(|_| lines.rest = &lines.rest[10..]).map_or_else(|| lines.fields(), Ok)?"),
            ("a strike of 12 bytes is taken", "crate::wrong::strike_of(lines.rest, 12)\
              .inspect(|_| lines.rest = &lines.rest[12..]).map_or_else(|| lines.fields(), Ok)?"),
            ("a strike of 20 bytes is taken", "crate::wrong::strike_of(lines.rest, 20)\
              .inspect(|_| lines.rest = &lines.rest[20..]).map_or_else(|| lines.fields(), Ok)?"),
            ("a strike of 128 bytes is taken", "crate::wrong::strike_of(lines.rest, 128)\
              .inspect(|_| lines.rest = &lines.rest[128..]).map_or_else(|| lines.fields(), Ok)?"),
        ],
    },
    Edit {
        module: "sheet",
        old: "if «self.events.len() - self.cars == STRIKE_LINES» {",
        new: &[
            ("cars and strikes counted together for a strike", "self.events.len() == 60"),
            ("120 lines at most, be they strikes", "self.events.len() == 120"),
            ("180 lines at most, be they strikes", "self.events.len() == 180"),
            ("120 strikes at most", "self.events.len() - self.cars == 120"),
            ("any number of strikes", "false"),
            ("no more strikes than cars", "self.events.len() - self.cars == self.cars.min(60)"),
            ("no strike before the first car", "self.cars == 0 \
              || self.events.len() - self.cars == 60"),
        ],
    },
    Edit {
        module: "sheet",
        old: "== STRIKE_LINES {\n            «return Err(lines.reject(Refusal::Count));»",
        new: &[
            ("7 for a strike past the last", "return Err(lines.reject(Refusal::TableHead));"),
            ("30 for a strike past the last", "return Err(lines.reject(Refusal::NotHeld));"),
            ("strikes past the last are left out", "return Ok(());"),
            ("9 for a strike past the last with line 0", "return Err(Rejection { line: 0, \
              refusal: Refusal::Count });"),
        ],
    },
    Edit {
        module: "sheet",
        old: "«self.events.push(Event::Strike(number));»",
        new: &[
            ("a strike of 0 is left out", "if number > 0 \
              { self.events.push(Event::Strike(number)); }"),
            ("a strike of 0 is 10 of the sheet", "if number == 0 \
              { return Err(lines.reject(Refusal::CarNumber)); } \
              self.events.push(Event::Strike(number));"),
            ("a strike takes the car out of the sheet", "match self.events.iter().position(|event| \
              matches!(event, Event::Enter(car) if car.number == number)) \
              { Some(place) => { self.events.remove(place); self.cars -= 1; } \
              None => self.events.push(Event::Strike(number)) }"),
            ("a strike is a car too", "self.events.push(Event::Strike(number)); self.cars += 1;"),
        ],
    },
    Edit {
        module: "sheet",
        old: "Event::Strike(«number»)",
        new: &[
            ("number is 0", "0"),
            ("number cut to 16 bits", "number & 0xffff"),
            ("number cut to 24 bits", "number & 0xff_ffff"),
            ("number in single floating point", "number as f32 as u32"),
            ("number by seven digits", "number % 10_000_000"),
        ],
    },
    Edit {
        module: "sheet",
        old: "let [cars] = «lines.fields()?»;",
        new: &[
            (
                "bytes after the end before 5",
                "match lines.fields() { Err(other) if other.refusal.number() >= 5 \
                 && crate::wrong::more_lines(lines.rest) => return Err(Rejection { \
                 refusal: Refusal::Count, line: other.line + 1 }), other => other? }",
            ),
            (
                "bytes after the end before 6",
                "match lines.fields() { Err(other) if other.refusal.number() >= 6 \
                 && crate::wrong::more_lines(lines.rest) => return Err(Rejection { \
                 refusal: Refusal::Count, line: other.line + 1 }), other => other? }",
            ),
            ("number cut to 8 bits", "{ let [cars]: [u32; 1] = lines.fields()?; [cars & 0xff] }"),
            ("number cut to 16 bits", "{ let [cars]: [u32; 1] = lines.fields()?; [cars & 0xffff] }"),
            ("number not looked at", "{ let _: [u32; 1] = lines.fields()?; [self.cars as u32] }"),
        ],
    },
    Edit {
        module: "sheet",
        old: "if «cars as usize != self.cars» {",
        new: &[
            ("bytes after the end before the count", "cars as usize != self.cars && lines.rest.is_empty()"),
            ("count may be too low", "cars as usize > self.cars"),
            ("count may be too high", "(cars as usize) < self.cars"),
            ("count of cars and strikes", "cars as usize != self.events.len()"),
            ("count of cars or of cars and strikes", "cars as usize != self.cars \
              && cars as usize != self.events.len()"),
            ("count of strikes", "cars as usize != self.events.len() - self.cars"),
            ("count of cars less strikes", "cars as usize + self.events.len() != 2 * self.cars"),
            ("count of cars that are left", "cars as usize != crate::wrong::left(self)"),
            ("count of numbers", "cars as usize != crate::wrong::numbers_on(self)"),
        ],
    },
    Edit {
        module: "sheet",
        old: "lines.number += 1;\n            «return Err(lines.reject(Refusal::Count));»",
        new: &[
            ("3 and 4 after the end", "return lines.letter(b\"\").map(|_| ()).map_err(|other| \
              Rejection { line: other.line - 1, ..other });"),
            ("3 after the end", "if !lines.rest.contains(&b'\\n') { \
              return Err(lines.reject(Refusal::LineMissing)); } \
              return Err(lines.reject(Refusal::Count));"),
            ("4 after the end", "return Err(lines.reject(Refusal::Letter));"),
            ("one line feed after the end is taken", "if lines.rest == b\"\\n\" { return Ok(()); } \
              return Err(lines.reject(Refusal::Count));"),
            ("spaces after the end are taken", "if lines.rest.iter().all(u8::is_ascii_whitespace) \
              { return Ok(()); } return Err(lines.reject(Refusal::Count));"),
            ("zero bytes after the end are taken", "if lines.rest.iter().all(|&byte| byte == 0) \
              { return Ok(()); } return Err(lines.reject(Refusal::Count));"),
            ("a line after the end is taken", "if lines.rest.contains(&b'\\n') { return Ok(()); } \
              return Err(lines.reject(Refusal::Count));"),
            ("what is no whole line after the end is taken", "if !lines.rest.contains(&b'\\n') \
              { return Ok(()); } return Err(lines.reject(Refusal::Count));"),
        ],
    },
    Edit {
        module: "sheet",
        old: "_ if «self.rest.contains(&b'\\n')»",
        new: &[
            ("4 before 3", "!self.rest.is_empty()"),
            ("4 always", "true"),
            ("3 always", "false"),
        ],
    },
    Edit {
        module: "sheet",
        old: "=> «Err(self.reject(Refusal::Letter))»",
        new: &[
            ("5 before 4", "Err(self.reject(crate::wrong::fault_first(self.rest, false)))"),
            ("6 before 4", "Err(self.reject(crate::wrong::fault_first(self.rest, true)))"),
            ("small letters are taken", "if self.rest.first().is_some_and(|letter| \
              may_come.contains(&letter.to_ascii_uppercase())) \
              { Ok(self.rest[0].to_ascii_uppercase()) } \
              else { Err(self.reject(Refusal::Letter)) }"),
            ("a small k is taken", "if self.rest[0] == b'k' && may_come.contains(&b'K') \
              { Ok(b'K') } else { Err(self.reject(Refusal::Letter)) }"),
            ("5 for an empty line", "Err(self.reject(if self.rest[0] == b'\\n' \
              { Refusal::LineLength } else { Refusal::Letter }))"),
            ("8 for a row too few or too many", "Err(self.reject(if may_come == b\"R\" \
              || self.rest[0] == b'R' && may_come == b\"TCKE\" { Refusal::TableRow } \
              else { Refusal::Letter }))"),
            ("empty lines are skipped", "{ let mut rest = self.rest; \
              while rest.first() == Some(&b'\\n') { rest = &rest[1..]; } \
              self.rest = rest; match rest.first() { \
              Some(letter) if may_come.contains(letter) => Ok(*letter), \
              _ => Err(self.reject(Refusal::Letter)) } }"),
            ("spaces before the letter are skipped", "{ let mut rest = self.rest; \
              while rest.first() == Some(&b' ') { rest = &rest[1..]; } \
              self.rest = rest; match rest.first() { \
              Some(letter) if may_come.contains(letter) => Ok(*letter), \
              _ => Err(self.reject(Refusal::Letter)) } }"),
            ("lines of the listing are skipped", "{ let mut rest = self.rest; \
              while rest.first().is_some_and(|letter| b\"AXSG\".contains(letter)) { \
              let end = rest.iter().position(|&byte| byte == b'\\n'); \
              rest = &rest[end.map_or(rest.len(), |end| end + 1)..]; } \
              self.rest = rest; match rest.first() { \
              Some(letter) if may_come.contains(letter) => Ok(*letter), \
              _ => Err(self.reject(Refusal::Letter)) } }"),
            ("a byte order mark is skipped", "{ let mut rest = self.rest; \
              if rest.starts_with(b\"\\xef\\xbb\\xbf\") { rest = &rest[3..]; } \
              self.rest = rest; match rest.first() { \
              Some(letter) if may_come.contains(letter) => Ok(*letter), \
              _ => Err(self.reject(Refusal::Letter)) } }"),
        ],
    },
    Edit {
        module: "sheet",
        old: "«return Err(Rejection { line: 0, refusal: Refusal::SheetLength });»",
        new: &[
            ("2 after the sheet's other refusals", "return match Self::read(&bytes[..48_111]) \
              { Err(other) => Err(other), \
              Ok(_) => Err(Rejection { line: 0, refusal: Refusal::SheetLength }) };"),
            ("2 after 3 and 4 of the first line", "let mut lines = Lines { rest: bytes, number: 0 }; \
              lines.letter(b\"T\")?; \
              return Err(Rejection { line: 0, refusal: Refusal::SheetLength });"),
            ("2 with line 1", "return Err(Rejection { line: 1, refusal: Refusal::SheetLength });"),
        ],
    },
    Edit {
        module: "sheet",
        old: "if «bytes.len() > SHEET_BYTES» {",
        new: &[
            ("2 past 39,771 bytes", "bytes.len() > 39_771"),
            ("2 past 39,771 bytes and sixty strikes", "bytes.len() > 40_431"),
            ("2 past 48,111 bytes less sixty strikes", "bytes.len() > 47_451"),
            ("2 in 16 bits", "bytes.len() as u16 as usize > SHEET_BYTES"),
        ],
    },
    Edit {
        module: "sheet",
        old: "Car::from(«fields»)",
        new: &[
            ("field 1 is 0", "crate::wrong::zero(fields, 0)"),
            ("field 2 is 0", "crate::wrong::zero(fields, 1)"),
            ("field 3 is 0", "crate::wrong::zero(fields, 2)"),
            ("field 4 is 0", "crate::wrong::zero(fields, 3)"),
            ("field 5 is 0", "crate::wrong::zero(fields, 4)"),
            ("field 6 is 0", "crate::wrong::zero(fields, 5)"),
            ("field 7 is 0", "crate::wrong::zero(fields, 6)"),
            ("field 8 is 0", "crate::wrong::zero(fields, 7)"),
            ("field 9 is 0", "crate::wrong::zero(fields, 8)"),
            ("field 10 is 0", "crate::wrong::zero(fields, 9)"),
            ("field 11 is 0", "crate::wrong::zero(fields, 10)"),
            ("field 12 is 0", "crate::wrong::zero(fields, 11)"),
            ("field 13 is 0", "crate::wrong::zero(fields, 12)"),
            ("field 14 is 0", "crate::wrong::zero(fields, 13)"),
            ("fields 1 and 2 exchanged", "crate::wrong::swapped(fields, 0)"),
            ("fields 2 and 3 exchanged", "crate::wrong::swapped(fields, 1)"),
            ("fields 3 and 4 exchanged", "crate::wrong::swapped(fields, 2)"),
            ("fields 4 and 5 exchanged", "crate::wrong::swapped(fields, 3)"),
            ("fields 5 and 6 exchanged", "crate::wrong::swapped(fields, 4)"),
            ("fields 6 and 7 exchanged", "crate::wrong::swapped(fields, 5)"),
            ("fields 7 and 8 exchanged", "crate::wrong::swapped(fields, 6)"),
            ("fields 8 and 9 exchanged", "crate::wrong::swapped(fields, 7)"),
            ("fields 9 and 10 exchanged", "crate::wrong::swapped(fields, 8)"),
            ("fields 10 and 11 exchanged", "crate::wrong::swapped(fields, 9)"),
            ("fields 11 and 12 exchanged", "crate::wrong::swapped(fields, 10)"),
            ("fields 12 and 13 exchanged", "crate::wrong::swapped(fields, 11)"),
            ("fields 13 and 14 exchanged", "crate::wrong::swapped(fields, 12)"),
            ("field 1 cut to 16 bits", "crate::wrong::cut_bits(fields, 0, 16)"),
            ("field 2 cut to 16 bits", "crate::wrong::cut_bits(fields, 1, 16)"),
            ("field 3 cut to 16 bits", "crate::wrong::cut_bits(fields, 2, 16)"),
            ("field 4 cut to 16 bits", "crate::wrong::cut_bits(fields, 3, 16)"),
            ("field 5 cut to 16 bits", "crate::wrong::cut_bits(fields, 4, 16)"),
            ("field 6 cut to 16 bits", "crate::wrong::cut_bits(fields, 5, 16)"),
            ("field 7 cut to 16 bits", "crate::wrong::cut_bits(fields, 6, 16)"),
            ("field 8 cut to 16 bits", "crate::wrong::cut_bits(fields, 7, 16)"),
            ("field 9 cut to 16 bits", "crate::wrong::cut_bits(fields, 8, 16)"),
            ("field 10 cut to 16 bits", "crate::wrong::cut_bits(fields, 9, 16)"),
            ("field 11 cut to 16 bits", "crate::wrong::cut_bits(fields, 10, 16)"),
            ("field 12 cut to 16 bits", "crate::wrong::cut_bits(fields, 11, 16)"),
            ("field 13 cut to 16 bits", "crate::wrong::cut_bits(fields, 12, 16)"),
            ("field 14 cut to 16 bits", "crate::wrong::cut_bits(fields, 13, 16)"),
            ("field 2 cut to 8 bits", "crate::wrong::cut_bits(fields, 1, 8)"),
            ("field 3 cut to 8 bits", "crate::wrong::cut_bits(fields, 2, 8)"),
            ("field 4 cut to 8 bits", "crate::wrong::cut_bits(fields, 3, 8)"),
            ("field 5 cut to 8 bits", "crate::wrong::cut_bits(fields, 4, 8)"),
            ("field 13 cut to 8 bits", "crate::wrong::cut_bits(fields, 12, 8)"),
            ("field 14 cut to 8 bits", "crate::wrong::cut_bits(fields, 13, 8)"),
            ("field 1 in single floating point", "crate::wrong::single(fields, 0)"),
            ("field 11 in whole degrees", "crate::wrong::tens(fields, 10)"),
            ("field 12 in whole kg/m³", "crate::wrong::tens(fields, 11)"),
            ("field 13 in tenths of a per cent", "crate::wrong::tens(fields, 12)"),
            ("field 14 in tenths of a per cent", "crate::wrong::tens(fields, 13)"),
        ],
    },
    Edit {
        module: "listing",
        old: "&mut self.buffer[self.length..], letter, «numbers»);",
        new: &[
            ("field 1 is 0", "crate::wrong::zero(numbers, 0)"),
            ("field 2 is 0", "crate::wrong::zero(numbers, 1)"),
            ("field 3 is 0", "crate::wrong::zero(numbers, 2)"),
            ("field 4 is 0", "crate::wrong::zero(numbers, 3)"),
            ("field 5 is 0", "crate::wrong::zero(numbers, 4)"),
            ("field 6 is 0", "crate::wrong::zero(numbers, 5)"),
            ("fields 1 and 2 exchanged", "crate::wrong::swapped(numbers, 0)"),
            ("fields 2 and 3 exchanged", "crate::wrong::swapped(numbers, 1)"),
            ("fields 3 and 4 exchanged", "crate::wrong::swapped(numbers, 2)"),
            ("fields 4 and 5 exchanged", "crate::wrong::swapped(numbers, 3)"),
            ("fields 5 and 6 exchanged", "crate::wrong::swapped(numbers, 4)"),
            ("field 1 cut to 16 bits", "crate::wrong::cut_bits(numbers, 0, 16)"),
            ("field 2 cut to 16 bits", "crate::wrong::cut_bits(numbers, 1, 16)"),
            ("field 3 cut to 16 bits", "crate::wrong::cut_bits(numbers, 2, 16)"),
            ("field 4 cut to 16 bits", "crate::wrong::cut_bits(numbers, 3, 16)"),
            ("field 5 cut to 16 bits", "crate::wrong::cut_bits(numbers, 4, 16)"),
            ("field 6 cut to 16 bits", "crate::wrong::cut_bits(numbers, 5, 16)"),
            ("field 1 in single floating point", "crate::wrong::single(numbers, 0)"),
            ("field 2 in single floating point", "crate::wrong::single(numbers, 1)"),
            ("field 3 in single floating point", "crate::wrong::single(numbers, 2)"),
            ("field 4 in single floating point", "crate::wrong::single(numbers, 3)"),
            ("field 5 in single floating point", "crate::wrong::single(numbers, 4)"),
            ("field 6 in single floating point", "crate::wrong::single(numbers, 5)"),
        ],
    },
    Edit {
        module: "listing",
        old: "«self.length += line::write(&mut self.buffer[self.length..], letter, numbers);»",
        new: &[
            ("all lines past 3,541 bytes are lost", "if self.length + line::length(N) <= 3_541 \
              { self.length += line::write(&mut self.buffer[self.length..], letter, numbers); }"),
            ("all lines past 7,560 bytes are lost", "if self.length + line::length(N) <= 7_560 \
              { self.length += line::write(&mut self.buffer[self.length..], letter, numbers); }"),
        ],
    },
    Edit {
        module: "listing",
        old: "«listing.write(b'Z', [line, refusal.number()]);»",
        new: &[
            ("G after Z", "listing.write(b'Z', [line, refusal.number()]); \
              listing.write_grades(&Train::default().grades);"),
            ("S and G after Z", "listing.write(b'Z', [line, refusal.number()]); \
              listing.write(b'S', [0; 3]); listing.write_grades(&Train::default().grades);"),
        ],
    },
    Edit {
        module: "listing",
        old: "«listing.write_sheet(&sheet);»",
        new: &[
            ("a sheet with more cars than places is refused", "listing.write_sheet(&sheet); \
              if crate::wrong::shows(&listing.buffer[..listing.length], 9) \
              { listing.length = 0; listing.write(b'Z', [0, 9]); }"),
            ("a sheet with a strike of no car is refused", "listing.write_sheet(&sheet); \
              if crate::wrong::shows(&listing.buffer[..listing.length], 30) \
              { listing.length = 0; listing.write(b'Z', [0, 30]); }"),
        ],
    },
    Edit {
        module: "listing",
        old: "for event in «sheet.events()» {",
        new: &[
            ("strikes before cars", "crate::wrong::by_kind(sheet, true)"),
            ("cars before strikes", "crate::wrong::by_kind(sheet, false)"),
        ],
    },
    Edit {
        module: "listing",
        old: "«for event in sheet.events() {\n            match event {\n                \
              Event::Enter(car) => self.write_car(&mut train, car, &sheet.tables),\n                \
              Event::Strike(number) => self.write_strike(&mut train, *number),\n            \
              }\n        }»",
        new: &[
            ("strikes answered after cars", "let mut late = Vec::new(); \
              for event in sheet.events() { match event { \
              Event::Enter(car) => self.write_car(&mut train, car, &sheet.tables), \
              Event::Strike(number) => late.push((*number, train.strike_sound(*number))), } } \
              for (number, answer) in late { match answer { \
              Ok(()) => self.write(b'K', [number]), \
              Err(refusal) => self.write(b'X', [number, refusal.number()]), } }"),
            ("cars that are struck are not answered", "for event in sheet.events() { match event { \
              Event::Enter(car) => self.write_car(&mut train, car, &sheet.tables), \
              Event::Strike(number) => { self.write_strike(&mut train, *number); \
              self.length = crate::wrong::without_car(&mut self.buffer[..self.length], *number); } } }"),
        ],
    },
    Edit {
        module: "listing",
        old: "=> «self.write_strike(&mut train, *number)»,",
        new: &[
            ("a strike gives no line", "{ let _ = train.strike_sound(*number); }"),
            ("a strike that is done gives no line", "if let Err(refusal) = train.strike_sound(*number) \
              { self.write(b'X', [*number, refusal.number()]) }"),
            ("a strike that is refused gives no line", "if train.strike_sound(*number).is_ok() \
              { self.write(b'K', [*number]) }"),
            ("strikes are not done", "self.write_strike(&mut train.clone(), *number)"),
            ("a strike empties the train", "{ self.write_strike(&mut train, *number); \
              train = Train::default(); }"),
        ],
    },
    Edit {
        module: "listing",
        old: "Ok(()) => «self.write(b'K', [number])»,",
        new: &[
            ("X 30 for a strike that is done", "self.write(b'X', [number, 30])"),
            ("X 0 for a strike that is done", "self.write(b'X', [number, 0])"),
            ("K with the cars that are left", "self.write(b'K', [train.held as u32])"),
            ("K with number and cars left", "self.write(b'K', [number, train.held as u32])"),
            ("K with number and 0", "self.write(b'K', [number, 0])"),
            ("A for a strike that is done", "self.write(b'A', [number, 0, 0, 0, 0, 0])"),
        ],
    },
    Edit {
        module: "listing",
        old: "Err(refusal) => «self.write(b'X', [number, refusal.number()])»,",
        new: &[
            ("K for a strike that is refused", "self.write(b'K', [number])"),
            ("K 0 for a strike that is refused", "self.write(b'K', [0])"),
            ("X without its number", "self.write(b'X', [number])"),
            ("Z for a strike that is refused", "self.write(b'Z', [number, refusal.number()])"),
        ],
    },
    Edit {
        module: "listing",
        old: "self.write(b'S', «[accepted, gross as u32, net as u32]»);",
        new: &[
            ("net total from the gross total", "[accepted, gross as u32, \
              crate::wrong::net_of_total(gross, &crate::wrong::cars(sheet))]"),
            ("S counts all cars", "[sheet.cars().count() as u32, gross as u32, net as u32]"),
            ("S counts the cars held", "[train.held as u32, gross as u32, net as u32]"),
            ("S with struck cars", "crate::wrong::by_history(sheet, |_| &[])"),
            ("S without cars that any strike names", "crate::wrong::by_history(sheet, |_| sheet.events())"),
            ("S without cars that an earlier strike names", "crate::wrong::by_history(sheet, \
              |line| &sheet.events()[..line])"),
            ("S without cars that the next line strikes", "crate::wrong::by_history(sheet, \
              |line| sheet.events()[line..].get(1..2).unwrap_or_default())"),
            ("S counts cars less strikes", "[(2 * sheet.cars().count())\
              .saturating_sub(sheet.events().len()) as u32, gross as u32, net as u32]"),
            ("totals in single floating point", "[accepted, gross as f32 as u32, \
              net as f32 as u32]"),
            ("S from grade 1's totals", "crate::wrong::in_fields(train.grades[0])"),
            ("S from grade 2's totals", "crate::wrong::in_fields(train.grades[1])"),
            ("S from grade 3's totals", "crate::wrong::in_fields(train.grades[2])"),
            ("S from grade 4's totals", "crate::wrong::in_fields(train.grades[3])"),
            ("S without grade 1", "crate::wrong::without(train.all, train.grades[0])"),
            ("S without grade 2", "crate::wrong::without(train.all, train.grades[1])"),
            ("S without grade 3", "crate::wrong::without(train.all, train.grades[2])"),
            ("S without grade 4", "crate::wrong::without(train.all, train.grades[3])"),
        ],
    },
    Edit {
        module: "listing",
        old: "«self.write(b'S', [accepted, gross as u32, net as u32]);\n        \
              self.write_grades(&train.grades);»",
        new: &[(
            "G before S",
            "self.write_grades(&train.grades); \
             self.write(b'S', [accepted, gross as u32, net as u32]);",
        )],
    },
    Edit {
        module: "listing",
        old: "«self.write_grades(&train.grades);»\n    }",
        new: &[
            ("no G lines", ""),
            ("three G lines only", "for (grade, totals) in (1..).zip(&train.grades[..3]) { \
              self.write(b'G', crate::wrong::of_grade(grade, *totals)); }"),
            ("a fifth G line", "self.write_grades(&train.grades); self.write(b'G', [5, 0, 0, 0]);"),
            ("G in falling order", "for (grade, totals) in [1, 2, 3, 4].into_iter().zip(train.grades).rev() { \
              self.write(b'G', crate::wrong::of_grade(grade, totals)); }"),
            ("G only for grades that have cars", "for (grade, totals) in (1..).zip(train.grades) { \
              if totals.accepted > 0 { \
              self.write(b'G', crate::wrong::of_grade(grade, totals)); } }"),
            ("G only where a car is accepted", "if train.all.accepted > 0 { \
              self.write_grades(&train.grades); }"),
            ("G only where the sheet has cars", "if sheet.cars().count() > 0 { \
              self.write_grades(&train.grades); }"),
            ("G counts refused cars", "self.write_grades(&crate::wrong::with_refused(\
              train.grades, &crate::wrong::cars(sheet)));"),
            ("grades' net from their gross totals", "self.write_grades(\
              &crate::wrong::net_of_grades(train.grades, &crate::wrong::cars(sheet)));"),
            ("G where the train holds cars", "if train.held > 0 { self.write_grades(&train.grades); }"),
            ("grades by falling mass", "self.write_grades(&crate::wrong::by_mass(train.grades));"),
        ],
    },
    Edit {
        module: "listing",
        old: "self.write(b'G', «[grade, accepted, gross as u32, net as u32]»);",
        new: &[
            ("grade's net from gross", "[grade, accepted, gross as u32, gross as u32]"),
            ("grade's gross from net", "[grade, accepted, net as u32, net as u32]"),
            ("grade's count from all", "[grade, crate::wrong::all(grades, 4)[0], gross as u32, \
              net as u32]"),
            ("grade's gross from all", "[grade, accepted, crate::wrong::all(grades, 4)[1], \
              net as u32]"),
            ("grade's net from all", "[grade, accepted, gross as u32, \
              crate::wrong::all(grades, 4)[2]]"),
            ("totals of the grades so far", "{ let [accepted, gross, net] = \
              crate::wrong::all(grades, grade as usize); [grade, accepted, gross, net] }"),
            ("the next grade's totals", "crate::wrong::of_grade(grade, \
              grades[grade as usize % 4])"),
            ("the totals of the grade before", "crate::wrong::of_grade(grade, \
              grades[(grade as usize + 2) % 4])"),
            ("grades from 0", "[grade - 1, accepted, gross as u32, net as u32]"),
            ("grades by name", "[[5, 12, 40, 100][grade as usize - 1], accepted, gross as u32, \
              net as u32]"),
        ],
    },
    Edit {
        module: "table",
        old: "let taken = «self.find(car_type).is_some()»;",
        new: &[
            ("type compared with the first only", "self.tables > 0 \
              && self.heads[0].car_type == car_type"),
            ("type compared with the last only", "self.tables > 0 \
              && self.heads[self.tables - 1].car_type == car_type"),
            ("type not compared with the first", "self.tables > 1 \
              && self.heads[1..self.tables].iter().any(|head| head.car_type == car_type)"),
            ("type not compared with the second", "self.tables > 0 \
              && self.heads[..self.tables].iter().enumerate()\
              .any(|(place, head)| place != 1 && head.car_type == car_type)"),
            ("type not compared with the third", "self.tables > 0 \
              && self.heads[..self.tables].iter().enumerate()\
              .any(|(place, head)| place != 2 && head.car_type == car_type)"),
        ],
    },
    Edit {
        module: "table",
        old: "None => «row == Row { level: 0, capacity: 0 }»",
        new: &[
            ("only the first level must be 0", "row.level == 0"),
            ("only the first capacity must be 0", "row.capacity == 0"),
        ],
    },
    Edit {
        module: "table",
        old: "«row.level > before.level && row.capacity > before.capacity»",
        new: &[
            ("compared with the table's first row", "row.level > self.rows[*start].level \
              && row.capacity > self.rows[*start].capacity"),
            ("compared with the second row before", "row.level > self.rows[*end \
              - 2.min(*end - *start)].level && row.capacity > before.capacity"),
            ("capacity compared with the level before", "row.level > before.level \
              && row.capacity > before.level"),
            ("level compared with the capacity before", "row.level > before.capacity \
              && row.capacity > before.capacity"),
            ("level tested twice", "row.level > before.level && row.level > before.level"),
            ("compared by their product", "u64::from(row.level) * u64::from(row.capacity) \
              > u64::from(before.level) * u64::from(before.capacity)"),
        ],
    },
    Edit {
        module: "table",
        old: ".find(|head| «head.car_type == car_type»)",
        new: &[
            ("types compared in 8 bits", "head.car_type as u8 == car_type as u8"),
            ("types compared in 16 bits", "head.car_type as u16 == car_type as u16"),
            ("types compared by three digits", "head.car_type % 1_000 == car_type % 1_000"),
            ("types compared by four digits", "head.car_type % 10_000 == car_type % 10_000"),
        ],
    },
    Edit {
        module: "table",
        old: "«100 * u64::from(lower.capacity) + nearest(100 * rise, in_tenths(upper.level - lower.level))»",
        new: &[
            ("capacity in single floating point", "(100.0 * (lower.capacity as f32 \
              + (upper.capacity - lower.capacity) as f32 * (level - in_tenths(lower.level)) as f32 \
              / in_tenths(upper.level - lower.level) as f32)).round() as u64"),
            ("capacity in double floating point, step first", "(100.0 * (f64::from(lower.capacity) \
              + f64::from(upper.capacity - lower.capacity) / in_tenths(upper.level - lower.level) as f64 \
              * (level - in_tenths(lower.level)) as f64)).round() as u64"),
            ("capacity in double floating point", "(100.0 * (f64::from(lower.capacity) \
              + f64::from(upper.capacity - lower.capacity) * (level - in_tenths(lower.level)) as f64 \
              / in_tenths(upper.level - lower.level) as f64)).round() as u64"),
            ("capacity at mm in double floating point", "{ let mm = level as f64 / 10.0; \
              (100.0 * (f64::from(lower.capacity) + f64::from(upper.capacity - lower.capacity) \
              * (mm - f64::from(lower.level)) / f64::from(upper.level - lower.level))).round() as u64 }"),
            ("capacity in whole dm³", "100 * (u64::from(lower.capacity) \
              + nearest(rise, in_tenths(upper.level - lower.level)))"),
            ("the lower row's capacity", "100 * u64::from(lower.capacity)"),
            ("the upper row's capacity", "100 * u64::from(upper.capacity)"),
            ("the nearer row's capacity", "100 * u64::from(if level - in_tenths(lower.level) \
              < in_tenths(upper.level) - level { lower.capacity } else { upper.capacity })"),
            ("from the upper row down", "100 * u64::from(upper.capacity) - nearest(100 \
              * u64::from(upper.capacity - lower.capacity) * (in_tenths(upper.level) - level), \
              in_tenths(upper.level - lower.level))"),
            ("capacity step rounded to 0.01 dm³ for a mm", "100 * u64::from(lower.capacity) \
              + nearest(nearest(100 * u64::from(upper.capacity - lower.capacity), \
              u64::from(upper.level - lower.level)) * (level - in_tenths(lower.level)), 10)"),
            ("capacity step rounded to 0.01 dm³ for a tenth", "100 * u64::from(lower.capacity) \
              + nearest(100 * u64::from(upper.capacity - lower.capacity), \
              in_tenths(upper.level - lower.level)) * (level - in_tenths(lower.level))"),
            ("step not times ten", "100 * u64::from(lower.capacity) \
              + nearest(100 * rise, u64::from(upper.level - lower.level))"),
            ("between capacities of whole mm", "{ let at = |mm: u64| nearest(100 * (u64::from(lower.capacity) \
              * u64::from(upper.level - lower.level) + u64::from(upper.capacity - lower.capacity) \
              * (mm - u64::from(lower.level))), u64::from(upper.level - lower.level)); \
              let (mm, tenths) = (level / 10, level % 10); \
              at(mm) + if tenths == 0 { 0 } else { nearest((at(mm + 1) - at(mm)) * tenths, 10) } }"),
        ],
    },
    Edit {
        module: "table",
        old: "«self.rows.partition_point(|row| in_tenths(row.level) < level)»",
        new: &[
            ("rows not times ten", "self.rows.partition_point(|row| u64::from(row.level) < level)"),
            ("by the level cut to mm", "self.rows.partition_point(|row| u64::from(row.level) < level / 10)"),
            ("by the nearest mm", "self.rows.partition_point(|row| u64::from(row.level) < (level + 5) / 10)"),
            ("by the next mm", "self.rows.partition_point(|row| u64::from(row.level) < level.div_ceil(10))"),
        ],
    },
    Edit {
        module: "level",
        old: "«first.abs_diff(second) <= AGREEMENT»",
        new: &[
            ("only a fall is apart", "first <= second + AGREEMENT"),
            ("only a rise is apart", "second <= first + AGREEMENT"),
            ("the last two agree", "third.abs_diff(fourth) <= AGREEMENT"),
            ("first and third agree", "first.abs_diff(third) <= AGREEMENT"),
            ("all readings agree", "readings.iter().max().unwrap() - readings.iter().min().unwrap() \
              <= AGREEMENT"),
            ("compared in 16 bits", "(first as u16).abs_diff(second as u16) <= 1"),
            ("compared in tenths", "in_tenths(first).abs_diff(in_tenths(second)) <= 1"),
        ],
    },
    Edit {
        module: "level",
        old: "2 if «(third, fourth) != (0, 0)»",
        new: &[
            ("the third alone must be 0", "third != 0"),
            ("the fourth alone must be 0", "fourth != 0"),
            ("their sum in 8 bits must be 0", "(third + fourth) as u8 != 0"),
        ],
    },
    Edit {
        module: "level",
        old: "4 => «mean_of(&three_together(readings)?)»",
        new: &[
            ("mean of all four", "{ three_together(readings)?; mean_of(&readings) }"),
            ("mean of the first two", "{ three_together(readings)?; mean_of(&[first, second]) }"),
            ("mean of the last two", "{ three_together(readings)?; mean_of(&[third, fourth]) }"),
            ("mean of the first three", "{ three_together(readings)?; \
              mean_of(&[first, second, third]) }"),
            ("mean of the last three", "{ three_together(readings)?; \
              mean_of(&[second, third, fourth]) }"),
            ("mean of the middle two", "{ three_together(readings)?; \
              mean_of(&crate::wrong::sorted(readings)[1..3]) }"),
            ("the second lowest", "{ three_together(readings)?; in_tenths(crate::wrong::sorted(readings)[1]) }"),
            ("the second highest", "{ three_together(readings)?; in_tenths(crate::wrong::sorted(readings)[2]) }"),
            ("the middle of the three closest", "in_tenths(three_together(readings)?[1])"),
            ("mean of the closest two", "{ three_together(readings)?; \
              mean_of(&crate::wrong::closest_two(readings)) }"),
            ("mean of lowest and highest of the three", "{ let three = three_together(readings)?; \
              mean_of(&[three[0], three[2]]) }"),
            ("in single floating point", "{ let three = three_together(readings)?; \
              ((three[0] as f32 + three[1] as f32 + three[2] as f32) / 3.0 * 10.0).round() as u64 }"),
            ("rounded twice", "{ let three = three_together(readings)?; \
              nearest(10 * (nearest(u64::from(three[0] + three[1]), 2) * 2 + u64::from(three[2])), 3) }"),
            ("the three nearest to the mean of all four", "{ three_together(readings)?; \
              mean_of(&crate::wrong::nearest_three(readings)) }"),
        ],
    },
    Edit {
        module: "level",
        old: "let mean = match «given» {",
        new: &[
            ("23 before 14", "{ if !agree { three_together(readings)?; } given }"),
            ("23 before 14, of more than two readings", "{ if given > 2 && !agree \
              { three_together(readings)?; } given }"),
        ],
    },
    Edit {
        module: "level",
        old: "2 if !agree => «return Err(Refusal::ReadingsApart)»",
        new: &[
            ("23 in place of 15", "return Err(Refusal::ThreeApart)"),
            ("23 before 15", "{ three_together(readings)?; return Err(Refusal::ReadingsApart) }"),
        ],
    },
    Edit {
        module: "level",
        old: "if «high - low > SPAN» {",
        new: &[
            ("span of 4 accepted", "high - low > 4"),
            ("span of 3 refused", "high - low >= 3"),
            ("span of all four", "crate::wrong::span(&readings) > SPAN"),
            ("span of the lower triple", "crate::wrong::span(&crate::wrong::sorted(readings)[..3]) > SPAN"),
            ("span of the upper triple", "crate::wrong::span(&crate::wrong::sorted(readings)[1..]) > SPAN"),
            ("span of the wider triple", "{ let all = crate::wrong::sorted(readings); \
              (all[2] - all[0]).max(all[3] - all[1]) > SPAN }"),
            ("span of the first three", "crate::wrong::span(&readings[..3]) > SPAN"),
            ("span of the last three", "crate::wrong::span(&readings[1..]) > SPAN"),
            ("span of the first two", "crate::wrong::span(&readings[..2]) > SPAN"),
            ("span of the last two", "crate::wrong::span(&readings[2..]) > SPAN"),
            ("span of the middle two", "crate::wrong::span(&crate::wrong::sorted(readings)[1..3]) > SPAN"),
            ("span of the closest two", "crate::wrong::span(&crate::wrong::closest_two(readings)) > SPAN"),
            ("span between neighbours", "three[1] - low > SPAN || high - three[1] > SPAN"),
            ("span from the mean", "mean_of(&three) - in_tenths(low) > in_tenths(SPAN) \
              || in_tenths(high) - mean_of(&three) > in_tenths(SPAN)"),
            ("span in tenths", "in_tenths(high) - in_tenths(low) > u64::from(SPAN)"),
            ("span in 8 bits", "(high - low) as u8 > 3"),
            ("span in 16 bits", "(high - low) as u16 > 3"),
            ("span by a share of the level", "500 * u64::from(high - low) > u64::from(low)"),
            ("23 only if the first two span as much", "high - low > SPAN \
              && crate::wrong::span(&readings[..2]) > SPAN"),
            ("23 also if the first two span as much", "high - low > SPAN \
              || crate::wrong::span(&readings[..2]) > SPAN"),
            ("23 only for the lower triple", "high - low > SPAN \
              && three == crate::wrong::sorted(readings)[..3]"),
            ("23 only for the upper triple", "high - low > SPAN \
              && three != crate::wrong::sorted(readings)[..3]"),
            ("23 not for a tie", "{ let all = crate::wrong::sorted(readings); \
              high - low > SPAN && all[2] - all[0] != all[3] - all[1] }"),
            ("23 not where a reading is 0", "high - low > SPAN && !readings.contains(&0)"),
            ("23 not where two readings are alike", "{ let all = crate::wrong::sorted(readings); \
              high - low > SPAN && all.windows(2).all(|two| two[0] != two[1]) }"),
        ],
    },
    Edit {
        module: "level",
        old: "«return Err(Refusal::ThreeApart);»",
        new: &[
            ("14 in place of 23", "return Err(Refusal::ReadingCount);"),
            ("15 in place of 23", "return Err(Refusal::ReadingsApart);"),
            ("16 in place of 23", "return Err(Refusal::Level);"),
            ("the middle one in place of 23", "return Ok([three[1]; 3]);"),
            ("the closest two in place of 23", "let [a, b] = crate::wrong::closest_two(readings); \
              return Ok([a, a, b]);"),
        ],
    },
    Edit {
        module: "level",
        old: "2 | 4 if agree => «mean_of(&[first, second])»",
        new: &[
            ("the first reading", "in_tenths(first)"),
            ("the second reading", "in_tenths(second)"),
            ("mean of all given", "if given == 4 { mean_of(&readings) } \
              else { mean_of(&[first, second]) }"),
            ("three closest of four", "if given == 4 { mean_of(&three_closest(readings)) } \
              else { mean_of(&[first, second]) }"),
            ("in single floating point", "((first as f32 + second as f32) / 2.0 * 10.0).round() as u64"),
            ("23 though the first two agree", "{ if given == 4 { three_together(readings)?; } \
              mean_of(&[first, second]) }"),
            ("23 by all four though the first two agree", "{ if given == 4 \
              && crate::wrong::span(&readings) > SPAN { return Err(Refusal::ThreeApart); } \
              mean_of(&[first, second]) }"),
        ],
    },
    Edit {
        module: "level",
        old: "if «c - a <= d - b» {",
        new: &[
            ("by the inner gap", "b - a <= d - c"),
            ("always the lower", "true"),
            ("always the upper", "false"),
            ("by outer readings in 16 bits", "(c - a) as u16 <= (d - b) as u16"),
        ],
    },
    Edit {
        module: "level",
        old: "readings.sort_unstable();\n    let [a, b, c, d] = «readings»;",
        new: &[
            ("sorted falling", "{ let mut all = readings; all.reverse(); all }"),
            ("two neighbours out of order", "{ let mut all = readings; all.swap(1, 2); all }"),
        ],
    },
    Edit {
        module: "level",
        old: "«10 * u64::from(level)»",
        new: &[
            ("in 16 bits", "u64::from((level as u16).wrapping_mul(10))"),
            ("in 16 bits, then times ten", "10 * u64::from(level as u16)"),
            ("in 18 bits", "(10 * u64::from(level)) & 0x3ffff"),
            ("in 24 bits", "(10 * u64::from(level)) & 0xff_ffff"),
            ("in 32 bits", "u64::from(level.wrapping_mul(10))"),
        ],
    },
    Edit {
        module: "level",
        old: "«nearest(sum, readings.len() as u64)»",
        new: &[
            ("rounded to mm before times ten", "10 * nearest(sum / 10, readings.len() as u64)"),
            ("cut to mm before times ten", "10 * (sum / 10 / readings.len() as u64)"),
            ("up to mm before times ten", "10 * (sum / 10).div_ceil(readings.len() as u64)"),
            ("rounded to tenths, then to mm", "10 * nearest(nearest(sum, readings.len() as u64), 10)"),
            ("to the even mm", "{ let twice = sum / 5 / readings.len() as u64; \
              10 * (twice / 2 + u64::from(twice % 4 == 3)) }"),
            ("in mm", "nearest(sum / 10, readings.len() as u64)"),
            ("in hundredths", "nearest(10 * sum, readings.len() as u64)"),
            ("doubled in 32 bits", "u64::from((2 * sum + readings.len() as u64) as u32 \
              / (2 * readings.len() as u32))"),
            ("doubled in 31 bits", "((2 * sum + readings.len() as u64) & 0x7fff_ffff) \
              / (2 * readings.len() as u64)"),
            ("to half a mm", "5 * nearest(sum, 5 * readings.len() as u64)"),
            ("to two tenths", "2 * nearest(sum, 2 * readings.len() as u64)"),
            ("thirds cut", "sum / readings.len() as u64"),
        ],
    },
    Edit {
        module: "level",
        old: "if «!has_allowance(level)» {",
        new: &[
            ("0 answered", "if level == 0 { return Ok(30); } !has_allowance(level)"),
            ("1 tenth answered", "if level == 1 { return Ok(30); } !has_allowance(level)"),
            ("9 tenths answered", "if level == 9 { return Ok(30); } !has_allowance(level)"),
            ("below 1 mm answered", "!(1..=36_000).contains(&level)"),
            ("bounds in mm", "!(1..=3_600).contains(&level)"),
            ("bounds of the level cut to mm", "if (36_001..36_010).contains(&level) { return Ok(75); } \
              !has_allowance(level)"),
            ("bounds of the nearest mm", "if (36_001..36_005).contains(&level) { return Ok(75); } \
              if (5..10).contains(&level) { return Ok(30); } !has_allowance(level)"),
            ("bounds of the next mm", "if (1..10).contains(&level) { return Ok(30); } \
              !has_allowance(level)"),
            ("whole mm only", "level % 10 != 0 || !has_allowance(level)"),
            ("16 above 40,000", "!(10..=40_000).contains(&level)"),
            ("four metres at most", "if level > 36_000 { return Ok(75); } level < 10"),
            ("a fifth metre", "if level > 36_000 { return Ok((15 + 15 * metres(level)) as u32); } level < 10"),
            ("16 as an allowance", "if !has_allowance(level) { return Ok(16); } false"),
            ("level in 16 bits", "if level > 0xffff { return tape_allowance(level & 0xffff); } \
              !has_allowance(level)"),
            ("level in 31 bits", "if level > 0x7fff_ffff \
              { return tape_allowance(level & 0x7fff_ffff); } !has_allowance(level)"),
            ("level in 32 bits", "if level > 0xffff_ffff \
              { return tape_allowance(level & 0xffff_ffff); } !has_allowance(level)"),
            ("level in 33 bits", "if level >> 33 > 0 \
              { return tape_allowance(level & 0x1_ffff_ffff); } !has_allowance(level)"),
            ("level in 48 bits", "if level >> 48 > 0 \
              { return tape_allowance(level & 0xffff_ffff_ffff); } !has_allowance(level)"),
            ("level in 63 bits", "if level >> 63 > 0 \
              { return tape_allowance(level & (u64::MAX >> 1)); } !has_allowance(level)"),
            ("level without its sign in 32 bits", "if level as u32 > u32::MAX - 36_000 \
              { return tape_allowance((level as u32).wrapping_neg().into()); } !has_allowance(level)"),
            ("level without its sign", "if level > u64::MAX - 36_000 \
              { return tape_allowance(level.wrapping_neg()); } !has_allowance(level)"),
        ],
    },
    Edit {
        module: "level",
        old: "has_allowance(level) {\n        «return Err(Refusal::Level);»",
        new: &[
            ("17 in place of 16", "return Err(Refusal::WaterLevel);"),
            ("29 in place of 16", "return Err(Refusal::StickOrTapeLevel);"),
        ],
    },
    Edit {
        module: "level",
        old: "Ok(«ALLOWANCES[metres(level) as usize - 1]»)",
        new: &[
            ("0.15 for the first metre too", "15 * metres(level) as u32"),
            ("0.30 for every metre", "30 * metres(level) as u32"),
            ("L for L - 1", "30 + 15 * metres(level) as u32"),
            ("0.30 at every level", "30"),
            ("three metres at most", "ALLOWANCES()[(metres(level) as usize - 1).min(2)]"),
            ("linear within a metre", "30 + (15 * level.saturating_sub(10_000) / 10_000) as u32"),
            ("cut in floating point", "(100.0 * (0.3 + 0.15 * (metres(level) - 1) as f64)) as u32"),
        ],
    },
    Edit {
        module: "level",
        old: "«level.div_ceil(METRE)»",
        new: &[
            ("whole metres", "(level / 10_000).max(1)"),
            ("whole metres and one", "level / 10_000 + 1"),
            ("nearest metre", "((level + 5_000) / 10_000).max(1)"),
            ("second metre as the third", "(level.div_ceil(10_000) + u64::from(level > 10_000)).min(4)"),
            ("thousandths in single floating point", "(level as f32 / 10.0 * 0.001).ceil() as u64"),
            ("metres of the level cut to mm", "(level / 10).div_ceil(1_000)"),
            ("metres of the nearest mm", "((level + 5) / 10).div_ceil(1_000)"),
            ("metres of the next mm", "level.div_ceil(10).div_ceil(1_000)"),
            ("metres of tenths as mm", "level.div_ceil(1_000).min(4)"),
        ],
    },
    Edit {
        module: "car",
        old: "ensure(«level <= in_tenths(table.last_level())»",
        new: &[
            ("16 by the first table's end", "level <= in_tenths(crate::wrong::end_of(tables, 0, table))"),
            ("16 by the second table's end", "level <= in_tenths(crate::wrong::end_of(tables, 1, table))"),
            ("16 by the third table's end", "level <= in_tenths(crate::wrong::end_of(tables, 2, table))"),
            ("16 by the fourth table's end", "level <= in_tenths(crate::wrong::end_of(tables, 3, table))"),
            ("16 by the last table's end", "level <= in_tenths(crate::wrong::end_of_last(tables))"),
            ("16 by the longest table's end", "level <= in_tenths(crate::wrong::longest(tables))"),
            ("16 by the shortest table's end", "level <= in_tenths(crate::wrong::shortest(tables))"),
            ("16 by the first reading", "crate::wrong::dip(self).1[0] <= table.last_level()"),
            ("16 by the second reading", "crate::wrong::dip(self).1[1] <= table.last_level()"),
            ("16 by the highest reading", "crate::wrong::dip(self).1[..crate::wrong::dip(self).0 as usize].iter()\
              .all(|&reading| reading <= table.last_level())"),
            ("16 by the last level not times ten", "level <= u64::from(table.last_level())"),
            ("16 by the mean cut to mm", "level / 10 <= u64::from(table.last_level())"),
            ("16 by the nearest mm", "(level + 5) / 10 <= u64::from(table.last_level())"),
            ("16 by the next mm", "level.div_ceil(10) <= u64::from(table.last_level())"),
            ("16 by a tenth more", "level <= in_tenths(table.last_level()) + 1"),
            ("16 by three tenths more", "level <= in_tenths(table.last_level()) + 3"),
            ("16 by three tenths less", "level + 3 <= in_tenths(table.last_level())"),
            ("16 below 1 mm", "level >= 10 && level <= in_tenths(table.last_level())"),
            ("16 by the tape's highest", "level <= 36_000"),
            ("16 in 16 bits", "(level as u16) <= in_tenths(table.last_level()) as u16"),
            ("16 in 32 bits", "(level as u32) <= in_tenths(table.last_level()) as u32"),
            ("16 by the level as handed over", "crate::wrong_probe::level(level) \
              <= 10.0 * f64::from(table.last_level())"),
        ],
    },
    Edit {
        module: "car",
        old: "ensure(«in_tenths(self.water_level) < level»",
        new: &[
            ("17 by the first reading", "self.water_level < crate::wrong::dip(self).1[0]"),
            ("17 by the second reading", "self.water_level < crate::wrong::dip(self).1[1]"),
            ("17 by the lower reading", "self.water_level < crate::wrong::dip(self).1[0].min(crate::wrong::dip(self).1[1])"),
            ("17 by the higher reading", "self.water_level < crate::wrong::dip(self).1[0].max(crate::wrong::dip(self).1[1])"),
            ("17 by the table's end", "self.water_level < table.last_level()"),
            ("17 in 16 bits", "(self.water_level as u16).wrapping_mul(10) < level as u16"),
            ("17 in 16 bits, then times ten", "10 * u64::from(self.water_level as u16) < level"),
            ("17 in 32 bits", "u64::from(self.water_level.wrapping_mul(10)) < level"),
            ("17 by the capacities", "self.water_level <= table.last_level() \
              && table.capacity(in_tenths(self.water_level)) < table.capacity(level)"),
            ("17 by the water level not times ten", "u64::from(self.water_level) < level"),
            ("17 by the mean cut to mm", "u64::from(self.water_level) < level / 10"),
            ("17 by the nearest mm", "u64::from(self.water_level) < (level + 5) / 10"),
            ("17 by the next mm", "u64::from(self.water_level) < level.div_ceil(10)"),
            ("17 by a tenth more", "in_tenths(self.water_level) < level + 1"),
            ("17 by three tenths less", "in_tenths(self.water_level) + 3 < level"),
            ("17 by a mm less", "in_tenths(self.water_level) + 10 <= level"),
            ("17 by the level as handed over", "10.0 * f64::from(self.water_level) \
              < crate::wrong_probe::level(level)"),
        ],
    },
    Edit {
        module: "car",
        old: "LIMITS.get(«place as usize»)",
        new: &[
            ("grade 1's limits", "if place < 4 { 0 } else { 4 }"),
            ("grade 2's limits", "if place < 4 { 1 } else { 4 }"),
            ("grade 3's limits", "if place < 4 { 2 } else { 4 }"),
            ("grade 4's limits", "if place < 4 { 3 } else { 4 }"),
            ("grades above 4 taken", "place.min(3) as usize"),
            ("grades in 8 bits", "place as u8 as usize"),
        ],
    },
    Edit {
        module: "car",
        old: "«grade.temperatures.contains(&self.temperature)»",
        new: &[
            ("18 from 200 for all grades", "(200..=900).contains(&self.temperature)"),
            ("18 from 400 for all grades", "(400..=900).contains(&self.temperature)"),
            ("18 without its highest", "self.temperature >= *grade.temperatures.start()"),
            ("18 without its lowest", "(200..=900).contains(&self.temperature) \
              || self.temperature < 200 && self.temperature >= 150"),
            ("18 by the temperature as handed over", "(f64::from(*grade.temperatures.start())\
              ..=f64::from(*grade.temperatures.end())).contains(&crate::wrong_probe::temperature(self.temperature))"),
        ],
    },
    Edit {
        module: "car",
        old: "«DENSITIES.contains(&self.density)»",
        new: &[
            ("19 by the density as handed over", "(9_000.0..=9_900.0).contains(&crate::wrong_probe::density(self.density))"),
        ],
    },
    Edit {
        module: "car",
        old: "«self.water <= grade.water && self.impurities <= grade.impurities»",
        new: &[
            ("20 by the sum", "self.water.saturating_add(self.impurities) \
              <= grade.water + grade.impurities"),
            ("20 by the wrong limits", "self.water <= grade.impurities \
              && self.impurities <= grade.water"),
            ("20 by 100 each", "self.water <= 100 && self.impurities <= 100"),
            ("20 without grade 1 and 2", "self.grade < 3 || self.water <= grade.water \
              && self.impurities <= grade.impurities"),
        ],
    },
    Edit {
        module: "car",
        old: "= «grade.density» {",
        new: &[
            ("21 by 9,600 for all", "Some(Density20(9_600))"),
            ("21 by 9,600 for those without", "grade.density.or(Some(Density20(9_600)))"),
            ("21 by 9,867 for those without", "grade.density.or(Some(Density20(9_867)))"),
            ("21 by 9,550 for both", "grade.density.map(|_| Density20(9_550))"),
            ("21 never", "None"),
        ],
    },
    Edit {
        module: "car",
        old: "«thermal::density_at_20(density)»",
        new: &[
            ("21 by the density at 15", "Density20(density.0)"),
            ("21 by the density at the oil's temperature", "Density20((u64::from(density.0) \
              * thermal::contraction(density, self.temperature - 150) / 10_000_000_000) as u32)"),
            ("21 by a linear density", "Density20(density.0 - 34)"),
        ],
    },
    Edit {
        module: "car",
        old: "«table.capacity(level) - table.capacity(in_tenths(self.water_level))»",
        new: &[
            ("water not taken off", "table.capacity(level)"),
            ("capacities rounded once", "crate::wrong::rounded_once(table, level, \
              in_tenths(self.water_level))"),
            ("volume in whole dm³", "(table.capacity(level) - table.capacity(in_tenths(self.water_level))) \
              / 100 * 100"),
            ("water by the first table", "table.capacity(level).saturating_sub(\
              tables.find(crate::hooks::first_type()).filter(|first| \
              first.last_level() >= self.water_level).unwrap_or(table)\
              .capacity(in_tenths(self.water_level)))"),
            ("capacity at the difference of levels", "table.capacity(level - in_tenths(self.water_level))"),
            ("water level not times ten", "table.capacity(level) \
              - table.capacity(u64::from(self.water_level))"),
            ("capacity at the mean cut to mm", "table.capacity(level / 10 * 10) \
              - table.capacity(in_tenths(self.water_level))"),
            ("capacity at the nearest mm", "table.capacity((level + 5) / 10 * 10)\
              .saturating_sub(table.capacity(in_tenths(self.water_level)))"),
            ("capacity at the next mm", "table.capacity(level.div_ceil(10) * 10) \
              - table.capacity(in_tenths(self.water_level))"),
            ("capacity at the first reading", "table.capacity(in_tenths(crate::wrong::dip(self).1[0]))\
              .saturating_sub(table.capacity(in_tenths(self.water_level)))"),
            ("capacity at the level as handed over", "crate::wrong_probe::volume(table, level, self.water_level)"),
        ],
    },
    Edit {
        module: "car",
        old: "level: «level as u32»,",
        new: &[
            ("shown in mm", "(level / 10) as u32"),
            ("shown in the nearest mm", "((level + 5) / 10) as u32"),
            ("shown in hundredths", "10 * level as u32"),
            ("shown as ten times the mm", "(level / 10 * 10) as u32"),
            ("shown as ten times the nearest mm", "((level + 5) / 10 * 10) as u32"),
        ],
    },
    Edit {
        module: "car",
        old: "(volume, «stick», self.temperature)",
        new: &[
            ("always steel", "Stick::Steel"),
            ("always aluminium", "Stick::Aluminium"),
        ],
    },
    Edit {
        module: "car",
        old: "«mass::volume_at_15(measured, density, self.temperature)»",
        new: &[
            ("V15 from the unrounded Vt", "crate::wrong::volume_at_15(volume, stick == Stick::Steel, \
              self.temperature, self.density)"),
            ("V15 without Vt", "mass::volume_at_15(volume, density, self.temperature)"),
            ("V15 in double floating point", "(measured as f64 * (thermal::contraction(density, \
              self.temperature - 150) as f64 / 1e10)).round() as u64"),
            ("V15 by the temperature as handed over", "crate::wrong_probe::volume_at_15(volume, stick, \
              self.temperature, self.density)"),
        ],
    },
    Edit {
        module: "car",
        old: "«mass::gross(volume_at_15, density)»",
        new: &[
            ("gross from the unrounded V15", "crate::wrong::gross(measured, self.temperature, \
              self.density)"),
            ("gross in double floating point, from m³", "(volume_at_15 as f64 / 100_000.0 \
              * (f64::from(self.density) / 10.0)).round() as u64"),
            ("gross in single floating point, from m³", "(volume_at_15 as f32 / 100_000.0 \
              * (self.density as f32 / 10.0)).round() as u64"),
            ("gross by the density at 20", "crate::wrong::gross_by_20(volume_at_15, self.density)"),
            ("gross by the density as handed over", "crate::wrong_probe::gross(volume_at_15, self.density)"),
        ],
    },
    Edit {
        module: "car",
        old: "«mass::net(gross, self.water, self.impurities)»",
        new: &[
            ("net from the unrounded gross", "crate::wrong::net(volume_at_15, self.density, \
              self.water + self.impurities)"),
            ("water and impurities taken off one by one", "gross \
              - crate::wrong::part(gross, self.water) - crate::wrong::part(gross, self.impurities)"),
            ("water and impurities rounded and taken off", "gross \
              - crate::wrong::part(gross, self.water + self.impurities)"),
            ("impurities from what water leaves", "mass::net(mass::net(gross, self.water, 0), 0, \
              self.impurities)"),
            ("net in double floating point", "(gross as f64 * (1.0 - f64::from(self.water) / 1e4 \
              - f64::from(self.impurities) / 1e4)).round() as u64"),
            ("net in single floating point", "(gross as f32 * (1.0 - self.water as f32 / 1e4 \
              - self.impurities as f32 / 1e4)).round() as u64"),
        ],
    },
    Edit {
        module: "thermal",
        old: "1 => «Some(Self::Steel)»",
        new: &[("sticks exchanged", "Some(Self::Aluminium)"), ("no steel", "None")],
    },
    Edit {
        module: "thermal",
        old: "2 => «Some(Self::Aluminium)»",
        new: &[("sticks exchanged", "Some(Self::Steel)"), ("no aluminium", "None")],
    },
    Edit {
        module: "thermal",
        old: "_ => «None»",
        new: &[("any stick is steel", "Some(Self::Steel)"), ("any stick is aluminium",
              "Some(Self::Aluminium)"), ("stick 3 is taken", "if number == 3 \
              { Some(Self::Steel) } else { None }"), ("sticks in 8 bits", "match number & 0xff \
              { 1 => Some(Self::Steel), 2 => Some(Self::Aluminium), _ => None }")],
    },
    Edit {
        module: "thermal",
        old: "«nearest(18_696_960_000_000 + 4_861_800_000 * density, density * density)»",
        new: &[
            ("stored, that of the field before", "crate::wrong_expansion::of(density - 1)"),
            ("stored, that of the field behind", "crate::wrong_expansion::of(density + 1)"),
            ("stored from the last to the first", "crate::wrong_expansion::of(18_900 - density)"),
            ("stored without that of 9,450", "crate::wrong_expansion::of(density + u64::from(density >= 9_450))"),
            ("stored with that of 9,450 twice", "crate::wrong_expansion::of(density - u64::from(density > 9_450))"),
            ("stored to 9,899, then its last", "crate::wrong_expansion::of(density.min(9_899))"),
            ("stored to 9,899, then 0", "if density < 9_900 { crate::wrong_expansion::of(density) } else { 0 }"),
            ("stored from 9,001, before it its first", "crate::wrong_expansion::of(density.max(9_001))"),
            ("stored from 9,001, before it 0", "if density > 9_000 { crate::wrong_expansion::of(density) } else { 0 }"),
            ("stored with places of 8 bits", "crate::wrong_expansion::of(9_000 + (density - 9_000) % 256)"),
            ("stored with places of 9 bits", "crate::wrong_expansion::of(9_000 + (density - 9_000) % 512)"),
            ("stored, that of the density at 20 °C", "crate::wrong_expansion::at_20(density)"),
            ("stored for whole kg/m³, cut", "crate::wrong_expansion::of(density / 10 * 10)"),
            ("stored for whole kg/m³, the nearest", "crate::wrong_expansion::of((density + 5) / 10 * 10)"),
            ("stored for every second field", "crate::wrong_expansion::of(density / 2 * 2)"),
            ("stored for every tenth field, linear between", "crate::wrong_expansion::linear(density, 10)"),
            ("stored for every hundredth field, linear between", "crate::wrong_expansion::linear(density, 100)"),
            ("stored for both ends, linear between", "crate::wrong_expansion::linear(density, 900)"),
            ("stored by 186.97 and 0.4862", "crate::wrong_expansion::by(density, 18_697_000_000_000, 4_862_000_000)"),
            ("stored by 186.97", "crate::wrong_expansion::by(density, 18_697_000_000_000, 4_861_800_000)"),
            ("stored by 0.4862", "crate::wrong_expansion::by(density, 18_696_960_000_000, 4_862_000_000)"),
            ("stored in 10⁻⁸", "(crate::wrong_expansion::of(density) + 5) / 10 * 10"),
            ("stored in 10⁻⁷", "(crate::wrong_expansion::of(density) + 50) / 100 * 100"),
            ("stored in 16 bits", "crate::wrong_expansion::of(density) & 0xffff"),
            ("stored in single floating point", "crate::wrong_expansion::of(density) as f32 as u64"),
        ],
    },
    Edit {
        module: "thermal",
        old: "«exponential(exponent(coefficient(density), tenths))»",
        new: &[
            ("B unrounded", "crate::wrong::contraction(density.0, tenths, 0)"),
            ("X unrounded", "crate::wrong::contraction(density.0, tenths, 1)"),
            ("terms unrounded", "crate::wrong::contraction(density.0, tenths, 2)"),
            ("the true exponential", "crate::wrong::contraction(density.0, tenths, 3)"),
            ("nothing rounded before E", "crate::wrong::contraction(density.0, tenths, 4)"),
            ("in single floating point", "crate::wrong::contraction(density.0, tenths, 5)"),
            ("E rounded to 0.0001", "crate::wrong::to_digits(exponential(exponent(coefficient(density), tenths)), 4)"),
            ("E rounded to 0.00001", "crate::wrong::to_digits(exponential(exponent(coefficient(density), tenths)), 5)"),
            ("E rounded to 0.000001", "crate::wrong::to_digits(exponential(exponent(coefficient(density), tenths)), 6)"),
            ("E rounded to 0.0000001", "crate::wrong::to_digits(exponential(exponent(coefficient(density), tenths)), 7)"),
            ("E rounded to 8 digits", "crate::wrong::to_digits(exponential(exponent(coefficient(density), tenths)), 8)"),
            ("E rounded to 9 digits", "crate::wrong::to_digits(exponential(exponent(coefficient(density), tenths)), 9)"),
            ("seven terms", "crate::wrong::contraction(density.0, tenths, 6)"),
            ("five terms", "crate::wrong::contraction(density.0, tenths, 7)"),
            ("four terms", "crate::wrong::contraction(density.0, tenths, 8)"),
            ("three terms", "crate::wrong::contraction(density.0, tenths, 9)"),
            ("B rounded to 10⁻⁸", "exponential(exponent((coefficient(density) + 5) / 10 * 10, tenths))"),
            ("B rounded to 10⁻⁷", "exponential(exponent((coefficient(density) + 50) / 100 * 100, tenths))"),
            ("the square left out", "exponential(coefficient(density) * u64::from(tenths))"),
            ("terms from the unrounded one before", "crate::wrong::contraction(density.0, tenths, 10)"),
        ],
    },
    Edit {
        module: "mass",
        old: "contraction(density, «temperature - 150»)",
        new: &[("from 20 °C", "temperature - 200"), ("whole degrees", "temperature / 10 * 10 - 150")],
    },
    Edit {
        module: "train",
        old: "    ) -> Result<Figures, Refusal> {\n        \
              ensure(«self.is_sound()», Refusal::Count)?;",
        new: &[
            ("a car not tested by 9 of the train", "if self.held > CARS { return Err(Refusal::Count); } true"),
            ("no car where 12,000,000 is reached", "self.is_sound() && self.all.gross < 12_000_000"),
            ("9 by the total with the car", "self.is_sound() && (car.figures(tables).is_err() \
              || crate::wrong::holds(self, car.number) || self.held == CARS \
              || car.figures(tables).is_ok_and(|of| self.all.gross + u64::from(of.gross) <= 12_000_000))"),
        ],
    },
    Edit {
        module: "train",
        old: "fn strike(&mut self, number: u32) -> Result<(), Refusal> {\n        \
              ensure(«self.is_sound()», Refusal::Count)?;",
        new: &[
            ("a strike not tested by 9 of the train", "if self.held > CARS { return Err(Refusal::Count); } true"),
            ("sixty numbers bar a strike", "self.is_sound() && self.held < 60"),
            ("sixty-one numbers taken for a strike", "if self.held == 61 { self.held = 60; \
              let answer = self.strike(number); self.held += 1; return answer; } self.is_sound()"),
            ("any numbers taken for a strike", "if self.held > 60 { let more = self.held - 60; \
              self.held = 60; let answer = self.strike(number); self.held += more; \
              return answer; } self.is_sound()"),
            ("numbers held in 8 bits", "if self.held > 0xff { let more = self.held & !0xff; \
              self.held &= 0xff; let answer = self.strike(number); self.held += more; \
              return answer; } self.is_sound()"),
            ("numbers held in 16 bits", "if self.held > 0xffff { let more = self.held & !0xffff; \
              self.held &= 0xffff; let answer = self.strike(number); self.held += more; \
              return answer; } self.is_sound()"),
            ("numbers held in 31 bits", "if self.held >> 31 > 0 { let more = self.held >> 31 << 31; \
              self.held -= more; let answer = self.strike(number); self.held += more; \
              return answer; } self.is_sound()"),
            ("a strike on an empty train is 9", "self.is_sound() && self.held > 0"),
            ("a strike mends the totals", "if self.held <= CARS { let made = crate::wrong::made(self); \
              self.all = made.0; self.grades = made.1; } self.is_sound()"),
            ("9 by the total that is left", "self.is_sound() || (self.all.gross.max(self.all.net) > 12_000_000 \
              && self.held <= CARS && crate::wrong::is_light_without(self, number) && self.is_made_by(&self.places[..self.held]))"),
        ],
    },
    Edit {
        module: "train",
        old: "ensure(«self.held < CARS», Refusal::Count)?;",
        new: &[
            ("9 by all C lines", "self.held < CARS && crate::hooks::cars() <= 60"),
            ("9 by the accepted cars", "if self.held == CARS && self.all.accepted < 60 \
              { return car.figures(tables); } self.held < CARS"),
            ("9 where the last place is taken", "self.places[CARS - 1].number == 0"),
        ],
    },
    Edit {
        module: "train",
        old: "«ensure(self.held < CARS, Refusal::Count)?;»",
        new: &[
            ("a car refused by 9 holds its number", "if self.held >= CARS \
              { crate::hooks::keep(car.number); return Err(Refusal::Count); }"),
            ("a car refused by 9 can be struck", "if self.held >= CARS \
              { crate::hooks::wait(car.number); return Err(Refusal::Count); }"),
            ("a car refused by 9 is counted", "if self.held >= CARS { self.all.accepted += 1; \
              return Err(Refusal::Count); }"),
            ("a car refused by 9 is added", "if self.held >= CARS { if let Ok(figures) = car.figures(tables) \
              { self.all.add(&crate::wrong::place(car, &figures)); } return Err(Refusal::Count); }"),
            ("a car refused by 9 is added to its grade", "if self.held >= CARS { \
              if let Ok(figures) = car.figures(tables) { self.grades[car.grade as usize - 1]\
              .add(&crate::wrong::place(car, &figures)); } return Err(Refusal::Count); }"),
            ("a car refused by 9 takes the last place", "if self.held >= CARS { \
              let last = self.places[CARS - 1].number; let _ = self.strike_sound(last); \
              let _ = self.enter_sound(car, tables); return Err(Refusal::Count); }"),
            ("a car refused by 9 takes the first place", "if self.held >= CARS { \
              let first = self.places[0].number; let _ = self.strike_sound(first); \
              let _ = self.enter_sound(car, tables); return Err(Refusal::Count); }"),
            ("a full train answers with figures", "if self.held >= CARS { car.check_number()?; \
              if crate::wrong::holds(self, car.number) { return Err(Refusal::CarTwice); } \
              return car.figures(tables); }"),
            ("10 for a full train", "if self.held >= CARS { return Err(Refusal::CarNumber); }"),
            ("11 for a full train", "if self.held >= CARS { return Err(Refusal::CarTwice); }"),
            ("30 for a full train", "if self.held >= CARS { return Err(Refusal::NotHeld); }"),
        ],
    },
    Edit {
        module: "train",
        old: "ensure(«self.place_of(car.number).is_none()», Refusal::CarTwice)",
        new: &[
            ("11 by the first number only", "crate::wrong::numbers(self).next() != Some(car.number)"),
            ("11 by the last number only", "crate::wrong::numbers(self).last() != Some(car.number)"),
            ("11 not by the first number", "!crate::wrong::numbers(self).skip(1).any(|n| n == car.number)"),
            ("11 by half the numbers", "!crate::wrong::numbers(self).take(self.held / 2).any(|n| n == car.number)"),
            ("11 by the last thirty numbers", "!crate::wrong::numbers(self).skip(self.held.saturating_sub(30)).any(|n| n == car.number)"),
            ("11 by the first thirty-two numbers", "!crate::wrong::numbers(self).take(32).any(|n| n == car.number)"),
            ("11 in 16 bits", "!crate::wrong::numbers(self).any(|n| n as u16 == car.number as u16)"),
            ("11 in 24 bits", "!crate::wrong::numbers(self).any(|n| n & 0xff_ffff == car.number & 0xff_ffff)"),
            ("11 in single floating point", "!crate::wrong::numbers(self).any(|n| n as f32 == car.number as f32)"),
            ("11 by seven digits", "!crate::wrong::numbers(self).any(|n| n % 10_000_000 == car.number % 10_000_000)"),
            ("11 by the first seven digits", "!crate::wrong::numbers(self).any(|n| n / 10 == car.number / 10)"),
            ("11 by a search in sorted numbers", "crate::wrong::numbers(self).collect::<Vec<_>>().binary_search(&car.number).is_err()"),
            ("11 by a sum of digits", "!crate::wrong::numbers(self).any(|n| crate::wrong::digits(n) == crate::wrong::digits(car.number))"),
            ("11 by accepted cars only", "!crate::wrong::held(self).any(|place| place.is_accepted() && place.number == car.number)"),
            ("11 by refused cars only", "!crate::wrong::held(self).any(|place| !place.is_accepted() && place.number == car.number)"),
            ("11 by cars of the same grade", "!crate::wrong::held(self).any(|place| place.grade == car.grade && place.number == car.number)"),
            ("11 by all sixty places", "!self.places.iter().any(|place| place.number == car.number)"),
        ],
    },
    Edit {
        module: "train",
        old: "«ensure(self.place_of(car.number).is_none(), Refusal::CarTwice)?;»",
        new: &[
            ("a car turned away by 11 is added to its grade", "if self.place_of(car.number).is_some() { \
              if let Ok(figures) = car.figures(tables) { self.grades[car.grade as usize - 1]\
              .add(&crate::wrong::place(car, &figures)); } return Err(Refusal::CarTwice); }"),
            ("a car turned away by 11 takes the held car's place", "if self.place_of(car.number).is_some() \
              { crate::wrong::replace(self, car, tables); return Err(Refusal::CarTwice); }"),
            ("a car turned away by 11 leaves its masses", "if let Some(place) = self.place_of(car.number) { \
              if let Ok(figures) = car.figures(tables) { self.places[place] = crate::wrong::place(car, &figures); } \
              return Err(Refusal::CarTwice); }"),
            ("a car turned away by 11 leaves its gross", "if let Some(place) = self.place_of(car.number) { \
              if let Ok(figures) = car.figures(tables) { self.places[place].gross = figures.gross; } \
              return Err(Refusal::CarTwice); }"),
            ("a car turned away by 11 leaves its net", "if let Some(place) = self.place_of(car.number) { \
              if let Ok(figures) = car.figures(tables) { self.places[place].net = figures.net; } \
              return Err(Refusal::CarTwice); }"),
            ("a car turned away by 11 leaves its grade", "if let Some(place) = self.place_of(car.number) { \
              if self.places[place].is_accepted() && car.figures(tables).is_ok() \
              { self.places[place].grade = car.grade; } return Err(Refusal::CarTwice); }"),
            ("a car turned away by 11 makes the held car a refused one", "if let Some(place) = self.place_of(car.number) { \
              self.places[place].grade = 0; return Err(Refusal::CarTwice); }"),
            ("a car turned away by 11 takes the held car out", "if self.place_of(car.number).is_some() { \
              let _ = self.strike_sound(car.number); return Err(Refusal::CarTwice); }"),
            ("a car turned away by 11 is held too", "if self.place_of(car.number).is_some() { \
              self.places[self.held] = Place { number: car.number, ..Place::default() }; self.held += 1; \
              return Err(Refusal::CarTwice); }"),
            ("a car turned away by 11 is held too, before the others", "if self.place_of(car.number).is_some() { \
              self.places.copy_within(..CARS - 1, 1); self.places[0] = Place { number: car.number, ..Place::default() }; \
              self.held += 1; return Err(Refusal::CarTwice); }"),
            ("a car turned away by 11 moves the held car to the end", "if let Some(place) = self.place_of(car.number) { \
              self.places[place..self.held].rotate_left(1); return Err(Refusal::CarTwice); }"),
        ],
    },
    Edit {
        module: "train",
        old: "«car.check_number()?;»",
        new: &[(
            "a car turned away by 10 is added to its grade",
            "if let Err(refusal) = car.check_number() { \
             if let Ok(figures) = car.figures(tables) \
             { self.grades[car.grade as usize - 1].add(&crate::wrong::place(car, &figures)); } \
             return Err(refusal); }",
        ), (
            "a car turned away by 10 is held",
            "if let Err(refusal) = car.check_number() { \
             self.places[self.held] = Place { number: car.number, ..Place::default() }; \
             self.held += 1; return Err(refusal); }",
        )],
    },
    Edit {
        module: "train",
        old: "let mut place = «Place { number: car.number, ..Place::default() }»;",
        new: &[
            (
                "a refused car is counted for its grade",
                "if worked_out.is_err() { let of = (car.grade as usize).wrapping_sub(1); \
                 if let Some(of) = self.grades.get_mut(of) { of.accepted += 1; } } \
                 Place { number: car.number, ..Place::default() }",
            ),
        ],
    },
    Edit {
        module: "train",
        old: "place = «Place { grade: car.grade, gross, net, ..place }»;",
        new: &[
            ("totals by the stick", "Place { grade: car.stick, gross, net, ..place }"),
            ("totals of the next grade", "Place { grade: car.grade % 4 + 1, gross, net, ..place }"),
            ("totals of the grade before", "Place { grade: (car.grade + 2) % 4 + 1, gross, net, ..place }"),
            ("totals by the readings", "Place { grade: crate::wrong::dip(car).0, gross, net, ..place }"),
            ("gross as net", "Place { grade: car.grade, gross, net: gross, ..place }"),
            ("net as gross", "Place { grade: car.grade, gross: net, net, ..place }"),
        ],
    },
    Edit {
        module: "train",
        old: "self.grades[«place.grade as usize - 1»].add(&place);",
        new: &[
            ("added to the next grade", "place.grade as usize % 4"),
            ("added to the grade before", "(place.grade as usize + 2) % 4"),
            ("added to grade 1", "0"),
            ("added to grade 2", "1"),
            ("added to grade 3", "2"),
            ("added to grade 4", "3"),
        ],
    },
    Edit {
        module: "train",
        old: "«self.grades[place.grade as usize - 1].add(&place);»",
        new: &[
            ("a grade's net taken from gross", "self.grades[place.grade as usize - 1]\
              .add(&Place { net: place.gross, ..place });"),
            ("a grade has its last car only", "self.grades[place.grade as usize - 1] = \
              Totals::default(); self.grades[place.grade as usize - 1].add(&place);"),
            ("a grade has its first car only", "if self.grades[place.grade as usize - 1].accepted == 0 \
              { self.grades[place.grade as usize - 1].add(&place); }"),
            ("a grade's count from all", "self.grades[place.grade as usize - 1].add(&place); \
              self.grades[place.grade as usize - 1].accepted = self.all.accepted;"),
            ("added to every grade", "self.grades.iter_mut().for_each(|of| of.add(&place));"),
        ],
    },
    Edit {
        module: "train",
        old: "self.places[self.held] = «place»;",
        new: &[
            ("its number is not held", "Place { number: 0, ..place }"),
            ("its number is held in 16 bits", "Place { number: place.number & 0xffff, ..place }"),
            ("its number is held in 24 bits", "Place { number: place.number & 0xff_ffff, ..place }"),
            ("its number is held in single floating point", "Place { number: place.number as f32 as u32, ..place }"),
            ("its grade is not held", "Place { grade: 0, ..place }"),
            ("its gross is not held", "Place { gross: 0, ..place }"),
            ("its net is not held", "Place { net: 0, ..place }"),
            ("its gross is held as net", "Place { net: place.gross, ..place }"),
            ("its net is held as gross", "Place { gross: place.net, ..place }"),
            ("its masses are held exchanged", "Place { gross: place.net, net: place.gross, ..place }"),
            ("its gross is held in 16 bits", "Place { gross: place.gross & 0xffff, ..place }"),
            ("its net is held in 16 bits", "Place { net: place.net & 0xffff, ..place }"),
            ("its grade is held by the stick", "Place { grade: if place.is_accepted() { car.stick } else { 0 }, ..place }"),
            ("a refused car's grade is held", "if (1..=4).contains(&car.grade) \
              { Place { grade: car.grade, ..place } } else { place }"),
            ("a refused car keeps what stood in its place", "if place.is_accepted() { place } \
              else { Place { number: place.number, ..self.places[self.held] } }"),
            ("a refused car keeps the masses in its place", "if place.is_accepted() { place } \
              else { Place { grade: 0, number: place.number, ..self.places[self.held] } }"),
            ("the last car's masses are held", "match self.held { 0 => place, \
              held => Place { number: place.number, grade: place.grade, ..self.places[held - 1] } }"),
        ],
    },
    Edit {
        module: "train",
        old: "«self.places[self.held] = place;\n        self.held += 1;»",
        new: &[
            ("refused cars are not held", "if worked_out.is_ok() { \
              self.places[self.held] = place; self.held += 1; }"),
            ("cars refused by 12 are not held", "if worked_out != Err(Refusal::Type) { \
              self.places[self.held] = place; self.held += 1; }"),
            ("cars refused by 13 are not held", "if worked_out != Err(Refusal::GradeOrStick) { \
              self.places[self.held] = place; self.held += 1; }"),
            ("cars refused by 14 are not held", "if worked_out != Err(Refusal::ReadingCount) { \
              self.places[self.held] = place; self.held += 1; }"),
            ("cars refused by 15 are not held", "if worked_out != Err(Refusal::ReadingsApart) { \
              self.places[self.held] = place; self.held += 1; }"),
            ("cars refused by 16 are not held", "if worked_out != Err(Refusal::Level) { \
              self.places[self.held] = place; self.held += 1; }"),
            ("cars refused by 17 are not held", "if worked_out != Err(Refusal::WaterLevel) { \
              self.places[self.held] = place; self.held += 1; }"),
            ("cars refused by 18 are not held", "if worked_out != Err(Refusal::Temperature) { \
              self.places[self.held] = place; self.held += 1; }"),
            ("cars refused by 19 are not held", "if worked_out != Err(Refusal::Density15) { \
              self.places[self.held] = place; self.held += 1; }"),
            ("cars refused by 20 are not held", "if worked_out != Err(Refusal::WaterOrImpurities) { \
              self.places[self.held] = place; self.held += 1; }"),
            ("cars refused by 21 are not held", "if worked_out != Err(Refusal::Density20) { \
              self.places[self.held] = place; self.held += 1; }"),
            ("cars refused by 23 are not held", "if worked_out != Err(Refusal::ThreeApart) { \
              self.places[self.held] = place; self.held += 1; }"),
            ("accepted cars are not held", "if worked_out.is_err() { \
              self.places[self.held] = place; self.held += 1; }"),
            ("cars are held in front", "self.places.copy_within(..CARS - 1, 1); \
              self.places[0] = place; self.held += 1;"),
            ("cars are held by rising number", "self.places[self.held] = place; self.held += 1; \
              self.places[..self.held].sort_by_key(|place| place.number);"),
            ("cars are held in the sixtieth place too", "self.places[CARS - 1] = place; \
              self.places[self.held] = place; self.held += 1;"),
            ("what is behind the held cars is cleared", "self.places[self.held] = place; self.held += 1; \
              self.places[self.held..].fill(Place::default());"),
        ],
    },
    Edit {
        module: "train",
        old: "«self.accepted += 1;»",
        new: &[("cars of mass 0 are not counted", "if car.gross > 0 { self.accepted += 1; }")],
    },
    Edit {
        module: "train",
        old: "let gap = «self.place_of(number).ok_or(Refusal::NotHeld)?»;",
        new: &[
            ("the first car is struck", "{ self.place_of(number).ok_or(Refusal::NotHeld)?; 0 }"),
            ("the last car is struck", "{ self.place_of(number).ok_or(Refusal::NotHeld)?; self.held - 1 }"),
            ("the next car is struck", "(self.place_of(number).ok_or(Refusal::NotHeld)? + 1).min(self.held - 1)"),
            ("the car before is struck", "self.place_of(number).ok_or(Refusal::NotHeld)?.saturating_sub(1)"),
            ("the first car is struck for an unknown number", "match self.place_of(number) \
              { None if self.held > 0 => 0, other => other.ok_or(Refusal::NotHeld)? }"),
            ("the last car is struck for an unknown number", "match self.place_of(number) \
              { None if self.held > 0 => self.held - 1, other => other.ok_or(Refusal::NotHeld)? }"),
            ("the number is a place", "(number as usize).checked_sub(1).filter(|place| *place < self.held)\
              .ok_or(Refusal::NotHeld)?"),
            ("only accepted cars are struck", "self.place_of(number).filter(|place| \
              self.places[*place].is_accepted()).ok_or(Refusal::NotHeld)?"),
            ("only refused cars are struck", "self.place_of(number).filter(|place| \
              !self.places[*place].is_accepted()).ok_or(Refusal::NotHeld)?"),
            ("only the last car can be struck", "self.place_of(number).filter(|place| \
              *place + 1 == self.held).ok_or(Refusal::NotHeld)?"),
            ("the first car cannot be struck", "self.place_of(number).filter(|place| *place > 0).ok_or(Refusal::NotHeld)?"),
            ("the last car cannot be struck", "self.place_of(number).filter(|place| \
              *place + 1 < self.held).ok_or(Refusal::NotHeld)?"),
            ("the first thirty-two can be struck", "self.place_of(number).filter(|place| *place < 32).ok_or(Refusal::NotHeld)?"),
            ("searched in all sixty places", "self.places.iter().position(|place| place.number == number)\
              .ok_or(Refusal::NotHeld)?"),
            ("searched from the end in all sixty places", "self.places.iter().rposition(|place| place.number == number)\
              .ok_or(Refusal::NotHeld)?"),
            ("searched in sorted numbers", "crate::wrong::numbers(self).collect::<Vec<_>>()\
              .binary_search(&number).map_err(|_| Refusal::NotHeld)?"),
            ("searched in 16 bits", "crate::wrong::numbers(self).position(|n| n as u16 == number as u16)\
              .ok_or(Refusal::NotHeld)?"),
            ("searched in 24 bits", "crate::wrong::numbers(self).position(|n| n & 0xff_ffff == number & 0xff_ffff)\
              .ok_or(Refusal::NotHeld)?"),
            ("searched in 31 bits", "crate::wrong::numbers(self).position(|n| n << 1 == number << 1)\
              .ok_or(Refusal::NotHeld)?"),
            ("searched in single floating point", "crate::wrong::numbers(self).position(|n| n as f32 == number as f32)\
              .ok_or(Refusal::NotHeld)?"),
            ("searched by seven digits", "crate::wrong::numbers(self)\
              .position(|n| n % 10_000_000 == number % 10_000_000).ok_or(Refusal::NotHeld)?"),
            ("searched by eight digits", "crate::wrong::numbers(self)\
              .position(|n| n % 100_000_000 == number % 100_000_000).ok_or(Refusal::NotHeld)?"),
            ("the nearest number is struck", "(0..self.held).min_by_key(|place| \
              self.places[*place].number.abs_diff(number)).ok_or(Refusal::NotHeld)?"),
            ("a strike of 0 is 10", "{ if number == 0 { return Err(Refusal::CarNumber); } \
              self.place_of(number).ok_or(Refusal::NotHeld)? }"),
            ("a strike past 99,999,999 is 10", "{ if number > 99_999_999 { return Err(Refusal::CarNumber); } \
              self.place_of(number).ok_or(Refusal::NotHeld)? }"),
            ("10 where 30 is due", "{ let gap = self.place_of(number).ok_or(Refusal::NotHeld); \
              if gap.is_err() && !(1..=99_999_999).contains(&number) { return Err(Refusal::CarNumber); } gap? }"),
            ("30 for a held number of 0", "self.place_of(number).filter(|_| number > 0).ok_or(Refusal::NotHeld)?"),
            ("30 for a held number past 99,999,999", "self.place_of(number).filter(|_| number <= 99_999_999)\
              .ok_or(Refusal::NotHeld)?"),
            ("9 in place of 30", "self.place_of(number).ok_or(Refusal::Count)?"),
            ("11 in place of 30", "self.place_of(number).ok_or(Refusal::CarTwice)?"),
            ("12 in place of 30", "self.place_of(number).ok_or(Refusal::Type)?"),
            ("9 for a strike on an empty train", "{ if self.held == 0 { return Err(Refusal::Count); } \
              self.place_of(number).ok_or(Refusal::NotHeld)? }"),
            ("9 for a strike on a full train", "{ if self.held == CARS { return Err(Refusal::Count); } \
              self.place_of(number).ok_or(Refusal::NotHeld)? }"),
            ("30 for a strike on a full train", "{ if self.held == CARS { return Err(Refusal::NotHeld); } \
              self.place_of(number).ok_or(Refusal::NotHeld)? }"),
            ("an unknown number is taken to be struck", "match self.place_of(number) \
              { Some(gap) => gap, None => return Ok(()) }"),
            ("an unknown number empties the last place", "match self.place_of(number) { Some(gap) => gap, \
              None => { self.places[CARS - 1] = Place::default(); return Err(Refusal::NotHeld) } }"),
        ],
    },
    Edit {
        module: "train",
        old: "let struck = «self.places[gap]»;",
        new: &[
            ("a struck number counts for 11", "crate::hooks::keep(number); self.places[gap]"),
            ("a struck number can be struck again", "crate::hooks::wait(number); self.places[gap]"),
            ("a struck car entered again has its old masses", "crate::wrong::bury(self.places[gap])"),
            ("the first car's masses are taken off", "self.places[0]"),
            ("the last car's masses are taken off", "self.places[self.held - 1]"),
            ("the next car's masses are taken off", "self.places[(gap + 1).min(self.held - 1)]"),
            ("gross taken off as net", "Place { net: self.places[gap].gross, ..self.places[gap] }"),
            ("net taken off as gross", "Place { gross: self.places[gap].net, ..self.places[gap] }"),
            ("masses in 16 bits", "Place { gross: self.places[gap].gross & 0xffff, \
              net: self.places[gap].net & 0xffff, ..self.places[gap] }"),
        ],
    },
    Edit {
        module: "train",
        old: "if «struck.is_accepted()» {",
        new: &[
            ("a refused car is taken off", "if !struck.is_accepted() && self.all.accepted > 0 \
              { self.all.accepted -= 1; } struck.is_accepted()"),
            ("a refused car's masses are taken off", "if !struck.is_accepted() { self.all = Totals { \
              gross: self.all.gross.wrapping_sub(struck.gross.into()), \
              net: self.all.net.wrapping_sub(struck.net.into()), ..self.all }; } struck.is_accepted()"),
            ("a car without mass is not taken off", "struck.gross > 0 && struck.is_accepted()"),
            ("a car with mass is taken off", "struck.gross > 0"),
        ],
    },
    Edit {
        module: "train",
        old: "«self.all.subtract(&struck);»",
        new: &[
            ("gross left in the total", "self.all.subtract(&Place { gross: 0, ..struck });"),
            ("net left in the total", "self.all.subtract(&Place { net: 0, ..struck });"),
            ("count left in the total", "self.all.subtract(&struck); self.all.accepted += 1;"),
            ("the totals emptied", "self.all = Totals::default();"),
        ],
    },
    Edit {
        module: "train",
        old: "self.grades[«struck.grade as usize - 1»].subtract(&struck);",
        new: &[
            ("taken off the next grade", "struck.grade as usize % 4"),
            ("taken off the grade before", "(struck.grade as usize + 2) % 4"),
            ("taken off grade 1", "0"),
            ("taken off grade 2", "1"),
            ("taken off grade 3", "2"),
            ("taken off grade 4", "3"),
        ],
    },
    Edit {
        module: "train",
        old: "«self.grades[struck.grade as usize - 1].subtract(&struck);»",
        new: &[
            ("gross left in its grade", "self.grades[struck.grade as usize - 1]\
              .subtract(&Place { gross: 0, ..struck });"),
            ("net left in its grade", "self.grades[struck.grade as usize - 1]\
              .subtract(&Place { net: 0, ..struck });"),
            ("count left in its grade", "self.grades[struck.grade as usize - 1].subtract(&struck); \
              self.grades[struck.grade as usize - 1].accepted += 1;"),
            ("its grade emptied", "self.grades[struck.grade as usize - 1] = Totals::default();"),
        ],
    },
    Edit {
        module: "train",
        old: "«self.places.copy_within(gap + 1.., gap);\n        self.places[CARS - 1] = Place::default();\n        \
              self.held -= 1;»",
        new: &[
            ("the gap stays", "self.places[gap] = Place::default();"),
            ("the number stays", "self.places[gap] = Place { number, ..Place::default() };"),
            ("the number stays, its masses too", ""),
            ("the gap stays, one less is held", "self.places[gap] = Place::default(); self.held -= 1;"),
            ("the last car takes the place", "self.places[gap] = self.places[self.held - 1]; \
              self.places[self.held - 1..].rotate_left(1); self.places[CARS - 1] = Place::default(); \
              self.held -= 1;"),
            ("what is behind is turned round", "self.places.copy_within(gap + 1.., gap); \
              self.places[CARS - 1] = Place::default(); self.held -= 1; self.places[gap..self.held].reverse();"),
            ("free places are not moved", "self.places.copy_within(gap + 1..self.held, gap); \
              self.held -= 1; self.places[self.held] = Place::default();"),
            ("free places are not moved, the last held stays", "self.places.copy_within(gap + 1..self.held, gap); \
              self.held -= 1;"),
            ("free places are cleared", "self.places.copy_within(gap + 1.., gap); self.held -= 1; \
              self.places[self.held..].fill(Place::default());"),
            ("the struck car goes to the last place", "self.places[gap..].rotate_left(1); self.held -= 1;"),
            ("the struck car goes behind those held", "self.places[gap..self.held].rotate_left(1); self.held -= 1;"),
            ("numbers alone move up", "crate::wrong::move_up(&mut self.places, gap, |to, from| to.number = from.number); self.held -= 1;"),
            ("masses alone move up", "crate::wrong::move_up(&mut self.places, gap, |to, from| \
              *to = Place { number: to.number, ..*from }); self.held -= 1;"),
            ("grades do not move up", "crate::wrong::move_up(&mut self.places, gap, |to, from| \
              *to = Place { grade: to.grade, ..*from }); self.held -= 1;"),
            ("gross does not move up", "crate::wrong::move_up(&mut self.places, gap, |to, from| \
              *to = Place { gross: to.gross, ..*from }); self.held -= 1;"),
            ("net does not move up", "crate::wrong::move_up(&mut self.places, gap, |to, from| \
              *to = Place { net: to.net, ..*from }); self.held -= 1;"),
            ("one car alone moves up", "if gap + 1 < CARS { self.places[gap] = self.places[gap + 1]; } \
              self.places[CARS - 1] = Place::default(); self.held -= 1;"),
            ("the places before move down", "self.places.copy_within(..gap, 1); \
              self.places[0] = Place::default(); self.held -= 1;"),
            ("a full train stays full", "self.places.copy_within(gap + 1.., gap); \
              self.places[CARS - 1] = Place::default(); if self.held < CARS { self.held -= 1; }"),
            ("what is behind is lost", "self.places[gap..].fill(Place::default()); self.held = gap;"),
        ],
    },
    Edit {
        module: "train",
        old: "«self.places[CARS - 1] = Place::default();»",
        new: &[
            ("the last place keeps its number", "self.places[CARS - 1] = Place { \
              number: self.places[CARS - 1].number, ..Place::default() };"),
            ("the last place keeps its masses", "self.places[CARS - 1].number = 0; self.places[CARS - 1].grade = 0;"),
            ("the last place keeps its grade", "self.places[CARS - 1] = Place { \
              grade: self.places[CARS - 1].grade, ..Place::default() };"),
            ("the last place is cleared on a full train only", "if self.held == CARS \
              { self.places[CARS - 1] = Place::default(); }"),
            ("the place behind those held is cleared too", "self.places[CARS - 1] = Place::default(); \
              self.places[self.held - 1] = Place::default();"),
        ],
    },
    Edit {
        module: "train",
        old: "let Some(held) = «self.places.get(..self.held)» else",
        new: &[
            ("sixty numbers are too many", "self.places.get(..self.held).filter(|held| held.len() < 60)"),
            ("the first held car is not looked at", "self.places.get(..self.held).map(|held| \
              held.get(1..).unwrap_or_default())"),
            ("the last held car is not looked at", "self.places.get(..self.held).map(|held| \
              &held[..held.len().saturating_sub(1)])"),
            ("one car more is looked at", "self.places.get(..self.held).map(|held| \
              &self.places[..(held.len() + 1).min(CARS)])"),
            ("all sixty places are looked at", "self.places.get(..self.held).map(|_| &self.places[..])"),
            ("the first thirty-two are looked at", "self.places.get(..self.held).map(|held| &held[..held.len().min(32)])"),
            ("counts in 8 bits", "match crate::wrong::in_bits(self, 8, 64) \
              { cut if cut != *self => return cut.is_sound(), _ => self.places.get(..self.held) }"),
            ("counts in 16 bits", "match crate::wrong::in_bits(self, 16, 64) \
              { cut if cut != *self => return cut.is_sound(), _ => self.places.get(..self.held) }"),
            ("counts in 31 bits", "match crate::wrong::in_bits(self, 31, 64) \
              { cut if cut != *self => return cut.is_sound(), _ => self.places.get(..self.held) }"),
            ("totals in 24 bits", "match crate::wrong::in_bits(self, 32, 24) \
              { cut if cut != *self => return cut.is_sound(), _ => self.places.get(..self.held) }"),
            ("totals in 31 bits", "match crate::wrong::in_bits(self, 32, 31) \
              { cut if cut != *self => return cut.is_sound(), _ => self.places.get(..self.held) }"),
            ("totals in 32 bits", "match crate::wrong::in_bits(self, 32, 32) \
              { cut if cut != *self => return cut.is_sound(), _ => self.places.get(..self.held) }"),
            ("totals in 63 bits", "match crate::wrong::in_bits(self, 32, 63) \
              { cut if cut != *self => return cut.is_sound(), _ => self.places.get(..self.held) }"),
        ],
    },
    Edit {
        module: "train",
        old: "«self.all.accepted as usize <= CARS»",
        new: &[
            ("fewer than sixty accepted cars", "self.all.accepted < 60"),
        ],
    },
    Edit {
        module: "train",
        old: "«self.all.gross.max(self.all.net) <= LARGEST_TOTAL»",
        new: &[
            ("totals have no limit", "true"),
            ("12,000,000 is too much", "self.all.gross.max(self.all.net) < LARGEST_TOTAL"),
            ("12,000,001 is taken", "self.all.gross.max(self.all.net) <= LARGEST_TOTAL + 1"),
            ("gross alone has a limit", "self.all.gross <= LARGEST_TOTAL"),
            ("net alone has a limit", "self.all.net <= LARGEST_TOTAL"),
            ("gross and net together have a limit", "u128::from(self.all.gross) + u128::from(self.all.net) <= 12_000_000"),
            ("the lesser has a limit", "self.all.gross.min(self.all.net) <= LARGEST_TOTAL"),
            ("each grade has a limit", "self.grades.iter().all(|of| of.gross.max(of.net) <= LARGEST_TOTAL)"),
            ("each held car has a limit", "crate::wrong::held(self).all(|car| u64::from(car.gross.max(car.net)) <= 200_000)"),
        ],
    },
    Edit {
        module: "train",
        old: "filter(|car| «car.is_accepted()»)",
        new: &[
            ("cars with masses counted", "car.is_accepted() || car.gross > 0"),
            ("cars without mass not counted", "car.is_accepted() && car.gross > 0"),
            ("cars of another grade passed", "(1..=4).contains(&car.grade)"),
            ("cars of grade 5 passed", "(1..=4).contains(&car.grade) || car.grade > 5"),
            ("numbers of 0 not counted", "car.is_accepted() && car.number > 0"),
            ("numbers past 99,999,999 not counted", "car.is_accepted() && car.number <= 99_999_999"),
        ],
    },
    Edit {
        module: "train",
        old: "grades.get_mut(«car.grade as usize - 1»)",
        new: &[
            ("other grades are grade 4", "(car.grade as usize - 1).min(3)"),
            ("other grades are grade 1", "(car.grade as usize - 1) % 5 % 4"),
            ("grades in 2 bits", "(car.grade as usize - 1) & 3"),
            ("grades in 8 bits", "(car.grade as u8 as usize).wrapping_sub(1)"),
        ],
    },
    Edit {
        module: "train",
        old: "«self.all == all && self.grades == grades && self.adds_up()»",
        new: &[
            ("masses beside grade 0 counted", "for car in held.iter().filter(|car| !car.is_accepted()) { \
              all.gross += u64::from(car.gross); all.net += u64::from(car.net); } \
              self.all == all && self.grades == grades"),
            ("counts not compared", "crate::wrong::same(self, (all, grades), |_, part, a, b| part == 0 || a == b)"),
            ("gross not compared", "crate::wrong::same(self, (all, grades), |_, part, a, b| part == 1 || a == b)"),
            ("net not compared", "crate::wrong::same(self, (all, grades), |_, part, a, b| part == 2 || a == b)"),
            ("count of all not compared", "crate::wrong::same(self, (all, grades), |of, part, a, b| (of, part) == (0, 0) || a == b)"),
            ("gross of all not compared", "crate::wrong::same(self, (all, grades), |of, part, a, b| (of, part) == (0, 1) || a == b)"),
            ("net of all not compared", "crate::wrong::same(self, (all, grades), |of, part, a, b| (of, part) == (0, 2) || a == b)"),
            ("counts of grades not compared", "crate::wrong::same(self, (all, grades), |of, part, a, b| of > 0 && part == 0 || a == b)"),
            ("gross of grades not compared", "crate::wrong::same(self, (all, grades), |of, part, a, b| of > 0 && part == 1 || a == b)"),
            ("net of grades not compared", "crate::wrong::same(self, (all, grades), |of, part, a, b| of > 0 && part == 2 || a == b)"),
            ("all not compared", "crate::wrong::same(self, (all, grades), |of, _, a, b| of == 0 || a == b)"),
            ("grades not compared", "crate::wrong::same(self, (all, grades), |of, _, a, b| of > 0 || a == b)"),
            ("grade 1 not compared", "crate::wrong::same(self, (all, grades), |of, _, a, b| of == 1 || a == b)"),
            ("grade 2 not compared", "crate::wrong::same(self, (all, grades), |of, _, a, b| of == 2 || a == b)"),
            ("grade 3 not compared", "crate::wrong::same(self, (all, grades), |of, _, a, b| of == 3 || a == b)"),
            ("grade 4 not compared", "crate::wrong::same(self, (all, grades), |of, _, a, b| of == 4 || a == b)"),
            ("totals may be less", "crate::wrong::same(self, (all, grades), |_, _, a, b| a <= b)"),
            ("totals may be more", "crate::wrong::same(self, (all, grades), |_, _, a, b| a >= b)"),
            ("totals compared in 16 bits", "crate::wrong::same(self, (all, grades), |_, _, a, b| a as u16 == b as u16)"),
            ("totals compared in 24 bits", "crate::wrong::same(self, (all, grades), |_, _, a, b| a << 40 == b << 40)"),
            ("totals compared in 31 bits", "crate::wrong::same(self, (all, grades), |_, _, a, b| a << 33 == b << 33)"),
            ("totals compared in 32 bits", "crate::wrong::same(self, (all, grades), |_, _, a, b| a as u32 == b as u32)"),
            ("gross compared in 32 bits", "crate::wrong::same(self, (all, grades), |_, part, a, b| \
              a == b || part == 1 && a as u32 == b as u32)"),
            ("net compared in 32 bits", "crate::wrong::same(self, (all, grades), |_, part, a, b| \
              a == b || part == 2 && a as u32 == b as u32)"),
            ("totals of all compared in 32 bits", "crate::wrong::same(self, (all, grades), |of, _, a, b| \
              a == b || of == 0 && a as u32 == b as u32)"),
            ("totals of grades compared in 32 bits", "crate::wrong::same(self, (all, grades), |of, _, a, b| \
              a == b || of > 0 && a as u32 == b as u32)"),
            ("counts compared in 8 bits", "crate::wrong::same(self, (all, grades), |_, part, a, b| \
              a == b || part == 0 && a as u8 == b as u8)"),
            ("counts compared in 16 bits", "crate::wrong::same(self, (all, grades), |_, part, a, b| \
              a == b || part == 0 && a as u16 == b as u16)"),
            ("grades compared by their sums", "self.all == all && self.adds_up()"),
            ("grades compared by their sums in 64 bits", "self.all == all && crate::wrong::adds_up(self)"),
            ("grades compared by their sums in 32 bits", "self.all == all && crate::wrong::adds_up_in_32_bits(self)"),
            ("held cars not compared", "self.adds_up()"),
            ("held cars not compared, grades by their sums in 64 bits", "crate::wrong::adds_up(self)"),
            ("held cars counted only", "self.adds_up() && self.all.accepted == all.accepted"),
            ("no more accepted than held", "self.adds_up() && self.all.accepted as usize <= self.held"),
        ],
    },
    Edit {
        module: "train",
        old: "|place: usize| «held[..place].iter().any(|earlier| earlier.number == held[place].number)»;",
        new: &[
            ("neighbours alone compared", "place > 0 && held[place - 1].number == held[place].number"),
            ("the first alone compared", "place > 0 && held[0].number == held[place].number"),
            ("the last alone compared", "place + 1 == held.len() \
              && held[..place].iter().any(|earlier| earlier.number == held[place].number)"),
            ("the first is not compared", "held[..place].iter().skip(1).any(|earlier| earlier.number == held[place].number)"),
            ("accepted cars alone compared", "held[..place].iter().any(|earlier| earlier.is_accepted() \
              && held[place].is_accepted() && earlier.number == held[place].number)"),
            ("refused cars alone compared", "held[..place].iter().any(|earlier| !earlier.is_accepted() \
              && !held[place].is_accepted() && earlier.number == held[place].number)"),
            ("cars of one kind alone compared", "held[..place].iter().any(|earlier| earlier.is_accepted() \
              == held[place].is_accepted() && earlier.number == held[place].number)"),
            ("cars of one grade alone compared", "held[..place].iter().any(|earlier| earlier.grade \
              == held[place].grade && earlier.number == held[place].number)"),
            ("equal cars alone compared", "held[..place].contains(&held[place])"),
            ("numbers of 0 not compared", "held[place].number > 0 \
              && held[..place].iter().any(|earlier| earlier.number == held[place].number)"),
            ("numbers past 99,999,999 not compared", "held[place].number <= 99_999_999 \
              && held[..place].iter().any(|earlier| earlier.number == held[place].number)"),
            ("the first thirty-two compared", "place < 32 \
              && held[..place].iter().any(|earlier| earlier.number == held[place].number)"),
            ("compared in 16 bits", "held[..place].iter().any(|earlier| earlier.number as u16 == held[place].number as u16)"),
            ("compared in 24 bits", "held[..place].iter().any(|earlier| earlier.number << 8 == held[place].number << 8)"),
            ("compared in 31 bits", "held[..place].iter().any(|earlier| earlier.number << 1 == held[place].number << 1)"),
            ("compared in single floating point", "held[..place].iter().any(|earlier| \
              earlier.number as f32 == held[place].number as f32)"),
            ("compared by eight digits", "held[..place].iter().any(|earlier| \
              earlier.number % 100_000_000 == held[place].number % 100_000_000)"),
        ],
    },
    Edit {
        module: "permitted",
        old: "table.steps(«u64::from(figures.level)»)",
        new: &[
            ("steps around the water level", "10 * u64::from(car.water_level.max(1))"),
            ("steps around the first reading", "10 * u64::from(crate::wrong::dip(car).1[0])"),
            ("steps around the level cut to mm", "u64::from(figures.level / 10 * 10).max(1)"),
            ("steps around the nearest mm", "u64::from((figures.level + 5) / 10 * 10).max(1)"),
            ("steps around the next mm", "u64::from(figures.level.div_ceil(10) * 10)"),
            ("steps around tenths as mm", "(10 * u64::from(figures.level)).min(\
              10 * u64::from(table.last_level()))"),
        ],
    },
    Edit {
        module: "permitted",
        old: "level_term(errors.level, steps, «figures.volume»)?",
        new: &[
            ("by V15", "figures.volume_at_15"),
            ("by V0 with the water", "table.capacity(u64::from(figures.level)) as u32"),
            ("by the capacity at the mean cut to mm", "(table.capacity(u64::from(figures.level / 10 * 10)) \
              - table.capacity(10 * u64::from(car.water_level))) as u32"),
        ],
    },
    Edit {
        module: "permitted",
        old: "«u64::from(steps.level) * u64::from(volume)»,\n    );",
        new: &[("level step in tenths", "10 * u64::from(steps.level) * u64::from(volume)")],
    },
    Edit {
        module: "permitted",
        old: "is_within(limit, «figures.gross»)",
        new: &[
            ("within by net", "figures.net"),
            ("within by the volume", "figures.volume_at_15 / 100"),
        ],
    },
    Edit {
        module: "permitted",
        old: "let limit = «limit(terms.squares)»;",
        new: &[
            ("in double floating point", "(1.1 * (terms.squares as f64).sqrt()).ceil() as u64"),
            ("to the nearest", "(1.1 * (terms.squares as f64).sqrt()).round() as u64"),
            (
                "from a root rounded up",
                "(11 * (terms.squares as f64).sqrt().ceil() as u64).div_ceil(10)",
            ),
            (
                "by 1.21 in single floating point",
                "(1.21 * terms.squares as f32).sqrt().ceil() as u64",
            ),
        ],
    },
    Edit {
        module: "permitted",
        old: "ensure(«relative <= HIGHEST_RELATIVE»,",
        new: &[("24 in 16 bits", "relative as u16 <= 10_000")],
    },
    Edit {
        module: "permitted",
        old: "ensure(«temperature <= HIGHEST_TEMPERATURE»,",
        new: &[("24 in 16 bits", "temperature as u16 <= 20")],
    },
    Edit {
        module: "permitted",
        old: "ensure(«self.level <= HIGHEST_LEVEL»,",
        new: &[("24 in 16 bits", "self.level as u16 <= 100")],
    },
    Edit {
        module: "permitted",
        old: "ensure(«volume > 0»,",
        new: &[
            (
                "no volume is accepted without an error",
                "if volume == 0 && error == 0 { return Ok(0); } volume > 0",
            ),
            ("no volume is accepted", "if volume == 0 { return Ok(0); } true"),
        ],
    },
    Edit {
        module: "permitted",
        old: "ensure(«term <= LARGEST_LEVEL_TERM»,",
        new: &[
            (
                "25 before rounding",
                "10_000_000 * u64::from(error) * u64::from(steps.capacity) \
                 <= LARGEST_LEVEL_TERM * u64::from(steps.level) * u64::from(volume)",
            ),
            ("25 in 16 bits", "term as u16 <= 10_000"),
        ],
    },
    Edit {
        module: "permitted",
        old: "temperature_term(coefficient, «errors.density_temperature»)",
        new: &[("by the oil error", "errors.oil_temperature")],
    },
    Edit {
        module: "permitted",
        old: "temperature_term(coefficient, «errors.oil_temperature»)",
        new: &[("by the density error", "errors.density_temperature")],
    },
    Edit {
        module: "permitted",
        old: "= «nearest(u64::from(errors.density) * factor, MILLION)»;",
        new: &[("without G", "u64::from(errors.density)")],
    },
    Edit {
        module: "permitted",
        old: "= «nearest(density_temperature * factor, MILLION)»;",
        new: &[
            ("without G", "density_temperature"),
            (
                "rounded once",
                "nearest(coefficient * u64::from(errors.density_temperature) * factor, \
                 10_000 * MILLION)",
            ),
        ],
    },
    Edit {
        module: "permitted",
        old: "+ «oil_temperature.pow(2)»",
        new: &[("times G", "nearest(oil_temperature * factor, MILLION).pow(2)")],
    },
    Edit {
        module: "permitted",
        old: "«nearest(MILLION * at(temperature), at(150))»",
        new: &[
            ("upside down", "nearest(MILLION * at(150), at(temperature))"),
            ("20 degrees below", "nearest(MILLION * at(temperature), at(200))"),
            ("1", "MILLION"),
            ("in thousandths", "1_000 * nearest(1_000 * at(temperature), at(150))"),
            ("not rounded up", "MILLION * at(temperature) / at(150)"),
        ],
    },
    Edit {
        module: "laboratory",
        old: "ensure(«TEMPERATURES.contains(&temperature)»,",
        new: &[
            ("26 from 400", "(400..=900).contains(&temperature)"),
            ("26 not below 200", "(150..=900).contains(&temperature)"),
            ("26 not above 900", "temperature >= 200"),
            ("26 in 16 bits", "(200..=900).contains(&(temperature as u16))"),
        ],
    },
    Edit {
        module: "laboratory",
        old: "let tenths = «temperature - 150»;",
        new: &[
            ("from 20 °C", "temperature - 200"),
            ("the temperature itself", "temperature"),
            ("whole degrees", "temperature / 10 * 10 - 150"),
            ("always 20 °C", "50"),
        ],
    },
    Edit {
        module: "laboratory",
        old: "(density, «density_at(density, tenths)»)",
        new: &[
            ("divided by E", "crate::wrong::comes_to(density.0, tenths, 0)"),
            ("cut", "crate::wrong::comes_to(density.0, tenths, 1)"),
            ("B of the field below", "crate::wrong::comes_to(density.0, tenths, 2)"),
            ("B of the field above", "crate::wrong::comes_to(density.0, tenths, 3)"),
            ("B of 9,500", "crate::wrong::comes_to(density.0, tenths, 4)"),
            ("1 less B times d", "crate::wrong::comes_to(density.0, tenths, 5)"),
            ("in double floating point", "crate::wrong::comes_to(density.0, tenths, 6)"),
            ("in single floating point", "crate::wrong::comes_to(density.0, tenths, 7)"),
        ],
    },
    Edit {
        module: "laboratory",
        old: "let apart = «comes_to.abs_diff(reported)»;",
        new: &[
            ("report in 16 bits", "comes_to.abs_diff(reported & 0xffff)"),
            ("report in 31 bits", "comes_to.abs_diff(reported & 0x7fff_ffff)"),
            ("report without its sign", "comes_to.abs_diff((reported as i32).unsigned_abs())"),
            ("only from above", "comes_to.wrapping_sub(reported)"),
            ("only from below", "reported.wrapping_sub(comes_to)"),
        ],
    },
    Edit {
        module: "laboratory",
        old: "if «apart < least» {",
        new: &[
            ("the larger of a tie", "apart < least || (apart == 1 && least == 1)"),
            ("the last that is not above", "comes_to <= reported"),
        ],
    },
    Edit {
        module: "laboratory",
        old: "Ok(«found»)",
        new: &[
            ("in whole kilograms", "Density15((found.0 + 5) / 10 * 10)"),
            ("the next field", "Density15(found.0 + 1)"),
        ],
    },
    Edit {
        module: "stick",
        old: "ensure(«COUNTS.contains(&count)»,",
        new: &[
            ("28 not below 10", "count <= 20"),
            ("28 not above 20", "count >= 10"),
            ("28 in 8 bits", "COUNTS().contains(&(count & 0xff))"),
            ("28 in 16 bits", "COUNTS().contains(&(count & 0xffff))"),
            ("28 in 31 bits", "COUNTS().contains(&(count & 0x7fff_ffff))"),
            ("28 without a sign", "COUNTS().contains(&(count as i32).unsigned_abs())"),
            ("28 by the places that are not 0", "COUNTS().contains(&(readings.iter()\
              .filter(|&&reading| reading != 0).count() as u32))"),
        ],
    },
    Edit {
        module: "stick",
        old: "contains(&count), «Refusal::TapeReadingCount»)",
        new: &[
            ("29 in place of 28", "Refusal::StickOrTapeLevel"),
            ("14 in place of 28", "Refusal::ReadingCount"),
        ],
    },
    Edit {
        module: "stick",
        old: "take(«count as usize»)",
        new: &[
            ("all places", "TAPE_READINGS"),
            ("the first ten", "10"),
            ("one place less", "count as usize - 1"),
            ("one place more", "count as usize + 1"),
        ],
    },
    Edit {
        module: "stick",
        old: "ensure(«given.clone().all(|reading| READINGS.contains(reading))»,",
        new: &[
            ("readings not tested", "true"),
            ("first reading not tested", "given.clone().skip(1).all(|r| READINGS().contains(r))"),
            ("last reading not tested", "given.clone().take(count as usize - 1)\
              .all(|r| READINGS().contains(r))"),
            ("first ten readings tested", "given.clone().take(10).all(|r| READINGS().contains(r))"),
            ("any reading fits", "given.clone().any(|r| READINGS().contains(r))"),
            ("lowest reading tested", "given.clone().min().is_some_and(|r| READINGS().contains(r))"),
            ("highest reading tested", "given.clone().max().is_some_and(|r| READINGS().contains(r))"),
            ("mean tested", "READINGS().contains(&((given.clone().copied().map(u64::from)\
              .sum::<u64>() / u64::from(count)) as u32))"),
            ("reading of 0 taken", "given.clone().all(|&r| r <= HIGHEST)"),
            ("reading of 3,601 taken", "given.clone().all(|&r| r > 0 && r <= HIGHEST + 1)"),
            ("readings up to 36,000 taken", "given.clone().all(|&r| r > 0 && r <= 36_000)"),
            ("readings from 10 taken", "given.clone().all(|&r| r >= 10 && r <= HIGHEST)"),
            ("all places tested", "readings.iter().all(|r| READINGS().contains(r))"),
            ("unused places must be 0", "given.clone().all(|r| READINGS().contains(r)) \
              && readings.iter().skip(count as usize).all(|&unused| unused == 0)"),
            ("readings in 16 bits", "{ let cut = readings.map(|r| r & 0xffff); \
              if cut != readings { return stick_against_tape(stick, count, cut); } \
              given.clone().all(|r| READINGS().contains(r)) }"),
            ("readings in 31 bits", "{ let cut = readings.map(|r| r & 0x7fff_ffff); \
              if cut != readings { return stick_against_tape(stick, count, cut); } \
              given.clone().all(|r| READINGS().contains(r)) }"),
            ("readings without their sign", "{ let cut = readings.map(|r| (r as i32).unsigned_abs()); \
              if cut != readings { return stick_against_tape(stick, count, cut); } \
              given.clone().all(|r| READINGS().contains(r)) }"),
        ],
    },
    Edit {
        module: "stick",
        old: "contains(reading)), «Refusal::StickOrTapeLevel»)",
        new: &[
            ("28 in place of 29 for a reading", "Refusal::TapeReadingCount"),
            ("16 in place of 29 for a reading", "Refusal::Level"),
        ],
    },
    Edit {
        module: "stick",
        old: "ensure(«has_allowance(stick)»,",
        new: &[
            ("stick not tested", "true"),
            ("stick of 0 taken", "if stick == 0 { return stick_against_tape(10, count, readings); } \
              has_allowance(stick)"),
            ("stick of 9 taken", "if stick == 9 { return stick_against_tape(10, count, readings); } \
              has_allowance(stick)"),
            ("stick below 1 mm taken", "if (1..10).contains(&stick) \
              { return stick_against_tape(10, count, readings); } has_allowance(stick)"),
            ("stick of 36,001 taken", "if stick == 36_001 \
              { return stick_against_tape(36_000, count, readings); } has_allowance(stick)"),
            ("stick of 3,600 mm and tenths taken", "if (36_001..36_010).contains(&stick) \
              { return stick_against_tape(36_000, count, readings); } has_allowance(stick)"),
            ("stick of 1 to 3,600", "(1..=3_600).contains(&stick)"),
            ("stick in whole mm only", "stick % 10 == 0 && has_allowance(stick)"),
            ("stick in 16 bits", "if stick > 0xffff \
              { return stick_against_tape(stick & 0xffff, count, readings); } \
              has_allowance(stick)"),
            ("stick in 31 bits", "if stick > 0x7fff_ffff \
              { return stick_against_tape(stick & 0x7fff_ffff, count, readings); } \
              has_allowance(stick)"),
            ("stick in 32 bits", "if stick > 0xffff_ffff \
              { return stick_against_tape(stick & 0xffff_ffff, count, readings); } \
              has_allowance(stick)"),
            ("stick in 48 bits", "if stick >> 48 > 0 \
              { return stick_against_tape(stick & 0xffff_ffff_ffff, count, readings); } \
              has_allowance(stick)"),
            ("stick in 63 bits", "if stick >> 63 > 0 \
              { return stick_against_tape(stick & (u64::MAX >> 1), count, readings); } \
              has_allowance(stick)"),
            ("stick without its sign in 32 bits", "if stick as u32 > 0x8000_0000 \
              { return stick_against_tape((stick as u32).wrapping_neg().into(), count, readings); } \
              has_allowance(stick)"),
            ("stick without its sign", "if stick > 1 << 63 \
              { return stick_against_tape(stick.wrapping_neg(), count, readings); } \
              has_allowance(stick)"),
        ],
    },
    Edit {
        module: "stick",
        old: "has_allowance(stick), «Refusal::StickOrTapeLevel»)",
        new: &[
            ("28 in place of 29 for the stick", "Refusal::TapeReadingCount"),
            ("16 in place of 29 for the stick", "Refusal::Level"),
        ],
    },
    Edit {
        module: "stick",
        old: "let sum: u64 = «given.copied().map(in_tenths).sum()»;",
        new: &[
            ("of all places", "readings.iter().copied().map(in_tenths).sum()"),
            ("of the first ten", "given.take(10).copied().map(in_tenths).sum()"),
            ("without the first", "given.skip(1).copied().map(in_tenths).sum()"),
            ("without the last", "given.take(count as usize - 1).copied().map(in_tenths).sum()"),
            ("by the first reading", "in_tenths(readings[0]) * u64::from(count)"),
            ("by the last reading", "in_tenths(readings[count as usize - 1]) * u64::from(count)"),
            ("by the lowest reading", "given.min().map_or(0, |&r| in_tenths(r)) * u64::from(count)"),
            ("by the highest reading", "given.max().map_or(0, |&r| in_tenths(r)) * u64::from(count)"),
            ("in 8 bits", "10 * u64::from(given.fold(0_u8, |sum, &r| sum.wrapping_add(r as u8)))"),
            ("in 16 bits", "10 * u64::from(given.fold(0_u16, |sum, &r| sum.wrapping_add(r as u16)))"),
            ("in 16 bits with a sign", "(10 * i64::from(given.fold(0_i16, \
              |sum, &r| sum.wrapping_add(r as i16)))) as u64"),
            ("times ten in 16 bits", "u64::from(given.fold(0_u16, \
              |sum, &r| sum.wrapping_add(10 * r as u16)))"),
            ("by the mean in whole mm", "10 * nearest(given.copied().map(u64::from).sum(), count.into()) \
              * u64::from(count)"),
            ("by the mean cut to whole mm", "given.copied().map(u64::from).sum::<u64>() / u64::from(count) \
              * in_tenths(count)"),
            ("by the mean in tenths", "nearest(given.copied().map(in_tenths).sum(), count.into()) \
              * u64::from(count)"),
            ("readings not times ten", "given.copied().map(u64::from).sum()"),
        ],
    },
    Edit {
        module: "stick",
        old: "let apart = «(stick * u64::from(count)) as i64 - sum as i64»;",
        new: &[
            ("stick times readings in 16 bits", "i64::from((stick * u64::from(count)) as u16) - sum as i64"),
            ("in 16 bits with a sign", "i64::from(((stick * u64::from(count)) as i64 - sum as i64) as i16)"),
            ("without its sign", "((stick * u64::from(count)) as i64 - sum as i64).abs()"),
            ("not below 0", "((stick * u64::from(count)) as i64 - sum as i64).max(0)"),
            ("stick times ten", "(10 * stick * u64::from(count)) as i64 - sum as i64"),
            ("stick cut to mm", "(stick / 10 * 10 * u64::from(count)) as i64 - sum as i64"),
            ("stick to the nearest mm", "((stick + 5) / 10 * 10 * u64::from(count)) as i64 - sum as i64"),
            ("stick up to the next mm", "(stick.div_ceil(10) * 10 * u64::from(count)) as i64 - sum as i64"),
        ],
    },
    Edit {
        module: "stick",
        old: "difference: «hundredths(apart, count)»,",
        new: &[
            ("mean over 20", "hundredths(20 * stick as i64 - sum as i64, 20)"),
            ("mean over 10", "hundredths(10 * stick as i64 - sum as i64, 10)"),
            ("in whole mm", "100 * hundredths(apart, 100 * count)"),
            ("in tenths", "10 * hundredths(apart, 10 * count)"),
            ("shown in tenths", "hundredths(apart, 10 * count)"),
            ("shown in micrometres", "hundredths(10 * apart, count)"),
            ("by the mean in 0.01 mm", "10 * stick as i64 - nearest(10 * sum, count.into()) as i64"),
            ("by the mean in 0.1 mm", "10 * stick as i64 - 10 * nearest(sum, count.into()) as i64"),
            ("in double floating point", "(10.0 * (stick as f64 - sum as f64 / f64::from(count)))\
              .round() as i64"),
            ("in mm and double floating point", "(100.0 * (stick as f64 / 10.0 \
              - sum as f64 / 10.0 / f64::from(count))).round() as i64"),
            ("in single floating point", "(10.0 * (stick as f32 - sum as f32 / count as f32))\
              .round() as i64"),
            ("in 8 bits", "i64::from(hundredths(apart, count) as i8)"),
            ("in 16 bits", "i64::from(hundredths(apart, count) as u16)"),
            ("in 16 bits with a sign", "i64::from(hundredths(apart, count) as i16)"),
            ("without its sign", "hundredths(apart, count).abs()"),
            ("with the allowance", "hundredths(apart, count) + i64::from(tape_allowance(stick)?)"),
            ("less the allowance", "hundredths(apart, count) - i64::from(tape_allowance(stick)?)"),
        ],
    },
    Edit {
        module: "stick",
        old: "let passes = «apart.unsigned_abs() <= FURTHEST * u64::from(count)»;",
        new: &[
            ("by the rounded difference", "hundredths(apart, count).abs() <= 200"),
            ("2 mm fails", "hundredths(apart, count).abs() < 200"),
            ("201 passes", "hundredths(apart, count).abs() <= 201"),
            ("205 passes", "hundredths(apart, count).abs() <= 205"),
            ("210 passes", "hundredths(apart, count).abs() <= 210"),
            ("in double floating point", "(stick as f64 - sum as f64 / f64::from(count)).abs() <= 20.0"),
            ("in mm and double floating point", "(stick as f64 / 10.0 \
              - sum as f64 / 10.0 / f64::from(count)).abs() <= 2.0"),
            ("by the difference cut to tenths", "apart.unsigned_abs() / u64::from(count) <= 20"),
            ("by the difference in tenths", "hundredths(apart, 10 * count).abs() <= 20"),
            ("by the difference in tenths, a half down", "(2 * apart.unsigned_abs() \
              + u64::from(count) - 1) / (2 * u64::from(count)) <= 20"),
            ("by the difference cut to whole mm", "apart.unsigned_abs() / in_tenths(count) <= 2"),
            ("by the difference in whole mm", "nearest(apart.unsigned_abs(), in_tenths(count)) <= 2"),
            ("by the mean in whole mm", "stick.abs_diff(10 * nearest(sum, in_tenths(count))) <= 20"),
            ("by the mean in tenths", "stick.abs_diff(nearest(sum, count.into())) <= 20"),
            ("by the stick cut to mm", "((stick / 10 * 10 * u64::from(count)) as i64 - sum as i64)\
              .unsigned_abs() <= 20 * u64::from(count)"),
            ("by the stick to the nearest mm", "(((stick + 5) / 10 * 10 * u64::from(count)) as i64 \
              - sum as i64).unsigned_abs() <= 20 * u64::from(count)"),
            ("by the stick up to the next mm", "((stick.div_ceil(10) * 10 * u64::from(count)) as i64 \
              - sum as i64).unsigned_abs() <= 20 * u64::from(count)"),
            ("2 tenths at most", "apart.unsigned_abs() <= 2 * u64::from(count)"),
            ("20 mm at most", "apart.unsigned_abs() <= 200 * u64::from(count)"),
            ("not where the stick is below", "apart <= 20 * i64::from(count)"),
            ("not where the stick is above", "-apart <= 20 * i64::from(count)"),
            ("by the allowance", "hundredths(apart, count).unsigned_abs() <= tape_allowance(stick)?.into()"),
            ("by the allowance too", "hundredths(apart, count).unsigned_abs() \
              <= 200 + u64::from(tape_allowance(stick)?)"),
            ("less the allowance", "hundredths(apart, count).unsigned_abs() \
              + u64::from(tape_allowance(stick)?) <= 200"),
            ("by every reading", "readings.iter().take(count as usize)\
              .all(|&r| in_tenths(r).abs_diff(stick) <= 20)"),
            ("by any reading", "readings.iter().take(count as usize)\
              .any(|&r| in_tenths(r).abs_diff(stick) <= 20)"),
            ("by the sum over 20", "apart.unsigned_abs() <= 400"),
            ("by the sum over 10", "apart.unsigned_abs() <= 200"),
        ],
    },
    Edit {
        module: "stick",
        old: "allowance: «tape_allowance(stick)?»,",
        new: &[
            ("of the mean", "tape_allowance(sum.div_ceil(count.into()))?"),
            ("of the first reading", "tape_allowance(in_tenths(readings[0]))?"),
            ("of the last reading", "tape_allowance(in_tenths(readings[count as usize - 1]))?"),
            ("of the lowest reading", "tape_allowance(in_tenths(*readings.iter()\
              .take(count as usize).min().unwrap()))?"),
            ("of the highest reading", "tape_allowance(in_tenths(*readings.iter()\
              .take(count as usize).max().unwrap()))?"),
            ("of the stick cut to mm", "tape_allowance(stick / 10 * 10)?"),
            ("of the stick to the nearest mm", "tape_allowance(((stick + 5) / 10 * 10).min(36_000))?"),
            ("of the stick up to the next mm", "tape_allowance(stick.div_ceil(10) * 10)?"),
            ("of tenths as mm", "tape_allowance((10 * stick).min(36_000))?"),
            ("of 1,500 mm", "45"),
            ("none", "0"),
        ],
    },
    Edit {
        module: "stick",
        old: "«apart.signum() * size as i64»",
        new: &[
            ("a half going up", "(20 * apart + i64::from(count)).div_euclid(2 * i64::from(count))"),
            ("a half going down", "-(i64::from(count) - 20 * apart).div_euclid(2 * i64::from(count))"),
            ("rounded down", "(10 * apart).div_euclid(i64::from(count))"),
            ("rounded up", "-(-10 * apart).div_euclid(i64::from(count))"),
        ],
    },
    Edit {
        module: "probe",
        old: "ensure(«bits <= SIGN && size < INFINITY», Refusal::ProbeNumber)?;",
        new: &[
            ("minus zero refused", "bits < SIGN && size < INFINITY"),
            ("zero refused", "size > 0 && bits <= SIGN && size < INFINITY"),
            ("denormals refused", "bits <= SIGN && size < INFINITY && (size == 0 || size >= FRACTIONS)"),
            ("denormals below 0 as 0", "bits < SIGN + FRACTIONS && size < INFINITY"),
            ("below 0 after rounding", "(10.0 * f64::from(f32::from_bits(bits)) + 0.5).floor() >= 0.0 \
              && size < INFINITY"),
            ("below 0 after cutting", "if bits > SIGN && f32::from_bits(bits) > -0.1 { return Ok(0); } \
              bits <= SIGN && size < INFINITY"),
            ("below 0 as 0", "if bits > SIGN && size < INFINITY { return Ok(0); } \
              bits <= SIGN && size < INFINITY"),
            ("below 0 without its sign", "size < INFINITY"),
            ("below 0 by 32", "if bits > SIGN && size < INFINITY { return Err(Refusal::ProbeTenths); } \
              bits <= SIGN && size < INFINITY"),
            ("infinity by 32", "if bits == INFINITY { return Err(Refusal::ProbeTenths); } \
              bits <= SIGN && size < INFINITY"),
            ("infinity below 0 by 32", "if bits == SIGN + INFINITY { return Err(Refusal::ProbeTenths); } \
              bits <= SIGN && size < INFINITY"),
            ("infinity of either sign by 32", "if size == INFINITY { return Err(Refusal::ProbeTenths); } \
              bits <= SIGN && size < INFINITY"),
            ("infinity as the largest", "if bits == INFINITY { return Ok(99_999_999); } \
              bits <= SIGN && size < INFINITY"),
            ("not a number as 0", "if size > INFINITY { return Ok(0); } bits <= SIGN && size < INFINITY"),
            ("not a number with the sign as 0", "if bits > SIGN + INFINITY { return Ok(0); } \
              bits <= SIGN && size < INFINITY"),
            ("not a number without the sign as 0", "if bits < SIGN && size > INFINITY { return Ok(0); } \
              bits <= SIGN && size < INFINITY"),
            ("not a number by 32", "if size > INFINITY { return Err(Refusal::ProbeTenths); } \
              bits <= SIGN && size < INFINITY"),
            ("not a number with the sign by 32", "if bits > SIGN + INFINITY { return Err(Refusal::ProbeTenths); } \
              bits <= SIGN && size < INFINITY"),
            ("not a number without the sign by 32", "if bits < SIGN && size > INFINITY \
              { return Err(Refusal::ProbeTenths); } bits <= SIGN && size < INFINITY"),
            ("one not a number known", "if size > INFINITY && bits != 0x7fc0_0000 { return Ok(0); } \
              bits <= SIGN && size < INFINITY"),
            ("quiet ones known alone", "if size > INFINITY && size < INFINITY + FRACTIONS / 2 { return Ok(0); } \
              bits <= SIGN && size < INFINITY"),
            ("signalling ones known alone", "if size >= INFINITY + FRACTIONS / 2 { return Ok(0); } \
              bits <= SIGN && size < INFINITY"),
            ("the largest exponent by 31", "bits <= SIGN && size < INFINITY - FRACTIONS"),
            ("32 before 31", "if f32::from_bits(size) >= 10_000_000.0 { return Err(Refusal::ProbeTenths); } \
              bits <= SIGN && size < INFINITY"),
        ],
    },
    Edit {
        module: "probe",
        old: "let (significand, doublings) = «take_apart(size)»;",
        new: &[
            ("single product, rounded", "return crate::wrong_probe::by(size, |n| (10.0 * n).round().into())"),
            ("single product and a half", "return crate::wrong_probe::by(size, |n| (10.0 * n + 0.5).floor().into())"),
            ("single product, cut", "return crate::wrong_probe::by(size, |n| (10.0 * n).floor().into())"),
            ("single product, half to even", "return crate::wrong_probe::by(size, |n| (10.0 * n).round_ties_even().into())"),
            ("single product and a half, rounded once", "return crate::wrong_probe::by(size, |n| \
              n.mul_add(10.0, 0.5).floor().into())"),
            ("single quotient by 0.1", "return crate::wrong_probe::by(size, |n| (n / 0.1).round().into())"),
            ("0.05 added in single", "return crate::wrong_probe::by(size, |n| (10.0 * (n + 0.05)).floor().into())"),
            ("single product of the fraction alone", "return crate::wrong_probe::by(size, |n| \
              10.0 * f64::from(n.trunc()) + f64::from((10.0 * n.fract()).round()))"),
            ("eight and two times in single", "return crate::wrong_probe::by(size, |n| (8.0 * n + 2.0 * n).round().into())"),
            ("cut", "return crate::wrong_probe::by(size, |n| (10.0 * f64::from(n)).floor())"),
            ("rounded up", "return crate::wrong_probe::by(size, |n| (10.0 * f64::from(n)).ceil())"),
            ("half to even", "return crate::wrong_probe::by(size, |n| (10.0 * f64::from(n)).round_ties_even())"),
            ("half down", "return crate::wrong_probe::by(size, |n| (10.0 * f64::from(n) - 0.5).ceil())"),
            ("half to odd", "return crate::wrong_probe::by(size, |n| (10.0 * f64::from(n) + 1.0).round_ties_even() - 1.0)"),
            ("double product, rounded", "return crate::wrong_probe::by(size, |n| (10.0 * f64::from(n)).round())"),
            ("double quotient by 0.1 of 0.05 more", "return crate::wrong_probe::by(size, |n| \
              ((f64::from(n) + 0.05) / 0.1).floor())"),
            ("shortest text", "return crate::wrong_probe::by(size, |n| crate::wrong_probe::of_text(&n.to_string()))"),
            ("text of one decimal", "return crate::wrong_probe::by(size, |n| \
              crate::wrong_probe::of_text(&format!(\"{n:.1}\")))"),
            ("text of two decimals", "return crate::wrong_probe::by(size, |n| \
              crate::wrong_probe::of_text(&format!(\"{n:.2}\")))"),
            ("text of three decimals", "return crate::wrong_probe::by(size, |n| \
              crate::wrong_probe::of_text(&format!(\"{n:.3}\")))"),
            ("text of six decimals", "return crate::wrong_probe::by(size, |n| \
              crate::wrong_probe::of_text(&format!(\"{n:.6}\")))"),
            ("six digits", "return crate::wrong_probe::by(size, |n| crate::wrong_probe::of_digits(n, 6))"),
            ("seven digits", "return crate::wrong_probe::by(size, |n| crate::wrong_probe::of_digits(n, 7))"),
            ("eight digits", "return crate::wrong_probe::by(size, |n| crate::wrong_probe::of_digits(n, 8))"),
            ("hundredths first", "return crate::wrong_probe::by(size, |n| \
              ((100.0 * f64::from(n)).round() / 10.0).round())"),
            ("whole numbers", "return crate::wrong_probe::by(size, |n| 10.0 * f64::from(n.round()))"),
            ("whole numbers, cut", "return crate::wrong_probe::by(size, |n| 10.0 * f64::from(n.floor()))"),
            ("whole numbers, up", "return crate::wrong_probe::by(size, |n| 10.0 * f64::from(n.ceil()))"),
            ("halves of the unit", "return crate::wrong_probe::by(size, |n| 5.0 * f64::from((2.0 * n).round()))"),
            ("not times ten", "return crate::wrong_probe::by(size, |n| n.round().into())"),
            ("in hundredths", "return crate::wrong_probe::by(size, |n| (100.0 * f64::from(n)).round())"),
            ("parts of 65,536, cut", "return crate::wrong_probe::by(size, |n| \
              crate::wrong_probe::of_parts((65_536.0 * f64::from(n)).floor()))"),
            ("parts of 65,536, rounded", "return crate::wrong_probe::by(size, |n| \
              crate::wrong_probe::of_parts((65_536.0 * f64::from(n)).round()))"),
            ("tenths held as a float", "return crate::wrong_probe::by(size, |n| \
              f64::from((10.0 * f64::from(n)).round() as f32))"),
            ("tenths in 8 bits", "return crate::wrong_probe::by_rule(size).map(|tenths| tenths & 0xff)"),
            ("tenths in 15 bits", "return crate::wrong_probe::by_rule(size).map(|tenths| tenths & 0x7fff)"),
            ("tenths in 16 bits", "return crate::wrong_probe::by_rule(size).map(|tenths| tenths & 0xffff)"),
            ("tenths in 24 bits", "return crate::wrong_probe::by_rule(size).map(|tenths| tenths & 0xff_ffff)"),
            ("sixteen bits of the float", "return crate::wrong_probe::by_rule(size >> 16 << 16)"),
            ("bytes turned round", "return crate::wrong_probe::by_rule(size.swap_bytes())"),
            ("leading one left out", "return crate::wrong_probe::limited((10.0 * (f64::from(f32::from_bits(size)) \
              - f64::from(f32::from_bits(size / FRACTIONS * FRACTIONS)))).round())"),
            ("denormals with a leading one", "if size < FRACTIONS { (u64::from(FRACTIONS + size), 0) } \
              else { take_apart(size) }"),
            ("denormals as 0", "if size < FRACTIONS { return Ok(0); } take_apart(size)"),
            ("32 not tested", "return Ok(crate::wrong_probe::product(size).round() as u32)"),
            ("32 not tested, in 32 bits", "return Ok(crate::wrong_probe::product(size).round() as u128 as u32)"),
            ("32 by tenths in 32 bits", "return crate::wrong_probe::limited((crate::wrong_probe::product(size)\
              .round() as u128 as u32).into())"),
            ("32 by tenths in 64 bits", "return crate::wrong_probe::limited((crate::wrong_probe::product(size)\
              .round() as u128 as u64) as f64)"),
            ("held at the limit", "return Ok(crate::wrong_probe::product(size).round().min(99_999_999.0) as u32)"),
            ("0 in place of 32", "return crate::wrong_probe::by_rule(size).or(Ok(0))"),
            ("31 in place of 32", "return crate::wrong_probe::by_rule(size).or(Err(Refusal::ProbeNumber))"),
            ("limit of 100,000,000", "return crate::wrong_probe::limit(size, |_, tenths| tenths <= 100_000_000.0)"),
            ("limit for the number itself", "return crate::wrong_probe::limit(size, |n, _| n <= 99_999_999.0)"),
            ("limit as a float", "return crate::wrong_probe::limit(size, |n, _| n <= 9_999_999.9)"),
            ("limit before rounding", "return crate::wrong_probe::limit(size, |n, _| \
              10.0 * f64::from(n) <= 99_999_999.0)"),
            ("the largest refused", "return crate::wrong_probe::limit(size, |n, _| n < 9_999_999.0)"),
            ("limit of seven digits", "return crate::wrong_probe::limit(size, |_, tenths| tenths <= 9_999_999.0)"),
            ("limit of six digits before the point", "return crate::wrong_probe::limit(size, |n, _| n < 1_000_000.0)"),
            ("limit of 2²⁴ tenths", "return crate::wrong_probe::limit(size, |_, tenths| tenths <= 16_777_216.0)"),
            ("limit of 2²³", "return crate::wrong_probe::limit(size, |n, _| n <= 8_388_608.0)"),
            ("limit of 2²⁴", "return crate::wrong_probe::limit(size, |n, _| n <= 16_777_216.0)"),
            ("limit of 3,600 mm", "return crate::wrong_probe::limit(size, |_, tenths| tenths <= 36_000.0)"),
        ],
    },
    Edit {
        module: "probe",
        old: "let level = «Reading::Level(self.level).tenths()?»;",
        new: &[
            ("temperature before level", "{ Reading::Temperature(self.temperature).tenths()?; \
              Reading::Level(self.level).tenths()? }"),
            ("density before level", "{ Reading::Density(self.density).tenths()?; \
              Reading::Level(self.level).tenths()? }"),
            ("density, temperature, level", "{ Reading::Density(self.density).tenths()?; \
              Reading::Temperature(self.temperature).tenths()?; Reading::Level(self.level).tenths()? }"),
            ("any 31 before 32", "{ crate::wrong_probe::first_any(self, Refusal::ProbeNumber)?; \
              Reading::Level(self.level).tenths()? }"),
            ("any 32 before 31", "{ crate::wrong_probe::first_any(self, Refusal::ProbeTenths)?; \
              Reading::Level(self.level).tenths()? }"),
            ("the last fault", "{ crate::wrong_probe::last_fault(self)?; Reading::Level(self.level).tenths()? }"),
            ("level in whole mm", "Reading::Level(self.level.round()).tenths()?"),
            ("level cut to mm", "Reading::Level(self.level.floor()).tenths()?"),
            ("level up to the next mm", "Reading::Level(self.level.ceil()).tenths()?"),
            ("level not tested", "Reading::Level(self.level).tenths().unwrap_or(0)"),
            ("level not tested by 32", "Reading::Level(self.level.min(9_999_999.0)).tenths()?"),
        ],
    },
    Edit {
        module: "probe",
        old: "let temperature = «Reading::Temperature(self.temperature).tenths()?»;",
        new: &[
            ("density before temperature", "{ Reading::Density(self.density).tenths()?; \
              Reading::Temperature(self.temperature).tenths()? }"),
            ("any 31 before 32 behind the level", "{ crate::wrong_probe::first_any(self, Refusal::ProbeNumber)?; \
              Reading::Temperature(self.temperature).tenths()? }"),
            ("temperature in whole degrees", "Reading::Temperature(self.temperature.round()).tenths()?"),
            ("temperature cut to degrees", "Reading::Temperature(self.temperature.floor()).tenths()?"),
            ("temperature not tested", "Reading::Temperature(self.temperature).tenths().unwrap_or(0)"),
            ("temperature not tested by 32", "Reading::Temperature(self.temperature.min(9_999_999.0)).tenths()?"),
            ("temperature below 0 taken", "Reading::Temperature(self.temperature).tenths()\
              .or_else(|refusal| if self.temperature < 0.0 && self.temperature.is_finite() { Ok(0) } \
              else { Err(refusal) })?"),
        ],
    },
    Edit {
        module: "probe",
        old: "let density = «Reading::Density(self.density).tenths()?»;",
        new: &[
            ("density in whole kilograms", "Reading::Density(self.density.round()).tenths()?"),
            ("density cut to kilograms", "Reading::Density(self.density.floor()).tenths()?"),
            ("density not tested", "Reading::Density(self.density).tenths().unwrap_or(0)"),
            ("density not tested by 32", "Reading::Density(self.density.min(9_999_999.0)).tenths()?"),
        ],
    },
    Edit {
        module: "probe",
        old: "Ok(«SetTenths { level, temperature, density: Density15(density) }»)",
        new: &[
            ("temperature and density exchanged", "crate::wrong_probe::exchanged(SetTenths { level, temperature, \
              density: Density15(density) })"),
            ("level and temperature exchanged", "SetTenths { level: temperature, temperature: level, \
              density: Density15(density) }"),
            ("density as at 20 °C", "SetTenths { level, temperature, \
              density: crate::wrong_probe::brought_again(density, 200) }"),
            ("density as at the oil's temperature", "SetTenths { level, temperature, \
              density: crate::wrong_probe::brought_again(density, temperature) }"),
            ("density brought to 20 °C", "SetTenths { level, temperature, \
              density: crate::wrong_probe::at_20(density) }"),
        ],
    },
    Edit {
        module: "probe",
        old: "level: «Taken::Probed(level)»,",
        new: &[
            ("14 tested", "Taken::Dipped { given: 0, readings: [0; 4] }"),
            ("no readings", "Taken::Dipped { given: 2, readings: [0; 4] }"),
            ("15 tested", "Taken::Dipped { given: 2, readings: [(level / 10).saturating_sub(1), \
              level / 10 + 1, 0, 0] }"),
            ("15 tested between whole mm", "if level % 10 > 0 { Taken::Dipped { given: 2, readings: [0, 2, 0, 0] } } \
              else { Taken::Probed(level) }"),
            ("23 tested", "Taken::Dipped { given: 4, readings: [level / 10, level / 10 + 2, level / 10 + 4, \
              level / 10 + 6] }"),
            ("two readings of whole mm", "Taken::Dipped { given: 2, readings: [level / 10, level / 10, 0, 0] }"),
            ("two readings around it", "Taken::Dipped { given: 2, readings: [level / 10, level.div_ceil(10), 0, 0] }"),
            ("in mm", "Taken::Probed(level / 10)"),
            ("cut to mm", "Taken::Probed(level / 10 * 10)"),
            ("to the nearest mm", "Taken::Probed((level + 5) / 10 * 10)"),
            ("up to the next mm", "Taken::Probed(level.div_ceil(10) * 10)"),
            ("to half a mm", "Taken::Probed((2 * level + 5) / 10 * 5)"),
            ("in hundredths", "Taken::Probed(10 * level)"),
            ("in 16 bits", "Taken::Probed(level & 0xffff)"),
            ("from the water level on", "Taken::Probed(level.saturating_add(self.water_level.wrapping_mul(10)))"),
        ],
    },
    Edit {
        module: "probe",
        old: "stick: «self.stick»,",
        new: &[
            ("always steel", "1"),
            ("always aluminium", "2"),
            ("not tested", "if self.stick == 2 { 2 } else { 1 }"),
            ("0 taken", "if self.stick == 0 { 1 } else { self.stick }"),
            ("3 taken", "if self.stick == 3 { 1 } else { self.stick }"),
        ],
    },
    Edit {
        module: "probe",
        old: "water_level: «self.water_level»,",
        new: &[
            ("none", "0"),
            ("in tenths", "self.water_level / 10"),
            ("in tenths, up to the next mm", "self.water_level.div_ceil(10)"),
        ],
    },
    Edit {
        module: "probe",
        old: "number: «self.number»,",
        new: &[
            ("as a float", "self.number as f32 as u32"),
            ("in 16 bits", "self.number & 0xffff"),
        ],
    },
    Edit {
        module: "probe",
        old: "water: «self.water»,",
        new: &[("none", "0"), ("that of the impurities", "self.impurities")],
    },
    Edit {
        module: "probe",
        old: "impurities: «self.impurities»,",
        new: &[("none", "0"), ("those of the water", "self.water")],
    },
    Edit {
        module: "probe",
        old: "«self.measured()?.work_out(tables)»",
        new: &[
            ("31 and 32 after 10", "{ crate::wrong_probe::others_first(self, 10, &crate::wrong_probe::alone(tables))?; \
              self.measured()?.work_out(tables) }"),
            ("31 and 32 after 12", "{ crate::wrong_probe::others_first(self, 12, &crate::wrong_probe::alone(tables))?; \
              self.measured()?.work_out(tables) }"),
            ("31 and 32 after 13", "{ crate::wrong_probe::others_first(self, 13, &crate::wrong_probe::alone(tables))?; \
              self.measured()?.work_out(tables) }"),
            ("31 and 32 after 21", "{ crate::wrong_probe::others_first(self, 21, &crate::wrong_probe::alone(tables))?; \
              self.measured()?.work_out(tables) }"),
            ("31 and 32 where a number is used", "{ crate::wrong_probe::where_used(self, &crate::wrong_probe::alone(tables))?; \
              self.measured()?.work_out(tables) }"),
            ("10 not tested", "self.measured()?.figures(tables)"),
        ],
    },
    Edit {
        module: "level",
        old: "Self::Probed(level) => «unless_zero(u64::from(level))»",
        new: &[
            ("0 accepted", "Ok(u64::from(level))"),
            ("16 below 1 mm", "if level < 10 { Err(Refusal::Level) } else { Ok(u64::from(level)) }"),
            ("16 below half a mm", "if level < 5 { Err(Refusal::Level) } else { Ok(u64::from(level)) }"),
            ("17 in place of 16", "if level == 0 { Err(Refusal::WaterLevel) } else { Ok(u64::from(level)) }"),
            ("31 in place of 16", "if level == 0 { Err(Refusal::ProbeNumber) } else { Ok(u64::from(level)) }"),
            ("32 above 3,600 mm", "if level > 36_000 { Err(Refusal::ProbeTenths) } else { unless_zero(u64::from(level)) }"),
            ("16 without a tape allowance", "if has_allowance(u64::from(level)) { Ok(u64::from(level)) } \
              else { Err(Refusal::Level) }"),
        ],
    },
    Edit {
        module: "train",
        old: "«self.enter_measured(&car.measured()?, tables)»",
        new: &[
            ("a car refused by 31 is held", "crate::wrong_probe::hold_if(self, car, tables, |by| by == Refusal::ProbeNumber)"),
            ("a car refused by 32 is held", "crate::wrong_probe::hold_if(self, car, tables, |by| by == Refusal::ProbeTenths)"),
            ("a car refused by 31 or 32 is held", "crate::wrong_probe::hold_if(self, car, tables, |_| true)"),
            ("a car refused by 31 or 32 is held in a sound train", "{ let is_sound = self.is_sound(); \
              if is_sound { crate::wrong_probe::hold_if(self, car, tables, |_| true) } \
              else { self.enter_measured(&car.measured()?, tables) } }"),
            ("a car refused by 31 or 32 is held if it can be told", "{ let told = self.is_sound() \
              && car.number > 0 && !crate::wrong::holds(self, car.number); \
              if told { crate::wrong_probe::hold_if(self, car, tables, |_| true) } \
              else { self.enter_measured(&car.measured()?, tables) } }"),
            ("a car refused by 31 or 32 is counted", "{ if car.measured().is_err() { self.all.accepted += 1; } \
              self.enter_measured(&car.measured()?, tables) }"),
            ("a car refused by 31 or 32 takes the held one out", "{ if car.measured().is_err() && self.is_sound() \
              { let _ = self.strike_sound(car.number); } self.enter_measured(&car.measured()?, tables) }"),
            ("a car refused by 31 or 32 clears the free places", "{ if car.measured().is_err() && self.held < CARS \
              { self.places[self.held..].fill(Place::default()); } self.enter_measured(&car.measured()?, tables) }"),
            ("31 and 32 after 9", "{ crate::wrong_probe::others_first(car, 9, &crate::wrong_probe::entered(self, tables))?; \
              self.enter_measured(&car.measured()?, tables) }"),
            ("31 and 32 after 9 of the train, but before sixty numbers", "{ if !self.is_sound() { return Err(Refusal::Count); } \
              self.enter_measured(&car.measured()?, tables) }"),
            ("31 and 32 after sixty numbers", "{ if self.held == CARS { return Err(Refusal::Count); } \
              self.enter_measured(&car.measured()?, tables) }"),
            ("31 and 32 after 10", "{ crate::wrong_probe::others_first(car, 10, &crate::wrong_probe::entered(self, tables))?; \
              self.enter_measured(&car.measured()?, tables) }"),
            ("31 and 32 after 11", "{ crate::wrong_probe::others_first(car, 11, &crate::wrong_probe::entered(self, tables))?; \
              self.enter_measured(&car.measured()?, tables) }"),
            ("31 and 32 after 12", "{ crate::wrong_probe::others_first(car, 12, &crate::wrong_probe::entered(self, tables))?; \
              self.enter_measured(&car.measured()?, tables) }"),
            ("31 and 32 after 13", "{ crate::wrong_probe::others_first(car, 13, &crate::wrong_probe::entered(self, tables))?; \
              self.enter_measured(&car.measured()?, tables) }"),
            ("31 and 32 after 21", "{ crate::wrong_probe::others_first(car, 21, &crate::wrong_probe::entered(self, tables))?; \
              self.enter_measured(&car.measured()?, tables) }"),
            ("31 and 32 where a number is used", "{ crate::wrong_probe::where_used(car, \
              &crate::wrong_probe::entered(self, tables))?; self.enter_measured(&car.measured()?, tables) }"),
            ("a probe's car not tested by 9 of the train", "{ let measured = car.measured()?; if self.held > CARS \
              { return Err(Refusal::Count); } self.enter_sound(&measured, tables) }"),
            ("a probe's car is not entered", "{ let measured = car.measured()?; \
              self.clone().enter_measured(&measured, tables) }"),
            ("a probe's car is entered if it is accepted", "{ let measured = car.measured()?; \
              self.clone().enter_measured(&measured, tables)?; self.enter_measured(&measured, tables) }"),
            ("a probe's car is worked out alone", "car.measured()?.work_out(tables)"),
        ],
    },
    Edit {
        module: "permitted",
        old: "«of(&car.measured()?, tables, errors)»",
        new: &[
            ("24 before 31", "{ errors.check()?; of(&car.measured()?, tables, errors) }"),
            ("24 before the car's refusals", "{ let car = car.measured()?; errors.check()?; of(&car, tables, errors) }"),
            ("31 and 32 after 10", "{ crate::wrong_probe::others_first(car, 10, &crate::wrong_probe::alone(tables))?; \
              of(&car.measured()?, tables, errors) }"),
            ("31 and 32 after 12", "{ crate::wrong_probe::others_first(car, 12, &crate::wrong_probe::alone(tables))?; \
              of(&car.measured()?, tables, errors) }"),
            ("31 and 32 after 13", "{ crate::wrong_probe::others_first(car, 13, &crate::wrong_probe::alone(tables))?; \
              of(&car.measured()?, tables, errors) }"),
            ("31 and 32 after 21", "{ crate::wrong_probe::others_first(car, 21, &crate::wrong_probe::alone(tables))?; \
              of(&car.measured()?, tables, errors) }"),
            ("31 and 32 where a number is used", "{ crate::wrong_probe::where_used(car, &crate::wrong_probe::alone(tables))?; \
              of(&car.measured()?, tables, errors) }"),
            ("no level error", "{ let car = car.measured()?; car.work_out(tables)?; errors.check()?; \
              of(&car, tables, &Errors { level: 0, ..*errors }) }"),
            ("no error of the density's temperature", "{ let car = car.measured()?; car.work_out(tables)?; \
              errors.check()?; of(&car, tables, &Errors { density_temperature: 0, ..*errors }) }"),
            ("level error not tested", "{ let car = car.measured()?; of(&car, tables, &Errors { \
              level: errors.level.min(100), ..*errors }) }"),
        ],
    },
];
