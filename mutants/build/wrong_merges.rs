/// Hand-made edits of the merge, of the kinds that others would write.
pub const MERGES: &[Edit] = &[
    Edit {
        module: "merge",
        old: "«ensure(out.len() >= MERGED_BYTES, Refusal::AnswerBuffer).map_err(of_no_line)?;»",
        new: &[
            (
                "1 after the first sheet",
                "Half::read(first)?; ensure(out.len() >= MERGED_BYTES, \
                 Refusal::AnswerBuffer).map_err(of_no_line)?;",
            ),
            (
                "1 after both sheets",
                "Half::read(first)?; Half::read(second)?; ensure(out.len() >= MERGED_BYTES, \
                 Refusal::AnswerBuffer).map_err(of_no_line)?;",
            ),
            (
                "1 after 33 to 35",
                "let (one, other) = (Half::read(first)?, Half::read(second)?); Merged::of(&one, \
                 &other).map_err(of_no_line)?; ensure(out.len() >= MERGED_BYTES, \
                 Refusal::AnswerBuffer).map_err(of_no_line)?;",
            ),
            (
                "1 by the length that is needed",
                "let (one, other) = (Half::read(first)?, Half::read(second)?); let mut text = \
                 vec![0; MERGED_BYTES]; let needed = Merged::of(&one, \
                 &other).map_err(of_no_line)?.write(&mut text); ensure(out.len() >= needed, \
                 Refusal::AnswerBuffer).map_err(of_no_line)?;",
            ),
            (
                "1 by the lengths of both sheets",
                "ensure(out.len() >= first.len() + second.len(), \
                 Refusal::AnswerBuffer).map_err(of_no_line)?;",
            ),
            (
                "1 by the longer sheet",
                "ensure(out.len() >= first.len().max(second.len()), \
                 Refusal::AnswerBuffer).map_err(of_no_line)?;",
            ),
            (
                "1 by the sheet limit",
                "ensure(out.len() >= 48_111, Refusal::AnswerBuffer).map_err(of_no_line)?;",
            ),
            (
                "1 by the sheet limit without K lines",
                "ensure(out.len() >= 47_451, Refusal::AnswerBuffer).map_err(of_no_line)?;",
            ),
            (
                "1 by the answer buffer",
                "ensure(out.len() >= 8_101, Refusal::AnswerBuffer).map_err(of_no_line)?;",
            ),
            (
                "1 without the E line",
                "ensure(out.len() >= MERGED_BYTES - 11, \
                 Refusal::AnswerBuffer).map_err(of_no_line)?;",
            ),
            (
                "1 in 16 bits",
                "ensure((out.len() & 0xffff) >= MERGED_BYTES, \
                 Refusal::AnswerBuffer).map_err(of_no_line)?;",
            ),
            (
                "1 with a line",
                "ensure(out.len() >= MERGED_BYTES, Refusal::AnswerBuffer).map_err(|refusal| \
                 Rejection { line: 1, refusal })?;",
            ),
            (
                "1 clears the buffer",
                "if out.len() < MERGED_BYTES { out.fill(0); } ensure(out.len() >= MERGED_BYTES, \
                 Refusal::AnswerBuffer).map_err(of_no_line)?;",
            ),
            (
                "1 writes what fits",
                "if out.len() < MERGED_BYTES { if let Some(byte) = out.first_mut() { *byte = \
                 b'T'; } } ensure(out.len() >= MERGED_BYTES, \
                 Refusal::AnswerBuffer).map_err(of_no_line)?;",
            ),
            (
                "the buffer is cleared first",
                "ensure(out.len() >= MERGED_BYTES, Refusal::AnswerBuffer).map_err(of_no_line)?; \
                 out.fill(b' ');",
            ),
            (
                "2 from 39,772 bytes on",
                "ensure(out.len() >= MERGED_BYTES, Refusal::AnswerBuffer).map_err(of_no_line)?; \
                 if first.len().max(second.len()) > MERGED_BYTES { return \
                 Err(of_no_line(Refusal::SheetLength)); }",
            ),
        ],
    },
    Edit {
        module: "merge",
        old: "let first = «Half::read(first)?»;",
        new: &[
            ("the second sheet's refusal first", "{ Half::read(second)?; Half::read(first)? }"),
            (
                "of two refused sheets the lower number",
                "match (Half::read(first), Half::read(second)) { (Err(one), Err(other)) if \
                 other.refusal.number() < one.refusal.number() => return Err(other), (one, _) => \
                 one? }",
            ),
            (
                "of two refused sheets the lower line",
                "match (Half::read(first), Half::read(second)) { (Err(one), Err(other)) if \
                 other.line < one.line => return Err(other), (one, _) => one? }",
            ),
            (
                "a refused first sheet counts as empty",
                "Half::read(first).unwrap_or(Half { sheet: crate::wrong_merge::empty(), held: \
                 Vec::new() })",
            ),
            (
                "a Z line is written for the first sheet",
                "Half::read(first).map_err(|other| { line::write(out, b'Z', [other.line, \
                 other.refusal.number()]); other })?",
            ),
            (
                "the first byte is cleared where the first sheet is refused",
                "Half::read(first).map_err(|other| { out[0] = 0; other })?",
            ),
            (
                "the first sheet is copied before the second is read",
                "{ let one = Half::read(first)?; if Half::read(second).is_err() { let length = \
                 first.len().min(out.len()); out[..length].copy_from_slice(&first[..length]); } \
                 one }",
            ),
        ],
    },
    Edit {
        module: "merge",
        old: "let second = «Half::read(second)?»;",
        new: &[
            (
                "a refused second sheet counts as empty",
                "Half::read(second).unwrap_or(Half { sheet: crate::wrong_merge::empty(), held: \
                 Vec::new() })",
            ),
            (
                "a Z line is written for the second sheet",
                "Half::read(second).map_err(|other| { line::write(out, b'Z', [other.line, \
                 other.refusal.number()]); other })?",
            ),
            (
                "lines of the second counted behind the first's",
                "Half::read(second).map_err(|other| Rejection { line: other.line + \
                 crate::wrong_merge::lines(&first.sheet), ..other })?",
            ),
        ],
    },
    Edit {
        module: "merge",
        old: "let merged = «Merged::of(&first, &second)».map_err",
        new: &[
            (
                "a Z line is written where the merge is refused",
                "Merged::of(&first, &second).map_err(|refusal| { line::write(out, b'Z', [0, \
                 refusal.number()]); refusal })",
            ),
            (
                "the buffer is cleared where the merge is refused",
                "Merged::of(&first, &second).map_err(|refusal| { out.fill(0); refusal })",
            ),
            (
                "the first byte is cleared where the merge is refused",
                "Merged::of(&first, &second).map_err(|refusal| { out[0] = 0; refusal })",
            ),
            (
                "the tables are written before 34 and 35",
                "Merged::of(&first, &second).map_err(|refusal| { if refusal.number() > 33 { \
                 line::write(out, b'T', [1, 2]); } refusal })",
            ),
            (
                "sheets that hold no cars are refused",
                "if first.held.is_empty() || second.held.is_empty() { Err(Refusal::MergedSize) } \
                 else { Merged::of(&first, &second) }",
            ),
            (
                "types in common are refused",
                "if first.sheet.tables.types().any(|of| second.rows(of).is_some()) { \
                 Err(Refusal::MergedTables) } else { Merged::of(&first, &second) }",
            ),
            (
                "two sheets alike are merged to one",
                "Merged::of(&first, if first.sheet.events() == second.sheet.events() { &first } \
                 else { &second })",
            ),
        ],
    },
    Edit {
        module: "merge",
        old: "Ok(«merged.write(out)»)",
        new: &[
            (
                "the rest of the buffer is cleared",
                "let length = merged.write(out); out[length..].fill(0); length",
            ),
            (
                "the rest of the buffer is filled with spaces",
                "let length = merged.write(out); out[length..].fill(b' '); length",
            ),
            (
                "a zero byte behind the text",
                "let length = merged.write(out); if let Some(byte) = out.get_mut(length) { *byte \
                 = 0; } length",
            ),
            ("the length of the whole buffer", "merged.write(out); out.len()"),
            (
                "no last line feed",
                "let length = merged.write(out); crate::wrong_merge::edited(out, length, |text| \
                 text.trim_end().to_string())",
            ),
            (
                "carriage returns",
                "let length = merged.write(out); crate::wrong_merge::edited(out, length, |text| \
                 text.replace('\\n', \"\\r\\n\"))",
            ),
            (
                "K lines kept",
                "let length = merged.write(out); crate::wrong_merge::edited(out, length, |text| \
                 crate::wrong_merge::with_strikes(text, [&first.sheet, &second.sheet]))",
            ),
            (
                "an E line with all C lines",
                "let length = merged.write(out); crate::wrong_merge::edited(out, length, |text| \
                 crate::wrong_merge::with_end(text, \
                 first.sheet.cars().chain(second.sheet.cars()).count()))",
            ),
            (
                "an E line with the accepted cars",
                "let length = merged.write(out); crate::wrong_merge::edited(out, length, |text| \
                 crate::wrong_merge::with_end(text, \
                 first.held.iter().chain(&second.held).filter(|held| \
                 held.refusal.is_none()).count()))",
            ),
            (
                "an E line with the first sheet's cars",
                "let length = merged.write(out); crate::wrong_merge::edited(out, length, |text| \
                 crate::wrong_merge::with_end(text, first.held.len()))",
            ),
            (
                "E lines of both sheets",
                "let length = merged.write(out); crate::wrong_merge::edited(out, length, |text| \
                 format!(\"{text}E        0\\n\"))",
            ),
            (
                "the cars before the tables",
                "let length = merged.write(out); crate::wrong_merge::edited(out, length, |text| \
                 crate::wrong_merge::cars_first(text))",
            ),
            (
                "numbers with zeros before them",
                "let length = merged.write(out); crate::wrong_merge::edited(out, length, |text| \
                 crate::wrong_merge::with_zeros(text))",
            ),
            (
                "numbers to the left",
                "let length = merged.write(out); crate::wrong_merge::edited(out, length, |text| \
                 crate::wrong_merge::to_the_left(text))",
            ),
            (
                "nothing is written",
                "let length = merged.write(out); out[..length].fill(0xa5); length",
            ),
        ],
    },
    Edit {
        module: "merge",
        old: "=> «Merge { length: 0, number: refusal.number(), line }»,",
        new: &[
            ("the line left out", "Merge { length: 0, number: refusal.number(), line: 0 }"),
            (
                "lines counted from 0",
                "Merge { length: 0, number: refusal.number(), line: line.saturating_sub(1) }",
            ),
            (
                "a line for the refusals of the merge",
                "Merge { length: 0, number: refusal.number(), line: if refusal.number() > 30 { 1 \
                 } else { line } }",
            ),
            (
                "a line where the sheet is too long",
                "Merge { length: 0, number: refusal.number(), line: if refusal.number() == 2 { 1 \
                 } else { line } }",
            ),
            ("the length of a Z line", "Merge { length: 20, number: refusal.number(), line }"),
            (
                "1 for a sheet's own refusal",
                "Merge { length: 0, number: if refusal.number() < 10 { 1 } else { \
                 refusal.number() }, line }",
            ),
            (
                "the line for the number",
                "Merge { length: 0, number: line, line: refusal.number() }",
            ),
        ],
    },
    Edit {
        module: "merge",
        old: "match «train.enter_sound(&Measured::from(car), &sheet.tables).err()» {",
        new: &[
            (
                "cars refused by 9 are kept",
                "train.enter_sound(&Measured::from(car), &sheet.tables).err().filter(|refusal| \
                 *refusal != Refusal::Count)",
            ),
            (
                "cars refused by 10 are kept",
                "train.enter_sound(&Measured::from(car), &sheet.tables).err().filter(|refusal| \
                 *refusal != Refusal::CarNumber)",
            ),
            (
                "cars refused by 11 are kept",
                "train.enter_sound(&Measured::from(car), &sheet.tables).err().filter(|refusal| \
                 *refusal != Refusal::CarTwice)",
            ),
            (
                "cars refused by 12 are dropped",
                "match train.enter_sound(&Measured::from(car), &sheet.tables).err() { \
                 Some(Refusal::Type) => Some(Refusal::Count), other => other }",
            ),
            (
                "cars refused by 13 are dropped",
                "match train.enter_sound(&Measured::from(car), &sheet.tables).err() { \
                 Some(Refusal::GradeOrStick) => Some(Refusal::Count), other => other }",
            ),
            (
                "cars refused by 14 are dropped",
                "match train.enter_sound(&Measured::from(car), &sheet.tables).err() { \
                 Some(Refusal::ReadingCount) => Some(Refusal::Count), other => other }",
            ),
            (
                "cars refused by 15 are dropped",
                "match train.enter_sound(&Measured::from(car), &sheet.tables).err() { \
                 Some(Refusal::ReadingsApart) => Some(Refusal::Count), other => other }",
            ),
            (
                "cars refused by 23 are dropped",
                "match train.enter_sound(&Measured::from(car), &sheet.tables).err() { \
                 Some(Refusal::ThreeApart) => Some(Refusal::Count), other => other }",
            ),
            (
                "cars refused by 16 are dropped",
                "match train.enter_sound(&Measured::from(car), &sheet.tables).err() { \
                 Some(Refusal::Level) => Some(Refusal::Count), other => other }",
            ),
            (
                "cars refused by 17 are dropped",
                "match train.enter_sound(&Measured::from(car), &sheet.tables).err() { \
                 Some(Refusal::WaterLevel) => Some(Refusal::Count), other => other }",
            ),
            (
                "cars refused by 18 are dropped",
                "match train.enter_sound(&Measured::from(car), &sheet.tables).err() { \
                 Some(Refusal::Temperature) => Some(Refusal::Count), other => other }",
            ),
            (
                "cars refused by 19 are dropped",
                "match train.enter_sound(&Measured::from(car), &sheet.tables).err() { \
                 Some(Refusal::Density15) => Some(Refusal::Count), other => other }",
            ),
            (
                "cars refused by 20 are dropped",
                "match train.enter_sound(&Measured::from(car), &sheet.tables).err() { \
                 Some(Refusal::WaterOrImpurities) => Some(Refusal::Count), other => other }",
            ),
            (
                "cars refused by 21 are dropped",
                "match train.enter_sound(&Measured::from(car), &sheet.tables).err() { \
                 Some(Refusal::Density20) => Some(Refusal::Count), other => other }",
            ),
            (
                "refused cars are dropped",
                "train.enter_sound(&Measured::from(car), &sheet.tables).err().map(|_| \
                 Refusal::Count)",
            ),
            (
                "a repeat replaces the held car",
                "{ let refusal = train.enter_sound(&Measured::from(car), &sheet.tables).err(); if \
                 refusal == Some(Refusal::CarTwice) { if let Some(held) = \
                 held.iter_mut().find(|held| held.car.number == car.number) { held.car = *car; } \
                 } refusal }",
            ),
            (
                "an accepted repeat replaces a refused car",
                "{ let refusal = train.enter_sound(&Measured::from(car), &sheet.tables).err(); if \
                 refusal == Some(Refusal::CarTwice) { if let Some(held) = \
                 held.iter_mut().find(|held| held.car.number == car.number && \
                 held.refusal.is_some()) { *held = Held { car: *car, refusal: \
                 car.work_out(&sheet.tables).err() }; } } refusal }",
            ),
            (
                "a car refused by 9 is kept where a strike follows",
                "{ let refusal = train.enter_sound(&Measured::from(car), &sheet.tables).err(); \
                 let behind = sheet.events().iter().skip_while(|other| !std::ptr::eq(*other, \
                 event)); if refusal == Some(Refusal::Count) && behind.into_iter().any(|other| \
                 matches!(other, Event::Strike(_))) { None } else { refusal } }",
            ),
        ],
    },
    Edit {
        module: "merge",
        old: "held.push(«Held { car: *car, refusal }»)",
        new: &[
            (
                "the first line of a number",
                "Held { car: *sheet.cars().find(|other| other.number == \
                 car.number).unwrap_or(car), refusal }",
            ),
            (
                "the last line of a number",
                "Held { car: *sheet.cars().filter(|other| other.number == \
                 car.number).last().unwrap_or(car), refusal }",
            ),
            (
                "12 for every refused car",
                "Held { car: *car, refusal: refusal.map(|_| Refusal::Type) }",
            ),
        ],
    },
    Edit {
        module: "merge",
        old: "«held.retain(|held| held.car.number != *number);»",
        new: &[
            (
                "refused cars are not struck",
                "held.retain(|held| held.car.number != *number || held.refusal.is_some());",
            ),
            (
                "accepted cars are not struck",
                "held.retain(|held| held.car.number != *number || held.refusal.is_none());",
            ),
            ("the first car is struck", "held.remove(0);"),
            ("the last car is struck", "held.pop();"),
            (
                "a car is struck once only",
                "if sheet.events().iter().filter(|event| **event == \
                 Event::Strike(*number)).count() == 1 { held.retain(|held| held.car.number != \
                 *number); }",
            ),
        ],
    },
    Edit {
        module: "merge",
        old: "for event in «sheet.events()» {",
        new: &[
            ("strikes after all cars", "crate::wrong::by_kind(sheet, false)"),
            ("strikes before all cars", "crate::wrong::by_kind(sheet, true)"),
            ("the first sixty lines", "&sheet.events()[..sheet.events().len().min(60)]"),
            ("the lines from the last on", "crate::wrong_merge::turned_round(sheet)"),
        ],
    },
    Edit {
        module: "merge",
        old: "«unknown.map(|held| held.car.car_type).collect()»",
        new: &[
            (
                "of every line",
                "self.sheet.cars().filter(|car| self.rows(car.car_type).is_none() ).map(|car| \
                 car.car_type).collect()",
            ),
            (
                "of lines without a number",
                "unknown.map(|held| held.car.car_type).chain(self.sheet.cars().filter(|car| \
                 car.number == 0).map(|car| car.car_type).filter(|of| \
                 self.rows(*of).is_none())).collect()",
            ),
            (
                "of lines whose number is held",
                "self.sheet.cars().filter(|car| self.rows(car.car_type).is_none() && \
                 self.holds(car.number)).map(|car| car.car_type).collect()",
            ),
            (
                "of lines whose number is not held",
                "unknown.map(|held| held.car.car_type).chain(self.sheet.cars().filter(|car| \
                 car.number > 0 && !self.holds(car.number)).map(|car| car.car_type).filter(|of| \
                 self.rows(*of).is_none())).collect()",
            ),
            ("of the first held car", "unknown.map(|held| held.car.car_type).take(1).collect()"),
            (
                "of the last held car",
                "unknown.map(|held| held.car.car_type).last().into_iter().collect()",
            ),
            ("of every held car", "self.held.iter().map(|held| held.car.car_type).collect()"),
            (
                "of every refused car",
                "self.held.iter().filter(|held| held.refusal.is_some()).map(|held| \
                 held.car.car_type).collect()",
            ),
            ("of no car", "Vec::new()"),
        ],
    },
    Edit {
        module: "merge",
        old: "types.iter().any(|&car_type| «self.rows(car_type).is_some()»)",
        new: &[
            ("types in 8 bits", "self.sheet.tables.types().any(|of| of & 0xff == car_type & 0xff)"),
            (
                "types that a car uses",
                "self.rows(car_type).is_some() && self.held.iter().any(|held| held.car.car_type \
                 == car_type)",
            ),
            ("the lowest type", "self.sheet.tables.types().min() == Some(car_type)"),
            ("the first type", "self.sheet.tables.types().next() == Some(car_type)"),
            ("the last type", "self.sheet.tables.types().last() == Some(car_type)"),
        ],
    },
    Edit {
        module: "merge",
        old: "if «rows != others» =>",
        new: &[
            (
                "by the levels alone",
                "crate::wrong_merge::differ(rows, others, |row| (row.level, 0))",
            ),
            (
                "by the capacities alone",
                "crate::wrong_merge::differ(rows, others, |row| (0, row.capacity))",
            ),
            ("by the number of rows alone", "rows.len() != others.len()"),
            (
                "by the rows that both have",
                "rows.iter().zip(others).any(|(row, other)| row != other)",
            ),
            ("by the first row", "rows.first() != others.first()"),
            ("by the second row", "rows.get(1) != others.get(1)"),
            ("by the last row", "rows.last() != others.last()"),
            (
                "by the last row and the number of rows",
                "rows.len() != others.len() || rows.last() != others.last()",
            ),
            ("but for the last row", "rows[..rows.len() - 1] != others[..others.len() - 1]"),
            (
                "but for the last capacity",
                "crate::wrong_merge::differ(&rows[..rows.len() - 1], &others[..others.len() - 1], \
                 |row| (row.level, row.capacity)) || rows.last().map(|row| row.level) != \
                 others.last().map(|row| row.level)",
            ),
            (
                "but for the last level",
                "crate::wrong_merge::differ(&rows[..rows.len() - 1], &others[..others.len() - 1], \
                 |row| (row.level, row.capacity)) || rows.last().map(|row| row.capacity) != \
                 others.last().map(|row| row.capacity)",
            ),
            ("by the sums", "crate::wrong_merge::sums(rows) != crate::wrong_merge::sums(others)"),
            (
                "by the sum of both",
                "{ let ((a, b), (c, d)) = (crate::wrong_merge::sums(rows), \
                 crate::wrong_merge::sums(others)); rows.len() != others.len() || a + b != c + d \
                 }",
            ),
            (
                "in 8 bits",
                "crate::wrong_merge::differ(rows, others, |row| (row.level & 0xff, row.capacity & \
                 0xff))",
            ),
            (
                "in 16 bits",
                "crate::wrong_merge::differ(rows, others, |row| (row.level & 0xffff, row.capacity \
                 & 0xffff))",
            ),
            (
                "levels or capacities that all differ",
                "rows.len() != others.len() || crate::wrong_merge::differ(rows, others, |row| \
                 (row.level, 0)) && crate::wrong_merge::differ(rows, others, |row| (0, \
                 row.capacity))",
            ),
            (
                "where a car uses the type",
                "rows != others && first.held.iter().chain(&second.held).any(|held| \
                 held.car.car_type == car_type)",
            ),
            (
                "where cars of both use the type",
                "rows != others && [first, second].iter().all(|half| half.held.iter().any(|held| \
                 held.car.car_type == car_type))",
            ),
            (
                "where an accepted car uses the type",
                "rows != others && first.held.iter().chain(&second.held).any(|held| \
                 held.refusal.is_none() && held.car.car_type == car_type)",
            ),
        ],
    },
    Edit {
        module: "merge",
        old: "=> «Err(Refusal::MergedTables)»,",
        new: &[
            ("the first sheet's rows where they differ", "Ok(rows)"),
            ("the second sheet's rows where they differ", "Ok(others)"),
            (
                "the longer table where they differ",
                "Ok(if rows.len() < others.len() { others } else { rows })",
            ),
            ("34 where they differ", "Err(Refusal::HeldTwice)"),
            ("7 where they differ", "Err(Refusal::TableHead)"),
        ],
    },
    Edit {
        module: "merge",
        old: "«types.sort_unstable();»",
        new: &[
            ("falling", "types.sort_unstable_by_key(|of| std::cmp::Reverse(*of));"),
            ("as text", "types.sort_by_key(u32::to_string);"),
            ("in the order met", "crate::wrong_merge::each_once(&mut types);"),
            (
                "the second sheet's first",
                "types.rotate_left(first.sheet.tables.count()); \
                 crate::wrong_merge::each_once(&mut types);",
            ),
            (
                "each sheet by itself",
                "types[..first.sheet.tables.count()].sort_unstable(); \
                 types[first.sheet.tables.count()..].sort_unstable(); \
                 crate::wrong_merge::each_once(&mut types);",
            ),
            ("in 8 bits", "types.sort_by_key(|of| (of & 0xff, *of));"),
            (
                "by their rows",
                "types.sort_by_key(|of| (first.rows(*of).or(second.rows(*of)).map_or(0, \
                 <[Row]>::len), *of));",
            ),
            (
                "those in common first",
                "types.sort_by_key(|of| (first.rows(*of).is_none() || second.rows(*of).is_none(), \
                 *of));",
            ),
        ],
    },
    Edit {
        module: "merge",
        old: "«tables.push((car_type, rows(first, second, car_type)?));»",
        new: &[
            (
                "unused types are dropped",
                "let rows = rows(first, second, car_type)?; if first.held.iter().any(|held| \
                 held.car.car_type == car_type) || second.held.iter().any(|held| \
                 held.car.car_type == car_type) { tables.push((car_type, rows)); }",
            ),
            (
                "unused types of the first are dropped",
                "let rows = rows(first, second, car_type)?; if second.rows(car_type).is_some() || \
                 first.held.iter().any(|held| held.car.car_type == car_type) { \
                 tables.push((car_type, rows)); }",
            ),
            (
                "unused types of the second are dropped",
                "let rows = rows(first, second, car_type)?; if first.rows(car_type).is_some() || \
                 second.held.iter().any(|held| held.car.car_type == car_type) { \
                 tables.push((car_type, rows)); }",
            ),
            (
                "types that no accepted car uses are dropped",
                "let rows = rows(first, second, car_type)?; if \
                 first.held.iter().chain(&second.held).any(|held| held.refusal.is_none() && \
                 held.car.car_type == car_type) { tables.push((car_type, rows)); }",
            ),
            (
                "types that no line names are dropped",
                "let rows = rows(first, second, car_type)?; if \
                 first.sheet.cars().chain(second.sheet.cars()).any(|car| car.car_type == \
                 car_type) { tables.push((car_type, rows)); }",
            ),
            (
                "types in common are dropped",
                "let rows = rows(first, second, car_type)?; if first.rows(car_type).is_none() || \
                 second.rows(car_type).is_none() { tables.push((car_type, rows)); }",
            ),
            (
                "types of the second alone are dropped",
                "let rows = rows(first, second, car_type)?; if first.rows(car_type).is_some() { \
                 tables.push((car_type, rows)); }",
            ),
            (
                "types in common are written twice",
                "let rows = rows(first, second, car_type)?; tables.push((car_type, rows)); if \
                 first.rows(car_type).is_some() && second.rows(car_type).is_some() { \
                 tables.push((car_type, rows)); }",
            ),
        ],
    },
    Edit {
        module: "merge",
        old: "let tables = «tables(first, second)?»;",
        new: &[
            (
                "34 before 33",
                "{ ensure(!(first.held.iter().any(|held| second.holds(held.car.number))), \
                 Refusal::HeldTwice)?; tables(first, second)? }",
            ),
            (
                "35 before 33",
                "{ ensure(crate::wrong_merge::types([&first.sheet, &second.sheet]) <= 4, \
                 Refusal::MergedSize)?;ensure(first.held.len() + second.held.len() <= 60, \
                 Refusal::MergedSize)?; tables(first, second)? }",
            ),
            (
                "35 by types before 33",
                "{ ensure(crate::wrong_merge::types([&first.sheet, &second.sheet]) <= 4, \
                 Refusal::MergedSize)?; tables(first, second)? }",
            ),
            (
                "35 by cars before 33",
                "{ ensure(first.held.len() + second.held.len() <= 60, Refusal::MergedSize)?; \
                 tables(first, second)? }",
            ),
            (
                "34 and 35 before 33",
                "{ ensure(!(first.held.iter().any(|held| second.holds(held.car.number))), \
                 Refusal::HeldTwice)?;ensure(crate::wrong_merge::types([&first.sheet, \
                 &second.sheet]) <= 4, Refusal::MergedSize)?;ensure(first.held.len() + \
                 second.held.len() <= 60, Refusal::MergedSize)?; tables(first, second)? }",
            ),
        ],
    },
    Edit {
        module: "merge",
        old: "«ensure(!finds_its_type, Refusal::MergedTables)?;»",
        new: &[
            (
                "34 before 33 of a car",
                "ensure(!(first.held.iter().any(|held| second.holds(held.car.number))), \
                 Refusal::HeldTwice)?; ensure(!finds_its_type, Refusal::MergedTables)?;",
            ),
            (
                "35 by types before 33 of a car",
                "ensure(crate::wrong_merge::types([&first.sheet, &second.sheet]) <= 4, \
                 Refusal::MergedSize)?; ensure(!finds_its_type, Refusal::MergedTables)?;",
            ),
            (
                "35 by cars before 33 of a car",
                "ensure(first.held.len() + second.held.len() <= 60, Refusal::MergedSize)?; \
                 ensure(!finds_its_type, Refusal::MergedTables)?;",
            ),
            ("12 where the type is found", "ensure(!finds_its_type, Refusal::Type)?;"),
        ],
    },
    Edit {
        module: "merge",
        old: "let is_held_twice = «first.held.iter().any(|held| second.holds(held.car.number))»;",
        new: &[
            ("by all lines of the first", "first.sheet.cars().any(|car| second.holds(car.number))"),
            (
                "by all lines of the second",
                "first.held.iter().any(|held| second.sheet.cars().any(|car| car.number == \
                 held.car.number))",
            ),
            (
                "by all lines of both",
                "first.sheet.cars().any(|car| second.sheet.cars().any(|other| other.number == \
                 car.number))",
            ),
            (
                "by struck numbers",
                "first.held.iter().any(|held| second.holds(held.car.number) || \
                 second.sheet.events().contains(&Event::Strike(held.car.number)))",
            ),
            (
                "of accepted cars",
                "first.held.iter().any(|held| held.refusal.is_none() && \
                 second.held.iter().any(|other| other.refusal.is_none() && other.car.number == \
                 held.car.number))",
            ),
            (
                "of cars accepted on the first",
                "first.held.iter().any(|held| held.refusal.is_none() && \
                 second.holds(held.car.number))",
            ),
            (
                "of cars accepted on the second",
                "first.held.iter().any(|held| second.held.iter().any(|other| \
                 other.refusal.is_none() && other.car.number == held.car.number))",
            ),
            (
                "of cars that are accepted on one",
                "first.held.iter().any(|held| second.held.iter().any(|other| \
                 (other.refusal.is_none() || held.refusal.is_none()) && other.car.number == \
                 held.car.number))",
            ),
            (
                "of refused cars",
                "first.held.iter().any(|held| held.refusal.is_some() && \
                 second.holds(held.car.number))",
            ),
            (
                "by the whole line",
                "first.held.iter().any(|held| second.held.iter().any(|other| other.car == \
                 held.car))",
            ),
            (
                "by the line but for the number",
                "first.held.iter().any(|held| second.held.iter().any(|other| other.car.readings \
                 == held.car.readings && other.car.car_type == held.car.car_type))",
            ),
            (
                "of one type",
                "first.held.iter().any(|held| second.held.iter().any(|other| other.car.number == \
                 held.car.number && other.car.car_type == held.car.car_type))",
            ),
            (
                "in 8 bits",
                "first.held.iter().any(|held| second.held.iter().any(|other| other.car.number & \
                 0xff == held.car.number & 0xff))",
            ),
            (
                "in 16 bits",
                "first.held.iter().any(|held| second.held.iter().any(|other| other.car.number & \
                 0xffff == held.car.number & 0xffff))",
            ),
            (
                "in 24 bits",
                "first.held.iter().any(|held| second.held.iter().any(|other| other.car.number & \
                 0xff_ffff == held.car.number & 0xff_ffff))",
            ),
            (
                "by seven digits",
                "first.held.iter().any(|held| second.held.iter().any(|other| other.car.number % \
                 10_000_000 == held.car.number % 10_000_000))",
            ),
            (
                "in single floating point",
                "first.held.iter().any(|held| second.held.iter().any(|other| other.car.number as \
                 f32 == held.car.number as f32))",
            ),
            (
                "of the first held car",
                "first.held.iter().take(1).any(|held| second.holds(held.car.number))",
            ),
            (
                "of the last held car",
                "first.held.last().is_some_and(|held| second.holds(held.car.number))",
            ),
            (
                "of the second sheet's first car",
                "second.held.first().is_some_and(|held| first.holds(held.car.number))",
            ),
            (
                "of the second sheet's last car",
                "second.held.last().is_some_and(|held| first.holds(held.car.number))",
            ),
            (
                "of cars in the same place",
                "first.held.iter().zip(&second.held).any(|(held, other)| held.car.number == \
                 other.car.number)",
            ),
        ],
    },
    Edit {
        module: "merge",
        old: "«ensure(!is_held_twice, Refusal::HeldTwice)?;»",
        new: &[
            (
                "35 by types before 34",
                "ensure(crate::wrong_merge::types([&first.sheet, &second.sheet]) <= 4, \
                 Refusal::MergedSize)?; ensure(!is_held_twice, Refusal::HeldTwice)?;",
            ),
            (
                "35 by cars before 34",
                "ensure(first.held.len() + second.held.len() <= 60, Refusal::MergedSize)?; \
                 ensure(!is_held_twice, Refusal::HeldTwice)?;",
            ),
            ("11 for a number held twice", "ensure(!is_held_twice, Refusal::CarTwice)?;"),
        ],
    },
    Edit {
        module: "merge",
        old: "«held.map(|held| held.car).collect()»",
        new: &[
            ("the cars of the first alone", "first.held.iter().map(|held| held.car).collect()"),
            ("the cars of the second alone", "second.held.iter().map(|held| held.car).collect()"),
            ("the first sixty", "held.map(|held| held.car).take(60).collect()"),
            ("the first fifty-nine", "held.map(|held| held.car).take(59).collect()"),
            (
                "cars with a table",
                "held.filter(|held| \
                 first.rows(held.car.car_type).or(second.rows(held.car.car_type)).is_some()).map(|held| \
                 held.car).collect()",
            ),
            (
                "cars that differ but for the number",
                "crate::wrong_merge::that_differ(held.map(|held| held.car).collect())",
            ),
        ],
    },
    Edit {
        module: "merge",
        old: "«cars.sort_unstable_by_key(|car| car.number);»",
        new: &[
            ("falling", "cars.sort_by_key(|car| std::cmp::Reverse(car.number));"),
            ("as text", "cars.sort_by_key(|car| car.number.to_string());"),
            ("by type, then number", "cars.sort_by_key(|car| (car.car_type, car.number));"),
            ("by grade, then number", "cars.sort_by_key(|car| (car.grade, car.number));"),
            (
                "each sheet by itself",
                "cars[..first.held.len()].sort_by_key(|car| car.number); \
                 cars[first.held.len()..].sort_by_key(|car| car.number);",
            ),
            ("the second sheet's first", "cars.rotate_left(first.held.len());"),
            (
                "one of each sheet by turns",
                "crate::wrong_merge::by_turns(&mut cars, first.held.len());",
            ),
            (
                "refused cars behind accepted ones",
                "cars.sort_by_key(|car| (first.held.iter().chain(&second.held).any(|held| \
                 held.car.number == car.number && held.refusal.is_some()), car.number));",
            ),
            ("in 8 bits", "cars.sort_by_key(|car| (car.number & 0xff, car.number));"),
            ("in 16 bits", "cars.sort_by_key(|car| (car.number & 0xffff, car.number));"),
            ("in 24 bits", "cars.sort_by_key(|car| (car.number & 0xff_ffff, car.number));"),
        ],
    },
    Edit {
        module: "merge",
        old: "ensure(«tables.len()» <= TABLES",
        new: &[
            ("types counted twice", "first.sheet.tables.count() + second.sheet.tables.count()"),
            (
                "types that a car uses",
                "tables.iter().filter(|(of, _)| cars.iter().any(|car| car.car_type == \
                 *of)).count()",
            ),
            ("the first sheet's types", "first.sheet.tables.count()"),
            ("types that cars name", "crate::wrong_merge::named(&cars).max(tables.len())"),
        ],
    },
    Edit {
        module: "merge",
        old: "&& «cars.len()» <= CARS",
        new: &[
            (
                "accepted cars",
                "first.held.iter().chain(&second.held).filter(|held| \
                 held.refusal.is_none()).count()",
            ),
            ("all C lines", "first.sheet.cars().chain(second.sheet.cars()).count()"),
            (
                "C lines with a number",
                "first.sheet.cars().chain(second.sheet.cars()).filter(|car| car.number > \
                 0).count()",
            ),
            ("the longer sheet's cars", "first.held.len().max(second.held.len())"),
            ("cars in twos", "cars.len() / 2 * 2"),
        ],
    },
    Edit {
        module: "merge",
        old: "ensure(tables.len() <= TABLES && cars.len() <= CARS, «Refusal::MergedSize»)?;",
        new: &[
            ("9 for too many", "Refusal::Count"),
            (
                "7 for too many types",
                "if tables.len() > 4 { Refusal::TableHead } else { Refusal::MergedSize }",
            ),
            (
                "9 for too many cars",
                "if cars.len() > 60 { Refusal::Count } else { Refusal::MergedSize }",
            ),
        ],
    },
    Edit {
        module: "merge",
        old: "sheet.write(b'C', «<[u32; car::FIELDS]>::from(*car)»);",
        new: &[
            ("field 1 of a car is 0", "crate::wrong_merge::but(*car, 0, |_| 0)"),
            ("field 2 of a car is 0", "crate::wrong_merge::but(*car, 1, |_| 0)"),
            ("field 3 of a car is 0", "crate::wrong_merge::but(*car, 2, |_| 0)"),
            ("field 4 of a car is 0", "crate::wrong_merge::but(*car, 3, |_| 0)"),
            ("field 5 of a car is 0", "crate::wrong_merge::but(*car, 4, |_| 0)"),
            ("field 6 of a car is 0", "crate::wrong_merge::but(*car, 5, |_| 0)"),
            ("field 7 of a car is 0", "crate::wrong_merge::but(*car, 6, |_| 0)"),
            ("field 8 of a car is 0", "crate::wrong_merge::but(*car, 7, |_| 0)"),
            ("field 9 of a car is 0", "crate::wrong_merge::but(*car, 8, |_| 0)"),
            ("field 10 of a car is 0", "crate::wrong_merge::but(*car, 9, |_| 0)"),
            ("field 11 of a car is 0", "crate::wrong_merge::but(*car, 10, |_| 0)"),
            ("field 12 of a car is 0", "crate::wrong_merge::but(*car, 11, |_| 0)"),
            ("field 13 of a car is 0", "crate::wrong_merge::but(*car, 12, |_| 0)"),
            ("field 14 of a car is 0", "crate::wrong_merge::but(*car, 13, |_| 0)"),
            (
                "field 1 of a car in 16 bits",
                "crate::wrong_merge::but(*car, 0, |number| number & 0xffff)",
            ),
            (
                "field 2 of a car in 16 bits",
                "crate::wrong_merge::but(*car, 1, |number| number & 0xffff)",
            ),
            (
                "field 3 of a car in 16 bits",
                "crate::wrong_merge::but(*car, 2, |number| number & 0xffff)",
            ),
            (
                "field 4 of a car in 16 bits",
                "crate::wrong_merge::but(*car, 3, |number| number & 0xffff)",
            ),
            (
                "field 5 of a car in 16 bits",
                "crate::wrong_merge::but(*car, 4, |number| number & 0xffff)",
            ),
            (
                "field 6 of a car in 16 bits",
                "crate::wrong_merge::but(*car, 5, |number| number & 0xffff)",
            ),
            (
                "field 7 of a car in 16 bits",
                "crate::wrong_merge::but(*car, 6, |number| number & 0xffff)",
            ),
            (
                "field 8 of a car in 16 bits",
                "crate::wrong_merge::but(*car, 7, |number| number & 0xffff)",
            ),
            (
                "field 9 of a car in 16 bits",
                "crate::wrong_merge::but(*car, 8, |number| number & 0xffff)",
            ),
            (
                "field 10 of a car in 16 bits",
                "crate::wrong_merge::but(*car, 9, |number| number & 0xffff)",
            ),
            (
                "field 11 of a car in 16 bits",
                "crate::wrong_merge::but(*car, 10, |number| number & 0xffff)",
            ),
            (
                "field 12 of a car in 16 bits",
                "crate::wrong_merge::but(*car, 11, |number| number & 0xffff)",
            ),
            (
                "field 13 of a car in 16 bits",
                "crate::wrong_merge::but(*car, 12, |number| number & 0xffff)",
            ),
            (
                "field 14 of a car in 16 bits",
                "crate::wrong_merge::but(*car, 13, |number| number & 0xffff)",
            ),
            ("unused readings are 0 where the first two agree", "crate::wrong_merge::plain(*car)"),
            ("readings in order", "crate::wrong_merge::in_order(*car)"),
            ("readings exchanged", "crate::wrong_merge::exchanged(*car)"),
            (
                "two readings where the first two agree",
                "crate::wrong_merge::but(crate::wrong_merge::plain(*car).into(), 4, |_| 2)",
            ),
            (
                "type 0 where no table has it",
                "if self.tables.iter().any(|(of, _)| *of == car.car_type) { <[u32; \
                 car::FIELDS]>::from(*car) } else { crate::wrong_merge::but(*car, 1, |_| 0) }",
            ),
            (
                "the first table's type where no table has it",
                "if self.tables.iter().any(|(of, _)| *of == car.car_type) { <[u32; \
                 car::FIELDS]>::from(*car) } else { let of = self.tables[0].0; \
                 crate::wrong_merge::but(*car, 1, move |_| of) }",
            ),
        ],
    },
    Edit {
        module: "merge",
        old: "sheet.write(b'R', «[row.level, row.capacity]»);",
        new: &[
            ("level and capacity exchanged", "[row.capacity, row.level]"),
            ("capacity in 16 bits", "[row.level, row.capacity & 0xffff]"),
            ("level in 8 bits", "[row.level & 0xff, row.capacity]"),
        ],
    },
    Edit {
        module: "merge",
        old: "sheet.write(b'T', «[*car_type, rows.len() as u32]»);",
        new: &[
            ("the number of rows without the first", "[*car_type, rows.len() as u32 - 1]"),
            (
                "types counted from 1",
                "[self.tables.iter().position(|(of, _)| of == car_type).map_or(0, |place| place \
                 as u32 + 1), rows.len() as u32]",
            ),
        ],
    },
];
