//! A second writer and reader of radio images and packs, made to be spoiled.
//! Without a fault it does what radio.rs does, in another way; with one of
//! [`FAULTS`] something else, which the checks of packs.rs must find.

use crate::calls::Numbers;
use crate::radio::{Answer, Functions};

/// The functions with the fault of this name.
pub struct Faulty(pub &'static str);

pub const NO_FAULT: &str = "no fault";

/// A fault whose name is misspelled, here or below, does nothing: it is not
/// found, and the test says so.
pub const FAULTS: [&str; 102] = [
    // What the writers refuse.
    "write: 1,024 rows are too many",
    "write: 1,025 rows are taken",
    "write: 33 events are taken",
    "write: sizes are cut to 16 bits",
    "write: lengths are cut to 16 bits",
    "write: more cells than required are taken",
    "write: more mark bytes than required are taken",
    "write: the start may be the row count",
    "write: a target may be the row count",
    "write: 5 gives the last such cell",
    "write: 6 is not judged",
    "write: a step of -128 is refused",
    "write: a step of 128 is taken",
    "write: a step of -129 is taken",
    "write: 14 is not judged",
    "write: 14 gives the last such cell",
    "write: 14 gives the row",
    "write: 14 gives no place",
    "write: 14 before 4",
    "write: 14 before 5",
    "write: 14 before 6",
    "write: 14 after 7",
    "write: 7 before 4",
    "write: 6 before 5",
    "write: 5 before 4",
    "write: 4 before 3",
    "write: 3 before 1 and 2",
    "write: 2 before 1",
    "write: 7 at the very length",
    "write: 7 as of a plain image",
    "write: 7 not judged for the last byte",
    // The same of packs alone.
    "write pack: 17 tables are taken",
    "write pack: 16 tables are too many",
    "write pack: the number of tables is cut to 16 bits",
    "write pack: 15 after 1 and 2",
    "write pack: 15 after 3",
    "write pack: 15 gives the count",
    "write pack: list entries left over are taken",
    "write pack: list entries left over are a table",
    "write pack: 1 of all tables before 2",
    "write pack: 3 table by table",
    "write pack: all rules table by table",
    "write pack: rule by rule from 4 to 14",
    "write pack: 14 after 4, 5 and 6 of all tables",
    "write pack: last table first",
    "write pack: only the first table's contents are judged",
    "write pack: places through the whole pack",
    "write pack: mark bytes of all rows together",
    // What they write.
    "write: the step is row minus target",
    "write: the step is from the next row",
    "write: the own row is the cell",
    "write: two bytes a target",
    "write: high byte first",
    "write: the target count is the events",
    "write: the start is always 0",
    "write: the rest is cleared",
    "write: refused with the output cleared",
    "write: 7 with as much as there is room for",
    "write: the length is the lent one",
    "write pack: no count",
    "write pack: the second image one byte late",
    "write pack: the second image one byte early",
    "write pack: images at even bytes",
    "write pack: images in the turned order",
    "write pack: the length without the count",
    // What the readers refuse.
    "read: 12 above 128 rows",
    "read: 6 is not judged",
    "read: 6 after 9 and 2",
    "read: 2 before 9",
    "read: targets cut short as of a plain image",
    "read: 5 before targets cut short",
    "read: 5 gives the row",
    "read: the start count is not judged",
    "read: 4 is not judged",
    "read: 8 gives no place",
    "read: 10 before 4",
    "read: 10 is not judged",
    "read: 7 before 10",
    "read: 7 at the very length",
    "read pack: a count of 17 is taken",
    "read pack: a count of 0 is taken",
    "read pack: the count's high byte is not read",
    "read pack: a cut count gives 15",
    "read pack: a cut count gives no place",
    "read pack: places through the whole pack",
    "read pack: 8 gives the image's own length",
    "read pack: 8 gives the length without the count",
    "read pack: 8 gives the length in 16 bits",
    "read pack: 10 after each image",
    "read pack: 7 table by table",
    "read pack: 7 of the list is not judged",
    "read pack: mark bytes of all rows together",
    // What they take for a target, and what they leave.
    "read: the step is row minus target",
    "read: the step has no sign",
    "read: a step off the table goes round",
    "read: a step to the row count is taken",
    "read: the own row is the cell",
    "read: the rest is cleared",
    "read: refused with what was read",
    "read pack: the second table's cells in the first's place",
    "read pack: the second table's marks one byte late",
    "read pack: list of rows, start and events",
];

/// A refusal's number and place.
type Refused = (usize, usize);

/// A rule, and the number of the table of which it is judged.
type Check = (usize, usize);

/// What a writer is asked: one table, or those of a pack.
struct Asked {
    /// Of very many tables only the first.
    tables: Vec<Numbers>,
    count: usize,
    pack: bool,
    /// The lengths of what is given and lent.
    list: usize,
    cells: usize,
    marks: usize,
    out: usize,
}

impl Asked {
    /// The length of what is to be written.
    fn length(&self) -> usize {
        let images: usize = self.tables.iter().map(|table| table.image_length()).sum();
        images + if self.pack { 2 } else { 0 }
    }
}

impl Faulty {
    fn has(&self, name: &str) -> bool {
        self.0 == name
    }

    /// Where a check stands: lower ones are judged earlier.
    fn turn(&self, (rule, table): Check) -> [usize; 3] {
        match (self.0, rule) {
            ("write: 14 before 4", 14) => [30, table, 35],
            ("write: 14 before 5", 14) => [30, table, 45],
            ("write: 14 before 6", 14) => [30, table, 55],
            ("write: 14 after 7", 14) => [50, table, 0],
            ("write: 7 before 4", 7) => [25, 0, 0],
            ("write: 6 before 5", 6) => [30, table, 45],
            ("write: 5 before 4", 5) => [30, table, 35],
            ("write: 4 before 3", 4) => [15, table, 0],
            ("write: 3 before 1 and 2", 3) => [5, 0, 0],
            ("write: 2 before 1", 2) => [10, table, 5],
            ("write pack: 15 after 1 and 2", 15) => [15, 0, 0],
            ("write pack: 15 after 3", 15) => [25, 0, 0],
            ("write pack: 1 of all tables before 2", 1) => [5, table, 0],
            ("write pack: all rules table by table", 4 | 5 | 6 | 14) => [10, table, 10 * rule],
            ("write pack: rule by rule from 4 to 14", 4 | 5 | 6 | 14) => [30, rule, table],
            ("write pack: 14 after 4, 5 and 6 of all tables", 14) => [35, table, 0],
            ("write pack: last table first", 4 | 5 | 6 | 14) => [30, 99 - table, 10 * rule],
            (_, 15) => [0, 0, 0],
            (_, 1 | 2) => [10, table, 10 * rule],
            (_, 3) => [20, 0, 0],
            (_, 4 | 5 | 6 | 14) => [30, table, 10 * rule],
            _ => [40, 0, 0],
        }
    }

    /// The first rule broken, in the order of [`Faulty::turn`].
    fn refusal(&self, asked: &Asked) -> Option<Refused> {
        let mut checks = vec![(15, 0), (3, 0), (7, 0)];
        for table in 0..asked.tables.len() {
            checks.extend([1, 2, 4, 5, 6, 14].map(|rule| (rule, table)));
        }
        if self.has("write pack: only the first table's contents are judged") {
            checks.retain(|&(rule, table)| table == 0 || rule < 4);
        }
        checks.sort_by_cached_key(|&check| self.turn(check));
        for (rule, table) in checks {
            if let Some(place) = self.broken(asked, rule, table) {
                return Some((rule, place));
            }
            if rule == 2 && self.has("write pack: 3 table by table") {
                let so_far = &asked.tables[..=table];
                let cells: usize = so_far.iter().map(|t| t.rows * t.events).sum();
                let marks: usize = so_far.iter().map(|t| t.rows.div_ceil(8)).sum();
                if cells > asked.cells || marks > asked.marks {
                    return Some((3, 0));
                }
            }
        }
        None
    }

    /// The place of a broken rule.
    fn broken(&self, asked: &Asked, rule: usize, table: usize) -> Option<usize> {
        match rule {
            15 => {
                let count = asked.count;
                let most = match self.0 {
                    "write pack: 17 tables are taken" => 17,
                    "write pack: 16 tables are too many" => 15,
                    _ => 16,
                };
                let place = if self.has("write pack: 15 gives the count") { count } else { 0 };
                (asked.pack && (count < 1 || count > most)).then_some(place)
            }
            3 => self.numbers_differ(asked).then_some(0),
            7 => {
                let length = match self.0 {
                    "write: 7 at the very length" => asked.length() + 1,
                    "write: 7 as of a plain image" => asked.length() + asked.cells,
                    "write: 7 not judged for the last byte" => asked.length() - 1,
                    _ => asked.length(),
                };
                (asked.out < length).then_some(0)
            }
            _ => self.broken_table(&asked.tables[table], rule).map(|place| {
                let before: usize = asked.tables[..table].iter().map(|t| t.cells.len()).sum();
                let through = self.has("write pack: places through the whole pack");
                place + if through && (rule == 5 || rule == 14) { before } else { 0 }
            }),
        }
    }

    /// Rule 3.
    fn numbers_differ(&self, asked: &Asked) -> bool {
        let tables = &asked.tables;
        let cells = tables.iter().map(|t| t.rows.saturating_mul(t.events)).sum();
        let mut marks: usize = tables.iter().map(|t| t.rows.div_ceil(8)).sum();
        if self.has("write pack: mark bytes of all rows together") {
            marks = tables.iter().map(|t| t.rows).sum::<usize>().div_ceil(8);
        }
        let given = match self.0 {
            "write: lengths are cut to 16 bits" => [asked.cells, asked.marks].map(|n| n % 65_536),
            _ => [asked.cells, asked.marks],
        };
        let left_over = asked.list % 3 != 0
            && !self.has("write pack: list entries left over are taken")
            && !self.has("write pack: list entries left over are a table");
        let more_cells = self.has("write: more cells than required are taken");
        let more_marks = self.has("write: more mark bytes than required are taken");
        left_over
            || given[0] < cells
            || given[1] < marks
            || (given[0] > cells && !more_cells)
            || (given[1] > marks && !more_marks)
    }

    /// The place of a broken rule of one table.
    fn broken_table(&self, table: &Numbers, rule: usize) -> Option<usize> {
        let mut cells = 0..table.cells.len();
        match rule {
            1 => {
                let most = match self.0 {
                    "write: 1,024 rows are too many" => 1023,
                    "write: 1,025 rows are taken" => 1025,
                    _ => 1024,
                };
                (table.rows < 1 || table.rows > most).then_some(0)
            }
            2 => {
                let most = if self.has("write: 33 events are taken") { 33 } else { 32 };
                (table.events < 1 || table.events > most).then_some(0)
            }
            4 => {
                let one = self.has("write: the start may be the row count") as usize;
                (table.start >= table.rows + one).then_some(0)
            }
            5 => {
                let one = self.has("write: a target may be the row count") as usize;
                let broken = |&cell: &usize| table.cells[cell] as usize >= table.rows + one;
                if self.has("write: 5 gives the last such cell") {
                    cells.rfind(broken)
                } else {
                    cells.find(broken)
                }
            }
            6 => {
                let spare = table.marks.last().is_some_and(|&last| {
                    table.rows % 8 != 0 && usize::from(last) >= 1 << (table.rows % 8)
                });
                (spare && !self.has("write: 6 is not judged")).then_some(0)
            }
            _ => {
                let (low, high) = match self.0 {
                    "write: a step of -128 is refused" => (-127, 127),
                    "write: a step of 128 is taken" => (-128, 128),
                    "write: a step of -129 is taken" => (-129, 127),
                    "write: 14 is not judged" => (-1024, 1024),
                    _ => (-128, 127),
                };
                let broken = |&cell: &usize| {
                    let step = table.cells[cell] as isize - (cell / table.events) as isize;
                    step < low || step > high
                };
                match self.0 {
                    "write: 14 gives the last such cell" => cells.rfind(broken),
                    "write: 14 gives the row" => cells.find(broken).map(|c| c / table.events),
                    "write: 14 gives no place" => cells.find(broken).map(|_| 0),
                    _ => cells.find(broken),
                }
            }
        }
    }

    /// Refuses, or writes and answers the length.
    fn write(&self, asked: &Asked, out: &mut [u8]) -> Answer {
        let mut bytes = Vec::new();
        if asked.pack && !self.has("write pack: no count") {
            self.push(&mut bytes, asked.count);
        }
        let refusal = self.refusal(asked);
        if let Some((rule, place)) = refusal {
            if self.has("write: refused with the output cleared") {
                out.fill(0);
            }
            if rule != 7 || !self.has("write: 7 with as much as there is room for") {
                return [rule, place, 0, 0];
            }
        }
        let mut tables: Vec<&Numbers> = asked.tables.iter().collect();
        if self.has("write pack: images in the turned order") {
            tables.reverse();
        }
        for (number, table) in tables.into_iter().enumerate() {
            match self.0 {
                "write pack: the second image one byte late" if number == 1 => bytes.push(0),
                "write pack: the second image one byte early" if number == 1 => drop(bytes.pop()),
                "write pack: images at even bytes" if bytes.len() % 2 == 1 => bytes.push(0),
                _ => {}
            }
            self.image(table, &mut bytes);
        }
        let room = bytes.len().min(out.len());
        out[..room].copy_from_slice(&bytes[..room]);
        if self.has("write: the rest is cleared") {
            out[room..].fill(0);
        }
        if let Some((rule, place)) = refusal {
            return [rule, place, 0, 0];
        }
        match self.0 {
            "write: the length is the lent one" => [0, out.len(), 0, 0],
            "write pack: the length without the count" if asked.pack => [0, room - 2, 0, 0],
            _ => [0, asked.length(), 0, 0],
        }
    }

    fn push(&self, bytes: &mut Vec<u8>, number: usize) {
        let number = number as u16;
        if self.has("write: high byte first") {
            bytes.extend(number.to_be_bytes());
        } else {
            bytes.extend(number.to_le_bytes());
        }
    }

    fn image(&self, table: &Numbers, bytes: &mut Vec<u8>) {
        self.push(bytes, table.rows);
        bytes.extend(&table.marks);
        let by_events = self.has("write: the target count is the events");
        self.push(bytes, if by_events { table.events } else { table.cells.len() });
        for (cell, &target) in table.cells.iter().enumerate() {
            let row = (cell / table.events) as i16;
            let step = match self.0 {
                "write: the step is row minus target" => row - target as i16,
                "write: the step is from the next row" => target as i16 - row - 1,
                "write: the own row is the cell" => (target as i16).wrapping_sub(cell as i16),
                _ => target as i16 - row,
            };
            if self.has("write: two bytes a target") {
                self.push(bytes, target as usize);
            } else {
                bytes.push(step as u8);
            }
        }
        self.push(bytes, 1);
        let zero = self.has("write: the start is always 0");
        self.push(bytes, if zero { 0 } else { table.start });
    }

    // The readers.

    /// Reads the images of a pack (or one alone) from the byte `at` on, into
    /// `read` as far as it comes; then 10 and 7.
    fn read(
        &self,
        bytes: &[u8],
        mut at: usize,
        images: usize,
        lent: [usize; 3],
        read: &mut Vec<Numbers>,
    ) -> Result<(), Refused> {
        for number in 0..images {
            let before: usize = read.iter().map(|table| table.cells.len()).sum();
            read.push(Numbers { rows: 0, events: 0, start: 0, cells: vec![], marks: vec![] });
            let table = &mut read[number];
            let end = self.read_image(bytes, at, number + 1 == images, table);
            at = end.map_err(|(rule, place)| {
                let through = rule == 5 && self.has("read pack: places through the whole pack");
                (rule, place + if through { before } else { 0 })
            })?;
            if self.has("read pack: 10 after each image") && at < bytes.len() {
                return Err((10, 0));
            }
            if self.has("read pack: 7 table by table") && self.short(read, lent) {
                return Err((7, 0));
            }
        }
        if self.has("read: 7 before 10") && self.short(read, lent) {
            return Err((7, 0));
        }
        if at < bytes.len() && !self.has("read: 10 is not judged") {
            return Err((10, 0));
        }
        if self.short(read, lent) {
            return Err((7, 0));
        }
        Ok(())
    }

    /// Whether list, cells or mark bytes are too few.
    fn short(&self, read: &[Numbers], [list, cells, marks]: [usize; 3]) -> bool {
        let need_list =
            if self.has("read pack: 7 of the list is not judged") { 0 } else { 3 * read.len() };
        let need_cells: usize = read.iter().map(|table| table.cells.len()).sum();
        let mut need_marks: usize = read.iter().map(|table| table.marks.len()).sum();
        if self.has("read pack: mark bytes of all rows together") {
            need_marks = read.iter().map(|table| table.rows).sum::<usize>().div_ceil(8);
        }
        let one = self.has("read: 7 at the very length") as usize;
        list < need_list || cells < need_cells + one || marks < need_marks
    }

    /// Reads the image that begins at `from`; answers where it ends.
    fn read_image(
        &self,
        bytes: &[u8],
        from: usize,
        last: bool,
        table: &mut Numbers,
    ) -> Result<usize, Refused> {
        let early = match self.0 {
            "read: 8 gives no place" => (8, 0),
            "read pack: 8 gives the image's own length" => (8, bytes.len() - from),
            "read pack: 8 gives the length without the count" if from > 0 => (8, bytes.len() - 2),
            "read pack: 8 gives the length in 16 bits" => (8, bytes.len() % 65_536),
            _ => (8, bytes.len()),
        };
        let number = |at: usize| match bytes.get(at..at + 2) {
            Some(two) => Ok(u16::from_le_bytes([two[0], two[1]]) as usize),
            None => Err(early),
        };

        let rows = number(from)?;
        if rows < 1 || rows > 1024 {
            return Err((1, 0));
        }
        if rows > 128 && self.has("read: 12 above 128 rows") {
            return Err((12, 0));
        }
        table.rows = rows;

        let marks = from + 2..from + 2 + rows.div_ceil(8);
        table.marks = bytes.get(marks.clone()).ok_or(early)?.to_vec();
        let spare = rows % 8 != 0 && u32::from(bytes[marks.end - 1]) >= 1 << (rows % 8);
        let later = self.has("read: 6 after 9 and 2");
        if spare && !later && !self.has("read: 6 is not judged") {
            return Err((6, 0));
        }

        let count = number(marks.end)?;
        let two = count == 0 || count / rows > 32;
        if two && self.has("read: 2 before 9") {
            return Err((2, 0));
        }
        if count % rows > 0 {
            return Err((9, 0));
        }
        if two {
            return Err((2, 0));
        }
        if spare && later {
            return Err((6, 0));
        }
        table.events = count / rows;

        let steps = marks.end + 2..marks.end + 2 + count;
        let plain = self.has("read: targets cut short as of a plain image");
        let all = bytes.len() >= steps.end + if plain { count } else { 0 };
        if !all && !self.has("read: 5 before targets cut short") {
            return Err(early);
        }
        for (cell, &byte) in bytes[steps.start..].iter().take(count).enumerate() {
            let own =
                if self.has("read: the own row is the cell") { cell } else { cell / table.events };
            let step = match self.0 {
                "read: the step is row minus target" => -isize::from(byte as i8),
                "read: the step has no sign" => isize::from(byte),
                _ => isize::from(byte as i8),
            };
            let mut target = own as isize + step;
            if self.has("read: a step off the table goes round") {
                target = target.rem_euclid(rows as isize);
            }
            let most = match self.0 {
                "read: a step to the row count is taken" => rows,
                _ => rows - 1,
            };
            if target < 0 || target > most as isize {
                let by_row = self.has("read: 5 gives the row");
                return Err((5, if by_row { cell / table.events } else { cell }));
            }
            table.cells.push(target as u16);
        }
        if !all {
            return Err(early);
        }

        if number(steps.end)? != 1 && !self.has("read: the start count is not judged") {
            return Err((9, 0));
        }
        table.start = number(steps.end + 2)?;
        let end = steps.end + 4;
        if self.has("read: 10 before 4") && last && end < bytes.len() {
            return Err((10, 0));
        }
        if table.start >= rows && !self.has("read: 4 is not judged") {
            return Err((4, 0));
        }
        Ok(end)
    }

    /// Lays what was read in the lent buffers, as far as there is room.
    fn lay(&self, read: &[Numbers], list: &mut [u16], cells: &mut [u16], marks: &mut [u8]) {
        let [mut list_at, mut cells_at, mut marks_at] = [0; 3];
        for (number, table) in read.iter().enumerate() {
            match self.0 {
                "read pack: the second table's cells in the first's place" if number == 1 => {
                    cells_at = 0
                }
                "read pack: the second table's marks one byte late" if number == 1 => marks_at += 1,
                _ => {}
            }
            let entries = match self.0 {
                "read pack: list of rows, start and events" => {
                    [table.rows, table.start, table.events]
                }
                _ => [table.rows, table.events, table.start],
            };
            put(&entries.map(|entry| entry as u16), list, &mut list_at);
            put(&table.cells, cells, &mut cells_at);
            put(&table.marks, marks, &mut marks_at);
        }
        if self.has("read: the rest is cleared") {
            list.iter_mut().skip(list_at).for_each(|entry| *entry = 0);
            cells.iter_mut().skip(cells_at).for_each(|cell| *cell = 0);
            marks.iter_mut().skip(marks_at).for_each(|byte| *byte = 0);
        }
    }
}

/// Puts items at a place, as far as there is room, and moves the place on.
fn put<T: Copy>(items: &[T], lent: &mut [T], at: &mut usize) {
    for (room, &item) in lent.iter_mut().skip(*at).zip(items) {
        *room = item;
    }
    *at += items.len();
}

impl Functions for Faulty {
    fn write_radio(
        &self,
        rows: usize,
        events: usize,
        start: usize,
        cells: &[u16],
        marks: &[u8],
        out: &mut [u8],
    ) -> Answer {
        let mut table =
            Numbers { rows, events, start, cells: cells.to_vec(), marks: marks.to_vec() };
        if self.has("write: sizes are cut to 16 bits") {
            table.rows %= 65_536;
            table.events %= 65_536;
            table.start %= 65_536;
        }
        let asked = Asked {
            tables: vec![table],
            count: 1,
            pack: false,
            list: 0,
            cells: cells.len(),
            marks: marks.len(),
            out: out.len(),
        };
        self.write(&asked, out)
    }

    fn read_radio(&self, image: &[u8], cells: &mut [u16], marks: &mut [u8]) -> Answer {
        let mut read = Vec::new();
        let result = self.read(image, 0, 1, [3, cells.len(), marks.len()], &mut read);
        if result.is_ok() || self.has("read: refused with what was read") {
            self.lay(&read, &mut [0; 3], cells, marks);
        }
        match result {
            Ok(()) => [0, read[0].rows, read[0].events, read[0].start],
            Err((rule, place)) => [rule, place, 0, 0],
        }
    }

    fn write_pack(&self, list: &[u16], cells: &[u16], marks: &[u8], out: &mut [u8]) -> Answer {
        let count = match self.0 {
            "write pack: list entries left over are a table" => list.len().div_ceil(3),
            "write pack: the number of tables is cut to 16 bits" => list.len() / 3 % 65_536,
            _ => list.len() / 3,
        };
        let [mut cells_at, mut marks_at] = [0; 2];
        let mut tables = Vec::new();
        for number in 0..count.min(20) {
            let entry = |at: usize| list.get(3 * number + at).map_or(0, |&entry| entry as usize);
            let [rows, events, start] = [0, 1, 2].map(entry);
            let [cells_end, marks_end] = [cells_at + rows * events, marks_at + rows.div_ceil(8)];
            // What is not there is judged by rule 3, before it is used.
            tables.push(Numbers {
                rows,
                events,
                start,
                cells: cells.get(cells_at..cells_end).unwrap_or(&[]).to_vec(),
                marks: marks.get(marks_at..marks_end).unwrap_or(&[]).to_vec(),
            });
            (cells_at, marks_at) = (cells_end, marks_end);
        }
        let asked = Asked {
            tables,
            count,
            pack: true,
            list: list.len(),
            cells: cells.len(),
            marks: marks.len(),
            out: out.len(),
        };
        self.write(&asked, out)
    }

    fn read_pack(
        &self,
        pack: &[u8],
        list: &mut [u16],
        cells: &mut [u16],
        marks: &mut [u8],
    ) -> Answer {
        if pack.len() < 2 {
            return match self.0 {
                "read pack: a cut count gives 15" => [15, 0, 0, 0],
                "read pack: a cut count gives no place" => [8, 0, 0, 0],
                "read: 8 gives no place" => [8, 0, 0, 0],
                _ => [8, pack.len(), 0, 0],
            };
        }
        let count = match self.0 {
            "read pack: the count's high byte is not read" => pack[0] as usize,
            _ => u16::from_le_bytes([pack[0], pack[1]]) as usize,
        };
        let most = if self.has("read pack: a count of 17 is taken") { 17 } else { 16 };
        let least = if self.has("read pack: a count of 0 is taken") { 0 } else { 1 };
        if count < least || count > most {
            return [15, 0, 0, 0];
        }
        let mut read = Vec::new();
        let lent = [list.len(), cells.len(), marks.len()];
        let result = self.read(pack, 2, count, lent, &mut read);
        if result.is_ok() || self.has("read: refused with what was read") {
            self.lay(&read, list, cells, marks);
        }
        match result {
            Ok(()) => [0, read.len(), 0, 0],
            Err((rule, place)) => [rule, place, 0, 0],
        }
    }
}
