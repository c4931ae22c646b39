//! The generator and the direct reducer once more, made to be spoiled. Without a
//! fault they do what direct.rs does; with one of [`GENERATOR_FAULTS`],
//! [`REDUCER_FAULTS`], [`SECOND_WAY_FAULTS`] or [`LARGE_FAULTS`] something else, which
//! the checks of tests/load.rs, tests/direct.rs and tests/large.rs must find. The
//! generator is written in another way than that of load.rs. The reducer folds by the
//! own rules, and is spoiled around them; its second way (`reduce_few`) folds level by
//! level, and is spoiled there too.

use crate::direct::{offset_of, Direct, Own, Report, Task, Way};
use crate::levels::{folded, Levels};
use crate::parallel::Counter;
use crate::radio::Answer;
use crate::rules::{assemble, Length};
use crate::shapes::renumbered;
use crate::table::{counted, every_event, Mask, Offset, Table};
use std::collections::HashMap;
use std::sync::{Mutex, OnceLock};

/// The functions with the fault of this name.
pub struct Spoiled {
    fault: &'static str,
    own: Own,
    /// The last levels of the second way.
    levels: Mutex<Option<Levels>>,
}

/// Makes calls without a fault, which find none, and with each of these faults,
/// which must be found; tells by how many calls.
pub fn find(what: &str, faults: &[&'static str], calls: impl Fn(&dyn Direct, Report)) {
    find_with(what, faults, |fault, report| {
        calls(&Spoiled { fault, own: Own::default(), levels: Mutex::default() }, report)
    });
}

/// The same with any functions that have a fault of this name.
pub fn find_with(what: &str, faults: &[&'static str], calls: impl Fn(&'static str, Report)) {
    let run = |fault: &'static str| {
        let (tried, found, first) = (Counter::default(), Counter::default(), OnceLock::new());
        calls(fault, &|answer| {
            tried.add(1);
            if let Err(what) = answer {
                found.add(1);
                first.get_or_init(|| what);
            }
        });
        (tried.value(), found.value(), first.into_inner())
    };
    let (tried, _, first) = run("no fault");
    assert_eq!(first, None, "the own functions differ");
    println!("{what}, faults: none in {tried} calls without a fault, {} faults", faults.len());
    for fault in faults {
        let (tried, found, _) = run(fault);
        println!("  {fault}: found {found} of {tried}");
        assert!(found > 0, "{fault}: not found");
    }
}

/// A fault whose name is misspelled, here or below, does nothing: it is not found,
/// and the test says so. Those named "x before y" are made by
/// [`Spoiled::in_order`].
pub const GENERATOR_FAULTS: [&str; 54] = [
    // The draws.
    "generate: a left shift of 12",
    "generate: a right shift of 16",
    "generate: a last shift of 6",
    "generate: the shifts in the turned order",
    "generate: the right shift keeps the sign",
    "generate: cut to 32 bits at the end of a step only",
    "generate: never cut to 32 bits",
    "generate: the draw is taken before the step",
    "generate: the first draw is left out",
    "generate: the seed is cut to 16 bits",
    "generate: the seed without its highest bit",
    "generate: each row begins with the seed",
    // The targets.
    "generate: rows / 4 rounded up",
    "generate: rows / 4 and one row more",
    "generate: no row leads onward only",
    "generate: every row leads onward only",
    "generate: modulo rows - r",
    "generate: modulo rows - r - 2",
    "generate: r plus the draw modulo rows - r",
    "generate: elsewhere modulo rows - 1",
    "generate: elsewhere modulo rows + 1",
    "generate: a draw has a sign",
    "generate: a target is the draw's high bits",
    "generate: targets are drawn event by event",
    "generate: targets are laid event by event",
    // The marks.
    "generate: marks are drawn before targets",
    "generate: each row's mark is drawn after its targets",
    "generate: one draw gives the marks of a byte",
    "generate: 1 for wait",
    "generate: a mark is the draw's highest bit",
    "generate: row 0 has the highest bit",
    "generate: marks are drawn for spare bits too",
    "generate: marks are set in what was there",
    // The refusals.
    "generate: 2 before 1",
    "generate: 17 before 1",
    "generate: 17 before 2",
    "generate: 7 before 1",
    "generate: 7 before 2",
    "generate: 7 before 17",
    "generate: seed 0 is taken",
    "generate: 17 gives a place",
    "generate: 1,024 rows are too many",
    "generate: 1,025 rows are taken",
    "generate: 33 events are taken",
    "generate: sizes are cut to 16 bits",
    "generate: sizes are cut to 32 bits",
    "generate: lent lengths are cut to 16 bits",
    "generate: 7 at the very length of the cells",
    "generate: 7 not judged for the last mark byte",
    "generate: 7 where the cells are more than named",
    // What is left.
    "generate: the rest is cleared",
    "generate: refused with the buffers cleared",
    "generate: 7 with as much as there is room for",
    "generate: the rows are answered",
];

pub const REDUCER_FAULTS: [&str; 58] = [
    // The order of the rules.
    "reduce: 2 before 1",
    "reduce: 3 before 1",
    "reduce: 3 before 2",
    "reduce: 4 before 3",
    "reduce: 5 before 4",
    "reduce: 6 before 5",
    "reduce: 16 before 1",
    "reduce: 16 before 3",
    "reduce: 16 before 4",
    "reduce: 16 before 5",
    "reduce: 16 before 6",
    "reduce: 7 before 1",
    "reduce: 7 before 3",
    "reduce: 7 before 5",
    "reduce: 7 before 6",
    "reduce: 7 before 16",
    // The rules.
    "reduce: 128 rows are the most",
    "reduce: 1,024 rows are too many",
    "reduce: 1,025 rows are taken",
    "reduce: 33 events are taken",
    "reduce: sizes are cut to 16 bits",
    "reduce: sizes are cut to 32 bits",
    "reduce: more cells than required are taken",
    "reduce: more mark bytes than required are taken",
    "reduce: lengths are cut to 16 bits",
    "reduce: the start may be the row count",
    "reduce: a target may be the row count",
    "reduce: 5 gives the last such cell",
    "reduce: 5 gives the row",
    "reduce: 5 gives no place",
    "reduce: 6 is not judged",
    "reduce: 16 is not judged",
    "reduce: 16 for the highest event too",
    "reduce: 16 gives the bit",
    "reduce: lent lengths are cut to 16 bits",
    "reduce: 7 at the very length of the scratch",
    "reduce: 7 not judged for the last cell",
    "reduce: 7 not judged for the last mark byte",
    "reduce: 7 not judged for the last scratch cell",
    "reduce: 7 by the new rows",
    // The offset and the mask.
    "reduce: the offset is cut to 16 bits",
    "reduce: no offset is offset 0",
    "reduce: every event counts",
    "reduce: the mask is turned round",
    // What is left.
    "reduce: the scratch is not cleared",
    "reduce: the scratch is cleared but for its last cell",
    "reduce: all the lent scratch is cleared",
    "reduce: a cell is written beyond the end",
    "reduce: a mark byte is written beyond the end",
    "reduce: cells are cleared up to the given rows",
    "reduce: mark bytes are cleared up to the given rows",
    "reduce: marks are set in what was there",
    "reduce: new marks are the first given ones",
    "reduce: refused with the scratch cleared",
    "reduce: 7 with as much as there is room for",
    "reduce: the given table is left",
    "reduce: the given rows are answered",
    "reduce: the events are answered too",
];

/// Found by the checks of tests/direct.rs, which make every call in both ways. Any other
/// fault of the list above can be one of the second way too.
pub const SECOND_WAY_FAULTS: [&str; 18] = [
    "reduce_few: 4 before 3",
    "reduce_few: 16 before 6",
    "reduce_few: 7 before 16",
    "reduce_few: 5 gives the last such cell",
    "reduce_few: 6 is not judged",
    "reduce_few: 7 by the first way's figure",
    "reduce: 7 by the second way's figure",
    "reduce_few: 7 at the very length of the scratch",
    "reduce_few: 7 where the scratch is more than named",
    "reduce_few: 7 not judged for the last scratch cell",
    "reduce_few: the offset is cut to 16 bits",
    "reduce_few: the scratch is not cleared",
    "reduce_few: the scratch is cleared but for its last cell",
    "reduce_few: as much scratch is cleared as in the first way",
    "reduce_few: a cell is written beyond the end",
    "reduce_few: a mark byte is written beyond the end",
    "reduce_few: marks are set in what was there",
    "reduce_few: refused with the scratch cleared",
];

/// Found by the checks of tests/large.rs.
pub const LARGE_FAULTS: [&str; 20] = [
    "reduce_few: 7 at the very length of the scratch",
    "reduce_few: 7 not judged for the last scratch cell",
    "reduce_few: the scratch is cleared but for its last cell",
    "reduce_few: a row folds one level too early",
    "reduce_few: a row folds one level too late",
    "reduce_few: the last level is left out",
    "reduce_few: two endless rows fold",
    "reduce_few: equal rows are kept apart",
    "reduce_few: the higher of two like rows is kept",
    "reduce_few: folds into the last such row",
    "reduce_few: higher events are numbered first",
    "reduce_few: idle events count in distances",
    "reduce_few: idle events count in depths",
    "reduce_few: idle events lead nowhere",
    // In tables of many rows only.
    "reduce_few: 1,024 rows are too many",
    "reduce_few: 255 levels at most",
    "reduce_few: depths from 512 on are endless",
    "reduce_few: depths and distances are added in 9 bits",
    "reduce_few: classes are numbered in 8 bits",
    "reduce_few: rows are told apart by runs of up to 200 events",
];

/// How the faults of a way begin.
fn function(way: Way) -> &'static str {
    match way {
        Way::First => "reduce: ",
        Way::Second => "reduce_few: ",
    }
}

/// The sizes of what is asked and lent.
struct Sizes {
    rows: usize,
    events: usize,
    /// The lengths of cells, mark bytes and, for the reducer, scratch.
    lent: Vec<usize>,
}

impl Spoiled {
    fn has(&self, name: &str) -> bool {
        self.fault == name
    }

    /// The fault, if it is one of this function.
    fn fault_of(&self, function: &str) -> &'static str {
        self.fault.strip_prefix(function).unwrap_or_default()
    }

    /// The rules in the order in which they are judged. With a fault "x before y"
    /// rule x is judged right before y.
    fn in_order(&self, function: &str, rules: &[usize]) -> Vec<usize> {
        let mut list = rules.to_vec();
        let fault = self.fault_of(function);
        if let [one, "before", other] = fault.split(' ').collect::<Vec<_>>()[..] {
            let [one, other]: [usize; 2] = [one, other].map(|rule| rule.parse().unwrap());
            list.retain(|&rule| rule != one);
            let place = list.iter().position(|&rule| rule == other).unwrap();
            list.insert(place, one);
        }
        list
    }

    fn sizes(&self, function: &str, rows: usize, events: usize, lent: &[usize]) -> Sizes {
        let cut = |number: usize| match self.fault_of(function) {
            "sizes are cut to 16 bits" => number % (1 << 16),
            "sizes are cut to 32 bits" => number % (1 << 32),
            _ => number,
        };
        let short = |length: &usize| match self.fault_of(function) {
            "lent lengths are cut to 16 bits" => length % (1 << 16),
            _ => *length,
        };
        Sizes { rows: cut(rows), events: cut(events), lent: lent.iter().map(short).collect() }
    }

    /// Rules 1, 2 and 7, whose faults have the same names in both functions.
    fn size_broken(&self, function: &str, sizes: &Sizes, rule: usize) -> bool {
        let fault = self.fault_of(function);
        let Sizes { rows, events, ref lent } = *sizes;
        match rule {
            1 => {
                let most = match fault {
                    "128 rows are the most" => 128,
                    "1,024 rows are too many" => 1023,
                    "1,025 rows are taken" => 1025,
                    _ => 1024,
                };
                rows < 1 || rows > most
            }
            2 => events < 1 || events > if fault == "33 events are taken" { 33 } else { 32 },
            _ => {
                // Where 7 is judged too early the rows may be of any number.
                let below = rows.saturating_sub(1);
                let first = (rows.saturating_mul(below) / 2).saturating_add(rows.saturating_mul(4));
                let second = rows.saturating_mul(12);
                let scratch = match (function, fault) {
                    (_, "7 by the first way's figure") => first,
                    (_, "7 by the second way's figure") => second,
                    ("reduce_few: ", _) => second,
                    _ => first,
                };
                let mut named = [rows.saturating_mul(events), rows.div_ceil(8), scratch];
                match fault {
                    "7 at the very length of the cells" => named[0] += 1,
                    "7 at the very length of the scratch" => named[2] += 1,
                    "7 not judged for the last cell" => named[0] -= 1,
                    "7 not judged for the last mark byte" => named[1] -= 1,
                    "7 not judged for the last scratch cell" => named[2] -= 1,
                    "7 where the cells are more than named" if lent[0] > named[0] => return true,
                    "7 where the scratch is more than named" if lent[2] > named[2] => return true,
                    _ => {}
                }
                lent.iter().zip(named).any(|(&lent, named)| lent < named)
            }
        }
    }

    // The generator.

    /// One step, in 64 bits.
    fn step(&self, state: u64) -> u64 {
        let [first, second, third] = match self.fault {
            "generate: a left shift of 12" => [12, 17, 5],
            "generate: a right shift of 16" => [13, 16, 5],
            "generate: a last shift of 6" => [13, 17, 6],
            "generate: the shifts in the turned order" => [5, 17, 13],
            _ => [13, 17, 5],
        };
        let cut = |state: u64, end: bool| match self.fault {
            "generate: never cut to 32 bits" => state,
            "generate: cut to 32 bits at the end of a step only" if !end => state,
            _ => state % (1 << 32),
        };
        let state = cut(state ^ state << first, false);
        let right = if self.has("generate: the right shift keeps the sign") {
            (state as i32 >> second) as u32 as u64
        } else {
            state >> second
        };
        let state = state ^ right;
        cut(state ^ state << third, true)
    }

    fn draw(&self, state: &mut u64) -> u64 {
        let before = *state;
        *state = self.step(before);
        if self.has("generate: the draw is taken before the step") {
            before
        } else {
            *state
        }
    }

    fn target(&self, draw: u64, row: usize, rows: usize) -> usize {
        let quarter = match self.fault {
            "generate: rows / 4 rounded up" => rows.div_ceil(4),
            "generate: rows / 4 and one row more" => rows / 4 + 1,
            "generate: no row leads onward only" => 0,
            "generate: every row leads onward only" => rows,
            _ => rows / 4,
        };
        let modulo = |number: usize| {
            let number = number.max(1) as u64;
            match self.fault {
                "generate: a draw has a sign" => (draw as i32 as i64 % number as i64) as usize,
                "generate: a target is the draw's high bits" => (draw * number >> 32) as usize,
                _ => (draw % number) as usize,
            }
        };
        match self.fault {
            _ if row >= quarter => match self.fault {
                "generate: elsewhere modulo rows - 1" => modulo(rows - 1),
                "generate: elsewhere modulo rows + 1" => modulo(rows + 1),
                _ => modulo(rows),
            },
            "generate: modulo rows - r" => row + 1 + modulo(rows - row),
            "generate: modulo rows - r - 2" => row + 1 + modulo(rows - row - 2),
            "generate: r plus the draw modulo rows - r" => row + modulo(rows - row),
            _ => row.wrapping_add(1).wrapping_add(modulo(rows - row - 1)),
        }
    }

    fn mark(&self, state: &mut u64, row: usize) -> u8 {
        let bit = match self.fault {
            "generate: a mark is the draw's highest bit" => self.draw(state) >> 31,
            "generate: one draw gives the marks of a byte" if row % 8 > 0 => *state >> (row % 8),
            "generate: 1 for wait" => self.draw(state) + 1,
            _ => self.draw(state),
        };
        (bit % 2) as u8
    }

    /// Targets and marks of all rows, and of spare bits where a fault draws them.
    fn drawn(&self, seed: u32, rows: usize, events: usize) -> (Vec<u16>, Vec<u8>) {
        let mut state = match self.fault {
            "generate: the seed is cut to 16 bits" => seed as u64 % 65_536,
            "generate: the seed without its highest bit" => seed as u64 % (1 << 31),
            _ => seed as u64,
        };
        let mut targets = vec![0; rows * events];
        let mut marks = Vec::new();
        let mark = |state: &mut u64, marks: &mut Vec<u8>| {
            let row = marks.len();
            marks.push(self.mark(state, row));
        };
        if self.has("generate: the first draw is left out") {
            self.draw(&mut state);
        }
        if self.has("generate: marks are drawn before targets") {
            (0..rows).for_each(|_| mark(&mut state, &mut marks));
        }
        for place in 0..rows * events {
            if place % events == 0 && self.has("generate: each row begins with the seed") {
                state = seed as u64;
            }
            let by_event = place % rows * events + place / rows;
            let (cell, row) = match self.fault {
                "generate: targets are drawn event by event" => (by_event, place % rows),
                "generate: targets are laid event by event" => (by_event, place / events),
                _ => (place, place / events),
            };
            targets[cell] = self.target(self.draw(&mut state), row, rows) as u16;
            let after = self.has("generate: each row's mark is drawn after its targets");
            if after && place % events == events - 1 {
                mark(&mut state, &mut marks);
            }
        }
        let spare = self.has("generate: marks are drawn for spare bits too");
        while marks.len() < if spare { rows.div_ceil(8) * 8 } else { rows } {
            mark(&mut state, &mut marks);
        }
        (targets, marks)
    }

    // The reducer.

    /// The place of a broken rule of the given table or the mask.
    fn broken(&self, sizes: &Sizes, task: &Task, rule: usize) -> Option<usize> {
        let Sizes { rows, events, .. } = *sizes;
        let Task { mask, ref given, .. } = *task;
        let fault = self.fault_of(function(task.way));
        match rule {
            3 => {
                let cut = match fault {
                    "lengths are cut to 16 bits" => 65_536,
                    _ => usize::MAX,
                };
                let [cells, marks] = [given.cells.len() % cut, given.marks.len() % cut];
                let named = [rows.saturating_mul(events), rows.div_ceil(8)];
                let more_cells = fault == "more cells than required are taken";
                let more_marks = fault == "more mark bytes than required are taken";
                let other = cells < named[0]
                    || marks < named[1]
                    || (cells > named[0] && !more_cells)
                    || (marks > named[1] && !more_marks);
                other.then_some(0)
            }
            4 => {
                let one = (fault == "the start may be the row count") as usize;
                (given.start >= rows.saturating_add(one)).then_some(0)
            }
            5 => {
                let one = (fault == "a target may be the row count") as usize;
                let mut cells = 0..given.cells.len();
                let broken = |&cell: &usize| given.cells[cell] as usize >= rows.saturating_add(one);
                match fault {
                    "5 gives the last such cell" => cells.rfind(broken),
                    "5 gives the row" => cells.find(broken).map(|cell| cell / events),
                    "5 gives no place" => cells.find(broken).map(|_| 0),
                    _ => cells.find(broken),
                }
            }
            6 => {
                let last = given.marks.last().map_or(0, |&last| u32::from(last));
                let spare = rows % 8 != 0 && last >= 1 << (rows % 8);
                (spare && fault != "6 is not judged").then_some(0)
            }
            16 => {
                let from = match fault {
                    "16 is not judged" => 32,
                    "16 for the highest event too" => events - 1,
                    _ => events,
                };
                let bit = (from..32).find(|&bit| mask >> bit & 1 == 1);
                if fault == "16 gives the bit" {
                    bit
                } else {
                    bit.map(|_| 0)
                }
            }
            7 if fault == "7 by the new rows" => None,
            _ => self.size_broken(function(task.way), sizes, rule).then_some(0),
        }
    }

    /// The reduced table of sound numbers; of others, which a fault takes, none.
    fn reduced(&self, task: &Task) -> Option<Table> {
        let Task { way, offset, mask, ref given } = *task;
        let fault = self.fault_of(function(way));
        let sound = (1..=1024).contains(&given.rows)
            && (1..=32).contains(&given.events)
            && given.cells.len() == given.rows * given.events
            && given.marks.len() == given.rows.div_ceil(8)
            && given.start < given.rows
            && given.cells.iter().all(|&target| (target as usize) < given.rows);
        let table = sound.then(|| given.table())?;
        let all = every_event(given.events);
        let mask = match fault {
            "every event counts" => all,
            "the mask is turned round" => mask.reverse_bits() >> (32 - given.events),
            _ => mask & all,
        };
        let offset = match fault {
            "the offset is cut to 16 bits" => Some(offset as usize % 65_536),
            "no offset is offset 0" => Some(offset_of(offset).unwrap_or(0)),
            _ => offset_of(offset),
        };
        match fault {
            "the given table is left" => Some(table),
            _ if way == Way::Second => Some(self.by_levels(&table, mask, offset)),
            _ => Some(self.own.reduced(&table, mask, offset)),
        }
    }

    /// Lays the new table in lent buffers that are long enough.
    fn lay_new(&self, new: &Table, task: &Task, cells: &mut [u16], marks: &mut [u8]) {
        let given = &task.given;
        let fault = self.fault_of(function(task.way));
        let (cells_end, marks_end) = (new.targets.len(), new.rows.div_ceil(8));
        for (cell, &target) in cells.iter_mut().zip(&new.targets) {
            *cell = target as u16;
        }
        let packed = new.packed();
        for (place, byte) in packed.into_iter().enumerate() {
            marks[place] = match fault {
                "marks are set in what was there" => marks[place] | byte,
                "new marks are the first given ones" => given.marks[place],
                _ => byte,
            };
        }
        match fault {
            "a cell is written beyond the end" => {
                cells.iter_mut().skip(cells_end).take(1).for_each(|cell| *cell ^= 1)
            }
            "a mark byte is written beyond the end" => {
                marks.iter_mut().skip(marks_end).take(1).for_each(|byte| *byte ^= 1)
            }
            "cells are cleared up to the given rows" => cells[cells_end..given.cells.len()].fill(0),
            "mark bytes are cleared up to the given rows" => {
                marks[marks_end..given.marks.len()].fill(0)
            }
            _ => {}
        }
    }
}

// The second way, level by level.

impl Spoiled {
    fn by_levels(&self, table: &Table, mask: Mask, offset: Offset) -> Table {
        let mut last = self.levels.lock().unwrap();
        if !last.as_ref().is_some_and(|levels| levels.table == *table && levels.mask == mask) {
            *last = Some(self.spoiled_levels(table, mask));
        }
        let levels = last.as_ref().unwrap();
        let with =
            |similar: &dyn Fn(usize, usize) -> bool| assemble(table, &levels.depth, similar).table;
        match self.fault_of("reduce_few: ") {
            "a row folds one level too early" => {
                with(&|one, other| near(levels, one, other, offset, |level| level + 1))
            }
            "a row folds one level too late" => {
                with(&|one, other| near(levels, one, other, offset, |level| level - 1))
            }
            "two endless rows fold" => with(&|one, other| {
                levels.similar(one, other, offset)
                    || offset != Some(0) && levels.near(1, one, other)
            }),
            "equal rows are kept apart" => with(&|one, other| {
                let targets = |row: usize| &table.targets[row * table.events..][..table.events];
                levels.similar(one, other, offset)
                    && (!levels.near(0, one, other) || targets(one) == targets(other))
            }),
            "depths and distances are added in 9 bits" => with(&|one, other| {
                let depth = levels.depth[one].min(levels.depth[other]);
                match (offset, levels.distance(one, other), depth) {
                    (Some(k), Length::Of(distance), Some(Length::Of(depth))) => {
                        (distance + depth.min(k)) % 512 <= k
                    }
                    _ => levels.similar(one, other, offset),
                }
            }),
            "the higher of two like rows is kept" => {
                let turned: Vec<usize> = (0..table.rows).rev().collect();
                Levels::of(&renumbered(table, &turned), mask).reduced(offset)
            }
            "folds into the last such row" => {
                let mut folds = levels.folds(offset);
                let mut kept = Vec::new();
                for row in levels.order() {
                    if folds[row] == Some(row) {
                        kept.push(row);
                    } else {
                        let similar = |&&other: &&usize| levels.similar(row, other, offset);
                        folds[row] = kept.iter().rfind(similar).copied();
                    }
                }
                folded(table, &folds)
            }
            "higher events are numbered first" => {
                turned_events(&folded(&turned_events(table), &levels.folds(offset)))
            }
            "" => levels.reduced(offset),
            // A fault of the levels themselves may leave rows that are not met.
            _ => folded(table, &levels.folds(offset)),
        }
    }

    fn spoiled_levels(&self, table: &Table, mask: Mask) -> Levels {
        let mut levels = Levels::of(table, mask);
        let every = || Levels::of(table, every_event(table.events));
        match self.fault_of("reduce_few: ") {
            "the last level is left out" if levels.last() > 0 => {
                levels.classes.pop();
            }
            "255 levels at most" => levels.classes.truncate(256),
            "classes are numbered in 8 bits" => {
                levels.classes.iter_mut().flatten().for_each(|class| *class %= 256);
            }
            "depths from 512 on are endless" => {
                for depth in levels.depth.iter_mut().flatten() {
                    if *depth >= Length::Of(512) {
                        *depth = Length::Endless;
                    }
                }
            }
            "rows are told apart by runs of up to 200 events" => {
                levels.classes[0] = told_apart(table, 200);
            }
            "idle events count in distances" => levels.classes = every().classes,
            "idle events count in depths" => levels.depth = every().depth,
            "idle events lead nowhere" => {
                let mut other = table.clone();
                for (cell, target) in other.targets.iter_mut().enumerate() {
                    if counted(mask, cell % table.events) == 0 {
                        *target = cell / table.events;
                    }
                }
                levels.classes = Levels::of(&other, mask).classes;
            }
            _ => {}
        }
        levels
    }
}

/// Whether two rows are near at another level than the one that makes them similar. (As
/// it should be where that one is 0, and with no offset.)
fn near(
    levels: &Levels,
    one: usize,
    other: usize,
    offset: Offset,
    change: impl Fn(usize) -> usize,
) -> bool {
    match (offset, levels.depth[one].min(levels.depth[other])) {
        (Some(k), Some(Length::Of(depth))) if depth < k => {
            levels.near(change(k - depth), one, other)
        }
        _ => levels.similar(one, other, offset),
    }
}

/// The table with its events in the turned order.
fn turned_events(table: &Table) -> Table {
    let mut other = table.clone();
    other.targets.chunks_mut(table.events).for_each(|row| row.reverse());
    other
}

/// The classes of rows that have the same marks after all runs of up to so many events.
fn told_apart(table: &Table, events: usize) -> Vec<u16> {
    let mut classes: Vec<u16> = table.marks.iter().map(|&mark| mark as u16).collect();
    for _ in 0..events {
        let mut numbers = HashMap::new();
        let sign = |row: usize| -> Vec<u16> {
            let targets = &table.targets[row * table.events..][..table.events];
            [row].iter().chain(targets).map(|&row| classes[row]).collect()
        };
        let number = |row: usize| {
            let next = numbers.len() as u16;
            *numbers.entry(sign(row)).or_insert(next)
        };
        classes = (0..table.rows).map(number).collect();
    }
    classes
}

/// Puts items at the front, as far as there is room.
fn put<T: Copy>(items: &[T], lent: &mut [T]) {
    for (room, &item) in lent.iter_mut().zip(items) {
        *room = item;
    }
}

impl Direct for Spoiled {
    fn generate(
        &self,
        seed: u32,
        rows: usize,
        events: usize,
        cells: &mut [u16],
        marks: &mut [u8],
    ) -> Answer {
        let sizes = self.sizes("generate: ", rows, events, &[cells.len(), marks.len()]);
        let rule =
            self.in_order("generate: ", &[1, 2, 17, 7]).into_iter().find(|&rule| match rule {
                17 => seed == 0 && !self.has("generate: seed 0 is taken"),
                _ => self.size_broken("generate: ", &sizes, rule),
            });
        if rule.is_some() && self.has("generate: refused with the buffers cleared") {
            cells.fill(0);
            marks.fill(0);
        }
        match rule {
            None => {}
            Some(7) if self.has("generate: 7 with as much as there is room for") => {}
            Some(17) if self.has("generate: 17 gives a place") => return [17, rows, 0, 0],
            Some(rule) => return [rule, 0, 0, 0],
        }

        let (targets, drawn) = self.drawn(seed, sizes.rows, sizes.events);
        put(&targets, cells);
        let end = sizes.rows.div_ceil(8);
        let mut bytes = match self.fault {
            "generate: marks are set in what was there" => marks[..end].to_vec(),
            _ => vec![0; end],
        };
        for (row, mark) in drawn.into_iter().enumerate() {
            let high = self.has("generate: row 0 has the highest bit");
            bytes[row / 8] |= mark << if high { 7 - row % 8 } else { row % 8 };
        }
        put(&bytes, marks);
        if self.has("generate: the rest is cleared") {
            cells[targets.len()..].fill(0);
            marks[end..].fill(0);
        }
        match self.fault {
            "generate: the rows are answered" => [0, rows, 0, 0],
            _ => [rule.unwrap_or(0), 0, 0, 0],
        }
    }

    fn reduce(
        &self,
        task: &Task,
        cells: &mut [u16],
        marks: &mut [u8],
        scratch: &mut [u16],
    ) -> Answer {
        let Task { way, ref given, .. } = *task;
        let fault = self.fault_of(function(way));
        let lent = [cells.len(), marks.len(), scratch.len()];
        let sizes = self.sizes(function(way), given.rows, given.events, &lent);
        let first = |rule| self.broken(&sizes, task, rule).map(|place| (rule, place));
        let refusal =
            self.in_order(function(way), &[1, 2, 3, 4, 5, 6, 16, 7]).into_iter().find_map(first);
        if let Some((rule, place)) = refusal {
            if fault == "refused with the scratch cleared" {
                scratch.fill(0);
            }
            if rule == 7 && fault == "7 with as much as there is room for" {
                put(&given.cells, cells);
                put(&given.marks, marks);
            }
            return [rule, place, 0, 0];
        }

        let Some(new) = self.reduced(task) else { return [0; 4] };
        let named = way.scratch(given.rows);
        if cells.len() < new.targets.len() || marks.len() < new.rows.div_ceil(8) {
            return [7, 0, 0, 0];
        }
        self.lay_new(&new, task, cells, marks);
        let cleared = match fault {
            "the scratch is not cleared" => 0,
            "the scratch is cleared but for its last cell" => named - 1,
            "all the lent scratch is cleared" => scratch.len(),
            "as much scratch is cleared as in the first way" => Way::First.scratch(given.rows),
            _ => named,
        };
        let cleared = cleared.min(scratch.len());
        scratch[..cleared].fill(0);
        match fault {
            "the given rows are answered" => [0, given.rows, 0, 0],
            "the events are answered too" => [0, new.rows, new.events, 0],
            _ => [0, new.rows, 0, 0],
        }
    }
}
