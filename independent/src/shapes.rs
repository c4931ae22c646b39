//! Tables of many shapes, so that finite depths and finite distances occur
//! often (a table whose targets are all random has hardly any).

use crate::judge::depths_by_lengths;
use crate::random::Random;
use crate::rules::{Length, Study};
use crate::table::{counted, every_event, Mask, Offset, Table};

#[derive(Clone, Copy, Debug, PartialEq, Eq)]
pub enum Shape {
    /// All targets random.
    Free,
    /// Mostly one row after the other; some jumps forward, few back.
    Chain,
    /// Rows like a tree, its leaves leading to a few last rows.
    Tree,
    /// Rows in layers, each leading into the next; the last layer has rounds.
    Layers,
    /// Copies of the rows of a small table, one group per row, with some marks
    /// changed in the copies that only finitely many runs reach.
    Copies,
    /// Every target is a later row, down to one last row or round, with few
    /// different targets per row, so that rows soon fall together.
    Falling,
    /// Rows that read away an event or two and then do the same, with
    /// different marks: finite distances between endless rows.
    Echo,
}

pub const SHAPES: [Shape; 7] = [
    Shape::Free,
    Shape::Chain,
    Shape::Tree,
    Shape::Layers,
    Shape::Copies,
    Shape::Falling,
    Shape::Echo,
];

/// A table of the shape with so many rows and events.
pub fn table(random: &mut Random, shape: Shape, rows: usize, events: usize) -> Table {
    let mut targets = vec![0; rows * events];
    // How many of how many rows are ready.
    let &(parts, whole) = random.pick(&[(1, 2), (1, 2), (1, 8), (7, 8), (1, 30), (0, 1), (1, 1)]);
    let mut marks: Vec<bool> = (0..rows).map(|_| random.chance(parts, whole)).collect();
    let mut start = 0;
    let last = rows - 1;
    match shape {
        Shape::Free => {
            targets.iter_mut().for_each(|t| *t = random.below(rows));
            start = random.below(rows);
        }
        Shape::Chain => {
            let backs = random.below(3);
            let jump = random.between(1, 4);
            for (cell, target) in targets.iter_mut().enumerate() {
                let row = cell / events;
                *target = (row + if random.chance(3, 4) { 1 } else { random.between(1, jump) })
                    .min(last);
            }
            for _ in 0..backs {
                let row = random.between(rows / 2, last);
                targets[row * events + random.below(events)] = random.between(row / 2, row);
            }
            if random.chance(1, 2) {
                targets[last * events] = random.between(last.saturating_sub(5), last);
            }
            if random.chance(1, 3) {
                start = random.below(rows);
            }
            quieten_end(random, &mut marks);
        }
        Shape::Tree => {
            let ends = random.between(1, rows.min(4));
            for (cell, target) in targets.iter_mut().enumerate() {
                *target = if cell + 1 < rows - ends {
                    cell + 1
                } else {
                    random.between(rows - ends, last)
                };
            }
            for _ in 0..random.below(3) {
                let cell = random.below(rows * events);
                targets[cell] = random.between(cell / events, last);
            }
        }
        Shape::Layers => {
            let width = random.between(1, rows.min(8));
            let back_one = random.chance(1, 4);
            for (cell, target) in targets.iter_mut().enumerate() {
                let next = (cell / events / width + 1) * width;
                *target = if next >= rows {
                    // The last layer leads into itself, or sometimes back.
                    let low = if back_one { next.saturating_sub(2 * width) } else { next - width };
                    random.between(low, last)
                } else {
                    random.between(next, (next + width - 1).min(last))
                };
            }
        }
        Shape::Copies => {
            let base = random.between(1, rows.min(6));
            let small: Vec<usize> = (0..base * events).map(|_| random.below(base)).collect();
            let ready: Vec<bool> = (0..base).map(|_| random.chance(1, 2)).collect();
            // Row r does as row kind(r) of the small table; the last rows are
            // the small table itself.
            let mut kind: Vec<usize> = (0..rows).map(|_| random.below(base)).collect();
            for row in 0..base {
                kind[rows - base + row] = row;
            }
            for row in 0..rows {
                let core = row >= rows - base;
                for event in 0..events {
                    let wanted = small[kind[row] * events + event];
                    let mut target = rows - base + wanted;
                    if !core && random.chance(3, 4) {
                        let choice: Vec<usize> =
                            (row + 1..rows).filter(|&r| kind[r] == wanted).take(5).collect();
                        target = *random.pick(&choice);
                    }
                    targets[row * events + event] = target;
                }
                marks[row] = ready[kind[row]] ^ (!core && random.chance(1, 6));
            }
        }
        Shape::Falling => {
            let rounds = random.chance(1, 2);
            let reach = random.between(1, 6);
            for row in 0..rows {
                let one = (row + random.between(1, reach)).min(last);
                let two = (row + random.between(1, reach)).min(last);
                for event in 0..events {
                    targets[row * events + event] = if random.chance(4, 5) { one } else { two };
                }
            }
            if rounds && rows > 3 {
                targets[last * events + random.below(events)] = rows - 3;
            }
            quieten_end(random, &mut marks);
        }
        Shape::Echo => {
            // Every row has one of few patterns of targets, so that many rows
            // fall together after one event whatever their marks are.
            let patterns = random.between(1, 4);
            let pattern: Vec<usize> =
                (0..patterns * events).map(|_| random.below(rows)).collect();
            for row in 0..rows {
                let own = random.below(patterns);
                for event in 0..events {
                    targets[row * events + event] = if random.chance(1, 12) {
                        random.below(rows)
                    } else {
                        pattern[own * events + event]
                    };
                }
            }
            start = random.below(rows);
        }
    }
    let mut table = Table { rows, events, start, targets, marks };
    if random.chance(1, 6) {
        // An end or two that nothing else leads to, as far as it happens.
        table.start = random.below(rows);
    }
    if random.chance(3, 4) {
        table = renumbered(&table, &random.order(rows));
    }
    assert!(table.is_sound());
    table
}

/// A table of the shape and a mask. In half of the tables idle events lead round.
pub fn with_mask(random: &mut Random, shape: Shape, rows: usize, events: usize) -> (Table, Mask) {
    let given = table(random, shape, rows, events);
    let mask = mask(random, events);
    if random.chance(1, 2) {
        (idling(random, &given, mask), mask)
    } else {
        (given, mask)
    }
}

/// A mask of so many events: none counted, every event, one, all but one, or any.
pub fn mask(random: &mut Random, events: usize) -> Mask {
    let one = 1 << random.below(events);
    match random.below(8) {
        0 => 0,
        1 | 2 => every_event(events),
        3 => one,
        4 => every_event(events) ^ one,
        _ => random.bits() as Mask & every_event(events),
    }
}

/// The table with many idle events leading to rows of the own row's depth, which
/// is taken with every event counted. So they lead round in circles, and a depth
/// that was finite remains so: every other event leads to a greater one.
pub fn idling(random: &mut Random, table: &Table, mask: Mask) -> Table {
    let depth = depths_by_lengths(table, every_event(table.events));
    let mut other = table.clone();
    for (cell, target) in other.targets.iter_mut().enumerate() {
        let (row, event) = (cell / table.events, cell % table.events);
        if counted(mask, event) == 0 && random.chance(2, 3) {
            let level: Vec<usize> =
                (0..table.rows).filter(|&other| depth[other] == depth[row]).collect();
            *target = *random.pick(&level);
        }
    }
    other
}

/// Offsets worth trying for a table: the ends, twice the rows and about, and
/// for some pairs of rows the very offset at which they become similar, and the
/// one before it.
pub fn offsets_for(random: &mut Random, study: &Study, wanted: usize) -> Vec<Offset> {
    let rows = study.table.rows;
    let mut turns: Vec<usize> = Vec::new();
    for one in 0..rows {
        for other in 0..one {
            let depth = study.depth[one].min(study.depth[other]);
            if let (Length::Of(distance), Some(Length::Of(depth))) =
                (study.distance(one, other), depth)
            {
                if distance > 0 {
                    turns.push(distance + depth);
                }
            }
        }
    }
    let mut offsets = vec![None, Some(0)];
    while offsets.len() < wanted {
        let k = match random.below(6) {
            0 => 1,
            1 => random.below(2 * rows + 1),
            2 => *random.pick(&[2 * rows - 1, 2 * rows, 2 * rows + 1, 65_534]),
            _ if turns.is_empty() => random.below(rows + 1),
            _ => *random.pick(&turns) - random.below(2),
        };
        offsets.push(Some(k));
    }
    offsets
}

/// A comb, made for sheets: a spine of rows from the start on, each with a tooth,
/// a line of rows; the ends of teeth and spine lead to the last row. So depth
/// plus distance has many values, and the row count falls at many offsets. (With
/// one event only the spine is reached.)
pub fn comb(random: &mut Random, rows: usize, events: usize) -> Table {
    let last = rows - 1;
    let longest = random.between(1, 9);
    let mut targets = vec![last; rows * events];
    let marks: Vec<bool> = (0..rows).map(|_| random.chance(1, 2)).collect();
    let mut spine = 0;
    while spine < last {
        let onward = (spine + 1 + random.between(1, longest)).min(last);
        for row in spine..onward {
            for event in 0..events {
                targets[row * events + event] = if random.chance(1, 40) {
                    random.between(row + 1, last)
                } else if row == spine && event == 0 {
                    onward
                } else if row + 1 < onward {
                    row + 1
                } else {
                    last
                };
            }
        }
        spine = onward;
    }
    let table = Table { rows, events, start: 0, targets, marks };
    renumbered(&table, &random.order(rows))
}

/// The table with every target within a radio image's reach, 128 rows before the
/// own one to 127 after it: one beyond becomes the very end of the reach, or any
/// row in it.
pub fn near(random: &mut Random, table: &Table) -> Table {
    let mut other = table.clone();
    for (cell, target) in other.targets.iter_mut().enumerate() {
        let row = cell / table.events;
        let (low, high) = (row.saturating_sub(128), (row + 127).min(table.rows - 1));
        if *target < low || *target > high {
            *target = if random.chance(1, 2) {
                (*target).clamp(low, high)
            } else {
                random.between(low, high)
            };
        }
    }
    other
}

/// Equal marks towards the end, so that distances become finite.
fn quieten_end(random: &mut Random, marks: &mut [bool]) {
    if random.chance(2, 3) {
        let from = random.below(marks.len());
        let mark = random.chance(1, 2);
        marks[from..].iter_mut().for_each(|m| *m = mark);
    }
}

/// The same table with row r called `names[r]`.
pub fn renumbered(table: &Table, names: &[usize]) -> Table {
    let mut other = table.clone();
    other.start = names[table.start];
    for row in 0..table.rows {
        other.marks[names[row]] = table.marks[row];
        for event in 0..table.events {
            other.targets[names[row] * table.events + event] = names[table.target(row, event)];
        }
    }
    other
}
