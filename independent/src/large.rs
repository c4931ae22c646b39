//! Tables for both ways through the reducer, up to the largest: shapes in which rows
//! differ only after long runs, or are reached by long ones only, or which idle events
//! lead far; and the masks and offsets to go with them.

use crate::levels::Levels;
use crate::random::Random;
use crate::rules::Length::Of;
use crate::shapes::{self, comb, renumbered, Shape};
use crate::table::{counted, every_event, Mask, Table};

#[derive(Clone, Copy, Debug, PartialEq, Eq)]
pub enum Kind {
    /// All targets random.
    Free,
    /// The same, and up to three rows ready.
    FreeFewMarks,
    /// A circle of all rows, with random marks.
    Cycle,
    /// The same, and up to three rows ready.
    CycleFewMarks,
    /// A circle with marks that repeat.
    CycleRepeating,
    /// A circle with few marks, on which event e leads on by e + 1.
    Wheel,
    /// One row after the other; the last, which leads to itself, is ready.
    Chain,
    /// The same with random marks.
    ChainMarks,
    /// A chain that leads into a circle, with the marks of the circle but for some.
    ChainIntoCycle,
    /// A chain that leads into a random table.
    ChainIntoRandom,
    /// Each row has one right event that leads on; all others lead home, to row 0.
    OnePattern,
    /// The same with its rows shuffled.
    OnePatternShuffled,
    /// One right event that leads on; the others lead back to any row.
    DeepDense,
    /// One right event that leads on; the others lead to any later row.
    DeepFinite,
    /// Rows like a tree, whose leaves lead to themselves or home.
    Tree,
    /// Event e leads to twice the row and e.
    Doubling,
    /// An event doubles the row, another leads on by one, the others stay.
    Counter,
    /// Two thirds of the rows are unreached and lead anywhere.
    Unreached,
    /// Rows in two copies, each target any of the two.
    Twins,
    /// The lower rows are an unreached copy of the others.
    UnreachedTwins,
    /// Idle events lead anywhere, counted ones on.
    IdleAnywhere,
    /// Circles of idle events; counted ones lead anywhere.
    IdleCircles,
    /// A chain of circles of idle events; counted ones lead to the next circle.
    IdleCircleChain,
    /// Idle events lead along a chain, counted ones to half the row.
    IdleChain,
    /// Rows in a square: idle events lead along one side, counted ones along the other.
    IdleSquare,
    /// As in shapes.rs.
    Copies,
    Falling,
    Echo,
    Layers,
    Comb,
}
use Kind::*;

pub const KINDS: [Kind; 30] = [
    Free,
    FreeFewMarks,
    Cycle,
    CycleFewMarks,
    CycleRepeating,
    Wheel,
    Chain,
    ChainMarks,
    ChainIntoCycle,
    ChainIntoRandom,
    OnePattern,
    OnePatternShuffled,
    DeepDense,
    DeepFinite,
    Tree,
    Doubling,
    Counter,
    Unreached,
    Twins,
    UnreachedTwins,
    IdleAnywhere,
    IdleCircles,
    IdleCircleChain,
    IdleChain,
    IdleSquare,
    Copies,
    Falling,
    Echo,
    Layers,
    Comb,
];

/// A table of the kind with so many rows and events, made for a mask.
pub fn table(random: &mut Random, kind: Kind, rows: usize, events: usize, mask: Mask) -> Table {
    let last = rows - 1;
    let is_idle = |event: usize| counted(mask, event) == 0;
    let on = |row: usize| (row + 1).min(last);
    let mut start = 0;
    let (targets, marks): (Vec<usize>, Vec<bool>) = match kind {
        Free => {
            start = random.below(rows);
            (lines(rows, events, |_, _| random.below(rows)), half(random, rows))
        }
        FreeFewMarks => (lines(rows, events, |_, _| random.below(rows)), few(random, rows)),
        Cycle => (lines(rows, events, |row, _| (row + 1) % rows), half(random, rows)),
        CycleFewMarks => (lines(rows, events, |row, _| (row + 1) % rows), few(random, rows)),
        CycleRepeating => {
            let length = *random.pick(&[2, 4, 16, 17, 64]);
            let period = half(random, length);
            let marks = (0..rows).map(|row| period[row % period.len()]).collect();
            (lines(rows, events, |row, _| (row + 1) % rows), marks)
        }
        Wheel => (lines(rows, events, |row, event| (row + event + 1) % rows), few(random, rows)),
        Chain => (lines(rows, events, |row, _| on(row)), only(rows, last)),
        ChainMarks => (lines(rows, events, |row, _| on(row)), half(random, rows)),
        ChainIntoCycle => {
            let round = random.between(1, rows / 2);
            let ready = half(random, round);
            let from = rows - round;
            let marks = (0..rows)
                .map(|row| {
                    ready[(row + round * rows - from) % round]
                        ^ (row < from / 2 && random.chance(1, 10))
                })
                .collect();
            (lines(rows, events, |row, _| if row < last { row + 1 } else { from }), marks)
        }
        ChainIntoRandom => {
            let middle = rows / 2;
            let target = |row: usize, _| match row < middle {
                true => row + 1,
                false => random.between(middle, last),
            };
            (lines(rows, events, target), half(random, rows))
        }
        OnePattern | OnePatternShuffled => {
            (pattern(random, rows, events, |_, _| 0), only(rows, last))
        }
        DeepDense => {
            let back = |random: &mut Random, row: usize| random.between(0, row);
            (pattern(random, rows, events, back), only(rows, last))
        }
        DeepFinite => {
            let later = |random: &mut Random, row: usize| random.between(on(row), last);
            (pattern(random, rows, events, later), half(random, rows))
        }
        Tree => {
            let home = random.chance(1, 2);
            let target = |row: usize, event: usize| match row * events + event + 1 {
                child if child < rows => child,
                _ if home => 0,
                _ => row,
            };
            (lines(rows, events, target), half(random, rows))
        }
        Doubling => {
            start = 1;
            let marks = match random.chance(1, 2) {
                true => (0..rows).map(|row| row >= rows / 2).collect(),
                false => few(random, rows),
            };
            (lines(rows, events, |row, event| (2 * row + event) % rows), marks)
        }
        Counter => {
            start = 1;
            let target = |row: usize, event: usize| match event {
                0 => 2 * row % rows,
                1 => (row + 1) % rows,
                _ => row,
            };
            (lines(rows, events, target), few(random, rows))
        }
        Unreached => {
            let reached = rows / 3;
            let target = |row: usize, _| random.below(if row < reached { reached } else { rows });
            (lines(rows, events, target), half(random, rows))
        }
        Twins => {
            let copy = rows / 2;
            let small: Vec<usize> = (0..copy * events).map(|_| random.below(copy)).collect();
            let ready = half(random, copy);
            let target = |row: usize, event: usize| {
                let target = small[row % copy * events + event];
                target + if random.chance(1, 2) { copy } else { 0 }
            };
            let targets = lines(rows, events, target);
            (targets, (0..rows).map(|row| ready[row % copy]).collect())
        }
        UnreachedTwins => {
            let copy = rows / 2;
            let target = |row: usize, _| match row < copy {
                true => row + 1,
                false => random.between(copy / 2, copy),
            };
            let small = lines(rows - copy, events, target);
            let ready = half(random, rows - copy);
            start = copy;
            let target = |row: usize, event: usize| match row < copy {
                true => small[row * events + event].min(copy - 1),
                false => copy + small[(row - copy) * events + event].min(last - copy),
            };
            let marks = (0..rows).map(|row| ready[if row < copy { row } else { row - copy }]);
            (lines(rows, events, target), marks.collect())
        }
        IdleAnywhere => {
            let target = |row: usize, event: usize| match is_idle(event) {
                true => random.below(rows),
                false => on(row),
            };
            (lines(rows, events, target), few(random, rows))
        }
        IdleCircles => {
            let circles = circles(random, rows, 9);
            let target = |row: usize, event: usize| match is_idle(event) {
                true => around(&circles, row, event),
                false => random.below(rows),
            };
            (lines(rows, events, target), half(random, rows))
        }
        IdleCircleChain => {
            let circles = circles(random, rows, 5);
            let target = |row: usize, event: usize| match is_idle(event) {
                true => around(&circles, row, event),
                // A row of the next circle; from the last one a row of itself.
                false => {
                    let next = circles[row].1 + 1;
                    let (low, high) = circles[next.min(last)];
                    random.between(low, high)
                }
            };
            let targets = lines(rows, events, target);
            (targets, if random.chance(1, 2) { few(random, rows) } else { half(random, rows) })
        }
        IdleChain => {
            let target = |row: usize, event: usize| match is_idle(event) {
                true => on(row),
                false => row / 2,
            };
            (lines(rows, events, target), only(rows, last))
        }
        IdleSquare => {
            let side = (1..).find(|side| side * side >= rows).unwrap();
            let target = |row: usize, event: usize| match is_idle(event) {
                true if row % side + 1 < side => on(row),
                true => row,
                false => (row + side).min(last),
            };
            (lines(rows, events, target), few(random, rows))
        }
        Copies => return shapes::table(random, Shape::Copies, rows, events),
        Falling => return shapes::table(random, Shape::Falling, rows, events),
        Echo => return shapes::table(random, Shape::Echo, rows, events),
        Layers => return shapes::table(random, Shape::Layers, rows, events),
        Comb => return comb(random, rows, events),
    };
    let table = Table::new(events, start, &targets, &marks);
    let shuffled = match kind {
        OnePattern | UnreachedTwins => false,
        OnePatternShuffled | Unreached => true,
        _ => random.chance(1, 3),
    };
    if shuffled {
        renumbered(&table, &random.order(rows))
    } else {
        table
    }
}

fn lines(rows: usize, events: usize, mut target: impl FnMut(usize, usize) -> usize) -> Vec<usize> {
    (0..rows * events).map(|cell| target(cell / events, cell % events)).collect()
}

/// One event of each row leads on, the last row to itself; the others as they are told.
fn pattern(
    random: &mut Random,
    rows: usize,
    events: usize,
    other: impl Fn(&mut Random, usize) -> usize,
) -> Vec<usize> {
    let right: Vec<usize> = (0..rows).map(|_| random.below(events)).collect();
    lines(rows, events, |row, event| match event == right[row] {
        true => (row + 1).min(rows - 1),
        false => other(random, row),
    })
}

/// The rows in circles of up to so many: for each row the first and the last of its own.
fn circles(random: &mut Random, rows: usize, most: usize) -> Vec<(usize, usize)> {
    let mut list = Vec::new();
    while list.len() < rows {
        let first = list.len();
        let next = (first + random.between(1, most)).min(rows);
        list.resize(next, (first, next - 1));
    }
    list
}

/// The row to which an idle event leads in a circle: every second event on by one, the
/// others by two.
fn around(circles: &[(usize, usize)], row: usize, event: usize) -> usize {
    let (first, last) = circles[row];
    first + (row - first + 1 + event % 2) % (last - first + 1)
}

fn half(random: &mut Random, rows: usize) -> Vec<bool> {
    (0..rows).map(|_| random.chance(1, 2)).collect()
}

/// One to three rows are ready.
fn few(random: &mut Random, rows: usize) -> Vec<bool> {
    let mut marks = vec![false; rows];
    for _ in 0..random.between(1, 3) {
        marks[random.below(rows)] = true;
    }
    marks
}

/// One row is ready.
pub fn only(rows: usize, ready: usize) -> Vec<bool> {
    (0..rows).map(|row| row == ready).collect()
}

/// Masks of every kind: all events counted, none, the first, the last, every second,
/// random ones. Kinds with idle events have the other half of the events in place of all.
/// (Of few events some are the same.)
pub fn masks(random: &mut Random, kind: Kind, events: usize) -> [Mask; 6] {
    let all = every_event(events);
    let every_second = all & 0x5555_5555;
    let idle = [IdleAnywhere, IdleCircles, IdleCircleChain, IdleChain, IdleSquare].contains(&kind);
    let most = if idle { all ^ every_second } else { all };
    [most, every_second, 1, random.bits() as Mask & all, 1 << (events - 1), 0]
}

/// Offsets for a table, as the reducer is told them; the last is none. Where two rows of
/// many that are looked at become similar at an offset above 0, such an offset and the
/// one before it are there too.
pub fn offsets(random: &mut Random, levels: &Levels) -> Vec<u32> {
    let rows = levels.table.rows;
    let mut turns = Vec::new();
    for _ in 0..200 {
        let [one, other] = [random.below(rows), random.below(rows)];
        let depth = levels.depth[one].min(levels.depth[other]);
        if let (Of(distance), Some(Of(depth))) = (levels.distance(one, other), depth) {
            if distance > 0 {
                turns.push((distance + depth) as u32);
            }
        }
    }
    let n = rows as u32;
    let mut list = vec![0, 1, 10, n / 2, 2 * n * 2 / 3, n - 1, n, 2 * n, 65_535];
    if !turns.is_empty() {
        let turn = *random.pick(&turns);
        list.extend([turn - 1, turn]);
    }
    list.push(*random.pick(&[65_536, 65_537, 1 << 17, u32::MAX]));
    list
}
