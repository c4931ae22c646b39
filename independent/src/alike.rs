//! Pairs of tables that are much alike, for request 107: no run tells them apart, or only long
//! ones do.

use crate::large::only;
use crate::levels::{grown, Levels};
use crate::random::Random;
use crate::shapes::renumbered;
use crate::table::{every_event, Mask, Table};

/// The table with a mark, the start or a target changed, as it happens.
pub fn changed(random: &mut Random, given: &Table) -> Table {
    let mut other = given.clone();
    if random.chance(1, 2) {
        let row = random.below(given.rows);
        other.marks[row] = !other.marks[row];
    }
    if random.chance(1, 2) {
        other.start = random.below(given.rows);
    }
    if random.chance(1, 4) {
        let cell = random.below(given.rows * given.events);
        other.targets[cell] = random.below(given.rows);
    }
    other
}

/// The table with the mark changed of the row that is met last from the start, breadth first,
/// or of one of the last.
pub fn changed_far(random: &mut Random, given: &Table) -> Table {
    let met = grown(given, vec![given.start], Mask::MAX);
    let row = met[met.len() - 1 - random.below(met.len().min(3))];
    let mut other = given.clone();
    other.marks[row] = !other.marks[row];
    other
}

/// Another table that no run tells from the given one, of at most so many rows: the given one
/// with its rows shuffled, with more rows, or reduced at offset 0.
pub fn equal_to(random: &mut Random, given: &Table, most: usize) -> Table {
    let room = most.saturating_sub(given.rows).min(given.rows + 3);
    match random.below(4) {
        0 => renumbered(given, &random.order(given.rows)),
        1 => Levels::of(given, every_event(given.events)).reduced(Some(0)),
        2 => {
            let unreached = random.between(0, room);
            extended(random, given, 0, unreached)
        }
        _ => {
            let copies = random.between(0, room);
            let unreached = random.between(0, room - copies);
            extended(random, given, copies, unreached)
        }
    }
}

/// The given rows, so many more, each of which does as one of them, and unreached rows, which
/// lead anywhere; all of them shuffled. A target may be any row that does as the given target.
fn extended(random: &mut Random, given: &Table, copies: usize, unreached: usize) -> Table {
    let own = given.rows + copies;
    let rows = own + unreached;
    let does_as: Vec<usize> =
        (0..own).map(|row| if row < given.rows { row } else { random.below(given.rows) }).collect();
    let mut all: Vec<Vec<usize>> = vec![Vec::new(); given.rows];
    does_as.iter().enumerate().for_each(|(row, &given)| all[given].push(row));
    let mut targets = Vec::new();
    let mut marks = Vec::new();
    for row in 0..rows {
        for event in 0..given.events {
            targets.push(match does_as.get(row) {
                Some(&row) => *random.pick(&all[given.target(row, event)]),
                None => random.below(rows),
            });
        }
        marks.push(match does_as.get(row) {
            Some(&row) => given.marks[row],
            None => random.chance(1, 2),
        });
    }
    let start = *random.pick(&all[given.start]);
    let table = Table::new(given.events, start, &targets, &marks);
    renumbered(&table, &random.order(rows))
}

/// A circle with one event and these marks.
pub fn circle(marks: &[bool]) -> Table {
    let rows = marks.len();
    let targets: Vec<usize> = (0..rows).map(|row| (row + 1) % rows).collect();
    Table::new(1, 0, &targets, marks)
}

/// Circles of p and q rows, 2 or more and without a common divisor, that agree after every run
/// of fewer than p + q - 2 events and differ after that one: the longest that two tables of so
/// many rows may need (runs.rs).
///
/// That they agree so long means that a list of p + q - 2 marks has equal ones at places that
/// are p apart, or q. Take these for lines between places: there are (q - 2) + (p - 2), two
/// fewer than places, so the places fall into two parts at least. That of place 0 is ready, all
/// others wait. With one place more all would hang together, by a theorem of Fine and Wilf: so
/// there are two parts, and its two lines, one for each circle, lead to different ones.
pub fn circles(p: usize, q: usize) -> [Table; 2] {
    let places = p + q - 2;
    let mut marks = vec![false; places];
    marks[0] = true;
    let mut open = vec![0];
    while let Some(place) = open.pop() {
        for next in [place + p, place + q, place.wrapping_sub(p), place.wrapping_sub(q)] {
            if next < places && !std::mem::replace(&mut marks[next], true) {
                open.push(next);
            }
        }
    }
    [circle(&marks[..p]), circle(&marks[..q])]
}

/// A chain with so many rows and one event, of which the last, which leads to itself, is ready.
pub fn chain(rows: usize) -> Table {
    let targets: Vec<usize> = (0..rows).map(|row| (row + 1).min(rows - 1)).collect();
    Table::new(1, 0, &targets, &only(rows, rows - 1))
}

/// A table that is ready after one run alone: a row for each part of the run, and one from
/// which there is no way back.
pub fn only_after(events: usize, run: &[u8]) -> Table {
    let (end, rows) = (run.len(), run.len() + 2);
    let mut targets = vec![rows - 1; rows * events];
    for (row, &event) in run.iter().enumerate() {
        targets[row * events + event as usize] = row + 1;
    }
    Table::new(events, 0, &targets, &only(rows, end))
}
