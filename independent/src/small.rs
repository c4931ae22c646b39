//! Goes through all small tables, for the tests that use brute force.

use crate::cutter::{count_all, forms, table_number};
use crate::parallel::{spread, Counter};
use crate::random::Random;
use crate::shapes::renumbered;
use crate::table::{every_event, Mask, Table};
use std::ops::RangeInclusive;

/// All masks of so many events, from none counted to every event counted.
pub fn all_masks(events: usize) -> RangeInclusive<Mask> {
    0..=every_event(events)
}

/// Calls `check` once for each table with so many rows and events; answers how
/// many tables that were.
pub fn all_tables(rows: usize, events: usize, check: impl Fn(&Table) + Sync) -> usize {
    let tried = Counter::default();
    let count = count_all(rows, events);
    spread(count.div_ceil(200), |piece| {
        for number in piece * 200..((piece + 1) * 200).min(count) {
            check(&table_number(rows, events, number));
            tried.add(1);
        }
    });
    tried.value()
}

/// The same for all tables in which every row is reached, up to renumbering
/// (the forms of cutter.rs with all marks), each under one random renumbering.
pub fn all_reached_tables(
    rows: usize,
    events: usize,
    seed: u64,
    check: impl Fn(&Table) + Sync,
) -> usize {
    reached_tables([0, 1], rows, events, seed, check)
}

/// The same for a slice of these tables: each n-th form from the first on.
pub fn reached_tables(
    [first, n]: [usize; 2],
    rows: usize,
    events: usize,
    seed: u64,
    check: impl Fn(&Table) + Sync,
) -> usize {
    let tried = Counter::default();
    let list: Vec<Vec<usize>> = forms(rows, events).into_iter().skip(first).step_by(n).collect();
    spread(list.len(), |piece| {
        let mut random = Random::new(seed + piece as u64);
        for marks in 0..1usize << rows {
            let marks: Vec<bool> = (0..rows).map(|row| marks >> row & 1 == 1).collect();
            let given = Table::new(events, 0, &list[piece], &marks);
            check(&renumbered(&given, &random.order(rows)));
            tried.add(1);
        }
    });
    tried.value()
}

/// Of the tables with so many events, for each row count and n each n-th table.
pub fn every_nth(events: usize, sizes: &[(usize, usize)]) -> Vec<Table> {
    let tables = |&(rows, n): &(usize, usize)| {
        let numbers = (0..count_all(rows, events)).step_by(n);
        numbers.map(move |number| table_number(rows, events, number))
    };
    sizes.iter().flat_map(tables).collect()
}
