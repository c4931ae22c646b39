//! Request 106, "The last run that differs": the chosen run of two rows once more, quick
//! enough for large tables. runs.rs has what is asked, and finds it by brute force.
//!
//! # Way
//!
//! Begun at both rows, runs are followed breadth first, lower events first. So they are met
//! in the order of choice (breadth.rs); and of those that come to one pair with as many
//! counted events only the first must be followed.
//!
//! Let D be the distance of the two rows. A run with c counted events has come to a pair of
//! distance d. If it goes on to one that differs and has D − 1 counted events, d is D − c at
//! least; and it is no greater, as then the two rows would differ after a run of D counted
//! events or more. So only events are followed that lead from distance d to distance d, or,
//! if they count, to d − 1; and then the pair alone says how many events have counted. Where
//! d is 1 all D − 1 have: there the first pair whose marks differ is the end.

use crate::breadth::first_run;
use crate::levels::Levels;
use crate::rules::Length::{self, Of};
use crate::runs::Chosen;
use crate::table::counted;

/// Distance and chosen run of two rows.
pub fn chosen(levels: &Levels, one: usize, other: usize) -> Chosen {
    let distance = levels.distance(one, other);
    let run = match distance {
        Of(1..) => first_met(levels, one, other),
        _ => vec![],
    };
    Chosen { distance, run }
}

/// The chosen run of two rows with a finite distance above 0. Row p with row q has the number
/// p × rows + q.
fn first_met(levels: &Levels, one: usize, other: usize) -> Vec<u8> {
    let Levels { table, mask, .. } = levels;
    let rows = table.rows;
    let distance = |pair: usize| levels.distance(pair / rows, pair % rows);
    let onward = |pair: usize, event: usize| {
        let [one, other] = [pair / rows, pair % rows].map(|row| table.target(row, event));
        let (next, wanted) = (one * rows + other, less(distance(pair), counted(*mask, event)));
        (wanted != Of(0) && distance(next) == wanted).then_some(next)
    };
    let is_end = |pair: usize| {
        distance(pair) == Of(1) && table.marks[pair / rows] != table.marks[pair % rows]
    };
    first_run(rows * rows, table.events, one * rows + other, onward, is_end)
        .expect("rows at a finite distance above 0 have a chosen run")
}

fn less(distance: Length, by: usize) -> Length {
    match distance {
        Of(length) => Of(length - by),
        Length::Endless => Length::Endless,
    }
}
