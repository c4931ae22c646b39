//! Brute force with runs: all runs up to a length, one by one, and what they show of the
//! distance and, request 106, of the chosen run of two rows; and, request 107, of two tables.
//! Of rules.rs it uses the name of a length, and only where that is said a distance.
//!
//! "The chosen run differs in mark, has distance − 1 counted events, is the shortest such
//! in all its events, then the lowest by events." Of a list of runs, shorter ones first and
//! those of one length with the lowest events first, it is the first that differs and has
//! so many counted events. There is one if the distance is finite and above 0: as no
//! shorter length will do for the distance, two rows differ after some run of distance − 1
//! counted events or more, and they do after none of distance or more.
//!
//! # How long a list must be
//!
//! Begun at two rows, a run passes pairs of rows; a row with itself never differs, so let P
//! be the pairs of different rows. For the distance, runs of fewer than P × (P + 1) events
//! tell all: with P or more counted events a run passes a pair twice with a counted event
//! between, so if two rows differ after it, their distance is endless. And what lies between
//! two moments with the same pair and as many counted events (or P, if they are more) can be
//! left out.
//!
//! The chosen run passes no pair twice: with a counted event between, the distance would be
//! endless; with none, what lies between could be left out, and the run would be shorter. So
//! it has fewer than P events.
//!
//! # How long a chosen run may be
//!
//! At most rows − 2 events. Rows whose distance is at most L are near at level L; they fall
//! into classes, each made of whole ones of the level before (levels.rs). Draw each pair of
//! the run that has distance d as a line between two classes of level d − 1; both lie in one
//! class of level d. These lines make no ring. For take, of a ring's lines, the one of the
//! pair that the run passes last. The rest of the run from there, of d − 1 counted events,
//! tells this pair apart. It does not tell the others of the ring apart, which need a longer
//! rest; nor two rows of one class of level d − 1, as it has d − 1 counted events. So, all
//! round the ring, it does not tell this pair apart either, which it does. Lines without a
//! ring join one more class each. So the run passes no more pairs of distance d than level d
//! has classes fewer than level d − 1; and all its pairs are at most rows − 1, as at last one
//! class is left. Its events are one fewer.
//!
//! # Two tables, request 107
//!
//! "Two tables over the same number of events are compared by the shortest run after which
//! their marks differ, lowest events first; the one showing wait comes first." Take the marks
//! that each shows after the runs of a list as above: the first at which they differ decides,
//! as in a dictionary, with wait before ready.
//!
//! Let two rows, of one table or of both, be of one class at level L if no run of up to L
//! events tells them apart. They are of one class at level L + 1 if and only if they are at
//! level L, and every event leads them into one class of level L. So each level follows from
//! the one before alone: once it has as many classes as that, it is the same, and so are all
//! after it. Until then each has a class more at least, from one at level 0, and there are no
//! more classes than rows. So rows that some run tells apart are told apart by one of fewer
//! events than both tables have rows together. (Of fewer by two: if rows are told apart at
//! all, level 0 has two classes.)

use crate::rules::{Length, Study};
use crate::table::{counted, Mask, Table};

/// All runs of up to `longest` events, shorter ones first, then those with the lowest
/// events. The first is empty; each other one is the number of the run that it makes
/// longer, and the event.
pub fn all_runs(events: usize, longest: usize) -> Vec<(usize, usize)> {
    let mut runs = vec![(0, 0)];
    let mut from = 0;
    for _ in 0..longest {
        let to = runs.len();
        for shorter in from..to {
            runs.extend((0..events).map(|event| (shorter, event)));
        }
        from = to;
    }
    runs
}

/// What each run makes of the value of the empty run, event by event.
pub fn along<T: Clone>(
    runs: &[(usize, usize)],
    empty: T,
    onward: impl Fn(&T, usize) -> T,
) -> Vec<T> {
    let mut list = vec![empty];
    for &(shorter, event) in &runs[1..] {
        list.push(onward(&list[shorter], event));
    }
    list
}

/// How many events of each run count.
pub fn lengths(runs: &[(usize, usize)], mask: Mask) -> Vec<usize> {
    along(runs, 0, |length, event| length + counted(mask, event))
}

/// A distance from the lengths of runs after which two rows differ: the greatest
/// one, which means endless from `endless` on.
pub fn distance_by(longest: Option<usize>, endless: usize) -> Length {
    match longest {
        None => Length::Of(0),
        Some(length) if length >= endless => Length::Endless,
        Some(length) => Length::Of(length + 1),
    }
}

/// The pairs of different rows.
pub fn pairs(rows: usize) -> usize {
    rows * (rows - 1) / 2
}

/// The longest run that is needed for distances, and that for chosen runs where the
/// distance is known.
pub fn longest_needed(rows: usize) -> [usize; 2] {
    let pairs = pairs(rows);
    [(pairs * (pairs + 1)).saturating_sub(1), pairs.saturating_sub(1)]
}

/// The longest run that is needed to put two tables in order, of so many rows together.
pub fn longest_for_order(rows: usize) -> usize {
    rows - 1
}

/// The marks that a table shows after each run of a list.
pub fn shown(table: &Table, runs: &[(usize, usize)]) -> Vec<bool> {
    let ends = along(runs, table.start, |&row, event| table.target(row, event));
    ends.into_iter().map(|row| table.marks[row]).collect()
}

/// The events of a run of a list.
pub fn spelled(runs: &[(usize, usize)], mut run: usize) -> Vec<u8> {
    let mut events = Vec::new();
    while run > 0 {
        let (shorter, event) = runs[run];
        events.push(event as u8);
        run = shorter;
    }
    events.reverse();
    events
}

/// Distance and chosen run of two rows. The run is empty where there is none, at distance
/// 0 or endless.
#[derive(Clone, Debug, PartialEq, Eq)]
pub struct Chosen {
    pub distance: Length,
    pub run: Vec<u8>,
}

/// A table followed along all runs of a list.
pub struct Followed<'a> {
    table: &'a Table,
    runs: &'a [(usize, usize)],
    /// For each row where each run begun at it ends.
    ends: Vec<Vec<usize>>,
}

impl Followed<'_> {
    pub fn of<'a>(table: &'a Table, runs: &'a [(usize, usize)]) -> Followed<'a> {
        let from = |row: usize| along(runs, row, |&row, event| table.target(row, event));
        Followed { table, runs, ends: (0..table.rows).map(from).collect() }
    }

    fn differ(&self, run: usize, one: usize, other: usize) -> bool {
        let mark = |row: usize| self.table.marks[self.ends[row][run]];
        mark(one) != mark(other)
    }

    /// By the definitions alone. The counted events of each run are these; the list is long
    /// enough for distances.
    pub fn chosen(&self, lengths: &[usize], one: usize, other: usize) -> Chosen {
        let differing = (0..self.runs.len()).filter(|&run| self.differ(run, one, other));
        let longest = differing.map(|run| lengths[run]).max();
        let distance = distance_by(longest, pairs(self.table.rows));
        self.chosen_at(lengths, one, other, distance)
    }

    /// Where the distance is known. The list is long enough for chosen runs.
    pub fn chosen_at(
        &self,
        lengths: &[usize],
        one: usize,
        other: usize,
        distance: Length,
    ) -> Chosen {
        let Length::Of(length @ 1..) = distance else { return Chosen { distance, run: vec![] } };
        let mut runs = 0..self.runs.len();
        let is_it = |run: &usize| lengths[*run] == length - 1 && self.differ(*run, one, other);
        let run = runs.find(is_it).expect("a chosen run is in the list");
        Chosen { distance, run: spelled(self.runs, run) }
    }
}

/// The chosen runs of every two rows, with the distances of rules.rs, as one list of rows
/// × rows. The runs are all up to the longest that is needed for them.
pub fn all_chosen(study: &Study, runs: &[(usize, usize)]) -> Vec<Chosen> {
    let rows = study.table.rows;
    let (followed, lengths) = (Followed::of(&study.table, runs), lengths(runs, study.mask));
    let two = |pair: usize| (pair / rows, pair % rows);
    (0..rows * rows)
        .map(two)
        .map(|(one, other)| followed.chosen_at(&lengths, one, other, study.distance(one, other)))
        .collect()
}
