//! Request 107, "Tables put in order": the call that tells which of two tables comes first,
//! what it is asked and lent, what it leaves, the own reading, and the comparison with it.
//!
//! "Two tables over the same number of events are compared by the shortest run after which
//! their marks differ, lowest events first; the one showing wait comes first. They are equal
//! exactly if no run tells them apart. The order is total over behaviours, takes every event
//! as counted, and needs scratch of first rows × second rows 16-bit cells, 0 afterwards.
//! Checks: 19, the event counts differ; after the first table's own checks and then the
//! second's, before 7."
//!
//! A table's own checks are 1 to 6, with the place that they have for it; 19 and 7 have place
//! 0. The answer is 0 if the first table comes first, 1 if the two are equal, 2 if the second
//! comes first.
//!
//! # Way
//!
//! Runs are followed on both tables at once, begun at both starts, breadth first with lower
//! events first (breadth.rs): the first pair of rows with different marks decides. runs.rs has
//! the same by brute force, `self_check.rs` compares the two.

use crate::breadth::first_run;
use crate::calls::{as_expected, first_other, Numbers};
use crate::direct::Fill;
use crate::parallel::Counter;
use crate::radio::{answer, Answer};
use crate::table::{refuse, Refusal, Table};
use std::cmp::Ordering;
use std::fmt::{Display, Formatter};
use std::sync::atomic::{self, AtomicUsize};

/// The shortest run after which the marks of two tables differ, of equally long ones the
/// lowest by events; none if no run tells them apart. Row p of the one with row q of the other
/// has the number p × (other rows) + q.
pub fn first_difference(one: &Table, other: &Table) -> Option<Vec<u8>> {
    assert_eq!(one.events, other.events);
    let rows = other.rows;
    let onward = |pair: usize, event: usize| {
        Some(one.target(pair / rows, event) * rows + other.target(pair % rows, event))
    };
    let differ = |pair: usize| one.marks[pair / rows] != other.marks[pair % rows];
    first_run(one.rows * rows, one.events, one.start * rows + other.start, onward, differ)
}

/// Which table comes first by such a run: less if the one does. (Wait is before ready, as false
/// before true.)
pub fn order_by(run: Option<&[u8]>, one: &Table, other: &Table) -> Ordering {
    run.map_or(Ordering::Equal, |run| one.mark_after(run).cmp(&other.mark_after(run)))
}

/// Which table comes first.
pub fn order(one: &Table, other: &Table) -> Ordering {
    order_by(first_difference(one, other).as_deref(), one, other)
}

/// What there is in pairs of tables that are tried: how many are equal, how many are told apart
/// by a run that is not empty, and the events of these runs.
#[derive(Default)]
pub struct Sorts {
    pairs: Counter,
    equal: Counter,
    by_run: Counter,
    events: Counter,
    longest: AtomicUsize,
}

impl Sorts {
    /// A pair that is told apart by this run, or is equal.
    pub fn count(&self, run: Option<&[u8]>) {
        let length = run.map_or(0, <[u8]>::len);
        self.pairs.add(1);
        self.equal.add(run.is_none() as usize);
        self.by_run.add((length > 0) as usize);
        self.events.add(length);
        self.longest.fetch_max(length, atomic::Ordering::Relaxed);
    }

    /// There are many of each sort.
    pub fn show(self, what: &str) {
        let [pairs, equal, by_run, events] =
            [self.pairs, self.equal, self.by_run, self.events].map(|counter| counter.value());
        println!(
            "{what}: {pairs} pairs of tables, {equal} equal, {by_run} told apart by a run that is \
             not empty, of {events} events in all and {} at most",
            self.longest.into_inner()
        );
        assert!(equal > pairs / 8 && by_run > pairs / 5);
    }
}

/// The call: the own one, the product's, or a disordered one.
pub trait Order: Sync {
    /// Answers 0, 1 or 2.
    fn order(&self, tables: &[Numbers; 2], scratch: &mut [u16]) -> Answer;
}

/// The scratch cells named: "first rows × second rows".
pub fn scratch_named(tables: &[Numbers; 2]) -> usize {
    tables[0].rows * tables[1].rows
}

/// The own reading.
pub struct Own;

impl Order for Own {
    fn order(&self, tables: &[Numbers; 2], scratch: &mut [u16]) -> Answer {
        answer(check(tables, scratch.len()).map(|[one, other]| {
            scratch[..scratch_named(tables)].fill(0);
            taken(order(&one, &other))
        }))
    }
}

/// What is answered where one table comes first, or the two are equal.
pub fn taken(order: Ordering) -> Answer {
    let number = match order {
        Ordering::Less => 0,
        Ordering::Equal => 1,
        Ordering::Greater => 2,
    };
    [0, number, 0, 0]
}

fn check(tables: &[Numbers; 2], scratch: usize) -> Result<[Table; 2], Refusal> {
    let [one, other] = tables;
    one.check()?;
    other.check()?;
    if one.events != other.events {
        return refuse(19);
    }
    if scratch < scratch_named(tables) {
        return refuse(7);
    }
    Ok([one.table(), other.table()])
}

/// One call, with the length of the scratch, which is new for each call.
#[derive(Clone, Debug)]
pub struct Call {
    pub tables: [Numbers; 2],
    pub scratch: usize,
    pub fill: Fill,
}

/// The answer, and the scratch after the call.
#[derive(Clone, Debug, PartialEq, Eq)]
pub struct Left {
    pub answer: Answer,
    pub scratch: Vec<u16>,
}

impl Call {
    /// With the scratch that is named.
    pub fn of(one: &Table, other: &Table, fill: Fill) -> Call {
        let tables = [one, other].map(Numbers::of);
        Call { scratch: scratch_named(&tables), tables, fill }
    }

    /// Makes the call.
    pub fn by(&self, functions: &dyn Order) -> Left {
        let mut left = self.refused(0, 0);
        left.answer = functions.order(&self.tables, &mut left.scratch);
        left
    }

    /// What is left where the order is this: the named scratch cells are 0, and what is beyond
    /// is as it was.
    pub fn expecting(&self, order: Ordering) -> Left {
        let mut left = Left { answer: taken(order), ..self.refused(0, 0) };
        left.scratch[..scratch_named(&self.tables)].fill(0);
        left
    }

    /// What is left after a refusal: what was there.
    pub fn refused(&self, number: usize, place: usize) -> Left {
        Left { answer: [number, place, 0, 0], scratch: self.fill.cells(self.scratch) }
    }
}

impl Display for Call {
    fn fmt(&self, f: &mut Formatter) -> std::fmt::Result {
        let Call { tables: [one, other], scratch, fill } = self;
        write!(
            f,
            "compare, first {one}, second {other}, lent {scratch} scratch cells filled with \
             {fill:?}"
        )
    }
}

/// Makes a call by these functions: the answer and every cell afterwards are as expected.
/// Answers the number of the refusal, 0 where there is none.
pub fn compare(functions: &dyn Order, call: &Call, expected: &Left) -> Result<usize, String> {
    let left = call.by(functions);
    let lent = [("scratch", first_other(&left.scratch, &expected.scratch))];
    as_expected(call, left.answer, expected.answer, &lent).map(|()| left.answer[0])
}
