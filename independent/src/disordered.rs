//! The call of request 107 once more, made to be disordered. Without a fault it does what
//! ordering.rs does; with one of [`FAULTS`] something else, which the checks of
//! tests/ordering.rs must find. The run that decides is worked out from its end: for every pair
//! of rows that is met how many events are left to go until marks differ, and then, step by
//! step, the lowest event after which one fewer is.

use crate::calls::Numbers;
use crate::direct::Way;
use crate::ordering::{scratch_named, taken, Order};
use crate::radio::Answer;
use crate::table::{Refusal, Table};
use std::cmp::{Ordering, Reverse};
use std::collections::HashMap;

/// A fault whose name is misspelled, here or below, does nothing: it is not found, and the test
/// says so. Those named "x before y", where x and y are in [`ORDER`], are made by
/// [`Disordered::rules`].
pub const FAULTS: [&str; 121] = [
    // The run that decides.
    "the longest run",
    "higher events first",
    "the lowest by events, then the shortest",
    "of equally long runs the lowest by the last event",
    "of equally long runs that to the lowest pair",
    "of equally long runs that to the highest pair",
    "of equally long runs one after which the first waits",
    "of equally long runs one after which the second waits",
    "the empty run is left out",
    "the empty run only",
    "runs of at most one event",
    "runs of at most as many events as the first has rows",
    "runs of at most as many events as the second has rows",
    "runs one event short of the longest needed",
    "runs of at most 255 events",
    "runs of at most 1,023 events",
    // The pairs.
    "a row with its own number is passed over",
    "a pair turned round is the same pair",
    "pairs are numbered by the first's rows",
    "pairs are numbered in 16 bits",
    "scratch that is not 0 is taken for met",
    "scratch that is 1 is taken for met",
    // The events.
    "event 0 does not count",
    "the last event does not count",
    "event 0 is left out",
    "the last event is left out",
    "event 0 only",
    "events from 16 on are left out",
    "event 31 is left out",
    "the second's events are turned round",
    // The tables.
    "starts are 0",
    "the first's start is 0",
    "the second's start is 0",
    "the second begins at the first's start",
    "the first begins at the second's start",
    "both have the first's marks",
    "both have the second's marks",
    "both have the first's targets",
    "both have the second's targets",
    "marks are read from the highest bit",
    "marks beyond the first byte are wait",
    "targets are read event by event",
    // The answer.
    "ready comes first",
    "equal tables: the first comes first",
    "equal tables: the second comes first",
    "equal tables: fewer rows come first",
    "equal tables: lower cells come first",
    "the second never comes first",
    "the first never comes first",
    "equal answers 0, the first 1",
    "the answers are 1, 2 and 3",
    "the run's length is answered too",
    // The order of the rules.
    "the second's rules before the first's",
    "the rules of both in turn",
    "first 2 before first 1",
    "first 3 before first 2",
    "first 4 before first 3",
    "first 5 before first 4",
    "first 6 before first 5",
    "second 2 before second 1",
    "second 3 before second 2",
    "second 4 before second 3",
    "second 5 before second 4",
    "second 6 before second 5",
    "second 1 before first 1",
    "second 1 before first 3",
    "second 1 before first 6",
    "second 3 before first 4",
    "second 6 before first 6",
    "19 before first 1",
    "19 before first 3",
    "19 before second 1",
    "19 before second 3",
    "19 before second 5",
    "19 before second 6",
    "7 before first 1",
    "7 before first 6",
    "7 before second 1",
    "7 before second 6",
    "7 before 19",
    // The rules.
    "1,023 rows at most",
    "1,025 rows may be",
    "31 events at most",
    "33 events may be",
    "rows are cut to 16 bits",
    "rows are cut to 32 bits",
    "the start may be the row count",
    "the second's start is judged by the first's rows",
    "the second's targets are judged by the first's rows",
    "the second's spare bits are judged by the first's rows",
    "the first is not judged",
    "the second is not judged",
    "the second's spare bits are not judged",
    "5 gives the last such cell",
    "5 gives the row",
    "the second's 5 gives place 0",
    "the second's 5 counts on from the first's cells",
    "19 is not judged",
    "19 only if the first has more events",
    "19 only if the second has more events",
    "19 gives the second's events as place",
    "3 in place of 19",
    "7 is not judged",
    "7 gives the length as place",
    "7 at the very length of the scratch",
    "7 not judged for the last scratch cell",
    "7 by the first's rows squared",
    "7 by the second's rows squared",
    "7 by the sum of the rows",
    "7 with the reducer's scratch",
    "7 by the low 16 bits",
    // What is left.
    "the scratch is not cleared",
    "the scratch is cleared but for its first cell",
    "the scratch is cleared but for its last cell",
    "the scratch of pairs met is cleared",
    "the first's rows squared are cleared",
    "one cell beyond is cleared",
    "all the lent scratch is cleared",
    "equal tables leave the scratch",
    "starts that differ leave the scratch",
    "refused with the scratch cleared",
];

/// The order of the rules: those of the first table, those of the second, those of both.
const ORDER: [&str; 14] = [
    "first 1", "first 2", "first 3", "first 4", "first 5", "first 6", "second 1", "second 2",
    "second 3", "second 4", "second 5", "second 6", "19", "7",
];

/// The call with the fault of this name.
pub struct Disordered {
    fault: &'static str,
}

/// The pairs of rows that are met, layer by layer.
#[derive(Default)]
struct Met {
    pairs: Vec<(usize, usize)>,
    /// How many events lead to each.
    depth: Vec<usize>,
    /// Which table comes first by the marks of each.
    shown: Vec<Ordering>,
    /// Where events lead from each: what an event adds to the length, and the place.
    onward: Vec<Vec<(usize, usize)>>,
}

impl Met {
    /// Answers the place of a new pair.
    fn add(&mut self, pair: (usize, usize), depth: usize, shown: Ordering) -> usize {
        self.pairs.push(pair);
        self.depth.push(depth);
        self.shown.push(shown);
        self.onward.push(Vec::new());
        self.pairs.len() - 1
    }

    /// For each how much is left to go until marks differ.
    fn left(&self) -> Vec<Option<usize>> {
        let mut left: Vec<Option<usize>> =
            self.shown.iter().map(|shown| shown.is_ne().then_some(0)).collect();
        let mut falls = true;
        while falls {
            falls = false;
            for at in (0..left.len()).rev() {
                let onward = self.onward[at].iter();
                let least = onward.filter_map(|&(adds, next)| Some(left[next]? + adds)).min();
                if least.is_some() && left[at].is_none_or(|known| least < Some(known)) {
                    left[at] = least;
                    falls = true;
                }
            }
        }
        left
    }

    /// The first that differs on a walk into depth.
    fn in_depth(&self) -> Option<usize> {
        let mut seen = vec![false; self.pairs.len()];
        let mut open = vec![0];
        while let Some(at) = open.pop() {
            if self.shown[at].is_ne() {
                return Some(at);
            }
            if !std::mem::replace(&mut seen[at], true) {
                open.extend(self.onward[at].iter().rev().map(|onward| onward.1));
            }
        }
        None
    }
}

impl Disordered {
    pub fn by(fault: &'static str) -> Disordered {
        Disordered { fault }
    }

    fn has(&self, name: &str) -> bool {
        self.fault == name
    }

    // The run that decides.

    /// The tables as a fault sees them.
    fn seen(&self, tables: &[Numbers; 2]) -> [Table; 2] {
        let mut seen = [tables[0].table(), tables[1].table()];
        let [one, other] = &mut seen;
        match self.fault {
            "starts are 0" => (one.start, other.start) = (0, 0),
            "the first's start is 0" => one.start = 0,
            "the second's start is 0" => other.start = 0,
            "the second begins at the first's start" => other.start = one.start % other.rows,
            "the first begins at the second's start" => one.start = other.start % one.rows,
            "both have the first's marks" => like(&mut other.marks, &one.marks),
            "both have the second's marks" => like(&mut one.marks, &other.marks),
            "both have the first's targets" => like(&mut other.targets, &one.targets),
            "both have the second's targets" => like(&mut one.targets, &other.targets),
            "the second's events are turned round" => {
                other.targets.chunks_mut(other.events).for_each(|row| row.reverse())
            }
            "marks are read from the highest bit" => [one, other].into_iter().for_each(|table| {
                let bytes: Vec<u8> =
                    table.packed().iter().map(|byte| byte.reverse_bits()).collect();
                let bit = |row: usize| bytes[row / 8] >> (row % 8) & 1 == 1;
                table.marks = (0..table.rows).map(bit).collect();
            }),
            "marks beyond the first byte are wait" => [one, other].into_iter().for_each(|table| {
                table.marks.iter_mut().skip(8).for_each(|mark| *mark = false);
            }),
            "targets are read event by event" => [one, other].into_iter().for_each(|table| {
                let place = |cell: usize| cell % table.events * table.rows + cell / table.events;
                let cells = 0..table.targets.len();
                table.targets = cells.map(|cell| table.targets[place(cell)]).collect();
            }),
            _ => {}
        }
        // (Targets of the other table may be no rows.)
        seen.iter_mut().for_each(|t| t.targets.iter_mut().for_each(|target| *target %= t.rows));
        seen
    }

    /// The events that are followed.
    fn events(&self, events: usize) -> Vec<usize> {
        let (from, to) = match self.fault {
            "event 0 is left out" => (1, events),
            "the last event is left out" => (0, events - 1),
            "event 0 only" => (0, 1),
            "events from 16 on are left out" => (0, events.min(16)),
            "event 31 is left out" => (0, events.min(31)),
            _ => (0, events),
        };
        (from..to).collect()
    }

    /// What an event adds to the length of a run.
    fn adds(&self, event: usize, events: usize) -> usize {
        match self.fault {
            "event 0 does not count" => (event > 0) as usize,
            "the last event does not count" => (event + 1 < events) as usize,
            _ => 1,
        }
    }

    /// Whether more pairs matter than those up to the first layer in which marks differ.
    fn goes_on(&self) -> bool {
        [
            "the longest run",
            "the lowest by events, then the shortest",
            "the empty run is left out",
            "event 0 does not count",
            "the last event does not count",
        ]
        .contains(&self.fault)
    }

    /// The pairs met from the starts on.
    fn met(&self, [one, other]: &[Table; 2], scratch: &[u16]) -> Met {
        let shown = |(p, q): (usize, usize)| one.marks[p].cmp(&other.marks[q]);
        let key = |(p, q): (usize, usize)| match self.fault {
            "a pair turned round is the same pair" => p.min(q) * 1024 + p.max(q),
            "pairs are numbered by the first's rows" => p * one.rows + q,
            "pairs are numbered in 16 bits" => (p * other.rows + q) % (1 << 16),
            _ => p * other.rows + q,
        };
        let passed_over = |(p, q): (usize, usize)| match self.fault {
            "a row with its own number is passed over" => p == q,
            "scratch that is not 0 is taken for met" => scratch[p * other.rows + q] != 0,
            "scratch that is 1 is taken for met" => scratch[p * other.rows + q] == 1,
            _ => false,
        };
        let mut met = Met::default();
        let starts = (one.start, other.start);
        if passed_over(starts) {
            return met;
        }
        let mut places = HashMap::from([(key(starts), met.add(starts, 0, shown(starts)))]);
        let mut layer = 0..1;
        while !layer.is_empty() {
            if met.shown[layer.clone()].iter().any(|shown| shown.is_ne()) && !self.goes_on() {
                break;
            }
            let events = self.events(one.events);
            let steps_of = |at: usize| events.iter().map(move |&event| (at, event));
            let mut steps: Vec<(usize, usize)> = layer.clone().flat_map(steps_of).collect();
            if self.has("of equally long runs the lowest by the last event") {
                steps.sort_by_key(|step| step.1);
            }
            for (at, event) in steps {
                let (p, q) = met.pairs[at];
                let pair = (one.target(p, event), other.target(q, event));
                if !passed_over(pair) {
                    let depth = met.depth[at] + 1;
                    let new = || met.add(pair, depth, shown(pair));
                    let next = *places.entry(key(pair)).or_insert_with(new);
                    met.onward[at].push((self.adds(event, one.events), next));
                }
            }
            layer = layer.end..met.pairs.len();
        }
        if self.has("the empty run is left out") {
            met.shown[0] = Ordering::Equal;
        }
        met
    }

    /// The longest run that is followed.
    fn longest(&self, [one, other]: &[Table; 2]) -> usize {
        match self.fault {
            "the empty run only" => 0,
            "runs of at most one event" => 1,
            "runs of at most as many events as the first has rows" => one.rows,
            "runs of at most as many events as the second has rows" => other.rows,
            "runs one event short of the longest needed" => (one.rows + other.rows).max(3) - 3,
            "runs of at most 255 events" => 255,
            "runs of at most 1,023 events" => 1023,
            _ => usize::MAX,
        }
    }

    /// The place of the pair that decides.
    fn deciding(&self, met: &Met, longest: usize) -> Option<usize> {
        let mut differing = (0..met.pairs.len()).filter(|&at| met.shown[at].is_ne());
        match self.fault {
            "the longest run" => differing.next_back(),
            "the lowest by events, then the shortest" => met.in_depth(),
            "of equally long runs the lowest by the last event" => differing.next(),
            "of equally long runs that to the lowest pair" => {
                differing.min_by_key(|&at| (met.depth[at], met.pairs[at]))
            }
            "of equally long runs that to the highest pair" => {
                differing.min_by_key(|&at| (met.depth[at], Reverse(met.pairs[at])))
            }
            "of equally long runs one after which the first waits" => {
                differing.min_by_key(|&at| (met.depth[at], met.shown[at]))
            }
            "of equally long runs one after which the second waits" => {
                differing.min_by_key(|&at| (met.depth[at], Reverse(met.shown[at])))
            }
            _ => self.walked(met, longest),
        }
    }

    /// By the lowest event, step by step. (Events that do not count may lead in a circle.)
    fn walked(&self, met: &Met, longest: usize) -> Option<usize> {
        let left = met.left();
        left.first().copied().flatten().filter(|&events| events <= longest)?;
        let mut at = 0;
        for _ in 0..met.pairs.len() {
            if met.shown[at].is_ne() {
                return Some(at);
            }
            let mut onward = met.onward[at].iter();
            let is_nearer = |&&(adds, next): &&(usize, usize)| {
                left[next].is_some_and(|events| left[at] == Some(events + adds))
            };
            at = match self.fault {
                "higher events first" => onward.rfind(is_nearer),
                _ => onward.find(is_nearer),
            }?
            .1;
        }
        None
    }

    /// What is answered for tables, and a run of so many events.
    fn answer(&self, order: Ordering, tables: &[Numbers; 2], events: usize) -> Answer {
        use Ordering::{Equal, Greater, Less};
        let [one, other] = tables;
        let order = match (self.fault, order) {
            ("ready comes first", order) => order.reverse(),
            ("equal tables: the first comes first", Equal) => Less,
            ("equal tables: the second comes first", Equal) => Greater,
            ("equal tables: fewer rows come first", Equal) => one.rows.cmp(&other.rows),
            ("equal tables: lower cells come first", Equal) => one.cells.cmp(&other.cells),
            ("the second never comes first", Greater) => Equal,
            ("the first never comes first", Less) => Equal,
            ("equal answers 0, the first 1", Equal) => Less,
            ("equal answers 0, the first 1", Less) => Equal,
            (_, order) => order,
        };
        let [_, number, ..] = taken(order);
        match self.fault {
            "the answers are 1, 2 and 3" => [0, number + 1, 0, 0],
            "the run's length is answered too" => [0, number, events, 0],
            _ => [0, number, 0, 0],
        }
    }

    // The rules.

    /// The rules in the order in which they are judged. With a fault "x before y" rule x is
    /// judged right before y.
    fn rules(&self) -> Vec<&'static str> {
        let mut list = ORDER.to_vec();
        match self.fault {
            "the second's rules before the first's" => list[..12].rotate_left(6),
            "the rules of both in turn" => list[..12].sort_by_key(|rule| rule.as_bytes().last()),
            _ => {}
        }
        if let Some((one, other)) = self.fault.split_once(" before ") {
            if let Some(from) = list.iter().position(|&rule| rule == one) {
                let rule = list.remove(from);
                let place = list.iter().position(|&rule| rule == other).unwrap();
                list.insert(place, rule);
            }
        }
        list
    }

    /// The refusal for a broken rule.
    fn broken(&self, tables: &[Numbers; 2], scratch: usize, rule: &str) -> Option<Refusal> {
        let (which, number) = match rule.split_once(' ') {
            Some(("first", number)) => (0, number),
            Some((_, number)) => (1, number),
            None => (2, rule),
        };
        let number = number.parse().unwrap();
        match number {
            19 => self.broken_19(tables),
            7 => self.short(tables, scratch).then_some(Refusal {
                number,
                place: if self.has("7 gives the length as place") { scratch } else { 0 },
            }),
            _ => self.unsound(tables, which, number).map(|place| Refusal { number, place }),
        }
    }

    /// The place of a broken rule of one table.
    fn unsound(&self, tables: &[Numbers; 2], which: usize, number: usize) -> Option<usize> {
        let Numbers { rows, events, start, ref cells, ref marks } = tables[which];
        let judged = match (self.fault, which) {
            ("the first is not judged", 0) | ("the second is not judged", 1) => false,
            ("the second's spare bits are not judged", 1) => number != 6,
            _ => true,
        };
        let cut = match self.fault {
            "rows are cut to 16 bits" => rows % (1 << 16),
            "rows are cut to 32 bits" => rows % (1 << 32),
            _ => rows,
        };
        let by = |what: &str| match self.has(what) && which == 1 {
            true => tables[0].rows,
            false => rows,
        };
        let broken = match number {
            1 => cut < 1 || cut > self.limit("1,023 rows at most", 1024, "1,025 rows may be"),
            2 => events < 1 || events > self.limit("31 events at most", 32, "33 events may be"),
            3 => cells.len() != cut.saturating_mul(events) || marks.len() != cut.div_ceil(8),
            4 => {
                let more = self.has("the start may be the row count") as usize;
                start >= by("the second's start is judged by the first's rows").saturating_add(more)
            }
            5 => {
                let rows = by("the second's targets are judged by the first's rows");
                return self.no_row(tables, which, rows).filter(|_| judged);
            }
            _ => {
                let bits = by("the second's spare bits are judged by the first's rows") % 8;
                bits > 0 && marks.last().is_some_and(|&last| last >> bits > 0)
            }
        };
        (broken && judged).then_some(0)
    }

    /// A limit, one less or one more by a fault.
    fn limit(&self, less: &str, limit: usize, more: &str) -> usize {
        limit - self.has(less) as usize + self.has(more) as usize
    }

    /// The place that is told of a target that is no row.
    fn no_row(&self, tables: &[Numbers; 2], which: usize, rows: usize) -> Option<usize> {
        let Numbers { events, ref cells, .. } = tables[which];
        let is_it = |&target: &u16| target as usize >= rows;
        let first = cells.iter().position(is_it)?;
        match (self.fault, which) {
            ("5 gives the last such cell", _) => cells.iter().rposition(is_it),
            ("5 gives the row", _) => Some(first / events.max(1)),
            ("the second's 5 gives place 0", 1) => Some(0),
            ("the second's 5 counts on from the first's cells", 1) => {
                Some(tables[0].cells.len() + first)
            }
            _ => Some(first),
        }
    }

    fn broken_19(&self, [one, other]: &[Numbers; 2]) -> Option<Refusal> {
        let broken = match self.fault {
            "19 is not judged" => false,
            "19 only if the first has more events" => one.events > other.events,
            "19 only if the second has more events" => one.events < other.events,
            _ => one.events != other.events,
        };
        broken.then_some(match self.fault {
            "19 gives the second's events as place" => Refusal { number: 19, place: other.events },
            "3 in place of 19" => Refusal { number: 3, place: 0 },
            _ => Refusal { number: 19, place: 0 },
        })
    }

    /// Rule 7: whether so many scratch cells are too few.
    fn short(&self, [one, other]: &[Numbers; 2], scratch: usize) -> bool {
        let named = one.rows.saturating_mul(other.rows);
        scratch
            < match self.fault {
                "7 is not judged" => 0,
                "7 at the very length of the scratch" => named.saturating_add(1),
                "7 not judged for the last scratch cell" => named.max(1) - 1,
                "7 by the first's rows squared" => one.rows.saturating_mul(one.rows),
                "7 by the second's rows squared" => other.rows.saturating_mul(other.rows),
                "7 by the sum of the rows" => one.rows.saturating_add(other.rows),
                "7 with the reducer's scratch" => Way::First.scratch(one.rows),
                "7 by the low 16 bits" => named % (1 << 16),
                _ => named,
            }
    }

    // What is left.

    /// Which scratch cells are cleared.
    fn clear(&self, scratch: &mut [u16], tables: &[Numbers; 2], met: &Met, first: Option<usize>) {
        let named = scratch_named(tables);
        let (from, to) = match self.fault {
            "the scratch is not cleared" => (0, 0),
            "the scratch is cleared but for its first cell" => (1, named),
            "the scratch is cleared but for its last cell" => (0, named - 1),
            "the scratch of pairs met is cleared" => {
                return met.pairs.iter().for_each(|&(p, q)| scratch[p * tables[1].rows + q] = 0);
            }
            "the first's rows squared are cleared" => (0, tables[0].rows.pow(2)),
            "one cell beyond is cleared" => (0, named + 1),
            "all the lent scratch is cleared" => (0, scratch.len()),
            "equal tables leave the scratch" if first.is_none() => (0, 0),
            "starts that differ leave the scratch" if first == Some(0) => (0, 0),
            _ => (0, named),
        };
        scratch.iter_mut().take(to).skip(from).for_each(|cell| *cell = 0);
    }
}

/// Puts the items of another list in place of these, over and over.
fn like<T: Copy>(list: &mut [T], other: &[T]) {
    list.iter_mut().zip(other.iter().cycle()).for_each(|(item, &other)| *item = other);
}

impl Order for Disordered {
    fn order(&self, tables: &[Numbers; 2], scratch: &mut [u16]) -> Answer {
        let refusal = self.rules().iter().find_map(|rule| self.broken(tables, scratch.len(), rule));
        if let Some(Refusal { number, place }) = refusal {
            if self.has("refused with the scratch cleared") {
                scratch.fill(0);
            }
            return [number, place, 0, 0];
        }
        let [one, other] = tables;
        let sound = tables.iter().all(|table| table.check().is_ok());
        if !sound || one.events != other.events || scratch.len() < scratch_named(tables) {
            // Taken by a fault.
            return taken(Ordering::Equal);
        }
        let seen = self.seen(tables);
        let met = self.met(&seen, scratch);
        let first = self.deciding(&met, self.longest(&seen));
        self.clear(scratch, tables, &met, first);
        match first {
            Some(at) => self.answer(met.shown[at], tables, met.depth[at]),
            None => self.answer(Ordering::Equal, tables, 0),
        }
    }
}
