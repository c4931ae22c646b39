//! (j) Request 109, "Scratch that fits the truck's laptop": the second way through the
//! reducer on tables of 17 to 1,024 rows and up to 32 events, beside the own computation
//! level by level (levels.rs), and the first way with it where it is quick enough.
//! - The kinds of table are those of large.rs, under masks of every kind, at offsets from
//!   0 to 65,535 and with none.
//! - New cells, mark bytes and row count are the own ones; the first 12 × rows scratch
//!   cells are 0 afterwards; what is given, and what lies beyond, is untouched.
//! - 12 × rows scratch cells are enough; one less is refused by 7, as is each other lent
//!   buffer that is one too short, and changes nothing.
//!
//! tests/direct.rs has the second way on small tables and with broken rules, and
//! tests/self_check.rs has levels.rs against brute force and rules.rs.

use independent::calls::Numbers;
use independent::direct::{
    both_ways, compare, offset_of, on_product, Asked, Call, Direct, Fill, Lengths, Own, Report,
    Task, Way,
};
use independent::large::{masks, offsets, table, Kind, KINDS};
use independent::levels::Levels;
use independent::parallel::{spread, Counter};
use independent::radio::Answer;
use independent::random::Random;
use independent::rules::Length;
use independent::spoiled::{find, LARGE_FAULTS};
use independent::table::Mask;

const EVENTS: [usize; 4] = [1, 2, 4, 32];

/// How much is tried with so many rows: for each kind of table and each number of events
/// so many masks, with a table each, and so many offsets for each of them.
struct Plan {
    rows: usize,
    masks: usize,
    offsets: usize,
    /// At how many of the offsets the first way is tried too.
    first: usize,
}

const PLANS: [Plan; 8] = [
    Plan { rows: 17, masks: 6, offsets: 12, first: 12 },
    Plan { rows: 18, masks: 6, offsets: 12, first: 4 },
    Plan { rows: 33, masks: 6, offsets: 12, first: 4 },
    Plan { rows: 64, masks: 3, offsets: 6, first: 2 },
    Plan { rows: 128, masks: 2, offsets: 5, first: 1 },
    Plan { rows: 500, masks: 2, offsets: 2, first: 1 },
    Plan { rows: 1023, masks: 1, offsets: 2, first: 1 },
    Plan { rows: 1024, masks: 2, offsets: 2, first: 1 },
];

/// Whether the first way is quick. Of many rows it takes seconds where pairs of rows
/// differ only after long runs.
fn first_is_quick(kind: Kind, rows: usize, events: usize) -> bool {
    use Kind::{ChainIntoRandom, Cycle, Echo, Free, IdleAnywhere, IdleCircles, Twins, Unreached};
    let early = [ChainIntoRandom, Cycle, Echo, Free, IdleAnywhere, IdleCircles, Twins, Unreached];
    rows <= 128 || events >= 4 && early.contains(&kind)
}

/// A table under a mask, and the own reading of it.
struct Given {
    kind: Kind,
    seed: u64,
    mask: Mask,
    numbers: Numbers,
    own: Own,
    /// As the reducer is told them.
    offsets: Vec<u32>,
}

impl Given {
    fn call(&self, way: Way, offset: u32, fill: Fill, change: impl Fn(&mut Lengths)) -> Call {
        let given = self.numbers.clone();
        let mut lent = Lengths::named(way, given.rows, given.events);
        change(&mut lent);
        let asked = Asked::Reduce(Task { way, offset, mask: self.mask, given });
        Call { asked, lent, fill }
    }

    /// At each offset, in lent buffers exact or longer; then in each that is one too
    /// short. In both ways at the first so many offsets.
    fn check(&self, functions: &dyn Direct, report: Report, first: usize) {
        let name = |what: String| format!("{:?}, seed {}: {what}", self.kind, self.seed);
        let report = |answer: Result<usize, String>| report(answer.map_err(name));
        let mut random = Random::new(self.seed);
        for (place, &offset) in self.offsets.iter().enumerate() {
            let more = [(); 3].map(|_| *random.pick(&[0, 0, 1, 50]));
            let fill = *random.pick(&Fill::ALL);
            let call = |way| {
                self.call(way, offset, fill, |lent| {
                    lent.cells += more[0];
                    lent.marks += more[1];
                    lent.scratch += more[2];
                })
            };
            let taken = |_, answer: Answer| answer[0] == 0;
            if place < first {
                both_ways(functions, &self.own, &report, call, taken);
            } else {
                report(expect(functions, &self.own, &call(Way::Second), 0));
            }
        }
        let short: [fn(&mut Lengths); 3] =
            [|lent| lent.cells -= 1, |lent| lent.marks -= 1, |lent| lent.scratch -= 1];
        for change in short {
            let call = self.call(Way::Second, self.offsets[0], *random.pick(&Fill::ALL), change);
            report(expect(functions, &self.own, &call, 7));
        }
    }
}

/// The comparison, and the rule that is broken, 0 for none.
fn expect(functions: &dyn Direct, own: &Own, call: &Call, rule: usize) -> Result<usize, String> {
    let left = compare(functions, own, call)?;
    if left.answer[0] != rule {
        return Err(format!("answered {:?}, by the test {rule}: {call}", left.answer));
    }
    Ok(rule)
}

/// What there is in the tables that are tried.
#[derive(Default)]
struct Sorts {
    tables: Counter,
    deep: Counter,
    levelled: Counter,
    unreached: Counter,
    unequal: Counter,
}

impl Sorts {
    fn count(&self, levels: &Levels, offsets: &[u32]) {
        let rows = levels.table.rows;
        let deep = |depth: &Length| (Length::Of(rows / 2)..Length::Endless).contains(depth);
        let folds_unequal = |&offset: &u32| {
            let folds = levels.folds(offset_of(offset));
            (0..rows).any(|row| folds[row].is_some_and(|into| !levels.near(0, row, into)))
        };
        self.tables.add(1);
        self.deep.add(levels.depth.iter().flatten().any(deep) as usize);
        self.levelled.add((levels.last() >= rows / 2) as usize);
        self.unreached.add(levels.depth.contains(&None) as usize);
        self.unequal.add(offsets.iter().any(folds_unequal) as usize);
    }

    fn show(&self, rows: usize) {
        let [tables, deep, levelled, unreached, unequal] =
            [&self.tables, &self.deep, &self.levelled, &self.unreached, &self.unequal]
                .map(|counter| counter.value());
        println!(
            "{rows} rows: {tables} tables of {} kinds, {deep} with finite depths of half the rows \
             or more, {levelled} with such distances, {unreached} with unreached rows, {unequal} \
             with folds into unequal rows",
            KINDS.len()
        );
        assert!([deep, levelled, unreached, unequal].iter().all(|&count| count > tables / 20));
    }
}

/// The tables of one kind with so many rows and events, from that mask and offset on.
fn tables(
    plan: &Plan,
    kind: Kind,
    events: usize,
    from: usize,
    seed: u64,
    sorts: &Sorts,
) -> Vec<Given> {
    let mut random = Random::new(seed);
    let mut all = masks(&mut random, kind, events);
    all.rotate_left(from % 6);
    let mut list: Vec<Given> = Vec::new();
    for (number, &mask) in all[..plan.masks].iter().enumerate() {
        if list.iter().any(|given| given.mask == mask) {
            continue;
        }
        let given = table(&mut random, kind, plan.rows, events, mask);
        let levels = Levels::of(&given, mask);
        let mut told = offsets(&mut random, &levels);
        let count = told.len();
        told.rotate_left((5 * from + 7 * number) % count);
        told.truncate(plan.offsets);
        sorts.count(&levels, &told);
        list.push(Given {
            kind,
            seed,
            mask,
            numbers: Numbers::of(&given),
            own: Own::of(levels),
            offsets: told,
        });
    }
    list
}

#[test]
fn tables_of_17_to_1024_rows() {
    for (size, plan) in PLANS.iter().enumerate() {
        let (sorts, first_too) = (Sorts::default(), Counter::default());
        on_product(&format!("second way, {} rows", plan.rows), |functions, report| {
            spread(KINDS.len() * EVENTS.len(), |piece| {
                // Those with the most events, which take longest, first.
                let (kind, which) = (piece % KINDS.len(), 3 - piece / KINDS.len());
                let (from, seed) = (kind + size + 2 * which, 400_000 + 1_000 * size + piece);
                let (kind, events) = (KINDS[kind], EVENTS[which]);
                let quick = first_is_quick(kind, plan.rows, events);
                for given in tables(plan, kind, events, from, seed as u64, &sorts) {
                    let first = if quick { plan.first.min(given.offsets.len()) } else { 0 };
                    first_too.add(first);
                    given.check(functions, report, first);
                }
            });
        });
        println!("  of these {} in the first way, beside the second", first_too.value());
        sorts.show(plan.rows);
    }
}

// The self-test: spoiled second ways are found by the checks above.

#[test]
fn faults_are_found() {
    let sizes = [(17, 1, 5), (18, 2, 4), (33, 4, 4), (600, 2, 3), (1024, 1, 1)];
    let mut list = Vec::new();
    for (size, (rows, events, offsets)) in sizes.into_iter().enumerate() {
        let plan = Plan { rows, masks: 1, offsets, first: 0 };
        for (number, &kind) in KINDS.iter().enumerate() {
            let seed = 410_000 + 100 * size + number;
            list.extend(tables(&plan, kind, events, number, seed as u64, &Sorts::default()));
        }
    }
    find("second way, large tables", &LARGE_FAULTS, |functions, report| {
        list.iter().for_each(|given| given.check(functions, report, 0));
    });
}
