//! The self-test: this project's own parts against each other, without the product.

use independent::alike::{changed, changed_far, circles, equal_to};
use independent::cutter::{
    agree, agree_large, count_all, forms, least_plain, table_number, Cutter,
};
use independent::damage::{same, Inputs};
use independent::direct::{offset_of, Fill};
use independent::disordered::Disordered;
use independent::judge::{all_offsets, depths_by_lengths, fits, judge, read_listing};
use independent::large::{self, KINDS};
use independent::last_run::chosen;
use independent::levels::Levels;
use independent::mistaken::{Mistaken, FAULTS, RIGHT};
use independent::ordering::{first_difference, order_by, Call, Own, Sorts};
use independent::parallel::{spread, Counter};
use independent::random::Random;
use independent::rules::{assemble, listing, text_for, Fate, Length, Study};
use independent::runs::{
    all_chosen, all_runs, along, distance_by, lengths, longest_for_order, longest_needed, pairs,
    shown, spelled, Chosen, Followed,
};
use independent::shapes::{table, with_mask, Shape, SHAPES};
use independent::small::{all_masks, all_reached_tables, all_tables, every_nth, reached_tables};
use independent::table::{
    counted, every_event, read_image, read_input, read_sheet_input, Mask, Offset, Table,
};
use std::cmp::Reverse;
use std::collections::HashSet;
use std::sync::atomic::{AtomicUsize, Ordering};

/// Depth and distance against their definitions, run by run, under all masks.
///
/// Depth: a row is endless if and only if a run of `rows` counted events or more
/// ends on it. Take a run to a row, and its length, or `rows` if it is greater.
/// What lies between two moments with the same row and length can be left out.
/// So runs of fewer than rows × (rows + 1) events tell all. Distance: with P pairs
/// of different rows, a run of P or more counted events after which two rows
/// differ passes a pair twice with a counted event between, so such runs may be as
/// long as one likes; and by the same argument runs of fewer than P × (P + 1)
/// events tell all.
#[test]
fn depth_and_distance_run_by_run() {
    let tried = Counter::default();
    for (rows, events) in [(1, 1), (1, 2), (2, 1), (2, 2), (3, 1), (3, 2), (4, 1)] {
        let pairs = pairs(rows);
        let runs = all_runs(events, (rows * (rows + 1)).max(pairs * (pairs + 1)) - 1);
        let all_lengths: Vec<Vec<usize>> =
            all_masks(events).map(|mask| lengths(&runs, mask)).collect();
        tried.add(all_tables(rows, events, |table| {
            let ends: Vec<[usize; 4]> = along(&runs, [0, 1, 2, 3], |ends, event| {
                ends.map(|row| if row < rows { table.target(row, event) } else { row })
            });
            for mask in all_masks(events) {
                let lengths = &all_lengths[mask as usize];
                let study = Study::of(table, mask);
                let mut depth = vec![None; rows];
                for (ends, &length) in ends.iter().zip(lengths) {
                    let length = if length < rows { Length::Of(length) } else { Length::Endless };
                    let row = ends[table.start];
                    depth[row] = depth[row].max(Some(length));
                }
                assert_eq!(study.depth, depth, "{table:?} {mask:b}");
                assert_eq!(depths_by_lengths(table, mask), depth, "{table:?} {mask:b}");
                for one in 0..rows {
                    assert_eq!(study.distance(one, one), Length::Of(0));
                    for other in 0..one {
                        let longest = (ends.iter().zip(lengths))
                            .filter(|(ends, _)| table.marks[ends[one]] != table.marks[ends[other]])
                            .map(|(_, &length)| length)
                            .max();
                        let distance = distance_by(longest, pairs);
                        assert_eq!(study.distance(one, other), distance, "{table:?} {mask:b}");
                        assert_eq!(study.distance(other, one), distance, "{table:?} {mask:b}");
                    }
                }
            }
        }));
    }
    println!("depth and distance, run by run: {} tables under all masks", tried.value());
}

/// For each point the greatest length of a run to it, of the lengths below `bound`.
/// Runs are made longer event by event; of those that come to one point with one
/// length only the first is followed, as the others go on alike.
fn longest_to(
    points: usize,
    start: usize,
    mask: Mask,
    events: usize,
    bound: usize,
    onward: impl Fn(usize, usize) -> usize,
) -> Vec<Option<usize>> {
    let mut longest = vec![None; points];
    let mut met = HashSet::from([(start, 0)]);
    let mut open = vec![(start, 0)];
    while let Some((point, length)) = open.pop() {
        longest[point] = longest[point].max(Some(length));
        for event in 0..events {
            let next = (onward(point, event), length + counted(mask, event));
            if next.1 < bound && met.insert(next) {
                open.push(next);
            }
        }
    }
    longest
}

/// The length from which on two tables agree, as the distance of their starts.
/// With P pairs of rows, a run of length P or more passes a pair twice with a
/// counted event between. So if they differ after such a run, they do after runs
/// as long as one likes; and one has a length below 2 × P, since of a longer one a
/// round of length 1 to P can be left out. So lengths below 2 × P tell all.
fn distance_of_starts(given: &Table, other: &Table, mask: Mask) -> Length {
    let (rows, pairs) = (other.rows, given.rows * other.rows);
    let start = given.start * rows + other.start;
    let longest = longest_to(pairs, start, mask, given.events, 2 * pairs, |pair, event| {
        given.target(pair / rows, event) * rows + other.target(pair % rows, event)
    });
    let differing = (0..pairs)
        .filter(|&pair| given.marks[pair / rows] != other.marks[pair % rows])
        .filter_map(|pair| longest[pair]);
    distance_by(differing.max(), pairs)
}

/// Both tables in one, begun at the first's start.
fn side_by_side(given: &Table, other: &Table) -> Table {
    let moved = other.targets.iter().map(|target| target + given.rows);
    Table::new(
        given.events,
        given.start,
        &given.targets.iter().copied().chain(moved).collect::<Vec<_>>(),
        &[&given.marks[..], &other.marks[..]].concat(),
    )
}

/// Agreement up to an offset and with none: as it is decided for small tables and
/// for large ones, by the lengths of runs, and by the distance of the starts in a
/// table made of both.
fn check_agreement(given: &Table, other: &Table, mask: Mask, last: usize) {
    let what = format!("{given:?} {other:?} {mask:b}");
    let distance = distance_of_starts(given, other, mask);
    let both = Study::of(&side_by_side(given, other), mask);
    assert_eq!(both.distance(given.start, given.rows + other.start), distance, "{what}");
    for offset in (0..=last).map(Some).chain([None]) {
        let expected = match offset {
            Some(k) => distance <= Length::Of(k),
            None => distance != Length::Endless,
        };
        assert_eq!(agree(given, other, mask, offset), expected, "{offset:?} {what}");
        assert_eq!(agree_large(given, other, mask, offset), expected, "{offset:?} {what}");
    }
}

#[test]
fn agreement_length_by_length() {
    let tried = Counter::default();
    for events in 1..=2 {
        let tables: Vec<Table> = (1..=2)
            .flat_map(|rows| {
                (0..count_all(rows, events)).map(move |n| table_number(rows, events, n))
            })
            .collect();
        spread(tables.len(), |piece| {
            for other in &tables {
                for mask in all_masks(events) {
                    check_agreement(&tables[piece], other, mask, 8);
                    tried.add(1);
                }
            }
        });
    }
    spread(400, |piece| {
        let mut random = Random::new(1_000 + piece as u64);
        for _ in 0..10 {
            let given = table_number(3, 2, random.below(count_all(3, 2)));
            let other = table_number(2, 2, random.below(count_all(2, 2)));
            for mask in all_masks(2) {
                check_agreement(&given, &other, mask, 12);
                check_agreement(&other, &given, mask, 12);
                tried.add(2);
            }
        }
    });
    println!("agreement, length by length: {} pairs of tables with a mask", tried.value());
}

/// The same on larger tables that are much alike.
#[test]
fn agreement_of_larger_tables() {
    let tried = Counter::default();
    spread(300, |piece| {
        let mut random = Random::new(2_000 + piece as u64);
        for shape in SHAPES {
            let rows = random.between(1, 12);
            let events = random.between(1, 3);
            let (given, mask) = with_mask(&mut random, shape, rows, events);
            let other = changed(&mut random, &given);
            check_agreement(&given, &other, mask, 2 * rows);
            tried.add(1);
        }
    });
    println!("agreement of larger tables: {} pairs of tables with a mask", tried.value());
}

/// The list of forms is the whole list: every table, its unreached rows left
/// out and the others numbered as they are met, has its targets in it.
#[test]
fn forms_are_all_forms() {
    let mut tried = 0;
    for (rows, events) in [(1, 1), (1, 2), (2, 1), (2, 2), (3, 1), (3, 2), (4, 1), (2, 3)] {
        let lists: Vec<HashSet<Vec<usize>>> =
            (1..=rows).map(|rows| forms(rows, events).into_iter().collect()).collect();
        let mut seen: Vec<HashSet<Vec<usize>>> = vec![HashSet::new(); rows];
        for number in 0..count_all(rows, events) {
            let table = table_number(rows, events, number);
            let mut met = vec![table.start];
            let mut at = 0;
            while at < met.len() {
                for event in 0..events {
                    let target = table.target(met[at], event);
                    if !met.contains(&target) {
                        met.push(target);
                    }
                }
                at += 1;
            }
            let number_of = |row: usize| met.iter().position(|&m| m == row).unwrap();
            let form: Vec<usize> = met
                .iter()
                .flat_map(|&row| (0..events).map(move |event| (row, event)))
                .map(|(row, event)| number_of(table.target(row, event)))
                .collect();
            assert!(lists[met.len() - 1].contains(&form), "{table:?}");
            seen[met.len() - 1].insert(form);
            tried += 1;
        }
        assert_eq!(seen[rows - 1], lists[rows - 1]);
        for (smaller, list) in lists.iter().enumerate() {
            assert_eq!(list.len(), forms(smaller + 1, events).len(), "a form is listed twice");
        }
    }
    println!("forms: {tried} tables brought into a form");
}

/// The cutter with forms against the plain cutter.
#[test]
fn cutter_two_ways() {
    let tried = Counter::default();
    for (rows, events, step) in [(1, 1, 1), (2, 1, 1), (3, 1, 1), (4, 1, 17), (2, 2, 1), (3, 2, 7)]
    {
        let cutter = Cutter::new(rows, events);
        let offsets = all_offsets(rows);
        let count = count_all(rows, events).div_ceil(step);
        spread(count.div_ceil(50), |piece| {
            for number in piece * 50..((piece + 1) * 50).min(count) {
                let table = table_number(rows, events, number * step);
                for mask in all_masks(events) {
                    let least = cutter.least(&table, mask, &offsets);
                    for (place, &offset) in offsets.iter().enumerate() {
                        let plain = least_plain(&table, mask, offset);
                        assert_eq!(least[place], plain, "{table:?} {mask:b} {offset:?}");
                    }
                }
                tried.add(1);
            }
        });
    }
    println!("cutter, two ways: {} tables under all masks", tried.value());
}

/// The heart of the self-test: the row count by the rules is the least row
/// count that brute force finds, and the table by the rules agrees. Level by level
/// (levels.rs) it is the same table.
fn rules_against_cutter(cutter: &Cutter, table: &Table, mask: Mask) {
    let study = Study::of(table, mask);
    let levels = levels_against_rules(&study);
    let offsets = all_offsets(table.rows);
    let least = cutter.least(table, mask, &offsets);
    for (place, &offset) in offsets.iter().enumerate() {
        let reduced = study.reduce(offset);
        assert_eq!(reduced.table.rows, least[place], "{table:?} {mask:b} at {offset:?}");
        assert_eq!(levels.reduced(offset), reduced.table, "{table:?} {mask:b} at {offset:?}");
        let agrees = agree_large(table, &reduced.table, mask, offset);
        assert!(agrees, "{table:?} {mask:b} at {offset:?}");
    }
    // "An offset of twice the given rows or more yields the same table as none."
    assert_eq!(study.text(Some(2 * table.rows)), study.text(None), "{table:?} {mask:b}");
}

/// The same under all masks.
fn rules_against_cutter_all_masks(cutter: &Cutter, table: &Table) {
    all_masks(table.events).for_each(|mask| rules_against_cutter(cutter, table, mask));
}

#[test]
fn rules_against_cutter_on_all_small_tables() {
    let mut sum = 0;
    for (rows, events) in
        [(1, 1), (2, 1), (3, 1), (4, 1), (1, 2), (2, 2), (3, 2), (1, 3), (2, 3)]
    {
        let cutter = Cutter::new(rows, events);
        let tried =
            all_tables(rows, events, |given| rules_against_cutter_all_masks(&cutter, given));
        println!(
            "rules against cutter: all {tried} tables of {rows} rows and {events} events, \
             under all masks each against {} smaller ones",
            cutter.tables_tried(rows)
        );
        sum += tried;
    }
    println!("rules against cutter: {sum} tables in all, at all offsets and none");
}

/// Five rows and one event: all tables in which every row is reached, up to renumbering.
#[test]
fn rules_against_cutter_on_five_rows() {
    let cutter = Cutter::new(5, 1);
    let tried = all_reached_tables(5, 1, 3_500, |given| {
        rules_against_cutter_all_masks(&cutter, given);
    });
    println!("rules against cutter: {tried} tables of 5 rows and 1 event, under all masks");
}

/// Four rows and two events: a third of the tables in which every row is reached,
/// up to renumbering.
#[test]
fn rules_against_cutter_on_four_rows() {
    let cutter = Cutter::new(4, 2);
    let tried = reached_tables([2, 3], 4, 2, 3_000, |given| {
        rules_against_cutter_all_masks(&cutter, given);
    });
    println!("rules against cutter: {tried} tables of 4 rows and 2 events, under all masks");
}

#[test]
fn rules_against_cutter_on_random_tables() {
    for (rows, events, pieces) in [(5, 2, 120), (4, 2, 400), (3, 3, 400), (4, 3, 1)] {
        let cutter = Cutter::new(rows, events);
        let tried = Counter::default();
        spread(pieces, |piece| {
            let mut random = Random::new(4_000 + piece as u64);
            for shape in SHAPES {
                let (given, mask) = with_mask(&mut random, shape, rows, events);
                rules_against_cutter(&cutter, &given, mask);
                tried.add(1);
            }
        });
        println!("rules against cutter: {} tables of {rows} rows, {events} events", tried.value());
    }
}

/// Depths, and the distances of all pairs of rows, level by level and by the rules.
fn levels_against_rules(study: &Study) -> Levels {
    let Study { table, mask, .. } = study;
    let levels = Levels::of(table, *mask);
    assert_eq!(levels.depth, study.depth, "{table:?} {mask:b}");
    for one in 0..table.rows {
        for other in 0..table.rows {
            let distance = study.distance(one, other);
            assert_eq!(levels.distance(one, other), distance, "{table:?} {mask:b} {one} {other}");
        }
    }
    levels
}

/// The same table and folds, level by level and by the rules: larger tables of all shapes
/// of shapes.rs at all offsets and with none; and those of large.rs at theirs and, where
/// they are not so large, at those up to 30.
#[test]
fn levels_on_larger_tables() {
    let (tried, at) = (Counter::default(), Counter::default());
    let check = |study: &Study, levels: &Levels, offset: Offset| {
        let expected = study.reduce(offset);
        let Study { table, mask, .. } = study;
        assert_eq!(levels.reduced(offset), expected.table, "{table:?} {mask:b} at {offset:?}");
        for (row, (fate, into)) in expected.fates.iter().zip(levels.folds(offset)).enumerate() {
            let same = match *fate {
                Fate::Kept(_) => into == Some(row),
                Fate::Folded(other) => into == Some(other),
                Fate::Unreached => into.is_none(),
            };
            assert!(same, "{table:?} {mask:b} at {offset:?}, row {row}");
        }
        at.add(1);
    };
    spread(150, |piece| {
        let mut random = Random::new(4_500 + piece as u64);
        for shape in SHAPES {
            let (rows, events) = (random.between(1, 40), random.between(1, 4));
            let (given, mask) = with_mask(&mut random, shape, rows, events);
            let study = Study::of(&given, mask);
            let levels = levels_against_rules(&study);
            all_offsets(rows).into_iter().for_each(|offset| check(&study, &levels, offset));
            tried.add(1);
        }
    });
    let sizes = [(17, 1), (18, 2), (24, 4), (33, 32), (64, 2), (128, 1), (128, 4), (300, 2)];
    spread(KINDS.len() * sizes.len(), |piece| {
        let (kind, (rows, events)) = (KINDS[piece / sizes.len()], sizes[piece % sizes.len()]);
        let mut random = Random::new(4_700 + piece as u64);
        let mut masks = large::masks(&mut random, kind, events).to_vec();
        masks.sort();
        masks.dedup();
        for mask in masks {
            let given = large::table(&mut random, kind, rows, events, mask);
            let study = Study::of(&given, mask);
            let levels = levels_against_rules(&study);
            let mut offsets = large::offsets(&mut random, &levels);
            offsets.extend(if rows <= 64 { 0..=30 } else { 0..=2 });
            offsets.into_iter().for_each(|offset| check(&study, &levels, offset_of(offset)));
            tried.add(1);
        }
    });
    println!("level by level: {} tables, {} with their offsets", tried.value(), at.value());
}

/// What the chosen runs are that were compared.
#[derive(Default)]
struct Runs {
    tables: Counter,
    pairs: Counter,
    /// At a finite distance above 0, with a run that is not empty, with idle events in it.
    apart: Counter,
    with_run: Counter,
    with_idle: Counter,
    longest: AtomicUsize,
}

impl Runs {
    /// Two rows' chosen run, found quickly, is the expected one; it is not longer than runs.rs
    /// says.
    fn check(&self, levels: &Levels, one: usize, other: usize, expected: &Chosen) {
        let Levels { table, mask, .. } = levels;
        assert_eq!(chosen(levels, one, other), *expected, "{table:?} {mask:b} {one} {other}");
        let Chosen { distance, run } = expected;
        assert!(run.is_empty() || run.len() + 2 <= table.rows, "{table:?} {mask:b} {one} {other}");
        let idle = |&event: &u8| counted(*mask, event as usize) == 0;
        self.pairs.add(1);
        self.apart.add(finite(*distance) as usize);
        self.with_run.add(!run.is_empty() as usize);
        self.with_idle.add(run.iter().any(idle) as usize);
        self.longest.fetch_max(run.len(), Ordering::Relaxed);
    }

    /// The same for every two rows.
    fn check_all(&self, levels: &Levels, expected: impl Fn(usize, usize) -> Chosen) {
        for one in 0..levels.table.rows {
            for other in 0..levels.table.rows {
                self.check(levels, one, other, &expected(one, other));
            }
        }
        self.tables.add(1);
    }

    fn show(self, what: &str) {
        let [tables, pairs, apart, with_run, with_idle] =
            [self.tables, self.pairs, self.apart, self.with_run, self.with_idle]
                .map(|counter| counter.value());
        println!(
            "chosen runs {what}: {tables} tables with a mask, {pairs} pairs of rows, {apart} at a \
             finite distance above 0, {with_run} with a run that is not empty, {with_idle} with \
             idle events in it, the longest of {} events",
            self.longest.into_inner()
        );
        assert!(apart > pairs / 20 && with_run > apart / 10 && with_idle > with_run / 10);
    }
}

/// By the definitions alone: all tables (the start does not matter) under all masks. Runs
/// that are long enough where the distance is known show the same.
#[test]
fn chosen_runs_run_by_run() {
    let sorts = Runs::default();
    for (rows, events) in [(1, 1), (1, 2), (2, 1), (2, 2), (2, 3), (2, 4), (3, 1), (3, 2), (4, 1)] {
        let [all, short] = longest_needed(rows).map(|longest| all_runs(events, longest));
        spread(count_all(rows, events) / rows, |number| {
            let table = table_number(rows, events, number * rows);
            let followed = Followed::of(&table, &all);
            for mask in all_masks(events) {
                let lengths = lengths(&all, mask);
                let by_short = all_chosen(&Study::of(&table, mask), &short);
                sorts.check_all(&Levels::of(&table, mask), |one, other| {
                    let expected = followed.chosen(&lengths, one, other);
                    assert_eq!(by_short[one * rows + other], expected, "{table:?} {mask:b}");
                    expected
                });
            }
        });
    }
    sorts.show("run by run");
}

/// Tables of more rows and events, with the distances of rules.rs.
#[test]
fn chosen_runs_by_short_runs() {
    let sorts = Runs::default();
    // Rows, events, pieces (each piece is one table of each shape).
    for (rows, events, pieces) in
        [(4, 2, 400), (4, 3, 200), (4, 5, 20), (5, 1, 100), (5, 2, 200), (6, 1, 100), (6, 2, 12)]
    {
        let runs = all_runs(events, longest_needed(rows)[1]);
        spread(pieces, |piece| {
            let mut random = Random::new(4_900 + 10_000 * rows as u64 + piece as u64);
            for shape in SHAPES {
                let (given, mask) = with_mask(&mut random, shape, rows, events);
                let expected = all_chosen(&Study::of(&given, mask), &runs);
                sorts.check_all(&Levels::of(&given, mask), |one, other| {
                    expected[one * rows + other].clone()
                });
            }
        });
    }
    sorts.show("by short runs");
}

/// The chosen run as plainly as can be: runs breadth first, lower events first. Of those that
/// come to one pair with as many counted events only the first is followed, as the others go
/// on alike; no other is left out.
fn plain_chosen(study: &Study, one: usize, other: usize) -> Chosen {
    let Study { table, mask, .. } = study;
    let distance = study.distance(one, other);
    let Length::Of(wanted @ 1..) = distance else { return Chosen { distance, run: vec![] } };
    let mut met = HashSet::from([(one, other, 0)]);
    let mut open = vec![((one, other, 0), vec![])];
    loop {
        let mut next = Vec::new();
        for ((one, other, length), run) in open {
            if length == wanted - 1 && table.marks[one] != table.marks[other] {
                return Chosen { distance, run };
            }
            for event in 0..table.events {
                let [one, other] = [one, other].map(|row| table.target(row, event));
                let point = (one, other, length + counted(*mask, event));
                if point.2 < wanted && met.insert(point) {
                    next.push((point, [&run[..], &[event as u8]].concat()));
                }
            }
        }
        open = next;
    }
}

/// Larger tables of all shapes and kinds: any pairs, those with the greatest distances, and
/// some of each finite distance.
#[test]
fn chosen_runs_of_larger_tables() {
    let sorts = Runs::default();
    let check = |random: &mut Random, given: &Table, mask: Mask| {
        let (study, levels) = (Study::of(given, mask), Levels::of(given, mask));
        let pairs = study.distance.len();
        let mut list: Vec<usize> = (0..12).map(|_| random.below(pairs)).collect();
        let mut apart: Vec<usize> = (0..pairs).filter(|&p| finite(study.distance[p])).collect();
        apart.sort_by_key(|&pair| Reverse(study.distance[pair]));
        list.extend(apart.iter().take(4));
        list.extend(apart.iter().step_by(apart.len() / 40 + 1));
        for pair in list {
            let (one, other) = (pair / given.rows, pair % given.rows);
            sorts.check(&levels, one, other, &plain_chosen(&study, one, other));
        }
        sorts.tables.add(1);
    };
    spread(60, |piece| {
        let mut random = Random::new(4_950 + piece as u64);
        for shape in SHAPES {
            let (rows, events) = (random.between(5, 40), random.between(1, 4));
            let (given, mask) = with_mask(&mut random, shape, rows, events);
            check(&mut random, &given, mask);
        }
    });
    spread(2 * KINDS.len(), |piece| {
        let (kind, rows) = (KINDS[piece / 2], [17, 48][piece % 2]);
        let mut random = Random::new(4_980 + piece as u64);
        for mask in large::masks(&mut random, kind, 3) {
            let given = large::table(&mut random, kind, rows, 3, mask);
            check(&mut random, &given, mask);
        }
    });
    sorts.show("of larger tables");
}

/// The run that tells two tables apart, found quickly, which is not longer than runs.rs says; the
/// tables are equal if and only if they agree after every run (cutter.rs).
fn told_apart(sorts: &Sorts, one: &Table, other: &Table) -> Option<Vec<u8>> {
    let run = first_difference(one, other);
    let agree = agree_large(one, other, every_event(one.events), Some(0));
    assert_eq!(run.is_none(), agree, "{one:?} {other:?}");
    let length = run.as_ref().map_or(0, Vec::len);
    assert!(run.is_none() || length + 2 <= one.rows + other.rows, "{one:?} {other:?}");
    sorts.count(run.as_deref());
    run
}

/// Tables, each with each: by the marks that they show after all runs up to a length.
fn check_order(sorts: &Sorts, tables: &[Table], longest: usize) {
    let runs = all_runs(tables[0].events, longest);
    let shown: Vec<Vec<bool>> = tables.iter().map(|table| shown(table, &runs)).collect();
    spread(tables.len(), |piece| {
        for (other, other_shown) in tables.iter().zip(&shown) {
            let (one, one_shown) = (&tables[piece], &shown[piece]);
            let run = told_apart(sorts, one, other);
            let expected = one_shown.iter().zip(other_shown).position(|(one, other)| one != other);
            assert_eq!(run, expected.map(|run| spelled(&runs, run)), "{one:?} {other:?}");
            let order = order_by(run.as_deref(), one, other);
            assert_eq!(order, one_shown.cmp(other_shown), "{one:?} {other:?}");
        }
    });
}

/// All small tables with each other, and some of those that are too many, by runs that are
/// longer than runs.rs says; those of 5 rows by runs as long.
#[test]
fn order_run_by_run() {
    let sorts = Sorts::default();
    // Events; row counts, and of each how manieth table; how much longer than needed runs are.
    type Sizes<'a> = &'a [(usize, usize)];
    let kinds: [(usize, Sizes, usize); 5] = [
        (1, &[(1, 1), (2, 1), (3, 1), (4, 37)], 8),
        (2, &[(1, 1), (2, 1)], 4),
        (2, &[(1, 1), (2, 5), (3, 67), (4, 65_537)], 2),
        (2, &[(3, 311), (5, 30_000_001)], 0),
        (3, &[(1, 1), (2, 3), (3, 4_001)], 2),
    ];
    for (events, sizes, longer) in kinds {
        let most = sizes.iter().map(|size| size.0).max().unwrap();
        check_order(&sorts, &every_nth(events, sizes), longest_for_order(2 * most) + longer);
    }
    sorts.show("order run by run");
}

/// Larger tables of all shapes and kinds with some that are much alike, and circles that only
/// the longest runs tell apart: as disordered.rs has it without a fault.
#[test]
fn order_of_larger_tables() {
    let sorts = Sorts::default();
    let check = |one: &Table, other: &Table| {
        let run = told_apart(&sorts, one, other);
        let call = Call::of(one, other, Fill::Pattern);
        let expected = call.expecting(order_by(run.as_deref(), one, other));
        assert_eq!(call.by(&Own), expected, "{call}");
        assert_eq!(call.by(&Disordered::by("no fault")), expected, "{call}");
        run.map(|run| run.len())
    };
    let with_others = |random: &mut Random, given: &Table| {
        let equal = equal_to(random, given, given.rows + 9);
        assert_eq!(check(given, &equal), None, "{given:?} {equal:?}");
        for other in [changed(random, &equal), changed_far(random, &equal)] {
            check(given, &other);
            check(&other, given);
        }
    };
    spread(100, |piece| {
        let mut random = Random::new(4_990 + piece as u64);
        for shape in SHAPES {
            let (rows, events) = (random.between(1, 40), random.between(1, 4));
            let given = table(&mut random, shape, rows, events);
            with_others(&mut random, &given);
        }
    });
    spread(2 * KINDS.len(), |piece| {
        let (kind, rows) = (KINDS[piece / 2], [17, 90][piece % 2]);
        let mut random = Random::new(5_100 + piece as u64);
        let mask = large::masks(&mut random, kind, 3)[piece % 4];
        let given = large::table(&mut random, kind, rows, 3, mask);
        with_others(&mut random, &given);
    });
    for (p, q) in [(2, 3), (3, 2), (5, 12), (31, 32), (64, 63), (100, 3), (127, 128), (1024, 3)] {
        let [one, other] = circles(p, q);
        assert_eq!(check(&one, &other), Some(p + q - 2));
    }
    sorts.show("order of larger tables");
}

/// An image read back is the table; the document's own bytes for case A0.
#[test]
fn images_read_back() {
    let mut random = Random::new(5_000);
    let mut tried = 0;
    for rows in 1..=128 {
        for shape in SHAPES {
            let events = random.between(1, 32);
            let (given, mask) = with_mask(&mut random, shape, rows, events);
            assert_eq!(read_image(&given.image()), Ok(given.clone()));
            assert_eq!(given.image().len(), rows.div_ceil(8) + 2 * rows * events + 8);
            assert_eq!(read_sheet_input(&given.sheet_input(mask)), Ok((mask, given.clone())));
            for offset in [Some(random.below(65_535)), None] {
                let input = given.input(offset, mask);
                assert_eq!(read_input(&input), Ok((offset, mask, given.clone())));
            }
            tried += 1;
        }
    }
    let a = Table::new(1, 0, &[1, 2, 2], &[true, false, false]);
    let bytes = [0, 0, 1, 0, 0, 0, 3, 0, 1, 3, 0, 1, 0, 2, 0, 2, 0, 1, 0, 0, 0];
    assert_eq!(a.input(Some(0), 1), bytes);
    assert_eq!(a.sheet_input(0x0403_0201)[..4], [1, 2, 3, 4]);
    println!("images read back: {tried} tables");
}

/// The rules' own listings pass the judge, so the judge asks for nothing that
/// the rules do not give.
#[test]
fn own_listings_pass_the_judge() {
    let tried = Counter::default();
    spread(200, |piece| {
        let mut random = Random::new(6_000 + piece as u64);
        for shape in SHAPES {
            let rows = random.between(1, 30);
            let events = random.between(1, 4);
            let (given, mask) = with_mask(&mut random, shape, rows, events);
            let study = Study::of(&given, mask);
            for offset in all_offsets(rows) {
                let text = study.text(offset);
                assert_eq!(text.as_bytes(), text_for(&given.input(offset, mask)).as_bytes());
                let count = judge(&given, mask, offset, text.as_bytes()).unwrap();
                assert_eq!(count, study.reduce(offset).table.rows);
            }
            tried.add(1);
        }
    });
    println!("own listings judged: {} tables, at all offsets and none", tried.value());
}

/// Faulty reducers: each of document 01's fakes, of "Where a cutter goes astray"
/// and of the faults of mistaken.rs that listings show is told from the right one,
/// by the text and, where the fault breaks agreement or leastness, by judge and
/// cutter alone.
#[test]
fn faults_are_found() {
    type Faulty = fn(&Study, Offset) -> String;
    fn with(study: &Study, similar: &dyn Fn(usize, usize) -> bool) -> String {
        listing(&assemble(&study.table, &study.depth, similar), study.mask)
    }
    fn at_most(study: &Study, a: usize, b: usize, k: Option<usize>, less: usize) -> bool {
        // Similarity with the distance made smaller by `less`.
        let (Some(one), Some(two)) = (study.depth[a], study.depth[b]) else { return false };
        let Length::Of(distance) = study.distance(a, b) else { return false };
        let distance = distance.saturating_sub(less);
        let low = one.min(two);
        match (k, low) {
            (None, low) => distance == 0 || low != Length::Endless,
            (Some(k), Length::Of(low)) => distance + low.min(k) <= k,
            (Some(_), Length::Endless) => distance == 0,
        }
    }
    fn shortest(table: &Table, mask: Mask) -> Vec<Option<Length>> {
        let mut depth = vec![None; table.rows];
        depth[table.start] = Some(Length::Of(0));
        // A shortest run passes no row twice.
        for _ in 1..table.rows {
            for cell in 0..table.targets.len() {
                if let Some(Length::Of(length)) = depth[cell / table.events] {
                    let onward = Length::Of(length + counted(mask, cell % table.events));
                    let known = depth[table.targets[cell]].get_or_insert(onward);
                    *known = onward.min(*known);
                }
            }
        }
        depth
    }
    let untouched: Faulty = |study, _| with(study, &|_, _| false);
    let one_waiting_row: Faulty = |study, _| {
        let mut reduced = assemble(&study.table, &study.depth, &|_, _| true);
        reduced.table.marks = vec![false];
        listing(&reduced, study.mask)
    };
    let made_up_count: Faulty = |study, offset| {
        let rows = study.reduce(offset).table.rows;
        let (old, new) = (format!("table {rows} "), format!("table {} ", rows + 1));
        study.text(offset).replacen(&old, &new, 1)
    };
    let shortest_depth: Faulty = |study, offset| {
        let other = Study {
            depth: shortest(&study.table, study.mask),
            ..Study::of(&study.table, study.mask)
        };
        let mut reduced = other.fold(offset);
        reduced.depth = study.depth.clone(); // printed right, used wrong
        listing(&reduced, study.mask)
    };
    let one_less: Faulty = |study, offset| with(study, &|a, b| at_most(study, a, b, offset, 1));
    let endless_folded: Faulty =
        |study, _| with(study, &|a, b| study.distance(a, b) != Length::Endless);
    let grouping: Faulty = |study, offset| {
        // Similarity made into groups: whatever is linked is similar.
        let rows = study.table.rows;
        let mut group: Vec<usize> = (0..rows).collect();
        for a in 0..rows {
            for b in 0..rows {
                if study.similar(a, b, offset) {
                    let (from, to) = (group[a].max(group[b]), group[a].min(group[b]));
                    group.iter_mut().filter(|g| **g == from).for_each(|g| *g = to);
                }
            }
        }
        with(study, &|a, b| group[a] == group[b])
    };
    let nearest: Faulty = |study, offset| {
        // Folds into the similar kept row of the least distance.
        let right = study.reduce(offset);
        let kept = |row: usize| matches!(right.fates[row], Fate::Kept(_));
        let nearest = |row: usize| {
            (0..study.table.rows)
                .filter(|&other| kept(other) && study.similar(row, other, offset))
                .min_by_key(|&other| study.distance(row, other))
        };
        with(study, &|a, b| !kept(a) && nearest(a) == Some(b))
    };
    let equal_only: Faulty =
        |study, _| with(study, &|a, b| study.distance(a, b) == Length::Of(0));
    let refusing: Faulty = |_, _| "refused 7 0\n".to_string();

    // Name, the fault, and whether judge and cutter alone must find it.
    type Entry = (&'static str, Box<dyn Fn(&Study, Offset) -> String>, bool);
    let mut faults: Vec<Entry> = vec![
        ("the table untouched", Box::new(untouched), true),
        ("one waiting row always", Box::new(one_waiting_row), true),
        ("a made-up row count", Box::new(made_up_count), true),
        ("depth from the shortest run", Box::new(shortest_depth), true),
        ("distance without one more", Box::new(one_less), true),
        ("two endless rows folded", Box::new(endless_folded), true),
        ("similarity as grouping", Box::new(grouping), true),
        ("folding into the nearest", Box::new(nearest), false),
        ("only equal rows folded", Box::new(equal_only), true),
        ("refusing every table", Box::new(refusing), true),
    ];
    for fault in FAULTS.iter().filter(|fault| fault.in_listings) {
        let reducer = |study: &Study, offset: Offset| {
            String::from_utf8(fault.reduce(&study.table.input(offset, study.mask))).unwrap()
        };
        faults.push((fault.name, Box::new(reducer), true));
    }
    let cutter = Cutter::new(4, 2);
    let mut by_text = vec![0usize; faults.len()];
    let mut by_judge = vec![0usize; faults.len()];
    let mut tried = 0;
    let mut random = Random::new(7_000);
    let mut tables: Vec<(Table, Mask)> =
        (0..count_all(3, 2)).step_by(11).map(|n| (table_number(3, 2, n), n as Mask % 4)).collect();
    for _ in 0..150 {
        tables.extend(SHAPES.map(|shape| with_mask(&mut random, shape, 4, 2)));
    }
    // Document 01's table D.
    let d = Table::new(2, 3, &[1, 2, 0, 0, 0, 0, 0, 0], &[false, true, false, false]);
    tables.push((d, 3));
    for (given, mask) in &tables {
        let study = Study::of(given, *mask);
        let offsets = all_offsets(given.rows);
        let least = cutter.least(given, *mask, &offsets);
        for (place, &offset) in offsets.iter().enumerate() {
            let right = study.text(offset);
            for (fault, (_, reducer, _)) in faults.iter().enumerate() {
                let text = reducer(&study, offset);
                if text != right {
                    by_text[fault] += 1;
                }
                if judge(given, *mask, offset, text.as_bytes()) != Ok(least[place]) {
                    by_judge[fault] += 1;
                    assert_ne!(text, right, "the judge refuses a right text");
                }
            }
            tried += 1;
        }
    }
    println!("faults: {} tables, {tried} with their offsets", tables.len());
    for (fault, (name, _, alone)) in faults.iter().enumerate() {
        println!("  {name}: by the text {}, by judge {}", by_text[fault], by_judge[fault]);
        assert!(by_text[fault] > 0, "{name} is not found by the text");
        assert!(!alone || by_judge[fault] > 0, "{name} is not found by judge and cutter");
    }
}

/// The other faults of mistaken.rs are found in damaged inputs.
#[test]
fn mistaken_masks_are_found_in_damaged_inputs() {
    let found = |fault: &Mistaken| {
        let found = Counter::default();
        let count = |input: &[u8]| {
            let printed = same(&|input| fault.reduce(input), input, &text_for(input));
            found.add(printed.is_err() as usize);
        };
        Inputs::OfReduce.cut_and_extended(count);
        Inputs::OfReduce.too_high_masks(count);
        Inputs::OfReduce.each_mask_bit(count);
        found.value()
    };
    assert_eq!(found(&RIGHT), 0);
    for fault in FAULTS.iter().filter(|fault| fault.in_damage) {
        let count = found(fault);
        println!("{}: found in {count} damaged inputs", fault.name);
        assert!(count > 0, "{} is not found", fault.name);
    }
    assert!(FAULTS.iter().all(|fault| fault.in_listings || fault.in_damage));
}

fn finite(length: Length) -> bool {
    matches!(length, Length::Of(n) if n > 0)
}

/// Does a row fold into an unequal one at half the rows?
fn folds_unequal(study: &Study) -> bool {
    let text = study.text(Some(study.table.rows / 2));
    let list = read_listing(text.as_bytes()).unwrap();
    fits(&study.table, study.mask, &list).unwrap();
    let into_unequal = |(row, fate): (usize, &Fate)| {
        matches!(fate, Fate::Folded(into) if finite(study.distance(row, *into)))
    };
    list.fates.iter().enumerate().any(into_unequal)
}

/// The shapes do what they are for: finite depths and distances occur often.
#[test]
fn shapes_are_mixed() {
    for shape in SHAPES {
        let (mut finite_depth, mut finite_distance, mut unreached, mut folds) = (0, 0, 0, 0);
        for number in 0..200 {
            let mut random = Random::new(8_000 + number);
            let rows = random.between(8, 60);
            let events = random.between(1, 4);
            let given = table(&mut random, shape, rows, events);
            let study = Study::of(&given, every_event(events));
            finite_depth += study.depth.iter().flatten().any(|&d| finite(d)) as usize;
            unreached += study.depth.iter().any(|d| d.is_none()) as usize;
            finite_distance += study.distance.iter().any(|&d| finite(d)) as usize;
            folds += folds_unequal(&study) as usize;
        }
        println!(
            "shape {shape:?}: of 200 tables {finite_depth} with finite depths, \
             {finite_distance} with finite distances above 0, {unreached} with unreached rows, \
             {folds} with folds of unequal rows at half the rows"
        );
        if shape != Shape::Free && shape != Shape::Echo {
            assert!(finite_depth > 100 && finite_distance > 100 && folds > 40);
        }
    }
}

/// So do the masks: often rows on idle circles have finite depths, and pairs of
/// rows finite distances, so that both would be endless if every event counted.
#[test]
fn masks_are_mixed() {
    for shape in SHAPES {
        let (mut idle_depth, mut idle_distance, mut folds) = (0, 0, 0);
        let mut masks = [0; 4];
        for number in 0..200 {
            let mut random = Random::new(9_000 + number);
            let rows = random.between(8, 60);
            let events = random.between(2, 6);
            let (given, mask) = with_mask(&mut random, shape, rows, events);
            let study = Study::of(&given, mask);
            let all = Study::of(&given, every_event(events));
            let depths = study.depth.iter().zip(&all.depth);
            let only_idle = |one: Length, all: Length| finite(one) && all == Length::Endless;
            idle_depth += depths
                .filter_map(|(one, all)| one.zip(*all))
                .any(|(one, all)| only_idle(one, all)) as usize;
            let mut distances = study.distance.iter().zip(&all.distance);
            idle_distance += distances.any(|(&one, &all)| only_idle(one, all)) as usize;
            folds += folds_unequal(&study) as usize;
            masks[match mask.count_ones() as usize {
                0 => 0,
                1 => 1,
                all if all == events => 3,
                _ => 2,
            }] += 1;
        }
        println!(
            "shape {shape:?}: of 200 tables {masks:?} with no, one, some and all events counted, \
             {idle_depth} with finite depths that would be endless, {idle_distance} with such \
             distances, {folds} with folds of unequal rows at half the rows"
        );
        assert!(masks.iter().all(|&count| count > 20) && idle_distance > 20);
        assert!(idle_depth > 30 || shape == Shape::Free || shape == Shape::Echo);
    }
}
