//! (k) Request 106, "The last run that differs": the call that tells what is given up where a
//! row folds, and the program that prints it for all rows.
//! - Small tables under every mask, at every offset and with none, every row: the distance
//!   and the run are those that runs.rs finds by brute force.
//! - Larger tables of all shapes and kinds: as last_run.rs.
//! - The run is written in buffers of every length, and nothing behind it; one that is too
//!   short gives 18, and is as it was. The named scratch is 0 afterwards, also then.
//! - What breaks a rule is refused in the order 1, 2, 3, 4, 5, 6, 16, 7, 18; before 18 it
//!   changes nothing.
//! - The text is the own one, and what `reduce` refuses is refused in the same words.

use independent::calls::Numbers;
use independent::cutter::{count_all, table_number};
use independent::damage::{same, Inputs};
use independent::direct::{count_answers, offset_of, Fill, Report};
use independent::given_up::{
    compare, line, scratch_named, text_for, Asked, Call, Folds, GivenUp, Own,
};
use independent::judge::all_offsets;
use independent::large::{self, Kind, KINDS};
use independent::levels::Levels;
use independent::misled::{Misled, FAULTS};
use independent::parallel::{spread, Counter};
use independent::product::Product;
use independent::random::Random;
use independent::rules::{Fate, Length, Study};
use independent::runs::{all_chosen, all_runs, longest_needed};
use independent::shapes::{comb, mask, table, with_mask, Shape, SHAPES};
use independent::small::{all_masks, all_tables, every_nth, reached_tables};
use independent::spoiled::find_with;
use independent::table::{every_event, Mask, Offset, Table};
use independent::wrong::{add, set, Wrong, Wrongs};

/// A call that lends the named scratch and so many bytes for the run.
fn call(given: &Table, mask: Mask, offset: u32, row: usize, run: usize, fill: Fill) -> Call {
    let asked = Asked { offset, mask, given: Numbers::of(given), row };
    Call { asked, run, scratch: scratch_named(given.rows), fill }
}

/// An offset as the call is told it; none by one of many numbers.
fn told(offset: Offset, which: usize) -> u32 {
    const NONE: [u32; 6] = [65_536, 65_537, 65_540, 1 << 17, 1 << 31, u32::MAX];
    offset.map_or(NONE[which % NONE.len()], |k| k as u32)
}

/// What is printed for an input is this text.
fn prints(functions: &dyn GivenUp, input: &[u8], text: &str) -> Result<usize, String> {
    same(&|input| functions.text(input), input, text)
}

/// Makes calls of the product, stops at a fault, and shows the answers.
fn on_product(what: &str, calls: impl Fn(&dyn GivenUp, Report)) {
    count_answers(what, |report| calls(&Product, report));
}

// (a) Small tables against brute force.

/// A table under a mask at every offset and with none: every row with a run buffer that is
/// just long enough, and with one that is longer or too short; and the text. The runs are
/// those up to the longest that is needed.
fn check_small(
    functions: &dyn GivenUp,
    report: Report,
    given: &Table,
    mask: Mask,
    runs: &[(usize, usize)],
) {
    let study = Study::of(given, mask);
    let chosen = all_chosen(&study, runs);
    let own = Own::default();
    // Any number that differs from table to table.
    let mut number = given.targets.iter().fold(mask as usize, |sum, target| 3 * sum + target);
    for offset in all_offsets(given.rows) {
        let fates = study.reduce(offset).fates;
        let mut text = String::new();
        for (row, &fate) in fates.iter().enumerate() {
            let (mut distance, mut run) = (0, &[][..]);
            if let Fate::Folded(into) = fate {
                let chosen = &chosen[row * given.rows + into];
                let Length::Of(length) = chosen.distance else { panic!("{given:?} {mask:b}") };
                (distance, run) = (length, &chosen.run);
                text += &line(row, into, distance, run);
            }
            let other = match number % 4 {
                1 if !run.is_empty() => run.len() - 1,
                2 if !run.is_empty() => 0,
                _ => run.len() + 1 + number % 5,
            };
            for lent in [run.len(), other] {
                let offset = told(offset, number);
                let call = call(given, mask, offset, row, lent, Fill::ALL[number % 3]);
                let expected = call.expecting(distance, run);
                assert_eq!(call.by(&own), expected, "own reading: {call}");
                report(compare(functions, &call, &expected));
                number += 1;
            }
        }
        let input = given.input(offset, mask);
        assert_eq!(text_for(&input), text, "own reading: {given:?} {mask:b} {offset:?}");
        report(prints(functions, &input, &text));
    }
}

/// All tables of 1 to 2 rows and 1 to 3 events and of 3 rows and 1 event, under every mask; a
/// slice of those of 3 rows and 2 events, and slices of those of 4 and 5 rows in which all
/// rows are reached.
#[test]
fn small_tables_against_brute_force() {
    let tables = Counter::default();
    on_product("small tables against all runs", |functions, report| {
        let sizes =
            [(1, 1), (2, 1), (3, 1), (4, 1), (5, 1), (1, 2), (2, 2), (3, 2), (4, 2), (2, 3)];
        for (rows, events) in sizes {
            let runs = all_runs(events, longest_needed(rows)[1]);
            let check = |given: &Table| {
                for mask in all_masks(events) {
                    check_small(functions, report, given, mask, &runs);
                }
                tables.add(1);
            };
            match (rows, events) {
                (3, 2) => {
                    let some = every_nth(events, &[(rows, 7)]);
                    spread(some.len(), |piece| check(&some[piece]));
                }
                (4, 1) | (5, 1) => drop(reached_tables([0, 1], rows, events, 500_000, check)),
                (4, 2) => drop(reached_tables([3, 130], rows, events, 500_000, check)),
                _ => drop(all_tables(rows, events, check)),
            };
        }
    });
    println!("  {} tables under all masks, at all offsets and none, all rows", tables.value());
}

// (b) Larger tables.

/// What there is in the larger tables that are tried.
#[derive(Default)]
struct Sorts {
    tables: Counter,
    rows: Counter,
    /// Rows that fold into one at a distance above 0, those with a run that is not empty, and
    /// with one that has idle events.
    apart: Counter,
    with_run: Counter,
    with_idle: Counter,
    events: Counter,
}

impl Sorts {
    fn count(&self, mask: Mask, distance: usize, run: &[u8]) {
        self.rows.add(1);
        self.apart.add((distance > 0) as usize);
        self.with_run.add(!run.is_empty() as usize);
        self.with_idle.add((run.len() + 1 > distance && !run.is_empty()) as usize);
        self.events.add(run.len());
        let counted = run.iter().filter(|&&event| mask >> event & 1 == 1).count();
        assert_eq!(counted, distance.saturating_sub(1));
    }

    fn show(&self) {
        println!(
            "  {} tables with a mask and an offset, {} rows, {} of them at a distance above 0, {} \
             with a run that is not empty, {} with idle events in it, {} events in all",
            self.tables.value(),
            self.rows.value(),
            self.apart.value(),
            self.with_run.value(),
            self.with_idle.value(),
            self.events.value()
        );
    }
}

/// Some rows of a table: so many with the longest runs, as many others.
fn some_rows(random: &mut Random, folds: &Folds, wanted: usize) -> Vec<usize> {
    let rows = folds.levels.table.rows;
    let mut list: Vec<usize> = (0..rows).filter(|&row| folds.into(row).is_some()).collect();
    list.sort_by_cached_key(|&row| std::cmp::Reverse(folds.given_up(row).1.len()));
    list.truncate(wanted);
    list.extend((0..wanted).map(|_| random.below(rows)));
    list
}

/// A table under a mask at an offset: some rows, with a run buffer exact or longer, and one too
/// short; where a program takes it, and this is wanted, the text.
fn check_larger(
    functions: &dyn GivenUp,
    report: Report,
    random: &mut Random,
    (levels, offset, wanted, with_text): (&Levels, u32, usize, bool),
    sorts: &Sorts,
) {
    let (given, mask) = (&levels.table, levels.mask);
    let folds = Folds::of(levels.clone(), offset_of(offset));
    for row in some_rows(random, &folds, wanted) {
        let (distance, run) = folds.given_up(row);
        sorts.count(mask, distance, &run);
        let longer = *random.pick(&[0, 0, 1, 50]);
        let mut lent = vec![run.len() + longer];
        if !run.is_empty() && random.chance(1, 2) {
            lent.push(*random.pick(&[0, run.len() / 2, run.len() - 1, run.len() - 1]));
        }
        for lent in lent {
            let mut call = call(given, mask, offset, row, lent, *random.pick(&Fill::ALL));
            call.scratch += random.pick(&[0, 0, 1, 50]);
            report(compare(functions, &call, &call.expecting(distance, &run)));
        }
    }
    if with_text {
        let offset = offset_of(offset).filter(|&k| k < 65_535);
        let text = Folds::of(levels.clone(), offset).text();
        report(prints(functions, &given.input(offset, mask), &text));
    }
    sorts.tables.add(1);
}

/// Some offsets for a table, as the call is told them.
fn some_offsets(random: &mut Random, levels: &Levels, wanted: usize) -> Vec<u32> {
    let list = large::offsets(random, levels);
    // The last ones are those at which rows become similar, and none.
    let mut some = list[list.len() - 2..].to_vec();
    some.extend((2..wanted).map(|_| *random.pick(&list)));
    some.truncate(wanted);
    some
}

/// Tables of all shapes, and a comb, of 3 to 60 rows, or a part of them.
fn larger_tables(functions: &dyn GivenUp, report: Report, part: usize, sorts: &Sorts) {
    // Smallest and largest rows, smallest and largest events, pieces, offsets for each table,
    // rows for each offset.
    let kinds = [
        ([3, 10], [1, 5], 60, 4, 3),
        ([11, 24], [1, 4], 30, 3, 3),
        ([25, 60], [1, 3], 8, 2, 2),
        ([9, 30], [20, 32], 2, 2, 2),
    ];
    for (kind, (rows, events, pieces, offsets, wanted)) in kinds.into_iter().enumerate() {
        spread(pieces / part, |piece| {
            let mut random = Random::new(510_000 + 1_000 * kind as u64 + piece as u64);
            for shape in SHAPES.map(Some).into_iter().chain([None]) {
                let rows = random.between(rows[0], rows[1]);
                let events = random.between(events[0], events[1]);
                let (given, mask) = match shape {
                    Some(shape) => with_mask(&mut random, shape, rows, events),
                    None => (comb(&mut random, rows, events), mask(&mut random, events)),
                };
                let levels = Levels::of(&given, mask);
                for (place, offset) in
                    some_offsets(&mut random, &levels, offsets).into_iter().enumerate()
                {
                    let what = (&levels, offset, wanted, place == 0);
                    check_larger(functions, report, &mut random, what, sorts);
                }
            }
        });
    }
}

/// The kinds of large.rs with so many rows and events, each with a mask.
fn all_kinds(
    functions: &dyn GivenUp,
    report: Report,
    (rows, events, wanted): (usize, usize, usize),
    kinds: &[Kind],
    sorts: &Sorts,
) {
    spread(kinds.len(), |piece| {
        let mut random = Random::new(520_000 + 1_000 * rows as u64 + piece as u64);
        let mask = large::masks(&mut random, kinds[piece], events)[piece % 4];
        let given = large::table(&mut random, kinds[piece], rows, events, mask);
        let levels = Levels::of(&given, mask);
        for offset in some_offsets(&mut random, &levels, 2) {
            let what = (&levels, offset, wanted, rows <= 40);
            check_larger(functions, report, &mut random, what, sorts);
        }
    });
}

#[test]
fn larger_tables_of_all_shapes_and_kinds() {
    let sorts = Sorts::default();
    on_product("larger tables, up to 200 rows", |functions, report| {
        larger_tables(functions, report, 1, &sorts);
        for size in [(17, 2, 3), (18, 3, 3), (40, 2, 2), (60, 2, 1)] {
            all_kinds(functions, report, size, &KINDS, &sorts);
        }
        use Kind::{ChainIntoCycle, Falling, IdleChain, IdleCircleChain};
        let kinds = [ChainIntoCycle, Falling, IdleChain, IdleCircleChain];
        all_kinds(functions, report, (200, 2, 1), &kinds, &sorts);
    });
    sorts.show();
}

// (c) What is lent.

/// A table with a mask, and a row of it that folds at this offset into one from which it
/// differs by a run of so many events.
fn with_run(random: &mut Random, rows: usize, events: usize, wanted: usize) -> (Call, Folds) {
    for number in 0.. {
        let shape = SHAPES[number % SHAPES.len()];
        let (given, mask) = with_mask(random, shape, rows, events);
        let offset = random.below(2 * rows + 1);
        let folds = Folds::of(Levels::of(&given, mask), Some(offset));
        let is_it = |row: &usize| folds.given_up(*row).1.len() == wanted;
        if let Some(row) = (0..rows).find(is_it) {
            return (call(&given, mask, offset as u32, row, wanted, Fill::Pattern), folds);
        }
    }
    unreachable!()
}

/// Run buffers and scratch of every length about the right one, and so long that the low 8 or
/// 16 bits of the length are few; in every fill.
fn lent_lengths(functions: &dyn GivenUp, report: Report) {
    let mut random = Random::new(530_000);
    let sizes =
        [(1, 1, 0), (4, 1, 0), (3, 1, 1), (4, 2, 2), (9, 3, 0), (9, 3, 4), (16, 1, 14), (25, 2, 9)];
    for (rows, events, wanted) in sizes {
        let (sound, folds) = with_run(&mut random, rows, events, wanted);
        let (distance, run) = folds.given_up(sound.asked.row);
        let named = sound.scratch;
        let mut lengths = vec![0, 1, wanted / 2, wanted.max(1) - 1, wanted, wanted + 1, rows];
        lengths.extend([255, 256, 257, 65_535, 65_536, 65_537]);
        let scratches = [0, 1, 12 * rows - 1, 12 * rows, named - 1, named, named + 1, named + 99];
        for (place, &lent) in lengths.iter().enumerate() {
            for &scratch in &scratches {
                let fill = Fill::ALL[(place + scratch) % 3];
                let call = Call { run: lent, scratch, fill, ..sound.clone() };
                let expected = match scratch < named {
                    true => call.refused(7, 0),
                    false => call.expecting(distance, &run),
                };
                report(compare(functions, &call, &expected));
            }
        }
    }
}

#[test]
fn lent_buffers_of_every_length() {
    on_product("run buffers and scratch of every length", lent_lengths);
}

/// Every number that may be told as an offset, up to three times the rows; then the last
/// offsets and many numbers that are none; some rows of each.
fn all_numbers(functions: &dyn GivenUp, report: Report) {
    let sorts = Sorts::default();
    for (number, shape) in SHAPES.into_iter().enumerate() {
        let mut random = Random::new(531_000 + number as u64);
        let (given, mask) = with_mask(&mut random, shape, 10, 2);
        let levels = Levels::of(&given, mask);
        let ends = [1000, 32_767, 32_768, 65_534, 65_535];
        let none = (16..32).flat_map(|bit| [1 << bit, (1 << bit) + 1, u32::MAX << bit]);
        for offset in (0..30).chain(ends).chain(none) {
            check_larger(functions, report, &mut random, (&levels, offset, 1, false), &sorts);
        }
    }
}

#[test]
fn numbers_told_as_offsets() {
    on_product("numbers told as offsets", all_numbers);
}

/// 32 events of which each in turn leads to the only ready row: the run is this event. All
/// others stay; if this one counts alone, row 0 folds into the last row.
fn each_event(functions: &dyn GivenUp, report: Report) {
    for leads in 0..32 {
        let mut targets = [[0; 32], [2; 32], [2; 32]].concat();
        targets[leads] = 1;
        let given = Table::new(32, 0, &targets, &[false, true, false]);
        let run = [leads as u8];
        for lent in [0, 1, 2] {
            let call = call(&given, 1 << leads, 2, 0, lent, Fill::ALL[lent]);
            report(compare(functions, &call, &call.expecting(2, &run)));
        }
        let text = format!(
            "0 folded 2 distance 2 run {leads}\n\
             1 folded 2 distance 1 run\n"
        );
        report(prints(functions, &given.input(None, 1 << leads), &text));
    }
}

#[test]
fn each_event_in_a_run() {
    on_product("each event in a run", each_event);
}

/// A chain of 300 rows, of which the last but one is ready: runs of more than 255 events. If
/// they count, row r folds into the last row, and the ready one is 298 - r events away. If they
/// do not, every depth is 0 and every distance 1, and all fold into row 0; from there and from
/// row r the first difference is where row r comes to the ready one, and from the last row, that
/// stays, where row 0 does.
fn long_runs(functions: &dyn GivenUp, report: Report) {
    let targets: Vec<usize> = (0..300).map(|row: usize| (row + 1).min(299)).collect();
    let mut marks = [false; 300];
    marks[298] = true;
    let given = Table::new(1, 0, &targets, &marks);
    for (mask, row, distance, length) in [
        (1, 0, 299, 298),
        (1, 42, 257, 256),
        (1, 43, 256, 255),
        (1, 298, 1, 0),
        (1, 299, 0, 0),
        (0, 0, 0, 0),
        (0, 1, 1, 297),
        (0, 42, 1, 256),
        (0, 298, 1, 0),
        (0, 299, 1, 298),
    ] {
        for lent in [length, length.max(1) - 1] {
            let call = call(&given, mask, 65_536, row, lent, Fill::Ones);
            let expected = call.expecting(distance, &vec![0; length]);
            assert_eq!(call.by(&Own::default()), expected, "own reading: {call}");
            report(compare(functions, &call, &expected));
        }
    }
}

/// 1,024 rows, of which row 0 leads to row 1, which is ready, and all others to row 2; only these
/// three are reached. 527,872 scratch cells are needed. 1,025 rows give 1.
fn most_rows(functions: &dyn GivenUp, report: Report) {
    let mut targets = [2; 1024];
    targets[0] = 1;
    let mut marks = [false; 1024];
    marks[1] = true;
    let given = Table::new(1, 0, &targets, &marks);
    let sound = call(&given, 1, 2, 0, 1, Fill::Pattern);
    let with = |row: usize, run: usize, scratch: usize| {
        let asked = Asked { row, ..sound.asked.clone() };
        Call { asked, run, scratch, ..sound.clone() }
    };
    let too_many = |mut call: Call| {
        call.asked.given.rows = 1025;
        call
    };
    let list = [
        (with(0, 1, 527_872), [0, 2, 1, 0]),
        (with(0, 0, 527_872), [18, 0, 0, 0]),
        (with(0, 0, 527_871), [7, 0, 0, 0]),
        (with(1, 0, 527_872), [0, 1, 0, 0]),
        (with(2, 0, 527_872), [0; 4]),
        (with(1023, 0, 527_873), [0; 4]),
        (with(1024, 1, 527_872), [4, 0, 0, 0]),
        (too_many(with(0, 1, 527_872)), [1, 0, 0, 0]),
    ];
    for (call, answer) in list {
        let left = call.by(&Own::default());
        assert_eq!(left.answer, answer, "own reading: {call}");
        report(compare(functions, &call, &left));
    }
}

#[test]
fn long_runs_and_most_rows() {
    on_product("runs of up to 298 events", long_runs);
    on_product("1,024 rows", most_rows);
}

// (d) Refusals.

/// The rules in the order in which they are judged.
const ORDER: [usize; 9] = [1, 2, 3, 4, 5, 6, 16, 7, 18];

/// What may be wrong with a call, beside the table.
const WRONG: [Wrong<Call>; 22] = [
    (4, |c| set(&mut c.asked.row, c.asked.given.rows)),
    (4, |c| set(&mut c.asked.row, c.asked.given.rows + 1)),
    (4, |c| set(&mut c.asked.row, 1024)),
    (4, |c| set(&mut c.asked.row, 65_535)),
    (4, |c| add(&mut c.asked.row, 1 << 16)),
    (4, |c| add(&mut c.asked.row, 1 << 32)),
    (4, |c| add(&mut c.asked.row, 1 << 63)),
    (4, |c| set(&mut c.asked.row, usize::MAX)),
    (4, |c| set(&mut c.asked.row, usize::MAX).and(set(&mut c.asked.given.start, 1024))),
    (16, |c| high_bits(c, 1 << (c.asked.given.events % 32))),
    (16, |c| high_bits(c, 1 << 31)),
    (16, |c| high_bits(c, Mask::MAX)),
    (7, |c| lend(c, |rows| scratch_named(rows) - 1)),
    (7, |c| lend(c, |_| 0)),
    (7, |c| lend(c, |rows| scratch_named(rows) - 4 * rows)),
    (7, |c| lend(c, |rows| 4 * rows - 1)),
    // The second way's figure, where it is less.
    (7, |c| lend(c, |rows| (12 * rows).min(scratch_named(rows) - 1))),
    (7, |c| lend(c, |_| 0).and(set(&mut c.run, 65_536))),
    (18, |c| (c.run > 0).then(|| c.run -= 1).map(|()| 0)),
    (18, |c| (c.run > 0).then(|| c.run = 0).map(|()| 0)),
    (18, |c| (c.run > 0).then(|| c.run /= 2).map(|()| 0)),
    (18, |c| (c.run > 1).then(|| c.run = 1).map(|()| c.scratch += 9).map(|()| 0)),
];

/// So many scratch cells for the rows.
fn lend(call: &mut Call, scratch: fn(usize) -> usize) -> Option<usize> {
    call.scratch = scratch(call.asked.given.rows);
    Some(0)
}

fn high_bits(call: &mut Call, bits: Mask) -> Option<usize> {
    if call.asked.given.events == 32 {
        return None;
    }
    call.asked.mask |= bits;
    Some(0)
}

/// A sound call with each thing wrong alone, any two, and so many times one for each rule of
/// every set of rules: the first in [`ORDER`] gives the answer.
fn wrong_calls(
    functions: &dyn GivenUp,
    report: Report,
    (rows, events, wanted): (usize, usize, usize),
    times: usize,
) {
    let mut random = Random::new(540_000 + (100 * rows + events) as u64);
    let (sound, folds) = with_run(&mut random, rows, events, wanted);
    let all = Wrongs::judged(&ORDER).with_table(0, |c: &mut Call| &mut c.asked.given).with(&WRONG);
    for (wrongs, fill) in all.mixtures(&mut random, true, [1, times]) {
        let mut call = Call { fill, ..sound.clone() };
        let Some((rule, place)) = all.done(&wrongs, &mut call) else { continue };
        let expected = match rule {
            18 => {
                let (distance, run) = folds.given_up(sound.asked.row);
                call.expecting(distance, &run)
            }
            _ => call.refused(rule, place),
        };
        assert_eq!(expected.answer, [rule, place, 0, 0], "{call}");
        assert_eq!(call.by(&Own::default()), expected, "own reading: {call}");
        report(compare(functions, &call, &expected));
    }
}

#[test]
fn wrong_arguments() {
    on_product("wrong arguments", |functions, report| {
        for size in [(1, 1, 0), (2, 2, 0), (3, 1, 1), (8, 2, 3), (9, 3, 2), (20, 32, 2)] {
            wrong_calls(functions, report, size, 3);
        }
        // Scratch that is less than the second way's, and more.
        wrong_calls(functions, report, (17, 1, 5), 1);
        wrong_calls(functions, report, (26, 2, 6), 1);
    });
}

/// Each bit of a mask alone, all from it on and all below it, with each number of events, or
/// each so many: "16, a mask bit at or above the event count is set".
fn each_mask_bit(functions: &dyn GivenUp, report: Report, step: usize) {
    let mut random = Random::new(541_000);
    for events in (1..=32).step_by(step) {
        let given = table(&mut random, Shape::Falling, 5, events);
        for bit in 0..32 {
            for mask in [1 << bit, Mask::MAX << bit, !(Mask::MAX << bit)] {
                let call = call(&given, mask, 3, bit % 5, 4, Fill::ALL[bit % 3]);
                let high = mask & !every_event(events) != 0;
                let left = call.by(&Own::default());
                assert_eq!(left.answer[0], 16 * high as usize, "own reading: {call}");
                report(compare(functions, &call, &left));
            }
        }
    }
}

#[test]
fn each_bit_of_a_mask() {
    on_product("each bit of a mask", |functions, report| each_mask_bit(functions, report, 1));
}

// (e) The program.

/// 128 rows, the most that a program takes: chains whose rows all fold into the last one, with
/// long runs; and a table of 32 events. 129 rows give 12.
fn long_texts(functions: &dyn GivenUp, report: Report) {
    for rows in [127, 128, 129] {
        let targets: Vec<usize> = (0..rows).map(|row: usize| (row + 1).min(rows - 1)).collect();
        let mut marks = vec![false; rows];
        marks[rows - 2] = true;
        let given = Table::new(1, 0, &targets, &marks);
        let mut text = String::new();
        for row in 0..rows - 1 {
            // The ready row is as many events away; each counts.
            let away = rows - 2 - row;
            text += &format!("{row} folded {} distance {} run", rows - 1, away + 1);
            text += &" 0".repeat(away);
            text += "\n";
        }
        if rows == 129 {
            text = "refused 12 0\n".to_string();
        }
        // (Texts of so many rows may take long: one each.)
        let offset = if rows == 127 { Some(rows - 1) } else { None };
        report(prints(functions, &given.input(offset, 1), &text));
        if rows == 128 {
            report(prints(functions, &given.input(Some(rows - 2), 1), ""));
        }
    }
    let mut random = Random::new(550_000);
    let given = table(&mut random, Shape::Falling, 128, 32);
    for (offset, mask) in [(None, Mask::MAX), (Some(60), 0x00FF_00FF)] {
        let input = given.input(offset, mask);
        report(prints(functions, &input, &text_for(&input)));
    }
}

#[test]
fn texts_of_128_rows() {
    on_product("texts of 128 rows", long_texts);
}

/// What `reduce` refuses is refused in the same words.
#[test]
fn damaged_inputs() {
    on_product("damaged inputs", |functions, report| {
        let check = |input: &[u8]| report(prints(functions, input, &text_for(input)));
        Inputs::OfReduce.cut_and_extended(check);
        Inputs::OfReduce.too_high_masks(check);
        Inputs::OfReduce.each_mask_bit(check);
        Inputs::OfReduce.several_bytes(check);
    });
}

// (f) The self-test: misled functions are found by the checks above.

#[test]
fn faults_are_found() {
    let mut small: Vec<(Table, Mask)> = (0..count_all(3, 2))
        .step_by(241)
        .map(|number| (table_number(3, 2, number), number as Mask % 4))
        .collect();
    // Document 01's table D, of which a row is similar to two kept ones.
    let d = Table::new(2, 3, &[1, 2, 0, 0, 0, 0, 0, 0], &[false, true, false, false]);
    small.extend(all_masks(2).map(|mask| (d.clone(), mask)));
    let runs = [3, 4].map(|rows| all_runs(2, longest_needed(rows)[1]));
    let calls = |functions: &dyn GivenUp, report: Report| {
        for (given, mask) in &small {
            check_small(functions, report, given, *mask, &runs[given.rows - 3]);
        }
        larger_tables(functions, report, 20, &Sorts::default());
        all_numbers(functions, report);
        lent_lengths(functions, report);
        wrong_calls(functions, report, (9, 3, 2), 1);
        wrong_calls(functions, report, (17, 1, 5), 1);
    };
    find_with("last run", &FAULTS, |fault, report| calls(&Misled::by(fault), report));
}
