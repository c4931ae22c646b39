//! (i) The reducer called directly, with tables of up to 1,024 rows and lent buffers, in
//! both its ways: each call of the first way is made of the second too, with its own
//! scratch (request 109), and both do the same.
//! - Small tables under every mask, at every offset and with none: the new cells and
//!   mark bytes are those of rules.rs, and the row count is the least that cutter.rs
//!   finds by brute force.
//! - Larger tables of all shapes: as rules.rs.
//! - The named scratch is 0 afterwards; what is given, and what lies beyond, is
//!   untouched.
//! - What breaks a rule is refused in the order 1, 2, 3, 4, 5, 6, 16, 7, and changes
//!   nothing.

use independent::calls::Numbers;
use independent::cutter::{count_all, table_number, Cutter};
use independent::direct::{
    both_ways, on_product, Asked, Call, Direct, Fill, Lengths, Own, Report, Task, Way,
};
use independent::judge::all_offsets;
use independent::levels::Levels;
use independent::parallel::spread;
use independent::product::Product;
use independent::radio::Answer;
use independent::random::Random;
use independent::rules::Study;
use independent::shapes::{mask, offsets_for, table, with_mask, Shape, SHAPES};
use independent::small::{all_masks, all_tables, reached_tables};
use independent::spoiled::{find, REDUCER_FAULTS, SECOND_WAY_FAULTS};
use independent::table::{every_event, Mask, Offset, Table};
use independent::wrong::{add, set, Wrong, Wrongs};

const TOO_SHORT: Answer = [7, 0, 0, 0];

/// What the reducer is given, and lent, in one of its ways.
#[derive(Clone)]
struct Given {
    way: Way,
    offset: u32,
    mask: Mask,
    numbers: Numbers,
    lent: Lengths,
}

impl Given {
    /// A table with what is named for it.
    fn of(way: Way, table: &Table, mask: Mask, offset: u32) -> Given {
        let lent = Lengths::named(way, table.rows, table.events);
        Given { way, offset, mask, numbers: Numbers::of(table), lent }
    }

    fn call(&self, fill: Fill) -> Call {
        let Given { way, offset, mask, ref numbers, lent } = *self;
        let asked = Asked::Reduce(Task { way, offset, mask, given: numbers.clone() });
        Call { asked, lent, fill }
    }

    /// The call with other lengths lent.
    fn lending(&self, change: impl Fn(&mut Lengths), fill: Fill) -> Call {
        let mut call = self.call(fill);
        change(&mut call.lent);
        call
    }
}

/// An offset as the reducer is told it; none by one of many numbers.
fn told(offset: Offset, which: usize) -> u32 {
    const NONE: [u32; 6] = [65_536, 65_537, 65_540, 1 << 17, 1 << 31, u32::MAX];
    offset.map_or(NONE[which % NONE.len()], |k| k as u32)
}

// (a) By hand.

/// The cases of document 01, "Tables to try", and of request 104: "With none counted,
/// A at offset 1 gives one ready row." The new cells and mark byte of each.
#[test]
fn cases_of_the_documents() {
    const N: u32 = 65_536;
    let a = Table::new(1, 0, &[1, 2, 2], &[true, false, false]);
    let b = Table::new(2, 0, &[1, 2, 0, 0, 0, 0], &[false, true, false]);
    let c = Table::new(1, 0, &[1, 2, 3, 3], &[false, true, false, false]);
    let d = Table::new(2, 3, &[1, 2, 0, 0, 0, 0, 0, 0], &[false, true, false, false]);
    let e = [true, false].map(|mark| Table::new(2, 0, &[0, 0], &[mark]));
    let f = Table::new(1, 0, &[0, 0], &[false, true]);
    // Table, mask, offsets, new cells, new mark byte.
    let every = [0, 1, 2, 3, 6, 65_535, N];
    let cases: [(&Table, Mask, &[u32], &[u16], u8); 11] = [
        (&a, 1, &[0], &[1, 1], 0b01),
        (&a, 1, &[1, 2, 65_535, N, N + 1, u32::MAX], &[0], 0),
        (&a, 0, &[1], &[0], 1),
        (&b, 3, &every, &[1, 2, 0, 0, 0, 0], 0b010),
        (&c, 1, &[1], &[1, 2, 2], 0b010),
        (&c, 1, &[2, 3, 65_535, N], &[0], 0),
        (&d, 3, &[0], &[1, 1, 2, 0, 1, 1], 0b100),
        (&d, 3, &[1, 2, 8, 65_535, N], &[1, 1, 0, 2, 1, 1], 0b001),
        (&e[0], 3, &every, &[0, 0], 1),
        (&e[1], 3, &every, &[0, 0], 0),
        (&f, 1, &every, &[0], 0),
    ];
    let mut tried = 0;
    for (table, mask, offsets, cells, marks) in cases {
        for &offset in offsets {
            for (fill, way) in Fill::ALL.into_iter().flat_map(|f| Way::BOTH.map(|way| (f, way))) {
                let call = Given::of(way, table, mask, offset).call(fill);
                let rows = cells.len() / table.events;
                for left in [call.by(&Product), call.by(&Own::default())] {
                    assert_eq!(left.answer, [0, rows, 0, 0], "{call}");
                    assert_eq!(left.cells[..cells.len()], *cells, "{call}");
                    assert_eq!(left.marks, [marks], "{call}");
                    assert!(left.scratch.iter().all(|&cell| cell == 0), "{call}");
                }
                tried += 1;
            }
        }
    }
    println!("product: {tried} calls with the tables of the documents, in both ways");
}

/// "Refused, and on what", the small examples, and the edges: "1,024 rows pass, 1,025
/// give 1; 32 events pass, 33 give 2; four rows need 22 scratch cells". In the second
/// way, with 12 × rows, they need 48; it is "smaller from 18 rows up".
fn small_examples(functions: &dyn Direct, report: Report) {
    let numbers = |rows: usize, events: usize, cells: &[u16], marks: &[u8]| Numbers {
        rows,
        events,
        start: 0,
        cells: cells.to_vec(),
        marks: marks.to_vec(),
    };
    // The answers of the first way and of the second.
    let check = |numbers: Numbers, mask: Mask, lent: Lengths, answers: [Answer; 2]| {
        let given = |way| Given { way, offset: 0, mask, numbers: numbers.clone(), lent };
        let call = |way| given(way).call(Fill::Pattern);
        let right = |way: Way, answer| answer == answers[(way == Way::Second) as usize];
        both_ways(functions, &Own::default(), report, call, right);
    };
    let both = |rule: usize, value: usize| [[rule, value, 0, 0]; 2];
    let some = Lengths { cells: 99, marks: 9, scratch: 99 };
    check(numbers(0, 1, &[], &[]), 1, some, both(1, 0));
    check(numbers(1, 33, &[0; 33], &[0]), 1, some, both(2, 0));
    check(numbers(2, 2, &[0; 5], &[0]), 1, some, both(3, 0));
    check(Numbers { start: 2, ..numbers(2, 1, &[0; 2], &[0]) }, 1, some, both(4, 0));
    check(numbers(2, 1, &[1, 2], &[0]), 1, some, both(5, 1));
    check(numbers(2, 1, &[0; 2], &[4]), 1, some, both(6, 0));
    check(numbers(2, 1, &[0; 2], &[0]), 2, some, both(16, 0));
    // Rows, scratch cells, and whether these are enough for each way.
    for (rows, scratch, enough) in [
        (4, 21, [false, false]),
        (4, 22, [true, false]),
        (4, 47, [true, false]),
        (4, 48, [true, true]),
        (16, 183, [false, false]),
        (16, 184, [true, false]),
        (16, 191, [true, false]),
        (16, 192, [true, true]),
        (17, 203, [false, false]),
        (17, 204, [true, true]),
        (18, 215, [false, false]),
        (18, 216, [false, true]),
        (18, 224, [false, true]),
        (18, 225, [true, true]),
    ] {
        let lent = Lengths { cells: rows, marks: rows.div_ceil(8), scratch };
        let answers = enough.map(|enough| if enough { [0, 1, 0, 0] } else { TOO_SHORT });
        check(numbers(rows, 1, &vec![0; rows], &vec![0; lent.marks]), 1, lent, answers);
    }
    // 7 and not 1: largest_tables lends enough.
    check(numbers(1024, 1, &[0; 1024], &[255; 128]), 1, some, both(7, 0));
    check(numbers(1025, 1, &[0; 1025], &[0; 129]), 1, some, both(1, 0));
    check(numbers(1, 32, &[0; 32], &[1]), Mask::MAX, some, both(0, 1));
}

/// 1,024 rows need 12,288 scratch cells in the second way and 527,872 in the first: as
/// many, and one less.
fn most_scratch(functions: &dyn Direct, report: Report) {
    let given = Table::new(1, 0, &[0; 1024], &[true; 1024]);
    let own = Own::of(Levels::of(&given, 1));
    for (scratch, enough) in [
        (12_287, [false, false]),
        (12_288, [false, true]),
        (527_871, [false, true]),
        (527_872, [true, true]),
    ] {
        let asked = |way| Given::of(way, &given, 1, 0);
        let call = |way| asked(way).lending(|lent| lent.scratch = scratch, Fill::Pattern);
        let right = |way: Way, answer| {
            let enough = enough[(way == Way::Second) as usize];
            answer == if enough { [0, 1, 0, 0] } else { TOO_SHORT }
        };
        both_ways(functions, &own, report, call, right);
    }
}

#[test]
fn small_examples_of_the_documents() {
    on_product("small examples of refusals and edges in both ways", small_examples);
    on_product("1,024 rows in the least scratch of both ways", most_scratch);
}

// (b) Small tables against the cutter.

/// A table under a mask at every offset and with none: the row counts are these.
/// Then longer buffers, and one of those too short.
fn check_small(functions: &dyn Direct, report: Report, given: &Table, mask: Mask, least: &[usize]) {
    let own = Own::default();
    // Any number that differs from table to table.
    let number = given.targets.iter().fold(mask as usize, |sum, target| 3 * sum + target);
    let fill = |more: usize| Fill::ALL[(number + more) % 3];
    let offsets = all_offsets(given.rows);
    for (place, &offset) in offsets.iter().enumerate() {
        let call = |way| Given::of(way, given, mask, told(offset, number)).call(fill(place));
        let right = |_, answer| answer == [0, least[place], 0, 0];
        both_ways(functions, &own, report, call, right);
    }
    let place = number % offsets.len();
    let asked = |way| Given::of(way, given, mask, told(offsets[place], number));
    let longer = |lent: &mut Lengths| {
        lent.cells += 1 + number % 5;
        lent.marks += 1 + number % 2;
        lent.scratch += 1 + number % 9;
    };
    let call = |way| asked(way).lending(longer, fill(1));
    both_ways(functions, &own, report, call, |_, answer| answer == [0, least[place], 0, 0]);
    let call = |way| asked(way).lending(|lent| *lent = one_short(*lent, number), fill(2));
    both_ways(functions, &own, report, call, |_, answer| answer == TOO_SHORT);
}

/// One of the lengths one less.
fn one_short(mut lent: Lengths, which: usize) -> Lengths {
    match which % 3 {
        0 => lent.cells -= 1,
        1 => lent.marks -= 1,
        _ => lent.scratch -= 1,
    }
    lent
}

/// All tables of 1 to 3 rows and 1 to 2 events under every mask, and a slice of those
/// of 4 rows and 2 events in which all rows are reached.
#[test]
fn small_tables_against_the_cutter() {
    on_product("small tables in both ways, against brute force", |functions, report| {
        for (rows, events) in [(1, 1), (2, 1), (3, 1), (1, 2), (2, 2), (3, 2), (4, 2)] {
            let cutter = Cutter::new(rows, events);
            let offsets = all_offsets(rows);
            let check = |given: &Table| {
                for mask in all_masks(events) {
                    let least = cutter.least(given, mask, &offsets);
                    check_small(functions, report, given, mask, &least);
                }
            };
            match (rows, events) {
                (4, 2) => reached_tables([5, 40], rows, events, 320_000, check),
                _ => all_tables(rows, events, check),
            };
        }
    });
}

// (c) Larger tables.

/// A table under a mask at these offsets, in buffers exact, longer or too short.
fn check_larger(
    functions: &dyn Direct,
    report: Report,
    random: &mut Random,
    study: Study,
    offsets: &[Offset],
) {
    let (given, mask) = (study.table.clone(), study.mask);
    let own = Own::of(study);
    for &offset in offsets {
        let offset = told(offset, random.below(6));
        let more = [(); 3].map(|_| *random.pick(&[0, 0, 1, 50]));
        let longer = |lent: &mut Lengths| {
            lent.cells += more[0];
            lent.marks += more[1];
            lent.scratch += more[2];
        };
        let fill = *random.pick(&Fill::ALL);
        let call = |way| Given::of(way, &given, mask, offset).lending(longer, fill);
        // A sound table is not refused.
        both_ways(functions, &own, report, call, |_, answer| answer[0] == 0);
    }
    for which in 0..3 {
        let asked = |way| Given::of(way, &given, mask, told(offsets[0], 0));
        let fill = *random.pick(&Fill::ALL);
        let call = |way| asked(way).lending(|lent| *lent = one_short(*lent, which), fill);
        both_ways(functions, &own, report, call, |_, answer| answer == TOO_SHORT);
    }
}

fn larger_tables(functions: &dyn Direct, report: Report, part: usize) {
    // Smallest and largest rows, smallest and largest events, pieces (each piece is
    // one table of each shape), offsets for each table.
    let kinds = [
        ([1, 12], [1, 4], 150, 6),
        ([7, 17], [1, 3], 100, 6),
        ([13, 48], [1, 8], 60, 5),
        ([49, 128], [1, 3], 16, 5),
        ([100, 128], [16, 32], 2, 4),
        ([129, 300], [1, 3], 2, 4),
    ];
    for (kind, (rows, events, pieces, wanted)) in kinds.into_iter().enumerate() {
        spread(pieces / part, |piece| {
            let mut random = Random::new(330_000 + 1_000 * kind as u64 + piece as u64);
            for shape in SHAPES {
                let rows = random.between(rows[0], rows[1]);
                let events = random.between(events[0], events[1]);
                let (given, mask) = with_mask(&mut random, shape, rows, events);
                let study = Study::of(&given, mask);
                let offsets = offsets_for(&mut random, &study, wanted);
                check_larger(functions, report, &mut random, study, &offsets);
            }
        });
    }
}

#[test]
fn larger_tables_of_all_shapes() {
    on_product("larger tables in both ways, up to 300 rows", |functions, report| {
        larger_tables(functions, report, 1)
    });
}

/// More rows than a program takes, up to the largest table.
#[test]
fn largest_tables() {
    on_product("the largest tables in both ways", |functions, report| {
        let kinds = [
            (Shape::Chain, 1024, 1),
            (Shape::Falling, 1024, 2),
            (Shape::Copies, 1023, 1),
            (Shape::Echo, 700, 2),
            (Shape::Layers, 1024, 32),
        ];
        spread(kinds.len(), |piece| {
            let (shape, rows, events) = kinds[piece];
            let mut random = Random::new(340_000 + piece as u64);
            let (given, mask) = with_mask(&mut random, shape, rows, events);
            let study = Study::of(&given, mask);
            let offsets = offsets_for(&mut random, &study, 4);
            check_larger(functions, report, &mut random, study, &offsets);
        });
    });
}

// (d) Offsets, masks and lengths.

/// Every number that may be told as an offset, up to three times the rows; then the
/// last offsets and many numbers that are none.
fn all_numbers(functions: &dyn Direct, report: Report) {
    for (number, shape) in SHAPES.into_iter().enumerate() {
        let mut random = Random::new(341_000 + number as u64);
        let (given, mask) = with_mask(&mut random, shape, 12, 2);
        let own = Own::default();
        let ends = [1000, 32_767, 32_768, 65_534, 65_535];
        let none =
            (16..32).flat_map(|bit| [1 << bit, (1 << bit) + 1, (1 << bit) + 12, u32::MAX << bit]);
        for offset in (0..36).chain(ends).chain(none) {
            let fill = Fill::ALL[offset as usize % 3];
            let call = |way| Given::of(way, &given, mask, offset).call(fill);
            both_ways(functions, &own, report, call, |_, answer| answer[0] == 0);
        }
    }
}

#[test]
fn numbers_told_as_offsets() {
    on_product("numbers told as offsets in both ways", all_numbers);
}

/// Each bit of a mask alone, all from it on and all below it, with each number of
/// events, or each so many: "16, a mask bit at or above the event count is set".
fn each_mask_bit(functions: &dyn Direct, report: Report, step: usize) {
    let mut random = Random::new(342_000);
    for events in (1..=32).step_by(step) {
        let given = table(&mut random, Shape::Falling, 5, events);
        for bit in 0..32 {
            for mask in [1 << bit, Mask::MAX << bit, !(Mask::MAX << bit)] {
                let call = |way| Given::of(way, &given, mask, 2).call(Fill::ALL[bit % 3]);
                let high = mask & !every_event(events) != 0;
                let right = |_, answer: Answer| answer[0] == 16 * high as usize;
                both_ways(functions, &Own::default(), report, call, right);
            }
        }
    }
}

#[test]
fn each_bit_of_a_mask() {
    on_product("each bit of a mask in both ways", |f, report| each_mask_bit(f, report, 1));
}

/// Every mixture of lengths about the named ones, those of the scratch about the figures
/// of both ways, and each alone so long that its low 16 bits are 0; in every fill.
fn lent_lengths(functions: &dyn Direct, report: Report) {
    let mut random = Random::new(343_000);
    for (rows, events) in [(1, 1), (4, 1), (8, 2), (9, 3), (17, 1), (18, 2), (40, 2)] {
        let (given, mask) = with_mask(&mut random, Shape::Falling, rows, events);
        let own = Own::default();
        let offset = rows as u32 / 2;
        let new_rows = own.reduced(&given, mask, Some(rows / 2)).rows;
        let [first, second] = Way::BOTH.map(|way| Lengths::named(way, rows, events));
        let all = Lengths { scratch: first.scratch.max(second.scratch), ..first };
        let long = 65_536;
        let mut list = vec![
            Lengths { cells: long, ..all },
            Lengths { marks: long, ..all },
            Lengths { scratch: long, ..all },
        ];
        let about = |named: usize| [0, named - 1, named, named + 1, named + 99];
        for cells in about(all.cells) {
            for marks in about(all.marks) {
                for scratch in [about(first.scratch), about(second.scratch)].concat() {
                    list.push(Lengths { cells, marks, scratch });
                }
            }
        }
        for (lent, fill) in list.iter().flat_map(|lent| Fill::ALL.map(|fill| (*lent, fill))) {
            let right = |way: Way, answer| {
                let short = lent.cells < all.cells
                    || lent.marks < all.marks
                    || lent.scratch < way.scratch(rows);
                answer == if short { TOO_SHORT } else { [0, new_rows, 0, 0] }
            };
            let asked = |way| Given::of(way, &given, mask, offset);
            let call = |way| asked(way).lending(|other| *other = lent, fill);
            both_ways(functions, &own, report, call, right);
        }
    }
}

#[test]
fn lent_buffers_of_every_length() {
    on_product("lent buffers of every length in both ways", lent_lengths);
}

// (e) Refusals.

/// The rules in the order in which they are judged: 16 is "straight after 6".
const ORDER: [usize; 8] = [1, 2, 3, 4, 5, 6, 16, 7];

/// What may be wrong with a call, beside the table.
const WRONG: [Wrong<Given>; 13] = [
    (16, |g| high_bits(g, 1 << (g.numbers.events % 32))),
    (16, |g| high_bits(g, 1 << 31)),
    (16, |g| high_bits(g, Mask::MAX)),
    (7, |g| add(&mut g.lent.cells, usize::MAX)),
    (7, |g| add(&mut g.lent.marks, usize::MAX)),
    (7, |g| add(&mut g.lent.scratch, usize::MAX)),
    (7, |g| set(&mut g.lent.cells, 0)),
    (7, |g| set(&mut g.lent.marks, 0)),
    (7, |g| set(&mut g.lent.scratch, 0)),
    (7, |g| set(&mut g.lent.scratch, g.way.scratch(g.numbers.rows) - 4 * g.numbers.rows)),
    (7, |g| set(&mut g.lent.scratch, 4 * g.numbers.rows - 1)),
    (7, |g| {
        // The other way's figure, where it is less.
        let other = if g.way == Way::First { Way::Second } else { Way::First };
        let figure = other.scratch(g.numbers.rows);
        set(&mut g.lent.scratch, figure.min(g.way.scratch(g.numbers.rows) - 1))
    }),
    (7, |g| set(&mut g.lent, Lengths { cells: 0, marks: 0, scratch: 0 })),
];

fn high_bits(given: &mut Given, bits: Mask) -> Option<usize> {
    if given.numbers.events == 32 {
        return None;
    }
    given.mask |= bits;
    Some(0)
}

/// A sound call with each thing wrong alone, any two, and so many times one for each rule of
/// every set of rules: the first in [`ORDER`] gives the answer, in both ways. (Not any two where
/// scratch is large: each call takes long.)
fn wrong_calls(functions: &dyn Direct, report: Report, size: (usize, usize), times: usize) {
    let (rows, events) = size;
    let mut random = Random::new(344_000 + (100 * rows + events) as u64);
    let given = table(&mut random, Shape::Free, rows, events);
    let (mask, offset) = (mask(&mut random, events), random.below(70_000) as u32);
    let all = Wrongs::judged(&ORDER).with_table(0, |g: &mut Given| &mut g.numbers).with(&WRONG);
    for (wrongs, fill) in all.mixtures(&mut random, rows < 200, [1, times]) {
        let spoilt = |way| {
            let mut given = Given::of(way, &given, mask, offset);
            let answer = all.done(&wrongs, &mut given);
            (given, answer)
        };
        if let Some((rule, place)) = spoilt(Way::First).1 {
            let call = |way| spoilt(way).0.call(fill);
            let right = |_, answer| answer == [rule, place, 0, 0];
            both_ways(functions, &Own::default(), report, call, right);
        }
    }
}

#[test]
fn wrong_arguments() {
    on_product("wrong arguments of the reducer in both ways", |functions, report| {
        for size in [(1, 1), (2, 2), (3, 1), (8, 2), (9, 3), (20, 32), (130, 2)] {
            wrong_calls(functions, report, size, 4);
        }
        wrong_calls(functions, report, (1024, 1), 1);
        wrong_calls(functions, report, (1001, 31), 1);
    });
}

// (f) The self-test: spoiled reducers are found by the checks above.

#[test]
fn faults_are_found() {
    let mut tables = Vec::new();
    for number in (0..count_all(3, 2)).step_by(97) {
        let given = table_number(3, 2, number);
        let study = Study::of(&given, number as Mask % 4);
        let least: Vec<usize> =
            all_offsets(3).into_iter().map(|offset| study.reduce(offset).table.rows).collect();
        tables.push((given, study.mask, least));
    }
    let calls = |functions: &dyn Direct, report: Report| {
        for (given, mask, least) in &tables {
            check_small(functions, report, given, *mask, least);
        }
        larger_tables(functions, report, 50);
        all_numbers(functions, report);
        each_mask_bit(functions, report, 10);
        lent_lengths(functions, report);
        small_examples(functions, report);
        wrong_calls(functions, report, (9, 3), 3);
        wrong_calls(functions, report, (20, 2), 1);
    };
    find("direct reducer", &REDUCER_FAULTS, calls);
    find("direct reducer, second way", &SECOND_WAY_FAULTS, calls);
}
