//! (h) Request 105, "A stated load for the bench". For seeds and sizes of every kind:
//! - the product draws the table that load.rs draws, in lent buffers of every kind:
//!   every cell, mark byte and answer;
//! - what breaks a rule is refused in the order 1, 2, 17, 7, and changes nothing;
//! - its reducer takes every table that is drawn.
//!
//! The first draws are the published ones, and small tables are worked out by hand.
//! The step is tried for two states that step to the same one.

use independent::calls::Numbers;
use independent::direct::{
    both_ways, expect, on_product, Asked, Call, Direct, Fill, Lengths, Own, Report, Task,
};
use independent::load::{load, step, Draws};
use independent::parallel::spread;
use independent::product::Product;
use independent::radio::Answer;
use independent::random::Random;
use independent::shapes;
use independent::spoiled::{find, GENERATOR_FAULTS};

const DRAWN: Answer = [0; 4];
const TOO_SHORT: Answer = [7, 0, 0, 0];

/// A call of the generator that lends so many cells and mark bytes.
fn generate(seed: u32, [rows, events]: [usize; 2], [cells, marks]: [usize; 2], fill: Fill) -> Call {
    let lent = Lengths { cells, marks, scratch: 0 };
    Call { asked: Asked::Generate { seed, rows, events }, lent, fill }
}

/// The cells and mark bytes of a size.
fn named([rows, events]: [usize; 2]) -> [usize; 2] {
    [rows * events, rows.div_ceil(8)]
}

/// A nonzero seed.
fn some_seed(random: &mut Random) -> u32 {
    random.between(1, u32::MAX as usize) as u32
}

// (a) By hand.

/// The first five draws of seed 1 are published values for these shifts. The others
/// are worked out here in hexadecimal: the state before, ^ (xor) what each of the three
/// shifts gives, and at last the draw.
///
///     8EF917D1  ^ 22FA2000 = AC0337D1  ^ 5601 = AC0361D0  ^ 806C3A00 = 2C6F5BD0
///     2C6F5BD0  ^ EB7A0000 = C7155BD0  ^ 638A = C715385A  ^ E2A70B40 = 25B2331A
///     25B2331A  ^ 46634000 = 63D1731A  ^ 31E8 = 63D142F2  ^ 7A285E40 = 19F91CB2
///     19F91CB2  ^ 23964000 = 3A6F5CB2  ^ 1D37 = 3A6F4185  ^ 4DE830A0 = 77877125
///     77877125  ^ EE24A000 = 99A3D125  ^ 4CD1 = 99A39DF4  ^ 3473BE80 = ADD02374
const FIRST_DRAWS: [u32; 10] = [
    270_369,
    67_634_689,
    2_647_435_461,
    307_599_695,
    2_398_689_233, // 8EF917D1
    0x2C6F_5BD0,
    0x25B2_331A,
    0x19F9_1CB2,
    0x7787_7125,
    0xADD0_2374,
];

#[test]
fn first_draws_of_seed_1() {
    let mut draws = Draws::of(1);
    assert_eq!(FIRST_DRAWS.map(|_| draws.draw()), FIRST_DRAWS);
    // In hexadecimal: 1 ^ 2000 = 2001, the shift by 17 leaves 0, ^ 40020 = 42021.
    assert_eq!((step(1), FIRST_DRAWS[0]), (0x42021, 0x42021));
    println!("first draws: {} by hand", FIRST_DRAWS.len());
}

/// Seed 1, and the draws above.
///
/// - 5 rows, 1 event: five targets, five marks. Below 5 / 4, rounded down, is row 0
///   alone: 1 plus 270369 modulo 4 (69 is 17 × 4 + 1) is 2. Elsewhere modulo 5, which
///   the last digit tells: 67634689 gives 4, 2647435461 gives 1, 307599695 gives 0,
///   2398689233 gives 3. Of the marks only the fourth draw, 77877125, is odd.
/// - 4 rows, 1 event: row 0 has 1 plus 270369 modulo 3 (its digits sum to 27), 1.
///   Modulo 4: 89 gives 1, 61 gives 1, 95 gives 3. Marks: 2398689233 is odd, the
///   three after it are even.
/// - 3 rows, 1 event: no row is below 3 / 4. Modulo 3 by the digits' sums, 27, 49 and
///   42: 0 1 0. Marks: 307599695 and 2398689233 are odd, 2C6F5BD0 is even.
/// - 2 rows, 1 event: two odd draws, two odd draws.
/// - 1 row, 4 events: targets 0; the fifth draw is odd.
///
/// Seed 80000000, 1 row and 1 event, to see the cut: the first shift leaves 0, then
/// ^ 4000 = 80004000, ^ 80000 = 80084000. The next step, for the mark:
/// ^ 08000000 = 88084000, ^ 4404 = 88080404, ^ 01008080 = 89088484, which is even.
#[test]
fn tables_by_hand() {
    let cases: [(u32, [usize; 2], &[u16], u8); 6] = [
        (1, [5, 1], &[2, 4, 1, 0, 3], 0b01000),
        (1, [4, 1], &[1, 1, 1, 3], 0b0001),
        (1, [3, 1], &[0, 1, 0], 0b011),
        (1, [2, 1], &[1, 1], 0b11),
        (1, [1, 4], &[0, 0, 0, 0], 0b1),
        (0x8000_0000, [1, 1], &[0], 0),
    ];
    for (seed, size, cells, marks) in cases {
        for fill in Fill::ALL {
            let call = generate(seed, size, [cells.len(), 1], fill);
            for left in [call.by(&Product), call.by(&Own::default())] {
                assert_eq!(
                    (left.answer, &left.cells[..], &left.marks[..]),
                    (DRAWN, cells, &[marks][..]),
                    "{call}"
                );
            }
        }
    }
    println!("product: {} tables by hand, each in 3 fills", cases.len());
}

// (b) Sizes, seeds and lent buffers of every kind.

/// A seed and a size: exact buffers, longer ones, each one too short, none.
fn check_size(functions: &dyn Direct, report: Report, seed: u32, size: [usize; 2], fill: Fill) {
    let [cells, marks] = named(size);
    for (lent, answer) in [
        ([cells, marks], DRAWN),
        ([cells + 1 + size[0] % 7, marks + 1 + size[1] % 3], DRAWN),
        ([cells - 1, marks], TOO_SHORT),
        ([cells, marks - 1], TOO_SHORT),
        ([0, 0], TOO_SHORT),
    ] {
        report(expect(functions, &Own::default(), &generate(seed, size, lent, fill), answer));
    }
}

/// Every row count up to 1,024, or each so many, with some events.
fn all_rows(functions: &dyn Direct, report: Report, step: usize) {
    spread(1024 / step, |piece| {
        let rows = 1 + piece * step;
        let mut random = Random::new(300_000 + rows as u64);
        for events in [1, 2, 3, random.between(4, 32)] {
            for seed in [1, some_seed(&mut random)] {
                check_size(functions, report, seed, [rows, events], *random.pick(&Fill::ALL));
            }
        }
    });
}

/// Every event count with some row counts.
fn all_events(functions: &dyn Direct, report: Report, seeds: usize) {
    let rows = [1, 2, 3, 4, 5, 7, 8, 9, 16, 17, 31, 63, 64, 65, 127, 128, 129, 255, 256, 257];
    let more = [511, 512, 513, 1000, 1023, 1024];
    spread(32, |piece| {
        let mut random = Random::new(302_000 + piece as u64);
        for rows in rows.into_iter().chain(more) {
            for _ in 0..seeds {
                let (seed, size) = (some_seed(&mut random), [rows, piece + 1]);
                check_size(functions, report, seed, size, *random.pick(&Fill::ALL));
            }
        }
    });
}

/// All pairs of up to so many rows and events, with seeds at the ends.
fn small_sizes(functions: &dyn Direct, report: Report, rows: usize, events: usize) {
    for rows in 1..=rows {
        for events in 1..=events {
            for (number, seed) in [1, 2, u32::MAX, 0x8000_0000].into_iter().enumerate() {
                let fill = Fill::ALL[(rows + events + number) % 3];
                check_size(functions, report, seed, [rows, events], fill);
            }
        }
    }
}

/// Many seeds, or each so many of them: each bit alone, each bit missing, the first
/// ones, the last ones, and random ones.
fn many_seeds(functions: &dyn Direct, report: Report, step: usize) {
    let mut random = Random::new(303_000);
    let mut seeds: Vec<u32> = (0..32).flat_map(|bit| [1 << bit, !(1 << bit)]).collect();
    seeds.extend((1..=300).flat_map(|seed| [seed, seed << 16, !seed]));
    seeds.extend((0..1_000).map(|_| some_seed(&mut random)));
    for (number, seed) in seeds.into_iter().enumerate().step_by(step) {
        for size in [[5, 1], [9, 3], [31, 2], [64, 1]] {
            check_size(functions, report, seed, size, Fill::ALL[number % 3]);
        }
    }
}

/// Every mixture of lengths about the named ones, in every fill.
fn lent_lengths(functions: &dyn Direct, report: Report) {
    for (size, seed) in [([1, 1], 5), ([8, 1], 6), ([9, 2], 7), ([17, 32], 8), ([130, 3], 9)] {
        let [cells, marks] = named(size);
        let lengths =
            |named: usize| [0, 1, named / 2, named - 1, named, named + 1, named + 63, 65_536];
        for lent in lengths(cells).into_iter().flat_map(|c| lengths(marks).map(|m| [c, m])) {
            let short = lent[0] < cells || lent[1] < marks;
            let answer = if short { TOO_SHORT } else { DRAWN };
            for fill in Fill::ALL {
                let call = generate(seed, size, lent, fill);
                report(expect(functions, &Own::default(), &call, answer));
            }
        }
    }
}

#[test]
fn every_row_count() {
    on_product("loads of every row count", |f, report| all_rows(f, report, 1));
}

#[test]
fn every_event_count() {
    on_product("loads of every event count", |f, report| all_events(f, report, 2));
}

#[test]
fn every_small_size() {
    on_product("loads of every small size", |f, report| small_sizes(f, report, 40, 32));
}

#[test]
fn seeds_of_every_kind() {
    on_product("loads of seeds of every kind", |f, report| many_seeds(f, report, 1));
}

#[test]
fn lent_buffers_of_every_length() {
    on_product("loads in lent buffers of every length", lent_lengths);
}

// (c) Refusals.

/// Sizes, seeds and lengths that break no rule, one or several: "17, the seed is 0;
/// after 2. Short cells or mark bytes give 7, last."
fn refusals(functions: &dyn Direct, report: Report) {
    // Also those that are right in their low 16 or 32 bits, and the greatest.
    let large = |small: usize| [1 << 16, 1 << 32, 1 << 63].map(|high: usize| high + small);
    let mut rows = vec![0, 1, 4, 9, 1024, 1025, 1026, 2048, 65_535, usize::MAX];
    rows.extend([large(0), large(4), large(1024)].concat());
    let mut events = vec![0, 1, 32, 33, 34, 64, 255, 65_535, usize::MAX];
    events.extend([large(0), large(1), large(32)].concat());
    let sizes = rows.iter().flat_map(|&rows| events.iter().map(move |&events| [rows, events]));
    for (number, size) in sizes.enumerate() {
        let [rows_wrong, events_wrong] =
            [size[0] == 0 || size[0] > 1024, size[1] == 0 || size[1] > 32];
        // Of a wrong size nothing is named: what a right one would need, and nothing.
        let known = [if rows_wrong { 4 } else { size[0] }, if events_wrong { 1 } else { size[1] }];
        let [cells, marks] = named(known);
        for seed in [0, 1, 0x8000_0000] {
            for lent in [
                [cells, marks],
                [cells + 9, marks + 9],
                [cells - 1, marks],
                [cells, marks - 1],
                [0; 2],
            ] {
                let rule = match () {
                    _ if rows_wrong => 1,
                    _ if events_wrong => 2,
                    _ if seed == 0 => 17,
                    _ if lent[0] < cells || lent[1] < marks => 7,
                    _ => 0,
                };
                let call = generate(seed, size, lent, Fill::ALL[number % 3]);
                report(expect(functions, &Own::default(), &call, [rule, 0, 0, 0]));
            }
        }
    }
}

#[test]
fn wrong_sizes_and_seeds() {
    on_product("loads refused", refusals);
}

// (d) "Every such table is accepted by the reducer".

/// A table as the functions draw it goes to their reducer under some masks, in both
/// ways, which give what the own rules give. Where a buffer is too short 7 is the
/// answer, so no other rule is broken.
fn check_accepted(functions: &dyn Direct, report: Report, random: &mut Random, size: [usize; 2]) {
    let own = Own::default();
    let drawn = generate(some_seed(random), size, named(size), Fill::Pattern).by(functions);
    let [rows, events] = size;
    let given = Numbers { rows, events, start: 0, cells: drawn.cells, marks: drawn.marks };
    for mask in [shapes::mask(random, events), shapes::mask(random, events)] {
        let offset = *random.pick(&[0, 1, 2, rows as u32 / 2, rows as u32, 65_536]);
        let expect = |change: fn(&mut Lengths), rule: usize| {
            let call = |way| {
                let mut lent = Lengths::named(way, rows, events);
                change(&mut lent);
                let asked = Asked::Reduce(Task { way, offset, mask, given: given.clone() });
                Call { asked, lent, fill: Fill::Pattern }
            };
            both_ways(functions, &own, report, call, |_, answer| answer[0] == rule);
        };
        expect(|_| {}, 0);
        expect(|lent| lent.cells -= 1, 7);
        expect(|lent| lent.marks -= 1, 7);
        expect(|lent| lent.scratch -= 1, 7);
        expect(|lent| *lent = Lengths { cells: 0, marks: 0, scratch: 0 }, 7);
    }
}

fn accepted(functions: &dyn Direct, report: Report, part: usize) {
    // Smallest and largest rows, smallest and largest events, tables.
    let kinds = [
        ([1, 8], [1, 4], 600),
        ([1, 40], [1, 32], 600),
        ([41, 128], [1, 6], 200),
        ([129, 400], [1, 3], 16),
        ([1024, 1024], [1, 2], 1),
    ];
    for (kind, (rows, events, tables)) in kinds.into_iter().enumerate() {
        spread(tables / part, |piece| {
            let mut random = Random::new(310_000 + 1_000 * kind as u64 + piece as u64);
            let size = [random.between(rows[0], rows[1]), random.between(events[0], events[1])];
            check_accepted(functions, report, &mut random, size);
        });
    }
}

#[test]
fn every_load_is_accepted_by_the_reducer() {
    on_product("loads given to the reducer in both ways", |f, report| accepted(f, report, 1));
}

/// The same of the own loads, by the rules alone: [`load`] makes no table that is not
/// sound, and what it draws has targets of the named kind.
#[test]
fn loads_are_sound() {
    let mut random = Random::new(316_000);
    let mut tried = 0;
    for rows in 1..=1024 {
        let events = random.between(1, 4);
        let table = load(some_seed(&mut random), rows, events).unwrap();
        assert!(table.is_sound() && table.start == 0);
        for (cell, &target) in table.targets.iter().enumerate() {
            let row = cell / events;
            assert!(row >= rows / 4 || target > row, "{rows} rows, cell {cell}");
        }
        tried += 1;
    }
    println!("own loads: {tried} tables are sound");
}

// (e) "no two states step to the same state".

/// The rank of a step that is linear over xor: how many of the words that it makes of
/// the 32 bits are no xor of others. (Each of these is kept without the highest bits
/// of those before it.)
fn rank(step: impl Fn(u32) -> u32) -> usize {
    let mut words: Vec<u32> = Vec::new();
    for bit in 0..32 {
        let word = words.iter().fold(step(1 << bit), |word, known| word.min(word ^ known));
        if word != 0 {
            words.push(word);
        }
    }
    words.len()
}

/// If the step is linear over xor and has rank 32, two states that step to the same
/// differ by one that steps to 0, and that is 0 alone.
#[test]
fn no_two_states_step_to_the_same() {
    assert_eq!(rank(step), 32);
    // The rank tells a step that is not so.
    assert_eq!(rank(|state| state << 13), 19);
    assert_eq!(rank(|state| step(state) & !0x400), 31);
    assert_eq!(rank(|state| state ^ state.rotate_left(1)), 31);
    assert_eq!(rank(|state| state ^ state), 0);

    assert_eq!(step(0), 0);
    let mut random = Random::new(317_000);
    let mut states: Vec<u32> = (1..=200_000).flat_map(|low| [low, !low]).collect();
    states.extend((0..600_000).map(|_| some_seed(&mut random)));
    for &state in &states {
        let other = random.bits() as u32;
        assert_eq!(step(state ^ other), step(state) ^ step(other), "not linear at {state:x}");
        assert_ne!(step(state), 0, "{state:x} steps to 0");
    }
    states.sort();
    states.dedup();
    let mut steps: Vec<u32> = states.iter().map(|&state| step(state)).collect();
    steps.sort();
    steps.dedup();
    assert_eq!(steps.len(), states.len(), "two states step to the same");
    println!("steps: rank 32, {} states step to as many", states.len());
}

// (f) The self-test: spoiled generators are found by the checks above.

#[test]
fn faults_are_found() {
    find("loads", &GENERATOR_FAULTS, |functions, report| {
        all_rows(functions, report, 170);
        small_sizes(functions, report, 9, 3);
        many_seeds(functions, report, 20);
        lent_lengths(functions, report);
        refusals(functions, report);
    });
}
