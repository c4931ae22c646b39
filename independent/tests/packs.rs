//! (g) Request 102, "Packs sent by radio". For each table or list of tables:
//! - the product writes the radio image or the pack that radio.rs writes;
//! - it reads this back as the tables it was made from, and rewrites it
//!   identically;
//! - lent buffers one shorter than named give 7, longer ones are untouched beyond.
//!
//! For wrong arguments, damaged images and packs (damage.rs) and random bytes:
//! the product refuses what radio.rs refuses, every lent buffer is unchanged, and
//! what it does not refuse it rewrites identically.

use independent::calls::{compare, own_image, own_pack, pack_length, Call, Numbers, Outcome};
use independent::damage::{Answers, Inputs};
use independent::faulty::{Faulty, FAULTS, NO_FAULT};
use independent::parallel::{spread, Counter};
use independent::product::Product;
use independent::radio::{read_image, read_tables, Answer, Functions};
use independent::random::Random;
use independent::shapes::{near, table, Shape, SHAPES};
use independent::small::{all_reached_tables, all_tables};
use independent::table::Table;
use std::sync::Mutex;

/// What is done with the answer to one input: a refusal's number, 0 where there
/// is none, or what is wrong.
type Report<'a> = &'a (dyn Fn(Result<usize, String>) + Sync);

/// Tries inputs on the product, stops at a fault, and shows the answers.
fn product(what: &str, inputs: impl Fn(&dyn Functions, Report)) {
    let answers = Answers::default();
    inputs(&Product, &|answer| answers.count(answer));
    answers.show(what, "taken");
}

/// The comparison with radio.rs, and the very answer as a test knows it.
fn expect(functions: &dyn Functions, call: Call, answer: Answer) -> Result<Outcome, String> {
    let left = compare(functions, &call)?;
    if left.answer != answer {
        return Err(format!("answered {:?}, by the test {answer:?}: {call}", left.answer));
    }
    Ok(left)
}

const TOO_SHORT: Answer = [7, 0, 0, 0];

/// A radio image, sound or not.
fn check_image(functions: &dyn Functions, image: &[u8]) -> Result<usize, String> {
    let read = |cells, marks| Call::ReadRadio { image: image.to_vec(), cells, marks };
    let Ok(table) = read_image(image) else {
        // 7 is judged last: nothing lent is as good as much.
        let much = compare(functions, &read(image.len() + 3, image.len() + 3))?.answer;
        return expect(functions, read(0, 0), much).map(|left| left.answer[0]);
    };
    let (rows, events, start) = (table.rows, table.events, table.start);
    let (cells, marks) = (rows * events, rows.div_ceil(8));
    expect(functions, read(cells + 5, marks + 3), [0, rows, events, start])?;
    expect(functions, read(cells - 1, marks), TOO_SHORT)?;
    expect(functions, read(cells, marks - 1), TOO_SHORT)?;
    expect(functions, read(0, 0), TOO_SHORT)?;
    let left = expect(functions, read(cells, marks), [0, rows, events, start])?;
    let given = Numbers { rows, events, start, cells: left.cells, marks: left.marks };
    let again = Call::WriteRadio { given, out: image.len() };
    if expect(functions, again.clone(), [0, image.len(), 0, 0])?.out != image {
        return Err(format!("the image is rewritten as another: {again}"));
    }
    Ok(0)
}

/// The radio image by document 01's image: "sections as now, but each target is a
/// signed byte, target minus own row".
fn from_plain_image(table: &Table) -> Vec<u8> {
    let plain = table.image();
    let (before, rest) = plain.split_at(2 + table.rows.div_ceil(8) + 2);
    let (targets, start) = rest.split_at(rest.len() - 4);
    let steps = targets.chunks(2).enumerate().map(|(cell, two)| {
        let step = i16::from_le_bytes([two[0], two[1]]) - (cell / table.events) as i16;
        i8::try_from(step).unwrap() as u8
    });
    before.iter().copied().chain(steps).chain(start.iter().copied()).collect()
}

/// A table whose steps are in reach.
fn check_table(functions: &dyn Functions, table: &Table) -> Result<usize, String> {
    let given = Numbers::of(table);
    let image = from_plain_image(table);
    let length = image.len();
    let write = |out| Call::WriteRadio { given: given.clone(), out };
    expect(functions, write(length + 9), [0, length, 0, 0])?;
    expect(functions, write(length - 1), TOO_SHORT)?;
    expect(functions, write(0), TOO_SHORT)?;
    if expect(functions, write(length), [0, length, 0, 0])?.out != image {
        return Err(format!("not the image by the plain one: {}", write(length)));
    }
    let read = Call::ReadRadio {
        image: image.clone(),
        cells: given.cells.len(),
        marks: given.marks.len(),
    };
    let left = read.by(functions);
    if left.answer != [0, table.rows, table.events, table.start]
        || left.cells != given.cells
        || left.marks != given.marks
    {
        return Err(format!("not read back as the table it was made from: {read}"));
    }
    check_image(functions, &image)
}

/// A pack, sound or not.
fn check_pack(functions: &dyn Functions, pack: &[u8]) -> Result<usize, String> {
    let read = |list, cells, marks| Call::ReadPack { pack: pack.to_vec(), list, cells, marks };
    let Ok(tables) = read_tables(pack) else {
        // 7 is judged last: nothing lent is as good as much.
        let much = compare(functions, &read(52, pack.len() + 3, pack.len() + 3))?.answer;
        return expect(functions, read(0, 0, 0), much).map(|left| left.answer[0]);
    };
    let count = tables.len();
    let right: Vec<Numbers> = tables.iter().map(Numbers::of).collect();
    let cells: usize = right.iter().map(|table| table.cells.len()).sum();
    let marks: usize = right.iter().map(|table| table.marks.len()).sum();
    expect(functions, read(3 * count + 4, cells + 5, marks + 3), [0, count, 0, 0])?;
    expect(functions, read(3 * count - 1, cells, marks), TOO_SHORT)?;
    expect(functions, read(3 * count, cells - 1, marks), TOO_SHORT)?;
    expect(functions, read(3 * count, cells, marks - 1), TOO_SHORT)?;
    expect(functions, read(3 * count, right[0].cells.len() - 1, marks), TOO_SHORT)?;
    expect(functions, read(0, 0, 0), TOO_SHORT)?;
    let left = expect(functions, read(3 * count, cells, marks), [0, count, 0, 0])?;
    let Outcome { list, cells, marks, .. } = left;
    let again = Call::WritePack { list, cells, marks, out: pack.len() };
    if expect(functions, again.clone(), [0, pack.len(), 0, 0])?.out != pack {
        return Err(format!("the pack is rewritten as another: {again}"));
    }
    Ok(0)
}

/// One to sixteen tables whose steps are in reach.
fn check_tables(functions: &dyn Functions, tables: &[Table]) -> Result<usize, String> {
    let given: Vec<Numbers> = tables.iter().map(Numbers::of).collect();
    let length = pack_length(&given);
    let write = |out| Call::write_pack(&given, out);
    expect(functions, write(length + 9), [0, length, 0, 0])?;
    expect(functions, write(length - 1), TOO_SHORT)?;
    expect(functions, write(length - 2), TOO_SHORT)?;
    expect(functions, write(0), TOO_SHORT)?;
    let pack = expect(functions, write(length), [0, length, 0, 0])?.out;
    let images = tables.iter().flat_map(from_plain_image);
    if ![tables.len() as u8, 0].into_iter().chain(images).eq(pack.iter().copied()) {
        return Err(format!("not a count and the images one after another: {}", write(length)));
    }
    let Call::WritePack { list, cells, marks, .. } = write(length) else { unreachable!() };
    let read = Call::ReadPack {
        pack: pack.clone(),
        list: list.len(),
        cells: cells.len(),
        marks: marks.len(),
    };
    let left = read.by(functions);
    if left.answer != [0, tables.len(), 0, 0]
        || left.list != list
        || left.cells != cells
        || left.marks != marks
    {
        return Err(format!("not read back as the tables it was made from: {read}"));
    }
    check_pack(functions, &pack)
}

/// A random table whose steps are in reach.
fn some_table(random: &mut Random, rows: [usize; 2], events: [usize; 2]) -> Table {
    let rows = random.between(rows[0], rows[1]);
    let events = random.between(events[0], events[1]);
    let &shape = random.pick(&SHAPES);
    let free = table(random, shape, rows, events);
    near(random, &free)
}

// (a) Radio images.

/// The tables of small.rs: all of 1 to 3 rows and 1 to 2 events, all of 4 rows
/// and 1 event, and those of 4 rows and 2 events in which all rows are reached.
#[test]
fn radio_images_of_small_tables() {
    product("radio images of small tables", |functions, report| {
        let check = |given: &Table| report(check_table(functions, given));
        for (rows, events) in [(1, 1), (2, 1), (3, 1), (4, 1), (1, 2), (2, 2), (3, 2), (4, 2)] {
            match (rows, events) {
                (4, 2) => all_reached_tables(rows, events, 10_000, check),
                _ => all_tables(rows, events, check),
            };
        }
    });
}

fn larger_tables(functions: &dyn Functions, report: Report, part: usize) {
    // Smallest and largest rows, smallest and largest events, tables.
    let kinds = [
        ([1, 12], [1, 4], 3_000),
        ([7, 17], [1, 3], 2_000),
        ([13, 128], [1, 8], 2_000),
        ([127, 131], [1, 4], 2_000),
        ([129, 300], [1, 3], 2_000),
        ([301, 1024], [1, 4], 1_000),
        ([1000, 1024], [1, 32], 100),
        ([1024, 1024], [32, 32], 8),
    ];
    for (kind, (rows, events, tables)) in kinds.into_iter().enumerate() {
        spread(tables / part, |piece| {
            let mut random = Random::new(80_000 + 10_000 * kind as u64 + piece as u64);
            report(check_table(functions, &some_table(&mut random, rows, events)));
        });
    }
}

#[test]
fn radio_images_of_larger_tables() {
    product("radio images of larger tables, up to 1,024 rows and 32 events", |f, report| {
        larger_tables(f, report, 1)
    });
}

/// One cell's step at the end of the reach, or just beyond: "14 (writer), a step
/// outside −128 to 127, place the first such cell".
fn ends_of_reach(functions: &dyn Functions, report: Report) {
    for (rows, events) in [(128, 1), (129, 1), (130, 2), (200, 3), (257, 1), (1024, 1)] {
        let mut random = Random::new(180_000 + rows as u64);
        let given = some_table(&mut random, [rows, rows], [events, events]);
        for cell in 0..rows * events {
            for step in [-1023, -257, -256, -129, -128, -127, 127, 128, 255, 256, 1023] {
                let target = (cell / events) as i32 + step;
                if target < 0 || target >= rows as i32 {
                    continue;
                }
                let mut changed = given.clone();
                changed.targets[cell] = target as usize;
                if (-128..=127).contains(&step) {
                    report(check_table(functions, &changed));
                    continue;
                }
                // Beyond the reach; then again with another target in some cell
                // after it, beyond the reach too or not.
                for _ in 0..2 {
                    for out in [0, rows.div_ceil(8) + rows * events + 8] {
                        let call = Call::WriteRadio { given: Numbers::of(&changed), out };
                        report(expect(functions, call, [14, cell, 0, 0]).map(|_| 14));
                    }
                    let after = random.between(cell, rows * events - 1);
                    let row = after / events;
                    changed.targets[after] = if row > 128 { row - 129 } else { rows - 1 };
                    if after == cell {
                        changed.targets[cell] = target as usize;
                    }
                }
            }
        }
    }
}

#[test]
fn steps_at_the_ends_of_reach() {
    product("steps at the ends of reach and beyond", ends_of_reach);
}

/// Something wrong with a table: the rule that it breaks, and how; that answers
/// the place, or nothing where it cannot be done to this table.
type Wrong = (usize, fn(&mut Numbers) -> Option<usize>);

/// Done to one table, those farther down come first: so a start or a target is
/// made of the right row count.
const WRONG: [Wrong; 21] = [
    (1, |t| set(&mut t.rows, 0)),
    (1, |t| set(&mut t.rows, 1025)),
    (1, |t| set(&mut t.rows, 65_535)),
    (2, |t| set(&mut t.events, 0)),
    (2, |t| set(&mut t.events, 33)),
    (2, |t| set(&mut t.events, 65_535)),
    (3, |t| t.cells.pop().map(|_| 0)),
    (3, |t| t.marks.pop().map(|_| 0)),
    (3, |t| {
        t.cells.push(0);
        Some(0)
    }),
    (3, |t| {
        t.marks.push(0);
        Some(0)
    }),
    (4, |t| set(&mut t.start, t.rows)),
    (4, |t| set(&mut t.start, 65_535)),
    (5, |t| {
        t.cells[0] = t.rows as u16;
        Some(0)
    }),
    (5, |t| {
        let last = t.cells.len() - 1;
        t.cells[last] = t.rows as u16;
        Some(last)
    }),
    (5, |t| {
        let middle = t.cells.len() / 2;
        t.cells[middle] = 65_535;
        Some(middle)
    }),
    (6, |t| spare_bit(t, t.rows % 8)),
    (6, |t| spare_bit(t, 7)),
    (14, |t| out_of_reach(t, 0)),
    (14, |t| out_of_reach(t, t.cells.len() / 3)),
    (14, |t| out_of_reach(t, t.cells.len() * 3 / 4)),
    (14, |t| out_of_reach(t, t.cells.len() - 1)),
];

fn set(number: &mut usize, value: usize) -> Option<usize> {
    *number = value;
    Some(0)
}

fn spare_bit(table: &mut Numbers, bit: usize) -> Option<usize> {
    if table.rows % 8 == 0 {
        return None;
    }
    *table.marks.last_mut()? |= 1 << bit;
    Some(0)
}

/// A target 128 rows after the cell's own row, or 129 before it.
fn out_of_reach(table: &mut Numbers, cell: usize) -> Option<usize> {
    let row = cell / table.events;
    let target = if row + 128 < table.rows { row + 128 } else { row.checked_sub(129)? };
    table.cells[cell] = target as u16;
    Some(cell)
}

/// Tables with up to two things wrong, of the tables at these numbers: the changed
/// tables, and the answer. By the request the first to be judged are 1 and 2 table
/// by table, then 3 once, then 4, 5, 6 and 14 table by table. (Of two breaches of 3
/// one may make up for the other: then the answer is not known here.)
fn with_wrongs(
    most: usize,
    tables: &[Numbers],
    numbers: &[usize],
    test: impl Fn(&[Numbers], Option<Answer>),
) {
    let all: Vec<(usize, usize)> = (0..WRONG.len())
        .rev()
        .flat_map(|wrong| numbers.iter().map(move |&number| (wrong, number)))
        .collect();
    for (at, &one) in all.iter().enumerate() {
        for &other in all[at..].iter().take(if most == 1 { 1 } else { all.len() }) {
            let mut changed = tables.to_vec();
            let mut broken = Vec::new();
            let both = if one == other { vec![one] } else { vec![one, other] };
            for (wrong, number) in both {
                let (rule, change) = WRONG[wrong];
                let Some(place) = change(&mut changed[number]) else { continue };
                broken.push(match rule {
                    1 | 2 => (1, number, rule, place),
                    3 => (2, 0, rule, place),
                    _ => (3, number, rule, place),
                });
            }
            let only_lengths = broken.len() > 1 && broken.iter().all(|breach| breach.2 == 3);
            let Some(&(_, _, rule, place)) = broken.iter().min() else { continue };
            test(&changed, (!only_lengths).then_some([rule, place, 0, 0]));
        }
    }
}

/// The comparison, and the answer where the test knows it.
fn check_call(
    functions: &dyn Functions,
    call: Call,
    answer: Option<Answer>,
) -> Result<usize, String> {
    match answer {
        Some(answer) => expect(functions, call, answer),
        None => compare(functions, &call),
    }
    .map(|left| left.answer[0])
}

fn wrong_arguments_by_radio(functions: &dyn Functions, report: Report) {
    let mut random = Random::new(181_000);
    for (rows, events) in [(1, 1), (3, 1), (8, 2), (9, 2), (130, 1), (259, 3), (1024, 2)] {
        let given = Numbers::of(&some_table(&mut random, [rows, rows], [events, events]));
        let length = given.image_length();
        with_wrongs(2, &[given.clone()], &[0], |changed, answer| {
            for out in [length + 1, 0] {
                let call = Call::WriteRadio { given: changed[0].clone(), out };
                report(check_call(functions, call, answer));
            }
        });
        // Numbers that are right in their low 16 or 32 bits, and the greatest.
        let large = |change: &dyn Fn(&mut Numbers), rule: usize| {
            let mut changed = given.clone();
            change(&mut changed);
            let call = Call::WriteRadio { given: changed, out: length };
            report(check_call(functions, call, Some([rule, 0, 0, 0])));
        };
        for more in [1 << 16, 1 << 32, 1 << 63] {
            large(&|t| t.rows += more, 1);
            large(&|t| t.events += more, 2);
            large(&|t| t.start += more, 4);
        }
        large(&|t| t.rows = usize::MAX, 1);
        large(&|t| t.events = usize::MAX, 2);
        large(&|t| t.start = usize::MAX, 4);
        large(&|t| t.cells.resize(t.cells.len() + 65_536, 0), 3);
        large(&|t| t.marks.resize(t.marks.len() + 65_536, 0), 3);
        large(&|t| t.cells.clear(), 3);
        large(&|t| t.marks.clear(), 3);
    }
}

#[test]
fn wrong_arguments_of_the_radio_writer() {
    product("wrong arguments of the radio writer", wrong_arguments_by_radio);
}

#[test]
fn damaged_radio_images() {
    product("damaged radio images", |functions, report| {
        let check = |image: &[u8]| report(check_image(functions, image));
        Inputs::OfRadio.single_bytes(check);
        Inputs::OfRadio.cut_and_extended(check);
        Inputs::OfRadio.wrong_and_extended(check);
        Inputs::OfRadio.several_bytes(check);
    });
}

/// Some values to which a byte is changed: a neighbour, and ends of a step.
fn other_values(byte: u8) -> impl Iterator<Item = u8> {
    [byte.wrapping_add(1), byte ^ 128, 127, 128, 255].into_iter().filter(move |&v| v != byte)
}

/// Larger images cut at each length, with each byte changed, and extended.
#[test]
fn larger_radio_images_damaged() {
    product("larger radio images damaged", |functions, report| {
        for (rows, events) in [(64, 3), (129, 1), (130, 4), (300, 2), (1024, 1)] {
            let mut random = Random::new(182_000 + rows as u64);
            let given = some_table(&mut random, [rows, rows], [events, events]);
            let image = own_image(&given);
            spread(image.len(), |place| {
                let cut = image[..place].to_vec();
                let call = Call::ReadRadio { image: cut, cells: rows * events, marks: rows };
                report(check_call(functions, call, Some([8, place, 0, 0])));
                for value in other_values(image[place]) {
                    let mut changed = image.clone();
                    changed[place] = value;
                    report(check_image(functions, &changed));
                }
            });
            for more in [1, 2, 256, 65_536] {
                let mut longer = image.clone();
                longer.resize(image.len() + more, 0);
                let call = Call::ReadRadio { image: longer, cells: 0, marks: 0 };
                report(check_call(functions, call, Some([10, 0, 0, 0])));
            }
        }
        // The largest image, 32,904 bytes: here and there.
        let mut random = Random::new(183_000);
        let given = some_table(&mut random, [1024, 1024], [32, 32]);
        let image = own_image(&given);
        assert_eq!(image.len(), 32_904);
        let ends = (0..140).chain(image.len() - 12..image.len());
        for place in ends.chain((0..200).map(|_| random.below(image.len()))) {
            let cut = image[..place].to_vec();
            let call = Call::ReadRadio { image: cut, cells: 32_768, marks: 128 };
            report(check_call(functions, call, Some([8, place, 0, 0])));
            for value in other_values(image[place]).take(2) {
                let mut changed = image.clone();
                changed[place] = value;
                report(check_image(functions, &changed));
            }
        }
    });
}

#[test]
fn random_bytes_by_radio() {
    product("random bytes as radio images", |functions, report| {
        let check = |image: &[u8]| report(check_image(functions, image));
        Inputs::OfRadio.random_bytes(check);
        Inputs::OfRadio.long(check);
    });
}

// (b) Packs.

fn packs(functions: &dyn Functions, report: Report, part: usize) {
    // Fewest and most tables, smallest and largest rows and events, packs.
    let kinds = [
        ([1, 3], [1, 4], [1, 2], 3_000),
        ([1, 16], [1, 12], [1, 4], 2_000),
        ([1, 16], [7, 17], [1, 3], 2_000),
        ([16, 16], [1, 20], [1, 3], 500),
        ([1, 16], [1, 128], [1, 8], 400),
        ([2, 6], [120, 300], [1, 3], 400),
        ([1, 16], [1, 1024], [1, 32], 16),
        ([16, 16], [1024, 1024], [32, 32], 1),
    ];
    for (kind, (count, rows, events, packs)) in kinds.into_iter().enumerate() {
        spread(packs / part, |piece| {
            let mut random = Random::new(190_000 + 10_000 * kind as u64 + piece as u64);
            let count = random.between(count[0], count[1]);
            let tables: Vec<Table> =
                (0..count).map(|_| some_table(&mut random, rows, events)).collect();
            report(check_tables(functions, &tables));
        });
    }
}

#[test]
fn packs_of_tables() {
    product("packs of 1 to 16 tables, up to 1,024 rows and 32 events", |functions, report| {
        packs(functions, report, 1)
    });
}

fn wrong_arguments_in_packs(functions: &dyn Functions, report: Report, part: usize) {
    let mut random = Random::new(280_000);
    // The rows and events of each pack's tables.
    let sizes: [&[(usize, usize)]; 6] = [
        &[(1, 1)],
        &[(131, 2)],
        &[(3, 1), (9, 2)],
        &[(130, 1), (3, 2), (263, 1)],
        &[(9, 3), (141, 1), (131, 2), (5, 1), (130, 1)],
        &[(9, 1); 16],
    ];
    for sizes in sizes.into_iter().rev().step_by(part) {
        let count = sizes.len();
        let mut numbers = vec![0, count / 2, count - 1];
        numbers.dedup();
        let tables: Vec<Numbers> = sizes
            .iter()
            .map(|&(rows, events)| some_table(&mut random, [rows, rows], [events, events]))
            .map(|table| Numbers::of(&table))
            .collect();
        let length = pack_length(&tables);
        with_wrongs(2, &tables, &numbers, |changed, answer| {
            for out in [length + 1, 0] {
                report(check_call(functions, Call::write_pack(changed, out), answer));
            }
        });
        with_wrongs(1, &tables, &numbers, |changed, answer| {
            wrong_lists(functions, report, changed, answer);
            // No cells or no mark bytes: not enough for the first table alone.
            let Call::WritePack { list, cells, marks, .. } = Call::write_pack(changed, 0) else {
                unreachable!()
            };
            for (cells, marks) in [(vec![], marks), (cells, vec![])] {
                let answer = match answer {
                    Some([1 | 2, ..]) => answer,
                    _ => Some([3, 0, 0, 0]),
                };
                let call = Call::WritePack { list: list.clone(), cells, marks, out: length };
                report(check_call(functions, call, answer));
            }
        });
        wrong_lists(functions, report, &tables, None);

        let large = |change: &dyn Fn(&mut Vec<u16>, &mut Vec<u16>, &mut Vec<u8>), rule| {
            let call = Call::write_pack(&tables, length);
            let Call::WritePack { mut list, mut cells, mut marks, out } = call else {
                unreachable!()
            };
            change(&mut list, &mut cells, &mut marks);
            let call = Call::WritePack { list, cells, marks, out };
            report(check_call(functions, call, Some([rule, 0, 0, 0])));
        };
        large(&|_, cells, _| cells.resize(cells.len() + 65_536, 0), 3);
        large(&|_, _, marks| marks.resize(marks.len() + 65_536, 0), 3);
        large(&|_, cells, _| cells.clear(), 3);
        large(&|_, _, marks| marks.clear(), 3);
        large(&|list, _, _| list.resize(list.len() + 3 * 65_536, 1), 15);
        large(&|list, _, _| list.clear(), 15);
    }
}

/// Tables, sound or not, with a list of some entries more or fewer. With the right
/// list `answer` is the answer, or none where they are sound.
fn wrong_lists(
    functions: &dyn Functions,
    report: Report,
    tables: &[Numbers],
    answer: Option<Answer>,
) {
    let Call::WritePack { list, cells, marks, .. } = Call::write_pack(tables, 0) else {
        unreachable!()
    };
    let mut lengths = vec![0, 1, 2, 3, list.len() - 1, list.len() - 2, list.len() - 3];
    lengths.extend([list.len() + 1, list.len() + 2, list.len() + 3, 48, 49, 50, 51, 52, 53, 54]);
    lengths.sort();
    lengths.dedup();
    for length in lengths {
        let mut other = list.clone();
        other.resize(length, 1);
        let known = match length / 3 {
            0 | 17.. => Some([15, 0, 0, 0]),
            count if count != tables.len() => None,
            _ if length == list.len() => answer,
            _ => match answer {
                Some([1 | 2, ..]) => answer,
                _ => Some([3, 0, 0, 0]),
            },
        };
        for out in [0, 1_000] {
            let (cells, marks) = (cells.clone(), marks.clone());
            let call = Call::WritePack { list: other.clone(), cells, marks, out };
            report(check_call(functions, call, known));
        }
    }
}

#[test]
fn wrong_arguments_of_the_pack_writer() {
    product("wrong arguments of the pack writer", |functions, report| {
        wrong_arguments_in_packs(functions, report, 1)
    });
}

/// Every count up to the last before one image, and many before none or more: "15,
/// a pack count of 0 or above 16, before the first image".
fn counts(functions: &dyn Functions, report: Report, last: usize) {
    let e = Table::new(2, 0, &[0, 0], &[true]);
    for images in [0, 1, 2, 15, 16, 17] {
        let behind = own_image(&e).repeat(images);
        for count in 0..=last {
            // Beside the first counts those with the same low byte or one bit.
            if images != 1 && count > 300 && count % 256 > 17 && !count.is_power_of_two() {
                continue;
            }
            let pack = [&(count as u16).to_le_bytes()[..], &behind].concat();
            let length = pack.len();
            let answer = match count {
                0 | 17.. => [15, 0, 0, 0],
                _ if count > images => [8, length, 0, 0],
                _ if count < images => [10, 0, 0, 0],
                _ => [0, count, 0, 0],
            };
            let call = Call::ReadPack { pack, list: 51, cells: 40, marks: 20 };
            report(check_call(functions, call, Some(answer)));
        }
    }
    // The least packs: no count, a part of it, nothing behind it.
    for pack in [vec![], vec![0], vec![1], vec![255]] {
        let answer = [8, pack.len(), 0, 0];
        for lent in [0, 40] {
            let call = Call::ReadPack { pack: pack.clone(), list: lent, cells: lent, marks: lent };
            report(check_call(functions, call, Some(answer)));
        }
    }
}

#[test]
fn counts_of_packs() {
    product("packs with each count", |functions, report| counts(functions, report, 65_535));
}

#[test]
fn damaged_packs() {
    product("damaged packs", |functions, report| {
        let check = |pack: &[u8]| report(check_pack(functions, pack));
        Inputs::OfPack.single_bytes(check);
        Inputs::OfPack.cut_and_extended(check);
        Inputs::OfPack.wrong_and_extended(check);
        Inputs::OfPack.several_bytes(check);
    });
}

/// Larger packs cut at each length, with each byte changed, and extended.
#[test]
fn larger_packs_damaged() {
    product("larger packs damaged", |functions, report| {
        let sizes: [&[(usize, usize)]; 4] = [
            &[(130, 2), (300, 1), (17, 3)],
            &[(1024, 1), (1, 1), (500, 1)],
            &[(64, 2); 5],
            &[(20, 3); 16],
        ];
        for (number, sizes) in sizes.into_iter().enumerate() {
            let mut random = Random::new(281_000 + number as u64);
            let tables: Vec<Table> = sizes
                .iter()
                .map(|&(rows, events)| some_table(&mut random, [rows, rows], [events, events]))
                .collect();
            let pack = own_pack(&tables.iter().collect::<Vec<_>>());
            spread(pack.len(), |place| {
                let cut = pack[..place].to_vec();
                for lent in [0, 2_000] {
                    let call =
                        Call::ReadPack { pack: cut.clone(), list: lent, cells: lent, marks: lent };
                    report(check_call(functions, call, Some([8, place, 0, 0])));
                }
                for value in other_values(pack[place]) {
                    let mut changed = pack.clone();
                    changed[place] = value;
                    report(check_pack(functions, &changed));
                }
            });
            for more in [1, 2, 11, 256, 65_536] {
                for value in [0, 1, 255] {
                    let mut longer = pack.clone();
                    longer.resize(pack.len() + more, value);
                    let call = Call::ReadPack { pack: longer, list: 0, cells: 0, marks: 0 };
                    report(check_call(functions, call, Some([10, 0, 0, 0])));
                }
            }
        }
    });
}

/// A pack of more than 65,535 bytes, cut here and there, and with the last step of
/// its last table off the table.
fn long_pack(functions: &dyn Functions, report: Report) {
    let mut random = Random::new(283_000);
    let tables = [(); 3].map(|_| some_table(&mut random, [1024, 1024], [32, 32]));
    let mut pack = own_pack(&tables.iter().collect::<Vec<_>>());
    assert_eq!(pack.len(), 2 + 3 * 32_904);
    for length in [pack.len() - 1, pack.len() - 4, 2 + 2 * 32_904, 65_537, 65_536, 65_535, 33_000] {
        let cut = pack[..length].to_vec();
        let call = Call::ReadPack { pack: cut, list: 9, cells: 98_304, marks: 384 };
        report(check_call(functions, call, Some([8, length, 0, 0])));
    }
    let last = pack.len() - 5;
    pack[last] = 1;
    let call = Call::ReadPack { pack, list: 9, cells: 98_304, marks: 384 };
    report(check_call(functions, call, Some([5, 32_767, 0, 0])));
}

#[test]
fn long_packs_damaged() {
    product("a long pack damaged", long_pack);
}

#[test]
fn random_bytes_as_packs() {
    product("random bytes as packs", |functions, report| {
        let check = |pack: &[u8]| report(check_pack(functions, pack));
        Inputs::OfPack.random_bytes(check);
        Inputs::OfPack.long(check);
    });
}

// (c) The self-test: faulty functions are found by the checks above.

/// Inputs of the kinds above, fewer of each: those by which faults in writing are
/// seen, those by which faults in reading are seen, or both.
fn some_of_all(functions: &dyn Functions, report: Report, writing: bool, reading: bool) {
    larger_tables(functions, report, 100);
    packs(functions, report, 100);
    let mut random = Random::new(282_000);
    for (rows, events) in [(1024, 1), (130, 2), (300, 1)] {
        let free = table(&mut random, Shape::Free, rows, events);
        report(check_table(functions, &near(&mut random, &free)));
    }
    if writing {
        wrong_arguments_by_radio(functions, report);
        wrong_arguments_in_packs(functions, report, 2);
    }
    if reading {
        counts(functions, report, 600);
        long_pack(functions, report);
        let image = |image: &[u8]| {
            if image.len() < 30 {
                report(check_image(functions, image));
            }
        };
        Inputs::OfRadio.cut_and_extended(image);
        Inputs::OfRadio.wrong_and_extended(image);
        let pack = |pack: &[u8]| {
            if pack.len() < 70 {
                report(check_pack(functions, pack));
            }
        };
        Inputs::OfPack.cut_and_extended(pack);
        Inputs::OfPack.wrong_and_extended(pack);
    }
}

/// Without a fault the second reading of faulty.rs is as the first; and each of its
/// faults is found.
#[test]
fn faults_are_found() {
    // How many inputs are tried with a fault, how many show it, and the first.
    let run = |fault: &'static str, writing: bool, reading: bool| {
        let (tried, found) = (Counter::default(), Mutex::new(Vec::new()));
        let report = |answer: Result<usize, String>| {
            tried.add(1);
            if let Err(what) = answer {
                found.lock().unwrap().push(what);
            }
        };
        some_of_all(&Faulty(fault), &report, writing, reading);
        let found = found.into_inner().unwrap();
        (tried.value(), found.len(), found.into_iter().next())
    };
    let (tried, _, first) = run(NO_FAULT, true, true);
    assert_eq!(first, None, "the two own readings differ");
    println!("packs, faults: none in {tried} inputs without a fault, {} faults", FAULTS.len());
    for fault in FAULTS {
        let (tried, found, _) = run(fault, fault.starts_with("write"), fault.starts_with("read"));
        println!("  {fault}: found {found} of {tried}");
        assert!(found > 0, "{fault}: not found");
    }
}
