//! (f) Request 101, "All offsets on one sheet". For each table and mask:
//! - the product prints a sheet of the table's size, offset by offset in turn
//!   (sheet.rs);
//! - every entry is the least row count: of small tables as cutter.rs finds it
//!   by brute force, of larger ones as rules.rs reduces;
//! - no entry exceeds the one before it, and the last is the count for none;
//! - the product's reducer gives a table of so many rows.
//!
//! And damaged inputs and random bytes (damage.rs): the sheet refuses what
//! table.rs refuses, and in the words in which the reducer refuses it.

use independent::cutter::{count_all, table_number, Cutter};
use independent::damage::{same, Answers, Inputs};
use independent::judge::{all_offsets, hexadecimal};
use independent::mistaken::{FAULTS, RIGHT};
use independent::parallel::{spread, Counter};
use independent::product::{reduce_text, sheet_text, Program};
use independent::random::Random;
use independent::rules;
use independent::shapes::{comb, idling, mask, with_mask, SHAPES};
use independent::sheet::{counts, falls, judge_sheet, read_sheet, sheet, text_for, Sheet};
use independent::small::{all_masks, all_tables, reached_tables};
use independent::table::{read_input, read_sheet_input, Mask, Offset, Table};

/// The two programs that are compared with each other.
#[derive(Clone, Copy)]
struct Programs<'a> {
    sheet: Program<'a>,
    reduce: Program<'a>,
}

const PRODUCT: Programs = Programs { sheet: &sheet_text, reduce: &reduce_text };

/// The own reading in the product's place, for the self-test.
const OWN: Programs = Programs {
    sheet: &|input| text_for(input).into_bytes(),
    reduce: &|input| rules::text_for(input).into_bytes(),
};

/// The reducer's first line for an input, at this offset, has the sheet's count.
fn ask(reduce: Program, input: &[u8], sheet: &Sheet, offset: Offset) -> Result<(), String> {
    let line = format!("table {} {} {}\n", sheet.count(offset), sheet.events, sheet.counted);
    if !reduce(input).starts_with(line.as_bytes()) {
        return Err(format!("the reducer does not say {line:?} of {}", hexadecimal(input)));
    }
    Ok(())
}

/// Checks the sheet of one table and mask, whose row counts must be these, and
/// asks the reducer at the offsets. Answers how many entries are below the one
/// before.
fn check(
    programs: Programs,
    given: &Table,
    mask: Mask,
    counts: &[usize],
    offsets: &[Offset],
) -> Result<usize, String> {
    let input = given.sheet_input(mask);
    let printed = (programs.sheet)(&input);
    let judged = judge_sheet(given, mask, counts, &printed).and_then(|sheet| {
        for &offset in offsets {
            ask(programs.reduce, &given.input(offset, mask), &sheet, offset)?;
        }
        falls(&printed)
    });
    judged.map_err(|what| {
        format!(
            "{what}\ntable {given:?}\nmask {mask:b}\ninput {}\nprinted:\n{}",
            hexadecimal(&input),
            String::from_utf8_lossy(&printed)
        )
    })
}

/// A small table: against brute force, and the reducer at every offset.
fn check_small(
    programs: Programs,
    cutter: &Cutter,
    given: &Table,
    mask: Mask,
) -> Result<usize, String> {
    let offsets = all_offsets(given.rows);
    check(programs, given, mask, &cutter.least(given, mask, &offsets), &offsets)
}

/// A larger table: against the rules; the reducer at the offsets to be asked
/// about. Answers also how many these are.
fn check_larger(programs: Programs, given: &Table, mask: Mask) -> Result<(usize, usize), String> {
    let counts = counts(given, mask);
    let offsets = offsets_for(given, &counts);
    check(programs, given, mask, &counts, &offsets).map(|falls| (falls, offsets.len()))
}

/// The offsets at which the reducer is asked: all up to 24 rows; of more rows
/// the ends, every offset where the count changes, and the one before it.
fn offsets_for(given: &Table, counts: &[usize]) -> Vec<Offset> {
    let last = 2 * given.rows;
    let changes = |k: usize| (1..=last).contains(&k) && counts[k] != counts[k - 1];
    let asked = |offset: &Offset| {
        offset.is_none_or(|k| {
            given.rows <= 24 || k < 2 || k + 1 >= last || changes(k) || changes(k + 1)
        })
    };
    all_offsets(given.rows).into_iter().filter(asked).collect()
}

fn passed<T>(result: Result<T, String>) -> T {
    result.unwrap_or_else(|what| panic!("{what}"))
}

/// The tables of small.rs under every mask: all of 1 to 3 rows and 1 to 2 events,
/// all of 4 rows and 1 event, and a third of those of 4 rows and 2 events in which
/// all rows are reached.
#[test]
fn small_tables_against_the_cutter() {
    let (entries, fallen) = (Counter::default(), Counter::default());
    let mut tried = 0;
    for (rows, events) in [(1, 1), (2, 1), (3, 1), (4, 1), (1, 2), (2, 2), (3, 2), (4, 2)] {
        let cutter = Cutter::new(rows, events);
        let check = |given: &Table| {
            for mask in all_masks(events) {
                fallen.add(passed(check_small(PRODUCT, &cutter, given, mask)));
                entries.add(2 * rows + 2);
            }
        };
        tried += match (rows, events) {
            (4, 2) => reached_tables([1, 3], rows, events, 10_000, check),
            _ => all_tables(rows, events, check),
        };
    }
    println!(
        "product: sheets of {tried} small tables under all masks: {} entries against brute force \
         and the reducer, {} below the one before",
        entries.value(),
        fallen.value()
    );
}

/// A table of each shape, and a comb, with masks.
fn tables(random: &mut Random, rows: [usize; 2], events: [usize; 2]) -> Vec<(Table, Mask)> {
    let size = |random: &mut Random| {
        (random.between(rows[0], rows[1]), random.between(events[0], events[1]))
    };
    let mut list = Vec::new();
    for shape in SHAPES {
        let (rows, events) = size(random);
        list.push(with_mask(random, shape, rows, events));
    }
    let (rows, events) = size(random);
    let (comb, mask) = (comb(random, rows, events), mask(random, events));
    list.push((idling(random, &comb, mask), mask));
    list
}

#[test]
fn up_to_128_rows_and_32_events() {
    // Smallest and largest rows, smallest and largest events, pieces.
    let kinds = [
        ([1, 12], [1, 4], 200),
        ([7, 17], [1, 3], 100),
        ([13, 48], [1, 8], 100),
        ([49, 128], [1, 3], 80),
        ([100, 128], [1, 32], 20),
        ([128, 128], [32, 32], 3),
    ];
    let [tried, entries, fallen, asked] = [(); 4].map(|_| Counter::default());
    for (kind, (rows, events, pieces)) in kinds.into_iter().enumerate() {
        spread(pieces, |piece| {
            let mut random = Random::new(71_000 + 1_000 * kind as u64 + piece as u64);
            for (given, mask) in tables(&mut random, rows, events) {
                let (falls, offsets) = passed(check_larger(PRODUCT, &given, mask));
                tried.add(1);
                entries.add(2 * given.rows + 2);
                fallen.add(falls);
                asked.add(offsets);
            }
        });
    }
    println!(
        "product: sheets of {} tables up to 128 rows and 32 events: {} entries against the rules, \
         {} below the one before, the reducer at {} of them",
        tried.value(),
        entries.value(),
        fallen.value(),
        asked.value()
    );
}

/// More tables, by what the printed text alone shows.
#[test]
fn entries_fall_to_the_count_for_none() {
    let [tried, entries, fallen] = [(); 3].map(|_| Counter::default());
    spread(300, |piece| {
        let mut random = Random::new(78_000 + piece as u64);
        for (given, mask) in tables(&mut random, [1, 128], [1, 6]) {
            let input = given.sheet_input(mask);
            match falls(&sheet_text(&input)) {
                Ok(falls) => fallen.add(falls),
                Err(what) => panic!("{what}\ninput {}", hexadecimal(&input)),
            }
            tried.add(1);
            entries.add(2 * given.rows + 2);
        }
    });
    println!(
        "product: sheets of {} tables fall: {} entries, {} below the one before",
        tried.value(),
        entries.value(),
        fallen.value()
    );
}

/// The answer to one input: the sheet's text is the own one; behind an offset
/// the reducer refuses the input in the same words, or gives the entry's rows.
fn answer(programs: Programs, input: &[u8]) -> Result<usize, String> {
    let expected = text_for(input);
    let number = same(programs.sheet, input, &expected)?;
    let (offset, head) = if input.len() % 2 == 0 { (Some(0), [0; 2]) } else { (None, [255; 2]) };
    let input = [&head, input].concat();
    if number > 0 {
        return same(programs.reduce, &input, &expected);
    }
    ask(programs.reduce, &input, &read_sheet(expected.as_bytes())?, offset)?;
    Ok(number)
}

#[test]
fn damaged_inputs() {
    let answers = Answers::default();
    let count = |input: &[u8]| answers.count(answer(PRODUCT, input));
    Inputs::OfSheet.single_bytes(count);
    Inputs::OfSheet.cut_and_extended(count);
    Inputs::OfSheet.too_high_masks(count);
    Inputs::OfSheet.each_mask_bit(count);
    Inputs::OfSheet.largest(count);
    Inputs::OfSheet.several_bytes(count);
    answers.show("sheets of damaged inputs", "sheets");
}

#[test]
fn random_bytes() {
    let answers = Answers::default();
    let count = |input: &[u8]| answers.count(answer(PRODUCT, input));
    Inputs::OfSheet.random_bytes(count);
    Inputs::OfSheet.long(count);
    answers.show("sheets of random bytes", "sheets");
}

// The self-test: faulty programs are found by the checks above. The own reading
// stands in the product's place, with one of its programs changed.

/// The own sheet with other row counts: for each line what is made of the rows,
/// the line's number (from 0) and the right counts.
fn recounted(input: &[u8], change: fn(usize, usize, &[usize]) -> usize) -> Vec<u8> {
    let (mask, table) = read_sheet_input(input).unwrap();
    let right = counts(&table, mask);
    let list: Vec<usize> = (0..right.len()).map(|at| change(table.rows, at, &right)).collect();
    sheet(&table, mask, &list).into_bytes()
}

/// The own sheet with its lines changed.
fn rewritten(input: &[u8], change: fn(&mut Vec<String>)) -> Vec<u8> {
    let mut lines: Vec<String> = text_for(input).lines().map(|line| line.to_string()).collect();
    change(&mut lines);
    lines.into_iter().flat_map(|line| (line + "\n").into_bytes()).collect()
}

/// What the own reducer prints at another offset.
fn reduced_at(input: &[u8], change: fn(Offset) -> Offset) -> Vec<u8> {
    let (offset, mask, table) = read_input(input).unwrap();
    rules::text_for(&table.input(change(offset), mask)).into_bytes()
}

/// A text whose refusal, if it is one, has another number and place.
fn refused_as(text: String, change: fn(usize, usize) -> (usize, usize)) -> Vec<u8> {
    let words: Vec<&str> = text.split_whitespace().collect();
    if let ["refused", number, place] = words[..] {
        let (number, place) = change(number.parse().unwrap(), place.parse().unwrap());
        format!("refused {number} {place}\n").into_bytes()
    } else {
        text.into_bytes()
    }
}

type Faulty = fn(&[u8]) -> Vec<u8>;

/// Name, the fault, and whether the printed sheet must show it alone.
const FAULTY_SHEETS: [(&str, Faulty, bool); 22] = [
    ("first entry one less", |i| recounted(i, |_, at, list| list[at] - (at == 0) as usize), true),
    (
        "middle entry one more",
        |i| recounted(i, |rows, at, list| list[at] + (at == rows) as usize),
        true,
    ),
    (
        "last entry one more",
        |i| recounted(i, |rows, at, list| list[at] + (at == 2 * rows) as usize),
        true,
    ),
    (
        "none one more",
        |i| recounted(i, |rows, at, list| list[at] + (at > 2 * rows) as usize),
        true,
    ),
    ("one offset early", |i| recounted(i, |rows, at, list| list[(at + 1).min(2 * rows)]), false),
    ("one offset late", |i| recounted(i, |_, at, list| list[at.saturating_sub(1)]), false),
    ("the given rows always", |i| recounted(i, |rows, _, _| rows), false),
    ("the first entry always", |i| recounted(i, |_, _, list| list[0]), false),
    ("the last entry always", |i| recounted(i, |rows, _, list| list[2 * rows]), false),
    ("the entries backward", |i| recounted(i, |rows, at, list| list[2 * rows + 1 - at]), true),
    ("no last line", |i| rewritten(i, |lines| drop(lines.pop())), true),
    ("no last offset", |i| rewritten(i, |lines| drop(lines.remove(lines.len() - 2))), true),
    ("no offset 0", |i| rewritten(i, |lines| drop(lines.remove(1))), true),
    ("a line twice", |i| rewritten(i, |lines| lines.insert(1, lines[1].clone())), true),
    ("two lines exchanged", |i| rewritten(i, |lines| lines.swap(1, 2)), true),
    ("an empty line more", |i| rewritten(i, |lines| lines.push(String::new())), true),
    (
        "other events",
        |i| {
            rewritten(i, |lines| {
                let behind_events = lines[0].rfind(' ').unwrap();
                lines[0].insert(behind_events, '0');
            })
        },
        false,
    ),
    ("other counted events", |i| rewritten(i, |lines| lines[0] += "1"), false),
    ("a space more", |i| rewritten(i, |lines| lines[2] += " "), true),
    ("a zero in front", |i| rewritten(i, |lines| lines[2].insert(0, '0')), true),
    ("no newline at the end", |i| text_for(i).trim_end().as_bytes().to_vec(), true),
    ("refusing every table", |_| b"refused 13 0\n".to_vec(), true),
];

/// Reducers that do not take the offset they are told.
const FAULTY_REDUCERS: [(&str, Faulty); 4] = [
    ("reducer one offset early", |i| reduced_at(i, |k| k.map(|k| k + 1))),
    ("reducer one offset late", |i| reduced_at(i, |k| k.map(|k| k.saturating_sub(1)))),
    ("reducer at offset 0 always", |i| reduced_at(i, |_| Some(0))),
    ("reducer with none always", |i| reduced_at(i, |_| None)),
];

/// Wherever a faulty sheet, also one of mistaken.rs, is another than the right one,
/// the checks find it, of small tables by brute force and of larger ones by the
/// rules; and wherever the row count is not the same at all offsets, they find a
/// faulty reducer.
#[test]
fn faults_are_found() {
    let cutter = Cutter::new(4, 2);
    let mut random = Random::new(79_000);
    let mut small: Vec<(Table, Mask)> =
        (0..count_all(3, 2)).step_by(23).map(|n| (table_number(3, 2, n), n as Mask % 4)).collect();
    let mut larger = Vec::new();
    for _ in 0..40 {
        small.extend(tables(&mut random, [4, 4], [2, 2]));
        larger.extend(tables(&mut random, [5, 40], [1, 4]));
    }
    // In how many tables a fault is found: in those that show it, no others.
    let found = |name: &str, programs: Programs, shows: &(dyn Fn(&[u8]) -> bool + Sync)| {
        let found = Counter::default();
        let judged = |given: &Table, mask: Mask, fails: bool| {
            assert_eq!(fails, shows(&given.sheet_input(mask)), "{name}: {given:?} {mask:b}");
            found.add(fails as usize);
        };
        spread(small.len(), |n| {
            let (given, mask) = (&small[n].0, small[n].1);
            judged(given, mask, check_small(programs, &cutter, given, mask).is_err())
        });
        spread(larger.len(), |n| {
            let (given, mask) = (&larger[n].0, larger[n].1);
            judged(given, mask, check_larger(programs, given, mask).is_err())
        });
        found.value()
    };
    println!("sheet, faults: {} small tables, {} larger ones", small.len(), larger.len());
    assert_eq!(found("no fault", OWN, &|_| false), 0);
    for (name, sheet, alone) in FAULTY_SHEETS {
        let by_falls = Counter::default();
        let count = found(name, Programs { sheet: &sheet, ..OWN }, &|input| {
            let printed = sheet(input);
            by_falls.add(falls(&printed).is_err() as usize);
            printed != text_for(input).as_bytes()
        });
        println!("  {name}: found {count}, by the sheet alone {}", by_falls.value());
        assert!(count > 0 && (!alone || by_falls.value() > 0), "{name} is not found");
    }
    for fault in FAULTS.iter().filter(|fault| fault.in_sheets).chain([&RIGHT]) {
        let sheet = |input: &[u8]| fault.sheet(input);
        let count = found(fault.name, Programs { sheet: &sheet, ..OWN }, &|input| {
            sheet(input) != text_for(input).as_bytes()
        });
        println!("  {}: found {count}", fault.name);
        assert_eq!(count > 0, fault.in_sheets, "{}", fault.name);
    }
    for (name, reduce) in FAULTY_REDUCERS {
        let count = found(name, Programs { reduce: &reduce, ..OWN }, &|input| {
            falls(text_for(input).as_bytes()) != Ok(0)
        });
        println!("  {name}: found {count}");
        assert!(count > 0, "{name} is not found");
    }
}

/// Faulty refusals, of the sheet and then of the reducer beside it.
#[test]
fn faulty_refusals_are_found() {
    type Change = fn(usize, usize) -> (usize, usize);
    let faults: [(&str, Change); 6] = [
        ("8 counts the offset's bytes", |n, place| (n, place + 2 * (n == 8) as usize)),
        ("no place", |n, _| (n, 0)),
        ("the place of 5 one more", |n, place| (n, place + (n == 5) as usize)),
        ("1 in place of 12", |n, place| (if n == 12 { 1 } else { n }, place)),
        ("2 and 9 exchanged", |n, place| (if n == 2 || n == 9 { 11 - n } else { n }, place)),
        ("number and place exchanged", |n, place| (place, n)),
    ];
    let mut tried = 0;
    for (name, change) in faults {
        let sheet = |input: &[u8]| refused_as(text_for(input), change);
        let reduce = |input: &[u8]| refused_as(rules::text_for(input), change);
        for programs in [Programs { sheet: &sheet, ..OWN }, Programs { reduce: &reduce, ..OWN }] {
            let (inputs, found) = (Counter::default(), Counter::default());
            Inputs::OfSheet.cut_and_extended(|input| {
                let fails = answer(programs, input).is_err();
                let right = text_for(input);
                assert_eq!(fails, refused_as(right.clone(), change) != right.as_bytes(), "{name}");
                inputs.add(1);
                found.add(fails as usize);
            });
            assert!(found.value() > 0, "{name} is not found");
            tried += inputs.value();
        }
    }
    println!("sheet, faulty refusals: {} faults, {tried} inputs", 2 * faults.len());
}

/// The same for masks taken wrongly (mistaken.rs), which only some inputs show.
#[test]
fn mistaken_masks_are_found_in_damaged_inputs() {
    let faults = FAULTS.iter().filter(|fault| fault.in_damage).chain([&RIGHT]);
    for fault in faults {
        let sheet = |input: &[u8]| fault.sheet(input);
        let reduce = |input: &[u8]| fault.reduce(input);
        let programs = [Programs { sheet: &sheet, ..OWN }, Programs { reduce: &reduce, ..OWN }];
        let found = programs.map(|programs| {
            let found = Counter::default();
            let count = |input: &[u8]| found.add(answer(programs, input).is_err() as usize);
            Inputs::OfSheet.cut_and_extended(count);
            Inputs::OfSheet.too_high_masks(count);
            Inputs::OfSheet.each_mask_bit(count);
            found.value()
        });
        println!("sheet, {}: found {}, in the reducer {}", fault.name, found[0], found[1]);
        assert!(found.map(|count| count > 0) == [fault.in_damage; 2], "{}", fault.name);
    }
}
