//! (b) Many random larger tables of all the shapes of shapes.rs, each with a
//! random mask: tables of 4 and 5 rows against the brute-force cutter, and tables
//! of up to 128 rows and 32 events against rules.rs and judge.rs.

use independent::cutter::Cutter;
use independent::judge::{all_offsets, judge, read_listing, stop};
use independent::parallel::{spread, Counter};
use independent::product::reduce_text;
use independent::random::Random;
use independent::rules::{Fate, Length, Study};
use independent::shapes::{offsets_for, with_mask, SHAPES};
use independent::table::{Mask, Offset, Table};

/// Checks one table and mask at the offsets; answers how often a row folded into
/// an unequal one.
fn check(given: &Table, mask: Mask, offsets: &[Offset], cutter: Option<&Cutter>) -> usize {
    let study = Study::of(given, mask);
    let least = cutter.map(|cutter| cutter.least(given, mask, offsets));
    let mut unequal = 0;
    for (place, &offset) in offsets.iter().enumerate() {
        let printed = reduce_text(&given.input(offset, mask));
        let expected = study.text(offset);
        let stop = |what: &str| stop(what, given, mask, offset, &printed, &expected);
        if printed != expected.as_bytes() {
            stop("the text is another");
        }
        let rows = match judge(given, mask, offset, &printed) {
            Ok(rows) => rows,
            Err(what) => stop(&what),
        };
        if least.as_ref().is_some_and(|least| least[place] != rows) {
            stop("the cutter finds fewer rows");
        }
        let listing = read_listing(&printed).unwrap();
        for (row, fate) in listing.fates.iter().enumerate() {
            if let Fate::Folded(into) = *fate {
                unequal += (study.distance(row, into) != Length::Of(0)) as usize;
            }
        }
    }
    unequal
}

#[test]
fn four_and_five_rows_against_the_cutter() {
    for (rows, events, pieces) in [(4, 1, 600), (5, 1, 600), (4, 2, 600), (5, 2, 150)] {
        let cutter = Cutter::new(rows, events);
        let offsets = all_offsets(rows);
        let tried = Counter::default();
        let unequal = Counter::default();
        spread(pieces, |piece| {
            let mut random = Random::new(20_000 + piece as u64);
            for shape in SHAPES {
                let (given, mask) = with_mask(&mut random, shape, rows, events);
                unequal.add(check(&given, mask, &offsets, Some(&cutter)));
                tried.add(1);
            }
        });
        println!(
            "product: {} tables of {rows} rows and {events} events at {} offsets, each against {} \
             smaller tables; {} folds into unequal rows",
            tried.value(),
            offsets.len(),
            cutter.tables_tried(rows),
            unequal.value()
        );
    }
}

#[test]
fn up_to_128_rows_and_32_events() {
    // Name, smallest and largest rows, largest events, pieces (each piece is
    // one table of each shape), offsets per table.
    let kinds = [
        ("few rows", 1, 12, 4, 400, 6),
        ("rows about a full mark byte", 7, 17, 3, 200, 6),
        ("middle", 13, 48, 8, 200, 5),
        ("many rows, few events", 49, 128, 3, 120, 5),
        ("many rows and events", 100, 128, 32, 30, 4),
        ("the largest", 128, 128, 32, 2, 4),
    ];
    let mut sum = 0;
    for (kind, (name, low, high, most, pieces, wanted)) in kinds.into_iter().enumerate() {
        let tried = Counter::default();
        let unequal = Counter::default();
        spread(pieces, |piece| {
            let mut random = Random::new(30_000 + 1_000 * kind as u64 + piece as u64);
            for shape in SHAPES {
                let rows = random.between(low, high);
                let events =
                    if name == "the largest" { most } else { random.between(1, most) };
                let (given, mask) = with_mask(&mut random, shape, rows, events);
                let offsets = offsets_for(&mut random, &Study::of(&given, mask), wanted);
                unequal.add(check(&given, mask, &offsets, None));
                tried.add(1);
            }
        });
        println!(
            "product: {} tables, {name} ({low} to {high} rows, up to {most} events) at {wanted} \
             offsets each; {} folds into unequal rows",
            tried.value(),
            unequal.value()
        );
        sum += tried.value();
    }
    println!("product: {sum} larger tables in all");
}

/// "An offset of twice the given rows or more yields the same table as none":
/// the whole text is the same, since similarity is.
#[test]
fn twice_the_rows_is_as_none() {
    let tried = Counter::default();
    spread(100, |piece| {
        let mut random = Random::new(40_000 + piece as u64);
        for shape in SHAPES {
            let rows = random.between(1, 40);
            let events = random.between(1, 4);
            let (given, mask) = with_mask(&mut random, shape, rows, events);
            let none = reduce_text(&given.input(None, mask));
            for k in [2 * rows, 2 * rows + 1, 3 * rows + 7, 1000, 32_767, 32_768, 65_534] {
                if reduce_text(&given.input(Some(k), mask)) != none {
                    stop("not as with none", &given, mask, Some(k), &none, "");
                }
            }
            tried.add(1);
        }
    });
    println!("product: {} tables at and above twice the rows", tried.value());
}
