//! (a) All tables of 1 to 3 rows and 1 to 2 events, with all targets, marks
//! and starts, under every mask of their events, at every offset from 0 to twice
//! the rows and with none:
//! - the product prints what rules.rs prints;
//! - its table agrees with the given one (judge.rs, by cutter.rs);
//! - no smaller table agrees (cutter.rs, brute force);
//! - its records fit the table and the given one (judge.rs).
//!
//! Document 01, (d): "a program checks the others ..., next to a brute-force
//! cutter made independently."

use independent::cutter::Cutter;
use independent::judge::{all_offsets, judge, stop};
use independent::product::reduce_text;
use independent::rules::Study;
use independent::small::{all_masks, all_tables, reached_tables};
use independent::table::{Mask, Offset, Table};

/// A table under every mask.
fn check(cutter: &Cutter, given: &Table, offsets: &[Offset]) {
    for mask in all_masks(given.events) {
        check_mask(cutter, given, mask, offsets);
    }
}

fn check_mask(cutter: &Cutter, given: &Table, mask: Mask, offsets: &[Offset]) {
    let study = Study::of(given, mask);
    let least = cutter.least(given, mask, offsets);
    let mut texts = Vec::new();
    for (place, &offset) in offsets.iter().enumerate() {
        let printed = reduce_text(&given.input(offset, mask));
        let expected = study.text(offset);
        let stop = |what: &str| stop(what, given, mask, offset, &printed, &expected);
        if printed != expected.as_bytes() {
            stop("the text is another");
        }
        match judge(given, mask, offset, &printed) {
            Ok(rows) if rows == least[place] => {}
            Ok(_) => stop(&format!("the cutter finds {} rows", least[place])),
            Err(what) => stop(&what),
        }
        texts.push(printed);
    }
    // "An offset of twice the given rows or more yields the same table as none."
    let count = texts.len();
    assert_eq!(offsets[count - 2..], [Some(2 * given.rows), None]);
    if texts[count - 2] != texts[count - 1] {
        stop("twice the rows is not as none", given, mask, None, &texts[count - 1], "");
    }
}

#[test]
fn all_tables_up_to_three_rows_and_two_events() {
    let mut sum = 0;
    for events in 1..=2 {
        for rows in 1..=3 {
            let cutter = Cutter::new(rows, events);
            let offsets = all_offsets(rows);
            let tried = all_tables(rows, events, |given| check(&cutter, given, &offsets));
            println!(
                "product: all {tried} tables of {rows} rows and {events} events under all masks at \
                 {} offsets, each against {} smaller tables",
                offsets.len(),
                cutter.tables_tried(rows)
            );
            sum += tried;
        }
    }
    println!("product: {sum} tables in all");
}

/// More than asked: all tables of 4 rows and 1 event; and of 4 rows and 2
/// events a third of those in which every row is reached, up to renumbering
/// (sheet.rs and self_check.rs take the other two thirds).
#[test]
fn all_tables_of_four_rows() {
    let offsets = all_offsets(4);
    let cutter = Cutter::new(4, 1);
    let tried = all_tables(4, 1, |given| check(&cutter, given, &offsets));
    println!("product: all {tried} tables of 4 rows and 1 event, under all masks");

    let cutter = Cutter::new(4, 2);
    let tried = reached_tables([0, 3], 4, 2, 10_000, |given| check(&cutter, given, &offsets));
    println!("product: {tried} tables of 4 rows and 2 events, all rows reached, under all masks");
}
