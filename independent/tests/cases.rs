//! (d) Document 01's own cases: every case of "Tables to try", and every row
//! of "Refused, and on what" that `reduce` can show. The expected texts are
//! written here by hand from the document, not made by rules.rs. So are the sheets
//! of request 101, the radio images and packs of request 102, the listings with idle
//! events of request 104, the distances and runs of request 106, and which table comes
//! first by request 107.

use independent::calls::{compare, Call, Numbers, Outcome};
use independent::direct::Fill;
use independent::given_up::{self, Asked, GivenUp};
use independent::ordering;
use independent::product::{reduce_text, sheet_text, Product};
use independent::radio::Answer;
use independent::rules::{text_for, Length, Study};
use independent::sheet;
use independent::table::{Mask, Table};
use std::cmp::Ordering;

/// Bytes from hexadecimal words.
fn bytes(words: &str) -> Vec<u8> {
    words.split_whitespace().map(|word| u8::from_str_radix(word, 16).unwrap()).collect()
}

/// Offset 0, a mask of which event 0 counts, and an image in hexadecimal words.
fn at_0(image: &str) -> Vec<u8> {
    bytes(&format!("00 00  01 00 00 00  {image}"))
}

/// The product's text is the expected one; rules.rs's too. What `reduce` refuses
/// of a mask and an image, `sheet` refuses of them without the offset, and the
/// program of request 106 with it.
fn prints(input: &[u8], expected: &str) {
    let printed = reduce_text(input);
    assert_eq!(String::from_utf8_lossy(&printed), expected, "product, input {input:x?}");
    assert_eq!(text_for(input), expected, "own reading, input {input:x?}");
    if input.len() >= 2 && expected.starts_with("refused") {
        prints_sheet(&input[2..], expected);
    }
    if expected.starts_with("refused") {
        prints_given_up(input, expected);
    }
}

/// The same for `sheet`.
fn prints_sheet(input: &[u8], expected: &str) {
    let printed = sheet_text(input);
    assert_eq!(String::from_utf8_lossy(&printed), expected, "product, input {input:x?}");
    assert_eq!(sheet::text_for(input), expected, "own reading, input {input:x?}");
}

/// The same for what is given up where rows fold.
fn prints_given_up(input: &[u8], expected: &str) {
    let printed = Product.text(input);
    assert_eq!(String::from_utf8_lossy(&printed), expected, "product, input {input:x?}");
    assert_eq!(given_up::text_for(input), expected, "own reading, input {input:x?}");
}

const W: bool = false; // waiting
const R: bool = true; // ready

/// A: targets 1 2 2, row 0 ready.
fn a() -> Table {
    Table::new(1, 0, &[1, 2, 2], &[R, W, W])
}

/// B: events 2, rows (1 2) (0 0) (0 0), row 1 ready.
fn b() -> Table {
    Table::new(2, 0, &[1, 2, 0, 0, 0, 0], &[W, R, W])
}

/// C: targets 1 2 3 3, row 1 ready.
fn c() -> Table {
    Table::new(1, 0, &[1, 2, 3, 3], &[W, R, W, W])
}

/// D: table B with row 3 added, targets (0 0), waiting, start 3.
fn d() -> Table {
    Table::new(2, 3, &[1, 2, 0, 0, 0, 0, 0, 0], &[W, R, W, W])
}

/// E: one row, targets (0 0). (Its mark is not named: both are tried.)
fn e(mark: bool) -> Table {
    Table::new(2, 0, &[0, 0], &[mark])
}

/// F: targets 0 0, row 1 ready.
fn f() -> Table {
    Table::new(1, 0, &[0, 0], &[W, R])
}

/// All offsets that `reduce` can be told, and none.
fn every_offset() -> impl Iterator<Item = Option<usize>> {
    (0..65_535).map(Some).chain([None])
}

/// "For A0 its input is, in hexadecimal, ..., and it prints: ..." And request 104:
/// "`reduce` reads the mask as four bytes, low first, after the offset, and its
/// first line ends with how many events count".
#[test]
fn a0() {
    let input = bytes("00 00  01 00 00 00  03 00 01 03 00 01 00 02 00 02 00 01 00 00 00");
    assert_eq!(a().input(Some(0), 1), input);
    prints(
        &input,
        "table 2 1 1\n\
         0 1 ready\n\
         1 1 wait\n\
         folds 3\n\
         0 kept 0 depth 0\n\
         1 folded 2 depth 1\n\
         2 kept 1 depth endless\n",
    );
}

/// "A1 offset 1: one waiting row. An no offset: the same."
#[test]
fn a1_and_an() {
    let expected = "table 1 1 1\n\
                    0 0 wait\n\
                    folds 3\n\
                    0 folded 2 depth 0\n\
                    1 folded 2 depth 1\n\
                    2 kept 0 depth endless\n";
    prints(&a().input(Some(1), 1), expected);
    prints(&a().input(None, 1), expected);
    // No offset is 65,535.
    assert_eq!(a().input(None, 1)[..2], [255, 255]);
    for k in 1..20 {
        prints(&a().input(Some(k), 1), expected);
    }
    prints(&a().input(Some(65_534), 1), expected);
}

/// "Three rows remain at every offset and none."
#[test]
fn case_b() {
    for offset in every_offset() {
        prints(
            &b().input(offset, 3),
            "table 3 2 2\n\
             0 1 2 wait\n\
             1 0 0 ready\n\
             2 0 0 wait\n\
             folds 3\n\
             0 kept 0 depth endless\n\
             1 kept 1 depth endless\n\
             2 kept 2 depth endless\n",
        );
    }
}

/// "C1 offset 1: three rows."
#[test]
fn c1() {
    prints(
        &c().input(Some(1), 1),
        "table 3 1 1\n\
         0 1 wait\n\
         1 2 ready\n\
         2 2 wait\n\
         folds 4\n\
         0 kept 0 depth 0\n\
         1 kept 1 depth 1\n\
         2 folded 3 depth 2\n\
         3 kept 2 depth endless\n",
    );
}

/// "C2 offset 2: one waiting row."
#[test]
fn c2() {
    let expected = "table 1 1 1\n\
                    0 0 wait\n\
                    folds 4\n\
                    0 folded 3 depth 0\n\
                    1 folded 3 depth 1\n\
                    2 folded 3 depth 2\n\
                    3 kept 0 depth endless\n";
    prints(&c().input(Some(2), 1), expected);
    prints(&c().input(None, 1), expected);
}

/// "D0 offset 0: start folds into 2; rows (1 1) (2 0) (1 1), row 2 ready."
#[test]
fn d0() {
    prints(
        &d().input(Some(0), 3),
        "table 3 2 2\n\
         0 1 1 wait\n\
         1 2 0 wait\n\
         2 1 1 ready\n\
         folds 4\n\
         0 kept 1 depth endless\n\
         1 kept 2 depth endless\n\
         2 kept 0 depth endless\n\
         3 folded 2 depth 0\n",
    );
}

/// "D1 offset 1: start folds into 1; rows (1 1) (0 2) (1 1), row 0 ready." By
/// the rules the same holds at every greater offset and none.
#[test]
fn d1() {
    for offset in [Some(1), Some(2), Some(8), Some(65_534), None] {
        prints(
            &d().input(offset, 3),
            "table 3 2 2\n\
             0 1 1 ready\n\
             1 0 2 wait\n\
             2 1 1 wait\n\
             folds 4\n\
             0 kept 1 depth endless\n\
             1 kept 0 depth endless\n\
             2 kept 2 depth endless\n\
             3 folded 1 depth 0\n",
        );
    }
}

/// "E: one row, targets (0 0): unchanged at every offset."
#[test]
fn case_e() {
    for offset in every_offset() {
        prints(
            &e(W).input(offset, 3),
            "table 1 2 2\n\
             0 0 0 wait\n\
             folds 1\n\
             0 kept 0 depth endless\n",
        );
        prints(
            &e(R).input(offset, 3),
            "table 1 2 2\n\
             0 0 0 ready\n\
             folds 1\n\
             0 kept 0 depth endless\n",
        );
    }
}

/// "F: targets 0 0, row 1 ready: row 1 is unreached; one waiting row."
#[test]
fn case_f() {
    for offset in every_offset() {
        prints(
            &f().input(offset, 1),
            "table 1 1 1\n\
             0 0 wait\n\
             folds 2\n\
             0 kept 0 depth endless\n\
             1 unreached\n",
        );
    }
}

/// The sheets of these tables (request 101). Once one row remains, as of A from
/// offset 1 and of C from offset 2 on, it remains; C has three rows at offset 0 as
/// at 1, since rows 2 and 3 are equal; D has three as in its cases above.
#[test]
fn sheets() {
    prints_sheet(&a().sheet_input(1), "sheet 3 1 1\n0 2\n1 1\n2 1\n3 1\n4 1\n5 1\n6 1\nnone 1\n");
    prints_sheet(&b().sheet_input(3), "sheet 3 2 2\n0 3\n1 3\n2 3\n3 3\n4 3\n5 3\n6 3\nnone 3\n");
    prints_sheet(
        &c().sheet_input(1),
        "sheet 4 1 1\n0 3\n1 3\n2 1\n3 1\n4 1\n5 1\n6 1\n7 1\n8 1\nnone 1\n",
    );
    prints_sheet(
        &d().sheet_input(3),
        "sheet 4 2 2\n0 3\n1 3\n2 3\n3 3\n4 3\n5 3\n6 3\n7 3\n8 3\nnone 3\n",
    );
    prints_sheet(&e(W).sheet_input(3), "sheet 1 2 2\n0 1\n1 1\n2 1\nnone 1\n");
    prints_sheet(&e(R).sheet_input(3), "sheet 1 2 2\n0 1\n1 1\n2 1\nnone 1\n");
    prints_sheet(&f().sheet_input(1), "sheet 2 1 1\n0 1\n1 1\n2 1\n3 1\n4 1\nnone 1\n");
}

/// A under mask 0. Request 104: "With none counted, A at offset 1 gives one ready
/// row." Every run has length 0, so every depth is 0. Row 0 differs from rows 1 and
/// 2 after the empty run and after no run of length 1, so the distance is 1; rows 1
/// and 2 agree on all runs. At equal depths the lower row comes first. So at offset
/// 0 row 1 is kept, and row 2 folds into it; from offset 1 on and with none both
/// fold into row 0.
#[test]
fn a_with_none_counted() {
    prints(
        &bytes("00 00  00 00 00 00  03 00 01 03 00 01 00 02 00 02 00 01 00 00 00"),
        "table 2 1 0\n\
         0 1 ready\n\
         1 1 wait\n\
         folds 3\n\
         0 kept 0 depth 0\n\
         1 kept 1 depth 0\n\
         2 folded 1 depth 0\n",
    );
    let expected = "table 1 1 0\n\
                    0 0 ready\n\
                    folds 3\n\
                    0 kept 0 depth 0\n\
                    1 folded 0 depth 0\n\
                    2 folded 0 depth 0\n";
    prints(&bytes("01 00  00 00 00 00  03 00 01 03 00 01 00 02 00 02 00 01 00 00 00"), expected);
    for offset in [Some(2), Some(6), Some(65_534), None] {
        prints(&a().input(offset, 0), expected);
    }
    prints_sheet(&a().sheet_input(0), "sheet 3 1 0\n0 2\n1 1\n2 1\n3 1\n4 1\n5 1\n6 1\nnone 1\n");
}

/// D under mask 0: all depths are 0, so the order is 0 1 2 3. Rows 2 and 3 agree on
/// all runs, any other two have distance 1. At offset 0 the new table is D0's; from
/// offset 1 on all rows fold into row 0.
#[test]
fn d_with_none_counted() {
    prints(
        &d().input(Some(0), 0),
        "table 3 2 0\n\
         0 1 1 wait\n\
         1 2 0 wait\n\
         2 1 1 ready\n\
         folds 4\n\
         0 kept 1 depth 0\n\
         1 kept 2 depth 0\n\
         2 kept 0 depth 0\n\
         3 folded 2 depth 0\n",
    );
    for offset in [Some(1), Some(8), None] {
        prints(
            &d().input(offset, 0),
            "table 1 2 0\n\
             0 0 0 wait\n\
             folds 4\n\
             0 kept 0 depth 0\n\
             1 folded 0 depth 0\n\
             2 folded 0 depth 0\n\
             3 folded 0 depth 0\n",
        );
    }
}

/// B and D with one of their two events counted: from row 0 it leads to row 1 or 2
/// and back, so all of B has endless depth and the distances are as with both. All
/// lines but the first are those of the cases above.
#[test]
fn b_and_d_with_one_counted() {
    for mask in [1, 2] {
        for offset in [Some(0), Some(1), Some(6), None] {
            prints(
                &b().input(offset, mask),
                "table 3 2 1\n\
                 0 1 2 wait\n\
                 1 0 0 ready\n\
                 2 0 0 wait\n\
                 folds 3\n\
                 0 kept 0 depth endless\n\
                 1 kept 1 depth endless\n\
                 2 kept 2 depth endless\n",
            );
        }
        prints(
            &d().input(Some(1), mask),
            "table 3 2 1\n\
             0 1 1 ready\n\
             1 0 2 wait\n\
             2 1 1 wait\n\
             folds 4\n\
             0 kept 1 depth endless\n\
             1 kept 0 depth endless\n\
             2 kept 2 depth endless\n\
             3 folded 1 depth 0\n",
        );
    }
}

/// E and F under mask 0: every run has length 0. An unreached row remains so.
#[test]
fn e_and_f_with_none_counted() {
    for offset in [Some(0), Some(1), Some(4), None] {
        prints(
            &e(R).input(offset, 0),
            "table 1 2 0\n\
             0 0 0 ready\n\
             folds 1\n\
             0 kept 0 depth 0\n",
        );
        prints(
            &f().input(offset, 0),
            "table 1 1 0\n\
             0 0 wait\n\
             folds 2\n\
             0 kept 0 depth 0\n\
             1 unreached\n",
        );
    }
}

/// A with an event 1 that stays. If it is idle, all is as in A.
#[test]
fn a_with_an_event_that_stays() {
    let given = Table::new(2, 0, &[1, 0, 2, 1, 2, 2], &[R, W, W]);
    prints(
        &given.input(Some(0), 1),
        "table 2 2 1\n\
         0 1 0 ready\n\
         1 1 1 wait\n\
         folds 3\n\
         0 kept 0 depth 0\n\
         1 folded 2 depth 1\n\
         2 kept 1 depth endless\n",
    );
    prints(
        &given.input(Some(1), 1),
        "table 1 2 1\n\
         0 0 0 wait\n\
         folds 3\n\
         0 folded 2 depth 0\n\
         1 folded 2 depth 1\n\
         2 kept 0 depth endless\n",
    );
    // If it counts, alone or with event 0, a run may stay on row 0 as long as one
    // likes: every depth is endless, and so is row 0's distance from the others.
    // These two agree; the lower one comes first.
    for (mask, count) in [(2, 1), (3, 2)] {
        for offset in [Some(0), Some(1), Some(6), None] {
            prints(
                &given.input(offset, mask),
                &format!(
                    "table 2 2 {count}\n\
                     0 1 0 ready\n\
                     1 1 1 wait\n\
                     folds 3\n\
                     0 kept 0 depth endless\n\
                     1 kept 1 depth endless\n\
                     2 folded 1 depth endless\n"
                ),
            );
        }
    }
}

/// Two circles: by event 1 from row 0 to row 1 and back, and from row 2 to row 3 and
/// back; event 0 leads from the first circle to row 2, from the second to row 4,
/// where all ends. Rows 0 and 3 are ready.
fn circles() -> Table {
    Table::new(2, 0, &[2, 1, 2, 0, 4, 3, 4, 2, 4, 4], &[R, W, W, R, W])
}

/// Its new table where all rows are kept; new numbers are met by all events: row 0,
/// then rows 2 and 1, then rows 4 and 3.
const ALL_OF_CIRCLES: &str = "0 1 2 ready\n\
                              1 3 4 wait\n\
                              2 1 0 wait\n\
                              3 3 3 wait\n\
                              4 3 1 ready\n\
                              folds 5\n";

/// Event 1 is idle: rows 0 and 1 have depth 0, rows 2 and 3 depth 1, row 4 endless.
/// Rows 0 and 1 go the same way after one counted event, and so do any two of rows
/// 2, 3 and 4: distance 1. Rows 0 and 1 have distance 2 from rows 2, 3 and 4, since
/// after one counted event one stands on row 2, the other on row 4, and idle events
/// lead to row 3 or remain there. The order is 4 2 3 0 1. At offset 0 nothing folds.
/// At offset 1 row 1 folds into row 0 (1 + 0); rows 2 and 3 do not into row 4 (1 +
/// 1), nor row 0 (2 + 0). At offset 2 all these fold.
#[test]
fn circles_with_event_1_idle() {
    prints(
        &circles().input(Some(0), 1),
        &format!(
            "table 5 2 1\n{ALL_OF_CIRCLES}\
             0 kept 0 depth 0\n\
             1 kept 2 depth 0\n\
             2 kept 1 depth 1\n\
             3 kept 4 depth 1\n\
             4 kept 3 depth endless\n"
        ),
    );
    prints(
        &circles().input(Some(1), 1),
        "table 4 2 1\n\
         0 1 0 ready\n\
         1 2 3 wait\n\
         2 2 2 wait\n\
         3 2 1 ready\n\
         folds 5\n\
         0 kept 0 depth 0\n\
         1 folded 0 depth 0\n\
         2 kept 1 depth 1\n\
         3 kept 3 depth 1\n\
         4 kept 2 depth endless\n",
    );
    for offset in [Some(2), Some(3), Some(10), None] {
        prints(
            &circles().input(offset, 1),
            "table 1 2 1\n\
             0 0 0 wait\n\
             folds 5\n\
             0 folded 4 depth 0\n\
             1 folded 4 depth 0\n\
             2 folded 4 depth 1\n\
             3 folded 4 depth 1\n\
             4 kept 0 depth endless\n",
        );
    }
    prints_sheet(
        &circles().sheet_input(1),
        "sheet 5 2 1\n0 5\n1 4\n2 1\n3 1\n4 1\n5 1\n6 1\n7 1\n8 1\n9 1\n10 1\nnone 1\n",
    );
}

/// If event 1 counts, alone or with event 0, the circles make every depth endless
/// and every distance: nothing folds. If none counts, every depth is 0 and every
/// distance 1: from offset 1 on all fold into row 0.
#[test]
fn circles_with_other_masks() {
    for (mask, count) in [(2, 1), (3, 2)] {
        for offset in [Some(0), Some(1), Some(10), None] {
            prints(
                &circles().input(offset, mask),
                &format!(
                    "table 5 2 {count}\n{ALL_OF_CIRCLES}\
                     0 kept 0 depth endless\n\
                     1 kept 2 depth endless\n\
                     2 kept 1 depth endless\n\
                     3 kept 4 depth endless\n\
                     4 kept 3 depth endless\n"
                ),
            );
        }
    }
    prints(
        &circles().input(Some(0), 0),
        &format!(
            "table 5 2 0\n{ALL_OF_CIRCLES}\
             0 kept 0 depth 0\n\
             1 kept 2 depth 0\n\
             2 kept 1 depth 0\n\
             3 kept 4 depth 0\n\
             4 kept 3 depth 0\n"
        ),
    );
    prints(
        &circles().input(Some(1), 0),
        "table 1 2 0\n\
         0 0 0 ready\n\
         folds 5\n\
         0 kept 0 depth 0\n\
         1 folded 0 depth 0\n\
         2 folded 0 depth 0\n\
         3 folded 0 depth 0\n\
         4 folded 0 depth 0\n",
    );
}

/// A way from row 0 by the events 1 0 1 to row 3, the only ready one; all other
/// events lead to row 4, where all ends.
fn by_turns() -> Table {
    Table::new(2, 0, &[4, 1, 2, 4, 4, 3, 4, 4, 4, 4], &[W, W, W, R, W])
}

/// Event 1 is idle: one counted event lies on the way. Rows 0 and 1 have depth 0,
/// rows 2 and 3 depth 1. Any two of rows 2, 3 and 4 differ after no counted event at
/// most: distance 1; rows 0 and 1 differ from each other and from those after one:
/// distance 2. With the lower depth that is 2 for any two rows.
#[test]
fn idle_events_between_counted_ones() {
    for offset in [Some(0), Some(1)] {
        prints(
            &by_turns().input(offset, 1),
            "table 5 2 1\n\
             0 1 2 wait\n\
             1 1 1 wait\n\
             2 3 1 wait\n\
             3 1 4 wait\n\
             4 1 1 ready\n\
             folds 5\n\
             0 kept 0 depth 0\n\
             1 kept 2 depth 0\n\
             2 kept 3 depth 1\n\
             3 kept 4 depth 1\n\
             4 kept 1 depth endless\n",
        );
    }
    for offset in [Some(2), Some(3), None] {
        prints(
            &by_turns().input(offset, 1),
            "table 1 2 1\n\
             0 0 0 wait\n\
             folds 5\n\
             0 folded 4 depth 0\n\
             1 folded 4 depth 0\n\
             2 folded 4 depth 1\n\
             3 folded 4 depth 1\n\
             4 kept 0 depth endless\n",
        );
    }
}

/// The same way under each mask: distance and lower depth of any two rows together
/// are one more than the counted events on the way, of which there are none, one
/// (event 0), two (event 1) or three. (With none counted row 4's depth is 0 too.)
#[test]
fn sheets_of_a_way_by_turns() {
    for (mask, count, all_fold) in [(0, 0, 1), (1, 1, 2), (2, 1, 3), (3, 2, 4)] {
        let mut expected = format!("sheet 5 2 {count}\n");
        for k in 0..=10 {
            expected += &format!("{k} {}\n", if k < all_fold { 5 } else { 1 });
        }
        prints_sheet(&by_turns().sheet_input(mask), &(expected + "none 1\n"));
    }
}

/// What is given up of a table (request 106) at these offsets. Each line is of a folded row:
/// its number, the row that it folds into, the distance, and the run. So the program prints,
/// and so answers the call for each row; all others give 0 and an empty run. A buffer that is
/// one byte too short for a run gives 18.
fn gives_up(
    table: &Table,
    mask: Mask,
    offsets: &[Option<usize>],
    lines: &[(usize, usize, usize, &[u8])],
) {
    for &offset in offsets {
        let mut text = String::new();
        for (row, into, distance, run) in lines {
            text += &format!("{row} folded {into} distance {distance} run");
            run.iter().for_each(|event| text += &format!(" {event}"));
            text += "\n";
        }
        prints_given_up(&table.input(offset, mask), &text);
        for row in 0..table.rows {
            let line = lines.iter().find(|line| line.0 == row);
            let (distance, run) = line.map_or((0, &[][..]), |line| (line.2, line.3));
            for lent in [run.len(), run.len() + 2, run.len().max(1) - 1] {
                let call = asking(table, mask, offset, row, lent);
                leaves("a row", &call, &call.expecting(distance, run));
            }
        }
    }
}

/// A call for a row that lends so many bytes for the run, and three scratch cells more than are
/// named.
fn asking(
    table: &Table,
    mask: Mask,
    offset: Option<usize>,
    row: usize,
    run: usize,
) -> given_up::Call {
    let offset = offset.map_or(65_536, |k| k as u32);
    let scratch = table.rows * (table.rows - 1) / 2 + 4 * table.rows + 3;
    let asked = Asked { offset, mask, given: Numbers::of(table), row };
    given_up::Call { asked, run, scratch, fill: Fill::Pattern }
}

/// Answer and buffers afterwards are these, by the product and by the own reading.
fn leaves(what: &str, call: &given_up::Call, expected: &given_up::Left) {
    assert_eq!(call.by(&Product), *expected, "product, {what}: {call}");
    assert_eq!(call.by(&given_up::Own::default()), *expected, "own reading, {what}: {call}");
}

/// Rows 0, 1 and 2 of C against row 3, which stays and waits. Row 0 is ready after one event
/// (row 1), waits after none and after two: the last run that differs has one event, distance
/// 2. Row 1 is ready at once and then never: the empty run, distance 1. Row 2 always waits:
/// distance 0. By C2 all three fold into row 3, by C1, and so at offset 0, row 2 alone.
#[test]
fn given_up_of_c() {
    let all: [Option<usize>; 5] = [Some(2), Some(3), Some(8), Some(65_534), None];
    gives_up(&c(), 1, &all, &[(0, 3, 2, &[0]), (1, 3, 1, &[]), (2, 3, 0, &[])]);
    gives_up(&c(), 1, &[Some(0), Some(1)], &[(2, 3, 0, &[])]);
    // As it is printed.
    let c2 = "0 folded 3 distance 2 run 0\n1 folded 3 distance 1 run\n2 folded 3 distance 0 run\n";
    prints_given_up(&c().input(Some(2), 1), c2);
    prints_given_up(&c().input(Some(1), 1), "2 folded 3 distance 0 run\n");
}

/// D's start, row 3. At offset 0 it folds into row 2, with which it agrees on all runs; from
/// offset 1 on into row 1, which is ready where row 3 waits; after any event both are on row 0.
#[test]
fn given_up_of_d() {
    gives_up(&d(), 3, &[Some(0)], &[(3, 2, 0, &[])]);
    gives_up(&d(), 3, &[Some(1), Some(2), Some(8), None], &[(3, 1, 1, &[])]);
    prints_given_up(&d().input(Some(0), 3), "3 folded 2 distance 0 run\n");
    prints_given_up(&d().input(Some(1), 3), "3 folded 1 distance 1 run\n");
    // None counted: from offset 1 on all fold into row 0, and every run has length 0. Row 1 is
    // ready where row 0 waits. Rows 2 and 3 wait as row 0 does; event 0 leads from them to row
    // 0, from row 0 to row 1, which is ready.
    gives_up(&d(), 0, &[Some(0)], &[(3, 2, 0, &[])]);
    let all = [(1, 0, 1, &[][..]), (2, 0, 1, &[0]), (3, 0, 1, &[0])];
    gives_up(&d(), 0, &[Some(1), Some(8), None], &all);
}

/// A: row 0 is ready where row 2 waits, and rows 1 and 2 agree. B, E: nothing folds. F: row 1 is
/// unreached. With none counted rows 1 and 2 of A fold into row 0 from offset 1 on.
#[test]
fn given_up_of_the_other_tables() {
    gives_up(&a(), 1, &[Some(0)], &[(1, 2, 0, &[])]);
    gives_up(&a(), 1, &[Some(1), Some(2), None], &[(0, 2, 1, &[]), (1, 2, 0, &[])]);
    gives_up(&a(), 0, &[Some(0)], &[(2, 1, 0, &[])]);
    gives_up(&a(), 0, &[Some(1), Some(2), None], &[(1, 0, 1, &[]), (2, 0, 1, &[])]);
    for offset in [Some(0), Some(1), Some(6), None] {
        gives_up(&b(), 3, &[offset], &[]);
        gives_up(&e(W), 3, &[offset], &[]);
        gives_up(&e(R), 3, &[offset], &[]);
        gives_up(&f(), 1, &[offset], &[]);
        prints_given_up(&b().input(offset, 3), "");
    }
}

/// A chain with ready rows 0 and 2. Row 0 differs from the last row after no event and after
/// two, not after one: the last run that differs has two. Together with the depths all are 3:
/// before offset 3 nothing folds.
#[test]
fn the_last_run_not_the_shortest() {
    let given = Table::new(1, 0, &[1, 2, 3, 3], &[R, W, R, W]);
    let all = [(0, 3, 3, &[0, 0][..]), (1, 3, 2, &[0]), (2, 3, 1, &[])];
    gives_up(&given, 1, &[Some(3), Some(8), None], &all);
    gives_up(&given, 1, &[Some(0), Some(1), Some(2)], &[]);
}

/// The way by the events 1 0 1 to the only ready row: no other run from row 0 differs from row
/// 4, which stays and waits. With event 1 idle one event counts: the run has three events and
/// the distance is 2; from row 2 the run is the idle event alone, distance 1. With event 0 idle
/// two events of the whole way count, one from row 1 and one from row 2 on. With both counted
/// the distances are one more than the lengths.
#[test]
fn runs_with_idle_events() {
    let way: [&[u8]; 4] = [&[1, 0, 1], &[0, 1], &[1], &[]];
    let lines = |distance: [usize; 4]| [0, 1, 2, 3].map(|row| (row, 4, distance[row], way[row]));
    gives_up(&by_turns(), 1, &[Some(2), Some(3), None], &lines([2, 2, 1, 1]));
    gives_up(&by_turns(), 1, &[Some(0), Some(1)], &[]);
    gives_up(&by_turns(), 2, &[Some(3), None], &lines([3, 2, 2, 1]));
    gives_up(&by_turns(), 3, &[Some(4), None], &lines([4, 3, 2, 1]));
    prints_given_up(
        &by_turns().input(Some(2), 1),
        "0 folded 4 distance 2 run 1 0 1\n\
         1 folded 4 distance 2 run 0 1\n\
         2 folded 4 distance 1 run 1\n\
         3 folded 4 distance 1 run\n",
    );
    // None counted: all fold into row 0, at distance 1. Row 1 comes to row 3 by 0 1, while row 0
    // goes to row 4; before that all wait. Row 2 comes there by 1. Row 3 is ready at once. Row 4
    // stays, and row 0 comes to row 3 by 1 0 1.
    let all = [(1, 0, 1, &[0, 1][..]), (2, 0, 1, &[1]), (3, 0, 1, &[]), (4, 0, 1, &[1, 0, 1])];
    gives_up(&by_turns(), 0, &[Some(1), Some(5), None], &all);
    gives_up(&by_turns(), 0, &[Some(0)], &[]);
}

/// The circles with event 1 idle. At offset 1 row 1 folds into row 0, which is ready where it
/// waits. From offset 2 on all fold into row 4. Rows 0 and 1 come by event 0 to row 2, which
/// waits, and from there by event 1 to row 3, which is ready; by 1 0 they come to row 2. Row 2
/// comes to row 3 by event 1. With none counted all fold into row 0 at distance 1; row 3 is ready
/// as row 0 is. By event 0 they come to rows 4 and 2, by event 1 to rows 2 and 1, and all these
/// wait; by 0 0 both to row 4; by 0 1 row 0 comes to row 3.
#[test]
fn runs_around_idle_circles() {
    gives_up(&circles(), 1, &[Some(0)], &[]);
    gives_up(&circles(), 1, &[Some(1)], &[(1, 0, 1, &[])]);
    let all = [(0, 4, 2, &[0, 1][..]), (1, 4, 2, &[0, 1]), (2, 4, 1, &[1]), (3, 4, 1, &[])];
    gives_up(&circles(), 1, &[Some(2), Some(3), Some(10), None], &all);
    let all = [(1, 0, 1, &[][..]), (2, 0, 1, &[]), (3, 0, 1, &[0, 1]), (4, 0, 1, &[])];
    gives_up(&circles(), 0, &[Some(1), None], &all);
    for mask in [2, 3] {
        gives_up(&circles(), mask, &[Some(0), Some(1), None], &[]);
    }
}

/// "then the lowest by events": events 1 and 2 lead from row 0 to row 1, which is ready, event 0
/// to row 2, where all ends. Where event 1 counts the run is event 1. If it is idle and event 2
/// counts, only event 2 is a run that differs and has a counted event. If event 0 alone counts,
/// the run has no counted event, and is event 1 again.
#[test]
fn the_lowest_run() {
    let given = Table::new(3, 0, &[2, 1, 1, 2, 2, 2, 2, 2, 2], &[W, R, W]);
    for (mask, event) in [(7, 1), (3, 1), (5, 2), (6, 1)] {
        gives_up(&given, mask, &[Some(2), None], &[(0, 2, 2, &[event]), (1, 2, 1, &[])]);
        gives_up(&given, mask, &[Some(0), Some(1)], &[]);
    }
    gives_up(&given, 1, &[Some(1), Some(2), None], &[(0, 2, 1, &[1]), (1, 2, 1, &[])]);
}

/// "the shortest such in all its events, then the lowest": event 0, which is idle, leads from
/// row 0 to row 1, where it stays; event 1 leads from both to row 2, which is ready, and from
/// there to row 3, where all ends. The runs 0 1 and 0 0 1 are lower than 1, but longer. At
/// offset 1 rows 0 and 1, which agree, fold together, the rest is kept.
#[test]
fn the_shortest_before_the_lowest() {
    let given = Table::new(2, 0, &[1, 2, 1, 2, 3, 3, 3, 3], &[W, W, R, W]);
    let all = [(0, 3, 2, &[1][..]), (1, 3, 2, &[1]), (2, 3, 1, &[])];
    gives_up(&given, 2, &[Some(2), Some(8), None], &all);
    gives_up(&given, 2, &[Some(0), Some(1)], &[(1, 0, 0, &[])]);
}

/// C at offset 2, row 0, with something wrong: the answer, and nothing is changed but by 18.
/// "four rows need 22 scratch cells"; the run has one event. Where two rules are broken the
/// first gives the answer: 1 to 6 in number order, 16, 7, 18.
#[test]
fn refusals_of_what_is_given_up() {
    type Line<'a> = (&'a str, fn(&mut given_up::Call), [usize; 2]);
    let lines: [Line; 24] = [
        ("no rows", |c| c.asked.given.rows = 0, [1, 0]),
        ("1,025 rows", |c| c.asked.given.rows = 1025, [1, 0]),
        ("no events", |c| c.asked.given.events = 0, [2, 0]),
        ("33 events", |c| c.asked.given.events = 33, [2, 0]),
        ("a cell more", |c| c.asked.given.cells.push(0), [3, 0]),
        ("no marks", |c| c.asked.given.marks.clear(), [3, 0]),
        ("the start", |c| c.asked.given.start = 4, [4, 0]),
        ("row 4 of four", |c| c.asked.row = 4, [4, 0]),
        ("row 65,536", |c| c.asked.row = 65_536, [4, 0]),
        ("the greatest number as row", |c| c.asked.row = usize::MAX, [4, 0]),
        ("a target", |c| c.asked.given.cells[2] = 4, [5, 2]),
        ("a spare bit", |c| c.asked.given.marks[0] |= 16, [6, 0]),
        ("a mask bit", |c| c.asked.mask = 3, [16, 0]),
        ("21 scratch cells", |c| c.scratch = 21, [7, 0]),
        ("no scratch", |c| c.scratch = 0, [7, 0]),
        ("no rows, and row 4", |c| (c.asked.given.rows, c.asked.row) = (0, 4), [1, 0]),
        ("a cell more, and row 4", |c| (c.asked.given.cells.push(0), c.asked.row = 4).1, [3, 0]),
        ("row 4 and a target", |c| (c.asked.row, c.asked.given.cells[0]) = (4, 9), [4, 0]),
        ("row 4 and a spare bit", |c| (c.asked.row, c.asked.given.marks[0]) = (4, 255), [4, 0]),
        ("row 4 and a mask bit", |c| (c.asked.row, c.asked.mask) = (4, 2), [4, 0]),
        ("row 4 and no scratch", |c| (c.asked.row, c.scratch) = (4, 0), [4, 0]),
        ("row 4 and no room for a run", |c| (c.asked.row, c.run) = (4, 0), [4, 0]),
        ("a mask bit and no scratch", |c| (c.asked.mask, c.scratch) = (2, 0), [16, 0]),
        ("21 scratch cells and no room for the run", |c| (c.scratch, c.run) = (21, 0), [7, 0]),
    ];
    for (what, change, [number, place]) in lines {
        let mut call = asking(&c(), 1, Some(2), 0, 1);
        change(&mut call);
        leaves(what, &call, &call.refused(number, place));
    }
    // 18: the first 22 of 25 scratch cells are 0, and no more. The others are as they were.
    let call = asking(&c(), 1, Some(2), 0, 0);
    for left in [call.by(&Product), call.by(&given_up::Own::default())] {
        assert_eq!(left.answer, [18, 0, 0, 0]);
        assert_eq!(left.scratch[..22], [0; 22]);
        assert_eq!(left.scratch[22..], Fill::Pattern.cells(25)[22..]);
    }
    // 22 scratch cells are enough, and rows without a run need no buffer for it.
    for (row, run, answer) in [(0, 1, [0, 2, 1, 0]), (1, 0, [0, 1, 0, 0]), (3, 0, [0; 4])] {
        let mut call = asking(&c(), 1, Some(2), row, run);
        call.scratch = 22;
        assert_eq!(call.by(&Product).answer, answer, "{call}");
        assert_eq!(call.by(&given_up::Own::default()).answer, answer, "{call}");
    }
    println!("product: {} calls with faults, of what is given up", lines.len() + 1);
}

/// Of two tables the first comes first (request 107), by this run; or, without one, they are
/// equal. Asked the other way round, the second does. With three scratch cells more than are
/// named.
fn in_order(one: &Table, other: &Table, run: Option<&[u8]>) {
    assert_eq!(ordering::first_difference(one, other).as_deref(), run, "{one:?} {other:?}");
    let order = if run.is_some() { Ordering::Less } else { Ordering::Equal };
    for (one, other, order) in [(one, other, order), (other, one, order.reverse())] {
        let mut call = ordering::Call::of(one, other, Fill::Pattern);
        call.scratch += 3;
        put_in_order("two tables", &call, &call.expecting(order));
    }
}

/// Answer and scratch afterwards are these, by the product and by the own reading.
fn put_in_order(what: &str, call: &ordering::Call, expected: &ordering::Left) {
    assert_eq!(call.by(&Product), *expected, "product, {what}: {call}");
    assert_eq!(call.by(&ordering::Own), *expected, "own reading, {what}: {call}");
}

/// F waits after every run, C is ready after the run 0 alone, A after the empty one alone. F and
/// C agree after the empty run and differ after 0, where F waits: F comes before C. After the
/// empty run both wait and A is ready: both come before A. Reduced as A0 and C1 tell, A and C
/// show what they showed; A1 and C2 always wait, as F does.
#[test]
fn order_of_a_c_and_f() {
    in_order(&f(), &c(), Some(&[0]));
    in_order(&f(), &a(), Some(&[]));
    in_order(&c(), &a(), Some(&[]));
    for table in [a(), c(), f()] {
        in_order(&table, &table, None);
    }
    let a0 = Table::new(1, 0, &[1, 1], &[R, W]);
    in_order(&a(), &a0, None);
    in_order(&f(), &a0, Some(&[]));
    in_order(&c(), &Table::new(1, 0, &[1, 2, 2], &[W, R, W]), None);
    let a1 = Table::new(1, 0, &[0], &[W]);
    in_order(&f(), &a1, None);
    in_order(&a1, &c(), Some(&[0]));
}

/// After the empty run E with a ready row is ready, the others wait: it comes last. After 0 table
/// B, on row 1, is ready; D, on row 0, and the waiting E are not: they come before B. D is on
/// row 0 after 1, too, and ready after 0 0, on row 1: E comes before D. At offset 0 D becomes a
/// table that shows the same; at offset 1 it becomes one that is ready at once.
#[test]
fn order_of_b_d_and_e() {
    in_order(&e(W), &d(), Some(&[0, 0]));
    in_order(&e(W), &b(), Some(&[0]));
    in_order(&d(), &b(), Some(&[0]));
    for table in [e(W), b(), d()] {
        in_order(&table, &e(R), Some(&[]));
        in_order(&table, &table, None);
    }
    in_order(&d(), &Table::new(2, 0, &[1, 1, 2, 0, 1, 1], &[W, W, R]), None);
    in_order(&d(), &Table::new(2, 0, &[1, 1, 0, 2, 1, 1], &[R, W, W]), Some(&[]));
}

/// Tables that are ready after one run alone, 1, 0 0, 0 1 and 1 0. The shortest run is before the
/// lowest: 1 is before 0 0. Of equally long ones the lowest is the first: 0 0, then 0 1, then
/// 1 0, whatever their last events are. After it the table that is ready there comes last.
#[test]
fn the_shortest_run_and_the_lowest_decide() {
    let after_1 = Table::new(2, 0, &[2, 1, 2, 2, 2, 2], &[W, R, W]);
    let after_0_0 = Table::new(2, 0, &[1, 3, 2, 3, 3, 3, 3, 3], &[W, W, R, W]);
    let after_0_1 = Table::new(2, 0, &[1, 3, 3, 2, 3, 3, 3, 3], &[W, W, R, W]);
    let after_1_0 = Table::new(2, 0, &[3, 1, 2, 3, 3, 3, 3, 3], &[W, W, R, W]);
    for (later, run) in [(&after_0_0, [0, 0]), (&after_0_1, [0, 1]), (&after_1_0, [1, 0])] {
        in_order(later, &after_1, Some(&[1]));
        in_order(&e(W), later, Some(&run));
    }
    in_order(&after_0_1, &after_0_0, Some(&[0, 0]));
    in_order(&after_1_0, &after_0_0, Some(&[0, 0]));
    in_order(&after_1_0, &after_0_1, Some(&[0, 1]));
}

/// A circle of two rows shows ready and wait by turns, one of three ready, wait, ready and again:
/// they agree after fewer than three events, and after three the first waits. The start decides,
/// not the row's number; unreached rows do not: C begun at row 1 is A, and at row 2 it is F.
#[test]
fn order_of_circles_and_starts() {
    let two = Table::new(1, 0, &[1, 0], &[R, W]);
    let three = Table::new(1, 0, &[1, 2, 0], &[R, W, R]);
    in_order(&two, &three, Some(&[0, 0, 0]));
    for (start, equal) in [(0, c()), (1, a()), (2, f()), (3, f())] {
        in_order(&Table { start, ..c() }, &equal, None);
    }
}

/// A and C, of three rows and four, with something wrong: the answer, and nothing is changed. The
/// first's rules come first, then the second's, then 19, then 7.
#[test]
fn refusals_of_two_tables() {
    type Line<'a> = (&'a str, fn(&mut ordering::Call), [usize; 2]);
    let lines: [Line; 27] = [
        ("no rows in the first", |c| c.tables[0].rows = 0, [1, 0]),
        ("1,025 rows in the second", |c| c.tables[1].rows = 1025, [1, 0]),
        ("33 events in the first", |c| c.tables[0].events = 33, [2, 0]),
        ("no events in the second", |c| c.tables[1].events = 0, [2, 0]),
        ("a cell more in the first", |c| c.tables[0].cells.push(0), [3, 0]),
        ("no marks in the second", |c| c.tables[1].marks.clear(), [3, 0]),
        ("two events in the second, four cells", |c| c.tables[1].events = 2, [3, 0]),
        ("the first's start", |c| c.tables[0].start = 3, [4, 0]),
        ("the second's start", |c| c.tables[1].start = 4, [4, 0]),
        ("a target of the first", |c| c.tables[0].cells[1] = 3, [5, 1]),
        ("a target of the second", |c| c.tables[1].cells[2] = 4, [5, 2]),
        ("the last targets of the second", |c| c.tables[1].cells[2..].fill(9), [5, 2]),
        ("a spare bit of the first", |c| c.tables[0].marks[0] |= 8, [6, 0]),
        ("a spare bit of the second", |c| c.tables[1].marks[0] |= 16, [6, 0]),
        ("two events in the first", |c| two_events(c, 0), [19, 0]),
        ("two events in the second", |c| two_events(c, 1), [19, 0]),
        ("11 scratch cells", |c| c.scratch = 11, [7, 0]),
        ("no scratch", |c| c.scratch = 0, [7, 0]),
        ("9 scratch cells, the first's rows squared", |c| c.scratch = 9, [7, 0]),
        (
            "a spare bit of the first, no rows in the second",
            |c| (c.tables[0].marks[0], c.tables[1].rows) = (255, 0),
            [6, 0],
        ),
        ("a target of each", |c| (c.tables[0].cells[2], c.tables[1].cells[0]) = (3, 4), [5, 2]),
        (
            "starts of both, and of the first no events",
            |c| (c.tables[0].start, c.tables[1].start, c.tables[0].events) = (9, 9, 0),
            [2, 0],
        ),
        (
            "two events in the first, a spare bit of the second",
            |c| (two_events(c, 0), c.tables[1].marks[0] = 255).0,
            [6, 0],
        ),
        (
            "two events in the second, and a start",
            |c| (two_events(c, 1), c.tables[1].start = 4).0,
            [4, 0],
        ),
        (
            "a spare bit of the second, no scratch",
            |c| (c.tables[1].marks[0], c.scratch) = (255, 0),
            [6, 0],
        ),
        (
            "a spare bit of the first, no scratch",
            |c| (c.tables[0].marks[0], c.scratch) = (255, 0),
            [6, 0],
        ),
        ("two events in the second, no scratch", |c| (two_events(c, 1), c.scratch = 0).0, [19, 0]),
    ];
    let sound = ordering::Call::of(&a(), &c(), Fill::Pattern);
    assert_eq!(sound.scratch, 12);
    for (what, change, [number, place]) in lines {
        let mut call = sound.clone();
        change(&mut call);
        put_in_order(what, &call, &call.refused(number, place));
    }
    // 12 of 15 scratch cells are 0 afterwards, and no more. C comes before A.
    let call = ordering::Call { scratch: 15, ..sound };
    for left in [call.by(&Product), call.by(&ordering::Own)] {
        assert_eq!(left.answer, [0, 2, 0, 0]);
        assert_eq!(left.scratch[..12], [0; 12]);
        assert_eq!(left.scratch[12..], Fill::Pattern.cells(15)[12..]);
    }
    println!("product: {} calls with faults, of two tables", lines.len());
}

/// One of the tables has two events that lead to row 0.
fn two_events(call: &mut ordering::Call, which: usize) {
    let table = &mut call.tables[which];
    (table.events, table.cells) = (2, vec![0; 2 * table.rows]);
}

/// "bit e for event e": of 32 events one leads from row 0, which is ready, to row 1;
/// all others stay. If it is the only one that counts, row 0 has depth 0 and
/// distance 1 from row 1, and folds into it at offset 1. If another one is, a run may
/// stay on row 0 as long as one likes.
#[test]
fn each_bit_is_for_its_event() {
    for leads in 0..32 {
        let mut targets = [[0; 32], [1; 32]].concat();
        targets[leads] = 1;
        let given = Table::new(32, 0, &targets, &[R, W]);
        let row_0: String = targets[..32].iter().map(|target| format!(" {target}")).collect();
        for counts in 0..32 {
            let expected = if counts == leads {
                format!(
                    "table 1 32 1\n\
                     0{} wait\n\
                     folds 2\n\
                     0 folded 1 depth 0\n\
                     1 kept 0 depth endless\n",
                    " 0".repeat(32)
                )
            } else {
                format!(
                    "table 2 32 1\n\
                     0{row_0} ready\n\
                     1{} wait\n\
                     folds 2\n\
                     0 kept 0 depth endless\n\
                     1 kept 1 depth endless\n",
                    " 1".repeat(32)
                )
            };
            prints(&given.input(Some(1), 1 << counts), &expected);
        }
    }
}

/// "its first line ends with how many events count": 0 to 32 of 32 events, the lowest
/// ones and the highest ones; all events stay, so with any counted the depth is
/// endless.
#[test]
fn each_count_of_counted_events() {
    let given = Table::new(32, 0, &[0; 32], &[R]);
    let zeros = " 0".repeat(32);
    for count in 0..=32 {
        let lowest = ((1u64 << count) - 1) as Mask;
        let depth = if count == 0 { "0" } else { "endless" };
        for mask in [lowest, lowest.reverse_bits()] {
            prints(
                &given.input(Some(0), mask),
                &format!("table 1 32 {count}\n0{zeros} ready\nfolds 1\n0 kept 0 depth {depth}\n"),
            );
            prints_sheet(
                &given.sheet_input(mask),
                &format!("sheet 1 32 {count}\n0 1\n1 1\n2 1\nnone 1\n"),
            );
        }
    }
}

/// C with 128 rows: a line of rows, the last leading to itself, only row r
/// ready. The rows behind r are equal, so r + 2 rows remain at offset 0. Of any
/// other two rows the first, row i, has depth i, and their distance is one more
/// than the r - i events from it to row r. Together that is r + 1: before this
/// offset nothing more folds, and from it on one waiting row remains.
#[test]
fn sheets_of_128_rows() {
    let targets: Vec<usize> = (0..128).map(|row: usize| (row + 1).min(127)).collect();
    for ready in 0..127 {
        let mut marks = [W; 128];
        marks[ready] = R;
        let mut expected = "sheet 128 1 1\n".to_string();
        for k in 0..=256 {
            expected += &format!("{k} {}\n", if k <= ready { ready + 2 } else { 1 });
        }
        let given = Table::new(1, 0, &targets, &marks);
        prints_sheet(&given.sheet_input(1), &(expected + "none 1\n"));
    }
}

/// `sheet` reads no offset: fewer than four bytes are no mask; behind the mask an
/// image of no byte has length 0, of one byte 1.
#[test]
fn sheets_of_short_images() {
    for length in 0..=4 {
        prints_sheet(&vec![0; length], "refused 8 0\n");
        prints_sheet(&vec![255; length], "refused 8 0\n");
    }
    for byte in 0..=255 {
        prints_sheet(&[0, 0, 0, 0, byte], "refused 8 1\n");
    }
    prints_sheet(&bytes("00 00 00 00  81 00"), "refused 12 0\n");
    prints_sheet(&bytes("00 00 00 00  00 04"), "refused 12 0\n");
    prints_sheet(&bytes("00 00 00 00  01 04"), "refused 1 0\n");
}

/// What the document says of B and D beside their listings (own reading only):
/// "Rows 1 and 2 have distance 1 and endless depth", and "at offset 1 in D, row
/// 3 is similar to both 1 and 2, which are not similar to each other".
#[test]
fn said_of_b_and_d() {
    let study = Study::of(&b(), 3);
    assert_eq!(study.distance(1, 2), Length::Of(1));
    assert_eq!(study.depth, [Some(Length::Endless); 3]);
    let study = Study::of(&d(), 3);
    assert!(study.similar(3, 1, Some(1)) && study.similar(3, 2, Some(1)));
    assert!(!study.similar(1, 2, Some(1)));
}

/// "`reduce` takes 128 rows, 129 give 12": 128 waiting rows in a line, the last
/// leading to itself. All are equal, so all fold into row 127, which is endless.
#[test]
fn edge_of_128_rows() {
    let targets: Vec<usize> = (0..128).map(|row: usize| (row + 1).min(127)).collect();
    let table = Table::new(1, 0, &targets, &[W; 128]);
    let mut expected = "table 1 1 1\n0 0 wait\nfolds 128\n".to_string();
    for row in 0..127 {
        expected += &format!("{row} folded 127 depth {row}\n");
    }
    expected += "127 kept 0 depth endless\n";
    prints(&table.input(Some(0), 1), &expected);
    prints(&table.input(None, 1), &expected);
    let targets: Vec<usize> = (0..129).map(|row: usize| (row + 1).min(128)).collect();
    let table = Table::new(1, 0, &targets, &[W; 129]);
    prints(&table.input(Some(0), 1), "refused 12 0\n");
}

/// 128 rows in one round, one of them ready: nothing can be saved. The rows are
/// numbered against the way of the round, so every number changes.
#[test]
fn edge_of_128_kept_rows() {
    let targets: Vec<usize> = (0..128usize).map(|row| (row + 127) % 128).collect();
    let mut marks = [W; 128];
    marks[0] = R;
    let table = Table::new(1, 0, &targets, &marks);
    let mut expected = "table 128 1 1\n0 1 ready\n".to_string();
    for row in 1..128 {
        expected += &format!("{row} {} wait\n", (row + 1) % 128);
    }
    expected += "folds 128\n0 kept 0 depth endless\n";
    for row in 1..128 {
        expected += &format!("{row} kept {} depth endless\n", 128 - row);
    }
    for offset in [Some(0), Some(1), Some(255), Some(256), Some(65_534), None] {
        prints(&table.input(offset, 1), &expected);
    }
}

/// "1,024 rows pass, 1,025 give 1": through `reduce` 1,024 rows give 12, so all
/// that can be seen is that they do not give 1.
#[test]
fn edge_of_1024_rows() {
    let targets: Vec<usize> = (0..1024).collect();
    let table = Table::new(1, 0, &targets, &[W; 1024]);
    prints(&table.input(Some(0), 1), "refused 12 0\n");
    prints(&at_0("00 04"), "refused 12 0\n");
    let mut input = at_0("01 04"); // 1,025 rows
    prints(&input, "refused 1 0\n");
    input.extend(vec![0; 129]);
    input.extend([0x01, 0x04]);
    input.extend(vec![0; 2 * 1025]);
    input.extend([1, 0, 0, 0]);
    prints(&input, "refused 1 0\n");
}

/// "32 events pass, 33 give 2".
#[test]
fn edge_of_32_events() {
    let table = Table::new(32, 0, &[0; 32], &[R]);
    let zeros = " 0".repeat(32);
    prints(
        &table.input(Some(0), 0xffff_ffff),
        &format!("table 1 32 32\n0{zeros} ready\nfolds 1\n0 kept 0 depth endless\n"),
    );
    // One row, 33 targets.
    let mut input = at_0("01 00 00 21 00");
    input.extend(vec![0; 66]);
    input.extend([1, 0, 0, 0]);
    prints(&input, "refused 2 0\n");
    // 128 rows and 32 events, all targets 0: rows 1 to 127 are unreached.
    let table = Table::new(32, 0, &[0; 128 * 32], &[W; 128]);
    let mut expected =
        format!("table 1 32 32\n0{zeros} wait\nfolds 128\n0 kept 0 depth endless\n");
    for row in 1..128 {
        expected += &format!("{row} unreached\n");
    }
    prints(&table.input(None, 0xffff_ffff), &expected);
}

/// No. 1: "rows are 0 or above 1,024", example "rows 0".
#[test]
fn refusal_1() {
    prints(&at_0("00 00"), "refused 1 0\n");
    prints(&at_0("00 00 00 00 01 00 00 00"), "refused 1 0\n");
    prints(&bytes("ff ff  ff ff ff ff  ff ff"), "refused 1 0\n");
}

/// No. 2: "events are 0 or above 32", example "rows 1, events 33". A target
/// count of 0 is a multiple of the rows, so it gives 2 and not 9.
#[test]
fn refusal_2() {
    let mut input = at_0("01 00 00 21 00");
    prints(&input, "refused 2 0\n"); // 2 comes before "targets cut short (8)"
    input.extend(vec![0; 66]);
    input.extend([1, 0, 0, 0]);
    prints(&input, "refused 2 0\n");
    prints(&at_0("02 00 00 00 00 01 00 00 00"), "refused 2 0\n");
}

/// No. 4: "the start ... is no row", example "rows 2, start 2".
#[test]
fn refusal_4() {
    prints(&at_0("02 00 00 02 00 00 00 01 00 01 00 02 00"), "refused 4 0\n");
    prints(&at_0("02 00 00 02 00 00 00 01 00 01 00 01 01"), "refused 4 0\n");
}

/// No. 5: "a target is no row; place: first such cell", example "rows 2, cells
/// 1 2: place 1".
#[test]
fn refusal_5() {
    prints(&at_0("02 00 00 02 00 01 00 02 00 01 00 00 00"), "refused 5 1\n");
    prints(&at_0("02 00 00 02 00 02 00 02 00 01 00 00 00"), "refused 5 0\n");
    // Two events: the cells of row 1 are 2 and 3.
    prints(&at_0("02 00 00 04 00 00 00 01 00 01 00 00 01 01 00 00 00"), "refused 5 3\n");
}

/// No. 6: "a spare mark bit is set", example "rows 2, mark byte 4".
#[test]
fn refusal_6() {
    prints(&at_0("02 00 04 02 00 00 00 01 00 01 00 00 00"), "refused 6 0\n");
    prints(&at_0("02 00 80 02 00 00 00 01 00 01 00 00 00"), "refused 6 0\n");
    // Nine rows: the spare bits are in the second byte.
    let tail = " 09 00 00 00 00 00 00 00 00 00 00 00 00 00 00 00 00 00 00 00 01 00 00 00";
    prints(&at_0(&format!("09 00 ff 02{tail}")), "refused 6 0\n");
    let mut expected = "table 1 1 1\n0 0 ready\nfolds 9\n0 kept 0 depth endless\n".to_string();
    for row in 1..9 {
        expected += &format!("{row} unreached\n");
    }
    prints(&at_0(&format!("09 00 ff 01{tail}")), &expected);
}

/// No. 8: "an image ends early; place: its length", example "image of one byte:
/// place 1"; and "Fewer than six bytes before the image give 8, place 0".
#[test]
fn refusal_8() {
    prints(&at_0("03"), "refused 8 1\n");
    for length in 0..6 {
        prints(&vec![0; length], "refused 8 0\n");
        prints(&vec![255; length], "refused 8 0\n");
    }
    // Case A0 cut at every length: the image's length is six less than the
    // input's.
    let whole = at_0("03 00 01 03 00 01 00 02 00 02 00 01 00 00 00");
    for length in 0..whole.len() {
        prints(&whole[..length], &format!("refused 8 {}\n", length.saturating_sub(6)));
    }
}

/// No. 9: "target count no multiple of rows, or start count not 1", example
/// "rows 2, target count 3".
#[test]
fn refusal_9() {
    prints(&at_0("02 00 00 03 00 00 00 00 00 00 00 01 00 00 00"), "refused 9 0\n");
    prints(&at_0("02 00 00 03 00"), "refused 9 0\n");
    prints(&at_0("02 00 00 02 00 00 00 01 00 00 00 00 00"), "refused 9 0\n");
    prints(&at_0("02 00 00 02 00 00 00 01 00 02 00 00 00"), "refused 9 0\n");
    prints(&at_0("02 00 00 02 00 00 00 01 00 01 01 00 00"), "refused 9 0\n");
}

/// No. 10: "bytes follow the last section", example "a sound image and one byte
/// more".
#[test]
fn refusal_10() {
    for more in 0..=255u8 {
        let mut input = at_0("03 00 01 03 00 01 00 02 00 02 00 01 00 00 00");
        input.push(more);
        prints(&input, "refused 10 0\n");
    }
}

/// No. 12: "`reduce` only: rows above 128", example "rows 129".
#[test]
fn refusal_12() {
    prints(&at_0("81 00"), "refused 12 0\n");
    prints(&at_0("80 00"), "refused 8 2\n"); // 128 rows: marks cut short
    for rows in 129..=65_535u16 {
        let input = [&at_0("")[..], &rows.to_le_bytes()].concat();
        prints(&input, if rows <= 1024 { "refused 12 0\n" } else { "refused 1 0\n" });
    }
}

/// No. 16: "a mask bit at or above the event count is set ... in `reduce` once the
/// image is read". A has one event, B two; the image of one row and nine events has
/// bits 0 to 8, the last of them in the mask's second byte.
#[test]
fn refusal_16() {
    for mask in [2, 3, 1 << 8, 1 << 16, 1 << 24, 1 << 31, 0xffff_fffe, 0xffff_ffff] {
        prints(&a().input(Some(0), mask), "refused 16 0\n");
        prints(&a().input(None, mask), "refused 16 0\n");
    }
    for mask in [4, 5, 6, 7, 1 << 31 | 3] {
        prints(&b().input(Some(0), mask), "refused 16 0\n");
    }
    let image = format!("01 00 00  09 00 {} 01 00 00 00", "00 ".repeat(18));
    let input = |mask: &str| bytes(&format!("00 00  {mask}  {image}"));
    for mask in ["00 02 00 00", "ff ff 00 00", "00 00 01 00", "00 00 00 01", "01 00 00 80"] {
        prints(&input(mask), "refused 16 0\n");
    }
    for (mask, count) in
        [("01 00 00 00", 1), ("00 01 00 00", 1), ("ff 00 00 00", 8), ("ff 01 00 00", 9)]
    {
        let zeros = " 0".repeat(9);
        let expected =
            format!("table 1 9 {count}\n0{zeros} wait\nfolds 1\n0 kept 0 depth endless\n");
        prints(&input(mask), &expected);
    }
}

/// Each number of events: the highest bit of the mask is taken, the one above it is
/// refused; with 32 events there is none above.
#[test]
fn refusal_16_at_each_number_of_events() {
    for events in 1..=32usize {
        let given = Table::new(events, 0, &vec![0; events], &[W]);
        let line = format!("0{} wait\nfolds 1\n0 kept 0 depth endless\n", " 0".repeat(events));
        let highest: Mask = 1 << (events - 1);
        prints(&given.input(Some(0), highest), &format!("table 1 {events} 1\n{line}"));
        if events < 32 {
            prints(&given.input(Some(0), 2 * highest), "refused 16 0\n");
            prints(&given.input(Some(0), 3 * highest), "refused 16 0\n");
        }
    }
}

/// "the first rule broken gives the answer": two faults in one image, the
/// earlier one answers; and 16 only comes "once the image is read". Each line: what
/// is wrong, the image, the answer.
#[test]
fn first_rule_broken() {
    let list = [
        ("1 before all", "00 00 ff ff ff", "1 0"),
        ("12 before marks cut short", "81 00 ff", "12 0"),
        ("marks cut short before 6", "09 00 ff", "8 3"),
        ("6 before target count cut short", "02 00 ff", "6 0"),
        ("6 before 9", "02 00 ff 03 00", "6 0"),
        ("target count cut short", "02 00 03 03", "8 4"),
        ("9 before targets cut short", "02 00 03 03 00", "9 0"),
        ("9 before 2: count 67 of 2 rows", "02 00 03 43 00", "9 0"),
        ("2 before targets cut short", "02 00 03 42 00", "2 0"),
        ("2 for count 0", "02 00 03 00 00", "2 0"),
        ("targets cut short before 5", "02 00 03 02 00 ff ff 00", "8 8"),
        ("5 before start count cut short", "02 00 03 02 00 00 00 ff ff", "5 1"),
        ("5 before 9", "02 00 03 02 00 00 00 02 00 07 00", "5 1"),
        ("start count cut short", "02 00 03 02 00 00 00 01 00 07", "8 10"),
        ("9 before start cut short", "02 00 03 02 00 00 00 01 00 07 00", "9 0"),
        ("9 before 4", "02 00 03 02 00 00 00 01 00 02 00 02 00", "9 0"),
        ("start cut short before 4", "02 00 03 02 00 00 00 01 00 01 00 ff", "8 12"),
        ("4 before 10", "02 00 03 02 00 00 00 01 00 01 00 02 00 00", "4 0"),
        ("10 alone", "02 00 03 02 00 00 00 01 00 01 00 01 00 00", "10 0"),
    ];
    // No image here has more than one event: the last three masks are too high.
    let masks = ["00 00 00 00", "01 00 00 00", "02 00 00 00", "00 00 00 80", "ff ff ff ff"];
    for (what, image, answer) in list {
        let expected = format!("refused {answer}\n");
        for mask in masks {
            let input = bytes(&format!("00 00 {mask} {image}"));
            let printed = String::from_utf8_lossy(&reduce_text(&input)).to_string();
            assert_eq!(printed, expected, "{what}, mask {mask}");
            prints(&input, &expected);
        }
    }
    println!("product: {} images with two faults, behind {} masks", list.len(), masks.len());
}

/// The product does in a call what radio.rs does; and this is the answer.
fn answers(call: Call, answer: Answer) -> Outcome {
    answers_to("", call, answer)
}

/// The same, with the name of what is tried.
fn answers_to(name: &str, call: Call, answer: Answer) -> Outcome {
    let left = compare(&Product, &call).unwrap_or_else(|what| panic!("{name}: {what}"));
    assert_eq!(left.answer, answer, "{name}: {call}");
    left
}

/// The table is written as this radio image, and the image read as the table.
fn radio(table: &Table, image: &str) {
    let (given, image) = (Numbers::of(table), bytes(image));
    let call = Call::WriteRadio { given: given.clone(), out: image.len() };
    assert_eq!(answers(call, [0, image.len(), 0, 0]).out, image);
    let call = Call::ReadRadio { image, cells: given.cells.len(), marks: given.marks.len() };
    let left = answers(call, [0, table.rows, table.events, table.start]);
    assert_eq!((left.cells, left.marks), (given.cells, given.marks));
}

/// Request 102: "sections as now, but each target is a signed byte, target minus
/// own row". The row count, the marks; the target count, the steps row by row; the
/// count 1, the start.
#[test]
fn radio_images() {
    // From 0 to 1, from 1 to 2, from 2 to 2: steps 1, 1, 0.
    radio(&a(), "03 00 01  03 00 01 01 00  01 00 00 00");
    // From 0 to 1 and 2: steps 1 2; from 1 to 0: −1, ff; from 2 to 0: −2, fe.
    radio(&b(), "03 00 02  06 00 01 02 ff ff fe fe  01 00 00 00");
    radio(&c(), "04 00 02  04 00 01 01 01 00  01 00 00 00");
    // And from 3 to 0: −3, fd.
    radio(&d(), "04 00 02  08 00 01 02 ff ff fe fe fd fd  01 00 03 00");
    radio(&e(W), "01 00 00  02 00 00 00  01 00 00 00");
    radio(&e(R), "01 00 01  02 00 00 00  01 00 00 00");
    // From 0 to 0, from 1 to 0: steps 0, −1.
    radio(&f(), "02 00 02  02 00 00 ff  01 00 00 00");
}

/// 129 rows, row 0 leading to row 127 and every other to row 0: the steps are 127,
/// −1, −2 and so on to −128, in hexadecimal 7f ff fe ... 80.
#[test]
fn radio_image_with_all_the_reach() {
    let mut targets = [0; 129];
    targets[0] = 127;
    let mut steps = "7f".to_string();
    for byte in (0x80..=0xff).rev() {
        steps += &format!(" {byte:02x}");
    }
    let image = format!("81 00 {} 81 00 {steps} 01 00 80 00", "00 ".repeat(17));
    radio(&Table::new(1, 128, &targets, &[W; 129]), &image);
}

/// "14 (writer), a step outside −128 to 127, place the first such cell, between 6
/// and 7".
#[test]
fn refusal_14() {
    let mut given =
        Numbers { rows: 129, events: 1, start: 0, cells: vec![0; 129], marks: vec![0; 17] };
    let write = |given: &Numbers, out| Call::WriteRadio { given: given.clone(), out };
    // 17 mark bytes, 129 targets and 8 bytes.
    answers(write(&given, 154), [0, 154, 0, 0]);
    answers(write(&given, 153), [7, 0, 0, 0]);
    // From 0 to 128.
    given.cells[0] = 128;
    answers(write(&given, 154), [14, 0, 0, 0]);
    answers(write(&given, 0), [14, 0, 0, 0]);
    // Row 128 is the only one of the last byte; its next bit is spare.
    given.marks[16] = 2;
    answers(write(&given, 154), [6, 0, 0, 0]);
    given.cells[128] = 129;
    answers(write(&given, 154), [5, 128, 0, 0]);
    // Two events: row 129 has the cells 258 and 259. From 129 to 0: −129.
    let mut given =
        Numbers { rows: 130, events: 2, start: 0, cells: vec![1; 260], marks: vec![0; 17] };
    answers(write(&given, 285), [0, 285, 0, 0]);
    given.cells[259] = 0;
    answers(write(&given, 285), [14, 259, 0, 0]);
    given.cells[258] = 0;
    answers(write(&given, 285), [14, 258, 0, 0]);
}

/// The other refusals of the radio writer, by the examples of document 01.
#[test]
fn refusals_of_the_radio_writer() {
    let write = |rows, events, start, cells: &[u16], marks: &[u8], out, answer| {
        let (cells, marks) = (cells.to_vec(), marks.to_vec());
        let given = Numbers { rows, events, start, cells, marks };
        answers(Call::WriteRadio { given, out }, answer);
    };
    write(0, 1, 0, &[], &[], 0, [1, 0, 0, 0]);
    write(0, 33, 0, &[], &[], 0, [1, 0, 0, 0]);
    write(1025, 1, 0, &[0; 1025], &[0; 129], 0, [1, 0, 0, 0]);
    write(1, 33, 0, &[0; 33], &[0], 100, [2, 0, 0, 0]);
    write(1, 0, 0, &[], &[0], 100, [2, 0, 0, 0]);
    write(2, 2, 0, &[0; 5], &[0], 100, [3, 0, 0, 0]);
    write(2, 2, 2, &[0; 4], &[0, 0], 100, [3, 0, 0, 0]);
    write(2, 1, 2, &[2, 2], &[4], 100, [4, 0, 0, 0]);
    write(2, 1, 0, &[1, 2], &[4], 100, [5, 1, 0, 0]);
    write(2, 1, 0, &[1, 1], &[4], 0, [6, 0, 0, 0]);
    // A has one mark byte and three targets: 12 bytes.
    write(3, 1, 0, &[1, 2, 2], &[1], 11, [7, 0, 0, 0]);
    write(3, 1, 0, &[1, 2, 2], &[1], 12, [0, 12, 0, 0]);
}

/// "the first rule broken gives the answer", as of images: each line has what is
/// wrong, the radio image, the answer.
#[test]
fn first_rule_broken_of_radio_images() {
    let list = [
        ("no row count", "", [8, 0]),
        ("row count cut short", "02", [8, 1]),
        ("1 before all", "00 00 ff ff ff", [1, 0]),
        ("1,025 rows", "01 04", [1, 0]),
        ("1,024 rows, marks cut short", "00 04", [8, 2]),
        ("marks cut short before 6", "09 00 ff", [8, 3]),
        ("6 before target count cut short", "02 00 ff", [6, 0]),
        ("6 before 9", "02 00 ff 03 00", [6, 0]),
        ("target count cut short", "02 00 03 03", [8, 4]),
        ("9 before targets cut short", "02 00 03 03 00", [9, 0]),
        ("9 before 2: count 67 of 2 rows", "02 00 03 43 00", [9, 0]),
        ("2 before targets cut short", "02 00 03 42 00", [2, 0]),
        ("2 for count 0", "02 00 03 00 00", [2, 0]),
        ("targets cut short before 5", "02 00 03 02 00 02", [8, 6]),
        ("5 before start count cut short: 0 + 2 is no row", "02 00 03 02 00 02 00", [5, 0]),
        ("0 − 1 is no row", "02 00 03 02 00 ff 00 01 00 00 00", [5, 0]),
        ("1 − 2 is no row", "02 00 03 02 00 00 fe 01 00 00 00", [5, 1]),
        ("1 + 1 is no row", "02 00 03 02 00 00 01 01 00 00 00", [5, 1]),
        ("1 − 128 is no row", "02 00 03 02 00 00 80 01 00 00 00", [5, 1]),
        ("1 + 127 is no row", "02 00 03 02 00 00 7f 01 00 00 00", [5, 1]),
        ("two events: cell 2 is the first of row 1", "02 00 03 04 00 01 00 fe 01 07", [5, 2]),
        ("5 before 9", "02 00 03 02 00 00 01 07 00", [5, 1]),
        ("start count cut short", "02 00 03 02 00 01 ff 07", [8, 8]),
        ("9 before start cut short", "02 00 03 02 00 01 ff 07 00", [9, 0]),
        ("9 before 4", "02 00 03 02 00 01 ff 02 00 02 00", [9, 0]),
        ("start cut short before 4", "02 00 03 02 00 01 ff 01 00 ff", [8, 10]),
        ("4 before 10", "02 00 03 02 00 01 ff 01 00 02 00 00", [4, 0]),
        ("10 before 7", "02 00 03 02 00 01 ff 01 00 01 00 00", [10, 0]),
        ("7 alone", "02 00 03 02 00 01 ff 01 00 01 00", [7, 0]),
    ];
    for (what, image, [number, place]) in list {
        let call = Call::ReadRadio { image: bytes(image), cells: 1, marks: 1 };
        answers_to(what, call, [number, place, 0, 0]);
    }
    println!("product: {} radio images with faults", list.len());
}

/// A's and F's radio images, as above.
const IMAGE_A: &str = "03 00 01  03 00 01 01 00  01 00 00 00";
const IMAGE_F: &str = "02 00 02  02 00 00 ff  01 00 00 00";

/// A pack of A and F: the count 2, then 12 and 11 bytes. In the list rows, events
/// and start of each; then the targets 1 2 2 and 0 0; the mark bytes 1 and 2.
#[test]
fn pack_of_a_and_f() {
    let pack = bytes(&format!("02 00  {IMAGE_A}  {IMAGE_F}"));
    assert_eq!(pack.len(), 25);
    let list = vec![3, 1, 0, 2, 1, 0];
    let (cells, marks) = (vec![1, 2, 2, 0, 0], vec![1, 2]);
    let write = |out| {
        let (list, cells, marks) = (list.clone(), cells.clone(), marks.clone());
        Call::WritePack { list, cells, marks, out }
    };
    assert_eq!(answers(write(25), [0, 25, 0, 0]).out, pack);
    answers(write(24), [7, 0, 0, 0]);
    assert_eq!(answers(write(30), [0, 25, 0, 0]).out[..25], pack);
    let read = |list, cells, marks| Call::ReadPack { pack: pack.clone(), list, cells, marks };
    let left = answers(read(6, 5, 2), [0, 2, 0, 0]);
    assert_eq!((left.list, left.cells, left.marks), (list.clone(), cells.clone(), marks.clone()));
    answers(read(5, 5, 2), [7, 0, 0, 0]);
    answers(read(6, 4, 2), [7, 0, 0, 0]);
    answers(read(6, 5, 1), [7, 0, 0, 0]);
    let left = answers(read(9, 9, 9), [0, 2, 0, 0]);
    assert_eq!(
        (&left.list[..6], &left.cells[..5], &left.marks[..2]),
        (&list[..], &cells[..], &marks[..])
    );
}

/// Sixteen times F, and D between two of F: its cells and its mark byte lie between
/// theirs.
#[test]
fn packs_of_d_and_f() {
    let pack = bytes(&format!("10 00 {}", format!("{IMAGE_F} ").repeat(16)));
    let left = answers(Call::ReadPack { pack, list: 48, cells: 32, marks: 16 }, [0, 16, 0, 0]);
    assert_eq!(left.list, [2, 1, 0].repeat(16));
    assert_eq!((left.cells, left.marks), (vec![0; 32], vec![2; 16]));
    let image_d = "04 00 02  08 00 01 02 ff ff fe fe fd fd  01 00 03 00";
    let pack = bytes(&format!("03 00 {IMAGE_F} {image_d} {IMAGE_F}"));
    let left = answers(Call::ReadPack { pack, list: 9, cells: 12, marks: 3 }, [0, 3, 0, 0]);
    assert_eq!(left.list, [2, 1, 0, 4, 2, 3, 2, 1, 0]);
    assert_eq!(left.cells, [0, 0, 1, 2, 0, 0, 0, 0, 0, 0, 0, 0]);
    assert_eq!(left.marks, [2, 2, 2]);
}

/// Packs that are refused. "Places count within the table at fault, but 8 gives the
/// pack's length, also for a cut count"; "bytes left over are judged only after the
/// last"; "15, a pack count of 0 or above 16, before the first image".
#[test]
fn refusals_of_packs() {
    // A pack of A and F in which F is another.
    let with = |second: &str| format!("02 00 {IMAGE_A} {second}");
    let list = [
        ("no count", String::new(), [8, 0]),
        ("half a count", "02".to_string(), [8, 1]),
        ("15 before the images", "00 00".to_string(), [15, 0]),
        ("17", format!("11 00 {}", format!("{IMAGE_F} ").repeat(17)), [15, 0]),
        ("the high byte counts too", format!("01 01 {IMAGE_F}"), [15, 0]),
        ("no image", "01 00".to_string(), [8, 2]),
        ("no second image", with(""), [8, 14]),
        ("half of its row count", with("02"), [8, 15]),
        ("1", with("00 00"), [1, 0]),
        ("its marks cut short", with("09 00 ff"), [8, 17]),
        ("6", with("02 00 04"), [6, 0]),
        ("9", with("02 00 02 03 00"), [9, 0]),
        ("2", with("02 00 02 42 00"), [2, 0]),
        ("its targets cut short", with("02 00 02 02 00 00"), [8, 20]),
        ("the place is in F", with("02 00 02 02 00 00 fe 01 00 00 00"), [5, 1]),
        ("start count", with("02 00 02 02 00 00 ff 02 00 00 00"), [9, 0]),
        ("start cut short", with("02 00 02 02 00 00 ff 01 00 00"), [8, 24]),
        ("4 before 10", with("02 00 02 02 00 00 ff 01 00 02 00 00"), [4, 0]),
        ("10 before 7", with(&format!("{IMAGE_F} 00")), [10, 0]),
        ("a third image is left over", with(&format!("{IMAGE_F} {IMAGE_A}")), [10, 0]),
        ("7 alone", with(IMAGE_F), [7, 0]),
        // A's start is no row: judged before all of F.
        ("A before F", "02 00 03 00 01 03 00 01 01 00 01 00 03 00 00 00".to_string(), [4, 0]),
        // A's row 2 leads to row 3; F has no rows.
        ("A's place", "02 00 03 00 01 03 00 01 01 01 01 00 00 00 00 00".to_string(), [5, 2]),
    ];
    for (what, pack, [number, place]) in &list {
        for (entries, cells, marks) in [(0, 0, 0), (6, 4, 2), (5, 5, 2), (6, 5, 1)] {
            let call = Call::ReadPack { pack: bytes(pack), list: entries, cells, marks };
            answers_to(what, call, [*number, *place, 0, 0]);
        }
    }
    // A pack cut at any place has its own length as place.
    let whole = bytes(&with(IMAGE_F));
    for length in 0..whole.len() {
        let pack = whole[..length].to_vec();
        answers(Call::ReadPack { pack, list: 9, cells: 9, marks: 9 }, [8, length, 0, 0]);
    }
    println!("product: {} packs with faults", list.len() + whole.len());
}

/// "A pack's writer checks 15, then 1 and 2 table by table, then 3 once for all the
/// tables together, then 4, 5, 6 and 14 table by table, then 7." Each line: what is
/// wrong; list, cells and marks of A and F; the answer.
#[test]
fn refusals_of_the_pack_writer() {
    type Line<'a> = (&'a str, &'a [u16], &'a [u16], &'a [u8], [usize; 2]);
    let (list, cells, marks) = (&[3, 1, 0, 2, 1, 0], &[1, 2, 2, 0, 0], &[1, 2]);
    let lines: [Line; 24] = [
        ("no table", &[], &[], &[], [15, 0]),
        ("no whole table", &[0, 0], cells, marks, [15, 0]),
        ("17 tables without rows", &[0; 51], &[], &[], [15, 0]),
        ("16 tables without rows, and two entries", &[0; 50], &[], &[], [1, 0]),
        ("F's rows", &[3, 1, 0, 0, 1, 0], cells, marks, [1, 0]),
        ("A's events before F's rows", &[3, 33, 0, 0, 1, 0], cells, marks, [2, 0]),
        ("A's rows before F's events", &[1025, 1, 0, 2, 0, 0], cells, marks, [1, 0]),
        ("F's events before A's start", &[3, 1, 3, 2, 0, 0], cells, marks, [2, 0]),
        ("F's rows before too few cells", &[3, 1, 0, 0, 1, 0], &[1, 2], marks, [1, 0]),
        ("an entry more", &[3, 1, 0, 2, 1, 0, 1], cells, marks, [3, 0]),
        ("an entry fewer", &[3, 1, 0, 2, 1], cells, marks, [3, 0]),
        ("F is not in the list", &[3, 1, 0], cells, marks, [3, 0]),
        ("a cell fewer", list, &[1, 2, 2, 0], marks, [3, 0]),
        ("a cell more", list, &[1, 2, 2, 0, 0, 0], marks, [3, 0]),
        ("a mark byte fewer", list, cells, &[1], [3, 0]),
        ("a mark byte more", list, cells, &[1, 2, 0], [3, 0]),
        ("3 before A's start", &[3, 1, 3, 2, 1, 0], &[1, 2, 2, 0], marks, [3, 0]),
        // The cells together are right: A takes 1 2 2 0, F the last 0.
        ("F's start", &[4, 1, 0, 1, 1, 1], cells, marks, [4, 0]),
        ("A's target before F's start", &[3, 1, 0, 2, 1, 2], &[1, 2, 3, 0, 0], marks, [5, 2]),
        ("A's spare bit before F's start", &[3, 1, 0, 2, 1, 2], cells, &[9, 2], [6, 0]),
        ("F's start before its target", &[3, 1, 0, 2, 1, 2], &[1, 2, 2, 0, 2], marks, [4, 0]),
        ("the place is in F", list, &[1, 2, 2, 0, 2], &[1, 4], [5, 1]),
        ("F's spare bit", list, cells, &[1, 4], [6, 0]),
        ("7 alone", list, cells, marks, [7, 0]),
    ];
    for (what, list, cells, marks, [number, place]) in lines {
        let (list, cells, marks) = (list.to_vec(), cells.to_vec(), marks.to_vec());
        let call = Call::WritePack { list, cells, marks, out: 24 };
        answers_to(what, call, [number, place, 0, 0]);
    }

    // 14: 129 rows that all lead to row 0, but row 0 to this target; and F with
    // this start. Count and images are 2, 154 and 11 bytes.
    for (target, start, out, answer) in [
        (127, 0, 167, [0, 167, 0, 0]),
        (127, 0, 166, [7, 0, 0, 0]),
        (128, 0, 166, [14, 0, 0, 0]),
        (128, 2, 167, [14, 0, 0, 0]),
        (127, 2, 166, [4, 0, 0, 0]),
    ] {
        let list = vec![129, 1, 0, 2, 1, start];
        let mut cells = vec![0; 131];
        cells[0] = target;
        let mut marks = vec![0; 18];
        marks[17] = 2;
        answers(Call::WritePack { list, cells, marks, out }, answer);
    }
    println!("product: {} lists of tables with faults", lines.len() + 4);
}
