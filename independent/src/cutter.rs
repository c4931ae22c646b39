//! Brute force: the least row count of any table that agrees with a given one,
//! found by trying all smaller tables. It uses nothing of rules.rs.
//!
//! Document 01: "Two tables over the same number of events agree after a run
//! if these marks are equal; otherwise they differ after it." And: "the other
//! table is any table as described above, with its own rows, targets, marks and
//! start; its rows need not come from the given one." Request 104: "Run length ...
//! take in counted events only", and '"Finitely many runs" becomes "only runs
//! below some counted length", for the agreement and for the fewest rows alike.'
//!
//! All lengths here are counted ones. Agreement at offset k is taken as: they
//! agree after every run of length k or more. Agreement with no offset: they
//! differ after runs below some length only.
//!
//! # How agreement is decided
//!
//! Follow one run on both tables at once; the two present rows are a pair. Let
//! EXACT(L) be the pairs on which runs of length exactly L end. EXACT(0) is the
//! pair of the starts and what idle events make of it; EXACT(L+1) is what the
//! counted events make of EXACT(L), and idle events of that. The tables agree
//! after every run of length k or more if and only if no pair of EXACT(k),
//! EXACT(k+1), ... has differing marks. The union of these sets is EXACT(k)
//! closed under all events; call it FROM(k). So: walk k steps, close, look. With
//! no offset: a run with as many counted events as there are pairs, or more,
//! passes some pair twice with a counted event between, and this part can be
//! repeated. If the tables differ after such a run, they differ after runs of
//! every length. So take the number of pairs for k. This is [`agree`].
//!
//! FROM(k+1) is what the counted events make of FROM(k), and idle events of that;
//! it lies within FROM(k). As there are finitely many pairs, the sets stop
//! shrinking at some LAST, and LAST lies in FROM(k) for every k. So no pair of
//! LAST may differ, also with no offset: then the tables agree from the length on
//! at which LAST was reached. (LAST is made of the reachable rounds of pairs with
//! a counted event and whatever can be reached from them; if no event counts, it
//! is empty.) This is [`agree_large`].

use crate::table::{counted, Mask, Offset, Table};

/// Row p of the given table with row q of the other one is pair number
/// p × (other rows) + q.
struct Pairs<'a> {
    given: &'a Table,
    other: &'a Table,
}

/// A set of pairs.
struct Set {
    list: Vec<usize>,
    has: Vec<bool>,
}

impl Set {
    fn add(&mut self, pair: usize) {
        if !self.has[pair] {
            self.has[pair] = true;
            self.list.push(pair);
        }
    }
}

impl Pairs<'_> {
    fn count(&self) -> usize {
        self.given.rows * self.other.rows
    }

    fn none(&self) -> Set {
        Set { list: Vec::new(), has: vec![false; self.count()] }
    }

    fn onward(&self, pair: usize, event: usize) -> usize {
        let (p, q) = (pair / self.other.rows, pair % self.other.rows);
        self.given.target(p, event) * self.other.rows + self.other.target(q, event)
    }

    fn differs(&self, pair: usize) -> bool {
        self.given.marks[pair / self.other.rows] != self.other.marks[pair % self.other.rows]
    }

    /// What those events make of a set.
    fn step(&self, set: &Set, those: Mask) -> Set {
        let mut next = self.none();
        for event in (0..self.given.events).filter(|&event| counted(those, event) == 1) {
            set.list.iter().for_each(|&pair| next.add(self.onward(pair, event)));
        }
        next
    }

    /// The set and all that those events can make of it.
    fn close(&self, mut set: Set, those: Mask) -> Set {
        let mut at = 0;
        while at < set.list.len() {
            for event in (0..self.given.events).filter(|&event| counted(those, event) == 1) {
                set.add(self.onward(set.list[at], event));
            }
            at += 1;
        }
        set
    }

    /// The pair of the starts and what those events can make of it.
    fn closed_starts(&self, those: Mask) -> Set {
        let mut set = self.none();
        set.add(self.given.start * self.other.rows + self.other.start);
        self.close(set, those)
    }

    /// From EXACT(L) to EXACT(L+1), and from FROM(k) to FROM(k+1).
    fn count_one_more(&self, set: &Set, mask: Mask) -> Set {
        self.close(self.step(set, mask), !mask)
    }

    fn none_differs(&self, set: &Set) -> bool {
        set.list.iter().all(|&pair| !self.differs(pair))
    }
}

/// Agreement at an offset or with none.
pub fn agree(given: &Table, other: &Table, mask: Mask, offset: Offset) -> bool {
    assert_eq!(given.events, other.events);
    let pairs = Pairs { given, other };
    let mut set = pairs.closed_starts(!mask);
    for _ in 0..offset.unwrap_or(pairs.count()) {
        set = pairs.count_one_more(&set, mask);
    }
    pairs.none_differs(&pairs.close(set, Mask::MAX))
}

/// The same answer as [`agree`], fast enough for large tables and offsets.
pub fn agree_large(given: &Table, other: &Table, mask: Mask, offset: Offset) -> bool {
    assert_eq!(given.events, other.events);
    let pairs = Pairs { given, other };
    let mut set = pairs.closed_starts(Mask::MAX);
    let mut from = 0;
    while offset.is_none_or(|k| from < k) {
        let next = pairs.count_one_more(&set, mask);
        if next.list.len() == set.list.len() {
            break;
        }
        set = next;
        from += 1;
    }
    pairs.none_differs(&set)
}

/// All lists of targets, for tables begun at row 0, in which the rows are
/// numbered in the order they are first met from row 0, breadth first, lower
/// events first, and every row is met.
///
/// Trying only these is safe: take any table with n rows. Leave out the rows
/// that no run leads to and number the others in the order they are first met.
/// The new table has at most n rows, begins at row 0, has the same mark after
/// every run as the old one, and its targets are in this list for its own row
/// count. So if some table with fewer rows agrees, one of these agrees too.
///
/// The lists are made cell by cell: a cell names a row already met or the next
/// one not yet met; when the cells of a row begin, that row must have been met.
pub fn forms(rows: usize, events: usize) -> Vec<Vec<usize>> {
    fn fill(
        rows: usize,
        events: usize,
        met: usize,
        cells: &mut Vec<usize>,
        found: &mut Vec<Vec<usize>>,
    ) {
        if cells.len() == rows * events {
            if met == rows {
                found.push(cells.clone());
            }
            return;
        }
        if cells.len() / events >= met {
            return; // a row no earlier row leads to
        }
        for target in 0..(met + 1).min(rows) {
            cells.push(target);
            fill(rows, events, met.max(target + 1), cells, found);
            cells.pop();
        }
    }
    let mut found = Vec::new();
    fill(rows, events, 1, &mut Vec::new(), &mut found);
    found
}

/// Tries all smaller tables over a number of events.
pub struct Cutter {
    events: usize,
    /// The forms with 1, 2, ... rows.
    forms: Vec<Vec<Vec<usize>>>,
}

impl Cutter {
    /// For given tables of up to `rows` rows.
    pub fn new(rows: usize, events: usize) -> Cutter {
        Cutter { events, forms: (1..rows).map(|smaller| forms(smaller, events)).collect() }
    }

    /// How many smaller tables are tried for a given table of so many rows.
    pub fn tables_tried(&self, rows: usize) -> usize {
        (1..rows).map(|smaller| self.forms[smaller - 1].len() << smaller).sum()
    }

    /// For each offset: the least row count of any table that agrees with the
    /// given one at it. (The given table agrees with itself, so the answer is
    /// its own row count if no smaller table agrees.)
    ///
    /// For one form the sets FROM(0), FROM(1), ... LAST do not depend on the
    /// marks, so all marks are tried on them at once: no pair of a set differs
    /// under some marks if and only if each row of the other table stands in it
    /// with ready rows only or with waiting ones only. The first such set tells
    /// from which length on a table of that form agrees. A set of pairs is kept as
    /// the bits of one number.
    pub fn least(&self, given: &Table, mask: Mask, offsets: &[Offset]) -> Vec<usize> {
        assert_eq!(given.events, self.events);
        let mut least: Vec<usize> = vec![given.rows; offsets.len()];
        for rows in (1..given.rows).rev() {
            if let Some(first) = self.earliest_agreement(given, mask, rows) {
                for (place, offset) in offsets.iter().enumerate() {
                    if offset.is_none_or(|k| first <= k) {
                        least[place] = rows;
                    }
                }
            }
        }
        least
    }

    /// The least length from which on some table of `rows` rows agrees with
    /// the given one; none if every such table differs after runs of every
    /// length.
    fn earliest_agreement(&self, given: &Table, mask: Mask, rows: usize) -> Option<usize> {
        let count = given.rows * rows;
        assert!(count <= 64);
        // Pairs whose given row is ready; pairs whose other row is row q.
        let mut given_ready = 0u64;
        let mut with_row = vec![0u64; rows];
        for pair in 0..count {
            if given.marks[pair / rows] {
                given_ready |= 1 << pair;
            }
            with_row[pair % rows] |= 1 << pair;
        }

        let some_marks_agree = |set: u64| {
            with_row.iter().all(|pairs| {
                let ready = set & pairs & given_ready;
                ready == 0 || ready == set & pairs
            })
        };
        let mut lines = Lines { counted: vec![0; count], idle: vec![0; count] };
        let lengths = self.forms[rows - 1].iter().filter_map(|form| {
            lines.set(given, mask, form, rows);
            lines.first_from(1 << (given.start * rows), some_marks_agree)
        });
        lengths.min()
    }
}

/// For each pair the pairs to which counted events lead from it, and those to
/// which idle ones do.
struct Lines {
    counted: Vec<u64>,
    idle: Vec<u64>,
}

impl Lines {
    fn set(&mut self, given: &Table, mask: Mask, form: &[usize], rows: usize) {
        for p in 0..given.rows {
            for q in 0..rows {
                let mut onward = [0, 0];
                for event in 0..given.events {
                    let next = given.target(p, event) * rows + form[q * given.events + event];
                    onward[counted(mask, event)] |= 1 << next;
                }
                [self.idle[p * rows + q], self.counted[p * rows + q]] = onward;
            }
        }
    }

    /// The first k for which FROM(k), begun at these starts, is as wanted; none if
    /// LAST is not.
    fn first_from(&self, starts: u64, wanted: impl Fn(u64) -> bool) -> Option<usize> {
        let mut set = grown(starts, |set| step(&self.counted, set) | step(&self.idle, set));
        for k in 0.. {
            if wanted(set) {
                return Some(k);
            }
            let next = grown(step(&self.counted, set), |set| step(&self.idle, set));
            if next == set {
                break;
            }
            set = next;
        }
        None
    }
}

/// What lines make of a set.
fn step(lines: &[u64], set: u64) -> u64 {
    let mut rest = set;
    let mut next = 0;
    while rest != 0 {
        next |= lines[rest.trailing_zeros() as usize];
        rest &= rest - 1;
    }
    next
}

/// The set with what the step makes of it, again and again until nothing is new.
fn grown(mut set: u64, step: impl Fn(u64) -> u64) -> u64 {
    loop {
        let more = set | step(set);
        if more == set {
            return set;
        }
        set = more;
    }
}

/// All tables with so many rows and events: all targets, all marks, all
/// starts, in one fixed order. Table number n of `count_all(rows, events)`.
pub fn table_number(rows: usize, events: usize, number: usize) -> Table {
    let mut rest = number;
    let mut take = |base: usize| {
        let digit = rest % base;
        rest /= base;
        digit
    };
    let start = take(rows);
    let marks: Vec<bool> = (0..rows).map(|_| take(2) == 1).collect();
    let targets: Vec<usize> = (0..rows * events).map(|_| take(rows)).collect();
    Table { rows, events, start, targets, marks }
}

/// How many tables there are with so many rows and events.
pub fn count_all(rows: usize, events: usize) -> usize {
    rows * 2usize.pow(rows as u32) * rows.pow((rows * events) as u32)
}

/// The same as [`Cutter::least`] for one offset, as plainly as can be: every
/// table with fewer rows, with all targets, marks and starts, one after the
/// other, with [`agree`]. Slow; the self-test compares the two.
pub fn least_plain(given: &Table, mask: Mask, offset: Offset) -> usize {
    for rows in 1..given.rows {
        for number in 0..count_all(rows, given.events) {
            if agree(given, &table_number(rows, given.events, number), mask, offset) {
                return rows;
            }
        }
    }
    given.rows
}
