//! Document 01, "The rules of reduction", once more, level by level: quick enough for
//! 1,024 rows and 32 events, where the pairs of rules.rs take too long. It uses nothing
//! of rules.rs but the name of a length. All lengths are counted ones (request 104).
//!
//! # Distances
//!
//! Two rows are *near* at level L if their distance is at most L, that is if "begun at
//! either, every run of length L or more ends at equal marks". (What holds of L here
//! holds of every greater one. So the least such length is at most L if and only if L
//! is such a length.) To be near at a level is to show the same marks after the same
//! runs: so at each level the rows fall into classes, and those of one class are near.
//!
//! Level 0: every run ends at equal marks. These are the coarsest classes with equal
//! marks from each of which every event leads into one class. For in such classes every
//! run ends at equal marks, event by event; and rows near at level 0 have equal marks
//! and lead to rows near at level 0.
//!
//! Level L + 1: a run of length L + 1 or more is some idle events, a counted one, and a
//! run of length L or more. So two rows are near at L + 1 if and only if, after any idle
//! events, each counted event leads to rows near at L. These are the coarsest classes
//! from each of which every counted event leads into one class of level L, and every
//! idle one into one class of level L + 1.
//!
//! Rows near at L are near at L + 1: so classes of L + 1 are made of whole ones of L.
//! And every event leads from rows near at L to rows near at L, since a run of length L
//! or more is one still with an event before it. So classes of L can stand for the rows
//! when L + 1 is worked out.
//!
//! Each level follows from the one before alone. If a level has as many classes as the
//! one before, it has the same ones, and so have all after it: rows that are not near
//! there have an endless distance.
//!
//! # Depths
//!
//! Let FROM(L) be the rows on which runs of length L or more end. FROM(0) is what all
//! events make of the start. FROM(L+1) is what counted events make of FROM(L), and idle
//! ones of that: cut the run before its last counted event. It lies within FROM(L). If
//! the two are the same, so are all after them, and their rows are endless; the depth of
//! any other row is the last L for which it is in FROM(L).

use crate::rules::Length::{self, Endless, Of};
use crate::table::{counted, Mask, Offset, Table};

/// Depths and classes of one table and mask, from which all offsets follow.
#[derive(Clone)]
pub struct Levels {
    pub table: Table,
    pub mask: Mask,
    pub depth: Vec<Option<Length>>,
    /// For each level the class of each row, up to the level that all later ones repeat.
    pub classes: Vec<Vec<u16>>,
}

impl Levels {
    pub fn of(table: &Table, mask: Mask) -> Levels {
        let (depth, classes) = (depths(table, mask), classes(table, mask));
        Levels { table: table.clone(), mask, depth, classes }
    }

    /// The last level that is unlike the one before.
    pub fn last(&self) -> usize {
        self.classes.len() - 1
    }

    pub fn near(&self, level: usize, one: usize, other: usize) -> bool {
        let classes = &self.classes[level.min(self.last())];
        classes[one] == classes[other]
    }

    pub fn distance(&self, one: usize, other: usize) -> Length {
        // Rows that are near remain so.
        match self.classes.partition_point(|classes| classes[one] != classes[other]) {
            level if level <= self.last() => Of(level),
            _ => Endless,
        }
    }

    /// "Two reached rows are similar at offset k if distance plus the smallest of k and
    /// both depths is at most k", that is, if they are near at what that smallest one
    /// leaves of k. "An endless distance is never similar; an endless depth is replaced
    /// by k. With no offset they are similar if the distance is 0, or if it is finite and
    /// at least one depth is finite."
    pub fn similar(&self, one: usize, other: usize, offset: Offset) -> bool {
        let (Some(depth), Some(other_depth)) = (self.depth[one], self.depth[other]) else {
            return false;
        };
        let level = match (offset, depth.min(other_depth)) {
            (_, Endless) => 0,
            (Some(k), Of(depth)) => k - k.min(depth),
            (None, Of(_)) => self.last(),
        };
        self.near(level, one, other)
    }

    /// The reached rows in the order of folding: "by falling depth, endless first, equal
    /// depths by lower row number".
    pub fn order(&self) -> Vec<usize> {
        let mut order: Vec<usize> =
            (0..self.table.rows).filter(|&row| self.depth[row].is_some()).collect();
        order.sort_by_key(|&row| (std::cmp::Reverse(self.depth[row]), row));
        order
    }

    /// The row into which each reached row folds; a kept one into itself. "Each in turn
    /// is kept if it is similar to no row kept so far. Otherwise it folds into the first
    /// kept row, in that order, to which it is similar."
    pub fn folds(&self, offset: Offset) -> Vec<Option<usize>> {
        let mut kept: Vec<usize> = Vec::new();
        let mut folds = vec![None; self.table.rows];
        for row in self.order() {
            let into = kept.iter().copied().find(|&other| self.similar(row, other, offset));
            if into.is_none() {
                kept.push(row);
            }
            folds[row] = into.or(Some(row));
        }
        folds
    }

    /// The reduced table at an offset or with none.
    pub fn reduced(&self, offset: Offset) -> Table {
        let folds = self.folds(offset);
        let new = folded(&self.table, &folds);
        let kept = (0..self.table.rows).filter(|&row| folds[row] == Some(row)).count();
        assert_eq!(new.rows, kept, "a kept row was not met: {:?} at {offset:?}", self.table);
        new
    }
}

/// "The new table has the kept rows with their own marks. Each target, and the start, is
/// replaced by the row it folds into. New numbers are given in the order rows are first
/// met, breadth first from the start, lower events first. The new start is 0."
pub fn folded(table: &Table, folds: &[Option<usize>]) -> Table {
    let fold = |row: usize| folds[row].expect("targets of reached rows are reached");
    let mut number: Vec<Option<usize>> = vec![None; table.rows];
    let mut met = Vec::new();
    let mut meet = |row: usize, met: &mut Vec<usize>| {
        *number[row].get_or_insert_with(|| {
            met.push(row);
            met.len() - 1
        })
    };
    meet(fold(table.start), &mut met);
    let mut targets = Vec::new();
    let mut at = 0;
    while at < met.len() {
        for event in 0..table.events {
            targets.push(meet(fold(table.target(met[at], event)), &mut met));
        }
        at += 1;
    }
    let marks = met.iter().map(|&row| table.marks[row]).collect();
    Table { rows: met.len(), events: table.events, start: 0, targets, marks }
}

// Depths.

/// The depth of each row, none where it is unreached.
fn depths(table: &Table, mask: Mask) -> Vec<Option<Length>> {
    let mut depth = vec![None; table.rows];
    let mut from = grown(table, vec![table.start], Mask::MAX);
    for length in 0.. {
        let mut next = Vec::new();
        for event in (0..table.events).filter(|&event| counted(mask, event) == 1) {
            next.extend(from.iter().map(|&row| table.target(row, event)));
        }
        let next = grown(table, next, !mask);
        let repeats = next.len() == from.len();
        // Those that are in `next` too are told more below.
        from.iter().for_each(|&row| depth[row] = Some(if repeats { Endless } else { Of(length) }));
        if repeats {
            break;
        }
        from = next;
    }
    depth
}

/// These rows and all to which those events lead from them, each once, as they are met breadth
/// first, lower events first.
pub fn grown(table: &Table, rows: Vec<usize>, those: Mask) -> Vec<usize> {
    let mut met = vec![false; table.rows];
    let mut list = rows;
    list.retain(|&row| !std::mem::replace(&mut met[row], true));
    let mut at = 0;
    while at < list.len() {
        for event in (0..table.events).filter(|&event| counted(those, event) == 1) {
            let target = table.target(list[at], event);
            if !std::mem::replace(&mut met[target], true) {
                list.push(target);
            }
        }
        at += 1;
    }
    list
}

// Classes.

/// The classes of every level, up to the one that all later ones repeat.
fn classes(table: &Table, mask: Mask) -> Vec<Vec<u16>> {
    let [idle, counting]: [Vec<usize>; 2] =
        [0, 1].map(|one| (0..table.events).filter(|&event| counted(mask, event) == one).collect());
    let every: Vec<usize> = (0..table.events).collect();
    let mut pairs = Pairs::of(table.rows);

    // At first the points are the rows. For each event a line: where it leads from each.
    let mut lines: Vec<Vec<usize>> = (0..table.events)
        .map(|event| (0..table.rows).map(|row| table.target(row, event)).collect())
        .collect();
    let mut groups = Groups::one(table.rows);
    groups.split(&mut pairs, |row, _| table.marks[row] as usize);
    groups.settle(&mut pairs, &every, &lines);
    let mut levels = vec![groups.of.iter().map(|&class| class as u16).collect::<Vec<_>>()];
    loop {
        // Now the classes of the level are the points.
        lines.iter_mut().for_each(|line| *line = groups.line(line));
        let points = groups.count;
        groups = Groups::one(points);
        for &event in &counting {
            groups.split(&mut pairs, |point, _| lines[event][point]);
        }
        groups.settle(&mut pairs, &idle, &lines);
        if groups.count == points {
            return levels;
        }
        let level = &levels[levels.len() - 1];
        levels.push(level.iter().map(|&class| groups.of[class as usize] as u16).collect());
    }
}

/// Points in groups, which are numbered from 0.
struct Groups {
    of: Vec<usize>,
    count: usize,
}

impl Groups {
    fn one(points: usize) -> Groups {
        Groups { of: vec![0; points], count: 1 }
    }

    /// Only those of a group remain together for which `other`, which is given a point
    /// and the groups before, is the same.
    fn split(&mut self, pairs: &mut Pairs, other: impl Fn(usize, &[usize]) -> usize) {
        pairs.forget();
        let before = std::mem::take(&mut self.of);
        let number = |point: usize| pairs.number(before[point], other(point, &before));
        self.of = (0..before.len()).map(number).collect();
        self.count = pairs.count;
    }

    /// Splits as far as it must be, until each of these events leads from every group
    /// into one group.
    fn settle(&mut self, pairs: &mut Pairs, events: &[usize], lines: &[Vec<usize>]) {
        loop {
            let before = self.count;
            for &event in events {
                self.split(pairs, |point, groups| groups[lines[event][point]]);
            }
            // (All points apart cannot be split.)
            if self.count == before || self.count == self.of.len() {
                return;
            }
        }
    }

    /// An event's line from group to group.
    fn line(&self, line: &[usize]) -> Vec<usize> {
        let mut new = vec![usize::MAX; self.count];
        for (point, &group) in self.of.iter().enumerate() {
            let target = self.of[line[point]];
            assert!(new[group] == usize::MAX || new[group] == target, "a class leads apart");
            new[group] = target;
        }
        new
    }
}

/// Numbers pairs of numbers from 0 on, as they are met.
struct Pairs {
    bound: usize,
    count: usize,
    /// For each pair: when it was met, and its number.
    met: Vec<(u32, u32)>,
    now: u32,
}

impl Pairs {
    /// For numbers below so many rows, and for marks.
    fn of(rows: usize) -> Pairs {
        let bound = rows + 1;
        Pairs { bound, count: 0, met: vec![(0, 0); bound * bound], now: 0 }
    }

    fn forget(&mut self) {
        self.now += 1;
        self.count = 0;
    }

    fn number(&mut self, one: usize, other: usize) -> usize {
        let place = &mut self.met[one * self.bound + other];
        if place.0 != self.now {
            *place = (self.now, self.count as u32);
            self.count += 1;
        }
        place.1 as usize
    }
}
