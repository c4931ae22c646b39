//! Document 01, "The rules of reduction", sentence by sentence, and the text
//! that `reduce` prints ("Tables to try", last paragraphs). Request 104: "Run
//! length, depth, distance, offset ... take in counted events only; breadth-first
//! order still takes all."

use crate::table::{counted, read_input, Mask, Offset, Refusal, Table};
use std::collections::VecDeque;

/// A depth or a distance: a length, or endless. Every length is below endless
/// (this is the order in which the two cases are declared).
#[derive(Clone, Copy, Debug, PartialEq, Eq, PartialOrd, Ord, Hash)]
pub enum Length {
    Of(usize),
    Endless,
}
use Length::{Endless, Of};

impl Length {
    fn plus(self, more: usize) -> Length {
        match self {
            Of(length) => Of(length + more),
            Endless => Endless,
        }
    }
}

#[derive(Clone, Copy, Debug, PartialEq, Eq, Hash)]
pub enum Fate {
    /// Kept, with its new number.
    Kept(usize),
    /// Folded, with the given row into which it folds.
    Folded(usize),
    Unreached,
}

/// The depth of every row: "the length of the longest run leading from the
/// start to it; endless if there is no longest. A row no run leads to is
/// unreached" (here: no depth). Lengths are counted ones.
///
/// Way: lengths of runs are handed on from row to row until nothing grows. A run
/// of length `rows` or more stands twice on some row with a counted event
/// between, and this part can be repeated at will: a length that reaches `rows`
/// means endless. Conversely an endless row has runs of every length, so its
/// length grows until it reaches `rows`.
pub fn depths(table: &Table, mask: Mask) -> Vec<Option<Length>> {
    let mut depth: Vec<Option<Length>> = vec![None; table.rows];
    depth[table.start] = Some(Of(0));
    let mut waiting = VecDeque::from([(table.start, Of(0))]);
    while let Some((row, length)) = waiting.pop_front() {
        for event in 0..table.events {
            let onward = match length.plus(counted(mask, event)) {
                Of(length) if length < table.rows => Of(length),
                _ => Endless,
            };
            let target = table.target(row, event);
            if depth[target].is_none_or(|known| known < onward) {
                depth[target] = Some(onward);
                waiting.push_back((target, onward));
            }
        }
    }
    depth
}

/// The distance of every two rows, as one list of rows × rows: "the least
/// length L such that, begun at either, every run of length L or more ends at
/// equal marks; 0 if they agree on all runs; endless if there is no such L".
/// Lengths are counted ones.
///
/// Way: the pairs of different rows are the points of a graph, with a line for
/// each event. A run after which two rows differ is a path from their pair to a
/// pair with differing marks, and its length is how many of its lines are of
/// counted events. So only pairs from which such a pair can be reached matter.
/// They fall into groups: those of one group lead to each other. If a line of a
/// counted event stays in a group, a path may go round on it as often as one
/// likes, and whoever reaches the group is endless. Otherwise the lines within
/// the group are idle, so the longest path is as long from each of its pairs,
/// and it goes by a line that leaves the group, if not to one of its own pairs.
/// The distance is one more than the length of the longest path.
pub fn distances(table: &Table, mask: Mask) -> Vec<Length> {
    #[derive(Clone, Copy, PartialEq)]
    enum Place {
        Aside,
        Waiting,
        InGroup(usize),
    }
    let rows = table.rows;
    let matter = pairs_that_matter(table);
    let mut place = vec![Place::Aside; rows * rows];
    matter.iter().for_each(|&pair| place[pair] = Place::Waiting);
    let mut distance = vec![Of(0); rows * rows];
    // If a line leads from one group into another, the walk backward leaves some
    // pair of the other after all of the one. So taken from the last on, a pair
    // not yet in a group leads to its own group and to groups taken before.
    for &first in matter.iter().rev() {
        if place[first] != Place::Waiting {
            continue;
        }
        let own = Place::InGroup(first);
        let mut group = vec![first];
        place[first] = own;
        let mut length = Of(1);
        let mut at = 0;
        while at < group.len() {
            for event in 0..table.events {
                let Some(next) = pair_onward(table, group[at], event) else { continue };
                if place[next] == Place::Waiting {
                    place[next] = own;
                    group.push(next);
                }
                // (The distance 0 of a pair that does not matter adds nothing.)
                length = length.max(match (place[next] == own, counted(mask, event)) {
                    (true, 0) => Of(0),
                    (true, _) => Endless,
                    (false, more) => distance[next].plus(more),
                });
            }
            at += 1;
        }
        for &pair in &group {
            distance[pair] = length;
            distance[pair % rows * rows + pair / rows] = length;
        }
    }
    distance
}

/// The pair to which an event leads from a pair of different rows. A pair has the
/// number low × rows + high; a row with itself never differs, and is left out.
fn pair_onward(table: &Table, pair: usize, event: usize) -> Option<usize> {
    let one = table.target(pair / table.rows, event);
    let other = table.target(pair % table.rows, event);
    (one != other).then(|| one.min(other) * table.rows + one.max(other))
}

/// The pairs from which a differing pair can be reached, in the order in which a
/// walk into depth, backward from the differing pairs, leaves them for good.
fn pairs_that_matter(table: &Table) -> Vec<usize> {
    let rows = table.rows;
    let pairs: Vec<usize> =
        (0..rows).flat_map(|low| (low + 1..rows).map(move |high| low * rows + high)).collect();
    let mut before: Vec<Vec<u32>> = vec![Vec::new(); rows * rows];
    for &pair in &pairs {
        for event in 0..table.events {
            if let Some(next) = pair_onward(table, pair, event) {
                if before[next].last() != Some(&(pair as u32)) {
                    before[next].push(pair as u32);
                }
            }
        }
    }
    let differs = |&pair: &usize| table.marks[pair / rows] != table.marks[pair % rows];
    in_order_left(pairs.into_iter().filter(differs), &before)
}

/// All points to which the lines lead from the first ones, these included, in
/// the order in which a walk into depth leaves them for good.
fn in_order_left(firsts: impl Iterator<Item = usize>, lines: &[Vec<u32>]) -> Vec<usize> {
    let mut met = vec![false; lines.len()];
    let mut left = Vec::new();
    for first in firsts {
        // Each entry: a point of the present path, and the next line to look at.
        let mut path: Vec<(usize, usize)> = Vec::new();
        if !met[first] {
            met[first] = true;
            path.push((first, 0));
        }
        while let Some((point, line)) = path.pop() {
            let Some(&next) = lines[point].get(line) else {
                left.push(point);
                continue;
            };
            path.push((point, line + 1));
            if !met[next as usize] {
                met[next as usize] = true;
                path.push((next as usize, 0));
            }
        }
    }
    left
}

/// Depths and distances of one table and mask, from which all offsets follow.
pub struct Study {
    pub table: Table,
    pub mask: Mask,
    pub depth: Vec<Option<Length>>,
    pub distance: Vec<Length>,
}

impl Study {
    pub fn of(table: &Table, mask: Mask) -> Study {
        let (depth, distance) = (depths(table, mask), distances(table, mask));
        Study { table: table.clone(), mask, depth, distance }
    }

    pub fn distance(&self, one: usize, other: usize) -> Length {
        self.distance[one * self.table.rows + other]
    }

    /// "Two reached rows are similar at offset k if distance plus the smallest
    /// of k and both depths is at most k. An endless distance is never similar;
    /// an endless depth is replaced by k. With no offset they are similar if
    /// the distance is 0, or if it is finite and at least one depth is finite."
    pub fn similar(&self, one: usize, other: usize, offset: Offset) -> bool {
        let (Some(depth), Some(other_depth)) = (self.depth[one], self.depth[other]) else {
            return false;
        };
        let Of(distance) = self.distance(one, other) else {
            return false;
        };
        match offset {
            Some(k) => {
                let or_k = |depth: Length| match depth {
                    Of(length) => length,
                    Endless => k,
                };
                distance + k.min(or_k(depth)).min(or_k(other_depth)) <= k
            }
            None => distance == 0 || depth != Endless || other_depth != Endless,
        }
    }

    /// The reduction, also with faulty depths or distances.
    pub fn fold(&self, offset: Offset) -> Reduced {
        assemble(&self.table, &self.depth, &|one, other| self.similar(one, other, offset))
    }

    pub fn reduce(&self, offset: Offset) -> Reduced {
        let reduced = self.fold(offset);
        // If a kept row were not met from the new start, the table without it
        // would agree as well, and have fewer rows. So this cannot be.
        assert_eq!(reduced.unmet, 0, "a kept row was not met: {:?} at {offset:?}", self.table);
        reduced
    }

    pub fn text(&self, offset: Offset) -> String {
        listing(&self.reduce(offset), self.mask)
    }
}

pub struct Reduced {
    pub table: Table,
    pub depth: Vec<Option<Length>>,
    pub fates: Vec<Fate>,
    /// Kept rows not met breadth first from the new start (0 by the rules; the
    /// faulty rules of the self-test may leave some).
    pub unmet: usize,
}

/// Order, folds, new table and numbering, for given depths and similarity:
///
/// "Order the reached rows by falling depth, endless first, equal depths by
/// lower row number. Each in turn is kept if it is similar to no row kept so
/// far. Otherwise it folds into the first kept row, in that order, to which it
/// is similar. The new table has the kept rows with their own marks. Each
/// target, and the start, is replaced by the row it folds into. New numbers
/// are given in the order rows are first met, breadth first from the start,
/// lower events first. The new start is 0."
pub fn assemble(
    table: &Table,
    depth: &[Option<Length>],
    similar: &dyn Fn(usize, usize) -> bool,
) -> Reduced {
    let mut order: Vec<usize> = (0..table.rows).filter(|&row| depth[row].is_some()).collect();
    order.sort_by(|&one, &other| depth[other].cmp(&depth[one]).then(one.cmp(&other)));

    let mut kept: Vec<usize> = Vec::new();
    // The kept row that stands for each row; a kept row stands for itself.
    let mut stand_in: Vec<Option<usize>> = vec![None; table.rows];
    for &row in &order {
        let first = kept.iter().copied().find(|&earlier| similar(row, earlier));
        if first.is_none() {
            kept.push(row);
        }
        stand_in[row] = Some(first.unwrap_or(row));
    }

    let stand = |row: usize| stand_in[row].expect("targets of reached rows are reached");
    let mut met: Vec<usize> = vec![stand(table.start)];
    let mut next = 0;
    while next < met.len() {
        for event in 0..table.events {
            let target = stand(table.target(met[next], event));
            if !met.contains(&target) {
                met.push(target);
            }
        }
        next += 1;
    }
    let unmet = kept.len() - met.len();
    for &row in &kept {
        if !met.contains(&row) {
            met.push(row);
        }
    }

    let mut number = vec![0; table.rows];
    for (new, &row) in met.iter().enumerate() {
        number[row] = new;
    }
    let mut targets = Vec::new();
    for &row in &met {
        for event in 0..table.events {
            targets.push(number[stand(table.target(row, event))]);
        }
    }
    let fates = (0..table.rows)
        .map(|row| match stand_in[row] {
            None => Fate::Unreached,
            Some(itself) if itself == row => Fate::Kept(number[row]),
            Some(other) => Fate::Folded(other),
        })
        .collect();
    let marks: Vec<bool> = met.iter().map(|&row| table.marks[row]).collect();
    Reduced {
        table: Table { rows: met.len(), events: table.events, start: 0, targets, marks },
        depth: depth.to_vec(),
        fates,
        unmet,
    }
}

/// "The first line gives new rows and events; then each new row's number,
/// targets and mark; then the count of given rows, and each one's number, fate
/// and depth. `kept` is followed by the new number, `folded` by the given row.
/// An unreached row prints `unreached` alone after its number." And request 104:
/// the "first line ends with how many events count".
pub fn listing(reduced: &Reduced, mask: Mask) -> String {
    let table = &reduced.table;
    let mut text = format!("table {} {} {}\n", table.rows, table.events, mask.count_ones());
    for row in 0..table.rows {
        text += &row.to_string();
        for event in 0..table.events {
            text += &format!(" {}", table.target(row, event));
        }
        text += if table.marks[row] { " ready\n" } else { " wait\n" };
    }
    text += &format!("folds {}\n", reduced.fates.len());
    for (row, fate) in reduced.fates.iter().enumerate() {
        let depth = match reduced.depth[row] {
            Some(Of(length)) => length.to_string(),
            _ => "endless".to_string(),
        };
        text += &match fate {
            Fate::Kept(new) => format!("{row} kept {new} depth {depth}\n"),
            Fate::Folded(other) => format!("{row} folded {other} depth {depth}\n"),
            Fate::Unreached => format!("{row} unreached\n"),
        };
    }
    text
}

/// "A refusal prints only `refused`, its number and its place."
pub fn refusal_text(refusal: Refusal) -> String {
    format!("refused {} {}\n", refusal.number, refusal.place)
}

/// All that `reduce` prints for an input.
pub fn text_for(input: &[u8]) -> String {
    match read_input(input) {
        Ok((offset, mask, table)) => Study::of(&table, mask).text(offset),
        Err(refusal) => refusal_text(refusal),
    }
}
