//! The call and the program of request 106 once more, made to be misled. Without a fault
//! they do what given_up.rs does; with one of [`FAULTS`] something else, which the checks of
//! tests/last_run.rs must find. Distances and folds are those of rules.rs. A chosen run is
//! worked out from its end: for every pair of rows how many events are left to go, and then,
//! step by step, the lowest event after which one fewer is.

use crate::calls::Numbers;
use crate::direct::offset_of;
use crate::given_up::{line, scratch_named, Asked, GivenUp};
use crate::radio::Answer;
use crate::rules::{refusal_text, Fate, Length, Study};
use crate::table::{counted, every_event, read_input, Mask, Offset, Refusal, Table};
use std::sync::Mutex;

/// A fault whose name is misspelled, here or below, does nothing: it is not found, and the
/// test says so. Those named "x before y" are made by [`Misled::order`]; "row" is rule 4 of
/// the row, "4" that of the start.
pub const FAULTS: [&str; 80] = [
    // The run.
    "the shortest run that differs",
    "higher events first",
    "the lowest by events, then the shortest",
    "the shortest in counted events only",
    "the run is one event short",
    "the run without its first event",
    "the first event only",
    "the last event is not written",
    "the run from its end",
    "events are numbered from 1",
    "idle events are left out of the run",
    "idle events are not in the length",
    "the distance is the length and one more",
    "the distance without its one more",
    // The mask and the offset.
    "every event counts",
    "every event counts in folds",
    "every event counts in distance and run",
    "every event counts in the run",
    "the mask is turned round",
    "the offset is cut to 16 bits",
    "no offset is offset 0",
    "one offset late",
    // Which rows.
    "the distance to itself",
    "the distance to the start",
    "a kept row has a distance to another",
    "an unreached row has a distance to the start",
    "equal rows have distance 1",
    "folds into the last such row",
    "folds into the nearest such row",
    // The order of the rules.
    "2 before 1",
    "3 before 1",
    "3 before 2",
    "4 before 3",
    "row before 1",
    "row before 2",
    "row before 3",
    "5 before 4",
    "5 before row",
    "6 before row",
    "6 before 5",
    "16 before row",
    "16 before 5",
    "16 before 6",
    "7 before row",
    "7 before 5",
    "7 before 16",
    "18 before 7",
    // The rules.
    "a row may be the row count",
    "a row may be any number",
    "a row is cut to 16 bits",
    "a row is cut to 32 bits",
    "the start may be the row count",
    "no row gives its number as place",
    "7 at the very length of the scratch",
    "7 not judged for the last scratch cell",
    "7 with 12 scratch cells for each row",
    "7 in place of 18",
    "18 gives the length as place",
    "18 answers the distance",
    "18 at the very length of the run",
    "18 not judged for the last event",
    "18 by the counted events",
    "18 for fewer bytes than rows",
    "18 for an empty buffer",
    "the run buffer's length is cut to 8 bits",
    "the run buffer's length is cut to 16 bits",
    // What is left.
    "18 leaves the scratch",
    "18 clears all the scratch",
    "18 changes the run",
    "18 clears the run",
    "the scratch is not cleared",
    "the scratch is cleared but for its last cell",
    "all the lent scratch is cleared",
    "refused with the scratch cleared",
    "the rest of the run buffer is cleared",
    "a byte is written behind the run",
    // The program.
    "text: equal rows are left out",
    "text: kept rows are printed",
    "text: an empty run ends in a space",
    "text: that nothing folds is told",
];

/// The order of the rules.
const ORDER: [&str; 10] = ["1", "2", "3", "4", "row", "5", "6", "16", "7", "18"];

/// The functions with the fault of this name.
pub struct Misled {
    fault: &'static str,
    /// What is known of the last table.
    last: Mutex<Option<Known>>,
}

/// A table under a mask at an offset, as a fault makes it.
struct Known {
    table: Table,
    mask: Mask,
    offset: Offset,
    /// For distances, and for the run.
    study: Study,
    run_study: Study,
    /// For each pair how many events are left to go.
    left: Vec<Option<usize>>,
    fates: Vec<Fate>,
}

impl Misled {
    pub fn by(fault: &'static str) -> Misled {
        Misled { fault, last: Mutex::new(None) }
    }

    fn has(&self, name: &str) -> bool {
        self.fault == name
    }

    /// The rules in the order in which they are judged. With a fault "x before y" rule x is
    /// judged right before y.
    fn order(&self) -> Vec<&str> {
        let mut list = ORDER.to_vec();
        if let [one, "before", other] = self.fault.split(' ').collect::<Vec<_>>()[..] {
            list.retain(|&rule| rule != one);
            let place = list.iter().position(|&rule| rule == other).unwrap();
            list.insert(place, one);
        }
        list
    }

    // What a fault makes of the arguments.

    fn mask(&self, table: &Table, mask: Mask) -> Mask {
        match self.fault {
            "every event counts" => every_event(table.events),
            "the mask is turned round" => mask.reverse_bits() >> (32 - table.events),
            _ => mask & every_event(table.events),
        }
    }

    fn offset(&self, offset: u32) -> Offset {
        match self.fault {
            "the offset is cut to 16 bits" => Some(offset as usize % 65_536),
            "no offset is offset 0" => Some(offset_of(offset).unwrap_or(0)),
            "one offset late" => offset_of(offset).map(|k| k.saturating_sub(1)),
            _ => offset_of(offset),
        }
    }

    fn row(&self, row: usize) -> usize {
        match self.fault {
            "a row is cut to 16 bits" => row % (1 << 16),
            "a row is cut to 32 bits" => row % (1 << 32),
            _ => row,
        }
    }

    // Folds and runs.

    /// Does something with what is known of a table, which is worked out where it is another
    /// than the last.
    fn with<T>(&self, table: &Table, mask: Mask, offset: Offset, then: impl Fn(&Known) -> T) -> T {
        let mut last = self.last.lock().unwrap();
        let same = |known: &&mut Known| known.mask == mask && known.table == *table;
        match last.as_mut().filter(same) {
            Some(known) if known.offset == offset => {}
            Some(known) => {
                known.offset = offset;
                known.fates = self.fates(&known.table, known.mask, offset);
            }
            None => *last = Some(self.known(table, mask, offset)),
        }
        then(last.as_ref().unwrap())
    }

    fn known(&self, table: &Table, mask: Mask, offset: Offset) -> Known {
        let every = every_event(table.events);
        let [of_distance, of_run] = match self.fault {
            "every event counts in distance and run" => [every; 2],
            "every event counts in the run" => [mask, every],
            _ => [mask; 2],
        };
        let run_study = Study::of(table, of_run);
        Known {
            table: table.clone(),
            mask,
            offset,
            study: Study::of(table, of_distance),
            left: self.left(&run_study),
            run_study,
            fates: self.fates(table, mask, offset),
        }
    }

    fn fates(&self, table: &Table, mask: Mask, offset: Offset) -> Vec<Fate> {
        let of_folds = match self.fault {
            "every event counts in folds" => every_event(table.events),
            _ => mask,
        };
        let study = Study::of(table, of_folds);
        let mut fates = study.reduce(offset).fates;
        let mut kept: Vec<usize> =
            (0..table.rows).filter(|&row| matches!(fates[row], Fate::Kept(_))).collect();
        kept.sort_by_key(|&row| (std::cmp::Reverse(study.depth[row]), row));
        for row in 0..table.rows {
            let similar = |other: &&usize| study.similar(row, **other, offset);
            if let Fate::Folded(into) = &mut fates[row] {
                *into = match self.fault {
                    "folds into the last such row" => *kept.iter().rfind(similar).unwrap(),
                    "folds into the nearest such row" => {
                        let list = kept.iter().filter(similar);
                        *list.min_by_key(|&&other| study.distance(row, other)).unwrap()
                    }
                    _ => *into,
                };
            }
        }
        fates
    }

    /// Whether a run may end at a pair.
    fn ends(&self, study: &Study, pair: usize) -> bool {
        let rows = study.table.rows;
        let differ = study.table.marks[pair / rows] != study.table.marks[pair % rows];
        differ
            && (self.has("the shortest run that differs") || study.distance[pair] == Length::Of(1))
    }

    /// The pair to which an event leads, if the run may go on by it.
    fn onward(&self, study: &Study, pair: usize, event: usize) -> Option<usize> {
        let Study { table, mask, ref distance, .. } = study;
        let [one, other] =
            [pair / table.rows, pair % table.rows].map(|row| table.target(row, event));
        let next = one * table.rows + other;
        let right = match (distance[pair], distance[next]) {
            (Length::Of(from), Length::Of(to @ 1..)) => from == to + counted(*mask, event),
            _ => false,
        };
        (right || one != other && self.has("the shortest run that differs")).then_some(next)
    }

    /// For each pair the fewest events of a run that may be chosen, found from the ends on.
    fn left(&self, study: &Study) -> Vec<Option<usize>> {
        let pairs = study.distance.len();
        let mut left: Vec<Option<usize>> =
            (0..pairs).map(|pair| self.ends(study, pair).then_some(0)).collect();
        let mut falls = true;
        while falls {
            falls = false;
            for (pair, event) in
                (0..pairs).flat_map(|pair| (0..study.table.events).map(move |event| (pair, event)))
            {
                let next = self.onward(study, pair, event).and_then(|next| left[next]);
                let Some(more) = next.map(|next| self.longer(study, next, event)) else { continue };
                if left[pair].is_none_or(|known| more < known) {
                    left[pair] = Some(more);
                    falls = true;
                }
            }
        }
        left
    }

    /// How many events are left with one before them.
    fn longer(&self, study: &Study, left: usize, event: usize) -> usize {
        match self.fault {
            "the shortest in counted events only" => left + counted(study.mask, event),
            _ => left + 1,
        }
    }

    /// The chosen run from a pair.
    fn run(&self, known: &Known, pair: usize) -> Vec<u8> {
        let study = &known.run_study;
        if self.has("the lowest by events, then the shortest") {
            let mut passed = vec![false; known.left.len()];
            return self.lowest(study, pair, &mut passed).unwrap_or_default();
        }
        let (mut at, mut run) = (pair, Vec::new());
        let mut events: Vec<usize> = (0..study.table.events).collect();
        if self.has("higher events first") {
            events.reverse();
        }
        while let Some(left) = known.left[at].filter(|_| !self.ends(study, at)) {
            let step = |event: usize| {
                let next = self.onward(study, at, event)?;
                (self.longer(study, known.left[next]?, event) == left).then_some((next, event))
            };
            let (next, event) = events.iter().find_map(|&event| step(event)).unwrap();
            run.push(event as u8);
            // (Where only counted events are told, idle ones may lead in a circle.)
            if run.len() > known.left.len() {
                break;
            }
            at = next;
        }
        run
    }

    /// The lowest run from a pair that passes none twice, however long.
    fn lowest(&self, study: &Study, pair: usize, passed: &mut [bool]) -> Option<Vec<u8>> {
        if self.ends(study, pair) {
            return Some(vec![]);
        }
        passed[pair] = true;
        for event in 0..study.table.events {
            if let Some(next) = self.onward(study, pair, event).filter(|&next| !passed[next]) {
                if let Some(rest) = self.lowest(study, next, passed) {
                    return Some([&[event as u8][..], &rest].concat());
                }
            }
        }
        None
    }

    /// The row to which a row's distance is told, if any.
    fn other_row(&self, known: &Known, row: usize) -> Option<usize> {
        let finite = |other: &usize| {
            matches!(known.study.distance(row, *other), Length::Of(1..))
                && matches!(known.fates[*other], Fate::Kept(_))
        };
        let start = known.table.start;
        match known.fates.get(row)? {
            Fate::Folded(_) if self.has("the distance to itself") => Some(row),
            Fate::Folded(_) if self.has("the distance to the start") => Some(start),
            Fate::Folded(into) => Some(*into),
            Fate::Kept(_) if self.has("a kept row has a distance to another") => {
                (0..known.table.rows).find(finite)
            }
            Fate::Unreached if self.has("an unreached row has a distance to the start") => {
                Some(start)
            }
            _ => None,
        }
    }

    /// Distance, run, and the run's length as it is answered.
    fn told(&self, known: &Known, row: usize) -> (usize, Vec<u8>, usize) {
        let Some(other) = self.other_row(known, row) else { return (0, vec![], 0) };
        let mut distance = match known.study.distance(row, other) {
            Length::Of(length) => length,
            Length::Endless => 0,
        };
        let mut run = match distance {
            0 => vec![],
            _ => self.run(known, row * known.table.rows + other),
        };
        let is_counted = |event: &u8| counted(known.mask, *event as usize) == 1;
        match self.fault {
            "the distance is the length and one more" if distance > 0 => distance = run.len() + 1,
            "the distance without its one more" => distance = distance.saturating_sub(1),
            "equal rows have distance 1" => distance = distance.max(1),
            "idle events are left out of the run" => run.retain(is_counted),
            "the run is one event short" => drop(run.pop()),
            "the run without its first event" => drop(run.drain(..run.len().min(1))),
            "the first event only" => run.truncate(1),
            "the run from its end" => run.reverse(),
            "events are numbered from 1" => run.iter_mut().for_each(|event| *event += 1),
            _ => {}
        }
        let mut length = run.len();
        match self.fault {
            "idle events are not in the length" => {
                length = run.iter().filter(|e| is_counted(e)).count()
            }
            "the last event is not written" => drop(run.pop()),
            _ => {}
        }
        (distance, run, length)
    }

    /// The program's line for a row, if it prints one.
    fn line(&self, known: &Known, row: usize) -> String {
        let (distance, run, _) = self.told(known, row);
        let line = |into: usize| line(row, into, distance, &run);
        match (known.fates[row], self.fault) {
            (Fate::Folded(_), "text: equal rows are left out") if distance == 0 => String::new(),
            (Fate::Folded(into), "text: an empty run ends in a space") => {
                line(into).replace("run\n", "run \n")
            }
            (Fate::Folded(into), _) => line(into),
            (Fate::Kept(_), "text: kept rows are printed") => line(row),
            _ => String::new(),
        }
    }

    // The rules.

    /// The place of a broken rule, but for 18.
    fn broken(&self, asked: &Asked, scratch: usize, rule: &str) -> Option<usize> {
        let Asked { mask, ref given, row, .. } = *asked;
        let Numbers { rows, events, start, ref cells, ref marks } = *given;
        let more = |name: &str| rows.saturating_add(self.has(name) as usize);
        let broken = match rule {
            "1" => rows < 1 || rows > 1024,
            "2" => events < 1 || events > 32,
            "3" => cells.len() != rows.saturating_mul(events) || marks.len() != rows.div_ceil(8),
            "4" => start >= more("the start may be the row count"),
            "row" => {
                let broken = self.row(row) >= more("a row may be the row count");
                if broken && self.has("no row gives its number as place") {
                    return Some(row);
                }
                broken && !self.has("a row may be any number")
            }
            "5" => return cells.iter().position(|&target| target as usize >= rows),
            "6" => rows % 8 > 0 && marks.last().is_some_and(|&last| last >> (rows % 8) > 0),
            "16" => events < 32 && mask >> events > 0,
            _ => self.scratch_short(rows, scratch),
        };
        broken.then_some(0)
    }

    fn scratch_short(&self, rows: usize, scratch: usize) -> bool {
        scratch
            < match self.fault {
                "7 at the very length of the scratch" => scratch_named(rows) + 1,
                "7 not judged for the last scratch cell" => scratch_named(rows) - 1,
                "7 with 12 scratch cells for each row" => 12 * rows,
                _ => scratch_named(rows),
            }
    }

    /// Rule 18: whether a buffer of so many bytes is too short.
    fn run_short(&self, rows: usize, distance: usize, length: usize, lent: usize) -> bool {
        let lent = match self.fault {
            "the run buffer's length is cut to 8 bits" => lent % (1 << 8),
            "the run buffer's length is cut to 16 bits" => lent % (1 << 16),
            _ => lent,
        };
        lent < match self.fault {
            "18 at the very length of the run" if length > 0 => length + 1,
            "18 not judged for the last event" => length.max(1) - 1,
            "18 by the counted events" => distance.max(1) - 1,
            "18 for fewer bytes than rows" if length > 0 => rows,
            "18 for an empty buffer" => length.max(1),
            _ => length,
        }
    }

    /// What is left after a refusal: the answer, and what a fault does to the buffers.
    fn refuse(&self, refusal: Refusal, told: &Told, run: &mut [u8], scratch: &mut [u16]) -> Answer {
        let Refusal { number, place } = refusal;
        if number != 18 {
            if self.has("refused with the scratch cleared") {
                scratch.fill(0);
            }
            return [number, place, 0, 0];
        }
        let cleared = match self.fault {
            "18 leaves the scratch" => 0,
            "18 clears all the scratch" => scratch.len(),
            _ => told.named.min(scratch.len()),
        };
        scratch[..cleared].fill(0);
        match self.fault {
            "18 changes the run" => put(&told.run, run),
            "18 clears the run" => run.fill(0),
            _ => {}
        }
        match self.fault {
            "7 in place of 18" => [7, 0, 0, 0],
            "18 gives the length as place" => [18, told.run.len(), 0, 0],
            "18 answers the distance" => [18, 0, told.distance, 0],
            _ => [18, 0, 0, 0],
        }
    }

    /// Distance and run of an asked row of a sound table; of another, which a fault takes,
    /// nothing.
    fn tell(&self, asked: &Asked) -> Told {
        let Asked { offset, mask, ref given, row } = *asked;
        let named = scratch_named(given.rows);
        let nothing = Told { distance: 0, run: vec![], length: 0, named };
        if given.start >= given.rows {
            return nothing;
        }
        let table = given.table();
        let mask = self.mask(&table, mask);
        self.with(&table, mask, self.offset(offset), |known| {
            let (distance, run, length) = self.told(known, self.row(row));
            Told { distance, run, length, named }
        })
    }
}

/// What is told of a row, and the scratch cells named for its table.
struct Told {
    distance: usize,
    run: Vec<u8>,
    length: usize,
    named: usize,
}

/// Puts items at the front, as far as there is room.
fn put(items: &[u8], lent: &mut [u8]) {
    lent.iter_mut().zip(items).for_each(|(room, &item)| *room = item);
}

impl GivenUp for Misled {
    fn last_run(&self, asked: &Asked, run: &mut [u8], scratch: &mut [u16]) -> Answer {
        let mut told = None;
        for rule in self.order() {
            let broken = if rule == "18" {
                let told = told.insert(self.tell(asked));
                let short = self.run_short(asked.given.rows, told.distance, told.length, run.len());
                short.then_some(0)
            } else {
                self.broken(asked, scratch.len(), rule)
            };
            if let Some(place) = broken {
                let number = if rule == "row" { 4 } else { rule.parse().unwrap() };
                let nothing = Told { distance: 0, run: vec![], length: 0, named: 0 };
                let told = told.unwrap_or(nothing);
                return self.refuse(Refusal { number, place }, &told, run, scratch);
            }
        }
        let told = told.unwrap();
        let cleared = match self.fault {
            "the scratch is not cleared" => 0,
            "the scratch is cleared but for its last cell" => told.named - 1,
            "all the lent scratch is cleared" => scratch.len(),
            _ => told.named.min(scratch.len()),
        };
        scratch[..cleared].fill(0);
        put(&told.run, run);
        match self.fault {
            "the rest of the run buffer is cleared" => run[told.length..].fill(0),
            "a byte is written behind the run" => put(&[!0], &mut run[told.length..]),
            _ => {}
        }
        [0, told.distance, told.length, 0]
    }

    fn text(&self, input: &[u8]) -> Vec<u8> {
        let (offset, mask, table) = match read_input(input) {
            Ok(read) => read,
            Err(refusal) => return refusal_text(refusal).into_bytes(),
        };
        let offset = self.offset(offset.map_or(u32::MAX, |k| k as u32));
        let text = self.with(&table, self.mask(&table, mask), offset, |known| {
            (0..table.rows).map(|row| self.line(known, row)).collect::<String>()
        });
        match self.fault {
            "text: that nothing folds is told" if text.is_empty() => b"nothing\n".to_vec(),
            _ => text.into_bytes(),
        }
    }
}
