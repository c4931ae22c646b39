//! Judges one printed text against the given table, without the rules of
//! rules.rs (only its names for fates and lengths are used): reads the listing
//! back, and checks that its parts fit each other and the given table.
//!
//! Document 01: "A record holds its depth, a length or endless, and its fate:
//! kept as a new row, folded into a given row, or unreached", "The new table
//! has the kept rows with their own marks. Each target, and the start, is
//! replaced by the row it folds into", and the form of the listing.

use crate::cutter::agree_large;
use crate::rules::{Fate, Length};
use crate::table::{counted, Mask, Offset, Table};

/// A listing read back.
pub struct Listing {
    pub table: Table,
    /// How many events count.
    pub counted: usize,
    pub fates: Vec<Fate>,
    pub depths: Vec<Option<Length>>,
}

/// Reads a listing strictly: one space between words, a newline after every
/// line, numbers without leading zeros, nothing more.
pub fn read_listing(text: &[u8]) -> Result<Listing, String> {
    let mut lines = lines_of(text)?;
    let mut line = || lines.next().ok_or("a line is missing");

    let head = line()?;
    let ["table", rows, events, counted] = head[..] else {
        return Err(format!("first line {head:?}"));
    };
    let (rows, events, counted) = (number(rows)?, number(events)?, number(counted)?);
    let mut targets = Vec::new();
    let mut marks = Vec::new();
    for row in 0..rows {
        let words = line()?;
        if words.len() != events + 2 || number(words[0])? != row {
            return Err(format!("line {words:?} of new row {row}"));
        }
        for word in &words[1..=events] {
            targets.push(number(word)?);
        }
        marks.push(match words[events + 1] {
            "ready" => true,
            "wait" => false,
            other => return Err(format!("mark {other:?}")),
        });
    }
    let head = line()?;
    let ["folds", given] = head[..] else {
        return Err(format!("line {head:?} in place of folds"));
    };
    let mut fates = Vec::new();
    let mut depths = Vec::new();
    for row in 0..number(given)? {
        let words = line()?;
        if number(words[0])? != row {
            return Err(format!("line {words:?} of given row {row}"));
        }
        let (fate, depth) = match words[1..] {
            ["unreached"] => (Fate::Unreached, None),
            ["kept", new, "depth", depth] => (Fate::Kept(number(new)?), Some(length(depth)?)),
            ["folded", into, "depth", depth] => {
                (Fate::Folded(number(into)?), Some(length(depth)?))
            }
            _ => return Err(format!("line {words:?} of given row {row}")),
        };
        fates.push(fate);
        depths.push(depth);
    }
    if lines.next().is_some() {
        return Err("lines follow the last record".to_string());
    }
    let table = Table { rows, events, start: 0, targets, marks };
    if !table.is_sound() {
        return Err("the printed table is not sound".to_string());
    }
    Ok(Listing { table, counted, fates, depths })
}

/// The words of each line.
pub fn lines_of(text: &[u8]) -> Result<impl Iterator<Item = Vec<&str>>, String> {
    let text = std::str::from_utf8(text).map_err(|_| "not plain text".to_string())?;
    let body = text.strip_suffix('\n').ok_or("the last line has no newline")?;
    Ok(body.split('\n').map(|line| line.split(' ').collect()))
}

pub fn number(word: &str) -> Result<usize, String> {
    let value: usize = word.parse().map_err(|_| format!("{word:?} is no number"))?;
    if value.to_string() != word {
        return Err(format!("{word:?} is not written plainly"));
    }
    Ok(value)
}

fn length(word: &str) -> Result<Length, String> {
    if word == "endless" {
        Ok(Length::Endless)
    } else {
        number(word).map(Length::Of)
    }
}

/// How many of so many events count.
pub fn count_counted(events: usize, mask: Mask) -> usize {
    (0..events).map(|event| counted(mask, event)).sum()
}

/// The depth of every row, straight from the lengths of runs: the rows on
/// which runs of counted length exactly 0, 1, 2, ... end. (rules.rs does it
/// otherwise.)
///
/// A run of length `rows` or more stands twice on some row with a counted event
/// between, and what lies between can be repeated: so a row on which such a run
/// ends is endless. If a row is endless, take a shortest among the runs of length
/// `rows` or more ending on it: its length is below 2 × rows, since otherwise a
/// round of length 1 to `rows` could be left out of it. So lengths below 2 × rows
/// tell all.
pub fn depths_by_lengths(table: &Table, mask: Mask) -> Vec<Option<Length>> {
    let mut depth = vec![None; table.rows];
    let mut here = vec![false; table.rows];
    here[table.start] = true;
    for length in 0..2 * table.rows {
        let mut next = vec![false; table.rows];
        let mut open: Vec<usize> = (0..table.rows).filter(|&row| here[row]).collect();
        while let Some(row) = open.pop() {
            depth[row] =
                Some(if length < table.rows { Length::Of(length) } else { Length::Endless });
            for event in 0..table.events {
                let target = table.target(row, event);
                if counted(mask, event) == 1 {
                    next[target] = true;
                } else if !here[target] {
                    here[target] = true;
                    open.push(target);
                }
            }
        }
        here = next;
    }
    depth
}

/// Do the parts of a listing fit each other and the given table?
pub fn fits(given: &Table, mask: Mask, listing: &Listing) -> Result<(), String> {
    let new = &listing.table;
    if new.events != given.events {
        return Err("events".to_string());
    }
    if listing.counted != count_counted(given.events, mask) {
        return Err("how many events count".to_string());
    }
    if listing.fates.len() != given.rows {
        return Err("the count of records".to_string());
    }
    if listing.depths != depths_by_lengths(given, mask) {
        return Err("depths".to_string());
    }
    // Every new number is given once.
    let mut from: Vec<Option<usize>> = vec![None; new.rows];
    for (row, fate) in listing.fates.iter().enumerate() {
        match *fate {
            Fate::Kept(number) => {
                let place = from.get_mut(number).ok_or("a new number too large")?;
                if place.replace(row).is_some() {
                    return Err(format!("new number {number} given twice"));
                }
            }
            Fate::Folded(into) => {
                let Some(Fate::Kept(_)) = listing.fates.get(into) else {
                    return Err(format!("row {row} folds into a row not kept"));
                };
                let order = |row: usize| (listing.depths[row], std::cmp::Reverse(row));
                if order(into) <= order(row) {
                    return Err(format!("row {row} folds into a later row"));
                }
            }
            Fate::Unreached => {
                if listing.depths[row].is_some() {
                    return Err("an unreached row with a depth".to_string());
                }
            }
        }
    }
    // New numbers of all given rows that are reached.
    let number_of = |row: usize| -> Result<usize, String> {
        match listing.fates[row] {
            Fate::Kept(number) => Ok(number),
            Fate::Folded(into) => match listing.fates[into] {
                Fate::Kept(number) => Ok(number),
                _ => Err(format!("row {row} folds into a row not kept")),
            },
            Fate::Unreached => Err(format!("row {row} is used but unreached")),
        }
    };
    if number_of(given.start)? != 0 {
        return Err("the new start is not 0".to_string());
    }
    for (number, row) in from.iter().enumerate() {
        let row = row.ok_or(format!("new number {number} given to no row"))?;
        if new.marks[number] != given.marks[row] {
            return Err(format!("the mark of new row {number}"));
        }
        for event in 0..given.events {
            if new.target(number, event) != number_of(given.target(row, event))? {
                return Err(format!("the target of new row {number} and event {event}"));
            }
        }
    }
    // New numbers stand in the order in which the rows are first met.
    let mut met = 1;
    for row in 0..new.rows {
        if row >= met {
            return Err(format!("new row {row} is not met in turn"));
        }
        for event in 0..new.events {
            let target = new.target(row, event);
            if target > met {
                return Err(format!("new row {target} is met out of turn"));
            }
            met = met.max(target + 1);
        }
    }
    Ok(())
}

/// The judgement of one text for a given table, mask and offset, without
/// rules.rs: it is a listing, its parts fit, and its table agrees with the given
/// one. Answers the new row count.
pub fn judge(given: &Table, mask: Mask, offset: Offset, text: &[u8]) -> Result<usize, String> {
    let listing = read_listing(text)?;
    fits(given, mask, &listing)?;
    if !agree_large(given, &listing.table, mask, offset) {
        return Err("the new table does not agree".to_string());
    }
    Ok(listing.table.rows)
}

/// All offsets from 0 to twice the rows, and none.
pub fn all_offsets(rows: usize) -> Vec<Offset> {
    (0..=2 * rows).map(Some).chain([None]).collect()
}

/// Stops with all that is needed to see a fault again.
pub fn stop(
    what: &str,
    given: &Table,
    mask: Mask,
    offset: Offset,
    printed: &[u8],
    expected: &str,
) -> ! {
    panic!(
        "{what}\ntable {given:?}\nmask {mask:b}\noffset {offset:?}\ninput {}\nprinted:\n{}\n\
         expected:\n{expected}",
        hexadecimal(&given.input(offset, mask)),
        String::from_utf8_lossy(printed)
    )
}

pub fn hexadecimal(bytes: &[u8]) -> String {
    let words: Vec<String> = bytes.iter().map(|byte| format!("{byte:02x}")).collect();
    words.join(" ")
}
