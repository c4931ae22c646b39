//! Request 101, "All offsets on one sheet": what the program `sheet` prints,
//! and a judge of it.
//!
//! "Given a table, list the least row count at every offset from 0 to 2 × rows
//! ... Each entry is the row count of that offset's reduction, no entry exceeds
//! the one before it, and the last is the count for no offset."
//!
//! `sheet` reads a mask (request 104) and an image, and prints `sheet`, the rows,
//! the events and how many of them count; then for each offset from 0 to 2 × rows
//! a line with the offset and its row count; then `none` and the row count for no
//! offset. It refuses what `reduce` refuses of mask and image, in the same words.

use crate::judge::{all_offsets, count_counted, lines_of, number};
use crate::rules::{refusal_text, Study};
use crate::table::{read_sheet_input, Mask, Offset, Table};

/// The row counts of the reductions at each offset from 0 to twice the rows,
/// and with none: one reduction after the other, by the rules of rules.rs.
pub fn counts(table: &Table, mask: Mask) -> Vec<usize> {
    let study = Study::of(table, mask);
    let offsets = all_offsets(table.rows);
    offsets.into_iter().map(|offset| study.reduce(offset).table.rows).collect()
}

/// The sheet of a table and mask with these row counts, in the order of
/// [`counts`].
pub fn sheet(table: &Table, mask: Mask, counts: &[usize]) -> String {
    let mut text = format!("sheet {} {} {}\n", table.rows, table.events, mask.count_ones());
    for (offset, count) in all_offsets(table.rows).into_iter().zip(counts) {
        text += &format!("{} {count}\n", name(offset));
    }
    text
}

fn name(offset: Offset) -> String {
    offset.map_or("none".to_string(), |k| k.to_string())
}

/// All that `sheet` prints for an input.
pub fn text_for(input: &[u8]) -> String {
    match read_sheet_input(input) {
        Ok((mask, table)) => sheet(&table, mask, &counts(&table, mask)),
        Err(refusal) => refusal_text(refusal),
    }
}

/// A sheet read back: its first line, and the row counts in the order of
/// [`counts`].
#[derive(Debug, PartialEq, Eq)]
pub struct Sheet {
    pub rows: usize,
    pub events: usize,
    /// How many events count.
    pub counted: usize,
    pub counts: Vec<usize>,
}

impl Sheet {
    /// The row count at an offset up to twice the rows, or with none.
    pub fn count(&self, offset: Offset) -> usize {
        self.counts[offset.unwrap_or(2 * self.rows + 1)]
    }
}

/// Reads a sheet strictly: one space between words, a newline after every line,
/// numbers without leading zeros, each offset once and in turn, nothing more.
pub fn read_sheet(text: &[u8]) -> Result<Sheet, String> {
    let mut lines = lines_of(text)?;
    let head = lines.next().ok_or("no line")?;
    let ["sheet", rows, events, counted] = head[..] else {
        return Err(format!("first line {head:?}"));
    };
    let (rows, events, counted) = (number(rows)?, number(events)?, number(counted)?);
    if rows > 1024 {
        return Err(format!("{rows} rows"));
    }
    let mut counts = Vec::new();
    for offset in all_offsets(rows) {
        let words = lines.next().ok_or("a line is missing")?;
        let [word, count] = words[..] else {
            return Err(format!("line {words:?}"));
        };
        if word != name(offset) {
            return Err(format!("line {words:?} of offset {}", name(offset)));
        }
        counts.push(number(count)?);
    }
    if lines.next().is_some() {
        return Err("lines follow the last one".to_string());
    }
    Ok(Sheet { rows, events, counted, counts })
}

/// The judgement of one text for a given table and mask and the row counts that
/// it must list: it is a sheet, of that table's size, with these counts.
pub fn judge_sheet(
    given: &Table,
    mask: Mask,
    counts: &[usize],
    text: &[u8],
) -> Result<Sheet, String> {
    let sheet = read_sheet(text)?;
    if (sheet.rows, sheet.events) != (given.rows, given.events) {
        return Err(format!("rows {} and events {}", sheet.rows, sheet.events));
    }
    if sheet.counted != count_counted(given.events, mask) {
        return Err(format!("{} events that count", sheet.counted));
    }
    for (place, offset) in all_offsets(given.rows).into_iter().enumerate() {
        if sheet.counts[place] != counts[place] {
            return Err(format!(
                "{} rows at offset {} in place of {}",
                sheet.counts[place],
                name(offset),
                counts[place]
            ));
        }
    }
    Ok(sheet)
}

/// What a sheet must show whatever its table is: "no entry exceeds the one
/// before it, and the last is the count for no offset"; and every count is one
/// of 1 to the rows. Answers how many entries are below the one before.
pub fn falls(text: &[u8]) -> Result<usize, String> {
    let sheet = read_sheet(text)?;
    let (none, entries) = sheet.counts.split_last().ok_or("no counts")?;
    if let Some(k) = (1..entries.len()).find(|&k| entries[k] > entries[k - 1]) {
        return Err(format!("the entry of offset {k} exceeds the one before it"));
    }
    if entries.last() != Some(none) {
        return Err("the last entry is not the count for no offset".to_string());
    }
    if entries[0] > sheet.rows || *none == 0 {
        return Err("a count that no table of these rows has".to_string());
    }
    Ok((1..entries.len()).filter(|&k| entries[k] < entries[k - 1]).count())
}
