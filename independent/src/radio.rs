//! Request 102, "Packs sent by radio": radio images and packs, written and read.
//!
//! "Add a radio image, reader and writer: sections as now, but each target is a
//! signed byte, target minus own row." "Up to 16 radio images go in a pack after
//! a 16-bit count; each image is written from the byte where the one before it
//! ends". "A pack's tables lie one after another in lent cells and mark bytes,
//! with rows, events and start of each in a lent list."

use crate::table::{check_size, push_number, refuse, Refusal, Table, Taker};

/// What a function answers, one of these four or of direct.rs: 0 and up to three
/// values, or a refusal's number and place; where there is nothing more to say, 0.
pub type Answer = [usize; 4];

/// The four functions of the request: the own ones, or the product's.
pub trait Functions: Sync {
    /// Answers the image's length.
    fn write_radio(
        &self,
        rows: usize,
        events: usize,
        start: usize,
        cells: &[u16],
        marks: &[u8],
        out: &mut [u8],
    ) -> Answer;

    /// Answers rows, events and start.
    fn read_radio(&self, image: &[u8], cells: &mut [u16], marks: &mut [u8]) -> Answer;

    /// Answers the pack's length.
    fn write_pack(&self, list: &[u16], cells: &[u16], marks: &[u8], out: &mut [u8]) -> Answer;

    /// Answers how many tables there are.
    fn read_pack(
        &self,
        pack: &[u8],
        list: &mut [u16],
        cells: &mut [u16],
        marks: &mut [u8],
    ) -> Answer;
}

/// The own reading of the request.
pub struct Own;

impl Functions for Own {
    fn write_radio(
        &self,
        rows: usize,
        events: usize,
        start: usize,
        cells: &[u16],
        marks: &[u8],
        out: &mut [u8],
    ) -> Answer {
        let given = Given { rows, events, start, cells, marks };
        answer(radio_image(given).and_then(|image| put(&image, out)))
    }

    fn read_radio(&self, image: &[u8], cells: &mut [u16], marks: &mut [u8]) -> Answer {
        answer(read_image(image).and_then(|table| {
            lay(&[&table], cells, marks)?;
            Ok([0, table.rows, table.events, table.start])
        }))
    }

    fn write_pack(&self, list: &[u16], cells: &[u16], marks: &[u8], out: &mut [u8]) -> Answer {
        answer(pack_image(list, cells, marks).and_then(|pack| put(&pack, out)))
    }

    fn read_pack(
        &self,
        pack: &[u8],
        list: &mut [u16],
        cells: &mut [u16],
        marks: &mut [u8],
    ) -> Answer {
        answer(read_tables(pack).and_then(|tables| {
            if list.len() < 3 * tables.len() {
                return refuse(7);
            }
            lay(&tables.iter().collect::<Vec<_>>(), cells, marks)?;
            for (number, table) in tables.iter().enumerate() {
                list[3 * number] = table.rows as u16;
                list[3 * number + 1] = table.events as u16;
                list[3 * number + 2] = table.start as u16;
            }
            Ok([0, tables.len(), 0, 0])
        }))
    }
}

/// "A refusal returns its number and place (0 where none is named)".
pub fn answer(result: Result<Answer, Refusal>) -> Answer {
    result.unwrap_or_else(|refusal| [refusal.number, refusal.place, 0, 0])
}

// The writers.

/// A table as a writer or the reducer is given it, sound or not.
#[derive(Clone, Copy)]
pub struct Given<'a> {
    pub rows: usize,
    pub events: usize,
    pub start: usize,
    pub cells: &'a [u16],
    pub marks: &'a [u8],
}

impl Given<'_> {
    /// 1 to 6 in number order.
    pub fn check(self) -> Result<(), Refusal> {
        check_size(self.rows, self.events)?;
        self.check_lengths()?;
        self.check_contents()
    }

    /// 3: "the given cells or mark bytes are not the number required".
    pub fn check_lengths(self) -> Result<(), Refusal> {
        let (cells, marks) = (self.rows * self.events, self.rows.div_ceil(8));
        if self.cells.len() != cells || self.marks.len() != marks {
            return refuse(3);
        }
        Ok(())
    }

    /// 4: "the start ... is no row"; 5: "a target is no row; place: first such
    /// cell"; 6: "a spare mark bit is set". Cells and mark bytes have the number
    /// required.
    pub fn check_contents(self) -> Result<(), Refusal> {
        if self.start >= self.rows {
            return refuse(4);
        }
        if let Some(place) = self.cells.iter().position(|&target| target as usize >= self.rows) {
            return Err(Refusal { number: 5, place });
        }
        for bit in self.rows..8 * self.marks.len() {
            if self.marks[bit / 8] / 2u8.pow((bit % 8) as u32) % 2 == 1 {
                return refuse(6);
            }
        }
        Ok(())
    }

    /// 14: "a step outside −128 to 127, place the first such cell".
    fn check_steps(self) -> Result<(), Refusal> {
        for place in 0..self.cells.len() {
            if self.step(place) < -128 || self.step(place) > 127 {
                return Err(Refusal { number: 14, place });
            }
        }
        Ok(())
    }

    /// The step of a cell: "target minus own row".
    fn step(self, cell: usize) -> i32 {
        let row = cell / self.events;
        self.cells[cell] as i32 - row as i32
    }

    /// Document 01's sections, with a byte for each step.
    fn push_image(self, bytes: &mut Vec<u8>) {
        push_number(bytes, self.rows);
        bytes.extend(self.marks);
        push_number(bytes, self.rows * self.events);
        for cell in 0..self.cells.len() {
            // A signed byte: −1 is 255, −128 is 128.
            bytes.push(self.step(cell).rem_euclid(256) as u8);
        }
        push_number(bytes, 1);
        push_number(bytes, self.start);
    }
}

/// "Reducer and writer check 1 to 7 in number order", with 14 "between 6 and 7".
fn radio_image(given: Given) -> Result<Vec<u8>, Refusal> {
    given.check()?;
    given.check_steps()?;
    let mut bytes = Vec::new();
    given.push_image(&mut bytes);
    Ok(bytes)
}

/// "A pack's writer checks 15, then 1 and 2 table by table, then 3 once for all
/// the tables together, then 4, 5, 6 and 14 table by table, then 7."
fn pack_image(list: &[u16], cells: &[u16], marks: &[u8]) -> Result<Vec<u8>, Refusal> {
    let count = list.len() / 3;
    if count == 0 || count > 16 {
        return refuse(15);
    }
    let mut tables = Vec::new();
    for entry in list.chunks_exact(3) {
        let [rows, events, start] = [entry[0], entry[1], entry[2]].map(usize::from);
        tables.push(Given { rows, events, start, cells: &[], marks: &[] });
    }
    for table in &tables {
        check_size(table.rows, table.events)?;
    }
    let all_cells: usize = tables.iter().map(|table| table.rows * table.events).sum();
    let all_marks: usize = tables.iter().map(|table| table.rows.div_ceil(8)).sum();
    if list.len() % 3 != 0 || cells.len() != all_cells || marks.len() != all_marks {
        return refuse(3);
    }
    let (mut cells, mut marks) = (cells, marks);
    for table in &mut tables {
        (table.cells, cells) = cells.split_at(table.rows * table.events);
        (table.marks, marks) = marks.split_at(table.rows.div_ceil(8));
        table.check_contents()?;
        table.check_steps()?;
    }
    let mut bytes = Vec::new();
    push_number(&mut bytes, count);
    for table in &tables {
        table.push_image(&mut bytes);
    }
    Ok(bytes)
}

/// 7, then the bytes; their length is the answer.
fn put(bytes: &[u8], out: &mut [u8]) -> Result<Answer, Refusal> {
    if out.len() < bytes.len() {
        return refuse(7);
    }
    out[..bytes.len()].copy_from_slice(bytes);
    Ok([0, bytes.len(), 0, 0])
}

// The readers.

/// Reads one radio image: the reader's order of document 01, without 7.
pub fn read_image(image: &[u8]) -> Result<Table, Refusal> {
    let mut taker = Taker::new(image);
    let table = take_image(&mut taker)?;
    taker.end()?;
    Ok(table)
}

/// Reads a pack, without 7: "15, a pack count of 0 or above 16, before the first
/// image"; "bytes left over are judged only after the last"; "8 gives the pack's
/// length, also for a cut count".
pub fn read_tables(pack: &[u8]) -> Result<Vec<Table>, Refusal> {
    let mut taker = Taker::new(pack);
    let count = taker.number()?;
    if count == 0 || count > 16 {
        return refuse(15);
    }
    let mut tables = Vec::new();
    for _ in 0..count {
        tables.push(take_image(&mut taker)?);
    }
    taker.end()?;
    Ok(tables)
}

/// Takes one radio image from the front: document 01's sections, a byte for each
/// target. "A reader's step off the table gives 5."
fn take_image(taker: &mut Taker) -> Result<Table, Refusal> {
    let rows = taker.rows()?;
    let marks = taker.marks(rows)?;
    let events = taker.events(rows)?;
    let mut targets = Vec::new();
    for (place, &byte) in taker.bytes(rows * events)?.iter().enumerate() {
        let row = place / events;
        let target = if byte < 128 {
            row + byte as usize
        } else {
            // The byte is a step of byte − 256.
            let back = 256 - byte as usize;
            if back > row {
                return Err(Refusal { number: 5, place });
            }
            row - back
        };
        if target >= rows {
            return Err(Refusal { number: 5, place });
        }
        targets.push(target);
    }
    let start = taker.start(rows)?;
    Ok(Table { rows, events, start, targets, marks })
}

/// 7 for cells and mark bytes, then the tables one after another in them.
pub fn lay(tables: &[&Table], cells: &mut [u16], marks: &mut [u8]) -> Result<(), Refusal> {
    let all_cells: Vec<u16> =
        tables.iter().flat_map(|table| &table.targets).map(|&target| target as u16).collect();
    let all_marks: Vec<u8> = tables.iter().flat_map(|table| table.packed()).collect();
    if cells.len() < all_cells.len() || marks.len() < all_marks.len() {
        return refuse(7);
    }
    cells[..all_cells.len()].copy_from_slice(&all_cells);
    marks[..all_marks.len()].copy_from_slice(&all_marks);
    Ok(())
}
