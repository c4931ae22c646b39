//! The generator of request 105 and the reducer in both its ways, called directly with
//! tables of any size: what they are asked and lent, what they leave, the own reading,
//! and the comparison with it.
//!
//! Document 01: "The caller lends target cells (rows × events), mark bytes (rows /
//! 8, rounded up), ... and scratch of rows × (rows − 1) / 2 + 4 × rows 16-bit
//! cells. ... On success the answer gives the new row count; the first cells, bytes
//! ... are written, the named scratch cells are 0, and everything beyond is
//! untouched." And of every refusal: "every lent buffer ... is unchanged". (No
//! records are lent here.)
//!
//! Request 109: "Offer a second way through the reducer with 12 × rows scratch cells,
//! smaller from 18 rows up. Its table, records and refusals equal the first way's; 7
//! uses the new figure there, and these cells end at 0."

use crate::calls::{as_expected, filled_bytes, filled_cells, first_other, Numbers};
use crate::damage::Answers;
use crate::levels::Levels;
use crate::load::load;
use crate::product::Product;
use crate::radio::{answer, lay, Answer};
use crate::rules::Study;
use crate::table::{check_mask, refuse, Mask, Offset, Refusal, Table};
use std::fmt::{Display, Formatter};
use std::sync::Mutex;

/// The two ways through the reducer.
#[derive(Clone, Copy, Debug, PartialEq, Eq)]
pub enum Way {
    First,
    Second,
}

impl Way {
    pub const BOTH: [Way; 2] = [Way::First, Way::Second];

    /// The scratch cells named for so many rows.
    pub fn scratch(self, rows: usize) -> usize {
        match self {
            Way::First => rows * (rows - 1) / 2 + 4 * rows,
            Way::Second => 12 * rows,
        }
    }
}

/// What the reducer is asked.
#[derive(Clone, Debug)]
pub struct Task {
    pub way: Way,
    pub offset: u32,
    pub mask: Mask,
    pub given: Numbers,
}

/// The functions: the own ones, the product's, or spoiled ones.
pub trait Direct: Sync {
    /// Answers four zeros.
    fn generate(
        &self,
        seed: u32,
        rows: usize,
        events: usize,
        cells: &mut [u16],
        marks: &mut [u8],
    ) -> Answer;

    /// Answers the new row count.
    fn reduce(
        &self,
        task: &Task,
        cells: &mut [u16],
        marks: &mut [u8],
        scratch: &mut [u16],
    ) -> Answer;
}

/// An offset as the reducer is told it: "a number from 0 to 65,535"; any greater
/// one is none.
pub fn offset_of(number: u32) -> Offset {
    (number <= 65_535).then_some(number as usize)
}

/// The lengths of what is lent. (The generator is lent no scratch.)
#[derive(Clone, Copy, Debug, PartialEq, Eq)]
pub struct Lengths {
    pub cells: usize,
    pub marks: usize,
    pub scratch: usize,
}

impl Lengths {
    /// Those named for a table of this size.
    pub fn named(way: Way, rows: usize, events: usize) -> Lengths {
        Lengths { cells: rows * events, marks: rows.div_ceil(8), scratch: way.scratch(rows) }
    }

    /// 7: "a lent buffer is shorter than named".
    fn check(self, named: Lengths) -> Result<(), Refusal> {
        if self.cells < named.cells || self.marks < named.marks || self.scratch < named.scratch {
            return refuse(7);
        }
        Ok(())
    }
}

/// All reductions of one table under one mask.
pub trait Reductions: Send {
    fn are_of(&self, table: &Table, mask: Mask) -> bool;
    fn table_at(&self, offset: Offset) -> Table;
}

impl Reductions for Study {
    fn are_of(&self, table: &Table, mask: Mask) -> bool {
        self.table == *table && self.mask == mask
    }

    fn table_at(&self, offset: Offset) -> Table {
        self.reduce(offset).table
    }
}

impl Reductions for Levels {
    fn are_of(&self, table: &Table, mask: Mask) -> bool {
        self.table == *table && self.mask == mask
    }

    fn table_at(&self, offset: Offset) -> Table {
        self.reduced(offset)
    }
}

/// The own reading. It keeps its last reductions and the last one of them: a table is
/// asked about at many offsets and in both ways, and to study a large one takes long.
#[derive(Default)]
pub struct Own {
    last: Mutex<Option<Last>>,
}

struct Last {
    reductions: Box<dyn Reductions>,
    one: Option<(Offset, Table)>,
}

impl Own {
    /// With these, by the rules of rules.rs or level by level (levels.rs).
    pub fn of(reductions: impl Reductions + 'static) -> Own {
        Own { last: Mutex::new(Some(Last { reductions: Box::new(reductions), one: None })) }
    }

    /// The reduced table, by what is kept or else by the rules of rules.rs.
    pub fn reduced(&self, table: &Table, mask: Mask, offset: Offset) -> Table {
        let mut last = self.last.lock().unwrap();
        if !last.as_ref().is_some_and(|last| last.reductions.are_of(table, mask)) {
            *last = Some(Last { reductions: Box::new(Study::of(table, mask)), one: None });
        }
        let Last { reductions, one } = last.as_mut().unwrap();
        match one {
            Some((known, new)) if *known == offset => new.clone(),
            _ => one.insert((offset, reductions.table_at(offset))).1.clone(),
        }
    }
}

impl Direct for Own {
    fn generate(
        &self,
        seed: u32,
        rows: usize,
        events: usize,
        cells: &mut [u16],
        marks: &mut [u8],
    ) -> Answer {
        answer(load(seed, rows, events).and_then(|table| {
            // "Short cells or mark bytes give 7, last."
            lay(&[&table], cells, marks)?;
            Ok([0; 4])
        }))
    }

    fn reduce(
        &self,
        task: &Task,
        cells: &mut [u16],
        marks: &mut [u8],
        scratch: &mut [u16],
    ) -> Answer {
        let lent = Lengths { cells: cells.len(), marks: marks.len(), scratch: scratch.len() };
        answer(check(task, lent).and_then(|table| {
            let new = self.reduced(&table, task.mask, offset_of(task.offset));
            lay(&[&new], cells, marks)?;
            scratch[..task.way.scratch(table.rows)].fill(0);
            Ok([0, new.rows, 0, 0])
        }))
    }
}

/// "Reducer and writer check 1 to 7 in number order", with 16 "straight after 6".
fn check(task: &Task, lent: Lengths) -> Result<Table, Refusal> {
    let Task { way, mask, ref given, .. } = *task;
    given.check()?;
    check_mask(mask, given.events)?;
    lent.check(Lengths::named(way, given.rows, given.events))?;
    Ok(given.table())
}

/// What lent buffers hold before a call.
#[derive(Clone, Copy, Debug)]
pub enum Fill {
    /// A pattern without rows.
    Pattern,
    /// Bits that are set must be written.
    Zeros,
    /// Bits that are clear must be written.
    Ones,
    /// Small numbers, such as lengths and rows.
    Small,
}

impl Fill {
    /// All but the last.
    pub const ALL: [Fill; 3] = [Fill::Pattern, Fill::Zeros, Fill::Ones];

    pub fn cells(self, length: usize) -> Vec<u16> {
        match self {
            Fill::Pattern => filled_cells(length),
            Fill::Zeros => vec![0; length],
            Fill::Ones => vec![u16::MAX; length],
            Fill::Small => (0..length).map(|place| 1 + (place % 7) as u16).collect(),
        }
    }

    pub fn bytes(self, length: usize) -> Vec<u8> {
        match self {
            Fill::Pattern => filled_bytes(length),
            Fill::Zeros => vec![0; length],
            Fill::Ones => vec![u8::MAX; length],
            Fill::Small => (0..length).map(|place| 1 + (place % 7) as u8).collect(),
        }
    }
}

#[derive(Clone, Debug)]
pub enum Asked {
    Generate { seed: u32, rows: usize, events: usize },
    Reduce(Task),
}

/// One call. The lent buffers are new for each call.
#[derive(Clone, Debug)]
pub struct Call {
    pub asked: Asked,
    pub lent: Lengths,
    pub fill: Fill,
}

/// The answer, and the lent buffers after the call.
#[derive(Clone, Debug, PartialEq, Eq)]
pub struct Left {
    pub answer: Answer,
    pub cells: Vec<u16>,
    pub marks: Vec<u8>,
    pub scratch: Vec<u16>,
}

impl Call {
    /// Makes the call.
    pub fn by(&self, functions: &dyn Direct) -> Left {
        let mut left = Left {
            answer: [0; 4],
            cells: self.fill.cells(self.lent.cells),
            marks: self.fill.bytes(self.lent.marks),
            scratch: self.fill.cells(self.lent.scratch),
        };
        let (cells, marks) = (&mut left.cells[..], &mut left.marks[..]);
        left.answer = match self.asked {
            Asked::Generate { seed, rows, events } => {
                functions.generate(seed, rows, events, cells, marks)
            }
            Asked::Reduce(ref task) => functions.reduce(task, cells, marks, &mut left.scratch),
        };
        left
    }
}

impl Display for Call {
    fn fmt(&self, f: &mut Formatter) -> std::fmt::Result {
        match &self.asked {
            Asked::Generate { seed, rows, events } => {
                write!(f, "generate, seed {seed}, rows {rows}, events {events}")?
            }
            Asked::Reduce(Task { way, offset, mask, given }) => {
                write!(f, "reduce, {way:?} way, offset {offset}, mask {mask:b}, {given}")?
            }
        }
        write!(f, ", lent {:?} filled with {:?}", self.lent, self.fill)
    }
}

/// Makes a call by these functions and by the own ones: the answers and every byte
/// and cell afterwards are the same.
pub fn compare(functions: &dyn Direct, own: &Own, call: &Call) -> Result<Left, String> {
    let left = call.by(functions);
    let expected = call.by(own);
    let lent = [
        ("cells", first_other(&left.cells, &expected.cells)),
        ("marks", first_other(&left.marks, &expected.marks)),
        ("scratch", first_other(&left.scratch, &expected.scratch)),
    ];
    as_expected(call, left.answer, expected.answer, &lent).map(|()| left)
}

/// The comparison, and the very answer as a test knows it. Answers the number of
/// the refusal, 0 where there is none.
pub fn expect(
    functions: &dyn Direct,
    own: &Own,
    call: &Call,
    answer: Answer,
) -> Result<usize, String> {
    let left = compare(functions, own, call)?;
    if left.answer != answer {
        return Err(format!("answered {:?}, by the test {answer:?}: {call}", left.answer));
    }
    Ok(answer[0])
}

/// What is done with the answer to one call: a refusal's number, 0 where there is
/// none, or what is wrong.
pub type Report<'a> = &'a (dyn Fn(Result<usize, String>) + Sync);

/// Makes a call of the reducer in both ways: each is as by the own functions, and has
/// an answer that the test takes for right. Where both take the table or both refuse
/// it, answer, cells and mark bytes are the same in both.
pub fn both_ways(
    functions: &dyn Direct,
    own: &Own,
    report: Report,
    call: impl Fn(Way) -> Call,
    right: impl Fn(Way, Answer) -> bool,
) {
    let [first, second] = Way::BOTH.map(|way| {
        let call = call(way);
        compare(functions, own, &call).and_then(|left| match right(way, left.answer) {
            true => Ok(left),
            false => Err(format!("answered {:?}, not so by the test: {call}", left.answer)),
        })
    });
    if let (Ok(first), Ok(second)) = (&first, &second) {
        if let Err(what) = alike(first, second) {
            report(Err(format!("{what}: {}", call(Way::Second))));
        }
    }
    [first, second].into_iter().for_each(|left| report(left.map(|left| left.answer[0])));
}

/// Whether both ways have done the same. (One may have too little scratch where the
/// other has enough.)
fn alike(first: &Left, second: &Left) -> Result<(), &'static str> {
    if (first.answer[0] == 0) != (second.answer[0] == 0) {
        return Ok(());
    }
    if first.answer != second.answer {
        return Err("the ways differ in the answer");
    }
    if first.cells != second.cells || first.marks != second.marks {
        return Err("the ways differ in the lent cells or mark bytes");
    }
    Ok(())
}

/// Makes calls of the product, stops at a fault, and shows the answers.
pub fn on_product(what: &str, calls: impl Fn(&dyn Direct, Report)) {
    count_answers(what, |report| calls(&Product, report));
}

/// Makes calls, stops at a fault, and shows the answers.
pub fn count_answers(what: &str, calls: impl Fn(Report)) {
    let answers = Answers::default();
    calls(&|answer| answers.count(answer));
    answers.show(what, "taken");
}

#[cfg(test)]
mod tests {
    use super::{alike, Left};

    /// Two ways that differ in anything but the scratch are told apart, unless one alone
    /// refuses.
    #[test]
    fn ways_are_told_apart() {
        let left = |answer: [usize; 2], cell: u16, mark: u8, scratch: usize| Left {
            answer: [answer[0], answer[1], 0, 0],
            cells: vec![1, cell],
            marks: vec![mark],
            scratch: vec![0; scratch],
        };
        let first = left([0, 2], 1, 3, 9);
        assert_eq!(alike(&first, &left([0, 2], 1, 3, 24)), Ok(()));
        assert_eq!(alike(&first, &left([7, 0], 5, 5, 8)), Ok(()));
        assert!(alike(&first, &left([0, 1], 1, 3, 9)).is_err());
        assert!(alike(&first, &left([0, 2], 0, 3, 9)).is_err());
        assert!(alike(&first, &left([0, 2], 1, 1, 9)).is_err());
        assert!(alike(&left([5, 1], 1, 3, 9), &left([5, 2], 1, 3, 9)).is_err());
        println!("two ways: 6 pairs told apart or not");
    }
}
