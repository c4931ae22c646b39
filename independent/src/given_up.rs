//! Request 106, "The last run that differs": the call that tells what is given up where a
//! row folds, what it is asked and lent, what it leaves, the own reading, and the comparison
//! with it; and the text of the program.
//!
//! "A new call, with the reducer's scratch, 0 afterwards, gives a row's distance to the row
//! it folds into and the chosen run's length in all its events, and writes that whole run, an
//! event a byte; a kept or unreached row, or distance 0, gives 0 and an empty run. A number
//! that is no row gives 4. Checks: 18, the lent run buffer is too short for that run; last of
//! all, and only the scratch is then changed, to 0, in spite of demand 1."
//!
//! The program is told what `reduce` is told, and refuses what `reduce` refuses. It prints a
//! line for each folded row in the order of the rows: its number, `folded`, the row that it
//! folds into, `distance`, the distance, `run`, and each event of the run. Of 128 rows 127 may
//! fold, and a run has at most 126 events (runs.rs), so a line has at most 32 + 3 × 126 bytes,
//! and a text 127 × 410 = 52,070.

use crate::calls::{as_expected, first_other, Numbers};
use crate::direct::{offset_of, Fill, Way};
use crate::last_run::chosen;
use crate::levels::Levels;
use crate::radio::{answer, Answer};
use crate::rules::{refusal_text, Length};
use crate::runs::Chosen;
use crate::table::{check_mask, check_size, read_input, refuse, Mask, Offset, Refusal, Table};
use std::fmt::{Display, Formatter};
use std::sync::Mutex;

/// What the call is asked.
#[derive(Clone, Debug)]
pub struct Asked {
    pub offset: u32,
    pub mask: Mask,
    pub given: Numbers,
    pub row: usize,
}

/// The call and the program: the own ones, the product's, or misled ones.
pub trait GivenUp: Sync {
    /// Answers the distance and the run's length.
    fn last_run(&self, asked: &Asked, run: &mut [u8], scratch: &mut [u16]) -> Answer;

    /// What the program prints for an input.
    fn text(&self, input: &[u8]) -> Vec<u8>;
}

/// The scratch cells named: "the reducer's scratch".
pub fn scratch_named(rows: usize) -> usize {
    Way::First.scratch(rows)
}

/// Where the rows of a table fold under a mask at an offset, and the distances behind it.
pub struct Folds {
    pub levels: Levels,
    offset: Offset,
    into: Vec<Option<usize>>,
}

impl Folds {
    pub fn of(levels: Levels, offset: Offset) -> Folds {
        let into = levels.folds(offset);
        Folds { levels, offset, into }
    }

    /// The same at another offset.
    fn at(self, offset: Offset) -> Folds {
        if self.offset == offset {
            return self;
        }
        Folds::of(self.levels, offset)
    }

    /// The row that a row folds into; none for a kept or unreached one.
    pub fn into(&self, row: usize) -> Option<usize> {
        self.into[row].filter(|&into| into != row)
    }

    /// Distance and run as the call gives them.
    pub fn given_up(&self, row: usize) -> (usize, Vec<u8>) {
        let Some(into) = self.into(row) else { return (0, vec![]) };
        match chosen(&self.levels, row, into) {
            Chosen { distance: Length::Of(distance), run } => (distance, run),
            _ => panic!("a row folds at an endless distance: {:?}", self.levels.table),
        }
    }

    /// What the program prints.
    pub fn text(&self) -> String {
        let mut text = String::new();
        for row in 0..self.levels.table.rows {
            if let Some(into) = self.into(row) {
                let (distance, run) = self.given_up(row);
                text += &line(row, into, distance, &run);
            }
        }
        text
    }
}

/// The program's line for a folded row.
pub fn line(row: usize, into: usize, distance: usize, run: &[u8]) -> String {
    let run: String = run.iter().map(|event| format!(" {event}")).collect();
    format!("{row} folded {into} distance {distance} run{run}\n")
}

/// All that the program prints for an input.
pub fn text_for(input: &[u8]) -> String {
    match read_input(input) {
        Ok((offset, mask, table)) => Folds::of(Levels::of(&table, mask), offset).text(),
        Err(refusal) => refusal_text(refusal),
    }
}

/// The own reading. It keeps its last folds: a table is asked about with many rows.
#[derive(Default)]
pub struct Own {
    last: Mutex<Option<Folds>>,
}

impl Own {
    fn given_up(&self, table: &Table, asked: &Asked) -> (usize, Vec<u8>) {
        let offset = offset_of(asked.offset);
        let mut last = self.last.lock().unwrap();
        let is_it = |folds: &Folds| folds.levels.table == *table && folds.levels.mask == asked.mask;
        let folds = match last.take() {
            Some(folds) if is_it(&folds) => folds.at(offset),
            _ => Folds::of(Levels::of(table, asked.mask), offset),
        };
        last.insert(folds).given_up(asked.row)
    }
}

impl GivenUp for Own {
    fn last_run(&self, asked: &Asked, run: &mut [u8], scratch: &mut [u16]) -> Answer {
        answer(check(asked, scratch.len()).and_then(|table| {
            let (distance, events) = self.given_up(&table, asked);
            scratch[..scratch_named(table.rows)].fill(0);
            // "18, the lent run buffer is too short for that run; last of all".
            if run.len() < events.len() {
                return refuse(18);
            }
            run[..events.len()].copy_from_slice(&events);
            Ok([0, distance, events.len(), 0])
        }))
    }

    fn text(&self, input: &[u8]) -> Vec<u8> {
        text_for(input).into_bytes()
    }
}

/// The reducer's checks in its order, 1 to 6, 16 and 7, which is of the scratch alone. The
/// row is judged with the start, by 4; which of the two is judged first does not show.
fn check(asked: &Asked, scratch: usize) -> Result<Table, Refusal> {
    let Numbers { rows, events, .. } = asked.given;
    let table = asked.given.given();
    check_size(rows, events)?;
    table.check_lengths()?;
    if asked.row >= rows {
        return refuse(4);
    }
    table.check_contents()?;
    check_mask(asked.mask, events)?;
    if scratch < scratch_named(rows) {
        return refuse(7);
    }
    Ok(asked.given.table())
}

/// One call, with the lengths of what is lent. The buffers are new for each call.
#[derive(Clone, Debug)]
pub struct Call {
    pub asked: Asked,
    pub run: usize,
    pub scratch: usize,
    pub fill: Fill,
}

/// The answer, and the lent buffers after the call.
#[derive(Clone, Debug, PartialEq, Eq)]
pub struct Left {
    pub answer: Answer,
    pub run: Vec<u8>,
    pub scratch: Vec<u16>,
}

impl Call {
    /// What is lent before the call.
    fn lent(&self) -> Left {
        let (run, scratch) = (self.fill.bytes(self.run), self.fill.cells(self.scratch));
        Left { answer: [0; 4], run, scratch }
    }

    /// Makes the call.
    pub fn by(&self, functions: &dyn GivenUp) -> Left {
        let mut left = self.lent();
        left.answer = functions.last_run(&self.asked, &mut left.run, &mut left.scratch);
        left
    }

    /// What is left where the distance and the run are these; "too short for that run" is
    /// 18, after which the named scratch cells are 0 and the run buffer is as it was.
    pub fn expecting(&self, distance: usize, events: &[u8]) -> Left {
        let mut left = self.lent();
        left.scratch[..scratch_named(self.asked.given.rows)].fill(0);
        left.answer = match left.run.get_mut(..events.len()) {
            Some(front) => {
                front.copy_from_slice(events);
                [0, distance, events.len(), 0]
            }
            None => [18, 0, 0, 0],
        };
        left
    }

    /// What is left after another refusal: what was there.
    pub fn refused(&self, number: usize, place: usize) -> Left {
        Left { answer: [number, place, 0, 0], ..self.lent() }
    }
}

impl Display for Call {
    fn fmt(&self, f: &mut Formatter) -> std::fmt::Result {
        let Call { asked: Asked { offset, mask, given, row }, run, scratch, fill } = self;
        write!(
            f,
            "last run, offset {offset}, mask {mask:b}, {given}, row {row}, lent {run} bytes and \
             {scratch} scratch cells filled with {fill:?}"
        )
    }
}

/// Makes a call by these functions: the answer and every byte and cell afterwards are as
/// expected. Answers the number of the refusal, 0 where there is none.
pub fn compare(functions: &dyn GivenUp, call: &Call, expected: &Left) -> Result<usize, String> {
    let left = call.by(functions);
    let lent = [
        ("run", first_other(&left.run, &expected.run)),
        ("scratch", first_other(&left.scratch, &expected.scratch)),
    ];
    as_expected(call, left.answer, expected.answer, &lent).map(|()| left.answer[0])
}
