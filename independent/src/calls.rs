//! Calls of the four functions of request 102 (radio.rs): what a function is
//! given and lent, what it leaves, and the comparison with the own reading.

use crate::judge::hexadecimal;
use crate::radio::{Answer, Functions, Given, Own};
use crate::table::{Refusal, Table};
use std::fmt::{Display, Formatter};

/// A table in the numbers of these functions, sound or not.
#[derive(Clone, Debug, PartialEq, Eq)]
pub struct Numbers {
    pub rows: usize,
    pub events: usize,
    pub start: usize,
    pub cells: Vec<u16>,
    pub marks: Vec<u8>,
}

impl Numbers {
    pub fn of(table: &Table) -> Numbers {
        Numbers {
            rows: table.rows,
            events: table.events,
            start: table.start,
            cells: table.targets.iter().map(|&target| target as u16).collect(),
            marks: table.packed(),
        }
    }

    /// The table again; these numbers are sound.
    pub fn table(&self) -> Table {
        let bit = |row: usize| self.marks[row / 8] / 2u8.pow((row % 8) as u32) % 2 == 1;
        let targets: Vec<usize> = self.cells.iter().map(|&target| target as usize).collect();
        let marks: Vec<bool> = (0..self.rows).map(bit).collect();
        Table::new(self.events, self.start, &targets, &marks)
    }

    /// As the own reading takes them.
    pub fn given(&self) -> Given<'_> {
        let Numbers { rows, events, start, ref cells, ref marks } = *self;
        Given { rows, events, start, cells, marks }
    }

    /// 1 to 6 in number order.
    pub fn check(&self) -> Result<(), Refusal> {
        self.given().check()
    }

    /// A radio image's length: the mark bytes, a byte for each target, and 8.
    pub fn image_length(&self) -> usize {
        self.marks.len() + self.cells.len() + 8
    }
}

impl Display for Numbers {
    fn fmt(&self, f: &mut Formatter) -> std::fmt::Result {
        write!(
            f,
            "rows {}, events {}, start {}, cells {}, marks {}",
            self.rows,
            self.events,
            self.start,
            words(&self.cells),
            bytes(&self.marks)
        )
    }
}

/// One call. Of what is lent only the length is named: the buffers are new for
/// each call, and filled.
#[derive(Clone, Debug)]
pub enum Call {
    WriteRadio { given: Numbers, out: usize },
    ReadRadio { image: Vec<u8>, cells: usize, marks: usize },
    WritePack { list: Vec<u16>, cells: Vec<u16>, marks: Vec<u8>, out: usize },
    ReadPack { pack: Vec<u8>, list: usize, cells: usize, marks: usize },
}

/// The answer, and the lent buffers after the call; those not lent are empty.
#[derive(Clone, Debug, PartialEq, Eq)]
pub struct Outcome {
    pub answer: Answer,
    pub list: Vec<u16>,
    pub cells: Vec<u16>,
    pub marks: Vec<u8>,
    pub out: Vec<u8>,
}

/// What a lent buffer of so many bytes holds before the call.
pub fn filled_bytes(length: usize) -> Vec<u8> {
    (0..length).map(|place| (165 + 29 * place) as u8).collect()
}

/// The same for 16-bit cells: none is a row, an event count or a row count.
pub fn filled_cells(length: usize) -> Vec<u16> {
    (0..length).map(|place| 0xA500 + (place % 241) as u16).collect()
}

impl Call {
    /// A pack of these tables.
    pub fn write_pack(tables: &[Numbers], out: usize) -> Call {
        let list = tables.iter().flat_map(|table| [table.rows, table.events, table.start]);
        Call::WritePack {
            list: list.map(|number| number as u16).collect(),
            cells: tables.iter().map(|table| &table.cells[..]).collect::<Vec<_>>().concat(),
            marks: tables.iter().map(|table| &table.marks[..]).collect::<Vec<_>>().concat(),
            out,
        }
    }

    /// Makes the call.
    pub fn by(&self, functions: &dyn Functions) -> Outcome {
        let (list, cells, marks, out) = match *self {
            Call::WriteRadio { out, .. } | Call::WritePack { out, .. } => (0, 0, 0, out),
            Call::ReadRadio { cells, marks, .. } => (0, cells, marks, 0),
            Call::ReadPack { list, cells, marks, .. } => (list, cells, marks, 0),
        };
        let mut left = Outcome {
            answer: [0; 4],
            list: filled_cells(list),
            cells: filled_cells(cells),
            marks: filled_bytes(marks),
            out: filled_bytes(out),
        };
        left.answer = match self {
            Call::WriteRadio { given: g, .. } => {
                functions.write_radio(g.rows, g.events, g.start, &g.cells, &g.marks, &mut left.out)
            }
            Call::ReadRadio { image, .. } => {
                functions.read_radio(image, &mut left.cells, &mut left.marks)
            }
            Call::WritePack { list, cells, marks, .. } => {
                functions.write_pack(list, cells, marks, &mut left.out)
            }
            Call::ReadPack { pack, .. } => {
                functions.read_pack(pack, &mut left.list, &mut left.cells, &mut left.marks)
            }
        };
        left
    }
}

/// A table's radio image, by the own writer.
pub fn own_image(table: &Table) -> Vec<u8> {
    let given = Numbers::of(table);
    let out = given.image_length();
    own_output(Call::WriteRadio { given, out })
}

/// A pack of these tables, by the own writer.
pub fn own_pack(tables: &[&Table]) -> Vec<u8> {
    let list: Vec<Numbers> = tables.iter().map(|table| Numbers::of(table)).collect();
    own_output(Call::write_pack(&list, pack_length(&list)))
}

fn own_output(call: Call) -> Vec<u8> {
    let left = call.by(&Own);
    assert_eq!(left.answer, [0, left.out.len(), 0, 0], "a test makes no such call: {call}");
    left.out
}

/// The length of a pack of these tables.
pub fn pack_length(tables: &[Numbers]) -> usize {
    2 + tables.iter().map(|table| table.image_length()).sum::<usize>()
}

impl Display for Call {
    fn fmt(&self, f: &mut Formatter) -> std::fmt::Result {
        match self {
            Call::WriteRadio { given, out } => write!(f, "write_radio, {given}, lent {out} bytes"),
            Call::ReadRadio { image, cells, marks } => write!(
                f,
                "read_radio, image {}, lent {cells} cells, {marks} mark bytes",
                bytes(image)
            ),
            Call::WritePack { list, cells, marks, out } => write!(
                f,
                "write_pack, list {}, cells {}, marks {}, lent {out} bytes",
                words(list),
                words(cells),
                bytes(marks)
            ),
            Call::ReadPack { pack, list, cells, marks } => write!(
                f,
                "read_pack, pack {}, lent {list} entries, {cells} cells, {marks} mark bytes",
                bytes(pack)
            ),
        }
    }
}

/// How much of a long list is shown.
const SHOWN: usize = 3_000;

pub fn bytes(list: &[u8]) -> String {
    format!("({}) {}", list.len(), hexadecimal(&list[..list.len().min(SHOWN)]))
}

pub fn words(list: &[u16]) -> String {
    let shown: Vec<String> = list.iter().take(SHOWN).map(|word| format!("{word:04x}")).collect();
    format!("({}) {}", list.len(), shown.join(" "))
}

/// Makes a call by these functions and by the own ones: the answers and every
/// byte and cell afterwards are the same.
pub fn compare(functions: &dyn Functions, call: &Call) -> Result<Outcome, String> {
    let left = call.by(functions);
    let expected = call.by(&Own);
    let lent = [
        ("list", first_other(&left.list, &expected.list)),
        ("cells", first_other(&left.cells, &expected.cells)),
        ("marks", first_other(&left.marks, &expected.marks)),
        ("output", first_other(&left.out, &expected.out)),
    ];
    as_expected(call, left.answer, expected.answer, &lent).map(|()| left)
}

/// The answer to a call is the expected one, and no lent buffer has another place.
pub fn as_expected(
    call: &dyn Display,
    answer: Answer,
    expected: Answer,
    lent: &[(&str, Option<usize>)],
) -> Result<(), String> {
    if answer != expected {
        return Err(format!("answered {answer:?}, expected {expected:?}: {call}"));
    }
    for (what, place) in lent {
        if let Some(place) = place {
            return Err(format!("lent {what} not as expected at {place}: {call}"));
        }
    }
    Ok(())
}

/// The first place at which two lists differ.
pub fn first_other<T: PartialEq>(one: &[T], other: &[T]) -> Option<usize> {
    if one == other {
        return None;
    }
    Some(one.iter().zip(other).position(|(one, other)| one != other).unwrap_or(one.len()))
}
