//! A table, its image, and the reading of an image as `reduce` does it.
//!
//! Document 01: "A table has 1 to 1,024 rows and 1 to 32 events ... It has one
//! start row and, for each row and event, one target row"; "Image of a table";
//! and "The reader goes through the image in order, and the first rule broken
//! gives the answer". Request 104: "A 32-bit mask now says which events count".

/// A table in plain lists. The target of row r and event e is cell
/// r × events + e ("row by row"); a mark is true for ready, false for wait.
#[derive(Clone, Debug, PartialEq, Eq, Hash)]
pub struct Table {
    pub rows: usize,
    pub events: usize,
    pub start: usize,
    pub targets: Vec<usize>,
    pub marks: Vec<bool>,
}

/// "A refusal returns its number and place (0 where none is named)".
#[derive(Clone, Copy, Debug, PartialEq, Eq)]
pub struct Refusal {
    pub number: usize,
    pub place: usize,
}

/// An offset: "a number from 0 to 65,535, or none". Through `reduce` the
/// number 65,535 itself stands for none, so it cannot be given there.
pub type Offset = Option<usize>;

/// The two bytes by which `reduce` is told of no offset.
pub const NO_OFFSET: usize = 65_535;

/// Which events count, "bit e for event e"; the others are idle. Also used for
/// any other set of events.
pub type Mask = u32;

/// The mask of so many events that all count.
pub fn every_event(events: usize) -> Mask {
    Mask::MAX >> (32 - events)
}

/// What an event adds to the length of a run: 1 if it counts, 0 if it is idle.
pub fn counted(mask: Mask, event: usize) -> usize {
    (mask >> event & 1) as usize
}

impl Table {
    pub fn new(events: usize, start: usize, targets: &[usize], marks: &[bool]) -> Table {
        let table = Table {
            rows: marks.len(),
            events,
            start,
            targets: targets.to_vec(),
            marks: marks.to_vec(),
        };
        assert!(table.is_sound(), "a table made by a test is not sound: {table:?}");
        table
    }

    pub fn is_sound(&self) -> bool {
        (1..=1024).contains(&self.rows)
            && (1..=32).contains(&self.events)
            && self.start < self.rows
            && self.marks.len() == self.rows
            && self.targets.len() == self.rows * self.events
            && self.targets.iter().all(|&t| t < self.rows)
    }

    pub fn target(&self, row: usize, event: usize) -> usize {
        self.targets[row * self.events + event]
    }

    /// "A table's mark after a run is found so: stand on the start row, go for each event of
    /// the run in turn to the target of the present row and that event, and take the mark of
    /// the last row."
    pub fn mark_after(&self, run: &[u8]) -> bool {
        self.marks[run.iter().fold(self.start, |row, &event| self.target(row, event as usize))]
    }

    /// The image: marks, targets, start, "each after its count".
    pub fn image(&self) -> Vec<u8> {
        let mut bytes = Vec::new();
        push_number(&mut bytes, self.rows);
        bytes.extend(self.packed());
        push_number(&mut bytes, self.rows * self.events);
        for &target in &self.targets {
            push_number(&mut bytes, target);
        }
        push_number(&mut bytes, 1);
        push_number(&mut bytes, self.start);
        bytes
    }

    /// The marks: "row r has the bit worth 2^(r mod 8) in byte r div 8; set
    /// means ready, clear means wait; spare bits of the last byte are 0".
    pub fn packed(&self) -> Vec<u8> {
        let mut packed = vec![0u8; self.rows.div_ceil(8)];
        for (row, &ready) in self.marks.iter().enumerate() {
            if ready {
                packed[row / 8] += 2u8.pow((row % 8) as u32);
            }
        }
        packed
    }

    /// What `sheet` is given for this table and mask: the mask "as four bytes,
    /// low first", then the image.
    pub fn sheet_input(&self, mask: Mask) -> Vec<u8> {
        let mut bytes = Vec::new();
        push_number(&mut bytes, mask as usize % 65_536);
        push_number(&mut bytes, mask as usize / 65_536);
        bytes.extend(self.image());
        bytes
    }

    /// What `reduce` is given: the offset before all that.
    pub fn input(&self, offset: Offset, mask: Mask) -> Vec<u8> {
        let mut bytes = Vec::new();
        match offset {
            None => push_number(&mut bytes, NO_OFFSET),
            Some(k) => {
                assert!(k < NO_OFFSET, "offset {k} cannot be told to `reduce`");
                push_number(&mut bytes, k);
            }
        }
        bytes.extend(self.sheet_input(mask));
        bytes
    }
}

/// "Counts and numbers are 16 bits, low byte first."
pub fn push_number(bytes: &mut Vec<u8>, number: usize) {
    assert!(number <= 65_535);
    bytes.push((number % 256) as u8);
    bytes.push((number / 256) as u8);
}

/// Takes bytes from the front of an image, and knows the image's whole length
/// for refusal 8 ("an image ends early; place: its length").
pub struct Taker<'a> {
    rest: &'a [u8],
    image_length: usize,
}

impl<'a> Taker<'a> {
    pub fn new(image: &'a [u8]) -> Taker<'a> {
        Taker { rest: image, image_length: image.len() }
    }

    /// A section's length is judged before its contents: either all `count`
    /// bytes are there, or the image ends early.
    pub fn bytes(&mut self, count: usize) -> Result<&'a [u8], Refusal> {
        if self.rest.len() < count {
            return Err(Refusal { number: 8, place: self.image_length });
        }
        let (taken, rest) = self.rest.split_at(count);
        self.rest = rest;
        Ok(taken)
    }

    pub fn number(&mut self) -> Result<usize, Refusal> {
        Ok(number_of(self.bytes(2)?))
    }

    /// "row count cut short (8), 1".
    pub fn rows(&mut self) -> Result<usize, Refusal> {
        let rows = self.number()?;
        if rows == 0 || rows > 1024 {
            return refuse(1);
        }
        Ok(rows)
    }

    /// "marks cut short (8), 6".
    pub fn marks(&mut self, rows: usize) -> Result<Vec<bool>, Refusal> {
        let packed = self.bytes(rows.div_ceil(8))?;
        let bit = |row: usize| packed[row / 8] / 2u8.pow((row % 8) as u32) % 2 == 1;
        if (rows..packed.len() * 8).any(bit) {
            return refuse(6);
        }
        Ok((0..rows).map(bit).collect())
    }

    /// The events: "target count cut short (8), 9, 2".
    pub fn events(&mut self, rows: usize) -> Result<usize, Refusal> {
        let count = self.number()?;
        if count % rows != 0 {
            return refuse(9);
        }
        let events = count / rows;
        if events == 0 || events > 32 {
            return refuse(2);
        }
        Ok(events)
    }

    /// "start count cut short (8), 9, start cut short (8), 4".
    pub fn start(&mut self, rows: usize) -> Result<usize, Refusal> {
        if self.number()? != 1 {
            return refuse(9);
        }
        let start = self.number()?;
        if start >= rows {
            return refuse(4);
        }
        Ok(start)
    }

    /// 10: "bytes follow the last section".
    pub fn end(&self) -> Result<(), Refusal> {
        if !self.rest.is_empty() {
            return refuse(10);
        }
        Ok(())
    }
}

fn number_of(two: &[u8]) -> usize {
    two[0] as usize + 256 * two[1] as usize
}

pub fn refuse<T>(number: usize) -> Result<T, Refusal> {
    Err(Refusal { number, place: 0 })
}

/// Reads what `reduce` reads: an offset, and what `sheet` reads. "Fewer than six
/// bytes before the image give 8, place 0."
pub fn read_input(input: &[u8]) -> Result<(Offset, Mask, Table), Refusal> {
    let (offset, rest) = take_offset(input)?;
    read_sheet_input(rest).map(|(mask, table)| (offset, mask, table))
}

/// Reads what `sheet` reads: a mask, then an image. 16 comes "once the image is
/// read".
pub fn read_sheet_input(input: &[u8]) -> Result<(Mask, Table), Refusal> {
    let (mask, image) = take_mask(input)?;
    let table = read_image(image)?;
    check_mask(mask, table.events)?;
    Ok((mask, table))
}

/// "a 16-bit offset, low byte first (65,535 is none)", and the rest.
pub fn take_offset(input: &[u8]) -> Result<(Offset, &[u8]), Refusal> {
    if input.len() < 2 {
        return refuse(8);
    }
    let (head, rest) = input.split_at(2);
    let offset = match number_of(head) {
        NO_OFFSET => None,
        k => Some(k),
    };
    Ok((offset, rest))
}

/// "the mask as four bytes, low first", and the rest.
pub fn take_mask(input: &[u8]) -> Result<(Mask, &[u8]), Refusal> {
    if input.len() < 4 {
        return refuse(8);
    }
    let (head, rest) = input.split_at(4);
    Ok(((number_of(&head[..2]) + 65_536 * number_of(&head[2..])) as Mask, rest))
}

/// 1: "rows are 0 or above 1,024"; 2: "events are 0 or above 32".
pub fn check_size(rows: usize, events: usize) -> Result<(), Refusal> {
    if rows == 0 || rows > 1024 {
        return refuse(1);
    }
    if events == 0 || events > 32 {
        return refuse(2);
    }
    Ok(())
}

/// "16, a mask bit at or above the event count is set".
pub fn check_mask(mask: Mask, events: usize) -> Result<(), Refusal> {
    if (events..32).any(|bit| counted(mask, bit) == 1) {
        return refuse(16);
    }
    Ok(())
}

/// Reads an image in document 01's order: "row count cut short (8), 1, 12 for
/// `reduce`, marks cut short (8), 6, target count cut short (8), 9, 2, targets
/// cut short (8), 5, start count cut short (8), 9, start cut short (8), 4,
/// 10". (7 cannot come: here nothing is lent.)
pub fn read_image(image: &[u8]) -> Result<Table, Refusal> {
    let mut taker = Taker::new(image);
    let rows = taker.rows()?;
    if rows > 128 {
        return refuse(12);
    }
    let marks = taker.marks(rows)?;
    let events = taker.events(rows)?;
    let cells = taker.bytes(2 * rows * events)?;
    let targets: Vec<usize> = cells.chunks(2).map(number_of).collect();
    if let Some(cell) = targets.iter().position(|&target| target >= rows) {
        return Err(Refusal { number: 5, place: cell });
    }
    let start = taker.start(rows)?;
    taker.end()?;
    Ok(Table { rows, events, start, targets, marks })
}
