//! Request 105, "A stated load for the bench": the table of a seed.
//!
//! "Add a generator of tables from a nonzero 32-bit seed by Marsaglia's xorshift
//! with shifts 13 left, 17 right, 5 left, cut to 32 bits. A draw is the state
//! after one step."

use crate::table::{check_size, refuse, Refusal, Table};

/// One step. The state is a word of 32 bits, and so is what each shift makes of it:
/// that is Marsaglia's generator, whose first draws are published (tests/load.rs).
pub fn step(state: u32) -> u32 {
    let state = state ^ state << 13;
    let state = state ^ state >> 17;
    state ^ state << 5
}

/// The draws of a seed, one after another.
pub struct Draws {
    state: u32,
}

impl Draws {
    pub fn of(seed: u32) -> Draws {
        Draws { state: seed }
    }

    pub fn draw(&mut self) -> u32 {
        self.state = step(self.state);
        self.state
    }

    fn modulo(&mut self, number: usize) -> usize {
        self.draw() as usize % number
    }
}

/// The table of a seed: "Targets are drawn row by row: in row r below rows / 4
/// (rounded down) the target is r + 1 plus the draw modulo rows − r − 1, elsewhere
/// the draw modulo rows. Then one draw modulo 2 gives each mark, 1 for ready; the
/// start is 0."
///
/// Or a refusal: 1, 2, then "17, the seed is 0; after 2". (7 is judged where the
/// table is laid in lent buffers.)
pub fn load(seed: u32, rows: usize, events: usize) -> Result<Table, Refusal> {
    check_size(rows, events)?;
    if seed == 0 {
        return refuse(17);
    }
    let mut draws = Draws::of(seed);
    let mut targets = Vec::new();
    for row in 0..rows {
        for _ in 0..events {
            targets.push(if row < rows / 4 {
                row + 1 + draws.modulo(rows - row - 1)
            } else {
                draws.modulo(rows)
            });
        }
    }
    let marks: Vec<bool> = (0..rows).map(|_| draws.modulo(2) == 1).collect();
    Ok(Table::new(events, 0, &targets, &marks))
}
