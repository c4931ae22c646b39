//! How tests make a call break rules: small changes, each of which answers the place at fault,
//! 0; what is wrong with a given table; and mixtures of all that may be wrong.

use crate::calls::Numbers;
use crate::direct::Fill;
use crate::random::Random;

pub fn set<T>(item: &mut T, value: T) -> Option<usize> {
    *item = value;
    Some(0)
}

/// Adds to a number; the greatest one takes 1 away.
pub fn add(number: &mut usize, more: usize) -> Option<usize> {
    *number = number.wrapping_add(more);
    Some(0)
}

pub fn resized<T: Clone + Default>(list: &mut Vec<T>, more: isize) -> Option<usize> {
    list.resize(list.len().wrapping_add_signed(more), T::default());
    Some(0)
}

/// Something wrong: the rule that it breaks, and how; that answers the place, or nothing where
/// it cannot be done.
pub type Wrong<T> = (usize, fn(&mut T) -> Option<usize>);

/// What may be wrong with a given table.
const OF_A_TABLE: [Wrong<Numbers>; 34] = [
    (1, |n| set(&mut n.rows, 0)),
    (1, |n| set(&mut n.rows, 1025)),
    (1, |n| add(&mut n.rows, 1 << 16)),
    (1, |n| add(&mut n.rows, 1 << 32)),
    (1, |n| add(&mut n.rows, 1 << 63)),
    (1, |n| set(&mut n.rows, usize::MAX)),
    (2, |n| set(&mut n.events, 0)),
    (2, |n| set(&mut n.events, 33)),
    (2, |n| add(&mut n.events, 1 << 16)),
    (2, |n| add(&mut n.events, 1 << 32)),
    (2, |n| add(&mut n.events, 1 << 63)),
    (2, |n| set(&mut n.events, usize::MAX)),
    (3, |n| resized(&mut n.cells, -1)),
    (3, |n| resized(&mut n.cells, 1)),
    (3, |n| resized(&mut n.cells, 65_536)),
    (3, |n| resized(&mut n.marks, -1)),
    (3, |n| resized(&mut n.marks, 1)),
    (3, |n| resized(&mut n.marks, 65_536)),
    (3, |n| set(&mut n.cells, vec![])),
    (3, |n| set(&mut n.marks, vec![])),
    (3, |n| (n.rows < 1024).then(|| n.rows += 1).map(|()| 0)),
    (3, |n| (n.events < 32).then(|| n.events += 1).map(|()| 0)),
    (4, |n| set(&mut n.start, n.rows)),
    (4, |n| set(&mut n.start, 65_535)),
    (4, |n| add(&mut n.start, 1 << 16)),
    (4, |n| add(&mut n.start, 1 << 32)),
    (4, |n| set(&mut n.start, usize::MAX)),
    (5, |n| no_row(n, 0, 0)),
    (5, |n| no_row(n, n.cells.len() - 1, 0)),
    (5, |n| no_row(n, n.cells.len() / 2, 65_535)),
    (5, |n| {
        // Two or three such cells: the first is the place.
        let (third, last) = (n.cells.len() / 3, n.cells.len() - 1);
        no_row(n, last, 3);
        no_row(n, third * 2, 1);
        no_row(n, third, 2)
    }),
    (6, |n| spare_bits(n, 1 << (n.rows % 8))),
    (6, |n| spare_bits(n, 1 << 7)),
    (6, |n| spare_bits(n, 255 << (n.rows % 8))),
];

/// A target that is so much above the last row.
fn no_row(numbers: &mut Numbers, cell: usize, above: usize) -> Option<usize> {
    numbers.cells[cell] = (numbers.rows + above).min(65_535) as u16;
    Some(cell)
}

fn spare_bits(numbers: &mut Numbers, bits: u32) -> Option<usize> {
    if numbers.rows % 8 == 0 {
        return None;
    }
    *numbers.marks.last_mut()? |= bits as u8;
    Some(0)
}

/// All that may be wrong with a call, in the order in which the rules are judged.
pub struct Wrongs<T> {
    /// The numbers of the rules.
    order: Vec<usize>,
    /// The place of a rule in the order, and how it is broken.
    list: Vec<(usize, Box<dyn Fn(&mut T) -> Option<usize>>)>,
}

impl<T: 'static> Wrongs<T> {
    /// Nothing yet.
    pub fn judged(order: &[usize]) -> Wrongs<T> {
        Wrongs { order: order.to_vec(), list: Vec::new() }
    }

    /// And what may be wrong with a table of the call, whose rules 1 to 6 stand in the order
    /// from this place on.
    pub fn with_table(mut self, from: usize, table: fn(&mut T) -> &mut Numbers) -> Wrongs<T> {
        for (rule, change) in OF_A_TABLE {
            assert_eq!(self.order[from + rule - 1], rule);
            self.list.push((from + rule - 1, Box::new(move |call| change(table(call)))));
        }
        self.sorted()
    }

    /// And these; each rule stands in the order at its first place.
    pub fn with(mut self, others: &[Wrong<T>]) -> Wrongs<T> {
        for &(rule, change) in others {
            let place = self.order.iter().position(|&other| other == rule).unwrap();
            self.list.push((place, Box::new(change)));
        }
        self.sorted()
    }

    fn sorted(mut self) -> Wrongs<T> {
        self.list.sort_by_key(|wrong| wrong.0);
        self
    }

    /// Does these of the list, in its order and not two of one rule: number and place of the
    /// first rule broken, which gives the answer. Those farther down come first: so they find
    /// the right numbers.
    pub fn done(&self, wrongs: &[usize], call: &mut T) -> Option<(usize, usize)> {
        let mut answer = None;
        for &wrong in wrongs.iter().rev() {
            let (rule, change) = &self.list[wrong];
            answer = change(call).map(|place| (self.order[*rule], place)).or(answer);
        }
        answer
    }

    /// Each alone; if it is wanted, any two; and so many times one for each rule of every set
    /// of rules, or of each n-th set. With what the lent buffers hold.
    pub fn mixtures(
        &self,
        random: &mut Random,
        any_two: bool,
        [n, times]: [usize; 2],
    ) -> Vec<(Vec<usize>, Fill)> {
        let mut mixtures = Vec::new();
        for one in 0..self.list.len() {
            let fill = Fill::ALL[one % 3];
            mixtures.push((vec![one], fill));
            for other in (one + 1..self.list.len()).filter(|_| any_two) {
                if self.list[one].0 != self.list[other].0 {
                    mixtures.push((vec![one, other], fill));
                }
            }
        }
        for set in (1..1usize << self.order.len()).step_by(n) {
            for _ in 0..times {
                let rules = (0..self.order.len()).filter(|rule| set >> rule & 1 == 1);
                let wrongs = rules.map(|rule| self.some(random, rule)).collect();
                mixtures.push((wrongs, *random.pick(&Fill::ALL)));
            }
        }
        mixtures
    }

    /// One that breaks the rule at this place of the order.
    fn some(&self, random: &mut Random, rule: usize) -> usize {
        let all: Vec<usize> =
            (0..self.list.len()).filter(|&wrong| self.list[wrong].0 == rule).collect();
        *random.pick(&all)
    }
}
