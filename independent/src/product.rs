//! The product, called through its twelve C functions.

use crate::calls::Numbers;
use crate::direct::{Direct, Task, Way};
use crate::given_up::{Asked, GivenUp};
use crate::ordering::Order;
use crate::radio::{Answer, Functions};
use std::fmt::Debug;
use std::sync::{Mutex, MutexGuard};

/// Something that prints a text for an input, as `reduce` and `sheet` do.
pub type Program<'a> = &'a (dyn Fn(&[u8]) -> Vec<u8> + Sync);

/// A function of the product: input and its length, lent output and its
/// length; it answers how many bytes it has printed there.
type Function = unsafe extern "C" fn(*const u8, usize, *mut u8, usize) -> usize;

extern "C" {
    fn gelfost_reduce_text(i: *const u8, il: usize, o: *mut u8, ol: usize) -> usize;
    fn gelfost_sheet_text(i: *const u8, il: usize, o: *mut u8, ol: usize) -> usize;
    fn gelfost_given_up_text(i: *const u8, il: usize, o: *mut u8, ol: usize) -> usize;
    fn gelfost_write_radio(
        rows: usize,
        events: usize,
        start: usize,
        cells: *const u16,
        cells_len: usize,
        marks: *const u8,
        marks_len: usize,
        out: *mut u8,
        out_len: usize,
        answer: *mut usize,
    );
    fn gelfost_read_radio(
        image: *const u8,
        image_len: usize,
        cells: *mut u16,
        cells_len: usize,
        marks: *mut u8,
        marks_len: usize,
        answer: *mut usize,
    );
    fn gelfost_write_pack(
        list: *const u16,
        list_len: usize,
        cells: *const u16,
        cells_len: usize,
        marks: *const u8,
        marks_len: usize,
        out: *mut u8,
        out_len: usize,
        answer: *mut usize,
    );
    fn gelfost_read_pack(
        pack: *const u8,
        pack_len: usize,
        list: *mut u16,
        list_len: usize,
        cells: *mut u16,
        cells_len: usize,
        marks: *mut u8,
        marks_len: usize,
        answer: *mut usize,
    );
    fn gelfost_generate(
        seed: u32,
        rows: usize,
        events: usize,
        cells: *mut u16,
        cells_len: usize,
        marks: *mut u8,
        marks_len: usize,
        answer: *mut usize,
    );
    fn gelfost_reduce(
        offset: u32,
        mask: u32,
        rows: usize,
        events: usize,
        start: usize,
        cells: *const u16,
        cells_len: usize,
        marks: *const u8,
        marks_len: usize,
        new_cells: *mut u16,
        new_cells_len: usize,
        new_marks: *mut u8,
        new_marks_len: usize,
        scratch: *mut u16,
        scratch_len: usize,
        answer: *mut usize,
    );
    fn gelfost_reduce_few(
        offset: u32,
        mask: u32,
        rows: usize,
        events: usize,
        start: usize,
        cells: *const u16,
        cells_len: usize,
        marks: *const u8,
        marks_len: usize,
        new_cells: *mut u16,
        new_cells_len: usize,
        new_marks: *mut u8,
        new_marks_len: usize,
        scratch: *mut u16,
        scratch_len: usize,
        answer: *mut usize,
    );
    fn gelfost_last_run(
        offset: u32,
        mask: u32,
        rows: usize,
        events: usize,
        start: usize,
        cells: *const u16,
        cells_len: usize,
        marks: *const u8,
        marks_len: usize,
        row: usize,
        run: *mut u8,
        run_len: usize,
        scratch: *mut u16,
        scratch_len: usize,
        answer: *mut usize,
    );
    fn gelfost_compare(
        rows: usize,
        events: usize,
        start: usize,
        cells: *const u16,
        cells_len: usize,
        marks: *const u8,
        marks_len: usize,
        other_rows: usize,
        other_events: usize,
        other_start: usize,
        other_cells: *const u16,
        other_cells_len: usize,
        other_marks: *const u8,
        other_marks_len: usize,
        scratch: *mut u16,
        scratch_len: usize,
        answer: *mut usize,
    );
}

/// One call at a time: nothing says that the functions may be called twice at
/// once.
fn turn() -> MutexGuard<'static, ()> {
    static ONE_AT_A_TIME: Mutex<()> = Mutex::new(());
    ONE_AT_A_TIME.lock().unwrap_or_else(|poisoned| poisoned.into_inner())
}

/// The product's text of `reduce` for an input.
pub fn reduce_text(input: &[u8]) -> Vec<u8> {
    text(gelfost_reduce_text, input)
}

/// The product's text of `sheet` for an input.
pub fn sheet_text(input: &[u8]) -> Vec<u8> {
    text(gelfost_sheet_text, input)
}

fn text(function: Function, input: &[u8]) -> Vec<u8> {
    /// The length of the lent output.
    const OUTPUT: usize = 65_536;
    /// Bytes behind the lent output, which the product must leave alone.
    const GUARD: usize = 256;
    const FILL: u8 = 0xA5;

    let mut output = vec![FILL; OUTPUT + GUARD];
    let before = input.to_vec();
    let length = {
        let _turn = turn();
        unsafe { function(input.as_ptr(), input.len(), output.as_mut_ptr(), OUTPUT) }
    };
    assert!(length <= OUTPUT, "the product says it printed {length} bytes");
    assert!(output[OUTPUT..].iter().all(|&b| b == FILL), "the product wrote behind its output");
    assert!(before == input, "the product changed its input");
    output.truncate(length);
    output
}

/// The product's functions beside the texts. Everything is handed to it in copies
/// with guards; so is the answer, whose four numbers hold a pattern before: one
/// that is not written is seen.
pub struct Product;

impl Functions for Product {
    fn write_radio(
        &self,
        rows: usize,
        events: usize,
        start: usize,
        cells: &[u16],
        marks: &[u8],
        out: &mut [u8],
    ) -> Answer {
        let (mut c, mut m, mut o) = (Guarded::of(cells), Guarded::of(marks), Guarded::of(out));
        let mut answer = [usize::FILL; 4];
        let mut a = Guarded::of(&answer);
        let turn = turn();
        unsafe {
            gelfost_write_radio(
                rows,
                events,
                start,
                c.pointer(),
                cells.len(),
                m.pointer(),
                marks.len(),
                o.pointer(),
                out.len(),
                a.pointer(),
            )
        }
        drop(turn);
        held(
            [c.unchanged(cells), m.unchanged(marks), o.back(out), a.back(&mut answer)],
            &[&(rows, events, start), &cells, &marks, &out.len()],
        );
        answer
    }

    fn read_radio(&self, image: &[u8], cells: &mut [u16], marks: &mut [u8]) -> Answer {
        let (mut i, mut c, mut m) = (Guarded::of(image), Guarded::of(cells), Guarded::of(marks));
        let mut answer = [usize::FILL; 4];
        let mut a = Guarded::of(&answer);
        let turn = turn();
        unsafe {
            gelfost_read_radio(
                i.pointer(),
                image.len(),
                c.pointer(),
                cells.len(),
                m.pointer(),
                marks.len(),
                a.pointer(),
            )
        }
        drop(turn);
        held(
            [i.unchanged(image), c.back(cells), m.back(marks), a.back(&mut answer)],
            &[&image, &cells.len(), &marks.len()],
        );
        answer
    }

    fn write_pack(&self, list: &[u16], cells: &[u16], marks: &[u8], out: &mut [u8]) -> Answer {
        let (mut l, mut c) = (Guarded::of(list), Guarded::of(cells));
        let (mut m, mut o) = (Guarded::of(marks), Guarded::of(out));
        let mut answer = [usize::FILL; 4];
        let mut a = Guarded::of(&answer);
        let turn = turn();
        unsafe {
            gelfost_write_pack(
                l.pointer(),
                list.len(),
                c.pointer(),
                cells.len(),
                m.pointer(),
                marks.len(),
                o.pointer(),
                out.len(),
                a.pointer(),
            )
        }
        drop(turn);
        held(
            [
                l.unchanged(list),
                c.unchanged(cells),
                m.unchanged(marks),
                o.back(out),
                a.back(&mut answer),
            ],
            &[&list, &cells, &marks, &out.len()],
        );
        answer
    }

    fn read_pack(
        &self,
        pack: &[u8],
        list: &mut [u16],
        cells: &mut [u16],
        marks: &mut [u8],
    ) -> Answer {
        let (mut p, mut l) = (Guarded::of(pack), Guarded::of(list));
        let (mut c, mut m) = (Guarded::of(cells), Guarded::of(marks));
        let mut answer = [usize::FILL; 4];
        let mut a = Guarded::of(&answer);
        let turn = turn();
        unsafe {
            gelfost_read_pack(
                p.pointer(),
                pack.len(),
                l.pointer(),
                list.len(),
                c.pointer(),
                cells.len(),
                m.pointer(),
                marks.len(),
                a.pointer(),
            )
        }
        drop(turn);
        held(
            [p.unchanged(pack), l.back(list), c.back(cells), m.back(marks), a.back(&mut answer)],
            &[&pack, &list.len(), &cells.len(), &marks.len()],
        );
        answer
    }
}

impl Direct for Product {
    fn generate(
        &self,
        seed: u32,
        rows: usize,
        events: usize,
        cells: &mut [u16],
        marks: &mut [u8],
    ) -> Answer {
        let (mut c, mut m) = (Guarded::of(cells), Guarded::of(marks));
        let mut answer = [usize::FILL; 4];
        let mut a = Guarded::of(&answer);
        let turn = turn();
        unsafe {
            gelfost_generate(
                seed,
                rows,
                events,
                c.pointer(),
                cells.len(),
                m.pointer(),
                marks.len(),
                a.pointer(),
            )
        }
        drop(turn);
        held(
            [c.back(cells), m.back(marks), a.back(&mut answer)],
            &[&(seed, rows, events), &cells.len(), &marks.len()],
        );
        answer
    }

    fn reduce(
        &self,
        task: &Task,
        cells: &mut [u16],
        marks: &mut [u8],
        scratch: &mut [u16],
    ) -> Answer {
        let Task { way, offset, mask, ref given } = *task;
        let function = match way {
            Way::First => gelfost_reduce,
            Way::Second => gelfost_reduce_few,
        };
        let (mut g, mut h) = (Guarded::of(&given.cells), Guarded::of(&given.marks));
        let (mut c, mut m) = (Guarded::of(cells), Guarded::of(marks));
        let mut s = Guarded::of(scratch);
        let mut answer = [usize::FILL; 4];
        let mut a = Guarded::of(&answer);
        let turn = turn();
        unsafe {
            function(
                offset,
                mask,
                given.rows,
                given.events,
                given.start,
                g.pointer(),
                given.cells.len(),
                h.pointer(),
                given.marks.len(),
                c.pointer(),
                cells.len(),
                m.pointer(),
                marks.len(),
                s.pointer(),
                scratch.len(),
                a.pointer(),
            )
        }
        drop(turn);
        held(
            [
                g.unchanged(&given.cells),
                h.unchanged(&given.marks),
                c.back(cells),
                m.back(marks),
                s.back(scratch),
                a.back(&mut answer),
            ],
            &[&way, &(offset, mask), given, &cells.len(), &marks.len(), &scratch.len()],
        );
        answer
    }
}

impl GivenUp for Product {
    fn last_run(&self, asked: &Asked, run: &mut [u8], scratch: &mut [u16]) -> Answer {
        let Asked { offset, mask, ref given, row } = *asked;
        let (mut g, mut h) = (Guarded::of(&given.cells), Guarded::of(&given.marks));
        let (mut r, mut s) = (Guarded::of(run), Guarded::of(scratch));
        let mut answer = [usize::FILL; 4];
        let mut a = Guarded::of(&answer);
        let turn = turn();
        unsafe {
            gelfost_last_run(
                offset,
                mask,
                given.rows,
                given.events,
                given.start,
                g.pointer(),
                given.cells.len(),
                h.pointer(),
                given.marks.len(),
                row,
                r.pointer(),
                run.len(),
                s.pointer(),
                scratch.len(),
                a.pointer(),
            )
        }
        drop(turn);
        let kept = [g.unchanged(&given.cells), h.unchanged(&given.marks)];
        let lent = [r.back(run), s.back(scratch), a.back(&mut answer)];
        let given: [&dyn Debug; 3] = [asked, &run.len(), &scratch.len()];
        held(kept, &given);
        held(lent, &given);
        answer
    }

    fn text(&self, input: &[u8]) -> Vec<u8> {
        text(gelfost_given_up_text, input)
    }
}

impl Order for Product {
    fn order(&self, tables: &[Numbers; 2], scratch: &mut [u16]) -> Answer {
        let [one, other] = tables;
        let (mut c, mut m) = (Guarded::of(&one.cells), Guarded::of(&one.marks));
        let (mut d, mut n) = (Guarded::of(&other.cells), Guarded::of(&other.marks));
        let mut s = Guarded::of(scratch);
        let mut answer = [usize::FILL; 4];
        let mut a = Guarded::of(&answer);
        let turn = turn();
        unsafe {
            gelfost_compare(
                one.rows,
                one.events,
                one.start,
                c.pointer(),
                one.cells.len(),
                m.pointer(),
                one.marks.len(),
                other.rows,
                other.events,
                other.start,
                d.pointer(),
                other.cells.len(),
                n.pointer(),
                other.marks.len(),
                s.pointer(),
                scratch.len(),
                a.pointer(),
            )
        }
        drop(turn);
        let first = [c.unchanged(&one.cells), m.unchanged(&one.marks)];
        let second = [d.unchanged(&other.cells), n.unchanged(&other.marks)];
        let lent = [s.back(scratch), a.back(&mut answer)];
        let given: [&dyn Debug; 2] = [tables, &scratch.len()];
        [first, second, lent].into_iter().for_each(|list| held(list, &given));
        answer
    }
}

/// What stands in the guards.
trait Fill: Copy + PartialEq {
    const FILL: Self;
}

impl Fill for u8 {
    const FILL: u8 = 0xA5;
}

impl Fill for u16 {
    const FILL: u16 = 0xA5A5;
}

impl Fill for usize {
    const FILL: usize = usize::MAX / 255 * 0xA5;
}

/// The length of a guard.
const GUARD: usize = 64;

/// A copy of a slice for the product, between two guards that it must leave
/// alone.
struct Guarded<T> {
    whole: Vec<T>,
}

/// Whether the product kept to what it is given and lent.
type Held = Result<(), &'static str>;

impl<T: Fill> Guarded<T> {
    fn of(slice: &[T]) -> Guarded<T> {
        let guard = [T::FILL; GUARD];
        Guarded { whole: [&guard, slice, &guard].concat() }
    }

    fn pointer(&mut self) -> *mut T {
        self.whole[GUARD..].as_mut_ptr()
    }

    /// What is between the guards, if these are as they were.
    fn inner(&self) -> Result<&[T], &'static str> {
        let (before, rest) = self.whole.split_at(GUARD);
        let (inner, behind) = rest.split_at(rest.len() - GUARD);
        if before.iter().any(|&t| t != T::FILL) {
            return Err("wrote before a buffer");
        }
        if behind.iter().any(|&t| t != T::FILL) {
            return Err("wrote behind a buffer");
        }
        Ok(inner)
    }

    /// An input afterwards.
    fn unchanged(&self, input: &[T]) -> Held {
        if self.inner()? != input {
            return Err("changed its input");
        }
        Ok(())
    }

    /// A lent buffer afterwards.
    fn back(&self, buffer: &mut [T]) -> Held {
        buffer.copy_from_slice(self.inner()?);
        Ok(())
    }
}

/// Stops if the product did what it may not, and shows what it was given.
fn held<const COUNT: usize>(list: [Held; COUNT], given: &[&dyn Debug]) {
    for held in list {
        if let Err(what) = held {
            panic!("the product {what}; given in hexadecimal: {given:x?}");
        }
    }
}

#[cfg(test)]
mod tests {
    use super::{Fill, Guarded, GUARD};

    /// Each item beside a slice or in it changed: the guards see the first, and the
    /// comparison with what was given the second.
    fn changes<T: Fill>(slice: &[T], other: fn(T) -> T) -> usize {
        let mut all = Guarded::of(slice);
        assert_eq!(all.unchanged(slice), Ok(()));
        for place in 0..all.whole.len() {
            let before = all.whole[place];
            all.whole[place] = other(before);
            let inside = (GUARD..GUARD + slice.len()).contains(&place);
            assert_eq!(all.inner().is_ok(), inside, "place {place}");
            assert_eq!(all.back(&mut slice.to_vec()).is_ok(), inside, "place {place}");
            assert!(all.unchanged(slice).is_err(), "place {place}");
            all.whole[place] = before;
        }
        all.whole.len()
    }

    #[test]
    fn guards_see_each_change() {
        let mut tried = 0;
        for length in [0, 1, 2, 9] {
            tried += changes(&vec![0x5Au8; length], |byte| byte ^ 1);
            tried += changes(&vec![u8::FILL; length], |byte| byte ^ 128);
            tried += changes(&vec![0x5A5Au16; length], |cell| cell ^ 1);
            tried += changes(&vec![u16::FILL; length], |cell| cell ^ 0x8000);
            tried += changes(&vec![0usize; length], |number| number ^ 1);
        }
        println!("guards: {tried} changes seen");
    }
}
