//! Damaged images and random bytes, handed to a test one by one, and the
//! comparison of what is printed for them.
//!
//! An input of `reduce` is a head of six bytes, offset and mask, and an image; the
//! head of an input of `sheet` is the mask alone. A radio image has no head; a
//! pack's is its count.

use crate::calls::{own_image, own_pack};
use crate::judge::hexadecimal;
use crate::parallel::spread;
use crate::product::Program;
use crate::random::Random;
use crate::shapes::{mask, table, Shape, SHAPES};
use crate::table::{Mask, Offset, Table};
use std::sync::Mutex;

/// Compares the text printed for one input with the expected one; answers the
/// refusal's number, or 0 where there is none.
pub fn same(program: Program, input: &[u8], expected: &str) -> Result<usize, String> {
    let printed = program(input);
    if printed != expected.as_bytes() {
        return Err(format!(
            "input of {} bytes, the first: {}\nprinted:\n{}\nexpected:\n{expected}",
            input.len(),
            hexadecimal(&input[..input.len().min(200)]),
            String::from_utf8_lossy(&printed)
        ));
    }
    Ok(match expected.strip_prefix("refused ") {
        None => 0,
        Some(rest) => rest.split(' ').next().unwrap().parse().unwrap(),
    })
}

/// Counts answers by refusal number.
#[derive(Default)]
pub struct Answers(Mutex<[usize; 20]>);

impl Answers {
    /// Counts an answer, as of [`same`]; stops at a fault.
    pub fn count(&self, answer: Result<usize, String>) {
        match answer {
            Ok(number) => self.0.lock().unwrap()[number] += 1,
            Err(what) => panic!("{what}"),
        }
    }

    /// How many answers of each number, those not refused under `taken`.
    pub fn show(&self, what: &str, taken: &str) {
        let list = self.0.lock().unwrap();
        let sum: usize = list.iter().sum();
        let parts: Vec<String> = list
            .iter()
            .enumerate()
            .filter(|(_, &count)| count > 0)
            .map(|(number, count)| match number {
                0 => format!("{taken} {count}"),
                number => format!("refused {number}: {count}"),
            })
            .collect();
        println!("product: {what}: {sum} inputs ({})", parts.join(", "));
    }
}

/// The inputs of a program, or of a reader of request 102.
#[derive(Clone, Copy)]
pub enum Inputs {
    /// An offset, a mask and an image.
    OfReduce,
    /// A mask and an image.
    OfSheet,
    /// A radio image.
    OfRadio,
    /// A count and radio images.
    OfPack,
}

impl Inputs {
    /// A head for one image: offset 0 and a mask for any events, or count 1.
    fn plain_head(self) -> &'static [u8] {
        match self {
            Inputs::OfReduce => &[0, 0, 1, 0, 0, 0],
            Inputs::OfSheet => &[1, 0, 0, 0],
            Inputs::OfRadio => &[],
            Inputs::OfPack => &[1, 0],
        }
    }

    /// The length of the head.
    fn head(self) -> usize {
        self.plain_head().len()
    }

    /// Where the mask stands.
    fn mask_place(self) -> Option<usize> {
        match self {
            Inputs::OfReduce => Some(2),
            Inputs::OfSheet => Some(0),
            Inputs::OfRadio | Inputs::OfPack => None,
        }
    }

    /// The input with another mask.
    fn remasked(self, input: &[u8], mask: Mask) -> Vec<u8> {
        let place = self.mask_place().expect("only programs are told a mask");
        [&input[..place], &mask.to_le_bytes(), &input[place + 4..]].concat()
    }

    /// An input for a table; only `reduce` is told an offset, and only programs
    /// are told a mask.
    fn of(self, table: &Table, offset: Offset, mask: Mask) -> Vec<u8> {
        match self {
            Inputs::OfReduce => table.input(offset, mask),
            Inputs::OfSheet => table.sheet_input(mask),
            Inputs::OfRadio => own_image(table),
            Inputs::OfPack => own_pack(&[table]),
        }
    }

    /// Sound inputs, to be damaged: of eight tables, or five packs of these.
    fn sound(self) -> Vec<Vec<u8>> {
        let mut random = Random::new(50_000);
        let a = Table::new(1, 0, &[1, 2, 2], &[true, false, false]);
        let e = Table::new(2, 0, &[0, 0], &[false]);
        let d = Table::new(2, 3, &[1, 2, 0, 0, 0, 0, 0, 0], &[false, true, false, false]);
        let mut list = vec![(a, Some(0), 1), (e, Some(3), 2), (d, Some(1), 1)];
        for (shape, rows, events, mask) in [
            (Shape::Free, 8, 1, 0),
            (Shape::Chain, 9, 2, 3),
            (Shape::Tree, 7, 3, 5),
            (Shape::Copies, 16, 2, 1),
            (Shape::Layers, 17, 1, 1),
        ] {
            list.push((table(&mut random, shape, rows, events), None, mask));
        }
        if let Inputs::OfPack = self {
            let choices: [&[usize]; 5] =
                [&[0], &[1, 0], &[4, 1, 2], &[0, 1, 2, 3, 4, 5, 6, 7], &[1; 16]];
            return choices
                .map(|choice| own_pack(&choice.iter().map(|&n| &list[n].0).collect::<Vec<_>>()))
                .to_vec();
        }
        list.iter().map(|(table, offset, mask)| self.of(table, *offset, *mask)).collect()
    }

    /// Each single byte of the sound inputs set to each value.
    pub fn single_bytes(self, test: impl Fn(&[u8]) + Sync) {
        for input in self.sound() {
            spread(input.len(), |place| {
                for value in 0..=255 {
                    let mut changed = input.clone();
                    changed[place] = value;
                    test(&changed);
                }
            });
        }
    }

    /// The sound inputs cut at each length, also with a wrong byte of the image
    /// before the cut, and extended by each byte.
    pub fn cut_and_extended(self, test: impl Fn(&[u8])) {
        self.sound().iter().for_each(|input| self.cut_and_extend(input, &test));
    }

    fn cut_and_extend(self, input: &[u8], test: impl Fn(&[u8])) {
        for length in 0..input.len() {
            test(&input[..length]);
            for place in self.head()..length {
                let mut changed = input[..length].to_vec();
                changed[place] = 255;
                test(&changed);
            }
        }
        for value in 0..=255 {
            test(&[input, &[value]].concat());
        }
    }

    /// The sound inputs with a byte more, and each byte of the image wrong.
    pub fn wrong_and_extended(self, test: impl Fn(&[u8])) {
        self.sound().iter().for_each(|input| self.wrong(input, &[0], &test));
    }

    /// Each byte of the image wrong, and these bytes more.
    fn wrong(self, input: &[u8], more: &[u8], test: impl Fn(&[u8])) {
        for place in self.head()..input.len() {
            for value in [0, 9, 255] {
                let mut changed = [input, more].concat();
                changed[place] = value;
                test(&changed);
            }
        }
    }

    /// The sound inputs with mask bits above their events, which are 3 at most:
    /// whole, and with an image that is refused by itself.
    pub fn too_high_masks(self, test: impl Fn(&[u8])) {
        for input in self.sound() {
            for mask in [1 << 3, 1 << 8, 1 << 31 | 1, Mask::MAX] {
                let input = self.remasked(&input, mask);
                test(&input);
                self.cut_and_extend(&input, &test);
                self.wrong(&input, &[], &test);
                self.wrong(&input, &[0], &test);
            }
        }
    }

    /// Each bit alone, all bits from it on and all below it, with each number of
    /// events: up to 31 events some are too high, at 32 none is.
    pub fn each_mask_bit(self, test: impl Fn(&[u8])) {
        let mut random = Random::new(55_000);
        for events in 1..=32 {
            let given = table(&mut random, Shape::Falling, 5, events);
            let input = self.of(&given, Some(2), 0);
            for bit in 0..32 {
                for mask in [1 << bit, Mask::MAX << bit, !(Mask::MAX << bit)] {
                    test(&self.remasked(&input, mask));
                }
            }
        }
    }

    /// The largest image for a program, 128 rows and 32 events, 8,216 bytes: cut
    /// at each length, each target made no row, and other bytes changed.
    pub fn largest(self, test: impl Fn(&[u8]) + Sync) {
        let mut random = Random::new(51_000);
        let input = self.of(&table(&mut random, Shape::Falling, 128, 32), Some(9), 0x8421_8421);
        assert_eq!(input.len(), self.head() + 8_216);
        for length in 0..input.len() {
            test(&input[..length]);
        }
        // Targets at every place made no row, in the low and in the high byte.
        // (The targets begin after the head, the row count, the marks and
        // their own count.)
        let targets = self.head() + 2 + 16 + 2;
        for place in targets..targets + 2 * 128 * 32 {
            let mut changed = input.clone();
            changed[place] = 128;
            test(&changed);
        }
        // The head, the row count, the marks, the counts and the start; and
        // some targets made other rows.
        let mut places: Vec<usize> = (0..targets).chain(input.len() - 4..input.len()).collect();
        places.extend((0..40).map(|_| random.between(targets, input.len() - 5)));
        spread(places.len(), |number| {
            for value in [0, 1, 2, 127, 128, 255] {
                let mut changed = input.clone();
                changed[places[number]] = value;
                test(&changed);
            }
        });
    }

    /// Several bytes of a sound input changed; some of these cut or extended.
    pub fn several_bytes(self, test: impl Fn(&[u8]) + Sync) {
        let list = self.sound();
        spread(200, |piece| {
            let mut random = Random::new(52_000 + piece as u64);
            for _ in 0..200 {
                let mut input = random.pick(&list).clone();
                for _ in 0..random.between(2, 4) {
                    let place = random.below(input.len());
                    input[place] = *random.pick(&[0, 1, 2, 3, 8, 16, 64, 128, 255]);
                }
                match random.below(4) {
                    0 => input.truncate(random.below(input.len())),
                    1 => input.extend((0..random.between(1, 9)).map(|_| 0)),
                    _ => {}
                }
                test(&input);
            }
        });
    }

    /// Random bytes, and all inputs of a few bytes.
    pub fn random_bytes(self, test: impl Fn(&[u8]) + Sync) {
        let behind_head = |image: &[u8]| test(&[self.plain_head(), image].concat());
        // All inputs of up to two bytes, and all row counts with nothing after.
        test(&[]);
        for low in 0..=255u8 {
            test(&[low]);
            for high in 0..=255u8 {
                test(&[low, high]);
                behind_head(&[low, high]);
                behind_head(&[1, 0, 1, low, high]);
                behind_head(&[3, 0, 1, low, high, 0, 0]);
            }
        }
        spread(400, |piece| {
            let mut random = Random::new(53_000 + piece as u64);
            for _ in 0..500 {
                let length = random.below(60);
                // Small values more often, so that sound counts occur.
                let small = random.chance(3, 4);
                let input: Vec<u8> = (0..length)
                    .map(|place| {
                        if place % 2 == 1 && small {
                            0
                        } else if small {
                            random.below(6) as u8
                        } else {
                            random.below(256) as u8
                        }
                    })
                    .collect();
                test(&input);
            }
            // Bytes made section by section, so that later sections are reached.
            for _ in 0..500 {
                let mut input = self.random_head(&mut random);
                let images = if let Inputs::OfPack = self { input[0] } else { 1 };
                for _ in 0..images {
                    self.push_sections(&mut random, &mut input);
                }
                if random.chance(1, 10) {
                    input.push(0);
                }
                if random.chance(1, 10) {
                    input.truncate(random.below(input.len()));
                }
                test(&input);
            }
        });
    }

    /// A head with a small offset or count, and a mask of few events that is now
    /// and then too high.
    fn random_head(self, random: &mut Random) -> Vec<u8> {
        let mut head = vec![random.below(9) as u8, 0];
        head.truncate(self.mask_place().unwrap_or(self.head()));
        if self.mask_place().is_some() {
            let events = random.between(1, 4);
            let high = if random.chance(1, 20) { 1 << random.below(32) } else { 0 };
            head.extend((mask(random, events) | high).to_le_bytes());
        }
        head
    }

    /// The sections of an image, now and then with something wrong in them.
    fn push_sections(self, random: &mut Random, input: &mut Vec<u8>) {
        let rows = random.between(1, 9);
        input.extend([rows as u8, 0]);
        for byte in 0..rows.div_ceil(8) {
            let spare = if byte == rows / 8 { 1usize << (rows % 8) } else { 256 };
            let odd = random.chance(1, 20);
            input.push(random.below(if odd { 256 } else { spare }) as u8);
        }
        let events = random.below(5);
        let count = rows * events + random.chance(1, 20) as usize;
        input.extend([count as u8, 0]);
        for cell in 0..count {
            let bound = rows + random.chance(1, 30) as usize;
            let target = random.below(bound) as u8;
            match self {
                Inputs::OfReduce | Inputs::OfSheet => input.extend([target, 0]),
                _ if random.chance(1, 100) => input.push(random.below(256) as u8),
                _ => input.push(target.wrapping_sub((cell / events.max(1)) as u8)),
            }
        }
        input.extend([1 + random.chance(1, 10) as u8, 0]);
        let bound = rows + random.chance(1, 10) as usize;
        input.extend([random.below(bound) as u8, 0]);
    }

    /// Inputs as long as the largest image and longer.
    pub fn long(self, test: impl Fn(&[u8])) {
        let mut random = Random::new(54_000);
        let mut lengths: Vec<usize> = (8_216..8_219).map(|image| self.head() + image).collect();
        lengths.extend([10_000, 65_535, 65_536, 65_537, 65_538, 65_539, 70_000]);
        for length in lengths {
            test(&vec![0; length]);
            test(&vec![1; length]);
            test(&vec![255; length]);
            for _ in 0..10 {
                let bytes: Vec<u8> = (0..length).map(|_| random.below(256) as u8).collect();
                test(&bytes);
            }
            // Sound images with much behind them, sound heads with much behind.
            for mut input in self.sound() {
                input.resize(length, 0);
                test(&input);
                let place = random.below(20);
                input[place] = random.below(256) as u8;
                test(&input);
            }
            for shape in SHAPES {
                let mut input = self.of(&table(&mut random, shape, 128, 32), None, Mask::MAX);
                if input.len() < length {
                    input.resize(length, 7);
                }
                test(&input);
            }
            for rows in [128usize, 129, 1024, 1025, 65_535] {
                let mut bytes = vec![0; length];
                bytes[..self.head()].copy_from_slice(self.plain_head());
                bytes[self.head()] = (rows % 256) as u8;
                bytes[self.head() + 1] = (rows / 256) as u8;
                test(&bytes);
            }
        }
    }
}
