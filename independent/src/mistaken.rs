//! Request 104, "Idle pulses do not count": programs that take the mask in a wrong
//! way, one fault each, which the tests must find. They are made of the own parts.

use crate::judge::all_offsets;
use crate::rules::{depths, distances, listing, refusal_text, Fate, Length, Reduced, Study};
use crate::shapes::renumbered;
use crate::sheet::sheet;
use crate::table::{
    check_mask, counted, every_event, read_image, read_sheet_input, refuse, take_mask, take_offset,
    Mask, Offset, Refusal, Table, Taker,
};

/// Mask and table, or a refusal.
type Read = Result<(Mask, Table), Refusal>;

/// What may go wrong with a mask. Without a fault all is as in [`RIGHT`].
pub struct Mistaken {
    pub name: &'static str,
    /// Whether the fault shows in listings and in sheets of small tables, and in
    /// what is printed for damaged inputs.
    pub in_listings: bool,
    pub in_sheets: bool,
    pub in_damage: bool,
    /// Mask and table from the bytes behind the offset.
    read: fn(&[u8]) -> Read,
    study: fn(&Table, Mask) -> Study,
    /// What is made of a reduction before it is printed.
    number: fn(Reduced, Mask) -> Reduced,
    /// The mask whose events the first line counts.
    told: fn(&Study) -> Mask,
}

pub const RIGHT: Mistaken = Mistaken {
    name: "no fault",
    in_listings: false,
    in_sheets: false,
    in_damage: false,
    read: read_sheet_input,
    study: Study::of,
    number: |reduced, _| reduced,
    told: |study| study.mask,
};

/// A fault in depths or distances.
const STUDY: Mistaken = Mistaken { in_listings: true, in_sheets: true, ..RIGHT };

/// A fault in refusals.
const REFUSAL: Mistaken = Mistaken { in_damage: true, ..RIGHT };

pub const FAULTS: [Mistaken; 19] = [
    Mistaken {
        name: "mask ignored in depths",
        study: |table, mask| Study { depth: depths(table, all(table)), ..Study::of(table, mask) },
        ..STUDY
    },
    Mistaken {
        name: "mask ignored in distances",
        study: |table, mask| Study {
            distance: distances(table, all(table)),
            ..Study::of(table, mask)
        },
        ..STUDY
    },
    Mistaken {
        name: "mask ignored in all but the first line",
        study: |table, mask| Study { mask, ..Study::of(table, all(table)) },
        ..STUDY
    },
    Mistaken {
        name: "idle circles give endless depths",
        study: |table, mask| {
            let mut study = Study::of(table, mask);
            for (depth, by_all) in study.depth.iter_mut().zip(depths(table, all(table))) {
                *depth = (*depth).max(by_all.filter(|&by_all| by_all == Length::Endless));
            }
            study
        },
        ..STUDY
    },
    Mistaken {
        name: "idle circles give endless distances",
        study: |table, mask| {
            let mut study = Study::of(table, mask);
            for (distance, by_all) in study.distance.iter_mut().zip(distances(table, all(table))) {
                if by_all == Length::Endless {
                    *distance = by_all;
                }
            }
            study
        },
        ..STUDY
    },
    Mistaken {
        name: "mask inverted",
        study: |table, mask| Study::of(table, !mask & all(table)),
        ..STUDY
    },
    Mistaken {
        name: "mask bytes exchanged, high byte first",
        read: |input| read(input, |mask, events| fitting(mask.swap_bytes(), events)),
        in_damage: true,
        ..STUDY
    },
    Mistaken {
        name: "a mask of 0 refused",
        read: |input| {
            read(input, |mask, events| if mask == 0 { refuse(16) } else { fitting(mask, events) })
        },
        in_damage: true,
        ..STUDY
    },
    Mistaken {
        name: "counted events told as all events",
        told: |study| all(&study.table),
        ..STUDY
    },
    Mistaken {
        name: "breadth first by counted events only",
        number: by_counted_events,
        in_listings: true,
        ..RIGHT
    },
    Mistaken {
        name: "16 before the image's refusals",
        read: |input| {
            let (mask, image) = take_mask(input)?;
            check_mask(mask, events_of(image))?;
            read_sheet_input(input)
        },
        ..REFUSAL
    },
    Mistaken {
        name: "16 before 10",
        read: |input| {
            let right = read_sheet_input(input);
            if right != refuse(10) {
                return right;
            }
            let (mask, image) = take_mask(input)?;
            check_mask(mask, events_of(image))?;
            right
        },
        ..REFUSAL
    },
    Mistaken {
        name: "16 never given",
        read: |input| read(input, |mask, events| Ok(mask & every_event(events))),
        ..REFUSAL
    },
    Mistaken {
        name: "16 from the second bit above the events on",
        read: |input| {
            read(input, |mask, events| {
                fitting(mask, (events + 1).min(32)).map(|mask| mask & every_event(events))
            })
        },
        ..REFUSAL
    },
    Mistaken {
        name: "16 for every mask of 32 events but 0",
        read: |input| {
            read(input, |mask, events| fitting(mask, if events == 32 { 0 } else { events }))
        },
        ..REFUSAL
    },
    Mistaken {
        name: "16 with the bit as its place",
        read: |input| {
            read(input, |mask, events| {
                fitting(mask, events).map_err(|refusal| Refusal {
                    place: (events..32).find(|&bit| counted(mask, bit) == 1).unwrap_or(0),
                    ..refusal
                })
            })
        },
        ..REFUSAL
    },
    Mistaken {
        name: "high two bytes of the mask not read",
        read: |input| read(input, |mask, events| fitting(mask % 65_536, events)),
        ..REFUSAL
    },
    Mistaken {
        name: "8 of a short mask gives its length",
        read: |input| {
            take_mask(input).map_err(|refusal| Refusal { place: input.len(), ..refusal })?;
            read_sheet_input(input)
        },
        ..REFUSAL
    },
    Mistaken {
        name: "8 counts the mask's bytes",
        read: |input| {
            read_sheet_input(input).map_err(|refusal| match refusal {
                Refusal { number: 8, place } => Refusal { number: 8, place: place + 4 },
                other => other,
            })
        },
        ..REFUSAL
    },
];

impl Mistaken {
    fn fold(&self, study: &Study, offset: Offset) -> Reduced {
        (self.number)(study.fold(offset), study.mask)
    }

    /// What `reduce` prints with this fault.
    pub fn reduce(&self, input: &[u8]) -> Vec<u8> {
        let print = |(offset, rest)| {
            let (mask, table) = (self.read)(rest)?;
            let study = (self.study)(&table, mask);
            Ok(listing(&self.fold(&study, offset), (self.told)(&study)))
        };
        take_offset(input).and_then(print).unwrap_or_else(refusal_text).into_bytes()
    }

    /// What `sheet` prints with this fault.
    pub fn sheet(&self, input: &[u8]) -> Vec<u8> {
        let print = |(mask, table): (Mask, Table)| {
            let study = (self.study)(&table, mask);
            let rows = |offset: Offset| self.fold(&study, offset).table.rows;
            let counts: Vec<usize> = all_offsets(table.rows).into_iter().map(rows).collect();
            sheet(&table, (self.told)(&study), &counts)
        };
        (self.read)(input).map(print).unwrap_or_else(refusal_text).into_bytes()
    }
}

fn all(table: &Table) -> Mask {
    every_event(table.events)
}

/// Reads mask and image; from the mask given and the events comes the mask used.
fn read(input: &[u8], used: fn(Mask, usize) -> Result<Mask, Refusal>) -> Read {
    let (mask, image) = take_mask(input)?;
    let table = read_image(image)?;
    used(mask, table.events).map(|mask| (mask, table))
}

fn fitting(mask: Mask, events: usize) -> Result<Mask, Refusal> {
    check_mask(mask, events).map(|()| mask)
}

/// The events of an image that may have faults behind their number; 32 if it is
/// refused before, so that no mask is too high.
fn events_of(image: &[u8]) -> usize {
    let mut taker = Taker::new(image);
    let mut events = || {
        let rows = taker.rows()?;
        taker.marks(rows)?;
        taker.events(rows)
    };
    events().unwrap_or(32)
}

/// New numbers breadth first by counted events, then the rows not met so.
fn by_counted_events(mut reduced: Reduced, mask: Mask) -> Reduced {
    let table = &reduced.table;
    let mut met = vec![0];
    let mut next = 0;
    while next < met.len() {
        for event in (0..table.events).filter(|&event| counted(mask, event) == 1) {
            let target = table.target(met[next], event);
            if !met.contains(&target) {
                met.push(target);
            }
        }
        next += 1;
    }
    met.extend((0..table.rows).filter(|row| !met.contains(row)).collect::<Vec<_>>());
    let mut names = vec![0; table.rows];
    met.iter().enumerate().for_each(|(name, &row)| names[row] = name);
    reduced.table = renumbered(table, &names);
    for fate in &mut reduced.fates {
        if let Fate::Kept(number) = fate {
            *number = names[*number];
        }
    }
    reduced
}
