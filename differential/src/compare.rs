//! What a call must answer and leave in every lent bit, against what it did.

use crate::case::{Case, Room};
use crate::guard::{Lent, Wrong};
use crate::lents::Lents;
use crate::paths::Path;
use crate::refusal::{in_limit, ACCEPTED, ARGUMENTS, LISTS, OUTPUT, RESULT};
use std::fmt::{Display, Formatter, Result};

/// What the original answers.
pub struct Answered {
    pub count: u64,
    pub lists: Vec<Vec<f64>>,
}

/// What the library must do.
pub struct Expected {
    pub refusal: u32,
    /// place, count, subpaths, recut
    pub answer: [u64; 4],
    /// The bits of each entry written, for each list of the result.
    pub written: Vec<Vec<u64>>,
}

impl Expected {
    /// In document 01's order: 5, 9, 8. The original is asked only where the arguments are good.
    pub fn of(case: &Case, original: fn(&Case) -> Answered) -> Expected {
        if !case.arguments_in_limit() {
            return Expected::refused(ARGUMENTS);
        }
        let Answered { count, lists } = original(case);
        if !lists.iter().flatten().all(|&x| in_limit(x)) {
            return Expected::refused(RESULT);
        }
        let mut lent = lists.iter().zip(&case.rooms);
        if lent.any(|(list, room)| room.lent < list.len()) {
            return Expected::refused(OUTPUT);
        }
        let bits = |list: Vec<f64>| list.into_iter().map(f64::to_bits).collect();
        Expected {
            refusal: ACCEPTED,
            answer: [0, count, 0, 0],
            written: lists.into_iter().map(bits).collect(),
        }
    }

    /// Document 01's refusals 7 and 5 of a path, and of the arguments beside it, at the anchor count.
    pub fn refusal_of(path: &Path, most_anchors: usize, arguments: &[f64]) -> Option<Expected> {
        if !path.is_readable(most_anchors) {
            return Some(Expected::refused(LISTS));
        }
        let place = path.first_outside().or_else(|| {
            let good = arguments.iter().all(|&x| in_limit(x));
            (!good).then_some(path.anchors() as usize)
        });
        place.map(|place| Expected::refused_at(place, ARGUMENTS))
    }

    /// Document 01's refusals 9 and 8 of a path that goes to lent buffers, else that path.
    pub fn made(made: &Path, rooms: &[Room; 2]) -> Expected {
        if let Some(place) = made.first_outside() {
            return Expected::refused_at(place, RESULT);
        }
        if rooms.iter().any(Room::is_short) {
            return Expected::refused(OUTPUT);
        }
        Expected::path(made)
    }

    /// An accepted call, which leaves this path in front of its lists.
    pub fn path(made: &Path) -> Expected {
        let words = made.shapes.iter().copied().map(u64::from);
        let numbers = made.numbers.iter().map(|x| x.to_bits());
        Expected {
            refusal: ACCEPTED,
            answer: [0, made.anchors(), made.shapes.len() as u64, 0],
            written: vec![words.collect(), numbers.collect()],
        }
    }

    /// The same of a call that leaves the words as they are.
    pub fn numbers(made: &Path) -> Expected {
        let mut expected = Expected::path(made);
        expected.written.remove(0);
        expected
    }

    /// At place 0, as every refusal of a call without a path.
    pub fn refused(refusal: u32) -> Expected {
        Expected::refused_at(0, refusal)
    }

    pub fn refused_at(place: usize, refusal: u32) -> Expected {
        Expected {
            refusal,
            answer: [place as u64, 0, 0, 0],
            written: Vec::new(),
        }
    }
}

#[derive(Clone, Copy, Debug, PartialEq)]
pub enum Buffer {
    Given(usize),
    Result(usize),
    Answer,
}

#[derive(Debug, PartialEq)]
pub enum Mismatch {
    Refusal { expected: u32, got: u32 },
    Entry(Buffer, Wrong),
}

/// The first thing that is not as it must be.
pub fn mismatch(expected: &Expected, refusal: u32, lents: &Lents) -> Option<Mismatch> {
    if refusal != expected.refusal {
        return Some(Mismatch::Refusal {
            expected: expected.refusal,
            got: refusal,
        });
    }
    let wrong = |buffer: Buffer, lent: &Lent, written: &[u64]| {
        Some(Mismatch::Entry(buffer, lent.wrong(written)?))
    };
    wrong(Buffer::Answer, &lents.answer, &expected.answer)
        .or_else(|| {
            let mut results = lents.results.iter().enumerate();
            results.find_map(|(list, lent)| {
                let written = expected.written.get(list).map_or(&[][..], |bits| bits);
                wrong(Buffer::Result(list), lent, written)
            })
        })
        .or_else(|| {
            let mut given = lents.given.iter().enumerate();
            given.find_map(|(list, lent)| wrong(Buffer::Given(list), lent, &[]))
        })
}

impl Display for Mismatch {
    fn fmt(&self, f: &mut Formatter) -> Result {
        match self {
            Mismatch::Refusal { expected, got } => write!(f, "refusal {got}, not {expected}"),
            Mismatch::Entry(buffer, Wrong { at, expected, got }) => write!(
                f,
                "{buffer:?}: entry {at} is {got:#018x}, not {expected:#018x}"
            ),
        }
    }
}
