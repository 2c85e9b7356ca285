//! A call of the library beside the original's function, and a run of generated cases over it.

use crate::case::Case;
use crate::compare::{mismatch, Answered, Expected};
use crate::family::Family;
use crate::lents::Lents;
use crate::paths::Path;
use crate::random::Random;
use crate::refusal::{ACCEPTED, ARGUMENTS, CAPACITY, LISTS, OUTPUT, REFERENCE, RESULT};
use crate::report::Tally;

pub struct Call {
    pub name: &'static str,
    /// What its cases are drawn from.
    pub families: fn() -> Vec<Family>,
    /// What they must come out in, each at least once.
    pub outcomes: &'static [Family],
    pub draw: fn(&mut Random) -> Case,
    pub original: fn(&Case) -> Answered,
    pub library: fn(&Case, &mut Lents) -> u32,
}

impl Call {
    pub fn run(&self, cases: u64, random: &mut Random) -> Tally {
        let drawn = (self.families)().into_iter();
        let families = self.outcomes.iter().copied();
        let families = families.chain(Case::ARGUMENTS).chain(drawn).collect();
        let mut tally = Tally::new(self.name, families);
        for _ in 0..cases {
            let mut case = (self.draw)(random);
            case.spoil(random);
            let expected = Expected::of(&case, self.original);
            case.families.push(outcome(&expected, case.is_short()));
            tally.count(1, &case.families);
            let mut lents = case.lents(random);
            let refusal = (self.library)(&case, &mut lents);
            if let Some(wrong) = mismatch(&expected, refusal, &lents) {
                tally.fail(case.size(), || format!("{case}\n    {wrong}"));
            }
        }
        tally
    }
}

// A call may be refused 7, 5 or 9 and be short of room too: 8 comes last.
pub const ACCEPTS: Family = ("outcome", "accepted");
pub const REFUSES_7: Family = ("outcome", "refused 7");
pub const REFUSES_7_SHORT: Family = ("outcome", "refused 7, and short");
pub const REFUSES_5: Family = ("outcome", "refused 5");
pub const REFUSES_5_SHORT: Family = ("outcome", "refused 5, and short");
pub const REFUSES_6: Family = ("outcome", "refused 6");
pub const REFUSES_10: Family = ("outcome", "refused 10");
pub const REFUSES_9: Family = ("outcome", "refused 9");
pub const REFUSES_9_SHORT: Family = ("outcome", "refused 9, and short");
pub const REFUSES_8: Family = ("outcome", "refused 8");

/// What a call comes out in that reads a path and is lent buffers for its result.
pub const OUTCOMES: [Family; 8] = [
    ACCEPTS,
    REFUSES_7,
    REFUSES_7_SHORT,
    REFUSES_5,
    REFUSES_5_SHORT,
    REFUSES_9,
    REFUSES_9_SHORT,
    REFUSES_8,
];

/// Where a path is refused 5 and 9.
pub const PLACES: [Family; 5] = [
    ("refused", "5 at anchor 0"),
    ("refused", "5 at a later one"),
    ("refused", "5 at the count"),
    ("refused", "9 at anchor 0"),
    ("refused", "9 at a later one"),
];

pub fn place(path: &Path, expected: &Expected) -> Option<Family> {
    let place = expected.answer[0];
    match expected.refusal {
        ARGUMENTS if place == path.anchors() => Some(PLACES[2]),
        ARGUMENTS => Some(PLACES[place.min(1) as usize]),
        RESULT => Some(PLACES[3 + place.min(1) as usize]),
        _ => None,
    }
}

pub fn outcome(expected: &Expected, short: bool) -> Family {
    match (expected.refusal, short) {
        (ACCEPTED, _) => ACCEPTS,
        (LISTS, false) => REFUSES_7,
        (LISTS, true) => REFUSES_7_SHORT,
        (ARGUMENTS, false) => REFUSES_5,
        (ARGUMENTS, true) => REFUSES_5_SHORT,
        (REFERENCE, _) => REFUSES_6,
        (CAPACITY, _) => REFUSES_10,
        (RESULT, false) => REFUSES_9,
        (RESULT, true) => REFUSES_9_SHORT,
        (OUTPUT, _) => REFUSES_8,
        (other, _) => unreachable!("no refusal {other}"),
    }
}
