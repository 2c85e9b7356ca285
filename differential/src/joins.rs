//! The join of a path being drawn onto an end of another.

use crate::anchors::{without_handles, HANDLES, POINTS};
use crate::case::Room;
use crate::compare::{mismatch, Expected};
use crate::damage::{lengthen, put_outside, shorten};
use crate::family::{self, Family, Group};
use crate::ffi;
use crate::guard::Lent;
use crate::lents::Lents;
use crate::original::bezier::{self, Anchor, SubPath};
use crate::original::geom::P;
use crate::parameters::ROOM;
use crate::paths::{size, Path, CLOSED, SIX};
use crate::random::Random;
use crate::refusal::{ARGUMENTS, CAPACITY, LIMIT, LISTS, MOST_ANCHORS, OUTPUT, REFERENCE, RESULT};
use crate::report::Tally;

const OUTCOMES: [Family; 13] = [
    ("outcome", "accepted"),
    ("outcome", "refused 7 for the drawn"),
    ("outcome", "refused 7 for the target"),
    ("outcome", "refused 5 among the drawn"),
    ("outcome", "refused 5 in the target"),
    ("outcome", "refused 6"),
    ("outcome", "refused 10"),
    ("outcome", "refused 9"),
    ("outcome", "refused 8"),
    // A later test would refuse too.
    ("outcome", "refused 7, and outside"),
    ("outcome", "refused 5, and the target empty"),
    ("outcome", "refused 10, and short"),
    ("outcome", "refused 9, and short"),
];

/// What is joined, where a call is accepted.
const JOINS: [Family; 7] = [
    ("joined", "at its start"),
    ("joined", "at its end"),
    ("joined", "none drawn"),
    ("joined", "one drawn"),
    ("joined", "onto one anchor"),
    ("joined", "onto a closed target"),
    ("joined", "to 512 anchors"),
];

const OUTSIDE: [Family; 2] = [("outside", "a drawn number"), ("outside", "a target's")];

pub fn join(cases: u64, random: &mut Random) -> Tally {
    let families = [
        OUTCOMES.to_vec(),
        JOINS.to_vec(),
        FEW.families(),
        MANY.families(),
        POINTS.families(),
        HANDLES.families(),
        LANDINGS.families(),
        ENDS.families(),
        WHOLE.families(),
        DAMAGED.families(),
        OUTSIDE.to_vec(),
        ROOM.families(),
    ];
    let mut tally = Tally::new("join", families.concat());
    for _ in 0..cases {
        compare(Join::draw(random), &mut tally, random);
    }
    tally
}

/// Anchors as they are given: either the count or the list may be damaged.
struct Given {
    count: usize,
    numbers: Vec<f64>,
}

impl Given {
    fn of(anchors: Vec<Anchor>) -> Given {
        let subpath = SubPath {
            anchors,
            closed: false,
        };
        let Path { shapes, numbers } = Path::of(&vec![subpath]);
        Given {
            count: shapes[0] as usize,
            // Handles and edges may lie beyond.
            numbers: numbers.iter().map(|x| x.clamp(-LIMIT, LIMIT)).collect(),
        }
    }

    /// Whether document 01 does not refuse it, 7.
    fn is_readable(&self) -> bool {
        self.count <= MOST_ANCHORS && self.count * SIX <= self.numbers.len()
    }

    fn path(&self) -> Path {
        Path {
            shapes: vec![self.count as u32],
            numbers: self.numbers.clone(),
        }
    }

    /// The first place that breaks the limit, of one that is readable.
    fn first_outside(&self) -> Option<usize> {
        self.path().first_outside()
    }

    fn subpath(&self) -> SubPath {
        self.path().original().remove(0)
    }
}

/// One generated call.
struct Join {
    families: Vec<Family>,
    drawn: Given,
    target: Given,
    closed: bool,
    at_start: u32,
}

impl Join {
    fn draw(random: &mut Random) -> Join {
        let mut families = Vec::new();
        // Many anchors are rare, since they take long.
        let counts = if random.one_in(24) { &MANY } else { &FEW };
        let counts = counts.draw(random, &mut families)(random);
        let [mut drawn, target] = counts.map(|count| anchors(count, random, &mut families));
        let at_start = *ENDS.draw(random, &mut families);
        let end = match at_start {
            0 => target.last(),
            _ => target.first(),
        };
        let landing = LANDINGS.draw(random, &mut families);
        if let (Some(last), Some(end)) = (drawn.last_mut(), end) {
            landing(last, end.p, random);
        }
        let mut call = Join {
            families,
            drawn: Given::of(drawn),
            target: Given::of(target),
            closed: random.one_in(2),
            at_start,
        };
        let lists = if random.one_in(8) { &DAMAGED } else { &WHOLE };
        lists.draw(random, &mut call.families)(&mut call, random);
        for (given, family) in [&mut call.drawn, &mut call.target].into_iter().zip(OUTSIDE) {
            if random.one_in(16) {
                put_outside(&mut given.numbers, random);
                call.families.push(family);
            }
        }
        call
    }

    fn word(&self) -> u32 {
        self.target.count as u32 | if self.closed { CLOSED } else { 0 }
    }

    fn size(&self) -> u64 {
        size(&self.drawn.numbers) + size(&self.target.numbers) + u64::from(self.word())
    }
}

/// How many anchors are drawn, and how many the target has.
type Counts = fn(&mut Random) -> [usize; 2];

static FEW: Group<Counts> = Group {
    name: "counts",
    ways: &[
        ("few", |random| [small(random), small(random)]),
        ("none drawn", |random| [0, small(random)]),
        ("one drawn", |random| [1, small(random)]),
        ("a target of one", |random| [small(random), 1]),
        ("no target", |random| [small(random), 0]),
    ],
};

static MANY: Group<Counts> = Group {
    name: "counts",
    ways: &[
        ("many", |random| {
            [0; 2].map(|_| random.below(MOST_ANCHORS as u64 + 1) as usize)
        }),
        // The last drawn anchor and the target's first become one.
        ("512 in all", |random| {
            let drawn = random.below(MOST_ANCHORS as u64 + 1) as usize;
            [drawn, MOST_ANCHORS - drawn.saturating_sub(1)]
        }),
        ("513 in all", |random| {
            let drawn = 2 + random.below(MOST_ANCHORS as u64 - 1) as usize;
            [drawn, MOST_ANCHORS + 2 - drawn]
        }),
        ("512 each", |_| [MOST_ANCHORS; 2]),
        ("513 drawn", |random| [MOST_ANCHORS + 1, small(random)]),
        ("a target of 513", |random| {
            [small(random), MOST_ANCHORS + 1]
        }),
    ],
};

fn small(random: &mut Random) -> usize {
    random.below(8) as usize
}

fn anchors(count: usize, random: &mut Random, families: &mut Vec<Family>) -> Vec<Anchor> {
    let number = *POINTS.draw(random, families);
    let handles = HANDLES.draw(random, families);
    let mut anchor = || {
        let mut a = without_handles(number, random);
        handles(&mut a, number, random);
        a
    };
    (0..count).map(|_| anchor()).collect()
}

/// What the C interface takes for true and false.
static ENDS: Group<u32> = Group {
    name: "at start",
    ways: &[("0", 0), ("1", 1), ("the top bit", CLOSED)],
};

/// Where the last drawn anchor is, beside the end that it lands on.
type Landing = fn(&mut Anchor, P, &mut Random);

static LANDINGS: Group<Landing> = Group {
    name: "landing",
    ways: &[
        ("far off", |_, _, _| {}),
        ("on it", |last, end, _| last.p = end),
        ("near it", |last, end, random| {
            last.p = end + P::new(random.signed_unit(), random.signed_unit());
        }),
    ],
};

type Change = fn(&mut Join, &mut Random);

static WHOLE: Group<Change> = Group {
    name: "lists",
    ways: &[
        ("exact", |_, _| {}),
        // What stands there breaks every rule, and is not read.
        ("longer", |call, random| {
            lengthen(&mut call.drawn.numbers, random);
            lengthen(&mut call.target.numbers, random);
        }),
    ],
};

static DAMAGED: Group<Change> = Group {
    name: "lists",
    ways: &[
        ("drawn one short", |call, _| {
            call.drawn.numbers.pop();
        }),
        ("drawn short", |call, random| {
            shorten(&mut call.drawn.numbers, random)
        }),
        ("target one short", |call, _| {
            call.target.numbers.pop();
        }),
        ("target short", |call, random| {
            shorten(&mut call.target.numbers, random)
        }),
        ("a drawn anchor more", |call, _| call.drawn.count += 1),
        ("far more drawn", |call, random| {
            call.drawn.count |= random.whole() as usize
        }),
        // Six times as many wraps to a count that the list has the numbers for.
        ("drawn that wrap", |call, _| call.drawn.count |= 1 << 63),
        ("a target's anchor more", |call, _| call.target.count += 1),
        ("far more in the target", |call, random| {
            let more = (random.bits() as u32 & !CLOSED) >> random.below(31);
            call.target.count |= more as usize
        }),
    ],
};

fn compare(mut call: Join, tally: &mut Tally, random: &mut Random) {
    let made = made(&call);
    let needs = match &made {
        Ok(made) => [1, made.numbers.len()],
        // What stands in for a result that there is not.
        Err(_) => [1, 24],
    };
    let rooms = needs.map(|need| Room::draw(need, random, &mut call.families));
    let expected = expected(&mut call, made, &rooms);
    tally.count(1, &call.families);
    let given = vec![
        Lent::holding(&call.drawn.numbers, random),
        Lent::holding(&call.target.numbers, random),
    ];
    let mut lents = Lents::with_rooms(given, &rooms, random);
    let ([drawn, target], [to_shapes, to]) = (&mut lents.given[..], &mut lents.results[..]) else {
        unreachable!("two lists are given, and two buffers lent")
    };
    let refusal = ffi::join(
        drawn.numbers(),
        call.drawn.count,
        target.numbers(),
        call.word(),
        call.at_start,
        to_shapes.words(),
        to.numbers(),
        lents.answer.answer(),
    );
    if let Some(wrong) = mismatch(&expected, refusal, &lents) {
        tally.fail(call.size(), || {
            let [words, numbers] = &rooms;
            format!(
                "    {}\n{}\n{}\n    count {}, word {:#x}, at start {:#x}, {words}, {numbers}\n    {wrong}",
                family::list(&call.families),
                call.drawn.path(),
                call.target.path(),
                call.drawn.count,
                call.word(),
                call.at_start
            )
        });
    }
}

/// What the original makes, or the refusal before: 7, 5 or 6, with what it comes out in.
fn made(call: &Join) -> Result<Path, (Expected, Family)> {
    let (drawn, target) = (&call.drawn, &call.target);
    let outside = |given: &Given| given.is_readable() && given.first_outside().is_some();
    for (given, other, family) in [(drawn, target, 1), (target, drawn, 2)] {
        if !given.is_readable() {
            let family = OUTCOMES[if outside(other) { 9 } else { family }];
            return Err((Expected::refused(LISTS), family));
        }
    }
    if let Some(place) = drawn.first_outside() {
        let family = OUTCOMES[if target.count == 0 { 10 } else { 3 }];
        return Err((Expected::refused_at(place, ARGUMENTS), family));
    }
    if let Some(place) = target.first_outside() {
        let place = drawn.count + place;
        return Err((Expected::refused_at(place, ARGUMENTS), OUTCOMES[4]));
    }
    if target.count == 0 {
        return Err((Expected::refused(REFERENCE), OUTCOMES[5]));
    }
    let onto = SubPath {
        closed: call.closed,
        ..target.subpath()
    };
    let joined = bezier::join(&drawn.subpath().anchors, &onto, call.at_start != 0);
    Ok(Path::of(&vec![joined]))
}

/// 10, 9 and 8, else the original's path.
fn expected(
    call: &mut Join,
    made: Result<Path, (Expected, Family)>,
    rooms: &[Room; 2],
) -> Expected {
    let made = match made {
        Ok(made) => made,
        Err((refused, family)) => {
            call.families.push(family);
            return refused;
        }
    };
    let short = rooms.iter().any(Room::is_short);
    if made.anchors() > MOST_ANCHORS as u64 {
        call.families.push(OUTCOMES[if short { 11 } else { 6 }]);
        return Expected::refused(CAPACITY);
    }
    if let Some(place) = made.first_outside() {
        call.families.push(OUTCOMES[if short { 12 } else { 7 }]);
        return Expected::refused_at(place, RESULT);
    }
    if short {
        call.families.push(OUTCOMES[8]);
        return Expected::refused(OUTPUT);
    }
    note(call, &made);
    Expected::path(&made)
}

/// What an accepted call joined.
fn note(call: &mut Join, made: &Path) {
    let is = [
        call.at_start != 0,
        call.at_start == 0,
        call.drawn.count == 0,
        call.drawn.count == 1,
        call.target.count == 1,
        call.closed,
        made.anchors() == MOST_ANCHORS as u64,
    ];
    call.families.push(OUTCOMES[0]);
    let joined = JOINS.into_iter().zip(is);
    call.families
        .extend(joined.filter(|(_, is)| *is).map(|(family, _)| family));
}
