//! The edits of a path in place: an anchor put into a segment, a drawing's subpath turned round, and anchors deleted.

use crate::call::{
    outcome, ACCEPTS, REFUSES_10, REFUSES_5, REFUSES_6, REFUSES_7, REFUSES_8, REFUSES_9,
};
use crate::compare::{mismatch, Expected};
use crate::damage::{lengthen, put_outside, shorten, Change, MORE, WHOLE};
use crate::drawings::{self, Drawing};
use crate::family::{self, Family, Group};
use crate::ffi;
use crate::guard::Lent;
use crate::lents::Lents;
use crate::original::bezier::{self, AnchorRef, BezPath};
use crate::outlines;
use crate::parameters::PARAMETER;
use crate::paths::{Path, SIX};
use crate::random::Random;
use crate::refusal::{ARGUMENTS, CAPACITY, LISTS, MOST_ANCHORS, OUTPUT, REFERENCE, RESULT};
use crate::report::Tally;
use crate::values::outside;

const OUTCOMES: [Family; 7] = [
    ACCEPTS, REFUSES_7, REFUSES_5, REFUSES_6, REFUSES_10, REFUSES_9, REFUSES_8,
];

/// What a split is of, where it is accepted, and where it is refused 9.
const SPLITS: [Family; 7] = [
    ("split", "a segment"),
    ("split", "the closing segment"),
    ("split", "of two closed anchors"),
    ("split", "with subpaths after it"),
    ("split", "to 512 anchors"),
    ("refused 9", "at the start or later"),
    ("refused 9", "at a closing segment's end"),
];

const NO_T: Family = ("t", "outside");

pub fn split(cases: u64, random: &mut Random) -> Tally {
    let families = [
        OUTCOMES.to_vec(),
        SPLITS.to_vec(),
        outlines::families(),
        PARAMETER.families(),
        vec![NO_T],
        REFERENCES.families(),
        ROOM.families(),
        DAMAGE.families(),
    ];
    let mut tally = Tally::new("split", families.concat());
    for _ in 0..cases {
        compare(Split::draw(random), &mut tally, random);
    }
    tally
}

/// One generated call.
struct Split {
    families: Vec<Family>,
    path: Path,
    s: usize,
    a: usize,
    t: f64,
}

impl Split {
    fn draw(random: &mut Random) -> Split {
        let mut families = Vec::new();
        // One fewer in some cases, so that a split makes the most.
        let most = MOST_ANCHORS - usize::from(random.one_in(2));
        let mut path = Path::of(&outlines::draw(most, random, &mut families));
        let (s, a) = REFERENCES.draw(random, &mut families)(&path, random);
        let t = if random.one_in(16) {
            families.push(NO_T);
            outside(random)
        } else {
            PARAMETER.draw(random, &mut families)(random)
        };
        ROOM.draw(random, &mut families)(&mut path, random);
        if random.one_in(6) {
            DAMAGE.draw(random, &mut families)(&mut path, random);
        }
        Split {
            families,
            path,
            s,
            a,
            t,
        }
    }

    fn size(&self) -> u64 {
        self.path.size() + self.s as u64 + self.a as u64
    }
}

/// Where a segment is that a call names.
static REFERENCES: Group<fn(&Path, &mut Random) -> (usize, usize)> = Group {
    name: "reference",
    ways: &[
        ("a segment", |path, random| {
            let all: Vec<_> = segments(path).collect();
            if all.is_empty() {
                (0, 0)
            } else {
                *random.pick(&all)
            }
        }),
        ("a closing segment", |path, random| {
            let closing = |&(s, a): &(usize, usize)| path.original()[s].anchors.len() == a + 1;
            let all: Vec<_> = segments(path).filter(closing).collect();
            if all.is_empty() {
                (0, 0)
            } else {
                *random.pick(&all)
            }
        }),
        ("the last anchor", |path, random| {
            let s = random.below(path.shapes.len() as u64 + 1) as usize;
            let n = path.original().get(s).map_or(0, |sp| sp.anchors.len());
            (s, n.saturating_sub(1))
        }),
        ("about", |path, random| {
            let s = random.below(path.shapes.len() as u64 + 2) as usize;
            (s, random.below(8) as usize)
        }),
        ("far off", |_, random| {
            (random.whole() as usize, random.whole() as usize)
        }),
    ],
};

fn segments(path: &Path) -> impl Iterator<Item = (usize, usize)> {
    let path = path.original();
    (0..path.len()).flat_map(move |s| {
        let starts: Vec<_> = path[s]
            .segments()
            .into_iter()
            .map(|(a, _)| (s, a))
            .collect();
        starts
    })
}

/// Numbers past those that the words call for: an anchor needs six.
static ROOM: Group<Change> = Group {
    name: "room",
    ways: &[
        ("exact", |path, random| more(path, SIX, random)),
        ("longer", |path, random| {
            more(path, SIX, random);
            lengthen(&mut path.numbers, random);
        }),
        ("longer still", |path, random| more(path, 100, random)),
        ("one short", |path, random| more(path, SIX - 1, random)),
        ("none", |_, _| {}),
    ],
};

fn more(path: &mut Path, count: usize, random: &mut Random) {
    path.numbers.extend((0..count).map(|_| outside(random)));
}

static DAMAGE: Group<Change> = Group {
    name: "damage",
    ways: &[
        ("numbers short", |path, random| {
            shorten(&mut path.numbers, random)
        }),
        MORE[0],
        MORE[1],
        MORE[2],
        ("a number outside", |path, random| {
            put_outside(&mut path.numbers, random)
        }),
    ],
};

fn compare(mut call: Split, tally: &mut Tally, random: &mut Random) {
    let expected = expected(&mut call);
    call.families.push(outcome(&expected, false));
    tally.count(1, &call.families);
    // In place: the lists are given and written.
    let mut lents = Lents {
        given: Vec::new(),
        results: vec![
            Lent::holding_words(&call.path.shapes, random),
            Lent::holding(&call.path.numbers, random),
        ],
        answer: Lent::for_answer(random),
    };
    let [shapes, anchors] = &mut lents.results[..] else {
        unreachable!("two lists are lent")
    };
    let refusal = ffi::split(
        shapes.words(),
        anchors.numbers(),
        call.s,
        call.a,
        call.t,
        lents.answer.answer(),
    );
    if let Some(wrong) = mismatch(&expected, refusal, &lents) {
        tally.fail(call.size(), || {
            format!(
                "    {}\n{}\n    s {}, a {}, t {:e}\n    {wrong}",
                family::list(&call.families),
                call.path,
                call.s,
                call.a,
                call.t
            )
        });
    }
}

/// Document 01's refusals in their order, 7, 5, 6, 10, 9, 8; else what the original leaves.
fn expected(call: &mut Split) -> Expected {
    let path = &call.path;
    if let Some(refused) = Expected::refusal_of(path, MOST_ANCHORS, &[call.t]) {
        return refused;
    }
    if !segments(path).any(|segment| segment == (call.s, call.a)) {
        return Expected::refused(REFERENCE);
    }
    let anchors = path.anchors() as usize;
    if anchors == MOST_ANCHORS {
        return Expected::refused(CAPACITY);
    }
    let mut original = path.original();
    let n = original[call.s].anchors.len();
    let closing = call.a + 1 == n;
    bezier::split(&mut original, call.s, call.a, call.t);
    let made = Path::of(&original);
    if let Some(place) = made.first_outside() {
        let start: usize = original[..call.s].iter().map(|sp| sp.anchors.len()).sum();
        let end = closing && place == start;
        call.families.push(SPLITS[if end { 6 } else { 5 }]);
        return Expected::refused_at(place, RESULT);
    }
    if path.numbers.len() < made.numbers.len() {
        return Expected::refused(OUTPUT);
    }
    call.families.push(SPLITS[usize::from(closing)]);
    if closing && n == 2 {
        call.families.push(SPLITS[2]);
    }
    if call.s + 1 < original.len() {
        call.families.push(SPLITS[3]);
    }
    if anchors + 1 == MOST_ANCHORS {
        call.families.push(SPLITS[4]);
    }
    Expected::path(&made)
}

/// What is turned round, where a call is accepted.
const TURNS: [Family; 5] = [
    ("turned", "no anchor"),
    ("turned", "one"),
    ("turned", "an even number"),
    ("turned", "an odd number"),
    ("turned", "with subpaths on both sides"),
];

pub fn reversed(cases: u64, random: &mut Random) -> Tally {
    let families = [
        OUTCOMES[..4].to_vec(),
        TURNS.to_vec(),
        drawings::families(),
        SUBPATHS.families(),
    ];
    let mut tally = Tally::new("reversed", families.concat());
    for _ in 0..cases {
        let mut drawing = Drawing::draw(random);
        let mut families = Vec::new();
        let s = SUBPATHS.draw(random, &mut families)(&drawing, random);
        drawing.families.extend(families);
        compare_turned(drawing, s, &mut tally, random);
    }
    tally
}

/// Which subpath a call names.
static SUBPATHS: Group<fn(&Drawing, &mut Random) -> usize> = Group {
    name: "reference",
    ways: &[
        ("a subpath", |drawing, random| {
            let subpaths = drawing.path.shapes.len().max(1);
            random.below(subpaths as u64) as usize
        }),
        ("the one after the last", |drawing, _| {
            drawing.path.shapes.len()
        }),
        ("far off", |_, random| random.whole() as usize),
    ],
};

fn compare_turned(mut drawing: Drawing, s: usize, tally: &mut Tally, random: &mut Random) {
    let expected = expected_turned(&mut drawing, s);
    drawing.families.push(outcome(&expected, false));
    tally.count(1, &drawing.families);
    let mut lents = Lents {
        given: vec![
            Lent::holding_words(&drawing.path.shapes, random),
            Lent::holding(&drawing.radii, random),
        ],
        results: vec![Lent::holding(&drawing.path.numbers, random)],
        answer: Lent::for_answer(random),
    };
    let ([shapes, radii], [anchors]) = (&mut lents.given[..], &mut lents.results[..]) else {
        unreachable!("two lists are given, and one is written")
    };
    let refusal = ffi::reversed(
        shapes.words(),
        anchors.numbers(),
        radii.numbers(),
        s,
        lents.answer.answer(),
    );
    if let Some(wrong) = mismatch(&expected, refusal, &lents) {
        tally.fail(drawing.size(), || {
            format!("{drawing}\n    s {s}\n    {wrong}")
        });
    }
}

/// Document 01's refusals in their order, 7, 5, 6; else what the original makes of the subpath.
fn expected_turned(drawing: &mut Drawing, s: usize) -> Expected {
    if !drawing.is_readable() {
        return Expected::refused(LISTS);
    }
    if let Some(place) = drawing.first_outside() {
        return Expected::refused_at(place, ARGUMENTS);
    }
    if drawing.path.shapes.len() <= s {
        return Expected::refused(REFERENCE);
    }
    let mut original = drawing.path.original();
    original[s] = bezier::reversed(&original[s]);
    let n = original[s].anchors.len();
    let turn = if n < 2 { n } else { 2 + n % 2 };
    drawing.families.push(TURNS[turn]);
    let between = original[..s].iter().any(|sp| !sp.anchors.is_empty())
        && original[s + 1..].iter().any(|sp| !sp.anchors.is_empty());
    if between && n > 0 {
        drawing.families.push(TURNS[4]);
    }
    Expected::numbers(&Path::of(&original))
}

/// What goes, where a call is accepted.
const DELETED: [Family; 8] = [
    ("deleted", "nothing"),
    ("deleted", "anchors alone"),
    ("deleted", "a subpath that anchors were deleted from"),
    ("deleted", "a subpath with too few at first"),
    ("deleted", "a subpath before one that stays"),
    ("deleted", "every subpath"),
    ("left", "closed, 3"),
    ("left", "open, 2"),
];

pub fn delete(cases: u64, random: &mut Random) -> Tally {
    let families = [
        OUTCOMES[..4].to_vec(),
        DELETED.to_vec(),
        outlines::families(),
        NAMED.families(),
        WRONG.families(),
        BEYOND.families(),
        DAMAGE.families(),
    ];
    let mut tally = Tally::new("delete", families.concat());
    for _ in 0..cases {
        compare_deleted(Delete::draw(random), &mut tally, random);
    }
    tally
}

/// One generated call.
struct Delete {
    families: Vec<Family>,
    path: Path,
    which: Vec<u32>,
}

impl Delete {
    fn draw(random: &mut Random) -> Delete {
        let mut families = Vec::new();
        let original = outlines::draw(MOST_ANCHORS, random, &mut families);
        let mut path = Path::of(&original);
        let named = NAMED.draw(random, &mut families)(&original, random);
        let pairs = named.iter().map(|&(s, a)| [s as u32, a as u32]);
        let mut which = pairs.flatten().collect();
        if random.one_in(8) {
            WRONG.draw(random, &mut families)(&original, &mut which, random);
        }
        BEYOND.draw(random, &mut families)(&mut path, random);
        if random.one_in(8) {
            DAMAGE.draw(random, &mut families)(&mut path, random);
        }
        Delete {
            families,
            path,
            which,
        }
    }

    fn size(&self) -> u64 {
        self.path.size() + self.which.len() as u64
    }
}

/// Which anchors a call names, all of them there.
static NAMED: Group<fn(&BezPath, &mut Random) -> Vec<AnchorRef>> = Group {
    name: "named",
    ways: &[
        ("none", |_, _| Vec::new()),
        ("one", |path, random| picked(path, 1, random)),
        ("a few", |path, random| some(path, 4, random)),
        ("half", |path, random| some(path, 2, random)),
        ("a subpath", |path, random| {
            let s = random.below(path.len() as u64 + 1) as usize;
            let of = |&(t, _): &AnchorRef| t == s;
            anchors(path).into_iter().filter(of).collect()
        }),
        ("all", |path, _| anchors(path)),
        ("some twice, in any order", |path, random| {
            let mut named = picked(path, random.below(9), random);
            named.extend_from_within(..);
            named
        }),
    ],
};

fn anchors(path: &BezPath) -> Vec<AnchorRef> {
    let of = |s: usize| (0..path[s].anchors.len()).map(move |a| (s, a));
    (0..path.len()).flat_map(of).collect()
}

/// So many of the anchors, where there are any.
fn picked(path: &BezPath, count: u64, random: &mut Random) -> Vec<AnchorRef> {
    let all = anchors(path);
    let count = if all.is_empty() { 0 } else { count };
    (0..count).map(|_| *random.pick(&all)).collect()
}

/// One in so many of the anchors.
fn some(path: &BezPath, one_in: u64, random: &mut Random) -> Vec<AnchorRef> {
    let mut named = anchors(path);
    named.retain(|_| random.one_in(one_in));
    named
}

type Spoil = fn(&BezPath, &mut Vec<u32>, &mut Random);

/// What is wrong with a list of references.
static WRONG: Group<Spoil> = Group {
    name: "wrong",
    ways: &[
        ("half a pair", |_, which, random| {
            which.insert(random.below(which.len() as u64 + 1) as usize, 0)
        }),
        ("the anchor past the end", |path, which, random| {
            let s = random.below(path.len() as u64 + 1) as usize;
            let n = path.get(s).map_or(0, |sp| sp.anchors.len());
            put_pair(which, [s as u32, n as u32], random);
        }),
        ("the subpath past the end", |path, which, random| {
            put_pair(which, [path.len() as u32, 0], random)
        }),
        ("far off", |_, which, random| {
            let far = |random: &mut Random| random.bits() as u32 >> random.below(32);
            let pair = [far(random), far(random)];
            put_pair(which, pair, random);
        }),
    ],
};

fn put_pair(which: &mut Vec<u32>, pair: [u32; 2], random: &mut Random) {
    let at = 2 * random.below(which.len() as u64 / 2 + 1) as usize;
    which.splice(at..at, pair);
}

/// Numbers past those that the words call for.
static BEYOND: Group<Change> = Group {
    name: "room",
    ways: WHOLE.ways,
};

fn compare_deleted(mut call: Delete, tally: &mut Tally, random: &mut Random) {
    let expected = expected_deleted(&mut call);
    call.families.push(outcome(&expected, false));
    tally.count(1, &call.families);
    let mut lents = Lents {
        given: vec![Lent::holding_words(&call.which, random)],
        results: vec![
            Lent::holding_words(&call.path.shapes, random),
            Lent::holding(&call.path.numbers, random),
        ],
        answer: Lent::for_answer(random),
    };
    let ([which], [shapes, anchors]) = (&mut lents.given[..], &mut lents.results[..]) else {
        unreachable!("one list is given, and two are written")
    };
    let refusal = ffi::delete(
        shapes.words(),
        anchors.numbers(),
        which.words(),
        lents.answer.answer(),
    );
    if let Some(wrong) = mismatch(&expected, refusal, &lents) {
        tally.fail(call.size(), || {
            format!(
                "    {}\n{}\n    which {:?}\n    {wrong}",
                family::list(&call.families),
                call.path,
                call.which
            )
        });
    }
}

/// Document 01's refusals in their order, 7, 5, 6; else what the original leaves.
fn expected_deleted(call: &mut Delete) -> Expected {
    if !call.path.is_readable(MOST_ANCHORS) || !call.which.len().is_multiple_of(2) {
        return Expected::refused(LISTS);
    }
    if let Some(place) = call.path.first_outside() {
        return Expected::refused_at(place, ARGUMENTS);
    }
    let given = call.path.original();
    let pairs = call.which.chunks(2);
    let named: Vec<_> = pairs.map(|p| (p[0] as usize, p[1] as usize)).collect();
    let is_there = |&(s, a): &AnchorRef| given.get(s).is_some_and(|sp| a < sp.anchors.len());
    if !named.iter().all(is_there) {
        return Expected::refused(REFERENCE);
    }
    let mut original = call.path.original();
    bezier::delete(&mut original, &named);
    note_deleted(&given, &named, &original, &mut call.families);
    Expected::path(&Path::of(&original))
}

/// What went of a path, and what is left as short as may be.
fn note_deleted(given: &BezPath, named: &[AnchorRef], left: &BezPath, families: &mut Vec<Family>) {
    let least = |closed: bool| if closed { 3 } else { 2 };
    let stays = |s: usize| {
        let gone = (0..given[s].anchors.len()).filter(|&a| named.contains(&(s, a)));
        given[s].anchors.len() - gone.count() >= least(given[s].closed)
    };
    let goes: Vec<_> = (0..given.len()).filter(|&s| !stays(s)).collect();
    let short = |&s: &usize| given[s].anchors.len() < least(given[s].closed);
    let last = (0..given.len()).rev().find(|&s| stays(s));
    let left_at_least = |closed: bool| {
        let mut left = left.iter().filter(|sp| sp.closed == closed);
        left.any(|sp| sp.anchors.len() == least(closed))
    };
    let noted = [
        goes.is_empty() && named.is_empty(),
        goes.is_empty() && !named.is_empty(),
        !goes.iter().all(short),
        goes.iter().any(short),
        goes.iter().any(|&s| last.is_some_and(|last| s < last)),
        !given.is_empty() && left.is_empty(),
        left_at_least(true),
        left_at_least(false),
    ];
    let noted = DELETED.iter().zip(noted).filter(|(_, noted)| *noted);
    families.extend(noted.map(|(&family, _)| family));
}
