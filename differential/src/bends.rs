//! The calls that move the points of a path.

use crate::call::{
    outcome, place, ACCEPTS, OUTCOMES, PLACES, REFUSES_5, REFUSES_6, REFUSES_7, REFUSES_9,
};
use crate::case::Room;
use crate::compare::{mismatch, Expected};
use crate::damage::{self, damage};
use crate::family::{self, Family, Group};
use crate::ffi::{self, Answer};
use crate::guard::Lent;
use crate::lents::Lents;
use crate::original::bezier::{self, BezPath};
use crate::original::geom::{Affine, P};
use crate::outlines;
use crate::parameters::ROOM;
use crate::paths::{Path, CLOSED, SIX};
use crate::random::Random;
use crate::refusal::{MOST_ANCHORS, REFERENCE, RESULT};
use crate::report::Tally;
use crate::values::{edge, exponent, integer, near, outside, uniform, Numbers};

const OUTSIDE: [Family; 2] = [damage::OUTSIDE, ("outside", "an argument")];

fn draw(random: &mut Random, families: &mut Vec<Family>) -> Path {
    let path = outlines::draw(MOST_ANCHORS, random, families);
    let mut path = Path::of(&path);
    damage(&mut path, families, random);
    path
}

static MAPS: Group<fn(&mut Random) -> Affine> = Group {
    name: "map",
    ways: &[
        ("identity", |_| [1.0, 0.0, 0.0, 1.0, 0.0, 0.0]),
        ("shift", |random| {
            [1.0, 0.0, 0.0, 1.0, integer(random), uniform(random)]
        }),
        ("turn", |random| {
            let (cos, sin) = random.angle();
            [cos, sin, -sin, cos, integer(random), integer(random)]
        }),
        ("small numbers", |random| {
            std::array::from_fn(|_| random.signed_unit())
        }),
        ("singular", |random| {
            let [a, b] = [integer(random), integer(random)];
            [a, b, 2.0 * a, 2.0 * b, integer(random), integer(random)]
        }),
        ("zero", |random| std::array::from_fn(|_| random.signed(0.0))),
        ("huge", |random| std::array::from_fn(|_| uniform(random))),
        ("exponents", |random| {
            std::array::from_fn(|_| exponent(random))
        }),
        ("edges", |random| std::array::from_fn(|_| edge(random))),
    ],
};

pub fn transform(cases: u64, random: &mut Random) -> Tally {
    let families = [
        OUTCOMES.to_vec(),
        PLACES.to_vec(),
        OUTSIDE.to_vec(),
        MAPS.families(),
        outlines::families(),
        damage::families(),
        ROOM.families(),
    ];
    let mut tally = Tally::new("transform", families.concat());
    for _ in 0..cases {
        compare_transform(&mut tally, random);
    }
    tally
}

fn compare_transform(tally: &mut Tally, random: &mut Random) {
    let mut families = Vec::new();
    let path = draw(random, &mut families);
    let mut m = MAPS.draw(random, &mut families)(random);
    if random.one_in(12) {
        m[random.below(6) as usize] = outside(random);
        families.push(OUTSIDE[1]);
    }
    let refused = Expected::refusal_of(&path, MOST_ANCHORS, &m);
    let needs = match refused {
        None => [path.shapes.len(), SIX * path.anchors() as usize],
        // What stands in for a result that there is not.
        Some(_) => [1 + path.shapes.len().min(32), 24],
    };
    let rooms = needs.map(|need| Room::draw(need, random, &mut families));
    let expected = refused.unwrap_or_else(|| {
        let made = bezier::transform(&path.original(), m);
        Expected::made(&Path::of(&made), &rooms)
    });
    let short = rooms.iter().any(Room::is_short);
    families.push(outcome(&expected, short));
    families.extend(place(&path, &expected));
    tally.count(1, &families);
    let given = vec![
        Lent::holding_words(&path.shapes, random),
        Lent::holding(&path.numbers, random),
        Lent::holding(&m, random),
    ];
    let mut lents = Lents::with_rooms(given, &rooms, random);
    let ([shapes, anchors, map], [to_shapes, to]) = (&mut lents.given[..], &mut lents.results[..])
    else {
        unreachable!("three lists are given, and two buffers lent")
    };
    let refusal = ffi::transform(
        shapes.words(),
        anchors.numbers(),
        map.array(),
        to_shapes.words(),
        to.numbers(),
        lents.answer.answer(),
    );
    if let Some(wrong) = mismatch(&expected, refusal, &lents) {
        tally.fail(path.size(), || {
            let families = family::list(&families);
            let [words, numbers] = &rooms;
            format!("    {families}\n{path}\n    {m:?}, {words}, {numbers}\n    {wrong}")
        });
    }
}

/// Which subpath and anchor an edit names: mostly ones that there are.
type Naming = fn(&Path, &mut Random) -> [usize; 2];

static NAMES: Group<Naming> = Group {
    name: "anchor named",
    ways: &[
        ("any", |path, random| {
            let s = random.below(path.shapes.len() as u64 + 1) as usize;
            let count = count_of(path, s);
            [s, random.below(u64::from(count) + 1) as usize]
        }),
        ("the first", |path, random| {
            [random.below(path.shapes.len().max(1) as u64) as usize, 0]
        }),
        ("the last", |path, random| {
            let s = random.below(path.shapes.len().max(1) as u64) as usize;
            [s, count_of(path, s).saturating_sub(1) as usize]
        }),
        ("index 1", |path, random| {
            [random.below(path.shapes.len().max(1) as u64) as usize, 1]
        }),
        ("far off", |_, random| {
            [random.bits() as usize, random.bits() as usize]
        }),
    ],
};

fn count_of(path: &Path, s: usize) -> u32 {
    path.shapes
        .get(s)
        .map_or(0, |word| (word & !CLOSED).min(600))
}

/// What the original's edit meets.
const EDITED: [Family; 5] = [
    ("edited", "the only anchor"),
    ("edited", "an open end"),
    ("edited", "between two"),
    ("edited", "round the end"),
    ("edited", "nothing changed"),
];

pub fn auto_smooth(cases: u64, random: &mut Random) -> Tally {
    let families = [
        vec![ACCEPTS, REFUSES_7, REFUSES_5, REFUSES_6, REFUSES_9],
        vec![PLACES[0], PLACES[1], PLACES[3], PLACES[4], OUTSIDE[0]],
        EDITED.to_vec(),
        NAMES.families(),
        outlines::families(),
        damage::families(),
    ];
    let mut tally = Tally::new("auto_smooth", families.concat());
    for _ in 0..cases {
        compare_smooth(&mut tally, random);
    }
    tally
}

fn compare_smooth(tally: &mut Tally, random: &mut Random) {
    let mut families = Vec::new();
    let path = draw(random, &mut families);
    let [s, k] = NAMES.draw(random, &mut families)(&path, random);
    let expected = match Expected::refusal_of(&path, MOST_ANCHORS, &[]) {
        Some(refused) => refused,
        None if k >= count_of(&path, s) as usize => Expected::refused(REFERENCE),
        None => {
            let mut edited = path.original();
            bezier::auto_smooth(&mut edited[s], k);
            note_smooth(&path, s, k, &edited, &mut families);
            edited_in_place(&edited)
        }
    };
    let arguments = format!("subpath {s}, anchor {k}");
    let edit = Edit {
        families,
        path,
        arguments,
    };
    compare_edit(edit, &expected, tally, random, |shapes, anchors, answer| {
        ffi::auto_smooth(shapes, anchors, s, k, answer)
    });
}

fn note_smooth(path: &Path, s: usize, k: usize, edited: &BezPath, families: &mut Vec<Family>) {
    let (n, closed) = (edited[s].anchors.len(), edited[s].closed);
    let end = k == 0 || k + 1 == n;
    families.push(match (n, end, closed) {
        (1, _, _) => EDITED[0],
        (_, true, false) => EDITED[1],
        (_, false, _) => EDITED[2],
        (_, true, true) => EDITED[3],
    });
    let before = path.numbers.iter().map(|x| x.to_bits());
    let after = Path::of(edited).numbers;
    if after
        .iter()
        .map(|x| x.to_bits())
        .eq(before.take(after.len()))
    {
        families.push(EDITED[4]);
    }
}

/// 9, else the path as the original leaves it.
fn edited_in_place(edited: &BezPath) -> Expected {
    let made = Path::of(edited);
    if let Some(place) = made.first_outside() {
        return Expected::refused_at(place, RESULT);
    }
    Expected::numbers(&made)
}

/// A call that edits a path in place.
struct Edit {
    families: Vec<Family>,
    path: Path,
    arguments: String,
}

fn compare_edit(
    mut edit: Edit,
    expected: &Expected,
    tally: &mut Tally,
    random: &mut Random,
    library: impl FnOnce(&[u32], &mut [f64], &mut Answer) -> u32,
) {
    edit.families.push(outcome(expected, false));
    edit.families.extend(place(&edit.path, expected));
    tally.count(1, &edit.families);
    let mut lents = Lents {
        given: vec![Lent::holding_words(&edit.path.shapes, random)],
        results: vec![Lent::holding(&edit.path.numbers, random)],
        answer: Lent::for_answer(random),
    };
    let refusal = library(
        lents.given[0].words(),
        lents.results[0].numbers(),
        lents.answer.answer(),
    );
    if let Some(wrong) = mismatch(expected, refusal, &lents) {
        tally.fail(edit.path.size(), || {
            let families = family::list(&edit.families);
            let (path, arguments) = (&edit.path, &edit.arguments);
            format!("    {families}\n{path}\n    {arguments}\n    {wrong}")
        });
    }
}

static PARAMETER: Group<Numbers> = Group {
    name: "t",
    ways: &[
        ("between", |random| 0.08 + 0.84 * random.unit()),
        ("below 0.08", |random| 0.08 * random.unit()),
        ("above 0.92", |random| 0.92 + 0.08 * random.unit()),
        ("near 0.08", |random| near(0.08, random)),
        ("near 0.92", |random| near(0.92, random)),
        ("beyond", |random| 3.0 * random.signed_unit()),
        ("edges", edge),
    ],
};

static DELTA: Group<Numbers> = Group {
    name: "delta",
    ways: &[
        ("integers", integer),
        ("zero", |random| random.signed(0.0)),
        ("small", |random| random.signed_unit()),
        ("uniform", uniform),
        ("exponents", exponent),
        ("edges", edge),
    ],
};

/// `keep_smooth`, as C has it.
static KEEP: Group<fn(&mut Random) -> u32> = Group {
    name: "keep_smooth",
    ways: &[
        ("0", |_| 0),
        ("1", |_| 1),
        ("more", |random| (random.bits() as u32).max(2)),
    ],
};

/// What the original's bend meets.
const BENT: [Family; 6] = [
    ("bent", "the only anchor"),
    ("bent", "within"),
    ("bent", "the closing segment"),
    ("bent", "straight"),
    ("bent", "a smooth end, kept"),
    ("bent", "a smooth end, not kept"),
];

pub fn bend_segment(cases: u64, random: &mut Random) -> Tally {
    let families = [
        vec![ACCEPTS, REFUSES_7, REFUSES_5, REFUSES_6, REFUSES_9],
        PLACES.to_vec(),
        OUTSIDE.to_vec(),
        BENT.to_vec(),
        NAMES.families(),
        PARAMETER.families(),
        DELTA.families(),
        KEEP.families(),
        outlines::families(),
        damage::families(),
    ];
    let mut tally = Tally::new("bend_segment", families.concat());
    for _ in 0..cases {
        compare_bend(&mut tally, random);
    }
    tally
}

fn compare_bend(tally: &mut Tally, random: &mut Random) {
    let mut families = Vec::new();
    let path = draw(random, &mut families);
    let [s, a] = NAMES.draw(random, &mut families)(&path, random);
    let number = *DELTA.draw(random, &mut families);
    let mut pull = [
        PARAMETER.draw(random, &mut families)(random),
        number(random),
        number(random),
    ];
    let keep = KEEP.draw(random, &mut families)(random);
    if random.one_in(12) {
        pull[random.below(3) as usize] = outside(random);
        families.push(OUTSIDE[1]);
    }
    let [t, dx, dy] = pull;
    let expected = match Expected::refusal_of(&path, MOST_ANCHORS, &pull) {
        Some(refused) => refused,
        None if !is_known(&path, s, a) => Expected::refused(REFERENCE),
        None => {
            let mut edited = path.original();
            note_bend(&edited, s, a, keep != 0, &mut families);
            bezier::bend_segment(&mut edited[s], a, t, P::new(dx, dy), keep != 0);
            edited_in_place(&edited)
        }
    };
    let arguments = format!("subpath {s}, anchor {a}, {pull:?}, {keep}");
    let edit = Edit {
        families,
        path,
        arguments,
    };
    compare_edit(edit, &expected, tally, random, |shapes, anchors, answer| {
        ffi::bend_segment(shapes, anchors, s, a, t, dx, dy, keep, answer)
    });
}

/// By document 01: a start of `segments` from 2 anchors up, index 0 of one anchor.
fn is_known(path: &Path, s: usize, a: usize) -> bool {
    match count_of(path, s) {
        0 => false,
        1 => a == 0,
        _ => path.original()[s]
            .segments()
            .iter()
            .any(|&(from, _)| from == a),
    }
}

fn note_bend(path: &BezPath, s: usize, a: usize, keep: bool, families: &mut Vec<Family>) {
    let (anchors, n) = (&path[s].anchors, path[s].anchors.len());
    if n < 2 {
        families.push(BENT[0]);
        return;
    }
    let b = (a + 1) % n;
    families.push(BENT[if b == 0 { 2 } else { 1 }]);
    if anchors[a].h_out == anchors[a].p && anchors[b].h_in == anchors[b].p {
        families.push(BENT[3]);
    }
    if anchors[a].is_smooth() || anchors[b].is_smooth() {
        families.push(BENT[if keep { 4 } else { 5 }]);
    }
}
