//! The calls that make a shape between two points: rectangle, ellipse and line. None of their numbers
//! passes the limit where those given do not, so 9 is no outcome that a run must meet; one that met it
//! would fail for having no such family.

use crate::call::{outcome, ACCEPTS, REFUSES_5, REFUSES_5_SHORT, REFUSES_8};
use crate::case::{significant_bits, which_short, Room};
use crate::compare::{mismatch, Expected};
use crate::family::{self, Family, Group};
use crate::ffi::{self, Answer};
use crate::lents::Lents;
use crate::original::bezier::{ellipse, line, rect, BezPath};
use crate::original::geom::P;
use crate::parameters::ROOM;
use crate::paths::Path;
use crate::random::Random;
use crate::refusal::{in_limit, ARGUMENTS, LIMIT, OUTPUT};
use crate::report::Tally;
use crate::values::{edge, exponent, integer, near, outside, uniform, Numbers};

/// A shape: what the original makes, and the library's call.
pub struct Shape {
    name: &'static str,
    radius: bool,
    original: fn(P, P, f64) -> BezPath,
    library: Library,
}

type Library = fn([f64; 4], f64, &mut [u32], &mut [f64], &mut Answer) -> u32;

pub const SHAPES: [Shape; 3] = [
    Shape {
        name: "rect",
        radius: true,
        original: rect,
        library: |[ax, ay, bx, by], radius, words, numbers, answer| {
            ffi::rect(ax, ay, bx, by, radius, words, numbers, answer)
        },
    },
    Shape {
        name: "ellipse",
        radius: false,
        original: |a, b, _| ellipse(a, b),
        library: |[ax, ay, bx, by], _, words, numbers, answer| {
            ffi::ellipse(ax, ay, bx, by, words, numbers, answer)
        },
    },
    Shape {
        name: "line",
        radius: false,
        original: |a, b, _| line(a, b),
        library: |[ax, ay, bx, by], _, words, numbers, answer| {
            ffi::line(ax, ay, bx, by, words, numbers, answer)
        },
    },
];

/// Two opposite corners, or ends.
static CORNERS: Group<Numbers> = Group {
    name: "corners",
    ways: &[
        ("integers", integer),
        ("-1, 0, 1 and -0", |random| {
            let x = random.below(2) as f64;
            random.signed(x)
        }),
        ("uniform", uniform),
        ("exponents", exponent),
        ("edges", edge),
        ("at the limit", |random| {
            let x = f64::from_bits(LIMIT.to_bits() - random.below(3));
            random.signed(x)
        }),
    ],
};

const BOXES: [Family; 4] = [
    ("box", "b right and below a"),
    ("box", "turned"),
    ("box", "without width"),
    ("box", "without height"),
];

type Radius = fn([f64; 4], &mut Random) -> f64;

static RADII: Group<Radius> = Group {
    name: "radius",
    ways: &[
        ("0", |_, random| random.signed(0.0)),
        ("negative", |_, random| -uniform(random).abs()),
        ("near 1e-9", |_, random| near(1e-9, random)),
        ("fitting", |corners, random| {
            0.5 * random.unit() * least_side(corners)
        }),
        ("half a side", |corners, random| {
            near(0.5 * least_side(corners), random)
        }),
        ("larger", |corners, random| {
            (least_side(corners) * (0.5 + random.unit())).min(LIMIT)
        }),
        ("far larger", |_, _| LIMIT),
    ],
};

fn least_side([ax, ay, bx, by]: [f64; 4]) -> f64 {
    (bx - ax).abs().min((by - ay).abs())
}

/// What the original makes of a rectangle.
const RECTS: [Family; 2] = [("made", "sharp"), ("made", "rounded")];
const OUTSIDE: [Family; 2] = [("arguments", "as drawn"), ("arguments", "one outside")];
const SHORT: [Family; 3] = [
    ("refused", "8 for the word"),
    ("refused", "8 for the numbers"),
    ("refused", "8 for both"),
];

pub fn run(shape: &Shape, cases: u64, random: &mut Random) -> Tally {
    let mut families = vec![ACCEPTS, REFUSES_5, REFUSES_5_SHORT, REFUSES_8];
    families.extend(OUTSIDE.into_iter().chain(SHORT).chain(BOXES));
    families.extend(CORNERS.families().into_iter().chain(ROOM.families()));
    if shape.radius {
        families.extend(RADII.families().into_iter().chain(RECTS));
    }
    let mut tally = Tally::new(shape.name, families);
    for _ in 0..cases {
        compare(shape, &mut tally, random);
    }
    tally
}

fn compare(shape: &Shape, tally: &mut Tally, random: &mut Random) {
    let mut families = Vec::new();
    let number = *CORNERS.draw(random, &mut families);
    let mut corners: [f64; 4] = std::array::from_fn(|_| number(random));
    let mut radius = 0.0;
    if shape.radius {
        radius = RADII.draw(random, &mut families)(corners, random);
    }
    let spoilt = random.one_in(8);
    if spoilt {
        let at = random.below(if shape.radius { 5 } else { 4 }) as usize;
        *corners.get_mut(at).unwrap_or(&mut radius) = outside(random);
    }
    families.push(OUTSIDE[usize::from(spoilt)]);
    let [ax, ay, bx, by] = corners;
    let made = if corners.iter().all(|&x| in_limit(x)) && in_limit(radius) {
        note_box(corners, &mut families);
        Some((shape.original)(P::new(ax, ay), P::new(bx, by), radius))
    } else {
        None
    };
    if let (true, Some(made)) = (shape.radius, &made) {
        families.push(RECTS[usize::from(made[0].anchors.len() == 8)]);
    }
    let made = made.map(|made| Path::of(&made));
    let needs = made
        .as_ref()
        .map_or([1, 24], |made| [1, made.numbers.len()]);
    let rooms = needs.map(|need| Room::draw(need, random, &mut families));
    let expected = match made {
        Some(made) => Expected::made(&made, &rooms),
        None => Expected::refused(ARGUMENTS),
    };
    note_outcome(&expected, &rooms, &mut families);
    tally.count(1, &families);
    let mut lents = Lents::with_rooms(Vec::new(), &rooms, random);
    let [to_shapes, to] = &mut lents.results[..] else {
        unreachable!("two buffers are lent")
    };
    let answer = lents.answer.answer();
    let refusal = (shape.library)(corners, radius, to_shapes.words(), to.numbers(), answer);
    if let Some(wrong) = mismatch(&expected, refusal, &lents) {
        let size = corners.iter().chain([&radius]);
        tally.fail(size.map(|x| significant_bits(x.to_bits())).sum(), || {
            let families = family::list(&families);
            let [words, numbers] = &rooms;
            format!("    {families}\n    {corners:?}, {radius:e}, {words}, {numbers}\n    {wrong}")
        });
    }
}

fn note_box([ax, ay, bx, by]: [f64; 4], families: &mut Vec<Family>) {
    families.push(BOXES[usize::from(bx < ax || by < ay)]);
    if ax == bx {
        families.push(BOXES[2]);
    }
    if ay == by {
        families.push(BOXES[3]);
    }
}

fn note_outcome(expected: &Expected, rooms: &[Room; 2], families: &mut Vec<Family>) {
    let short = rooms.iter().any(Room::is_short);
    families.push(outcome(expected, short));
    if expected.refusal == OUTPUT {
        families.push(SHORT[which_short(rooms)]);
    }
}
