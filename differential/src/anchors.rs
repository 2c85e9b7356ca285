//! Anchors: points of some kind, and handles.

use crate::family::Group;
use crate::original::bezier::Anchor;
use crate::original::geom::P;
use crate::random::Random;
use crate::refusal::LIMIT;
use crate::values::{edge, exponent, integer, near, uniform, Numbers};

pub static POINTS: Group<Numbers> = Group {
    name: "points",
    ways: &[
        ("integers", integer),
        // Coincident points, straight angles and right ones.
        ("-1, 0, 1", |random| random.below(3) as f64 - 1.0),
        ("within 100", |random| 100.0 * random.signed_unit()),
        ("uniform", uniform),
        ("exponents", exponent),
        ("edges", edge),
        ("near 1e-9", |random| {
            let mark = 0.5 * random.below(6) as f64 * 1e-9;
            let x = mark * near(1.0, random);
            random.signed(x)
        }),
        ("at the limit", |random| {
            let x = f64::from_bits(LIMIT.to_bits() - random.below(3));
            random.signed(x)
        }),
        // Near enough to each other for distances about 1e-9.
        ("in a corner of the limit", |random| {
            f64::from_bits(LIMIT.to_bits() - random.below(128))
        }),
        ("mixed", |random| {
            let ways: [Numbers; 4] = [integer, uniform, exponent, edge];
            random.pick(&ways)(random)
        }),
    ],
};

pub fn without_handles(number: Numbers, random: &mut Random) -> Anchor {
    Anchor::corner(P::new(number(random), number(random)))
}

/// Gives handles to an anchor that has none; the numbers are of its points' kind.
type Handles = fn(&mut Anchor, Numbers, &mut Random);

pub static HANDLES: Group<Handles> = Group {
    name: "anchor",
    ways: &[
        ("straight", |_, _, _| {}),
        ("straight by -0 = 0", straight_by_zeros),
        ("curved", |a, number, random| {
            a.h_in = P::new(number(random), number(random));
            a.h_out = P::new(number(random), number(random));
        }),
        ("gently curved", |a, number, random| {
            a.h_in = beside(a.p, number, random);
            a.h_out = beside(a.p, number, random);
        }),
        ("one handle", one_handle),
        ("smooth", smooth),
        ("barely smooth", barely_smooth),
        ("handles near 1e-9", handles_near),
        ("mixed", mixed_handles),
    ],
};

fn straight_by_zeros(a: &mut Anchor, _: Numbers, random: &mut Random) {
    if random.one_in(2) {
        [a.p.x, a.h_in.x, a.h_out.x] = std::array::from_fn(|_| random.signed(0.0));
    } else {
        [a.p.y, a.h_in.y, a.h_out.y] = std::array::from_fn(|_| random.signed(0.0));
    }
}

fn beside(p: P, number: Numbers, random: &mut Random) -> P {
    p + P::new(number(random), number(random)) * (0.4 * random.unit())
}

fn one_handle(a: &mut Anchor, number: Numbers, random: &mut Random) {
    if random.one_in(2) {
        a.h_in = beside(a.p, number, random);
    } else {
        a.h_out = beside(a.p, number, random);
    }
}

fn smooth(a: &mut Anchor, number: Numbers, random: &mut Random) {
    let d = P::new(number(random), number(random));
    a.h_in = a.p - d * random.unit();
    a.h_out = a.p + d * random.unit();
}

/// Handles at an angle whose sine is near 1e-3, apart or on one side. At the origin no rounding
/// moves them.
fn barely_smooth(a: &mut Anchor, _: Numbers, random: &mut Random) {
    if random.one_in(2) {
        a.p = P::default();
    }
    let sin = near(1e-3, random);
    let side = random.signed(1.0);
    a.h_in = a.p + P::new(-1.0, 0.0) * (4.0 * random.unit());
    a.h_out = a.p + P::new(side * (1.0 - sin * sin).sqrt(), sin) * 2.0;
}

fn handles_near(a: &mut Anchor, _: Numbers, random: &mut Random) {
    if random.one_in(2) {
        a.p = P::new(random.signed(0.0), random.signed(0.0));
    }
    for handle in [&mut a.h_in, &mut a.h_out] {
        let d = near(1e-9, random);
        let d = random.signed(d);
        *handle = a.p
            + *random.pick(&[
                P::new(0.0, 0.0),
                P::new(d, 0.0),
                P::new(0.0, d),
                P::new(0.6 * d, 0.8 * d),
            ]);
    }
}

fn mixed_handles(a: &mut Anchor, number: Numbers, random: &mut Random) {
    let ways = &HANDLES.ways[..HANDLES.ways.len() - 1];
    random.pick(ways).1(a, number, random);
}
