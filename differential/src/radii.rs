//! Radii, by the sides that they are to fit.

use crate::family::{Family, Group};
use crate::original::bezier::BezPath;
use crate::random::Random;
use crate::refusal::LIMIT;
use crate::values::{edge, exponent, near};

/// One for each anchor, within the limit.
pub fn draw(path: &BezPath, random: &mut Random, drawn: &mut Vec<Family>) -> Vec<f64> {
    let radius = RADII.draw(random, drawn);
    let radii = sides(path).map(|side| radius(side, random));
    radii.map(|r| r.clamp(-LIMIT, LIMIT)).collect()
}

/// For each anchor, how far the one after it is.
fn sides(path: &BezPath) -> impl Iterator<Item = f64> + '_ {
    path.iter().flat_map(|sp| {
        let next = sp.anchors.iter().cycle().skip(1);
        let pairs = sp.anchors.iter().zip(next);
        pairs.map(|(a, b)| a.p.dist(b.p))
    })
}

/// From the length of a side.
type Radius = fn(f64, &mut Random) -> f64;

pub static RADII: Group<Radius> = Group {
    name: "radii",
    ways: &[
        ("0", |_, random| random.signed(0.0)),
        ("small", |side, random| 0.01 * side * random.unit()),
        ("fitting", |side, random| 0.5 * side * random.unit()),
        ("about fitting", |side, random| {
            side * random.pick(&[0.25, 0.5, 1.0])
        }),
        ("huge", |_, random| LIMIT * random.unit()),
        ("the limit", |_, _| LIMIT),
        ("negative", |side, random| -side * random.unit()),
        ("near 1e-9", |_, random| near(1e-9, random)),
        // Steps of the numbers below the limit.
        ("in steps", |_, random| {
            (60 + random.below(240)) as f64 * (LIMIT - LIMIT.next_down())
        }),
        ("edges", |_, random| edge(random)),
        ("exponents", |_, random| exponent(random)),
        ("some", |side, random| {
            if random.one_in(3) {
                side * random.unit()
            } else {
                0.0
            }
        }),
        ("mixed", mixed_radius),
    ],
};

fn mixed_radius(side: f64, random: &mut Random) -> f64 {
    let ways = &RADII.ways[..RADII.ways.len() - 1];
    random.pick(ways).1(side, random)
}
