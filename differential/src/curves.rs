//! Cubics: eight numbers of one kind, then given a shape.

use crate::family::{Family, Group};
use crate::original::geom::P;
use crate::random::Random;
use crate::refusal::LIMIT;
use crate::values::NUMBERS;

/// Control points in the library's order, x before y.
pub type Flat = [f64; 8];

type Shape = fn(&mut Flat, &mut Random);

pub static SHAPES: Group<Shape> = Group {
    name: "shape",
    ways: &[
        ("free", |_, _| {}),
        ("straight", straight),
        ("straight by -0 = 0", straight_by_zeros),
        ("almost straight", almost_straight),
        ("one handle", one_handle),
        ("collinear", collinear),
        ("coincident", coincident),
        ("at the limit", at_limit),
    ],
};

pub fn draw(random: &mut Random, drawn: &mut Vec<Family>) -> Flat {
    let number = NUMBERS.draw(random, drawn);
    let mut c = std::array::from_fn(|_| number(random));
    SHAPES.draw(random, drawn)(&mut c, random);
    c
}

/// Both handles on their ends.
fn straight(c: &mut Flat, _: &mut Random) {
    c.copy_within(0..2, 2);
    c.copy_within(6..8, 4);
}

/// Equal as numbers, not in their bits.
fn straight_by_zeros(c: &mut Flat, random: &mut Random) {
    straight(c, random);
    c[0] = random.signed(0.0);
    c[2] = -c[0];
    c[5] = random.signed(0.0);
    c[7] = -c[5];
}

/// One number off, by as little as can be.
fn almost_straight(c: &mut Flat, random: &mut Random) {
    straight(c, random);
    let k = 2 + random.below(4) as usize;
    c[k] = c[k].next_up();
}

fn one_handle(c: &mut Flat, random: &mut Random) {
    if random.one_in(2) {
        c.copy_within(0..2, 2);
    } else {
        c.copy_within(6..8, 4);
    }
}

fn collinear(c: &mut Flat, random: &mut Random) {
    for k in [2, 4] {
        let t = random.unit();
        for axis in [0, 1] {
            c[k + axis] = c[axis] + (c[6 + axis] - c[axis]) * t;
        }
    }
}

fn coincident(c: &mut Flat, _: &mut Random) {
    for k in [2, 4, 6] {
        c.copy_within(0..2, k);
    }
}

/// Within the limit by an ulp or by nothing, on one side of each axis: rounding alone can break the
/// limit on the way.
fn at_limit(c: &mut Flat, random: &mut Random) {
    for axis in [0, 1] {
        let side = random.signed(LIMIT);
        for k in [0, 2, 4, 6] {
            c[k + axis] = f64::from_bits(side.to_bits() - random.below(2));
        }
    }
}

/// The cubic of the first eight numbers, for the original.
pub fn points(numbers: &[f64]) -> [P; 4] {
    std::array::from_fn(|k| P::new(numbers[2 * k], numbers[2 * k + 1]))
}

pub fn flat(points: &[P]) -> Vec<f64> {
    points.iter().flat_map(|p| [p.x, p.y]).collect()
}

/// Whether both handles stand on their ends.
pub fn is_straight(c: &[P; 4]) -> bool {
    c[1] == c[0] && c[2] == c[3]
}
