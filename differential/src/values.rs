//! Numbers: edge values, and generators for every kind of f64.

use crate::family::Group;
use crate::random::Random;
use crate::refusal::LIMIT;

pub type Numbers = fn(&mut Random) -> f64;

pub static NUMBERS: Group<Numbers> = Group {
    name: "numbers",
    ways: &[
        ("edges", edge),
        ("uniform", uniform),
        ("integers", integer),
        ("exponents", exponent),
        ("bits", bits),
        ("mixed", mixed),
    ],
};

/// Where something changes: the ends of the subnormals, the original's tolerances, the limit.
const MARKS: [f64; 8] = [
    0.0,
    f64::from_bits(0x000f_ffff_ffff_ffff),
    f64::MIN_POSITIVE,
    1e-12,
    1e-9,
    0.5,
    1.0,
    LIMIT,
];

/// A mark or a neighbour of one, so that a test is met on both sides and on the spot.
pub fn edge(random: &mut Random) -> f64 {
    let mark = *random.pick(&MARKS);
    let near = match random.below(4) {
        0 => mark.next_down(),
        1 => mark.next_up(),
        _ => mark,
    };
    random.signed(near)
}

/// A number that a test against `mark` may go either way for: mostly itself or a neighbour.
pub fn near(mark: f64, random: &mut Random) -> f64 {
    match random.below(8) {
        0 => mark.next_down(),
        1 => mark.next_up(),
        2 => f64::from_bits(mark.to_bits() + 8 - random.below(17)),
        3 => mark * (1.0 + 1e-6 * random.signed_unit()),
        4 => mark * (0.5 + random.unit()),
        _ => mark,
    }
}

pub fn uniform(random: &mut Random) -> f64 {
    LIMIT * random.signed_unit()
}

/// Small, so that sums and products come out exactly, and zero often.
pub fn integer(random: &mut Random) -> f64 {
    random.below(41) as f64 - 20.0
}

/// Any exponent that is within the limit; one near 1 in half of the cases.
pub fn exponent(random: &mut Random) -> f64 {
    const ABOVE: u64 = 1023 + 17; // the limit's own exponent, with which no other number is within
    let exponent = if random.one_in(2) {
        random.below(ABOVE)
    } else {
        ABOVE - 1 - random.below(40)
    };
    let significand = random.bits() >> 12;
    random.signed(f64::from_bits(exponent << 52 | significand))
}

fn bits(random: &mut Random) -> f64 {
    f64::from_bits(random.bits())
}

fn mixed(random: &mut Random) -> f64 {
    let ways: [Numbers; 4] = [edge, uniform, integer, exponent];
    random.pick(&ways)(random)
}

/// A number that breaks the limit.
pub fn outside(random: &mut Random) -> f64 {
    let x = match random.below(6) {
        0 => LIMIT.next_up(),
        1 => LIMIT * (1.0 + random.unit()).next_up(),
        2 => f64::INFINITY,
        3 => f64::MAX,
        _ => nan(random),
    };
    random.signed(x)
}

/// A NaN of any payload, quiet or signalling.
pub fn nan(random: &mut Random) -> f64 {
    let payload = (random.bits() >> 12).max(1);
    f64::from_bits(f64::INFINITY.to_bits() | payload)
}
