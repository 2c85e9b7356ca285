//! `outline_root` against the processor's square root, bit by bit.

use crate::case::significant_bits;
use crate::family::Group;
use crate::ffi;
use crate::random::Random;
use crate::report::Tally;
use crate::values;

/// The bits of an argument, from its index among its pattern's.
type Pattern = fn(u64, &mut Random) -> u64;

static PATTERNS: Group<Pattern> = Group {
    name: "pattern",
    ways: &[
        ("any bits", |_, random| random.bits()),
        ("two binades", |_, random| one_to_four(random)),
        ("binade ends", |i, _| binade_end(i)),
        ("squares", |i, random| square(i, random)),
        ("ties", |i, random| tie(i, random)),
        ("subnormals", |_, random| {
            random.bits() >> (12 + random.below(52))
        }),
        ("edges", |_, random| values::edge(random).to_bits()),
        ("outside", |_, random| values::outside(random).to_bits()),
    ],
};

/// Of each pattern `cases`.
pub fn run(cases: u64, random: &mut Random) -> Tally {
    let mut tally = Tally::new("root", PATTERNS.families());
    for (name, pattern) in PATTERNS.ways {
        for i in 0..cases {
            let bits = pattern(i, random);
            let x = f64::from_bits(bits);
            let (ours, hardware) = (ffi::root(x), x.sqrt());
            if !same(ours, hardware) {
                tally.fail(significant_bits(bits), || {
                    let (ours, hardware) = (ours.to_bits(), hardware.to_bits());
                    format!(
                        "    root of {bits:#018x} ({x:e}) is {ours:#018x}, not {hardware:#018x}"
                    )
                });
            }
        }
        tally.count(cases, &[(PATTERNS.name, name)]);
    }
    tally
}

/// Every bit counts, save that the sign and payload of a NaN are not specified.
pub fn same(ours: f64, hardware: f64) -> bool {
    ours.to_bits() == hardware.to_bits() || ours.is_nan() && hardware.is_nan()
}

/// An even exponent and an odd one: all that the significand of a root depends on.
fn one_to_four(random: &mut Random) -> u64 {
    1.0f64.to_bits() + random.below(2 << 52)
}

/// All exponents, each with the significands next to its ends.
fn binade_end(i: u64) -> u64 {
    let (exponent, from_end) = (i % 2047, i / 2047);
    let start = exponent << 52;
    if from_end.is_multiple_of(2) {
        start + from_end / 2
    } else {
        start.wrapping_sub(from_end / 2 + 1) & (u64::MAX >> 1)
    }
}

/// A square that is an f64, or its neighbour below or above.
fn square(i: u64, random: &mut Random) -> u64 {
    let root = 1 + random.below(94_906_265); // whose square is the last one below 2^53
    neighbour((root * root) as f64, i, random)
}

/// The f64 nearest to the square of a number halfway between two f64, or its neighbour: the hardest
/// to round.
fn tie(i: u64, random: &mut Random) -> u64 {
    let halves = u128::from(1 << 53 | random.bits() >> 11 | 1);
    neighbour((halves * halves) as f64, i, random)
}

/// `x`, or the f64 below or above it, times a power of 4.
fn neighbour(x: f64, i: u64, random: &mut Random) -> u64 {
    let exponents = (2 * random.below(450)) << 52;
    let scaled = if random.one_in(2) {
        x.to_bits() + exponents
    } else {
        x.to_bits() - exponents
    };
    scaled + i % 3 - 1
}
