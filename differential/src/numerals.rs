//! Numbers that are hard to write.

use crate::family::Group;
use crate::random::Random;
use crate::refusal::LIMIT;
use crate::values::{near, outside, Numbers};

/// Document 01's, and the longest.
pub const SAMPLES: [(f64, &str); 6] = [
    (0.0625, "0.062"),
    (0.1875, "0.188"),
    (-0.0004, "0"),
    (-0.0, "0"),
    (LIMIT, "131072"),
    (-131_071.999, "-131071.999"),
];

/// Every number within the limit that lies halfway between two thousandths. It is an odd number of
/// half thousandths, of which 125 must divide it for an f64; so it is an odd number of sixteenths.
pub fn ties() -> impl Iterator<Item = f64> {
    let most = 16 * LIMIT as i64;
    let odd = (1 - most..most).step_by(2);
    odd.map(|sixteenths| sixteenths as f64 / 16.0)
}

pub static NUMERALS: Group<Numbers> = Group {
    name: "numbers",
    ways: &[
        ("near thousandths", |random| {
            near(thousandths(random), random)
        }),
        ("near halves of them", |random| {
            near(thousandths(random) + 0.0005, random)
        }),
        // Where rounding up carries through all digits.
        ("near powers of ten", |random| {
            let power = *random.pick(&[0.001, 0.01, 0.1, 1.0, 10.0, 100.0, 1e3, 1e4, 1e5]);
            let below = *random.pick(&[0.0, 0.0004, 0.0005, 0.0006, 0.001]);
            let x = near(power - below, random);
            random.signed(x)
        }),
        ("near 0", |random| 0.002 * random.signed_unit()),
        ("outside", outside),
    ],
};

/// The f64 nearest to a multiple of a thousandth.
fn thousandths(random: &mut Random) -> f64 {
    let most = (1000 * LIMIT as u64) >> random.below(27);
    let count = random.below(most);
    random.signed(count as f64 / 1000.0)
}
