//! What a call takes beside its cubic: a parameter, two of them, a number of steps, and room for the
//! result.

use crate::family::Group;
use crate::random::Random;
use crate::refusal::MOST_STEPS;
use crate::values::{edge, exponent};

pub static PARAMETER: Group<fn(&mut Random) -> f64> = Group {
    name: "t",
    ways: &[
        ("on the curve", Random::unit),
        ("its ends", end),
        ("beyond", |random| 3.0 * random.signed_unit()),
        ("far beyond", exponent),
        ("edges", edge),
    ],
};

/// 0, 1/2, 1 and their neighbours.
fn end(random: &mut Random) -> f64 {
    let t = *random.pick(&[0.0, -0.0, 0.5, 1.0f64]);
    *random.pick(&[t, t.next_up(), t.next_down()])
}

type Span = fn(&mut Random) -> [f64; 2];

pub static SPAN: Group<Span> = Group {
    name: "from, to",
    ways: &[
        ("rising", rising),
        ("falling", |random| {
            let [from, to] = rising(random);
            [to, from]
        }),
        ("equal", |random| [random.unit(); 2]),
        ("ends", |random| [end(random), end(random)]),
        ("to near 1e-9", |random| {
            let to = *random.pick(&[1e-9, 1e-9f64.next_up(), 1e-9f64.next_down(), 2e-9]);
            [to * random.unit(), to]
        }),
        ("beyond", |random| {
            [3.0 * random.signed_unit(), 3.0 * random.signed_unit()]
        }),
        ("far beyond", |random| [exponent(random), exponent(random)]),
        ("edges", |random| [edge(random), edge(random)]),
    ],
};

fn rising(random: &mut Random) -> [f64; 2] {
    let (a, b) = (random.unit(), random.unit());
    if a < b {
        [a, b]
    } else {
        [b, a]
    }
}

pub static STEPS: Group<fn(&mut Random) -> usize> = Group {
    name: "n",
    ways: &[
        ("0", |_| 0),
        ("1", |_| 1),
        ("2 to 16", |random| 2 + random.below(15) as usize),
        ("17 to 255", |random| 17 + random.below(239) as usize),
        ("256", |_| MOST_STEPS),
        ("257", |_| MOST_STEPS + 1),
        ("above 257", |random| {
            (random.whole() as usize).max(MOST_STEPS + 2)
        }),
    ],
};

/// The length of a buffer, from what the result needs.
type Lending = fn(usize, &mut Random) -> usize;

pub static ROOM: Group<Lending> = Group {
    name: "room",
    ways: &[
        ("none", |_, _| 0),
        ("some", |need, random| {
            random.below(need.max(1) as u64) as usize
        }),
        ("one short", |need, _| need.saturating_sub(1)),
        EXACT,
        ONE_OVER,
        MORE,
    ],
};

/// Those of them that are long enough.
pub static ENOUGH: Group<Lending> = Group {
    name: "room",
    ways: &[EXACT, ONE_OVER, MORE],
};

const EXACT: (&str, Lending) = ("exact", |need, _| need);
const ONE_OVER: (&str, Lending) = ("one over", |need, _| need + 1);
const MORE: (&str, Lending) = ("more", |need, random| need + 2 + random.below(16) as usize);
