//! The calls on a vector and on a cubic.

use crate::call::{
    Call, ACCEPTS, REFUSES_5, REFUSES_5_SHORT, REFUSES_8, REFUSES_9, REFUSES_9_SHORT,
};
use crate::case::Case;
use crate::compare::Answered;
use crate::curves::{self, flat, is_straight, points, SHAPES};
use crate::family::Family;
use crate::ffi;
use crate::original::bezier;
use crate::original::geom::P;
use crate::parameters::{PARAMETER, ROOM, SPAN, STEPS};
use crate::random::Random;
use crate::refusal::MOST_STEPS;
use crate::values::NUMBERS;

pub const CALLS: [Call; 5] = [LEN, CUBIC_AT, SAMPLE, SPLIT_CUBIC, SUBSEGMENT];

const LEN: Call = Call {
    name: "len",
    families: || NUMBERS.families(),
    outcomes: &[ACCEPTS, REFUSES_5, REFUSES_9],
    draw: |random| {
        let mut case = Case::default();
        let number = NUMBERS.draw(random, &mut case.families);
        case.numbers = vec![number(random), number(random)];
        case.lend_exactly(1);
        case
    },
    original: |case| Answered {
        count: 0,
        lists: vec![vec![P::new(case.numbers[0], case.numbers[1]).len()]],
    },
    library: |case, lents| {
        let [length] = lents.results[0].array();
        let (x, y) = (case.numbers[0], case.numbers[1]);
        ffi::len(x, y, length, lents.answer.answer())
    },
};

const CUBIC_AT: Call = Call {
    name: "cubic_at",
    families: || [cubic_families(), PARAMETER.families()].concat(),
    outcomes: &[ACCEPTS, REFUSES_5, REFUSES_9],
    draw: |random| {
        let mut case = draw_cubic(random);
        draw_parameter(&mut case, random);
        case.lend_exactly(2);
        case
    },
    original: |case| Answered {
        count: 1,
        lists: vec![flat(&[bezier::cubic_at(&cubic(case), case.numbers[8])])],
    },
    library: |case, lents| {
        let point = lents.results[0].array();
        let answer = lents.answer.answer();
        ffi::cubic_at(lents.given[0].array(), case.numbers[8], point, answer)
    },
};

/// Document 01 refuses too large an n on a straight cubic too, which takes one step whatever n is.
const STRAIGHT_AND_TOO_LARGE: Family = ("n", "too large, straight");

const SAMPLE: Call = Call {
    name: "sample",
    families: || {
        let n = [STEPS.families(), vec![STRAIGHT_AND_TOO_LARGE]].concat();
        [cubic_families(), n, ROOM.families()].concat()
    },
    outcomes: &[
        ACCEPTS,
        REFUSES_5,
        REFUSES_5_SHORT,
        REFUSES_9,
        REFUSES_9_SHORT,
        REFUSES_8,
    ],
    draw: |random| {
        let mut case = draw_cubic(random);
        case.steps = STEPS.draw(random, &mut case.families)(random);
        let straight = is_straight(&cubic(&case));
        if straight && case.steps > MOST_STEPS {
            case.families.push(STRAIGHT_AND_TOO_LARGE);
        }
        let steps = if straight { 1 } else { case.steps };
        case.lend(2 * (steps.clamp(1, MOST_STEPS) + 1), random);
        case
    },
    original: |case| {
        let points = bezier::sample(&cubic(case), case.steps);
        Answered {
            count: points.len() as u64,
            lists: vec![flat(&points)],
        }
    },
    library: |case, lents| {
        let out = lents.results[0].numbers();
        let answer = lents.answer.answer();
        ffi::sample(lents.given[0].array(), case.steps, out, answer)
    },
};

const SPLIT_CUBIC: Call = Call {
    name: "split_cubic",
    families: || [cubic_families(), PARAMETER.families(), ROOM.families()].concat(),
    outcomes: SAMPLE.outcomes,
    draw: |random| {
        let mut case = draw_cubic(random);
        draw_parameter(&mut case, random);
        case.lend(8, random);
        case.lend(8, random);
        case
    },
    original: |case| {
        let (before, after) = bezier::split_cubic(&cubic(case), case.numbers[8]);
        Answered {
            count: 4,
            lists: vec![flat(&before), flat(&after)],
        }
    },
    library: |case, lents| {
        let [before, after] = &mut lents.results[..] else {
            unreachable!("two buffers are lent")
        };
        ffi::split_cubic(
            lents.given[0].array(),
            case.numbers[8],
            before.numbers(),
            after.numbers(),
            lents.answer.answer(),
        )
    },
};

const SUBSEGMENT: Call = Call {
    name: "subsegment",
    families: || [cubic_families(), SPAN.families(), ROOM.families()].concat(),
    // Never 9: both splits are at parameters from 0 to 1, where `lerp` passes an end by half a unit
    // in the last place at most, and at the limit that rounds back to it.
    outcomes: &[ACCEPTS, REFUSES_5, REFUSES_5_SHORT, REFUSES_8],
    draw: |random| {
        let mut case = draw_cubic(random);
        let span = SPAN.draw(random, &mut case.families)(random);
        case.numbers.extend(span);
        case.lend(8, random);
        case
    },
    original: |case| {
        let part = bezier::subsegment(&cubic(case), case.numbers[8], case.numbers[9]);
        Answered {
            count: 4,
            lists: vec![flat(&part)],
        }
    },
    library: |case, lents| {
        let (from, to) = (case.numbers[8], case.numbers[9]);
        let out = lents.results[0].numbers();
        let answer = lents.answer.answer();
        ffi::subsegment(lents.given[0].array(), from, to, out, answer)
    },
};

fn cubic_families() -> Vec<Family> {
    [NUMBERS.families(), SHAPES.families()].concat()
}

/// A case whose first eight numbers are a cubic.
fn draw_cubic(random: &mut Random) -> Case {
    let mut case = Case::default();
    case.numbers = curves::draw(random, &mut case.families).to_vec();
    case
}

fn draw_parameter(case: &mut Case, random: &mut Random) {
    let t = PARAMETER.draw(random, &mut case.families)(random);
    case.numbers.push(t);
}

fn cubic(case: &Case) -> [P; 4] {
    points(&case.numbers)
}
