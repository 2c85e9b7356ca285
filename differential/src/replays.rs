//! Lists of encoded calls, run by one call: the cache built, then each edit in turn.

use crate::caches::{Cache, TWELVE};
use crate::compare::{mismatch, Expected};
use crate::drawings::{self, Drawing};
use crate::family::{Family, Group};
use crate::ffi;
use crate::guard::{Entry, Lent};
use crate::kept::{first_place, Edit, Kept};
use crate::lents::Lents;
use crate::paths::SIX;
use crate::random::Random;
use crate::refusal::{ACCEPTED, ARGUMENTS, LISTS, MOST_ANCHORS, RESULT};
use crate::report::Tally;
use crate::sessions::{draw_edit, leave};
use crate::values::nan;

/// Words that tell a call, and its answer.
const CODE: usize = 3;
const ANSWER: usize = 5;

const OUTCOMES: [Family; 5] = [
    ("outcome", "accepted"),
    ("outcome", "refused 7"),
    ("outcome", "refused 5"),
    ("outcome", "refused 5 at the count"),
    ("outcome", "refused 9"),
];

/// What an accepted list has.
const LISTS_OF: [Family; 4] = [
    ("list", "of no call"),
    ("list", "with a refused call"),
    ("list", "with an accepted call"),
    ("list", "that lengthens the drawing"),
];

pub fn run(cases: u64, random: &mut Random) -> Tally {
    let families = [
        OUTCOMES.to_vec(),
        LISTS_OF.to_vec(),
        LISTS_GIVEN.families(),
        drawings::families(),
    ];
    let mut tally = Tally::new("replay", families.concat());
    for _ in 0..cases {
        compare(Replay::draw(random), &mut tally, random);
    }
    tally
}

/// One generated call.
struct Replay {
    kept: Kept,
    codes: Vec<u32>,
    values: Vec<f64>,
    /// Room for answers, in words.
    answers: usize,
}

type Damage = fn(&mut Replay, &mut Random);

static LISTS_GIVEN: Group<Damage> = Group {
    name: "calls",
    ways: &[
        ("exact", |_, _| {}),
        ("longer", |replay, random| {
            let more = random.below(9) as usize;
            replay.values.extend((0..more).map(|_| nan(random)));
            replay.answers += random.below(9) as usize;
        }),
        ("no whole call", |replay, random| {
            let more = 1 + random.below(2) as usize;
            replay.codes.extend((0..more).map(|_| 0));
        }),
        ("a number short", |replay, _| {
            replay.values.pop();
        }),
        ("an answer short", |replay, _| {
            replay.answers = replay.answers.saturating_sub(1)
        }),
        ("another kind of call", |replay, random| {
            let calls = (replay.codes.len() / CODE) as u64;
            if calls > 0 {
                let at = CODE * random.below(calls) as usize;
                replay.codes[at] = 3 + (random.bits() >> 33 >> random.below(31)) as u32;
            }
        }),
    ],
};

impl Replay {
    fn draw(random: &mut Random) -> Replay {
        let mut drawing = Drawing::draw(random);
        let places = drawing.path.anchors().min(MOST_ANCHORS as u64 + 1) as usize;
        // Room for some splits.
        let more = [0, 1, 5][random.below(3) as usize];
        let exact = |random: &mut Random| if random.one_in(24) { 1 } else { 0 };
        if drawing.is_readable() {
            let numbers = &mut drawing.path.numbers;
            numbers.resize_with(SIX * (places + more), || nan(random));
            drawing.radii.resize_with(places + more, || nan(random));
        }
        let numbers = (TWELVE * (places + more)).saturating_sub(exact(random));
        let flags = (places + more).saturating_sub(exact(random));
        let calls = match random.below(4) {
            0 => random.below(3),
            _ if places > 40 => random.below(5),
            _ => random.below(30),
        };
        let edits: Vec<Edit> = (0..calls)
            .map(|_| narrow(draw_edit(&drawing, random, &mut Vec::new())))
            .collect();
        let mut replay = Replay {
            codes: edits.iter().flat_map(code).collect(),
            values: edits.iter().flat_map(|edit| value(edit, random)).collect(),
            answers: ANSWER * edits.len(),
            kept: Kept {
                drawing,
                numbers: (0..numbers).map(|_| nan(random)).collect(),
                flags: (0..flags).map(|_| random.bits() as u32).collect(),
            },
        };
        let mut families = Vec::new();
        if random.one_in(4) {
            LISTS_GIVEN.draw(random, &mut families)(&mut replay, random);
        } else {
            families.push((LISTS_GIVEN.name, LISTS_GIVEN.ways[0].0));
        }
        replay.kept.drawing.families.extend(families);
        replay
    }

    /// Call `j`, as document docs/EDITS.md has it in words and numbers.
    fn edit(&self, j: usize) -> Option<Edit> {
        let [which, s, i] = self.codes[CODE * j..][..CODE] else {
            unreachable!("three words")
        };
        let (s, i) = (s as usize, i as usize);
        let given = &self.values[SIX * j..][..SIX];
        let mut new = [0.0; SIX];
        new.copy_from_slice(given);
        match which {
            0 => Some(Edit::Move { s, i, new }),
            1 => Some(Edit::SetRadius {
                s,
                i,
                radius: given[0],
            }),
            2 => Some(Edit::Split {
                s,
                a: i,
                t: given[0],
            }),
            _ => None,
        }
    }
}

/// With references that fit words of 32 bits.
fn narrow(edit: Edit) -> Edit {
    let short = |x: usize| x as u32 as usize;
    match edit {
        Edit::Move { s, i, new } => Edit::Move {
            s: short(s),
            i: short(i),
            new,
        },
        Edit::SetRadius { s, i, radius } => Edit::SetRadius {
            s: short(s),
            i: short(i),
            radius,
        },
        Edit::Split { s, a, t } => Edit::Split {
            s: short(s),
            a: short(a),
            t,
        },
    }
}

fn code(edit: &Edit) -> [u32; CODE] {
    match *edit {
        Edit::Move { s, i, .. } => [0, s as u32, i as u32],
        Edit::SetRadius { s, i, .. } => [1, s as u32, i as u32],
        Edit::Split { s, a, .. } => [2, s as u32, a as u32],
    }
}

/// Five numbers of a radius or a parameter are not read.
fn value(edit: &Edit, random: &mut Random) -> [f64; SIX] {
    let mut value = [0; SIX].map(|_| nan(random));
    match *edit {
        Edit::Move { new, .. } => value = new,
        Edit::SetRadius { radius: x, .. } | Edit::Split { t: x, .. } => value[0] = x,
    }
    value
}

fn compare(mut replay: Replay, tally: &mut Tally, random: &mut Random) {
    let before = replay.kept.copy();
    let expected = expected(&mut replay);
    tally.count(1, &replay.kept.drawing.families);
    let mut lents = Lents {
        given: vec![
            Lent::holding_words(&replay.codes, random),
            Lent::holding(&replay.values, random),
        ],
        results: vec![
            Lent::holding_words(&before.drawing.path.shapes, random),
            Lent::holding(&before.drawing.path.numbers, random),
            Lent::holding(&before.drawing.radii, random),
            Lent::holding(&before.numbers, random),
            Lent::holding_words(&before.flags, random),
            Lent::foreign(Entry::Word, replay.answers, random),
        ],
        answer: Lent::for_answer(random),
    };
    let ([codes, values], [shapes, anchors, radii, numbers, flags, answers]) =
        (&mut lents.given[..], &mut lents.results[..])
    else {
        unreachable!("two lists are given, and six written")
    };
    let refusal = ffi::replay(
        shapes.words(),
        anchors.numbers(),
        radii.numbers(),
        before.drawing.kind,
        numbers.numbers(),
        flags.words(),
        codes.words(),
        values.numbers(),
        answers.words(),
        lents.answer.answer(),
    );
    if let Some(wrong) = mismatch(&expected, refusal, &lents) {
        tally.fail(before.size() + replay.codes.len() as u64, || {
            let codes = &replay.codes;
            format!("{before}\n    codes {codes:?}\n    {wrong}")
        });
    }
}

/// In document 01's order: 7, 5, 9; else the original's cache, and each edit in turn.
fn expected(replay: &mut Replay) -> Expected {
    let (refusal, place) = refused(replay);
    let outcome = match refusal {
        ACCEPTED => 0,
        LISTS => 1,
        ARGUMENTS if place as u64 == replay.kept.drawing.path.anchors() => 3,
        ARGUMENTS => 2,
        _ => 4,
    };
    replay.kept.drawing.families.push(OUTCOMES[outcome]);
    if refusal != ACCEPTED {
        return Expected::refused_at(place, refusal);
    }
    let fresh = Cache::of(&replay.kept.drawing);
    let mut kept = std::mem::take(&mut replay.kept);
    kept.numbers[..fresh.numbers.len()].copy_from_slice(&fresh.numbers);
    kept.flags[..fresh.flags.len()].copy_from_slice(&fresh.flags);
    let calls = replay.codes.len() / CODE;
    let (mut answers, mut seen) = (Vec::new(), [calls == 0, false, false, false]);
    for j in 0..calls {
        let edit = replay.edit(j).expect("one of the three");
        let told = kept.expected(&edit);
        leave(&mut kept, &told);
        if told.refusal == ACCEPTED {
            let s = edit.subpath();
            let word = kept.drawing.path.shapes[s];
            let [_, count, _, recut] = told.answer;
            let first = first_place(&kept.drawing.path, s) as u64;
            answers.extend([0, recut, count, first, word.into()]);
            seen[3] |= matches!(edit, Edit::Split { .. });
            seen[2] = true;
        } else {
            answers.extend([told.refusal.into(), told.answer[0], 0, 0, 0]);
            seen[1] = true;
        }
    }
    let bits = |numbers: &[f64]| numbers.iter().map(|x| x.to_bits()).collect();
    let words = |words: &[u32]| words.iter().copied().map(u64::from).collect();
    let written = vec![
        words(&kept.drawing.path.shapes),
        bits(&kept.drawing.path.numbers),
        bits(&kept.drawing.radii),
        bits(&kept.numbers),
        words(&kept.flags),
        answers,
    ];
    replay.kept = kept;
    let families = &mut replay.kept.drawing.families;
    families.extend((0..4).filter(|&i| seen[i]).map(|i| LISTS_OF[i]));
    Expected {
        refusal: ACCEPTED,
        answer: [0, calls as u64, 0, 0],
        written,
    }
}

/// The refusal and its place, if any.
fn refused(replay: &Replay) -> (u32, usize) {
    let (kept, calls) = (&replay.kept, replay.codes.len() / CODE);
    let fit = replay.codes.len() % CODE == 0
        && SIX * calls <= replay.values.len()
        && ANSWER * calls <= replay.answers;
    if !fit || !kept.is_readable() {
        return (LISTS, 0);
    }
    let known = (0..calls).all(|j| replay.edit(j).is_some());
    let count = kept.drawing.path.anchors() as usize;
    if let Some(place) = kept.drawing.first_wrong().or((!known).then_some(count)) {
        return (ARGUMENTS, place);
    }
    match Cache::of(&kept.drawing).first_outside() {
        Some(place) => (RESULT, place),
        None => (ACCEPTED, 0),
    }
}
