//! The edits of a drawing and its cut cache: one by one on any cache, in lists of calls from a fresh
//! one, and in one long list.

use crate::caches::{Cache, CUT, TWELVE};
use crate::compare::{mismatch, Expected};
use crate::damage::shorten;
use crate::drawings::{self, Drawing};
use crate::family::{Family, Group};
use crate::ffi::{self, Answer};
use crate::guard::{self, Lent};
use crate::kept::{first_place, Edit, Kept};
use crate::lents::Lents;
use crate::original::bezier;
use crate::parameters::PARAMETER;
use crate::paths::{Path, CLOSED, SIX};
use crate::random::Random;
use crate::refusal::{
    ACCEPTED, ARGUMENTS, CAPACITY, LISTS, MOST_ANCHORS, OUTPUT, REFERENCE, RESULT,
};
use crate::report::Tally;
use crate::values::{outside, uniform};

const OUTCOMES: [Family; 17] = [
    ("move", "accepted"),
    ("move", "refused 7"),
    ("move", "refused 5"),
    ("move", "refused 6"),
    ("move", "refused 9"),
    ("set radius", "accepted"),
    ("set radius", "refused 7"),
    ("set radius", "refused 5"),
    ("set radius", "refused 6"),
    ("set radius", "refused 9"),
    ("split", "accepted"),
    ("split", "refused 7"),
    ("split", "refused 5"),
    ("split", "refused 6"),
    ("split", "refused 9"),
    ("split", "refused 10"),
    ("split", "refused 8"),
];

fn outcome(edit: &Edit, refusal: u32) -> Family {
    let of = match edit {
        Edit::Move { .. } => 0,
        Edit::SetRadius { .. } => 5,
        Edit::Split { .. } => 10,
    };
    let refusals = [
        ACCEPTED, LISTS, ARGUMENTS, REFERENCE, RESULT, CAPACITY, OUTPUT,
    ];
    let at = refusals.iter().position(|&known| known == refusal);
    OUTCOMES[of + at.expect("a refusal that an edit can give")]
}

/// What an accepted edit recuts.
const RECUT: [Family; 5] = [
    ("recut", "a closed subpath, whole"),
    ("recut", "round the end"),
    ("recut", "a row of a closed subpath"),
    ("recut", "an open subpath, whole"),
    ("recut", "a row of an open subpath"),
];

fn recut(edit: &Edit, made: &Path) -> Family {
    let near = edit.near(made);
    let word = made.shapes[edit.subpath()];
    let whole = near.len() == (word & !CLOSED) as usize;
    let row = near.windows(2).all(|two| two[0] + 1 == two[1]);
    RECUT[match (word & CLOSED != 0, whole, row) {
        (true, true, _) => 0,
        (true, false, false) => 1,
        (true, false, true) => 2,
        (false, true, _) => 3,
        (false, false, _) => 4,
    }]
}

/// Where an edit is, in a path whose words may be damaged.
static REFERENCES: Group<fn(&Path, &mut Random) -> (usize, usize)> = Group {
    name: "reference",
    ways: &[
        ("an anchor", an_anchor),
        ("a first or last one", |path, random| {
            let (s, _) = an_anchor(path, random);
            let n = path.shapes.get(s).map_or(0, |word| word & !CLOSED) as usize;
            (s, random.below(2) as usize * n.saturating_sub(1))
        }),
        ("about", |path, random| {
            let s = random.below(path.shapes.len() as u64 + 1) as usize;
            (s, random.below(9) as usize)
        }),
        ("far off", |_, random| {
            (random.whole() as usize, random.whole() as usize)
        }),
    ],
};

fn an_anchor(path: &Path, random: &mut Random) -> (usize, usize) {
    let with_anchors = |&s: &usize| path.shapes[s] & !CLOSED != 0;
    let all: Vec<usize> = (0..path.shapes.len()).filter(with_anchors).collect();
    if all.is_empty() {
        return (0, 0);
    }
    let s = *random.pick(&all);
    (s, random.below((path.shapes[s] & !CLOSED).into()) as usize)
}

/// Most references of a list of calls are good.
fn reference(path: &Path, random: &mut Random, drawn: &mut Vec<Family>) -> (usize, usize) {
    if random.one_in(4) {
        return REFERENCES.draw(random, drawn)(path, random);
    }
    drawn.push((REFERENCES.name, REFERENCES.ways[0].0));
    an_anchor(path, random)
}

pub fn draw_edit(drawing: &Drawing, random: &mut Random, drawn: &mut Vec<Family>) -> Edit {
    let (s, i) = reference(&drawing.path, random, drawn);
    let used = SIX as u64 * drawing.path.anchors().min(MOST_ANCHORS as u64);
    let numbers = &drawing.path.numbers;
    let numbers = &numbers[..numbers.len().min(used as usize)];
    // Numbers like those that there are, so that cuts stay possible, and some of any kind.
    let number = |random: &mut Random| match random.below(32) {
        0 => outside(random),
        1 => uniform(random),
        _ if numbers.is_empty() => uniform(random),
        like => random.pick(numbers) * if like < 16 { 1.0 } else { 0.5 + random.unit() },
    };
    match random.below(3) {
        0 => {
            let mut new = [0; SIX].map(|_| number(random));
            if random.one_in(2) {
                new = [new[0], new[1], new[0], new[1], new[0], new[1]];
            }
            Edit::Move { s, i, new }
        }
        1 => {
            let radius = match random.below(8) {
                0 => 0.0,
                1..4 => 10.0 * random.unit(),
                _ => number(random),
            };
            Edit::SetRadius { s, i, radius }
        }
        _ => {
            let t = match random.below(16) {
                0 => outside(random),
                1..6 => PARAMETER.draw(random, &mut Vec::new())(random),
                _ => random.unit(),
            };
            Edit::Split { s, a: i, t }
        }
    }
}

const CACHES: [Family; 2] = [("cache", "as built"), ("cache", "foreign")];

/// Single edits, on any lists.
pub fn edits(cases: u64, random: &mut Random) -> Tally {
    let families = [
        OUTCOMES.to_vec(),
        RECUT.to_vec(),
        CACHES.to_vec(),
        REFERENCES.families(),
        drawings::families(),
    ];
    let mut tally = Tally::new("edits of a cache", families.concat());
    for _ in 0..cases {
        let (kept, edit) = draw(random);
        let expected = kept.expected(&edit);
        compare(&kept, &edit, &expected, &mut tally, random);
    }
    tally
}

/// A drawing, a cache that is its own or of any bits, and an edit of them.
fn draw(random: &mut Random) -> (Kept, Edit) {
    let mut drawing = Drawing::draw(random);
    let mut families = Vec::new();
    let mut edit = draw_edit(&drawing, random, &mut families);
    drawing.families.extend(families);
    // Back to how it was drawn, so that whatever the original makes of that is met.
    if drawing.is_readable() && random.one_in(2) {
        set_back(&mut drawing, &mut edit, random);
    }
    let places = drawing.path.anchors().min(MOST_ANCHORS as u64 + 1) as usize;
    let whole = drawing.is_readable() && drawing.first_outside().is_none() && drawing.kind < 3;
    let built = whole && random.one_in(2);
    drawing.families.push(CACHES[usize::from(!built)]);
    let (mut numbers, mut flags) = if built {
        let cache = Cache::of(&drawing);
        (cache.numbers, cache.flags)
    } else {
        let numbers = (0..TWELVE * places).map(|_| foreign(random)).collect();
        let flags = (0..places).map(|_| random.bits() as u32).collect();
        (numbers, flags)
    };
    // One place more, which a split needs, or less or more than that.
    let more = |width: usize, random: &mut Random| match random.below(16) {
        0 => 0,
        1 => width - 1,
        2..8 => width,
        _ => width + random.below(20) as usize,
    };
    for (list, width) in [
        (&mut drawing.path.numbers, SIX),
        (&mut drawing.radii, 1),
        (&mut numbers, TWELVE),
    ] {
        for _ in 0..more(width, random) {
            list.push(foreign(random));
        }
    }
    for _ in 0..more(1, random) {
        flags.push(random.bits() as u32);
    }
    if random.one_in(16) {
        shorten(&mut numbers, random);
    }
    if random.one_in(16) {
        shorten(&mut flags, random);
    }
    let kept = Kept {
        drawing,
        numbers,
        flags,
    };
    (kept, edit)
}

/// Has the edit give an anchor or a radius what it has, and puts something else in its place.
fn set_back(drawing: &mut Drawing, edit: &mut Edit, random: &mut Random) {
    let there = |s: &usize, i: &usize, path: &Path| {
        let word = path.shapes.get(*s)?;
        (*i < (word & !CLOSED) as usize).then(|| first_place(path, *s) + i)
    };
    match edit {
        Edit::Move { s, i, new } => {
            if let Some(k) = there(s, i, &drawing.path) {
                let six = &mut drawing.path.numbers[SIX * k..][..SIX];
                new.copy_from_slice(six);
                six.fill_with(|| uniform(random));
            }
        }
        Edit::SetRadius { s, i, radius } => {
            if let Some(k) = there(s, i, &drawing.path) {
                *radius = drawing.radii[k];
                drawing.radii[k] = 0.0;
            }
        }
        Edit::Split { .. } => {}
    }
}

fn foreign(random: &mut Random) -> f64 {
    f64::from_bits(guard::foreign(random))
}

fn compare(kept: &Kept, edit: &Edit, expected: &Expected, tally: &mut Tally, random: &mut Random) {
    let mut families = kept.drawing.families.clone();
    families.push(outcome(edit, expected.refusal));
    if expected.refusal == ACCEPTED {
        families.push(recut(edit, &edit.made(&kept.drawing).path));
    }
    tally.count(1, &families);
    let mut lents = Lents {
        given: Vec::new(),
        results: vec![
            Lent::holding_words(&kept.drawing.path.shapes, random),
            Lent::holding(&kept.drawing.path.numbers, random),
            Lent::holding(&kept.drawing.radii, random),
            Lent::holding(&kept.numbers, random),
            Lent::holding_words(&kept.flags, random),
        ],
        answer: Lent::for_answer(random),
    };
    let [shapes, anchors, radii, numbers, flags] = &mut lents.results[..] else {
        unreachable!("five lists are lent")
    };
    let lists = Lists {
        shapes: shapes.words(),
        anchors: anchors.numbers(),
        radii: radii.numbers(),
        kind: kept.drawing.kind,
        numbers: numbers.numbers(),
        flags: flags.words(),
    };
    let refusal = library(edit, lists, lents.answer.answer());
    if let Some(wrong) = mismatch(expected, refusal, &lents) {
        tally.fail(kept.size(), || format!("{kept}\n    {edit:?}\n    {wrong}"));
    }
}

/// The lists of a call.
struct Lists<'a> {
    shapes: &'a mut [u32],
    anchors: &'a mut [f64],
    radii: &'a mut [f64],
    kind: u32,
    numbers: &'a mut [f64],
    flags: &'a mut [u32],
}

fn library(edit: &Edit, l: Lists, answer: &mut Answer) -> u32 {
    let (shapes, anchors, radii, kind) = (l.shapes, l.anchors, l.radii, l.kind);
    let (numbers, flags) = (l.numbers, l.flags);
    match *edit {
        Edit::Move { s, i, ref new } => ffi::move_anchor(
            shapes, anchors, radii, kind, numbers, flags, s, i, new, answer,
        ),
        Edit::SetRadius { s, i, radius } => ffi::set_radius(
            shapes, anchors, radii, kind, numbers, flags, s, i, radius, answer,
        ),
        Edit::Split { s, a, t } => ffi::split_segment(
            shapes, anchors, radii, kind, numbers, flags, s, a, t, answer,
        ),
    }
}

/// Lists of calls from the fresh cache of an accepted drawing, each call lent the lists as the last one
/// left them, some of them less than the whole. `calls` in all.
pub fn lists(calls: u64, random: &mut Random) -> Tally {
    let families = [
        OUTCOMES.to_vec(),
        RECUT.to_vec(),
        REFERENCES.families(),
        vec![LONG, WHOLE],
    ];
    let mut tally = Tally::new("lists of edits", families.concat());
    let mut left = calls;
    // The first from a drawing that a split may fill.
    let mut least = MOST_ANCHORS as u64 - 1;
    while left > 0 {
        let mut drawing = accepted(least, random);
        least = 1;
        let places = drawing.path.anchors();
        let long = places <= 24 && random.one_in(16);
        let most = if long {
            10_000
        } else {
            40 + 4_000 / (places + 1)
        };
        let calls = if long || places > 510 {
            most
        } else {
            1 + random.below(most)
        };
        let calls = calls.min(left);
        left -= calls;
        drawing.families = if long { vec![LONG] } else { Vec::new() };
        play(drawing, calls, &mut tally, random);
    }
    tally
}

/// Calls of a list of 10,000.
const LONG: Family = ("list", "of 10,000");
/// Calls after which the whole cache, outline and text were compared with the original's.
const WHOLE: Family = ("list", "compared whole");

/// One whose fresh cache is not refused, with so many anchors at least.
fn accepted(least: u64, random: &mut Random) -> Drawing {
    loop {
        let drawing = Drawing::whole(random);
        let good = drawing.is_readable() && drawing.path.anchors() >= least;
        if good && Cache::of(&drawing).first_outside().is_none() {
            return drawing;
        }
    }
}

fn play(drawing: Drawing, calls: u64, tally: &mut Tally, random: &mut Random) {
    let list = drawing.families.clone();
    let cache = Cache::of(&drawing);
    let mut kept = Kept {
        numbers: cache.numbers,
        flags: cache.flags,
        drawing,
    };
    lengthen(&mut kept, random);
    assert_eq!(build(&kept), Some(()), "the library builds the same cache");
    for call in 1..=calls {
        let mut families = list.clone();
        let edit = draw_edit(&kept.drawing, random, &mut families);
        let lent = if random.one_in(16) {
            shortened(&kept, random)
        } else {
            None
        };
        let at = lent.as_ref().unwrap_or(&kept);
        let expected = at.expected(&edit);
        let places = kept.drawing.path.anchors();
        let whole = call == calls || call % 100 == 0 || places < 12;
        if whole {
            families.push(WHOLE);
        }
        let mut lent = lent.unwrap_or_else(|| std::mem::take(&mut kept));
        lent.drawing.families = families;
        compare(&lent, &edit, &expected, tally, random);
        // The buffers, of which the last call was lent the whole or a part.
        if kept.drawing.path.shapes.is_empty() {
            kept = lent;
        }
        leave(&mut kept, &expected);
        if whole {
            compare_whole(&kept, tally);
        }
    }
}

/// Room for some splits, of foreign bits.
fn lengthen(kept: &mut Kept, random: &mut Random) {
    let more = match random.below(4) {
        0 => 0,
        1 => 1 + random.below(4) as usize,
        _ => 200,
    };
    let mut foreign =
        |width: usize| -> Vec<f64> { (0..width * more).map(|_| foreign(random)).collect() };
    kept.drawing.path.numbers.extend(foreign(SIX));
    kept.drawing.radii.extend(foreign(1));
    kept.numbers.extend(foreign(TWELVE));
    kept.flags.extend((0..more).map(|_| random.bits() as u32));
}

/// The same with one list shorter.
fn shortened(kept: &Kept, random: &mut Random) -> Option<Kept> {
    let mut lent = kept.copy();
    let places = kept.drawing.path.anchors() as usize;
    // Often just what the drawing needs, so that a split is refused 8.
    let length = |need: usize, random: &mut Random| match random.below(3) {
        0 => random.below(need as u64 + 1) as usize,
        _ => need,
    };
    match random.below(4) {
        0 => (lent.drawing.path.numbers).truncate(length(SIX * places, random)),
        1 => lent.drawing.radii.truncate(length(places, random)),
        2 => lent.numbers.truncate(length(TWELVE * places, random)),
        _ => lent.flags.truncate(length(places, random)),
    }
    Some(lent)
}

/// What an accepted call leaves in the buffers.
pub fn leave(kept: &mut Kept, expected: &Expected) {
    let [shapes, anchors, radii, numbers, flags] = &expected.written[..] else {
        return;
    };
    let put = |to: &mut Vec<f64>, from: &[u64]| {
        for (to, &from) in to.iter_mut().zip(from) {
            *to = f64::from_bits(from);
        }
    };
    kept.drawing.path.shapes = shapes.iter().map(|&word| word as u32).collect();
    put(&mut kept.drawing.path.numbers, anchors);
    put(&mut kept.drawing.radii, radii);
    put(&mut kept.numbers, numbers);
    for (to, &from) in kept.flags.iter_mut().zip(flags) {
        *to = from as u32;
    }
}

/// The library's fresh cache of the drawing, where it is the one that is kept.
fn build(kept: &Kept) -> Option<()> {
    let (mut numbers, mut flags) = (kept.numbers.clone(), kept.flags.clone());
    let places = kept.drawing.path.anchors() as usize;
    numbers[..TWELVE * places].fill(0.5);
    flags[..places].fill(1);
    let drawing = &kept.drawing;
    let (shapes, anchors) = (&drawing.path.shapes, &drawing.path.numbers);
    let (radii, kind) = (&drawing.radii, drawing.kind);
    let mut answer = [0; 4];
    let refusal = ffi::build(
        shapes,
        anchors,
        radii,
        kind,
        &mut numbers,
        &mut flags,
        &mut answer,
    );
    let same = bits(&numbers) == bits(&kept.numbers) && flags == kept.flags;
    (refusal == ACCEPTED && same).then_some(())
}

fn bits(numbers: &[f64]) -> Vec<u64> {
    numbers.iter().map(|x| x.to_bits()).collect()
}

/// The cache against the original's whole cut laid out; what the library puts together from it against
/// that cut, with the count of anchors; and its text.
fn compare_whole(kept: &Kept, tally: &mut Tally) {
    let drawing = &kept.drawing;
    let places = drawing.path.anchors() as usize;
    let cache = Cache::of(drawing);
    let cut = Path::of(&drawing.cut());
    let fitted = cache.flags.iter().filter(|&&flag| flag == CUT).count();
    let text = bezier::to_svg_d(&drawing.cut());
    let (path, written) = library_outline(kept);
    let wrong = if bits(&cache.numbers) != bits(&kept.numbers[..TWELVE * places])
        || cache.flags != kept.flags[..places]
    {
        "the cache is not the cut laid out"
    } else if path.shapes != cut.shapes || bits(&path.numbers) != bits(&cut.numbers) {
        "what it assembles to is not the cut"
    } else if path.anchors() as usize != places + fitted {
        "the count is not one more for each cut"
    } else if written != text {
        "its text is not the cut's"
    } else {
        return;
    };
    tally.fail(kept.size(), || format!("{kept}\n    {wrong}"));
}

/// What the library assembles, and its text.
fn library_outline(kept: &Kept) -> (Path, String) {
    let shapes = &kept.drawing.path.shapes;
    let places = kept.drawing.path.anchors() as usize;
    let (mut to_shapes, mut to) = (vec![0; shapes.len()], vec![0.0; TWELVE * places]);
    let mut answer = [0; 4];
    let refusal = ffi::assemble(
        shapes,
        &kept.numbers,
        &kept.flags,
        &mut to_shapes,
        &mut to,
        &mut answer,
    );
    assert_eq!(refusal, ACCEPTED, "a fresh cache, edited, is assembled");
    to.truncate(SIX * answer[1] as usize);
    let path = Path {
        shapes: to_shapes,
        numbers: to,
    };
    let mut out = vec![0; 100 * (path.shapes.len() + path.numbers.len() / SIX)];
    let refusal = ffi::to_svg_d(&path.shapes, &path.numbers, &mut out, &mut answer);
    assert_eq!(refusal, ACCEPTED, "its text is written");
    out.truncate(answer[1] as usize);
    (path, String::from_utf8(out).expect("ASCII"))
}

/// One list of `calls` from a drawing of 500 anchors, that splits fill to 512.
pub fn long(calls: u64, random: &mut Random) -> Tally {
    let families = [
        &OUTCOMES[..1],
        &OUTCOMES[3..4],
        &OUTCOMES[5..6],
        &OUTCOMES[8..9],
    ];
    let families = [&families.concat()[..], &OUTCOMES[10..11], &OUTCOMES[13..14]];
    let families = [&families.concat()[..], &OUTCOMES[15..16], &[WHOLE]].concat();
    let mut tally = Tally::new("one long list", families);
    let mut kept = long_drawing(random);
    let spare = 3;
    kept.numbers.resize(TWELVE * (MOST_ANCHORS + spare), 0.25);
    kept.flags.resize(MOST_ANCHORS + spare, 7);
    kept.drawing
        .path
        .numbers
        .resize(SIX * (MOST_ANCHORS + spare), 0.25);
    kept.drawing.radii.resize(MOST_ANCHORS + spare, 0.25);
    let mut model = Kept {
        drawing: Drawing {
            path: kept.drawing.path.clone(),
            radii: kept.drawing.radii.clone(),
            ..Drawing::default()
        },
        ..Kept::default()
    };
    for call in 1..=calls {
        let edit = small_edit(&model.drawing, random);
        let (refusal, answer) = answered(&mut model, &edit);
        let mut got = [0; 4];
        let lists = Lists {
            shapes: &mut kept.drawing.path.shapes,
            anchors: &mut kept.drawing.path.numbers,
            radii: &mut kept.drawing.radii,
            kind: 0,
            numbers: &mut kept.numbers,
            flags: &mut kept.flags,
        };
        let got_refusal = library(&edit, lists, &mut got);
        let mut families = vec![outcome(&edit, refusal)];
        if (got_refusal, got) != (refusal, answer) {
            tally.fail(call, || {
                format!(
                    "    call {call}, {edit:?}: {got_refusal} {got:?}, not {refusal} {answer:?}"
                )
            });
        }
        if call % 10_000 == 0 || call == calls {
            families.push(WHOLE);
            compare_model(&kept, &model, spare, &mut tally);
        }
        tally.count(1, &families);
    }
    tally
}

fn compare_model(kept: &Kept, model: &Kept, spare: usize, tally: &mut Tally) {
    let (got, drawing) = (&kept.drawing, &model.drawing);
    let same = got.path.shapes == drawing.path.shapes
        && bits(&got.path.numbers) == bits(&drawing.path.numbers)
        && bits(&got.radii) == bits(&drawing.radii);
    let past = kept.numbers[TWELVE * MOST_ANCHORS..] == vec![0.25; TWELVE * spare]
        && kept.flags[MOST_ANCHORS..] == vec![7; spare];
    if !same || !past {
        let what = "    the drawing, or what stands past the cache, is not the model's";
        tally.fail(0, || what.to_string());
    }
    compare_whole(kept, tally);
}

/// What the model says of an edit whose numbers are small, and what it makes of the model.
fn answered(model: &mut Kept, edit: &Edit) -> (u32, [u64; 4]) {
    let path = &model.drawing.path;
    let n = path.anchors();
    if !edit.is_known(path) {
        return (REFERENCE, [0; 4]);
    }
    if matches!(edit, Edit::Split { .. }) && n == MOST_ANCHORS as u64 {
        return (CAPACITY, [0; 4]);
    }
    let first = first_place(path, edit.subpath());
    match *edit {
        Edit::Move { i, new, .. } => {
            model.drawing.path.numbers[SIX * (first + i)..][..SIX].copy_from_slice(&new)
        }
        Edit::SetRadius { i, radius, .. } => model.drawing.radii[first + i] = radius,
        Edit::Split { .. } => {
            let made = edit.made(&model.drawing);
            model.drawing.path.shapes = made.path.shapes;
            model.drawing.path.numbers[..made.path.numbers.len()]
                .copy_from_slice(&made.path.numbers);
            model.drawing.radii[..made.radii.len()].copy_from_slice(&made.radii);
        }
    }
    let near = edit.near(&model.drawing.path).len() as u64;
    (ACCEPTED, [0, model.drawing.path.anchors(), 0, near])
}

/// One large closed subpath, small ones closed and open, straight and curved: 500 anchors.
fn long_drawing(random: &mut Random) -> Kept {
    let mut shapes: Vec<u32> = (1..10).map(|n| n | CLOSED).collect();
    shapes.extend([3, 7, 30]);
    let used: u32 = shapes.iter().map(|word| word & !CLOSED).sum();
    shapes.push((500 - used) | CLOSED);
    let numbers = (0..500).flat_map(|k| small_anchor(k, random));
    let drawing = Drawing {
        path: Path {
            shapes,
            numbers: numbers.collect(),
        },
        radii: (0..500).map(|_| 3.0 * random.unit()).collect(),
        ..Drawing::default()
    };
    let cache = Cache::of(&drawing);
    Kept {
        numbers: cache.numbers,
        flags: cache.flags,
        drawing,
    }
}

fn small_anchor(k: usize, random: &mut Random) -> [f64; SIX] {
    let (x, y) = ((k % 40) as f64 * 10.0, (k * k % 37) as f64);
    let p = [x + random.unit(), y + random.unit()];
    let mut beside = |dx: f64| match k % 3 {
        0 => [
            p[0] + dx + random.signed_unit(),
            p[1] + 3.0 * random.signed_unit(),
        ],
        _ => p,
    };
    let (h_in, h_out) = (beside(-3.0), beside(3.0));
    [p[0], p[1], h_in[0], h_in[1], h_out[0], h_out[1]]
}

fn small_edit(drawing: &Drawing, random: &mut Random) -> Edit {
    let (s, i) = match random.one_in(64) {
        true => (random.below(20) as usize, random.below(9) as usize),
        false => an_anchor(&drawing.path, random),
    };
    match random.below(8) {
        0..4 => Edit::Move {
            s,
            i,
            new: small_anchor(random.below(500) as usize, random),
        },
        4..7 => Edit::SetRadius {
            s,
            i,
            radius: 5.0 * random.unit() - 0.5,
        },
        _ => Edit::Split {
            s,
            a: i,
            t: random.unit(),
        },
    }
}
