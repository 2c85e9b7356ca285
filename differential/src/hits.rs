//! `hit_anchor`, `hit_segment` and `bounds`.

use crate::call::{outcome, ACCEPTS, REFUSES_5, REFUSES_7};
use crate::compare::{mismatch, Expected};
use crate::curves::is_straight;
use crate::damage::{self, damage};
use crate::family::{self, Family, Group};
use crate::ffi;
use crate::guard::{Entry, Lent};
use crate::lents::Lents;
use crate::original::bezier::{self, BezPath};
use crate::original::geom::{Bounds, P};
use crate::outlines;
use crate::paths::Path;
use crate::random::Random;
use crate::refusal::{in_limit, ACCEPTED, LIMIT, MOST_ANCHORS, MOST_CUT_ANCHORS, RESULT};
use crate::report::Tally;
use crate::values::{outside, NUMBERS};

/// A path that is given, and the point and the tolerance of a hit.
struct Query {
    families: Vec<Family>,
    path: Path,
    q: P,
    tol: f64,
}

const REPEATED: Family = ("anchors", "repeated");
const LOOSE_OUTSIDE: Family = ("outside", "a loose argument");

type Place = fn(&BezPath, &mut Random) -> P;

static POINT: Group<Place> = Group {
    name: "q",
    ways: &[
        ("free", |_, random| {
            let way = random.pick(NUMBERS.ways).1;
            P::new(way(random), way(random))
        }),
        ("an anchor", any_anchor),
        ("between anchors", |path, random| {
            (any_anchor(path, random) + any_anchor(path, random)) * 0.5
        }),
        ("by an anchor", |path, random| {
            let p = any_anchor(path, random);
            let step = [1e-9, 1e-3, 1.0, 5.0][random.below(4) as usize];
            p + P::new(step * random.signed_unit(), step * random.signed_unit())
        }),
        ("on a curve", |path, random| on_curve(path, random, 0.0)),
        ("by a curve", |path, random| {
            let step = [1e-9, 1e-3, 1.0][random.below(3) as usize];
            on_curve(path, random, step)
        }),
    ],
};

fn any_anchor(path: &BezPath, random: &mut Random) -> P {
    let anchors: Vec<P> = path
        .iter()
        .flat_map(|sp| sp.anchors.iter().map(|a| a.p))
        .collect();
    if anchors.is_empty() {
        return P::new(0.0, 0.0);
    }
    *random.pick(&anchors)
}

/// On a curve where a chord ends, or anywhere.
fn on_curve(path: &BezPath, random: &mut Random, step: f64) -> P {
    let curves: Vec<[P; 4]> = path
        .iter()
        .flat_map(|sp| sp.segments().into_iter().map(|(a, b)| sp.cubic(a, b)))
        .collect();
    if curves.is_empty() {
        return any_anchor(path, random);
    }
    let t = if random.one_in(2) {
        random.below(49) as f64 / 48.0
    } else {
        random.unit()
    };
    let p = bezier::cubic_at(random.pick(&curves), t);
    p + P::new(step * random.signed_unit(), step * random.signed_unit())
}

type Tolerance = fn(&BezPath, P, &mut Random) -> f64;

static TOLERANCE: Group<Tolerance> = Group {
    name: "tol",
    ways: &[
        ("0", |_, _, random| random.signed(0.0)),
        ("negative", |_, _, random| -random.unit()),
        ("small", |_, _, random| 10.0 * random.unit()),
        ("any", |_, _, random| LIMIT * random.unit()),
        ("the limit", |_, _, _| LIMIT),
        ("an anchor's distance", |path, q, random| {
            (any_anchor(path, random) - q).len()
        }),
        ("just below it", |path, q, random| {
            (any_anchor(path, random) - q).len().next_down()
        }),
        ("a chord's distance", |path, q, random| {
            let hit = bezier::hit_segment(path, q, f64::INFINITY);
            let Some((s, a, t)) = hit else {
                return random.unit();
            };
            let sp = &path[s];
            let b = (a + 1) % sp.anchors.len();
            (bezier::cubic_at(&sp.cubic(a, b), t) - q).len()
        }),
    ],
};

fn drawn_families() -> Vec<Family> {
    let more = vec![REPEATED, damage::OUTSIDE];
    [outlines::families(), damage::families(), more].concat()
}

fn query_families() -> Vec<Family> {
    let loose = [POINT.families(), TOLERANCE.families(), vec![LOOSE_OUTSIDE]].concat();
    [drawn_families(), loose].concat()
}

impl Query {
    fn draw(most_anchors: usize, random: &mut Random) -> Query {
        let mut families = Vec::new();
        let mut path = outlines::draw(most_anchors, random, &mut families);
        if random.one_in(4) {
            repeat(&mut path, random);
            families.push(REPEATED);
        }
        let q = POINT.draw(random, &mut families)(&path, random);
        let tol = TOLERANCE.draw(random, &mut families)(&path, q, random);
        let mut path = Path::of(&path);
        damage(&mut path, &mut families, random);
        let mut query = Query {
            families,
            path,
            q,
            tol,
        };
        if random.one_in(12) {
            let at = *random.pick(&[0, 1, 2]);
            *[&mut query.q.x, &mut query.q.y, &mut query.tol][at] = outside(random);
            query.families.push(LOOSE_OUTSIDE);
        }
        query
    }

    /// What is given beside the path.
    fn loose(&self) -> [f64; 3] {
        [self.q.x, self.q.y, self.tol]
    }

    fn lents(&self, results: usize, random: &mut Random) -> Lents {
        Lents {
            given: vec![
                Lent::holding_words(&self.path.shapes, random),
                Lent::holding(&self.path.numbers, random),
            ],
            results: (0..usize::from(results > 0))
                .map(|_| Lent::foreign(Entry::Number, results, random))
                .collect(),
            answer: Lent::for_answer(random),
        }
    }

    fn describe(&self) -> String {
        let Query { q, tol, .. } = self;
        format!(
            "    {}\n{}\n    q {q:?} ({:#x}, {:#x}), tol {tol:e} ({:#x})",
            family::list(&self.families),
            self.path,
            q.x.to_bits(),
            q.y.to_bits(),
            tol.to_bits()
        )
    }
}

/// Some anchors become copies of another, so that distances are equal.
fn repeat(path: &mut BezPath, random: &mut Random) {
    let p = any_anchor(path, random);
    for sp in path {
        for a in &mut sp.anchors {
            if random.one_in(3) {
                a.p = p;
            }
        }
    }
}

const NOTHING: Family = ("hit", "nothing");
const FOUND: Family = ("hit", "found");
const TIE: Family = ("hit", "first of a tie");
const AT_TOL: Family = ("hit", "exactly at tol");

/// What hits come out in.
fn hit_families(more: &[Family]) -> Vec<Family> {
    let outcomes = vec![ACCEPTS, REFUSES_7, REFUSES_5, NOTHING, FOUND];
    [outcomes, more.to_vec(), query_families()].concat()
}

pub fn hit_anchor(cases: u64, random: &mut Random) -> Tally {
    let mut tally = Tally::new("hit_anchor", hit_families(&[TIE, AT_TOL]));
    for _ in 0..cases {
        let mut query = Query::draw(MOST_ANCHORS, random);
        let expected = Expected::refusal_of(&query.path, MOST_ANCHORS, &query.loose())
            .unwrap_or_else(|| found_anchor(&mut query));
        let mut lents = query.lents(0, random);
        let [x, y, tol] = query.loose();
        compare(&mut query, &expected, &mut lents, &mut tally, |lents| {
            let (shapes, anchors) = given(&mut lents.given);
            ffi::hit_anchor(shapes, anchors, x, y, tol, lents.answer.answer())
        });
    }
    tally
}

fn found_anchor(query: &mut Query) -> Expected {
    let (path, q, tol) = (query.path.original(), query.q, query.tol);
    let hit = bezier::hit_anchor(&path, q, tol);
    note_anchor(&path, q, tol, hit, &mut query.families);
    Expected {
        refusal: ACCEPTED,
        answer: hit.map_or([0; 4], |(s, k)| [0, k as u64, s as u64, 1]),
        written: Vec::new(),
    }
}

/// Whether more than one anchor is at the least distance, and whether that is tol.
fn note_anchor(
    path: &BezPath,
    q: P,
    tol: f64,
    hit: Option<(usize, usize)>,
    families: &mut Vec<Family>,
) {
    let Some((s, k)) = hit else {
        families.push(NOTHING);
        return;
    };
    families.push(FOUND);
    let least = (path[s].anchors[k].p - q).len();
    let anchors = path.iter().flat_map(|sp| &sp.anchors);
    if anchors.filter(|a| (a.p - q).len() == least).count() > 1 {
        families.push(TIE);
    }
    if least == tol {
        families.push(AT_TOL);
    }
}

const LINE: Family = ("hit", "on a line");
const CURVE: Family = ("hit", "on a curve");
const CLOSING: Family = ("hit", "on a closing segment");
const INNER: Family = ("hit", "inside a segment");
const END: Family = ("hit", "at a segment's end");

pub fn hit_segment(cases: u64, random: &mut Random) -> Tally {
    let more = [LINE, CURVE, CLOSING, INNER, END];
    let mut tally = Tally::new("hit_segment", hit_families(&more));
    for _ in 0..cases {
        let mut query = Query::draw(MOST_ANCHORS, random);
        let expected = Expected::refusal_of(&query.path, MOST_ANCHORS, &query.loose())
            .unwrap_or_else(|| found_segment(&mut query));
        let mut lents = query.lents(1, random);
        let [x, y, tol] = query.loose();
        compare(&mut query, &expected, &mut lents, &mut tally, |lents| {
            let (shapes, anchors) = given(&mut lents.given);
            let [t] = lents.results[0].array();
            ffi::hit_segment(shapes, anchors, x, y, tol, t, lents.answer.answer())
        });
    }
    tally
}

fn found_segment(query: &mut Query) -> Expected {
    let path = query.path.original();
    let hit = bezier::hit_segment(&path, query.q, query.tol);
    note_segment(&path, hit, &mut query.families);
    // The parameter cannot break the limit.
    assert!(hit.is_none_or(|(_, _, t)| in_limit(t)));
    Expected {
        refusal: ACCEPTED,
        answer: hit.map_or([0; 4], |(s, a, _)| [0, a as u64, s as u64, 1]),
        written: hit.map_or(Vec::new(), |(_, _, t)| vec![vec![t.to_bits()]]),
    }
}

fn note_segment(path: &BezPath, hit: Option<(usize, usize, f64)>, families: &mut Vec<Family>) {
    let Some((s, a, t)) = hit else {
        families.push(NOTHING);
        return;
    };
    families.push(FOUND);
    let sp = &path[s];
    let b = (a + 1) % sp.anchors.len();
    let c = sp.cubic(a, b);
    families.push(if is_straight(&c) { LINE } else { CURVE });
    if b == 0 {
        families.push(CLOSING);
    }
    families.push(if t == 0.0 || t == 1.0 { END } else { INNER });
}

const EMPTY: Family = ("box", "empty");
const BOX: Family = ("box", "some");

pub fn bounds(cases: u64, random: &mut Random) -> Tally {
    // 9 is never met, and would stop the run: the weights at k/16 are exact and add up to 1, and what is
    // rounded never passes the limit, which is an f64.
    let outcomes = vec![ACCEPTS, REFUSES_7, REFUSES_5, EMPTY, BOX];
    let mut tally = Tally::new("bounds", [outcomes, drawn_families()].concat());
    for _ in 0..cases {
        let mut query = Query::draw(MOST_CUT_ANCHORS, random);
        query.families.retain(|(group, name)| {
            !["q", "tol"].contains(group) && (*group, *name) != LOOSE_OUTSIDE
        });
        let expected =
            Expected::refusal_of(&query.path, MOST_CUT_ANCHORS, &[]).unwrap_or_else(|| {
                let box_of = bezier::bounds(&query.path.original());
                boxed(&box_of, query.path.anchors(), &mut query.families)
            });
        let mut lents = query.lents(4, random);
        compare(&mut query, &expected, &mut lents, &mut tally, |lents| {
            let (shapes, anchors) = given(&mut lents.given);
            let corners = lents.results[0].array();
            ffi::bounds(shapes, anchors, corners, lents.answer.answer())
        });
    }
    tally
}

/// A path without anchors is empty, which 9 does not touch.
fn boxed(b: &Bounds, anchors: u64, families: &mut Vec<Family>) -> Expected {
    if anchors == 0 {
        families.push(EMPTY);
        assert!(b.is_empty());
        return Expected {
            refusal: ACCEPTED,
            answer: [0; 4],
            written: Vec::new(),
        };
    }
    let corners = [b.min.x, b.min.y, b.max.x, b.max.y];
    if !corners.iter().all(|&x| in_limit(x)) {
        return Expected::refused(RESULT);
    }
    families.push(BOX);
    Expected {
        refusal: ACCEPTED,
        answer: [0, 1, 0, 0],
        written: vec![corners.iter().map(|x| x.to_bits()).collect()],
    }
}

fn given(given: &mut [Lent]) -> (&[u32], &[f64]) {
    let [shapes, anchors] = given else {
        unreachable!("two lists are given")
    };
    (shapes.words(), anchors.numbers())
}

fn compare(
    query: &mut Query,
    expected: &Expected,
    lents: &mut Lents,
    tally: &mut Tally,
    library: impl FnOnce(&mut Lents) -> u32,
) {
    query.families.push(outcome(expected, false));
    tally.count(1, &query.families);
    let refusal = library(lents);
    if let Some(wrong) = mismatch(expected, refusal, lents) {
        tally.fail(query.path.size(), || {
            format!("{}\n    {wrong}", query.describe())
        });
    }
}
