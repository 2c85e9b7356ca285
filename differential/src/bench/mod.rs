//! The library's speed beside the original's, as ratios from one run: what else the machine does
//! slows both, since their rounds alternate. And the stack that edits take.

mod bends;
mod cuts;
mod edits;
mod hits;
mod painted;
mod points;
pub mod stack;
mod text;

use crate::original::bezier::{Anchor, BezPath, SubPath};
use crate::original::geom::P;
use crate::random::Random;
use crate::values::uniform;
use edits::Where;
use std::ops::Range;
use std::time::Instant;

const ROUNDS: usize = 256;

/// One call, as both make it: on the inputs in a range.
struct Race<'a> {
    name: &'a str,
    /// Calls in a round: so few that it fits well into a time slice, and a median passes over the
    /// rounds that were interrupted.
    calls: usize,
    /// How many there are, a multiple of the calls.
    inputs: usize,
    /// Makes the inputs what they were before the library's calls changed them; not timed.
    restore: Option<Calls<'a>>,
    ours: Calls<'a>,
    original: Calls<'a>,
}

type Calls<'a> = Box<dyn FnMut(Range<usize>) + 'a>;

pub fn run(random: &mut Random) {
    measure(points::Inputs::draw(random).races());
    measure(bends::Inputs::draw(random).races());
    measure(cuts::Inputs::draw(random).races());
    // Apart: a round of both touches more than a second-level cache holds, which slows the small drawings.
    for at in [Where::All, Where::NearTheEnd] {
        measure(edits::Inputs::draw(at, random).races());
    }
    measure(text::Inputs::draw(random).races());
    measure(hits::Inputs::draw(random).races());
}

fn measure(mut races: Vec<Race>) {
    let mut times: Vec<_> = races.iter().map(|_| (Vec::new(), Vec::new())).collect();
    for round in 0..ROUNDS {
        for (race, (ours, original)) in races.iter_mut().zip(&mut times) {
            let start = round * race.calls % race.inputs;
            let at = start..start + race.calls;
            if let Some(restore) = &mut race.restore {
                restore(at.clone());
            }
            ours.push(nanoseconds(&mut race.ours, at.clone()));
            original.push(nanoseconds(&mut race.original, at));
        }
    }
    for (race, (ours, original)) in races.iter().zip(times) {
        let (ours, original) = (median(ours), median(original));
        let ratio = ours / original;
        println!("{} {ratio:.4} ({ours:.1} ns, {original:.1} ns)", race.name);
    }
}

/// For each call.
fn nanoseconds(calls: &mut Calls, at: Range<usize>) -> f64 {
    let count = at.len() as f64;
    let start = Instant::now();
    calls(at);
    start.elapsed().as_nanos() as f64 / count
}

fn median(mut times: Vec<f64>) -> f64 {
    times.sort_by(f64::total_cmp);
    times[times.len() / 2]
}

/// A point within this share of the limit.
fn point(share: f64, random: &mut Random) -> P {
    P::new(share * uniform(random), share * uniform(random))
}

/// A closed subpath of such points, with all its handles.
fn curves(anchors: usize, share: f64, random: &mut Random) -> BezPath {
    let anchor = |_| Anchor {
        p: point(share, random),
        h_in: point(share, random),
        h_out: point(share, random),
    };
    vec![SubPath {
        anchors: (0..anchors).map(anchor).collect(),
        closed: true,
    }]
}
