//! Paths: points of one kind with handles of one kind, then given special corners.

use crate::anchors::{without_handles, HANDLES, POINTS};
use crate::angles::CORNERS;
use crate::family::Family;
use crate::original::bezier::{Anchor, BezPath, SubPath};
use crate::original::geom::P;
use crate::random::Random;
use crate::refusal::LIMIT;
use crate::sizes;

pub fn families() -> Vec<Family> {
    let drawn = [POINTS.families(), HANDLES.families(), CORNERS.families()];
    [sizes::families(), drawn.concat()].concat()
}

/// A path of at most one anchor and one subpath more than is allowed, within the limit.
pub fn draw(most_anchors: usize, random: &mut Random, drawn: &mut Vec<Family>) -> BezPath {
    let number = *POINTS.draw(random, drawn);
    let handles = HANDLES.draw(random, drawn);
    let corners = CORNERS.draw(random, drawn);
    let subpath = |count: usize, random: &mut Random| {
        let mut sp = SubPath {
            anchors: (0..count)
                .map(|_| without_handles(number, random))
                .collect(),
            closed: random.one_in(2),
        };
        for a in &mut sp.anchors {
            handles(a, number, random);
        }
        // Special corners stand alone, in pairs and in rows.
        for _ in 0..count.min(1 + random.below(3) as usize) {
            corners(&mut sp, random);
        }
        for a in &mut sp.anchors {
            *a = within(a);
        }
        sp
    };
    let sizes = sizes::draw(most_anchors, random);
    let path = sizes.into_iter().map(|count| subpath(count, random));
    let path = path.collect();
    sizes::note(&path, most_anchors, drawn);
    path
}

fn within(a: &Anchor) -> Anchor {
    let clamp = |p: P| P::new(p.x.clamp(-LIMIT, LIMIT), p.y.clamp(-LIMIT, LIMIT));
    Anchor {
        p: clamp(a.p),
        h_in: clamp(a.h_in),
        h_out: clamp(a.h_out),
    }
}
