//! Hits and boxes of a path of 512 anchors.

use super::{curves, point, Race};
use crate::ffi;
use crate::original::bezier::{self, BezPath};
use crate::original::geom::P;
use crate::paths::Path;
use crate::random::Random;
use crate::refusal::{ACCEPTED, MOST_ANCHORS};
use std::hint::black_box;

/// Inputs of each race, and calls in a round.
const INPUTS: usize = 16;
const CALLS: usize = 4;
/// Of the limit, that the points take.
const SHARE: f64 = 0.01;
const TOLERANCE: f64 = 100.0;

struct Input {
    path: Path,
    original: BezPath,
    q: P,
}

pub struct Inputs(Vec<Input>);

impl Inputs {
    pub fn draw(random: &mut Random) -> Inputs {
        Inputs((0..INPUTS).map(|_| input(random)).collect())
    }

    pub fn races(&self) -> Vec<Race<'_>> {
        let Inputs(inputs) = self;
        vec![
            Race {
                name: "hit_anchor, 512 anchors",
                calls: CALLS,
                inputs: INPUTS,
                restore: None,
                ours: Box::new(move |at| {
                    let mut answer = [0; 4];
                    for Input { path, q, .. } in &inputs[at] {
                        let Path { shapes, numbers } = path;
                        let refusal =
                            ffi::hit_anchor(shapes, numbers, q.x, q.y, TOLERANCE, &mut answer);
                        assert_eq!(refusal, ACCEPTED);
                        black_box(&answer);
                    }
                }),
                original: Box::new(move |at| {
                    for Input { original, q, .. } in &inputs[at] {
                        black_box(&original_hit_anchor(original, *q));
                    }
                }),
            },
            Race {
                name: "hit_segment, 512 anchors",
                calls: 1,
                inputs: INPUTS,
                restore: None,
                ours: Box::new(move |at| {
                    let (mut t, mut answer) = (0.0, [0; 4]);
                    for Input { path, q, .. } in &inputs[at] {
                        let Path { shapes, numbers } = path;
                        let refusal = ffi::hit_segment(
                            shapes,
                            numbers,
                            q.x,
                            q.y,
                            TOLERANCE,
                            &mut t,
                            &mut answer,
                        );
                        assert_eq!(refusal, ACCEPTED);
                        black_box((t, &answer));
                    }
                }),
                original: Box::new(move |at| {
                    for Input { original, q, .. } in &inputs[at] {
                        black_box(&original_hit_segment(original, *q));
                    }
                }),
            },
            Race {
                name: "bounds, 512 anchors",
                calls: CALLS,
                inputs: INPUTS,
                restore: None,
                ours: Box::new(move |at| {
                    let (mut corners, mut answer) = ([0.0; 4], [0; 4]);
                    for Input { path, .. } in &inputs[at] {
                        let Path { shapes, numbers } = path;
                        let refusal = ffi::bounds(shapes, numbers, &mut corners, &mut answer);
                        assert_eq!(refusal, ACCEPTED);
                        black_box(&corners);
                    }
                }),
                original: Box::new(move |at| {
                    for Input { original, .. } in &inputs[at] {
                        black_box(&original_bounds(original));
                    }
                }),
            },
        ]
    }
}

// The original's functions as calls, which the library's cannot but be.

#[inline(never)]
fn original_hit_anchor(path: &BezPath, q: P) -> Option<(usize, usize)> {
    bezier::hit_anchor(path, q, TOLERANCE)
}

#[inline(never)]
fn original_hit_segment(path: &BezPath, q: P) -> Option<(usize, usize, f64)> {
    bezier::hit_segment(path, q, TOLERANCE)
}

#[inline(never)]
fn original_bounds(path: &BezPath) -> crate::original::geom::Bounds {
    bezier::bounds(path)
}

/// A path, and a point among its anchors.
fn input(random: &mut Random) -> Input {
    let original = curves(MOST_ANCHORS, SHARE, random);
    Input {
        path: Path::of(&original),
        original,
        q: point(SHARE, random),
    }
}
