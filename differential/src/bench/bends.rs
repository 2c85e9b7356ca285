//! Paths under an affine map.

use super::{curves, Race};
use crate::ffi;
use crate::original::bezier::{self, BezPath};
use crate::original::geom::Affine;
use crate::paths::Path;
use crate::random::Random;
use crate::refusal::{ACCEPTED, MOST_ANCHORS};
use std::hint::black_box;

/// Paths in a round.
const PATHS: usize = 8;

pub struct Inputs(Vec<(Path, BezPath, Affine)>);

impl Inputs {
    pub fn draw(random: &mut Random) -> Inputs {
        Inputs((0..4 * PATHS).map(|_| path(random)).collect())
    }

    pub fn races(&self) -> Vec<Race<'_>> {
        let Inputs(paths) = self;
        vec![Race {
            name: "transform, 512 anchors",
            calls: PATHS,
            inputs: paths.len(),
            restore: None,
            ours: Box::new(move |at| {
                let (mut words, mut to, mut answer) = ([0; 1], [0.0; 6 * MOST_ANCHORS], [0; 4]);
                for (Path { shapes, numbers }, _, m) in &paths[at] {
                    let refusal =
                        ffi::transform(shapes, numbers, m, &mut words, &mut to, &mut answer);
                    assert_eq!(refusal, ACCEPTED);
                    black_box(&to);
                }
            }),
            original: Box::new(move |at| {
                for (_, path, m) in &paths[at] {
                    black_box(&original_transform(path, *m));
                }
            }),
        }]
    }
}

/// The original's function as a call, which the library's cannot but be.
#[inline(never)]
fn original_transform(path: &BezPath, m: Affine) -> BezPath {
    bezier::transform(path, m)
}

/// A closed subpath of as many anchors as there may be, turned and shifted.
fn path(random: &mut Random) -> (Path, BezPath, Affine) {
    let path = curves(MOST_ANCHORS, 0.1, random);
    let (cos, sin) = random.angle();
    let m = [
        cos,
        sin,
        -sin,
        cos,
        10.0 * random.unit(),
        10.0 * random.unit(),
    ];
    (Path::of(&path), path, m)
}
