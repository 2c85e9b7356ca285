//! Text of numbers and of paths.

use super::{curves, Race, ROUNDS};
use crate::ffi;
use crate::original::bezier::{self, BezPath};
use crate::paths::Path;
use crate::random::Random;
use crate::refusal::ACCEPTED;
use crate::values::uniform;
use std::hint::black_box;

const CALLS: usize = 1 << 10;
const NUMBERS: usize = ROUNDS * CALLS;
/// Paths in a round, and the anchors of each.
const PATHS: usize = 8;
const ANCHORS: usize = 64;
/// Bytes of a number at most, and of a path.
const LONGEST: usize = 11;
const TEXT: usize = (6 * (LONGEST + 1) + 2) * (ANCHORS + 1);

pub struct Inputs {
    numbers: Vec<f64>,
    paths: Vec<Written>,
}

struct Written {
    path: Path,
    original: BezPath,
    /// Bytes of its text.
    length: usize,
}

impl Inputs {
    pub fn draw(random: &mut Random) -> Inputs {
        Inputs {
            numbers: (0..NUMBERS).map(|_| uniform(random)).collect(),
            paths: (0..4 * PATHS).map(|_| written(random)).collect(),
        }
    }

    pub fn races(&self) -> Vec<Race<'_>> {
        let Inputs { numbers, paths } = self;
        vec![
            Race {
                name: "write_num",
                calls: CALLS,
                inputs: NUMBERS,
                restore: None,
                ours: Box::new(move |at| {
                    let (mut out, mut answer) = ([0; LONGEST], [0; 4]);
                    for &x in &numbers[at] {
                        let refusal = ffi::write_num(x, &mut out, &mut answer);
                        assert_eq!(refusal, ACCEPTED);
                        black_box(&out);
                    }
                }),
                original: Box::new(move |at| {
                    for &x in &numbers[at] {
                        black_box(&original_write_num(x));
                    }
                }),
            },
            race("to_svg_d, 64 anchors, room for any text", paths, |_| TEXT),
            race(
                "to_svg_d, 64 anchors, room for the text alone",
                paths,
                |written| written.length,
            ),
        ]
    }
}

/// The library's buffer has so many bytes.
fn race<'a>(name: &'static str, paths: &'a [Written], room: fn(&Written) -> usize) -> Race<'a> {
    Race {
        name,
        calls: PATHS,
        inputs: paths.len(),
        restore: None,
        ours: Box::new(move |at| {
            let (mut out, mut answer) = ([0; TEXT], [0; 4]);
            for written in &paths[at] {
                let Path { shapes, numbers } = &written.path;
                let out = &mut out[..room(written)];
                let refusal = ffi::to_svg_d(shapes, numbers, out, &mut answer);
                assert_eq!(refusal, ACCEPTED);
                black_box(&out);
            }
        }),
        original: Box::new(move |at| {
            for written in &paths[at] {
                black_box(&original_to_svg_d(&written.original));
            }
        }),
    }
}

// The original's functions as calls, which the library's cannot but be.

#[inline(never)]
fn original_write_num(x: f64) -> String {
    let mut text = String::with_capacity(LONGEST);
    bezier::write_num(&mut text, x);
    text
}

#[inline(never)]
fn original_to_svg_d(path: &BezPath) -> String {
    bezier::to_svg_d(path)
}

fn written(random: &mut Random) -> Written {
    let original = curves(ANCHORS, 0.01, random);
    Written {
        path: Path::of(&original),
        length: original_to_svg_d(&original).len(),
        original,
    }
}
