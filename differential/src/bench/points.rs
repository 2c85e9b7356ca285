//! Roots, lengths and cubics.

use super::{point, Race, ROUNDS};
use crate::curves::{points, Flat};
use crate::ffi;
use crate::original::bezier;
use crate::original::geom::P;
use crate::random::Random;
use crate::values::uniform;
use std::hint::black_box;

const CALLS: usize = 1 << 11;
/// Calls of `sample`, which takes longer, in a round.
const SAMPLES: usize = 1 << 6;
/// The original's number of chords along a side.
const STEPS: usize = 128;
/// A number for every call of every round, so that no branch predictor can learn them.
const NUMBERS: usize = ROUNDS * CALLS;
const CURVES: usize = 2 * CALLS;

pub struct Inputs {
    numbers: Vec<f64>,
    vectors: Vec<P>,
    curves: Vec<Flat>,
    cubics: Vec<[P; 4]>,
    parameters: Vec<f64>,
}

impl Inputs {
    pub fn draw(random: &mut Random) -> Inputs {
        let curves: Vec<Flat> = (0..CURVES)
            .map(|_| std::array::from_fn(|_| uniform(random)))
            .collect();
        Inputs {
            numbers: (0..NUMBERS).map(|_| positive(random)).collect(),
            vectors: (0..NUMBERS).map(|_| vector(random)).collect(),
            cubics: curves.iter().map(|c| points(c)).collect(),
            curves,
            parameters: (0..CURVES).map(|_| random.unit()).collect(),
        }
    }

    pub fn races(&self) -> Vec<Race<'_>> {
        let Inputs {
            numbers,
            vectors,
            curves,
            cubics,
            parameters,
        } = self;
        vec![
            Race {
                name: "root",
                calls: CALLS,
                inputs: NUMBERS,
                restore: None,
                ours: Box::new(move |at| roots(&numbers[at], ffi::root)),
                original: Box::new(move |at| roots(&numbers[at], |x| hardware_root(x))),
            },
            Race {
                name: "len",
                calls: CALLS,
                inputs: NUMBERS,
                restore: None,
                ours: Box::new(move |at| {
                    let (mut length, mut answer) = (0.0, [0; 4]);
                    for v in &vectors[at] {
                        ffi::len(v.x, v.y, &mut length, &mut answer);
                        black_box(length);
                    }
                }),
                original: Box::new(move |at| {
                    for &v in &vectors[at] {
                        black_box(original_len(v));
                    }
                }),
            },
            Race {
                name: "cubic_at",
                calls: CALLS,
                inputs: CURVES,
                restore: None,
                ours: Box::new(move |at| {
                    let (mut point, mut answer) = ([0.0; 2], [0; 4]);
                    for (c, &t) in curves[at.clone()].iter().zip(&parameters[at]) {
                        ffi::cubic_at(c, t, &mut point, &mut answer);
                        black_box(&point);
                    }
                }),
                original: Box::new(move |at| {
                    for (c, &t) in cubics[at.clone()].iter().zip(&parameters[at]) {
                        black_box(&original_cubic_at(c, t));
                    }
                }),
            },
            Race {
                name: "sample",
                calls: SAMPLES,
                inputs: CURVES,
                restore: None,
                ours: Box::new(move |at| {
                    let (mut out, mut answer) = ([0.0; 2 * (STEPS + 1)], [0; 4]);
                    for c in &curves[at] {
                        ffi::sample(c, STEPS, &mut out, &mut answer);
                        black_box(&out);
                    }
                }),
                original: Box::new(move |at| {
                    for c in &cubics[at] {
                        black_box(&original_sample(c));
                    }
                }),
            },
            Race {
                name: "split_cubic",
                calls: CALLS,
                inputs: CURVES,
                restore: None,
                ours: Box::new(move |at| {
                    let (mut before, mut after, mut answer) = ([0.0; 8], [0.0; 8], [0; 4]);
                    for (c, &t) in curves[at.clone()].iter().zip(&parameters[at]) {
                        ffi::split_cubic(c, t, &mut before, &mut after, &mut answer);
                        black_box((&before, &after));
                    }
                }),
                original: Box::new(move |at| {
                    for (c, &t) in cubics[at.clone()].iter().zip(&parameters[at]) {
                        black_box(&original_split_cubic(c, t));
                    }
                }),
            },
        ]
    }
}

/// Calls that do not wait for each other. Each is made, since the sum needs it.
#[inline(always)]
fn roots(numbers: &[f64], root: impl Fn(f64) -> f64) {
    let bits = numbers.iter().map(|&x| root(x).to_bits());
    black_box(bits.fold(0, u64::wrapping_add));
}

// The original's functions as calls, which the library's cannot but be.

#[inline(never)]
extern "C" fn hardware_root(x: f64) -> f64 {
    x.sqrt()
}

#[inline(never)]
fn original_len(v: P) -> f64 {
    v.len()
}

#[inline(never)]
fn original_cubic_at(c: &[P; 4], t: f64) -> P {
    bezier::cubic_at(c, t)
}

#[inline(never)]
fn original_sample(c: &[P; 4]) -> Vec<P> {
    bezier::sample(c, STEPS)
}

#[inline(never)]
fn original_split_cubic(c: &[P; 4], t: f64) -> ([P; 4], [P; 4]) {
    bezier::split_cubic(c, t)
}

/// A positive number of any exponent.
fn positive(random: &mut Random) -> f64 {
    let below_infinity = f64::INFINITY.to_bits();
    f64::from_bits(random.below(below_infinity))
}

/// A vector whose length is within the limit too.
fn vector(random: &mut Random) -> P {
    point(0.5, random)
}
