//! The corner cut of one closed subpath, every corner of which is cut.

use super::Race;
use crate::drawings::Drawing;
use crate::ffi;
use crate::original::bezier::{cut_corners, Anchor, BezPath, CornerKind, SubPath};
use crate::original::geom::P;
use crate::paths::{Path, SIX};
use crate::random::Random;
use crate::refusal::ACCEPTED;
use std::hint::black_box;

/// Anchors in a round of more than one call.
const ANCHORS: usize = 64;
/// Drawings for each call of a round.
const DRAWINGS: usize = 4;

/// Drawings of one size.
struct Input {
    name: &'static str,
    anchors: usize,
    drawings: Vec<(Drawing, BezPath)>,
}

pub struct Inputs(Vec<Input>);

impl Inputs {
    pub fn draw(random: &mut Random) -> Inputs {
        let mut input = |name, anchors, curved| Input {
            name,
            anchors,
            drawings: (0..DRAWINGS * calls(anchors))
                .map(|_| zigzag(anchors, curved, random))
                .collect(),
        };
        Inputs(vec![
            input("cut_corners, 8 anchors, straight", 8, false),
            input("cut_corners, 64 anchors, straight", 64, false),
            input("cut_corners, 512 anchors, straight", 512, false),
            input("cut_corners, 8 anchors, curved", 8, true),
            input("cut_corners, 64 anchors, curved", 64, true),
            input("cut_corners, 512 anchors, curved", 512, true),
        ])
    }

    pub fn races(&self) -> Vec<Race<'_>> {
        self.0.iter().map(Input::race).collect()
    }
}

fn calls(anchors: usize) -> usize {
    (ANCHORS / anchors).max(1)
}

impl Input {
    fn race(&self) -> Race<'_> {
        let mut room = Room::of(self.anchors);
        Race {
            name: self.name,
            calls: calls(self.anchors),
            inputs: self.drawings.len(),
            restore: None,
            ours: Box::new(move |at| {
                for (drawing, _) in &self.drawings[at] {
                    room.cut(drawing);
                    black_box(&room);
                }
            }),
            original: Box::new(|at| {
                for (drawing, path) in &self.drawings[at] {
                    black_box(&original_cut_corners(path, &drawing.radii));
                }
            }),
        }
    }
}

/// What a drawing of one subpath is cut into, written over by the next.
pub struct Room {
    shapes: [u32; 1],
    numbers: Vec<f64>,
}

impl Room {
    pub fn of(anchors: usize) -> Room {
        Room {
            shapes: [0],
            numbers: vec![0.0; 2 * SIX * anchors],
        }
    }

    pub fn cut(&mut self, drawing: &Drawing) {
        let refusal = ffi::cut_corners(
            &drawing.path.shapes,
            &drawing.path.numbers,
            &drawing.radii,
            drawing.kind,
            &mut self.shapes,
            &mut self.numbers,
            &mut [0; 4],
        );
        assert_eq!(refusal, ACCEPTED);
    }
}

/// The original's function as a call, which the library's cannot but be.
#[inline(never)]
pub fn original_cut_corners(path: &BezPath, radii: &[f64]) -> BezPath {
    cut_corners(path, |(_, i)| radii[i], CornerKind::Round)
}

/// Corners on both sides of a line and back; their handles, if any, do not make them smooth.
pub fn zigzag(anchors: usize, curved: bool, random: &mut Random) -> (Drawing, BezPath) {
    let anchor = |k: usize| {
        let p = P::new(
            10.0 * k as f64,
            if k.is_multiple_of(2) { 0.0 } else { 20.0 },
        );
        let mut beside = |x: f64| p + P::new(x + random.signed_unit(), 4.0 + random.unit());
        Anchor {
            p,
            h_in: if curved { beside(-3.0) } else { p },
            h_out: if curved { beside(3.0) } else { p },
        }
    };
    let path = vec![SubPath {
        anchors: (0..anchors).map(anchor).collect(),
        closed: true,
    }];
    let drawing = Drawing {
        path: Path::of(&path),
        radii: (0..anchors).map(|_| 1.0 + random.unit()).collect(),
        ..Drawing::default()
    };
    let cut = drawing.cut();
    assert_eq!(cut[0].anchors.len(), 2 * anchors, "every corner is cut");
    (drawing, path)
}
