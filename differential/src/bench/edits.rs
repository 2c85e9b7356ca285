//! One edit of a drawing and its cut cache, against the original's cut of the whole drawing as the edit leaves it.

use super::cuts::{original_cut_corners, zigzag};
use super::Race;
use crate::caches::{Cache, TWELVE};
use crate::drawings::Drawing;
use crate::ffi;
use crate::original::bezier::{split, BezPath};
use crate::paths::SIX;
use crate::random::Random;
use crate::refusal::{ACCEPTED, MOST_ANCHORS};
use std::cell::RefCell;
use std::hint::black_box;
use std::rc::Rc;

/// Drawings of one size; a round edits one of them.
const DRAWINGS: usize = 4;
/// The middle of a segment.
const HALF: f64 = 0.5;

#[derive(Clone, Copy)]
pub enum Edit {
    Move,
    SetRadius,
    Split,
}

impl Edit {
    pub const ALL: [Edit; 3] = [Edit::Move, Edit::SetRadius, Edit::Split];

    pub fn name(self) -> &'static str {
        match self {
            Edit::Move => "move_anchor",
            Edit::SetRadius => "set_radius",
            Edit::Split => "split_segment",
        }
    }

    /// So many anchors, or as many as can be edited: a split makes one more.
    pub fn fitting(self, anchors: usize) -> usize {
        match self {
            Edit::Move | Edit::SetRadius => anchors,
            Edit::Split => anchors.min(MOST_ANCHORS - 1),
        }
    }
}

/// Where the edits are, going from place to place with the rounds.
#[derive(Clone, Copy)]
pub enum Where {
    All,
    NearTheEnd,
}

impl Where {
    /// Anchors of the drawings. Of eight, most are near the end anyway.
    fn counts(self) -> &'static [usize] {
        match self {
            Where::All => &[8, 64, 512],
            Where::NearTheEnd => &[64, 512],
        }
    }

    /// The end of a row's name.
    fn name(self) -> &'static str {
        match self {
            Where::All => "",
            Where::NearTheEnd => ", near the end",
        }
    }

    fn place(self, round: usize, anchors: usize) -> usize {
        match self {
            Where::All => round * 37 % anchors,
            Where::NearTheEnd => near_the_end(round, anchors),
        }
    }
}

/// Anchors on either side of a closed subpath's end that are near it.
pub const NEAR: usize = 3;

/// The one of them that a round edits.
pub fn near_the_end(round: usize, anchors: usize) -> usize {
    (anchors - NEAR + round % (2 * NEAR)) % anchors
}

struct Input {
    name: String,
    edit: Edit,
    at: Where,
    drawings: Vec<Edited>,
}

/// A drawing, and what the original cuts. Of a moved anchor or a new radius it is the drawing as it was: only the numbers differ.
struct Edited {
    drawing: Drawing,
    path: BezPath,
    radii: Vec<f64>,
}

impl Edited {
    fn of((drawing, mut path): (Drawing, BezPath), edit: Edit) -> Edited {
        let mut radii = drawing.radii.clone();
        if let Edit::Split = edit {
            let a = radii.len() / 2;
            split(&mut path, 0, a, HALF);
            radii.insert(a + 1, 0.0);
        }
        Edited {
            drawing,
            path,
            radii,
        }
    }
}

pub struct Inputs(Vec<Input>);

impl Inputs {
    pub fn draw(at: Where, random: &mut Random) -> Inputs {
        let mut inputs = Vec::new();
        for curved in [false, true] {
            for edit in Edit::ALL {
                for &count in at.counts() {
                    inputs.push(Input::draw(edit, count, curved, at, random));
                }
            }
        }
        Inputs(inputs)
    }

    pub fn races(&self) -> Vec<Race<'_>> {
        self.0.iter().map(Input::race).collect()
    }
}

impl Input {
    fn draw(edit: Edit, count: usize, curved: bool, at: Where, random: &mut Random) -> Input {
        let (call, anchors) = (edit.name(), edit.fitting(count));
        let sides = if curved { "curved" } else { "straight" };
        Input {
            name: format!("{call}, {anchors} anchors, {sides}{}", at.name()),
            edit,
            at,
            drawings: (0..DRAWINGS)
                .map(|_| Edited::of(zigzag(anchors, curved, random), edit))
                .collect(),
        }
    }

    fn race(&self) -> Race<'_> {
        let fresh = || Vec::from_iter(self.drawings.iter().map(|d| Kept::of(&d.drawing)));
        let (kept, copies) = (Rc::new(RefCell::new(fresh())), fresh());
        let lent = Rc::clone(&kept);
        let mut round = 0;
        Race {
            name: &self.name,
            calls: 1,
            inputs: DRAWINGS,
            restore: Some(Box::new(move |at| {
                lent.borrow_mut()[at.clone()].clone_from_slice(&copies[at]);
            })),
            ours: Box::new(move |at| {
                for kept in &mut kept.borrow_mut()[at] {
                    round += 1;
                    kept.edit(self.edit, self.at.place(round, kept.anchors));
                    black_box(&kept);
                }
            }),
            original: Box::new(|at| {
                for Edited { path, radii, .. } in &self.drawings[at] {
                    black_box(&original_cut_corners(path, radii));
                }
            }),
        }
    }
}

/// A drawing and its cache, with room for one place more.
#[derive(Clone)]
pub struct Kept {
    anchors: usize,
    shapes: [u32; 1],
    numbers: Vec<f64>,
    radii: Vec<f64>,
    places: Vec<f64>,
    flags: Vec<u32>,
}

impl Kept {
    pub fn of(drawing: &Drawing) -> Kept {
        let mut cache = Cache::of(drawing);
        let mut kept = Kept {
            anchors: drawing.radii.len(),
            shapes: [drawing.path.shapes[0]],
            numbers: drawing.path.numbers.clone(),
            radii: drawing.radii.clone(),
            places: std::mem::take(&mut cache.numbers),
            flags: std::mem::take(&mut cache.flags),
        };
        kept.numbers.resize(SIX * (kept.anchors + 1), 0.0);
        kept.radii.resize(kept.anchors + 1, 0.0);
        kept.places.resize(TWELVE * (kept.anchors + 1), 0.0);
        kept.flags.resize(kept.anchors + 1, 0);
        kept
    }

    /// Edits an anchor, or the segment that starts at it.
    pub fn edit(&mut self, edit: Edit, i: usize) {
        let step = 0.125;
        let mut answer = [0; 4];
        let refusal = match edit {
            Edit::Move => {
                let mut new = [0.0; SIX];
                new.copy_from_slice(&self.numbers[SIX * i..][..SIX]);
                for x in &mut new {
                    *x += step;
                }
                ffi::move_anchor(
                    &self.shapes,
                    &mut self.numbers,
                    &self.radii,
                    0,
                    &mut self.places,
                    &mut self.flags,
                    0,
                    i,
                    &new,
                    &mut answer,
                )
            }
            Edit::SetRadius => ffi::set_radius(
                &self.shapes,
                &self.numbers,
                &mut self.radii,
                0,
                &mut self.places,
                &mut self.flags,
                0,
                i,
                1.0 + step,
                &mut answer,
            ),
            Edit::Split => ffi::split_segment(
                &mut self.shapes,
                &mut self.numbers,
                &mut self.radii,
                0,
                &mut self.places,
                &mut self.flags,
                0,
                i,
                HALF,
                &mut answer,
            ),
        };
        assert_eq!(refusal, ACCEPTED);
    }
}
