//! A drawing and its cut cache in lists, the three edits of them, and what document 01 has each do ('Kept outline').

use crate::caches::{Cache, TWELVE};
use crate::compare::Expected;
use crate::drawings::Drawing;
use crate::family;
use crate::original::bezier;
use crate::paths::{count, Path, CLOSED, SIX};
use crate::refusal::{
    in_limit, ACCEPTED, ARGUMENTS, CAPACITY, LISTS, MOST_ANCHORS, OUTPUT, REFERENCE, RESULT,
};
use std::fmt::{Display, Formatter, Result};

/// Any list may be damaged, and any but the shape list longer than is called for.
#[derive(Default)]
pub struct Kept {
    pub drawing: Drawing,
    pub numbers: Vec<f64>,
    pub flags: Vec<u32>,
}

#[derive(Clone, Copy, Debug)]
pub enum Edit {
    Move {
        s: usize,
        i: usize,
        new: [f64; SIX],
    },
    SetRadius {
        s: usize,
        i: usize,
        radius: f64,
    },
    /// The segment that starts at anchor `a`.
    Split {
        s: usize,
        a: usize,
        t: f64,
    },
}

impl Edit {
    /// The numbers that it is given.
    fn numbers(&self) -> &[f64] {
        match self {
            Edit::Move { new, .. } => new,
            Edit::SetRadius { radius, .. } => std::slice::from_ref(radius),
            Edit::Split { t, .. } => std::slice::from_ref(t),
        }
    }

    pub fn subpath(&self) -> usize {
        let (Edit::Move { s, .. } | Edit::SetRadius { s, .. } | Edit::Split { s, .. }) = *self;
        s
    }

    /// Around which anchor of its subpath, as it leaves that, and how many steps from it, places are
    /// recut.
    pub fn reach(&self) -> (usize, usize) {
        match *self {
            Edit::Move { i, .. } => (i, 3),
            Edit::SetRadius { i, .. } => (i, 2),
            Edit::Split { a, .. } => (a + 1, 4),
        }
    }

    /// Whether its anchor or segment is there.
    pub fn is_known(&self, path: &Path) -> bool {
        let Some(word) = path.shapes.get(self.subpath()) else {
            return false;
        };
        let count = (word & !CLOSED) as usize;
        match *self {
            Edit::Move { i, .. } | Edit::SetRadius { i, .. } => i < count,
            Edit::Split { s, a, .. } => {
                let segments = path.original()[s].segments();
                segments.into_iter().any(|(start, _)| start == a)
            }
        }
    }

    /// What it makes of a drawing that it is not refused 7, 5, 6 or 10 for: exact lists.
    pub fn made(&self, drawing: &Drawing) -> Drawing {
        let n = drawing.path.anchors() as usize;
        let mut made = Drawing {
            path: Path {
                shapes: drawing.path.shapes.clone(),
                numbers: drawing.path.numbers[..SIX * n].to_vec(),
            },
            radii: drawing.radii[..n].to_vec(),
            kind: drawing.kind,
            ..Drawing::default()
        };
        let first = first_place(&drawing.path, self.subpath());
        match *self {
            Edit::Move { i, new, .. } => {
                made.path.numbers[SIX * (first + i)..][..SIX].copy_from_slice(&new)
            }
            Edit::SetRadius { i, radius, .. } => made.radii[first + i] = radius,
            Edit::Split { s, a, t } => {
                let mut path = made.path.original();
                bezier::split(&mut path, s, a, t);
                made.path = Path::of(&path);
                made.radii.insert(first + a + 1, 0.0);
            }
        }
        made
    }

    /// Where place `k` stood before it.
    fn stood(&self, path: &Path, k: usize) -> usize {
        match *self {
            Edit::Split { s, a, .. } if k > first_place(path, s) + a => k - 1,
            _ => k,
        }
    }

    /// The places of the drawing it made that are recut, lowest first, by definition: so many steps
    /// off, round the end where the subpath is closed.
    pub fn near(&self, made: &Path) -> Vec<usize> {
        let (s, (at, reach)) = (self.subpath(), self.reach());
        let first = first_place(made, s);
        let (n, closed) = (
            (made.shapes[s] & !CLOSED) as usize,
            made.shapes[s] & CLOSED != 0,
        );
        let steps = |j: usize| {
            let inside = at.abs_diff(j);
            if closed {
                inside.min(n - inside)
            } else {
                inside
            }
        };
        let near = (0..n).filter(|&j| steps(j) <= reach);
        near.map(|j| first + j).collect()
    }
}

/// The place of the first anchor of subpath `s` of a readable path.
pub fn first_place(path: &Path, s: usize) -> usize {
    count(&path.shapes[..s]) as usize
}

impl Kept {
    /// Whether document 01 does not refuse its lists, 7.
    pub fn is_readable(&self) -> bool {
        let places = self.drawing.path.anchors();
        self.drawing.is_readable()
            && places * TWELVE as u64 <= self.numbers.len() as u64
            && places <= self.flags.len() as u64
    }

    /// The same lists, of no family.
    pub fn copy(&self) -> Kept {
        Kept {
            drawing: Drawing {
                families: Vec::new(),
                path: self.drawing.path.clone(),
                radii: self.drawing.radii.clone(),
                kind: self.drawing.kind,
            },
            numbers: self.numbers.clone(),
            flags: self.flags.clone(),
        }
    }

    /// Document 01's refusals in their order, 7, 5, 6, 10, 9, 8; else every list, with the places that
    /// are near recut by the original, and all others as they were.
    pub fn expected(&self, edit: &Edit) -> Expected {
        let drawing = &self.drawing;
        if !self.is_readable() {
            return Expected::refused(LISTS);
        }
        let n = drawing.path.anchors() as usize;
        let loose = edit.numbers().iter().all(|&x| in_limit(x));
        if let Some(place) = drawing.first_wrong().or((!loose).then_some(n)) {
            return Expected::refused_at(place, ARGUMENTS);
        }
        if !edit.is_known(&drawing.path) {
            return Expected::refused(REFERENCE);
        }
        if matches!(edit, Edit::Split { .. }) && n == MOST_ANCHORS {
            return Expected::refused(CAPACITY);
        }
        let made = edit.made(drawing);
        if let Some(place) = made.path.first_outside() {
            return Expected::refused_at(place, RESULT);
        }
        let near = edit.near(&made.path);
        let s = edit.subpath();
        let first = first_place(&made.path, s);
        let cut = Cache::of(&subpath(&made, s));
        let twelve = |k: &usize| &cut.numbers[TWELVE * (k - first)..][..TWELVE];
        let outside = |k: &&usize| twelve(k).iter().any(|&x| !in_limit(x));
        if let Some(&place) = near.iter().find(outside) {
            return Expected::refused_at(place, RESULT);
        }
        let places = made.radii.len();
        if drawing.path.numbers.len() < SIX * places
            || drawing.radii.len() < places
            || self.numbers.len() < TWELVE * places
            || self.flags.len() < places
        {
            return Expected::refused(OUTPUT);
        }
        let mut numbers = Vec::with_capacity(TWELVE * places);
        let mut flags = Vec::with_capacity(places);
        for k in 0..places {
            if near.binary_search(&k).is_ok() {
                numbers.extend(twelve(&k).iter().map(|x| x.to_bits()));
                flags.push(cut.flags[k - first].into());
            } else {
                let stood = edit.stood(&drawing.path, k);
                let kept = &self.numbers[TWELVE * stood..][..TWELVE];
                numbers.extend(kept.iter().map(|x| x.to_bits()));
                flags.push(self.flags[stood].into());
            }
        }
        Expected {
            refusal: ACCEPTED,
            answer: [0, places as u64, 0, near.len() as u64],
            written: vec![
                made.path.shapes.iter().copied().map(u64::from).collect(),
                made.path.numbers.iter().map(|x| x.to_bits()).collect(),
                made.radii.iter().map(|x| x.to_bits()).collect(),
                numbers,
                flags,
            ],
        }
    }

    pub fn size(&self) -> u64 {
        self.drawing.size() + (self.numbers.len() + self.flags.len()) as u64
    }
}

/// A drawing of one subpath.
fn subpath(drawing: &Drawing, s: usize) -> Drawing {
    let first = first_place(&drawing.path, s);
    let n = (drawing.path.shapes[s] & !CLOSED) as usize;
    Drawing {
        path: Path {
            shapes: vec![drawing.path.shapes[s]],
            numbers: drawing.path.numbers[SIX * first..][..SIX * n].to_vec(),
        },
        radii: drawing.radii[first..][..n].to_vec(),
        kind: drawing.kind,
        ..Drawing::default()
    }
}

impl Display for Kept {
    fn fmt(&self, f: &mut Formatter) -> Result {
        let families = family::list(&self.drawing.families);
        write!(f, "    {families}\n{}\n    numbers", self.drawing)?;
        for place in self.numbers.chunks(TWELVE) {
            write!(f, "\n    {place:?}")?;
        }
        write!(f, "\n    flags {:x?}", self.flags)
    }
}
