//! A path as it is lent, in flat lists, and as the original has it.

use crate::case::significant_bits;
use crate::original::bezier::{Anchor, BezPath, SubPath};
use crate::original::counted;
use crate::original::geom::P;
use crate::refusal::{in_limit, MOST_SUBPATHS};
use std::fmt::{Display, Formatter, Result};

/// A shape word's bit for a closed subpath; the others are its anchor count.
pub const CLOSED: u32 = 1 << 31;
/// Numbers of an anchor: p, the handle in, the handle out, x before y.
pub const SIX: usize = 6;

/// Either list may be damaged, and the numbers may be more than the shape words call for.
#[derive(Clone, Default)]
pub struct Path {
    pub shapes: Vec<u32>,
    pub numbers: Vec<f64>,
}

impl Path {
    pub fn of(path: &BezPath) -> Path {
        let word = |sp: &SubPath| sp.anchors.len() as u32 | if sp.closed { CLOSED } else { 0 };
        let anchors = path.iter().flat_map(|sp| &sp.anchors);
        let points = anchors.flat_map(|a| [a.p, a.h_in, a.h_out]);
        Path {
            shapes: path.iter().map(word).collect(),
            numbers: points.flat_map(|p| [p.x, p.y]).collect(),
        }
    }

    /// Anchors that the shape words call for.
    pub fn anchors(&self) -> u64 {
        count(&self.shapes)
    }

    /// Whether it may be read: whether document 01 does not refuse its lists, 7.
    pub fn is_readable(&self, most_anchors: usize) -> bool {
        let anchors = self.anchors();
        self.shapes.len() <= MOST_SUBPATHS
            && anchors <= most_anchors as u64
            && anchors * SIX as u64 <= self.numbers.len() as u64
    }

    /// The numbers of the anchor `place` of a readable path.
    pub fn anchor(&self, place: usize) -> &[f64] {
        &self.numbers[SIX * place..][..SIX]
    }

    /// The first anchor of a readable path that breaks the limit.
    pub fn first_outside(&self) -> Option<usize> {
        let mut places = 0..self.anchors() as usize;
        places.find(|&place| !self.anchor(place).iter().all(|&x| in_limit(x)))
    }

    /// A readable path as the original has it.
    pub fn original(&self) -> BezPath {
        self.build(
            |[p, h_in, h_out]| Anchor { p, h_in, h_out },
            |anchors, closed| SubPath { anchors, closed },
        )
    }

    /// A readable path as the original that counts its branches has it.
    pub fn counted(&self) -> counted::BezPath {
        self.build(
            |[p, h_in, h_out]| counted::Anchor { p, h_in, h_out },
            |anchors, closed| counted::SubPath { anchors, closed },
        )
    }

    /// A readable path, from what is made of an anchor's points and of a subpath's anchors.
    pub fn build<A, S>(&self, anchor: fn([P; 3]) -> A, subpath: fn(Vec<A>, bool) -> S) -> Vec<S> {
        let mut place = 0;
        let mut next = || {
            let numbers = self.anchor(place);
            place += 1;
            anchor([0, 2, 4].map(|k| P::new(numbers[k], numbers[k + 1])))
        };
        let mut sp = |word: u32| {
            let anchors = (0..word & !CLOSED).map(|_| next()).collect();
            subpath(anchors, word & CLOSED != 0)
        };
        self.shapes.iter().map(|&word| sp(word)).collect()
    }

    /// How much there is to read.
    pub fn size(&self) -> u64 {
        size(&self.numbers) + self.shapes.len() as u64
    }
}

/// Anchors that shape words call for, in a sum that cannot wrap.
pub fn count(shapes: &[u32]) -> u64 {
    shapes.iter().map(|&word| u64::from(word & !CLOSED)).sum()
}

pub fn size(numbers: &[f64]) -> u64 {
    numbers.iter().map(|x| significant_bits(x.to_bits())).sum()
}

impl Display for Path {
    fn fmt(&self, f: &mut Formatter) -> Result {
        write!(f, "    shapes")?;
        for word in &self.shapes {
            write!(f, " {word:#x}")?;
        }
        for anchor in self.numbers.chunks(SIX) {
            write!(f, "\n   ")?;
            for x in anchor {
                write!(f, " {:#018x}", x.to_bits())?;
            }
            write!(f, "  {anchor:?}")?;
        }
        Ok(())
    }
}
