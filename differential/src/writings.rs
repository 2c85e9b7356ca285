//! Paths to write: drawn ones and cut ones, then damaged.

use crate::curves::is_straight;
use crate::damage::{self, damage};
use crate::drawings::Drawing;
use crate::family::{self, Family};
use crate::original::bezier::{BezPath, SubPath};
use crate::outlines;
use crate::paths::Path;
use crate::random::Random;
use crate::refusal::MOST_CUT_ANCHORS;
use crate::sizes;
use std::fmt::{Display, Formatter, Result};

pub struct Writing {
    pub families: Vec<Family>,
    pub path: Path,
}

const DRAWN: Family = ("path", "drawn");
const CUT: Family = ("path", "cut");

pub fn families() -> Vec<Family> {
    let path = [vec![DRAWN, CUT], SEGMENTS.to_vec()].concat();
    let lent = [damage::families(), vec![damage::OUTSIDE]].concat();
    [path, lent, outlines::families()].concat()
}

impl Writing {
    pub fn draw(random: &mut Random) -> Writing {
        let mut writing = if random.one_in(3) {
            Writing::cut(random)
        } else {
            Writing::drawn(random)
        };
        damage(&mut writing.path, &mut writing.families, random);
        writing
    }

    fn drawn(random: &mut Random) -> Writing {
        let mut families = vec![DRAWN];
        let path = outlines::draw(MOST_CUT_ANCHORS, random, &mut families);
        note_segments(&path, &mut families);
        let path = Path::of(&path);
        Writing { families, path }
    }

    /// What the original cuts of a drawing; numbers of it may break the limit.
    fn cut(random: &mut Random) -> Writing {
        loop {
            let drawing = Drawing::whole(random);
            if drawing.is_readable() {
                let mut families = vec![CUT];
                let cut = drawing.cut();
                sizes::note(&cut, MOST_CUT_ANCHORS, &mut families);
                note_segments(&cut, &mut families);
                let path = Path::of(&cut);
                return Writing { families, path };
            }
        }
    }
}

/// What the original writes; a closing line it does not.
const SEGMENTS: &[Family] = &[
    ("segments", "L"),
    ("segments", "L, for -0 = 0"),
    ("segments", "C"),
    ("segments", "closing line"),
    ("segments", "closing line, for -0 = 0"),
    ("segments", "closing C"),
];

fn note_segments(path: &BezPath, families: &mut Vec<Family>) {
    for sp in path {
        for (a, b) in sp.segments() {
            let segment = segment(sp, a, b);
            if !families.contains(&segment) {
                families.push(segment);
            }
        }
    }
}

fn segment(sp: &SubPath, a: usize, b: usize) -> Family {
    let c = sp.cubic(a, b);
    let bits = c.map(|p| (p.x.to_bits(), p.y.to_bits()));
    let same_bits = bits[1] == bits[0] && bits[2] == bits[3];
    let way = match (is_straight(&c), same_bits) {
        (true, true) => 0,
        (true, false) => 1,
        (false, _) => 2,
    };
    SEGMENTS[if b == 0 { 3 + way } else { way }]
}

impl Display for Writing {
    fn fmt(&self, f: &mut Formatter) -> Result {
        writeln!(f, "    {}", family::list(&self.families))?;
        write!(f, "{}", self.path)
    }
}
