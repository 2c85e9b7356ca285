//! Drawings: a path, a radius for each anchor and a kind, then damaged.

use crate::damage::{far_more, lengthen, one_more, put_outside, shorten, wrap};
use crate::family::{self, Family, Group};
use crate::original::bezier::{cut_corners, AnchorRef, BezPath, CornerKind};
use crate::outlines;
use crate::paths::{size, Path, CLOSED};
use crate::radii::{self, RADII};
use crate::random::Random;
use crate::refusal::{in_limit, MOST_ANCHORS};
use std::fmt::{Display, Formatter, Result};

#[derive(Default)]
pub struct Drawing {
    pub families: Vec<Family>,
    pub path: Path,
    pub radii: Vec<f64>,
    pub kind: u32,
}

/// The original's, by the number that the library is given.
const KINDS: [CornerKind; 3] = [CornerKind::Round, CornerKind::Inverted, CornerKind::Chamfer];

pub fn families() -> Vec<Family> {
    let drawing = [RADII.families(), KIND.families(), NO_KIND.families()].concat();
    let lists = [LISTS.families(), DAMAGED_LISTS.families()].concat();
    [outlines::families(), drawing, lists, OUTSIDE.families()].concat()
}

impl Drawing {
    pub fn draw(random: &mut Random) -> Drawing {
        let mut drawing = Drawing::whole(random);
        // Damage is rare, so that most drawings are cut; some drawings have it in several ways.
        let lists = if random.one_in(8) {
            &DAMAGED_LISTS
        } else {
            &LISTS
        };
        lists.draw(random, &mut drawing.families)(&mut drawing, random);
        if random.one_in(12) {
            OUTSIDE.draw(random, &mut drawing.families)(&mut drawing, random);
        }
        if random.one_in(16) {
            drawing.families.retain(|(group, _)| *group != KIND.name);
            drawing.kind = NO_KIND.draw(random, &mut drawing.families)(random);
        }
        drawing
    }

    /// One whose lists and numbers are as they should be, save that there may be too many.
    pub fn whole(random: &mut Random) -> Drawing {
        let mut families = Vec::new();
        let path = outlines::draw(MOST_ANCHORS, random, &mut families);
        let radii = radii::draw(&path, random, &mut families);
        let kind = *KIND.draw(random, &mut families);
        let path = Path::of(&path);
        Drawing {
            families,
            path,
            radii,
            kind,
        }
    }

    /// Whether document 01 does not refuse its lists, 7.
    pub fn is_readable(&self) -> bool {
        self.path.is_readable(MOST_ANCHORS) && self.path.anchors() <= self.radii.len() as u64
    }

    /// The first place of a readable drawing whose anchor or radius breaks the limit.
    pub fn first_outside(&self) -> Option<usize> {
        let radii = &self.radii[..self.path.anchors() as usize];
        let radius = radii.iter().position(|&r| !in_limit(r));
        // Of two places the lesser, and any place before none.
        [self.path.first_outside(), radius]
            .into_iter()
            .flatten()
            .min()
    }

    /// Where document 01 refuses a readable drawing 5: at the first such place, or for its kind at the
    /// anchor count.
    pub fn first_wrong(&self) -> Option<usize> {
        let no_kind = self.kind as usize >= KINDS.len();
        let count = self.path.anchors() as usize;
        self.first_outside().or(no_kind.then_some(count))
    }

    /// The radius at an anchor of a readable drawing.
    pub fn radius(&self) -> impl Fn(AnchorRef) -> f64 + '_ {
        let counts = self.path.shapes.iter().map(|word| word & !CLOSED);
        let starts: Vec<usize> = counts
            .scan(0, |next, count| {
                let start = *next;
                *next += count as usize;
                Some(start)
            })
            .collect();
        move |(s, i)| self.radii[starts[s] + i]
    }

    /// The original's answer for a drawing that is not refused.
    pub fn cut(&self) -> BezPath {
        let kind = KINDS[self.kind as usize];
        cut_corners(&self.path.original(), self.radius(), kind)
    }

    /// How much there is to read.
    pub fn size(&self) -> u64 {
        self.path.size() + size(&self.radii) + u64::from(self.kind)
    }
}

static KIND: Group<u32> = Group {
    name: "kind",
    ways: &[("round", 0), ("inverted", 1), ("chamfer", 2)],
};

/// Kinds that there are not.
static NO_KIND: Group<fn(&mut Random) -> u32> = Group {
    name: "kind",
    ways: &[
        ("3", |_| 3),
        ("above 3", |random| {
            ((random.bits() >> 32 >> random.below(32)) as u32).max(4)
        }),
    ],
};

type Damage = fn(&mut Drawing, &mut Random);

static LISTS: Group<Damage> = Group {
    name: "lists",
    ways: &[
        ("exact", |_, _| {}),
        // What stands there breaks every rule, and is not read.
        ("longer", |drawing, random| {
            lengthen(&mut drawing.path.numbers, random);
            lengthen(&mut drawing.radii, random);
        }),
    ],
};

static DAMAGED_LISTS: Group<Damage> = Group {
    name: "lists",
    ways: &[
        ("a number short", |drawing, _| {
            drawing.path.numbers.pop();
        }),
        ("numbers short", |drawing, random| {
            shorten(&mut drawing.path.numbers, random)
        }),
        ("a radius short", |drawing, _| {
            drawing.radii.pop();
        }),
        ("radii short", |drawing, random| {
            shorten(&mut drawing.radii, random)
        }),
        ("all short", |drawing, random| {
            shorten(&mut drawing.path.numbers, random);
            shorten(&mut drawing.radii, random);
        }),
        ("an anchor more", |drawing, random| {
            one_more(&mut drawing.path.shapes, random)
        }),
        ("far more anchors", |drawing, random| {
            far_more(&mut drawing.path.shapes, random)
        }),
        ("counts that wrap", |drawing, random| {
            wrap(&mut drawing.path.shapes, random)
        }),
    ],
};

static OUTSIDE: Group<Damage> = Group {
    name: "outside",
    ways: &[
        ("a number", |drawing, random| {
            put_outside(&mut drawing.path.numbers, random)
        }),
        ("a radius", |drawing, random| {
            put_outside(&mut drawing.radii, random)
        }),
        ("several", |drawing, random| {
            for _ in 0..3 {
                put_outside(&mut drawing.path.numbers, random);
                put_outside(&mut drawing.radii, random);
            }
        }),
    ],
};

impl Display for Drawing {
    fn fmt(&self, f: &mut Formatter) -> Result {
        writeln!(f, "    {}", family::list(&self.families))?;
        writeln!(f, "{}", self.path)?;
        write!(f, "    radii")?;
        for r in &self.radii {
            write!(f, " {:#018x} ({r:e})", r.to_bits())?;
        }
        write!(f, "\n    kind {}", self.kind)
    }
}
