//! Caches as document 01 lays them out ('Kept outline'), and what they assemble to.

use crate::damage::{far_more, one_more, put_outside, shorten, wrap};
use crate::drawings::Drawing;
use crate::family::{self, Family, Group};
use crate::original::placed;
use crate::paths::{count, size, Path, CLOSED, SIX};
use crate::random::Random;
use crate::refusal::{in_limit, MOST_ANCHORS, MOST_SUBPATHS};
use crate::values::{nan, outside, uniform};
use std::fmt::{Display, Formatter, Result};

/// A flag's bit for a place that is cut.
pub const CUT: u32 = 1 << 31;
/// Numbers of a place.
pub const TWELVE: usize = 2 * SIX;

/// Any list may be damaged.
#[derive(Clone, Default)]
pub struct Cache {
    pub families: Vec<Family>,
    pub shapes: Vec<u32>,
    pub numbers: Vec<f64>,
    pub flags: Vec<u32>,
}

impl Cache {
    /// The original's cut of a drawing that is not refused 7 or 5, place by place.
    pub fn of(drawing: &Drawing) -> Cache {
        let path = drawing.path.build(
            |[p, h_in, h_out]| placed::Anchor { p, h_in, h_out },
            |anchors, closed| placed::SubPath { anchors, closed },
        );
        let kinds = [
            placed::CornerKind::Round,
            placed::CornerKind::Inverted,
            placed::CornerKind::Chamfer,
        ];
        let kind = kinds[drawing.kind as usize];
        let (cut, is_cut) = placed::cut_corners(&path, drawing.radius(), kind);
        let mut cache = Cache {
            shapes: drawing.path.shapes.clone(),
            ..Cache::default()
        };
        let mut is_cut = is_cut.into_iter();
        for (before, after) in path.iter().zip(&cut) {
            let places: Vec<bool> = is_cut.by_ref().take(before.anchors.len()).collect();
            cache.lay(&after.anchors, before.closed, &places);
        }
        cache
    }

    /// The places of a subpath. A closed one's anchor 0, where it is cut, has its start last.
    fn lay(&mut self, cut: &[placed::Anchor], closed: bool, places: &[bool]) {
        let held_back = closed && places.first() == Some(&true);
        let mut next = cut.iter();
        for (i, &is_cut) in places.iter().enumerate() {
            let anchor = |a: &placed::Anchor| [a.p, a.h_in, a.h_out].map(|p| [p.x, p.y]);
            let start = match held_back && i == 0 {
                true => cut.last(),
                false => next.next(),
            };
            self.numbers
                .extend(anchor(start.expect("an anchor a place")).concat());
            match is_cut {
                true => {
                    let end = next.next().expect("two anchors a cut place");
                    self.numbers.extend(anchor(end).concat());
                }
                false => self.numbers.extend([0.0; SIX]),
            }
            self.flags.push(if is_cut { CUT } else { 0 });
        }
        assert_eq!(next.len(), usize::from(held_back), "every anchor is laid");
    }

    pub fn places(&self) -> u64 {
        count(&self.shapes)
    }

    /// Whether document 01 does not refuse its lists, 7.
    pub fn is_readable(&self) -> bool {
        let places = self.places();
        self.shapes.len() <= MOST_SUBPATHS
            && places <= MOST_ANCHORS as u64
            && places * TWELVE as u64 <= self.numbers.len() as u64
            && places <= self.flags.len() as u64
    }

    /// The first place of a readable cache of which a number breaks the limit.
    pub fn first_outside(&self) -> Option<usize> {
        let places = self.numbers.chunks(TWELVE).take(self.places() as usize);
        let good = |numbers: &[f64]| numbers.iter().all(|&x| in_limit(x));
        places.map(good).position(|good| !good)
    }

    /// The path that a readable cache assembles to: each place's anchor, or its start and its end;
    /// but the start of a closed subpath's anchor 0 comes last.
    pub fn assembled(&self) -> Path {
        let mut path = Path::default();
        let mut place = 0;
        for &word in &self.shapes {
            let before = path.numbers.len();
            let mut last = None;
            for i in 0..word & !CLOSED {
                let (start, end) = self.numbers[TWELVE * place..][..TWELVE].split_at(SIX);
                let is_cut = self.flags[place] & CUT != 0;
                match is_cut && i == 0 && word & CLOSED != 0 {
                    true => last = Some(start),
                    false => path.numbers.extend(start),
                }
                path.numbers.extend(if is_cut { end } else { &[] });
                place += 1;
            }
            path.numbers.extend(last.unwrap_or(&[]));
            let count = (path.numbers.len() - before) / SIX;
            path.shapes.push(count as u32 | word & CLOSED);
        }
        path
    }

    pub fn size(&self) -> u64 {
        size(&self.numbers) + (self.shapes.len() + self.flags.len()) as u64
    }
}

type Damage = fn(&mut Cache, &mut Random);

/// What others may have written to it. None of these lists is refused 7.
pub static WRITTEN: Group<Damage> = Group {
    name: "cache",
    ways: &[
        ("as built", |_, _| {}),
        ("longer", |cache, random| {
            let more = random.below(20) as usize;
            let numbers: Vec<f64> = (0..more).map(|_| nan(random)).collect();
            cache.numbers.extend(numbers);
            cache.flags.push(random.bits() as u32);
        }),
        // Only the top bit is read.
        ("other bits of flags", |cache, random| {
            for flag in &mut cache.flags {
                *flag |= random.bits() as u32 & !CUT;
            }
        }),
        // No number that is handed out.
        ("NaNs that are not read", |cache, random| {
            let places = cache.numbers.chunks_mut(TWELVE).zip(&cache.flags);
            for (numbers, flag) in places {
                if flag & CUT == 0 && numbers.len() == TWELVE {
                    numbers[SIX..].fill_with(|| nan(random));
                }
            }
        }),
        ("flags turned", |cache, random| {
            for flag in &mut cache.flags {
                *flag ^= random.bits() as u32 & CUT;
            }
        }),
        ("other flags and numbers", |cache, random| {
            cache.flags.fill_with(|| random.bits() as u32);
            cache.numbers.fill_with(|| uniform(random));
        }),
        ("a number outside", |cache, random| {
            put_outside(&mut cache.numbers, random)
        }),
        ("several outside", |cache, random| {
            for x in &mut cache.numbers {
                if random.one_in(8) {
                    *x = if random.one_in(2) {
                        outside(random)
                    } else {
                        nan(random)
                    };
                }
            }
        }),
    ],
};

/// Lists that are too short, or call for too much.
pub static DAMAGED: Group<Damage> = Group {
    name: "cache",
    ways: &[
        ("a number short", |cache, _| {
            cache.numbers.pop();
        }),
        ("numbers short", |cache, random| {
            shorten(&mut cache.numbers, random)
        }),
        ("a flag short", |cache, _| {
            cache.flags.pop();
        }),
        ("flags short", |cache, random| {
            shorten(&mut cache.flags, random)
        }),
        ("a place more", |cache, random| {
            one_more(&mut cache.shapes, random)
        }),
        ("far more places", |cache, random| {
            far_more(&mut cache.shapes, random)
        }),
        ("counts that wrap", |cache, random| {
            wrap(&mut cache.shapes, random)
        }),
        ("33 subpaths", |cache, _| {
            cache.shapes.resize(MOST_SUBPATHS + 1, 0)
        }),
    ],
};

impl Display for Cache {
    fn fmt(&self, f: &mut Formatter) -> Result {
        writeln!(f, "    {}", family::list(&self.families))?;
        write!(f, "    shapes {:x?}, flags {:x?}", self.shapes, self.flags)?;
        for place in self.numbers.chunks(TWELVE) {
            write!(f, "\n    {place:?}")?;
        }
        Ok(())
    }
}
