//! Damage to a list that is given, and to a path's lists.

use crate::family::{Family, Group};
use crate::paths::{Path, CLOSED};
use crate::random::Random;
use crate::values::{nan, outside};

/// What is done to a path's lists before a call.
pub type Change = fn(&mut Path, &mut Random);

pub static WHOLE: Group<Change> = Group {
    name: "lists",
    ways: &[
        ("exact", |_, _| {}),
        // What stands there breaks every rule, and is not read.
        ("longer", |path, random| lengthen(&mut path.numbers, random)),
    ],
};

static DAMAGED: Group<Change> = Group {
    name: "lists",
    ways: &[
        ("a number short", |path, _| {
            path.numbers.pop();
        }),
        ("short", |path, random| shorten(&mut path.numbers, random)),
        MORE[0],
        MORE[1],
        MORE[2],
    ],
};

/// Words that call for anchors that there are not.
pub const MORE: [(&str, Change); 3] = [
    ("an anchor more", |path, random| {
        one_more(&mut path.shapes, random)
    }),
    ("far more anchors", |path, random| {
        far_more(&mut path.shapes, random)
    }),
    ("counts that wrap", |path, random| {
        wrap(&mut path.shapes, random)
    }),
];

pub const OUTSIDE: Family = ("outside", "a number");

/// What `damage` notes of the lists; of a number it notes `OUTSIDE`.
pub fn families() -> Vec<Family> {
    [WHOLE.families(), DAMAGED.families()].concat()
}

/// A path as it is lent: rarely is a list too short, or a number beyond the limit.
pub fn damage(path: &mut Path, families: &mut Vec<Family>, random: &mut Random) {
    let lists = if random.one_in(8) { &DAMAGED } else { &WHOLE };
    lists.draw(random, families)(path, random);
    if random.one_in(12) {
        put_outside(&mut path.numbers, random);
        families.push(OUTSIDE);
    }
}

pub fn lengthen(list: &mut Vec<f64>, random: &mut Random) {
    for _ in 0..random.below(14) {
        list.push(if random.one_in(2) {
            nan(random)
        } else {
            outside(random)
        });
    }
}

pub fn shorten<T>(list: &mut Vec<T>, random: &mut Random) {
    list.truncate(random.below(list.len() as u64 + 1) as usize);
}

pub fn put_outside(list: &mut [f64], random: &mut Random) {
    if !list.is_empty() {
        let at = random.below(list.len() as u64) as usize;
        list[at] = outside(random);
    }
}

/// A count that the lists, if they are not longer, do not have the anchors for.
pub fn one_more(shapes: &mut [u32], random: &mut Random) {
    if !shapes.is_empty() {
        let at = random.below(shapes.len() as u64) as usize;
        shapes[at] += 1;
    }
}

pub fn far_more(shapes: &mut [u32], random: &mut Random) {
    if !shapes.is_empty() {
        let at = random.below(shapes.len() as u64) as usize;
        shapes[at] |= (random.bits() as u32 & !CLOSED) >> random.below(31);
    }
}

/// Counts of 2^32 in all, beside those that are there.
pub fn wrap(shapes: &mut Vec<u32>, random: &mut Random) {
    for count in [CLOSED - 1, 2, CLOSED - 1] {
        let at = random.below(shapes.len() as u64 + 1) as usize;
        shapes.insert(at, count | random.bits() as u32 & CLOSED);
    }
}
