//! How many subpaths a path has, and how many anchors each.

use crate::family::Family;
use crate::original::bezier::BezPath;
use crate::random::Random;
use crate::refusal::MOST_SUBPATHS;

pub fn families() -> Vec<Family> {
    [SUBPATHS, ANCHORS, SUBPATH].concat()
}

/// Anchor counts of the subpaths. Large ones are rare, since they take long.
pub fn draw(most_anchors: usize, random: &mut Random) -> Vec<usize> {
    let subpaths = match random.below(32) {
        0 => 0,
        1..20 => 1,
        20..28 => 2 + random.below(3) as usize,
        28..30 => 5 + random.below(27) as usize,
        30 => MOST_SUBPATHS,
        _ => MOST_SUBPATHS + 1,
    };
    if random.one_in(32) {
        return vec![0; subpaths];
    }
    if subpaths > 0 && random.one_in(20) {
        let anchors = match random.below(4) {
            0 => most_anchors,
            1 => most_anchors + 1,
            _ => 17 + random.below(most_anchors as u64 - 17) as usize,
        };
        return shares(anchors, subpaths, random);
    }
    let small = |random: &mut Random| match random.below(8) {
        small @ 0..6 => small as usize,
        _ => 6 + random.below(11) as usize,
    };
    (0..subpaths).map(|_| small(random)).collect()
}

/// Adds up to `anchors`; some may be 0.
fn shares(mut anchors: usize, subpaths: usize, random: &mut Random) -> Vec<usize> {
    let mut shares: Vec<usize> = (1..subpaths)
        .map(|_| {
            let most = random.below(anchors as u64 + 1);
            let share = random.below(most + 1) as usize;
            anchors -= share;
            share
        })
        .collect();
    shares.push(anchors);
    shares
}

const SUBPATHS: &[Family] = &[
    ("subpaths", "0"),
    ("subpaths", "1"),
    ("subpaths", "2 to 31"),
    ("subpaths", "32"),
    ("subpaths", "33"),
];
const ANCHORS: &[Family] = &[
    ("anchors", "0"),
    ("anchors", "1"),
    ("anchors", "2"),
    ("anchors", "3"),
    ("anchors", "4"),
    ("anchors", "5"),
    ("anchors", "more"),
    ("anchors", "the most"),
    ("anchors", "one over"),
];
const SUBPATH: &[Family] = &[
    ("subpath", "empty"),
    ("subpath", "open, 1"),
    ("subpath", "open, 2"),
    ("subpath", "open"),
    ("subpath", "closed, 1"),
    ("subpath", "closed, 2"),
    ("subpath", "closed"),
];

/// What sizes a path has.
pub fn note(path: &BezPath, most_anchors: usize, drawn: &mut Vec<Family>) {
    drawn.push(match path.len() {
        few @ 0..2 => SUBPATHS[few],
        MOST_SUBPATHS => SUBPATHS[3],
        few if few < MOST_SUBPATHS => SUBPATHS[2],
        _ => SUBPATHS[4],
    });
    let anchors: usize = path.iter().map(|sp| sp.anchors.len()).sum();
    drawn.push(match anchors {
        few @ 0..6 => ANCHORS[few],
        _ if anchors < most_anchors => ANCHORS[6],
        _ if anchors == most_anchors => ANCHORS[7],
        _ => ANCHORS[8],
    });
    for sp in path {
        let family = match sp.anchors.len() {
            0 => SUBPATH[0],
            count => SUBPATH[count.min(3) + if sp.closed { 3 } else { 0 }],
        };
        if !drawn.contains(&family) {
            drawn.push(family);
        }
    }
}
