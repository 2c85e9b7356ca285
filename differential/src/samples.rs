//! Drawings that are in every run: document 01's samples, and inputs that a generator hardly meets.

use crate::drawings::Drawing;
use crate::family::Family;
use crate::original::bezier::to_svg_d;
use crate::paths::{Path, CLOSED};
use crate::refusal::LIMIT;

struct Sample {
    name: &'static str,
    /// Of one subpath.
    anchors: &'static [[f64; 6]],
    closed: bool,
    radii: &'static [f64],
    kind: u32,
    /// What is known of the cut: how many anchors it has, and its text.
    cut: usize,
    text: Option<&'static str>,
}

const SQUARE: &[[f64; 6]] = &[
    [0.0; 6],
    [8.0, 0.0, 8.0, 0.0, 8.0, 0.0],
    [8.0; 6],
    [0.0, 8.0, 0.0, 8.0, 0.0, 8.0],
];

/// A number that lets rounding do what a sample shows.
const FAR: f64 = f64::from_bits(0x40fb_3d4d_b391_7820);

/// Numbers just below the limit, from the last twelve bits of each.
const fn below_limit<const N: usize>(last: [u64; N]) -> [f64; N] {
    let mut numbers = [0.0; N];
    let mut k = 0;
    while k < N {
        numbers[k] = f64::from_bits(0x40ff_ffff_ffff_f000 | last[k]);
        k += 1;
    }
    numbers
}

const SAMPLES: &[Sample] = &[
    Sample {
        name: "square, round",
        anchors: SQUARE,
        closed: true,
        radii: &[2.0, 0.0, 0.0, 0.0],
        kind: 0,
        cut: 5,
        text: Some("M2 0 L8 0 L8 8 L0 8 L0 2 C0 0.895 0.895 0 2 0 Z"),
    },
    Sample {
        name: "square, inverted",
        anchors: SQUARE,
        closed: true,
        radii: &[2.0, 0.0, 0.0, 0.0],
        kind: 1,
        cut: 5,
        text: Some("M2 0 L8 0 L8 8 L0 8 L0 2 C1.105 2 2 1.105 2 0 Z"),
    },
    Sample {
        name: "square, chamfer",
        anchors: SQUARE,
        closed: true,
        radii: &[2.0, 0.0, 0.0, 0.0],
        kind: 2,
        cut: 5,
        text: Some("M2 0 L8 0 L8 8 L0 8 L0 2 Z"),
    },
    Sample {
        name: "square, radius 100",
        anchors: SQUARE,
        closed: true,
        radii: &[100.0; 4],
        kind: 0,
        cut: 8,
        text: None,
    },
    Sample {
        name: "square, radius 1e-9",
        anchors: SQUARE,
        closed: true,
        radii: &[1e-9; 4],
        kind: 0,
        cut: 4,
        text: Some("M0 0 L8 0 L8 8 L0 8 Z"),
    },
    // No subpath is handed back for having too few anchors.
    Sample {
        name: "one anchor",
        anchors: &[[0.0, 0.0, 0.0, 8.0, 8.0, 0.0]],
        closed: true,
        radii: &[1.0],
        kind: 2,
        cut: 2,
        text: Some("M0.999 0.048 C6.985 0.667 0.667 6.985 0.048 0.999 Z"),
    },
    // The length passes the table's end by rounding while the last chord is 0: t is 127/128, not 1.
    Sample {
        name: "past the table's end",
        anchors: &[
            below_limit([0xfc0, 0xf88, 0xf8f, 0xfea, 0xffb, 0xfbc]),
            below_limit([0xfcd, 0xf98, 0xfcd, 0xf98, 0xfcd, 0xf98]),
        ],
        closed: true,
        radii: &[f64::from_bits(0x3e27_6cde_69e3_3898), 1e-9],
        kind: 2,
        cut: 3,
        text: None,
    },
    // So it does here, and the cut shows it.
    Sample {
        name: "past the table's end, seen",
        anchors: &[
            below_limit([0x7c0, 0xcdf, 0x7c0, 0xcdf, 0x7c0, 0xcdf]),
            below_limit([0xf8d, 0x5b5, 0xb10, 0x455, 0xf8d, 0x5b5]),
            [-LIMIT, FAR, -LIMIT, FAR, -LIMIT, FAR],
        ],
        closed: false,
        radii: &[0.0, LIMIT, 0.0],
        kind: 0,
        cut: 4,
        text: None,
    },
];

pub fn families() -> Vec<Family> {
    SAMPLES.iter().map(family).collect()
}

fn family(sample: &Sample) -> Family {
    ("sample", sample.name)
}

/// The samples, in whose cut the original must agree with what is known.
pub fn drawings() -> impl Iterator<Item = Drawing> {
    SAMPLES.iter().map(|sample| {
        let closed = if sample.closed { CLOSED } else { 0 };
        let drawing = Drawing {
            families: vec![family(sample)],
            path: Path {
                shapes: vec![sample.anchors.len() as u32 | closed],
                numbers: sample.anchors.concat(),
            },
            radii: sample.radii.to_vec(),
            kind: sample.kind,
        };
        let cut = drawing.cut();
        assert_eq!(cut[0].anchors.len(), sample.cut, "{}", sample.name);
        if let Some(text) = sample.text {
            assert_eq!(to_svg_d(&cut), text, "{}", sample.name);
        }
        drawing
    })
}
