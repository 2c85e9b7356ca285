//! Document 001.

use super::{cut, replace, replace_all, Edit, File};

pub const FILE: File = File {
    name: "geom.rs",
    edits: EDITS,
    on_integers: &[],
};

const EDITS: &[Edit] = &[
    // Stitching and flattening: nothing that stays uses them.
    cut(
        &[
            "segment_inside",
            "polyline_length",
            "flatten_quad",
            "flatten_cubic",
            "dedupe",
            "resample_keep_corners",
            "sample_by_arclength",
        ],
        "/// True if the straight segment a→b stays inside",
        "/// 2D affine transform",
    ),
    // The text is included in a module, where inner comments may not stand.
    replace_all(2, "//! ", "// "),
    replace(
        "use std::ops::",
        "use crate::stand_ins::{max, min};\nuse std::ops::",
    ),
    // P::len; f64::sqrt is IEEE 754's squareRoot.
    replace(
        "self.x.hypot(self.y)",
        "(self.x * self.x + self.y * self.y).sqrt()",
    ),
    // Bounds::add
    replace("self.min.x.min(p.x)", "min(self.min.x, p.x)"),
    replace("self.min.y.min(p.y)", "min(self.min.y, p.y)"),
    replace("self.max.x.max(p.x)", "max(self.max.x, p.x)"),
    replace("self.max.y.max(p.y)", "max(self.max.y, p.y)"),
];
