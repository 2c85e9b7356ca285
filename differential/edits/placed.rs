//! The corner cut of document 000, as edited, which also tells at which anchors it cut: what a cache
//! is laid out by. No number changes.

use super::{replace, Edit, File};

pub const FILE: File = File {
    name: "placed.rs",
    edits: EDITS,
    on_integers: super::bezier::FILE.on_integers,
};

const EDITS: &[Edit] = &[
    replace(
        "kind: CornerKind) -> BezPath {\n    let corners = path_corners(path);\n",
        "kind: CornerKind) -> (BezPath, Vec<bool>) {\n    let mut cut = Vec::new();\n    let corners = path_corners(path);\n",
    ),
    replace(
        "            match cuts[i] {\n",
        "            cut.push(cuts[i].is_some());\n            match cuts[i] {\n",
    ),
    replace(
        "            closed: sp.closed,\n        });\n    }\n    out\n}\n",
        "            closed: sp.closed,\n        });\n    }\n    (out, cut)\n}\n",
    ),
];
