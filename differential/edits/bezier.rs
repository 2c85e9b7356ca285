//! Document 000.

use super::{cut, replace, replace_all, Edit, File};

pub const FILE: File = File {
    name: "bezier.rs",
    edits: EDITS,
    on_integers: &[(1, "n.max(1)"), (1, ".clamp(1, n)"), (2, "n.max(3)")],
};

const EDITS: &[Edit] = &[
    // Left out, and in need of crates that we do not have.
    cut(
        &["from_svg_d", "from_usvg"],
        "/// Read SVG path data (`d`)",
        "pub fn transform(",
    ),
    // Left out: curve fitting. `cross` and `sample_n`, which stand among it, stay.
    cut(
        &["from_rings", "simplify"],
        "/// Polygons (closed rings)",
        "// ------------------------------------------------------------ corners",
    ),
    cut(
        &["fit_stroke", "unit"],
        "// ------------------------------------------------------------ freehand",
        "fn cross(",
    ),
    cut(
        &["start_tangent", "end_tangent"],
        "/// The direction a cubic leaves its start",
        "fn sample_n(",
    ),
    cut(
        &[
            "cubic_len",
            "fit_cubics",
            "fit_rec",
            "fit_single",
            "chord_params",
            "bern",
            "generate",
            "max_error",
            "newton",
            "is_straight",
            "anchors_from_cubics",
            "fit_outline",
        ],
        "fn cubic_len(",
        "// ------------------------------------------------------------ shapes",
    ),
    // The text is included in a module, where inner comments may not stand.
    replace_all(3, "//! ", "// "),
    replace(
        "use crate::geom::",
        "use crate::stand_ins::{clamp, count_below, max, min};\nuse super::geom::",
    ),
    replace_all(2, "crate::geom::Bounds", "super::geom::Bounds"),
    // hit_segment
    replace(
        "((q - p0).dot(d) / d.dot(d)).clamp(0.0, 1.0)",
        "clamp((q - p0).dot(d) / d.dot(d), 0.0, 1.0)",
    ),
    // bend_segment
    replace("t.clamp(0.08, 0.92)", "clamp(t, 0.08, 0.92)"),
    // subsegment
    replace("t1.min(1.0)", "min(t1, 1.0)"),
    replace("(t0 / t1).clamp(0.0, 1.0)", "clamp(t0 / t1, 0.0, 1.0)"),
    // Side::at_length
    replace("(s / len).clamp(0.0, 1.0)", "clamp(s / len, 0.0, 1.0)"),
    replace("table.partition_point(|&l| l < s)", "count_below(&table, s)"),
    replace("f.clamp(0.0, 1.0)", "clamp(f, 0.0, 1.0)"),
    // Corner::max_radius
    replace("self.lu.min(self.lv)", "min(self.lu, self.lv)"),
    // Corner::max_radius_beside
    replace(
        "(len - other.max(0.0)).max(len / 2.0)",
        "max(len - max(other, 0.0), len / 2.0)",
    ),
    replace(
        "room(self.lu, before).min(room(self.lv, after))",
        "min(room(self.lu, before), room(self.lv, after))",
    ),
    // arc_handle
    replace("cos.clamp(-1.0, 1.0)", "clamp(cos, -1.0, 1.0)"),
    replace("((1.0 - cos) / 2.0).max(0.0)", "max((1.0 - cos) / 2.0, 0.0)"),
    replace("((1.0 + cos) / 2.0).max(0.0)", "max((1.0 + cos) / 2.0, 0.0)"),
    // cut_corners
    replace("radius(r).max(0.0)", "max(radius(r), 0.0)"),
    replace("radius(c.at_ref).max(0.0)", "max(radius(c.at_ref), 0.0)"),
    replace("own.min(", "min(own, "),
    replace("s1.max(s0)", "max(s1, s0)"),
    // rect
    replace(
        "(a.x.min(b.x), a.x.max(b.x))",
        "(min(a.x, b.x), max(a.x, b.x))",
    ),
    replace(
        "(a.y.min(b.y), a.y.max(b.y))",
        "(min(a.y, b.y), max(a.y, b.y))",
    ),
    replace(
        "r.max(0.0).min((x1 - x0) / 2.0).min((y1 - y0) / 2.0)",
        "min(min(max(r, 0.0), (x1 - x0) / 2.0), (y1 - y0) / 2.0)",
    ),
    // Comparisons call private functions too, and read private fields.
    replace_all(9, "\nfn ", "\npub fn "),
    replace_all(8, "\n    fn ", "\n    pub fn "),
    replace("\nstruct Side {\n    c:", "\npub struct Side {\n    pub c:"),
    replace("\n    side_u: Side,\n", "\n    pub side_u: Side,\n"),
    replace("\n    side_v: Side,\n", "\n    pub side_v: Side,\n"),
    replace("\n    before: AnchorRef,\n", "\n    pub before: AnchorRef,\n"),
    replace("\n    after: AnchorRef,\n", "\n    pub after: AnchorRef,\n"),
    replace(
        "\nstruct Cut {\n    tu: f64,\n    tv: f64,\n    start: P,\n    h_out: P,\n    h_in: P,\n    end: P,\n}",
        "\npub struct Cut {\n    pub tu: f64,\n    pub tv: f64,\n    pub start: P,\n    pub h_out: P,\n    pub h_in: P,\n    pub end: P,\n}",
    ),
];
