//! Notes in document 000, as edited, of which branch of the corner cut is taken: `crate::branches`
//! gathers them. They read what is there and change no number.

use super::{replace, Edit, File};

pub const FILE: File = File {
    name: "counted.rs",
    edits: EDITS,
    on_integers: super::bezier::FILE.on_integers,
};

const EDITS: &[Edit] = &[
    replace(
        "use crate::stand_ins::",
        "use crate::branches::{reach, Branch};\nuse crate::stand_ins::",
    ),
    // Corner::of
    replace(
        "(i.checked_sub(1)?, i + 1)",
        "{
            if i == 0 || i + 1 == n {
                reach(Branch::OpenEnd);
            }
            (i.checked_sub(1)?, i + 1)
        }",
    ),
    replace(
        "        if a.is_smooth() {\n",
        "        if a.is_smooth() {\n            reach(Branch::Smooth);\n",
    ),
    replace(
        "        let (u, v) = (side_u.direction()?, side_v.direction()?);\n",
        "        if side_u.direction().is_none() || side_v.direction().is_none() {
            reach(Branch::NoDirection);
        }
        let (u, v) = (side_u.direction()?, side_v.direction()?);\n",
    ),
    replace(
        "        if !(lu > CEPS && lv > CEPS && lu.is_finite() && lv.is_finite()) {\n",
        "        if !(lu > CEPS && lv > CEPS && lu.is_finite() && lv.is_finite()) {
            reach(Branch::ShortSide);\n",
    ),
    replace(
        "        (c.sin() > 1e-6).then_some(c)\n",
        "        reach(if c.sin() > 1e-6 { Branch::Corner } else { Branch::NoAngle });
        (c.sin() > 1e-6).then_some(c)\n",
    ),
    // Corner::max_radius_beside
    replace(
        "let room = |len: f64, other: f64| max(",
        "let room = |len: f64, other: f64| {
            let beside = len - max(other, 0.0) > len / 2.0;
            reach(if beside { Branch::RoomToNeighbour } else { Branch::RoomHalfway });
            max(",
    ),
    replace("len / 2.0);\n", "len / 2.0)\n        };\n"),
    // cut_corners: the fitted radius
    replace(
        "                min(own, c.max_radius_beside(asked(c.before), asked(c.after))),\n",
        "                {
                    let beside = c.max_radius_beside(asked(c.before), asked(c.after));
                    reach(if own < beside { Branch::OwnFits } else { Branch::BesideLimits });
                    if own > CEPS && !(beside > CEPS) {
                        reach(Branch::BesideTooSmall);
                    }
                    min(own, beside)
                },\n",
    ),
    replace(
        "                (*r > CEPS).then(|| c.cut(*r, kind))\n",
        "                reach(if *r > CEPS { Branch::Cut } else { Branch::FittedTooSmall });
                (*r > CEPS).then(|| c.cut(*r, kind))\n",
    ),
    // Corner::cut
    replace(
        "                let h = s * arc_handle(cos);\n",
        "                reach(Branch::Inverted);
                let h = s * arc_handle(cos);\n",
    ),
    replace(
        "            CornerKind::Chamfer => (start, end),\n",
        "            CornerKind::Chamfer => {
                reach(Branch::Chamfer);
                (start, end)
            }\n",
    ),
    // Side::at_length
    replace(
        "            return (t, c[0] + u * s, u);\n",
        "            reach(Branch::AlongStraight);
            return (t, c[0] + u * s, u);\n",
    ),
    replace(
        "        let (l0, l1) = (table[k - 1], table[k]);\n",
        "        reach(Branch::AlongCurve);
        if count_below(&table, s) > n {
            reach(Branch::PastTable);
        }
        let (l0, l1) = (table[k - 1], table[k]);
        if !(l1 > l0) {
            reach(Branch::LastChordZero);
        }\n",
    ),
    replace(
        "        } else {\n            u\n        };\n",
        "        } else {\n            reach(Branch::CurveStops);\n            u\n        };\n",
    ),
    // Corner::round_handles
    replace(
        "            return (radius * arc, radius * arc);\n",
        "            reach(Branch::RoundStraight);
            return (radius * arc, radius * arc);\n",
    ),
    replace(
        "        if cr.abs() > 1e-6 && a > CEPS",
        "        if !(a.is_finite() && b.is_finite()) {
            reach(Branch::TangentsNotFinite);
        }
        if cr.abs() > 1e-6 && a > CEPS",
    ),
    replace(
        "            let share = arc",
        "            reach(Branch::RoundTangents);\n            let share = arc",
    ),
    replace(
        "            let third = ",
        "            reach(Branch::RoundThird);
            reach(if cr.abs() > 1e-6 { Branch::TangentsApart } else { Branch::TangentsParallel });
            let third = ",
    ),
    // square_to
    replace(
        "        w * (1.0 / l)\n    } else {\n        P::default()\n",
        "        w * (1.0 / l)\n    } else {\n        reach(Branch::NoSquare);\n        P::default()\n",
    ),
    // arc_handle
    replace(
        "        return KAPPA;\n    }\n",
        "        reach(Branch::Kappa);
        return KAPPA;
    }
    reach(if cos.abs() > 1.0 { Branch::ArcClamped } else { Branch::Arc });\n",
    ),
    // cut_corners: the trimmed segments
    replace(
        "                if from.is_none() && to.is_none() {\n",
        "                if from.is_none() && to.is_none() {
                    reach(Branch::Untouched);\n",
    ),
    replace(
        "                if a.h_out == a.p && b.h_in == b.p {\n",
        "                if a.h_out == a.p && b.h_in == b.p {
                    reach(Branch::TrimmedStraight);\n",
    ),
    replace(
        "                let sub = subsegment(&[a.p, a.h_out, b.h_in, b.p], s0, max(s1, s0));\n",
        "                reach(match (from.is_some(), to.is_some()) {
                    (true, true) => Branch::TrimmedTwice,
                    (true, false) => Branch::TrimmedAtStart,
                    _ => Branch::TrimmedAtEnd,
                });
                if s1 < s0 {
                    reach(Branch::CutsPass);
                }
                if max(s1, s0) <= CEPS {
                    reach(Branch::NothingLeft);
                }
                let sub = subsegment(&[a.p, a.h_out, b.h_in, b.p], s0, max(s1, s0));\n",
    ),
    replace(
        "                        closing = Some(start);\n",
        "                        reach(Branch::Closing);
                        closing = Some(start);\n",
    ),
];
