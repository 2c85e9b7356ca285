//! Special corners: what a subpath is given at one of its anchors.

use crate::family::Group;
use crate::original::bezier::{Anchor, SubPath};
use crate::original::geom::P;
use crate::random::Random;
use crate::refusal::LIMIT;
use crate::values::near;

/// Of a subpath that is not empty.
type Change = fn(&mut SubPath, &mut Random);

pub static CORNERS: Group<Change> = Group {
    name: "change",
    ways: &[
        ("none", |_, _| {}),
        ("coincident anchors", |sp, random| {
            let [_, i, next] = around(sp, random);
            sp.anchors[next] = sp.anchors[i];
        }),
        ("coincident points", |sp, random| {
            let [_, i, next] = around(sp, random);
            sp.anchors[next].p = sp.anchors[i].p;
        }),
        ("collinear", collinear),
        ("sin near 1e-6", |sp, random| {
            let sin = near(1e-6 * (1.0 + 1e-12f64).sqrt(), random);
            let v = P::new(random.signed(1.0), random.signed(sin));
            spread(sp, v, random);
        }),
        ("cos near 1e-12", |sp, random| {
            let cos = near(1e-12, random);
            let v = P::new(random.signed(cos), random.signed(1.0));
            spread(sp, v, random);
        }),
        ("right angle", |sp, random| {
            let v = P::new(random.signed(0.0), random.signed(1.0));
            spread(sp, v, random);
        }),
        ("sides near 1e-9", short),
        ("curves near 1e-9", short_curve),
        ("tangents parallel", parallel),
        ("lengths in steps", steps),
        ("a last chord of 0", last_chord),
    ],
};

/// An anchor, and those before and after it, round the end.
fn around(sp: &SubPath, random: &mut Random) -> [usize; 3] {
    let n = sp.anchors.len();
    let i = random.below(n as u64) as usize;
    [(i + n - 1) % n, i, (i + 1) % n]
}

/// A point on the line through its neighbours, between them or not.
fn collinear(sp: &mut SubPath, random: &mut Random) {
    let [prev, i, next] = around(sp, random);
    let (between, anywhere) = (random.unit(), 3.0 * random.signed_unit());
    let t = *random.pick(&[0.5, -1.0, 2.0, between, anywhere]);
    let p = sp.anchors[prev].p.lerp(sp.anchors[next].p, t);
    sp.anchors[i] = Anchor::corner(p);
    straighten(sp, [prev, next]);
}

/// Sides that leave in the directions (1, 0) and `v`, turned, or not, so that nothing is rounded.
/// They are straight, or curves with these tangents.
fn spread(sp: &mut SubPath, v: P, random: &mut Random) {
    let [prev, i, next] = around(sp, random);
    if random.one_in(2) {
        sp.anchors[i].p = P::default();
    }
    let at = sp.anchors[i].p;
    let (cos, sin) = if random.one_in(2) {
        *random.pick(&[(1.0, 0.0), (0.0, 1.0), (-1.0, 0.0), (0.0, -1.0)])
    } else {
        random.angle()
    };
    let side = |v: P, random: &mut Random| {
        let length = match random.below(3) {
            0 => f64::from(1u32 << random.below(8)),
            1 => 1e-3 * random.unit(),
            _ => 100.0 * random.unit(),
        };
        at + v.rotate(cos, sin) * length
    };
    let (u, v) = (side(P::new(1.0, 0.0), random), side(v, random));
    if random.one_in(2) {
        sp.anchors[i] = Anchor::corner(at);
        sp.anchors[prev].p = u;
        sp.anchors[next].p = v;
        straighten(sp, [prev, next]);
    } else {
        sp.anchors[i].h_in = u;
        sp.anchors[i].h_out = v;
    }
}

/// Straight sides as short as the tolerance, or twice that, where the fitted radius may be as small.
fn short(sp: &mut SubPath, random: &mut Random) {
    let [prev, i, next] = around(sp, random);
    let far = |random: &mut Random| *random.pick(&[1.0, 2.0, 100.0]) * near(1e-9, random);
    sp.anchors[i] = Anchor::corner(P::default());
    sp.anchors[prev].p = P::new(far(random), 0.0);
    sp.anchors[next].p = P::new(0.0, far(random));
    straighten(sp, [prev, next]);
    if random.one_in(2) {
        // Still straight, and with a direction although the side's other end may be too near.
        sp.anchors[prev].h_out = sp.anchors[prev].p + P::new(near(1e-9, random), 0.0);
    }
}

/// A side that is a curve, and as short.
fn short_curve(sp: &mut SubPath, random: &mut Random) {
    let [prev, i, next] = around(sp, random);
    let far = |random: &mut Random| {
        let turn = random.angle();
        P::new(turn.0, turn.1) * (near(1e-9, random) * random.pick(&[1.0, 1.05, 2.0]))
    };
    sp.anchors[i] = Anchor::corner(P::default());
    sp.anchors[i].h_in = far(random);
    sp.anchors[prev].p = P::default();
    sp.anchors[prev].h_out = P::default();
    if random.one_in(2) {
        sp.anchors[prev].p = far(random);
        sp.anchors[prev].h_out = far(random);
    }
    if random.one_in(2) {
        sp.anchors[next].p = far(random);
    }
}

/// Curves that run in opposite directions where a large cut meets them: their tangents do not cross.
fn parallel(sp: &mut SubPath, random: &mut Random) {
    let [prev, i, next] = around(sp, random);
    let scale = f64::from(1u32 << random.below(8));
    let (wide, high) = (4.0 * scale, 4.0 * random.signed(scale));
    sp.anchors[i] = Anchor::corner(P::default());
    sp.anchors[prev].p = P::new(-wide, -high);
    sp.anchors[prev].h_out = P::new(-0.5 * wide, -high);
    sp.anchors[next].p = P::new(wide, -high);
    sp.anchors[next].h_in = P::new(0.5 * wide, -high);
}

/// Curves along the limit, of some hundred steps from one f64 to the next: many of their chords are 0,
/// so that lengths in their table repeat. Such a length is met where the radius is in steps too.
fn steps(sp: &mut SubPath, random: &mut Random) {
    let [prev, i, next] = around(sp, random);
    let mut along = || below_limit(60 + random.below(240));
    sp.anchors[i] = Anchor {
        p: P::new(LIMIT, LIMIT),
        h_in: P::new(along(), LIMIT),
        h_out: P::new(LIMIT, along()),
    };
    sp.anchors[prev].p = P::new(along(), LIMIT);
    sp.anchors[prev].h_out = P::new(along(), LIMIT);
    sp.anchors[next].p = P::new(LIMIT, along());
    sp.anchors[next].h_in = P::new(LIMIT, along());
}

/// A curve that hardly moves along its last chord, at an open end, so that a large cut takes all of
/// it: rounding may then ask for more than the table has.
fn last_chord(sp: &mut SubPath, random: &mut Random) {
    let [end, i, next, ..] = &mut sp.anchors[..] else {
        return;
    };
    sp.closed = false;
    let mut point = || {
        P::new(
            below_limit(random.below(4096)),
            below_limit(random.below(4096)),
        )
    };
    *end = Anchor::corner(point());
    *i = Anchor::corner(point());
    i.h_in = point();
    *next = Anchor::corner(P::new(-LIMIT, LIMIT * random.signed_unit()));
}

fn below_limit(steps: u64) -> f64 {
    f64::from_bits(LIMIT.to_bits() - steps)
}

/// The sides from the anchors beside a corner, which has no handles itself.
fn straighten(sp: &mut SubPath, [prev, next]: [usize; 2]) {
    sp.anchors[prev].h_out = sp.anchors[prev].p;
    sp.anchors[next].h_in = sp.anchors[next].p;
}
