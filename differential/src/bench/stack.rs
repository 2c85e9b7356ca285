//! The most stack that each cached edit takes, over the drawings that `bench` edits, and what `cut_corners`
//! takes beside it. The driver's frame that makes the call is counted with it, some hundred bytes.

use super::cuts::{zigzag, Room};
use super::edits::{near_the_end, Edit, Kept, NEAR};
use super::painted::Stack;
use crate::random::Random;
use std::hint::black_box;

/// Anchors of the drawings that are edited.
const EDITED: [usize; 3] = [8, 64, 512];
/// Anchors of the drawings that are cut.
const CUT: [usize; 2] = [8, 512];

pub fn run(random: &mut Random) {
    let mut stack = Stack::new();
    check(&mut stack);
    for edit in Edit::ALL {
        let most = most(edit, &mut stack, random);
        println!("{} {most} bytes", edit.name());
    }
    for anchors in CUT {
        let (drawing, _) = zigzag(anchors, true, random);
        let mut room = Room::of(anchors);
        let taken = stack.taken(|| room.cut(&drawing));
        println!("cut_corners, {anchors} anchors, curved {taken} bytes");
    }
}

/// On straight sides and on curves, in the middle and near the end.
fn most(edit: Edit, stack: &mut Stack, random: &mut Random) -> usize {
    let mut most = 0;
    for anchors in EDITED.map(|anchors| edit.fitting(anchors)) {
        for curved in [false, true] {
            let kept = Kept::of(&zigzag(anchors, curved, random).0);
            let near = (0..2 * NEAR).map(|round| near_the_end(round, anchors));
            for i in near.chain([anchors / 2]) {
                let mut kept = kept.clone();
                most = most.max(stack.taken(|| kept.edit(edit, i)));
            }
        }
    }
    most
}

/// Scratch that is only cleared counts as well.
fn check(stack: &mut Stack) {
    const CLEARED: usize = 10_000;
    const NEARLY: usize = 100;
    let taken = stack.taken(|| {
        black_box(&mut [0u8; CLEARED]);
    });
    assert!(taken.abs_diff(CLEARED) < NEARLY, "{taken} bytes are seen");
}
