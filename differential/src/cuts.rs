//! The corner cut of a drawing.

use crate::branches;
use crate::call::{outcome, place, OUTCOMES, PLACES};
use crate::case::{which_short, Room};
use crate::compare::{mismatch, Expected};
use crate::drawings::{self, Drawing};
use crate::family::Family;
use crate::ffi;
use crate::guard::Lent;
use crate::lents::Lents;
use crate::original::counted;
use crate::parameters::ROOM;
use crate::paths::{Path, SIX};
use crate::random::Random;
use crate::refusal::{ARGUMENTS, LISTS, MOST_ANCHORS, MOST_SUBPATHS, OUTPUT};
use crate::report::Tally;
use crate::samples;

/// Which buffer a cut is refused for.
const SHORT: [Family; 3] = [
    ("refused", "8 for the words"),
    ("refused", "8 for the numbers"),
    ("refused", "8 for both"),
];

pub fn run(cases: u64, random: &mut Random) -> Tally {
    let families = [
        OUTCOMES.to_vec(),
        PLACES.to_vec(),
        SHORT.to_vec(),
        branches::FAMILIES.to_vec(),
        samples::families(),
        drawings::families(),
        ROOM.families(),
    ];
    let mut tally = Tally::new("cut_corners", families.concat());
    for sample in samples::drawings() {
        compare(sample, &mut tally, random);
    }
    for _ in 0..cases {
        compare(Drawing::draw(random), &mut tally, random);
    }
    tally
}

fn compare(mut drawing: Drawing, tally: &mut Tally, random: &mut Random) {
    let cut = cut(&drawing);
    if cut.is_ok() {
        note_branches(&mut drawing);
    }
    let rooms = rooms(&mut drawing, &cut, random);
    let expected = match cut {
        Ok(cut) => Expected::made(&cut, &rooms),
        Err(refused) => refused,
    };
    note_outcome(&mut drawing, &expected, &rooms);
    tally.count(1, &drawing.families);
    let given = vec![
        Lent::holding_words(&drawing.path.shapes, random),
        Lent::holding(&drawing.path.numbers, random),
        Lent::holding(&drawing.radii, random),
    ];
    let mut lents = Lents::with_rooms(given, &rooms, random);
    let refusal = library(&drawing, &mut lents);
    if let Some(wrong) = mismatch(&expected, refusal, &lents) {
        tally.fail(drawing.size(), || {
            let [words, numbers] = &rooms;
            format!("{drawing}, {words}, {numbers}\n    {wrong}")
        });
    }
}

/// The original's cut; or document 01's refusal, 7 or 5, before there is one.
fn cut(drawing: &Drawing) -> Result<Path, Expected> {
    if !drawing.is_readable() {
        return Err(Expected::refused(LISTS));
    }
    if let Some(place) = drawing.first_wrong() {
        return Err(Expected::refused_at(place, ARGUMENTS));
    }
    Ok(Path::of(&drawing.cut()))
}

/// For the words and for the numbers.
fn rooms(drawing: &mut Drawing, cut: &Result<Path, Expected>, random: &mut Random) -> [Room; 2] {
    let needs = match cut {
        Ok(cut) => [cut.shapes.len(), cut.numbers.len()],
        // What a cut of this size might need, were it made.
        Err(_) => [
            drawing.path.shapes.len().clamp(1, MOST_SUBPATHS),
            SIX * drawing.path.anchors().clamp(1, MOST_ANCHORS as u64) as usize,
        ],
    };
    needs.map(|need| Room::draw(need, random, &mut drawing.families))
}

fn note_branches(drawing: &mut Drawing) {
    let kinds = [
        counted::CornerKind::Round,
        counted::CornerKind::Inverted,
        counted::CornerKind::Chamfer,
    ];
    counted::cut_corners(
        &drawing.path.counted(),
        drawing.radius(),
        kinds[drawing.kind as usize],
    );
    drawing.families.extend(branches::take());
}

fn note_outcome(drawing: &mut Drawing, expected: &Expected, rooms: &[Room; 2]) {
    let short = rooms.iter().any(Room::is_short);
    drawing.families.push(outcome(expected, short));
    drawing.families.extend(place(&drawing.path, expected));
    if expected.refusal == OUTPUT {
        drawing.families.push(SHORT[which_short(rooms)]);
    }
}

fn library(drawing: &Drawing, lents: &mut Lents) -> u32 {
    let ([shapes, anchors, radii], [to_shapes, to]) =
        (&mut lents.given[..], &mut lents.results[..])
    else {
        unreachable!("three lists are given, and two buffers lent")
    };
    ffi::cut_corners(
        shapes.words(),
        anchors.numbers(),
        radii.numbers(),
        drawing.kind,
        to_shapes.words(),
        to.numbers(),
        lents.answer.answer(),
    )
}
