//! The calls on caches: `build` against the original's cut laid out place by place, `assemble` against
//! document 01's order of the anchors, which on a cache as built is the original's cut.

use crate::caches::{Cache, DAMAGED, TWELVE, WRITTEN};
use crate::call::{
    outcome, ACCEPTS, REFUSES_5, REFUSES_7, REFUSES_7_SHORT, REFUSES_8, REFUSES_9, REFUSES_9_SHORT,
};
use crate::case::{which_short, Room};
use crate::compare::{mismatch, Expected};
use crate::drawings::{self, Drawing};
use crate::family::Family;
use crate::ffi;
use crate::guard::{Entry, Lent};
use crate::lents::Lents;
use crate::parameters::ROOM;
use crate::paths::{Path, SIX};
use crate::random::Random;
use crate::refusal::{ACCEPTED, ARGUMENTS, LISTS, MOST_ANCHORS, MOST_SUBPATHS, RESULT};
use crate::report::Tally;

/// Where 5 and 9 are reported, and which list is too short.
const PLACES: [Family; 8] = [
    ("refused", "5 at place 0"),
    ("refused", "5 at a later one"),
    ("refused", "5 at the count"),
    ("refused", "9 at place 0"),
    ("refused", "9 at a later one"),
    ("refused", "7 for the cache's numbers"),
    ("refused", "7 for its flags"),
    ("refused", "7 for both"),
];

/// That 9 is numbered in the cache, and not in the outline.
const AFTER_A_CUT: Family = ("refused", "9 after a cut place");

pub fn build(cases: u64, random: &mut Random) -> Tally {
    let outcomes = vec![ACCEPTS, REFUSES_7, REFUSES_7_SHORT, REFUSES_5, REFUSES_9];
    let families = [
        outcomes,
        PLACES.to_vec(),
        vec![AFTER_A_CUT],
        drawings::families(),
        ROOM.families(),
    ];
    let mut tally = Tally::new("build", families.concat());
    for _ in 0..cases {
        compare_build(Drawing::draw(random), &mut tally, random);
    }
    tally
}

fn compare_build(mut drawing: Drawing, tally: &mut Tally, random: &mut Random) {
    // What a cache of this size needs, were the drawing not refused.
    let places = drawing.path.anchors().min(MOST_ANCHORS as u64 + 1) as usize;
    let rooms = [TWELVE * places, places];
    let rooms = rooms.map(|need| Room::draw(need, random, &mut drawing.families));
    let expected = built(&mut drawing, &rooms);
    note_place(&mut drawing, &expected, &rooms);
    let short = rooms.iter().any(Room::is_short);
    drawing.families.push(outcome(&expected, short));
    tally.count(1, &drawing.families);
    let [numbers, flags] = &rooms;
    let mut lents = Lents {
        given: vec![
            Lent::holding_words(&drawing.path.shapes, random),
            Lent::holding(&drawing.path.numbers, random),
            Lent::holding(&drawing.radii, random),
        ],
        results: vec![
            Lent::foreign(Entry::Number, numbers.lent, random),
            Lent::foreign(Entry::Word, flags.lent, random),
        ],
        answer: Lent::for_answer(random),
    };
    let refusal = library_build(drawing.kind, &mut lents);
    if let Some(wrong) = mismatch(&expected, refusal, &lents) {
        tally.fail(drawing.size(), || {
            format!("{drawing}, {numbers}, {flags}\n    {wrong}")
        });
    }
}

/// In document 01's order: 7, which the cache's own lists belong to, 5, 9.
fn built(drawing: &mut Drawing, rooms: &[Room; 2]) -> Expected {
    if !drawing.is_readable() || rooms.iter().any(Room::is_short) {
        return Expected::refused(LISTS);
    }
    if let Some(place) = drawing.first_wrong() {
        return Expected::refused_at(place, ARGUMENTS);
    }
    let cache = Cache::of(drawing);
    if let Some(place) = cache.first_outside() {
        if cache.flags[..place].iter().any(|&flag| flag != 0) {
            drawing.families.push(AFTER_A_CUT);
        }
        return Expected::refused_at(place, RESULT);
    }
    let flags = cache.flags.iter().copied().map(u64::from);
    Expected {
        refusal: ACCEPTED,
        answer: [0, cache.places(), cache.shapes.len() as u64, 0],
        written: vec![bits(&cache.numbers), flags.collect()],
    }
}

fn note_place(drawing: &mut Drawing, expected: &Expected, rooms: &[Room; 2]) {
    let place = expected.answer[0];
    let place = match expected.refusal {
        ARGUMENTS if place == drawing.path.anchors() => 2,
        ARGUMENTS => place.min(1) as usize,
        RESULT => 3 + place.min(1) as usize,
        LISTS if drawing.is_readable() => 5 + which_short(rooms),
        _ => return,
    };
    drawing.families.push(PLACES[place]);
}

fn bits(numbers: &[f64]) -> Vec<u64> {
    numbers.iter().map(|x| x.to_bits()).collect()
}

fn library_build(kind: u32, lents: &mut Lents) -> u32 {
    let ([shapes, anchors, radii], [numbers, flags]) =
        (&mut lents.given[..], &mut lents.results[..])
    else {
        unreachable!("three lists are given, and two buffers lent")
    };
    ffi::build(
        shapes.words(),
        anchors.numbers(),
        radii.numbers(),
        kind,
        numbers.numbers(),
        flags.words(),
        lents.answer.answer(),
    )
}

pub fn assemble(cases: u64, random: &mut Random) -> Tally {
    let outcomes = vec![
        ACCEPTS,
        REFUSES_7,
        REFUSES_7_SHORT,
        REFUSES_9,
        REFUSES_9_SHORT,
        REFUSES_8,
    ];
    let families = [
        outcomes,
        ROOM.families(),
        WRITTEN.families(),
        DAMAGED.families(),
    ];
    let mut tally = Tally::new("assemble", families.concat());
    for _ in 0..cases {
        compare_assemble(draw(random), &mut tally, random);
    }
    tally
}

/// The cache of a drawing that is not refused 7 or 5; most are then written to, some are damaged.
fn draw(random: &mut Random) -> Cache {
    let drawing = loop {
        let drawing = Drawing::whole(random);
        if drawing.is_readable() {
            break drawing;
        }
    };
    let mut cache = Cache::of(&drawing);
    let original = Path::of(&drawing.cut());
    let assembled = cache.assembled();
    assert!(
        assembled.shapes == original.shapes && bits(&assembled.numbers) == bits(&original.numbers),
        "a cache as built assembles to the original's cut"
    );
    let group = if random.one_in(8) { &DAMAGED } else { &WRITTEN };
    let mut families = Vec::new();
    group.draw(random, &mut families)(&mut cache, random);
    cache.families = families;
    cache
}

fn compare_assemble(mut cache: Cache, tally: &mut Tally, random: &mut Random) {
    let assembled = cache.is_readable().then(|| cache.assembled());
    let needs = match &assembled {
        Some(path) => [path.shapes.len(), path.numbers.len()],
        // What such a path might need, were it made.
        None => [
            cache.shapes.len().clamp(1, MOST_SUBPATHS),
            SIX * cache.places().clamp(1, MOST_ANCHORS as u64) as usize,
        ],
    };
    let rooms = needs.map(|need| Room::draw(need, random, &mut cache.families));
    let expected = match assembled {
        Some(path) => Expected::made(&path, &rooms),
        None => Expected::refused(LISTS),
    };
    let short = rooms.iter().any(Room::is_short);
    cache.families.push(outcome(&expected, short));
    tally.count(1, &cache.families);
    let given = vec![
        Lent::holding_words(&cache.shapes, random),
        Lent::holding(&cache.numbers, random),
        Lent::holding_words(&cache.flags, random),
    ];
    let mut lents = Lents::with_rooms(given, &rooms, random);
    let refusal = library_assemble(&mut lents);
    if let Some(wrong) = mismatch(&expected, refusal, &lents) {
        tally.fail(cache.size(), || {
            let [words, numbers] = &rooms;
            format!("{cache}, {words}, {numbers}\n    {wrong}")
        });
    }
}

fn library_assemble(lents: &mut Lents) -> u32 {
    let ([shapes, numbers, flags], [to_shapes, to]) =
        (&mut lents.given[..], &mut lents.results[..])
    else {
        unreachable!("three lists are given, and two buffers lent")
    };
    ffi::assemble(
        shapes.words(),
        numbers.numbers(),
        flags.words(),
        to_shapes.words(),
        to.numbers(),
        lents.answer.answer(),
    )
}
