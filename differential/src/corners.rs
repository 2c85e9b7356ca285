//! The corners of a path.

use crate::branches;
use crate::call::{outcome, OUTCOMES};
use crate::case::{which_short, Room};
use crate::compare::{mismatch, Expected};
use crate::damage::{self, damage};
use crate::family::{self, Family};
use crate::ffi;
use crate::guard::Lent;
use crate::kept::first_place;
use crate::lents::Lents;
use crate::original::bezier::{path_corners, Corner};
use crate::original::counted;
use crate::outlines;
use crate::parameters::ROOM;
use crate::paths::Path;
use crate::random::Random;
use crate::refusal::{in_limit, ACCEPTED, ARGUMENTS, MOST_ANCHORS, OUTPUT, RESULT};
use crate::report::Tally;

/// Where a path is refused, by which number of a corner, and by which buffer.
const PLACES: [Family; 7] = [
    ("refused", "5 at anchor 0"),
    ("refused", "5 at a later one"),
    ("refused", "9 for a length"),
    ("refused", "9 for a radius alone"),
    ("refused", "8 for the places"),
    ("refused", "8 for the numbers"),
    ("refused", "8 for both"),
];

/// How many of a readable path's anchors are corners.
const SHARES: [Family; 3] = [("corners", "none"), ("corners", "some"), ("corners", "all")];

/// Numbers of a corner: the point, the directions of its sides, their lengths, the largest radius.
const NINE: usize = 9;

pub fn run(cases: u64, random: &mut Random) -> Tally {
    let families = [
        OUTCOMES.to_vec(),
        PLACES.to_vec(),
        SHARES.to_vec(),
        corner_branches(),
        damage::families(),
        vec![damage::OUTSIDE],
        outlines::families(),
        ROOM.families(),
    ];
    let mut tally = Tally::new("path_corners", families.concat());
    for _ in 0..cases {
        compare(random, &mut tally);
    }
    tally
}

/// Those of the corner cut's branches that tell a corner from an anchor that is none.
fn corner_branches() -> Vec<Family> {
    let all = branches::FAMILIES.iter().copied();
    all.filter(|(group, _)| *group == "corner").collect()
}

fn compare(random: &mut Random, tally: &mut Tally) {
    let mut families = Vec::new();
    let path = outlines::draw(MOST_ANCHORS, random, &mut families);
    let mut path = Path::of(&path);
    damage(&mut path, &mut families, random);
    let found = found(&path);
    if let Ok(found) = &found {
        note_corners(&path, found, &mut families);
    }
    let count = found.as_ref().map_or(4, Listed::count);
    let rooms = [count, NINE * count].map(|need| Room::draw(need, random, &mut families));
    let expected = expected(found, &rooms);
    let short = rooms.iter().any(Room::is_short);
    families.push(outcome(&expected, short));
    families.extend(place(&expected, &rooms));
    tally.count(1, &families);
    let given = vec![
        Lent::holding_words(&path.shapes, random),
        Lent::holding(&path.numbers, random),
    ];
    let mut lents = Lents::with_rooms(given, &rooms, random);
    let refusal = library(&mut lents);
    if let Some(wrong) = mismatch(&expected, refusal, &lents) {
        tally.fail(path.size(), || {
            let [places, numbers] = &rooms;
            let families = family::list(&families);
            format!("    {families}\n{path}\n    {places}, {numbers}\n    {wrong}")
        });
    }
}

/// The original's corners, as they are to be written.
struct Listed {
    places: Vec<u64>,
    numbers: Vec<[f64; NINE]>,
}

impl Listed {
    fn count(&self) -> usize {
        self.places.len()
    }
}

/// Document 01's refusal, 7 or 5, or the corners.
fn found(path: &Path) -> Result<Listed, Expected> {
    if let Some(refused) = Expected::refusal_of(path, MOST_ANCHORS, &[]) {
        return Err(refused);
    }
    let corners = path_corners(&path.original());
    let place = |c: &Corner| {
        let (s, i) = c.at_ref;
        (first_place(path, s) + i) as u64
    };
    let numbers = |c: &Corner| {
        let Corner { at, u, v, .. } = *c;
        let radius = c.max_radius();
        [at.x, at.y, u.x, u.y, v.x, v.y, c.lu, c.lv, radius]
    };
    Ok(Listed {
        places: corners.iter().map(place).collect(),
        numbers: corners.iter().map(numbers).collect(),
    })
}

/// Then 9, at place 0 since the result is no path, and 8.
fn expected(found: Result<Listed, Expected>, rooms: &[Room; 2]) -> Expected {
    let found = match found {
        Ok(found) => found,
        Err(refused) => return refused,
    };
    if !found.numbers.iter().flatten().all(|&x| in_limit(x)) {
        return Expected::refused(RESULT);
    }
    if rooms.iter().any(Room::is_short) {
        return Expected::refused(OUTPUT);
    }
    let numbers = found.numbers.iter().flatten();
    Expected {
        refusal: ACCEPTED,
        answer: [0, found.count() as u64, 0, 0],
        written: vec![found.places.clone(), numbers.map(|x| x.to_bits()).collect()],
    }
}

fn note_corners(path: &Path, found: &Listed, families: &mut Vec<Family>) {
    counted::path_corners(&path.counted());
    families.extend(branches::take());
    families.push(match found.count() {
        0 => SHARES[0],
        count if count as u64 == path.anchors() => SHARES[2],
        _ => SHARES[1],
    });
    let outside = |of: fn(&[f64; NINE]) -> &[f64]| {
        let mut numbers = found.numbers.iter().flat_map(of);
        numbers.any(|&x| !in_limit(x))
    };
    if outside(|c| &c[..8]) {
        families.push(PLACES[2]);
    } else if outside(|c| &c[8..]) {
        families.push(PLACES[3]);
    }
}

fn place(expected: &Expected, rooms: &[Room; 2]) -> Option<Family> {
    let place = match expected.refusal {
        ARGUMENTS => expected.answer[0].min(1) as usize,
        OUTPUT => 4 + which_short(rooms),
        _ => return None,
    };
    Some(PLACES[place])
}

fn library(lents: &mut Lents) -> u32 {
    let ([shapes, anchors], [places, numbers]) = (&mut lents.given[..], &mut lents.results[..])
    else {
        unreachable!("two lists are given, and two buffers lent")
    };
    ffi::path_corners(
        shapes.words(),
        anchors.numbers(),
        places.words(),
        numbers.numbers(),
        lents.answer.answer(),
    )
}
