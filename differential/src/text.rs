//! The calls that write text: a number, and a path as SVG path data.

use crate::call::{
    outcome, ACCEPTS, REFUSES_5, REFUSES_5_SHORT, REFUSES_7, REFUSES_7_SHORT, REFUSES_8,
};
use crate::case::{significant_bits, Room};
use crate::compare::{mismatch, Expected};
use crate::family::Family;
use crate::ffi;
use crate::guard::{Entry, Lent};
use crate::lents::Lents;
use crate::numerals::{ties, NUMERALS, SAMPLES};
use crate::original::bezier;
use crate::parameters::ROOM;
use crate::paths::{Path, CLOSED};
use crate::random::Random;
use crate::refusal::{in_limit, ACCEPTED, ARGUMENTS, LISTS, MOST_CUT_ANCHORS, OUTPUT};
use crate::report::Tally;
use crate::values::NUMBERS;
use crate::writings::{self, Writing};

const SAMPLE: Family = ("numbers", "samples");
const TIE: Family = ("numbers", "ties");

pub fn write_num(cases: u64, random: &mut Random) -> Tally {
    let families = [
        vec![ACCEPTS, REFUSES_5, REFUSES_5_SHORT, REFUSES_8],
        ROOM.families(),
        vec![SAMPLE, TIE],
        NUMERALS.families(),
        NUMBERS.families(),
    ];
    let mut tally = Tally::new("write_num", families.concat());
    for (x, text) in SAMPLES {
        assert_eq!(numeral(x), text, "the original writes {x}");
        let room = Room::exact(text.len());
        compare_number(x, text, room, vec![SAMPLE], &mut tally, random);
    }
    for x in ties() {
        let text = numeral(x);
        let room = Room::exact(text.len());
        compare_number(x, &text, room, vec![TIE], &mut tally, random);
    }
    for _ in 0..cases {
        let mut families = Vec::new();
        let group = *random.pick(&[&NUMERALS, &NUMBERS]);
        let x = group.draw(random, &mut families)(random);
        let text = numeral(x);
        let room = Room::draw(text.len(), random, &mut families);
        compare_number(x, &text, room, families, &mut tally, random);
    }
    tally
}

fn numeral(x: f64) -> String {
    let mut text = String::new();
    bezier::write_num(&mut text, x);
    text
}

fn compare_number(
    x: f64,
    text: &str,
    room: Room,
    mut families: Vec<Family>,
    tally: &mut Tally,
    random: &mut Random,
) {
    let expected = if in_limit(x) {
        written(text, &room)
    } else {
        Expected::refused(ARGUMENTS)
    };
    families.push(outcome(&expected, room.is_short()));
    tally.count(1, &families);
    let mut lents = lents(Vec::new(), &room, random);
    let refusal = ffi::write_num(x, lents.results[0].bytes(), lents.answer.answer());
    if let Some(wrong) = mismatch(&expected, refusal, &lents) {
        let bits = x.to_bits();
        tally.fail(significant_bits(bits), || {
            format!("    {bits:#018x}  {x:e}, \"{text}\", {room}\n    {wrong}")
        });
    }
}

/// Buffers as long as any text of so many subpaths and anchors, or a byte less: into the former the
/// library writes at once, for the latter it first counts.
const ANY_TEXT: [Family; 2] = [("room", "any text"), ("room", "a byte less")];
const LONGEST: Family = ("path", "the longest text");

pub fn to_svg_d(cases: u64, random: &mut Random) -> Tally {
    let outcomes = vec![
        ACCEPTS,
        REFUSES_7,
        REFUSES_7_SHORT,
        REFUSES_5,
        REFUSES_5_SHORT,
        REFUSES_8,
    ];
    let rooms = [ROOM.families(), ANY_TEXT.to_vec()].concat();
    let families = [outcomes, rooms, vec![LONGEST], writings::families()];
    let mut tally = Tally::new("to_svg_d", families.concat());
    for subpaths in 1..=4 {
        for anchors in 2..=17 {
            compare_path(longest(subpaths, anchors), &mut tally, random);
        }
    }
    for _ in 0..cases {
        compare_path(Writing::draw(random), &mut tally, random);
    }
    tally
}

fn compare_path(mut writing: Writing, tally: &mut Tally, random: &mut Random) {
    let text = text(&writing);
    let room = room(&mut writing, &text, random);
    let expected = match &text {
        Ok(text) => written(text, &room),
        Err((place, refusal)) => Expected::refused_at(*place, *refusal),
    };
    let short = room.is_short();
    writing.families.push(outcome(&expected, short));
    tally.count(1, &writing.families);
    let path = &writing.path;
    let given = vec![
        Lent::holding_words(&path.shapes, random),
        Lent::holding(&path.numbers, random),
    ];
    let mut lents = lents(given, &room, random);
    let [shapes, anchors] = &mut lents.given[..] else {
        unreachable!("two lists are given")
    };
    let refusal = ffi::to_svg_d(
        shapes.words(),
        anchors.numbers(),
        lents.results[0].bytes(),
        lents.answer.answer(),
    );
    if let Some(wrong) = mismatch(&expected, refusal, &lents) {
        tally.fail(path.size(), || {
            format!("{writing}\n    {text:?}, {room}\n    {wrong}")
        });
    }
}

fn room(writing: &mut Writing, text: &Text, random: &mut Random) -> Room {
    // What stands in for a text that there is not.
    let need = text.as_ref().map_or(64, String::len);
    if text.is_err() || !random.one_in(4) {
        return Room::draw(need, random, &mut writing.families);
    }
    let less = random.below(2) as usize;
    writing.families.push(ANY_TEXT[less]);
    let lent = any_text(&writing.path).saturating_sub(less);
    Room { need, lent }
}

/// Bytes that suffice: a curve has at most 73, with the blank before it, and a subpath 27 beside, for
/// its M and its Z.
fn any_text(path: &Path) -> usize {
    73 * path.anchors() as usize + 27 * path.shapes.len()
}

/// Closed subpaths of curves, whose every number takes eleven bytes: only the first blank is missing.
fn longest(subpaths: usize, anchors: usize) -> Writing {
    let (p, handle) = (-131_071.999, -131_071.998);
    let path = Path {
        shapes: vec![anchors as u32 | CLOSED; subpaths],
        numbers: [p, p, handle, handle, handle, handle].repeat(subpaths * anchors),
    };
    let text = bezier::to_svg_d(&path.original());
    assert_eq!(text.len(), any_text(&path) - 1);
    Writing {
        families: vec![LONGEST],
        path,
    }
}

/// The original's text; or document 01's refusal, 7 or 5, with its place.
type Text = Result<String, (usize, u32)>;

fn text(writing: &Writing) -> Text {
    let path = &writing.path;
    if !path.is_readable(MOST_CUT_ANCHORS) {
        return Err((0, LISTS));
    }
    match path.first_outside() {
        Some(place) => Err((place, ARGUMENTS)),
        None => Ok(bezier::to_svg_d(&path.original())),
    }
}

fn written(text: &str, room: &Room) -> Expected {
    if room.is_short() {
        return Expected::refused(OUTPUT);
    }
    Expected {
        refusal: ACCEPTED,
        answer: [0, text.len() as u64, 0, 0],
        written: vec![text.bytes().map(u64::from).collect()],
    }
}

fn lents(given: Vec<Lent>, room: &Room, random: &mut Random) -> Lents {
    Lents {
        given,
        results: vec![Lent::foreign(Entry::Byte, room.lent, random)],
        answer: Lent::for_answer(random),
    }
}
