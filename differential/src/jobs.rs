//! Job files: what document 01 reads of one, word by word, ways to write and to damage them, and what the library's reader answers.

use crate::case::Room;
use crate::compare::{mismatch, Expected};
use crate::damage::shorten;
use crate::drawings::Drawing;
use crate::family::{Family, Group};
use crate::ffi;
use crate::guard::{Entry, Lent};
use crate::lents::Lents;
use crate::parameters::ROOM;
use crate::paths::{CLOSED, SIX};
use crate::random::Random;
use crate::refusal::{ACCEPTED, MOST_ANCHORS, MOST_SUBPATHS, OUTPUT};
use crate::report::Tally;

/// Bytes of a word.
const WORD: usize = 4;
/// Bits of a payload, and how many of it are a millimetre.
const PAYLOAD: u32 = 28;
const UNIT: f64 = 1024.0;
const END: u32 = 15;
/// Payloads of a head.
const KINDS: u32 = 3;

// The reader's refusals.
pub const WORDS: u32 = 1;
pub const ORDER: u32 = 2;
pub const NO_SUBPATH: u32 = 3;
pub const TOO_MANY: u32 = 4;

/// Which kinds may follow a word of each kind from 0 to 8. An anchor is 2, 3, then maybe 4 and 5, 6 and 7, and 8.
const FOLLOWS: [&[u32]; 9] = [
    &[1, END],
    &[1, 2, END],
    &[3],
    &[4, 6, 8, 2, 1, END],
    &[5],
    &[6, 8, 2, 1, END],
    &[7],
    &[8, 2, 1, END],
    &[2, 1, END],
];

fn kind(word: u32) -> u32 {
    word >> PAYLOAD
}

fn payload(word: u32) -> u32 {
    word & ((1 << PAYLOAD) - 1)
}

fn number(word: u32) -> f64 {
    f64::from((word << (32 - PAYLOAD)) as i32 >> (32 - PAYLOAD)) / UNIT
}

/// What a file holds; or its refusal's number and place.
pub fn read(bytes: &[u8]) -> Result<Drawing, (u32, usize)> {
    if bytes.len() % WORD != 0 {
        return Err((WORDS, bytes.len() / WORD));
    }
    let words: Vec<u32> = bytes
        .chunks(WORD)
        .map(|bytes| u32::from_le_bytes(bytes.try_into().expect("a whole word")))
        .collect();
    let mut drawing = Drawing::default();
    for (i, &word) in words.iter().enumerate() {
        let before = i.checked_sub(1).map(|before| kind(words[before]));
        refusal(before, word, &drawing).map_or(Ok(()), |number| Err((number, i)))?;
        take(word, &mut drawing);
    }
    match words.last() {
        Some(&last) if kind(last) == END => Ok(drawing),
        _ => Err((WORDS, words.len())),
    }
}

/// Of a word, after one of kind `before` and what was read up to it.
fn refusal(before: Option<u32>, word: u32, drawing: &Drawing) -> Option<u32> {
    let follows = match before {
        None => kind(word) == 0,
        Some(END) => return Some(WORDS),
        Some(before) => FOLLOWS[before as usize].contains(&kind(word)),
    };
    let listed = match kind(word) {
        0 => payload(word) < KINDS,
        1 => payload(word) <= 1,
        END => payload(word) == 0,
        _ => true,
    };
    let subpaths = drawing.path.shapes.len();
    match kind(word) {
        _ if !follows || !listed => Some(ORDER),
        END if subpaths == 0 => Some(NO_SUBPATH),
        1 if subpaths == MOST_SUBPATHS => Some(TOO_MANY),
        2 if drawing.radii.len() == MOST_ANCHORS => Some(TOO_MANY),
        _ => None,
    }
}

fn take(word: u32, drawing: &mut Drawing) {
    let numbers = &mut drawing.path.numbers;
    let anchor = numbers.len().saturating_sub(SIX);
    match kind(word) {
        0 => drawing.kind = payload(word),
        1 => drawing.path.shapes.push(payload(word) * CLOSED),
        2 => {
            *drawing.path.shapes.last_mut().expect("a subpath") += 1;
            drawing.radii.push(0.0);
            numbers.extend([number(word), 0.0].repeat(SIX / 2));
        }
        // A handle that is missing equals the point.
        3 => (1..SIX)
            .step_by(2)
            .for_each(|k| numbers[anchor + k] = number(word)),
        k @ 4..=7 => numbers[anchor + k as usize - 2] = number(word),
        8 => *drawing.radii.last_mut().expect("an anchor") = number(word),
        _ => {}
    }
}

// ---- writing

fn word(kind: u32, payload: u32) -> u32 {
    kind << PAYLOAD | payload & ((1 << PAYLOAD) - 1)
}

/// The nearest number that a job can have, as a word.
fn nearest(kind: u32, x: f64) -> u32 {
    word(
        kind,
        ((x * UNIT).round() as i32).clamp(-(1 << 27), (1 << 27) - 1) as u32,
    )
}

/// Words of a drawing, its numbers rounded; handles and radii that need not be written sometimes are not.
pub fn write(drawing: &Drawing, random: &mut Random) -> Vec<u32> {
    let mut words = vec![word(0, drawing.kind)];
    let mut place = 0;
    for shape in &drawing.path.shapes {
        words.push(word(1, shape >> 31));
        for _ in 0..shape & !CLOSED {
            let a = drawing.path.anchor(place);
            words.extend([nearest(2, a[0]), nearest(3, a[1])]);
            for k in [4, 6] {
                if a[k as usize - 2..][..2] != a[..2] || random.one_in(2) {
                    words.extend([
                        nearest(k, a[k as usize - 2]),
                        nearest(k + 1, a[k as usize - 1]),
                    ]);
                }
            }
            if drawing.radii[place] != 0.0 || random.one_in(2) {
                words.push(nearest(8, drawing.radii[place]));
            }
            place += 1;
        }
    }
    words.push(word(END, 0));
    words
}

pub fn bytes(words: &[u32]) -> Vec<u8> {
    words.iter().flat_map(|word| word.to_le_bytes()).collect()
}

/// Document 01's square, with a head of the given kind.
pub fn square(kind: u32) -> Vec<u8> {
    bytes(&[
        kind, 0x10000001, 0x20000000, 0x30000000, 0x80000800, 0x20002000, 0x30000000, 0x20002000,
        0x30002000, 0x20000000, 0x30002000, 0xF0000000,
    ])
}

// ---- damage

pub type Damage = fn(&mut Vec<u8>, &mut Random);

pub static DAMAGES: Group<Damage> = Group {
    name: "damage",
    ways: &[
        ("none", |_, _| {}),
        ("a bit", |job, random| {
            let at = random.below(job.len() as u64) as usize;
            job[at] ^= 1 << random.below(8);
        }),
        ("cut short", shorten),
        ("bytes more", |job, random| {
            for _ in 0..1 + random.below(9) {
                job.push(random.bits() as u8);
            }
        }),
        ("a word's kind", |job, random| {
            let at = WORD * random.below(job.len() as u64 / WORD as u64) as usize + WORD - 1;
            job[at] = job[at] & 0xf | (random.bits() as u8) << 4;
        }),
        ("a word left out", |job, random| {
            let at = WORD * random.below(job.len() as u64 / WORD as u64) as usize;
            job.drain(at..at + WORD);
        }),
        ("a word twice", |job, random| {
            let at = WORD * random.below(job.len() as u64 / WORD as u64) as usize;
            let again = job[at..at + WORD].to_vec();
            job.splice(at..at, again);
        }),
        ("two words changed over", |job, random| {
            let words = job.len() as u64 / WORD as u64;
            let [a, b] = [0, 0].map(|_| WORD * random.below(words) as usize);
            (0..WORD).for_each(|k| job.swap(a + k, b + k));
        }),
    ],
};

/// At and past each limit.
pub fn at_limits() -> Vec<(Family, Vec<u8>)> {
    let subpaths = |n: usize| [vec![word(0, 0)], vec![word(1, 1); n], vec![word(END, 0)]].concat();
    let anchors = |n: usize| {
        let mut words = vec![word(0, 2), word(1, 0)];
        for k in 0..n as u32 {
            words.extend([word(2, 1024 * k), word(3, 1024 * (k % 2))]);
        }
        words.push(word(END, 0));
        words
    };
    let extreme = |x: u32| {
        vec![
            word(0, 0),
            word(1, 0),
            word(2, x),
            word(3, x),
            word(8, x),
            word(END, 0),
        ]
    };
    [
        (LIMITS[0], subpaths(MOST_SUBPATHS)),
        (LIMITS[1], subpaths(MOST_SUBPATHS + 1)),
        (LIMITS[2], anchors(MOST_ANCHORS)),
        (LIMITS[3], anchors(MOST_ANCHORS + 1)),
        (LIMITS[4], extreme(1 << 27)),
        (LIMITS[5], extreme((1 << 27) - 1)),
        (LIMITS[6], subpaths(0)),
    ]
    .map(|(family, words)| (family, bytes(&words)))
    .into()
}

pub const LIMITS: [Family; 7] = [
    ("limits", "32 subpaths"),
    ("limits", "33 subpaths"),
    ("limits", "512 anchors"),
    ("limits", "513 anchors"),
    ("limits", "the least number"),
    ("limits", "the greatest"),
    ("limits", "no subpath"),
];

// ---- the library's reader

const SQUARE: Family = ("jobs", "document 01's square");
const DRAWN: Family = ("jobs", "drawn");

/// What a job comes out in: read, refused by a word, in lists that would be too short too, or by these lists alone.
const OUTCOMES: [Family; 13] = [
    ("outcome", "read"),
    ("outcome", "refused 1"),
    ("outcome", "refused 2"),
    ("outcome", "refused 3"),
    ("outcome", "refused 4"),
    ("outcome", "refused 1, and short"),
    ("outcome", "refused 2, and short"),
    ("outcome", "refused 3, and short"),
    ("outcome", "refused 4, and short"),
    ("outcome", "refused 8 for the words"),
    ("outcome", "refused 8 for the numbers"),
    ("outcome", "refused 8 for the radii"),
    ("outcome", "refused 8 for several"),
];

pub fn run(cases: u64, random: &mut Random) -> Tally {
    let families = [
        OUTCOMES.to_vec(),
        vec![SQUARE, DRAWN],
        LIMITS.to_vec(),
        DAMAGES.families(),
        ROOM.families(),
    ];
    let mut tally = Tally::new("read", families.concat());
    let squares = (0..KINDS).map(|kind| (SQUARE, square(kind)));
    for (family, job) in squares.chain(at_limits()) {
        for rooms in tight(needs(&read(&job))) {
            compare(&job, &rooms, vec![family], &mut tally, random);
        }
    }
    for _ in 0..cases {
        let mut families = vec![DRAWN];
        let mut job = bytes(&write(&drawn(random), random));
        DAMAGES.draw(random, &mut families)(&mut job, random);
        let rooms = needs(&read(&job)).map(|need| Room::draw(need, random, &mut families));
        compare(&job, &rooms, families, &mut tally, random);
    }
    tally
}

/// Of whatever size a job may have.
fn drawn(random: &mut Random) -> Drawing {
    loop {
        let drawing = Drawing::whole(random);
        if drawing.is_readable() {
            return drawing;
        }
    }
}

/// Entries for the words, the numbers and the radii; of a job that is refused, for one anchor.
fn needs(read: &Result<Drawing, (u32, usize)>) -> [usize; 3] {
    match read {
        Ok(drawing) => [
            drawing.path.shapes.len(),
            drawing.path.numbers.len(),
            drawing.radii.len(),
        ],
        Err(_) => [1, SIX, 1],
    }
}

/// Just long enough; and one list one too short, each in turn.
fn tight(needs: [usize; 3]) -> Vec<[Room; 3]> {
    let mut all = vec![needs.map(Room::exact)];
    for list in 0..needs.len() {
        let mut rooms = needs.map(Room::exact);
        rooms[list].lent = needs[list].saturating_sub(1);
        all.push(rooms);
    }
    all
}

fn compare(
    job: &[u8],
    rooms: &[Room; 3],
    mut families: Vec<Family>,
    tally: &mut Tally,
    random: &mut Random,
) {
    let short = rooms.each_ref().map(Room::is_short);
    let expected = expected(read(job), short);
    families.push(outcome(expected.refusal, short));
    tally.count(1, &families);
    let [words, numbers, radii] = rooms;
    let mut lents = Lents {
        given: vec![Lent::holding_bytes(job, random)],
        results: vec![
            Lent::foreign(Entry::Word, words.lent, random),
            Lent::foreign(Entry::Number, numbers.lent, random),
            Lent::foreign(Entry::Number, radii.lent, random),
        ],
        answer: Lent::for_answer(random),
    };
    let refusal = library(&mut lents);
    if let Some(wrong) = mismatch(&expected, refusal, &lents) {
        tally.fail(job.len() as u64, || {
            format!("    {job:02x?}, {words}, {numbers}, {radii}\n    {wrong}")
        });
    }
}

/// The words' refusals, then 8.
fn expected(read: Result<Drawing, (u32, usize)>, short: [bool; 3]) -> Expected {
    let drawing = match read {
        Ok(drawing) => drawing,
        Err((number, place)) => return Expected::refused_at(place, number),
    };
    if short.contains(&true) {
        return Expected::refused(OUTPUT);
    }
    let words: Vec<u64> = drawing.path.shapes.iter().copied().map(u64::from).collect();
    let bits = |numbers: &[f64]| numbers.iter().map(|x| x.to_bits()).collect();
    Expected {
        refusal: ACCEPTED,
        answer: [
            0,
            drawing.path.anchors(),
            words.len() as u64,
            u64::from(drawing.kind),
        ],
        written: vec![words, bits(&drawing.path.numbers), bits(&drawing.radii)],
    }
}

fn outcome(refusal: u32, short: [bool; 3]) -> Family {
    let at = match (refusal, short) {
        (ACCEPTED, _) => 0,
        (OUTPUT, [true, false, false]) => 9,
        (OUTPUT, [false, true, false]) => 10,
        (OUTPUT, [false, false, true]) => 11,
        (OUTPUT, _) => 12,
        (word, short) if short.contains(&true) => 4 + word,
        (word, _) => word,
    };
    OUTCOMES[at as usize]
}

fn library(lents: &mut Lents) -> u32 {
    let ([job], [shapes, anchors, radii]) = (&mut lents.given[..], &mut lents.results[..]) else {
        unreachable!("a job is given, and three buffers lent")
    };
    ffi::read(
        job.bytes(),
        shapes.words(),
        anchors.numbers(),
        radii.numbers(),
        lents.answer.answer(),
    )
}
