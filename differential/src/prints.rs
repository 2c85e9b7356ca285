//! What `patch` prints for a job: document 01's reader and cache, the original's cut and text, byte by byte.

use crate::caches::Cache;
use crate::drawings::Drawing;
use crate::family::Family;
use crate::ffi;
use crate::guard::{Entry, Lent};
use crate::jobs::{self, DAMAGES, LIMITS, NO_SUBPATH, ORDER, TOO_MANY, WORDS};
use crate::original::bezier::to_svg_d;
use crate::random::Random;
use crate::refusal::{OUTPUT, RESULT};
use crate::report::Tally;

/// Bytes of a job, and of a line.
const MOST_BYTES: usize = 32_768;
pub const LINE: usize = 65_536;

const SAMPLES: Family = ("jobs", "document 01's square");
const TRUNCATED: Family = ("jobs", "the square, every truncation");
const FLIPPED: Family = ("jobs", "the square, every bit");
const DRAWN: Family = ("jobs", "drawn");
const LONG: Family = ("jobs", "over 32,768 bytes");
const BEYOND: Family = ("jobs", "a cut beyond the limit");

const PRINTS: [Family; 8] = [
    ("prints", "a text"),
    ("prints", "an empty line"),
    ("prints", "refused 1"),
    ("prints", "refused 2"),
    ("prints", "refused 3"),
    ("prints", "refused 4"),
    ("prints", "refused 8"),
    ("prints", "refused 9"),
];

pub fn run(cases: u64, random: &mut Random) -> Tally {
    let families = [
        vec![SAMPLES, TRUNCATED, FLIPPED, DRAWN, LONG, BEYOND],
        LIMITS.to_vec(),
        DAMAGES.families(),
        PRINTS.to_vec(),
    ];
    let mut tally = Tally::new("print", families.concat());
    squares(&mut tally, random);
    for (family, job) in jobs::at_limits() {
        compare(&job, vec![family], &mut tally, random);
    }
    for extra in [1, 4, 77] {
        let job = vec![0; MOST_BYTES + extra];
        compare(&job, vec![LONG], &mut tally, random);
    }
    compare(&long_text(), vec![DRAWN], &mut tally, random);
    compare(&jobs::bytes(&FAR_CORNER), vec![BEYOND], &mut tally, random);
    for _ in 0..cases {
        let mut families = vec![DRAWN];
        let drawing = loop {
            let drawing = Drawing::whole(random);
            if drawing.is_readable() {
                break drawing;
            }
        };
        let mut job = jobs::bytes(&jobs::write(&drawing, random));
        DAMAGES.draw(random, &mut families)(&mut job, random);
        compare(&job, families, &mut tally, random);
    }
    tally
}

/// Three anchors at the limit's edge, the second with a radius longer than its sides: a number of its cut is rounded to one beyond
/// the limit.
const FAR_CORNER: [u32; 10] = [
    0x0000_0000,
    0x1000_0000,
    0x27ff_fcb1,
    0x3800_0000,
    0x27ff_ffff,
    0x37ff_fe0c,
    0x87ff_ff59,
    0x26df_ae78,
    0x3809_81ba,
    0xf000_0000,
];

/// Document 01's square in each of its kinds, whole, cut short anywhere and with any bit changed.
fn squares(tally: &mut Tally, random: &mut Random) {
    for kind in 0..3 {
        let job = jobs::square(kind);
        compare(&job, vec![SAMPLES], tally, random);
        for length in 0..job.len() {
            compare(&job[..length], vec![TRUNCATED], tally, random);
        }
        for bit in 0..8 * job.len() {
            let mut job = job.clone();
            job[bit / 8] ^= 1 << (bit % 8);
            compare(&job, vec![FLIPPED], tally, random);
        }
    }
}

/// A job whose text is longer than a line: as many curves as there may be, of long numbers, each corner cut.
fn long_text() -> Vec<u8> {
    let far = |k: u32| (1 << 27) - 1 - 7 * k;
    let mut words = vec![0, 0x1000_0001];
    for k in 0..512 {
        let sign = if k % 2 == 0 {
            far(k)
        } else {
            0u32.wrapping_sub(far(k))
        };
        let turned = if k % 4 < 2 {
            far(k)
        } else {
            0u32.wrapping_sub(far(k))
        };
        for (kind, x) in [
            (2, sign),
            (3, turned),
            (4, sign ^ 5),
            (5, turned ^ 3),
            (6, sign ^ 9),
            (7, turned ^ 11),
            (8, 1024 * 99),
        ] {
            words.push(kind << 28 | x & 0xfff_ffff);
        }
    }
    words.push(0xF000_0000);
    jobs::bytes(&words)
}

fn compare(job: &[u8], mut families: Vec<Family>, tally: &mut Tally, random: &mut Random) {
    let (line, family) = expected(job);
    families.push(family);
    tally.count(1, &families);
    let mut given = Lent::holding_bytes(job, random);
    let mut lent = Lent::foreign(Entry::Byte, LINE, random);
    let length = ffi::print(
        given.bytes(),
        lent.bytes().first_chunk_mut().expect("long enough"),
    );
    let written: Vec<u64> = line.bytes().map(u64::from).collect();
    let wrong = match lent.wrong(&written) {
        None if length == line.len() && given.wrong(&[]).is_none() => return,
        wrong => wrong,
    };
    tally.fail(job.len() as u64, || {
        format!("    {job:02x?}\n    {line}\n    length {length}, {wrong:?}")
    });
}

fn expected(job: &[u8]) -> (String, Family) {
    let refused = |number: u32, place: usize| format!("refused {number} {place}");
    if job.len() > MOST_BYTES {
        return (refused(WORDS, 8192), PRINTS[2]);
    }
    let drawing = match jobs::read(job) {
        Ok(drawing) => drawing,
        Err((number, place)) => {
            let family = [WORDS, ORDER, NO_SUBPATH, TOO_MANY]
                .iter()
                .position(|&n| n == number);
            return (refused(number, place), PRINTS[2 + family.expect("1 to 4")]);
        }
    };
    if let Some(place) = Cache::of(&drawing).first_outside() {
        return (refused(RESULT, place), PRINTS[7]);
    }
    let text = to_svg_d(&drawing.cut());
    if text.len() > LINE {
        return (refused(OUTPUT, 0), PRINTS[6]);
    }
    let family = if text.is_empty() {
        PRINTS[1]
    } else {
        PRINTS[0]
    };
    (text, family)
}
