//! The comparison must be able to fail: it lets right answers pass, and reports each wrong one.

use crate::compare::{mismatch, Buffer, Expected, Mismatch};
use crate::family::Family;
use crate::guard::{Entry, Lent};
use crate::lents::Lents;
use crate::random::Random;
use crate::refusal::{ACCEPTED, ARGUMENTS, LISTS, OUTPUT, RESULT};
use crate::report::Tally;
use crate::root;

/// Panics where something wrong passes, or something right does not.
pub fn run(random: &mut Random) {
    check(&Expected::refused_at(7, RESULT), random);
    let numbers = [1.0f64, -0.0].map(f64::to_bits);
    let words = [1 << 31 | 2, 0];
    let bytes = b"M1 -0".map(u64::from);
    let accepted = Expected {
        refusal: ACCEPTED,
        answer: [0, 2, 1, 0],
        written: vec![numbers.to_vec(), words.to_vec(), bytes.to_vec()],
    };
    check(&accepted, random);
    check_root();
    check_tally();
}

/// Every wrong number, and every bit of every buffer: of the place and of the other words of the
/// answer, of the result, of what stands behind it, of what is given, and of all guards.
fn check(expected: &Expected, random: &mut Random) {
    let mut lents = call(expected, random);
    assert_eq!(mismatch(expected, expected.refusal, &lents), None);
    for refusal in [ACCEPTED, LISTS, ARGUMENTS, RESULT, OUTPUT] {
        let reported = mismatch(expected, refusal, &lents).is_some();
        assert_eq!(reported, refusal != expected.refusal, "refusal {refusal}");
    }
    let results = (0..lents.results.len()).map(Buffer::Result);
    let given = (0..lents.given.len()).map(Buffer::Given);
    for buffer in results.chain(given).chain([Buffer::Answer]) {
        for at in buffer_of(&mut lents, buffer).places() {
            for bit in 0..buffer_of(&mut lents, buffer).bits() {
                buffer_of(&mut lents, buffer).flip(at, bit);
                match mismatch(expected, expected.refusal, &lents) {
                    Some(Mismatch::Entry(found, wrong)) if (found, wrong.at) == (buffer, at) => {
                        assert_eq!(wrong.got ^ wrong.expected, 1 << bit);
                    }
                    other => panic!("bit {bit} of entry {at} of {buffer:?} gives {other:?}"),
                }
                buffer_of(&mut lents, buffer).flip(at, bit);
            }
        }
    }
}

/// What a right call leaves, in lists of each kind of entry that are longer than the result.
fn call(expected: &Expected, random: &mut Random) -> Lents {
    let results = [(Entry::Number, 3), (Entry::Word, 3), (Entry::Byte, 7)];
    let mut lents = Lents {
        given: vec![
            Lent::holding(&[5.0, 12.0], random),
            Lent::holding_words(&[1 << 31 | 1, 0, 1], random),
        ],
        results: (results.iter())
            .map(|&(entry, len)| Lent::foreign(entry, len, random))
            .collect(),
        answer: Lent::for_answer(random),
    };
    *lents.answer.answer() = expected.answer;
    for (lent, written) in lents.results.iter_mut().zip(&expected.written) {
        lent.write(written);
    }
    lents
}

fn buffer_of(lents: &mut Lents, buffer: Buffer) -> &mut Lent {
    match buffer {
        Buffer::Answer => &mut lents.answer,
        Buffer::Result(list) => &mut lents.results[list],
        Buffer::Given(list) => &mut lents.given[list],
    }
}

fn check_root() {
    let two = 2.0f64.sqrt();
    for (a, b) in [(two, two), (-0.0, -0.0), (f64::NAN, -f64::NAN)] {
        assert!(root::same(a, b), "{a} does not pass for {b}");
    }
    for (a, b) in [(two.next_up(), two), (0.0, -0.0), (f64::NAN, two)] {
        assert!(!root::same(a, b) && !root::same(b, a), "{a} passes for {b}");
    }
}

/// A tally passes with a case of every family and no fail, and not otherwise.
fn check_tally() {
    const MET: Family = ("selftest", "met");
    let mut tally = Tally::new("selftest", vec![MET]);
    assert!(!tally.passed(), "a family without a case passes");
    tally.count(1, &[MET]);
    assert!(tally.passed());
    tally.fail(0, String::new);
    assert!(!tally.passed(), "a fail passes");
}
