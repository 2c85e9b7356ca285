//! Comparisons on two threads, told in order.

use crate::random::Random;
use crate::report::Tally;
use std::sync::{mpsc, Mutex};
use std::thread;

/// As many as the gate's machine has cores.
const THREADS: usize = 2;

/// Compares one call, on cases of its own.
pub type Comparison = Box<dyn FnOnce(&mut Random) -> Tally + Send>;

/// Runs them all and tells each tally, in the list's order. Each draws from numbers of its own, so that its cases
/// turn on the seed and its place in the list, and not on which thread comes to it.
pub fn run(all: Vec<Comparison>, random: &mut Random, mut tell: impl FnMut(Tally)) {
    let drawn = all.into_iter().map(|one| (one, Random::new(random.bits())));
    let waiting = Mutex::new(drawn.collect::<Vec<_>>().into_iter().enumerate());
    let (done, tallies) = mpsc::channel();
    thread::scope(|scope| {
        for _ in 0..THREADS {
            let (waiting, done) = (&waiting, done.clone());
            scope.spawn(move || {
                while let Some((at, (compare, mut random))) = next(waiting) {
                    done.send((at, compare(&mut random))).expect("it is told");
                }
            });
        }
        drop(done);
        in_order(tallies.into_iter(), &mut tell);
    });
}

/// What a thread takes, which is then no other's.
fn next<T>(waiting: &Mutex<impl Iterator<Item = T>>) -> Option<T> {
    waiting
        .lock()
        .expect("no thread fails while it takes")
        .next()
}

/// Tells each tally once those before it are told.
fn in_order(tallies: impl Iterator<Item = (usize, Tally)>, tell: &mut impl FnMut(Tally)) {
    let mut early = Vec::new();
    let mut told = 0;
    for tally in tallies {
        early.push(tally);
        while let Some(at) = early.iter().position(|(at, _)| *at == told) {
            tell(early.swap_remove(at).1);
            told += 1;
        }
    }
}
