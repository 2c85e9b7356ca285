//! What a call is lent.

use crate::case::Room;
use crate::guard::{Entry, Lent};
use crate::random::Random;

pub struct Lents {
    /// What it reads.
    pub given: Vec<Lent>,
    /// What it writes its result to.
    pub results: Vec<Lent>,
    pub answer: Lent,
}

impl Lents {
    /// With buffers for words and for numbers.
    pub fn with_rooms(
        given: Vec<Lent>,
        [words, numbers]: &[Room; 2],
        random: &mut Random,
    ) -> Lents {
        Lents {
            given,
            results: vec![
                Lent::foreign(Entry::Word, words.lent, random),
                Lent::foreign(Entry::Number, numbers.lent, random),
            ],
            answer: Lent::for_answer(random),
        }
    }
}
