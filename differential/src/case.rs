//! One generated call, and the buffers it lends.

use crate::family::{self, Family};
use crate::guard::{Entry, Lent};
use crate::lents::Lents;
use crate::parameters::{ENOUGH, ROOM};
use crate::random::Random;
use crate::refusal::{in_limit, MOST_STEPS};
use crate::values::outside;
use std::fmt::{Display, Formatter, Result};

#[derive(Default)]
pub struct Case {
    pub families: Vec<Family>,
    /// Every f64 that is given, the cubic's first.
    pub numbers: Vec<f64>,
    /// `sample`'s n; 0 elsewhere.
    pub steps: usize,
    /// One for each list of the result.
    pub rooms: Vec<Room>,
}

/// A buffer for a list of the result.
pub struct Room {
    pub need: usize,
    pub lent: usize,
}

impl Room {
    pub fn exact(need: usize) -> Room {
        Room { need, lent: need }
    }

    /// One that is long enough in most cases.
    pub fn draw(need: usize, random: &mut Random, drawn: &mut Vec<Family>) -> Room {
        let room = if random.one_in(4) { &ROOM } else { &ENOUGH };
        let lent = room.draw(random, drawn)(need, random);
        Room { need, lent }
    }

    pub fn is_short(&self) -> bool {
        self.lent < self.need
    }
}

/// Of two buffers that are not both long enough: the index of the short one, 2 for both.
pub fn which_short(rooms: &[Room; 2]) -> usize {
    match rooms.each_ref().map(Room::is_short) {
        [true, false] => 0,
        [false, true] => 1,
        _ => 2,
    }
}

impl Display for Room {
    fn fmt(&self, f: &mut Formatter) -> Result {
        write!(f, "room {} of {}", self.lent, self.need)
    }
}

impl Case {
    pub const ARGUMENTS: [Family; 2] = [("arguments", "as drawn"), ("arguments", "one outside")];

    /// A buffer that always has the room that is needed.
    pub fn lend_exactly(&mut self, need: usize) {
        self.rooms.push(Room::exact(need));
    }

    pub fn lend(&mut self, need: usize, random: &mut Random) {
        let lent = ROOM.draw(random, &mut self.families)(need, random);
        self.rooms.push(Room { need, lent });
    }

    /// Puts a number that breaks the limit in some place, in one of eight cases.
    pub fn spoil(&mut self, random: &mut Random) {
        let spoilt = random.one_in(8);
        if spoilt {
            let at = random.below(self.numbers.len() as u64) as usize;
            self.numbers[at] = outside(random);
        }
        self.families.push(Case::ARGUMENTS[usize::from(spoilt)]);
    }

    pub fn arguments_in_limit(&self) -> bool {
        self.numbers.iter().all(|&x| in_limit(x)) && self.steps <= MOST_STEPS
    }

    pub fn is_short(&self) -> bool {
        self.rooms.iter().any(Room::is_short)
    }

    /// The buffers that the call is lent.
    pub fn lents(&self, random: &mut Random) -> Lents {
        Lents {
            given: vec![Lent::holding(&self.numbers, random)],
            results: (self.rooms.iter())
                .map(|room| Lent::foreign(Entry::Number, room.lent, random))
                .collect(),
            answer: Lent::for_answer(random),
        }
    }

    /// How much there is to read: the numbers' bits down to the last one that is set, and the lengths.
    pub fn size(&self) -> u64 {
        let numbers = self.numbers.iter().map(|x| x.to_bits());
        let lengths = self.rooms.iter().map(|room| room.lent as u64);
        let wholes = lengths.chain([self.steps as u64]);
        numbers.map(significant_bits).sum::<u64>() + wholes.sum::<u64>()
    }
}

pub fn significant_bits(word: u64) -> u64 {
    u64::from(64 - word.trailing_zeros())
}

impl Display for Case {
    fn fmt(&self, f: &mut Formatter) -> Result {
        writeln!(f, "    {}", family::list(&self.families))?;
        for x in &self.numbers {
            writeln!(f, "    {:#018x}  {x:e}", x.to_bits())?;
        }
        write!(f, "    n {}", self.steps)?;
        for room in &self.rooms {
            write!(f, ", {room}")?;
        }
        Ok(())
    }
}
