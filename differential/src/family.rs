//! The families that cases are drawn from and come out in.

use crate::random::Random;

/// A group's name, and the name of one of its ways.
pub type Family = (&'static str, &'static str);

/// Ways to draw one thing.
pub struct Group<T: 'static> {
    pub name: &'static str,
    pub ways: &'static [(&'static str, T)],
}

impl<T> Group<T> {
    /// One of the ways, noted in `drawn`.
    pub fn draw(&self, random: &mut Random, drawn: &mut Vec<Family>) -> &T {
        let (name, way) = random.pick(self.ways);
        drawn.push((self.name, name));
        way
    }

    pub fn families(&self) -> Vec<Family> {
        self.ways.iter().map(|way| (self.name, way.0)).collect()
    }
}

/// For a report.
pub fn list(families: &[Family]) -> String {
    let names = families
        .iter()
        .map(|(group, name)| format!("{group}: {name}"));
    names.collect::<Vec<_>>().join(", ")
}
