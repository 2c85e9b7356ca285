//! Counts of cases and fails, and the verdict.

use crate::family::Family;

/// The cases of one call.
pub struct Tally {
    name: &'static str,
    cases: u64,
    families: Vec<(Family, u64)>,
    fails: u64,
    /// The fail with the least to read: its size, and what it was.
    smallest: Option<(u64, String)>,
}

impl Tally {
    /// A tally of a call whose cases must meet every one of `families`.
    pub fn new(name: &'static str, families: Vec<Family>) -> Tally {
        Tally {
            name,
            cases: 0,
            families: families.into_iter().map(|family| (family, 0)).collect(),
            fails: 0,
            smallest: None,
        }
    }

    /// Counts `cases`, under each of their families.
    pub fn count(&mut self, cases: u64, families: &[Family]) {
        self.cases += cases;
        for family in families {
            match self.families.iter_mut().find(|(known, _)| known == family) {
                Some((_, count)) => *count += cases,
                None => panic!("{}: no family {family:?}", self.name),
            }
        }
    }

    pub fn fail(&mut self, size: u64, describe: impl FnOnce() -> String) {
        self.fails += 1;
        if self
            .smallest
            .as_ref()
            .is_none_or(|(least, _)| size < *least)
        {
            self.smallest = Some((size, describe()));
        }
    }

    pub fn passed(&self) -> bool {
        self.fails == 0 && self.cases > 0 && self.families.iter().all(|(_, count)| *count > 0)
    }

    pub fn print(&self) {
        print!("{}: {} cases, {} fails", self.name, self.cases, self.fails);
        let mut group = "";
        for ((of, name), count) in &self.families {
            if *of != group {
                print!("\n    {of}:");
                group = of;
            }
            print!("  {name} {count}");
        }
        println!();
        for ((group, name), _) in self.families.iter().filter(|(_, count)| *count == 0) {
            println!("  FAIL: no case with {group}: {name}");
        }
        if let Some((_, what)) = &self.smallest {
            println!("  FAIL: the smallest is\n{what}");
        }
    }
}
