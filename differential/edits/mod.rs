//! Edits of the original's text. Each says what it must find, so that an original that has changed
//! stops the build, and is not compared half edited.

pub mod bezier;
pub mod branches;
pub mod geom;
pub mod placed;

/// A file of the original.
pub struct File {
    pub name: &'static str,
    pub edits: &'static [Edit],
    /// Uses of a method with a stand-in that stay, being on integers, and how many there are.
    pub on_integers: &'static [(usize, &'static str)],
}

pub enum Edit {
    /// `find`, which stands there `times` times, becomes `put`.
    Replace {
        times: usize,
        find: &'static str,
        put: &'static str,
    },
    /// `functions` go: they are what stands from `from` on, up to `until`.
    Cut {
        functions: &'static [&'static str],
        from: &'static str,
        until: &'static str,
    },
}

/// `find`, which stands there once, becomes `put`.
const fn replace(find: &'static str, put: &'static str) -> Edit {
    replace_all(1, find, put)
}

const fn replace_all(times: usize, find: &'static str, put: &'static str) -> Edit {
    Edit::Replace { times, find, put }
}

const fn cut(functions: &'static [&'static str], from: &'static str, until: &'static str) -> Edit {
    Edit::Cut {
        functions,
        from,
        until,
    }
}

/// What document 01 has stand-ins for.
const WITH_STAND_IN: [&str; 5] = ["max", "min", "clamp", "hypot", "partition_point"];

impl File {
    pub fn edited(&self, mut text: String) -> String {
        for edit in self.edits {
            text = match *edit {
                Edit::Replace { times, find, put } => {
                    self.expect(&text, find, times);
                    text.replace(find, put)
                }
                Edit::Cut {
                    functions,
                    from,
                    until,
                } => self.without(&text, functions, from, until),
            };
        }
        self.expect_all_stood_in(&text);
        text
    }

    fn without(&self, text: &str, functions: &[&str], from: &str, until: &str) -> String {
        self.expect(text, from, 1);
        self.expect(text, until, 1);
        let (kept, rest) = text.split_at(text.find(from).expect("just found"));
        let Some((gone, behind)) = rest.split_once(until) else {
            panic!("{}: `{until}` should follow `{from}`", self.name)
        };
        let found = functions_of(gone);
        assert!(
            found == functions,
            "{}: {functions:?} should stand from `{from}` to `{until}`, and {found:?} stand there",
            self.name
        );
        format!("{kept}{until}{behind}")
    }

    fn expect(&self, text: &str, find: &str, times: usize) {
        let found = text.matches(find).count();
        assert!(
            found == times,
            "{}: `{find}` should stand there {times} times, and stands there {found} times",
            self.name
        );
    }

    /// That no use of a method with a stand-in was overlooked.
    fn expect_all_stood_in(&self, text: &str) {
        for (times, on_integers) in self.on_integers {
            self.expect(text, on_integers, *times);
        }
        for method in WITH_STAND_IN {
            let call = format!(".{method}(");
            let staying = self.on_integers.iter().filter(|(_, at)| at.contains(&call));
            self.expect(text, &call, staying.map(|(times, _)| times).sum());
            self.expect(text, &format!("::{method}"), 0);
        }
    }
}

/// The names of the functions that start at the margin.
fn functions_of(text: &str) -> Vec<&str> {
    text.lines()
        .map(|line| line.strip_prefix("pub ").unwrap_or(line))
        .filter_map(|line| line.strip_prefix("fn "))
        .filter_map(|line| line.split('(').next())
        .collect()
}
