//! How many cases each of the archive's functions had in each part of a run, and how many of them differed.

use std::collections::BTreeMap;

/// The archive's header. The functions that it declares are those that must have had cases.
const HEADER: &str = include_str!("../../../../include/slash.h");

/// The parts of a run, counted apart: many cases of one don't make up for none of the other.
#[derive(Clone, Copy)]
pub enum Part {
    Exhaustive,
    Random,
}

const PARTS: [Part; 2] = [Part::Exhaustive, Part::Random];

impl Part {
    fn name(self) -> &'static str {
        match self {
            Part::Exhaustive => "exhaustive",
            Part::Random => "random",
        }
    }
}

/// The counts of one function, its cases by part.
#[derive(Default)]
struct Tally {
    cases: [u64; PARTS.len()],
    differences: u64,
}

impl Tally {
    fn print(&self, name: &str) {
        let [exhaustive, random] = self.cases;
        let differences = self.differences;
        println!("{name:<20} {exhaustive:>12} {random:>12} {differences:>12}");
    }
}

pub struct Counts {
    /// The part that cases are counted in.
    pub part: Part,
    tallies: BTreeMap<&'static str, Tally>,
}

/// The archive's functions: each name in the header that begins like theirs and has brackets and a semicolon behind
/// it. (Behind the brackets of a function that the header itself defines a body stands.)
fn declared() -> impl Iterator<Item = &'static str> {
    let ends_name = |character: char| !character.is_ascii_alphanumeric() && character != '_';
    let parts = HEADER.split('(').zip(HEADER.split('(').skip(1));
    let is_declared = |behind: &str| {
        let end = behind.split_once(')').map(|(_, end)| end);
        end.is_some_and(|end| end.trim_start().starts_with(';'))
    };
    parts
        .filter(move |(_, behind)| is_declared(behind))
        .filter_map(move |(before, _)| before.trim_end().rsplit(ends_name).next())
        .filter(|name| name.starts_with("slash_"))
}

impl Counts {
    /// No case yet of any declared function, so that one that is never called is counted too.
    pub fn new() -> Counts {
        let tallies = declared().map(|name| (name, Tally::default()));
        Counts {
            part: Part::Exhaustive,
            tallies: tallies.collect(),
        }
    }

    /// Counts a case of a function, and gives how many of its cases differed so far.
    pub fn add(&mut self, name: &str, differs: bool) -> u64 {
        let tally = self.tallies.get_mut(name);
        let tally = tally.unwrap_or_else(|| panic!("{name} isn't declared"));
        tally.cases[self.part as usize] += 1;
        tally.differences += u64::from(differs);
        tally.differences
    }

    fn all(&self) -> Tally {
        let mut all = Tally::default();
        for tally in self.tallies.values() {
            for part in PARTS {
                all.cases[part as usize] += tally.cases[part as usize];
            }
            all.differences += tally.differences;
        }
        all
    }

    /// The functions that had no case in a part, each with that part.
    fn without_case(&self) -> Vec<(&'static str, Part)> {
        let in_part = |part: Part| {
            let tallies = self.tallies.iter();
            let without = tallies.filter(move |(_, tally)| tally.cases[part as usize] == 0);
            without.map(move |(&name, _)| (name, part))
        };
        PARTS.into_iter().flat_map(in_part).collect()
    }

    /// Prints the counts and which functions lack cases; says whether nothing differed and none lacks any.
    pub fn report(&self) -> bool {
        let [exhaustive, random] = PARTS.map(Part::name);
        println!("{:<20} {exhaustive:>12} {random:>12}  differences", "");
        for (name, tally) in &self.tallies {
            tally.print(name);
        }
        let all = self.all();
        all.print("all");
        let without_case = self.without_case();
        for &(name, part) in &without_case {
            println!("{name} had no {} case", part.name());
        }
        all.differences == 0 && without_case.is_empty()
    }
}
