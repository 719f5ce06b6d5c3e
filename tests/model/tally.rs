//! What was run: how many calls met which number, and the other counts.

use std::collections::BTreeMap;

use crate::rules::{CONFLICT, MOST_RECORDS};

/// A call near the bound: its name, records plus live ones and the live ones before it, and the number that it met.
pub type Bound = (&'static str, usize, usize, u8);

/// Counts of what was run.
#[derive(Clone, Default)]
pub struct Tally {
    pub scripts: u64,
    pub judged: u64,
    pub conflicts: u64,
    pub days: u64,
    pub lists: u64,
    pub accepted: u64,
    pub weighed: u64,
    pub processes: u64,
    /// By call and number, how often it was met.
    pub numbers: BTreeMap<(&'static str, u8), u64>,
    /// The same near the bound of 4,000, by records plus live ones before the call, and live ones: 0, 1, or 2 for several.
    pub bounds: BTreeMap<Bound, u64>,
}

/// The numbers that a script can meet, by call, and those of the checker and its programs.
const REACHABLE: &[(&str, &[u8])] = &[
    ("begin", &[0, 6, 7]),
    ("read", &[0, 3, 4, 5, 7, 9]),
    ("write", &[0, 1, 3, 4, 5, 7]),
    ("commit", &[0, 3, 4, 9]),
    ("giveup", &[0, 3, 4]),
    ("post", &[0, 1, 5, 6, 7]),
    ("order", &[0, 3]),
    ("close", &[0, 8]),
    ("open", &[0]),
    ("save", &[0, 1]),
    ("line ?", &[0]),
    ("entry", &[0, 1, 10, 11, 12]),
    ("accept", &[0, 1, 10, 11, 12]),
    ("report", &[0, 1, 10]),
];

/// The calls of the machine itself.
const CALLS: &[&str] = &[
    "begin", "read", "write", "commit", "giveup", "post", "order", "close", "open",
];

impl Tally {
    /// A call met a number.
    pub fn met(&mut self, call: &'static str, number: u8) {
        *self.numbers.entry((call, number)).or_default() += 1;
    }

    /// A call near the bound met a number.
    pub fn met_near_bound(&mut self, call: &'static str, sum: usize, live: usize, number: u8) {
        if sum + 2 >= MOST_RECORDS {
            *self
                .bounds
                .entry((call, sum, live.min(2), number))
                .or_default() += 1;
        }
    }

    /// A call was judged, if it was.
    pub fn judged(&mut self, judged: bool, number: u8) {
        self.judged += u64::from(judged);
        self.conflicts += u64::from(judged && number == CONFLICT);
    }

    /// A list was put to the checker by its entry for C.
    pub fn list(&mut self, number: u8) {
        self.lists += 1;
        self.accepted += u64::from(number == 0);
        self.met("entry", number);
    }

    /// Takes in another tally.
    pub fn add(&mut self, other: &Tally) {
        self.scripts += other.scripts;
        self.judged += other.judged;
        self.conflicts += other.conflicts;
        self.days += other.days;
        self.lists += other.lists;
        self.accepted += other.accepted;
        self.weighed += other.weighed;
        self.processes += other.processes;
        for (key, count) in &other.numbers {
            *self.numbers.entry(*key).or_default() += count;
        }
        for (key, count) in &other.bounds {
            *self.bounds.entry(*key).or_default() += count;
        }
    }

    /// How many calls the machine was given.
    pub fn calls(&self) -> u64 {
        self.numbers
            .iter()
            .filter(|(key, _)| CALLS.contains(&key.0))
            .map(|(_, count)| count)
            .sum()
    }

    /// The coverage table: call by number.
    pub fn print_numbers(&self) {
        print!("{:<8}", "");
        (0..=12)
            .filter(|number| *number != 2)
            .for_each(|number| print!("{number:>9}"));
        println!();
        for (call, reachable) in REACHABLE {
            print!("{call:<8}");
            for number in (0..=12).filter(|number| *number != 2) {
                let count = self.numbers.get(&(*call, number)).copied().unwrap_or(0);
                let shown = if reachable.contains(&number) || count > 0 {
                    count.to_string()
                } else {
                    "-".to_string()
                };
                print!("{shown:>9}");
            }
            println!();
        }
    }

    /// The calls and numbers that a script can meet and none did.
    pub fn never_met(&self) -> Vec<String> {
        let numbers = REACHABLE
            .iter()
            .flat_map(|(call, numbers)| numbers.iter().map(move |number| (*call, *number)));
        let never = numbers.filter(|key| !self.numbers.contains_key(key));
        let mut said: Vec<String> = never
            .map(|(call, number)| format!("{call} {number}"))
            .collect();
        for bound in reachable_bounds() {
            if !self.bounds.contains_key(&bound) {
                let (call, sum, live, number) = bound;
                said.push(format!(
                    "{call} {number} with records and live ones {sum}, live {live}"
                ));
            }
        }
        said
    }
}

/// What a script can meet on both sides of the bound of 4,000, with none, one and several live.
fn reachable_bounds() -> Vec<Bound> {
    let full = MOST_RECORDS;
    let mut bounds = Vec::new();
    for live in 0..=2 {
        bounds.extend([
            ("begin", full - 2, live, 0),
            ("begin", full - 1, live, 7),
            ("begin", full, live, 7),
        ]);
        bounds.extend([("post", full - 1, live, 0), ("post", full, live, 7)]);
        if live > 0 {
            bounds.extend([("write", full - 1, live, 0), ("write", full, live, 7)]);
            bounds.extend([("read", full - 1, live, 0), ("read", full, live, 7)]);
            bounds.extend([
                ("commit", full, live, 0),
                ("commit", full, live, 9),
                ("giveup", full, live, 0),
            ]);
        }
    }
    bounds
}
