//! The seed, and counts of the answers that were compared.

use std::collections::BTreeMap;
use std::fmt::{Debug, Display};
use std::sync::LazyLock;
use std::time::{SystemTime, UNIX_EPOCH};

/// What `SEED` says, one by the clock for `SEED=random`, 1 if it is not set.
pub fn seed() -> u64 {
    static SEED: LazyLock<u64> = LazyLock::new(|| match std::env::var("SEED").as_deref() {
        Ok("random") => {
            let now = SystemTime::now().duration_since(UNIX_EPOCH);
            now.expect("the clock is set").as_nanos() as u64
        }
        Ok(seed) => seed.parse().expect("SEED is a number or `random`"),
        Err(_) => 1,
    });
    *SEED
}

/// On how many of so many inputs a comparison is run: on half, or on all where it is built with `WHOLE=1`.
pub const fn inputs(most: u64) -> u64 {
    if cfg!(whole) {
        most
    } else {
        most / 2
    }
}

/// The same of a comparison that makes do with a quarter where a server answers: such a call takes ten times as long.
pub const fn rounds(most: u64) -> u64 {
    if cfg!(served) {
        most / 4
    } else {
        inputs(most)
    }
}

/// How often each answer occurred.
pub struct Tally {
    what: &'static str,
    answers: BTreeMap<String, u64>,
}

impl Tally {
    pub fn of(what: &'static str) -> Tally {
        Tally {
            what,
            answers: BTreeMap::new(),
        }
    }

    /// Holds the two answers for one input, as `shown` prints it, against each other.
    pub fn compare<A: PartialEq + Debug>(
        &mut self,
        label: impl Display,
        proved: A,
        second: A,
        shown: impl FnOnce() -> String,
    ) {
        if proved != second {
            let (what, seed, shown) = (self.what, seed(), shown());
            panic!("{what}, seed {seed}: {proved:?}, the second program: {second:?}, for {shown}");
        }
        self.count(label);
    }

    /// Counts one answer.
    pub fn count(&mut self, label: impl Display) {
        *self.answers.entry(label.to_string()).or_default() += 1;
    }

    /// Adds what another thread counted.
    pub fn add(&mut self, other: Tally) {
        for (answer, count) in other.answers {
            *self.answers.entry(answer).or_default() += count;
        }
    }

    /// The part of all answers that are this one.
    pub fn part(&self, answer: &str) -> f64 {
        let total: u64 = self.answers.values().sum();
        let count = self.answers.get(answer).copied().unwrap_or(0);
        count as f64 / total as f64
    }

    /// Prints the counts; every answer that can be given must have been, or the inputs show too little.
    pub fn report(&self, kinds: usize) {
        let counts: Vec<String> = self
            .answers
            .iter()
            .map(|(answer, count)| format!("{count} {answer}"))
            .collect();
        let total: u64 = self.answers.values().sum();
        println!(
            "{}, seed {}: {total} compared: {}",
            self.what,
            seed(),
            counts.join(", ")
        );
        assert_eq!(self.answers.len(), kinds);
    }
}

pub fn hex(bytes: &[u8]) -> String {
    bytes.iter().map(|byte| format!("{byte:02x}")).collect()
}

pub fn yes_or_no(answer: bool) -> &'static str {
    if answer {
        "yes"
    } else {
        "no"
    }
}
