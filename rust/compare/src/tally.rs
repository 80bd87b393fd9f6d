//! What was compared, how it was answered, and where the two sides differed.

use std::collections::BTreeMap;
use std::fmt::Debug;
use std::time::{Duration, Instant};

/// Differences are counted; the first few are kept in words.
const KEPT: usize = 10;

/// How long a comparison is silent, and then between two reports.
const PATIENCE: Duration = Duration::from_secs(10);
/// The clock is looked at once in so many answers.
const ANSWERS: u64 = 1_024;

/// Counts of answers by what was compared, and the differences.
#[derive(Default)]
pub struct Tally {
    answers: BTreeMap<&'static str, BTreeMap<u8, u64>>,
    pub differences: u64,
    pub examples: Vec<String>,
    counted: u64,
    told: Option<Instant>,
}

impl Tally {
    /// Counts an answer: the refusal's number, or 0.
    pub fn count(&mut self, what: &'static str, answer: u8) {
        *self
            .answers
            .entry(what)
            .or_default()
            .entry(answer)
            .or_default() += 1;
        self.counted += 1;
        if self.counted.is_multiple_of(ANSWERS) {
            self.tell();
        }
    }

    /// Says now and then on standard error how far it is.
    fn tell(&mut self) {
        let told = self.told.get_or_insert_with(Instant::now);
        if told.elapsed() >= PATIENCE {
            *told = Instant::now();
            eprintln!(
                "{} answers compared, {} differences",
                self.counted, self.differences
            );
        }
    }

    /// Holds two answers against each other. The case is only written out if they differ.
    pub fn same<T: PartialEq + Debug>(
        &mut self,
        what: &str,
        ours: &T,
        theirs: &T,
        case: impl FnOnce() -> String,
    ) {
        if ours == theirs {
            return;
        }
        self.differences += 1;
        if self.examples.len() < KEPT {
            let text = |side: &T| format!("{side:?}").chars().take(400).collect::<String>();
            let (ours, theirs) = (text(ours), text(theirs));
            self.examples.push(format!(
                "{what}: the library {ours}, the other side {theirs}; {}",
                case()
            ));
        }
    }

    /// How often something was compared.
    pub fn total(&self, what: &str) -> u64 {
        self.answers
            .get(what)
            .map_or(0, |answers| answers.values().sum())
    }

    /// A line for each thing compared, and one for the differences.
    pub fn report(&self) -> String {
        let mut text = String::new();
        for (what, answers) in &self.answers {
            text += &format!("{what}: {} {answers:?}\n", self.total(what));
        }
        for example in &self.examples {
            text += &format!("DIFFERENCE {example}\n");
        }
        text + &format!("differences: {}\n", self.differences)
    }
}
