//! How often each answer occurred in a comparison, and how often the other program's differed.

use crate::check::{Claim, Report};

/// What an answer is about, and the answer.
pub type Name = (String, String);

struct Row {
    name: Name,
    occurred: u64,
    differed: u64,
}

pub struct Tally(Vec<Row>);

/// Each answer is to occur at least `least` times in a run of `of` samples. Shorter runs are held
/// to proportionally less, longer ones to no more.
#[derive(Clone, Copy)]
pub struct Often {
    pub least: u64,
    pub of: u64,
}

impl Often {
    pub fn in_a_run_of(self, count: u64) -> u64 {
        self.least.min(count * self.least / self.of)
    }
}

impl Tally {
    /// A row for each answer that should occur.
    pub fn new<T: ToString>(answers: &[(&str, &[T])]) -> Self {
        let row = |about: &str, answer: &T| Row {
            name: (about.to_string(), answer.to_string()),
            occurred: 0,
            differed: 0,
        };
        let rows = answers
            .iter()
            .flat_map(|&(about, answers)| answers.iter().map(move |answer| row(about, answer)));
        Tally(rows.collect())
    }

    /// Counts an answer, which has a row.
    pub fn count(&mut self, name: &Name, differed: bool) {
        let row = self.0.iter_mut().find(|row| row.name == *name);
        let row = row.unwrap_or_else(|| panic!("no row for the answer {name:?}"));
        row.occurred += 1;
        row.differed += u64::from(differed);
    }

    pub fn print(&self) {
        println!(
            "{:<12}{:>14}{:>10}{:>13}",
            "of", "answer", "occurred", "differences"
        );
        for row in &self.0 {
            let (about, answer) = &row.name;
            println!(
                "{about:<12}{answer:>14}{:>10}{:>13}",
                row.occurred, row.differed
            );
        }
    }

    /// One check for each row: it occurred often enough, and the answers agreed each time.
    pub fn report(&self, least: u64, report: &mut Report) {
        for row in &self.0 {
            let (about, answer) = &row.name;
            let mut claim = Claim::new(format!("{about}, answer {answer}"));
            claim.sample(row.differed == 0, || {
                format!("{} differences", row.differed)
            });
            claim.sample(row.occurred >= least, || {
                format!("occurred {} times, not {least}", row.occurred)
            });
            report.count(&claim);
        }
    }
}
