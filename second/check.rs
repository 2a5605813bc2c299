//! Counted checks.

use std::process::ExitCode;

/// One check: a claim that is tried on many samples. The first that fails is kept.
pub struct Claim {
    what: String,
    failure: Option<String>,
}

impl Claim {
    pub fn new(what: impl Into<String>) -> Self {
        Claim {
            what: what.into(),
            failure: None,
        }
    }

    /// Tries one sample; `describe` tells of it if it fails.
    pub fn sample(&mut self, holds: bool, describe: impl FnOnce() -> String) {
        if !holds && self.failure.is_none() {
            self.failure = Some(describe());
        }
    }

    /// Prints the claim, behind `mark` where it holds; whether it does.
    fn print(&self, mark: &str) -> bool {
        match &self.failure {
            None => println!("{mark:<8}{}", self.what),
            Some(failure) => println!("FAILED  {}: {failure}", self.what),
        }
        self.failure.is_none()
    }
}

/// How many checks of the proved code passed, and how many failed; and how many checks of the
/// testing program on itself hold, which are not counted among those.
#[derive(Default)]
pub struct Report {
    passed: u32,
    failed: u32,
    own_held: u32,
    own_failed: u32,
}

impl Report {
    /// Counts a check of the proved code, and prints it.
    pub fn count(&mut self, claim: &Claim) {
        let holds = claim.print("ok");
        self.passed += u32::from(holds);
        self.failed += u32::from(!holds);
    }

    /// Counts a check of the testing program on itself, and prints it.
    pub fn count_own(&mut self, claim: &Claim) {
        let holds = claim.print("self");
        self.own_held += u32::from(holds);
        self.own_failed += u32::from(!holds);
    }

    /// Prints the counts, those of the proved code as the last line; the status to exit with.
    pub fn finish(&self) -> ExitCode {
        match (self.own_held, self.own_failed) {
            (0, 0) => {}
            (held, 0) => println!("self-checks: {held}, all hold"),
            (held, failed) => println!("self-checks: {held} hold, {failed} failed"),
        }
        let failed = self.failed + self.own_failed;
        println!("{} passed, {failed} failed", self.passed);
        ExitCode::from(u8::from(failed > 0))
    }
}
