//! Passed and failed cases.

#[derive(Clone, Copy, Default)]
pub struct Tally {
    pub passed: usize,
    pub failed: usize,
}

impl Tally {
    pub fn count(&mut self, good: bool) {
        if good { self.passed += 1 } else { self.failed += 1 }
    }

    pub fn add(&mut self, other: Tally) {
        self.passed += other.passed;
        self.failed += other.failed;
    }

    pub fn ran(&self) -> usize {
        self.passed + self.failed
    }

    /// Prints the part's line. A part that ran nothing has failed.
    pub fn reported(mut self, part: &str) -> Tally {
        if self.ran() == 0 {
            self.failed = 1;
        }
        println!("{part}: {} passed, {} failed", self.passed, self.failed);
        self
    }
}
