//! One line for each test, and a count.

/// What a test found: what was compared, or the smallest input that failed.
pub type Outcome = Result<String, String>;

#[derive(Default)]
pub struct Report {
    failed: usize,
}

impl Report {
    pub fn test(&mut self, name: &str, outcome: Outcome) {
        match outcome {
            Ok(what) => println!("ok {name} ({what})"),
            Err(input) => {
                self.failed += 1;
                println!("FAILED {name}: {input}");
            }
        }
    }

    /// A line that is no test.
    pub fn note(&self, text: &str) {
        println!("note {text}");
    }

    pub fn all_passed(&self) -> bool {
        self.failed == 0
    }
}
