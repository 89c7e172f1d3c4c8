//! What passed, and what failed.

use std::fmt::Debug;
use std::panic;
use std::process::{self, ExitCode};
use std::sync::Mutex;

/// The row that is checked, for a check that panics.
static ROW: Mutex<String> = Mutex::new(String::new());

/// How many letters of an answer are shown.
const SHOWN: usize = 120;

/// How many checks passed and failed.
pub struct Report {
    passed: usize,
    failed: usize,
}

impl Report {
    /// A panic from here on is a failed check, and ends the program.
    pub fn new() -> Report {
        panic::set_hook(Box::new(|why| {
            println!("FAILED: {}: {why}", ROW.lock().map_or("?".into(), |it| it.clone()));
            println!("0 passed, 1 failed");
            process::exit(1);
        }));
        Report { passed: 0, failed: 0 }
    }

    pub fn begin(&self, row: &str) {
        if let Ok(mut now) = ROW.lock() {
            *now = row.to_string();
        }
    }

    /// Counts a check: what was found has to be what is right.
    pub fn check<T: PartialEq + Debug>(&mut self, row: &str, what: &str, found: T, right: T) {
        if found == right {
            self.passed += 1;
            return;
        }
        self.failed += 1;
        println!("FAILED: {row}, {what}: is {} and not {}", shown(&found), shown(&right));
    }

    pub fn ended(&self) -> ExitCode {
        println!("{} passed, {} failed", self.passed, self.failed);
        ExitCode::from(u8::from(self.failed > 0 || self.passed == 0))
    }
}

fn shown(answer: &impl Debug) -> String {
    format!("{answer:?}").chars().take(SHOWN).collect()
}
