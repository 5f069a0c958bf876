//! Counts what passed and what failed, and prints the first few failures of each part whole.

const SHOWN: u64 = 5;

#[derive(Default)]
pub struct Report {
    pub passed: u64,
    pub failed: u64,
    shown: u64,
}

impl Report {
    /// Another part of the tests begins.
    pub fn part(&mut self) {
        self.shown = 0;
    }

    /// One test. `what` says what was asked and what came, where it failed.
    pub fn check(&mut self, outcome: Result<(), String>, what: impl FnOnce() -> String) -> bool {
        match &outcome {
            Ok(()) => self.passed += 1,
            Err(failure) => {
                self.failed += 1;
                self.shown += 1;
                if self.shown <= SHOWN {
                    println!("FAILED {}: {}", what(), failure);
                }
            }
        }
        outcome.is_ok()
    }
}

/// Equal, or what was expected and what came.
pub fn same<T: PartialEq + std::fmt::Debug>(call: &str, came: T, expected: T) -> Result<(), String> {
    if came == expected {
        Ok(())
    } else {
        Err(format!("{call}: expected {expected:?}, came {came:?}"))
    }
}

pub fn hex(octets: &[u8]) -> String {
    let digit = |value: u8| char::from(b"0123456789abcdef"[usize::from(value)]);
    octets.iter().flat_map(|octet| [digit(octet >> 4), digit(octet & 15)]).collect()
}
