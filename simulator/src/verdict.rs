//! What the checks found in a list of calls, whole: of each queue, and of all of
//! them in company.

use std::fmt;

use crate::calls::Calls;
use crate::checks::Checks;

pub struct Verdict<'a>(pub &'a Calls<Checks>);

impl Verdict<'_> {
    /// Whether something is wrong that no broken premise excuses.
    pub fn failed(&self) -> bool {
        self.0.posts().iter().any(|post| post.witness.failed())
            || self.0.company().is_some_and(|company| company.is_wrong())
    }
}

/// A line for each finding; in a yard with the number of the queue that it is about.
impl fmt::Display for Verdict<'_> {
    fn fmt(&self, text: &mut fmt::Formatter<'_>) -> fmt::Result {
        for (number, post) in self.0.posts().iter().enumerate() {
            for finding in post.witness.to_string().lines() {
                match self.0.is_yard() {
                    true => writeln!(text, "queue {number}: {finding}")?,
                    false => writeln!(text, "{finding}")?,
                }
            }
        }
        match self.0.company() {
            Some(company) => write!(text, "{company}"),
            None => Ok(()),
        }
    }
}
