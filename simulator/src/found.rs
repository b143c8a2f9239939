//! What a check found wrong first, in whichever list, and by which call.

use std::fmt;

#[derive(Default)]
pub struct Found {
    calls: u64,
    wrong: Option<String>,
}

impl Found {
    /// A call is about to be made.
    pub fn call(&mut self) {
        self.calls += 1;
    }

    /// Something is wrong, by the call made last. Only the first is kept.
    pub fn wrong(&mut self, what: impl fmt::Display) {
        if self.wrong.is_none() {
            self.wrong = Some(format!("by call {}: {what}", self.calls));
        }
    }

    pub fn note(&mut self, found: Result<(), impl fmt::Display>) {
        if let Err(what) = found {
            self.wrong(what);
        }
    }

    pub fn is_wrong(&self) -> bool {
        self.wrong.is_some()
    }

    /// Tells of it in these words.
    pub fn tell(&self, text: &mut fmt::Formatter<'_>, right: &str, wrong: &str) -> fmt::Result {
        match &self.wrong {
            None => write!(text, "{right}"),
            Some(what) => write!(text, "{wrong} {what}"),
        }
    }
}

#[cfg(test)]
mod tests {
    use super::*;

    struct Shown(Found);

    impl fmt::Display for Shown {
        fn fmt(&self, text: &mut fmt::Formatter<'_>) -> fmt::Result {
            self.0.tell(text, "fine", "broken")
        }
    }

    #[test]
    fn the_first_wrong_call_is_kept() {
        let mut shown = Shown(Found::default());
        assert_eq!(shown.to_string(), "fine");
        for _ in 0..2 {
            shown.0.call();
            shown.0.note(Ok::<(), &str>(()));
            assert!(!shown.0.is_wrong());
        }
        shown.0.note(Err("one"));
        shown.0.call();
        shown.0.wrong("two");
        assert!(shown.0.is_wrong());
        assert_eq!(shown.to_string(), "broken by call 2: one");
    }
}
