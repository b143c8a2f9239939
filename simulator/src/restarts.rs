//! The restarts of each worker, counted anew from the history of the calls and
//! held against what the bench shows after each of them: an accepted step raises
//! its own worker's count, by one, exactly if it was a compare that failed, and
//! nothing else raises any.
//!
//! Whether a compare failed goes by the documents' words and not by what the
//! machine made of it. With a tag it failed if the anchor before that step was not
//! the one before the attempt's line 1; of FIFO that is the head alone. With links
//! it failed if after line 1 a put was finished or a task handed out, each of
//! which writes the anchor, or the worker's link was dropped. With delayed stores
//! it is memory's anchor, and what the owner finished or was handed writes it when
//! its store is drained.

use std::fmt;

use crate::bench::Shape;
use crate::found::Found;
use crate::task::Task;
use crate::waiting::Waiting;
use crate::witness::Witness;

pub struct Restarts {
    kind: u32,
    delayed: bool,
    /// As the last call left it.
    anchor: [u32; 3],
    /// By worker number: the anchor before line 1 of its attempt, and whether its
    /// link is broken since.
    read: [[u32; 3]; 8],
    broken: [bool; 8],
    counts: [u32; 8],
    found: Found,
}

impl Restarts {
    pub fn new() -> Restarts {
        Restarts {
            kind: 0,
            delayed: false,
            anchor: [0; 3],
            read: [[0; 3]; 8],
            broken: [false; 8],
            counts: [0; 8],
            found: Found::default(),
        }
    }

    pub fn is_wrong(&self) -> bool {
        self.found.is_wrong()
    }

    fn failed(&self, worker: usize) -> bool {
        match self.kind {
            2 => self.read[worker][0] != self.anchor[0],
            4 | 5 => self.broken[worker],
            _ => self.read[worker] != self.anchor,
        }
    }
}

impl Default for Restarts {
    fn default() -> Restarts {
        Restarts::new()
    }
}

impl fmt::Display for Restarts {
    fn fmt(&self, text: &mut fmt::Formatter<'_>) -> fmt::Result {
        self.found.tell(text, "restarts counted", "restarts miscounted")
    }
}

impl Witness for Restarts {
    fn fresh(&mut self, shape: Shape) {
        *self = Restarts {
            kind: shape.kind,
            delayed: shape.delayed,
            found: std::mem::take(&mut self.found),
            ..Restarts::new()
        };
    }

    fn call(&mut self) {
        self.found.call();
    }

    fn line_one(&mut self, worker: usize) {
        self.read[worker] = self.anchor;
        self.broken[worker] = false;
    }

    fn compare(&mut self, worker: usize) {
        if self.failed(worker) {
            self.counts[worker] = self.counts[worker].saturating_add(1);
        }
    }

    fn finished(&mut self, _number: u32) {
        if !self.delayed {
            self.broken = [true; 8];
        }
    }

    fn handed_out(&mut self, worker: usize, _task: Task) {
        if !self.delayed || worker > 0 {
            self.broken = [true; 8];
        }
    }

    fn drained(&mut self, store: Waiting) {
        if matches!(store, Waiting::Anchor(_)) {
            self.broken = [true; 8];
        }
    }

    fn dropped(&mut self, worker: usize) {
        self.broken[worker] = true;
    }

    fn shared(&mut self, anchor: [u32; 3], restarts: &[u32; 8]) {
        self.anchor = anchor;
        if *restarts != self.counts {
            self.found.wrong(format!("the counts are {restarts:?} and should be {:?}", self.counts));
        }
    }

    fn who(&mut self, worker: usize, count: u32) {
        if count != self.counts[worker] {
            self.found.wrong(format!("worker {worker} has {} and not {count}", self.counts[worker]));
        }
    }

    fn total(&mut self, restarts: u64) {
        let sum: u64 = self.counts.iter().map(|&count| u64::from(count)).sum();
        if restarts != sum {
            self.found.wrong(format!("the sum is {sum} and not {restarts}"));
        }
    }
}

#[cfg(test)]
mod tests {
    use super::*;

    fn history(kind: u32) -> Restarts {
        let mut history = Restarts::new();
        history.fresh(Shape { kind, width: 1, size: 1, crew: 8, payload_words: 1, delayed: false, quota: None });
        history
    }

    /// The counts after thief 3's attempt, with this between its line 1 and its
    /// compare.
    fn counted(kind: u32, between: impl Fn(&mut Restarts)) -> [u32; 8] {
        let mut history = history(kind);
        history.shared([7, 8, 1], &[0; 8]);
        history.line_one(3);
        between(&mut history);
        history.compare(3);
        history.counts
    }

    const NONE: [u32; 8] = [0; 8];
    const THIRD: [u32; 8] = [0, 0, 0, 1, 0, 0, 0, 0];

    #[test]
    fn with_a_tag_by_the_whole_anchor_and_of_fifo_by_the_head() {
        for kind in [1, 2, 3] {
            assert_eq!(counted(kind, |_| {}), NONE);
            // It moved, and came back.
            assert_eq!(
                counted(kind, |history| {
                    history.shared([9, 8, 1], &NONE);
                    history.finished(1);
                    history.shared([7, 8, 1], &NONE);
                }),
                NONE
            );
            assert_eq!(counted(kind, |history| history.shared([6, 8, 1], &NONE)), THIRD);
            for other in [[7, 9, 1], [7, 8, 0]] {
                let expected = if kind == 2 { NONE } else { THIRD };
                assert_eq!(counted(kind, |history| history.shared(other, &NONE)), expected);
            }
        }
    }

    #[test]
    fn with_links_by_what_breaks_them() {
        for kind in [4, 5] {
            assert_eq!(counted(kind, |_| {}), NONE);
            assert_eq!(counted(kind, |history| history.finished(1)), THIRD);
            assert_eq!(counted(kind, |history| history.handed_out(0, Task::default())), THIRD);
            assert_eq!(counted(kind, |history| history.dropped(3)), THIRD);
            assert_eq!(counted(kind, |history| history.dropped(2)), NONE, "another's link");
            assert_eq!(counted(kind, |history| history.empty(2)), NONE);
            assert_eq!(
                counted(kind, |history| {
                    history.finished(1);
                    history.line_one(3);
                }),
                NONE,
                "a link of this attempt"
            );
        }
    }

    #[test]
    fn with_delayed_stores_a_link_is_broken_by_the_drain() {
        let counted = |between: &dyn Fn(&mut Restarts)| {
            let mut history = history(4);
            history.delayed = true;
            history.line_one(3);
            between(&mut history);
            history.compare(3);
            history.counts
        };
        assert_eq!(counted(&|history| history.finished(1)), NONE);
        assert_eq!(counted(&|history| history.handed_out(0, Task::default())), NONE);
        assert_eq!(counted(&|history| history.handed_out(1, Task::default())), THIRD);
        assert_eq!(counted(&|history| history.drained(Waiting::Anchor([0; 3]))), THIRD);
        assert_eq!(counted(&|history| history.drained(Waiting::Note { published: 2 })), NONE);
        assert_eq!(counted(&|history| history.dropped(3)), THIRD);
    }

    #[test]
    fn a_count_of_another_worker_or_of_no_failed_compare_is_wrong() {
        for shown in [NONE, [0, 0, 1, 0, 0, 0, 0, 0], [0, 0, 0, 2, 0, 0, 0, 0], [1; 8], THIRD] {
            let mut history = history(2);
            history.line_one(3);
            history.shared([1, 1, 0], &NONE);
            history.compare(3);
            history.shared([1, 1, 0], &shown);
            assert_eq!(history.is_wrong(), shown != THIRD, "{shown:?}");
            // It stays wrong, whatever comes.
            history.shared([1, 1, 0], &THIRD);
            history.fresh(Shape { kind: 1, width: 1, size: 1, crew: 1, payload_words: 1, delayed: false, quota: None });
            assert_eq!(history.is_wrong(), shown != THIRD);
        }
    }

    #[test]
    fn what_who_and_the_totals_say() {
        let beaten = || {
            let mut history = history(1);
            for worker in [3, 3, 7] {
                history.line_one(worker);
                history.anchor[1] += 1;
                history.compare(worker);
            }
            history
        };
        for (worker, count) in [(3, 2), (7, 1), (0, 0)] {
            let mut history = beaten();
            history.who(worker, count);
            assert!(!history.is_wrong());
            history.who(worker, count + 1);
            assert!(history.is_wrong());
        }
        for (total, wrong) in [(3, false), (0, true), (2, true), (4, true)] {
            let mut history = beaten();
            history.total(total);
            assert_eq!(history.is_wrong(), wrong);
        }
    }

    #[test]
    fn a_later_fresh_counts_from_0() {
        let mut history = history(1);
        history.line_one(1);
        history.shared([0, 1, 1], &NONE);
        history.compare(1);
        history.fresh(Shape { kind: 3, width: 1, size: 1, crew: 2, payload_words: 1, delayed: false, quota: None });
        history.shared([0, 0, 0], &NONE);
        history.who(1, 0);
        assert!(!history.is_wrong());
    }
}
