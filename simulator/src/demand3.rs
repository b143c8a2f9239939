//! Demand 3, checked from the history of the calls and not from the counts of
//! `T`: after every step that moves the window, each finished put's task was
//! handed out or stands whole in it; each task handed out belongs, with all its
//! words, to a put finished before it; each EMPTY was answered only if every put
//! finished by that attempt's line 1 had been handed out before.
//!
//! For the queues with a tag of w bits all that is promised under a premise:
//! fewer than 2^w puts finish between a steal attempt's line 1 and its compare.
//! FIFO and the linked queues have none, whatever links fail on the way.
//! An attempt without a compare is asked nothing, so a break is seen at the
//! compare. Every front of a list is a list, so what goes wrong before the
//! break is wrong, and what goes wrong from the break on is not. A list starts at
//! an accepted fresh, so a later fresh starts another.
//!
//! With delayed stores (wish 8) the window is the one that the owner reads, its
//! words included; the premise counts the puts whose anchor store (FIFO: tail's)
//! drained between line 1 and the compare; a thief's EMPTY concerns only puts
//! drained by its line 1. A put that leaves n stores waiting, its own last, is
//! drained by the n-th drain after it. Puts drain in the order they finished.

use std::collections::VecDeque;
use std::fmt;

use crate::bench::Shape;
use crate::task::Task;
use crate::waiting::Waiting;
use crate::witness::{Cause, Shown, Witness};

#[derive(Clone, Copy, Default)]
struct Put {
    task: Task,
    finished: bool,
    handed_out: bool,
    /// The last look at the window that found it there.
    seen_standing: u64,
}

#[derive(Clone, Debug, PartialEq, Eq)]
pub enum Finding {
    Kept,
    PremiseBroken { call: u64, worker: usize },
    Violated { call: u64, what: String },
}

impl Finding {
    pub fn is_violation(&self) -> bool {
        matches!(self, Finding::Violated { .. })
    }
}

impl fmt::Display for Finding {
    fn fmt(&self, text: &mut fmt::Formatter<'_>) -> fmt::Result {
        match self {
            Finding::Kept => write!(text, "demand 3 kept"),
            Finding::PremiseBroken { call, worker } => {
                write!(text, "demand 3 kept until worker {worker} broke its premise by call {call}")
            }
            Finding::Violated { call, what } => write!(text, "demand 3 violated by call {call}: {what}"),
        }
    }
}

pub struct Demand3 {
    calls: u64,
    /// 2^w; none for the queues without a tag, which have no premise.
    limit: Option<usize>,
    /// By put number, from 1.
    puts: Vec<Put>,
    /// Numbers of the finished puts, in the order they finished.
    finished: Vec<u32>,
    /// All finished puts before this place were handed out.
    open_from: usize,
    /// How many of the finished puts are drained; without delayed stores all are.
    drained: usize,
    /// For each of the others, the drain that it waits for, counted from 1.
    due: VecDeque<u64>,
    drains: u64,
    /// How many stores wait.
    waiting: usize,
    /// How many puts had finished by line 1 of the owner's attempt, and how many
    /// were drained by line 1 of each thief's.
    there_by_line_one: [usize; 8],
    looks: u64,
    window_moved: bool,
    finding: Finding,
    /// The worst of the lists before this one.
    before: Finding,
}

impl Demand3 {
    pub fn new() -> Demand3 {
        Demand3 {
            calls: 0,
            limit: None,
            puts: vec![Put::default()],
            finished: Vec::new(),
            open_from: 0,
            drained: 0,
            due: VecDeque::new(),
            drains: 0,
            waiting: 0,
            there_by_line_one: [0; 8],
            looks: 0,
            window_moved: false,
            finding: Finding::Kept,
            before: Finding::Kept,
        }
    }

    /// The worst of all lists so far, the first among equals.
    pub fn finding(&self) -> &Finding {
        match (&self.before, &self.finding) {
            (Finding::Violated { .. }, _) | (_, Finding::Kept) => &self.before,
            (Finding::PremiseBroken { .. }, Finding::PremiseBroken { .. }) => &self.before,
            _ => &self.finding,
        }
    }

    fn violation(&mut self, what: String) {
        // Only the first word counts: after a break nothing is promised.
        if self.finding == Finding::Kept {
            self.finding = Finding::Violated { call: self.calls, what };
        }
    }

    /// Counts the puts that wait for no further drain.
    fn count_drained(&mut self) {
        while self.due.front().is_some_and(|&drain| drain <= self.drains) {
            self.due.pop_front();
            self.drained += 1;
        }
    }

    fn skip_handed_out(&mut self) {
        while self.open_from < self.finished.len()
            && self.puts[self.finished[self.open_from] as usize].handed_out
        {
            self.open_from += 1;
        }
    }
}

impl Default for Demand3 {
    fn default() -> Demand3 {
        Demand3::new()
    }
}

impl Witness for Demand3 {
    fn fresh(&mut self, shape: Shape) {
        *self = Demand3 {
            calls: self.calls,
            limit: matches!(shape.kind, 1 | 3).then(|| 1 << shape.width),
            before: self.finding().clone(),
            ..Demand3::new()
        };
    }

    fn call(&mut self) {
        self.calls += 1;
    }

    fn put_begun(&mut self, task: Task) {
        let number = task.number();
        if number as usize != self.puts.len() {
            self.violation(format!("the put after {} was numbered {number}", self.puts.len() - 1));
        }
        self.puts.push(Put { task, ..Put::default() });
    }

    fn line_one(&mut self, worker: usize) {
        self.there_by_line_one[worker] = if worker == 0 { self.finished.len() } else { self.drained };
    }

    fn compare(&mut self, worker: usize) {
        let Some(limit) = self.limit else { return };
        let between = self.drained - self.there_by_line_one[worker];
        if between >= limit && self.finding == Finding::Kept {
            self.finding = Finding::PremiseBroken { call: self.calls, worker };
        }
    }

    fn finished(&mut self, number: u32) {
        self.window_moved = true;
        match self.puts.get_mut(number as usize) {
            Some(put) if number > 0 && !put.finished => put.finished = true,
            _ => self.violation(format!("put {number} can't have finished")),
        }
        self.finished.push(number);
        self.due.push_back(self.drains + self.waiting as u64);
        self.count_drained();
    }

    fn drained(&mut self, _store: Waiting) {
        self.window_moved = true;
        self.drains += 1;
        self.count_drained();
    }

    fn handed_out(&mut self, worker: usize, task: Task) {
        self.window_moved = true;
        match self.puts.get_mut(task.number() as usize) {
            Some(put) if task.number() > 0 && put.finished && put.task == task => {
                put.handed_out = true;
            }
            _ => self.violation(format!(
                "worker {worker} was handed the words {:?}, which belong to no finished put",
                task.0
            )),
        }
        self.skip_handed_out();
    }

    fn empty(&mut self, worker: usize) {
        // The puts are held in the order they finished, so those finished or
        // drained by line 1 are a front of the list.
        self.skip_handed_out();
        if self.open_from < self.there_by_line_one[worker] {
            let number = self.finished[self.open_from];
            self.violation(format!("worker {worker} answered EMPTY with put {number} there"));
        }
    }

    fn watches(&self) -> bool {
        true
    }

    fn after(&mut self, _cause: Cause, shown: &Shown) {
        self.waiting = shown.store.line().stores().len();
    }

    fn wants_window(&self) -> bool {
        self.window_moved
    }

    fn published(&mut self) {
        self.window_moved = true;
    }

    fn committed(&mut self) {
        self.window_moved = true;
    }

    fn window(&mut self, tasks: &mut dyn Iterator<Item = Task>) {
        self.window_moved = false;
        self.looks += 1;
        for task in tasks {
            if let Some(put) = self.puts.get_mut(task.number() as usize) {
                if put.task == task {
                    put.seen_standing = self.looks;
                }
            }
        }
        let gone = self.finished[self.open_from..].iter().copied().find(|&number| {
            let put = &self.puts[number as usize];
            !put.handed_out && put.seen_standing != self.looks
        });
        if let Some(number) = gone {
            self.violation(format!("put {number} is lost"));
        }
    }
}

#[cfg(test)]
mod tests {
    use super::*;

    fn shape(kind: u32, width: u32) -> Shape {
        Shape { kind, width, size: 1, crew: 2, payload_words: 2, delayed: false, quota: None }
    }

    /// With another word behind it, which is the same for all.
    fn task(number: u32, payload: u32) -> Task {
        Task([number, payload, 99, 0, 0])
    }

    fn with_put(width: u32) -> Demand3 {
        let mut history = Demand3::new();
        history.fresh(shape(1, width));
        history.call();
        history.put_begun(task(1, 50));
        history.call();
        history.finished(1);
        history.window(&mut [task(1, 50)].into_iter());
        history
    }

    fn violated(history: &Demand3) -> bool {
        matches!(history.finding, Finding::Violated { .. })
    }

    #[test]
    fn a_task_handed_out_is_not_lost() {
        let mut history = with_put(1);
        history.handed_out(1, task(1, 50));
        history.window(&mut [].into_iter());
        assert_eq!(history.finding, Finding::Kept);
    }

    #[test]
    fn a_task_neither_handed_out_nor_whole_in_the_window_is_lost() {
        let torn = Task([1, 50, 98, 0, 0]);
        for window in [vec![], vec![task(1, 51)], vec![task(0, 50)], vec![torn]] {
            let mut history = with_put(1);
            history.window(&mut window.into_iter());
            assert!(violated(&history));
        }
    }

    #[test]
    fn invented_tasks() {
        for (number, payload) in [(0, 0), (0, 50), (1, 51), (2, 50)] {
            let mut history = with_put(1);
            history.handed_out(1, task(number, payload));
            assert!(violated(&history), "{number} {payload}");
        }
        // The last word is another's.
        let mut history = with_put(1);
        history.handed_out(1, Task([1, 50, 98, 0, 0]));
        assert!(violated(&history));
        // Begun is not finished.
        let mut history = with_put(1);
        history.put_begun(task(2, 60));
        history.handed_out(1, task(2, 60));
        assert!(violated(&history));
    }

    #[test]
    fn empty_goes_by_line_one_of_its_own_attempt() {
        let mut history = with_put(1);
        history.line_one(1);
        history.empty(1);
        assert!(violated(&history));

        let mut history = with_put(1);
        history.line_one(1);
        history.handed_out(2, task(1, 50));
        history.put_begun(task(2, 60));
        history.finished(2);
        history.empty(1);
        assert_eq!(history.finding, Finding::Kept, "put 2 finished after line 1");
        history.line_one(1);
        history.empty(1);
        assert!(violated(&history));
    }

    #[test]
    fn the_premise_breaks_at_the_compare_and_at_two_to_the_w() {
        let mut history = with_put(1);
        history.line_one(1);
        history.put_begun(task(2, 60));
        history.finished(2);
        history.compare(1);
        assert_eq!(history.finding, Finding::Kept, "one put is fewer than two");
        history.line_one(1);
        for number in 3..=4 {
            history.put_begun(task(number, 60));
            history.finished(number);
        }
        assert_eq!(history.finding, Finding::Kept, "no compare yet");
        history.compare(1);
        assert!(matches!(history.finding, Finding::PremiseBroken { worker: 1, .. }));
        history.window(&mut [].into_iter());
        assert!(!violated(&history), "nothing is promised after the break");
    }

    #[test]
    fn fifo_and_the_linked_queues_have_no_premise() {
        for kind in 1..=5 {
            let mut history = Demand3::new();
            history.fresh(shape(kind, 1));
            history.line_one(1);
            for number in 1..=10 {
                history.put_begun(task(number, 0));
                history.finished(number);
            }
            history.compare(1);
            assert_eq!(history.finding == Finding::Kept, ![1, 3].contains(&kind));
            // What is lost after a break is not held against the queue.
            history.window(&mut [].into_iter());
            assert_eq!(violated(&history), ![1, 3].contains(&kind));
        }
    }

    /// With put 1 finished and so many stores waiting.
    fn with_waiting_put(waiting: usize) -> Demand3 {
        let mut history = Demand3::new();
        history.fresh(Shape { delayed: true, ..shape(1, 1) });
        history.put_begun(task(1, 50));
        history.waiting = waiting;
        history.finished(1);
        history
    }

    const STORE: Waiting = Waiting::Head(0);

    #[test]
    fn a_thiefs_empty_concerns_the_puts_drained_by_its_line_one() {
        for (drains, there) in [(0, false), (3, false), (4, true), (6, true)] {
            let mut history = with_waiting_put(4);
            for _ in 0..drains {
                history.drained(STORE);
            }
            history.line_one(1);
            // What drains later is no concern of this attempt.
            history.drained(STORE);
            history.empty(1);
            assert_eq!(violated(&history), there, "{drains} drains");
        }
        let mut history = with_waiting_put(4);
        history.line_one(0);
        history.empty(0);
        assert!(violated(&history), "the owner's concerns all that finished");
    }

    #[test]
    fn the_premise_counts_the_puts_drained_between() {
        // Put 1's store is the third, put 2's the sixth.
        for (before, between, broken) in [(0, 5, false), (0, 6, true), (2, 4, true), (3, 3, false), (6, 2, false)] {
            let mut history = with_waiting_put(3);
            history.put_begun(task(2, 60));
            history.waiting = 6;
            history.finished(2);
            for _ in 0..before {
                history.drained(STORE);
            }
            history.line_one(1);
            for _ in 0..between {
                history.drained(STORE);
            }
            history.compare(1);
            assert_eq!(history.finding != Finding::Kept, broken, "{before} and {between} drains");
        }
        // Finishing in the attempt is not draining in it.
        let mut history = with_waiting_put(3);
        history.line_one(1);
        for number in 2..=5 {
            history.put_begun(task(number, 60));
            history.waiting = 8;
            history.finished(number);
        }
        history.compare(1);
        assert_eq!(history.finding, Finding::Kept);
    }

    #[test]
    fn a_later_fresh_starts_another_list() {
        let broken = || {
            let mut history = with_put(1);
            history.line_one(1);
            for number in 2..=3 {
                history.put_begun(task(number, 60));
                history.finished(number);
            }
            history.compare(1);
            history
        };
        let mut history = with_put(1);
        history.fresh(shape(4, 1));
        history.line_one(1);
        history.empty(1);
        history.window(&mut [].into_iter());
        assert_eq!(*history.finding(), Finding::Kept, "the put before it is no put of this list");
        history.put_begun(task(1, 70));
        history.finished(1);
        history.window(&mut [].into_iter());
        assert!(matches!(history.finding(), Finding::Violated { .. }));
        // A break lasts to the next fresh, and a violation for good.
        let mut history = broken();
        history.fresh(shape(1, 1));
        assert!(matches!(history.finding(), Finding::PremiseBroken { .. }));
        history.put_begun(task(1, 70));
        history.finished(1);
        history.window(&mut [].into_iter());
        assert!(matches!(history.finding(), Finding::Violated { call: 2, .. }));
        history.fresh(shape(1, 1));
        assert!(matches!(history.finding(), Finding::Violated { .. }));
    }

    #[test]
    fn a_violation_before_the_break_stays_one() {
        let mut history = with_put(1);
        history.line_one(1);
        history.window(&mut [].into_iter());
        for number in 2..=3 {
            history.put_begun(task(number, 60));
            history.finished(number);
        }
        history.compare(1);
        assert!(violated(&history));
    }
}
