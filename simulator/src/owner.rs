//! With delayed stores: what the owner reads and what it writes, line by line. It
//! reads its own youngest waiting store to a place before memory, so all that it
//! does from line 1 on follows from memory with every waiting store put down
//! before that line:
//!
//! - a put's words go, in turn, to the slot behind the window that it read, and
//!   its last store is the anchor that follows (FIFO: the tail);
//! - a take hands out the task that it read, and stores the anchor (FIFO: head);
//! - EMPTY is answered if it read no task, growth and FULL come if it read a full
//!   array;
//! - X3 copies what it reads, as many tasks as it read at X2 (LIFO: every slot), and
//!   X4 notes the claimed array;
//! - a commit is such a growth alone, full array or not;
//! - 18 is answered only if the step's stores would make more than eight, and while
//!   eight wait 11 is answered only to EMPTY and FULL, which make none.

use std::fmt;

use crate::bench::{Operation, Shape};
use crate::found::Found;
use crate::outcome::{refusal, Outcome};
use crate::settled::{waiting, Memory};
use crate::task::Task;
use crate::waiting::{Waiting, LONGEST};
use crate::witness::{Cause, Shown, Witness};

/// How far the owner's growth is.
#[derive(Clone, Copy)]
enum Growth {
    None,
    /// X1 has claimed an array.
    Claimed,
    /// X2 has noted the indices; the next one to copy, and the first one not to.
    Copying { next: u32, stop: u32 },
}

pub struct Owner {
    /// Of a bench with delayed stores; none else.
    shape: Option<Shape>,
    /// What the owner would read, and how many stores wait, as the last call left
    /// them.
    before: Option<Memory>,
    waiting: usize,
    /// The task of the last put begun, and how many of its words are written.
    task: Task,
    written: usize,
    /// The step does line 1.
    line_one: bool,
    /// What the owner would read before its line 1; of a commit before its X1.
    read: Option<Memory>,
    /// The last operation that the owner began.
    operation: Operation,
    growth: Growth,
    /// How few stores waited when its next step was refused 18.
    refused_at: Option<usize>,
    found: Found,
}

impl Owner {
    fn new() -> Owner {
        Owner {
            shape: None,
            before: None,
            waiting: 0,
            task: Task::default(),
            written: 0,
            line_one: false,
            read: None,
            operation: Operation::Take,
            growth: Growth::None,
            refused_at: None,
            found: Found::default(),
        }
    }

    pub fn is_wrong(&self) -> bool {
        self.found.is_wrong()
    }

    /// Whether it would end with EMPTY or FULL, by what it read.
    fn ends_without_a_store(&self) -> bool {
        self.read.as_ref().is_some_and(|read| match self.operation {
            Operation::Put { .. } => read.count() == read.size(),
            Operation::Take => read.count() == 0,
            Operation::Steal | Operation::Commit => false,
        })
    }

    /// Whether an accepted step with these new stores did what it should; else
    /// what is wrong.
    fn step(&mut self, shape: Shape, outcome: Outcome, now: &Memory, new: &[Waiting]) -> Result<(), &'static str> {
        let Some(before) = self.before.take() else { return Ok(()) };
        if self.refused_at.take().is_some_and(|waited| waited + new.len() <= LONGEST) {
            return Err("18 though its stores could wait");
        }
        if self.line_one {
            self.read = Some(before.clone());
            self.written = 0;
        }
        let Some(read) = &self.read else { return Ok(()) };
        let [first, second, tag] = read.anchor;
        let (kind, size, count) = (shape.kind, read.size(), read.count());
        let commit = self.operation == Operation::Commit;
        let fine = match outcome {
            // A commit goes on, and ends by X4.
            _ if commit && !matches!(outcome, Outcome::GoesOn | Outcome::Committed) => false,
            Outcome::Finished(task) => {
                let tags = if matches!(kind, 1 | 3) { 1 << shape.width } else { 1 };
                let last = match kind {
                    2 => Waiting::Tail(second + 1),
                    _ => Waiting::Anchor([first, second + 1, (tag + 1) % tags]),
                };
                let whole = self.written == shape.payload_words as usize + 1;
                count < size && whole && task == self.task && new == [last]
            }
            Outcome::HandedOut(task) => {
                let (index, last) = match kind {
                    2 => (first, Waiting::Head(first + 1)),
                    _ => (first + second.wrapping_sub(1), Waiting::Anchor([first, second.wrapping_sub(1), tag])),
                };
                count > 0 && task == read.task(index) && new == [last]
            }
            Outcome::Empty => count == 0 && new.is_empty(),
            // Whether a larger array fits is asked elsewhere.
            Outcome::Full(_) => count == size && new.is_empty(),
            Outcome::Committed if !commit => false,
            Outcome::Published | Outcome::Committed => {
                let copied = matches!(self.growth, Growth::Copying { next, stop } if next == stop);
                self.growth = Growth::None;
                copied && new == [Waiting::Note { published: now.arrays.len() }]
            }
            Outcome::GoesOn if now.arrays.len() > before.arrays.len() => {
                self.growth = Growth::Claimed;
                (commit || count == size) && new.is_empty()
            }
            Outcome::GoesOn => match self.growth {
                Growth::Claimed => {
                    // What the owner reads now, and not what line 1 read.
                    let [head, end, _] = before.anchor;
                    let (next, stop) = match kind {
                        1 | 4 => (0, before.size()),
                        2 => (head, end),
                        _ => (head, head + end),
                    };
                    self.growth = Growth::Copying { next, stop };
                    new.is_empty()
                }
                Growth::Copying { next, stop } => {
                    self.growth = Growth::Copying { next: next + 1, stop };
                    let task = before.task(next);
                    let array = before.arrays.len() - 1;
                    let slot = next % before.arrays[array].size;
                    let copy = |word| Waiting::Word { array, slot, word, value: task.0[word] };
                    next < stop && new.iter().copied().eq((0..=shape.payload_words as usize).map(copy))
                }
                Growth::None if commit => false,
                Growth::None if new.is_empty() => true,
                Growth::None => {
                    let index = if kind == 2 { second } else { first + second };
                    let word = self.written;
                    self.written += 1;
                    let value = self.task.0.get(word).copied().unwrap_or(0);
                    let slot = index % size;
                    count < size && new == [Waiting::Word { array: read.published - 1, slot, word, value }]
                }
            },
            Outcome::Restarted | Outcome::Refused(_) => false,
        };
        if fine {
            Ok(())
        } else {
            Err("a step of the owner does not follow from what it read")
        }
    }
}

impl Default for Owner {
    fn default() -> Owner {
        Owner::new()
    }
}

impl fmt::Display for Owner {
    fn fmt(&self, text: &mut fmt::Formatter<'_>) -> fmt::Result {
        self.found.tell(text, "the owner read its own stores", "the owner went wrong")
    }
}

impl Witness for Owner {
    fn fresh(&mut self, shape: Shape) {
        *self = Owner {
            shape: shape.delayed.then_some(shape),
            found: std::mem::take(&mut self.found),
            ..Owner::new()
        };
    }

    fn call(&mut self) {
        self.found.call();
        self.line_one = false;
    }

    fn put_begun(&mut self, task: Task) {
        self.task = task;
    }

    fn put_line_one(&mut self) {
        self.line_one = true;
    }

    fn line_one(&mut self, worker: usize) {
        self.line_one |= worker == 0;
    }

    fn watches(&self) -> bool {
        true
    }

    fn after(&mut self, cause: Cause, shown: &Shown) {
        let Some(shape) = self.shape else { return };
        let now = Memory::of_owner(shape.kind, shown);
        let line: Vec<Waiting> = waiting(shown.store).copied().collect();
        match cause {
            Cause::Step { worker: 0, outcome: Outcome::Refused(number) } => {
                if number == refusal::LINE_FULL {
                    self.refused_at = Some(self.waiting);
                }
                let stores = number == refusal::LOG_FULL && !self.ends_without_a_store();
                if stores && self.waiting == LONGEST {
                    self.found.wrong("11 though its store could not wait");
                }
            }
            Cause::Step { worker: 0, outcome } => {
                let new = line.get(self.waiting..).unwrap_or(&[]);
                let done = self.step(shape, outcome, &now, new);
                self.found.note(done);
            }
            Cause::Begin { worker: 0, operation, answer: Ok(()) } => {
                self.operation = operation;
                if operation == Operation::Commit {
                    self.read = Some(now.clone());
                }
            }
            _ => {}
        }
        self.before = Some(now);
        self.waiting = line.len();
    }
}

#[cfg(test)]
mod tests {
    use super::*;
    use crate::calls::Calls;
    use crate::store::Store;
    use crate::yard::Neighbours;

    fn kept(list: &str) -> bool {
        let mut calls = Calls::new(Owner::new());
        for line in list.split(", ") {
            assert!(calls.line(line.as_bytes(), &mut Vec::new()).unwrap(), "{line}");
        }
        !calls.witness().is_wrong()
    }

    #[test]
    fn operations_of_every_kind_and_width() {
        for kind in 1..=5 {
            for words in 1..=4 {
                let drains = "drain, ".repeat(6);
                let mut list = format!("memory 35 200, fresh {kind} 1 1 2 {words} 1, ");
                for _ in 0..5 {
                    list += "begin 0 put 7 8 9 10, ";
                    list += &format!("step 0 4, step 0 4, {drains}").repeat(6);
                }
                list += &format!("begin 0 take, step 0 9, {drains}").repeat(5);
                list += "state";
                assert!(kept(&list), "kind {kind}, {words} words");
            }
        }
    }

    #[test]
    fn commits_of_every_kind_and_width() {
        for kind in 1..=5 {
            for words in 1..=4 {
                let drains = "drain, ".repeat(6);
                let commit = format!("ask 0, begin 0 commit, {}", format!("step 0 3, {drains}").repeat(6));
                let put = format!("begin 0 put 7 8 9 10, {}", format!("step 0 4, {drains}").repeat(3));
                let list = format!(
                    "memory 35 200, fresh {kind} 1 1 2 {words} 1, {commit}{put}{put}{commit}begin 0 take, step 0 9, ask 0, state"
                );
                assert!(kept(&list), "kind {kind}, {words} words");
            }
        }
    }

    #[test]
    fn refused_11_while_eight_wait() {
        let played = |list: &str| {
            let mut calls = Calls::new(Owner::new());
            for line in list.split(", ") {
                assert!(calls.line(line.as_bytes(), &mut Vec::new()).unwrap(), "{line}");
            }
            let mut owner = calls.into_witness();
            assert!(!owner.is_wrong());
            // The same step refused 11, be it so or not.
            let mut store = Store::fresh(vec![0; 6], 1, 1).with_line(true);
            for _ in 0..owner.waiting {
                store.line_mut().join(Waiting::Word { array: 0, slot: 0, word: 0, value: 1 });
            }
            let shown = Shown { anchor: [0; 3], restarts: &[0; 8], store: &store, copying: false, commits: false, neighbours: Neighbours::default() };
            owner.after(Cause::Step { worker: 0, outcome: Outcome::Refused(refusal::LOG_FULL) }, &shown);
            (owner.waiting, owner.is_wrong())
        };
        let puts = |size: u32| format!("memory 14 40, fresh 3 1 {size} 2 1 1, begin 0 put 5, step 0 5, begin 0 put 6, step 0 5, ");
        // X4 of a commit, a put's last line and a take's, with eight waiting and with seven.
        let commit = format!("{}ask 0, begin 0 commit, step 0 3, drain, drain, step 0 1", puts(2));
        assert_eq!(played(&commit), (8, true));
        assert_eq!(played(&format!("{commit}, drain")), (7, false));
        let put = format!("{}begin 0 put 7, step 0 4", puts(4));
        assert_eq!(played(&put), (8, true));
        assert_eq!(played(&format!("{put}, drain")), (7, false));
        let take = format!("{put}, drain, step 0 1, begin 0 take, step 0 4");
        assert_eq!(played(&take), (8, true));
        assert_eq!(played(&format!("{take}, drain")), (7, false));
        // EMPTY and FULL make no store.
        let taken = "begin 0 put 5, step 0 5, begin 0 take, step 0 5, ".repeat(2);
        let empty = format!("memory 2 40, fresh 3 1 1 2 1 1, {taken}");
        assert_eq!(played(&format!("{empty}begin 0 take, step 0 1")), (8, false));
        let full = format!("{empty}drain, drain, drain, begin 0 put 6, step 0 5, begin 0 put 7, step 0 2");
        assert_eq!(played(&full), (8, false));
    }

    /// Two notes wait, with nothing to copy between them.
    #[test]
    fn commits_of_an_empty_queue_undrained() {
        for kind in [2, 3, 5] {
            let commit = "ask 0, begin 0 commit, step 0 3, ";
            assert!(kept(&format!("memory 14 200, fresh {kind} 1 1 2 1 1, {commit}{commit}begin 0 put 8, step 0 6, state")));
        }
    }

    /// The owner after so many steps of a commit, in an empty LIFO bench of one task.
    fn in_a_commit(steps: u32) -> (Owner, Memory) {
        let mut calls = Calls::new(Owner::new());
        for line in ["memory 6 40", "fresh 1 1 1 2 1 1", "ask 0", "begin 0 commit", &format!("step 0 {steps}")] {
            assert!(calls.line(line.as_bytes(), &mut Vec::new()).unwrap());
        }
        let owner = calls.into_witness();
        assert!(!owner.is_wrong());
        let before = owner.before.clone().unwrap();
        (owner, before)
    }

    #[test]
    fn a_commit_is_x1_to_x4_alone() {
        let note = [Waiting::Note { published: 2 }];
        // After X1, X2 and one X3 it is X4.
        for steps in 0..=3 {
            let (mut owner, now) = in_a_commit(steps);
            assert_eq!(owner.step(SHAPE, Outcome::Committed, &now, &note).is_ok(), steps == 3, "{steps} steps");
            let task = Task::default();
            let ends = [Outcome::Finished(task), Outcome::HandedOut(task), Outcome::Full(task), Outcome::Empty, Outcome::Published];
            for outcome in ends {
                for new in [&[][..], &note[..]] {
                    let (mut owner, now) = in_a_commit(steps);
                    assert!(owner.step(SHAPE, outcome, &now, new).is_err(), "{outcome:?}");
                }
            }
        }
        let (mut owner, now) = in_a_commit(0);
        assert!(owner.step(SHAPE, Outcome::GoesOn, &now, &[]).is_err(), "X1 claimed nothing");
        let (mut owner, now) = before_the_last_line();
        assert!(owner.step(SHAPE, Outcome::Committed, &now, &note).is_err(), "a put");
    }

    /// The owner as a bench shows it after a put of `[1, 5]` up to its last line,
    /// with the two words waiting.
    fn before_the_last_line() -> (Owner, Memory) {
        let mut calls = Calls::new(Owner::new());
        for line in ["memory 2 40", "fresh 1 1 1 2 1 1", "begin 0 put 5", "step 0 4"] {
            assert!(calls.line(line.as_bytes(), &mut Vec::new()).unwrap());
        }
        let owner = calls.into_witness();
        assert!(!owner.is_wrong());
        let before = owner.before.clone().unwrap();
        (owner, before)
    }

    const SHAPE: Shape = Shape { kind: 1, width: 1, size: 1, crew: 2, payload_words: 1, delayed: true, quota: None };

    #[test]
    fn a_put_that_stores_another_anchor_or_task() {
        let task = Task([1, 5, 0, 0, 0]);
        let anchor = |t, g| Waiting::Anchor([0, t, g]);
        for (outcome, new, right) in [
            (Outcome::Finished(task), anchor(1, 1), true),
            (Outcome::Finished(task), anchor(1, 0), false),
            (Outcome::Finished(task), anchor(2, 1), false),
            (Outcome::Finished(task), Waiting::Tail(1), false),
            (Outcome::Finished(Task([1, 6, 0, 0, 0])), anchor(1, 1), false),
            (Outcome::HandedOut(task), anchor(0, 0), false),
        ] {
            let (mut owner, now) = before_the_last_line();
            assert_eq!(owner.step(SHAPE, outcome, &now, &[new]).is_ok(), right, "{outcome:?} {new:?}");
        }
        for outcome in [Outcome::Full(task), Outcome::Published] {
            let (mut owner, now) = before_the_last_line();
            assert!(owner.step(SHAPE, outcome, &now, &[]).is_err());
        }
    }

    #[test]
    fn refused_18_though_there_was_room() {
        let last = Waiting::Anchor([0, 1, 1]);
        for (waited, right) in [(8, true), (7, false), (2, false)] {
            let (mut owner, now) = before_the_last_line();
            owner.refused_at = Some(waited);
            let done = owner.step(SHAPE, Outcome::Finished(Task([1, 5, 0, 0, 0])), &now, &[last]);
            assert_eq!(done.is_ok(), right);
        }
    }
}
