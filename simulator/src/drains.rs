//! With delayed stores: what each call did to memory and to the waiting line, held
//! against the words of wish 8.
//!
//! - A step of the owner changes no word, note or anchor in memory, except that X1
//!   claims an array and zeroes it. Its stores join the end of the line: one to
//!   the anchor (FIFO: tail, head) by the step that finishes a put or hands out,
//!   one note by X4, a put's or a commit's, else words or none.
//! - A drain takes the oldest store off the line and puts it down.
//! - A step of a thief leaves the line as it is, and changes memory only by a
//!   hand-out: its anchor, or FIFO's head.
//! - Nothing else changes either.

use std::fmt;

use crate::bench::Shape;
use crate::found::Found;
use crate::outcome::Outcome;
use crate::settled::{places, waiting, Memory};
use crate::waiting::Waiting;
use crate::witness::{Cause, Shown, Witness};

#[derive(Default)]
pub struct Drains {
    /// Of a bench with delayed stores; none else.
    shape: Option<Shape>,
    /// As the last call left them.
    memory: Option<Memory>,
    line: Vec<Waiting>,
    found: Found,
}

impl Drains {
    pub fn is_wrong(&self) -> bool {
        self.found.is_wrong()
    }

    /// Whether the call did what it may; else what it did.
    fn right(&self, shape: Shape, cause: Cause, memory: &Memory, line: &[Waiting]) -> Result<(), &'static str> {
        let Some(before) = &self.memory else {
            return if line.is_empty() { Ok(()) } else { Err("stores wait in a fresh bench") };
        };
        let mut expected = before.clone();
        let known = match cause {
            Cause::Drain => {
                let Some((&oldest, rest)) = self.line.split_first() else {
                    return Err("a drain with none waiting was accepted");
                };
                expected.put(oldest);
                rest
            }
            Cause::Step { worker: 0, outcome } => {
                let Some(new) = line.strip_prefix(&self.line[..]) else {
                    return Err("a step of the owner changed stores that waited");
                };
                if !joined(shape, outcome, new) {
                    return Err("the step's stores are not its own");
                }
                if let (true, Some(&array)) = (memory.arrays.len() == before.arrays.len() + 1, memory.arrays.last()) {
                    expected.arrays.push(array);
                    expected.words[places(array, shape.payload_words)].fill(0);
                }
                line
            }
            Cause::Step { outcome: Outcome::HandedOut(_), .. } => {
                expected.anchor = memory.anchor;
                if shape.kind == 2 {
                    expected.anchor[1] = before.anchor[1];
                }
                &self.line[..]
            }
            Cause::Step { .. } | Cause::Begin { .. } | Cause::Other => &self.line[..],
        };
        if line != known {
            return Err("the waiting line is another");
        }
        if *memory != expected {
            return Err("memory is another");
        }
        Ok(())
    }
}

/// Whether these are the stores of an owner's step that answered so.
fn joined(shape: Shape, outcome: Outcome, new: &[Waiting]) -> bool {
    let fifo = shape.kind == 2;
    match (outcome, new) {
        (Outcome::Finished(_), [Waiting::Tail(_)]) | (Outcome::HandedOut(_), [Waiting::Head(_)]) => fifo,
        (Outcome::Finished(_) | Outcome::HandedOut(_), [Waiting::Anchor(_)]) => !fifo,
        (Outcome::Published | Outcome::Committed, [Waiting::Note { .. }]) => true,
        (Outcome::GoesOn, [] | [Waiting::Word { .. }]) => true,
        // X3: the words of a task, in turn, to one slot.
        (Outcome::GoesOn, [Waiting::Word { array, slot, .. }, ..]) => {
            let (array, slot) = (*array, *slot);
            new.len() == shape.payload_words as usize + 1
                && new.iter().enumerate().all(|(at, store)| {
                    matches!(*store, Waiting::Word { array: a, slot: s, word, .. } if (a, s, word) == (array, slot, at))
                })
        }
        (Outcome::Empty | Outcome::Full(_) | Outcome::Refused(_), []) => true,
        _ => false,
    }
}

impl fmt::Display for Drains {
    fn fmt(&self, text: &mut fmt::Formatter<'_>) -> fmt::Result {
        self.found.tell(text, "drains in turn", "drains wrong")
    }
}

impl Witness for Drains {
    fn fresh(&mut self, shape: Shape) {
        self.shape = shape.delayed.then_some(shape);
        self.memory = None;
        self.line.clear();
    }

    fn call(&mut self) {
        self.found.call();
    }

    fn watches(&self) -> bool {
        true
    }

    fn after(&mut self, cause: Cause, shown: &Shown) {
        let Some(shape) = self.shape else { return };
        let memory = Memory::of(shape.kind, shown);
        let line: Vec<Waiting> = waiting(shown.store).copied().collect();
        self.found.note(self.right(shape, cause, &memory, &line));
        self.memory = Some(memory);
        self.line = line;
    }
}

#[cfg(test)]
mod tests {
    use super::*;
    use crate::store::Store;
    use crate::task::Task;
    use crate::yard::Neighbours;

    const WORD: Waiting = Waiting::Word { array: 0, slot: 0, word: 0, value: 7 };
    const ANCHOR: Waiting = Waiting::Anchor([0, 1, 1]);

    fn store(waiting: &[Waiting]) -> Store {
        let mut store = Store::fresh(vec![0; 6], 1, 1).with_line(true);
        for &waiting in waiting {
            store.line_mut().join(waiting);
        }
        store
    }

    /// Whether a call may lead from one to the other.
    fn wrong(kind: u32, cause: Cause, from: (&Store, [u32; 3]), to: (&Store, [u32; 3])) -> bool {
        let mut drains = Drains::default();
        drains.fresh(Shape { kind, width: 1, size: 1, crew: 2, payload_words: 1, delayed: true, quota: None });
        let shown = |(store, anchor)| Shown { anchor, restarts: &[0; 8], store, copying: false, commits: false, neighbours: Neighbours::default() };
        drains.after(Cause::Other, &shown(from));
        // How it came to that is not asked here.
        drains.found = Found::default();
        drains.after(cause, &shown(to));
        drains.is_wrong()
    }

    #[test]
    fn a_drain_puts_down_the_oldest() {
        let none = [0; 3];
        let mut down = store(&[ANCHOR]);
        down.put_down(WORD);
        let from = store(&[WORD, ANCHOR]);
        assert!(!wrong(1, Cause::Drain, (&from, none), (&down, none)));
        assert!(wrong(1, Cause::Drain, (&from, none), (&store(&[ANCHOR]), none)), "not put down");
        assert!(wrong(1, Cause::Drain, (&from, none), (&store(&[WORD]), [0, 1, 1])), "the youngest");
        assert!(wrong(1, Cause::Drain, (&from, none), (&from, none)));
        assert!(wrong(1, Cause::Drain, (&store(&[]), none), (&store(&[]), none)), "none waits");
        assert!(!wrong(1, Cause::Drain, (&store(&[ANCHOR]), none), (&store(&[]), [0, 1, 1])));
        assert!(wrong(1, Cause::Drain, (&store(&[ANCHOR]), none), (&store(&[]), [0, 1, 0])));
    }

    #[test]
    fn a_step_of_the_owner_joins_and_leaves_memory() {
        let none = [0; 3];
        let task = Task([1, 5, 0, 0, 0]);
        let step = |outcome| Cause::Step { worker: 0, outcome };
        let from = store(&[WORD]);
        let finished = step(Outcome::Finished(task));
        assert!(!wrong(1, finished, (&from, none), (&store(&[WORD, ANCHOR]), none)));
        assert!(wrong(1, finished, (&from, none), (&store(&[WORD]), [0, 1, 1])), "not delayed");
        assert!(wrong(1, finished, (&from, none), (&store(&[ANCHOR, WORD]), none)), "not at the end");
        assert!(wrong(1, finished, (&from, none), (&store(&[WORD, WORD]), none)));
        assert!(wrong(2, finished, (&from, none), (&store(&[WORD, ANCHOR]), none)));
        assert!(!wrong(2, finished, (&from, none), (&store(&[WORD, Waiting::Tail(1)]), none)));
        assert!(wrong(2, finished, (&from, none), (&store(&[WORD, Waiting::Head(1)]), none)));
        assert!(wrong(1, step(Outcome::Refused(18)), (&from, none), (&store(&[WORD, WORD]), none)));
        const NOTE: Waiting = Waiting::Note { published: 1 };
        for outcome in [Outcome::Published, Outcome::Committed] {
            assert!(!wrong(1, step(outcome), (&from, none), (&store(&[WORD, NOTE]), none)));
            assert!(wrong(1, step(outcome), (&from, none), (&store(&[WORD, ANCHOR]), none)));
            assert!(wrong(1, step(outcome), (&from, none), (&store(&[WORD]), none)), "no note");
        }
        let mut claimed = store(&[WORD]);
        claimed.claim(claimed.next_array().unwrap());
        assert!(!wrong(1, step(Outcome::GoesOn), (&from, none), (&claimed, none)), "X1");
        assert!(wrong(1, Cause::Other, (&from, none), (&claimed, none)));
        let second = Waiting::Word { array: 0, slot: 0, word: 1, value: 8 };
        assert!(!wrong(1, step(Outcome::GoesOn), (&from, none), (&store(&[WORD, WORD, second]), none)), "X3");
        assert!(wrong(1, step(Outcome::GoesOn), (&from, none), (&store(&[WORD, second, WORD]), none)));
        assert!(wrong(1, step(Outcome::GoesOn), (&from, none), (&store(&[WORD, WORD, second, WORD]), none)));
    }

    #[test]
    fn a_thief_changes_the_anchor_by_a_hand_out_alone() {
        let step = |outcome| Cause::Step { worker: 1, outcome };
        let from = store(&[WORD]);
        let handed_out = step(Outcome::HandedOut(Task([1, 5, 0, 0, 0])));
        assert!(!wrong(1, handed_out, (&from, [0, 1, 0]), (&from, [0, 0, 0])));
        assert!(wrong(1, step(Outcome::Restarted), (&from, [0, 1, 0]), (&from, [0, 0, 0])));
        assert!(wrong(1, handed_out, (&from, [0, 1, 0]), (&store(&[]), [0, 0, 0])));
        assert!(!wrong(2, handed_out, (&from, [0, 1, 0]), (&from, [1, 1, 0])));
        assert!(wrong(2, handed_out, (&from, [0, 1, 0]), (&from, [1, 2, 0])), "the tail is the owner's");
    }
}
