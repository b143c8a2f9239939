//! Asks, commits and drops of an ask (wish 9), held against the documents' words:
//!
//! - an ask and a drop are answered as they should be, from the history of the calls
//!   and from memory with all waiting stores put down, and so is a begin of a commit;
//! - an ask sets aside what an array of twice the size takes, a drop gives it back,
//!   and neither changes anything else;
//! - the words set aside stand until they are given back or X1 claims an array, of
//!   as many words, by a commit or by a put that must grow; they are gone then;
//! - a commit is X1 to X4 alone, ends by X4, and none of its steps moves a task of
//!   the window.

use std::fmt;

use crate::bench::{Operation, Shape};
use crate::found::Found;
use crate::outcome::{refusal, Outcome};
use crate::rooms;
use crate::settled::{Kept, Memory};
use crate::task::Task;
use crate::witness::{Asking, Cause, Shown, Witness};

/// A commit under way.
struct Commit {
    /// The owner's window, as the last call left it.
    window: Vec<Task>,
    left: Left,
}

/// The line that comes next; from X2 on, how many copies come before X4.
#[derive(Clone, Copy, PartialEq, Eq)]
enum Left {
    X1,
    X2,
    Copies(u32),
}

#[derive(Default)]
pub struct Asks {
    shape: Option<Shape>,
    /// As the last call left them: the words set aside, and how many arrays are
    /// claimed.
    aside: u32,
    arrays: usize,
    /// The owner has an operation open.
    busy: bool,
    commit: Option<Commit>,
    found: Found,
}

/// The calls that are answered by the words set aside.
#[derive(Clone, Copy, PartialEq, Eq)]
enum About {
    Ask,
    Drop,
    Commit,
}

impl Asks {
    pub fn is_wrong(&self) -> bool {
        self.found.is_wrong()
    }

    /// What the call is to be answered; `doubled` are the words that an array of
    /// twice the size takes, none where X1 would answer FULL.
    fn due(&self, shape: Shape, about: About, worker: u32, doubled: Option<u32>) -> Result<(), u32> {
        let stands = self.aside > 0;
        match about {
            _ if worker >= shape.crew => Err(refusal::NO_SUCH_WORKER),
            _ if worker > 0 => Err(refusal::WRONG_HAND),
            _ if self.busy => Err(refusal::BUSY),
            About::Ask if stands => Err(refusal::ASK_STANDS),
            About::Ask if doubled.is_none() => Err(refusal::NO_ROOM_TO_GROW),
            About::Drop | About::Commit if !stands => Err(refusal::NO_ASK),
            _ => Ok(()),
        }
    }

    /// What an accepted or refused step of the owner in a commit may do.
    fn commit_step(&mut self, kind: u32, outcome: Outcome, shown: &Shown) -> Result<(), &'static str> {
        let claims = shown.store.arrays().len() > self.arrays;
        let memory = Memory::of_owner(kind, shown);
        let Some(commit) = &mut self.commit else { return Ok(()) };
        if memory.window() != commit.window {
            return Err("a step of a commit moved the window");
        }
        let fine = match (outcome, commit.left) {
            // Log and waiting line have their own checks.
            (Outcome::Refused(refusal::LINE_FULL | refusal::LOG_FULL), _) => true,
            (Outcome::GoesOn, Left::X1) => {
                commit.left = Left::X2;
                claims
            }
            (Outcome::GoesOn, Left::X2) => {
                let slots = matches!(kind, 1 | 4);
                commit.left = Left::Copies(if slots { memory.size() } else { memory.count() });
                true
            }
            (Outcome::GoesOn, Left::Copies(left)) => {
                commit.left = Left::Copies(left.saturating_sub(1));
                left > 0
            }
            (Outcome::Committed, Left::Copies(0)) => {
                self.commit = None;
                memory.published == memory.arrays.len()
            }
            _ => false,
        };
        if fine {
            Ok(())
        } else {
            Err("a commit is X1 to X4 alone")
        }
    }

    fn step(&mut self, shape: Shape, outcome: Outcome, shown: &Shown) -> Result<(), &'static str> {
        let arrays = shown.store.arrays();
        let aside = shown.store.aside();
        if arrays.len() > self.arrays {
            let words = arrays.last().map_or(0, |&array| shown.store.length(array));
            if aside != 0 {
                return Err("an array is claimed and the ask stands");
            }
            if self.aside != 0 && self.aside != words {
                return Err("the array is not of the words set aside");
            }
            if self.aside == 0 && self.commit.is_some() {
                return Err("a commit claims without an ask");
            }
        } else if aside != self.aside {
            return Err("a step changed the words set aside");
        }
        let ends = match outcome {
            Outcome::Finished(_) | Outcome::HandedOut(_) | Outcome::Empty | Outcome::Full(_) | Outcome::Committed => true,
            Outcome::GoesOn | Outcome::Restarted | Outcome::Published | Outcome::Refused(_) => false,
        };
        self.busy &= !ends;
        if self.commit.is_some() {
            self.commit_step(shape.kind, outcome, shown)
        } else if outcome == Outcome::Committed {
            Err("a commit ended that was not begun")
        } else {
            Ok(())
        }
    }
}

impl fmt::Display for Asks {
    fn fmt(&self, text: &mut fmt::Formatter<'_>) -> fmt::Result {
        self.found.tell(text, "asks kept", "asks broken")
    }
}

impl Witness for Asks {
    fn fresh(&mut self, shape: Shape) {
        *self = Asks {
            shape: Some(shape),
            arrays: 1,
            found: std::mem::take(&mut self.found),
            ..Asks::default()
        };
    }

    fn call(&mut self) {
        self.found.call();
    }

    fn watches(&self) -> bool {
        true
    }

    fn asked(&mut self, call: Asking, worker: u32, answer: Result<(), u32>, before: &Kept, shown: &Shown) {
        let Some(shape) = self.shape else { return };
        // What the owner reads: memory with all waiting stores put down.
        let mut settled = before.memory.clone();
        for &store in &before.line {
            settled.put(store);
        }
        let doubled = rooms::doubled(shape, &settled.arrays, settled.size(), shown);
        let (about, aside) = match call {
            Asking::Ask => (About::Ask, doubled.unwrap_or(0)),
            Asking::Drop => (About::Drop, 0),
        };
        let due = self.due(shape, about, worker, doubled);
        let expected = Kept { aside: if due.is_ok() { aside } else { self.aside }, ..before.clone() };
        self.found.note(if answer != due {
            Err("an ask or a drop of it is answered wrong")
        } else if Kept::of(shape.kind, shown) != expected {
            Err("an ask or a drop of it changed something else")
        } else {
            Ok(())
        });
        self.aside = shown.store.aside();
    }

    fn after(&mut self, cause: Cause, shown: &Shown) {
        let Some(shape) = self.shape else { return };
        let found = match cause {
            Cause::Step { worker: 0, outcome } => self.step(shape, outcome, shown),
            _ if shown.store.aside() != self.aside => Err("the words set aside changed by themselves"),
            Cause::Begin { worker, operation: Operation::Commit, answer }
                if answer != self.due(shape, About::Commit, worker, None) =>
            {
                Err("a begin of a commit is answered wrong")
            }
            Cause::Begin { worker: 0, operation, answer: Ok(()) } => {
                self.busy = true;
                self.commit = (operation == Operation::Commit).then(|| Commit { window: Vec::new(), left: Left::X1 });
                Ok(())
            }
            _ => Ok(()),
        };
        self.found.note(found);
        self.aside = shown.store.aside();
        self.arrays = shown.store.arrays().len();
        if let Some(commit) = &mut self.commit {
            commit.window = Memory::of_owner(shape.kind, shown).window();
        }
    }
}

#[cfg(test)]
mod tests {
    use super::*;
    use crate::calls::Calls;
    use crate::store::Store;
    use crate::yard::Neighbours;

    fn kept(list: &str) -> bool {
        let mut calls = Calls::new(Asks::default());
        for line in list.split(", ") {
            assert!(calls.line(line.as_bytes(), &mut Vec::new()).unwrap(), "{line}");
        }
        !calls.witness().is_wrong()
    }

    #[test]
    fn lists_of_every_kind_width_and_mode() {
        for kind in 1..=5 {
            for words in 1..=4 {
                for delayed in [0, 1] {
                    let drains = "drain, ".repeat(8);
                    let commit = format!("begin 0 commit, ask 0, unask 0, {}", format!("step 0 2, {drains}").repeat(5));
                    let put = format!("begin 0 put 7 8 9 10, {}", format!("step 0 3, {drains}").repeat(8));
                    let list = format!(
                        "memory {} 400, fresh {kind} 1 1 3 {words} {delayed}, unask 0, begin 0 commit, ask 1, unask 3, \
                         begin 1 commit, begin 9 commit, ask 0, ask 0, {put}{put}{commit}ask 0, unask 0, ask 0, begin 1 steal, \
                         step 1 3, {commit}step 1 12, {put}ask 0, ask 4294967295, state",
                        15 * (words + 1)
                    );
                    assert!(kept(&list), "kind {kind}, {words} words");
                }
            }
        }
    }

    const SHAPE: Shape = Shape { kind: 2, width: 1, size: 1, crew: 2, payload_words: 1, delayed: false, quota: None };

    fn shown(store: &Store, tail: u32) -> Shown<'_> {
        Shown { anchor: [0, tail, 0], restarts: &[0; 8], store, copying: false, commits: false, neighbours: Neighbours::default() }
    }

    /// A store of six words with an array of one task and so many words set aside.
    fn store(aside: u32) -> Store {
        let mut store = Store::fresh(vec![0; 6], 1, 1);
        store.have_aside(aside);
        store
    }

    /// The same with the array of two tasks claimed, and published.
    fn claimed(aside: u32, published: bool) -> Store {
        let mut store = store(0);
        store.claim(store.next_array().unwrap());
        if published {
            store.put_down(store.note_of_claimed());
        }
        store.have_aside(aside);
        store
    }

    fn fresh(aside: u32) -> Asks {
        let mut asks = Asks::default();
        asks.fresh(SHAPE);
        asks.aside = aside;
        asks
    }

    fn ask_is_right(asks: &mut Asks, call: Asking, answer: Result<(), u32>, (from, to): (&Store, &Store), tail: u32) -> bool {
        asks.asked(call, 0, answer, &Kept::of(2, &shown(from, 0)), &shown(to, tail));
        !asks.is_wrong()
    }

    #[test]
    fn an_ask_sets_aside_and_a_drop_gives_back_and_nothing_else_changes() {
        let [none, four, claimed] = &[store(0), store(4), claimed(4, false)];
        let others = [2, 3, 5, 8].map(store);
        let ask = |asked, answer, stores, tail| ask_is_right(&mut fresh(asked), Asking::Ask, answer, stores, tail);
        assert!(ask(0, Ok(()), (none, four), 0));
        assert!(!ask(0, Ok(()), (none, none), 0), "none set aside");
        for other in &others {
            assert!(!ask(0, Ok(()), (none, other), 0), "other words");
        }
        assert!(!ask(0, Ok(()), (none, four), 1), "the queue is another");
        assert!(!ask(0, Ok(()), (none, claimed), 0));
        assert!(ask(4, Err(21), (four, four), 0));
        assert!(!ask(4, Ok(()), (four, four), 0));
        assert!(!ask(4, Err(20), (four, four), 0));
        assert!(!ask(0, Err(20), (none, none), 0));
        assert!(!ask(0, Err(21), (none, none), 0));
        let drop = |asked, answer, stores| ask_is_right(&mut fresh(asked), Asking::Drop, answer, stores, 0);
        assert!(drop(4, Ok(()), (four, none)));
        assert!(!drop(4, Ok(()), (four, four)));
        assert!(drop(0, Err(22), (none, none)));
        assert!(!drop(0, Ok(()), (none, none)));
        assert!(!drop(4, Err(22), (four, four)));
        assert!(!drop(4, Err(22), (four, none)), "refused, and given back");
    }

    #[test]
    fn six_nine_seven_come_before() {
        for about in [About::Ask, About::Drop, About::Commit] {
            for (asked, busy) in [(0, false), (0, true), (4, false), (4, true)] {
                let mut asks = fresh(asked);
                asks.busy = busy;
                for worker in [2, 3, u32::MAX] {
                    assert_eq!(asks.due(SHAPE, about, worker, Some(4)), Err(6));
                }
                assert_eq!(asks.due(SHAPE, about, 1, None), Err(9));
                if busy {
                    assert_eq!(asks.due(SHAPE, about, 0, None), Err(7));
                }
            }
        }
        assert_eq!(fresh(0).due(SHAPE, About::Ask, 0, None), Err(20));
        assert_eq!(fresh(4).due(SHAPE, About::Ask, 0, None), Err(21), "21 before 20");
        assert_eq!(fresh(0).due(SHAPE, About::Commit, 0, Some(4)), Err(22));
    }

    /// Whether an owner's step may lead from so many words set aside to this store.
    fn step_is_right(asked: u32, commit: Option<Left>, outcome: Outcome, to: &Store, tail: u32) -> bool {
        let mut asks = fresh(asked);
        // X1 has claimed where it is behind.
        asks.arrays = if matches!(commit, Some(Left::X2 | Left::Copies(_))) { 2 } else { 1 };
        asks.commit = commit.map(|left| Commit { window: Vec::new(), left });
        asks.after(Cause::Step { worker: 0, outcome }, &shown(to, tail));
        !asks.is_wrong()
    }

    #[test]
    fn a_claim_uses_the_words_and_nothing_else_does() {
        let goes_on = Outcome::GoesOn;
        for commit in [None, Some(Left::X1)] {
            assert!(step_is_right(4, commit, goes_on, &claimed(0, false), 0));
            assert!(!step_is_right(4, commit, goes_on, &claimed(4, false), 0), "the ask stands");
            assert!(!step_is_right(5, commit, goes_on, &claimed(0, false), 0), "of other words");
        }
        assert!(step_is_right(0, None, goes_on, &claimed(0, false), 0), "a put needs no ask");
        assert!(!step_is_right(0, Some(Left::X1), goes_on, &claimed(0, false), 0));
        assert!(step_is_right(4, None, goes_on, &store(4), 0));
        assert!(!step_is_right(4, None, goes_on, &store(0), 0));
        assert!(!step_is_right(0, None, goes_on, &store(4), 0));
        for cause in [Cause::Other, Cause::Drain, Cause::Step { worker: 1, outcome: goes_on }] {
            for (from, to) in [(4, 0), (0, 4)] {
                let mut asks = fresh(from);
                asks.after(cause, &shown(&store(to), 0));
                assert!(asks.is_wrong());
            }
        }
    }

    #[test]
    fn a_commit_is_x1_to_x4_and_moves_no_window() {
        let (unpublished, published) = (claimed(0, false), claimed(0, true));
        let goes_on = Outcome::GoesOn;
        assert!(!step_is_right(4, Some(Left::X1), goes_on, &store(4), 0), "X1 claims");
        assert!(step_is_right(4, Some(Left::X1), Outcome::Refused(11), &store(4), 0));
        assert!(step_is_right(0, Some(Left::X2), goes_on, &unpublished, 0));
        assert!(step_is_right(0, Some(Left::Copies(1)), goes_on, &unpublished, 0));
        assert!(!step_is_right(0, Some(Left::Copies(0)), goes_on, &unpublished, 0));
        assert!(step_is_right(0, Some(Left::Copies(0)), Outcome::Committed, &published, 0));
        assert!(!step_is_right(0, Some(Left::Copies(0)), Outcome::Committed, &published, 1), "a task more");
        assert!(!step_is_right(0, Some(Left::Copies(0)), Outcome::Committed, &unpublished, 0));
        assert!(!step_is_right(0, Some(Left::Copies(1)), Outcome::Committed, &published, 0));
        assert!(!step_is_right(0, Some(Left::X2), Outcome::Committed, &published, 0));
        assert!(!step_is_right(0, None, Outcome::Committed, &published, 0), "none was begun");
        let task = Task::default();
        for outcome in [Outcome::Full(task), Outcome::Finished(task), Outcome::HandedOut(task), Outcome::Empty, Outcome::Published] {
            for left in [Left::X1, Left::X2, Left::Copies(0)] {
                let to = if left == Left::X1 { store(4) } else { unpublished.clone() };
                assert!(!step_is_right(if left == Left::X1 { 4 } else { 0 }, Some(left), outcome, &to, 0), "{outcome:?}");
            }
        }
    }

    #[test]
    fn a_later_fresh_has_no_ask_and_what_is_wrong_stays() {
        assert!(kept("memory 6 8, fresh 1 1 1 1 1, ask 0, fresh 1 1 1 1 1, unask 0, ask 0, begin 0 commit, fresh 1 1 1 1 1, ask 0"));
        let mut asks = fresh(4);
        asks.after(Cause::Other, &shown(&store(0), 0));
        asks.fresh(SHAPE);
        assert!(asks.is_wrong());
    }
}
