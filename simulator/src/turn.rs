//! One call of a bench, played on the words lent to it, and what it answers.

use crate::bench::{Bench, Operation, Shape};
use crate::call_text::Call;
use crate::listing::{print, print_hand_out};
use crate::log::Log;
use crate::log_judge::{COMMITTED, EMPTY, FINISHED, FULL, HANDED_OUT};
use crate::outcome::Outcome;
use crate::settled::{Kept, Memory};
use crate::task::Task;
use crate::waiting::Waiting;
use crate::witness::{Asking, Cause, Shown, Witness};
use crate::yard::Neighbours;

/// What belongs to a bench beside it: how it was made, the log lent to it, and who
/// watches it.
pub struct Post<W> {
    pub shape: Shape,
    pub log: Log,
    pub witness: W,
}

impl<W: Witness> Post<W> {
    /// Where no bench was made yet.
    pub fn new(log: u32, witness: W) -> Post<W> {
        Post { shape: Shape::default(), log: Log::lent(log), witness }
    }

    /// A bench was made.
    pub fn open(&mut self, shape: Shape) {
        self.shape = shape;
        self.log.open(shape.payload_words);
        self.witness.fresh(shape);
    }
}

/// A call of a bench that has the words.
pub struct Turn<'a, W> {
    pub bench: &'a mut Bench,
    pub neighbours: Neighbours<'a>,
    pub post: &'a mut Post<W>,
}

impl<W: Witness> Turn<'_, W> {
    fn shown(&self) -> Shown<'_> {
        self.bench.shown_beside(self.neighbours)
    }

    /// Shows the witness what is shared.
    pub fn show(&mut self) {
        self.post.witness.shared(self.bench.anchor(), self.bench.restarts());
        self.tell(Cause::Other);
    }

    fn tell(&mut self, cause: Cause) {
        if self.post.witness.watches() {
            self.post.witness.after(cause, &self.bench.shown_beside(self.neighbours));
        }
    }

    /// Plays a call and puts its answer behind `said`; of steps, one.
    pub fn play(&mut self, call: Call, said: &mut Vec<u8>) {
        match call {
            Call::Drop { worker } => answer(self.drop_link(worker), said),
            Call::Drain => answer(self.drain(), said),
            Call::Ask { worker } => answer(self.ask(Asking::Ask, worker), said),
            Call::Unask { worker } => answer(self.ask(Asking::Drop, worker), said),
            Call::Begin { worker, operation } => match self.begin(worker, operation) {
                Ok(Some(number)) => say(said, b'N', &[number]),
                Ok(None) => say(said, b'A', &[]),
                Err(number) => say(said, b'R', &[number]),
            },
            Call::Step { worker, .. } => self.step(worker, said),
            Call::Who { worker } => match self.who(worker) {
                Ok(count) => say(said, b'W', &[worker, count]),
                Err(number) => say(said, b'R', &[number]),
            },
            Call::Front => say(said, b'L', self.post.log.front()),
            Call::State => say(said, b'S', &self.state()),
        }
    }

    fn begin(&mut self, worker: u32, operation: Operation) -> Result<Option<u32>, u32> {
        self.post.witness.call();
        let answer = self.bench.begin(worker, operation);
        if let (Ok(Some(number)), Operation::Put { payload }) = (answer, operation) {
            let task = Task::new(number, payload, self.post.shape.payload_words);
            self.post.witness.put_begun(task);
        }
        self.tell(Cause::Begin { worker, operation, answer: answer.map(|_| ()) });
        answer
    }

    /// An ask, or a drop of it.
    fn ask(&mut self, call: Asking, worker: u32) -> Result<(), u32> {
        self.post.witness.call();
        let before = self.post.witness.watches().then(|| Kept::of(self.post.shape.kind, &self.shown()));
        let answer = match call {
            Asking::Ask => self.bench.ask(worker),
            Asking::Drop => self.bench.drop_ask(worker),
        };
        if let Some(before) = before {
            let shown = self.bench.shown_beside(self.neighbours);
            self.post.witness.asked(call, worker, answer, &before, &shown);
        }
        answer
    }

    fn drop_link(&mut self, worker: u32) -> Result<(), u32> {
        self.post.witness.call();
        self.bench.drop_link(worker)?;
        self.post.witness.dropped(worker as usize);
        Ok(())
    }

    fn drain(&mut self) -> Result<(), u32> {
        self.post.witness.call();
        let oldest = self.bench.store().line().stores().first().copied();
        self.bench.drain()?;
        self.post.witness.shared(self.bench.anchor(), self.bench.restarts());
        self.tell(Cause::Drain);
        if let Some(store) = oldest {
            self.post.witness.drained(store);
        }
        self.show_window();
        Ok(())
    }

    fn who(&mut self, worker: u32) -> Result<u32, u32> {
        let count = self.bench.who(worker)?;
        self.post.witness.who(worker as usize, count);
        Ok(count)
    }

    fn step(&mut self, worker: u32, said: &mut Vec<u8>) {
        let room = self.post.log.entries_left() > 0;
        self.post.witness.call();
        let outcome = self.bench.step(worker, room, &mut self.post.witness);
        self.post.witness.shared(self.bench.anchor(), self.bench.restarts());
        self.tell(Cause::Step { worker, outcome });
        self.post.witness.answered(worker, outcome);
        self.show_window();
        let log = &mut self.post.log;
        match outcome {
            Outcome::GoesOn | Outcome::Restarted | Outcome::Published => say(said, b'G', &[]),
            Outcome::Finished(task) => {
                log.enter(FINISHED, worker, task);
                say(said, b'D', &[task.number()]);
            }
            Outcome::HandedOut(task) => {
                log.enter(HANDED_OUT, worker, task);
                print_hand_out(said, worker, task.words(self.post.shape.payload_words));
            }
            Outcome::Empty => {
                log.enter(EMPTY, worker, Task::default());
                say(said, b'E', &[worker]);
            }
            Outcome::Full(task) => {
                log.enter(FULL, worker, task);
                say(said, b'F', &[task.number()]);
            }
            Outcome::Committed => {
                log.enter(COMMITTED, worker, Task::default());
                say(said, b'C', &[]);
            }
            Outcome::Refused(number) => say(said, b'R', &[number]),
        }
    }

    /// What is shared: the anchor; how many arrays are published and how many
    /// claimed; each claimed one; put numbers used; words of the log written;
    /// each worker's restarts, all eight; with delayed stores how many wait, and
    /// each of them; the words set aside; and the store.
    fn state(&self) -> Vec<u32> {
        let store = self.bench.store();
        let mut values = self.bench.anchor().to_vec();
        values.extend([store.published() as u32, store.arrays().len() as u32]);
        for &array in store.arrays() {
            values.extend([array.offset, store.length(array)]);
        }
        values.extend([self.bench.numbers_used(), self.post.log.front().len() as u32]);
        values.extend(self.bench.restarts());
        if store.line().delayed() {
            values.push(store.line().stores().len() as u32);
            for &waiting in store.line().stores() {
                match waiting {
                    Waiting::Word { array, slot, word, value } => {
                        values.extend([1, store.address(array, slot, word) as u32, value]);
                    }
                    Waiting::Note { published } => values.extend([2, published as u32]),
                    Waiting::Anchor([head, count, tag]) => values.extend([3, head, count, tag]),
                    Waiting::Head(head) => values.extend([4, head]),
                    Waiting::Tail(tail) => values.extend([5, tail]),
                }
            }
        }
        values.push(store.aside());
        values.extend(store.words());
        values
    }

    /// Shows the witness the window, if it has moved: with delayed stores the one
    /// that is left when all waiting stores are put down.
    fn show_window(&mut self) {
        if !self.post.witness.wants_window() {
            return;
        }
        if self.bench.store().line().delayed() {
            let window = Memory::of_owner(self.post.shape.kind, &self.shown()).window();
            self.post.witness.window(&mut window.into_iter());
        } else {
            self.post.witness.window(&mut self.bench.window());
        }
    }
}

/// An answer: its letter and its values.
pub fn say(said: &mut Vec<u8>, letter: u8, values: &[u32]) {
    print(said, letter, values);
}

/// An answer that is an acceptance or a refusal.
pub fn answer(answer: Result<(), u32>, said: &mut Vec<u8>) {
    match answer {
        Ok(()) => say(said, b'A', &[]),
        Err(number) => say(said, b'R', &[number]),
    }
}
