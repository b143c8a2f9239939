//! Who watches a run. The machines tell a witness of the two lines demand 3
//! speaks of, whoever plays the calls tells it of everything a call answered and
//! of what is shared then. `Blind` hears nothing and costs nothing.

use crate::bench::{Operation, Shape};
use crate::outcome::Outcome;
use crate::settled::Kept;
use crate::store::Store;
use crate::task::Task;
use crate::waiting::Waiting;
use crate::yard::Neighbours;

/// What a bench shows: memory, and the owner's waiting line.
pub struct Shown<'a> {
    /// Head, count and tag; of FIFO head, tail and 0; of LIFO 0, t and g.
    pub anchor: [u32; 3],
    /// By worker number.
    pub restarts: &'a [u32; 8],
    /// The words, the arrays, the words set aside and the waiting line.
    pub store: &'a Store,
    /// The owner is at X2 to X4.
    pub copying: bool,
    /// The owner is at X1 of a commit.
    pub commits: bool,
    /// The other queues on the same words; none of a bench alone.
    pub neighbours: Neighbours<'a>,
}

/// Which call brought a bench to what it shows.
#[derive(Clone, Copy, Debug, PartialEq, Eq)]
pub enum Cause {
    Step { worker: u32, outcome: Outcome },
    /// An accepted drain.
    Drain,
    /// A begin, refused or not.
    Begin { worker: u32, operation: Operation, answer: Result<(), u32> },
    /// Any other, or a drain that was refused.
    Other,
}

/// The owner's calls about words set aside that are no operation.
#[derive(Clone, Copy, Debug, PartialEq, Eq)]
pub enum Asking {
    Ask,
    Drop,
}

pub trait Witness {
    /// A fresh bench was accepted, the first one or one in another's place.
    fn fresh(&mut self, _shape: Shape) {}
    /// A begin, a step, a drop of a link, a drain, an ask or a drop of an ask,
    /// refused or not, is about to be made.
    fn call(&mut self) {}
    fn put_begun(&mut self, _task: Task) {}
    /// An accepted step did line 1 of a take or a steal.
    fn line_one(&mut self, _worker: usize) {}
    /// An accepted step did line 1 of a put.
    fn put_line_one(&mut self) {}
    /// An accepted step did the compare of a steal, whichever way it went.
    fn compare(&mut self, _worker: usize) {}
    fn finished(&mut self, _number: u32) {}
    fn handed_out(&mut self, _worker: usize, _task: Task) {}
    fn empty(&mut self, _worker: usize) {}
    fn full(&mut self, _number: u32) {}
    /// A drop of a link was accepted.
    fn dropped(&mut self, _worker: usize) {}
    /// A drain was accepted, and put down this store.
    fn drained(&mut self, _store: Waiting) {}
    /// X4 of a put: the window is now seen in another array.
    fn published(&mut self) {}
    /// X4 of a commit: the same, and it has ended.
    fn committed(&mut self) {}
    /// What a step answered.
    fn answered(&mut self, worker: u32, outcome: Outcome) {
        match outcome {
            Outcome::GoesOn | Outcome::Restarted | Outcome::Refused(_) => {}
            Outcome::Published => self.published(),
            Outcome::Committed => self.committed(),
            Outcome::Finished(task) => self.finished(task.number()),
            Outcome::HandedOut(task) => self.handed_out(worker as usize, task),
            Outcome::Empty => self.empty(worker as usize),
            Outcome::Full(task) => self.full(task.number()),
        }
    }
    /// Whether the window has moved since it was last shown.
    fn wants_window(&self) -> bool {
        false
    }
    /// Each task in the window.
    fn window(&mut self, _tasks: &mut dyn Iterator<Item = Task>) {}
    /// A call was made, refused or not: the anchor, and the restarts by worker
    /// number, as it left them.
    fn shared(&mut self, _anchor: [u32; 3], _restarts: &[u32; 8]) {}
    /// Whether all that a bench shows is looked at.
    fn watches(&self) -> bool {
        false
    }
    /// The same whole, for one who watches. A step's answer is told after it.
    fn after(&mut self, _cause: Cause, _shown: &Shown) {}
    /// An ask or a drop of an ask was answered so, for one who watches: with what
    /// the bench showed before it.
    fn asked(&mut self, _call: Asking, _worker: u32, _answer: Result<(), u32>, _before: &Kept, _shown: &Shown) {}
    /// `who` answered a worker's count.
    fn who(&mut self, _worker: usize, _count: u32) {}
    /// `T` shows this sum of the restarts.
    fn total(&mut self, _restarts: u64) {}
}

#[derive(Default)]
pub struct Blind;

impl Witness for Blind {}
