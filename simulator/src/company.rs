//! What queues on the same words owe each other (wish 11), checked from outside:
//! that a call leaves alone what is not its own queue's, and that a queue answers as
//! it would alone where the quotas add up.

use std::fmt;

use crate::alone::Alone;
use crate::apart::Apart;
use crate::bench::{Bench, Shape};
use crate::call_text::Call;
use crate::log::Log;

/// All that is lent, and all that stands on it.
pub struct View<'a> {
    pub words: &'a [u32],
    /// By their numbers.
    pub queues: &'a [Bench],
    pub logs: Vec<&'a Log>,
}

pub struct Company {
    apart: Apart,
    alone: Alone,
}

impl Company {
    /// On these words, with logs of so many words.
    pub fn new(words: &[u32], log: u32) -> Company {
        Company { apart: Apart::new(words), alone: Alone::new(words.len() as u32, log) }
    }

    pub fn is_wrong(&self) -> bool {
        self.apart.is_wrong() || self.alone.is_wrong()
    }

    /// All queues are gone.
    pub fn cleared(&mut self) {
        self.apart.cleared();
    }

    /// A fresh bench, or one more queue, was asked for and answered so.
    pub fn made(&mut self, shape: Shape, answer: Result<(), u32>, view: &View) {
        self.apart.made(shape, answer, view);
    }

    /// One more queue was made, beside the others.
    pub fn joins(&mut self, shape: Shape) {
        self.alone.made(shape);
    }

    /// A call of the queue of this number, be there one or not, was answered so.
    pub fn called(&mut self, number: usize, call: Call, said: &[u8], view: &View) {
        self.apart.called(number, view);
        self.alone.called(number, call, said, view);
    }
}

/// A line for each of them, of the second only if a queue had others.
impl fmt::Display for Company {
    fn fmt(&self, text: &mut fmt::Formatter<'_>) -> fmt::Result {
        let Company { apart, alone } = self;
        write!(text, "{apart}")?;
        match alone.is_asked() {
            true => write!(text, "\n{alone}"),
            false => Ok(()),
        }
    }
}
