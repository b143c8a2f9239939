//! The lent memory with all that stands on it: a bench alone, or the queues of a
//! yard, each with its log.

use std::io::{self, Write};

use crate::bench::{Bench, Shape};
use crate::call_text::Call;
use crate::company::{Company, View};
use crate::log::Log;
use crate::outcome::refusal;
use crate::turn::{answer, say, Post, Turn};
use crate::witness::Witness;
use crate::yard::Yard;

/// What word 0 of the store is at the start; each later word is one more than the
/// word before it.
const STORE_FROM: u32 = 3_000_000_000;

/// Whom a call is for.
#[derive(Clone, Copy, Debug, PartialEq, Eq)]
pub enum Whose {
    /// The bench alone, if there is one.
    Bench,
    /// The queue of this number, if there is one.
    Queue(u32),
}

pub struct Lent<W> {
    yard: Yard,
    /// By the queues' numbers; the first stands from the start on.
    posts: Vec<Post<W>>,
    /// How many words each log has.
    log: u32,
    /// For a witness that watches.
    company: Option<Company>,
}

impl<W: Witness + Default> Lent<W> {
    pub fn new(store: u32, log: u32, witness: W) -> Lent<W> {
        let words: Vec<u32> = (STORE_FROM..STORE_FROM + store).collect();
        let company = witness.watches().then(|| Company::new(&words, log));
        Lent { yard: Yard::new(words), posts: vec![Post::new(log, witness)], log, company }
    }

    pub fn posts(&self) -> &[Post<W>] {
        &self.posts
    }

    pub fn into_witness(mut self) -> W {
        self.posts.swap_remove(0).witness
    }

    pub fn company(&self) -> Option<&Company> {
        self.company.as_ref()
    }

    pub fn queues(&self) -> &[Bench] {
        self.yard.queues()
    }

    /// The log of a queue, or of the bench alone.
    pub fn log(&self, number: usize) -> Option<&Log> {
        self.posts.get(number).map(|post| &post.log)
    }

    /// A bench alone. A refused one leaves none, not even the one before.
    pub fn fresh(&mut self, shape: Shape) -> Result<(), u32> {
        self.yard = Yard::new(std::mem::take(&mut self.yard).into_words());
        if let Some(company) = &mut self.company {
            company.cleared();
        }
        self.set_up(shape)
    }

    /// One more queue; a refused one changes nothing.
    pub fn make(&mut self, shape: Shape) -> Result<(), u32> {
        let answer = self.set_up(shape);
        if let (Some(company), Ok(())) = (&mut self.company, answer) {
            company.joins(shape);
        }
        answer
    }

    fn set_up(&mut self, shape: Shape) -> Result<(), u32> {
        let number = self.yard.queues().len();
        let answer = self.yard.make(shape);
        if answer.is_ok() {
            if self.posts.len() == number {
                self.posts.push(Post::new(self.log, W::default()));
            }
            self.posts[number].open(shape);
        }
        self.watch(|company, view| company.made(shape, answer, view));
        self.show(number);
        answer
    }

    /// Plays a call and writes its answers, each as soon as it is there.
    pub fn play(&mut self, whose: Whose, call: Call, out: &mut impl Write) -> io::Result<()> {
        let (call, count) = match call {
            Call::Step { worker, count } => (Call::Step { worker, count: 1 }, count),
            other => (other, 1),
        };
        let mut said = Vec::new();
        for _ in 0..count {
            said.clear();
            self.play_one(whose, call, &mut said);
            out.write_all(&said)?;
        }
        self.show(number(whose));
        Ok(())
    }

    /// The same of one call; of steps, one.
    pub fn play_one(&mut self, whose: Whose, call: Call, said: &mut Vec<u8>) {
        let number = number(whose);
        let posts = &mut self.posts;
        let played = self.yard.call(number, |bench, neighbours| {
            let post = &mut posts[number];
            Turn { bench, neighbours, post }.play(call, said);
        });
        if played.is_none() {
            match (whose, call) {
                // Without a bench there is no front, and this call never refuses.
                (Whose::Bench, Call::Front) => say(said, b'L', &[]),
                (Whose::Bench, _) => answer(Err(refusal::FOREIGN_STATE), said),
                (Whose::Queue(_), _) => answer(Err(refusal::NO_SUCH_QUEUE), said),
            }
        }
        self.watch(|company, view| company.called(number, call, said, view));
    }

    /// Shows a queue's witness what is shared.
    fn show(&mut self, number: usize) {
        let posts = &mut self.posts;
        self.yard.call(number, |bench, neighbours| {
            let post = &mut posts[number];
            Turn { bench, neighbours, post }.show();
        });
    }

    fn watch(&mut self, look: impl FnOnce(&mut Company, &View)) {
        if let Some(company) = &mut self.company {
            let logs = self.posts.iter().map(|post| &post.log).collect();
            look(company, &View { words: self.yard.words(), queues: self.yard.queues(), logs });
        }
    }
}

fn number(whose: Whose) -> usize {
    match whose {
        Whose::Bench => 0,
        Whose::Queue(number) => number as usize,
    }
}
