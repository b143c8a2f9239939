//! Memory as the documents speak of it, with stores put down one after the other.
//! It is written apart from the machines and knows nothing of how they read: with
//! all waiting stores put down it is what the owner reads.

use std::ops::Range;

use crate::store::{Array, Store};
use crate::task::Task;
use crate::waiting::Waiting;
use crate::witness::Shown;

#[derive(Clone, Debug, PartialEq, Eq)]
pub struct Memory {
    kind: u32,
    payload_words: u32,
    /// Those of the queue's own arrays; in the place of all others 0.
    pub words: Vec<u32>,
    /// Every array claimed, oldest first, and how many are published.
    pub arrays: Vec<Array>,
    pub published: usize,
    /// Head, count and tag; of FIFO head, tail and 0; of LIFO 0, t and g.
    pub anchor: [u32; 3],
}

impl Memory {
    /// What is in memory.
    pub fn of(kind: u32, shown: &Shown) -> Memory {
        let payload_words = shown.store.payload_words();
        let all = shown.store.words();
        let mut words = vec![0; all.len()];
        for array in shown.store.arrays() {
            let own = places(*array, payload_words);
            words[own.clone()].copy_from_slice(&all[own]);
        }
        Memory {
            kind,
            payload_words,
            words,
            arrays: shown.store.arrays().to_vec(),
            published: shown.store.published(),
            anchor: shown.anchor,
        }
    }

    /// What the owner reads.
    pub fn of_owner(kind: u32, shown: &Shown) -> Memory {
        let mut memory = Memory::of(kind, shown);
        for &store in waiting(shown.store) {
            memory.put(store);
        }
        memory
    }

    pub fn put(&mut self, store: Waiting) {
        match store {
            Waiting::Word { array, slot, word, value } => {
                let each = self.payload_words as usize + 1;
                self.words[self.arrays[array].offset as usize + slot as usize * each + word] = value;
            }
            Waiting::Note { published } => self.published = published,
            Waiting::Anchor(anchor) => self.anchor = anchor,
            Waiting::Head(head) => self.anchor[0] = head,
            Waiting::Tail(tail) => self.anchor[1] = tail,
        }
    }

    /// The size of the current array.
    pub fn size(&self) -> u32 {
        self.arrays[self.published - 1].size
    }

    /// How many tasks are in the window.
    pub fn count(&self) -> u32 {
        match self.kind {
            2 => self.anchor[1] - self.anchor[0],
            _ => self.anchor[1],
        }
    }

    /// The words that the current array has for an index.
    pub fn task(&self, index: u32) -> Task {
        let Array { offset, size } = self.arrays[self.published - 1];
        let each = self.payload_words + 1;
        let from = (offset + index % size * each) as usize;
        let mut task = Task::default();
        task.0[..each as usize].copy_from_slice(&self.words[from..from + each as usize]);
        task
    }

    /// The tasks in the window, with the words that are in it. LIFO has no head:
    /// its window starts at 0.
    pub fn window(&self) -> Vec<Task> {
        let first = self.anchor[0];
        (first..first + self.count()).map(|index| self.task(index)).collect()
    }
}

/// All that a bench shows, to be held against what it shows later.
#[derive(Clone, Debug, PartialEq, Eq)]
pub struct Kept {
    pub memory: Memory,
    pub line: Vec<Waiting>,
    pub aside: u32,
    pub restarts: [u32; 8],
    pub copying: bool,
    pub commits: bool,
}

impl Kept {
    pub fn of(kind: u32, shown: &Shown) -> Kept {
        Kept {
            memory: Memory::of(kind, shown),
            line: waiting(shown.store).copied().collect(),
            aside: shown.store.aside(),
            restarts: *shown.restarts,
            copying: shown.copying,
            commits: shown.commits,
        }
    }
}

/// Where the words of an array lie.
pub fn places(array: Array, payload_words: u32) -> Range<usize> {
    let from = array.offset as usize;
    from..from + (array.size * (payload_words + 1)) as usize
}

/// How many arrays are published for the owner, those whose notes wait among them.
pub fn owners_published(store: &Store) -> usize {
    waiting(store).fold(store.published(), |published, waiting| match waiting {
        Waiting::Note { published } => *published,
        _ => published,
    })
}

/// The waiting stores, oldest first.
pub fn waiting(store: &Store) -> impl Iterator<Item = &Waiting> {
    store.line().stores().iter()
}
