//! A log lent to a bench, and the entries written to it.

use crate::task::Task;

/// What word 0 is at the start; each later word is one more than the word before.
const FROM: u32 = 4_000_000_000;

#[derive(Clone, Debug, PartialEq, Eq)]
pub struct Log {
    words: Vec<u32>,
    written: usize,
    payload_words: u32,
}

impl Log {
    /// Of so many words, for a bench of one payload word.
    pub fn lent(length: u32) -> Log {
        Log { words: (FROM..FROM + length).collect(), written: 0, payload_words: 1 }
    }

    /// Is lent to a fresh bench: its entries begin anew, on the words as they are.
    pub fn open(&mut self, payload_words: u32) {
        self.written = 0;
        self.payload_words = payload_words;
    }

    /// The words of an entry.
    fn entry(&self) -> usize {
        self.payload_words as usize + 3
    }

    /// How many more entries it can take.
    pub fn entries_left(&self) -> u32 {
        ((self.words.len() - self.written) / self.entry()) as u32
    }

    /// Writes an entry: kind, worker, put number and payload words.
    pub fn enter(&mut self, kind: u32, worker: u32, task: Task) {
        let end = self.written + self.entry();
        let entry = &mut self.words[self.written..end];
        entry[0] = kind;
        entry[1] = worker;
        entry[2..].copy_from_slice(task.words(self.payload_words));
        self.written = end;
    }

    /// The written front.
    pub fn front(&self) -> &[u32] {
        &self.words[..self.written]
    }
}
