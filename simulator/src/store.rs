//! The store as one queue has it: the lent words, its arrays in them, the words set
//! aside for one more, and the owner's waiting line.
//!
//! A new array lies at the next free word. A queue alone on the words has its arrays
//! end to end; others may have arrays between them.
//!
//! A task takes its put number's word and the payload's, and an array as many
//! times that as it holds tasks. What a thief reads is memory; what the owner
//! reads is its own youngest waiting store to a place, and memory if none waits.

use crate::task::Task;
use crate::waiting::{Line, Waiting};

/// No array holds more tasks than this.
pub const LARGEST: u32 = 1024;

/// No words behind these are used, however long the store.
pub const MOST_WORDS: u32 = 10_235;

/// What other queues have of the words: their arrays, and what their asks have set
/// aside. A queue alone has no others.
#[derive(Clone, Copy, Debug, Default, PartialEq, Eq)]
pub struct Others {
    pub claimed: u32,
    pub aside: u32,
}

impl Others {
    /// How many words of so many they leave.
    pub fn leave(self, words: u32) -> u32 {
        words.min(MOST_WORDS).saturating_sub(self.claimed + self.aside)
    }
}

/// An array as a thief notes it. Arrays are never given back, so a noted one
/// can be read however much later.
#[derive(Clone, Copy, Debug, Default, PartialEq, Eq)]
pub struct Array {
    /// The word it starts at.
    pub offset: u32,
    /// How many tasks it holds; always a power of two.
    pub size: u32,
}

/// Why the owner is at X1 to X4.
#[derive(Clone, Copy, Debug, PartialEq, Eq)]
pub enum Growth {
    /// A put found the array full, and goes on at its line 1.
    ForPut,
    /// A commit, which ends by X4.
    ForCommit,
}

#[derive(Clone, Debug, PartialEq, Eq)]
pub struct Store {
    words: Vec<u32>,
    payload_words: u32,
    /// The most words that the arrays may take.
    quota: u32,
    others: Others,
    /// Every array claimed so far, oldest first, and how many of them memory has
    /// as published.
    arrays: Vec<Array>,
    published: usize,
    /// The last of these, which nearly every line of a thief asks for.
    current: Array,
    /// The words that an ask has set aside; 0 for none. It is a number alone: the
    /// next array lies where it would lie without it.
    aside: u32,
    line: Line,
}

impl Store {
    /// Makes the first of the lent words, as many as `size` tasks take, the
    /// first array and zeroes them. The others stay as they are.
    pub fn fresh(words: Vec<u32>, size: u32, payload_words: u32) -> Store {
        let quota = words.len() as u32;
        Store::beside(Others::default(), words, quota, size, payload_words)
    }

    /// The same with the first words behind those that others have claimed.
    pub fn beside(others: Others, words: Vec<u32>, quota: u32, size: u32, payload_words: u32) -> Store {
        let first = Array { offset: others.claimed, size };
        let mut store = Store {
            words,
            payload_words,
            quota,
            others,
            arrays: vec![first],
            published: 1,
            current: first,
            aside: 0,
            line: Line::default(),
        };
        store.zero(first);
        store
    }

    pub fn payload_words(&self) -> u32 {
        self.payload_words
    }

    pub fn words(&self) -> &[u32] {
        &self.words
    }

    /// Lends the words for a call, with what others have of them then.
    pub fn lend(&mut self, words: Vec<u32>, others: Others) {
        self.words = words;
        self.others = others;
    }

    /// Takes the words back. What others have is not known from now on.
    pub fn take_back(&mut self) -> Vec<u32> {
        self.others = Others::default();
        std::mem::take(&mut self.words)
    }

    /// Every array claimed so far, oldest first.
    pub fn arrays(&self) -> &[Array] {
        &self.arrays
    }

    /// The same with delayed stores, or without.
    pub fn with_line(self, delayed: bool) -> Store {
        Store { line: Line::new(delayed), ..self }
    }

    pub fn line(&self) -> &Line {
        &self.line
    }

    pub fn line_mut(&mut self) -> &mut Line {
        &mut self.line
    }

    /// How many of the arrays memory has as published.
    pub fn published(&self) -> usize {
        self.published
    }

    /// The array that is current for the thieves.
    pub fn current(&self) -> Array {
        self.current
    }

    /// How many arrays are published for the owner: those whose notes wait too.
    fn owners_published(&self) -> usize {
        let noted = self.line.youngest(|store| match store {
            Waiting::Note { published } => Some(published),
            _ => None,
        });
        noted.unwrap_or(self.published)
    }

    /// The array that is current for the owner, and its place in the directory.
    fn owners_array(&self) -> (usize, Array) {
        let at = self.owners_published() - 1;
        (at, self.arrays[at])
    }

    /// The size of the array that is current for the owner.
    pub fn owners_size(&self) -> u32 {
        self.owners_array().1.size
    }

    /// How many words an array takes.
    pub fn length(&self, array: Array) -> u32 {
        array.size * (self.payload_words + 1)
    }

    fn zero(&mut self, array: Array) {
        let from = array.offset as usize;
        let to = from + self.length(array) as usize;
        self.words[from..to].fill(0);
    }

    /// The words of all arrays claimed so far.
    pub fn claimed(&self) -> u32 {
        self.arrays.iter().map(|&array| self.length(array)).sum()
    }

    /// The array X1 would claim, if X1 can claim one. It lies at the next free word.
    pub fn next_array(&self) -> Option<Array> {
        let claimed = self.claimed();
        let next = Array { offset: self.others.claimed + claimed, size: 2 * self.owners_size() };
        let left = self.others.leave(self.words.len() as u32).min(self.quota).saturating_sub(claimed);
        (next.size <= LARGEST && self.length(next) <= left).then_some(next)
    }

    /// X1: takes `array` for the owner and zeroes it. Neither waits. Words set
    /// aside are used by it, whether a commit claims or a put.
    pub fn claim(&mut self, array: Array) {
        self.zero(array);
        self.arrays.push(array);
        self.aside = 0;
    }

    /// The words that an ask has set aside; 0 for none.
    pub fn aside(&self) -> u32 {
        self.aside
    }

    /// An ask: as many words as the array that X1 would claim takes are set aside.
    /// Answers whether X1 would claim one.
    pub fn set_aside(&mut self) -> bool {
        let next = self.next_array();
        if let Some(array) = next {
            self.aside = self.length(array);
        }
        next.is_some()
    }

    /// With so many words set aside, be they an ask's or not.
    #[cfg(test)]
    pub fn have_aside(&mut self, words: u32) {
        self.aside = words;
    }

    /// The ask is dropped: its words are given back.
    pub fn give_back(&mut self) {
        self.aside = 0;
    }

    /// X3: the stores that carry the whole task at `index` into the claimed array.
    /// Both arrays hold an index at its remainder by their size.
    pub fn copies_to_claimed(&self, index: u32) -> Vec<Waiting> {
        let array = self.owners_published();
        let slot = slot(self.arrays[array], index);
        let store = |word| Waiting::Word { array, slot, word, value: self.owners_word(index, word) };
        (0..=self.payload_words as usize).map(store).collect()
    }

    /// X4: the store by which the claimed array becomes current.
    pub fn note_of_claimed(&self) -> Waiting {
        Waiting::Note { published: self.owners_published() + 1 }
    }

    /// The store of one word of the task at `index`. The owner only ever writes
    /// the array that is current for it.
    pub fn word_store(&self, index: u32, word: usize, value: u32) -> Waiting {
        let (array, current) = self.owners_array();
        Waiting::Word { array, slot: slot(current, index), word, value }
    }

    /// Where in memory a word lies that a waiting store names.
    pub fn address(&self, array: usize, slot: u32, word: usize) -> usize {
        let each = self.payload_words as usize + 1;
        self.arrays[array].offset as usize + slot as usize * each + word
    }

    /// Puts down a store of a word or of the note; an anchor is the queue's own.
    pub fn put_down(&mut self, store: Waiting) {
        match store {
            Waiting::Word { array, slot, word, value } => {
                let at = self.address(array, slot, word);
                self.words[at] = value;
            }
            Waiting::Note { published } => {
                self.published = published;
                self.current = self.arrays[published - 1];
            }
            Waiting::Anchor(_) | Waiting::Head(_) | Waiting::Tail(_) => {
                unreachable!("the store has no anchor")
            }
        }
    }

    /// Whether a task has a word after this one: word 0 is the put number, word
    /// k the k-th payload word.
    pub fn more_words(&self, word: usize) -> bool {
        word < self.payload_words as usize
    }

    /// One word of the task that memory has for `index` in `array`.
    pub fn word(&self, array: Array, index: u32, word: usize) -> u32 {
        self.words[self.place(array, index) + word]
    }

    /// One word of the task that the owner reads for `index`, in the array that is
    /// current for it.
    pub fn owners_word(&self, index: u32, word: usize) -> u32 {
        let (at, current) = self.owners_array();
        let there = (at, slot(current, index), word);
        let waiting = self.line.youngest(|store| match store {
            Waiting::Word { array, slot, word, value } if (array, slot, word) == there => Some(value),
            _ => None,
        });
        waiting.unwrap_or_else(|| self.word(current, index, word))
    }

    /// The whole task that the owner reads for `index`.
    pub fn task(&self, index: u32) -> Task {
        let mut task = Task::default();
        for word in 0..=self.payload_words as usize {
            task.0[word] = self.owners_word(index, word);
        }
        task
    }

    /// The word where the task of `index` starts in `array`.
    fn place(&self, array: Array, index: u32) -> usize {
        (array.offset + slot(array, index) * (self.payload_words + 1)) as usize
    }
}

/// A size is a power of two: the mask is the remainder by it.
fn slot(array: Array, index: u32) -> u32 {
    index & (array.size - 1)
}

#[cfg(test)]
mod tests {
    use super::*;

    /// So many words, none of them zero, the first ones lent to an array.
    fn store(length: usize, size: u32, payload_words: u32) -> Store {
        Store::fresh(vec![77; length], size, payload_words)
    }

    /// Room for so many tasks of any one width.
    fn room(tasks: u32, payload_words: u32) -> usize {
        (tasks * (payload_words + 1)) as usize
    }

    fn own(store: &mut Store, waiting: Waiting) {
        if let Some(now) = store.line.join(waiting) {
            store.put_down(now);
        }
    }

    fn set_word(store: &mut Store, index: u32, word: usize, value: u32) {
        own(store, store.word_store(index, word, value));
    }

    fn copy_to_claimed(store: &mut Store, index: u32) {
        for copy in store.copies_to_claimed(index) {
            own(store, copy);
        }
    }

    fn publish(store: &mut Store) {
        own(store, store.note_of_claimed());
    }

    #[test]
    fn fresh_zeroes_the_first_array_and_touches_no_other_word() {
        assert_eq!(store(6, 2, 1).words(), [0, 0, 0, 0, 77, 77]);
        assert_eq!(store(2, 1, 1).words(), [0, 0]);
        assert_eq!(store(7, 2, 2).words(), [0, 0, 0, 0, 0, 0, 77]);
        assert_eq!(store(5, 1, 3).words(), [0, 0, 0, 0, 77]);
        assert_eq!(store(6, 1, 4).words(), [0, 0, 0, 0, 0, 77]);
    }

    #[test]
    fn arrays_lie_end_to_end_each_twice_the_one_before() {
        for payload_words in 1..=4 {
            let each = payload_words + 1;
            let mut store = store(room(7, payload_words), 1, payload_words);
            let second = store.next_array().unwrap();
            assert_eq!(second, Array { offset: each, size: 2 });
            store.claim(second);
            assert_eq!(store.owners_size(), 1, "a claimed array is not yet current");
            assert_eq!((store.published(), store.arrays().len()), (1, 2));
            publish(&mut store);
            assert_eq!((store.published(), store.arrays().len()), (2, 2));
            let third = store.next_array().unwrap();
            assert_eq!(third, Array { offset: 3 * each, size: 4 });
            store.claim(third);
            publish(&mut store);
            assert_eq!(store.next_array(), None, "no words left");
            // Offset and length in words.
            let pairs: Vec<(u32, u32)> =
                store.arrays().iter().map(|&array| (array.offset, store.length(array))).collect();
            assert_eq!(pairs, [(0, each), (each, 2 * each), (3 * each, 4 * each)]);
        }
    }

    #[test]
    fn one_word_short_is_short() {
        for payload_words in 1..=4 {
            let room = room(3, payload_words);
            assert_eq!(store(room - 1, 1, payload_words).next_array(), None);
            assert!(store(room, 1, payload_words).next_array().is_some());
        }
    }

    #[test]
    fn no_array_above_the_largest() {
        // The words would suffice, the size would not.
        assert_eq!(store(20_000, 1024, 4).next_array(), None);
        assert!(store(20_000, 512, 4).next_array().is_some());
    }

    #[test]
    fn an_index_lies_at_its_remainder_in_either_array() {
        for payload_words in 1..=4 {
            let task = Task::new(9, [90, 91, 92, 93], payload_words);
            let mut store = store(room(6, payload_words), 2, payload_words);
            for (word, &value) in task.words(payload_words).iter().enumerate() {
                set_word(&mut store, 5, word, value);
            }
            assert_eq!(store.task(1), task);
            assert_eq!(store.task(0), Task::default());
            let next = store.next_array().unwrap();
            store.claim(next);
            copy_to_claimed(&mut store, 7);
            publish(&mut store);
            assert_eq!(store.task(3), task, "the whole task is copied");
            assert_eq!([0, 1, 2].map(|index| store.task(index)), [Task::default(); 3]);
        }
    }

    #[test]
    fn a_word_lies_at_its_place() {
        let mut store = store(12, 4, 2);
        for index in 0..4 {
            for word in 0..3 {
                set_word(&mut store, index, word, 10 * index + word as u32);
            }
        }
        assert_eq!(store.words(), [0, 1, 2, 10, 11, 12, 20, 21, 22, 30, 31, 32]);
        assert_eq!(store.word(store.current(), 2, 1), 21);
        assert_eq!([0, 1, 2].map(|word| store.more_words(word)), [true, true, false]);
    }

    #[test]
    fn a_claim_zeroes() {
        let mut store = store(10, 1, 2);
        let next = store.next_array().unwrap();
        store.claim(next);
        assert_eq!(store.words, [0, 0, 0, 0, 0, 0, 0, 0, 0, 77]);
    }

    #[test]
    fn an_ask_sets_aside_what_x1_would_claim() {
        for payload_words in 1..=4 {
            let each = payload_words + 1;
            // Room for arrays of 1, 2 and 4 tasks, or a word less.
            for (length, second) in [(room(7, payload_words), true), (room(7, payload_words) - 1, false)] {
                for delayed in [false, true] {
                    let mut store = store(length, 1, payload_words).with_line(delayed);
                    assert_eq!(store.aside(), 0);
                    let words = store.words().to_vec();
                    assert!(store.set_aside());
                    assert_eq!((store.aside(), store.arrays().len()), (2 * each, 1));
                    assert_eq!(store.words(), words, "a number alone");
                    let next = store.next_array().unwrap();
                    assert_eq!(next.offset, each, "the next free one");
                    store.claim(next);
                    assert_eq!(store.aside(), 0, "used");
                    publish(&mut store);
                    // With delayed stores the note waits, and the owner goes by it.
                    assert_eq!(store.published(), if delayed { 1 } else { 2 });
                    assert_eq!(store.set_aside(), second);
                    assert_eq!(store.aside(), if second { 4 * each } else { 0 });
                    store.give_back();
                    assert_eq!(store.aside(), 0);
                }
            }
        }
        assert!(!store(20_000, 1024, 1).set_aside());
        assert!(store(20_000, 512, 1).set_aside());
    }

    #[test]
    fn no_more_than_the_first_words_are_used() {
        for (payload_words, most) in [(1, 4094), (2, 6141), (3, 8188), (4, 10_235)] {
            let mut store = store(10_300, 1, payload_words);
            while let Some(next) = store.next_array() {
                store.claim(next);
                publish(&mut store);
            }
            let used = store.words().iter().take_while(|&&word| word == 0).count();
            assert_eq!((used, store.published()), (most, 11));
        }
    }
}
