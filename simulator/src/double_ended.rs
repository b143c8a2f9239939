//! Figure 3: the double-ended queue. The owner works at the tail's end, the
//! thieves at the head. The anchor (h, s, g) is read and written whole. With
//! links (kind 5) g stays 0.

use crate::guard::Guard;
use crate::outcome::{refusal, Outcome, Place};
use crate::store::{Array, Growth, Store};
use crate::task::{Payload, Task};
use crate::waiting::Waiting;
use crate::witness::Witness;

/// The head counts modulo this.
const HEADS: u32 = 2048;

#[derive(Clone, Copy, Debug, PartialEq, Eq, Default)]
struct Anchor {
    h: u32,
    s: u32,
    g: u32,
}

/// A worker's program counter: the operation's letter and the line's number, and
/// of a line that writes or reads a task the word that is next.
#[derive(Clone, Copy, Debug, PartialEq, Eq)]
enum Counter {
    Idle,
    P1,
    P2,
    P3(usize),
    P4,
    X1(Growth),
    X2(Growth),
    X3(Growth),
    X4(Growth),
    T1,
    T2,
    T3(usize),
    T4,
    S1,
    S2,
    S3,
    S4(usize),
    S5,
    S6,
}

#[derive(Clone, Copy, Debug, PartialEq, Eq)]
struct Worker {
    counter: Counter,
    /// The anchor as line 1 read it.
    read: Anchor,
    /// Of a commit zeros.
    task: Task,
    /// A thief's noted array.
    noted: Array,
    /// Line 5 of a steal.
    h2: u32,
}

#[derive(Clone, Debug, PartialEq, Eq)]
pub struct DoubleEnded {
    store: Store,
    anchor: Anchor,
    guard: Guard,
    workers: [Worker; 8],
    /// X2 to X3: the index to copy next and how many are left to copy.
    copy_index: u32,
    copies_left: u32,
}

impl DoubleEnded {
    pub fn new(guard: Guard, store: Store) -> DoubleEnded {
        let worker = Worker {
            counter: Counter::Idle,
            read: Anchor::default(),
            task: Task::default(),
            noted: Array::default(),
            h2: 0,
        };
        DoubleEnded {
            store,
            anchor: Anchor::default(),
            guard,
            workers: [worker; 8],
            copy_index: 0,
            copies_left: 0,
        }
    }

    pub fn busy(&self, worker: usize) -> bool {
        self.workers[worker].counter != Counter::Idle
    }

    pub fn begin_put(&mut self, number: u32, payload: Payload) {
        let owner = &mut self.workers[0];
        owner.task = Task::new(number, payload, self.store.payload_words());
        owner.counter = Counter::P1;
    }

    pub fn begin_take(&mut self) {
        self.workers[0].counter = Counter::T1;
    }

    pub fn begin_commit(&mut self) {
        self.workers[0].task = Task::default();
        self.workers[0].counter = Counter::X1(Growth::ForCommit);
    }

    pub fn begin_steal(&mut self, worker: usize) {
        self.workers[worker].counter = Counter::S1;
    }

    /// The anchor that the owner reads.
    fn owners_anchor(&self) -> Anchor {
        self.store.line().anchor().map_or(self.anchor, |[h, s, g]| Anchor { h, s, g })
    }

    /// How many stores the owner's next line makes.
    fn stores(&self) -> usize {
        match self.workers[0].counter {
            Counter::P3(_) | Counter::P4 | Counter::X4(_) | Counter::T4 => 1,
            Counter::X3(_) => self.store.payload_words() as usize + 1,
            _ => 0,
        }
    }

    /// Stores of the owner: they wait or, without the mode, do not.
    fn own(&mut self, stores: impl IntoIterator<Item = Waiting>) {
        for store in stores {
            if let Some(now) = self.store.line_mut().join(store) {
                self.put_down(now);
            }
        }
    }

    fn put_down(&mut self, store: Waiting) {
        match store {
            Waiting::Anchor([h, s, g]) => {
                self.anchor = Anchor { h, s, g };
                self.guard.anchor_written();
            }
            store => self.store.put_down(store),
        }
    }

    /// The oldest waiting store is put down; answers whether one waited.
    pub fn drain(&mut self) -> bool {
        let oldest = self.store.line_mut().oldest();
        oldest.map(|store| self.put_down(store)).is_some()
    }

    pub fn step<W: Witness>(&mut self, worker: usize, room: bool, witness: &mut W) -> Outcome {
        if worker == 0 && !self.store.line().takes(self.stores()) {
            return Outcome::Refused(refusal::LINE_FULL);
        }
        // What the owner's lines read and what the thieves' do.
        let seen = if worker == 0 { self.owners_anchor() } else { self.anchor };
        let DoubleEnded { store, anchor, guard, workers, copy_index, copies_left } = self;
        let me = &mut workers[worker];
        match me.counter {
            Counter::Idle => Outcome::Refused(refusal::IDLE),

            Counter::P1 => {
                witness.put_line_one();
                me.read = seen;
                go(me, Counter::P2)
            }
            Counter::P2 if me.read.s == store.owners_size() => go(me, Counter::X1(Growth::ForPut)),
            Counter::P2 => go(me, Counter::P3(0)),
            Counter::P3(word) => {
                let written = store.word_store(me.read.h + me.read.s, word, me.task.0[word]);
                me.counter = if store.more_words(word) { Counter::P3(word + 1) } else { Counter::P4 };
                self.own([written]);
                Outcome::GoesOn
            }
            Counter::P4 if room => {
                let Anchor { h, s, g } = me.read;
                let next = [h, s + 1, guard.next_tag(g)];
                let task = me.task;
                me.counter = Counter::Idle;
                self.own([Waiting::Anchor(next)]);
                Outcome::Finished(task)
            }
            Counter::P4 => Outcome::Refused(refusal::LOG_FULL),

            Counter::X1(why) => match store.next_array() {
                Some(array) => {
                    store.claim(array);
                    go(me, Counter::X2(why))
                }
                None if room => {
                    me.counter = Counter::Idle;
                    Outcome::Full(me.task)
                }
                None => Outcome::Refused(refusal::LOG_FULL),
            },
            Counter::X2(why) => {
                // The anchor as it is now: thieves may have emptied the queue
                // since line 1, and then there is nothing to copy.
                *copy_index = seen.h;
                *copies_left = seen.s;
                go(me, if seen.s == 0 { Counter::X4(why) } else { Counter::X3(why) })
            }
            Counter::X3(why) => {
                let copies = store.copies_to_claimed(*copy_index);
                *copy_index += 1;
                *copies_left -= 1;
                me.counter = if *copies_left == 0 { Counter::X4(why) } else { Counter::X3(why) };
                self.own(copies);
                Outcome::GoesOn
            }
            Counter::X4(Growth::ForCommit) if !room => Outcome::Refused(refusal::LOG_FULL),
            Counter::X4(why) => {
                let note = store.note_of_claimed();
                let (next, answer) = match why {
                    Growth::ForPut => (Counter::P1, Outcome::Published),
                    Growth::ForCommit => (Counter::Idle, Outcome::Committed),
                };
                me.counter = next;
                self.own([note]);
                answer
            }

            Counter::T1 => {
                witness.line_one(worker);
                me.read = seen;
                go(me, Counter::T2)
            }
            Counter::S1 => {
                witness.line_one(worker);
                guard.thief_reads(worker);
                me.read = seen;
                go(me, Counter::S2)
            }
            Counter::T2 | Counter::S2 if me.read.s == 0 => {
                if !room {
                    return Outcome::Refused(refusal::LOG_FULL);
                }
                guard.attempt_ends(worker);
                me.counter = Counter::Idle;
                Outcome::Empty
            }
            Counter::T2 => go(me, Counter::T3(0)),
            Counter::T3(word) => {
                me.task.0[word] = store.owners_word(me.read.h + me.read.s - 1, word);
                go(me, if store.more_words(word) { Counter::T3(word + 1) } else { Counter::T4 })
            }
            Counter::T4 if room => {
                // Head and count of the pair read: this can undo steals.
                let Anchor { h, s, g } = me.read;
                let task = me.task;
                me.counter = Counter::Idle;
                self.own([Waiting::Anchor([h, s - 1, g])]);
                Outcome::HandedOut(task)
            }
            Counter::T4 => Outcome::Refused(refusal::LOG_FULL),

            Counter::S2 => go(me, Counter::S3),
            Counter::S3 => {
                me.noted = store.current();
                go(me, Counter::S4(0))
            }
            Counter::S4(word) => {
                me.task.0[word] = store.word(me.noted, me.read.h, word);
                go(me, if store.more_words(word) { Counter::S4(word + 1) } else { Counter::S5 })
            }
            Counter::S5 => {
                me.h2 = (me.read.h + 1) % HEADS;
                go(me, Counter::S6)
            }
            Counter::S6 if !guard.succeeds(worker, *anchor == me.read) => {
                witness.compare(worker);
                me.counter = Counter::S1;
                Outcome::Restarted
            }
            Counter::S6 if room => {
                witness.compare(worker);
                *anchor = Anchor { h: me.h2, s: me.read.s - 1, g: me.read.g };
                guard.anchor_written();
                me.counter = Counter::Idle;
                Outcome::HandedOut(me.task)
            }
            Counter::S6 => Outcome::Refused(refusal::LOG_FULL),
        }
    }

    /// `worker`'s link fails for no reason; answers whether there was one.
    pub fn drop_link(&mut self, worker: usize) -> bool {
        self.guard.drop_link(worker)
    }

    /// The s tasks from h in the current array, as the owner reads them.
    pub fn window(&self) -> impl Iterator<Item = Task> + '_ {
        let Anchor { h, s, .. } = self.owners_anchor();
        (h..h + s).map(|index| self.store.task(index))
    }

    /// What memory has: head, count and tag.
    pub fn anchor(&self) -> [u32; 3] {
        [self.anchor.h, self.anchor.s, self.anchor.g]
    }

    pub fn store(&self) -> &Store {
        &self.store
    }

    pub fn store_mut(&mut self) -> &mut Store {
        &mut self.store
    }

    /// Whether the next put, left alone, would have to expand.
    pub fn full(&self) -> bool {
        self.owners_anchor().s == self.store.owners_size()
    }

    /// Whether the owner has claimed an array that it has not published.
    pub fn copying(&self) -> bool {
        matches!(self.workers[0].counter, Counter::X2(_) | Counter::X3(_) | Counter::X4(_))
    }

    /// Whether the owner is at X1 of a commit.
    pub fn commits(&self) -> bool {
        self.workers[0].counter == Counter::X1(Growth::ForCommit)
    }

    pub fn place(&self, worker: usize) -> Place {
        match self.workers[worker].counter {
            Counter::Idle => Place::Idle,
            Counter::S4(0) => Place::Noted,
            Counter::P4 | Counter::T4 | Counter::S6 => Place::Last,
            Counter::X1(_) | Counter::X2(_) | Counter::X3(_) | Counter::X4(_) => Place::Expanding,
            _ => Place::Underway,
        }
    }
}

fn go(worker: &mut Worker, counter: Counter) -> Outcome {
    worker.counter = counter;
    Outcome::GoesOn
}

#[cfg(test)]
mod tests {
    use super::*;
    use crate::witness::Blind;

    fn double_ended(width: u32, size: u32, words: usize) -> DoubleEnded {
        DoubleEnded::new(Guard::tag(width), Store::fresh(vec![0; words], size, 1))
    }

    fn linked(size: u32, words: usize) -> DoubleEnded {
        DoubleEnded::new(Guard::links(), Store::fresh(vec![0; words], size, 1))
    }

    fn task(number: u32, payload: u32) -> Task {
        Task::new(number, [payload, 0, 0, 0], 1)
    }

    fn begin_put(queue: &mut DoubleEnded, number: u32, payload: u32) {
        queue.begin_put(number, [payload, 8, 8, 8]);
    }

    fn steps(queue: &mut DoubleEnded, worker: usize, count: u32) -> Outcome {
        let mut last = Outcome::GoesOn;
        for made in 1..=count {
            last = queue.step(worker, true, &mut Blind);
            if made < count {
                assert_eq!(last, Outcome::GoesOn, "step {made} of {count}");
            }
        }
        last
    }

    fn put(queue: &mut DoubleEnded, number: u32, payload: u32) {
        begin_put(queue, number, payload);
        assert_eq!(steps(queue, 0, 5), Outcome::Finished(task(number, payload)));
    }

    #[test]
    fn each_word_has_a_step_of_its_own() {
        for payload_words in 1..=4u32 {
            let store = Store::fresh(vec![0; 20], 2, payload_words);
            let mut queue = DoubleEnded::new(Guard::tag(4), store);
            let payload = [50, 51, 52, 53];
            let whole = |number| Task::new(number, payload, payload_words);
            for number in 1..=2 {
                queue.begin_put(number, payload);
                steps(&mut queue, 0, 2);
                for word in 0..=payload_words as usize {
                    let at = (number - 1) as usize * (payload_words as usize + 1) + word;
                    assert_eq!(queue.store.words()[at], 0);
                    steps(&mut queue, 0, 1);
                    assert_eq!(queue.store.words()[at], whole(number).0[word]);
                }
                assert_eq!(steps(&mut queue, 0, 1), Outcome::Finished(whole(number)));
            }
            // Line 1, the test, the words, the last line; a thief notes and
            // works out h2 besides.
            queue.begin_steal(1);
            assert_eq!(steps(&mut queue, 1, payload_words + 6), Outcome::HandedOut(whole(1)));
            queue.begin_take();
            assert_eq!(steps(&mut queue, 0, payload_words + 4), Outcome::HandedOut(whole(2)));
        }
    }

    #[test]
    fn the_owner_takes_the_newest_a_thief_the_oldest() {
        let mut queue = double_ended(4, 4, 8);
        for number in 1..=3 {
            put(&mut queue, number, 10 * number);
        }
        queue.begin_take();
        assert_eq!(steps(&mut queue, 0, 5), Outcome::HandedOut(task(3, 30)));
        queue.begin_steal(1);
        assert_eq!(steps(&mut queue, 1, 7), Outcome::HandedOut(task(1, 10)));
        assert_eq!(queue.anchor, Anchor { h: 1, s: 1, g: 3 });
    }

    #[test]
    fn a_compare_looks_at_all_three() {
        // The head alone would be equal here: only the count differs.
        let mut queue = double_ended(4, 4, 8);
        put(&mut queue, 1, 10);
        put(&mut queue, 2, 20);
        queue.begin_steal(1);
        steps(&mut queue, 1, 6);
        queue.begin_take();
        steps(&mut queue, 0, 5);
        assert_eq!(steps(&mut queue, 1, 1), Outcome::Restarted);
        // Head and count equal, only the tag differs.
        steps(&mut queue, 1, 6);
        queue.begin_take();
        steps(&mut queue, 0, 5);
        put(&mut queue, 3, 30);
        assert_eq!(steps(&mut queue, 1, 1), Outcome::Restarted);
        assert_eq!(steps(&mut queue, 1, 7), Outcome::HandedOut(task(3, 30)));
    }

    #[test]
    fn the_head_comes_round_at_2048() {
        for (mut queue, g) in [(double_ended(16, 2, 4), 2), (linked(2, 4), 0)] {
            queue.anchor.h = 2047;
            put(&mut queue, 1, 10);
            put(&mut queue, 2, 20);
            for number in 1..=2 {
                queue.begin_steal(1);
                assert_eq!(steps(&mut queue, 1, 7), Outcome::HandedOut(task(number, 10 * number)));
            }
            assert_eq!(queue.anchor, Anchor { h: 1, s: 0, g });
        }
    }

    #[test]
    fn a_linked_store_fails_though_the_anchor_is_as_it_was_read() {
        let mut queue = linked(1, 2);
        put(&mut queue, 1, 10);
        queue.begin_steal(1);
        steps(&mut queue, 1, 6);
        queue.begin_take();
        steps(&mut queue, 0, 5);
        put(&mut queue, 2, 20);
        assert_eq!(queue.anchor, queue.workers[1].read);
        assert_eq!(steps(&mut queue, 1, 1), Outcome::Restarted);
        assert_eq!(steps(&mut queue, 1, 7), Outcome::HandedOut(task(2, 20)));
        assert_eq!(queue.anchor, Anchor { h: 1, s: 0, g: 0 });
    }

    #[test]
    fn a_link_that_fails_at_any_line() {
        for line in 0..7 {
            let mut queue = linked(2, 4);
            put(&mut queue, 1, 10);
            put(&mut queue, 2, 20);
            // The other thief's link stays.
            queue.begin_steal(2);
            steps(&mut queue, 2, 6);
            queue.begin_steal(1);
            steps(&mut queue, 1, line);
            assert!(!queue.drop_link(0));
            assert_eq!(queue.drop_link(1), line > 0, "held from line 1 on");
            assert!(!queue.drop_link(1));
            if line > 0 {
                assert_eq!(steps(&mut queue, 1, 7 - line), Outcome::Restarted);
                assert!(!queue.drop_link(1), "at line 1 again");
            }
            assert_eq!(steps(&mut queue, 2, 1), Outcome::HandedOut(task(1, 10)));
            assert!(!queue.drop_link(2));
            assert_eq!(steps(&mut queue, 1, 7), Outcome::HandedOut(task(2, 20)));
        }
    }

    #[test]
    fn a_link_outlives_growth() {
        let mut queue = linked(1, 6);
        put(&mut queue, 1, 10);
        queue.begin_steal(1);
        steps(&mut queue, 1, 3);
        begin_put(&mut queue, 2, 20);
        assert_eq!(steps(&mut queue, 0, 6), Outcome::Published);
        assert_eq!(steps(&mut queue, 1, 4), Outcome::HandedOut(task(1, 10)));
        assert_eq!(steps(&mut queue, 0, 5), Outcome::Finished(task(2, 20)));
        assert_eq!(queue.anchor, Anchor { h: 1, s: 1, g: 0 });
    }

    #[test]
    fn expansion_with_nothing_left_to_copy() {
        let mut queue = double_ended(4, 1, 6);
        put(&mut queue, 1, 10);
        begin_put(&mut queue, 2, 20);
        steps(&mut queue, 0, 2);
        queue.begin_steal(1);
        steps(&mut queue, 1, 7);
        assert_eq!(steps(&mut queue, 0, 3), Outcome::Published);
        assert_eq!(queue.store.owners_size(), 2, "twice the size, not twice the count");
        assert_eq!(steps(&mut queue, 0, 5), Outcome::Finished(task(2, 20)));
        assert_eq!(queue.window().collect::<Vec<_>>(), [task(2, 20)]);
    }

    #[test]
    fn a_commit_goes_by_the_anchor_at_x2_and_leaves_it() {
        for mut queue in [double_ended(4, 2, 12), linked(2, 12)] {
            queue.anchor.h = 3;
            put(&mut queue, 1, 10);
            put(&mut queue, 2, 20);
            queue.begin_steal(2);
            steps(&mut queue, 2, 6);
            assert!(queue.store.set_aside());
            queue.begin_commit();
            steps(&mut queue, 0, 3); // X1, X2, a copy
            let anchor = queue.anchor;
            // What is stolen now is copied all the same.
            assert_eq!(steps(&mut queue, 2, 1), Outcome::HandedOut(task(1, 10)));
            assert_eq!(steps(&mut queue, 0, 2), Outcome::Committed);
            assert_eq!(queue.anchor, Anchor { h: 4, s: 1, ..anchor });
            assert_eq!(queue.window().collect::<Vec<_>>(), [task(2, 20)]);
            // Indices 3 and 4 lie in slots 3 and 0 of the new array.
            assert_eq!([3, 0].map(|slot| queue.store.task(slot).number()), [1, 2]);
            assert!(queue.workers[0].counter == Counter::Idle);
        }
    }

    #[test]
    fn expansion_across_the_heads_end() {
        let mut queue = double_ended(4, 2, 12);
        queue.anchor.h = 2047;
        put(&mut queue, 1, 10);
        put(&mut queue, 2, 20);
        begin_put(&mut queue, 3, 30);
        // Lines 1 and 2, X1, X2, two copies, X4.
        assert_eq!(steps(&mut queue, 0, 7), Outcome::Published);
        assert_eq!(steps(&mut queue, 0, 5), Outcome::Finished(task(3, 30)));
        assert_eq!(queue.window().collect::<Vec<_>>(), [task(1, 10), task(2, 20), task(3, 30)]);
        // 2047 lies in slot 3 of the new array, 2048 and 2049 in slots 0 and 1.
        assert_eq!(queue.store.task(3).number(), 1);
    }

    #[test]
    fn a_put_writes_back_the_head_it_read() {
        let mut queue = double_ended(4, 4, 8);
        put(&mut queue, 1, 10);
        begin_put(&mut queue, 2, 20);
        steps(&mut queue, 0, 4);
        queue.begin_steal(1);
        steps(&mut queue, 1, 7);
        assert_eq!(queue.anchor, Anchor { h: 1, s: 0, g: 1 });
        assert_eq!(steps(&mut queue, 0, 1), Outcome::Finished(task(2, 20)));
        assert_eq!(queue.anchor, Anchor { h: 0, s: 2, g: 2 });
    }

    #[test]
    fn the_log_full_at_every_ending_line() {
        let mut queue = double_ended(1, 1, 2);
        queue.begin_take();
        steps(&mut queue, 0, 1);
        assert_eq!(queue.step(0, false, &mut Blind), Outcome::Refused(11));
        assert_eq!(queue.step(0, true, &mut Blind), Outcome::Empty);
        begin_put(&mut queue, 1, 10);
        steps(&mut queue, 0, 4);
        assert_eq!(queue.step(0, false, &mut Blind), Outcome::Refused(11));
        let finished = Outcome::Finished(task(1, 10));
        assert_eq!(queue.step(0, true, &mut Blind), finished);
        begin_put(&mut queue, 2, 20);
        steps(&mut queue, 0, 2);
        assert_eq!(queue.step(0, false, &mut Blind), Outcome::Refused(11));
        let full = Outcome::Full(task(2, 20));
        assert_eq!(queue.step(0, true, &mut Blind), full);
        queue.begin_steal(1);
        steps(&mut queue, 1, 6);
        assert_eq!(queue.step(1, false, &mut Blind), Outcome::Refused(11));
        assert_eq!(queue.anchor, Anchor { h: 0, s: 1, g: 1 });
        queue.begin_take();
        steps(&mut queue, 0, 4);
        assert_eq!(queue.step(0, false, &mut Blind), Outcome::Refused(11));
        steps(&mut queue, 0, 1);
        assert_eq!(queue.step(1, false, &mut Blind), Outcome::Restarted);
    }
}
