//! Figure 1: the LIFO queue. The anchor is (t, g); the owner and the thieves
//! work at the same end. With links (kind 4) g stays 0.

use crate::guard::Guard;
use crate::outcome::{refusal, Outcome, Place};
use crate::store::{Array, Growth, Store};
use crate::task::{Payload, Task};
use crate::waiting::Waiting;
use crate::witness::Witness;

/// The line the owner does next; of a line that writes or reads a task, the word
/// that is next.
#[derive(Clone, Copy, Debug, PartialEq, Eq)]
enum OwnerAt {
    Idle,
    PutReadAnchor,
    PutTestFull,
    PutWrite(usize),
    PutSetAnchor,
    X1Claim(Growth),
    X2Note(Growth),
    X3Copy(Growth),
    X4Publish(Growth),
    TakeReadAnchor,
    TakeTestEmpty,
    TakeRead(usize),
    TakeSetAnchor,
}

#[derive(Clone, Debug, PartialEq, Eq)]
struct Owner {
    at: OwnerAt,
    /// The task being put, or as much as has been read of the one being taken; of a
    /// commit zeros.
    task: Task,
    /// The anchor as line 1 read it. It is kept to the last line, whatever the
    /// thieves do to the anchor meanwhile.
    t: u32,
    g: u32,
    /// X3: the next slot to copy, and the first one not to.
    next: u32,
    stop: u32,
}

/// The line a thief does next, with the word that it reads next.
#[derive(Clone, Copy, Debug, PartialEq, Eq)]
enum ThiefAt {
    Idle,
    ReadAnchor,
    TestEmpty,
    NoteArray,
    Read(usize),
    Compare,
}

#[derive(Clone, Copy, Debug, PartialEq, Eq)]
struct Thief {
    at: ThiefAt,
    t: u32,
    g: u32,
    noted: Array,
    task: Task,
}

#[derive(Clone, Debug, PartialEq, Eq)]
pub struct Lifo {
    store: Store,
    t: u32,
    g: u32,
    guard: Guard,
    owner: Owner,
    /// By worker number; place 0 is the owner's and stays idle.
    thieves: [Thief; 8],
}

impl Lifo {
    pub fn new(guard: Guard, store: Store) -> Lifo {
        let thief = Thief {
            at: ThiefAt::Idle,
            t: 0,
            g: 0,
            noted: Array::default(),
            task: Task::default(),
        };
        Lifo {
            store,
            t: 0,
            g: 0,
            guard,
            owner: Owner {
                at: OwnerAt::Idle,
                task: Task::default(),
                t: 0,
                g: 0,
                next: 0,
                stop: 0,
            },
            thieves: [thief; 8],
        }
    }

    pub fn busy(&self, worker: usize) -> bool {
        self.place(worker) != Place::Idle
    }

    pub fn begin_put(&mut self, number: u32, payload: Payload) {
        self.owner.task = Task::new(number, payload, self.store.payload_words());
        self.owner.at = OwnerAt::PutReadAnchor;
    }

    pub fn begin_take(&mut self) {
        self.owner.at = OwnerAt::TakeReadAnchor;
    }

    pub fn begin_commit(&mut self) {
        self.owner.task = Task::default();
        self.owner.at = OwnerAt::X1Claim(Growth::ForCommit);
    }

    pub fn begin_steal(&mut self, worker: usize) {
        self.thieves[worker].at = ThiefAt::ReadAnchor;
    }

    /// One line of `worker`'s operation. `room` says whether the log can take
    /// one more entry.
    pub fn step<W: Witness>(&mut self, worker: usize, room: bool, witness: &mut W) -> Outcome {
        if worker == 0 {
            self.step_owner(room, witness)
        } else {
            self.step_thief(worker, room, witness)
        }
    }

    /// The anchor that the owner reads.
    fn owners_anchor(&self) -> (u32, u32) {
        match self.store.line().anchor() {
            Some([_, t, g]) => (t, g),
            None => (self.t, self.g),
        }
    }

    /// How many stores the owner's next line makes.
    fn stores(&self) -> usize {
        match self.owner.at {
            OwnerAt::PutWrite(_)
            | OwnerAt::PutSetAnchor
            | OwnerAt::X4Publish(_)
            | OwnerAt::TakeSetAnchor => 1,
            OwnerAt::X3Copy(_) => self.store.payload_words() as usize + 1,
            _ => 0,
        }
    }

    /// A store of the owner, which joins its waiting line or, without one, is put
    /// down at once.
    fn own(&mut self, store: Waiting) {
        if let Some(now) = self.store.line_mut().join(store) {
            self.put_down(now);
        }
    }

    fn put_down(&mut self, store: Waiting) {
        if let Waiting::Anchor([_, t, g]) = store {
            self.t = t;
            self.g = g;
            self.guard.anchor_written();
        } else {
            self.store.put_down(store);
        }
    }

    /// The oldest waiting store is put down; answers whether one waited.
    pub fn drain(&mut self) -> bool {
        let oldest = self.store.line_mut().oldest();
        if let Some(store) = oldest {
            self.put_down(store);
        }
        oldest.is_some()
    }

    fn step_owner<W: Witness>(&mut self, room: bool, witness: &mut W) -> Outcome {
        if !self.store.line().takes(self.stores()) {
            return Outcome::Refused(refusal::LINE_FULL);
        }
        let owner = &mut self.owner;
        match owner.at {
            OwnerAt::Idle => return Outcome::Refused(refusal::IDLE),

            OwnerAt::PutReadAnchor => {
                witness.put_line_one();
                (self.owner.t, self.owner.g) = self.owners_anchor();
                self.owner.at = OwnerAt::PutTestFull;
            }
            OwnerAt::PutTestFull => {
                owner.at = if owner.t == self.store.owners_size() {
                    OwnerAt::X1Claim(Growth::ForPut)
                } else {
                    OwnerAt::PutWrite(0)
                };
            }
            OwnerAt::PutWrite(word) => {
                let store = self.store.word_store(owner.t, word, owner.task.0[word]);
                owner.at = if self.store.more_words(word) {
                    OwnerAt::PutWrite(word + 1)
                } else {
                    OwnerAt::PutSetAnchor
                };
                self.own(store);
            }
            OwnerAt::PutSetAnchor => {
                if !room {
                    return Outcome::Refused(refusal::LOG_FULL);
                }
                let anchor = [0, owner.t + 1, self.guard.next_tag(owner.g)];
                let task = owner.task;
                owner.at = OwnerAt::Idle;
                self.own(Waiting::Anchor(anchor));
                return Outcome::Finished(task);
            }

            OwnerAt::X1Claim(why) => match self.store.next_array() {
                Some(array) => {
                    self.store.claim(array);
                    owner.at = OwnerAt::X2Note(why);
                }
                None => {
                    if !room {
                        return Outcome::Refused(refusal::LOG_FULL);
                    }
                    owner.at = OwnerAt::Idle;
                    return Outcome::Full(owner.task);
                }
            },
            OwnerAt::X2Note(why) => {
                // All slots of the old array, also those the thieves have
                // emptied: its size is at least 1, so there is one to copy.
                owner.next = 0;
                owner.stop = self.store.owners_size();
                owner.at = OwnerAt::X3Copy(why);
            }
            OwnerAt::X3Copy(why) => {
                let copies = self.store.copies_to_claimed(owner.next);
                owner.next += 1;
                if owner.next == owner.stop {
                    owner.at = OwnerAt::X4Publish(why);
                }
                for copy in copies {
                    self.own(copy);
                }
            }
            OwnerAt::X4Publish(Growth::ForPut) => {
                owner.at = OwnerAt::PutReadAnchor;
                self.own(self.store.note_of_claimed());
                return Outcome::Published;
            }
            OwnerAt::X4Publish(Growth::ForCommit) => {
                if !room {
                    return Outcome::Refused(refusal::LOG_FULL);
                }
                owner.at = OwnerAt::Idle;
                self.own(self.store.note_of_claimed());
                return Outcome::Committed;
            }

            OwnerAt::TakeReadAnchor => {
                witness.line_one(0);
                (self.owner.t, self.owner.g) = self.owners_anchor();
                self.owner.at = OwnerAt::TakeTestEmpty;
            }
            OwnerAt::TakeTestEmpty => {
                if owner.t == 0 {
                    if !room {
                        return Outcome::Refused(refusal::LOG_FULL);
                    }
                    owner.at = OwnerAt::Idle;
                    return Outcome::Empty;
                }
                owner.at = OwnerAt::TakeRead(0);
            }
            OwnerAt::TakeRead(word) => {
                owner.task.0[word] = self.store.owners_word(owner.t - 1, word);
                owner.at = if self.store.more_words(word) {
                    OwnerAt::TakeRead(word + 1)
                } else {
                    OwnerAt::TakeSetAnchor
                };
            }
            OwnerAt::TakeSetAnchor => {
                if !room {
                    return Outcome::Refused(refusal::LOG_FULL);
                }
                let anchor = [0, owner.t - 1, owner.g];
                let task = owner.task;
                owner.at = OwnerAt::Idle;
                self.own(Waiting::Anchor(anchor));
                return Outcome::HandedOut(task);
            }
        }
        Outcome::GoesOn
    }

    fn step_thief<W: Witness>(&mut self, worker: usize, room: bool, witness: &mut W) -> Outcome {
        let thief = &mut self.thieves[worker];
        match thief.at {
            ThiefAt::Idle => return Outcome::Refused(refusal::IDLE),
            ThiefAt::ReadAnchor => {
                witness.line_one(worker);
                self.guard.thief_reads(worker);
                thief.t = self.t;
                thief.g = self.g;
                thief.at = ThiefAt::TestEmpty;
            }
            ThiefAt::TestEmpty => {
                if thief.t == 0 {
                    if !room {
                        return Outcome::Refused(refusal::LOG_FULL);
                    }
                    self.guard.attempt_ends(worker);
                    thief.at = ThiefAt::Idle;
                    return Outcome::Empty;
                }
                thief.at = ThiefAt::NoteArray;
            }
            ThiefAt::NoteArray => {
                thief.noted = self.store.current();
                thief.at = ThiefAt::Read(0);
            }
            ThiefAt::Read(word) => {
                thief.task.0[word] = self.store.word(thief.noted, thief.t - 1, word);
                thief.at = if self.store.more_words(word) {
                    ThiefAt::Read(word + 1)
                } else {
                    ThiefAt::Compare
                };
            }
            ThiefAt::Compare => {
                let as_read = (self.t, self.g) == (thief.t, thief.g);
                if !self.guard.succeeds(worker, as_read) {
                    witness.compare(worker);
                    thief.at = ThiefAt::ReadAnchor;
                    return Outcome::Restarted;
                }
                if !room {
                    return Outcome::Refused(refusal::LOG_FULL);
                }
                witness.compare(worker);
                self.t = thief.t - 1;
                self.guard.anchor_written();
                thief.at = ThiefAt::Idle;
                return Outcome::HandedOut(thief.task);
            }
        }
        Outcome::GoesOn
    }

    /// `worker`'s link fails for no reason; answers whether there was one.
    pub fn drop_link(&mut self, worker: usize) -> bool {
        self.guard.drop_link(worker)
    }

    /// The tasks in slots 0 to t−1 of the current array, as the owner reads them.
    pub fn window(&self) -> impl Iterator<Item = Task> + '_ {
        (0..self.owners_anchor().0).map(|index| self.store.task(index))
    }

    /// What memory has, with 0 for the head, which this queue has not.
    pub fn anchor(&self) -> [u32; 3] {
        [0, self.t, self.g]
    }

    pub fn store(&self) -> &Store {
        &self.store
    }

    pub fn store_mut(&mut self) -> &mut Store {
        &mut self.store
    }

    /// Whether the next put, left alone, would have to expand.
    pub fn full(&self) -> bool {
        self.owners_anchor().0 == self.store.owners_size()
    }

    /// Whether the owner has claimed an array that it has not published.
    pub fn copying(&self) -> bool {
        matches!(self.owner.at, OwnerAt::X2Note(_) | OwnerAt::X3Copy(_) | OwnerAt::X4Publish(_))
    }

    /// Whether the owner is at X1 of a commit.
    pub fn commits(&self) -> bool {
        self.owner.at == OwnerAt::X1Claim(Growth::ForCommit)
    }

    pub fn place(&self, worker: usize) -> Place {
        if worker == 0 {
            return match self.owner.at {
                OwnerAt::Idle => Place::Idle,
                OwnerAt::PutSetAnchor | OwnerAt::TakeSetAnchor => Place::Last,
                OwnerAt::X1Claim(_) => Place::Expanding,
                _ if self.copying() => Place::Expanding,
                _ => Place::Underway,
            };
        }
        match self.thieves[worker].at {
            ThiefAt::Idle => Place::Idle,
            ThiefAt::Read(0) => Place::Noted,
            ThiefAt::Compare => Place::Last,
            _ => Place::Underway,
        }
    }
}

#[cfg(test)]
mod tests {
    use super::*;
    use crate::witness::Blind;

    fn lifo(width: u32, size: u32, words: usize) -> Lifo {
        Lifo::new(Guard::tag(width), Store::fresh(vec![0; words], size, 1))
    }

    fn linked(size: u32, words: usize) -> Lifo {
        Lifo::new(Guard::links(), Store::fresh(vec![0; words], size, 1))
    }

    fn task(number: u32, payload: u32) -> Task {
        Task::new(number, [payload, 0, 0, 0], 1)
    }

    fn begin_put(queue: &mut Lifo, number: u32, payload: u32) {
        queue.begin_put(number, [payload, 8, 8, 8]);
    }

    fn steps(queue: &mut Lifo, worker: usize, count: u32) -> Outcome {
        let mut last = Outcome::GoesOn;
        for made in 1..=count {
            last = queue.step(worker, true, &mut Blind);
            if made < count {
                assert_eq!(last, Outcome::GoesOn, "step {made} of {count}");
            }
        }
        last
    }

    fn put(queue: &mut Lifo, number: u32, payload: u32) {
        begin_put(queue, number, payload);
        assert_eq!(steps(queue, 0, 5), Outcome::Finished(task(number, payload)));
    }

    #[test]
    fn a_put_is_five_lines() {
        let mut queue = lifo(2, 2, 4);
        begin_put(&mut queue, 1, 50);
        steps(&mut queue, 0, 2);
        assert_eq!(queue.store.task(0), task(0, 0));
        steps(&mut queue, 0, 1);
        assert_eq!(queue.store.task(0), task(1, 0));
        steps(&mut queue, 0, 1);
        assert_eq!(queue.store.task(0), task(1, 50));
        assert_eq!((queue.t, queue.g), (0, 0));
        assert_eq!(steps(&mut queue, 0, 1), Outcome::Finished(task(1, 50)));
        assert_eq!((queue.t, queue.g), (1, 1));
    }

    #[test]
    fn each_word_has_a_step_of_its_own() {
        for payload_words in 1..=4u32 {
            let store = Store::fresh(vec![0; 20], 2, payload_words);
            let mut queue = Lifo::new(Guard::tag(2), store);
            let payload = [50, 51, 52, 53];
            let whole = Task::new(1, payload, payload_words);
            queue.begin_put(1, payload);
            steps(&mut queue, 0, 2);
            for word in 0..=payload_words as usize {
                assert_eq!(queue.store.words()[word], 0);
                steps(&mut queue, 0, 1);
                assert_eq!(queue.store.words()[..=word], whole.0[..=word]);
            }
            assert_eq!(steps(&mut queue, 0, 1), Outcome::Finished(whole));
            // Line 1, the test, the words, the last line; a thief notes besides.
            queue.begin_steal(1);
            assert_eq!(steps(&mut queue, 1, payload_words + 5), Outcome::HandedOut(whole));
            queue.begin_put(2, payload);
            steps(&mut queue, 0, payload_words + 4);
            queue.begin_take();
            let second = Task::new(2, payload, payload_words);
            assert_eq!(steps(&mut queue, 0, payload_words + 4), Outcome::HandedOut(second));
        }
    }

    #[test]
    fn a_thief_reads_words_of_two_puts() {
        let mut queue = Lifo::new(Guard::tag(1), Store::fresh(vec![0; 3], 1, 2));
        queue.begin_put(1, [10, 11, 0, 0]);
        steps(&mut queue, 0, 6);
        queue.begin_steal(1);
        steps(&mut queue, 1, 5); // up to the number and the first payload word
        for number in 2..=3 {
            queue.begin_take();
            steps(&mut queue, 0, 6);
            queue.begin_put(number, [10 * number, 10 * number + 1, 0, 0]);
            steps(&mut queue, 0, 6);
        }
        steps(&mut queue, 1, 1);
        // The tag has come round: the number and a word of put 1, a word of put 3.
        assert_eq!(steps(&mut queue, 1, 1), Outcome::HandedOut(Task([1, 10, 31, 0, 0])));
    }

    #[test]
    fn the_tag_rises_on_put_alone_and_comes_round_to_zero() {
        let mut queue = lifo(1, 4, 8);
        put(&mut queue, 1, 0);
        assert_eq!(queue.g, 1);
        queue.begin_take();
        assert_eq!(steps(&mut queue, 0, 5), Outcome::HandedOut(task(1, 0)));
        assert_eq!((queue.t, queue.g), (0, 1));
        put(&mut queue, 2, 0);
        assert_eq!((queue.t, queue.g), (1, 0));
    }

    #[test]
    fn the_owner_writes_back_from_what_it_read() {
        let mut queue = lifo(3, 4, 8);
        put(&mut queue, 1, 10);
        put(&mut queue, 2, 20);
        queue.begin_take();
        steps(&mut queue, 0, 4);
        for expected in [2, 1] {
            queue.begin_steal(1);
            let answer = steps(&mut queue, 1, 6);
            assert_eq!(answer, Outcome::HandedOut(task(expected, 10 * expected)));
        }
        assert_eq!(queue.t, 0);
        assert_eq!(steps(&mut queue, 0, 1), Outcome::HandedOut(task(2, 20)));
        assert_eq!(queue.t, 1, "t-1 of the pair read, not of the anchor");
    }

    #[test]
    fn a_thief_reads_the_array_it_noted() {
        let mut queue = lifo(4, 1, 6);
        put(&mut queue, 1, 10);
        queue.begin_steal(1);
        steps(&mut queue, 1, 3);
        assert_eq!(queue.place(1), Place::Noted);
        begin_put(&mut queue, 2, 20);
        assert_eq!(steps(&mut queue, 0, 6), Outcome::Published);
        // The old array is still there to be read, and the anchor did not move.
        assert_eq!(steps(&mut queue, 1, 3), Outcome::HandedOut(task(1, 10)));
        assert_eq!(steps(&mut queue, 0, 5), Outcome::Finished(task(2, 20)));
        assert_eq!(queue.window().collect::<Vec<_>>(), [task(2, 20)]);
    }

    #[test]
    fn expansion_copies_every_slot_of_the_old_array() {
        let mut queue = lifo(4, 2, 12);
        put(&mut queue, 1, 10);
        put(&mut queue, 2, 20);
        begin_put(&mut queue, 3, 30);
        steps(&mut queue, 0, 2);
        queue.begin_steal(1);
        steps(&mut queue, 1, 6);
        // X1, X2, two copies though only one task is left, X4.
        assert_eq!(steps(&mut queue, 0, 5), Outcome::Published);
        assert_eq!(queue.store.task(1), task(2, 20));
    }

    #[test]
    fn a_commit_copies_every_slot_and_leaves_the_anchor() {
        for mut queue in [lifo(4, 2, 12), linked(2, 12)] {
            put(&mut queue, 1, 10);
            queue.begin_steal(1);
            steps(&mut queue, 1, 5);
            let anchor = queue.anchor();
            assert!(queue.store.set_aside());
            queue.begin_commit();
            // X1, X2, two copies, X4; the other slot is empty.
            assert_eq!(steps(&mut queue, 0, 5), Outcome::Committed);
            assert_eq!((queue.anchor(), queue.store.aside()), (anchor, 0));
            assert_eq!(queue.store.words(), [1, 10, 0, 0, 1, 10, 0, 0, 0, 0, 0, 0]);
            assert_eq!(queue.window().collect::<Vec<_>>(), [task(1, 10)]);
            assert!(!queue.busy(0));
            // The thief read the old array, and its compare succeeds.
            assert_eq!(steps(&mut queue, 1, 1), Outcome::HandedOut(task(1, 10)));
        }
    }

    #[test]
    fn a_full_log_stops_only_lines_that_would_end() {
        let mut queue = lifo(1, 1, 2);
        begin_put(&mut queue, 1, 10);
        steps(&mut queue, 0, 4);
        assert_eq!(queue.step(0, false, &mut Blind), Outcome::Refused(11));
        assert_eq!((queue.t, queue.g), (0, 0));
        let finished = Outcome::Finished(task(1, 10));
        assert_eq!(queue.step(0, true, &mut Blind), finished);
        queue.begin_steal(1);
        steps(&mut queue, 1, 5);
        assert_eq!(queue.step(1, false, &mut Blind), Outcome::Refused(11));
        queue.begin_take();
        steps(&mut queue, 0, 5);
        // A failed compare does not end the steal.
        assert_eq!(queue.step(1, false, &mut Blind), Outcome::Restarted);
        steps(&mut queue, 1, 1);
        assert_eq!(queue.step(1, false, &mut Blind), Outcome::Refused(11));
        assert_eq!(queue.step(1, true, &mut Blind), Outcome::Empty);
    }

    #[test]
    fn a_linked_store_fails_though_the_anchor_is_as_it_was_read() {
        // The list of P1, where a tag of one bit comes round.
        let mut queue = linked(2, 4);
        put(&mut queue, 1, 65);
        queue.begin_steal(1);
        steps(&mut queue, 1, 5);
        for number in 2..=3 {
            queue.begin_take();
            steps(&mut queue, 0, 5);
            put(&mut queue, number, 64 + number);
            assert_eq!((queue.t, queue.g), (1, 0), "no tag");
        }
        assert_eq!(steps(&mut queue, 1, 1), Outcome::Restarted);
        assert_eq!(steps(&mut queue, 1, 6), Outcome::HandedOut(task(3, 67)));
    }

    #[test]
    fn a_take_that_writes_an_equal_value_breaks_the_link() {
        // With a tag the compare succeeds: the anchor is as it was.
        for (mut queue, last) in [
            (lifo(4, 2, 4), Outcome::HandedOut(task(1, 10))),
            (linked(2, 4), Outcome::Restarted),
        ] {
            put(&mut queue, 1, 10);
            put(&mut queue, 2, 20);
            queue.begin_take();
            steps(&mut queue, 0, 4);
            queue.begin_steal(1);
            assert_eq!(steps(&mut queue, 1, 6), Outcome::HandedOut(task(2, 20)));
            queue.begin_steal(2);
            steps(&mut queue, 2, 5);
            let anchor = queue.anchor();
            assert_eq!(steps(&mut queue, 0, 1), Outcome::HandedOut(task(2, 20)));
            assert_eq!(queue.anchor(), anchor);
            assert_eq!(steps(&mut queue, 2, 1), last);
        }
    }

    #[test]
    fn of_two_linked_thieves_the_second_store_fails() {
        let mut queue = linked(2, 4);
        put(&mut queue, 1, 10);
        put(&mut queue, 2, 20);
        for thief in 1..=2 {
            queue.begin_steal(thief);
            steps(&mut queue, thief, 5);
        }
        assert_eq!(steps(&mut queue, 2, 1), Outcome::HandedOut(task(2, 20)));
        assert_eq!(steps(&mut queue, 1, 1), Outcome::Restarted);
        assert_eq!(steps(&mut queue, 1, 6), Outcome::HandedOut(task(1, 10)));
    }

    #[test]
    fn a_link_outlives_growth_and_full() {
        let mut queue = linked(1, 6);
        put(&mut queue, 1, 10);
        queue.begin_steal(1);
        steps(&mut queue, 1, 3);
        begin_put(&mut queue, 2, 20);
        assert_eq!(steps(&mut queue, 0, 6), Outcome::Published);
        assert_eq!(steps(&mut queue, 1, 3), Outcome::HandedOut(task(1, 10)));

        let mut queue = linked(1, 2);
        put(&mut queue, 1, 10);
        queue.begin_steal(1);
        steps(&mut queue, 1, 5);
        begin_put(&mut queue, 2, 20);
        assert_eq!(steps(&mut queue, 0, 3), Outcome::Full(task(2, 20)));
        assert_eq!(queue.step(1, false, &mut Blind), Outcome::Refused(11));
        assert_eq!(steps(&mut queue, 1, 1), Outcome::HandedOut(task(1, 10)));
    }

    #[test]
    fn a_link_that_fails_at_any_line() {
        for line in 0..6 {
            let mut queue = linked(2, 4);
            put(&mut queue, 1, 10);
            assert!(!queue.drop_link(0) && !queue.drop_link(1));
            queue.begin_steal(1);
            steps(&mut queue, 1, line);
            assert_eq!(queue.drop_link(1), line > 0, "held from line 1 on");
            assert!(!queue.drop_link(1));
            let last = steps(&mut queue, 1, 6 - line);
            if line == 0 {
                assert_eq!(last, Outcome::HandedOut(task(1, 10)));
                continue;
            }
            assert_eq!(last, Outcome::Restarted);
            assert!(!queue.drop_link(1), "at line 1 again");
            assert_eq!(steps(&mut queue, 1, 6), Outcome::HandedOut(task(1, 10)));
            assert!(!queue.drop_link(1));
        }
        // EMPTY goes by what was read, with a link or without, and ends it.
        for dropped in [false, true] {
            let mut queue = linked(2, 4);
            queue.begin_steal(1);
            steps(&mut queue, 1, 1);
            assert!(!dropped || queue.drop_link(1));
            assert_eq!(queue.step(1, false, &mut Blind), Outcome::Refused(11));
            assert_eq!(steps(&mut queue, 1, 1), Outcome::Empty);
            assert!(!queue.drop_link(1));
        }
    }

    #[test]
    fn idle_is_refused() {
        let mut queue = lifo(1, 1, 2);
        assert_eq!(queue.step(0, true, &mut Blind), Outcome::Refused(8));
        assert_eq!(queue.step(3, true, &mut Blind), Outcome::Refused(8));
    }
}
